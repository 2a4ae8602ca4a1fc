"""The command wurstlinen on standard streams that are closed, or that have other characters than the locale."""
from __future__ import annotations

import os
import subprocess
import sys
import tempfile
import unittest
from pathlib import Path

ROOT = Path(__file__).resolve().parent.parent.parent
FIXTURES = ROOT / "bindings/examples/five_fixtures.json"
TOOL = "wurstlinen.tool"
# It uses its own streams first. The reply to its frame is silence; another reply is to what isn't a frame.
PROGRAM = """#!/bin/sh
exec 8> "$3" 9< "$5"
echo out
echo error >&2
echo cc0118ffffffffffff7ff0000000010001000000100003000863 >&8
read -r reply <&9
echo "silence$reply" > "$NOTE"
"""


class Streams(unittest.TestCase):
    def setUp(self) -> None:
        place = tempfile.TemporaryDirectory(prefix="scripts.")
        self.addCleanup(place.cleanup)
        self.folder = Path(place.name).resolve()
        self.note = self.folder / "note"
        (self.folder / "program").write_text(PROGRAM)
        (self.folder / "program").chmod(0o755)
        self.environment = {
            "PATH": os.environ["PATH"], "PYTHONPATH": str(ROOT / "bindings/python"), "PYTHONDONTWRITEBYTECODE": "1",
            "WURSTLINEN_PROGRAM": str(self.folder / "program"), "NOTE": str(self.note)}

    def call(self, closed: str, module: str, *words: str, text: bytes = b"",
             **more: str) -> "subprocess.CompletedProcess[bytes]":
        """Runs a command with these streams closed."""
        return subprocess.run(["sh", "-c", f'exec "$@" {closed}', "sh", sys.executable, "-m", module, *words],
                              input=text, env={**self.environment, **more}, capture_output=True, check=False,
                              timeout=60)

    def test_output_that_is_closed(self) -> None:
        for words in (["pids"], ["pids", "--json"], ["--version"], ["rig", str(FIXTURES)]):
            done = self.call(">&-", TOOL, *words)
            self.assertEqual((done.returncode, done.stderr), (1, b"wurstlinen: Bad file descriptor\n"), words)

    def test_errors_have_no_other_stream(self) -> None:
        done = self.call("2>&-", TOOL, "pids", "x y")
        self.assertEqual((done.returncode, done.stdout), (2, b""))

    def test_no_stream_of_a_line_is_taken_for_a_closed_one(self) -> None:
        for closed in ("", "<&-", ">&-", "2>&-", "<&- >&-", "<&- >&- 2>&-"):
            for words in (["run", "x"], ["discover"]):
                done = self.call(closed, TOOL, *words, "--line", f"rig:{FIXTURES}")
                # What a discovery prints for people mustn't be lost without a word.
                status = int(words == ["discover"] and " >&-" in f" {closed}")
                self.assertEqual((done.returncode, b"Traceback" in done.stderr), (status, False), done.stderr)
                self.assertEqual(self.note.read_text(), "silence\n", closed)
                self.note.unlink()

    def test_a_bridge_without_streams(self) -> None:
        for module in (TOOL, "wurstlinen"):
            for closed in ("<&-", ">&-", "<&- >&-"):
                done = self.call(closed, module, "bridge", "--line", f"rig:{FIXTURES}")
                self.assertEqual((done.returncode, done.stdout, done.stderr), (0, b"", b""), closed)

    def test_characters_that_the_locale_does_not_have(self) -> None:
        strict = {"PYTHONIOENCODING": "utf-8:strict"}
        done = self.call("", TOOL, "trace", "-", text=b"\xff\n", **strict)
        self.assertEqual((done.returncode, done.stderr), (2, b"wurstlinen: -: line 1 isn't an entry of a log\n"))
        done = self.call("", TOOL, "doctor", WURSTLINEN_LIBRARY="/nowhere/\udcff", **strict)
        self.assertEqual((done.returncode, done.stderr), (0, b""))
        self.assertIn(rb"/nowhere/\udcff", done.stdout)


if __name__ == "__main__":
    unittest.main()
