"""adapter.sh: signals, what it leaves behind, and where it is called from."""
from __future__ import annotations

import os
import signal
import subprocess
import time
import unittest
from pathlib import Path
from typing import List

from clone import Clone, is_alive, new_clone, wait_for

# A program that works for a minute, together with a process of its own. `ignore`: it doesn't end at a signal.
SLOW = """#!/bin/sh
{ignore}
sleep 60 &
echo "$$ $!" > {note}
wait
sleep 60
"""
# A program that opens the streams of a line, as `run --line FRAMES --replies REPLIES`.
OPENS = '#!/bin/sh\nexec 3> "$3" 4< "$5"\n'
FIXTURES = "bindings/examples/five_fixtures.json"


class Adapter(unittest.TestCase):
    def setUp(self) -> None:
        context = new_clone()
        self.clone: Clone = context.__enter__()
        self.addCleanup(context.__exit__, None, None, None)
        self.temporary = self.clone.folder / "tmp"
        self.temporary.mkdir()
        self.note = self.clone.folder / "note"
        self.line = f"rig:{self.clone.root / FIXTURES}"
        self.environment = {**self.clone.environment, "TMPDIR": str(self.temporary),
                            "WURSTLINEN": str(self.clone.folder / "program")}

    def put_program(self, text: str) -> None:
        program = self.clone.folder / "program"
        program.write_text(text)
        program.chmod(0o755)

    def processes(self) -> List[int]:
        """All processes whose environment has this test's folder for temporary files."""
        wanted = f"TMPDIR={self.temporary}".encode()
        found = []
        for path in Path("/proc").glob("[0-9]*/environ"):
            try:
                if wanted in path.read_bytes().split(b"\0"):
                    found.append(int(path.parent.name))
            except OSError:
                pass
        return [process for process in found if is_alive(process)]

    def end_by(self, number: int, to_all: bool) -> "tuple[int, float, str]":
        """Sends a signal to the script, or to its process group, while the program works."""
        self.note.unlink(missing_ok=True)
        with self.clone.start("bindings/examples/adapter.sh", self.line, "run", "x", env=self.environment) as script:
            wait_for(lambda: self.note.exists() and self.note.read_text())
            began = time.monotonic()
            os.killpg(script.pid, number) if to_all else script.send_signal(number)
            errors = script.communicate()[1]
        return script.returncode, time.monotonic() - began, errors

    def test_signals_end_it_at_once(self) -> None:
        self.put_program(SLOW.format(note=self.note, ignore=""))
        for number, status in ((signal.SIGTERM, 143), (signal.SIGINT, 130), (signal.SIGHUP, 129)):
            for to_all in (False, True):
                ended, seconds, errors = self.end_by(number, to_all)
                self.assertLess(seconds, 10)
                self.assertEqual((ended, errors), (status, ""))
                self.assertEqual(self.processes(), [])
                self.assertEqual(list(self.temporary.iterdir()), [])

    def test_a_program_that_does_not_end(self) -> None:
        self.put_program(SLOW.format(note=self.note, ignore="trap '' TERM INT HUP"))
        ended, seconds, _ = self.end_by(signal.SIGTERM, False)
        self.assertEqual(ended, 143)
        self.assertLess(seconds, 20)
        self.assertEqual(self.processes(), [])

    def test_statuses_and_standard_input(self) -> None:
        for text, status, out in (("exit 7", 7, ""), ("cat", 0, "typed\n"), ("exit 0", 0, "")):
            self.put_program(f"{OPENS}{text}\n")
            done = subprocess.run(["bindings/examples/adapter.sh", self.line, "run"], input="typed\n", text=True,
                                  cwd=self.clone.root, env=self.environment, capture_output=True, check=False)
            self.assertEqual((done.returncode, done.stdout, done.stderr), (status, out, ""))
        self.assertEqual(list(self.temporary.iterdir()), [])

    def test_a_program_that_is_not_there(self) -> None:
        done = self.clone.run("bindings/examples/adapter.sh", self.line, "run", env=self.environment)
        wanted = f"adapter.sh: there is no program {self.environment['WURSTLINEN']}: name it by WURSTLINEN\n"
        self.assertEqual((done.returncode, done.stderr), (127, wanted))

    def test_the_callers_folder_has_no_modules(self) -> None:
        self.put_program(f"{OPENS}exit 0\n")
        (self.clone.folder / "queue.py").write_text("raise SystemExit('another queue')\n")
        done = subprocess.run(["clone/bindings/examples/adapter.sh", self.line, "run"], input="", text=True,
                              cwd=self.clone.folder, env=self.environment, capture_output=True, check=False)
        self.assertEqual((done.returncode, done.stderr), (0, ""))

    def test_a_full_disk(self) -> None:
        """Without the FIFOs nothing is started."""
        self.put_program(f"#!/bin/sh\necho started > {self.note}\n")
        (self.clone.bin / "mkfifo").write_text("#!/bin/sh\nexit 1\n")
        (self.clone.bin / "mkfifo").chmod(0o755)
        done = self.clone.run("bindings/examples/adapter.sh", self.line, "run", env=self.environment)
        self.assertEqual((done.returncode, done.stdout, done.stderr), (1, "", ""))
        self.assertFalse(self.note.exists())
        self.assertEqual(list(self.temporary.iterdir()), [])

    def test_cdpath(self) -> None:
        for name in ("examples", "python"):
            (self.clone.folder / "other/bindings" / name).mkdir(parents=True)
        self.put_program(OPENS)
        environment = {**self.environment, "CDPATH": f"{self.clone.folder}/other"}
        done = self.clone.run("bindings/examples/adapter.sh", self.line, "run", env=environment)
        self.assertEqual((done.returncode, done.stdout, done.stderr), (0, "", ""))


if __name__ == "__main__":
    unittest.main()
