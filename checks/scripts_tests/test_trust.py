"""./trust, as its readers call it."""
from __future__ import annotations

import subprocess
import unittest

from clone import ROOT


class Trust(unittest.TestCase):
    def run_bash(self, script: str) -> "subprocess.CompletedProcess[str]":
        return subprocess.run(["bash", "-c", script], cwd=ROOT, capture_output=True, text=True, check=False)

    def test_a_reader_that_goes_away(self) -> None:
        done = self.run_bash("./trust --all | head -n 1; echo ${PIPESTATUS[0]}")
        # 141: ended by SIGPIPE, as other programs are.
        self.assertEqual((done.stdout.splitlines()[1:], done.stderr), (["141"], ""))

    def test_a_promise_that_is_not_there(self) -> None:
        done = self.run_bash("./trust 99")
        self.assertEqual((done.returncode, done.stdout), (2, ""))
        self.assertEqual(done.stderr, "trust: there is no promise '99'; ./trust lists them\n")

    def test_subjects_of_the_standard(self) -> None:
        lines = self.run_bash("./trust --standard").stdout.splitlines()
        begin = lines.index(next(line for line in lines if line.startswith("discovery mute message: cited ")))
        end = lines.index(next(line for line in lines if line.startswith("discovery un-mute message: cited ")))
        # This citation is broken between two lines of its comment.
        self.assertIn("  crates/rdm_wire/src/muted.rt: 12", lines[begin:end])


if __name__ == "__main__":
    unittest.main()
