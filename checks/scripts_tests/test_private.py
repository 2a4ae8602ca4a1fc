"""The tests in a folder that other users can't enter, such as one in root's home."""
from __future__ import annotations

import os
import shutil
import subprocess
import sys
import tempfile
import unittest
from pathlib import Path

from clone import ROOT

NEEDED = ("wurstlinen", "tools", "cases/checker", "bindings/ola/tests", "bindings/python/wurstlinen")
# Not a process number, so the script ends with that status.
BAD_ARGUMENTS = 2


class Private(unittest.TestCase):
    def setUp(self) -> None:
        folder = tempfile.TemporaryDirectory(prefix="private.")
        self.addCleanup(folder.cleanup)
        # mkdtemp's mode is 700.
        self.root = Path(folder.name)
        for name in NEEDED:
            path = self.root / name
            path.parent.mkdir(parents=True, exist_ok=True)
            copy = shutil.copytree if (ROOT / name).is_dir() else shutil.copy
            copy(ROOT / name, path)

    def python(self, program: str) -> str:
        """What a program prints that runs in that folder."""
        done = subprocess.run([sys.executable, "-B", "-c", program], cwd=self.root, stdout=subprocess.PIPE,
                              stderr=subprocess.STDOUT, check=False)
        return done.stdout.decode()

    @unittest.skipIf(os.geteuid(), "only root can run the script as another user")
    def test_the_script_runs_as_another_user(self) -> None:
        program = ("import sys; sys.path.insert(0, 'bindings/ola/tests'); import test_log; "
                   "print(test_log.script('x', user='nobody')[0], test_log.script('x')[0])")
        self.assertEqual(self.python(program), f"{BAD_ARGUMENTS} {BAD_ARGUMENTS}\n")


if __name__ == "__main__":
    unittest.main()
