"""checks/linters: what it skips, and that a finding fails it, with stand-ins for the linters."""
from __future__ import annotations

import unittest

from clone import ROOT, Clone, new_clone

LINTERS = ("mypy", "pyflakes3", "shellcheck", "cppcheck", "clang-tidy")


class Linters(unittest.TestCase):
    def setUp(self) -> None:
        context = new_clone()
        self.clone: Clone = context.__enter__()
        self.addCleanup(context.__exit__, None, None, None)
        self.environment = self.clone.environment_without(*LINTERS)

    def expect(self, status: int, out: str, *words: str) -> None:
        """What the part prints for some linters, and its status."""
        done = self.clone.run(str(ROOT / "checks/linters"), *words, env=self.environment)
        self.assertEqual((done.returncode, done.stdout), (status, out))

    def test_what_is_not_installed_is_skipped_by_name(self) -> None:
        lines = [f"skipped: {name}, which isn't installed" for name in LINTERS]
        self.expect(0, "\n".join([*lines, "0 passed, 0 failed\n"]))

    def test_without_a_finding(self) -> None:
        self.clone.put("shellcheck", "#!/bin/sh\n")
        self.expect(0, "shellcheck: no finding\n1 passed, 0 failed\n", "shellcheck")

    def test_a_finding_fails(self) -> None:
        for found in ("echo 'wurstlinen:1: a finding'; exit 1", "echo 'wurstlinen:1: a finding'"):
            for name in ("mypy", "shellcheck"):
                self.clone.put(name, f"#!/bin/sh\n{found}\n")
                done = self.clone.run(str(ROOT / "checks/linters"), name, env=self.environment)
                self.assertEqual((done.returncode, done.stdout.splitlines()[-1]), (1, "0 passed, 1 failed"))
                self.assertIn(f"checks/linters: {name} found:\nwurstlinen:1: a finding\n", done.stdout)

    def test_an_import_for_what_it_does_is_no_finding(self) -> None:
        file = "bindings/python/tests/lines/hostile.py"
        line = (ROOT / file).read_text().splitlines().index("import common  # noqa: F401  (it makes the package known)")
        self.clone.put("pyflakes3", f"#!/bin/sh\necho \"{file}:{line + 1}:1: 'common' imported but unused\"; exit 1\n")
        self.expect(0, "pyflakes3: no finding\n1 passed, 0 failed\n", "pyflakes3")
        self.clone.put("pyflakes3", f"#!/bin/sh\necho \"{file}:{line + 2}:1: 'other' imported but unused\"; exit 1\n")
        done = self.clone.run(str(ROOT / "checks/linters"), "pyflakes3", env=self.environment)
        self.assertEqual(done.returncode, 1)

    def test_an_unknown_linter(self) -> None:
        done = self.clone.run(str(ROOT / "checks/linters"), "flake8", env=self.environment)
        self.assertEqual((done.returncode, done.stdout), (2, "0 passed, 1 failed\n"))
        self.assertEqual(done.stderr, f"checks/linters: there is no linter flake8: name some of {' '.join(LINTERS)}\n")


if __name__ == "__main__":
    unittest.main()
