"""What ./check --tap writes, with stand-ins for the parts of the gate."""
from __future__ import annotations

import io
import re
import shutil
import unittest
from pathlib import Path
from typing import List
from unittest import mock

import tap
from clone import ROOT, Clone, new_clone

PARTS = ("memory", "copies", "mutants", "pages", "layout", "linters", "scripts", "lines", "cases", "bindings", "fuzz",
         "ola", "rust", "arm")
RT = """#!/bin/sh
echo 'rt: rdm_wire is kept: an earlier run on this machine proved the same files over the same libraries'
echo 'rt: rdm_join proved'
echo 'rt: must-fail rdm_join/one.edit: refused, as it must be: note'
echo 'rt: rdm_agent NOT PROVED'
echo 'rt: FAILED: rdm_agent'
echo '3 passed, 1 failed'
exit 1
"""
GOOD = "#!/bin/sh\necho '2 passed, 0 failed'\n"
# A part in bash that notes its tests, and starts what must not note its own.
NOTES = """#!/usr/bin/env bash
. checks/count.bash
note 0 'a test # 1'
note 1 'another'
skip 'a third' "which isn't installed"
[ -z "${TAP_FILE-}" ] || note 1 'what a test starts'
part_of below python3 -B checks/noted.py
echo '2 passed, 1 failed'
exit 1
"""
NOTED = """import sys
sys.path.insert(0, "tools")
import tap
tap.note("in Python", True)
"""
# TAP's specification, version 13: a test's line.
TEST = re.compile(r"^(not )?ok( - (?:\\#|[^#])*( # SKIP .+)?)?$")


class Parts(unittest.TestCase):
    """Tests whose parts are skipped, or fail."""

    def skipped(self) -> None:
        for number in range(3):
            with self.subTest(number=number):
                self.skipTest("not here")

    def failed(self) -> None:
        for number in range(3):
            with self.subTest(number=number):
                self.assertEqual(number, 1)

    def good(self) -> None:
        """It has no parts."""


class Counts(unittest.TestCase):
    def test_a_part_that_is_skipped_takes_no_other_test_away(self) -> None:
        tests = unittest.TestSuite(map(Parts, ("skipped", "failed", "good")))
        with mock.patch.object(tap, "FILE", ""):
            result = unittest.TextTestRunner(io.StringIO(), resultclass=tap.NotedResult).run(tests)
        self.assertEqual((result.passed, len(result.skipped), len(result.failures)), (1, 3, 2))


class Tap(unittest.TestCase):
    def setUp(self) -> None:
        context = new_clone()
        self.clone: Clone = context.__enter__()
        self.addCleanup(context.__exit__, None, None, None)
        (self.clone.root / "checks").mkdir()
        for name in ("check", "checks/count.bash", "checks/tap.bash"):
            shutil.copy(ROOT / name, self.clone.root / name)
        for part in (*(f"checks/{name}" for name in PARTS), "trust", "tools/build_crate"):
            self.put(part, GOOD)
        self.clone.put("rt", "#!/bin/sh\necho 'rt: rdm_wire proved'\necho '1 passed, 0 failed'\n")
        self.file: Path = self.clone.folder / "results.tap"

    def put(self, name: str, text: str) -> None:
        (self.clone.root / name).write_text(text)
        (self.clone.root / name).chmod(0o755)

    def check(self, status: int) -> List[str]:
        """The tests in the file, whose form is checked."""
        done = self.clone.run("../clone/check", "--tap", "../results.tap")
        self.assertEqual(done.returncode, status, done.stderr)
        head, *lines, plan = self.file.read_text().splitlines()
        tests = [line for line in lines if not line.startswith("# ")]
        self.assertEqual((head, plan), ("TAP version 13", f"1..{len(tests)}"))
        self.assertEqual([line for line in tests if not TEST.match(line)], [])
        return tests

    def test_a_part_that_names_no_test_is_one(self) -> None:
        tests = self.check(0)
        self.assertIn("ok - rt: rdm_wire", tests)
        self.assertIn("ok - trust: 2 passed, 0 failed", tests)
        self.assertEqual([line for line in tests if not line.startswith("ok - ")], [])

    def test_proofs(self) -> None:
        self.clone.put("rt", RT)
        tests = self.check(1)
        self.assertEqual([line for line in tests if "rt: " in line], [
            "ok - rt: rdm_wire", "ok - rt: rdm_join", "ok - rt: must-fail rdm_join/one.edit", "not ok - rt: rdm_agent",
            "not ok - rt: rdm_agent"])

    def test_a_part_that_names_its_tests(self) -> None:
        self.put("checks/linters", NOTES)
        self.put("checks/noted.py", NOTED)
        tests = self.check(1)
        self.assertEqual([line for line in tests if "linters: " in line], [
            "ok - linters: a test \\# 1", "not ok - linters: another",
            "ok - linters: a third # SKIP which isn't installed", "ok - linters: below: in Python"])

    def test_a_part_that_fails_shows_what_it_printed(self) -> None:
        for text in ("echo '7 passed, 1 failed'; exit 1", "exit 9"):
            self.put("checks/pages", f"#!/bin/sh\necho 'docs: no such file'; {text}\n")
            self.assertTrue(any(line.startswith("not ok - pages: ") for line in self.check(1)))
            self.assertIn("\n# docs: no such file\n", self.file.read_text())

    def test_a_part_that_is_killed_fails_beside_the_tests_that_it_noted(self) -> None:
        self.put("checks/lines", "#!/usr/bin/env bash\n. checks/count.bash\nnote 0 'one'\necho half; kill -KILL $$\n")
        tests = self.check(1)
        self.assertEqual([line for line in tests if "lines: " in line], ["ok - lines: one", "not ok - lines: half"])

    def test_bad_arguments(self) -> None:
        for words, text in ((("--tap",), "usage: ./check [--tap FILE]"), (("--tap", ""), "usage: ./check [--tap FILE]"),
                            (("other",), "usage: ./check [--tap FILE]"),
                            (("--tap", "nowhere/x"), "nowhere/x can't be written")):
            done = self.clone.run("./check", *words)
            self.assertEqual((done.returncode, done.stdout, done.stderr),
                             (2, "0 passed, 1 failed\n", f"check: {text}\n"))


if __name__ == "__main__":
    unittest.main()
