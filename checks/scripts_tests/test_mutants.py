"""checks/mutants --gate, with a stand-in for the prover."""
from __future__ import annotations

import shutil
import unittest
from typing import List

from clone import ROOT, Clone, new_clone

FUNCTIONS = {"first": "one", "second": "two", "third": "three"}
SOURCE = "".join(f"pub fn {name}() -> u8 {{\n    1 // {name}\n}}\n" for name in FUNCTIONS.values())
LIST = "# A comment.\nrdm_wire first one\nrdm_wire second two\nrdm_wire third three\n"
GOAL = "note: src/lib.rt:1:1: it is not proved that what the function ensures holds when it returns (`returns`)"
NO_ANSWER = "no proof: expected answers in ./proofs/one/Answers.antt; `search` did not prove `returns`"
REFUSED = [GOAL, f"fn rdm_wire::one: {NO_ANSWER}", GOAL, "fn rdm_wire::two: no proof: expected answers", GOAL,
           "fn rdm_wire::three: not proved", "only=3 proved=0"]


class Gate(unittest.TestCase):
    def setUp(self) -> None:
        context = new_clone()
        self.clone: Clone = context.__enter__()
        self.addCleanup(context.__exit__, None, None, None)
        (self.clone.root / "checks").mkdir()
        shutil.copy(ROOT / "checks/mutants", self.clone.root / "checks/mutants")
        self.crate = self.clone.root / "crates/rdm_wire"
        (self.crate / "src/lib.rt").write_text(SOURCE)
        (self.crate / "mutants").mkdir()
        for edit, name in FUNCTIONS.items():
            text = f"file: src/lib.rt\nold: 1 // {name}\nnew: 2 // {name}\n"
            (self.crate / f"mutants/{edit}.edit").write_text(text)
        self.put_list(LIST)

    def put_list(self, text: str) -> None:
        (self.clone.root / "checks/gate_mutants").write_text(text)

    def gate(self, said: List[str]) -> List[str]:
        """What it prints if the prover says this, without the time."""
        (self.clone.folder / "said").write_text("".join(f"{line}\n" for line in said))
        self.clone.put("rattle", f'#!/bin/sh\ncp src/lib.rt "{self.clone.folder}/text"\ncd "{self.clone.folder}"\n'
                                 'echo "$*" > words\ncat said\nexit 1\n')
        lines = self.clone.run("checks/mutants", "--gate").stdout.splitlines()
        return [line for line in lines if "processor" not in line]

    def expect_all(self, verdict: str, said: List[str], last: str) -> None:
        """Tries what the prover says, after which all mutations have this verdict, with the function for FN."""
        verdicts = [f"rdm_wire/{edit}.edit: {verdict.replace('FN', name)}" for edit, name in FUNCTIONS.items()]
        self.assertEqual(self.gate(said), [*verdicts, last])

    def expect(self, fault: str, said: List[str]) -> None:
        """Tries what the prover says of the first function, whose mutation isn't refused for this reason."""
        others = ["rdm_wire/second.edit: refused: two", "rdm_wire/third.edit: refused: three"]
        first = f"rdm_wire/first.edit: {fault}"
        self.assertEqual(self.gate([*said, *REFUSED[2:]]), [first, *others, "5 passed, 1 failed"])

    def test_all_are_tried_at_once(self) -> None:
        self.expect_all("refused: FN", REFUSED, "6 passed, 0 failed")
        self.assertIn(" --only one --only two --only three\n", (self.clone.folder / "words").read_text())
        self.assertEqual((self.clone.folder / "text").read_text(), SOURCE.replace("1 //", "2 //"))
        self.assertEqual((self.crate / "src/lib.rt").read_text(), SOURCE)

    def test_what_is_no_refusal(self) -> None:
        self.expect("NOT REFUSED: one: proved", ["fn rdm_wire::one: proved"])
        self.expect("NOT REFUSED: one: could not tell", [GOAL, "fn rdm_wire::one: could not tell"])
        below = "no proof: it calls `rdm_wire::below`, which is not proved"
        self.expect(f"NOT REFUSED: one has no open goal of its own: {below}",
                    [GOAL, "fn rdm_wire::below: not proved", f"fn rdm_wire::one: {below}"])
        self.expect("BAD EDIT: a proof names what it took away: `returns`: `c` has no field `if-x`",
                    ["./proofs/one/Answers.antt:9:1: error: `returns`: `c` has no field `if-x`", GOAL,
                     f"fn rdm_wire::one: {NO_ANSWER}"])

    def test_a_proof_that_no_longer_fits(self) -> None:
        said = ["./proofs/one/Answers.antt:9:1: error: `returns`: 1 isn't 2", "fn rdm_wire::one: not proved"]
        self.assertEqual(self.gate([*said, *REFUSED[2:]])[-1], "6 passed, 0 failed")

    def test_an_edit_that_cannot_be_read(self) -> None:
        error = "src/lib.rt:2:9: error: expected a pattern"
        verdict = f"BAD EDIT: the prover says nothing about FN: {error}"
        self.expect_all(verdict, ["by-macro: none", error], "3 passed, 3 failed")

    def test_a_list_that_cannot_be_tried(self) -> None:
        self.put_list(LIST.replace("second two", "second one").replace("third", "fourth"))
        self.assertEqual(self.clone.run("checks/mutants", "--text").stdout.splitlines(), [
            "checks/gate_mutants: rdm_wire/second.edit and rdm_wire/first.edit change the same function, one: only one "
            "of them can be tried",
            "checks/gate_mutants: there is no mutation rdm_wire/fourth.edit", "3 passed, 2 failed"])
        self.put_list("rdm_wire first one\n")
        self.assertEqual(self.clone.run("checks/mutants", "--text").stdout.splitlines(), [
            "checks/gate_mutants: rdm_wire has 1 mutations in the gate, and needs 3", "3 passed, 1 failed"])

    def test_a_library_that_is_not_built(self) -> None:
        (self.clone.root / "crates.txt").write_text("rdm_arguments:\nrdm_wire: rdm_arguments\n")
        name = "crates/rdm_arguments/out/rlib/rdm_arguments.rlib"
        verdict = f"NOT TRIED: {name} isn't proved and built: call rt lib for rdm_arguments"
        self.expect_all(verdict, REFUSED, "3 passed, 3 failed")


if __name__ == "__main__":
    unittest.main()
