"""What ./wurstlinen answers before it builds anything, and what --unproved does."""
from __future__ import annotations

import os
import re
import signal
import sys
import time
import unittest
from typing import List

from cases.checker.case import Case, Output
from cases.checker.tables import read_tables
from clone import ROOT, Clone, new_clone, wait_for

sys.path.insert(0, str(ROOT / "bindings/python"))
from wurstlinen.front.output import Failure  # noqa: E402
from wurstlinen.tool import adapters, arguments  # noqa: E402

# Cases of the program whose standard error has this need no program.
EARLY = re.compile(rb"wurstlinen: (the command is missing;|unknown command|the file .* no such file\n|.* isn't UTF-8)")
TRY_HELP = "; try 'wurstlinen --help'\n"
PROVED = (b"decode", b"encode", b"discover", b"run", b"explain")
BUILDING = 'echo "building" >&2; exit 1'
# The program's commands and arguments, as the table of its parser has them.
TABLE = ROOT / "crates/rdm_arguments/src/table.rt"
ARGUMENT = re.compile(r"const (\w+): ArgumentRule = ArgumentRule \{\s+name: \"(\w+)\",\s+form: Form::(\w+),")
COMMAND = re.compile(r"const \w+: CommandRule = CommandRule \{\s+name: \"(\w+)\",\s+arguments: &\[(.*?)\],"
                     r"\s+forms: &\[(.*?)\n? *\],\n\s+help: [^\n]*\n\s+explained: &\[(.*?)\],", re.DOTALL)


def early_cases() -> List[Case]:
    """The cases of the tables that the script answers by itself."""
    cases = [case for table in read_tables(ROOT / "cases") for case in table.cases]
    return [case for case in cases if EARLY.match(case.expected.err or b"") and not has_more_files(case)]


def has_more_files(case: Case) -> bool:
    """Whether another file than FILE may be the one that isn't there."""
    return any(option in words for words in case.commands for option in (b"--line", b"--log", b"--rig"))


def is_refused(case: Case) -> bool:
    """Whether the program may refuse the words of a case."""
    return case.expected.status in (2, None) or case.output is not Output.READ


def usage() -> str:
    """The program's usage, as its cases say it."""
    for table in read_tables(ROOT / "cases"):
        for case in table.cases:
            if case.name == "--help":
                assert case.expected.err
                return case.expected.err.decode()
    raise LookupError("no case has the usage")


class Answers(unittest.TestCase):
    def setUp(self) -> None:
        context = new_clone()
        self.clone: Clone = context.__enter__()
        self.addCleanup(context.__exit__, None, None, None)
        self.clone.put_rt(BUILDING)

    def expect(self, words: List[str], status: int, out: str, err: str) -> None:
        """The script answers these words, and calls no rt."""
        done = self.clone.run("./wurstlinen", *words)
        self.assertEqual((done.returncode, done.stdout, done.stderr), (status, out, err), words)
        self.assertEqual(self.clone.rt_calls(), [], words)

    def test_cases_of_the_program(self) -> None:
        cases = early_cases()
        self.assertGreater(len(cases), 10)
        for case in cases:
            for file in case.files:
                (self.clone.root / file.path).write_bytes(file.contents)
            for words in case.commands:
                for before in ([], ["--unproved"]):
                    # The script has an answer of its own to words that are no command.
                    is_own = not before and words[:1] and words[0] not in PROVED and words[0][:1] not in (b"", b"-")
                    command = [b"./rdm_port" if is_own else b"./wurstlinen", *map(os.fsencode, before)]
                    done = self.clone.run(*command, *words, text=False)
                    expected = case.expected
                    self.assertEqual((done.returncode, done.stderr), (expected.status, expected.err), case.name)
                    self.assertEqual(done.stdout, expected.out, case.name)
        self.assertEqual(self.clone.rt_calls(), [])

    def test_help_and_version(self) -> None:
        version = f"wurstlinen {(ROOT / 'VERSION').read_text().strip()} (not proved here yet, commit unknown)\n"
        for before in ([], ["--unproved"]):
            self.expect([*before, "help"], 0, usage(), "")
            for word in ("version", "--version", "-V"):
                self.expect([*before, word], 0, version, "")
        self.expect(["--unproved", "help", "decode"], 0, usage(), "")
        own = self.clone.run("./wurstlinen", "--help")
        self.assertEqual((own.returncode, own.stdout.split("\n")[0]), (0, "usage: ./wurstlinen COMMAND ARGUMENT.."))
        self.assertEqual(self.clone.run("./wurstlinen", "--unproved", "-h").stdout, own.stdout)

    def test_the_other_name_keeps_the_programs_answers(self) -> None:
        version = (ROOT / "VERSION").read_text().strip()
        for words, err in ((["help"], usage()), (["--help"], usage()), (["-h"], usage()),
                           (["--version"], f"{usage()}version: {version}\n"),
                           (["version"], f'wurstlinen: unknown command "version"{TRY_HELP}'),
                           ([], f"wurstlinen: the command is missing{TRY_HELP}")):
            done = self.clone.run("./rdm_port", *words)
            self.assertEqual((done.returncode, done.stdout, done.stderr), (2, "fault: command line\n", err))
        self.assertEqual(self.clone.rt_calls(), [])

    def test_files_that_are_not_there(self) -> None:
        no_file = 'wurstlinen: the file "a \\"b\\" \\u{301}ä" can\'t be opened: no such file\n'
        for words in (["run", "--port=rings"], ["run", "--line", "out", "--replies=in"], ["discover", "--log", "x"],
                      ["discover", "--quick", "--incremental"], ["run", "--"]):
            self.expect([*words, 'a "b" \u0301ä'], 1, "fault: file\n", no_file)

    def test_how_a_word_is_written(self) -> None:
        # As the program compiled by rt try writes them.
        word = 'w"\\\u0301\u00e4\u200b\t\u00a0\u0903\uff9e\u0e33\U0001f600'
        written = '"w\\"\\\\\\u{301}\u00e4\\u{200b}\\t\\u{a0}\u0903\\u{ff9e}\u0e33\U0001f600"'
        done = self.clone.run("./rdm_port", word)
        self.assertEqual((done.returncode, done.stdout, done.stderr),
                         (2, "fault: command line\n", f"wurstlinen: unknown command {written}{TRY_HELP}"))
        self.assertEqual(self.clone.rt_calls(), [])

    def test_other_arguments_are_left_to_the_program(self) -> None:
        (self.clone.root / "file").write_text("{}")
        for words in (["run", "file"], ["run", "none", "--replies", "in"],
                      ["discover", "--line", "none", "--source", "7a70:00000001"],
                      ["discover", "none", "--quick", "--quick"], ["decode", "00"]):
            done = self.clone.run("./wurstlinen", *words)
            self.assertEqual((done.returncode, done.stdout), (125, ""), words)
            self.assertIn("proving and building", done.stderr)

    def test_wrong_words_of_the_programs_commands(self) -> None:
        (self.clone.root / "none").write_text("{}")
        wrong = [["run", "none", "--quick"], ["run", "none", "--port", "no"], ["run", "none", "b"],
                 ["discover", "none", "--quick=yes"], ["run", "none", "--log", "-x"], ["run", "none", "--log"], ["run"],
                 ["decode"], ["encode", "a", "b"]]
        for words in wrong + ([] if adapters.chips() else [["discover"], ["discover", "--quick"]]):
            done = self.clone.run("./wurstlinen", *words)
            self.assertEqual((done.returncode, done.stdout), (2, "fault: command line\n"), words)
            self.assertRegex(done.stderr, r"^wurstlinen: .*\n$")
            # The other name's words are all the program's.
            self.assertIn("proving and building", self.clone.run("./rdm_port", *words).stderr)

    def test_no_right_words_are_refused(self) -> None:
        """What the program doesn't refuse is let through, too."""
        found = {tuple(words) for table in read_tables(ROOT / "cases") for case in table.cases
                 for words in case.commands if words and words[0] in PROVED and not is_refused(case)}
        self.assertGreater(len(found), 50)
        for words in found:
            try:
                arguments.parser().parse_args([os.fsdecode(word) for word in words])
            except Failure as failure:
                self.fail(f"{words}: {failure}")

    def test_wrong_words_of_explain_build_nothing(self) -> None:
        log = str(ROOT / "bindings/examples/five_fixtures.json")
        for words, status, out, reason in (
                ([log, "--page"], 2, "fault: command line\n", "argument --page: expected one argument"),
                ([log, "--page", log], 2, "", "the page would replace "),
                ([log, "--page", "/no/x"], 1, "", "/no/x: No such file"),
                (["/nope.log", "--page", "x"], 1, "fault: file\n", '"/nope.log" can\'t be opened: no such file')):
            done = self.clone.run("./wurstlinen", "explain", *words)
            self.assertEqual((done.returncode, done.stdout, reason in done.stderr), (status, out, True), done.stderr)
        self.assertEqual(self.clone.rt_calls(), [])

    def test_a_full_device(self) -> None:
        with open("/dev/full", "w") as full:
            done = self.clone.run("./wurstlinen", capture_output=False, stdout=full, stderr=-1)
        self.assertEqual(done.returncode, 1)
        self.assertTrue(done.stderr.startswith("wurstlinen: the answer can't be written: "))

    def test_a_full_device_for_reasons(self) -> None:
        with open("/dev/full", "w") as full:
            done = self.clone.run("./wurstlinen", "walk", capture_output=False, stdout=-1, stderr=full)
        self.assertEqual((done.returncode, done.stdout, self.clone.rt_calls()), (2, "fault: command line\n", []))

    def test_what_cannot_be_answered_is_left_to_the_program(self) -> None:
        """Without the file that has the program's usage, and without Python."""
        (self.clone.root / "crates/rdm_arguments/src/usage.rt").unlink()
        done = self.clone.run("./rdm_port", "--help")
        self.assertEqual((done.returncode, done.stdout), (125, ""))
        self.assertIn("proving and building", done.stderr)
        (self.clone.bin / "python3").write_text("#!/bin/sh\nexit 127\n")
        (self.clone.bin / "python3").chmod(0o755)
        self.assertIn("proving and building", self.clone.run("./rdm_port", "walk").stderr)

    def test_a_built_program_answers_itself(self) -> None:
        self.clone.put_rt("")
        for words in (["run", "none"], ["-walk"], []):
            (self.clone.root / "none").write_text("{}")
            self.assertEqual(self.clone.run("./wurstlinen", "run", "none").stdout, "the program: run none\n")
            (self.clone.root / "none").unlink()
            self.assertEqual(self.clone.run("./wurstlinen", *words).stdout, f"the program: {' '.join(words)}\n")


class Table(unittest.TestCase):
    """Nothing proves that the usage shows the options that the parser takes."""

    def test_the_usage_shows_each_option(self) -> None:
        text = TABLE.read_text(encoding="utf-8")
        options = {name: option for name, option, form in ARGUMENT.findall(text) if form not in ("Needed", "Optional")}
        taken, explained = set(), set()
        commands = COMMAND.findall(text)
        self.assertEqual(len(commands), text.count(": CommandRule = "))
        for command, takes, forms, explains in commands:
            own = {options[name] for name in re.findall(r"\w+", takes) if name in options}
            self.assertEqual(set(re.findall(r"--(\w+)", forms)), own, command)
            taken |= own
            explained |= {options[name] for name in re.findall(r"\w+", explains)}
        self.assertEqual(explained, taken)
        self.assertIn("quick", taken)


class Unproved(unittest.TestCase):
    def test_what_only_the_command_in_python_has(self) -> None:
        with new_clone() as clone:
            clone.put_rt(BUILDING)
            for words, said in ((["fixtures"], "fixtures isn't the program's: leave out --unproved"),
                                (["explain", "log", "--page=x"], "an unproved run has no --page; the proved one has: "
                                                                 "./wurstlinen explain log --page=x"),
                                (["discover", "file", "--json"], "an unproved run has no --json; the proved one has: "
                                                                 "./wurstlinen discover file --json")):
                done = clone.run("./wurstlinen", "--unproved", *words)
                self.assertEqual((done.returncode, done.stdout, done.stderr), (2, "", f"wurstlinen: {said}\n"))
            self.assertEqual(clone.rt_calls(), [])

    def test_it_says_how_long_it_has_compiled(self) -> None:
        with new_clone() as clone:
            clone.put_rt("sleep 11; echo 'run=ended status=0 ' >&2")
            done = clone.run("./wurstlinen", "--unproved", "decode", "00")
            self.assertEqual((done.returncode, done.stdout), (0, ""))
            self.assertEqual(done.stderr.splitlines()[-1],
                             "wurstlinen: compiling and running it, for 10 seconds so far")

    def test_an_interrupt_ends_it_with_130(self) -> None:
        for number, status in ((signal.SIGINT, 130), (signal.SIGTERM, 143)):
            for to_all in (True, False):
                self.interrupt(number, status, to_all)

    def interrupt(self, number: int, status: int, to_all: bool) -> None:
        """Interrupts a run, as a terminal does it, or the script alone."""
        with new_clone() as clone:
            # As rt: it ends with a status of its own, and not by the signal.
            clone.put_rt("trap 'kill $!; exit 130' INT; trap 'kill $!; exit 143' TERM; sleep 30 & wait")
            (clone.root / "tmp").mkdir()
            with clone.start("./wurstlinen", "--unproved", "decode", "00",
                             env={**clone.environment, "TMPDIR": str(clone.root / "tmp")}) as process:
                wait_for(lambda: any("try" in call for call in clone.rt_calls()))
                time.sleep(0.2)
                began = time.monotonic()
                os.killpg(process.pid, number) if to_all else process.send_signal(number)
                out, errors = process.communicate()
            self.assertEqual((process.returncode, out), (status, ""))
            self.assertNotIn("didn't run to its end", errors)
            self.assertLess(time.monotonic() - began, 10)
            self.assertEqual(list((clone.root / "tmp").iterdir()), [])


if __name__ == "__main__":
    unittest.main()
