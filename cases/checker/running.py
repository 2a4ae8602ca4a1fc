"""Runs cases in an empty folder of their own, each in one of several processes. Explains each log that is written."""
from __future__ import annotations

import os
import shutil
import subprocess
import tempfile
from dataclasses import dataclass, field, replace
from pathlib import Path
from typing import IO, Any, Dict, List, Tuple, Union

from .case import LOG_NAME, PROGRAM_NAME, Answer, Arguments, Case, Expected, File, Log, Output, arguments_of
from .comparing import differences
from .far_end import attached, descriptors_of
from .forms import is_findings

# Threads that wait for each other get little of a busy machine. Only a case that fails waits until then.
SECONDS = 600
MOST_SHOWN = 200
NOBODY = 65534
MODE_OF_ALL = 0o755
MODE_OF_UNREADABLE = 0o222
EXPLAIN = arguments_of("explain", LOG_NAME)


@dataclass(frozen=True)
class Result:
    """What is wrong with a case; nothing if it passed."""

    subject: str
    case: str
    problems: Tuple[str, ...]


@dataclass
class Runner:
    """Runs the programs of a folder."""

    programs: Path
    folder: Path
    # The files that the folder has now.
    files: Tuple[File, ...] = ()
    # The program may write its reasons a byte at a time. A file takes them without waking anybody, unlike a pipe.
    errors: IO[bytes] = field(default_factory=tempfile.TemporaryFile)

    def result(self, subject: str, case: Case) -> Result:
        """Runs each command of a case as often as the case says, until one of them is wrong."""
        self._put(case.files)
        for _ in range(case.times):
            problems = self._problems(case)
            if problems:
                return Result(subject, case.name, problems)
        return Result(subject, case.name, ())

    def _problems(self, case: Case) -> Tuple[str, ...]:
        first = None
        for arguments in case.commands:
            try:
                answer = self._answer_with_log(case, arguments)
            except subprocess.TimeoutExpired:
                return (shown_command(case, arguments), f"it didn't end within {SECONDS} seconds")
            problems = differences(case.expected, answer, first)
            if problems:
                return (shown_command(case, arguments), *problems)
            problems = self._problems_of_log(case, answer.log)
            if problems:
                return (shown_command(case, arguments), shown_command(case, EXPLAIN), *problems)
            first = answer
        return ()

    def _problems_of_log(self, case: Case, log: Log) -> List[str]:
        """What is wrong with a log that was written: explain has to read it to its end."""
        if log.contents is None or File(log.contents, LOG_NAME) in case.files:
            return []
        explained = replace(case, program=PROGRAM_NAME, output=Output.READ, far_end=None)
        return differences(Expected(status=None, err=b"", form=is_findings), self._answer(explained, EXPLAIN), None)

    def _answer_with_log(self, case: Case, arguments: Arguments) -> Answer:
        log = (case.folder or self.folder) / LOG_NAME
        if all(file.path != LOG_NAME for file in case.files):
            log.unlink(missing_ok=True)
        answer = self._answer_on_line(case, arguments)
        return replace(answer, log=Log(log.read_bytes() if log.is_file() else None))

    def _answer_on_line(self, case: Case, arguments: Arguments) -> Answer:
        if case.far_end is None:
            return self._answer(case, arguments)
        with attached(case.far_end, self.folder) as sent:
            answer = self._answer(case, arguments)
        return replace(answer, sent=tuple(sent))

    def _answer(self, case: Case, arguments: Arguments) -> Answer:
        command: List[Union[str, bytes]] = [str(self.programs / case.program), *arguments]
        if case.output is Output.CLOSED:
            command = ["sh", "-c", 'exec "$0" "$@" >&-', *command]
        output = opened_output(case.output)
        self.errors.seek(0)
        self.errors.truncate()
        try:
            done = subprocess.run(
                command,
                cwd=case.folder or self.folder,
                stdin=subprocess.DEVNULL,
                stdout=output,
                stderr=self.errors,
                timeout=SECONDS,
                check=False,
                pass_fds=descriptors_of(case.far_end),
                **identity(case),
            )
        finally:
            if not isinstance(output, int):
                output.close()
        self.errors.seek(0)
        return Answer(done.returncode, done.stdout or b"", self.errors.read())

    def _put(self, files: Tuple[File, ...]) -> None:
        """Makes the folder anew with these files, unless it has them."""
        if self.folder.exists() and self.files == files:
            return
        shutil.rmtree(self.folder, ignore_errors=True)
        self.folder.mkdir()
        for file in files:
            path = self.folder / file.path
            path.parent.mkdir(parents=True, exist_ok=True)
            path.write_bytes(file.contents)
            if not file.is_readable:
                path.chmod(MODE_OF_UNREADABLE)
        self.files = files


def opened_output(output: Output) -> Union[int, IO[bytes]]:
    """What the program gets for its standard output."""
    if output is Output.FULL:
        return open("/dev/full", "wb")
    if output is Output.UNREAD:
        reading, writing = os.pipe()
        os.close(reading)
        return os.fdopen(writing, "wb")
    return subprocess.PIPE


def identity(case: Case) -> Dict[str, Any]:
    """Who runs the program: root may read each file, so it runs as nobody if a file isn't readable."""
    if os.geteuid() != 0 or all(file.is_readable for file in case.files):
        return {}
    return {"user": NOBODY, "group": NOBODY, "extra_groups": []}


def shown_command(case: Case, arguments: Arguments) -> str:
    """The command line, cut if it is very long."""
    texts = [case.program, *(argument.decode(errors="backslashreplace") for argument in arguments)]
    line = " ".join(repr(text) if needs_quotes(text) else text for text in texts)
    return "ran: " + (line if len(line) <= MOST_SHOWN else f"{line[:MOST_SHOWN]}... ({len(arguments)} arguments)")


def needs_quotes(text: str) -> bool:
    """Whether an argument can't be read on a command line as it is."""
    return not text or not text.isprintable() or any(letter in " '\"\\" for letter in text)
