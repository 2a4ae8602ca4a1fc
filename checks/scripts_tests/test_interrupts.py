"""Signals at each step of an installation: no half file, and a second try works."""
from __future__ import annotations

import itertools
import os
import shutil
import signal
import subprocess
import unittest
from pathlib import Path
from typing import Dict, List, Optional, Tuple

from clone import Clone, new_clone
from rust_workspace import MARK
from test_packages import build, has_tools, put_libraries

# The commands by which the scripts change files: each call is a step. Before it, the step sends a signal to all that
# runs, as a terminal does.
COMMANDS = ("mktemp", "mkdir", "cp", "chmod", "mv", "ln", "rm")
STEP = """#!/bin/sh
echo {name} >> "$STEPS"
[ "$(wc -l < "$STEPS")" != "$AT" ] || kill -s "$NUMBER" 0
exec {real} "$@"
"""
# What does the same before each change of files that a command in Python makes.
HOOK = """import os, sys

def step(event, arguments):
    if event in ("os.rename", "os.remove", "os.rmdir"):
        with open(os.environ["STEPS"], "a+") as steps:
            print(event, file=steps, flush=True)
            steps.seek(0)
            if len(steps.readlines()) == int(os.environ["AT"]):
                os.kill(0, int(os.environ["NUMBER"]))

sys.addaudithook(step)
"""
SIGNALS = (signal.SIGKILL, signal.SIGINT, signal.SIGTERM, signal.SIGHUP, signal.SIGPIPE)
# With checks/scripts --all each step gets each signal, and else the first and the last one of each kind gets one.
ALL = "ALL_STEPS" in os.environ
Tree = Dict[str, bytes]


def data_of(path: Path) -> bytes:
    """Where a link leads, or a file's bytes."""
    return str(path.readlink()).encode() if path.is_symlink() else path.read_bytes()


def files_in(folder: Path) -> Tree:
    """The files below a folder."""
    return {str(path.relative_to(folder)): data_of(path) for path in sorted(folder.rglob("*"))
            if path.is_symlink() or path.is_file()}


class Interrupts(unittest.TestCase):
    def setUp(self) -> None:
        context = new_clone()
        self.clone: Clone = context.__enter__()
        self.addCleanup(context.__exit__, None, None, None)
        self.target = self.clone.folder / "target"
        self.temporary = self.clone.folder / "temporary"
        self.temporary.mkdir()
        self.steps = self.clone.folder / "steps"

    def put_steps(self, *names: str) -> None:
        for name in names:
            real = shutil.which(name, path="/usr/bin:/bin")
            if real and not (self.clone.bin / name).exists():
                self.clone.put(name, STEP.format(name=name, real=real))

    def call(self, option: str, step: int = 0, number: int = 0) -> Tuple[Optional[int], List[str]]:
        """The status of the script, whose step with this number sends a signal, and its steps."""
        self.steps.write_text("")
        environment = {**self.clone.environment, "TMPDIR": str(self.temporary), "STEPS": str(self.steps),
                       "AT": str(step), "NUMBER": str(int(number))}
        streams = {"stdout": subprocess.PIPE, "stderr": subprocess.STDOUT}
        with self.clone.start("./wurstlinen", option, str(self.target), env=environment, **streams) as process:
            # All that has the output open has ended then.
            process.communicate(timeout=300)
        return process.returncode, self.steps.read_text().split()

    def check(self, number: int, old: Tree, new: Tree) -> None:
        """Each file is the old or the new one. Only what is killed may leave others, whose names are hidden."""
        found = files_in(self.target) if self.target.exists() else {}
        for name, data in found.items():
            if number != signal.SIGKILL or not any(part.startswith(".") for part in Path(name).parts):
                self.assertIn(data, (old.get(name), new.get(name)), name)
        if number != signal.SIGKILL:
            self.assertEqual(list(self.temporary.iterdir()), [])

    def each(self, option: str, old: Tree, least: int) -> None:
        """Tries the first and the last step of each kind, at least so many, with one signal after the other, or all."""
        self.begin(old)
        status, names = self.call(option)
        self.assertEqual(status, 0)
        new = files_in(self.target)
        steps = {names.index(name) + 1 for name in names} | {len(names) - names[::-1].index(name) for name in names}
        self.assertGreaterEqual(len(steps), least)
        trials = list(zip(sorted(steps), itertools.cycle(SIGNALS)))
        if ALL:
            trials = list(itertools.product(range(1, len(names) + 1), SIGNALS))
            print(f"{option}: {len(names)} steps, {len(trials)} trials", flush=True)
        for step, number in trials:
            with self.subTest(step=f"{names[step - 1]}, step {step}", number=number):
                self.begin(old)
                status, _ = self.call(option, step, number)
                self.assertIn(status, (0, -number, 128 + number))
                self.check(number, old if status else new, new)
                self.assertEqual(self.call(option)[0], 0)
                found = files_in(self.target)
                self.assertEqual({name: found.get(name) for name in new}, new)

    def begin(self, old: Tree) -> None:
        """Puts the files of an older call there."""
        for folder in (self.target, self.temporary):
            shutil.rmtree(folder, ignore_errors=True)
        self.temporary.mkdir()
        for name, data in old.items():
            (self.target / name).parent.mkdir(parents=True, exist_ok=True)
            (self.target / name).write_bytes(data)

    def test_install(self) -> None:
        self.assertEqual(self.clone.run("./wurstlinen", "decode", "00").returncode, 0)
        self.put_steps(*COMMANDS)
        old = {"wurstlinen": b"the old command", "libexec/wurstlinen/wurstlinen": b"the old program"}
        self.each("--install", old, 6)

    def test_install_libraries(self) -> None:
        put_libraries(self.clone)
        self.assertEqual(self.clone.run("./wurstlinen", "--install-ola", str(self.target)).returncode, 0)
        self.put_steps(*COMMANDS)
        self.each("--install-ola", {"libwurstlinen-ola.so": b"the old library"}, 6)
        self.each("--install-library", {"lib/libwurstlinen.so.0": b"the old library"}, 6)

    def test_rust(self) -> None:
        (self.clone.folder / "sitecustomize.py").write_text(HOOK)
        self.clone.environment["PYTHONPATH"] = str(self.clone.folder)
        self.each("--rust", {}, 4)
        self.each("--rust", {"Cargo.toml": f"{MARK}, long ago".encode(), "wurstlinen/src/old.rs": b""}, 5)

    @unittest.skipUnless(has_tools(), "commands that make packages are missing")
    def test_package(self) -> None:
        self.assertEqual(build(self.clone, "packages").returncode, 0)
        self.put_steps("dpkg-deb", *COMMANDS if ALL else ())
        self.each("--package", {}, 2)


if __name__ == "__main__":
    unittest.main()
