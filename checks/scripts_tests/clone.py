"""What the tests of scripts share: a small clone of the repository, with a stand-in for the kit's rt."""
from __future__ import annotations

import contextlib
import os
import shutil
import subprocess
import tempfile
import time
from pathlib import Path
from typing import Callable, Dict, Iterator, List, Sequence

ROOT = Path(__file__).resolve().parents[2]
SCRIPTS = ("wurstlinen", "rdm_port", "tools", "VERSION", "HANDLES", "bindings/c", "bindings/cpp",
           "bindings/python/wurstlinen", "bindings/examples", "bindings/packages", "bindings/rust",
           "bindings/README.md", "bindings/python/ADAPTER.md", "bindings/python/COMMANDS.md",
           "bindings/python/LINES.md", "bindings/python/SERVER.md", "docs/FORMATS.md", "crates/rdm_arguments/src")
CRATES = "rdm_arguments:\nrdm_wire:\nwurstlinen: rdm_arguments rdm_wire\nrdm_c staticlib: rdm_arguments\n"
# A program that prints its arguments, and rt, which notes its calls and builds that program, or a library.
PROGRAM = '#!/bin/sh\necho "the program: $*"\n'
RT = """#!/bin/sh
[ "$1" != --version ] || {{ echo "kit-of-tests logic 1"; exit; }}
echo "$PWD $*" >> "{calls}"
mkdir -p out/rlib
crate="${{PWD##*/}}"
case "$1 $crate" in
    "run wurstlinen") printf '%s' '{program}' > out/wurstlinen; chmod +x out/wurstlinen ;;
    "lib rdm_c") cp "{archive}" out/librdm_c.a ;;
esac
{more}
"""
# Cargo, which notes its calls and builds that program, and rustc.
CARGO = """#!/bin/sh
[ "$1" != --version ] || {{ echo "cargo {version}"; exit; }}
echo "$PWD $*" >> "{calls}"
{more}
mkdir -p target/release && printf '%s' '{program}' > target/release/wurstlinen && chmod +x target/release/wurstlinen
"""
RUSTC = '#!/bin/sh\necho "rustc 1.99.0 (of the tests)"\n'
# A busy machine may need long. Only a test that fails waits until then.
SECONDS = 120


class Clone:
    """A clone in a folder, and the commands of its user."""

    def __init__(self, folder: Path) -> None:
        self.folder, self.root, self.bin = folder, folder / "clone", folder / "bin"
        self.calls, self.archive = folder / "calls", folder / "stand_in.a"
        for name in SCRIPTS:
            self._copy(name)
        (self.root / "crates.txt").write_text(CRATES)
        for crate in ("rdm_wire", "wurstlinen", "rdm_c"):
            (self.root / "crates" / crate / "src").mkdir(parents=True)
            (self.root / "crates" / crate / "src/lib.rt").write_text("pub fn one() {}\n")
        self.bin.mkdir()
        self.put_rt("")
        # A cargo of the machine isn't used.
        self.put("cargo", "#!/bin/sh\nexit 1\n")
        self.environment = {**os.environ, "PATH": f"{self.bin}:/usr/bin:/bin", "PYTHONDONTWRITEBYTECODE": "1"}

    def _copy(self, name: str) -> None:
        to = self.root / name
        to.parent.mkdir(parents=True, exist_ok=True)
        if (ROOT / name).is_dir():
            shutil.copytree(ROOT / name, to, ignore=shutil.ignore_patterns("__pycache__", "tests", "out"))
        else:
            shutil.copy(ROOT / name, to)

    def put_rt(self, more: str) -> None:
        """The stand-in for rt, which also runs these commands."""
        self.put("rt", RT.format(calls=self.calls, program=PROGRAM, archive=self.archive, more=more))

    def put_cargo(self, more: str = "", version: str = "1.99.0 (of the tests)") -> None:
        """The stand-ins for cargo, which also runs these commands, and for rustc."""
        self.put("cargo", CARGO.format(calls=self.calls, program=PROGRAM, version=version, more=more))
        self.put("rustc", RUSTC)

    def put(self, name: str, text: str) -> None:
        """A command of the clone's user."""
        (self.bin / name).write_text(text)
        (self.bin / name).chmod(0o755)

    def environment_without(self, *names: str) -> Dict[str, str]:
        """The variables of a user whose machine has all commands but these."""
        links = Path(tempfile.mkdtemp(prefix="commands.", dir=self.folder))
        for command in Path("/usr/bin").iterdir():
            if command.name not in names:
                (links / command.name).symlink_to(command)
        return {**self.environment, "PATH": f"{self.bin}:{links}"}

    def rt_calls(self) -> List[str]:
        """The calls of rt and cargo so far."""
        return self.calls.read_text().splitlines() if self.calls.exists() else []

    def run(self, *command: str, **options: object) -> "subprocess.CompletedProcess[str]":
        """Runs a command in the folder of the clone."""
        given = {"cwd": self.root, "env": self.environment, "capture_output": True, "text": True, **options}
        return subprocess.run(command, check=False, timeout=300, stdin=subprocess.DEVNULL, **given)

    def start(self, *command: str, **options: object) -> "subprocess.Popen[str]":
        """Starts a command in a process group of its own."""
        given = {"cwd": self.root, "env": self.environment, "stdout": subprocess.PIPE, "stderr": subprocess.PIPE,
                 "text": True, "start_new_session": True, **options}
        return subprocess.Popen(command, stdin=subprocess.DEVNULL, **given)

    def bash(self, script: str, *arguments: str, **options: object) -> "subprocess.CompletedProcess[str]":
        """Runs a script that uses the functions of tools/library.bash."""
        text = f'set -u; . "$1/tools/library.bash"; shift; {script}'
        return self.run("bash", "-c", text, "bash", str(self.root), *arguments, **options)


@contextlib.contextmanager
def new_clone() -> Iterator[Clone]:
    """A clone in a temporary folder."""
    with tempfile.TemporaryDirectory(prefix="scripts.") as name:
        yield Clone(Path(name).resolve())


def wait_for(condition: Callable[[], object]) -> None:
    """Waits until something is true."""
    end = time.monotonic() + SECONDS
    while not condition():
        if time.monotonic() > end:
            raise AssertionError("it didn't happen in time")
        time.sleep(0.02)


def is_alive(process: int) -> bool:
    """Whether a process runs, and isn't just waiting to be forgotten."""
    try:
        return Path(f"/proc/{process}/stat").read_text().rpartition(")")[2].split()[0] != "Z"
    except OSError:
        return False


def runs_in_group(group: int, name: str) -> bool:
    """Whether a process of this group runs the command `name`."""
    for stat in Path("/proc").glob("[0-9]*/stat"):
        try:
            head, _, rest = stat.read_text().rpartition(")")
        except OSError:
            continue
        if head.partition("(")[2] == name and int(rest.split()[2]) == group:
            return True
    return False


def compile_c(text: str, to: Path, flags: Sequence[str]) -> None:
    """Compiles a C program or library."""
    subprocess.run(["cc", "-x", "c", "-", "-o", str(to), *flags], input=text, text=True, check=True)
