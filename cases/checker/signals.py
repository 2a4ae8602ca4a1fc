"""Signals while the program writes a log: what is there is the beginning of the whole one, and a second call works."""
from __future__ import annotations

import fcntl
import os
import select
import signal
import subprocess
from pathlib import Path
from typing import BinaryIO, Iterator, NamedTuple, Tuple

SCENE = Path(__file__).resolve().parents[2] / "examples/small_rig.json"
SIGNALS = (signal.SIGINT, signal.SIGTERM, signal.SIGHUP, signal.SIGPIPE, signal.SIGKILL)
# The log is longer, so that the program waits for its reader.
PIPE_BYTES = 4096
# F_SETPIPE_SZ, which Python 3.9 doesn't name.
SET_PIPE_BYTES = 1031
SECONDS = 60
LOOK_SECONDS = 0.01


class Run(NamedTuple):
    """How a call ended, what it printed, and its log."""

    status: int
    out: bytes
    log: bytes


def results(program: Path, folder: Path) -> Iterator[Tuple[str, bool]]:
    """Each signal after some bytes of the log, and whether it ended as it may."""
    whole = run(program, folder / "log")
    assert whole.status == 0 and len(whole.log) > 4 * PIPE_BYTES, whole
    fifo = folder / "fifo"
    os.mkfifo(fifo)
    for number in SIGNALS:
        for at in (0, 1, len(whole.log) // 2, len(whole.log) - 1):
            found = interrupted(program, fifo, number, at)
            (folder / "log").write_bytes(found.log)
            is_good = found.status in (0, -number) and whole.log.startswith(found.log) \
                and found.out in (b"", whole.out) and (found.status != 0 or found == whole)
            yield f"{number.name} after {at} bytes of the log", is_good and run(program, folder / "log") == whole


def run(program: Path, log: Path) -> Run:
    """A whole call."""
    done = subprocess.run(command(program, log), stdout=subprocess.PIPE, timeout=SECONDS, check=False)
    return Run(done.returncode, done.stdout, log.read_bytes())


def interrupted(program: Path, fifo: Path, number: int, at: int) -> Run:
    """A call that gets a signal when so many bytes of its log were read."""
    data = b""
    # It doesn't wait for the program, which may be ended before it opens its log.
    with open(fifo, "rb", 0, opener=lambda path, flags: os.open(path, flags | os.O_NONBLOCK)) as log:
        fcntl.fcntl(log, SET_PIPE_BYTES, PIPE_BYTES)
        with subprocess.Popen(command(program, fifo), stdout=subprocess.PIPE) as process:
            while len(data) < at:
                data += read_soon(log, at - len(data))
            process.send_signal(number)
            while process.poll() is None:
                data += read_soon(log, PIPE_BYTES)
            data += read_soon(log, PIPE_BYTES)
            assert process.stdout is not None
            return Run(process.returncode, process.stdout.read(), data)


def read_soon(log: BinaryIO, most: int) -> bytes:
    """The next bytes, if some come soon."""
    select.select([log], [], [], LOOK_SECONDS)
    return log.read(most) or b""


def command(program: Path, log: Path) -> Tuple[str, ...]:
    """A discovery with a log."""
    return str(program), "discover", str(SCENE), "--log", str(log)
