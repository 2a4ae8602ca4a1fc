"""Measures what an exchange costs: `python3 times.py [PROGRAM]`.

Each figure is the median of nine runs of 500 GETs of a label: processor time of this process, and time that passed. The
far end runs in a process of its own, so its work isn't in the first figure. For PROGRAM, the same is measured for each
exchange of a discovery, whose far end is here and returns recorded replies.
"""
from __future__ import annotations

import io
import os
import statistics
import subprocess
import sys
import tempfile
import time
from typing import Callable, List, Tuple

from common import PACKAGE, ROOT, Line, folder, random_scene
from wurstlinen import Controller, Uid
from wurstlinen.lines import EnttecPro, Rig, open_line, serve_text
from wurstlinen.lines.packets import Packet

RUNS = 9
EXCHANGES = 500
FIVE = ROOT / "bindings/examples/five_fixtures.json"
GET = Packet(0x123400000001, 1, 0, 1, 0, 0, 0x20, 0x0082).encode()


class Constant:
    """A line that always gives the same reply."""

    def __init__(self, reply: bytes) -> None:
        self._reply = reply

    def exchange(self, frame: bytes) -> bytes:
        """The reply."""
        return self._reply


class Recorder:
    """A line that keeps the replies of another."""

    def __init__(self, line: Line) -> None:
        self._line = line
        self.replies: List[bytes] = []

    def exchange(self, frame: bytes) -> bytes:
        """The other line's reply."""
        self.replies.append(self._line.exchange(frame))
        return self.replies[-1]


class Tape:
    """A line that returns recorded replies in turn."""

    def __init__(self, replies: List[bytes]) -> None:
        self._replies = iter(replies)

    def exchange(self, frame: bytes) -> bytes:
        """The next reply."""
        return next(self._replies)


def measured(work: Callable[[], None]) -> Tuple[float, float]:
    """Microseconds for an exchange: this process's processor time, and the time that passed."""
    used: List[float] = []
    passed: List[float] = []
    for _ in range(RUNS):
        began, began_here = time.perf_counter(), time.process_time()
        work()
        used.append(time.process_time() - began_here)
        passed.append(time.perf_counter() - began)
    return statistics.median(used) * 1e6 / EXCHANGES, statistics.median(passed) * 1e6 / EXCHANGES


def show(name: str, work: Callable[[], None]) -> None:
    """Measures, and prints a line."""
    used, passed = measured(work)
    print(f"{name:<50} {used:6.1f} us of processor time, {passed:7.1f} us passed")


def gets(line: Line) -> Callable[[], None]:
    """This many GETs on a line."""
    def work() -> None:
        for _ in range(EXCHANGES):
            line.exchange(GET)
    return work


def run_controller(line: Line) -> None:
    """This many GETs of a controller."""
    with Controller(Uid.from_number(1)) as controller:
        client = controller.join(EXCHANGES // 2)
        for _ in range(2):
            for _ in range(EXCHANGES // 2):
                client.get(Uid.from_number(0x123400000001), 0x0082)
            controller.run(line)
            while client.next_completion():
                pass


def discovered(program: str, line: Line) -> Tuple[int, float, float]:
    """How many exchanges a discovery of the program makes on a line, its processor seconds, and those that passed."""
    with tempfile.TemporaryDirectory() as name:
        frames, replies = os.path.join(name, "frames"), os.path.join(name, "replies")
        for path in (frames, replies):
            os.mkfifo(path)
        began = time.perf_counter()
        process = subprocess.Popen([program, "discover", "--line", frames, "--replies", replies,
                                    "--source", "7ff0:00000001"], stdout=subprocess.DEVNULL)
        with open(frames, "rb") as asked, open(replies, "wb") as answered:
            served = serve_text(line, asked, answered)
        _, process.returncode, usage = os.wait4(process.pid, 0)
        return served, usage.ru_utime + usage.ru_stime, time.perf_counter() - began


def show_program(program: str) -> None:
    """Measures discoveries of the program, and prints a line."""
    recorder = Recorder(Rig(random_scene(100, 0, 0.0)))
    exchanges, *_ = discovered(program, recorder)
    runs = [discovered(program, Tape(recorder.replies)) for _ in range(RUNS)]
    used, passed = (statistics.median(run[at] for run in runs) * 1e6 / exchanges for at in (1, 2))
    print(f"{f'discover --line over FIFOs, {exchanges} exchanges':<50} {used:6.1f} us of processor time, "
          f"{passed:7.1f} us passed")


def main() -> None:
    """Measures each line, and the program if there is one."""
    for program in sys.argv[1:]:
        show_program(program)
    show("Controller.run with its calls, on a line of bytes", lambda: run_controller(Constant(b"")))
    reply = Rig(FIVE).exchange(GET)
    text = (GET.hex() + "\n").encode() * EXCHANGES
    show("Rig of five fixtures", gets(Rig(FIVE)))
    show("serve_text over memory, without its line",
         lambda: check(serve_text(Constant(reply), io.BytesIO(text), io.BytesIO())))
    command = f"env PYTHONPATH={PACKAGE} {sys.executable} -m wurstlinen"
    with open_line(f"exec:{command} bridge --line rig:{FIVE}") as line:
        show("TextLine over pipes, with a bridge to that rig", gets(line))
    with subprocess.Popen([*command.split(), "rig", str(FIVE)], stdout=subprocess.PIPE, text=True) as rig:
        assert rig.stdout is not None
        path = rig.stdout.readline().strip().partition(":")[2]
        with folder() as locks, EnttecPro(path, locks) as driver:
            show("EnttecPro over a pseudo terminal, with that rig", gets(driver))
        rig.terminate()


def check(served: int) -> None:
    """All frames were served."""
    assert served == EXCHANGES


if __name__ == "__main__":
    main()
