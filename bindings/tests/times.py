"""Measures the cost of a request in C and in Python, compared with Rattle: `python3 times.py ARCHIVE BENCH`.

ARCHIVE is libwurstlinen.a, and BENCH the built program crates/rdm_bench/out/rdm_bench. The programs run in turn. Each
figure is the least of their medians, in nanoseconds of processor time. WURSTLINEN_LIBRARY names the shared library.
"""

import os
import re
import subprocess
import sys
import tempfile
import time

ROOT = os.path.dirname(os.path.dirname(os.path.dirname(os.path.abspath(__file__))))
sys.path.insert(0, os.path.join(ROOT, "bindings", "python"))

from wurstlinen import Controller, Session, Uid  # noqa: E402

RUNS = 9
REQUESTS = 2000
SOURCE = Uid(0x7A70, 0x100)
DEVICE = Uid(0x1234, 1)
ROW = re.compile(r"queue (with|without) log(?: in C|, NextCompletion): (\d+) ps each")


def medians(command: list) -> dict:
    """The medians that a program prints, by whether there is a log."""
    done = subprocess.run(command, check=True, stdout=subprocess.PIPE, stderr=subprocess.STDOUT, text=True)
    return {log: int(median) for log, median in ROW.findall(done.stdout)}


def answer(frame: bytes) -> bytes:
    """E1.20: an ACK with two bytes of data from the target of a command."""
    head = bytes([0xCC, 1, 26]) + frame[9:15] + frame[3:9] + frame[15:16] + b"\0\0" + frame[18:20]
    head += bytes([frame[20] + 1]) + frame[21:23] + b"\2\0\1"
    return head + sum(head).to_bytes(2, "big")


def in_python(queue) -> float:
    """Nanoseconds for a request's four calls. The line's own work isn't counted."""
    client = queue.join(16)
    used = 0
    for _ in range(REQUESTS):
        began = time.process_time_ns()
        client.get(DEVICE, 0x0060, b"\1", 1)
        frame = queue.take()
        used += time.process_time_ns() - began
        reply = answer(frame)
        began = time.process_time_ns()
        queue.deliver(reply)
        done = client.next_completion()
        used += time.process_time_ns() - began
        assert done.data == b"\0\1"
    return used / REQUESTS


def main(archive: str, bench: str) -> None:
    tests = os.path.join(ROOT, "bindings", "tests")
    with tempfile.TemporaryDirectory() as folder:
        program = os.path.join(folder, "times")
        subprocess.run(["cc", "-std=c11", "-O2", "-I" + os.path.join(ROOT, "bindings", "c"),
                        os.path.join(tests, "times.c"), archive, "-o", program], check=True)
        in_c, in_rattle = [], []
        for _ in range(RUNS):
            in_c.append(medians([program]))
            in_rattle.append(medians([bench, "queue", "16", "1000"]))
    for log in ("without", "with"):
        ours, theirs = (min(run[log] for run in runs) / 1000 for runs in (in_c, in_rattle))
        print(f"{log} log: {ours:.0f} ns in C, {theirs:.0f} ns in Rattle, ratio {ours / theirs:.2f}")
    for name, make in [("without", lambda: Controller(SOURCE)), ("with", lambda: Session(SOURCE, 100_000))]:
        print(f"{name} log: {min(in_python(make()) for _ in range(RUNS)):.0f} ns in Python")


if __name__ == "__main__":
    main(*sys.argv[1:])
