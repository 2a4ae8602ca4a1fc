"""A server under load for a while: each answer is the right one, nobody waits for ever, and nothing grows.

SERVE_CONNECTIONS and SERVE_SECONDS make it longer by hand: 10000 and 3600.
"""
from __future__ import annotations

import contextlib
import json
import os
import random
import signal
import subprocess
import sys
import time
from pathlib import Path
from typing import Iterator, List, Tuple

from common import LongTestCase, folder, needs_library
from servers import Program, environment, serve

CONNECTIONS = int(os.environ.get("SERVE_CONNECTIONS", "1000"))
SOAK_SECONDS = float(os.environ.get("SERVE_SECONDS", "5"))
PROGRAMS = 16
# So many kilobytes are within what Python takes and gives back.
KILOBYTES = 3000
UIDS = [f"1234:{number:08x}" for number in range(1, 9)]
LABELS = {uid: f"Lamp {uid}" for uid in UIDS}
# One reply in ten is lost, but never five in a row.
RIG = {"source": "7ff0:00000001", "rig": {"loss": 0.1, "seed": 5},
       "devices": [{"uid": uid, "rig": {"label": LABELS[uid]}} for uid in UIDS]}


class Watched:
    """What a process holds."""

    def __init__(self, process: int) -> None:
        self._process = process
        self._before = self._held()

    def _held(self) -> Tuple[int, int]:
        status = Path(f"/proc/{self._process}/status").read_text()
        kilobytes = next(int(line.split()[1]) for line in status.splitlines() if line.startswith("VmRSS"))
        return len(os.listdir(f"/proc/{self._process}/fd")), kilobytes

    def grown(self) -> Tuple[int, int]:
        """How many descriptors and kilobytes it holds more than at the beginning."""
        return tuple(now - before for now, before in zip(self._held(), self._before))  # type: ignore[return-value]


def rig(made: Path) -> str:
    """A line with losses."""
    (made / "rig.json").write_text(json.dumps(RIG))
    return f"rig:{made / 'rig.json'}"


@contextlib.contextmanager
def alone(path: str) -> Iterator[Program]:
    """A program, once all others have gone and what they had outstanding has ended."""
    with Program(path) as program:
        while True:
            found = program.ask({"do": "status"})
            if (found["clients"], found["outstanding"]) == (1, 0):
                break
            time.sleep(0.01)
        yield program


@needs_library
class Soak(LongTestCase):
    seconds = int(300 + 2 * SOAK_SECONDS + CONNECTIONS / 20)

    def test_connections_one_after_another(self) -> None:
        chance = random.Random(3)
        with folder() as made, serve(made, "--line", rig(made)) as server:
            watched = None
            for number in range(CONNECTIONS):
                with Program(server.socket) as program:
                    self.assertEqual(program.hello["version"], 1)
                    # Most leave at once, and some with something outstanding.
                    for _ in range(chance.randrange(3)):
                        program.say({"do": "get", "uid": chance.choice(UIDS), "pid": "0082"})
                    if number % 4 == 0:
                        found = program.ask({"do": "status", "id": 1})
                        while found.get("id") != 1:
                            found = program.read()
                if number == CONNECTIONS // 4:
                    with alone(server.socket):
                        watched = Watched(server.pid)
            with alone(server.socket):
                descriptors, kilobytes = watched.grown()
            self.assertLessEqual(descriptors, 0)
            self.assertLess(kilobytes, KILOBYTES)

    def test_programs_that_are_killed(self) -> None:
        chance = random.Random(4)
        with folder() as made, serve(made, "--line", rig(made)) as server:
            command = [sys.executable, str(Path(__file__).with_name("serve_program.py")), rig(made)]
            with alone(server.socket):
                watched = Watched(server.pid)
            ends: List[bytes] = []

            def start(seed: int) -> "subprocess.Popen[bytes]":
                return subprocess.Popen([*command, str(seed)], env=environment(made), stdout=subprocess.PIPE)
            programs = [start(seed) for seed in range(PROGRAMS)]
            until = time.monotonic() + SOAK_SECONDS
            seed = PROGRAMS
            while time.monotonic() < until:
                time.sleep(SOAK_SECONDS / 60 if SOAK_SECONDS < 60 else 1.0)
                place = chance.randrange(PROGRAMS)
                programs[place].send_signal(chance.choice((signal.SIGKILL, signal.SIGTERM)))
                ends.append(programs[place].communicate(timeout=60)[0])
                programs[place], seed = start(seed), seed + 1
            for program in programs:
                program.send_signal(signal.SIGTERM)
                ends.append(program.communicate(timeout=60)[0])
            said = [json.loads(line) for end in ends for line in end.splitlines()]
            self.assertEqual([each for each in said if "wrong" in each], [])
            self.assertGreater(sum(each.get("right", 0) for each in said), 100)
            with alone(server.socket) as program:
                program.say({"do": "discover"})
                self.assertEqual([each["uid"] for each in program.next("devices")["devices"]], UIDS)
                descriptors, kilobytes = watched.grown()
            self.assertLessEqual(descriptors, 0)
            self.assertLess(kilobytes, KILOBYTES)
