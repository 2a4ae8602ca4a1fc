"""A program of test_serve_soak: asks a server until it is ended, and says how many answers were right.

usage: python3 serve_program.py LINE SEED
"""
from __future__ import annotations

import json
import random
import signal
import sys
import time
from typing import Any, Dict

import common  # noqa: F401  (it makes the package known)
from wurstlinen import Completion, Full, LineBusy, LineFailed, Status, connect

UIDS = [f"1234:{number:08x}" for number in range(1, 9)]
# No answer takes so long: sixteen programs have sixteen requests and four discoveries each.
SECONDS = 40.0


def main() -> int:
    """Asks, and prints what came."""
    signal.signal(signal.SIGTERM, lambda number, frame: sys.exit(0))
    line, chance = sys.argv[1], random.Random(sys.argv[2])
    counts: Dict[str, Any] = {"right": 0}
    try:
        while True:
            try:
                with connect(line) as client:
                    for _ in range(chance.randrange(1, 20)):
                        ask(client, chance, counts)
            except LineBusy:
                time.sleep(0.05)
    except LineFailed as fault:
        counts["wrong"] = str(fault)
    finally:
        print(json.dumps(counts), flush=True)
    return 0


def ask(client: Any, chance: random.Random, counts: Dict[str, Any]) -> None:
    """Makes some calls, and looks at each answer."""
    asked = {}
    for _ in range(chance.randrange(1, 18)):
        uid = chance.choice(UIDS)
        try:
            asked[client.get(uid, 0x82)] = f"Lamp {uid}".encode()
        except Full:
            counts["full"] = counts.get("full", 0) + 1
    if chance.random() < 0.2:
        client.discover()
    began = time.monotonic()
    client.queue.run()
    if time.monotonic() - began > SECONDS:
        counts["wrong"] = "it took too long"
    for outcome in iter(client.next_outcome, None):
        check(outcome, asked, counts)
    if asked:
        counts["wrong"] = f"no answers: {sorted(asked)}"


def check(outcome: Any, asked: Dict[int, bytes], counts: Dict[str, Any]) -> None:
    """Whether an answer is what the rig knows. A reply may be lost."""
    if not isinstance(outcome, Completion):
        is_right = outcome.fault is None and [str(device.uid) for device in outcome.devices] == UIDS
    else:
        wanted = asked.pop(outcome.number, None)
        is_right = wanted is not None and (outcome.status == Status.TIMEOUT or outcome.data == wanted)
    if is_right:
        counts["right"] += 1
    else:
        counts["wrong"] = repr(outcome)


if __name__ == "__main__":
    sys.exit(main())
