"""Rigs of many devices whose UIDs are 0 and the numbers after it, and whose collisions spell nobody."""
from __future__ import annotations

import json
from pathlib import Path
from typing import Iterator, Sequence

from ..checker.case import Case, arguments_of, prints
from .commands import DISCOVER, NO_SCENE, QUICK, file_case

# How many devices, and how many frames a run sends.
STEADY = ((256, 2290), (1024, 8422))
QUICKLY = ((1, 10), (10, 91), (50, 171), (100, 271), (256, 583))
EXAMPLES = Path(__file__).resolve().parent.parent.parent / "examples"


def cases() -> Iterator[Case]:
    """All rigs. The counts of a steady run are worked out by hand, those of a quick one by a model of its search."""
    for commands, rows in (((DISCOVER,), STEADY), ((QUICK,), QUICKLY)):
        for count, frames in rows:
            uids = uids_of(count)
            name = f"{count} neighbours in {frames} frames"
            yield file_case(name, commands, scene(uids), report(uids, frames))
    yield file_case("a device too many", (DISCOVER,), scene(uids_of(1025)), NO_SCENE)
    count, frames = STEADY[-1]
    yield Case(
        name="the example with as many neighbours as a line may have",
        commands=(arguments_of("discover", "neighbours.json"),),
        expected=prints(report(uids_of(count), frames)),
        folder=EXAMPLES,
        times=100,
    )


def report(uids: Sequence[str], frames: int) -> str:
    """What a discovery prints that finds these devices."""
    return "".join(f"{uid}\n" for uid in uids) + f"frames {frames}\n"


def uids_of(count: int) -> Sequence[str]:
    """The UIDs of so many devices."""
    return [f"0000:{device:08x}" for device in range(count)]


def scene(uids: Sequence[str]) -> str:
    """The scene of these devices."""
    devices = [{"uid": uid} for uid in uids]
    return json.dumps({"source": "7a70:00000100", "collisions": [{"bytes": "ff"}], "devices": devices})
