"""Compares quick runs of the library with a model of the search, exchange by exchange: on honest lines, in losses, bit
errors and noise, beside fixtures that lie, and with known UIDs."""
from __future__ import annotations

import itertools
import unittest
from typing import Any, Iterable, Optional, Tuple

from search_model import BAD, Model, Mute
from searches import ALL_ROWS, DISHONEST, HONEST, ODD, SOURCE, SPREADS, SimulatedLine, Wrong, devices_of, line_of
from wurstlinen import DiscoveryAgent, Kind, RunFaultKind, Uid
from wurstlinen.lines.numbers import CommandClass, Pid, ResponseType
from wurstlinen.lines.packets import decode_branch_reply, decode_packet, is_branch_frame

SIZES = (3, 10)
# Which of the rows of fixtures that lie are compared: all, or each third or fifth of them.
LYING = {"lies": 1, "noisy-lies": 3, "pairs": 5}
MUTE_BYTES = (2, 8)


class Compared:
    """The line of a model, which the library's run has too. It fails where that asks anything else."""

    def __init__(self, agent: DiscoveryAgent, line: SimulatedLine) -> None:
        self._agent, self._line = agent, line
        self.frames = 0

    def unmute(self) -> None:
        """All devices."""
        self._exchange(Pid.DISC_UN_MUTE, 0xFFFF_FFFF_FFFF)

    def mute(self, uid: int) -> Mute:
        """A device."""
        frame, reply = self._exchange(Pid.DISC_MUTE, uid)
        packet = decode_packet(reply)
        if packet is None:
            return Mute.OTHER if reply else Mute.SILENCE
        wanted = (SOURCE.number, uid, frame[15], ResponseType.ACK, CommandClass.DISCOVERY + 1, Pid.DISC_MUTE)
        is_ack = wanted == (packet.destination, packet.source, packet.transaction, packet.port_or_type,
                            packet.command_class, packet.pid) and len(packet.data) in MUTE_BYTES
        return Mute.ACK if is_ack else Mute.OTHER

    def branch(self, low: int, high: int) -> Optional[int]:
        """A range."""
        _, reply = self._exchange(Pid.DISC_UNIQUE_BRANCH, low, high)
        uid = decode_branch_reply(reply)
        return (BAD if reply else None) if uid is None else uid

    def _exchange(self, *wanted: int) -> Tuple[bytes, bytes]:
        """An exchange of the run, which has to ask this."""
        asked = self._agent.next()
        assert asked is not None, f"exchange {self.frames}: the run has ended, and the model asks {text_of(wanted)}"
        found = asked_by(asked[1])
        assert found == wanted, f"exchange {self.frames}: it asks {text_of(found)}, and the model {text_of(wanted)}"
        self.frames += 1
        reply = self._line.exchange(asked[1])
        self._agent.hear(reply)
        return asked[1], reply


def asked_by(frame: bytes) -> Tuple[int, ...]:
    """What a frame asks, and of whom."""
    if is_branch_frame(frame):
        return (Pid.DISC_UNIQUE_BRANCH, *(int.from_bytes(frame[at:at + 6], "big") for at in (24, 30)))
    packet = decode_packet(frame)
    assert packet is not None
    return packet.pid, packet.destination


def text_of(asked: Tuple[int, ...]) -> str:
    """What is asked, to be read."""
    return " ".join([Pid(asked[0]).name, *(str(Uid.from_number(uid)) for uid in asked[1:])])


class Runs(unittest.TestCase):
    def compare(self, spread: str, wrong: Wrong, size: int, seed: int, known: Iterable[int] = ()) -> Model:
        """Makes a run by the library and the model."""
        devices = devices_of(spread, size, seed)
        line = line_of(devices, seed, *wrong)
        kind = Kind.INCREMENTAL if known else Kind.FULL
        with self.subTest(spread=spread, wrong=wrong, size=size, seed=seed), \
                DiscoveryAgent(SOURCE, kind, [Uid.from_number(uid) for uid in known]) as agent:
            model = Model(Compared(agent, line), known)
            model.run()
            self.assertIsNone(agent.next())
            fault = agent.fault()
            self.assertEqual({device.uid.number for device in agent.devices()}, model.found)
            self.assertIn(None if fault is None else fault.kind, (None, RunFaultKind.CORRUPT))
            self.assertEqual(fault and fault.uid and fault.uid.number, model.fault)
            bad = agent.bad_uids()
            self.assertEqual(([uid.number for uid in bad.uids], bad.has_more), (model.aside, model.has_more))
        return model

    def rows(self, *rows: Tuple[str, Any]) -> None:
        """Each of these rows, with a few devices and more."""
        for seed, ((spread, wrong), size) in enumerate(itertools.product(rows, SIZES), 1):
            self.compare(spread, wrong, size, seed)

    def test_honest_lines(self) -> None:
        self.rows(*itertools.product(SPREADS, HONEST))

    def test_disturbed_lines(self) -> None:
        self.rows(*ALL_ROWS["noise"])

    def test_bursts_and_devices_that_break_the_rules(self) -> None:
        self.rows(*itertools.product(SPREADS, DISHONEST), *itertools.product(SPREADS, ODD))

    def test_fixtures_that_lie(self) -> None:
        for subject, step in LYING.items():
            for seed, (spread, wrong) in enumerate(ALL_ROWS[subject][::step], 1):
                self.compare(spread, wrong, (5, 12)[seed % 2], seed)

    def test_known_uids(self) -> None:
        for seed, (spread, wrong) in enumerate(itertools.product(SPREADS, HONEST), 1):
            devices = sorted(devices_of(spread, 10, seed))
            self.compare(spread, wrong, 10, seed, [*devices[::2], 0x1234_0000_0000 + seed])


if __name__ == "__main__":
    unittest.main()
