"""Tests of bad UIDs: lines whose devices break the rules of discovery, and which UIDs a search sets apart there.

Such a device can't be read or muted, so that its UID alone is answered badly each time. A search goes upwards, and so
it finds the greatest of these last.
"""

import unittest
from typing import Dict

from packets import Fixtures, branch_reply
from wurstlinen import (
    MOST_BAD_UIDS, BadUids, Controller, DiscoveryAgent, NotOpen, RunFault, RunFaultKind, Search, Session, Uid)

SOURCE = Uid(0x7A70, 0x100)
GOOD = Uid(0x1234, 7)
IGNORES_MUTES, WRONG_SUM, CUTS_SHORT = "ignores mutes", "wrong sum", "cuts short"
THREE = {Uid(0x1234, 1): IGNORES_MUTES, Uid(0x1234, 3): WRONG_SUM, Uid(0x1234, 9): CUTS_SHORT}
NONE = BadUids((), False)


class Liars(Fixtures):
    """A line with a device that keeps the rules, and these that don't."""

    def __init__(self, lies: Dict[Uid, str]) -> None:
        super().__init__(GOOD, *lies)
        self.lies = lies

    def spelled(self, uid: Uid) -> bytes:
        text = branch_reply(uid)
        if self.lies.get(uid) == WRONG_SUM:
            return text[:-1] + bytes([text[-1] ^ 0xFF])
        return text[:-4] if self.lies.get(uid) == CUTS_SHORT else text

    def exchange(self, frame: bytes) -> bytes:
        is_mute = frame[20] == 0x10 and frame[21:23] == b"\0\2"
        target = Uid.from_number(int.from_bytes(frame[3:9], "big"))
        return b"" if is_mute and self.lies.get(target) == IGNORES_MUTES else super().exchange(frame)


def lying(count: int) -> Dict[Uid, str]:
    """So many devices with a wrong sum, whose UIDs follow the good one's."""
    return {Uid(0x1234, 8 + i): WRONG_SUM for i in range(count)}


def found_last_first(lies: Dict[Uid, str]) -> BadUids:
    return BadUids(tuple(sorted(lies, reverse=True)), False)


class OfAgents(unittest.TestCase):
    def test_each_device_that_lies(self) -> None:
        for lies in ({}, *({uid: lie} for uid, lie in THREE.items()), THREE, lying(MOST_BAD_UIDS)):
            with DiscoveryAgent(SOURCE) as agent:
                self.assertEqual(agent.bad_uids(), NONE)
                self.assertEqual([device.uid for device in agent.run(Liars(lies))], [GOOD], lies)
                self.assertEqual(agent.bad_uids(), found_last_first(lies))
                first = RunFault(RunFaultKind.CORRUPT, min(lies)) if lies else None
                self.assertEqual(agent.fault(), first)
        with self.assertRaises(NotOpen):
            agent.bad_uids()

    def test_more_than_are_listed(self) -> None:
        with DiscoveryAgent(SOURCE) as agent:
            agent.run(Liars(lying(MOST_BAD_UIDS + 1)))
            self.assertEqual(agent.bad_uids(), (found_last_first(lying(MOST_BAD_UIDS)).uids, True))

    def test_a_steady_run_sets_none_apart(self) -> None:
        with DiscoveryAgent(SOURCE, search=Search.STEADY) as agent:
            agent.run(Liars(THREE))
            self.assertEqual((agent.fault().kind, agent.bad_uids()), (RunFaultKind.CORRUPT, NONE))


class OfQueues(unittest.TestCase):
    def test_the_last_run(self) -> None:
        for queue in (Controller(SOURCE), Session(SOURCE, 5000)):
            self.addCleanup(queue.dispose)
            self.assertEqual((queue.bad_uids(), queue.bad_uids_run()), (NONE, 0))
            client = queue.join(1)
            client.discover()
            queue.run(Liars(THREE))
            found = client.next_discovery()
            self.assertEqual([device.uid for device in found.devices], [GOOD])
            self.assertEqual(found.fault, RunFault(RunFaultKind.CORRUPT, min(THREE)))
            self.assertEqual((queue.bad_uids(), queue.bad_uids_run()), (found_last_first(THREE), found.run))
            # Another request doesn't change them, and neither does a discovery before its run.
            client.get(GOOD, 0x60)
            queue.run(Liars(THREE))
            client.next_completion()
            client.discover()
            self.assertEqual((queue.bad_uids(), queue.bad_uids_run()), (found_last_first(THREE), 1))
            # The next run has set none apart so far.
            queue.take()
            queue.deliver(b"")
            self.assertEqual((queue.bad_uids(), queue.bad_uids_run()), (NONE, 2))
            queue.run(Liars({}))
            self.assertEqual((client.next_discovery().fault, queue.bad_uids(), queue.bad_uids_run()), (None, NONE, 2))

    def test_a_run_that_is_open(self) -> None:
        with Controller(SOURCE) as queue:
            client, line, sets = queue.join(0), Liars(THREE), [()]
            client.discover()
            while client.oldest() is None:
                queue.deliver(line.exchange(queue.take()))
                if queue.bad_uids().uids != sets[-1]:
                    sets.append(queue.bad_uids().uids)
            # One after another: the newest is the first.
            self.assertEqual(sets, [found_last_first(THREE).uids[at:] for at in (3, 2, 1, 0)])

    def test_what_a_close_and_a_rotation_leave(self) -> None:
        with Session(SOURCE, 5000) as session:
            client = session.join(1)
            client.discover()
            session.run(Liars(THREE))
            client.next_discovery()
            session.rotate(5000).dispose()
            self.assertEqual((session.bad_uids(), session.bad_uids_run()), (found_last_first(THREE), 1))
            client.discover()
            line = Liars(THREE)
            while not session.bad_uids().uids or session.bad_uids_run() == 1:
                session.deliver(line.exchange(session.take()))
            session.close()
            self.assertEqual(client.next_discovery().fault.kind, RunFaultKind.ABORTED)
            self.assertEqual((session.bad_uids(), session.bad_uids_run()), (BadUids((min(THREE),), False), 2))
