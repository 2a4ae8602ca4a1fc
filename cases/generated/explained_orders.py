"""What explain tells an engineer to do about a run, which it does at most once.

The texts are those of Orders.antt and Explained.antt in crates/rdm_findings/specs.
"""
from __future__ import annotations

from typing import Iterator

from ..checker.case import Case
from .explained_runs import read
from .runs import discovery, opening, shows

# After the name come the search, the kind, the known UIDs, and, after a plus sign, those that are given.
ORDERS = """\
a known device that is gone, and then noise from it alone, with which a run ends
steady incremental 1234:00000008
3 unmute; 5 mute spare; alone spare > noise
discovery: incremental, steady, 9 exchanges, ended early at 1234:00000008 (it alone was asked, and the answers weren't \
a new device's), 0 devices; others may be on the line
not settled: a device from 0000:00000000 to ffff:ffffffff may be missing
1234:00000008 was known, and didn't answer five mutes: exchange 7 is the last of them
exchange 8: 1234:00000008 alone was asked, and bytes came that are no right answer: \
they don't begin like a discovery reply; a rule was broken, perhaps by noise if you took 1234:00000008 away; \
if it is still there, check its power and its cable, and discover again
status 3

noise after a mute, and then from a known device alone that is gone, with which a run ends
steady incremental 1234:00000009
3 unmute; 5 mute liar; mute spare > noise; alone liar > noise
discovery: incremental, steady, 10 exchanges, ended early at 1234:00000009 (it alone was asked, and the answers \
weren't a new device's), 0 devices; others may be on the line
exchange 8 mutes a UID that neither acknowledged nor was muted five times in a row: perhaps no device has it
not settled: a device from 0000:00000000 to ffff:ffffffff may be missing
exchange 8 mutes a UID that no earlier branch had read
1234:00000009 alone was asked, and bytes came that are no right answer; a rule was broken, by a device or noise \
(exchange 9)
1234:00000009 was known, and didn't answer five mutes: exchange 7 is the last of them
exchange 8 (and 1 more): bytes came after a mute of 1234:00000008 that don't acknowledge it: \
they are too short for a response; a rule was broken, by a device or noise: \
take 1234:00000008 off the line and discover again; if your rig has no such device, split the line
status 3

a device that obeys a mute, and is silent after that
steady full
3 unmute; all > liar; mute liar > ack; 5 mute liar; 5 all
discovery: full, steady, 15 exchanges, 1 device; no other device is on the line if all follow the rules
1234:00000009 was found, but didn't mute (exchange 9 is the fifth mute of it in a row without an answer)
what to do: check the power, the cable and the UID of each device that didn't answer, and that RDM is on
status 3

bytes of a device that isn't listed, and then another one that ends the run
steady full
3 unmute; upper > new; alone liar > liar; 5 mute liar
discovery: full, steady, 10 exchanges, ended early at 1234:00000009 (it answered alone and then acknowledged no mute), \
0 devices; others may be on the line
not settled: a device from 0000:00000000 to ffff:ffffffff may be missing
1234:00000009 answered alone and then acknowledged no mute: it left, or broke a rule
exchange 3: the UIDs from 8000:00000000 to ffff:ffffffff were asked, and bytes came though no listed device was due; \
they read as 9abc:00000002, which isn't listed
what to do: take 1234:00000009 off the line and discover again
status 3

one bad answer, and then many of another UID
quick full
3 unmute; alone spare > noise; 5 alone liar > noise; all
discovery: full, quick, 10 exchanges, 0 devices; others may be on the line, or the log ends within the run
not settled: a device from 0000:00000000 to ffff:ffffffff may be missing
1234:00000009 alone was asked, and bytes came that are no right answer; \
a rule was broken, by a device rather than noise (exchange 4)
exchange 3 (and 5 more): 1234:00000008 alone was asked, and bytes came that are no right answer: \
they don't begin like a discovery reply; a rule was broken, by a device or noise: \
take 1234:00000009, which had many wrong answers, off the line and discover again
status 3

another UID's text, and then many bad answers of a broadcast UID
quick full
3 unmute; alone spare > found; 5 alone nobody > noise; all
discovery: full, quick, 10 exchanges, 0 devices; others may be on the line, or the log ends within the run
not settled: a device from 0000:00000000 to ffff:ffffffff may be missing
ffff:ffffffff alone was asked, and bytes came that are no right answer; \
a rule was broken, by a device rather than noise (exchange 4)
exchange 3 (and 5 more): 1234:00000008 alone was asked, and bytes came that are no right answer; \
they read as 1234:00000001; a rule was broken, by a device or noise: split the line and discover each half
status 3

many bad answers of a listed device
quick full +1234:00000008 +1234:00000009
3 unmute; alone spare > noise; 6 alone liar > noise; all
discovery: full, quick, 11 exchanges, 0 devices; others may be on the line, or the log ends within the run
not settled: a device from 0000:00000000 to ffff:ffffffff may be missing
1234:00000008 wasn't found yet; exchange 3 has its UID and an answer that wasn't due, perhaps another device's
1234:00000009 wasn't found yet; exchange 4 has its UID and an answer that wasn't due, perhaps another device's
exchange 3 (and 6 more): 1234:00000008 alone was asked, and bytes came that are no right answer: \
they don't begin like a discovery reply; a rule was broken, by a device or noise: \
take 1234:00000009, which had many wrong answers, off the line and discover again
status 3

noise after an unmute, and a listed device that is off
steady full +9abc:00000002
unmute > noise; 2 unmute; all > liar; mute liar > ack; 5 all
discovery: full, steady, 10 exchanges, 1 device, but 1 listed device wasn't found; \
no other device is on the line if all follow the rules
1234:00000009 was found, and followed the rules
9abc:00000002 was never heard (exchange 9 is the fifth silence in a row in a range that holds it)
exchange 0: bytes came after an unmute, which no device may answer
what to do: check the power, the cable and the UID of each device that didn't answer, and that RDM is on
status 3

noise after an unmute and a mute
steady full
unmute > noise; 2 unmute; all > liar; mute liar > noise; mute liar > ack; 5 all
discovery: full, steady, 11 exchanges, 1 device; no other device is on the line if all follow the rules
1234:00000009 was found, but didn't acknowledge a mute \
(exchange 4 has other bytes: a rule was broken, by it, another device or noise)
exchange 4: bytes came after a mute of 1234:00000009 that don't acknowledge it: \
they are too short for a response; a rule was broken, probably by noise: \
1234:00000009 was found all the same; if it happens again, take it off the line and discover again
exchange 0: bytes came after an unmute, which no device may answer
status 3

noise after a mute, and then an exchange that fails
steady full
3 unmute; all > liar; mute liar > noise; mute liar > failed
discovery: full, steady, 6 exchanges, 0 devices; others may be on the line
exchange 5 failed
exchange 4 mutes a UID that neither acknowledged nor was muted five times in a row: perhaps no device has it
not settled: a device from 0000:00000000 to ffff:ffffffff may be missing
exchange 3 (and 1 more): the UIDs from 0000:00000000 to ffff:ffffffff were asked, and bytes came though no listed \
device was due; they read as 1234:00000009, which isn't listed
exchange 4: bytes came after a mute of 1234:00000009 that don't acknowledge it: \
they are too short for a response; a rule was broken, by a device or noise
what to do: check the adapter and the cable
status 3

a muted device that answers alone, and then an exchange that fails
steady full
3 unmute; all > liar; mute liar > ack; alone liar > liar; all > failed
discovery: full, steady, 7 exchanges, 1 device; others may be on the line
exchange 6 failed
not settled: a device from 0000:00000000 to 1234:00000008 may be missing, perhaps others above it too
1234:00000009 was found; exchange 5 has its UID and an answer that wasn't due, perhaps another device's
exchange 5: 1234:00000009 alone was asked and answered, though it was muted: \
it restarted or broke a rule, or another has its UID
what to do: check the adapter and the cable
status 3

five bad answers, and then an exchange that fails
quick full
3 unmute; 5 alone spare > noise; all > failed
discovery: full, quick, 9 exchanges, 0 devices; others may be on the line
exchange 8 failed
not settled: a device from 0000:00000000 to ffff:ffffffff may be missing
exchange 3 (and 4 more): 1234:00000008 alone was asked, and bytes came that are no right answer: \
they don't begin like a discovery reply; a rule was broken, by a device rather than noise
what to do: check the adapter and the cable
status 3

another UID's text, and then an exchange that fails
quick full
3 unmute; alone spare > found; all > failed
discovery: full, quick, 5 exchanges, 0 devices; others may be on the line
exchange 4 failed
not settled: a device from 0000:00000000 to ffff:ffffffff may be missing
exchange 3: 1234:00000008 alone was asked, and bytes came that are no right answer; \
they read as 1234:00000001; a rule was broken, by a device or noise
what to do: check the adapter and the cable
status 3
"""

# A budget that the wrong answers of a listed device use up.
SPENT = """\
discovery: full, quick, 10 exchanges, ended early (its budget of 10 frames is used up) after many wrong answers of \
1234:00000009, 0 devices, but 2 listed devices weren't found; others may be on the line
not settled: a device from 0000:00000000 to ffff:ffffffff may be missing
1234:00000008 wasn't found: the run ended before it was clear whether it is there; exchange 3 has its UID and an \
answer that wasn't due, perhaps another device's
1234:00000009 wasn't found: the run ended before it was clear whether it is there; exchange 4 has its UID and an \
answer that wasn't due, perhaps another device's
exchange 3 (and 6 more): 1234:00000008 alone was asked, and bytes came that are no right answer: \
they don't begin like a discovery reply; a rule was broken, by a device or noise: \
take 1234:00000009, which had many wrong answers, off the line and discover again
"""


def cases() -> Iterator[Case]:
    """All runs."""
    for it in read(ORDERS, has_opening=True):
        search, *words = it.opening
        given = [word[1:] for word in words if word.startswith("+")]
        kind_and_known = [word for word in words if not word.startswith("+")]
        log = opening(*kind_and_known).replace("steady", search) + discovery(it.run)
        yield shows(f"what to do: {it.name}", log, it.text, it.status, given)
    log = opening("full").replace("steady", "quick").replace("384008", "10")
    yield shows("what to do: a budget that a listed device uses up",
                log + discovery("3 unmute; alone spare > noise; 6 alone liar > noise"), SPENT, 3,
                ["1234:00000008", "1234:00000009"])
