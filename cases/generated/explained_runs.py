"""What explain shows of single runs: devices that break a rule, bytes that no line should have, gaps in a certificate.

The texts are those of FindingText.antt and DeviceText.antt in crates/rdm_findings/specs, by the rules of
docs/FORMATS.md.
"""
from __future__ import annotations

from typing import Iterator, List, NamedTuple, Sequence

from ..checker.case import Case
from .runs import LIAR, discovery, opening, session_opening, session_run, shows, shows_with_scene

# Each block has a name, a run, all that is printed of it, and the status. An empty line ends a block.
#
# A discovery without an opening, and the same run in logs of sessions that don't have its kind either. The liar is
# given.
RUNS = """\
a device that never answers
3 unmute; 5 all
8 exchanges, 0 devices, but 1 listed device wasn't found; no other device is on the line if all follow the rules; \
the log doesn't have the run's kind
no byte came in the whole run: check the adapter and the first cable
1234:00000009 was never heard (exchange 7 is the fifth silence in a row in a range that holds it)
status 3

a device that answers too late
3 unmute; 5 all; all > liar; mute liar
10 exchanges, 0 devices; others may be on the line, or the log ends within the run
exchange 9 mutes a UID that neither acknowledged nor was muted five times in a row: perhaps no device has it
1234:00000009 didn't answer (exchange 7 is the fifth silence in a row in a range that holds it)
what to do: check the power, the cable and the UID of each device that didn't answer, and that RDM is on
status 3

other bytes from another UID alone, with which a run ends
3 unmute; alone spare > noise
4 exchanges, ended early at 1234:00000008 (it alone was asked, and the answers weren't a new device's), \
0 devices, but 1 listed device wasn't found; others may be on the line
not settled: a device from 0000:00000000 to ffff:ffffffff may be missing
1234:00000009 wasn't found: the run ended before it was clear whether it is there; it broke no rule until then
exchange 3: 1234:00000008 alone was asked, and bytes came that are no right answer: \
they don't begin like a discovery reply; a rule was broken, by a device or noise: \
take 1234:00000008 off the line and discover again; \
if your rig has no such device, split the line
status 3

the same after a complete certificate, with which a run has ended without a fault
3 unmute; 5 all; alone spare > noise
9 exchanges, 0 devices, but 1 listed device wasn't found; no other device is on the line if all follow the rules; \
the log doesn't have the run's kind
1234:00000009 was never heard (exchange 7 is the fifth silence in a row in a range that holds it)
exchange 8: 1234:00000008 alone was asked, and bytes came that are no right answer: \
they don't begin like a discovery reply; a rule was broken, by a device or noise: \
take 1234:00000008 off the line and discover again; \
if your rig has no such device, split the line
status 3

five mutes without an acknowledgement after a complete certificate
3 unmute; 5 all; alone spare > spare; 5 mute spare
14 exchanges, 0 devices, but 1 listed device wasn't found; no other device is on the line if all follow the rules; \
the log doesn't have the run's kind
1234:00000009 was never heard (exchange 7 is the fifth silence in a row in a range that holds it)
1234:00000008 answered alone and then acknowledged no mute: it left, or broke a rule
what to do: take 1234:00000008 off the line and discover again
status 3

other bytes after a mute of all devices, and after one of a device
3 unmute; mute nobody > noise; mute liar > noise
5 exchanges, 0 devices; others may be on the line, or the log ends within the run
exchange 3 mutes a UID that neither acknowledged nor was muted five times in a row: perhaps no device has it
not settled: a device from 0000:00000000 to ffff:ffffffff may be missing
1234:00000009 didn't acknowledge a mute (exchange 4 has other bytes: a rule was broken, by it, another device or \
noise)
exchange 3 (and 1 more): bytes came after a mute of ffff:ffffffff that don't acknowledge it: \
no device may answer a broadcast; a rule was broken, by a device or noise: split the line and discover each half
status 3

another UID's text from it alone, after which a run goes on
3 unmute; alone spare > spare
4 exchanges, 0 devices; others may be on the line, or the log ends within the run
not settled: a device from 0000:00000000 to ffff:ffffffff may be missing
1234:00000009 wasn't found yet; it followed the rules in the exchanges that the log has
exchange 3: 1234:00000008 alone was asked, and bytes came though no listed device was due; they read as \
1234:00000008, which isn't listed
what to do: name 1234:00000008 by --present, if your rig has it
status 0

the same and five mutes of it, with which a run ends
3 unmute; alone spare > spare; 5 mute spare
9 exchanges, ended early at 1234:00000008 (it answered alone and then acknowledged no mute), \
0 devices, but 1 listed device wasn't found; others may be on the line
not settled: a device from 0000:00000000 to ffff:ffffffff may be missing
1234:00000009 wasn't found: the run ended before it was clear whether it is there; it broke no rule until then
1234:00000008 answered alone and then acknowledged no mute: it left, or broke a rule
what to do: take 1234:00000008 off the line and discover again
status 3

the same, but the line fails at the fifth mute
3 unmute; alone spare > spare; 4 mute spare; mute spare > failed
9 exchanges, 0 devices, but 1 listed device wasn't found; others may be on the line
exchange 8 failed
not settled: a device from 0000:00000000 to ffff:ffffffff may be missing
1234:00000009 wasn't found: exchange 8 failed before it was clear whether it is there; it broke no rule until then
exchange 3: 1234:00000008 alone was asked, and bytes came though no listed device was due; they read as \
1234:00000008, which isn't listed
what to do: check the adapter and the cable
status 0

the same with other bytes after each mute
3 unmute; alone spare > spare; 5 mute spare > noise
9 exchanges, ended early at 1234:00000008 (it answered alone and then acknowledged no mute), \
0 devices, but 1 listed device wasn't found; others may be on the line
not settled: a device from 0000:00000000 to ffff:ffffffff may be missing
1234:00000009 wasn't found: the run ended before it was clear whether it is there; it broke no rule until then
1234:00000008 answered alone and then acknowledged no mute: a rule was broken, by a device rather than noise
exchange 4 (and 4 more): bytes came after a mute of 1234:00000008 that don't acknowledge it: \
they are too short for a response; a rule was broken, by a device rather than noise: take 1234:00000008 \
off the line and discover again; if your rig has no such device, split the line
status 3
"""

# Runs without an opening. The liar is given.
LIES = """\
four silent branches
3 unmute; 4 all
discovery: 7 exchanges, 0 devices; others may be on the line, or the log ends within the run
not settled: a device from 0000:00000000 to ffff:ffffffff may be missing
1234:00000009 wasn't found yet; it followed the rules in the exchanges that the log has
status 0

a device that is off, which an incremental run mutes first
3 unmute; 5 mute liar; 5 all
discovery: 13 exchanges, 0 devices, but 1 listed device wasn't found; no other device is on the line \
if all follow the rules; the log doesn't have the run's kind
no byte came in the whole run: check the adapter and the first cable
1234:00000009 was never heard (exchange 7 is the fifth mute of it in a row without an answer)
status 3

a broadcast UID that answers alone
3 unmute; alone nobody > nobody
discovery: 4 exchanges, ended early at ffff:ffffffff (it alone was asked, and the answers weren't a new device's), \
0 devices, but 1 listed device wasn't found; others may be on the line
not settled: a device from 0000:00000000 to ffff:ffffffff may be missing
1234:00000009 wasn't found: the run ended before it was clear whether it is there; it broke no rule until then
exchange 3: ffff:ffffffff alone was asked and answered, though no device may have it; a rule was broken: \
split the line and discover each half
status 3

other bytes from a broadcast UID alone
3 unmute; alone nobody > noise
discovery: 4 exchanges, ended early at ffff:ffffffff (it alone was asked, and the answers weren't a new device's), \
0 devices, but 1 listed device wasn't found; others may be on the line
not settled: a device from 0000:00000000 to ffff:ffffffff may be missing
1234:00000009 wasn't found: the run ended before it was clear whether it is there; it broke no rule until then
exchange 3: ffff:ffffffff alone was asked, and bytes came that are no right answer: \
they don't begin like a discovery reply; a rule was broken, by a device or noise: split the line and discover each half
status 3

four silent mutes
3 unmute; all > liar; 4 mute liar
discovery: 8 exchanges, 0 devices; others may be on the line, or the log ends within the run
exchange 4 mutes a UID that neither acknowledged nor was muted five times in a row: perhaps no device has it
not settled: a device from 0000:00000000 to ffff:ffffffff may be missing
1234:00000009 wasn't found yet; it followed the rules in the exchanges that the log has
status 0

bytes of a device that stays unmuted, first where another one was due, and then from it alone
3 unmute; all > liar; mute liar > ack; all > liar; mute spare > ack; 2 alone liar > liar
discovery: 9 exchanges, ended early at 1234:00000009 (it alone was asked, and the answers weren't a new device's), \
2 devices; others may be on the line
not settled: a device from 0000:00000000 to 1234:00000007 may be missing, perhaps others above it too
1234:00000008 was found, and followed the rules
1234:00000009 was found; exchange 7 has its UID and an answer that wasn't due, perhaps another device's
exchange 7 (and 1 more): 1234:00000009 alone was asked and answered, though it was muted: \
it restarted or broke a rule, or another has its UID; take it off the line and discover again
status 3

a device that answers alone, after an unmute and a mute that it didn't acknowledge
3 unmute; mute liar > ack; unmute; mute liar; mute spare > ack; alone liar > liar
discovery: 8 exchanges, ended early at 1234:00000009 (it alone was asked, and the answers weren't a new device's), \
2 devices; others may be on the line
not settled: a device from 0000:00000000 to 1234:00000007 may be missing, perhaps others above it too
1234:00000008 was found, and followed the rules
1234:00000009 was found, and followed the rules
status 0

the same, and then a mute that it acknowledged and silence
3 unmute; mute liar > ack; unmute; mute liar; mute spare > ack; alone liar > liar; mute liar > ack; alone liar
discovery: 10 exchanges, 2 devices; others may be on the line, or the log ends within the run
not settled: a device from 0000:00000000 to 1234:00000007 may be missing, perhaps others above it too
1234:00000008 was found, and followed the rules in the exchanges that the log has
1234:00000009 was found, and followed the rules in the exchanges that the log has
status 0

the same, and then its text
3 unmute; mute liar > ack; unmute; mute liar; mute spare > ack; alone liar > liar; mute liar > ack; alone liar; \
alone liar > liar
discovery: 11 exchanges, ended early at 1234:00000009 (it alone was asked, and the answers weren't a new device's), \
2 devices; others may be on the line
not settled: a device from 0000:00000000 to 1234:00000007 may be missing, perhaps others above it too
1234:00000008 was found, and followed the rules
1234:00000009 was found; exchange 10 has its UID and an answer that wasn't due, perhaps another device's
exchange 10: 1234:00000009 alone was asked and answered, though it was muted: \
it restarted or broke a rule, or another has its UID; take it off the line and discover again
status 3

bytes from a range with a listed device
3 unmute; lower > noise
discovery: 4 exchanges, 0 devices; others may be on the line, or the log ends within the run
not settled: a device from 0000:00000000 to ffff:ffffffff may be missing
1234:00000009 wasn't found yet; it followed the rules in the exchanges that the log has
status 0

bytes from a range with a listed device, and from one without
3 unmute; lower > noise; upper > noise
discovery: 5 exchanges, 0 devices; others may be on the line, or the log ends within the run
not settled: a device from 0000:00000000 to ffff:ffffffff may be missing
1234:00000009 wasn't found yet; it followed the rules in the exchanges that the log has
exchange 4: the UIDs from 8000:00000000 to ffff:ffffffff were asked, \
and bytes came though no listed device was due; \
they may be noise, or those of a device that isn't listed
status 0

other bytes after a mute of a listed device, and silence after one of another UID
3 unmute; mute liar > noise; mute spare
discovery: 5 exchanges, 0 devices; others may be on the line, or the log ends within the run
exchange 3 mutes a UID that neither acknowledged nor was muted five times in a row: perhaps no device has it
not settled: a device from 0000:00000000 to ffff:ffffffff may be missing
1234:00000009 didn't acknowledge a mute (exchange 3 has other bytes: a rule was broken, by it, another device or \
noise)
exchange 3: bytes came after a mute of 1234:00000009 that don't acknowledge it: \
they are too short for a response; a rule was broken, by a device or noise: \
take 1234:00000009 off the line and discover again; if your rig has no such device, split the line
status 3

the same, and other bytes after a mute of that UID
3 unmute; mute liar > noise; mute spare; mute spare > noise
discovery: 6 exchanges, 0 devices; others may be on the line, or the log ends within the run
exchange 3 mutes a UID that neither acknowledged nor was muted five times in a row: perhaps no device has it
not settled: a device from 0000:00000000 to ffff:ffffffff may be missing
1234:00000009 didn't acknowledge a mute (exchange 3 has other bytes: a rule was broken, by it, another device or \
noise)
exchange 5: bytes came after a mute of 1234:00000008, which isn't listed; \
they may be noise, or those of a device that isn't listed
exchange 3 (and 1 more): bytes came after a mute of 1234:00000009 that don't acknowledge it: \
they are too short for a response; a rule was broken, by a device or noise: \
take 1234:00000009 off the line and discover again; if your rig has no such device, split the line
status 3

noise from all UIDs and from two, and then the text of one from it alone
3 unmute; all > noise; spare to liar > noise; mute liar; alone liar; alone liar > liar
discovery: 8 exchanges, 0 devices; others may be on the line, or the log ends within the run
exchange 5 mutes a UID that neither acknowledged nor was muted five times in a row: perhaps no device has it
not settled: a device from 0000:00000000 to ffff:ffffffff may be missing
1234:00000009 wasn't found yet; it followed the rules in the exchanges that the log has
status 0

the same, and then noise from it alone
3 unmute; all > noise; spare to liar > noise; mute liar; alone liar; alone liar > liar; 2 alone liar > noise
discovery: 10 exchanges, ended early at 1234:00000009 (it alone was asked, and the answers weren't a new device's), \
0 devices, but 1 listed device wasn't found; others may be on the line
exchange 5 mutes a UID that neither acknowledged nor was muted five times in a row: perhaps no device has it
not settled: a device from 0000:00000000 to ffff:ffffffff may be missing
1234:00000009 wasn't found: the run ended before it was clear whether it is there; \
exchange 8 has its UID and an answer that wasn't due, perhaps another device's
exchange 8 (and 1 more): 1234:00000009 alone was asked, and bytes came that are no right answer: \
they don't begin like a discovery reply; a rule was broken, by a device or noise: \
take 1234:00000009 off the line and discover again; \
if your rig has no such device, split the line
status 3

a mute that is lost, and one that is acknowledged
3 unmute; mute liar; mute liar > ack
discovery: 5 exchanges, 1 device; others may be on the line, or the log ends within the run
not settled: a device from 0000:00000000 to 1234:00000008 may be missing, perhaps others above it too
1234:00000009 was found, and followed the rules in the exchanges that the log has
status 0

the same, and then one that is answered as a branch
3 unmute; mute liar; mute liar > ack; mute liar > liar
discovery: 6 exchanges, 1 device; others may be on the line, or the log ends within the run
not settled: a device from 0000:00000000 to 1234:00000008 may be missing, perhaps others above it too
1234:00000009 was found, but didn't acknowledge a mute \
(exchange 5 has other bytes: a rule was broken, by it, another device or noise)
exchange 5: bytes came after a mute of 1234:00000009 that don't acknowledge it: \
they are too short for a response; a rule was broken, by a device or noise: \
take 1234:00000009 off the line and discover again
status 3

another UID's text from a broadcast UID alone
3 unmute; alone nobody > spare
discovery: 4 exchanges, ended early at ffff:ffffffff (it alone was asked, and the answers weren't a new device's), \
0 devices, but 1 listed device wasn't found; others may be on the line
not settled: a device from 0000:00000000 to ffff:ffffffff may be missing
1234:00000009 wasn't found: the run ended before it was clear whether it is there; it broke no rule until then
exchange 3: ffff:ffffffff alone was asked, and bytes came that are no right answer; they read as 1234:00000008; \
a rule was broken, by a device or noise: take 1234:00000008 off the line and discover again
status 3

other bytes after a mute, and then an acknowledgement
3 unmute; mute liar > noise; mute liar > ack
discovery: 5 exchanges, 1 device; others may be on the line, or the log ends within the run
not settled: a device from 0000:00000000 to 1234:00000008 may be missing, perhaps others above it too
1234:00000009 was found, but didn't acknowledge a mute \
(exchange 3 has other bytes: a rule was broken, by it, another device or noise)
exchange 3: bytes came after a mute of 1234:00000009 that don't acknowledge it: \
they are too short for a response; a rule was broken, by a device or noise: \
take 1234:00000009 off the line and discover again
status 3

a device that is found, and silent after three more unmutes
3 unmute; all > liar; mute liar > ack; 3 unmute; 5 all
discovery: 13 exchanges, 1 device; no other device is on the line if all follow the rules; \
the log doesn't have the run's kind
1234:00000009 was found, but didn't answer (exchange 12 is the fifth silence in a row in a range that holds it)
what to do: check the power, the cable and the UID of each device that didn't answer, and that RDM is on
status 3

other bytes after two mutes of a UID that isn't listed
3 unmute; 2 mute spare > noise
discovery: 5 exchanges, 0 devices; others may be on the line, or the log ends within the run
exchange 3 mutes a UID that neither acknowledged nor was muted five times in a row: perhaps no device has it
not settled: a device from 0000:00000000 to ffff:ffffffff may be missing
1234:00000009 wasn't found yet; it followed the rules in the exchanges that the log has
exchange 3 (and 1 more): bytes came after a mute of 1234:00000008 that don't acknowledge it: \
they are too short for a response; a rule was broken, by a device or noise: \
take 1234:00000008 off the line and discover again; if your rig has no such device, split the line
status 3

another UID's text from a UID alone, after an exchange that failed
3 unmute; alone liar > failed; alone liar > spare
discovery: 5 exchanges, 0 devices, but 1 listed device wasn't found; others may be on the line
exchange 3 failed
not settled: a device from 0000:00000000 to ffff:ffffffff may be missing
1234:00000009 wasn't found: exchange 3 failed before it was clear whether it is there; it broke no rule until then
what to do: check the adapter and the cable
status 0

silence of the upper half
3 unmute; 5 upper
discovery: 8 exchanges, 0 devices; others may be on the line, or the log ends within the run
not settled: a device from 0000:00000000 to 7fff:ffffffff may be missing, perhaps others above it too
1234:00000009 wasn't found yet; it followed the rules in the exchanges that the log has
status 0

silence of the upper half, and then of the lower one
3 unmute; 5 upper; 5 lower
discovery: 13 exchanges, 0 devices, but 1 listed device wasn't found; no other device is on the line \
if all follow the rules; the log doesn't have the run's kind
no byte came in the whole run: check the adapter and the first cable
1234:00000009 was never heard (exchange 12 is the fifth silence in a row in a range that holds it)
status 3
"""

# Runs that mute 1234:00000001, which answers, and 5678:00000009, which doesn't, before they find 9abc:00000002. After
# the name comes the opening.
CERTIFICATES = """\
two known UIDs, one of which is there
incremental 1234:00000001 5678:00000009
3 unmute; mute found; mute found > bound; 5 mute absent; all > new; mute new > bound; 5 all
discovery: incremental, steady, 17 exchanges, 2 devices; no other device is on the line if all follow the rules
1234:00000001 was found, and followed the rules
9abc:00000002 was found, and followed the rules
5678:00000009 was known, and didn't answer five mutes: exchange 9 is the last of them
status 0

two unmutes
incremental 1234:00000001 5678:00000009
2 unmute; mute found; mute found > bound; 5 mute absent; all > new; mute new > bound; 5 all
discovery: incremental, steady, 16 exchanges, 2 devices; others may be on the line
exchange 2 should be one of the three unmutes that begin a run
1234:00000001 was found, and followed the rules in the exchanges that the log has
9abc:00000002 was found, and followed the rules in the exchanges that the log has
5678:00000009 was known, and didn't answer five mutes: exchange 8 is the last of them
status 0

two exchanges that fail
incremental 1234:00000001 5678:00000009
3 unmute; mute found; mute found > bound; 5 mute absent; all > new; mute new > bound; 5 all; 2 all > failed
discovery: incremental, steady, 19 exchanges, 2 devices; others may be on the line
exchange 17 failed
1234:00000001 was found, and followed the rules until exchange 17 failed
9abc:00000002 was found, and followed the rules until exchange 17 failed
5678:00000009 was known, and didn't answer five mutes: exchange 9 is the last of them
what to do: check the adapter and the cable
status 0

four mutes of a UID that isn't there
incremental 1234:00000001 5678:00000009
3 unmute; mute found; mute found > bound; 4 mute absent; all > new; mute new > bound; 5 all
discovery: incremental, steady, 16 exchanges, 2 devices; others may be on the line, or the log ends within the run
exchange 5 mutes a UID that neither acknowledged nor was muted five times in a row: perhaps no device has it
1234:00000001 was found, and followed the rules in the exchanges that the log has
9abc:00000002 was found, and followed the rules in the exchanges that the log has
status 0

a mute of a UID that is neither known nor read
incremental 1234:00000001
3 unmute; mute found; mute found > bound; 5 mute absent; all > new; mute new > bound; 5 all
discovery: incremental, steady, 17 exchanges, 2 devices; \
no other device is on the line if all follow the rules, but the run isn't regular
exchange 5 mutes a UID that no earlier branch had read
1234:00000001 was found, and followed the rules
9abc:00000002 was found, and followed the rules
what to do: discover again; if this comes again, suspect the controller or its log
status 0

a known UID that is muted only after a branch
incremental 1234:00000001 5678:00000009 9abc:00000002
3 unmute; mute found; mute found > bound; 5 mute absent; all > new; mute new > bound; 5 all
discovery: incremental, steady, 17 exchanges, 2 devices; \
no other device is on the line if all follow the rules, but the run isn't regular
9abc:00000002 is known, but wasn't muted before the first branch
1234:00000001 was found, and followed the rules
9abc:00000002 was found, and followed the rules
5678:00000009 was known, and didn't answer five mutes: exchange 9 is the last of them
what to do: discover again; if this comes again, suspect the controller or its log
status 0

a full run that mutes known UIDs
full 1234:00000001 5678:00000009
3 unmute; mute found; mute found > bound; 5 mute absent; all > new; mute new > bound; 5 all
discovery: full, steady, 17 exchanges, 2 devices; \
no other device is on the line if all follow the rules, but the run isn't regular
exchange 3 mutes a UID that no earlier branch had read
1234:00000001 was found, and followed the rules
9abc:00000002 was found, and followed the rules
5678:00000009 was known, and didn't answer five mutes: exchange 9 is the last of them
what to do: discover again; if this comes again, suspect the controller or its log
status 0
"""

# A run of one exchange, within which the log may begin.
BEGUN = """\
run 1: 1 exchange, 0 devices; others may be on the line, as the log may begin within the run; \
exchanges count from there
1234:00000009 followed the rules in the exchanges that the log has
"""

# Five silences of a run whose beginning the log doesn't have, or may not have.
SILENCES = "3 unmute; 5 all"
FROM_TWO = """\
discovery: 8 exchanges, 0 devices; others may be on the line, as the log begins within the run
1234:00000009 didn't answer (exchange 9 is the fifth silence in a row in a range that holds it)
what to do: check the power, the cable and the UID of each device that didn't answer, and that RDM is on
"""
LATER = """\
run 1: steady, 8 exchanges, 0 devices; others may be on the line, as the log begins within the run; \
exchanges count from there
1234:00000009 didn't answer (exchange 7 is the fifth silence in a row in a range that holds it)
what to do: check the power, the cable and the UID of each device that didn't answer, and that RDM is on
"""
UNKNOWN = """\
run 1: 8 exchanges, 0 devices; others may be on the line, as the log may begin within the run; \
exchanges count from there
1234:00000009 didn't answer (exchange 7 is the fifth silence in a row in a range that holds it)
what to do: check the power, the cable and the UID of each device that didn't answer, and that RDM is on
"""

# A known device is switched on after its mutes. Only a scene can say so.
COMES = "3 unmute; 5 mute found; all > found; mute found > ack; 5 all"
SCENE = '{"source": "7a70:00000100", "devices": [{"uid": "1234:00000001", "from": 8}]}'
UNJUDGED = """\
1234:00000001 can't be judged: it comes or leaves, and may have been absent when it was asked
discovery: incremental, steady, 15 exchanges, 1 device; no other device is on the line if all follow the rules
"""
JUDGED = """\
discovery: incremental, steady, 15 exchanges, 1 device; no other device is on the line if all follow the rules
1234:00000001 was found, but didn't mute (exchange 7 is the fifth mute of it in a row without an answer)
what to do: check the power, the cable and the UID of each device that didn't answer, and that RDM is on
"""

# A device that by the scene comes at exchange 8. Silence shows nothing of it, but its acknowledgement does.
LATE_SCENE = '{"source": "7a70:00000100", "devices": [{"uid": "9abc:00000002", "from": 8}]}'
UNJUDGED_NEW = "9abc:00000002 can't be judged: it comes or leaves, and may have been absent when it was asked\n"
PASSES = (
    ("a device that answers when it has come, in a log from exchange 3", discovery("5 all; all > new", first=3), """\
discovery: 6 exchanges, 0 devices; others may be on the line, as the log begins within the run
""", 0),
    ("a device that comes after two mutes and five silences",
     opening("incremental", "9abc:00000002") + discovery("3 unmute; 2 mute new; 5 all; all > new; mute new > ack"), """\
discovery: incremental, steady, 12 exchanges, 1 device; no other device is on the line if all follow the rules
""", 0),
    ("a device that comes, and answers after its acknowledgement",
     opening("full") + discovery("3 unmute; 5 all; all > new; mute new > ack; 2 all > new"), """\
discovery: full, steady, 12 exchanges, 1 device; no other device is on the line if all follow the rules
exchange 10 (and 1 more): the UIDs from 0000:00000000 to ffff:ffffffff were asked, \
and bytes came though no listed device was due; \
they read as 9abc:00000002, which should be silent there unless it restarted
what to do: look for noise, a device that isn't listed, or one that answers when it should be silent
""", 3),
    ("the same after an unmute",
     opening("full") + discovery("3 unmute; 5 all; all > new; mute new > ack; unmute; 2 all > new"), """\
discovery: full, steady, 13 exchanges, 1 device; no other device is on the line if all follow the rules
""", 0),
)

class Block(NamedTuple):
    """What a table has of a case; the words of an opening only in some tables."""

    name: str
    opening: Sequence[str]
    run: str
    text: str
    status: int


def read(table: str, has_opening: bool = False) -> Iterator[Block]:
    """The blocks of a table."""
    for block in table.rstrip("\n").split("\n\n"):
        name, *lines = block.split("\n")
        words: List[str] = lines.pop(0).split() if has_opening else []
        run, *text, status = lines
        yield Block(name, words, run, "".join(f"{line}\n" for line in text), int(status.partition(" ")[2]))


def cases() -> Iterator[Case]:
    """All runs."""
    continued, begun = session_opening("steady", next_ask=1, next_run=1), session_run(1, "unmute")
    for it in read(RUNS):
        yield shows(it.name, discovery(it.run), f"discovery: {it.text}", it.status, [LIAR])
        log = continued + session_run(1, it.run)
        yield shows(f"{it.name}, after an opening", log, f"run 1: steady, {it.text}", it.status, [LIAR])
        log = begun + session_run(2, it.run)
        yield shows(f"{it.name}, after another run", log, f"{BEGUN}run 2: {it.text}", it.status, [LIAR])
    for it in read(LIES):
        yield shows(it.name, discovery(it.run), it.text, it.status, [LIAR])
    for it in read(CERTIFICATES, has_opening=True):
        yield shows(it.name, opening(*it.opening) + discovery(it.run), it.text, it.status)
    yield from begun_before()
    log = opening("incremental", "1234:00000001") + discovery(COMES)
    yield shows_with_scene("a known device that comes after its mutes", log, SCENE, UNJUDGED)
    yield shows("the same without the scene", log, JUDGED, 3)
    for name, log, text, status in PASSES:
        yield shows_with_scene(name, log, LATE_SCENE, UNJUDGED_NEW + text, status)


def begun_before() -> Iterator[Case]:
    """Logs that begin, or may begin, within a run."""
    within = session_opening("steady", next_ask=1, next_run=2)
    yield shows("a log from exchange 2", discovery(SILENCES, first=2), FROM_TWO, 3, [LIAR])
    yield shows("a log from within run 1", within + session_run(1, SILENCES), LATER, 3, [LIAR])
    yield shows("a log that may begin within run 1", session_run(1, SILENCES), UNKNOWN, 3, [LIAR])
