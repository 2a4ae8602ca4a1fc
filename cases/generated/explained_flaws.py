"""What explain shows of bytes that no honest line allows: what is wrong with them, and who is probably to blame.

The texts are those of Flaws.antt and FindingText.antt in crates/rdm_findings/specs.
"""
from __future__ import annotations

from typing import Iterator

from ..checker.case import Case
from .explained_runs import read
from .runs import LIAR, UIDS, CommandClass, Pid, ResponseType, command_of, discovery, encode_branch_reply, opening
from .runs import shows, uid_text

# A mute of the liar, and bytes that don't acknowledge it. They are judged in the order of this table.
SPARE = UIDS["spare"]
MUTE = command_of(("mute", "liar"), 3)
FINE = MUTE.answer(UIDS["liar"], ResponseType.ACK, bytes(2))
NACK = MUTE.answer(UIDS["liar"], ResponseType.NACK_REASON, bytes(2))
ENCODED = FINE.encode()
FLAWS = (
    ("they are too short for a response", ENCODED[:25]),
    ("they don't begin with the start code", b"\xcd" + ENCODED[1:]),
    ("their sub start code is wrong", ENCODED[:1] + b"\x02" + ENCODED[2:]),
    ("their message length is wrong", ENCODED[:-1]),
    ("their parameter data length is wrong", ENCODED[:23] + b"\x03" + ENCODED[24:]),
    ("their checksum is wrong", ENCODED[:-1] + bytes([ENCODED[-1] ^ 1])),
    ("their command class isn't that of a response", FINE._replace(command_class=CommandClass.DISCOVERY).encode()),
    ("their response type is unknown", FINE._replace(port_or_type=4).encode()),
    ("they answer another command", FINE._replace(pid=Pid.DISC_UN_MUTE).encode()),
    ("they answer another command", FINE._replace(command_class=0x21).encode()),
    ("they are from 1234:00000008", NACK._replace(source=SPARE).encode()),
    ("they are for another controller", NACK._replace(destination=SPARE).encode()),
    ("they have another transaction number", NACK._replace(transaction=4).encode()),
    ("they are a NACK", NACK.encode()),
    ("they are no ACK", FINE._replace(port_or_type=ResponseType.ACK_TIMER).encode()),
    ("they are no ACK", FINE._replace(port_or_type=ResponseType.ACK_OVERFLOW).encode()),
    ("they have neither 2 bytes of data nor 8", FINE._replace(data=bytes(3)).encode()),
)
FLAWED = """\
discovery: {} exchanges, 0 devices; others may be on the line, or the log ends within the run
exchange 3 mutes a UID that neither acknowledged nor was muted five times in a row: perhaps no device has it
not settled: a device from 0000:00000000 to ffff:ffffffff may be missing
1234:00000009 didn't acknowledge a mute (exchange 3 has other bytes: \
a rule was broken, by it, another device or noise)
exchange 3{}: bytes came after a mute of 1234:00000009 that don't acknowledge it: {}; \
a rule was broken, by a device or noise: take 1234:00000009 off the line and discover again; \
if your rig has no such device, split the line
"""

# The same after a mute of a UID that isn't listed, in a run that found the liar. Only the first two may be noise.
STRANGE = command_of(("mute", "spare"), 5)
WRONG = STRANGE.answer(UIDS["spare"], ResponseType.NACK_REASON, bytes(2))
STRANGE_FLAWS = (
    ("they are too short for a response", WRONG.encode()[:25], True),
    ("they don't begin with the start code", b"\xcd" + WRONG.encode()[1:], True),
    ("their checksum is wrong", WRONG.encode()[:-1] + bytes([WRONG.encode()[-1] ^ 1]), False),
    ("they are a NACK", WRONG.encode(), False),
)
STRANGER = """\
discovery: 15 exchanges, 1 device; no other device is on the line if all follow the rules; \
the log doesn't have the run's kind
1234:00000009 was found, and followed the rules
exchange 5: bytes came after a mute of 1234:00000008 that don't acknowledge it: {}; \
a rule was broken, {}
"""
NOISY = """\
probably by noise: 1234:00000008 isn't listed, and all listed devices were found; \
if it happens again, check the cable and its terminator"""
UNCLEAR = """\
by a device or noise: take 1234:00000008 off the line and discover again; \
if your rig has no such device, split the line"""

# The mute is answered by another device.
FROM_SPARE = FINE._replace(source=SPARE)
SPARE_ANSWERS = """\
discovery: 4 exchanges, 0 devices; others may be on the line, or the log ends within the run
exchange 3 mutes a UID that neither acknowledged nor was muted five times in a row: perhaps no device has it
not settled: a device from 0000:00000000 to ffff:ffffffff may be missing
1234:00000008 wasn't found yet; exchange 3 has its UID and an answer that wasn't due, perhaps another device's
1234:00000009 didn't acknowledge a mute (exchange 3 has other bytes: \
a rule was broken, by it, another device or noise)
exchange 3: bytes came after a mute of 1234:00000009 that don't acknowledge it: they are from 1234:00000008; \
a rule was broken, by a device or noise: take 1234:00000009 off the line and discover again; \
if your rig has no such device, split the line
"""

# A branch of a UID alone, and bytes that are the text of none. After the preamble come aa, twelve bytes of the UID and
# four of its checksum.
TEXT = encode_branch_reply(SPARE)[-17:]
BEGINS, SHORT = "they don't begin like a discovery reply", "they are too short for a discovery reply"
TEXT_FLAWS = (
    (BEGINS, b"\xfe" * 8 + TEXT), (BEGINS, b"\xfe" * 7), (BEGINS, b"\xfe" * 7 + b"\xab" + TEXT[1:]),
    (BEGINS, TEXT[1:]), (SHORT, TEXT[:-1]), (SHORT, b"\xfe" * 7 + TEXT[:-1]), (SHORT, b"\xaa"),
    ("their checksum is wrong", TEXT[:-1] + bytes([TEXT[-1] ^ 2])),
    ("their checksum is wrong", b"\xfe" * 7 + TEXT[:1] + bytes([TEXT[1] ^ 0x10]) + TEXT[2:]),
)
MISREAD = """\
discovery: {} exchanges, ended early at 1234:00000008 (it alone was asked, and the answers weren't a new device's), \
0 devices, but 1 listed device wasn't found; others may be on the line
{}not settled: a device from 0000:00000000 to ffff:ffffffff may be missing
1234:00000009 wasn't found: the run ended before it was clear whether it is there; it broke no rule until then
{}a rule was broken, by a device or noise: take {} off the line and discover again{}
"""
NO_DEVICE = "; if your rig has no such device, split the line"
# A mute of another UID, or the text of another UID, comes before bytes with a wrong checksum.
WRONG_SUM = TEXT_FLAWS[-1][1].hex()
AFTER_MUTE = MISREAD.format(
    5, "exchange 3 mutes a UID that neither acknowledged nor was muted five times in a row: perhaps no device has it\n",
    "1234:00000008 alone was asked, and bytes came that are no right answer; a rule was broken, by a device or noise "
    "(exchange 4)\n"
    "exchange 3 (and 1 more): bytes came after a mute of 1234:00000001 that don't acknowledge it: "
    "they are too short for a response; ", "1234:00000008", "; then 1234:00000001").replace(
        "noise: take 1234:00000008 off", "noise: first take 1234:00000008, at which the run ended, off")
AFTER_TEXT = MISREAD.format(
    5, "", "exchange 3 (and 1 more): 1234:00000008 alone was asked, and bytes came that are no right answer; "
    "they read as 1234:00000001; ", "1234:00000001", "; then 1234:00000008")

# Bytes of a UID that isn't listed, in runs that found the liar.
STRANGERS = """\
bytes after one of five mutes of a UID that isn't listed, in a run that found all devices
3 unmute; all > liar; mute liar > ack; mute spare > noise; 4 mute spare; 5 all
discovery: 15 exchanges, 1 device; no other device is on the line if all follow the rules; \
the log doesn't have the run's kind
1234:00000009 was found, and followed the rules
exchange 5: bytes came after a mute of 1234:00000008 that don't acknowledge it: \
they are too short for a response; a rule was broken, probably by noise: \
1234:00000008 isn't listed, and all listed devices were found; if it happens again, check the cable and its terminator
status 3

the same after two of its mutes
3 unmute; all > liar; mute liar > ack; 2 mute spare > noise; 3 mute spare; 5 all
discovery: 15 exchanges, 1 device; no other device is on the line if all follow the rules; \
the log doesn't have the run's kind
1234:00000009 was found, and followed the rules
exchange 5 (and 1 more): bytes came after a mute of 1234:00000008 that don't acknowledge it: \
they are too short for a response; a rule was broken, by a device or noise: \
take 1234:00000008 off the line and discover again; if your rig has no such device, split the line
status 3

the same after a branch of that UID alone
3 unmute; all > liar; mute liar > ack; 5 all; alone spare > noise
discovery: 11 exchanges, 1 device; no other device is on the line if all follow the rules; \
the log doesn't have the run's kind
1234:00000009 was found, and followed the rules
exchange 10: 1234:00000008 alone was asked, and bytes came that are no right answer: \
they don't begin like a discovery reply; a rule was broken, probably by noise: \
1234:00000008 isn't listed, and all listed devices were found; if it happens again, check the cable and its terminator
status 3

the same after one mute, if that UID was read where no listed device was due
3 unmute; all > liar; mute liar > ack; all > spare; mute spare > noise; 4 mute spare; 5 all
discovery: 16 exchanges, 1 device; no other device is on the line if all follow the rules; \
the log doesn't have the run's kind
1234:00000009 was found, and followed the rules
exchange 5 (and 1 more): the UIDs from 0000:00000000 to ffff:ffffffff were asked, and bytes came though no listed \
device was due; they read as 1234:00000008, which isn't listed; a rule was broken
exchange 6: bytes came after a mute of 1234:00000008 that don't acknowledge it: \
they are too short for a response; a rule was broken, by a device or noise: \
take 1234:00000008 off the line and discover again; if your rig has no such device, split the line
status 3

the text of a UID that no device may have
3 unmute; all > liar; mute liar > ack; 5 all; alone spare > nobody
discovery: 11 exchanges, 1 device; no other device is on the line if all follow the rules; \
the log doesn't have the run's kind
1234:00000009 was found, and followed the rules
exchange 10: 1234:00000008 alone was asked, and bytes came that are no right answer; \
a rule was broken, by a device or noise: take 1234:00000008 off the line and discover again; \
if your rig has no such device, split the line
status 3
"""

# Who is to blame. After the name come the opening's words. No device is given.
BLAMED = """\
a device that was found, and is answered wrongly five times
quick full
3 unmute; all > liar; mute liar > ack; 5 alone liar > noise
discovery: full, quick, 10 exchanges, 1 device; others may be on the line: \
the run ended there if it is of an older version, or the log ends within it
not settled: a device from 0000:00000000 to 1234:00000008 may be missing, perhaps others above it too
1234:00000009 was found; exchange 5 has its UID and an answer that wasn't due, perhaps another device's
exchange 5 (and 4 more): 1234:00000009 alone was asked, and bytes came that are no right answer: \
they don't begin like a discovery reply; a rule was broken, by a device rather than noise: \
take 1234:00000009 off the line and discover again
status 3

another UID's text five times
quick full
3 unmute; 5 alone spare > found
discovery: full, quick, 8 exchanges, 0 devices; others may be on the line: \
the run ended there if it is of an older version, or the log ends within it
not settled: a device from 0000:00000000 to ffff:ffffffff may be missing
exchange 3 (and 4 more): 1234:00000008 alone was asked, and bytes came that are no right answer; \
they read as 1234:00000001; a rule was broken, by a device rather than noise: \
take 1234:00000001 off the line and discover again; then 1234:00000008
status 3

noise from a broadcast UID alone, in a run that found all devices
steady full
3 unmute; all > liar; mute liar > ack; 5 all; alone nobody > noise
discovery: full, steady, 11 exchanges, 1 device; no other device is on the line if all follow the rules
1234:00000009 was found, and followed the rules
exchange 10: ffff:ffffffff alone was asked, and bytes came that are no right answer: \
they don't begin like a discovery reply; a rule was broken, probably by noise: \
no device may have ffff:ffffffff; if it happens again, check the cable and its terminator
status 3

five bad answers of a broadcast UID
quick full
3 unmute; 5 alone nobody > noise
discovery: full, quick, 8 exchanges, 0 devices; others may be on the line: \
the run ended there if it is of an older version, or the log ends within it
not settled: a device from 0000:00000000 to ffff:ffffffff may be missing
exchange 3 (and 4 more): ffff:ffffffff alone was asked, and bytes came that are no right answer: \
they don't begin like a discovery reply; a rule was broken, by a device rather than noise: \
split the line and discover each half
status 3

another UID's text, and then the UID with which a run ends
quick full
3 unmute; alone spare > found; 8 alone liar > noise
discovery: full, quick, 12 exchanges, ended early at 1234:00000009 (it alone was asked, and the answers weren't a new \
device's), 0 devices; others may be on the line
not settled: a device from 0000:00000000 to ffff:ffffffff may be missing
1234:00000009 alone was asked, and bytes came that are no right answer; \
a rule was broken, by a device rather than noise (exchange 4)
exchange 3 (and 8 more): 1234:00000008 alone was asked, and bytes came that are no right answer; \
they read as 1234:00000001; a rule was broken, by a device or noise: \
first take 1234:00000009, at which the run ended, off the line and discover again; then 1234:00000008
status 3

five bad answers, and then the UID with which a run ends
quick full
3 unmute; 5 alone spare > noise; 8 alone liar > noise
discovery: full, quick, 16 exchanges, ended early at 1234:00000009 (it alone was asked, and the answers weren't a new \
device's), 0 devices; others may be on the line
not settled: a device from 0000:00000000 to ffff:ffffffff may be missing
1234:00000009 alone was asked, and bytes came that are no right answer; \
a rule was broken, by a device rather than noise (exchange 8)
exchange 3 (and 12 more): 1234:00000008 alone was asked, and bytes came that are no right answer: \
they don't begin like a discovery reply; a rule was broken, by a device rather than noise: \
take 1234:00000008 off the line and discover again; if your rig has no such device, split the line
status 3

noise after a mute, and then from a broadcast UID, with which a run ends
steady full
3 unmute; all > found; mute found > noise; alone nobody > noise
discovery: full, steady, 6 exchanges, ended early at ffff:ffffffff (it alone was asked, and the answers weren't a new \
device's), 0 devices; others may be on the line
exchange 4 mutes a UID that neither acknowledged nor was muted five times in a row: perhaps no device has it
not settled: a device from 0000:00000000 to ffff:ffffffff may be missing
ffff:ffffffff alone was asked, and bytes came that are no right answer; a rule was broken, by a device or noise \
(exchange 5)
exchange 3 (and 2 more): the UIDs from 0000:00000000 to ffff:ffffffff were asked, and bytes came though no listed \
device was due; they read as 1234:00000001, which isn't listed
exchange 4 (and 1 more): bytes came after a mute of 1234:00000001 that don't acknowledge it: \
they are too short for a response; a rule was broken, by a device or noise: \
take 1234:00000001 off the line and discover again; if your rig has no such device, split the line
status 3

noise from a UID alone, in a run that found all devices
steady full
3 unmute; all > liar; mute liar > ack; 5 all; alone spare > noise
discovery: full, steady, 11 exchanges, 1 device; no other device is on the line if all follow the rules
1234:00000009 was found, and followed the rules
exchange 10: 1234:00000008 alone was asked, and bytes came that are no right answer: \
they don't begin like a discovery reply; a rule was broken, probably by noise if your rig has no 1234:00000008; \
if it has, name it by --present; if it happens again, check the cable and its terminator
status 3

the same of a UID whose text was read
steady full
3 unmute; all > spare; mute spare > noise; 4 mute spare; all > liar; mute liar > ack; 5 all
discovery: full, steady, 16 exchanges, 1 device; no other device is on the line if all follow the rules
1234:00000009 was found, and followed the rules
exchange 4: bytes came after a mute of 1234:00000008 that don't acknowledge it: \
they are too short for a response; a rule was broken, by a device or noise: \
take 1234:00000008 off the line and discover again; if your rig has no such device, split the line
status 3

noise after a mute of a device that is found
steady full
3 unmute; all > liar; mute liar > noise; mute liar > ack; 5 all
discovery: full, steady, 11 exchanges, 1 device; no other device is on the line if all follow the rules
1234:00000009 was found, but didn't acknowledge a mute \
(exchange 4 has other bytes: a rule was broken, by it, another device or noise)
exchange 4: bytes came after a mute of 1234:00000009 that don't acknowledge it: \
they are too short for a response; a rule was broken, probably by noise: \
1234:00000009 was found all the same; if it happens again, take it off the line and discover again
status 3

the same twice
steady full
3 unmute; all > liar; 2 mute liar > noise; mute liar > ack; 5 all
discovery: full, steady, 12 exchanges, 1 device; no other device is on the line if all follow the rules
1234:00000009 was found, but didn't acknowledge a mute \
(exchange 4 has other bytes: a rule was broken, by it, another device or noise)
exchange 4 (and 1 more): bytes came after a mute of 1234:00000009 that don't acknowledge it: \
they are too short for a response; a rule was broken, by a device or noise: \
take 1234:00000009 off the line and discover again
status 3

four bad answers, and then one of the UID with which a run ends
steady full
3 unmute; all > found; 4 mute found > noise; mute found; alone liar > noise
discovery: full, steady, 10 exchanges, ended early at 1234:00000009 (it alone was asked, and the answers weren't a new \
device's), 0 devices; others may be on the line
not settled: a device from 0000:00000000 to ffff:ffffffff may be missing
1234:00000009 alone was asked, and bytes came that are no right answer; a rule was broken, by a device or noise \
(exchange 9)
exchange 3 (and 5 more): the UIDs from 0000:00000000 to ffff:ffffffff were asked, and bytes came though no listed \
device was due; they read as 1234:00000001, which isn't listed
exchange 4 (and 4 more): bytes came after a mute of 1234:00000001 that don't acknowledge it: \
they are too short for a response; a rule was broken, by a device or noise: \
take 1234:00000001 off the line and discover again; if your rig has no such device, split the line
status 3

a bad answer, and then a UID that ends a run by ignoring mutes
steady full
3 unmute; all > found; mute found > noise; mute found > ack; alone liar > liar; 5 mute liar
discovery: full, steady, 12 exchanges, ended early at 1234:00000009 (it answered alone and then acknowledged no mute), \
1 device; others may be on the line
not settled: a device from 0000:00000000 to 1234:00000000 may be missing, perhaps others above it too
1234:00000001 was found, but didn't acknowledge a mute \
(exchange 4 has other bytes: a rule was broken, by it, another device or noise)
1234:00000009 answered alone and then acknowledged no mute: it left, or broke a rule
exchange 4: bytes came after a mute of 1234:00000001 that don't acknowledge it: \
they are too short for a response; a rule was broken, by a device or noise: \
first take 1234:00000009, at which the run ended, off the line and discover again; then 1234:00000001
status 3

noise after a mute of a known UID, in a run that found all devices
steady incremental 1234:00000008
3 unmute; mute spare > noise; 4 mute spare; all > liar; mute liar > ack; 5 all
discovery: incremental, steady, 15 exchanges, 1 device; no other device is on the line if all follow the rules
1234:00000009 was found, and followed the rules
1234:00000008 was known, and bytes came that don't acknowledge its mute: exchange 3
exchange 3: bytes came after a mute of 1234:00000008 that don't acknowledge it: they are too short for a response; \
a rule was broken, perhaps by noise if you took 1234:00000008 away; if it is still there, check its power and its \
cable, and discover again
status 3

the same twice
steady incremental 1234:00000008
3 unmute; 2 mute spare > noise; 3 mute spare; all > liar; mute liar > ack; 5 all
discovery: incremental, steady, 15 exchanges, 1 device; no other device is on the line if all follow the rules
1234:00000009 was found, and followed the rules
1234:00000008 was known, and bytes came that don't acknowledge its mute: exchange 3
exchange 3 (and 1 more): bytes came after a mute of 1234:00000008 that don't acknowledge it: \
they are too short for a response; a rule was broken, perhaps by noise if you took 1234:00000008 away; \
if it is still there, check its power and its cable, and discover again
status 3

the same five times
steady incremental 1234:00000008
3 unmute; 5 mute spare > noise; all > liar; mute liar > ack; 5 all
discovery: incremental, steady, 15 exchanges, 1 device; no other device is on the line if all follow the rules
1234:00000009 was found, and followed the rules
1234:00000008 was known, and bytes came that don't acknowledge its mute: exchange 3
exchange 3 (and 4 more): bytes came after a mute of 1234:00000008 that don't acknowledge it: \
they are too short for a response; a rule was broken, by a device rather than noise: \
take 1234:00000008 off the line and discover again; if your rig has no such device, split the line
status 3

noise after a mute of a known UID, and then from another UID, with which a run ends
steady incremental 1234:00000008
3 unmute; mute spare > noise; 4 mute spare; alone liar > noise
discovery: incremental, steady, 9 exchanges, ended early at 1234:00000009 (it alone was asked, and the answers weren't \
a new device's), 0 devices; others may be on the line
not settled: a device from 0000:00000000 to ffff:ffffffff may be missing
1234:00000009 alone was asked, and bytes came that are no right answer; a rule was broken, by a device or noise \
(exchange 8)
1234:00000008 was known, and bytes came that don't acknowledge its mute: exchange 3
exchange 3 (and 1 more): bytes came after a mute of 1234:00000008 that don't acknowledge it: \
they are too short for a response; a rule was broken, by a device or noise: \
take 1234:00000009, at which the run ended, off the line and discover again
status 3
"""


def cases() -> Iterator[Case]:
    """All mutes. Only the first one's flaw is told."""
    for at, (flaw, reply) in enumerate(FLAWS):
        run = f"3 unmute; mute liar > x{reply.hex()}"
        yield shows(f"flaw {at}: {flaw}", discovery(run), FLAWED.format(4, "", flaw), 3, [LIAR])
        yield shows(f"flaw {at}, and then noise: {flaw}", discovery(f"{run}; mute liar > noise"),
                    FLAWED.format(5, " (and 1 more)", flaw), 3, [LIAR])
    for flaw, reply, is_noisy in STRANGE_FLAWS:
        run = f"3 unmute; all > liar; mute liar > ack; mute spare > x{reply.hex()}; 4 mute spare; 5 all"
        text = STRANGER.format(flaw, NOISY if is_noisy else UNCLEAR)
        yield shows(f"a mute of a UID that isn't listed: {flaw}", discovery(run), text, 3, [LIAR])
    run = f"3 unmute; mute liar > x{FROM_SPARE.encode().hex()}"
    yield shows("a mute that another listed device answers", discovery(run), SPARE_ANSWERS, 3, [uid_text(SPARE), LIAR])
    for it in read(STRANGERS):
        yield shows(it.name, discovery(it.run), it.text, it.status, [LIAR])
    for it in read(BLAMED, has_opening=True):
        search, *words = it.opening
        log = opening(*words).replace("steady", search) + discovery(it.run)
        yield shows(f"who is to blame: {it.name}", log, it.text, it.status)
    for at, (flaw, reply) in enumerate(TEXT_FLAWS):
        run = f"3 unmute; alone spare > x{reply.hex()}"
        said = f"exchange 3{{}}: 1234:00000008 alone was asked, and bytes came that are no right answer: {flaw}; "
        yield shows(f"a flaw of a text, {at}: {flaw}", discovery(run),
                    MISREAD.format(4, "", said.format(""), "1234:00000008", NO_DEVICE), 3, [LIAR])
        text = MISREAD.format(5, "", said.format(" (and 1 more)"), "1234:00000008", NO_DEVICE)
        yield shows(f"the same {at}, and then noise", discovery(f"{run}; alone spare > noise"), text, 3, [LIAR])
    run = f"3 unmute; mute found > noise; alone spare > x{WRONG_SUM}"
    yield shows("a flaw of a text after one of a mute", discovery(run), AFTER_MUTE, 3, [LIAR])
    run = f"3 unmute; alone spare > found; alone spare > x{WRONG_SUM}"
    yield shows("a flaw of a text after the text of another UID", discovery(run), AFTER_TEXT, 3, [LIAR])
