"""What explain shows of whole logs: parts of a discovery, logs one after another, the runs of sessions.

The texts are those of FindingText.antt and DeviceText.antt in crates/rdm_findings/specs, by the rules of
docs/FORMATS.md.
"""
from __future__ import annotations

from typing import Iterator

from ..checker.case import Case, Expected
from .runs import LIAR, answer, ask, discovery, explained, misread, mutes, opening, refuses, session_opening
from .runs import session_run, shows

# A discovery that finds one device.
FINDS = "3 unmute; all > found; mute found > ack; 5 all"
FULL = opening("full")
QUICK = FULL.replace("steady", "quick")
UNCOVERED = """\
not settled: a device from 0000:00000000 to ffff:ffffffff may be missing
"""
UNTRIED = """\
exchange 7 mutes a UID that neither acknowledged nor was muted five times in a row: perhaps no device has it
"""
UNREAD = "exchange 7 mutes a UID that no earlier branch had read\n"
# How a quick run goes on, and how it ends.
GOES_ON = "0 devices; others may be on the line, or the log ends within the run\n"
# The same of a quick run, if one of an older version would have ended there.
OLD = "0 devices; others may be on the line: the run ended there if it is of an older version, or the log ends " \
      "within it\n"
ENDS = """\
ended early at 1234:00000008 (it alone was asked, and the answers weren't a new device's), 0 devices; \
others may be on the line
"""
ENDS_UNMUTED = ENDS.replace("(it alone was asked, and the answers weren't a new device's)",
                            "(it answered alone and then acknowledged no mute)")
GARBLED = """\
exchange 3{}: 1234:00000008 alone was asked, and bytes came that are no right answer: \
they don't begin like a discovery reply; a rule was broken, """
# Few bad answers may be noise, and five are rather the device's.
FEW = f"""\
{GARBLED}by a device or noise: take 1234:00000008 off the line and discover again; \
if your rig has no such device, split the line
"""
OFTEN = f"""\
{GARBLED}by a device rather than noise: take 1234:00000008 off the line and discover again; \
if your rig has no such device, split the line
"""
IGNORES = """\
1234:00000008 answered alone and then acknowledged no mute: it left, or broke a rule
what to do: take 1234:00000008 off the line and discover again
"""

FOUND = """\
discovery: full, steady, 10 exchanges, 1 device; no other device is on the line if all follow the rules
1234:00000001 was found, and followed the rules
"""

# Without its opening.
FOUND_UNOPENED = """\
discovery: 10 exchanges, 1 device; no other device is on the line if all follow the rules; \
the log doesn't have the run's kind
1234:00000001 was found, and followed the rules
"""

# Its exchanges 0 to 3, exchange 3 alone, and those from 5.
UNMUTED = """\
discovery: full, steady, 4 exchanges, 0 devices; others may be on the line, or the log ends within the run
not settled: a device from 0000:00000000 to ffff:ffffffff may be missing
exchange 3: the UIDs from 0000:00000000 to ffff:ffffffff were asked, \
and bytes came though no listed device was due; \
they read as 1234:00000001, which isn't listed
what to do: name 1234:00000001 by --present, if your rig has it
"""

ALONE = """\
discovery: 1 exchange, 0 devices; others may be on the line, as the log begins within the run
exchange 3: the UIDs from 0000:00000000 to ffff:ffffffff were asked, \
and bytes came though no listed device was due; \
they read as 1234:00000001, which isn't listed
what to do: name 1234:00000001 by --present, if your rig has it
"""

CUT_BEFORE = """\
discovery: 5 exchanges, 0 devices; others may be on the line, as the log begins within the run
"""

# Its exchanges from 4, with another opening.
OTHER_PART = """\
discovery: {}, 6 exchanges, 1 device; others may be on the line, as the log begins within the run
1234:00000001 was found, and followed the rules in the exchanges that the log has
"""

# A device that no unmute in the log reaches may be muted.
LATE = "1234:00000009 followed the rules in the exchanges that the log has\n"

# A session with a run whose line fails after a request.
FAILING = (
    '{"entry":"join","client":0,"places":1}\n' + ask(0, "full") + session_run(1, "unmute; unmute > failed")
    + answer(0, 1, fault=4) + '{"entry":"collect","client":0}\n'
)

FAILED = """\
run 1: full, 2 exchanges, ended early (the line failed), 0 devices; others may be on the line
exchange 2 should be one of the three unmutes that begin a run
exchange 1 failed
not settled: a device from 0000:00000000 to ffff:ffffffff may be missing
what to do: check the adapter and the cable
"""

# A new session, and those of logs that continue one: no run is in progress, and discovery 1 may wait; or run 2 is in
# progress.
NEW = session_opening("quick", next_ask=0, next_run=1)
WAITING = session_opening("steady", next_ask=2, next_run=2, number=10, devices=["1234:00000001"])
WITHIN = session_opening("steady", next_ask=2, next_run=3, number=11, devices=["1234:00000001"])

# Runs of one exchange, the second of which serves a full discovery. The last one has no answer.
KINDS = (
    ask(0, "incremental") + session_run(1, "unmute") + answer(0, 1, fault=3)
    + ask(1, "incremental") + ask(2, "full") + ask(3, "incremental") + session_run(2, "unmute")
    + answer(1, 2, fault=3) + answer(2, 2, fault=3) + answer(3, 2, fault=3)
    + ask(4, "incremental") + session_run(3, "unmute")
)

# Run 2 serves discovery 1, and run 3 discovery 2.
CONTINUED = (
    session_run(2, "unmute") + answer(1, 2, fault=3)
    + ask(2, "incremental") + session_run(3, "unmute") + answer(2, 3, fault=3)
)

# A run that finds a device, one with a fault, and one without an answer.
THREE_RUNS = (
    ask(0, "full") + session_run(1, FINDS) + answer(0, 1)
    + ask(1, "incremental") + session_run(2, "unmute") + answer(1, 2, fault=3)
    + ask(2, "incremental") + session_run(3, "unmute")
)

# What one exchange leaves open.
GAPS = """\
exchange 1 should be one of the three unmutes that begin a run
not settled: a device from 0000:00000000 to ffff:ffffffff may be missing
"""

# A known device, in a run that ended too soon.
GONE = "1234:00000001 was known, and wasn't found: the run ended before it was clear whether it is there\n"

# Those that ended, and all of them.
ENDED = f"""\
run 1: incremental, quick, 1 exchange, ended early (its budget of 384008 frames is used up), 0 devices; \
others may be on the line
{GAPS}\
run 2: full, quick, 1 exchange, ended early (its budget of 384008 frames is used up), 0 devices; \
others may be on the line
{GAPS}"""

OF_KINDS = f"""\
{ENDED}\
run 3: incremental, quick, 1 exchange, 0 devices; others may be on the line, or the log ends within the run
{GAPS}"""

AFTER_WAITING = f"""\
run 2: steady, 1 exchange, ended early (its budget of 384008 frames is used up), 0 devices; others may be on the line
{GAPS}{GONE}\
run 3: incremental, steady, 1 exchange, ended early (its budget of 384008 frames is used up), 0 devices; \
others may be on the line
{GAPS}\
1234:00000001 is known, but wasn't muted before the first branch
{GONE}"""

FROM_WITHIN = f"""\
run 2: steady, 1 exchange, ended early (its budget of 384008 frames is used up), 0 devices; \
others may be on the line, as the log begins within the run; exchanges count from there
run 3: incremental, steady, 1 exchange, ended early (its budget of 384008 frames is used up), 0 devices; \
others may be on the line
{GAPS}\
1234:00000001 is known, but wasn't muted before the first branch
{GONE}"""

UNOPENED = f"""\
run 2: 1 exchange, ended early (its budget of frames is used up), 0 devices; \
others may be on the line, as the log may begin within the run; exchanges count from there
run 3: incremental, 1 exchange, ended early (its budget of frames is used up), 0 devices; others may be on the line
{GAPS}"""

OF_THREE_RUNS = f"""\
run 1: full, quick, 10 exchanges, no fault, 1 device; no other device is on the line if all follow the rules
1234:00000001 was found, and followed the rules
run 2: incremental, quick, 1 exchange, ended early (its budget of 384008 frames is used up), 0 devices; \
others may be on the line
{GAPS}\
1234:00000001 is known, but wasn't muted before the first branch
{GONE}\
run 3: incremental, quick, 1 exchange, 0 devices; others may be on the line, or the log ends within the run
{GAPS}\
1234:00000001 is known, but wasn't muted before the first branch
"""

# A device that run 1 finds is off in run 2, which is full or incremental.
FOUND_FIRST = """\
run 1: full, quick, 10 exchanges, no fault, 1 device; no other device is on the line if all follow the rules
1234:00000001 was found, and followed the rules
"""
QUIET = "no byte came in the whole run: check the adapter and the first cable\n"
OFF_IN_FULL = f"""\
{FOUND_FIRST}\
run 2: full, quick, 8 exchanges, no fault, 0 devices; no other device is on the line if all follow the rules
{QUIET}\
1234:00000001 was known, and wasn't heard: exchange 7 is the fifth silence in a row in a range that holds it
"""
OFF_IN_INCREMENTAL = f"""\
{FOUND_FIRST}\
run 2: incremental, quick, 13 exchanges, no fault, 0 devices; no other device is on the line if all follow the rules
{QUIET}\
1234:00000001 was known, and didn't answer five mutes: exchange 7 is the last of them
"""
OFF_BUT_GIVEN = f"""\
{FOUND_FIRST}\
run 2: full, quick, 8 exchanges, no fault, 0 devices, but 1 listed device wasn't found; \
no other device is on the line if all follow the rules
{QUIET}\
1234:00000001 was never heard \
(exchange 7 is the fifth silence in a row in a range that holds it)
"""

# After the answer of run 1 the log has all of run 2.
ANSWERED = answer(0, 1) + ask(1, "incremental") + session_run(2, "unmute") + answer(1, 2, fault=3)
AFTER_ANSWER = f"""\
run 2: incremental, 1 exchange, ended early (its budget of frames is used up), 0 devices; others may be on the line
{GAPS}"""

# 1,025 devices acknowledge mutes.
TOO_MANY = FULL + discovery("3 unmute") + mutes(1025, first=3)
CROWDED = """\
discovery: full, steady, 1028 exchanges, ended early (more than 1,024 devices answered), 1024 devices; \
others may be on the line
1234:00000401 acknowledged a mute, but isn't reported: a run reports at most 1,024 devices
not settled: a device from 0000:00000000 to 1234:00000000 may be missing, perhaps others above it too
exchange 3 mutes a UID that no earlier branch had read
""" + "".join(f"1234:{number:08x} was found, and followed the rules\n" for number in range(1, 1025)) + """\
exchange 1027: bytes came after a mute of 1234:00000401, which isn't listed; \
they may be noise, or those of a device that isn't listed
"""

# Quick runs in which several UIDs that aren't listed were answered wrongly when they were asked alone, or answered
# alone and then no mute. The last one isn't the only one that is judged.
WRONG = "{} alone was asked, and bytes came that are no right answer; a rule was broken, by a device or noise " \
        "(exchange {})\n"
NO_MUTE = "{} answered alone and then acknowledged no mute: it left, or broke a rule\n"
OFF = "what to do: take {} off the line and discover again\n"
FIRST_WRONG = """\
exchange {0} (and {1} more): {2} alone was asked, and bytes came that are no right answer: \
they don't begin like a discovery reply; a rule was broken, by a device or noise: \
take {2} off the line and discover again; \
if your rig has no such device, split the line
"""
# The same before an exchange that fails, and then what to do.
WRONG_BEFORE = FIRST_WRONG[:FIRST_WRONG.index(": take")] + "\n"
ADAPTER = "what to do: check the adapter and the cable\n"
SPARE, NEW_ONE = "1234:00000008", "9abc:00000002"
LIARS = (
    ("one that answers no mute, and then one that is answered wrongly",
     "3 unmute; alone spare > spare; 5 mute spare; 4 alone liar > noise", f"13 exchanges, {OLD}{UNCOVERED}"
     + NO_MUTE.format(SPARE) + FIRST_WRONG.format(9, 3, LIAR)),
    ("two that are answered wrongly, and then one that answers no mute",
     "3 unmute; 4 alone spare > noise; 4 alone liar > noise; alone new > new; 5 mute new",
     f"17 exchanges, {OLD}{UNCOVERED}" + NO_MUTE.format(NEW_ONE) + WRONG.format(LIAR, 7)
     + FIRST_WRONG.format(3, 7, SPARE)),
    ("two that answer no mute, one of them twice",
     "3 unmute; alone spare > spare; 5 mute spare; alone liar > liar; 5 mute liar; alone spare > spare; 5 mute spare",
     f"21 exchanges, {OLD}{UNCOVERED}" + NO_MUTE.format(SPARE) + NO_MUTE.format(LIAR) + OFF.format(SPARE)),
    ("one of each before an exchange that fails, and another one after it",
     "3 unmute; 4 alone spare > noise; alone liar > liar; 5 mute liar; all > failed; alone new > noise",
     "15 exchanges, 0 devices; others may be on the line\nexchange 13 failed\n"
     + UNCOVERED + NO_MUTE.format(LIAR) + WRONG_BEFORE.format(3, 3, SPARE) + ADAPTER),
    ("one that answers no mute, well before an exchange that fails",
     "3 unmute; alone spare > spare; 5 mute spare; 2 all; all > failed",
     "12 exchanges, 0 devices; others may be on the line\nexchange 11 failed\n"
     + UNCOVERED + NO_MUTE.format(SPARE) + ADAPTER),
    ("noise of a range, and then two of it that are answered wrongly",
     "3 unmute; lower > noise; alone spare > noise; alone liar > noise; all", f"7 exchanges, {GOES_ON}{UNCOVERED}"
     + WRONG.format(LIAR, 5) + "exchange 3 (and 2 more): the UIDs from 0000:00000000 to 7fff:ffffffff were asked, and "
     "bytes came though no listed device was due; they may be noise, or those of a device that isn't listed\n"
     + FIRST_WRONG.format(4, 1, SPARE)),
    ("a broadcast UID that is answered wrongly", "3 unmute; alone spare > noise; alone nobody > noise; all",
     f"6 exchanges, {GOES_ON}{UNCOVERED}ffff:ffffffff alone was asked, and bytes came that are no right answer; a rule "
     "was broken, by a device or noise (exchange 4)\n" + FIRST_WRONG.format(3, 1, SPARE)),
    ("two that are answered wrongly, but have no device, as the certificate is complete",
     "3 unmute; alone spare > noise; alone liar > noise; 5 all",
     "10 exchanges, 0 devices; no other device is on the line if all follow the rules\n"
     + FIRST_WRONG.format(3, 1, SPARE)),
    ("all but a broadcast UID ruled out", "3 unmute; 5 under; 5 over; alone spare > noise",
     f"14 exchanges, {OLD}not settled: "
     "1234:ffffffff wasn't ruled out, and perhaps UIDs above it; no device may have this one\n"
     + FIRST_WRONG.replace(" (and {1} more)", "").format(13, 0, SPARE)),
)

# One that was known, and is answered wrongly and then not at all.
KNOWN_WRONG = opening("full", LIAR).replace("steady", "quick") + discovery(
    "3 unmute; alone spare > noise; alone liar > noise; 5 alone liar")
BELOW_LIAR = UNCOVERED.replace("ffff:ffffffff may be missing", f"{SPARE} may be missing, perhaps others above it too")
NOT_HEARD = "1234:00000009 was known, and wasn't heard: exchange 9 is the fifth silence in a row in a range that " \
            "holds it\n"
OF_KNOWN_WRONG = (f"discovery: full, quick, 10 exchanges, {GOES_ON}{BELOW_LIAR}" + WRONG.format(LIAR, 4) + NOT_HEARD
                  + FIRST_WRONG.format(3, 1, SPARE))
# The same after an exchange that fails, where nothing is judged.
KNOWN_LATE = opening("full", LIAR) + discovery("3 unmute; all > failed; alone spare > noise; alone liar > noise")
OF_KNOWN_LATE = f"""\
discovery: full, steady, 6 exchanges, 0 devices; others may be on the line
exchange 3 failed
{UNCOVERED}{LIAR} was known, and wasn't found: the run ended before it was clear whether it is there
{ADAPTER}"""
# A device that is given, and wasn't heard; but bytes came when it alone was asked.
NOTICED = f"""\
discovery: full, quick, 9 exchanges, 0 devices, but 1 listed device wasn't found; \
no other device is on the line if all follow the rules
{LIAR} didn't answer (exchange 8 is the fifth silence in a row in a range that holds it)
""" + FIRST_WRONG.replace(" (and {1} more)", "").format(3, 0, LIAR)
# The first of them as JSON.
JSON_WRONG = """{"passing":[],"runs":[{"exchanges":10,"kind":"full","search":"quick","first":0,"devices":0,\
"heard":"sssnnsssss","findings":[{"judgement":"undecided","sentence":"discovery: full, quick, 10 exchanges, \
0 devices; others may be on the line, or the log ends within the run"},\
{"judgement":"gap","uid":"0000:00000000","sentence":"not settled: a device from 0000:00000000 to 1234:00000008 may be \
missing, perhaps others above it too"},\
{"judgement":"garbled","uid":"1234:00000009","exchange":4,"sentence":"1234:00000009 alone was asked, and bytes came \
that are no right answer; a rule was broken, by a device or noise (exchange 4)"},\
{"judgement":"gone","uid":"1234:00000009","exchange":9,"sentence":"1234:00000009 was known, and wasn't heard: \
exchange 9 is the fifth silence in a row in a range that holds it"},\
{"judgement":"garbled","uid":"1234:00000008","exchange":3,"sentence":"exchange 3 (and 1 more): 1234:00000008 alone \
was asked, and bytes came that are no right answer: they don't begin like a discovery reply; a rule was broken, \
by a device or noise: take 1234:00000008 off the line and discover again; if your rig has no such device, \
split the line"}]}],"broken":true}
"""

# 18 UIDs are answered wrongly. A run of this project sets at most 16 apart.
MANY_WRONG = QUICK + discovery("3 unmute") + misread(18, first=3)
OF_MANY = f"discovery: full, quick, 21 exchanges, {OLD}{UNCOVERED}" + "".join(
    WRONG.format(f"1234:{number:08x}", number + 2)
    for number in range(2, 17)) + FIRST_WRONG.format(3, 17, "1234:00000001")

# What no writer of logs writes, as the last line.
BAD = (
    "\n",
    "{}\n",
    '{"entry":"came","reply":""}',
    '{"entry":"came","reply":""}\r\n',
    '{"entry":"came","reply":""}{"entry":"pause"}\n',
    '{"entry":"send","run":18446744073709551616,"frame":""}\n',
    '{"number":0,"operation":"mute","frame":"","reply":""}\n',
)


def cases() -> Iterator[Case]:
    """All logs."""
    yield from parts()
    yield from openings()
    yield from sequences()
    yield from sessions()
    yield from quick_runs()
    for line in BAD:
        yield refuses(f"after a session: {line!r}", NEW + KINDS + line, (NEW + KINDS).count("\n") + 1, ENDED)


def quick_runs() -> Iterator[Case]:
    """Bad answers of one UID alone, of which a quick run needs eight in a row to end.

    Mutes that aren't acknowledged may come between them, but no silence.
    """
    for answers, count, said in (
            ("alone spare > noise", 4, FEW.format("")), ("4 alone spare > noise", 7, FEW.format(" (and 3 more)")),
            ("5 alone spare > noise", 8, OFTEN.format(" (and 4 more)")),
            ("7 alone spare > noise", 10, OFTEN.format(" (and 6 more)")),
            ("4 alone spare > noise; alone spare; 4 alone spare > noise", 12, OFTEN.format(" (and 7 more)")),
            ("4 alone spare > noise; all > noise; 4 alone spare > noise", 12, OFTEN.format(" (and 7 more)"))):
        yield shows(f"a quick run that goes on: {answers}", QUICK + discovery(f"3 unmute; {answers}"),
                    f"discovery: full, quick, {count} exchanges, {OLD}{UNCOVERED}{said}", 3)
    failing = "4 alone spare > noise; all > failed; 4 alone spare > noise"
    yield shows("a quick run with bad answers before and after a failure", QUICK + discovery(f"3 unmute; {failing}"),
                "discovery: full, quick, 12 exchanges, 0 devices; others may be on the line\n"
                f"exchange 7 failed\n{UNCOVERED}{WRONG_BEFORE.format(3, 3, SPARE)}{ADAPTER}", 3)
    for answers, after in ("4", ""), ("5", " after many wrong answers of 1234:00000008"):
        count = 3 + int(answers)
        said = OFTEN if after else FEW
        yield shows(f"a quick run with a budget that {answers} bad answers use up",
                    QUICK.replace("384008", str(count)) + discovery(f"3 unmute; {answers} alone spare > noise"),
                    f"discovery: full, quick, {count} exchanges, ended early (its budget of {count} frames is used up)"
                    f"{after}, 0 devices; others may be on the line\n{UNCOVERED}"
                    + said.format(f" (and {int(answers) - 1} more)"), 3)
    for answers, count in (8, 11), (9, 12):
        yield shows(f"a quick run that ends: {answers}", QUICK + discovery(f"3 unmute; {answers} alone spare > noise"),
                    f"discovery: full, quick, {count} exchanges, {ENDS}{UNCOVERED}"
                    + OFTEN.format(f" (and {answers - 1} more)"), 3)
    between = "4 alone spare > noise; mute spare > noise; 4 alone spare > noise"
    yield shows("a quick run that ends, with a mute between bad answers", QUICK + discovery(f"3 unmute; {between}"),
                f"discovery: full, quick, 12 exchanges, {ENDS}{UNTRIED}{UNCOVERED}{UNREAD}"
                + OFTEN.format(" (and 8 more)"), 3)
    for name, liars, said in LIARS:
        yield shows(f"a quick run with {name}", QUICK + discovery(liars), f"discovery: full, quick, {said}", 3)
    yield shows("a quick run with 18 that are answered wrongly", MANY_WRONG, OF_MANY, 3)
    yield shows("a known one that is answered wrongly", KNOWN_WRONG, OF_KNOWN_WRONG, 3)
    noticed = QUICK + discovery("3 unmute; alone liar > noise; 5 all")
    yield shows("one that is given, and was noticed", noticed, NOTICED, 3, [LIAR])
    yield shows("a known one that is answered wrongly after an exchange that fails", KNOWN_LATE, OF_KNOWN_LATE)
    expected = Expected(3, JSON_WRONG.encode(), b"")
    yield explained("a known one that is answered wrongly, as JSON", KNOWN_WRONG.encode(), expected, "--json")
    for name, answers, said in (("goes on", 7, f"15 exchanges, {OLD}"),
                                ("ends", 8, f"16 exchanges, {ENDS_UNMUTED}")):
        run = discovery(f"3 unmute; {answers} alone spare > spare; 5 mute spare")
        yield shows(f"a quick run that {name} after five mutes", QUICK + run,
                    f"discovery: full, quick, {said}{UNCOVERED}{IGNORES}", 3)


def openings() -> Iterator[Case]:
    """Parts of the discovery, each with an opening. One that says the same continues it, if the numbers follow on."""
    first, rest = FULL + discovery("3 unmute; all > found"), discovery("mute found > ack; 5 all", first=4)
    yield shows("a discovery in two parts", first + FULL + rest, FOUND)
    yield shows("the same with an opening twice, and another discovery", first + FULL + FULL + rest + first[len(FULL):],
                FOUND + UNMUTED.replace("full, steady, ", ""))
    yield shows("an opening like the last one, at the end", first + FULL, UNMUTED)
    yield shows("the same before a discovery", first + FULL + discovery(FINDS), UNMUTED + FOUND)
    yield shows("the same before a gap", first + FULL + discovery("5 all", first=5),
                UNMUTED + CUT_BEFORE.replace("5 exch", "full, steady, 5 exch"))
    yield refuses("the same before a damaged line", first + FULL + "{}\n", 7, "")
    for name, other, said in (("kind", opening("incremental"), "incremental, steady"),
                              ("search", QUICK, "full, quick"), ("known UIDs", opening("full", LIAR), "full, steady"),
                              ("budget", FULL.replace("384008", "384009"), "full, steady")):
        yield shows(f"parts with another {name}", first + other + rest, UNMUTED + OTHER_PART.format(said))


def parts() -> Iterator[Case]:
    """Parts of the discovery. A gap between two of them makes two runs."""
    first, last = FULL + discovery("3 unmute; all > found"), discovery("5 all", first=5)
    yield shows("a device without its mute", first, UNMUTED)
    yield shows("the branch that found it", discovery("all > found", first=3), ALONE)
    yield shows("the silences after its mute", last, CUT_BEFORE + LATE, present=[LIAR])
    yield shows("all but its mute", first + last, UNMUTED + CUT_BEFORE)


def sequences() -> Iterator[Case]:
    """Logs one after another. An opening is that of one run. An entry begins the log of a session."""
    found = discovery(FINDS)
    yield shows("a discovery twice, with one opening", FULL + found + found, FOUND + FOUND_UNOPENED)
    log = FULL + found + FAILING + found
    yield shows("a session between two discoveries", log, FOUND + FAILED + FOUND_UNOPENED)


def sessions() -> Iterator[Case]:
    """The runs of sessions: their kinds, and what was known before them."""
    yield shows("a session whose line fails", FAILING, FAILED)
    yield shows("a run that serves several discoveries, one of which is full", NEW + KINDS, OF_KINDS)
    yield shows("an opening after which an earlier discovery may wait", WAITING + CONTINUED, AFTER_WAITING)
    yield shows("an opening within a run", WITHIN + CONTINUED, FROM_WITHIN)
    yield shows("two runs without an opening", CONTINUED, UNOPENED)
    yield shows("devices that a run without a fault made known", NEW + THREE_RUNS, OF_THREE_RUNS)
    full, incremental = session_run(2, "3 unmute; 5 all"), session_run(2, "3 unmute; 5 mute found; 5 all")
    yield shows("a device that is off in a second full run", NEW + off("full", full), OFF_IN_FULL)
    yield shows("the same of a device that is given", NEW + off("full", full), OFF_BUT_GIVEN, 3, ["1234:00000001"])
    yield shows("a device that is off in an incremental run", NEW + off("incremental", incremental),
                OFF_IN_INCREMENTAL)
    yield shows("a run after the answer of the one before", ANSWERED, AFTER_ANSWER)
    yield shows("more devices than a run reports", TOO_MANY, CROWDED)


def off(kind: str, run: str) -> str:
    """Run 1 finds a device, and this is run 2."""
    return ask(0, "full") + session_run(1, FINDS) + answer(0, 1) + ask(1, kind) + run + answer(1, 2)
