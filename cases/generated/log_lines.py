"""Each kind of line of a log, at the limits of its values and with times, which explain reads; others are refused."""
from __future__ import annotations

from typing import Iterator, Sequence

from ..checker.case import Case
from .runs import refuses, shows

NO_RUN = "the log has no exchange of a discovery\n"

# Lines of a session. A file with one of them has no exchange.
ENTRIES = """\
{"entry":"join","client":0,"places":0}
{"entry":"join","client":255,"places":255}
{"entry":"refuse","places":255,"cause":255}
{"entry":"refuse","places":0,"cause":0}
{"entry":"refuse","client":255,"places":1,"cause":3}
{"entry":"refuse","client":0,"discover":"full","cause":1}
{"entry":"refuse","client":15,"discover":"incremental","cause":3}
{"entry":"refuse","discover":"full","cause":1}
{"entry":"refuse","client":0,"get":"0000:00000000","pid":"0000","sub":0,"param":"","cause":1}
{"entry":"refuse","client":9,"set":"ffff:ffffffff","pid":"ffff","sub":65535,"param":"00","cause":4}
{"entry":"accept","client":0,"number":0,"get":"1234:00000001","pid":"0060","sub":0,"param":""}
{"entry":"accept","client":255,"number":18446744073709551615,"set":"ffff:ffffffff","pid":"ffff","sub":65535,\
"param":"0a0b"}
{"entry":"ask","client":0,"number":0,"discover":"full"}
{"entry":"ask","client":255,"number":18446744073709551615,"discover":"incremental"}
{"entry":"send","request":0,"frame":""}
{"entry":"send","request":18446744073709551615,"frame":"cc01"}
{"entry":"came","reply":""}
{"entry":"came","reply":"00"}
{"entry":"came","failed":true}
{"entry":"finish","number":0,"status":0,"length":0}
{"entry":"finish","number":18446744073709551615,"status":18,"length":18446744073709551615}
{"entry":"answer","number":0,"run":0}
{"entry":"answer","number":18446744073709551615,"run":18446744073709551615}
{"entry":"answer","number":0,"run":1,"fault":1,"uid":"0000:00000000"}
{"entry":"answer","number":0,"run":1,"fault":1,"uid":"ffff:ffffffff"}
{"entry":"answer","number":0,"run":1,"fault":2}
{"entry":"answer","number":0,"run":1,"fault":3}
{"entry":"answer","number":0,"run":1,"fault":4}
{"entry":"answer","number":0,"run":0,"fault":5}
{"entry":"collect","client":0}
{"entry":"collect","client":255}
{"entry":"pause"}
{"entry":"resume"}
{"entry":"close"}
"""
FINISHED = '{{"entry":"finish","number":1,"status":{},"length":0}}\n'
STATUSES = range(1, 18)

# Openings, which have no exchange either: three of sessions, and three of discoveries.
OPENINGS = """\
{"entry":"opening","source":"0000:00000000","budget":0,"search":"steady","greatest":0,"places":[],"paused":false,\
"closed":false,"devices":[],"devices_run":0,"next_request":0,"next_ask":0,"next_run":0,"next_tn":0,"number":0}
{"entry":"opening","source":"ffff:ffffffff","budget":18446744073709551615,"search":"quick","greatest":65535,\
"places":[255,0,1,2,3,4,5,6,7,8,9,10,11,12,13,14],"paused":true,"closed":true,\
"devices":[{"uid":"0000:00000000","control":"ffff","binding":"ffff:ffffffff"}],"devices_run":18446744073709551615,\
"next_request":18446744073709551615,"next_ask":18446744073709551615,"next_run":18446744073709551615,"next_tn":255,\
"number":18446744073709551615}
{"entry":"opening","source":"7a70:00000100","budget":1,"search":"steady","greatest":1,"places":[1],"paused":true,\
"closed":false,"devices":[{"uid":"1234:00000001","control":"0000"},\
{"uid":"1234:00000002","control":"0002","binding":"1234:00000001"}],"devices_run":1,"next_request":2,"next_ask":3,\
"next_run":4,"next_tn":5,"number":6}
{"entry":"opening","source":"0000:00000000","budget":0,"search":"steady","discover":"full","known":[]}
{"entry":"opening","source":"ffff:ffffffff","budget":18446744073709551615,"search":"quick","discover":"incremental",\
"known":["0000:00000000"]}
{"entry":"opening","source":"7a70:00000100","budget":384008,"search":"quick","discover":"incremental",\
"known":["1234:00000001","9abc:00000002","ffff:fffffffe"]}
"""

# Frames of runs, and the run's number. What comes after each makes an exchange, which may be any of its run.
SILENCE = '{"entry":"came","reply":""}\n'
UNMUTE = "cc0118ffffffffffff7a700000010000010000001000030007de"
SENDS = (
    (f'{{"entry":"send","run":1,"frame":"{UNMUTE}"}}\n', 1),
    (f'{{"entry":"send","run":18446744073709551615,"frame":"{UNMUTE}"}}\n', 18446744073709551615),
)
OF_ONE = """\
run {}: 1 exchange, 0 devices; others may be on the line, as the log may begin within the run; \
exchanges count from there
"""

# Exchanges of a discovery, the text and the status: a mute in the place of an unmute, and three exchanges of runs whose
# beginning isn't there.
EXCHANGES = (
    ("""\
{"number":0,"operation":"mute","frame":"cc01181234000000017a7000000100040100000010000200022e","reply":""}
""", """\
discovery: 1 exchange, 0 devices; others may be on the line
exchange 0 should be one of the three unmutes that begin a run
exchange 0 mutes a UID that neither acknowledged nor was muted five times in a row: perhaps no device has it
not settled: a device from 0000:00000000 to ffff:ffffffff may be missing
""", 0),
    (f'{{"number":18446744073709551615,"operation":"unmute","frame":"{UNMUTE}","failed":true}}\n', """\
discovery: 1 exchange, 0 devices; others may be on the line, as the log begins within the run
exchange 18446744073709551615 failed
what to do: check the adapter and the cable
""", 0),
    ("""\
{"number":1,"operation":"branch",\
"frame":"cc0124ffffffffffff7a700000010003010000001000010c000000000000ffffffffffff0df1",\
"reply":"fefefefefefefeaaba57be75aa55aa55aa55ab55ae57eb55"}
""", """\
discovery: 1 exchange, 0 devices; others may be on the line, as the log begins within the run
exchange 1: the UIDs from 0000:00000000 to ffff:ffffffff were asked, \
and bytes came though no listed device was due; \
they read as 1234:00000001, which isn't listed
what to do: name 1234:00000001 by --present, if your rig has it
""", 0),
    ("""\
{"number":4,"operation":"mute","frame":"cc01181234000000017a7000000100040100000010000200022e","reply":"00"}
""", """\
discovery: 1 exchange, 0 devices; others may be on the line, as the log begins within the run
exchange 4: bytes came after a mute of 1234:00000001 that don't acknowledge it: \
they are too short for a response; a rule was broken, by a device or noise: \
take 1234:00000001 off the line and discover again; if your rig has no such device, split the line
""", 3),
)

# One unmute, after which bytes came.
OF_UNMUTE = """\
discovery: 1 exchange, 0 devices; others may be on the line, or the log ends within the run
exchange 1 should be one of the three unmutes that begin a run
not settled: a device from 0000:00000000 to ffff:ffffffff may be missing
exchange 0: bytes came after an unmute, which no device may answer
what to do: look for noise, or split the line
"""

# What no writer of logs writes. A run's frames are unmutes, branches and mutes, each with its checksum.
OTHERS = (
    '{"entry":"send","run":1,"frame":""}',
    '{"entry":"send","run":1,"frame":"cc"}',
    '{"entry":"send","run":1,"frame":"cc01181234000000017a70000001000001000000200060000298"}',
    f'{{"entry":"send","run":1,"frame":"{UNMUTE[:-1]}f"}}',
    f'{{"entry":"send","run":1,"frame":"{UNMUTE}00"}}',
    '{"number":0,"operation":"unmute","frame":"","reply":""}',
    '{"number":0,"operation":"unmute","frame":"cc01181234000000017a70000001000001000000200060000298","reply":""}',
    f'{{"number":0,"operation":"unmute","frame":"{UNMUTE[:-1]}f","reply":""}}',
    f'{{"number":0,"operation":"unmute","frame":"{UNMUTE[:-1]}f","failed":true}}',
    '{"entry":"pause"',
    '{"entry":"pause"} ',
    ' {"entry":"pause"}',
    '{"entry": "pause"}',
    '{"entry":"Pause"}',
    '{"entry":"pause","client":0}',
    '{"entry":"join","places":0,"client":0}',
    '{"entry":"join","client":256,"places":0}',
    '{"entry":"join","client":00,"places":0}',
    '{"entry":"collect","client":-1}',
    '{"entry":"finish","number":1,"status":19,"length":0}',
    '{"entry":"answer","number":18446744073709551616,"run":0}',
    '{"entry":"answer","number":0,"run":1,"fault":6}',
    '{"entry":"came","reply":"0"}',
    '{"entry":"came","reply":"0A"}',
    '{"entry":"opening","source":"0000:00000000","budget":0,"search":"steady","discover":"full",'
    '"known":["1234:00000002","1234:00000001"]}',
    '{"number":0,"operation":"mute","frame":"","reply":""}',
    '{"number":0,"operation":"unmute","frame":"","reply":"","failed":true}',
)

# The last key of a line where a clock is at hand, and what is none.
TIMES = (0, 1, 1796014800123456, 18446744073709551615)
NO_TIMES = ("", "00", "01", "-1", "+1", "1.0", "1e3", " 1", "1 ", '"1"', "null", "18446744073709551616",
            '1,"microseconds":1', '1,"client":0', "1}")

# The text before and after bytes, the most of them, and what is printed. A frame and a reply have at most 257 bytes,
# and the data of a request 231.
ACCEPTED = '{"entry":"accept","client":0,"number":0,"set":"1234:00000001","pid":"0060","sub":0,"param":"'
REFUSED = '{"entry":"refuse","client":0,"set":"1234:00000001","pid":"0060","sub":0,"param":"'
LONGEST = (
    ('{"entry":"came","reply":"', '"}\n', 257, NO_RUN),
    ('{"entry":"send","request":1,"frame":"', '"}\n', 257, NO_RUN),
    (ACCEPTED, '"}\n', 231, NO_RUN),
    (REFUSED, '","cause":3}\n', 231, NO_RUN),
    (f'{{"number":0,"operation":"unmute","frame":"{UNMUTE}","reply":"', '"}\n', 257, OF_UNMUTE),
)

# The opening of a discovery with UIDs, and that of a session with devices: both have at most 1,024.
MOST_UIDS = 1024
OF_DISCOVERY = (
    '{"entry":"opening","source":"7a70:00000100","budget":1,"search":"steady","discover":"incremental","known":[',
    '"{}"',
    "]}\n",
)
OF_SESSION = (
    '{"entry":"opening","source":"7a70:00000100","budget":1,"search":"steady","greatest":1,"places":[1],"paused":false,'
    '"closed":false,"devices":[',
    '{{"uid":"{}","control":"000f","binding":"ffff:ffffffff"}}',
    '],"devices_run":1,"next_request":0,"next_ask":0,"next_run":2,"next_tn":0,"number":0}\n',
)


def cases() -> Iterator[Case]:
    """All lines."""
    for line in (*ENTRIES.splitlines(True), *map(FINISHED.format, STATUSES), *OPENINGS.splitlines(True)):
        yield shows(f"read: {line.strip()}", line, NO_RUN)
    for line, run in SENDS:
        yield shows(f"read: {line.strip()}", line + SILENCE, OF_ONE.format(run))
    for line, text, status in EXCHANGES:
        yield shows(f"read: {line.strip()}", line, text, status)
    for line in OTHERS:
        yield refuses(f"refused: {line}", f"{line}\n", 1)
    yield from with_times()
    yield from longest_bytes()
    yield from longest_openings()


def with_times() -> Iterator[Case]:
    """Each line with times. Openings have none."""
    lines = [(line, NO_RUN, 0) for line in (*ENTRIES.splitlines(True), *map(FINISHED.format, STATUSES))]
    for line, text, status in (*lines, *EXCHANGES):
        for time in map(str, TIMES):
            yield shows(f"read with {time}: {line.strip()}", timed(line, time), text, status)
        for time in NO_TIMES:
            yield refuses(f"refused with {time}: {line.strip()}", timed(line, time), 1)
    for line, run in SENDS:
        yield shows(f"read with a time: {line.strip()}", timed(line, "1") + timed(SILENCE, "2"), OF_ONE.format(run))
    for line in OPENINGS.splitlines(True):
        yield refuses(f"refused with a time: {line.strip()}", timed(line, "1"), 1)


def timed(line: str, time: str) -> str:
    """A line with a time."""
    return f'{line.rstrip()[:-1]},"microseconds":{time}}}\n'


def longest_bytes() -> Iterator[Case]:
    """The most bytes of each line with bytes, and one more."""
    for before, after, most, text in LONGEST:
        longest = f"{before}{'a5' * most}{after}"
        yield shows(f"{most} bytes after {before}", longest, text)
        yield shows(f"{most} bytes and a time after {before}", timed(longest, str(TIMES[-1])), text)
        yield refuses(f"{most + 1} bytes after {before}", f"{before}{'a5' * (most + 1)}{after}", 1)


def longest_openings() -> Iterator[Case]:
    """Openings with the most UIDs, and with one more."""
    for before, item, after in (OF_DISCOVERY, OF_SESSION):
        uids = [f"7fff:{number:08x}" for number in range(MOST_UIDS + 1)]
        yield shows(f"{MOST_UIDS} UIDs after {before}", f"{before}{listed(item, uids[:-1])}{after}", NO_RUN)
        yield refuses(f"{MOST_UIDS + 1} UIDs after {before}", f"{before}{listed(item, uids)}{after}", 1)


def listed(item: str, uids: Sequence[str]) -> str:
    """A list with such an item for each UID."""
    return ",".join(map(item.format, uids))
