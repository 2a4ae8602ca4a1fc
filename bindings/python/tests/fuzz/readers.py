"""Fuzzes what reads bytes from outside, by Hypothesis: messages, lines, tables, rigs' files, logs, and programs' words.

usage: readers.py [--seconds N] [--seed N]
  --seconds  how long each reader takes, 10 if absent
  --seed     of the first round, 0 if absent: a round that fails is repeated by its seed

The last line is 'N passed, M failed', which counts readers.
"""
from __future__ import annotations

import argparse
import io
import json
import multiprocessing
import os
import sys
import tempfile
import time
import traceback
from pathlib import Path
from typing import Any, Callable, List, Sequence, Tuple

from hypothesis import HealthCheck, given, seed, settings
from hypothesis import strategies as some

sys.dont_write_bytecode = True
ROOT = Path(__file__).resolve().parents[4]
sys.path.insert(0, str(ROOT / "bindings/python"))
from wurstlinen.front.output import Failure  # noqa: E402
from wurstlinen.front.page_findings import NoFindings, Outcome, Run, findings_in  # noqa: E402
from wurstlinen.front.page_log import NoLog, OtherLog, read_log  # noqa: E402
from wurstlinen.front.sheets import NoSheet, Sheet, sheet_of  # noqa: E402
from wurstlinen.front.trace import exchanges  # noqa: E402
from wurstlinen.lines.keys import SceneFault  # noqa: E402
from wurstlinen.lines.messages import LENGTHS_FROM_ADAPTER, START, Message, MessageReader  # noqa: E402
from wurstlinen.lines.scene import parse_scene, read_scene  # noqa: E402
from wurstlinen.lines.streams import MOST_LINE_BYTES, LineReader  # noqa: E402
from wurstlinen.olad import wire  # noqa: E402
from wurstlinen.shared import words  # noqa: E402
from wurstlinen.shared.connection import hello_in  # noqa: E402

EXAMPLES = 200

# Bytes that often begin, end or measure a message.
message_bytes = some.lists(some.sampled_from((START, 0xE7, 0, 1, 5, 12)) | some.integers(0, 255), max_size=80)
messages = some.builds(Message, some.integers(0, 255), some.binary(max_size=40))
keys = some.sampled_from(
    "source devices collisions losses fails rig uid preamble params pid parts control binding from until bytes label "
    "address personality personalities footprint name model sensors lies".split()) | some.text(max_size=5)
values = some.recursive(
    some.none() | some.booleans() | some.integers() | some.floats() | some.text(max_size=12)
    | some.sampled_from(("1234:00000001", "or", "0082", "deadbeef")),
    lambda inner: some.lists(inner, max_size=4) | some.dictionaries(keys, inner, max_size=5), max_leaves=20)
entries = some.sampled_from(
    "opening accept ask send came finish answer collect close leave refuse join pause resume".split())
names = some.sampled_from(
    "entry number operation frame reply source budget search discover known client clients request run fault".split())
log_lines = some.dictionaries(names, values | entries, max_size=8).map(json.dumps)
# Runs that a log may have, and what the program may print of one.
RUNS = [Run("discovery", 0, "sfaon", Outcome.COMPLETE, 1)]
members = some.sampled_from(
    "passing runs broken fault exchanges first run kind search end uid devices heard findings judgement sentence "
    "exchange found".split())
found_values = some.recursive(values, lambda inner: some.dictionaries(members, inner, max_size=8) | some.lists(inner))
documents = some.fixed_dictionaries({"passing": found_values, "runs": some.lists(found_values)}).map(
    lambda found: json.dumps(found).encode())
# What a program that shares a line may say, and what its server may.
said = some.sampled_from(("get", "set", "discover", "1234:00000001", "0082", "c0", "full")) | values
asks = some.dictionaries(some.sampled_from("do id uid pid data sub kind name".split()), said, max_size=6)
answers = some.dictionaries(
    some.sampled_from("request status ack response pid sub data discovery run fault uid devices line source".split()),
    said | some.integers(0, 9) | some.lists(some.dictionaries(some.sampled_from(("uid", "control", "binding")), said)),
    max_size=9)
NOT_OF_PROTOCOL = (KeyError, TypeError, ValueError, RecursionError, words.BadRequest)


def pieces_of(data: bytes, cuts: Sequence[int]) -> List[bytes]:
    """The bytes, cut at these places."""
    places = sorted({0, len(data), *(cut % (len(data) + 1) for cut in cuts)})
    return [data[first:last] for first, last in zip(places, places[1:])]


def read_messages(pieces: Sequence[bytes], reader: MessageReader) -> List[Message]:
    return [message for piece in pieces for message in reader.feed(piece)]


@given(some.lists(messages, max_size=6), some.lists(some.integers(0, 300), max_size=6))
def whole_messages(sent: List[Message], cuts: List[int]) -> None:
    """What was sent is read, in whatever pieces it comes."""
    data = b"".join(message.encode() for message in sent)
    reader = MessageReader()
    assert read_messages(pieces_of(data, cuts), reader) == sent
    assert not reader.is_damaged


@given(message_bytes.map(bytes), some.lists(some.integers(0, 300), max_size=6), some.booleans())
def any_messages(data: bytes, cuts: List[int], is_strict: bool) -> None:
    """Each message that is read is in the bytes, after the one before it; and pieces don't matter."""
    lengths = LENGTHS_FROM_ADAPTER if is_strict else None
    found = read_messages(pieces_of(data, cuts), MessageReader(lengths))
    assert found == read_messages([data], MessageReader(lengths))
    at = 0
    for message in found:
        at = data.index(message.encode(), at) + len(message.encode())


@given(some.lists(some.binary(max_size=60).filter(lambda line: b"\n" not in line), max_size=6), some.binary(max_size=9),
       some.integers(1, 40))
def lines(sent: List[bytes], rest: bytes, size: int) -> None:
    """The lines of a file, without their ends; what follows the last end is no line."""
    rest = rest.replace(b"\n", b"")
    with tempfile.TemporaryFile(buffering=size + 1) as file:
        file.write(b"".join(line + b"\n" for line in sent) + rest)
        file.seek(0)
        reader = LineReader(file)
        for line in sent:
            wanted = line[:-1] if line.endswith(b"\r") else line
            assert reader.read() == wanted[:MOST_LINE_BYTES]
        assert reader.read() is None


@given(some.binary(max_size=200) | some.text("uid,;\t\"\n\rab0:\ufeff", max_size=80).map(lambda text: text.encode()))
def any_sheet(data: bytes) -> None:
    """A table has a cell for each title in each row, or there is a reason."""
    try:
        sheet = sheet_of(data)
    except NoSheet as why:
        assert str(why)
        return
    assert all(len(row) == len(sheet.titles) for row in sheet.rows)
    assert len(sheet.lines) == len(sheet.rows)


# A row without anything isn't read, and the first cell says where the table begins.
cells = some.text(some.characters(blacklist_categories=("Cs", "Cc")), max_size=8)


@given(some.lists(some.tuples(cells, cells), max_size=5), some.sampled_from((",", ";", "\t")))
def written_sheets(rows: List[Tuple[str, str]], delimiter: str) -> None:
    """What is written is read."""
    written = [["x", *row] for row in rows]
    read = sheet_of(Sheet(["uid", "label", "note"], written, delimiter=delimiter).text().encode())
    assert (read.titles, read.rows, read.delimiter) == (["uid", "label", "note"], written, delimiter)


@given(values)
def any_scene(value: Any) -> None:
    """A value is a scene, or there is a reason."""
    try:
        parse_scene(value)
    except SceneFault as why:
        assert str(why)


@given(some.binary(max_size=60) | values.map(lambda value: json.dumps(value).encode()))
def any_scene_file(data: bytes) -> None:
    """So are bytes."""
    with tempfile.NamedTemporaryFile() as file:
        file.write(data)
        file.flush()
        try:
            read_scene(file.name)
        except SceneFault as why:
            assert str(why)


@given(some.lists(log_lines | some.text(max_size=20), max_size=8))
def any_log(text: List[str]) -> None:
    """A log is read, or the number of a line that can't be."""
    data = "\n".join(text).encode("utf-8", "surrogatepass")
    try:
        read_log(io.BytesIO(data), RUNS)
    except OtherLog:
        pass
    except NoLog as why:
        assert 1 <= int(str(why).split()[1]) <= data.count(b"\n") + 1


@given(some.lists(log_lines | values.map(json.dumps), max_size=8))
def any_trace(text: List[str]) -> None:
    """The exchanges of a log are read, or it is none."""
    try:
        list(exchanges("log", io.StringIO("\n".join(text))))
    except Failure as why:
        assert str(why).startswith("log: line ")


@given(some.binary(max_size=200) | documents)
def any_findings(text: bytes) -> None:
    """The program's JSON is read, or it is none."""
    try:
        findings_in(text)
    except NoFindings as why:
        assert str(why)


@given(asks.map(json.dumps) | some.text(max_size=20), some.lists(some.integers(0, 300), max_size=6))
def any_ask(text: str, cuts: List[int]) -> None:
    """A program's line is a request, which is written as it was read, or there is a reason."""
    split = words.Lines(words.MOST_LINE_BYTES)
    try:
        for line in (line for piece in pieces_of(text.encode("utf-8", "surrogatepass") + b"\n", cuts)
                     for line in split.add(piece)):
            keys = words.object_of(line)
            words.number_in(keys, "id", words.MOST_ID)
            words.choice_in(keys, "do", words.REQUEST_CLASSES)
            request = words.request_in(keys)
            assert words.request_in(words.keys_of_request(request)) == request
    except words.BadRequest as why:
        assert len(str(why)) < 2 * words.MOST_NAME + 40


@given(answers)
def any_answer(keys: words.Keys) -> None:
    """What a server says is an outcome, or none of the protocol."""
    for read in (words.completion_of, words.discovery_of, words.devices_of, hello_in):
        try:
            found = read(keys)
        except NOT_OF_PROTOCOL:
            continue
        assert not hasattr(found, "number") or words.is_number(found.number, words.MOST_NUMBER)


@given(some.binary(max_size=60))
def any_message_of_olad(data: bytes) -> None:
    """What olad says is a message, or it is none."""
    try:
        fields = wire.decode(data)
        for field in fields:
            wire.text_in(fields, field)
            wire.messages_in(fields, field)
    except wire.BadMessage as why:
        assert str(why)


@given(some.lists(some.tuples(some.integers(1, 1 << 28), some.integers(0, 1 << 63) | some.binary(max_size=9))))
def messages_for_olad(fields: List[Tuple[int, Any]]) -> None:
    """What is written to it is read."""
    found = wire.decode(wire.encode(fields))
    assert found == {number: [value for each, value in fields if each == number] for number, _ in fields}


READERS: Tuple[Callable[[], None], ...] = (
    whole_messages, any_messages, lines, any_sheet, written_sheets, any_scene, any_scene_file, any_log,
    any_trace, any_findings, any_ask, any_answer, any_message_of_olad, messages_for_olad)


def fuzz(number: int, seconds: float, first: int) -> Tuple[bool, str]:
    """Whether a reader does what it should, in rounds with one seed each; and what is to be said of it."""
    reader = settings(max_examples=EXAMPLES, deadline=None, database=None,
                      suppress_health_check=list(HealthCheck))(READERS[number])
    end, at = time.monotonic() + seconds, first
    while at == first or time.monotonic() < end:
        try:
            seed(at)(reader)()
        except Exception:
            return False, f"{reader.__name__} failed, with the seed {at}\n{traceback.format_exc()}"
        at += 1
    return True, f"{reader.__name__}: {at - first} rounds of {EXAMPLES}"


def main() -> int:
    parser = argparse.ArgumentParser(description=__doc__.split("\n", maxsplit=1)[0])
    parser.add_argument("--seconds", type=float, default=10.0)
    parser.add_argument("--seed", type=int, default=0)
    chosen = parser.parse_args()
    work = [(number, chosen.seconds, chosen.seed) for number in range(len(READERS))]
    # Hypothesis keeps a folder of its own where it runs.
    with tempfile.TemporaryDirectory() as folder:
        with multiprocessing.Pool(len(os.sched_getaffinity(0)), os.chdir, (folder,)) as processes:
            results = processes.starmap(fuzz, work, chunksize=1)
    print(*(text for _, text in results), sep="\n")
    passed = sum(is_good for is_good, _ in results)
    print(f"{passed} passed, {len(results) - passed} failed")
    return 1 if passed < len(results) else 0


if __name__ == "__main__":
    sys.exit(main())
