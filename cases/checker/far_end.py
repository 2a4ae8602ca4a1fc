"""The far end of a line as text: a script of replies, or fixtures that answer a discovery as E1.20 says."""
from __future__ import annotations

import os
import pty
import select
import threading
import tty
from contextlib import contextmanager
from functools import reduce
from pathlib import Path
from typing import IO, Callable, Iterator, List, Optional, Set, Tuple

from .case import FarEnd, Streams

OUT = "out"
REPLIES = "replies"
# The descriptors of pipes, which nothing else has.
OUT_DESCRIPTOR, REPLIES_DESCRIPTOR = 100, 101
BRANCH, MUTE, UNMUTE = 1, 2, 3
WAKE_SECONDS = 0.05

Sent = List[bytes]


class Fixtures:
    """Fixtures on a line, without any losses."""

    def __init__(self, uids: Set[int]) -> None:
        self.uids = uids
        self.muted: Set[int] = set()

    def reply(self, frame: bytes) -> bytes:
        """The bytes that come after a frame."""
        pid = int.from_bytes(frame[21:23], "big")
        if pid == UNMUTE:
            self.muted.clear()
        if pid == BRANCH:
            low, high = (int.from_bytes(frame[at : at + 6], "big") for at in (24, 30))
            return overlaid([encoded(uid) for uid in self.uids - self.muted if low <= uid <= high])
        target = int.from_bytes(frame[3:9], "big")
        if pid == MUTE and target in self.uids:
            self.muted.add(target)
            return acknowledged(frame)
        return b""


def encoded(uid: int) -> bytes:
    """The reply to a branch: each byte is sent as two, one OR aa and one OR 55."""
    text = doubled(uid.to_bytes(6, "big"))
    return b"\xfe" * 7 + b"\xaa" + text + doubled(sum(text).to_bytes(2, "big"))


def doubled(data: bytes) -> bytes:
    """Each byte as two."""
    return bytes(part for byte in data for part in (byte | 0xAA, byte | 0x55))


def overlaid(replies: List[bytes]) -> bytes:
    """Replies that come at once: the OR of their bytes."""
    length = max(map(len, replies), default=0)
    padded = [reply.ljust(length, b"\0") for reply in replies]
    return reduce(lambda one, other: bytes(a | b for a, b in zip(one, other)), padded, b"\0" * length)


def acknowledged(frame: bytes) -> bytes:
    """The acknowledgement of a mute, with control field 0."""
    packet = b"\xcc\x01\x1a" + frame[9:15] + frame[3:9] + frame[15:16] + bytes(4) + b"\x11\0\x02\x02\0\0"
    return packet + sum(packet).to_bytes(2, "big")


def answers_of(far_end: FarEnd) -> Callable[[bytes], bytes]:
    """What the far end writes after a frame's line, in turn."""
    if far_end.replies is not None:
        script = iter(far_end.replies)
        return lambda _: next(script, b"failed") + b"\n"
    reply = far_end.rig() if far_end.rig else Fixtures(set(far_end.fixtures)).reply
    return lambda line: reply(bytes.fromhex(line.decode())).hex().encode() + b"\n"


@contextmanager
def attached(far_end: FarEnd, folder: Path) -> Iterator[Sent]:
    """Puts the streams into a folder, with the far end at them. Afterwards the list has the lines that were sent."""
    out, replies = folder / OUT, folder / REPLIES
    for path in (out, replies):
        path.unlink(missing_ok=True)
    others = {Streams.FILES: on_files, Streams.PIPES: on_pipes, Streams.TERMINAL: on_terminal}
    attach = others.get(far_end.streams, on_fifos)
    try:
        with attach(far_end, out, replies) as sent:
            yield sent
    finally:
        for path in (out, replies):
            path.unlink(missing_ok=True)


@contextmanager
def on_files(far_end: FarEnd, out: Path, replies: Path) -> Iterator[Sent]:
    """Ordinary files: the replies are there before. What was in the other file has to stay."""
    sent: Sent = []
    before = b"before\n"
    out.write_bytes(before)
    replies.write_bytes(b"".join(reply + b"\n" for reply in far_end.replies or ()))
    yield sent
    after = out.read_bytes()
    sent.extend(after[len(before) :].splitlines() if after.startswith(before) else [b"truncated"])


@contextmanager
def on_fifos(far_end: FarEnd, out: Path, replies: Path) -> Iterator[Sent]:
    """Two FIFOs, which the far end opens in its order."""
    sent: Sent = []
    os.mkfifo(out)
    os.mkfifo(replies)
    far = threading.Thread(target=serve_fifos, args=(far_end, out, replies, sent), daemon=True)
    far.start()
    yield sent
    # If the program didn't open them, the far end still waits.
    while far.is_alive():
        for path in (out, replies):
            os.close(os.open(path, os.O_RDWR | os.O_NONBLOCK))
        far.join(WAKE_SECONDS)


def serve_fifos(far_end: FarEnd, out: Path, replies: Path, sent: Sent) -> None:
    """Opens both FIFOs, and answers frames."""
    modes = [(out, "rb"), (replies, "wb")]
    if far_end.streams is Streams.REPLIES_FIRST:
        modes.reverse()
    opened = {path: open(path, mode, buffering=0) for path, mode in modes}
    serve(far_end, opened[out], opened[replies], sent)


def descriptors_of(far_end: Optional[FarEnd]) -> Tuple[int, ...]:
    """Those that the program inherits."""
    is_on_pipes = far_end is not None and far_end.streams is Streams.PIPES
    return (OUT_DESCRIPTOR, REPLIES_DESCRIPTOR) if is_on_pipes else ()


@contextmanager
def on_pipes(far_end: FarEnd, _out: Path, _replies: Path) -> Iterator[Sent]:
    """Two pipes, one end of each as a descriptor of the program."""
    sent: Sent = []
    (frames, out), (replies, writer) = os.pipe(), os.pipe()
    for end, descriptor in ((out, OUT_DESCRIPTOR), (replies, REPLIES_DESCRIPTOR)):
        os.dup2(end, descriptor, inheritable=False)
        os.close(end)
    streams = (os.fdopen(frames, "rb", buffering=0), os.fdopen(writer, "wb", buffering=0))
    far = threading.Thread(target=serve, args=(far_end, *streams, sent), daemon=True)
    far.start()
    yield sent
    for descriptor in descriptors_of(far_end):
        os.close(descriptor)
    far.join()


def serve(far_end: FarEnd, frames: IO[bytes], writer: IO[bytes], sent: Sent) -> None:
    """Answers frames, and closes both streams."""
    answer = answers_of(far_end)
    with frames, writer:
        for _ in range(far_end.most):
            line = frames.readline()
            if not line:
                return
            sent.append(line.rstrip(b"\n"))
            try:
                writer.write(answer(sent[-1]))
            except BrokenPipeError:
                return


@contextmanager
def on_terminal(far_end: FarEnd, out: Path, _replies: Path) -> Iterator[Sent]:
    """A pseudo terminal, for both directions."""
    sent: Sent = []
    master, device = pty.openpty()
    tty.setraw(device)
    out.symlink_to(os.ttyname(device))
    ended = threading.Event()
    far = threading.Thread(target=serve_terminal, args=(far_end, master, ended, sent), daemon=True)
    far.start()
    yield sent
    ended.set()
    far.join()
    os.close(device)
    os.close(master)


def serve_terminal(far_end: FarEnd, master: int, ended: threading.Event, sent: Sent) -> None:
    """Answers the frames that come, until the program has ended."""
    answer = answers_of(far_end)
    text = b""
    while not ended.is_set():
        if not select.select([master], [], [], WAKE_SECONDS)[0]:
            continue
        text += os.read(master, 4096)
        while b"\n" in text:
            line, _, text = text.partition(b"\n")
            sent.append(line)
            os.write(master, answer(line))
