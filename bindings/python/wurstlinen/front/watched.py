"""A line that counts and shows what goes over it."""
from __future__ import annotations

from typing import TYPE_CHECKING, Callable, Optional, Set

from ..line import Line, LineFailed
from .main import AS_BYTES
from .output import Output

if TYPE_CHECKING:
    from .discovery_log import DiscoveryLog
    from .frames import Parts


class Watched:
    """Counts a line's exchanges, shows them, and remembers why it failed."""

    # What is said of a discovery that ended well.
    ending = "discovery without a fault"
    # What becomes of a request for which nobody waits any longer.
    later = "may still be sent"

    def __init__(self, output: Output, shown: Optional[str]) -> None:
        self._output = output
        # How frames are shown, as the option --frames has it; None if they aren't.
        self._shown = shown
        self._parts: Optional[Parts] = None
        self.frames = 0
        self.failure: Optional[LineFailed] = None
        # The log of a discovery that runs, if somebody wants it.
        self.log: Optional[DiscoveryLog] = None
        # The devices that a discovery has muted so far; None if none runs.
        self.found: Optional[Set[int]] = None
        # The devices that sent more after a branch than E1.20 allows, and what the last branch's reply spelled.
        self.talkative: Set[int] = set()
        self.spelled: Optional[int] = None

    @property
    def absence(self) -> str:
        """Why nothing can be sent at all now, if that is known."""
        return ""

    @property
    def silence(self) -> str:
        """What is said of a GET without an answer. Whether a part came, other programs keep to themselves."""
        return "no answer, or not all of it"

    @property
    def has_broken_off(self) -> bool:
        """Whether the last exchange was silent after a part of an answer, as far as that is known."""
        return False

    def exchange(self, frame: bytes) -> bytes:
        """A line's exchange. Who watches another program's line makes none."""
        raise LineFailed("another program makes the exchanges of this line")

    def begin(self, make_log: Optional[Callable[[], DiscoveryLog]]) -> None:
        """A discovery is to begin, of which somebody wants a log or not."""
        self.found = set()
        self.log = None if make_log is None else make_log()

    def end(self) -> None:
        """The discovery has ended, or isn't awaited any more."""
        self.found = self.log = None
        self._output.end_progress()

    def saw(self, frame: bytes, reply: Optional[bytes], microseconds: Optional[int] = None) -> None:
        """An exchange was made, at this time or now. None is a line that failed."""
        self._show(self.frames, frame, reply)
        self.frames += 1
        self._record(frame, reply, microseconds)
        if self.found is not None and reply is not None:
            self._note(self.found, frame, reply)

    def _note(self, found: Set[int], frame: bytes, reply: bytes) -> None:
        """What a discovery's frame and reply say of devices."""
        # Most commands don't search.
        from ..lines.numbers import Pid
        from ..lines.packets import BRANCH_SEPARATOR, ENCODED_BYTES, decode_branch_reply, decode_packet, is_answer
        command = decode_packet(frame)
        if command is not None and command.is_branch:
            self.spelled = decode_branch_reply(reply)
            if self.spelled is not None and len(reply) > reply.index(BRANCH_SEPARATOR) + 1 + ENCODED_BYTES:
                self.talkative.add(self.spelled)
        elif (command is not None and command.pid == Pid.DISC_MUTE and decode_packet(reply) is not None
                and is_answer(reply, frame)):
            found.add(command.destination)
        if self._shown is None:
            self._output.progress(f"{len(found)} found, {self.frames} frames")

    def _record(self, frame: bytes, reply: Optional[bytes], microseconds: Optional[int]) -> None:
        if self.log is not None:
            self.log.add(frame, reply, microseconds)

    def _show(self, number: int, frame: bytes, reply: Optional[bytes]) -> None:
        if self._shown is None:
            return
        # Most commands show no frames.
        from .frames import Parts, bytes_of, exchange_text
        self._parts = self._parts or Parts()
        self._output.frame(exchange_text(number, frame, self._parts.joined(frame, reply)))
        for line in bytes_of(frame, reply) if self._shown == AS_BYTES else ():
            self._output.frame(line)


class WatchedLine(Watched):
    """A line whose exchanges are watched."""

    def __init__(self, line: Line, output: Output, shown: Optional[str]) -> None:
        super().__init__(output, shown)
        self._line = line
        # The last two replies.
        self._replies = (b"", b"")

    @property
    def silence(self) -> str:
        """What is said of a GET without an answer, or with a part of one."""
        return "the answer broke off after a part of it" if self.has_broken_off else "no answer"

    @property
    def has_broken_off(self) -> bool:
        """Whether the last exchange was silent after a part of an answer."""
        from ..lines.numbers import ResponseType
        from ..lines.packets import decode_packet
        before, last = self._replies
        part = decode_packet(before)
        return not last and part is not None and part.port_or_type == ResponseType.ACK_OVERFLOW

    def exchange(self, frame: bytes) -> bytes:
        """The line's exchange."""
        try:
            reply = self._line.exchange(frame)
        except LineFailed as failure:
            self.failure = failure
            self.saw(frame, None)
            raise
        self._replies = (self._replies[1], reply)
        self.saw(frame, reply)
        return reply
