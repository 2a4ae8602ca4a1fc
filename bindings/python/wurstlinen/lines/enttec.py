"""A driver for Enttec's USB Pro with RDM firmware, and for DMXking's adapters with the same messages.

It was written from the protocol as OLA 0.10.9 uses it, and tried on an emulator only. bindings/python/LINES.md says
which behaviour has which source.
"""
from __future__ import annotations

import contextlib
import time
from collections import deque
from typing import Deque, Optional, Tuple

from .._turns import Turns
from ..line import MOST_REPLY_BYTES, LineFailed
from .base import OpenLine
from .ends import BranchEnd, EarlyEnds, Ends, seconds_on_wire
from .locks import Folder
from .messages import LENGTHS_FROM_ADAPTER, Label, Message, MessageReader
from .packets import START_CODE, is_answer, is_branch_frame, is_broadcast_frame, is_whole_packet
from .uids import uid_text
from .terminal import LOCK_FOLDER, Terminal, busy

# How long an exchange may take, and the answer to a question about the adapter itself.
EXCHANGE_SECONDS = 2.0
ANSWER_SECONDS = 0.2
# The adapter is asked for its serial number twice at most, and has this time for each answer: what isn't an adapter is
# known after two seconds, and an answer may be late on a busy machine.
SERIAL_NUMBER_TRIES = 2
SERIAL_NUMBER_SECONDS = 0.9
# How long the driver waits for the end of an answered exchange until it knows whether the adapter sends one.
SHORT_SECONDS = 0.1
# What an adapter sends at once after a message comes in this time. If it is later, the next exchange takes care of it.
SOON_SECONDS = 0.02
# After this time without bytes, whole messages are searched for behind an incomplete one.
QUIET_SECONDS = 0.02
# The end may have been among damaged bytes, so it isn't awaited longer than this after the last of them.
DAMAGED_SECONDS = 0.5
# The most reads for dropping old data before an exchange, in case the adapter never pauses.
MOST_READS = 64

FIRST_FIRMWARE_WITH_RDM = (2, 4)
FIRST_FIRMWARE_WITHOUT_BRANCH_ENDS = (4, 15)
ENTTEC = 0x454E
DMXKING = 0x6A6B
DMXKING_WITH_RDM = 4

GOOD = 0
# What a damaged message stands for: something came, and it can't be read.
DAMAGED_REPLY = b"\x00"
ANY_USER_MEMORY = b"\x00\x00"
LEAST_PARAMETERS_BYTES = 5
SERIAL_NUMBER_BYTES = 4
ID_BYTES = 2


class EnttecPro(OpenLine):
    """The adapter on this serial device, port 1.

    An exchange opens the device again if it was closed, or if it was unplugged. Questions about the adapter itself have
    `answer_seconds` for their answer; the first one, for its serial number, has 0.9 seconds at least, and is asked
    twice if it has to be. Calls may be made from any thread: each waits for the one before it, except that `close` ends
    an exchange of another thread, which then fails.
    """

    # The last exchange has had no end so far: what comes next may still belong to it.
    _is_in_doubt: bool
    # The last exchange was answered, and has had no end so far: what its end would show something about.
    _open_ends: Optional[Ends]
    # Until when that is awaited before the next exchange; None if it isn't.
    _awaited_until: Optional[float]

    def __init__(self, path: str, lock_folder: Folder = LOCK_FOLDER, answer_seconds: float = ANSWER_SECONDS) -> None:
        self.path = path
        self.serial = 0
        # None if the adapter doesn't say.
        self.firmware: Optional[Tuple[int, int]] = None
        self._lock_folder = lock_folder
        self._answer_seconds = answer_seconds
        self._turns = Turns()
        self._terminal: Optional[Terminal] = None
        self._reader = MessageReader(LENGTHS_FROM_ADAPTER)
        self._messages: Deque[Message] = deque()
        self._forget()
        self.open()

    @property
    def branch_end(self) -> BranchEnd:
        """Whether the adapter sends its end after the reply to a branch."""
        return self._known(self._branch_ends)

    @property
    def response_end(self) -> BranchEnd:
        """Whether the adapter sends its end after a good response."""
        return self._known(self._response_ends)

    def _known(self, ends: Ends) -> BranchEnd:
        """What is known of these ends, after the wait for the last exchange's."""
        with contextlib.suppress(LineFailed):
            self._turns.alone(self._await_end)
        return ends.known

    @property
    def is_there(self) -> bool:
        """Whether the adapter is plugged in, as far as the system knows."""
        terminal = self._terminal
        return terminal is not None and terminal.is_there

    def open(self) -> None:
        """Opens and locks the device, and asks who it is; `LineFailed` if it isn't an adapter with RDM."""
        self._turns.alone(self._open)

    def _open(self) -> None:
        self._close()
        self._forget()
        try:
            self._terminal = Terminal(self.path, self._lock_folder)
            self._clear()
            self._meet()
        except BaseException:
            self._close()
            raise

    def close(self) -> None:
        """Closes the device, and removes its lock."""
        self._turns.alone(self._close, self._interrupt)

    def _close(self) -> None:
        terminal, self._terminal = self._terminal, None
        if terminal is not None:
            terminal.close()

    def _interrupt(self) -> None:
        """Ends what another thread waits for."""
        terminal = self._terminal
        if terminal is not None:
            terminal.interrupt()

    def _device(self) -> Terminal:
        """The open device. A signal's handler may have closed it."""
        if self._terminal is None:
            raise LineFailed("the device was closed")
        return self._terminal

    def exchange(self, frame: bytes) -> bytes:
        """Sends a frame, and waits at most two seconds for the end of its exchange.

        The bytes are passed on whatever the adapter's status is: the reader checks their sum, and a collision mustn't
        look like silence.
        """
        return self._turns.alone(lambda: self._exchange(frame))

    def _exchange(self, frame: bytes) -> bytes:
        if self._terminal is None or not self._terminal.is_open:
            self._open()
        self._await_end()
        self._clear()
        if self._is_in_doubt:
            self._settle()
            self._clear()
        is_branch = is_branch_frame(frame)
        self._has_answer = is_branch or not is_broadcast_frame(frame)
        self._open_ends = None
        self._ended_silently = False
        self._is_in_doubt = True
        self._earliest_end = time.monotonic() + seconds_on_wire(frame, self._has_answer)
        self._send(Label.SEND_BRANCH if is_branch else Label.SEND_RDM, frame)
        return self._branch_reply() if is_branch else self._reply(frame)

    def _forget(self) -> None:
        """Starts from scratch, since another adapter may be there."""
        self._branch_ends = Ends()
        self._response_ends = Ends()
        self._early_ends = EarlyEnds()
        self._is_in_doubt = False
        self._open_ends = self._awaited_until = None
        # The last exchange had an end without a reply.
        self._ended_silently = False
        # Whether the frame under way may be answered, and when its end can come without an answer.
        self._has_answer = False
        self._earliest_end = 0.0
        self._heard_at = 0.0

    def _meet(self) -> None:
        """Asks for the serial number, the firmware and the maker."""
        serial = self._ask_serial_number(max(self._answer_seconds, SERIAL_NUMBER_SECONDS))
        if serial is None:
            # Who has it without these locks may have taken the answer.
            raise busy(self.path) or LineFailed(f"{self.path} doesn't answer as a USB Pro does")
        self.serial = int.from_bytes(serial[:SERIAL_NUMBER_BYTES], "little")
        maker, self.firmware = self._ask_maker_and_firmware()
        self.source = (maker or ENTTEC) << 32 | self.serial
        if maker == DMXKING:
            self._check_dmxking()
        elif self.firmware is not None and self.firmware < FIRST_FIRMWARE_WITH_RDM:
            raise LineFailed(f"{self.path} has firmware {self.firmware[0]}.{self.firmware[1]}; RDM needs 2.4 or later")

    def _check_dmxking(self) -> None:
        """A DMXking's model says whether it has RDM; its firmware doesn't, so that isn't used."""
        self.firmware = None
        device = self._ask_id(Label.DEVICE)
        if device != DMXKING_WITH_RDM:
            raise LineFailed(f"{self.path} is a DMXking without RDM (device {device})")

    def _ask_maker_and_firmware(self) -> Tuple[Optional[int], Optional[Tuple[int, int]]]:
        """The maker, which a USB Pro doesn't say, and the firmware.

        An adapter answers one question after the other. So once it has answered the second, none to the first is due:
        only if a USB Pro with this firmware has no RDM, that is awaited a little longer.
        """
        self._send(Label.MANUFACTURER, b"")
        self._send(Label.PARAMETERS, ANY_USER_MEMORY)
        maker = firmware = None
        end = time.monotonic() + self._answer_seconds
        while maker is None or firmware is None:
            message = self._next(end)
            if message is None:
                break
            if message.label == Label.MANUFACTURER and len(message.data) >= ID_BYTES:
                maker = _id_in(message.data)
            elif message.label == Label.PARAMETERS and len(message.data) >= LEAST_PARAMETERS_BYTES:
                firmware = (message.data[1], message.data[0])
                if firmware >= FIRST_FIRMWARE_WITH_RDM:
                    break
                end = min(end, time.monotonic() + SOON_SECONDS)
            else:
                self._note_late_end(message)
        return maker, firmware

    def _ask_id(self, label: Label) -> Optional[int]:
        answer = self._ask(label, b"", ID_BYTES, self._answer_seconds)
        return _id_in(answer) if answer else None

    def _ask(self, label: Label, data: bytes, least: int, seconds: float) -> Optional[bytes]:
        """The adapter's answer to a question, with at least this many bytes; None if none comes in time."""
        self._send(label, data)
        end = time.monotonic() + seconds
        while True:
            message = self._next(end)
            if message is None:
                return None
            if message.label == label and len(message.data) >= least:
                return message.data
            self._note_late_end(message)

    def _ask_serial_number(self, seconds: float) -> Optional[bytes]:
        """The adapter's serial number: all that comes before it belongs to earlier exchanges."""
        for _ in range(SERIAL_NUMBER_TRIES):
            serial = self._ask(Label.SERIAL_NUMBER, b"", SERIAL_NUMBER_BYTES, seconds)
            if serial is not None:
                return serial
            self._clear()
        return None

    def _settle(self) -> None:
        """Makes sure that nothing of earlier exchanges is still to come."""
        if self._ask_serial_number(SERIAL_NUMBER_SECONDS) is None:
            raise LineFailed(f"{self.path} doesn't answer any more")
        self._is_in_doubt = False

    def _reply(self, frame: bytes) -> bytes:
        """The reply to a frame that isn't a branch: a good response, or what came before the end."""
        end = time.monotonic() + EXCHANGE_SECONDS
        kept = b""
        while True:
            message = self._next_of_exchange(end, is_branch=False)
            if message is None:
                return self._without_end(kept)
            if message.label == Label.RDM_END:
                return self._ended(kept)
            reply = message.data[1:MOST_REPLY_BYTES + 1]
            if message.data[0] == GOOD and is_whole_packet(reply):
                if is_answer(reply, frame):
                    return self._answered(reply, self._response_ends, end, SOON_SECONDS)
                # It is late, and the frame's own may follow.
                end = min(end, time.monotonic() + SHORT_SECONDS)
            kept = kept or reply

    def _branch_reply(self) -> bytes:
        """The reply to a branch: the first bytes that came, whatever they are."""
        end = time.monotonic() + EXCHANGE_SECONDS
        message = self._next_of_exchange(end, is_branch=True)
        if message is None:
            return self._without_end(b"")
        if message.label == Label.RDM_END:
            return self._ended(b"")
        return self._answered(_branch_bytes(message.data), self._branch_ends, end, self._seconds_to_learn())

    def _next_of_exchange(self, end: float, is_branch: bool) -> Optional[Message]:
        """The exchange's next message. An end that comes too early counts only if no other message follows soon."""
        early = None
        while True:
            message = self._next(end)
            if message is None:
                if early is not None:
                    self._early_ends.was_alone()
                return early
            if not _belongs(message, is_branch):
                continue
            if not self._is_early_end(message, is_branch):
                if early is not None:
                    self._early_ends.was_stale()
                return message
            early = message
            end = min(end, time.monotonic() + SHORT_SECONDS)

    def _is_early_end(self, message: Message, is_branch: bool) -> bool:
        """Whether an end may belong to an earlier exchange: more has come behind it, or the frame isn't sent so far."""
        if message.label != Label.RDM_END:
            return False
        is_early = self._early_ends.are_stale and time.monotonic() < self._earliest_end
        return is_early or any(_belongs(each, is_branch) for each in self._messages)

    def _answered(self, reply: bytes, ends: Ends, end: float, seconds_to_learn: float) -> bytes:
        """The reply to an exchange, whose end is awaited before the next one, unless it is known that none comes."""
        self._open_ends = ends
        if ends.known is BranchEnd.UNKNOWN:
            end = min(end, time.monotonic() + seconds_to_learn)
        self._is_in_doubt = ends.known is not BranchEnd.NOT_SENT
        self._awaited_until = end if self._is_in_doubt else None
        return reply

    def _await_end(self) -> None:
        """Waits for the end of the last exchange, if it is still awaited.

        If it may still come, the next exchange finds out first whether it is only late.
        """
        until, self._awaited_until = self._awaited_until, None
        ends = self._open_ends
        if until is None or ends is None:
            return
        self._take_in()
        while self._open_ends is not None:
            message = self._next(until)
            if message is None:
                ends.missed()
                return
            self._note_late_end(message)
        self._is_in_doubt = False

    def _seconds_to_learn(self) -> float:
        """A short time for firmware that sends no end according to OLA, else the longest time of an exchange."""
        is_late = self.firmware is not None and self.firmware >= FIRST_FIRMWARE_WITHOUT_BRANCH_ENDS
        return SHORT_SECONDS if is_late else EXCHANGE_SECONDS

    def _note_late_end(self, message: Message) -> None:
        """The end of an answered exchange, whenever it comes, shows that the adapter sends ends."""
        if message.label == Label.RDM_END and self._open_ends is not None:
            self._open_ends.came()
            self._open_ends = None

    def _note_late_reply(self, message: Message) -> None:
        """After an end without a reply, a reply shows that the end was an earlier exchange's."""
        if self._ended_silently and _may_be_reply(message, is_branch=False):
            self._response_ends.forget()
            self._is_in_doubt = True

    def _ended(self, kept: bytes) -> bytes:
        """An exchange has ended, so anything that comes later belongs to another one."""
        self._is_in_doubt = False
        self._ended_silently = not kept
        return kept or self._silence()

    def _silence(self) -> bytes:
        """No bytes, unless a damaged message came: that may have been a reply."""
        return DAMAGED_REPLY if self._has_answer and self._reader.has_lost_message else b""

    def _without_end(self, kept: bytes) -> bytes:
        """The time is over: what came counts, and if nothing did the exchange has failed."""
        if not kept and not self._reader.has_lost_message:
            other = busy(self.path)
            raise LineFailed(f"{self.path} didn't end an exchange within {EXCHANGE_SECONDS:.0f} seconds"
                             f"{'' if other is None else f'; {other.holder} has it, too'}")
        return kept or self._silence()

    def _clear(self) -> None:
        """Drops what has come since the last exchange, and what is left of an incomplete message."""
        self._take_in()
        for message in self._messages:
            self._note_late_end(message)
            self._note_late_reply(message)
        self._messages.clear()
        self._reader.clear()

    def _take_in(self) -> None:
        """Reads what has come."""
        for _ in range(MOST_READS):
            data = self._device().read_until(0.0)
            if not data:
                break
            self._heard_at = time.monotonic()
            self._messages.extend(self._reader.feed(data))

    def _send(self, label: Label, data: bytes) -> None:
        self._device().write(Message(label, data).encode())

    def _next(self, end: float) -> Optional[Message]:
        """The next message that comes before the time `end`, or soon after damaged bytes."""
        while not self._messages:
            now = time.monotonic()
            until = min(end, self._heard_at + DAMAGED_SECONDS) if self._reader.is_damaged else end
            if now >= until:
                return None
            if self._reader.is_incomplete:
                until = min(until, now + QUIET_SECONDS)
            data = self._device().read_until(until)
            if data:
                self._heard_at = time.monotonic()
            self._messages.extend(self._reader.feed(data) if data else self._reader.rescue())
        return self._messages.popleft()

    def __repr__(self) -> str:
        version = "unknown firmware" if self.firmware is None else "firmware {}.{}".format(*self.firmware)
        return f"EnttecPro({self.path!r}: {version}, {uid_text(self.source or 0)})"


def _may_be_reply(message: Message, is_branch: bool) -> bool:
    """Whether a message may be the reply to a frame. What doesn't begin with cc is DMX, but not after a branch."""
    if message.label != Label.RECEIVED:
        return False
    return bool(message.data) if is_branch else message.data[1:2] == bytes([START_CODE])


def _id_in(answer: bytes) -> int:
    """The number at the beginning of an answer."""
    return int.from_bytes(answer[:ID_BYTES], "little")


def _belongs(message: Message, is_branch: bool) -> bool:
    """Whether a message is the reply or the end of an exchange, maybe of an earlier one."""
    return message.label == Label.RDM_END or _may_be_reply(message, is_branch)


def _branch_bytes(data: bytes) -> bytes:
    """The bytes after the status byte. A fault without bytes isn't silence, so the status byte is returned instead."""
    reply = data[1:MOST_REPLY_BYTES + 1]
    return reply if reply or data[0] == GOOD else data[:1]
