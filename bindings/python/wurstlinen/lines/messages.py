"""The messages of Enttec's USB Pro and similar adapters, for the driver and the emulator.

A message is 7e, a label, the length of its data (low byte first), the data and e7. Nothing is escaped.
"""
from __future__ import annotations

from enum import IntEnum
from typing import List, Mapping, NamedTuple, Optional, Sequence

START = 0x7E
END = 0xE7
HEADER_BYTES = 4
# A header that announces more isn't taken for a header.
MOST_DATA_BYTES = 600


class Label(IntEnum):
    """The labels that matter here. Labels 1 and 2 replace the widget's firmware, and are never sent."""

    PARAMETERS = 3
    RECEIVED = 5
    SEND_RDM = 7
    CHANGE_OF_STATE = 9
    SERIAL_NUMBER = 10
    SEND_BRANCH = 11
    RDM_END = 12
    MANUFACTURER = 77
    DEVICE = 78


# How many bytes of data each message from an adapter may have. A test of OLA's sends an end with four bytes.
LENGTHS_FROM_ADAPTER: Mapping[int, Sequence[int]] = {
    Label.PARAMETERS: range(5, 514),
    Label.RECEIVED: range(MOST_DATA_BYTES + 1),
    Label.CHANGE_OF_STATE: range(6, 47),
    Label.SERIAL_NUMBER: (4,),
    Label.RDM_END: (0, 4),
    Label.MANUFACTURER: range(2, 36),
    Label.DEVICE: range(2, 36),
}


class Message(NamedTuple):
    """A label and its data."""

    label: int
    data: bytes = b""

    def encode(self) -> bytes:
        """The message as it is sent."""
        return bytes([START, self.label]) + len(self.data).to_bytes(2, "little") + self.data + bytes([END])


class MessageReader:
    """Finds the messages in bytes that come in pieces of any size.

    Bytes that belong to no message are dropped one 7e at a time, so that a good message behind a false header is
    found. `lengths` has the labels that a header may have, with their lengths; without it each label is read.
    """

    def __init__(self, lengths: Optional[Mapping[int, Sequence[int]]] = None) -> None:
        self._lengths = lengths
        self._left = bytearray()
        # The end of what was dropped since the last message.
        self._dropped = bytearray()
        self._has_dropped = False
        self._has_lost = False

    def clear(self) -> None:
        """Forgets the bytes of an incomplete message, and all that was dropped."""
        self._left.clear()
        self._dropped.clear()
        self._has_dropped = self._has_lost = False

    @property
    def is_incomplete(self) -> bool:
        """Whether the beginning of a message is there."""
        return bool(self._left)

    @property
    def is_damaged(self) -> bool:
        """Whether there are bytes since the last `clear` that aren't part of a whole message."""
        return self._has_dropped or self.is_incomplete

    @property
    def has_lost_message(self) -> bool:
        """Whether some of those bytes look like a message that isn't whole."""
        lacks_end = len(self._left) >= HEADER_BYTES and len(self._left) == HEADER_BYTES + self._length()
        return self._has_lost or lacks_end or _is_broken(self._dropped + self._left)

    def feed(self, data: bytes) -> List[Message]:
        """The messages that these bytes complete."""
        self._left += data
        messages = []
        while self._has_message():
            message = self._next()
            if message is not None:
                messages.append(message)
        return messages

    def rescue(self) -> List[Message]:
        """The whole messages behind an incomplete one, which is given up if there are any."""
        behind = MessageReader(self._lengths)
        start = self._left.find(START, 1)
        while start > 0:
            messages = behind.feed(bytes(self._left[start:]))
            if messages:
                self._drop(start)
                self._note_dropped()
                self._has_lost |= behind._has_lost
                self._left, self._dropped = behind._left, behind._dropped
                return messages
            start = self._left.find(START, len(self._left) - len(behind._left) + 1)
            behind.clear()
        return []

    def _has_message(self) -> bool:
        """Drops what can't begin a message, and says whether the first one is complete."""
        while True:
            start = self._left.find(START)
            self._drop(start if start >= 0 else len(self._left))
            if len(self._left) < HEADER_BYTES:
                return False
            if self._is_header():
                return len(self._left) > HEADER_BYTES + self._length()
            self._refuse()

    def _refuse(self) -> None:
        """Drops a whole message of another label, or else only the byte that isn't the start of one."""
        whole = HEADER_BYTES + self._length() + 1
        is_other = self._lengths is not None and self._left[1] not in self._lengths
        if is_other and len(self._left) >= whole and self._left[whole - 1] == END:
            self._note_dropped()
            del self._left[:whole]
        else:
            self._drop(1)

    def _is_header(self) -> bool:
        length = self._length()
        if self._lengths is None:
            return length <= MOST_DATA_BYTES
        return length in self._lengths.get(self._left[1], ())

    def _length(self) -> int:
        return int.from_bytes(self._left[2:HEADER_BYTES], "little")

    def _next(self) -> Optional[Message]:
        """Takes the first message out. If its end byte is wrong, only its start is dropped, and there is none."""
        end = HEADER_BYTES + self._length()
        if self._left[end] != END:
            # The next message began one byte too early, so this one has lost its end.
            self._has_lost |= self._left[end] == START
            self._drop(1)
            return None
        message = Message(self._left[1], bytes(self._left[HEADER_BYTES:end]))
        self._note_dropped()
        del self._left[:end + 1]
        return message

    def _drop(self, count: int) -> None:
        if count:
            self._has_dropped = True
            self._dropped += self._left[:count]
            del self._dropped[:-HEADER_BYTES]
            del self._left[:count]

    def _note_dropped(self) -> None:
        """A message comes after what was dropped, which is judged before it is forgotten."""
        self._has_lost |= _is_broken(self._dropped)
        self._dropped.clear()


def _is_broken(data: bytes) -> bool:
    """Whether these bytes, which are no message, end as one does."""
    return len(data) >= HEADER_BYTES and data[-1] == END
