"""Reads the values of JSON objects, and says by its path which one is wrong."""
from __future__ import annotations

from typing import Any, Callable, Dict, Optional, Sequence, Tuple, TypeVar, Union

from .uids import is_broadcast, parse_uid

Value = TypeVar("Value")
Other = TypeVar("Other")
# It returns what a JSON value means, or raises a `SceneFault`.
Reader = Callable[[Any], Value]

HEX_DIGITS = frozenset("0123456789abcdefABCDEF")


class SceneFault(ValueError):
    """What is wrong with a rig's file, and the path of the key."""

    def __init__(self, reason: str, path: str = "") -> None:
        super().__init__(f"{path}: {reason}" if path else reason)
        self.reason = reason
        self.path = path


class Keys:
    """The keys of a JSON object, each of which is read at most once."""

    def __init__(self, value: Any) -> None:
        if not isinstance(value, dict):
            raise SceneFault("an object is expected")
        self._values: Dict[str, Any] = dict(value)

    def required(self, name: str, read: Reader[Value]) -> Value:
        """The value of a required key."""
        if name not in self._values:
            raise SceneFault("the key is missing", name)
        return _at(name, read, self._values.pop(name))

    def optional(self, name: str, read: Reader[Value], default: Other) -> Union[Value, Other]:
        """The value of a key, or the default if the key is absent."""
        return self.required(name, read) if name in self._values else default

    def end(self) -> None:
        """Refuses keys that weren't read."""
        for name in sorted(self._values):
            raise SceneFault("there is no such key", name)


def whole(least: int, most: int) -> Reader[int]:
    """Reads a whole number of this range."""
    def read(value: Any) -> int:
        if not isinstance(value, int) or isinstance(value, bool) or not least <= value <= most:
            raise SceneFault(f"a whole number from {least} to {most} is expected")
        return value
    return read


def text(most: int) -> Reader[str]:
    """Reads a text of at most this many bytes, all of them ASCII."""
    def read(value: Any) -> str:
        if not isinstance(value, str) or len(value) > most or not value.isascii():
            raise SceneFault(f"a text of at most {most} ASCII characters is expected")
        return value
    return read


def digits(count: int) -> Reader[int]:
    """Reads a number of this many hexadecimal digits."""
    def read(value: Any) -> int:
        if not isinstance(value, str) or len(value) != count or not HEX_DIGITS.issuperset(value):
            raise SceneFault(f"a text of {count} hexadecimal digits is expected")
        return int(value, 16)
    return read


def byte_text(least: int, most: int) -> Reader[bytes]:
    """Reads bytes in hexadecimal."""
    def read(value: Any) -> bytes:
        if (not isinstance(value, str) or len(value) % 2 or not least <= len(value) // 2 <= most
                or not HEX_DIGITS.issuperset(value)):
            raise SceneFault(f"{least} to {most} bytes in hexadecimal are expected")
        return bytes.fromhex(value)
    return read


def list_of(read_one: Reader[Value], least: int, most: Optional[int]) -> Reader[Tuple[Value, ...]]:
    """Reads a list whose number of elements is in this range."""
    def read(value: Any) -> Tuple[Value, ...]:
        if not isinstance(value, list) or len(value) < least or (most is not None and len(value) > most):
            limits = f"at least {least}" if most is None else f"{least} to {most}"
            raise SceneFault(f"a list of {limits} elements is expected")
        return tuple(_at(f"[{index}]", read_one, each) for index, each in enumerate(value))
    return read


def any_uid(value: Any) -> int:
    """Reads a UID."""
    try:
        return parse_uid(value)
    except (TypeError, ValueError):
        raise SceneFault("a UID such as 7a70:00000001 is expected") from None


def device_uid(value: Any) -> int:
    """Reads a UID that isn't broadcast."""
    uid = any_uid(value)
    if is_broadcast(uid):
        raise SceneFault("the UID of one device is expected")
    return uid


def one_of(kind: Callable[[str], Value], words: Sequence[str]) -> Reader[Value]:
    """Reads one of some words."""
    def read(value: Any) -> Value:
        if value not in words:
            raise SceneFault(f"one of these is expected: {', '.join(words)}")
        return kind(value)
    return read


def share(value: Any) -> float:
    """Reads a share, from 0 to 1."""
    if not isinstance(value, (int, float)) or isinstance(value, bool) or not 0 <= value <= 1:
        raise SceneFault("a share from 0 to 1 is expected")
    return float(value)


def _at(name: str, read: Reader[Value], value: Any) -> Value:
    """Reads a value; its faults get the name as a prefix of their path."""
    try:
        return read(value)
    except SceneFault as fault:
        joint = "." if fault.path and not fault.path.startswith("[") else ""
        raise SceneFault(fault.reason, name + joint + fault.path) from None
