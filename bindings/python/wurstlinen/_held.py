"""What holds a handle of the C library, and what it has made."""

from collections import deque
from typing import Callable, Deque, Generic, Optional, TypeVar

from ._library import Call, Calls, Handle
from ._turns import Turns

Self = TypeVar("Self", bound="Held")
Made = TypeVar("Made")


class Held:
    """A handle, on which threads make calls in turn. It is a context manager, which disposes of it."""

    _calls: Calls

    def __init__(self) -> None:
        self._turns = Turns()
        self._handle = Handle()

    def __enter__(self: Self) -> Self:
        return self

    def __exit__(self, *why: object) -> None:
        self.dispose()

    def __del__(self) -> None:
        if getattr(self, "_handle", None) and self._handle.is_open:
            self._calls.dispose(self._handle)

    def _made(self, call: Call, *arguments: object) -> int:
        """Makes a call of the library, and returns its status."""
        return self._turns.alone(lambda: call(self._handle, *arguments))

    def dispose(self) -> None:
        """Frees its memory. Later calls raise NotOpen."""
        self._turns.alone(lambda: self._calls.dispose(self._handle))


class Unreturned(Generic[Made]):
    """What the library has made, until it is returned: an exception, such as an interrupt, may come between."""

    def __init__(self) -> None:
        self._kept: Deque[Made] = deque()

    def __bool__(self) -> bool:
        return bool(self._kept)

    def first(self) -> Optional[Made]:
        """The first of them, which stays; None if there is none."""
        return next(iter(tuple(self._kept)), None)

    def first_or(self, make: Callable[[], bool]) -> Made:
        """The first of them, which is returned now. If there is none, one is made; IndexError if there is none then."""
        while self._kept or make():
            try:
                return self._kept.popleft()
            except IndexError:
                # Another thread has returned it.
                continue
        raise IndexError

    def keep(self, work: Callable[[], object], made: Callable[[], Optional[Made]]) -> bool:
        """Does some work, and keeps what that has made, even if an exception comes. Whether it has made something."""
        try:
            work()
            return self._add(made())
        except BaseException:
            self._add(made())
            raise

    def _add(self, made: Optional[Made]) -> bool:
        if made is not None and not any(each is made for each in tuple(self._kept)):
            self._kept.append(made)
        return made is not None
