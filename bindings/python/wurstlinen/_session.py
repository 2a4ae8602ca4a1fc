"""A queue with a log of all that it does."""

import ctypes
from typing import Tuple, Union

from ._faults import check
from ._held import Held, Unreturned
from ._library import Calls, EntryForm, room_for
from ._queue import Queue, setup_of
from ._types import DEFAULT_BUDGET, MOST_FRAME_BYTES, MOST_PLACES, Search, Uid, whole
from .entries import Entry, entry_in


class _Entries(Held):
    """What sessions and logs have in common: entries."""

    def _count(self) -> int:
        count = ctypes.c_size_t()
        check(self._calls.entry_count(self._handle, count))
        return count.value

    def _entry(self, index: int) -> Entry:
        form, data = EntryForm(), room_for(MOST_FRAME_BYTES)
        check(self._calls.entry(self._handle, index, form, data, MOST_FRAME_BYTES))
        return entry_in(form, bytes(data[:form.len]))

    def entry_count(self) -> int:
        """How many entries the log stores."""
        return self._turns.alone(self._count)

    def entry(self, index: int) -> Entry:
        """The entry of this index, counted from 0, oldest first. Raises NoEntry."""
        whole(index, 64, "index")
        return self._turns.alone(lambda: self._entry(index))

    def entries(self, start: int = 0) -> Tuple[Entry, ...]:
        """The entries from this index on, oldest first."""
        whole(start, 64, "index")
        return self._turns.alone(lambda: tuple(self._entry(index) for index in range(start, self._count())))


class Log(_Entries):
    """The log of a session that continued with a fresh one. It is made by `Session.rotate`.

    Calls may be made from any thread: each has its turn on this object. It is a context manager, which disposes of it.
    """

    _calls = Calls("wurst_log_")


class Page(_Entries):
    """The entries that `Session.drain` has handed out, as an iterator, oldest first.

    Entries are numbered from 0 at the session's first one, or the first after its last rotation; `first` is the number
    of this page's first. The page is disposed of after its last entry. Calls may be made from any thread: each has its
    turn on this object. It is a context manager, which disposes of it.
    """

    _calls = Calls("wurst_log_")

    def __init__(self) -> None:
        super().__init__()
        # The library writes it.
        self._first = ctypes.c_uint64()
        self._read = 0
        self._unreturned: Unreturned[Entry] = Unreturned()

    @property
    def first(self) -> int:
        """The number of its first entry."""
        return self._first.value

    def __iter__(self) -> "Page":
        return self

    def __next__(self) -> Entry:
        try:
            return self._unreturned.first_or(lambda: self._turns.alone(self._read_next))
        except IndexError:
            raise StopIteration from None

    def _read_next(self) -> bool:
        """Reads an entry, and keeps it until it is returned. Whether there was one."""
        if not self._handle.is_open:
            return False
        if self._read == self._count():
            self._calls.dispose(self._handle)
            return False
        index = self._read
        entry = self._entry(index)
        return self._unreturned.keep(self._advance, lambda: entry if self._read > index else None)

    def _advance(self) -> None:
        self._read += 1


class Session(Queue, _Entries):
    """A queue with a log, which has a fixed capacity of entries.

    A request takes 5 entries, and 2 for each further frame. A discovery takes 3, and its run 2 for each frame. With
    fewer than three free entries, calls raise LogFull; replies, closes and collects always fit. `drain` empties the log
    at any time. `without_log`: it keeps nothing, whatever `entries` is, so that the session can last for years.
    """

    _calls = Calls("wurst_session_")

    def __init__(self, source: Union[Uid, str], entries: int = 10_000, places: int = MOST_PLACES, *,
                 budget: int = DEFAULT_BUDGET, search: Search = Search.QUICK, without_log: bool = False) -> None:
        super().__init__()
        self._logs: Unreturned[Log] = Unreturned()
        self._pages: Unreturned[Page] = Unreturned()
        setup = setup_of(source, places, budget, search)
        entries = whole(entries, 64, "entries")
        if without_log:
            check(self._calls.open_without_log(self._handle, setup))
        else:
            check(self._calls.open(self._handle, setup, entries))

    def free_entries(self) -> int:
        """How many entries are free: neither taken nor reserved for what has to be logged later."""
        count = ctypes.c_size_t()
        check(self._made(self._calls.free_entries, count))
        return count.value

    def rotate(self, entries: int = 10_000) -> Log:
        """Continues with a fresh log with capacity for this many entries, and returns the old one.

        Raises NotIdle, LogFull for fewer than three entries, TooManyEntries or OutOfMemory.
        """
        whole(entries, 64, "entries")
        return self._logs.first_or(lambda: self._rotate(entries, Log()))

    def _rotate(self, entries: int, log: Log) -> bool:
        return self._logs.keep(lambda: check(self._made(self._calls.rotate, entries, log._handle)),
                               lambda: log if log._handle.is_open else None)

    def drain(self, entries: int = 10_000) -> Page:
        """Hands out all entries that the log stores, at any time, and continues with capacity for this many.

        Raises LogFull if that is less than what is reserved, TooManyEntries or OutOfMemory; then nothing has changed.
        """
        whole(entries, 64, "entries")
        return self._pages.first_or(lambda: self._drain(entries, Page()))

    def _drain(self, entries: int, page: Page) -> bool:
        return self._pages.keep(lambda: check(self._made(self._calls.drain, entries, page._handle, page._first)),
                                lambda: page if page._handle.is_open else None)
