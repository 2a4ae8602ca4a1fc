"""Exceptions at the worst moments: at each line of the package that a call runs."""
from __future__ import annotations

import itertools
import os
import sys
import threading
from collections import Counter
from dataclasses import dataclass
from functools import partial
from types import FrameType
from typing import Any, Callable, Generic, List, Optional, Sequence, Tuple, Type, TypeVar

from common import PACKAGE

Scene = TypeVar("Scene")
FOLDER = str(PACKAGE / "wurstlinen") + os.sep
# An interrupt, which most code doesn't catch, and what any call may raise.
FAULTS: Sequence[Type[BaseException]] = (KeyboardInterrupt, MemoryError)
# Another thread needs no longer, however busy the machine is. Only a test that fails waits until then.
SECONDS = 20.0


@dataclass(frozen=True)
class Moment:
    """When a line of a file is run for this time."""

    file: str
    line: int
    time: int

    def __str__(self) -> str:
        return f"{self.file[len(FOLDER):]}:{self.line}, time {self.time}"


class Trace:
    """Counts the package's lines that this thread runs, and raises a fault, or does something else, at a moment."""

    def __init__(self, at: Optional[Moment] = None, fault: Type[BaseException] = KeyboardInterrupt,
                 action: Optional[Callable[[], Any]] = None) -> None:
        self.times: "Counter[Tuple[str, int]]" = Counter()
        self.is_raised = False
        self._at = at
        self._fault = fault
        self._action = action

    def run(self, call: Callable[[], Any]) -> Any:
        """The result of a call."""
        sys.settrace(self._called)
        try:
            return call()
        finally:
            sys.settrace(None)

    def _called(self, frame: FrameType, event: str, argument: Any) -> Any:
        return self._ran if frame.f_code.co_filename.startswith(FOLDER) else None

    def _ran(self, frame: FrameType, event: str, argument: Any) -> Any:
        if event == "line":
            place = frame.f_code.co_filename, frame.f_lineno
            self.times[place] += 1
            if self._at == Moment(*place, self.times[place]):
                sys.settrace(None)
                self._act()
                return None
        return self._ran

    def _act(self) -> None:
        if self._action is not None:
            self._action()
            return
        self.is_raised = True
        raise self._fault(str(self._at))

    def moments(self) -> List[Moment]:
        """The first and the last time of each line."""
        return [Moment(*place, time) for place, count in self.times.items() for time in (1, count)]


class Trial(Generic[Scene]):
    """A call in a scene of its own, with an interrupt at the first time of each line, and another fault at the last.

    `check` gets the scene and what the call returned, as a list; it is empty if the call raised the exception.
    """

    def __init__(self, make: Callable[[], Scene], call: Callable[[Scene], Any],
                 check: Callable[[Scene, List[Any]], None], end: Callable[[Scene], None] = lambda scene: None) -> None:
        self._make, self._call, self._check, self._end = make, call, check, end

    def run(self) -> int:
        """Makes all trials, and returns how many. Raises AssertionError with the moment of one that failed."""
        trace = Trace()
        self._try(trace)
        moments = trace.moments()
        for moment, fault in zip(moments, itertools.cycle(FAULTS)):
            try:
                self._try(Trace(moment, fault))
            except Exception as why:
                raise AssertionError(f"after {fault.__name__} at {moment}: {why!r}") from why
        return len(moments)

    def _try(self, trace: Trace) -> None:
        before = held()
        scene = self._make()
        returned: List[Any] = []
        try:
            returned.append(trace.run(partial(self._call, scene)))
        except BaseException as fault:
            if not trace.is_raised:
                raise
            # What the frames of its traceback hold would be freed later.
            fault.__traceback__ = None
        self._check(scene, returned)
        self._end(scene)
        del scene, returned
        assert held() == before, f"descriptors and threads: {before} before, {held()} after"


def held() -> Tuple[int, int]:
    """How many descriptors and threads this process has."""
    return len(os.listdir("/proc/self/fd")), threading.active_count()


def elsewhere(call: Callable[[], Any]) -> Any:
    """What a call returns in another thread, which mustn't wait for ever."""
    results: List[Any] = []
    thread = threading.Thread(target=lambda: results.append(call()), daemon=True)
    thread.start()
    thread.join(SECONDS)
    assert results, "another thread waits for a lock"
    return results[0]


def raising(call: Callable[..., Any], at: int, fault: BaseException) -> Callable[..., Any]:
    """The same call, which raises a fault the time of this number, counted from 0."""
    calls = [0]

    def made(*arguments: Any) -> Any:
        calls[0] += 1
        if calls[0] == at + 1:
            raise fault
        return call(*arguments)
    return made
