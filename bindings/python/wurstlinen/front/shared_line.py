"""A line that a server has, as far as it reports its exchanges."""
from __future__ import annotations

from typing import TYPE_CHECKING, Any, Callable, Dict, List, Optional, Set, Tuple

from ..line import LineFailed
from ..shared.client import SharedQueue
from ..shared.words import FRAMES
from .output import Output
from .watched import Watched

if TYPE_CHECKING:
    from .discovery_log import DiscoveryLog


class SharedLine(Watched):
    """Watches the exchanges that a server makes for this command.

    While a discovery is awaited, the runs of other programs are seen too, and forgotten when the next one begins.
    """

    later = "is only sent if it was its turn"

    def __init__(self, queue: SharedQueue, output: Output, shown: Optional[str]) -> None:
        super().__init__(output, shown)
        self._queue = queue
        # The run whose exchanges come now, these for the log, and what was known before.
        self._run = 0
        self._exchanges: List[Tuple[bytes, Optional[bytes], Optional[int]]] = []
        self._before: Tuple[int, Set[int]] = (0, set())
        # How many frames didn't come, since they weren't read in time.
        self._missed = 0
        queue.on_frame, queue.on_missed, queue.on_failure = self._take, self._miss, self._failed
        if shown is not None:
            queue.subscribe([FRAMES])

    @property
    def absence(self) -> str:
        """Why the server sends nothing."""
        if not self._queue.is_there:
            return self._queue.reason
        return "the queue is paused" if self._queue.is_paused() else ""

    def _failed(self, reason: str) -> None:
        self.failure = LineFailed(reason)

    def _miss(self, count: int) -> None:
        self._missed += count
        self._output.note(f"{count} frames are neither shown nor counted: they weren't read in time")

    def begin(self, make_log: Optional[Callable[[], DiscoveryLog]]) -> None:
        """A discovery is to begin."""
        super().begin(make_log)
        self._exchanges, self._missed = [], 0
        self._before = self.frames, set(self.talkative)
        self._queue.subscribe([FRAMES])

    def end(self) -> None:
        """Writes the log of the last run. Raises LineFailed if it would have gaps."""
        log = self.log
        super().end()
        if log is not None and self._missed:
            raise LineFailed(f"{self._missed} frames weren't read in time, so there is no log")
        if log is not None:
            for exchange in self._exchanges:
                log.add(*exchange)

    def leave(self) -> None:
        """The exchanges don't matter from now on."""
        self._queue.subscribe([])

    def _take(self, keys: Dict[str, Any]) -> None:
        """An exchange. Others' requests don't matter here."""
        run = keys.get("run")
        if run is None and not self._queue.awaits_request(keys["request"]):
            return
        if run is not None and self.found is None:
            return
        if run is not None and run != self._run:
            self._begin_run(run)
        self.saw(bytes.fromhex(keys["frame"]), None if "failed" in keys else bytes.fromhex(keys["reply"]),
                 keys.get("microseconds"))

    def _begin_run(self, run: int) -> None:
        """Forgets the run before, which was for others."""
        self._run = run
        self.found = set()
        self.frames, self.talkative = self._before[0], set(self._before[1])
        self._exchanges = []

    def _record(self, frame: bytes, reply: Optional[bytes], microseconds: Optional[int]) -> None:
        if self.log is not None:
            self._exchanges.append((frame, reply, microseconds))
