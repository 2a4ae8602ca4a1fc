"""A universe of olad, which shows no frames."""
from __future__ import annotations

from typing import Callable, Optional

from ..line import LineFailed
from ..olad.client import OlaQueue
from .discovery_log import DiscoveryLog
from .output import BAD_ARGUMENTS, Failure, Output
from .watched import Watched


class OlaLine(Watched):
    """Remembers why olad failed. Raises Failure if frames are to be shown or logged."""

    ending = "as olad found them"

    def __init__(self, queue: OlaQueue, output: Output, shown: Optional[str], log: Optional[str]) -> None:
        super().__init__(output, shown)
        for value, name in ((shown, "--frames"), (log, "--log")):
            if value is not None:
                raise Failure(BAD_ARGUMENTS, f"olad keeps its frames to itself: leave out {name}", reason="arguments")
        queue.on_failure = self._failed

    def _failed(self, reason: str) -> None:
        self.failure = LineFailed(reason)

    def begin(self, make_log: Optional[Callable[[], DiscoveryLog]]) -> None:
        """A discovery is to begin, of which there is no log."""
        super().begin(None)
        self._output.progress("olad searches")
