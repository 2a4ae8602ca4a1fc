"""The bad UIDs of a discovery's run."""
from __future__ import annotations

from typing import TYPE_CHECKING, Union

from ._types import BadUids

if TYPE_CHECKING:
    from ._queue import Queue
    from .olad.client import OlaQueue
    from .shared.client import SharedQueue


def bad_uids_of_run(queue: Union[Queue, SharedQueue, OlaQueue], run: int) -> BadUids:
    """The bad UIDs of a run that has ended; none if another one has begun since."""
    # If no other has begun now, none had begun before.
    bad = queue.bad_uids()
    return bad if queue.bad_uids_run() == run else BadUids()
