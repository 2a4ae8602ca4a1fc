"""The command discover on a line that a server or olad has, and what a server has found."""
from __future__ import annotations

from typing import TYPE_CHECKING, List, Optional, Union

from ..front.discovery_log import sink_of
from ..front.opening import failures_of_lines
from ..front.output import DONE, FAILED, Output
from ..front.work import failures_of_server, shared_work
from .main import default_line
from .reporting import Found

if TYPE_CHECKING:
    from ..olad.client import OlaClient
    from ..shared.client import SharedClient


def discover(client: Union[SharedClient, OlaClient], log: Optional[str], frames: Optional[str],
             output: Output) -> int:
    """Has the server search, and prints what is found. Raises Failure."""
    with failures_of_server():
        work = shared_work(client, output, frames, log)
        with sink_of(log) as sink:
            found = work.search(sink)
    line = work.line
    # olad doesn't say how many frames there were.
    Found(found.devices, line.frames or None, found.fault).show(output, line.ending, line.failure)
    return DONE if found.fault is None else FAILED


def known_devices() -> List[str]:
    """The UIDs of the devices that the server of the usual line has found; none without a server. Raises Failure."""
    from ..shared.client import client_of
    with failures_of_lines():
        client = client_of(default_line())
        if client is None:
            return []
        with client:
            return [str(device.uid) for device in client.queue.devices()]
