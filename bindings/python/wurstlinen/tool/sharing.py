"""The command serve: has a line, and serves the programs that share it."""
from __future__ import annotations

import argparse
import contextlib
import signal
from typing import Iterator, Union

from .. import Search, Session, Uid
from .._endings import end_by
from .._standard_streams import warn
from ..commands import source_of
from ..front.opening import opened
from ..front.output import DONE, FAILED, Failure, Output
from ..lines import OpenLine, open_line
from ..shared.journal import CAPACITY, entry_line, opening_keys
from ..shared.listening import Passed, Place, activated
from ..shared.log_file import LogFile, LogWriter
from ..shared.peer import refuse_waiting
from ..shared.place import BadPlace, canonical
from ..shared.server import Facts, Server
from ..shared.words import BadRequest
from ..shared.worker import Worker

# The server's quick search is the commands' own.
SEARCH = Search.QUICK
# How long an exchange of a far end may take.
FAR_END_SECONDS = 5.0
# How long the end of the log may take.
LOG_SECONDS = 2.0


def run_serve(chosen: argparse.Namespace, output: Output) -> int:
    """Serves a line until a signal comes, or nobody has used it for a while."""
    try:
        # A name that the adapter keeps if it is unplugged.
        chosen.line = canonical(chosen.line)
        with contextlib.closing(placed(chosen)) as place, telling(place), \
                opened(far_end_opened, chosen.line, chosen.wait_line, output) as line:
            serve(chosen, output, line, place)
    except BadPlace as fault:
        raise Failure(FAILED, str(fault), reason="place") from None
    return DONE


def placed(chosen: argparse.Namespace) -> Union[Place, Passed]:
    """The socket that programs connect to: the one that systemd has passed, or one that this server makes."""
    passed = list(activated())
    if len(passed) > 1:
        raise BadPlace(f"systemd passes {len(passed)} sockets, and one is wanted")
    if passed and chosen.group is not None:
        raise BadPlace("the socket that systemd passes has a group already: leave out --group")
    try:
        return Passed(passed[0]) if passed else Place(chosen.line, chosen.group)
    except OSError as fault:
        raise BadPlace(f"{fault.filename or 'the socket'} can't be used: {fault.strerror}") from None


@contextlib.contextmanager
def telling(place: Union[Place, Passed]) -> Iterator[None]:
    """Has programs for which systemd has started this server told why they aren't served, which starts no other."""
    try:
        yield
    except Failure as failure:
        refuse_waiting(place.listener, BadRequest(str(failure), "NoLine"))
        raise


def far_end_opened(text: str) -> OpenLine:
    """A line. A far end that doesn't answer doesn't hold it up for ever."""
    return open_line(text, FAR_END_SECONDS)


def serve(chosen: argparse.Namespace, output: Output, line: OpenLine, place: Union[Place, Passed]) -> None:
    """Serves an open line."""
    name, source = chosen.line, Uid.from_number(source_of(chosen, line))
    log = None if chosen.log is None else logged(chosen.log, source)
    with Session(source, CAPACITY, search=SEARCH) as session:
        server = Server(place, session, Facts(name, str(source), place.users, chosen.idle))
        worker = Worker(session, line, lambda: far_end_opened(chosen.line), server.wake, log)
        end_by(lambda number, frame: server.end(), signal.SIGINT, signal.SIGTERM, signal.SIGHUP)
        path = str(place.listener.getsockname())
        place.listen()
        output.result([f"{name} is shared at {path}"], line=name, socket=path)
        try:
            server.run(worker)
        except Exception as fault:  # A line may raise anything.
            raise Failure(FAILED, f"{name} has ended the server: {fault!r}", reason="line") from None
        finally:
            if log is not None:
                log.end(LOG_SECONDS)


def logged(name: str, source: Uid) -> LogWriter:
    """The log's file, with the beginning of a session. Raises Failure."""
    log = LogFile(name, warn)
    try:
        log.open()
    except OSError as fault:
        raise Failure(FAILED, f"{name}: {fault.strerror}", reason="file") from None
    writer = LogWriter(log)
    writer.add([entry_line(opening_keys(source, SEARCH))])
    return writer
