"""Parameters by words and numbers, and the names of refusals."""
from __future__ import annotations

import functools
from typing import TYPE_CHECKING, Mapping

from ..parameters import STANDARD, Parameter, Table, WordFault
from ..parameters.fields import Bytes, Message, SubDevices
from ..parameters.names import NACK_REASONS
from ..parameters.words import is_name, is_only_a_name, name_of
from .output import BAD_ARGUMENTS, Failure

if TYPE_CHECKING:
    from ..parameters import ola

FIRST_MANUFACTURERS_PID = 0x8000
LAST_MANUFACTURERS_PID = 0xFFDF
NACK_BYTES = 2


def is_manufacturers(pid: int) -> bool:
    """Whether a manufacturer defines the parameter of this number."""
    return FIRST_MANUFACTURERS_PID <= pid <= LAST_MANUFACTURERS_PID


@functools.lru_cache(maxsize=None)
def manufacturers() -> Mapping[int, ola.Manufacturer]:
    """The manufacturers of OLA's files; none if OLA isn't installed, or its files can't be read."""
    # Most commands need none of them.
    from ..parameters import ola
    try:
        return ola.manufacturers()
    except (OSError, ola.FileFault):
        return {}


@functools.lru_cache(maxsize=None)
def standard() -> Table:
    """The parameters of the standards: of those that aren't known here, what OLA's files have."""
    from ..parameters import ola
    try:
        found = ola.standard_parameters()
    except (OSError, ola.FileFault):
        return STANDARD
    return STANDARD.with_more(each for each in found if STANDARD.numbered(each.number) is None)


def table_of(manufacturer: int, pid: int) -> Table:
    """The table in which a parameter of a manufacturer's devices is looked up."""
    if STANDARD.numbered(pid) is not None:
        return STANDARD
    if not is_manufacturers(pid) or manufacturer not in manufacturers():
        return standard()
    return standard().with_more(manufacturers()[manufacturer].parameters)


def pid_of(manufacturer: int, word: str) -> int:
    """The number of a parameter. Raises Failure."""
    try:
        if not is_name(word) or any(each.name == name_of(word) for each in STANDARD.parameters):
            return STANDARD.pid(word)
        return table_of(manufacturer, FIRST_MANUFACTURERS_PID).pid(word)
    except WordFault as fault:
        text = str(fault)
        if is_only_a_name(word):
            text += f"{'' if text.endswith('?') else ';'} 'wurstlinen pids' lists those of the standards"
        raise Failure(BAD_ARGUMENTS, text, reason="parameter") from None


def known_or_raw(manufacturer: int, pid: int) -> Parameter:
    """The parameter of this number, without asking a device."""
    return table_of(manufacturer, pid).numbered(pid) or raw_parameter(pid)


def raw_parameter(pid: int) -> Parameter:
    """A parameter of which nothing is known."""
    fields = (Bytes("data"),)
    message = Message(fields, fields, SubDevices.ROOT_ONE_OR_ALL)
    return Parameter(f"0x{pid:04x}", pid, "", message, message)


def nack_of(data: bytes) -> str:
    """The name of a refusal's reason."""
    if len(data) != NACK_BYTES:
        return "malformed_reason"
    return NACK_REASONS.get(int.from_bytes(data, "big"), "unknown_reason")
