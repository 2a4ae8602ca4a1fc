"""The command show: all that a device supports, by sections."""
from __future__ import annotations

import argparse
from typing import Dict, Iterator, List, Mapping, Optional, Sequence, Tuple

from .. import Device, Uid
from ..lines.numbers import Pid
from ..parameters import STANDARD, Parameter, Reading
from ..parameters.decoding import Values
from .fixtures import Fixture
from .naming import raw_parameter
from .output import DONE, FAILED, REFUSED, Failure, Output, aligned, reading_keys
from .sensors import sensor_text
from .work import Work, open_work

# The sections, and the last number of each.
PATCH, SENSORS = "patch", "sensors"
SECTIONS = (("identity", 0x00DF), (PATCH, 0x01FF), (SENSORS, 0x02FF), ("dimmer", 0x03FF),
            ("lamp and hours", 0x04FF), ("settings", 0x06FF), ("network", 0x0FFF), ("control", 0x7FFF),
            ("manufacturer's own", 0xFFDF))
# What can only be set, or is read by a number that the device doesn't list.
OTHERS = "other parameters"
# A GET of these takes a message away, tells a secret, or returns what is shown anyway.
NOT_ASKED = {Pid.QUEUED_MESSAGE, Pid.STATUS_MESSAGES, STANDARD.named("lock_pin").number, Pid.SUPPORTED_PARAMETERS,
             Pid.DMX_START_ADDRESS, Pid.SENSOR_DEFINITION, Pid.SENSOR_VALUE}
# What each device has and doesn't list, and what is asked of a device that lists nothing.
UNLISTED = (Pid.DEVICE_INFO, Pid.SOFTWARE_VERSION_LABEL, Pid.IDENTIFY_DEVICE)
USUAL = (Pid.DEVICE_LABEL, Pid.MANUFACTURER_LABEL, Pid.DEVICE_MODEL_DESCRIPTION)
# What DEVICE_INFO says about the patch.
OF_PATCH = ("dmx_footprint", "current_personality", "personality_count", "dmx_start_address")
# The settings that are one of a numbered list, with the parameters that describe its entries.
CHOICES: Mapping[int, Parameter] = {
    STANDARD.named(name).number: STANDARD.named(f"{name}_description")
    for name in ("dmx_personality", "curve", "output_response_time", "modulation_frequency", "lock_state")}
DESCRIPTIONS = {parameter.number for parameter in CHOICES.values()}
INTERFACE = "interface_id"
NAME_SERVER = "name_server_index"
NAME_SERVERS = 3
# A device that doesn't answer so many times in a row isn't asked any more.
MOST_SILENCES = 2
# A title and a line; the title is empty after the first line.
Row = Tuple[str, str]


def run_show(chosen: argparse.Namespace, output: Output) -> int:
    """Prints all that a device supports, or each device."""
    status = DONE
    with open_work(chosen, output) as work:
        devices, fault = ([Device(Uid.from_number(chosen.uid))], None) if chosen.uid is not None else work.discover()
        for number, device in enumerate(devices):
            shown = Shown(work, device.uid)
            if not output.is_json:
                output.result([*([""] if number else []), str(device.uid)])
            for section, rows in shown.sections():
                output.result([section, *(f"  {line}" for line in aligned(rows))])
            status = status if shown.is_whole else FAILED
    if fault is not None:
        raise Failure(FAILED, f"the discovery is incomplete: {fault}", reason="discovery")
    return status


class Shown:
    """What a device says about all that it supports."""

    def __init__(self, work: Work, uid: Uid) -> None:
        # Whether it answered each question, if only by a refusal.
        self.is_whole = True
        self._work = work
        self._uid = uid
        self._section = ""
        self._pids: List[int] = []
        self._info: Values = {}
        self._interfaces: List[int] = []
        # The parameters that it supports and their last values, by their titles.
        self.parameters: Dict[str, Parameter] = {}
        self.values: Dict[str, Values] = {}
        # What it supports and wasn't asked for.
        self._others: List[str] = []
        self._silences = 0

    def sections(self) -> Iterator[Tuple[str, List[Row]]]:
        """The sections with their rows, as they are asked. With JSON each answer is printed instead."""
        self._pids = self._supported()
        first = 0
        for self._section, last in SECTIONS:
            rows = {PATCH: self._slots, SENSORS: self._sensors}.get(self._section, list)()
            for pid in self._pids:
                if first <= pid <= last:
                    rows += self._rows(pid)
            if rows and not self._work.output.is_json:
                yield self._section, rows
            first = last + 1
        if self._others and self._work.output.is_json:
            self._work.output.result([], section="others", uid=str(self._uid), parameters=self._others)
        elif self._others:
            yield OTHERS, [(name, "") for name in self._others]

    def _supported(self) -> List[int]:
        """The numbers of what it supports."""
        reading, _ = self._ask(STANDARD.named("supported_parameters"))
        if reading is None:
            return sorted({*UNLISTED, *USUAL})
        listed = {int.from_bytes(reading.data[at:at + 2], "big") for at in range(0, len(reading.data), 2)}
        return sorted(listed.union(UNLISTED))

    def _ask(self, parameter: Parameter, data: bytes = b"") -> Tuple[Optional[Reading], List[str]]:
        """What a GET returns, and its lines; None, and why, if it returns nothing. Raises Failure for the line."""
        if self._silences >= MOST_SILENCES:
            return None, []
        try:
            reading = self._work.read(self._uid, parameter, data)
        except Failure as failure:
            return None, [self._failed(failure)]
        self._silences = 0
        self.values[title_of(parameter)] = reading.values or {}
        output = self._work.output
        if output.is_json and parameter.number != Pid.SUPPORTED_PARAMETERS:
            output.result([], section=self._section, **reading_keys(str(self._uid), parameter, reading))
        return reading, [*reading.lines, *([reading.misfit] if reading.misfit else [])] or ["none"]

    def _failed(self, failure: Failure) -> str:
        """Counts a failure, and says in short what it was."""
        if failure.is_of_line:
            raise failure
        if self._work.output.is_json:
            self._work.output.failure(failure)
        if failure.status == REFUSED:
            self._silences = 0
            return f"refused: {str(failure.keys['nack']).replace('_', ' ')}"
        self._silences += 1
        self.is_whole = False
        return self._work.line.silence if failure.keys.get("reason") == "timeout" else str(failure)

    def _rows(self, pid: int) -> List[Row]:
        """The rows of a parameter."""
        if pid in NOT_ASKED or (pid in DESCRIPTIONS and self._is_choice(pid)):
            return []
        parameter = self._described(pid)
        if parameter is None or parameter.get is None:
            self._others += [] if parameter is None else [parameter.name]
            return []
        if pid == Pid.DEVICE_INFO:
            return self._device_info(parameter)
        if pid in CHOICES:
            return self._choice(parameter, CHOICES[pid])
        numbers = self._numbers(parameter)
        if numbers is None:
            self._others.append(parameter.name)
            return []
        rows = []
        for data, title in numbers:
            reading, lines = self._ask(parameter, data)
            self._note_interfaces(reading)
            rows += rows_of(f"{title_of(parameter)}{title}", lines)
        return rows

    def _is_choice(self, pid: int) -> bool:
        """Whether a description is shown with the setting that it describes."""
        return any(number in self._pids for number, parameter in CHOICES.items() if parameter.number == pid)

    def _described(self, pid: int) -> Optional[Parameter]:
        """A parameter, for which the device may be asked; None if that failed."""
        try:
            parameter = self._work.described(self._uid, pid)
        except Failure as failure:
            self._failed(failure)
            return None
        self.parameters[title_of(parameter)] = parameter
        return parameter

    def _numbers(self, parameter: Parameter) -> Optional[List[Tuple[bytes, str]]]:
        """The data with which a parameter is asked for, and what that adds to its title; None if it isn't known."""
        assert parameter.get is not None
        fields = parameter.get.request
        if not fields or parameter == raw_parameter(parameter.number):
            return [(b"", "")]
        if len(fields) == 1 and fields[0].name == INTERFACE:
            return [(number.to_bytes(4, "big"), f" {number}") for number in self._interfaces]
        if len(fields) == 1 and fields[0].name == NAME_SERVER:
            return [(bytes([number]), f" {number}") for number in range(NAME_SERVERS)]
        return None

    def _note_interfaces(self, reading: Optional[Reading]) -> None:
        """Remembers the network interfaces that a device lists."""
        values = {} if reading is None else reading.values or {}
        for interface in list_in(values, "interfaces"):
            number = interface[INTERFACE]
            if isinstance(number, int):
                self._interfaces.append(number)

    def _device_info(self, parameter: Parameter) -> List[Row]:
        """What a device says about itself, without its patch."""
        reading, lines = self._ask(parameter)
        self._info = {} if reading is None else reading.values or {}
        if not self._info:
            return rows_of(title_of(parameter), lines)
        pairs = (line.split(": ", 1) for line in lines)
        return [(name.replace("_", " "), value) for name, value in pairs if name not in OF_PATCH]

    def _slots(self) -> List[Row]:
        """Where a device is patched."""
        return [("slots", Fixture(self._uid, info=self._info).slots_text)] if self._info else []

    def _choice(self, parameter: Parameter, description: Parameter) -> List[Row]:
        """A setting that is one of a numbered list, and that list."""
        reading, lines = self._ask(parameter)
        if reading is None or reading.values is None:
            return rows_of(title_of(parameter), lines)
        current, count = list(reading.values.values())
        rows = [(title_of(parameter), f"{current} of {count}")]
        for number in range(1, (count if isinstance(count, int) else 0) + 1):
            if description.number in self._pids:
                found, lines = self._ask(description, bytes([number]))
                text = choice_text(found) if found is not None else "".join(lines)
                rows += [("", f"{number} {text}{', in use' if number == current else ''}")] if lines else []
        return rows

    def _sensors(self) -> List[Row]:
        """What a device's sensors measure."""
        rows = []
        count = self._info.get("sensor_count", 0)
        for number in range(count if isinstance(count, int) else 0):
            data = bytes([number])
            definition, _ = self._if_supported("sensor_definition", data)
            value, lines = self._if_supported("sensor_value", data)
            known = {} if definition is None else definition.values or {}
            if value is not None and value.values is not None:
                lines = [sensor_text(value.values, known)]
            name = known.get("description") or known.get("type", "")
            rows += rows_of(f"{number} {name}".rstrip(), lines)
        return rows

    def _if_supported(self, name: str, data: bytes) -> Tuple[Optional[Reading], List[str]]:
        """What a GET of a parameter returns, if the device has that."""
        parameter = STANDARD.named(name)
        return self._ask(parameter, data) if parameter.number in self._pids else (None, [])


def title_of(parameter: Parameter) -> str:
    """The title of a parameter's rows."""
    return parameter.name.replace("_", " ")


def rows_of(title: str, lines: Sequence[str]) -> List[Row]:
    """Lines under one title."""
    return [(title if number == 0 else "", line) for number, line in enumerate(lines)]


def choice_text(reading: Reading) -> str:
    """An entry of a list: its text, and what else is said about it."""
    if reading.values is None:
        return "".join(reading.lines)
    pairs = [line.split(": ", 1) for line in reading.lines[1:]]
    text = next((value for name, value in pairs if name == "description"), "")
    return ", ".join([text, *(more_text(name, value) for name, value in pairs if name != "description")])


def more_text(name: str, value: str) -> str:
    """What a list says about an entry beside its text."""
    if name != "slots_required":
        return value
    return "1 slot" if value == "1" else f"{value} slots"


def list_in(values: Values, name: str) -> List[Mapping[str, object]]:
    """The elements of a group; none if there is no such group."""
    found = values.get(name)
    return found if isinstance(found, list) else []
