"""The table of parameters: by itself, and compared with OLA's data where OLA is installed."""
from __future__ import annotations

import json
import re
import subprocess
import tempfile
import unittest
from pathlib import Path
from typing import Any, Dict, Iterator, List, Mapping, Optional, Tuple

from common import TestCase
from wurstlinen.lines.numbers import NackReason, Pid
from wurstlinen.parameters import STANDARD, WordFault, names, ola
from wurstlinen.parameters.fields import (
    MOST_DATA_BYTES, Bytes, Field, Fields, Flag, Group, Ipv4, Mac, Message, Number, Parameter, SubDevices, Text,
    UidField,
)
from wurstlinen.parameters.table import STANDARDS, Table, standard_of

ENUMERATIONS = Path("/usr/include/ola/rdm/RDMEnums.h")
SYSTEM_PYTHON = Path("/usr/bin/python3")
PYTHON_PARSER = """
import json, sys
from google.protobuf import text_format
from ola import Pids_pb2

def of_field(field):
    kind = Pids_pb2.FieldType.Name(field.type)
    return [kind, field.name, field.min_size if field.HasField("min_size") else None,
            field.max_size if field.HasField("max_size") else None, field.multiplier,
            [[each.value, each.label] for each in field.label], [[each.min, each.max] for each in field.range],
            [of_field(each) for each in field.field]]

def of_pid(pid):
    made = [pid.name, pid.value]
    for kind in ("get", "set", "discovery"):
        for part in ("request", "response"):
            name = kind + "_" + part
            made.append([of_field(each) for each in getattr(pid, name).field] if pid.HasField(name) else None)
        name = kind + "_sub_device_range"
        made.append(Pids_pb2.SubDeviceRange.Name(getattr(pid, name)) if pid.HasField(name) else None)
    return made

store = Pids_pb2.PidStore()
text_format.Parse(open(sys.argv[1]).read(), store)
pids = [*store.pid, *(pid for each in store.manufacturer for pid in each.pid)]
print(json.dumps([of_pid(pid) for pid in pids]))
"""

# Where the table differs from OLA's data, and why.
DIFFERENCES: Mapping[str, Tuple[str, ...]] = {
    "OLA's data allows any number in most responses; here a number that the standard doesn't have is shown as bytes": (
        "status_messages.get.response.status_messages.sub_device_id",
        "status_messages.get.response.status_messages.status_type",
        "status_messages.get.response.status_messages.status_message_id",
        "sub_device_status_report_threshold.get.response.status_type",
        "parameter_description.get.response.parameter_id",
        "parameter_description.get.response.pdl_size",
        "device_info.get.response.dmx_footprint",
        "device_info.get.response.dmx_start_address",
        "device_info.get.response.sub_device_count",
        "dmx_personality.get.response.current_personality",
        "dmx_personality_description.get.response.personality",
        "dmx_personality_description.get.response.slots_required",
        "dmx_start_address.get.response.dmx_start_address",
        "slot_info.get.response.slots.slot_offset",
        "slot_description.get.response.slot_number",
        "default_slot_value.get.response.slots.slot_offset",
        "sensor_definition.get.response.sensor_number",
        "sensor_definition.get.response.recorded_value_support",
        "sensor_value.get.response.sensor_number",
        "sensor_value.set.response.sensor_number",
        "real_time_clock.get.response.year",
        "real_time_clock.get.response.month",
        "real_time_clock.get.response.day",
        "real_time_clock.get.response.hour",
        "real_time_clock.get.response.minute",
        "real_time_clock.get.response.second",
        "dmx_block_address.get.response.base_dmx_address",
        "dmx_fail_mode.get.response.scene_number",
        "dmx_startup_mode.get.response.scene_number",
        "dimmer_info.get.response.levels_resolution",
        "curve.get.response.current_curve",
        "output_response_time.get.response.current_output_response_time",
        "modulation_frequency.get.response.current_modulation_frequency",
        "identify_mode.get.response.identify_mode",
        "interface_label.get.response.interface_id",
        "interface_hardware_address_type1.get.response.interface_id",
        "ipv4_dhcp_mode.get.response.interface_id",
        "ipv4_zeroconf_mode.get.response.interface_id",
        "ipv4_current_address.get.response.interface_id",
        "ipv4_static_address.get.response.interface_id",
        "ipv4_default_route.get.response.interface_id",
        "dns_ipv4_name_server.get.response.name_server_index",
    ),
    "OLA's data allows numbers in requests that no device can have": (
        "status_id_description.get.request.status_message_id",
        "parameter_description.get.request.parameter_id",
        "slot_description.get.request.slot_number",
    ),
    "a mute is acknowledged with one binding UID at most": (
        "disc_mute.discovery.response.binding_uids",
        "disc_un_mute.discovery.response.binding_uids",
    ),
    "a queued message may be of any parameter, so its bytes are shown; OLA's data has no fields": (
        "queued_message.get.response",
    ),
    "the root has no threshold of its own; OLA's data has no range of sub-devices without the root but with all": (
        "sub_device_status_report_threshold.set.sub_devices",
    ),
    "0700 is no product detail": (
        "product_detail_id_list.get.response.product_detail_ids.product_detail_id",
    ),
    "a language has two letters": (
        "language.get.response.language",
        "language.set.request.language",
    ),
    "the least number is a valid maximum of a sensor": (
        "sensor_definition.get.response.range_maximum_value",
    ),
    "a sensor's values are signed, after a SET too": (
        "sensor_value.set.response.present_value",
        "sensor_value.set.response.lowest_detected_value",
        "sensor_value.set.response.highest_detected_value",
        "sensor_value.set.response.recorded_value",
    ),
    "a scene's number has 16 bits, and ffff plays all": (
        "dmx_fail_mode.set.request.scene_number",
        "dmx_startup_mode.set.request.scene_number",
    ),
    "a curve's number has one byte": (
        "curve.set.request.curve",
    ),
}

# The prefixes of E1.20's identifiers in OLA's header.
PREFIXES: Mapping[str, Mapping[int, str]] = {
    "NR_": names.NACK_REASONS,
    "STATUS_": names.STATUS_TYPES,
    "STS_": names.STATUS_IDS,
    "PRODUCT_CATEGORY_": names.PRODUCT_CATEGORIES,
    "PRODUCT_DETAIL_": names.PRODUCT_DETAILS,
    "SENSOR_": names.SENSOR_TYPES,
    "UNITS_": names.UNITS,
    "PREFIX_": names.PREFIXES,
    "DS_": names.DATA_TYPES,
    "CC_": names.COMMAND_CLASSES,
    "ST_": names.SLOT_TYPES,
    "SD_": names.SLOT_IDS,
    "LAMP_": names.LAMP_STATES,
    "LAMP_ON_MODE_": names.LAMP_ON_MODES,
    "DISPLAY_INVERT_": names.DISPLAY_INVERTS,
    "RESET_": names.RESETS,
    "POWER_STATE_": names.POWER_STATES,
    "IDENTIFY_MODE_": names.IDENTIFY_MODES,
    "PRESET_": names.PRESET_PROGRAMMED,
    "MERGEMODE_": names.MERGE_MODES,
    "DHCP_STATUS_": names.DHCP_STATUSES,
}
# Identifiers that OLA's header spells in another way than the standard.
SPELLINGS = {
    "PREFIX_FEMPTO": "PREFIX_FEMTO",
    "PRODUCT_DETAIL_REVERSEPHASE_CONTROL": "PRODUCT_DETAIL_REVERSE_PHASE_CONTROL",
    "PRODUCT_DETAIL_PROTOCOL_CONVERTOR": "PRODUCT_DETAIL_PROTOCOL_CONVERTER",
    "LAMP_ON_MODE_AFTER_CAL": "LAMP_ON_MODE_ON_AFTER_CAL",
}


def needs_ola(test: Any) -> Any:
    """Skips a test if OLA's data isn't installed."""
    return test if (ola.FOLDER / ola.STANDARD_FILE).is_file() else unittest.skip("needs OLA's data")(test)


def has_ola_python() -> bool:
    """Whether Debian's Python has OLA's package."""
    command = [str(SYSTEM_PYTHON), "-c", "import ola.Pids_pb2"]
    return SYSTEM_PYTHON.is_file() and subprocess.run(command, capture_output=True, check=False).returncode == 0


def valid_numbers(field: Number) -> List[Tuple[int, int]]:
    """The ranges of valid numbers, as few as possible."""
    merged: List[Tuple[int, int]] = []
    for least, most in sorted([*field.valid, *((each, each) for each in field.labels)]):
        if merged and least <= merged[-1][1] + 1:
            merged[-1] = (merged[-1][0], max(most, merged[-1][1]))
        else:
            merged.append((least, most))
    return merged


def shape(field: Field) -> Tuple[Any, ...]:
    """All of a field but its names."""
    if isinstance(field, Number):
        return "number", field.size, field.is_signed, field.power, valid_numbers(field), sorted(field.labels)
    if isinstance(field, (Text, Bytes, Group)):
        return type(field).__name__, field.least, field.most
    return (type(field).__name__,)


def fields_that_differ(path: str, ours: Fields, theirs: Fields) -> Iterator[str]:
    """The paths of fields that differ."""
    if len(ours) != len(theirs):
        yield path
    for our, their in zip(ours, theirs):
        if shape(our) != shape(their):
            yield f"{path}.{our.name}"
        if isinstance(our, Group) and isinstance(their, Group):
            yield from fields_that_differ(f"{path}.{our.name}", our.fields, their.fields)


def messages_that_differ(path: str, ours: Optional[Message], theirs: Optional[Message]) -> Iterator[str]:
    """The paths of what differs in a command."""
    if ours is None or theirs is None:
        if ours is not theirs:
            yield path
        return
    if ours.sub_devices is not theirs.sub_devices:
        yield f"{path}.sub_devices"
    yield from fields_that_differ(f"{path}.request", ours.request, theirs.request)
    yield from fields_that_differ(f"{path}.response", ours.response, theirs.response)


def numbers_of_header() -> Dict[str, int]:
    """The identifiers of OLA's header with their numbers."""
    text = ENUMERATIONS.read_text(encoding="utf-8")
    return {name: int(number, 16) for name, number in re.findall(r"([A-Z][A-Z0-9_]+) = (0x[0-9A-Fa-f]+)", text)}


class TableItself(TestCase):
    def test_names_and_numbers_are_unique(self) -> None:
        parameters = STANDARD.parameters
        self.assertEqual([len(each) for each in STANDARDS.values()], [52, 21, 14])
        self.assertEqual(len({each.name for each in parameters}), len(parameters))
        self.assertEqual(len({each.number for each in parameters}), len(parameters))
        for each in STANDARDS.values():
            self.assertEqual([parameter.number for parameter in each], sorted(parameter.number for parameter in each))

    def test_it_is_found_by_name_and_number(self) -> None:
        for word in ("device_label", "DEVICE_LABEL", "device-label", "0x0082", "0x82", "130"):
            self.assertEqual(STANDARD.pid(word), 0x0082, word)
        self.assertEqual(STANDARD.name(0x0082), "device_label")
        self.assertEqual(STANDARD.name(0x8001), "0x8001")
        self.assertEqual(standard_of(0x0082), "E1.20")
        self.assertEqual(standard_of(0x0140), "E1.37-1")
        self.assertIsNone(standard_of(0x8001))

    def test_what_was_meant_is_said(self) -> None:
        for word, wanted in (
                ("device_lable", "there is no parameter 'device_lable'; did you mean device_label?"),
                ("zzzzzz", "there is no parameter 'zzzzzz'"),
                ("0082", "'0082' can be read in two ways: write 82 for the decimal number, "
                         "or 0x0082 for the hexadecimal one, which is 130"),
                ("00f0", "'00f0' isn't a decimal number; as a hexadecimal one it is written 0x00f0, and is 240"),
                ("70000", "the number of a parameter is from 0 to 65535, not 70000"),
                ("-1", "the number of a parameter is from 0 to 65535, not -1"),
                ("", "'' isn't a number")):
            with self.assertRaises(WordFault) as caught:
                STANDARD.pid(word)
            self.assertEqual(str(caught.exception), wanted)

    def test_more_parameters_come_after_the_standards(self) -> None:
        table = STANDARD.with_more([Parameter("device_label", 0x9000, ""), Parameter("own", 0x0082, "")])
        self.assertEqual((table.pid("device_label"), table.name(0x9000)), (0x0082, "device_label"))
        self.assertEqual((table.pid("own"), table.name(0x0082)), (0x0082, "device_label"))
        self.assertEqual(Table([]).parameters, ())

    def test_it_has_what_a_rig_has(self) -> None:
        for each in Pid:
            self.assertEqual(STANDARD.name(each), each.name.lower())
        for reason in NackReason:
            self.assertEqual(names.NACK_REASONS[reason], reason.name.lower())

    def test_labels_are_unique(self) -> None:
        for prefix, labels in PREFIXES.items():
            self.assertEqual(len(set(labels.values())), len(labels), prefix)
        self.assertEqual(set(names.PREFIX_POWERS), set(names.PREFIXES))

    def test_sub_devices(self) -> None:
        allowed = {kind: [each for each in (0, 1, 512, 513, 0xFFFE, 0xFFFF) if kind.allows(each)]
                   for kind in SubDevices}
        self.assertEqual(allowed, {
            SubDevices.ROOT: [0], SubDevices.ROOT_OR_ONE: [0, 1, 512], SubDevices.ONE: [1, 512],
            SubDevices.ROOT_ONE_OR_ALL: [0, 1, 512, 0xFFFF], SubDevices.ONE_OR_ALL: [1, 512, 0xFFFF]})


class Comparison(TestCase):
    @needs_ola
    def test_parameters_with_the_data_of_ola(self) -> None:
        theirs = {each.number: each for each in ola.standard_parameters()}
        found = []
        for our in STANDARD.parameters:
            their = theirs[our.number]
            self.assertEqual(our.name, their.name)
            for kind in ("get", "set", "discovery"):
                found += messages_that_differ(f"{our.name}.{kind}", getattr(our, kind), getattr(their, kind))
        listed = [path for paths in DIFFERENCES.values() for path in paths]
        self.assertEqual(len(listed), len(set(listed)))
        self.assertEqual(sorted(found), sorted(listed))

    @unittest.skipUnless(ENUMERATIONS.is_file(), "needs OLA's headers")
    def test_names_with_the_header_of_ola(self) -> None:
        numbers = numbers_of_header()
        for prefix, labels in PREFIXES.items():
            for number, label in labels.items():
                identifier = f"{prefix}{label.upper()}"
                self.assertEqual(numbers.get(SPELLINGS.get(identifier, identifier)), number, identifier)
        reasons = {number for name, number in numbers.items() if name.startswith("NR_")}
        self.assertLessEqual(reasons, set(names.NACK_REASONS))
        for parameter in STANDARD.parameters:
            # OLA's header has an older name for this one.
            identifier = f"PID_{parameter.name.upper()}".replace("DNS_IPV4_NAME_SERVER", "DNS_NAME_SERVER")
            self.assertEqual(numbers.get(identifier), parameter.number, identifier)


def their_form(field: Field) -> List[Any]:
    """A field as the other parser prints it, without the names that are shortened here."""
    kinds = {Flag: "BOOL", UidField: "UID", Ipv4: "IPV4", Mac: "MAC", Text: "STRING", Group: "GROUP"}
    if isinstance(field, Number):
        kind = f"{'INT' if field.is_signed else 'UINT'}{8 * field.size}"
        return [kind, 0, None, field.power, sorted(field.labels.items()), [list(each) for each in field.ranges], []]
    inner = [their_form(each) for each in field.fields] if isinstance(field, Group) else []
    sizes = [field.least, field.most] if isinstance(field, (Text, Group)) else [0, None]
    return [kinds[type(field)], *sizes, 0, [], [], inner]


def our_form(field: List[Any]) -> List[Any]:
    """The same of a field that the other parser printed."""
    kind, _, least, most, power, labels, ranges, inner = field
    if kind == "STRING" and most is None:
        most = 32
    if kind == "GROUP" and most == MOST_DATA_BYTES:
        most = None
    # Addresses and UIDs are shown as they are, without OLA's labels for zero.
    labels = sorted((number, ola.name_of(label)) for number, label in labels if kind not in ("IPV4", "UID"))
    return [kind, least or 0, most, power, labels, ranges, [our_form(each) for each in inner]]


class Files(TestCase):
    """OLA's files, which are read if they are there."""

    @needs_ola
    @unittest.skipUnless(has_ola_python(), "needs OLA's Python package")
    def test_each_file_as_the_parser_of_protobuf_reads_it(self) -> None:
        makers = [parameter for each in ola.manufacturers().values() for parameter in each.parameters]
        for file, ours in ((ola.STANDARD_FILE, ola.standard_parameters()), (ola.MANUFACTURERS_FILE, makers)):
            command = [str(SYSTEM_PYTHON), "-c", PYTHON_PARSER, str(ola.FOLDER / file)]
            theirs = json.loads(subprocess.run(command, capture_output=True, check=True).stdout)
            self.assertEqual(len(ours), len(theirs))
            for our, their in zip(ours, theirs):
                self.compare(our, their)

    def compare(self, our: Parameter, their: List[Any]) -> None:
        self.assertEqual((our.name, our.number), (ola.name_of(their[0]), their[1]))
        for kind, request, response, sub_devices in (("get", *their[2:5]), ("set", *their[5:8]),
                                                     ("discovery", *their[8:11])):
            message: Optional[Message] = getattr(our, kind)
            self.assertEqual(message is None, request is None, our.name)
            if message is not None:
                self.assertEqual(message.sub_devices, ola.SUB_DEVICES[sub_devices or "ROOT_DEVICE"])
                for fields, wanted in ((message.request, request), (message.response, response or [])):
                    self.assertEqual(json.dumps([their_form(each) for each in fields]),
                                     json.dumps([our_form(each) for each in wanted]), our.name)

    def test_a_file_of_its_own(self) -> None:
        text = '''# a comment
manufacturer {
  manufacturer_id: 31344  # 7a70
  manufacturer_name: "Some \\"name\\""
  pid {
    name: "FAN_SPEED" value: 32769
    get_request { }
    get_response { field { type: UINT16 name: "speed" multiplier: -1 range { min: 0 max: 1000 }
                           label { value: 0 label: "Not turning" } } }
    get_sub_device_range: ROOT_OR_SUBDEVICE
  }
}
version: 1
'''
        speed = Number("speed", 2, ranges=((0, 1000),), labels={0: "not_turning"}, power=-1)
        found = self.read(text)[0x7A70]
        self.assertEqual((found.number, found.name), (0x7A70, 'Some "name"'))
        self.assertEqual(found.parameters, (
            Parameter("fan_speed", 0x8001, "", get=Message((), (speed,), SubDevices.ROOT_OR_ONE)),))

    def test_faults_are_said(self) -> None:
        head = "manufacturer { manufacturer_id: 1 manufacturer_name: \"x\" pid { name: \"Y\" value: 32769 "
        for text, wanted in (
                ("manufacturer {", "a } is missing"),
                ("}", "a } is too many"),
                ("manufacturer { manufacturer_name: ", "a value is missing"),
                ("manufacturer { manufacturer_name \"x\"", "a : or a { is expected"),
                ("a: 1\n b: \"x", "line 2 can't be read"),
                ("manufacturer { manufacturer_name: \"x\" }", "the key manufacturer_id is missing"),
                ("manufacturer { manufacturer_id: x }", "manufacturer_id isn't a number: x"),
                (head + "get_request { field { type: FLOAT name: \"z\" } } } }", "there is no type of fields FLOAT"),
                (head + "get_request { } get_sub_device_range: SOME } }", "there are no sub-devices SOME")):
            with self.assertRaises(ola.FileFault) as caught:
                self.read(text)
            self.assertIn(wanted, str(caught.exception))

    def test_a_file_that_is_not_utf_8(self) -> None:
        with self.assertRaises(ola.FileFault):
            self.read(b"\xff\xfe")

    def test_a_file_that_is_absent(self) -> None:
        with tempfile.TemporaryDirectory() as folder, self.assertRaises(OSError):
            ola.manufacturers(Path(folder))

    def read(self, text: Any) -> Dict[int, ola.Manufacturer]:
        with tempfile.TemporaryDirectory(prefix="lines.") as folder:
            data = text if isinstance(text, bytes) else text.encode()
            (Path(folder) / ola.MANUFACTURERS_FILE).write_bytes(data)
            return ola.manufacturers(Path(folder))
