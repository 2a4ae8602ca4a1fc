"""Values of parameters, both ways."""
from __future__ import annotations

import json
import random
import subprocess
import unittest
from decimal import Decimal
from typing import Any, List

from common import TestCase
from examples import Example, examples
from test_parameters import SYSTEM_PYTHON, has_ola_python, needs_ola
from wurstlinen.parameters import STANDARD, Misfit, Parameter, WordFault, decode, described, encode, ola
from wurstlinen.parameters.decoding import value_text, values_of
from wurstlinen.parameters.encoding import data_of, word_of
from wurstlinen.parameters.fields import (
    Bytes, Field, Fields, Flag, Group, Ipv4, Mac, Message, Number, SubDevices, Text, UidField,
)

RANDOM_VALUES = 50
UNPACK = """
import json, sys
from ola import PidStore

def flat(value):
    if isinstance(value, dict):
        return [each for inner in value.values() for each in flat(inner)]
    if isinstance(value, list):
        return [each for inner in value for each in flat(inner)]
    return [value if isinstance(value, (int, float, str)) else str(value)]

store = PidStore.GetStore(sys.argv[1], ["pids.proto"])
unpacked = []
for number, is_set, is_response, data in json.load(sys.stdin):
    pid = store.GetPid(number)
    kind = PidStore.RDM_SET if is_set else PidStore.RDM_GET
    group = pid.GetResponse(kind) if is_response else pid.GetRequest(kind)
    unpacked.append(flat(group.Unpack(bytes.fromhex(data))))
print(json.dumps(unpacked))
"""


def words_of(value: Any) -> List[str]:
    """A value, or those within it, as words."""
    if isinstance(value, dict):
        return [word for each in value.values() for word in words_of(each)]
    if isinstance(value, list):
        return [word for each in value for word in words_of(each)]
    if isinstance(value, bool):
        return ["yes" if value else "no"]
    return [format(value.normalize(), "f") if isinstance(value, Decimal) else str(value)]


def random_value(field: Field, chance: random.Random) -> Any:
    """A valid value of a field that is no group."""
    if isinstance(field, Number):
        return random_number(field, chance)
    if isinstance(field, Flag):
        return chance.random() < 0.5
    if isinstance(field, Ipv4):
        return ".".join(str(chance.randrange(256)) for _ in range(4))
    if isinstance(field, Mac):
        return chance.randbytes(6).hex(":")
    if isinstance(field, UidField):
        return f"{chance.randbytes(2).hex()}:{chance.randbytes(4).hex()}"
    assert isinstance(field, (Text, Bytes))
    data = chance.randbytes(chance.randint(field.least, min(field.most, 60)))
    if isinstance(field, Bytes):
        return f"0x{data.hex()}"
    # Zeros at the end of a text aren't kept.
    return "".join(f"\\x{byte:02x}" if not 32 <= byte < 127 else chr(byte).replace("\\", "\\\\")
                   for byte in data.replace(b"\0", b"0"))


def random_number(field: Number, chance: random.Random) -> Any:
    """A valid value of a number."""
    if field.labels and chance.random() < 0.5:
        return chance.choice(list(field.labels.values()))
    if not field.valid:
        return next(iter(field.labels.values()))
    number = chance.choice([*chance.choice(field.valid), chance.randint(*chance.choice(field.valid))])
    if field.is_pid:
        return STANDARD.name(number)
    if number in field.labels:
        return field.labels[number]
    return Decimal(number).scaleb(field.power) if field.power else number


def random_values(fields: Fields, chance: random.Random) -> Any:
    """Valid values, as they are decoded."""
    values = {}
    for field in fields:
        if isinstance(field, Group):
            most = 4 if field.most is None else field.most
            elements = [random_values(field.fields, chance) for _ in range(chance.randint(field.least, most))]
            values[field.name] = elements if len(field.fields) > 1 else [next(iter(each.values()))
                                                                        for each in elements]
        else:
            values[field.name] = random_value(field, chance)
    return values


class Examples(TestCase):
    def test_each_message_of_each_parameter_has_one(self) -> None:
        found = sorted((each.parameter.name, each.is_set, each.is_response) for each in examples())
        self.assertEqual(len(found), len(set(found)))
        wanted = []
        for parameter in STANDARD.parameters:
            for is_set, message in ((False, parameter.get), (True, parameter.set)):
                if message is not None:
                    wanted.append((parameter.name, is_set, False))
                    # A SET is acknowledged without data, except for a sensor's.
                    wanted += [(parameter.name, is_set, True)] if message.response else []
        self.assertEqual(found, sorted(wanted))

    def test_words_become_data(self) -> None:
        for each in examples():
            if each.is_response:
                self.assertEqual(data_of(each.fields, list(each.words)).hex(), each.data.hex(), each.name)
            else:
                self.assertEqual(encode(each.parameter, each.is_set, each.words).hex(), each.data.hex(), each.name)

    def test_data_becomes_values(self) -> None:
        for each in examples():
            values = values_of(each.fields, each.data)
            self.assertEqual(tuple(words_of(values)), each.words, each.name)
            if each.is_response:
                reading = decode(each.parameter, each.is_set, each.data)
                self.assertEqual((reading.values, reading.misfit), (values, ""), each.name)
                self.assertEqual(json.loads(json.dumps(values, default=float)).keys(), values.keys())

    def test_data_of_other_sizes_is_shown_as_it_is(self) -> None:
        for each in examples():
            texts = (Text, Bytes, Group)
            if not each.is_response or isinstance(each.fields[-1], texts):
                continue
            for data in (each.data[:-1], each.data + b"\x00", b""):
                reading = decode(each.parameter, each.is_set, data)
                self.assertEqual((reading.values, reading.lines), (None, (f"0x{data.hex()}",)), each.name)
                self.assertIn(f"this doesn't fit {each.parameter.name}: ", reading.misfit)

    @needs_ola
    @unittest.skipUnless(has_ola_python(), "needs OLA's Python package")
    def test_ola_reads_the_same_values(self) -> None:
        # OLA's data has no fields for a queued message.
        chosen = [each for each in examples() if not (each.is_response and each.parameter.name == "queued_message")]
        asked = json.dumps([[each.parameter.number, each.is_set, each.is_response, each.data.hex()]
                            for each in chosen])
        done = subprocess.run([str(SYSTEM_PYTHON), "-c", UNPACK, str(ola.FOLDER)], input=asked, text=True,
                              capture_output=True, check=False)
        self.assertEqual(done.returncode, 0, done.stderr)
        theirs = json.loads(done.stdout)
        self.assertEqual(len(theirs), len(chosen))
        for each, their in zip(chosen, theirs):
            self.assertEqual(self.numbers(each), their, each.name)

    def numbers(self, example: Example) -> List[Any]:
        """An example's values as OLA's package has them: numbers in place of labels."""
        words = []
        fields = [inner for field in example.fields
                  for inner in (field.fields if isinstance(field, Group) else (field,))]
        is_repeated = any(isinstance(field, Group) for field in example.fields)
        for index, word in enumerate(example.words):
            field = fields[index % len(fields)] if is_repeated else fields[index]
            words.append(self.number(field, word, data_of((field,), [word])))
        return words

    def number(self, field: Field, word: str, data: bytes) -> Any:
        if isinstance(field, Number):
            number = int.from_bytes(data, "big", signed=field.is_signed)
            return float(Decimal(number).scaleb(field.power)) if field.power else number
        return word == "yes" if isinstance(field, Flag) else word


class Properties(TestCase):
    def test_values_stay_the_same(self) -> None:
        for seed in range(RANDOM_VALUES):
            chance = random.Random(seed)
            for parameter in STANDARD.parameters:
                for message in (parameter.get, parameter.set, parameter.discovery):
                    for fields in () if message is None else (message.request, message.response):
                        self.check(parameter, fields, random_values(fields, chance))

    @needs_ola
    def test_values_of_manufacturers_stay_the_same(self) -> None:
        chance = random.Random(1)
        for maker in ola.manufacturers().values():
            for parameter in maker.parameters:
                for message in (parameter.get, parameter.set):
                    for fields in () if message is None else (message.request, message.response):
                        self.check(parameter, fields, random_values(fields, chance))

    def check(self, parameter: Parameter, fields: Fields, values: Any) -> None:
        if any(isinstance(field, Group) and any(isinstance(each, Number) and each.labelled_if
                                                for each in field.fields) for field in fields):
            return
        words = words_of(values)
        try:
            data = data_of(fields, list(words))
            self.assertEqual(values_of(fields, data), values, parameter.name)
        except ValueError as fault:
            self.fail(f"{parameter.name} {values}: {fault}")

    def test_any_bytes_are_read(self) -> None:
        chance = random.Random(2)
        for parameter in STANDARD.parameters:
            for is_set in (False, True):
                for _ in range(RANDOM_VALUES):
                    data = chance.randbytes(chance.randrange(60))
                    reading = decode(parameter, is_set, data)
                    self.assertEqual(reading.data, data)
                    json.dumps(reading.values, default=float)
                    for line in reading.lines:
                        self.assertTrue(line.isascii() and line.isprintable(), line)

    def test_any_words_are_taken_or_refused(self) -> None:
        chance = random.Random(3)
        letters = "0x1f-.: \\aé\n9"
        for parameter in STANDARD.parameters:
            for is_set in (False, True):
                for _ in range(RANDOM_VALUES):
                    words = ["".join(chance.choices(letters, k=chance.randrange(6)))
                             for _ in range(chance.randrange(4))]
                    try:
                        encode(parameter, is_set, words)
                    except WordFault as fault:
                        self.assertTrue(str(fault))


class Words(TestCase):
    def test_what_is_wrong_is_said(self) -> None:
        for name, words, wanted in (
                ("dmx_start_address", ["513"], "dmx_start_address: 513 is not from 1 to 512"),
                ("dmx_start_address", ["0"], "dmx_start_address: 0 is not from 1 to 512"),
                ("dmx_start_address", ["-1"], "dmx_start_address: -1 is not from 1 to 512"),
                ("dmx_start_address", ["0x201"], "dmx_start_address: 0x201 is not from 1 to 512"),
                ("dmx_start_address", ["0017"],
                 "dmx_start_address: '0017' can be read in two ways: write 17 for the decimal number, "
                 "or 0x0017 for the hexadecimal one, which is 23"),
                ("dmx_start_address", ["1f"],
                 "dmx_start_address: '1f' isn't a decimal number; as a hexadecimal one it is written 0x1f, and is 31"),
                ("dmx_start_address", ["1.5"], "dmx_start_address: '1.5' isn't a number"),
                ("dmx_start_address", ["none"], "dmx_start_address: 'none' isn't a number"),
                ("dmx_start_address", [], "SET dmx_start_address takes DMX_START_ADDRESS, and not 0 arguments"),
                ("lamp_state", ["stike"],
                 "lamp_state: 'stike' is not one of off, on, strike, standby or from 128 to 223; "
                 "did you mean strike?"),
                ("lamp_state", ["7"], "lamp_state: 7 is not one of off, on, strike, standby or from 128 to 223"),
                ("power_state", ["3"], "power_state: 3 is not one of full_off, shutdown, standby, normal"),
                ("capture_preset", ["1", "0.55", "0", "0"], "up_fade_time: 0.55 isn't a multiple of 0.1"),
                ("capture_preset", ["1", "6553.6", "0", "0"], "up_fade_time: 6553.6 is not from 0.0 to 6553.5 s"),
                ("capture_preset", ["1", "0x10", "0", "0"], "up_fade_time: '0x10' isn't a decimal number of s"),
                ("capture_preset", ["1", "05", "0", "0"], "up_fade_time: '05' isn't a decimal number of s"),
                ("capture_preset", ["1"],
                 "SET capture_preset takes SCENE_NUMBER UP_FADE_TIME DOWN_FADE_TIME WAIT_TIME, and not 1 argument"),
                ("device_label", ["Front", "left"],
                 "SET device_label takes LABEL, and not 2 arguments; a text with blanks has to be quoted"),
                ("device_label", ["x" * 33], "label: it has 33 characters, and 0 to 32 are possible"),
                ("device_label", ["é"], "label: 'é' isn't printable ASCII"),
                ("device_label", ["a\nb"], "label: '\\n' isn't printable ASCII"),
                ("device_label", ["a\\b"],
                 "label: a backslash is written \\\\, and any other byte \\x and two hexadecimal digits"),
                ("language", ["e"], "language: it has 1 characters, and 2 are possible"),
                ("identify_device", ["maybe"], "identify_state: 'maybe' is neither yes nor no"),
                ("ipv4_static_address", ["1", "192.0.2.01", "24"],
                 "ipv4_address: '192.0.2.01' isn't an IPv4 address, such as 192.0.2.1"),
                ("manufacturer_label", ["x"], "manufacturer_label has no SET; it has GET")):
            with self.assertRaises(WordFault) as caught:
                encode(STANDARD.named(name), True, words)
            self.assertEqual(str(caught.exception), wanted)

    def test_a_number_that_is_too_long(self) -> None:
        for digit in "1af":
            with self.assertRaisesRegex(WordFault, f"^dmx_start_address: '{digit * 40}..' is too long for a number$"):
                encode(STANDARD.named("dmx_start_address"), True, [digit * 5_000])

    def test_fields_by_which_no_parameter_of_the_standards_is_set(self) -> None:
        rest = Group("rest", (Number("second", 1), Text("third", 0, 2)))
        for fields, words, wanted in (
                ((UidField("uid"),), ["1234"], "uid: '1234' isn't a UID, such as 7a70:00000001"),
                ((Mac("mac"),), ["02:00"], "mac: '02:00' isn't a hardware address, such as 02:00:00:00:00:01"),
                ((Bytes("data"),), ["0x1"], "data: '0x1' isn't 0x and hexadecimal bytes"),
                ((Bytes("data", 0, 1),), ["0x0102"], "data: it has 2 bytes, and 0 to 1 are possible"),
                ((Number("first", 1), rest), [], "SET own takes FIRST [SECOND THIRD ..], and not 0 arguments")):
            parameter = Parameter("own", 0x8001, "", set=Message(fields, (), SubDevices.ROOT))
            with self.assertRaises(WordFault) as caught:
                encode(parameter, True, words)
            self.assertEqual(str(caught.exception), wanted)

    def test_values_of_python_are_taken(self) -> None:
        for name, values, wanted in (
                ("dmx_start_address", [17], "0011"), ("identify_device", [True], "01"),
                ("identify_device", [0], "00"), ("device_label", ["Front"], "46726f6e74"),
                ("device_label", [17], "3137"), ("capture_preset", [1, Decimal("0.5"), 2, 0], "0001000500140000")):
            self.assertEqual(encode(STANDARD.named(name), True, values).hex(), wanted)
        self.assertEqual(word_of(Decimal("1E+1")), "10")

    def test_spellings(self) -> None:
        for name, words, wanted in (
                ("lamp_on_mode", ["AFTER-CAL"], "03"), ("lamp_on_mode", ["after cal"], "03"),
                ("lamp_on_mode", ["3"], "03"), ("lamp_on_mode", ["0x80"], "80"), ("identify_device", ["ON"], "01"),
                ("identify_device", ["off"], "00"), ("identify_device", ["true"], "01"),
                ("device_label", [""], ""), ("device_label", ["\\xff\\\\"], "ff5c"),
                ("capture_preset", ["0x1", "1.0", "2.50", "3"], "0001000a0019001e")):
            self.assertEqual(encode(STANDARD.named(name), True, words).hex(), wanted)

    def test_too_much_data(self) -> None:
        group = Group("numbers", (Number("number", 2),))
        parameter = Parameter("own", 0x8001, "", set=Message((group,), (), SubDevices.ROOT))
        self.assertEqual(len(encode(parameter, True, ["1"] * 115)), 230)
        with self.assertRaises(WordFault) as caught:
            encode(parameter, True, ["1"] * 116)
        self.assertEqual(str(caught.exception), "own would have 232 bytes, and at most 231 are possible")

    def test_uneven_words_of_a_group(self) -> None:
        group = Group("pairs", (Number("first", 1), Number("second", 1)))
        parameter = Parameter("own", 0x8001, "", set=Message((group,), (), SubDevices.ROOT))
        with self.assertRaises(WordFault) as caught:
            encode(parameter, True, ["1", "2", "3"])
        self.assertEqual(str(caught.exception), "pairs takes 2 arguments for each element, but 3 were given")


class Lines(TestCase):
    def read(self, name: str, data: str) -> List[str]:
        return list(decode(STANDARD.named(name), False, bytes.fromhex(data)).lines)

    def test_values_for_people(self) -> None:
        self.assertEqual(self.read("dmx_start_address", "0011"), ["17"])
        self.assertEqual(self.read("device_label", "46726f6e74206c656674"), ["Front left"])
        self.assertEqual(self.read("device_hours", "000004d2"), ["1234 h"])
        self.assertEqual(self.read("dmx_personality", "0102"), ["current_personality: 1", "personality_count: 2"])
        self.assertEqual(self.read("supported_parameters", "00828001"), ["device_label", "0x8001"])
        self.assertEqual(self.read("supported_parameters", ""), [])
        self.assertEqual(self.read("default_slot_value", "0000ff000100"),
                         ["slot_offset: 0, default_slot_value: 255", "slot_offset: 1, default_slot_value: 0"])
        self.assertEqual(self.read("dmx_fail_mode", "0001000affff00"),
                         ["scene_number: 1", "loss_of_signal_delay: 1 s", "hold_time: infinite", "level: 0"])

    def test_numbers_that_are_not_valid_are_shown_as_they_are(self) -> None:
        self.assertEqual(self.read("dmx_start_address", "0258"), ["0x0258"])
        self.assertEqual(self.read("lamp_state", "07"), ["0x07"])
        self.assertEqual(self.read("identify_device", "02"), ["0x02"])
        self.assertEqual(self.read("slot_info", "0001 01 0001 0002 09 0001 0003 00 0999"),
                         ["slot_offset: 1, slot_type: sec_fine, slot_label_id: 1",
                          "slot_offset: 2, slot_type: 0x09, slot_label_id: 1",
                          "slot_offset: 3, slot_type: primary, slot_label_id: 2457"])

    def test_texts(self) -> None:
        self.assertEqual(self.read("device_label", "46726f6e740000"), ["Front"])
        self.assertEqual(self.read("device_label", "4600e9ff0a5c"), ["F\\x00\\xe9\\xff\\x0a\\\\"])
        self.assertEqual(self.read("device_label", ""), [""])
        self.assertEqual(self.read("device_label", "41" * 32), ["A" * 32])
        self.assertEqual(self.read("device_label", "41" * 33), ["0x" + "41" * 33])

    def test_what_does_not_fit_is_said(self) -> None:
        for name, data, wanted in (
                ("dmx_start_address", "11", "this doesn't fit dmx_start_address: the data ends in dmx_start_address"),
                ("dmx_start_address", "001100", "this doesn't fit dmx_start_address: 1 of 3 bytes are left over"),
                ("dns_hostname", "", "this doesn't fit dns_hostname: host_name has 0 bytes, and 1 at least are "
                                     "expected"),
                ("supported_parameters", "008200", "this doesn't fit supported_parameters: the data ends in "
                                                   "parameter_id")):
            self.assertEqual(decode(STANDARD.named(name), False, bytes.fromhex(data)).misfit, wanted)
        unknown = decode(None, False, b"\x01\x02")
        self.assertEqual((unknown.lines, unknown.misfit), (("0x0102",), "the parameter isn't known"))

    def test_a_group_among_other_fields(self) -> None:
        field = STANDARD.named("disc_mute").discovery
        assert field is not None
        values = values_of(field.response, bytes.fromhex("00021234000000ff"))
        self.assertEqual([value_text(each, values[each.name]) for each in field.response], ["2", "1234:000000ff"])
        with self.assertRaises(Misfit):
            values_of(field.response, bytes.fromhex("0002" + "123400000001" * 2))

    def test_groups_that_do_not_fit(self) -> None:
        for group, wanted in (
                (Group("values", (Number("value", 1),), 2, 2), "values has 1 elements, and 2 at least are expected"),
                (Group("texts", (Text("text", 0, 0),)), "texts has an element without data")):
            with self.assertRaisesRegex(Misfit, f"^{wanted}$"):
                values_of((group,), b"\x01")


class Descriptions(TestCase):
    """Parameters that devices describe. E1.20, parameter description: 20 bytes, and a text."""

    def head(self, size: int, kind: int, command_class: int = 3, limits: str = "00000000 00000000",
             unit: str = "0000") -> bytes:
        return bytes.fromhex(f"8001 {size:02x} {kind:02x} {command_class:02x} 00 {unit} {limits} 00000000")

    def test_a_number(self) -> None:
        found = described(self.head(2, 5, limits="00000001 000003e8", unit="1503") + b"Fan speed")
        field = Number("value", 2, ranges=((1, 1000),), power=-3, unit="second")
        self.assertEqual(found, Parameter(
            "fan_speed", 0x8001, "Fan speed", Message((), (field,), SubDevices.ROOT_OR_ONE),
            Message((field,), (), SubDevices.ROOT_ONE_OR_ALL)))
        self.assertEqual(encode(found, True, ["0.25"]).hex(), "00fa")
        self.assertEqual(decode(found, False, b"\x00\xfa").lines, ("0.25 second",))
        self.assertEqual(decode(found, False, b"\x00\x00").lines, ("0x0000",))

    def test_commands(self) -> None:
        self.assertEqual([described(self.head(1, 3, each)).commands for each in range(5)],
                         ["", "get", "set", "get set", ""])

    def test_signed_numbers(self) -> None:
        for size, kind, limits, wanted in (
                (1, 4, "fffffff6 0000000a", (-10, 10)), (1, 4, "000000f6 0000000a", (-10, 10)),
                (2, 6, "ffff8000 00007fff", (-0x8000, 0x7FFF)),
                (4, 8, "80000000 7fffffff", (-0x80000000, 0x7FFFFFFF))):
            found = described(self.head(size, kind, limits=limits)).get
            assert found is not None
            self.assertEqual(found.response, (Number("value", size, True, ranges=(wanted,)),))

    def test_other_types(self) -> None:
        for size, kind, wanted in (
                (0, 3, ()), (8, 2, (Text("text", 0, 8),)), (3, 1, (Bytes("data", 0, 3),)),
                (4, 0, (Bytes("data", 0, 4),)), (3, 5, (Bytes("data", 0, 3),)), (2, 0x80, (Bytes("data", 0, 2),)),
                (4, 5, (Group("values", (Number("value", 2),), 2, 2),))):
            found = described(self.head(size, kind)).get
            assert found is not None
            self.assertEqual(found.response, wanted)

    def test_without_a_name(self) -> None:
        self.assertEqual(described(self.head(1, 3)).name, "0x8001")

    def test_too_short(self) -> None:
        for size in range(20):
            with self.assertRaises(Misfit):
                described(self.head(1, 3)[:size])
