"""The command show, several parameters in one get, and names in the client of Python."""
from __future__ import annotations

import json
from typing import Any, Dict, List
from unittest import mock

from common import PACKAGE, TestCase, needs_library
from fronts import FIVE, LEFT, SLOW, OneRig, called
from wurstlinen import Controller, Uid
from wurstlinen.front import naming
from wurstlinen.front.sensors import sensor_text
from wurstlinen.lines import Rig
from wurstlinen.lines.numbers import Pid, ResponseType
from wurstlinen.lines.packets import decode_packet
from wurstlinen.parameters import STANDARD, Parameter, Table, decode

TRUSS = "454e:0a000017"
TRUSS_SHOWN = """\
454e:0a000017
identity
  protocol version major    1
  protocol version minor    0
  device model id           1
  product category          fixture_fixed
  software version id       1
  sub device count          0
  sensor count              1
  device model description  Beam 3
  manufacturer label        Wurstlinen
  device label              Back truss
  software version label    1.0
patch
  slots            100
  dmx personality  1 of 1
                   1 Dimmer, 1 slot, in use
sensors
  0 Head  41 °C (range -20 to 120, normal 0 to 80, lowest 41, highest 41, recorded 0)
control
  identify device  no
other parameters
  record_sensors
"""


def listed(*names: str) -> Dict[str, Any]:
    """The answer to SUPPORTED_PARAMETERS."""
    return {"pid": "0050", "parts": ["".join(f"{STANDARD.named(name).number:04x}" for name in names)]}


@needs_library
class Show(OneRig):
    def sections(self, *arguments: str) -> Dict[str, List[str]]:
        """The rows of each section."""
        self.status, out, self.errors = self.run_command("show", *arguments)
        found: Dict[str, List[str]] = {}
        section: List[str] = []
        for line in out.splitlines()[1:]:
            if line.startswith("  "):
                section.append(" ".join(line.split()))
            else:
                section = found.setdefault(line, [])
        return found

    def test_one(self) -> None:
        self.assertEqual(self.run_command("show", TRUSS), (0, TRUSS_SHOWN, ""))

    def test_all(self) -> None:
        status, out, _ = self.run_command("show")
        self.assertEqual((status, [line for line in out.splitlines() if line[4:5] == ":"]),
                         (0, [LEFT, "1234:00000002", TRUSS, SLOW, "9abc:00000003"]))
        self.assertIn(f"\n\n{TRUSS_SHOWN}\n", out)
        self.assertIn("  dmx personality  1 of 2\n                   1 Basic, 7 slots, in use\n"
                      "                   2 Extended, 14 slots\n", out)

    def test_json(self) -> None:
        out = self.run_command("show", TRUSS, "--json")[1]
        found = [json.loads(line) for line in out.splitlines()]
        self.assertEqual(found[1], {"section": "identity", "uid": TRUSS, "parameter": "device_model_description",
                                    "pid": "0x0080", "values": {"description": "Beam 3"}})
        self.assertEqual([each.get("parameter") for each in found if each["section"] == "sensors"],
                         ["sensor_definition", "sensor_value"])
        self.assertEqual(found[-1], {"section": "others", "uid": TRUSS, "parameters": ["record_sensors"]})
        page = (PACKAGE / "COMMANDS.md").read_text(encoding="utf-8").partition("## JSON")[2]
        self.assertEqual({key for each in found for key in each if f"`{key}`" not in page}, set())

    def test_lists_of_settings(self) -> None:
        names = ("curve", "curve_description", "lock_state", "lock_pin", "lamp_hours", "queued_message",
                 "status_messages", "slot_description")
        self.scene({"uid": LEFT, "params": [
            listed(*names), {"pid": "0343", "parts": ["0202"]}, {"pid": "0344", "parts": ["02" + b"Square".hex()]},
            {"pid": "0641", "parts": ["0001"]}, {"pid": "0401", "parts": ["00000100"]}]})
        found = self.sections(LEFT)
        self.assertEqual(found["dimmer"], ["curve 2 of 2", "1 Square", "2 Square, in use"])
        self.assertEqual((found["settings"], found["lamp and hours"]), (["lock state unlocked of 1"],
                                                                        ["lamp hours 256 h"]))
        self.assertEqual(found["other parameters"], ["slot_description"])
        # What takes messages away, or tells a secret, isn't asked for.
        asked = {decode_packet(frame).pid for frame in self.frames}  # type: ignore[union-attr]
        self.assertEqual(asked & {0x0020, 0x0030, 0x0640, 0x0121}, set())

    def test_the_network(self) -> None:
        names = ("list_interfaces", "interface_label", "dns_ipv4_name_server", "dns_hostname")
        self.scene({"uid": LEFT, "params": [
            listed(*names), {"pid": "0700", "parts": ["000000070001"]},
            {"pid": "0701", "parts": ["00000007" + b"eth0".hex()]}, {"pid": "070b", "parts": ["0108080808"]},
            {"pid": "070c", "parts": [b"wash".hex()]}]})
        self.assertEqual(self.sections(LEFT)["network"], [
            "list interfaces interface_id: 7, hardware_type: ethernet", "interface label 7 interface_id: 7",
            "label: eth0", *(f"dns ipv4 name server {number} {line}" if not at else line for number in range(3)
                             for at, line in enumerate(["name_server_index: 1", "name_server_address: 8.8.8.8"])),
            "dns hostname wash"])
        self.assertIn(bytes.fromhex("0701 04 00000007"), b"".join(self.frames))

    def test_a_manufacturers_own(self) -> None:
        description = "800102050300150300000001000003e800000000" + b"Fan speed".hex()
        self.scene({"uid": LEFT, "params": [{"pid": "0051", "parts": [description]}, {"pid": "8001", "parts": ["00fa"]},
                                            {"pid": "8002", "parts": ["01"]}]})
        self.assertEqual(self.sections(LEFT)["manufacturer's own"], ["fan speed 0.25 second", "0x8002 0x01"])

    def test_what_is_refused_or_does_not_fit(self) -> None:
        self.answers = {0x0082: (ResponseType.NACK_REASON, b"\0\6"), 0x0080: (ResponseType.ACK, b"a" * 40),
                        0x0060: (ResponseType.ACK, b"\1")}
        found = self.sections(LEFT)["identity"]
        self.assertEqual(self.status, 0)
        self.assertIn("device label refused: data out of range", found)
        self.assertEqual(found[:2], ["device info 0x01",
                                     "this doesn't fit device_info: the data ends in protocol_version_minor"])
        self.assertIn("device model description 0x" + "61" * 40, found)

    def test_a_device_that_is_silent(self) -> None:
        self.answers = {pid: None for pid in (0x0082, 0x0060)}
        found = self.sections(LEFT)
        self.assertEqual((self.status, found["identity"][0]), (1, "device info no answer"))
        before = len(self.frames)
        self.assertEqual(self.sections("1234:00000009"), {"identity": ["device info no answer"]})
        self.assertEqual((self.status, len(self.frames) - before), (1, 2))

    def test_lines_that_fail(self) -> None:
        self.scene({"uid": LEFT}, fails=[3])
        fails = "the rig's file lets this exchange fail\n"
        self.assertEqual(self.run_command("show")[::2], (1, f"wurstlinen: the discovery is incomplete: {fails}"))
        self.scene({"uid": LEFT}, fails=[3])
        self.assertEqual(self.run_command("show", LEFT), (1, f"{LEFT}\n", f"wurstlinen: {fails}"))
        self.assertEqual(self.run_command("show", "ffff:ffffffff")[0], 2)


class Sensors(TestCase):
    def text(self, definition: str, values: str) -> str:
        """What these data say."""
        known = decode(STANDARD.named("sensor_definition"), False, bytes.fromhex(definition))
        found = decode(STANDARD.named("sensor_value"), False, bytes.fromhex(values))
        assert found.values is not None
        return sensor_text(found.values, known.values)

    def test_units_and_prefixes(self) -> None:
        # Millivolts; ranges that aren't defined; lowest and highest, but nothing recorded.
        self.assertEqual(self.text("00 01 02 03 8000 7fff 0000 03e8 02 41", "00 00fa 0064 012c 0007"),
                         "0.25 V (normal 0 to 1, lowest 0.1, highest 0.3)")
        self.assertEqual(self.text("00 01 01 00 8000 7fff 8000 7fff 01", "00 fff6 0000 0000 0007"),
                         "-10 °C (recorded 7)")
        self.assertEqual(self.text("00 80 81 13 8000 7fff 8000 7fff 00", "00 0002 0000 0000 0007"), "2000 129")


@needs_library
class Several(OneRig):
    def test_of_one_device(self) -> None:
        self.assertEqual(self.run_command("get", LEFT, "device_label", "0x00f0", "dmx_personality"), (
            0, "device_label: Front left\ndmx_start_address: 1\ndmx_personality: current_personality: 1; "
               "personality_count: 2\n", ""))
        self.assertEqual(self.run_command("get", TRUSS, "sensor_definition", "0", "device_label")[1].splitlines()[1],
                         "device_label: Back truss")
        status, out, errors = self.run_command("get", LEFT, "lamp_hours", "device_label")
        self.assertEqual((status, out, errors), (3, "device_label: Front left\n", f"wurstlinen: lamp_hours: {LEFT} "
                                                    "refused it: unknown pid (NACK 0x0000)\n"))

    def test_of_all_devices(self) -> None:
        self.assertEqual(self.run_command("get", "all", "device_label"), (
            0, f"{LEFT}  Front left\n1234:00000002  Front right\n{TRUSS}  Back truss\n{SLOW}  House lights\n"
               "9abc:00000003\n", f"wurstlinen: {SLOW} asks for 0.3 s\n"))
        out = self.run_command("get", "all", "device_label", "dmx_start_address", "--json")[1]
        found = [json.loads(line) for line in out.splitlines()]
        self.assertEqual((len(found), found[1]["values"]), (10, {"dmx_start_address": 1}))
        self.assertEqual(self.run_command("get", "all", "device_label", "dmx_start_address")[1].splitlines()[1],
                         f"{LEFT}  dmx_start_address: 1")

    def test_arguments(self) -> None:
        for words, wanted in ((["all", "device_label", "x"], "there is no parameter 'x'; 'wurstlinen pids' lists those "
                                                              "of the standards"),
                              ([LEFT, "device_label", "sensor_value"],
                               "GET sensor_value takes SENSOR_NUMBER, and not 0 arguments"),
                              (["alle", "device_label"], "argument UID|all: 'alle' isn't a UID, such as 7a70:00000001; "
                                                         "try 'wurstlinen get --help'")):
            self.assertEqual(self.run_command("get", *words), (2, "", f"wurstlinen: {wanted}\n"))
        self.assertEqual(self.run_command("set", "all", "device_label", "x")[0], 2)
        self.assertEqual(self.frames, [])

    def test_a_number_that_may_be_meant_in_hexadecimal(self) -> None:
        for words in (["get", LEFT, "82"], ["set", LEFT, "82", "0x00"]):
            errors = self.run_command(*words)[2]
            self.assertEqual(errors.splitlines()[0],
                             "wurstlinen: '82' is the decimal number of PID 0x0052; device_label is 0x0082")
        self.assertEqual(self.run_command("get", LEFT, "240"), (0, "1\n", ""))

    def test_values_of_what_is_not_known(self) -> None:
        self.scene({"uid": LEFT, "params": [{"pid": "8001", "parts": ["00fa"]}]})
        self.assertEqual(self.run_command("get", LEFT, "0x8001", "0x0102", "device_label")[1],
                         "0x8001: 0x00fa\ndevice_label: \n".replace(" \n", "\n"))

    def test_lines_that_fail(self) -> None:
        self.scene({"uid": LEFT}, fails=[3])
        self.assertEqual(self.run_command("get", "all", "device_label"), (
            1, "", "wurstlinen: the discovery is incomplete: the rig's file lets this exchange fail\n"))


class OtherStandards(TestCase):
    """The parameters that only OLA's files have."""

    def test_what_is_listed(self) -> None:
        more = Parameter("endpoint_list", 0x0900, "")
        with mock.patch.object(naming, "standard", lambda: STANDARD.with_more([more])), \
                mock.patch("wurstlinen.front.pids.standard", lambda: STANDARD.with_more([more])):
            lines = called("pids")[1].splitlines()
            self.assertEqual(lines, sorted(lines))
            self.assertIn("0x0900  E1.37-7  endpoint_list", [line.rstrip() for line in lines])
            self.assertEqual(called("pids", "endpoint_list")[1], "endpoint_list (0x0900, E1.37-7)\n")
            self.assertEqual(naming.pid_of(0x1234, "endpoint_list"), 0x0900)
            self.assertEqual(naming.known_or_raw(0x1234, 0x0900), more)

    def test_without_them(self) -> None:
        with mock.patch("wurstlinen.parameters.ola.standard_parameters", side_effect=FileNotFoundError):
            self.assertIs(naming.standard.__wrapped__(), STANDARD)

    def test_ours_come_first(self) -> None:
        ours = STANDARD.named("device_label")
        table = Table([ours, Parameter("device_label", 0x0082, "theirs")])
        self.assertIs(table.numbered(0x0082), ours)


@needs_library
class InPython(TestCase):
    def test_names_and_values(self) -> None:
        rig = Rig(FIVE)
        with Controller(Uid.parse("7ff0:00000001")) as controller:
            client = controller.join(4)
            answer = client.ask(LEFT, "device_label", line=rig)
            self.assertEqual((answer.values, answer.completion.data), ({"label": "Front left"}, b"Front left"))
            client.set(LEFT, "dmx_start_address", b"\0\x11")
            client.get(LEFT, "0x00f0")
            controller.run(rig)
            self.assertEqual([client.next_completion().data for _ in range(2)], [b"", b"\0\x11"])  # type: ignore
            self.assertIsNone(client.ask(LEFT, "lamp_hours", line=rig).values)
            self.assertIsNone(client.ask("1234:00000009", Pid.DEVICE_INFO, line=rig).values)
            with self.assertRaisesRegex(ValueError, "did you mean device_label"):
                client.ask(LEFT, "device_lable", line=rig)
