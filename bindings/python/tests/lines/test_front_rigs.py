"""The commands of the front that work on all devices: fixtures, save, apply and identify."""
from __future__ import annotations

import contextlib
import errno
import io
import json
import os
import re
from pathlib import Path
from typing import Any, Callable, Dict, Iterator, List, Set, Tuple
from unittest import mock

from common import PACKAGE, folder, needs_library
from fronts import LEFT, SLOW, OneRig, called
from wurstlinen.front import files, main, requests, work
from wurstlinen.front.output import Failure, Output
from wurstlinen.line import LineFailed
from wurstlinen.lines.numbers import ResponseType
from wurstlinen.lines.packets import decode_packet
from wurstlinen.lines.uids import uid_text

FIVE_TABLE = """\
UID            ADDRESS  SLOTS  LABEL         MAKER       MODEL                PERSONALITY  NOTE
1234:00000001  1-7      7      Front left    Wurstlinen  Wash 7               1 Basic      overlaps {both}
1234:00000002  8-14     7      Front right   Wurstlinen  Wash 7               1 Basic
454e:0a000017  100      1      Back truss    Wurstlinen  Beam 3               1 Dimmer
9abc:00000002  1        1      House lights  Wurstlinen  Dimmer               1 Dimmer     {slow}
9abc:00000003  1        1      -             Wurstlinen  Dimmer, second half  1 Dimmer     {part}
5 fixtures, {frames} frames; discovery without a fault
"""
DATA_OUT_OF_RANGE = "0006"
DISCOVERY_COMMAND = 0x10
PAGE = PACKAGE / "ADAPTER.md"


@needs_library
class Fixtures(OneRig):
    def rows(self) -> Dict[str, str]:
        """The devices' notes."""
        status, out, _ = self.run_command("fixtures", "--wait", "0.5", "--json")
        found = [json.loads(line) for line in out.splitlines()]
        self.status, self.end = status, found[-1]
        return {each["uid"]: "; ".join(each["notes"]) for each in found[:-1]}

    def test_five(self) -> None:
        wanted = FIVE_TABLE.format(both="9abc:00000002, 9abc:00000003", slow="answers slowly; overlaps 1234:00000001",
                                   part="part of 9abc:00000002; overlaps 1234:00000001", frames=118)
        self.assertEqual(self.run_command("fixtures"), (0, wanted, f"wurstlinen: {SLOW} asks for 0.3 s\n"))
        self.assertEqual(len(self.frames), 118)
        self.assertIn(f"$ wurstlinen fixtures\n{wanted}", PAGE.read_text(encoding="utf-8"))

    def test_what_is_wrong_is_noted(self) -> None:
        info = "0100000101010000000100070102001100000000"
        self.scene(
            {"uid": "1234:00000001", "rig": {"nack": DATA_OUT_OF_RANGE}},
            {"uid": "1234:00000002", "params": [{"pid": "0060", "parts": [info]}]},
            {"uid": "1234:00000003", "params": [{"pid": "0060", "parts": [info[:28] + "0258" + info[32:38]]}]},
            {"uid": "1234:00000004", "params": [{"pid": "0082", "parts": ["61" * 40]}]},
            {"uid": "1234:00000005", "rig": {"timer": 60}},
            {"uid": "1234:00000006", "rig": {"address": 510, "personalities": [{"footprint": 7, "name": "x"}]}},
            {"uid": "1234:00000007", "control": "0002", "binding": "1234:00000006"})
        notes = self.rows()
        refused = "refuses device_info (data_out_of_range); refuses device_label (data_out_of_range)"
        self.assertTrue(notes["1234:00000001"].startswith(refused))
        self.assertIn(f"wrong device_info: 0x{info}", notes["1234:00000002"])
        self.assertIn("wrong dmx_start_address: 0x0258", notes["1234:00000003"])
        self.assertIn("wrong device_label: 0x" + "61" * 40, notes["1234:00000004"])
        self.assertEqual(notes["1234:00000005"], "no answer in time to device_info; answers slowly")
        self.assertIn("its slots end after 512", notes["1234:00000006"])
        self.assertIn("part of 1234:00000006", notes["1234:00000007"])
        self.assertEqual((self.status, self.end["fixtures"], self.end["fault"]), (0, 7, None))

    def test_a_device_that_leaves(self) -> None:
        self.scene({"uid": "1234:00000001"}, {"uid": "1234:00000002"})
        self.rows()
        found = self.end["frames"] - 10
        self.scene({"uid": "1234:00000001"}, {"uid": "1234:00000002", "until": found + 5})
        self.assertEqual(self.rows()["1234:00000002"], "no answer to device_info")

    def test_a_line_that_fails_later(self) -> None:
        self.scene({"uid": "1234:00000001"})
        self.rows()
        last = self.end["frames"] - 1
        self.scene({"uid": "1234:00000001"}, fails=[last])
        self.assertEqual(self.run_command("fixtures"),
                         (1, "", "wurstlinen: the rig's file lets this exchange fail\n"))
        # What was asked before is shown.
        self.scene({"uid": "1234:00000001"}, {"uid": "1234:00000002"})
        self.rows()
        self.scene({"uid": "1234:00000001"}, {"uid": "1234:00000002"}, fails=[self.end["frames"] - 2])
        status, out, errors = self.run_command("fixtures")
        self.assertEqual((status, errors), (1, "wurstlinen: the rig's file lets this exchange fail\n"))
        self.assertEqual([line.split()[0] for line in out.splitlines()], ["UID", "1234:00000001"])

    def test_a_device_that_is_silent_on_what_it_does_not_know(self) -> None:
        self.answers = {0x0082: None}
        self.assertEqual(self.rows()[LEFT], "no answer to device_label; overlaps 9abc:00000002, 9abc:00000003")
        self.assertIn("Wash 7", self.run_command("fixtures")[1].splitlines()[1])
        self.answers = {0x0082: None, 0x0081: None}
        self.assertTrue(self.rows()[LEFT].startswith("no answer to device_label; no answer to manufacturer_label;"))
        self.answers = {0x0060: None}
        self.assertEqual(self.rows()[LEFT], "no answer to device_info")

    def test_a_fault_of_the_discovery(self) -> None:
        self.scene({"uid": "1234:00000001", "rig": {"lies": ["ignores mutes"]}}, {"uid": "1234:00000002"})
        status, out, _ = self.run_command("fixtures")
        self.assertEqual(status, 1)
        self.assertIn("the discovery is incomplete: 1234:00000001 was asked alone, and the answer was wrong", out)
        self.scene({"uid": "1234:00000001"}, fails=[3])
        status, out, _ = self.run_command("fixtures")
        self.assertEqual((status, out), (1, "0 fixtures, 4 frames; the discovery is incomplete: "
                                            "the rig's file lets this exchange fail\n"))

    def test_devices_that_lie(self) -> None:
        wrong = "ended the discovery by wrong answers"
        for lie in ("ignores mutes", "stays unmuted", "cuts short", "wrong sum"):
            self.scene({"uid": LEFT, "rig": {"lies": [lie]}}, {"uid": "1234:00000002", "rig": {"address": 9}})
            self.assertEqual(self.rows(), {"1234:00000002": "", LEFT: wrong}, lie)
            self.assertEqual((self.status, self.end["fixtures"]), (1, 2))
            self.assertIn(f"{LEFT} was asked alone", self.end["fault"])
        for other in ("1234:00000009", "1234:00000002"):
            self.scene({"uid": LEFT, "rig": {"spells": other}}, {"uid": "1234:00000002", "rig": {"address": 9}})
            self.assertEqual(self.rows(), {"1234:00000002": "", LEFT: wrong}, other)
        liars = {LEFT: "ignores mutes", "1234:00000003": "wrong sum", "1234:00000005": "cuts short"}
        self.scene({"uid": "1234:00000002", "rig": {"address": 100}},
                   *({"uid": uid, "rig": {"address": 10 * at, "lies": [lie]}}
                     for at, (uid, lie) in enumerate(liars.items(), 1)))
        other = "gave wrong answers in the discovery"
        self.assertEqual(self.rows(), {"1234:00000002": "", LEFT: wrong, "1234:00000003": other,
                                       "1234:00000005": other})
        self.assertEqual((self.status, self.end["fixtures"]), (1, 4))
        # Nobody has the UID of the last branch, but its replies spell one.
        self.scene({"uid": LEFT, "rig": {"lies": ["answers all"], "spells": "1234:00000009"}})
        self.assertEqual((self.rows(), self.status), ({}, 1))

    def test_lies_that_do_no_harm(self) -> None:
        for lie, note in (("every other", ""), ("unmutes late", ""), ("answers all", ""),
                          ("adds bytes", "sends too much in discovery")):
            self.scene({"uid": LEFT, "rig": {"lies": [lie]}}, {"uid": "1234:00000002", "rig": {"address": 9}})
            self.assertEqual((self.rows(), self.status), ({"1234:00000002": "", LEFT: note}, 0), lie)

    def test_nobody(self) -> None:
        self.scene()
        status, out, _ = self.run_command("fixtures")
        self.assertEqual((status, out.partition(",")[0]), (0, "0 fixtures"))

    def test_a_device_that_answers_too_much(self) -> None:
        self.scene({"uid": LEFT, "rig": {"timer": 0}, "params": [{"pid": "0020", "parts": ["00"]}]})
        self.assertIn("answers slowly", self.rows()[LEFT])


class Terminal(io.StringIO):
    """A terminal, as its lines are in the end."""

    def isatty(self) -> bool:
        return True

    def lines(self) -> List[str]:
        """What can be read on it."""
        found = []
        for line in self.getvalue().split("\n"):
            cells = ""
            for part in line.split("\r"):
                cells = part + cells[len(part):]
            found.append(cells.rstrip())
        return found


@needs_library
class Progress(OneRig):
    def on_terminal(self, *arguments: str) -> Terminal:
        """What a command prints on a terminal as its standard error."""
        with contextlib.redirect_stderr(Terminal()) as terminal, contextlib.redirect_stdout(io.StringIO()) as out:
            self.status = main([*arguments, "--line", "rig:it"])
        self.out = out.getvalue()
        return terminal

    def test_of_a_discovery(self) -> None:
        terminal = self.on_terminal("fixtures")
        shown = re.findall(r"\r(\d+) found, (\d+) frames", terminal.getvalue())
        found = [int(count) for count, _ in shown]
        self.assertEqual((found[0], found[-1], found), (0, 5, sorted(found)))
        discovery = sum(frame[20] == DISCOVERY_COMMAND for frame in self.frames)
        self.assertEqual([int(count) for _, count in shown], list(range(1, discovery + 1)))
        self.assertEqual(re.findall(r"\rasking (\d) of 5", terminal.getvalue()), list("12345"))
        self.assertEqual(terminal.lines(), [f"wurstlinen: {SLOW} asks for 0.3 s", ""])

    def test_of_changes(self) -> None:
        with folder() as place:
            file = place / "rig.csv"
            file.write_text(f"uid,label,address\n{LEFT},Side,19\n1234:00000002,Front right,8\n")
            terminal = self.on_terminal("apply", str(file))
        self.assertEqual(self.out.splitlines()[-1], "2 changes")
        self.assertEqual(re.findall(r"\r([a-z]+ing \d of \d)", terminal.getvalue()),
                         ["asking 1 of 2", "asking 2 of 2", *(f"comparing {each} of 5" for each in range(1, 6)),
                          "changing 1 of 2", "changing 2 of 2"])
        self.assertEqual(terminal.lines(), [f"wurstlinen: {SLOW} asks for 0.3 s", ""])

    def test_only_people_want_it(self) -> None:
        self.assertEqual(self.on_terminal("fixtures", "--json").getvalue(), "")
        self.frames.clear()
        terminal = self.on_terminal("fixtures", "--frames")
        self.assertNotIn(" found, ", terminal.getvalue())
        self.assertEqual(len([line for line in terminal.lines() if "  -> " in line]), len(self.frames))

    def test_an_interrupt_deletes_it(self) -> None:
        exchange = self.rig.exchange

        def interrupted(frame: bytes) -> bytes:
            if len(self.frames) == 10:
                raise KeyboardInterrupt
            return exchange(frame)
        with mock.patch.object(self.rig, "exchange", interrupted):
            terminal = self.on_terminal("fixtures")
        self.assertIn(" found, 9 frames", terminal.getvalue())
        self.assertEqual((self.status, self.out, terminal.lines()), (130, "", [""]))

    def test_a_terminal_that_is_gone(self) -> None:
        output = Output(False, errors=Terminal())
        with mock.patch.object(Terminal, "write", side_effect=OSError(errno.EIO, os.strerror(errno.EIO))):
            output.progress("1 found, 9 frames")
            output.end_progress()


@needs_library
class Files(OneRig):
    """save and apply."""

    def saved(self, place: Path) -> Tuple[Path, str]:
        """A file of the devices' values."""
        file = place / "rig.csv"
        self.assertEqual(self.run_command("save", str(file))[:2], (0, f"5 devices: {file}\n"))
        return file, file.read_text()

    def test_what_is_saved(self) -> None:
        with folder() as place:
            self.assertEqual(self.saved(place)[1], """\
uid,label,address,personality,model,slots
1234:00000001,Front left,1,1,Wash 7,7
1234:00000002,Front right,8,1,Wash 7,7
454e:0a000017,Back truss,100,1,Beam 3,1
9abc:00000002,House lights,1,1,Dimmer,1
9abc:00000003,(empty),1,1,"Dimmer, second half",1
""")
            self.assertEqual([each.name for each in place.iterdir()], ["rig.csv"])

    def test_what_is_no_file_on_a_disk_is_written_to(self) -> None:
        with folder() as place:
            os.mkfifo(place / "fifo")
            with open(os.open(place / "fifo", os.O_RDWR), "rb") as reader:
                self.assertEqual(self.run_command("save", str(place / "fifo"))[0], 0)
                self.assertTrue(reader.read1(4096).startswith(b"uid,label"))
            self.assertTrue((place / "fifo").is_fifo())
        self.assertEqual(self.run_command("save", "/dev/full")[0], 1)
        self.assertTrue(Path("/dev/full").is_char_device())

    def test_a_link_and_a_mode_stay(self) -> None:
        with folder() as place:
            (place / "target").write_text("old")
            (place / "target").chmod(0o640)
            (place / "link").symlink_to("target")
            self.assertEqual(self.run_command("save", str(place / "link"))[0], 0)
            self.assertTrue((place / "link").is_symlink())
            self.assertEqual(((place / "target").read_text()[:9], (place / "target").stat().st_mode & 0o777),
                             ("uid,label", 0o640))

    def test_a_place_that_is_not_there_is_said_at_once(self) -> None:
        for name, wanted in (("/nowhere/a.csv", "No such file or directory"), ("", "No such file or directory"),
                             (".", "Is a directory")):
            self.assertEqual(self.run_command("save", name), (1, "", f"wurstlinen: {name}: {wanted}\n"))
        self.assertEqual(self.frames, [])

    def test_a_file_is_not_replaced_by_empty_values(self) -> None:
        with folder() as place:
            file, text = self.saved(place)
            self.answers = {0x0082: None}
            status, out, errors = self.run_command("save", str(file))
            self.assertEqual((status, out, file.read_text()), (1, "", text))
            self.assertIn(f"wurstlinen: {file} stays as it is, since values are missing\n", errors)
            # A new file has what is known.
            status, out, _ = self.run_command("save", str(place / "new.csv"))
            self.assertEqual((status, (place / "new.csv").read_text().splitlines()[1]), (1, f"{LEFT},,1,1,Wash 7,7"))
            self.answers = {0x0082: (ResponseType.NACK_REASON, b"\0\0")}
            self.assertEqual(self.run_command("save", str(file))[0], 0)
            with mock.patch.object(self.rig, "exchange", self.failing_later()):
                self.assertEqual(self.run_command("save", str(place / "later.csv"))[:2], (1, ""))
            self.assertFalse((place / "later.csv").exists())

    def test_a_file_beside_a_device_that_breaks_the_rules(self) -> None:
        self.scene({"uid": "1234:00000001", "rig": {"lies": ["ignores mutes"]}},
                   {"uid": "1234:00000002", "rig": {"address": 9}})
        with folder() as place:
            file = place / "rig.csv"
            file.write_text("uid,address,truss\n1234:00000002,1,north\n1234:00000003,20,south\n")
            status, out, errors = self.run_command("save", str(file))
            self.assertEqual((status, out), (1, f"1 device: {file}\n"))
            self.assertIn("devices may be missing: 1234:00000001 was asked alone, and the answer was wrong", errors)
            rows = [row.split(",")[:3] for row in file.read_text().splitlines()[1:]]
            self.assertEqual(rows, [["1234:00000002", "9", "north"], ["1234:00000003", "20", "south"]])

    def failing_later(self) -> Callable[[bytes], bytes]:
        """The rig's exchange, until the second device is asked."""
        exchange = self.rig.exchange

        def failing(frame: bytes) -> bytes:
            command = decode_packet(frame)
            if command is not None and command.command_class == 0x20 and uid_text(command.destination) != LEFT:
                raise LineFailed("the device is gone")
            return exchange(frame)
        return failing

    def test_to_standard_output(self) -> None:
        status, out, _ = self.run_command("save", "-")
        self.assertEqual((status, out.splitlines()[1]), (0, "1234:00000001,Front left,1,1,Wash 7,7"))
        status, out, errors = self.run_command("save", "-", "--json")
        rows = [json.loads(line) for line in out.splitlines()]
        self.assertEqual((status, len(rows), errors), (0, 5, ""))
        self.assertEqual(rows[0], {"uid": LEFT, "label": "Front left", "address": "1", "personality": "1",
                                   "model": "Wash 7", "slots": "7"})

    def test_only_what_differs_is_set(self) -> None:
        with folder() as place:
            file, text = self.saved(place)
            self.assertEqual(self.run_command("apply", str(file))[1], "0 changes\n")
            file.write_text(text.replace("Front right,8,1", "Side,15,2").replace("House lights", "House"))
            changes = ("1234:00000002  personality  1 -> 2\n1234:00000002  address  8 -> 15\n"
                       "1234:00000002  label  Front right -> Side\n9abc:00000002  label  House lights -> House\n")
            self.assertEqual(self.run_command("apply", str(file), "--dry-run")[1],
                             changes + "4 changes; nothing was changed\n")
            self.assertEqual(self.sets(), 0)
            self.assertEqual(self.run_command("apply", str(file))[:2], (0, changes + "4 changes\n"))
            self.assertEqual(self.sets(), 4)
            self.assertEqual(self.run_command("apply", str(file))[:2], (0, "0 changes\n"))
            self.assertEqual(self.run_command("get", "1234:00000002", "dmx_start_address")[1], "15\n")

    def test_what_a_new_personality_changes(self) -> None:
        moves = self.rig.exchange

        def moving(frame: bytes) -> bytes:
            reply = moves(frame)
            command = decode_packet(frame)
            if command is not None and (command.command_class, command.pid) == (0x30, 0x00E0):
                moves(command._replace(pid=0x00F0, data=b"\0\xc8").encode())
            return reply
        self.run_command("set", LEFT, "dmx_start_address", "30")
        with mock.patch.object(self.rig, "exchange", moving):
            self.assertEqual(self.run_command("apply", "-", text=f"uid,address,personality\n{LEFT},30,2\n")[:2],
                             (0, f"{LEFT}  personality  1 -> 2\n{LEFT}  address  200 -> 30\n2 changes\n"))
        self.assertEqual(self.run_command("get", LEFT, "dmx_start_address")[1], "30\n")

    def test_a_value_that_is_refused_stops_no_other(self) -> None:
        self.answers = {0x0082: (ResponseType.NACK_REASON, b"\0\0")}
        self.assertEqual(self.run_command("apply", "-", text=f"uid,label,address\n{LEFT},Side,15\n"),
                         (3, f"{LEFT}  address  1 -> 15\n1 change\n",
                          f"wurstlinen: label: {LEFT} refused it: unknown pid (NACK 0x0000)\n"
                          f"wurstlinen: {SLOW} asks for 0.3 s\n"))

    def test_a_line_that_fails_ends_it(self) -> None:
        text = f"uid,label,address\n{LEFT},Side,15\n1234:00000002,Stage,30\n"
        devices = [{"uid": uid, "rig": {"label": "x"}} for uid in (LEFT, "1234:00000002")]
        self.scene(*devices)
        self.run_command("apply", "-", "--dry-run", text=text)
        asked = len(self.frames)
        fails = "wurstlinen: the rig's file lets this exchange fail\n"
        for failing, end in ((asked - 1, []), (asked + 2, ["1 of 4 changes made"])):
            self.scene(*devices, fails=list(range(failing, failing + 9)))
            status, out, errors = self.run_command("apply", "-", text=text)
            self.assertEqual((status, out.splitlines()[4:], errors), (1, end, fails))

    def test_other_columns_and_empty_values(self) -> None:
        self.assertEqual(self.run_command("apply", "-", text=f"UID, Label\n{LEFT},Front left\n")[:2],
                         (0, "0 changes\n"))
        text = "\ufefflabel,uid\r\nSide,1234:00000002\r\n,1234:00000001\r\n"
        self.assertEqual(self.run_command("apply", "-", text=text)[:2],
                         (0, "1234:00000002  label  Front right -> Side\n1 change\n"))

    def test_a_label_that_is_emptied(self) -> None:
        self.assertEqual(self.run_command("apply", "-", text=f"uid,label\n{LEFT},(empty)\n"),
                         (0, f"{LEFT}  label  Front left -> (empty)\n1 change\n", ""))
        self.assertEqual(self.run_command("get", LEFT, "device_label")[1], "\n")
        empty = self.run_command("save", "-")[1]
        self.assertEqual(empty.splitlines()[1], f"{LEFT},(empty),1,1,Wash 7,7")
        self.assertEqual(self.run_command("apply", "-", text=empty)[1], "0 changes\n")
        # A label that is that word.
        self.assertEqual(self.run_command("apply", "-", text=f"uid,label\n{LEFT},\\x28empty)\n")[1],
                         f"{LEFT}  label  (empty) -> \\x28empty)\n1 change\n")
        word = self.run_command("save", "-")[1]
        self.assertEqual(word.splitlines()[1], f"{LEFT},\\x28empty),1,1,Wash 7,7")
        self.assertEqual(self.run_command("apply", "-", text=word)[1], "0 changes\n")
        self.assertEqual(self.run_command("apply", "-", text=empty)[1],
                         f"{LEFT}  label  \\x28empty) -> (empty)\n1 change\n")

    def test_files_that_are_wrong(self) -> None:
        for text, wanted in (
                ("", "the first line has to name the columns, and one of them is uid\n"),
                ("uid:label\n", "the first line has to name the columns, and one of them is uid, but it is "
                                "'uid:label'\n"),
                ("uid,label,Label\n", "the column 'label' is there more than once"),
                ("uid,label,uid\n", "the column 'uid' is there more than once"),
                ("uid,address\n1234:00000001,513\n", "line 2: dmx_start_address: 513 is not from 1 to 512"),
                ("uid,address\n1234:00000001,0017\n", "line 2: dmx_start_address: '0017' can be read in two ways"),
                ("uid,address\n1234:00000001,(empty)\n", "line 2: dmx_start_address: '(empty)' "),
                ("uid,label\n1234:00000001,\xe9\n", "line 2: label: '\xe9' isn't printable ASCII"),
                ("uid,label\n1234,x\n", "line 2: '1234' isn't a UID, such as 7a70:00000001"),
                ("uid,label\nffff:ffffffff,x\n", "line 2: ffff:ffffffff is no device's own UID"),
                ("uid,label\n1234:00000001\n", "line 2: it has more or fewer values than the first line"),
                ("uid,label\n1234:00000001,x,y\n", "line 2: it has more or fewer values than the first line"),
                ("uid,label\n1234:00000001,x\n1234:00000001,y\n", "1234:00000001 is there more than once"),
                ("uid,label\n1234:00000001,\"x\n", "unexpected end of data")):
            status, out, errors = self.run_command("apply", "-", text=text)
            self.assertEqual((status, out), (2, ""), text)
            self.assertIn(f"wurstlinen: -: {wanted}", errors)
        self.assertEqual(self.frames, [])
        self.assertEqual(self.run_command("apply", "/nowhere.csv"),
                         (2, "", "wurstlinen: /nowhere.csv: No such file or directory\n"))
        longest = "uid\n" + f"{LEFT}\n".ljust(999_996, "\n")
        self.assertEqual(self.run_command("apply", "-", text=longest)[:2], (0, "0 changes\n"))
        for name, text in (("-", longest + "\n"), ("/dev/zero", "")):
            self.assertEqual(self.run_command("apply", name, text=text),
                             (2, "", f"wurstlinen: {name} is longer than 1000000 bytes\n"))

    def test_a_device_that_does_not_keep_a_value(self) -> None:
        self.scene({"uid": LEFT, "params": [{"pid": "00f0", "parts": ["0001"]}]})
        status, out, errors = self.run_command("apply", "-", text=f"uid,address\n{LEFT},15\n")
        self.assertEqual((status, out), (1, f"{LEFT}  address  1 -> 15\n0 of 1 change made\n"))
        self.assertEqual(errors, f"wurstlinen: address: {LEFT} accepted 15, but has 1\n")

    def test_a_set_whose_answer_is_late(self) -> None:
        ask = work.Work.ask

        def late(self: work.Work, *arguments: Any, **keys: Any) -> Any:
            completion = ask(self, *arguments, **keys)
            if keys.get("is_set"):
                raise Failure(1, "late", reason="late")
            return completion
        with mock.patch.object(work.Work, "ask", late):
            self.assertEqual(self.run_command("apply", "-", text=f"uid,address\n{LEFT},15\n")[:2],
                             (0, f"{LEFT}  address  1 -> 15\n1 change\n"))

    def test_a_device_that_refuses(self) -> None:
        status, out, errors = self.run_command("apply", "-", text=f"uid,personality,label\n{LEFT},9,Side\n")
        self.assertEqual((status, out.splitlines()[-1]), (3, "1 of 2 changes made"))
        self.assertEqual(errors.splitlines()[1:], [
            f"wurstlinen: {LEFT} doesn't say how many slots its personality 9 has, so these aren't compared",
            f"wurstlinen: personality: {LEFT} refused it: data out of range (NACK 0x0006)"])
        self.assertEqual(self.run_command("get", LEFT, "device_label")[1], "Side\n")

    def test_a_device_that_is_absent(self) -> None:
        status, out, errors = self.run_command(
            "apply", "-", text=f"uid,label\n1234:00000009,x\n{LEFT},Side\n")
        self.assertEqual((status, out), (1, f"{LEFT}  label  Front left -> Side\n1 change\n"))
        self.assertEqual(errors, "wurstlinen: 1234:00000009: no answer\n")

    def test_a_device_without_an_address(self) -> None:
        self.scene({"uid": LEFT, "params": [{"pid": "00f0", "parts": ["ffff"]}]})
        status, out, errors = self.run_command("save", "-")
        self.assertEqual((status, out.splitlines()[1]), (0, f"{LEFT},(empty),,1,Simulated fixture,1"))
        self.assertIn(f"wurstlinen: {LEFT}: address is none, and is left out\n", errors)
        self.assertEqual(self.run_command("apply", "-", text=out)[:2], (0, "0 changes\n"))

    def test_a_text_that_is_not_ascii(self) -> None:
        self.scene({"uid": LEFT, "params": [{"pid": "0082", "parts": ["4361e95c"]}]})
        out = self.run_command("save", "-")[1]
        self.assertEqual(out.splitlines()[1], f"{LEFT},Ca\\xe9\\\\,1,1,Simulated fixture,1")
        self.assertEqual(self.run_command("apply", "-", text=out)[:2], (0, "0 changes\n"))

    def test_a_label_is_no_formula(self) -> None:
        for label, column in (('=HYPERLINK("http://x","a")', '"\\x3dHYPERLINK(""http://x"",""a"")"'), ("+1", "\\x2b1"),
                              ("-1", "\\x2d1"), ("@A1", "\\x40A1"), ("  =A1", "  \\x3dA1"), ("a;=A1", "a;\\x3dA1"),
                              (";;+-1", ";;\\x2b-1"), ("a=1-2", "a=1-2"), ("a,=1", '"a,=1"')):
            self.scene({"uid": LEFT, "rig": {"label": label}})
            out = self.run_command("save", "-")[1]
            self.assertEqual(out.splitlines()[1], f"{LEFT},{column},1,1,Simulated fixture,1")
            self.assertEqual(self.run_command("apply", "-", text=out)[:2], (0, "0 changes\n"))

    def test_another_thread_makes_files_meanwhile(self) -> None:
        """The mask of permissions is everybody's, so it isn't changed."""
        before, modes = os.umask(0o077), []
        try:
            with folder() as place, mock.patch.object(files.os, "umask", side_effect=AssertionError):
                with files.file_of(str(place / "new")) as file:
                    modes.append(next(place.iterdir()).stat().st_mode & 0o777)
                    file.write("new")
                modes.append((place / "new").stat().st_mode & 0o777)
            self.assertEqual(modes, [0o600, 0o600])
        finally:
            os.umask(before)

    def test_a_disk_that_is_full(self) -> None:
        with folder() as place:
            file, text = self.saved(place)
            full = OSError(errno.ENOSPC, os.strerror(errno.ENOSPC))
            for name in ("fsync", "replace"):
                with mock.patch.object(files.os, name, side_effect=full):
                    status, out, errors = self.run_command("save", str(file))
                self.assertEqual((status, out), (1, ""))
                self.assertIn(f"wurstlinen: {file}: No space left on device\n", errors)
            self.assertEqual((file.read_text(), [each.name for each in place.iterdir()]), (text, ["rig.csv"]))
        self.assertEqual(self.run_command("save", "/nowhere/rig.csv")[0], 1)

    def test_nothing_is_written_after_a_fault(self) -> None:
        self.scene({"uid": LEFT}, fails=[3])
        with folder() as place:
            self.assertEqual(self.run_command("save", str(place / "rig.csv"))[0], 1)
            self.assertEqual(list(place.iterdir()), [])


@needs_library
class Keys(OneRig):
    def test_each_is_on_the_page(self) -> None:
        """The keys of JSON objects, all of which COMMANDS.md has."""
        self.scene({"uid": LEFT}, {"uid": SLOW, "rig": {"timer": 2}})
        self.run_command("get", SLOW, "device_label", "--wait", "0")
        text = f"uid,label\n{LEFT},Side\n"
        log = '{"frame":"00","reply":""}\n{"frame":"01","failed":true}\n'
        found: Set[str] = set()
        for words in (["fixtures"], ["save", "-"], ["apply", "-"], ["get", SLOW, "device_info"], ["set", LEFT],
                      ["get", LEFT, "0x8001"], ["set", LEFT, "device_label", "x"], ["identify", LEFT],
                      ["identify", "--each"]):
            out = self.run_command(*words, "--json", text=text)[1]
            found |= {key for line in out.splitlines() for key in keys_of(json.loads(line))}
        for words, text in ((["pids", "device_label"], ""), (["trace", "-"], log)):
            found |= {key for line in called(*words, "--json", text=text)[1].splitlines() for key in json.loads(line)}
        wanted = {"values", "queued", "error", "text", "reason", "nack", "before", "dry_run", "fault", "get", "reply"}
        self.assertLessEqual(wanted, found)
        page = (PACKAGE / "COMMANDS.md").read_text(encoding="utf-8").partition("## JSON")[2].partition("\n## ")[0]
        self.assertEqual({key for key in found if f"`{key}`" not in page}, set())


def keys_of(made: Dict[str, Any]) -> Iterator[str]:
    """An object's keys, and those of objects in it; a parameter's own fields are no keys of the front."""
    for key, value in made.items():
        yield key
        if isinstance(value, dict) and key in ("error", "queued"):
            yield from keys_of(value)


@needs_library
class Identify(OneRig):
    def states(self) -> List[Tuple[str, str]]:
        """The SETs of IDENTIFY_DEVICE: the devices, and whether they were switched on."""
        return [(f"{frame[3:5].hex()}:{frame[5:9].hex()}", frame[24:25].hex()) for frame in self.frames
                if frame[20] == 0x30]

    def test_one(self) -> None:
        for arguments in ([LEFT], [LEFT, "on"], [LEFT, "off"]):
            self.assertEqual(self.run_command("identify", *arguments), (0, "", ""))
        self.assertEqual(self.states(), [(LEFT, "01"), (LEFT, "01"), (LEFT, "00")])

    def test_each(self) -> None:
        status, out, _ = self.run_command("identify", "--each", text="\n" * 5)
        self.assertEqual((status, out.splitlines()[0], len(out.splitlines())), (0, f"1 of 5: {LEFT}", 5))
        self.assertEqual([state for _, state in self.states()], ["01", "00"] * 5)

    def test_the_end_of_the_input_ends_it(self) -> None:
        self.assertEqual(self.run_command("identify", "--each", text="\n")[1].splitlines()[-1], "2 of 5: 1234:00000002")
        self.assertEqual([state for _, state in self.states()], ["01", "00"] * 2)

    def test_an_interrupt_of_a_wait_switches_it_off(self) -> None:
        with mock.patch.object(work.Work, "_waits", side_effect=KeyboardInterrupt):
            self.assertEqual(self.run_command("identify", "--each", text="\n" * 5)[0], 130)
        self.assertEqual(self.states()[-2:], [(SLOW, "01"), (SLOW, "00")])

    def test_a_line_that_fails_ends_it(self) -> None:
        with mock.patch.object(work.Work, "ask", side_effect=Failure(1, "gone", reason="failed_to_send")):
            self.assertEqual(self.run_command("identify", "--each", text="\n")[::2],
                             (1, "wurstlinen: each identifies itself until Enter is pressed\nwurstlinen: gone\n"))

    def test_an_interrupt_switches_it_off(self) -> None:
        with mock.patch.object(requests, "sys") as system:
            system.stdin.readline.side_effect = KeyboardInterrupt
            status, _, _ = self.run_command("identify", "--each")
        self.assertEqual((status, [state for _, state in self.states()]), (130, ["01", "00"]))
