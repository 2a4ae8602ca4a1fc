"""What apply and patch do about overlaps, and the tables that spreadsheets write."""
from __future__ import annotations

import json
from pathlib import Path
from typing import Any, Dict
from unittest import mock

from common import TestCase, folder, needs_library
from fronts import LEFT, OneRig, called
from wurstlinen.front.output import Output
from wurstlinen.front.sheets import NoSheet, sheet_of

RIGHT = "1234:00000002"
TRUSS = "454e:0a000017"
WIDE: Dict[str, Any] = {"personalities": [{"footprint": 7, "name": "Basic"}, {"footprint": 14, "name": "Extended"}]}
REFUSED = "wurstlinen: nothing was changed, because of these slots; --force changes it all the same\n"
RIG = f"""\
uid,label,address,personality,model,slots,position
{LEFT},Front 10,1,1,Wash 7,7,"stage left, 3 m"
{RIGHT},Front 9,8,1,Wash 7,14,FOH
{TRUSS},Back,100,1,Beam,0,
"""


class Sheets(TestCase):
    def test_what_separates_cells(self) -> None:
        for mark in ",;\t":
            sheet = sheet_of(f"Label{mark}UID \r\n\"a{mark}b\"{mark}x\r\n{mark}\r\n\r\n".encode())
            self.assertEqual((sheet.delimiter, sheet.columns, sheet.rows, sheet.lines),
                             (mark, ["label", "uid"], [[f"a{mark}b", "x"]], [2]))
            self.assertEqual(sheet.text(), f"Label{mark}UID \n\"a{mark}b\"{mark}x\n")

    def test_encodings_stay(self) -> None:
        text = "uid;Ort\n1;B\xfchne\n"
        for encoding in ("utf-8", "utf-8-sig", "latin-1", "utf-16"):
            sheet = sheet_of(text.encode(encoding))
            self.assertEqual((sheet.rows, sheet.encoding, sheet.text()), ([["1", "B\xfchne"]], encoding, text))

    def test_what_is_no_table(self) -> None:
        for data in (b"uid\n\"x", b"uid\n1,2\n", b"\xff\xfex", b"uid,a\n1\n", b'uid\n"x"y\n'):
            with self.assertRaises(NoSheet):
                sheet_of(data)
        self.assertEqual(sheet_of(b"").titles, [])


@needs_library
class Guarded(OneRig):
    """Changes whose slots would overlap, or end after the last one."""

    def setUp(self) -> None:
        self.scene({"uid": LEFT, "rig": {**WIDE, "label": "Left"}},
                   {"uid": RIGHT, "rig": {**WIDE, "label": "Right", "address": 15}},
                   {"uid": TRUSS, "rig": {"address": 15}})

    def apply(self, text: str, *options: str) -> Any:
        """What apply ends with."""
        return self.run_command("apply", "-", *options, text=text)

    def test_an_overlap(self) -> None:
        change = f"{LEFT}  address  1 -> 9\n"
        problem = f"after this, {LEFT} Left 9-15 overlaps {RIGHT} Right 15-21\n"
        truss = f"after this, {LEFT} Left 9-15 overlaps {TRUSS} 15\n"
        for options in ([], ["--dry-run"]):
            self.assertEqual(self.apply(f"uid,address\n{LEFT},9\n", *options), (2, change + problem + truss, REFUSED))
        self.assertEqual(self.sets(), 0)
        self.assertEqual(self.apply(f"uid,address\n{LEFT},9\n", "--force"),
                         (0, change + problem + truss + "1 change\n", ""))
        self.assertEqual(self.sets(), 1)

    def test_set_says_what_overlaps_on_a_terminal(self) -> None:
        words = ("set", LEFT, "dmx_start_address")
        self.assertEqual(self.run_command(*words, "9"), (0, "", ""))
        overlaps = f"wurstlinen: {LEFT} Left 9-15 overlaps {RIGHT} Right 15-21\n"
        with mock.patch.object(Output, "is_seen", True):
            status, out, errors = self.run_command(*words, "9")
            self.assertEqual((status, out), (0, ""))
            self.assertIn(overlaps, errors)
            self.assertIn(f"wurstlinen: {LEFT} Left 510-516 ends after 512\n", self.run_command(*words, "510")[2])
            self.assertNotIn("overlaps", self.run_command(*words, "100")[2])

    def test_a_personality(self) -> None:
        self.run_command("set", LEFT, "dmx_start_address", "2")
        text = f"uid,personality,address,label\n{LEFT},2,2,Wide\n{TRUSS},1,16,x\n"
        status, out, errors = self.apply(text)
        self.assertEqual((status, out.splitlines()[4:], errors),
                         (2, [f"after this, {LEFT} Wide 2-15 overlaps {RIGHT} Right 15-21",
                              f"after this, {RIGHT} Right 15-21 overlaps {TRUSS} x 16"], REFUSED))
        self.assertEqual(self.apply(text.replace("2,2,", "2,1,").replace("16", "22"))[0], 0)

    def test_an_end_after_the_last_slot(self) -> None:
        self.assertEqual(self.apply(f"uid,address\n{LEFT},507\n"),
                         (2, f"{LEFT}  address  1 -> 507\nafter this, {LEFT} Left 507-513 ends after 512\n", REFUSED))
        self.assertEqual(self.apply(f"uid,address\n{LEFT},506\n")[0], 0)

    def test_what_was_so_before_is_no_matter(self) -> None:
        self.assertEqual(self.apply(f"uid,address\n{LEFT},22\n")[:2], (0, f"{LEFT}  address  1 -> 22\n1 change\n"))
        before = len(self.frames)
        self.assertEqual(self.apply(f"uid,label\n{RIGHT},Side\n")[0], 0)
        # Nobody is searched for if nobody moves.
        self.assertEqual(len(self.frames) - before, 3)

    def test_parts_of_one_device(self) -> None:
        self.scene({"uid": LEFT, "rig": WIDE}, {"uid": RIGHT, "binding": LEFT, "rig": {**WIDE, "address": 20}})
        self.assertEqual(self.apply(f"uid,address\n{RIGHT},3\n")[0], 0)

    def test_json(self) -> None:
        out = self.apply(f"uid,address\n{LEFT},9\n{RIGHT},510\n", "--json")[1]
        found = [json.loads(line) for line in out.splitlines()][2:]
        self.assertEqual(found[:2], [
            {"problem": "overlap", "uid": LEFT, "slots": [9, 15], "other": TRUSS, "other_slots": [15, 15]},
            {"problem": "end", "uid": RIGHT, "slots": [510, 516]}])
        self.assertEqual(found[2]["error"]["reason"], "patch")

    def test_a_device_that_is_not_found(self) -> None:
        # It answers no branch, so the discovery doesn't show it.
        self.scene({"uid": LEFT, "rig": {**WIDE, "lies": ["hides"]}}, {"uid": RIGHT, "rig": {**WIDE, "address": 15}})
        self.assertEqual(self.apply(f"uid,address\n{LEFT},9\n")[0], 2)

    def test_a_discovery_that_ends_early(self) -> None:
        self.scene({"uid": LEFT, "rig": WIDE},
                   {"uid": RIGHT, "rig": {**WIDE, "address": 15, "lies": ["ignores mutes"]}})
        status, _, errors = self.apply(f"uid,address\n{LEFT},40\n")
        self.assertEqual(status, 0)
        self.assertIn("slots of devices that weren't found aren't compared: the discovery is incomplete", errors)

    def test_a_line_that_fails(self) -> None:
        self.scene({"uid": LEFT, "rig": WIDE}, fails=[4])
        self.assertEqual(self.apply(f"uid,address\n{LEFT},40\n"),
                         (1, f"{LEFT}  address  1 -> 40\n", "wurstlinen: the rig's file lets this exchange fail\n"))
        self.assertEqual(self.sets(), 0)


@needs_library
class Columns(OneRig):
    """Files as spreadsheets write them."""

    def test_semicolons_and_tabs(self) -> None:
        for mark in (";", "\t"):
            text = "\ufeffUID,Label,Position\r\n{},Side,left\r\n".format(LEFT).replace(",", mark)
            self.assertEqual(self.run_command("apply", "-", "--dry-run", text=text),
                             (0, f"{LEFT}  label  Front left -> Side\n1 change; nothing was changed\n",
                              "wurstlinen: -: these columns change nothing: Position\n"))

    def test_a_column_that_is_misspelled(self) -> None:
        self.assertEqual(self.run_command("apply", "-", text=f"uid,lable,model,slots,\n{LEFT},Side,a,b,c\n")[::2],
                         (0, "wurstlinen: -: these columns change nothing: lable; did you mean label?\n"))

    def test_save_keeps_what_was_added(self) -> None:
        with folder() as place:
            file = place / "rig.csv"
            file.write_bytes("Ort;uid;address;\nB\xfchne;1234:00000001;7;x\nLager;1234:00000009;;\n;;;\n"
                             .encode("latin-1"))
            status, _, errors = self.run_command("save", str(file))
            self.assertEqual((status, errors.splitlines()[1:]),
                             (0, ["wurstlinen: 1234:00000009 wasn't found, so its row is gone: Ort Lager"]))
            rows = file.read_bytes().decode("latin-1").splitlines()
            self.assertEqual(rows[:3], ["Ort;uid;address;;label;personality;model;slots",
                                        "B\xfchne;1234:00000001;1;x;Front left;1;Wash 7;7",
                                        ";1234:00000002;8;;Front right;1;Wash 7;7"])
            self.assertEqual(self.run_command("apply", str(file))[:2], (0, "0 changes\n"))

    def test_devices_that_say_little(self) -> None:
        self.answers = {0x0080: None, 0x0060: None}
        self.assertEqual(self.run_command("save", "-")[1].splitlines()[1], f"{LEFT},Front left,1,1,,")


@needs_library
class Patched(TestCase):
    """The command patch, which needs no line."""

    def patched(self, place: Path, *options: str, text: str = RIG) -> Any:
        """How the command ends, and the addresses of the file."""
        file = place / "rig.csv"
        file.write_text(text)
        end = called("patch", str(file), *options)
        return end, [row.split(",")[2] for row in file.read_text().splitlines()[1:]]

    def test_orders(self) -> None:
        for options, wanted in ((["--from", "1"], ["1", "8", "100"]), (["--from", "5", "--order", "uid"],
                                                                       ["5", "12", "100"]),
                                (["--from", "1", "--order", "label"], ["15", "1", "100"])):
            with folder() as place:
                end, addresses = self.patched(place, *options)
                self.assertEqual((end[0], addresses), (0, wanted))

    def test_what_it_prints_and_keeps(self) -> None:
        with folder() as place:
            end, _ = self.patched(place, "--from", "2")
            self.assertEqual(end, (0, f"{LEFT}  address  1 -> 2\n{RIGHT}  address  8 -> 9\n2 changes: "
                                      f"{place / 'rig.csv'}\n",
                                   f"wurstlinen: {place / 'rig.csv'}: these columns change nothing: position\n"))
            self.assertEqual((place / "rig.csv").read_text(),
                             RIG.replace("Front 10,1", "Front 10,2").replace("Front 9,8", "Front 9,9"))
            end, _ = self.patched(place, "--from", "2", "--to", str(place / "other.csv"), "--json")
            self.assertEqual([json.loads(line) for line in end[1].splitlines()][1:], [
                {"uid": RIGHT, "column": "address", "before": "8", "after": "9"},
                {"changes": 2, "file": str(place / "other.csv")}])
            self.assertEqual((place / "rig.csv").read_text(), RIG)
            self.assertIn("Front 9,9", (place / "other.csv").read_text())

    def test_standard_streams(self) -> None:
        status, out, _ = called("patch", "-", "--from", "7", text=f"uid\tslots\n{LEFT}\t6\n")
        self.assertEqual((status, out), (0, f"uid\tslots\taddress\n{LEFT}\t6\t7\n"))
        out = called("patch", "-", "--from", "7", "--json", text=f"uid\tslots\n{LEFT}\t6\n")[1]
        self.assertEqual(json.loads(out), {"uid": LEFT, "slots": "6", "address": "7"})

    def test_what_can_not_be_patched(self) -> None:
        for text, options, wanted in (
                (RIG, ["--from", "500"],
                 f"{{}}: line 3: {RIGHT} would have the slots 507-520, and the last one is 512"),
                (RIG.replace(",7,", ",x,"), ["--from", "1"],
                 "{}: line 2: its slots are 'x', and no number from 0 to 512; save writes it"),
                (f"uid\n{LEFT}\n", ["--from", "1"],
                 "{}: line 2: its slots are '', and no number from 0 to 512; save writes it")):
            with folder() as place:
                file = place / "rig.csv"
                file.write_text(text)
                status, out, errors = called("patch", str(file), *options)
                self.assertEqual((status, out, file.read_text()), (2, "", text))
                self.assertEqual(errors.splitlines()[-1], f"wurstlinen: {wanted.format(file)}")
        for words in ([], ["--from", "0"], ["--from", "513"], ["--from", "1", "--order", "x"]):
            self.assertEqual(called("patch", "-", *words)[0], 2)

    def test_a_file_that_can_not_be_written(self) -> None:
        status, out, errors = called("patch", "-", "--from", "1", "--to", "/nowhere/x", text=RIG)
        self.assertEqual((status, out, errors.splitlines()[-1]),
                         (1, "", "wurstlinen: /nowhere/x: No such file or directory"))
        with folder() as place, mock.patch("os.replace", side_effect=OSError(28, "No space left on device")):
            end, addresses = self.patched(place, "--from", "2")
            self.assertEqual((end[0], addresses), (1, ["1", "8", "100"]))
