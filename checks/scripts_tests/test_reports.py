"""What the command prints of the proved program's discoveries and sessions, for people and as JSON."""
from __future__ import annotations

import json
import unittest

from test_front import FIXTURES, Place

# What the program prints of a discovery with a fault, and of a session.
FINDING = """#!/bin/sh
echo "fault 1 4444:00000009"
echo "frames 9"
cat >&2 << END
wurstlinen: a remark
wurstlinen: a fault in words; found until then:
1234:00000001
1234:00000002 0002 1234:00000001
1234:00000003 0008
END
exit 1
"""
SERVING = """#!/bin/sh
cat << END
client 0 request 0: 0 00 4c61
client 0 request 1: 0 00 -
client 12 request 2: 3
client 1 discovery 0: ok 1234:00000001 9abc:00000002
client 1 discovery 1: fault 3
fault: scene
END
echo "wurstlinen: it is a test" >&2
exit 1
"""


class Reports(Place):
    def test_what_a_discovery_prints(self) -> None:
        """FORMATS, the program: the control field and the binding UID. E1.20 says what the field's bits mean."""
        self.put_program(FINDING)
        words = ["discover", "--line", f"rig:{FIXTURES}"]
        end = ("the discovery is incomplete: 4444:00000009 was asked alone, and the answer was wrong: "
               "take it off the line and discover again")
        self.expect(words, 1, "1234:00000001\n1234:00000002  part of 1234:00000001, has sub-devices\n"
                              f"1234:00000003  behind a proxy\n3 devices, 9 frames; {end}\n", "wurstlinen: a remark\n")
        done = self.call(*words, "--json")
        self.assertEqual((done.returncode, done.stderr), (1, ""))
        self.assertEqual([json.loads(line) for line in done.stdout.splitlines()], [
            {"uid": "1234:00000001", "control": "0000"},
            {"uid": "1234:00000002", "control": "0002", "binding": "1234:00000001"},
            {"uid": "1234:00000003", "control": "0008"},
            {"devices": 3, "frames": 9, "fault": end.partition(": ")[2]}])
        # What is printed for a file is the program's own.
        self.assertIn("fault 1 4444:00000009\n", self.call("discover", "a").stdout)
        self.assertEqual(self.call("discover", "a", "--json").stdout, done.stdout)

    def test_a_session_as_json(self) -> None:
        self.put_program(SERVING)
        wanted = [{"client": 0, "request": 0, "status": 0, "ack": 0, "data": "4c61"},
                  {"client": 0, "request": 1, "status": 0, "ack": 0, "data": ""},
                  {"client": 12, "request": 2, "status": 3},
                  {"client": 1, "discovery": 0, "fault": None, "devices": ["1234:00000001", "9abc:00000002"]},
                  {"client": 1, "discovery": 1, "fault": "the run has used up its budget of frames"},
                  {"error": {"text": "it is a test", "reason": "scene"}}]
        for more in ([], ["--line", f"rig:{FIXTURES}"]):
            done = self.call("run", "a", "--json", *more)
            self.assertEqual((done.returncode, done.stderr), (1, ""))
            self.assertEqual([json.loads(line) for line in done.stdout.splitlines()], wanted)

    def test_quick_and_steady(self) -> None:
        self.put_program(FINDING)
        self.expect(["discover", "--line", f"rig:{FIXTURES}", "--quick", "--steady"], 2, "fault: command line\n",
                    "wurstlinen: --steady and --quick exclude each other\n")


if __name__ == "__main__":
    unittest.main()
