"""The commands beside an unchanged olad, by `--line ola:UNIVERSE`, in front of an emulated adapter.

usage: test_line.py REDIRECT
  REDIRECT  what redirect.c makes

WURSTLINEN_LIBRARY names the C library, and WURSTLINEN_PROGRAM the proved program. The last line is "N passed, M
failed".
"""
from __future__ import annotations

import json
import os
import subprocess
import sys
import time
from pathlib import Path
from typing import Callable, List, Optional, Tuple

from checks import Checks, uid_text
from daemon import LATE_SECONDS, ROOT, TRIES, UNIVERSE, Daemon
from wurstlinen.lines.scene import parse_scene
from wurstlinen.tool import adapters

LAMP, SLOW, ABSENT = "1234:00000001", "9abc:00000002", "1234:00000009"
LABEL, LONG = "Front left", bytes(range(200)) * 3
SCENE = {"source": "7ff0:00000001", "devices": [
    {"uid": LAMP, "params": [{"pid": "8001", "parts": [LONG[:200].hex(), LONG[200:400].hex(), LONG[400:].hex()]}],
     "rig": {"label": LABEL, "address": 7}},
    {"uid": SLOW, "rig": {"label": "House lights", "timer": 3}}]}
SECONDS = 60.0
# A command's status, and what it prints.
Ended = Tuple[int, str, str]


class Commands:
    """Commands on the daemon's universe."""

    def __init__(self, checks: Checks, port: int) -> None:
        self._checks = checks
        self._line = f"ola:{UNIVERSE}:{port}"

    def run(self, *words: str) -> Ended:
        """How a command ends."""
        environment = {**os.environ, "PYTHONPATH": str(ROOT / "bindings/python"), "PYTHONDONTWRITEBYTECODE": "1"}
        done = subprocess.run([sys.executable, "-m", "wurstlinen.tool", *words, "--line", self._line], check=False,
                              env=environment, capture_output=True, text=True, timeout=SECONDS)
        return done.returncode, done.stdout, done.stderr

    def check(self, words: List[str], status: int, out: str, errors: str = "") -> None:
        """A command ends like this."""
        wanted = (status, out, errors)
        found = self._repeat(wanted.__eq__, words)
        self._checks.check(found == wanted, f"{' '.join(words)}: {found}")

    def check_fixtures(self, labels: List[Tuple[str, str]]) -> None:
        """`fixtures` finds these UIDs and labels, without a fault."""
        wanted = (labels, len(labels), None)
        found = self._repeat(lambda ended: fixtures_in(ended) == wanted, ["fixtures", "--json"])
        self._checks.check(fixtures_in(found) == wanted, f"fixtures: {found}")

    def _repeat(self, is_wanted: Callable[[Ended], bool], words: List[str]) -> Ended:
        """How a command ends. It is repeated if OLA may have given up waiting for the adapter."""
        for _ in range(TRIES):
            began = time.monotonic()
            ended = self.run(*words)
            if is_wanted(ended) or time.monotonic() - began < LATE_SECONDS:
                break
        return ended


def fixtures_in(ended: Ended) -> Optional[Tuple[List[Tuple[str, str]], int, Optional[str]]]:
    """The UIDs and labels that `fixtures` prints as JSON, how many it counts, and its fault."""
    objects = [json.loads(line) for line in ended[1].splitlines()]
    if not objects:
        return None
    *found, last = objects
    return [(each["uid"], each["label"]) for each in found], last["fixtures"], last["fault"]


def check_commands(checks: Checks, commands: Commands, daemon: Daemon) -> None:
    """GETs, SETs and discoveries."""
    waits = f"wurstlinen: {SLOW} asks for 0.3 s\n"
    commands.check(["get", LAMP, "device_label"], 0, f"{LABEL}\n")
    commands.check(["set", LAMP, "device_label", "Lamp"], 0, "")
    commands.check(["get", "--raw", LAMP, "0082"], 0, f"0 00 {b'Lamp'.hex()}\n")
    commands.check(["get", LAMP, "0x9000"], 3, "",
                   f"wurstlinen: {LAMP} refused it: unknown pid (NACK 0x0000)\n")
    commands.check(["get", ABSENT, "device_label"], 1, "", f"wurstlinen: {ABSENT}: no answer, or not all of it\n")
    commands.check(["get", SLOW, "device_label"], 0, "House lights\n", waits)
    # olad joins the parts of an answer.
    commands.check(["get", "--raw", LAMP, "8001"], 0, f"0 00 {LONG.hex()}\n")
    commands.check(["discover"], 0, f"{LAMP}\n{SLOW}\n2 devices; as olad found them\n")
    commands.check_fixtures([(LAMP, "Lamp"), (SLOW, "House lights")])
    checks.check(daemon.get(LAMP, "device_label") == "Lamp", "OLA's own tool doesn't see the label")


def check_adapters(checks: Checks, port: int) -> None:
    """What `adapters` and `doctor` say of olad."""
    found = adapters.universes(port)
    wanted = [(f"ola:{UNIVERSE}:{port}", None)]
    checks.check([(each.line, each.fault) for each in found] == wanted, f"adapters: {found}")
    checks.check(all("Enttec Usb Pro" in each.text and each.text.endswith(", 2 devices") for each in found),
                 f"adapters: {found}")


def main(redirect: Path) -> int:
    """All checks."""
    checks = Checks()
    scene = parse_scene(SCENE)
    with Daemon(scene, redirect) as daemon:
        checks.check(daemon.finds([uid_text(each.uid) for each in scene.devices]), "olad finds others")
        commands = Commands(checks, daemon.rpc_port)
        check_adapters(checks, daemon.rpc_port)
        check_commands(checks, commands, daemon)
    checks.check(daemon.ended_well, daemon.state)
    status, _, errors = commands.run("get", LAMP, "device_label")
    checks.check((status, "olad doesn't listen on port" in errors) == (1, True), f"without olad: {status}, {errors}")
    print(f"{checks.passed} passed, {checks.failed} failed")
    return 1 if checks.failed else 0


if __name__ == "__main__":
    sys.exit(main(Path(sys.argv[1])))
