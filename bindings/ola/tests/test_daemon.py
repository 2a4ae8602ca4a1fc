"""An unchanged olad with the stand-in, in front of an emulated adapter: discoveries, GETs and SETs by OLA's tools.

usage: test_daemon.py LIBRARY REDIRECT
  LIBRARY   libwurstlinen-ola.so
  REDIRECT  what redirect.c makes

The last line is 'N passed, M failed'.
"""
from __future__ import annotations

import itertools
import json
import signal
import sys
from dataclasses import replace
from pathlib import Path
from typing import Dict, List, NoReturn, Sequence, Tuple

from checks import Checks, random_scene, uid_text, uids_of
from daemon import NO_REPLY, TRIES, UNIVERSE, Daemon, becomes
from wurstlinen.lines.scene import parse_scene

# The two kinds that OLA distinguishes: below 4.15, label 12 follows the replies to branches.
FIRMWARES = ((2, 4), (4, 15))
COUNTS = (3, 5, 40)
LOSSES = (0.0, 0.2)
SOON_SECONDS = 60.0
TERMINATED = 143


def check_line(checks: Checks, files: Tuple[Path, Path], count: int, firmware: Tuple[int, int], loss: float) -> None:
    """Two discoveries, and GETs and SETs of some of the fixtures."""
    library, redirect = files
    name = f"{count} fixtures, firmware {firmware[0]}.{firmware[1]}, loss {loss}"
    scene = random_scene(count, seed=count * 100 + firmware[0], loss=loss)
    wanted = uids_of(scene)
    with Daemon(scene, redirect, library, firmware) as daemon:
        for is_full in (True, False):
            found = daemon.discover(is_full)
            checks.check(found == wanted, f"{name}: found {found} in place of {wanted}")
        for device in scene.devices[:3]:
            uid = uid_text(device.uid)
            number = scene.devices.index(device)
            check_value(checks, loss, f"{name}: label of {uid}", f"Fixture {number}", daemon, uid, "device_label")
            check_value(checks, loss, f"{name}: address of {uid}", f"DMX Address: {number + 1}", daemon, uid,
                        "dmx_start_address")
            value = f"New {number} {count}"
            if not loss:
                checks.check(daemon.set(uid, "device_label", value) == "", f"{name}: the SET isn't acknowledged")
                check_value(checks, loss, f"{name}: new label of {uid}", value, daemon, uid, "device_label")
        checks.check(": the proved discovery" in daemon.messages, f"{name}: the bridge isn't told")
    checks.check(daemon.ended_well, f"{name}: {daemon.state}")


def check_value(checks: Checks, loss: float, name: str, wanted: str, daemon: Daemon, uid: str, pid: str) -> None:
    """A GET is right. If replies are lost, it may have none, and then one of several tries is right."""
    got: List[str] = []
    while len(got) < (TRIES if loss else 1) and (not got or got[-1] != wanted):
        got.append(daemon.get(uid, pid))
    checks.check(got[-1] == wanted and all(each == NO_REPLY for each in got[:-1]), f"{name}: {got}, not {wanted}")


def check_parts(checks: Checks, files: Tuple[Path, Path]) -> None:
    """An answer in parts, a refusal, and a label that is empty."""
    scene = parse_scene({"source": "7ff0:00000001", "devices": [
        {"uid": "1234:00000007", "rig": {"part": 4}}, {"uid": "1234:00000009", "rig": {"nack": "0006"}}]})
    with Daemon(scene, files[1], files[0]) as daemon:
        checks.check(daemon.discover(True) == ["1234:00000007", "1234:00000009"], "two fixtures")
        pids = daemon.get("1234:00000007", "supported_parameters")
        checks.check("device_label" in pids and "dmx_personality" in pids, f"parts: {pids}")
        refused = daemon.get("1234:00000009", "device_label")
        checks.check("NACK" in refused, f"refusal: {refused}")
        checks.check(daemon.get("1234:00000007", "device_label") == "", "an empty label")


def check_rests(checks: Checks, files: Tuple[Path, Path]) -> None:
    """A tool's GET loses its first, its second or its last part. The next tool is given all parts."""
    parts = ["Front ", "of the ", "stage"]
    params = [{"pid": "0082", "parts": [part.encode().hex() for part in parts]}]
    uid = "1234:00000007"
    scene = parse_scene({"source": "7ff0:00000001", "devices": [{"uid": uid, "params": params}]})
    with Daemon(scene, files[1], files[0]) as daemon:
        checks.check(daemon.discover(True) == [uid], "a fixture that answers in parts")
        for lost in range(len(parts)):
            daemon.rig.scene = replace(scene, losses=frozenset([daemon.rig.exchanges + lost]))
            # `get` would repeat it on a busy machine.
            first = daemon.tool("ola_rdm_get", "-u", str(UNIVERSE), "--uid", uid, "device_label")
            got = [first, daemon.get(uid, "device_label")]
            checks.check(got == [NO_REPLY, "".join(parts)], f"part {lost} lost: {got}")


def check_settings(checks: Checks, files: Tuple[Path, Path]) -> None:
    """The log, and invalid settings."""
    scene = random_scene(3, seed=9)
    uid = uids_of(scene)[1]
    settings = {"WURSTLINEN_LOG": "FOLDER/log", "WURSTLINEN_SEARCH": "fast", "WURSTLINEN_BUDGET": "0"}
    with Daemon(scene, files[1], files[0], settings=settings) as daemon:
        checks.check(daemon.discover(True) == uids_of(scene), "a discovery with a log")
        label = daemon.get(uid, "device_label")
        becomes(lambda: '"request","request"' in last_line(daemon), SOON_SECONDS)
        log = [json.loads(line) for line in (daemon.folder / "log").read_text().splitlines()]
        for text in ("WURSTLINEN_SEARCH=fast: it is quick or steady", "WURSTLINEN_BUDGET=0: it is a number of frames"):
            checks.check(text in daemon.messages, f"the daemon doesn't say: {text}")
    kinds = [kind for kind in ("call", "sent", "heard", "result") for entry in log if kind in entry]
    checks.check(kinds.count("sent") == kinds.count("heard") == daemon.rig.exchanges, "each exchange is in the log")
    results = [entry for entry in log if "result" in entry]
    found = [entry["found"] for entry in results if entry["result"] == "discovery"]
    checks.check(bool(found) and all(each == uids_of(scene) for each in found), f"the log's discoveries: {found}")
    checks.check(bytes.fromhex(results[-1]["data"]).decode() == label and results[-1]["status"] == 0,
                 f"the log's last result: {results[-1]}")


def last_line(daemon: Daemon) -> str:
    """The end of the log, which is written a moment later than the values are printed."""
    lines = (daemon.folder / "log").read_text().splitlines()
    return lines[-1] if lines else ""


def check_search(checks: Checks, files: Tuple[Path, Path]) -> None:
    """The steady search takes more frames than the quick one, and a small budget ends it."""
    exchanges: Dict[str, int] = {}
    for name, settings in (("quick", {}), ("steady", {"WURSTLINEN_SEARCH": "steady"}),
                           ("small", {"WURSTLINEN_BUDGET": "7"})):
        scene = random_scene(10, seed=10)
        with Daemon(scene, files[1], files[0], settings=settings) as daemon:
            found = daemon.discover(True)
            exchanges[name] = daemon.rig.exchanges
            is_told = "discovery failed: the run has used up its budget of frames" in daemon.messages
        checks.check((found == uids_of(scene)) == (name != "small") == (not is_told), f"{name}: found {found}")
    checks.check(exchanges["small"] < exchanges["quick"] < exchanges["steady"], f"frames: {exchanges}")


def check_fault(checks: Checks, files: Tuple[Path, Path]) -> None:
    """A discovery that fails: the other fixtures are still found, and the fault is reported."""
    scene = parse_scene({"source": "7ff0:00000001", "devices": [
        {"uid": "1234:00000007"}, {"uid": "ffff:00000001", "rig": {"lies": ["stays unmuted"]}}]})
    with Daemon(scene, files[1], files[0], settings={"WURSTLINEN_SEARCH": "steady"}) as daemon:
        found = daemon.discover(True)
        checks.check("1234:00000007" in found, f"a fixture that mutes is lost: {found}")
        wanted = "discovery failed: ffff:00000001 alone answered its branch"
        checks.check(wanted in daemon.messages, f"the fault isn't reported: {daemon.messages}")


def check_bad_uids(checks: Checks, files: Tuple[Path, Path]) -> None:
    """Beside fixtures that can't be read or muted: the others are found, and all of the bad ones are named."""
    lies = {"1234:00000001": "ignores mutes", "1234:00000009": "wrong sum", "1234:0000000b": "cuts short"}
    scene = parse_scene({"source": "7ff0:00000001", "devices": [
        {"uid": "1234:00000007"}, *({"uid": uid, "rig": {"lies": [lie]}} for uid, lie in lies.items())]})
    with Daemon(scene, files[1], files[0]) as daemon:
        found = daemon.discover(True)
        checks.check(found == ["1234:00000007"], f"beside three that lie: {found}")
        named = next((line for line in daemon.messages.splitlines() if "discovery failed" in line), "")
        checks.check(all(uid in named for uid in lies), f"not all are named: {named}")


def check_own_discovery(checks: Checks, files: Tuple[Path, Path]) -> None:
    """The adapter's own discovery, behind the queue."""
    scene = random_scene(5, seed=11)
    with Daemon(scene, files[1], files[0], settings={"WURSTLINEN_DISCOVERY": "adapter"}) as daemon:
        for is_full in (True, False):
            is_found = daemon.finds(uids_of(scene), is_full)
            checks.check(is_found, "the adapter's own discovery doesn't find its fixtures")
        checks.check(": the adapter's own discovery" in daemon.messages, "the bridge isn't told")


def main(arguments: Sequence[str]) -> int:
    """Runs all."""
    signal.signal(signal.SIGTERM, ended)
    files = (Path(arguments[0]).resolve(), Path(arguments[1]).resolve())
    checks = Checks()
    for count, firmware, loss in itertools.product(COUNTS, FIRMWARES, LOSSES):
        check_line(checks, files, count, firmware, loss)
    for check in (check_parts, check_rests, check_fault, check_bad_uids, check_settings, check_search,
                  check_own_discovery):
        check(checks, files)
    print(f"{checks.passed} passed, {checks.failed} failed")
    return 1 if checks.failed else 0


def ended(number: int, frame: object) -> NoReturn:
    """Raises an exception, so that the `with` ends the daemon."""
    sys.exit(TERMINATED)


if __name__ == "__main__":
    sys.exit(main(sys.argv[1:]))
