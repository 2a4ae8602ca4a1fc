"""An unchanged olad with the library: its log on bad disks, its messages, and what the script wurstlinen says of it.

usage: test_log.py LIBRARY REDIRECT PRELOAD [PROGRAM]
  LIBRARY   libwurstlinen-ola.so
  REDIRECT  what redirect.c makes
  PRELOAD   what daemon_preload.c makes
  PROGRAM   the built program, which explains the log of runs

The last line is 'N passed, M failed'.
"""
from __future__ import annotations

import json
import os
import re
import shutil
import signal
import statistics
import subprocess
import sys
import tempfile
import time
from pathlib import Path
from typing import Any, Dict, List, NamedTuple, NoReturn, Optional, Sequence, Tuple

from checks import Checks, random_scene, uids_of
from daemon import ROOT, Adapter, Daemon, becomes, other_user
from wurstlinen.lines.emulator import Widget
from wurstlinen.lines.scene import Scene

GETS = 100
# Discoveries by OLA's own controller until one is right.
STUCK_MS = 60000
# How much longer the GETs may take: what a busy machine adds to their median, and to all of them.
MOST_FACTOR = 2.0
MOST_SECONDS_MORE = 20.0
# A daemon waits for its log for one second. This is less than one write takes.
MOST_SECONDS_TO_END = 30.0
SOON_SECONDS = 60.0
MEGABYTE = 1000000
TERMINATED = 143
SERIALS = (0x01020304, 0x05060708)
# The lines that the program writes (docs/FORMATS.md, the log as text), with times, from the controller that the library
# is.
UID = "[0-9a-f]{4}:[0-9a-f]{8}"
OPENING = re.compile(r'\{"entry":"opening","source":"7ff0:00000001","budget":384008,"search":"quick",'
                     rf'"discover":"(full|incremental)","known":\[((?:"{UID}"(?:,(?="))?)*)\]\}}')
EXCHANGE = re.compile(r'\{"number":(0|[1-9][0-9]*),"operation":"(branch|mute|unmute)",'
                      r'"frame":"((?:[0-9a-f]{2}){26,257})",(?:"reply":"((?:[0-9a-f]{2}){0,257})"|"failed":true)'
                      r',"microseconds":[0-9]{16}\}')
# The PIDs of a discovery's commands (E1.20, packet format).
PIDS = {"branch": 1, "mute": 2, "unmute": 3}
UNMUTES = 3
HAS_LIBRARY, HAS_NONE, BAD_ARGUMENTS, NOT_RUN = 0, 1, 2, 125


class Files(NamedTuple):
    """The shared objects, and the built program if it is named."""

    library: Path
    redirect: Path
    preload: Path
    program: Optional[Path] = None


def start(files: Files, scene: Scene, forks: bool = False, **settings: str) -> Daemon:
    """A daemon with the library and these variables."""
    return Daemon(scene, files.redirect, files.library, settings=settings, others=[files.preload], forks=forks)


def records_of(path: Path) -> List[Dict[str, Any]]:
    """The records of a log."""
    return [json.loads(line) for line in path.read_text().splitlines()]


def check_stuck_disk(checks: Checks, files: Files) -> None:
    """A write to the log takes a minute, and a hundred GETs take no longer than without a log."""
    scene = random_scene(3, seed=21)
    uid = uids_of(scene)[0]
    seconds: Tuple[List[float], List[float]] = ([], [])
    stuck = {"WURSTLINEN_LOG": "FOLDER/log", "TEST_STUCK_FILE": "FOLDER/log", "TEST_STUCK_MS": str(STUCK_MS)}
    with start(files, scene, **stuck) as with_log, start(files, scene) as without:
        for daemon in (with_log, without):
            daemon.discover(True)
        for _ in range(GETS):
            for number, daemon in enumerate((with_log, without)):
                began = time.monotonic()
                daemon.get(uid, "device_label")
                seconds[number].append(time.monotonic() - began)
        medians, sums = list(map(statistics.median, seconds)), list(map(sum, seconds))
        checks.check(medians[0] < MOST_FACTOR * medians[1], f"{GETS} GETs with a log and without: {seconds}")
        checks.check(sums[0] < MOST_FACTOR * sums[1] + MOST_SECONDS_MORE, f"all {GETS} GETs: {seconds}")
        checks.check((with_log.folder / "log").stat().st_size < MEGABYTE // 10, "the disk wasn't stuck")
        began = time.monotonic()
        with_log.signal(signal.SIGTERM)
        with_log.wait()
        checks.check(with_log.ended_well, with_log.state)
        checks.check(time.monotonic() - began < MOST_SECONDS_TO_END, "a stuck disk holds up the end")


def check_kinds_of_files(checks: Checks, files: Files) -> None:
    """A log that isn't a regular file is reported once, and nothing waits."""
    scene = random_scene(3, seed=22)
    for name in ("FOLDER/fifo", "/dev/full", "FOLDER/none/log"):
        daemon = start(files, scene, WURSTLINEN_LOG=name)
        os.mkfifo(daemon.folder / "fifo")
        with daemon:
            checks.check(daemon.discover(True) == uids_of(scene), f"{name}: a discovery")
            text = f"WURSTLINEN_LOG={name.replace('FOLDER', str(daemon.folder))}: "
            checks.check(becomes(lambda: text in daemon.messages, SOON_SECONDS), f"{name}: it isn't reported")
            checks.check(daemon.messages.count(text) == 1, f"{name}: it is reported more than once")
        checks.check(daemon.ended_well, f"{name}: {daemon.state}")


def check_rotation(checks: Checks, files: Files) -> None:
    """The log and its predecessor have at most a megabyte each, and no record is missing between them."""
    scene = random_scene(40, seed=23)
    with start(files, scene, WURSTLINEN_LOG="FOLDER/log", WURSTLINEN_LOG_MB="1") as daemon:
        paths = (daemon.folder / "log.1", daemon.folder / "log")
        tries = 0
        while not paths[0].exists() and tries < 40:
            began = time.monotonic()
            daemon.discover(True)
            tries += 1
        checks.check(paths[0].exists(), "the log isn't renamed")
        checks.check(becomes(lambda: ends_with_result(paths[1], began), SOON_SECONDS), "the last result isn't written")
        checks.check(all(path.stat().st_size <= MEGABYTE for path in paths), "the log is too large")
        records = [record for path in paths for record in records_of(path)]
    times = [record["monotonic"] for record in records]
    checks.check(times == sorted(times) and not any("lost" in record for record in records), "the records' order")
    exchanges = [kind for record in records for kind in ("sent", "heard") if kind in record]
    checks.check(all(first != second for first, second in zip(exchanges, exchanges[1:])), "a record is missing")


def ends_with_result(path: Path, began: float) -> bool:
    """Whether a log has been written as far as the result of what was begun then."""
    try:
        last = records_of(path)[-1]
    except (OSError, IndexError, ValueError):
        return False
    return "result" in last and last["monotonic"] > began * 1e6


def check_end(checks: Checks, files: Files) -> None:
    """All that was done is in the log when the daemon has ended."""
    scene = random_scene(3, seed=24)
    with start(files, scene, WURSTLINEN_LOG="FOLDER/log") as daemon:
        daemon.discover(True)
        daemon.signal(signal.SIGTERM)
        daemon.wait()
        checks.check(daemon.ended_well, daemon.state)
        records = records_of(daemon.folder / "log")
        checks.check(records[-1].get("call") == "close", f"the last record is {records[-1]}")
        checks.check((daemon.folder / "log").stat().st_mode & 0o777 == 0o640, "the log's mode")


def check_background(checks: Checks, files: Files) -> None:
    """A daemon that goes into the background closes its files and changes its folder, and has a log nevertheless."""
    scene = random_scene(3, seed=27)
    with start(files, scene, forks=True, WURSTLINEN_LOG="log") as daemon:
        checks.check(daemon.discover(True) == uids_of(scene), "a discovery in the background")
        daemon.signal(signal.SIGTERM)
        checks.check(daemon.wait() == 0, "the daemon in the background doesn't end")
        path = daemon.start_folder / "log"
        found = [record["found"] for record in records_of(path) if "found" in record] if path.exists() else []
        checks.check(bool(found) and found[-1] == uids_of(scene), f"the background's log: {found}")


class Exchange(NamedTuple):
    """An exchange of a run. If it failed, `reply` is None."""

    number: int
    operation: str
    frame: bytes
    reply: Optional[bytes]

    @property
    def is_command(self) -> bool:
        """Whether the frame is such a command of this controller, whole and with its checksum."""
        packet, checksum = self.frame[:-2], int.from_bytes(self.frame[-2:], "big")
        return (packet[:3] == bytes([0xCC, 1, len(packet)]) and packet[9:15] == bytes.fromhex("7ff000000001")
                and packet[20:23] == bytes([0x10, 0, PIDS[self.operation]]) and sum(packet) % 0x10000 == checksum)

    @property
    def muted(self) -> Optional[str]:
        """The UID of a device whose mute was acknowledged."""
        if self.operation != "mute" or not self.reply or self.reply[20:23] != bytes.fromhex("110002"):
            return None
        return f"{self.frame[3:5].hex()}:{self.frame[5:9].hex()}"


class Run(NamedTuple):
    """A run of the log of runs."""

    kind: str
    known: List[str]
    exchanges: List[Exchange]

    @property
    def has_failed(self) -> bool:
        """Whether an exchange failed."""
        return any(exchange.reply is None for exchange in self.exchanges)

    @property
    def found(self) -> List[str]:
        """The devices whose mutes were acknowledged, ascending."""
        return sorted({exchange.muted for exchange in self.exchanges if exchange.muted is not None})


def runs_of(lines: Sequence[str]) -> List[Run]:
    """The runs of a log that has exactly the program's lines. Any other line raises a ValueError."""
    runs: List[Run] = []
    for line in lines:
        opening, exchange = OPENING.fullmatch(line), EXCHANGE.fullmatch(line)
        if opening is not None:
            runs.append(Run(opening.group(1), re.findall(UID, opening.group(2)), []))
        elif exchange is not None and runs:
            number, operation, frame, reply = exchange.groups()
            runs[-1].exchanges.append(Exchange(int(number), operation, bytes.fromhex(frame),
                                               None if reply is None else bytes.fromhex(reply)))
        else:
            raise ValueError(line)
    return runs


def check_runs(checks: Checks, files: Files) -> None:
    """The log of runs has the program's lines, and each run as a whole, though two adapters are at work at once."""
    scenes = [random_scene(20, seed=28), random_scene(12, seed=29)]
    adapters = [Adapter(scene, Widget(serial=serial), 0.002) for scene, serial in zip(scenes, SERIALS)]
    with Daemon(adapters, files.redirect, files.library, settings={"WURSTLINEN_RUNS": "FOLDER/runs"}) as daemon:
        for option in ("-f", "-i"):
            tools = [daemon.start_tool("ola_rdm_discover", "-u", str(universe), option) for universe in (1, 2)]
            for tool in tools:
                tool.communicate()
        daemon.signal(signal.SIGTERM)
        daemon.wait()
        text = (daemon.folder / "runs").read_text()
        mode = (daemon.folder / "runs").stat().st_mode & 0o777
    runs = runs_of(text.splitlines())
    checks.check(text.endswith("}\n") and mode == 0o640, f"it ends with {text[-20:]!r}, and its mode is {mode:o}")
    for run in runs:
        numbers = [exchange.number for exchange in run.exchanges]
        checks.check(numbers == list(range(len(numbers))), f"a run's numbers: {numbers}")
        checks.check(all(exchange.is_command for exchange in run.exchanges), f"a run's frames: {run}")
        operations = [exchange.operation for exchange in run.exchanges]
        checks.check(operations[:UNMUTES] == ["unmute"] * UNMUTES and "branch" in operations, f"a run: {operations}")
    check_found(checks, [run for run in runs if not run.has_failed], scenes)
    if files.program is not None:
        check_explained(checks, files.program, text, runs)


def check_explained(checks: Checks, program: Path, text: str, runs: Sequence[Run]) -> None:
    """The program reads the log of runs to its end: no rule was broken, and each run without a failure is whole."""
    with tempfile.TemporaryDirectory() as folder:
        (Path(folder) / "runs").write_text(text)
        done = subprocess.run([str(program), "explain", f"{folder}/runs"], stdout=subprocess.PIPE,
                              stderr=subprocess.STDOUT, check=False)
    lines = done.stdout.decode().splitlines()
    checks.check(done.returncode == 0, f"explain ends with {done.returncode}: {lines}")
    heads = [line for line in lines if line.startswith("discovery: ")]
    checks.check(len(heads) == len(runs), f"explain shows {len(heads)} of {len(runs)} runs: {lines}")
    for run, head in zip(runs, heads):
        is_sure = head.endswith("; no other device is on the line if all follow the rules")
        checks.check(run.has_failed or is_sure, f"explain: {head}")


def check_found(checks: Checks, runs: Sequence[Run], scenes: Sequence[Scene]) -> None:
    """Each run without a failure found all fixtures of one adapter, some of them in full runs, some in others."""
    wanted = [uids_of(scene) for scene in scenes]
    for run in runs:
        checks.check(run.found in wanted, f"a run found {run.found}")
        is_known = run.known == [] if run.kind == "full" else run.known in ([], run.found)
        checks.check(is_known, f"{run.kind}, and knew {run.known}")
    for fixtures in wanted:
        kinds = [(run.kind, bool(run.known)) for run in runs if run.found == fixtures]
        checks.check(("full", False) in kinds and ("incremental", True) in kinds, f"runs of an adapter: {kinds}")


def check_version(checks: Checks, files: Files) -> None:
    """OLA's version is compared with that of the headers."""
    scene = random_scene(1, seed=25)
    with start(files, scene) as daemon:
        checks.check("wurstlinen: the library: built for OLA " in daemon.messages, "the version isn't told")
        checks.check("but this is OLA" not in daemon.messages, "the same version is taken for another")
    with start(files, scene, TEST_REVISION="99", WURSTLINEN_LOG="FOLDER/log") as daemon:
        told = "but this is OLA 0.10.99: OLA's own controllers are used"
        checks.check(daemon.messages.count(told) == 1, "another version isn't told")
        checks.check(daemon.finds(uids_of(scene)), "a discovery with another version")
        checks.check(not (daemon.folder / "log").exists(), "OLA's own controllers aren't used")
        status, text = script(str(daemon.pid))
        checks.check(status == HAS_NONE and told in text, f"--check-ola, another version: {status} {text}")


def script(*words: str, user: Optional[str] = None) -> Tuple[int, str]:
    """The status of `wurstlinen --check-ola`, and what it prints. Another user may not be able to read this folder."""
    with tempfile.TemporaryDirectory() as name:
        folder = Path(name)
        folder.chmod(0o755)
        shutil.copy(ROOT / "wurstlinen", folder)
        shutil.copytree(ROOT / "tools", folder / "tools", ignore=shutil.ignore_patterns("__pycache__"))
        for path in folder.rglob("*"):
            path.chmod(0o755)
        done = subprocess.run([str(folder / "wurstlinen"), "--check-ola", *words], stdout=subprocess.PIPE, cwd=folder,
                              stderr=subprocess.STDOUT, check=False, **({"user": user} if user else {}))
    return done.returncode, done.stdout.decode()


def check_script(checks: Checks, files: Files) -> None:
    """Whether a daemon has the library, from which file and for which OLA; also if the file was replaced."""
    scene = random_scene(1, seed=26)
    with tempfile.TemporaryDirectory() as folder:
        os.chmod(folder, 0o755)
        copy = Path(folder) / files.library.name
        shutil.copy(files.library, copy)
        pid = check_running(checks, files, scene, copy)
    for words, wanted_status in (((str(pid),), NOT_RUN), (("0",), BAD_ARGUMENTS), (("x",), BAD_ARGUMENTS),
                                 (("",), BAD_ARGUMENTS), (("1", "2"), BAD_ARGUMENTS)):
        status, text = script(*words)
        checks.check(status == wanted_status, f"--check-ola {words}: {status} {text}")


def check_running(checks: Checks, files: Files, scene: Scene, copy: Path) -> int:
    """A daemon with this copy of the library, and one without a library. The result is the first one's process."""
    with Daemon(scene, files.redirect, copy) as daemon, Daemon(scene, files.redirect) as without:
        status, text = script(str(daemon.pid))
        wanted = f"process {daemon.pid} has {copy}, built for OLA 0.10."
        checks.check(status == HAS_LIBRARY and text.startswith(wanted), f"with the library: {status} {text}")
        status, text = script(str(without.pid))
        checks.check(status == HAS_NONE and "without the library" in text, f"without the library: {status} {text}")
        status, text = script()
        are_found = all(f"process {each.pid} " in text for each in (daemon, without))
        checks.check(status == HAS_NONE and are_found, f"all daemons: {status} {text}")
        shutil.copy(files.library, f"{copy}.new")
        os.replace(f"{copy}.new", copy)
        status, text = script(str(daemon.pid))
        checks.check(status == HAS_NONE and "was replaced or removed" in text, f"a replaced file: {status} {text}")
        if other_user() is not None:
            status, text = script(str(daemon.pid), user="nobody")
            checks.check(status == NOT_RUN and "can't be examined" in text, f"as another user: {status} {text}")
        return daemon.pid


def service_lines(path: str) -> Tuple[str, str]:
    """The lines for a service that the script prints if it has installed this file, and what it says."""
    text = 'say() { echo "$1" >&2; }; . tools/library.bash; . tools/ola.bash; show_ola_use "$1"'
    done = subprocess.run(["bash", "-c", text, "bash", path], cwd=ROOT, stdout=subprocess.PIPE,
                          stderr=subprocess.PIPE, check=False)
    return done.stdout.decode(), done.stderr.decode()


def check_service(checks: Checks, files: Files) -> None:
    """A service starts olad alone with the library, as another user than root, out of a folder of root's."""
    path = f"/usr/lib/{files.library.name}"
    lines, _ = service_lines(path)
    starts = [line for line in lines.splitlines() if line.startswith("ExecStart=/")]
    checks.check(starts == [f"ExecStart=/usr/bin/env LD_PRELOAD={path} /usr/bin/olad $DAEMON_ARGS"], f"it is {starts}")
    preloads = [line for line in lines.splitlines() if "LD_PRELOAD" in line]
    checks.check(preloads == starts and "User=olad" in lines.splitlines(), f"root preloads: {lines}")
    with tempfile.TemporaryDirectory() as folder:
        lines, text = service_lines(f"{folder}/{files.library.name}")
        checks.check(lines == "" and "others than root can write to " in text, f"a folder of others: {lines} {text}")
        if shutil.which("systemd-analyze") is not None:
            check_unit(checks, Path(folder), service_lines(path)[0])


def check_unit(checks: Checks, folder: Path, lines: str) -> None:
    """systemd understands the lines, beside the unit that it generates from Debian's script."""
    unit = folder / "olad.service"
    unit.write_text("[Service]\nType=forking\nRemainAfterExit=yes\nExecStart=/bin/true\nExecReload=/bin/true\n")
    (folder / "olad.service.d").mkdir()
    (folder / "olad.service.d/wurstlinen.conf").write_text(lines)
    done = subprocess.run(["systemd-analyze", "verify", str(unit)], stdout=subprocess.PIPE, stderr=subprocess.STDOUT,
                          check=False)
    checks.check(done.returncode == 0 and b"wurstlinen.conf" not in done.stdout, f"systemd: {done.stdout!r}")


def main(arguments: Sequence[str]) -> int:
    """Runs all."""
    signal.signal(signal.SIGTERM, ended)
    files = Files(*(Path(argument).resolve() for argument in arguments))
    checks = Checks()
    for check in (check_stuck_disk, check_kinds_of_files, check_rotation, check_end, check_background,
                  check_runs, check_version, check_script, check_service):
        check(checks, files)
    print(f"{checks.passed} passed, {checks.failed} failed")
    return 1 if checks.failed else 0


def ended(number: int, frame: object) -> NoReturn:
    """Raises an exception, so that the `with` ends the daemon."""
    sys.exit(TERMINATED)


if __name__ == "__main__":
    sys.exit(main(sys.argv[1:]))
