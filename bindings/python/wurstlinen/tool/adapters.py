"""The USB adapters that are plugged in, what olad has, and the line that is used if none is named.

Only serial chips of the kind that these adapters have are opened, and only if no lock holds them.
"""
from __future__ import annotations

import argparse
import contextlib
import grp
import os
from dataclasses import dataclass
from pathlib import Path
from typing import TYPE_CHECKING, List, Optional, Sequence, Tuple, Union

from ..front.output import BAD_ARGUMENTS, DONE, FAILED, LINE_VARIABLE, Failure, Output
from ..line import LineFailed
from ..lines.enttec import DMXKING, EnttecPro
from ..lines.locks import Folder, holder_of
from ..lines.terminal import LOCK_FOLDER
from ..shared import place

if TYPE_CHECKING:
    from ..olad.rpc import Daemon, Port

SYS = Path("/sys")
DEV = Path("/dev")
# FTDI's chip in a USB Pro, and in DMXking's adapters with the same messages.
CHIP = ("0403", "6001")
# What OLA's daemon calls itself.
OLAD = "olad"


@dataclass(frozen=True)
class Adapter:
    """An adapter, or what is missing. What isn't known is None."""

    device: Path
    serial: Optional[int] = None
    maker: str = ""
    firmware: Optional[Tuple[int, int]] = None
    fault: Optional[str] = None
    # The server that shares it, with how many programs.
    shared: Optional[str] = None

    @property
    def line(self) -> str:
        """How --line names it."""
        return f"enttec:{self.device}"

    @property
    def text(self) -> str:
        """What is known of it."""
        if self.fault is not None or self.shared is not None:
            return self.fault or self.shared or ""
        version = "" if self.firmware is None else ", firmware {}.{}".format(*self.firmware)
        return f"{self.maker}, serial {self.serial_text}{version}, RDM"

    @property
    def serial_text(self) -> Optional[str]:
        """The serial number as it is printed on adapters."""
        return None if self.serial is None else f"{self.serial:08x}"


@dataclass(frozen=True)
class Universe:
    """A port of olad's with RDM, as an adapter."""

    line: str
    text: str
    fault: Optional[str] = None
    serial_text: Optional[str] = None
    firmware: Optional[Tuple[int, int]] = None


def universes(port: Optional[int] = None) -> List[Universe]:
    """What olad has, if it runs here."""
    # A command that only wants to know the line doesn't load it.
    from ..olad.rpc import PORT, Daemon
    try:
        with contextlib.closing(Daemon(port or PORT)) as daemon:
            return [universe_at(daemon, found, "" if port is None else f":{port}") for found in daemon.ports()]
    except LineFailed:
        return []


def universe_at(daemon: Daemon, found: Port, suffix: str) -> Universe:
    """A port of olad's. Without a universe it can't be used."""
    name = f"{found.device}, {found.text}" if found.text else found.device
    if found.universe is None:
        fault = f"{name}: olad has it without a universe, which ola_patch gives it"
        return Universe("ola:", fault, fault)
    count = len(daemon.uids(found.universe))
    devices = "1 device" if count == 1 else f"{count} devices"
    return Universe(f"ola:{found.universe}{suffix}", f"{name}, {devices}")


def chips(sys: Path = SYS, dev: Path = DEV) -> List[Path]:
    """The serial devices that may be adapters."""
    found = []
    for entry in sorted((sys / "class/tty").glob("*")):
        folder = usb_folder((entry / "device").resolve(), sys.resolve())
        if folder is not None and (word(folder / "idVendor"), word(folder / "idProduct")) == CHIP:
            found.append(dev / entry.name)
    return found


def usb_folder(device: Path, top: Path) -> Optional[Path]:
    """The folder of the USB device that a serial device belongs to, if it belongs to one."""
    above = [folder for folder in (device, *device.parents) if top in folder.parents]
    return next((folder for folder in above if (folder / "idVendor").is_file()), None)


def word(path: Path) -> str:
    """The word in a file; none if it can't be read."""
    try:
        return path.read_text(encoding="utf-8", errors="replace").strip()
    except OSError:
        return ""


def look_at(device: Path, lock_folder: Folder = LOCK_FOLDER) -> Adapter:
    """Asks a chip which adapter it is in."""
    try:
        shared = sharing(Adapter(device).line)
        if shared is not None:
            return Adapter(device, shared=f"{shared}; its firmware can't be asked meanwhile")
        if not os.access(device, os.R_OK | os.W_OK):
            return Adapter(device, fault=no_permission(device))
        with EnttecPro(str(device), lock_folder) as line:
            maker = "DMXking" if (line.source or 0) >> 32 == DMXKING else "Enttec USB Pro"
            return Adapter(device, line.serial, maker, line.firmware)
    except LineFailed as fault:
        return Adapter(device, fault=str(fault))


def sharing(line: str) -> Optional[str]:
    """Which server shares a line, with how many other programs, and what it knows of it. Raises LineFailed."""
    if not place.may_be_served(line):
        return None
    # A command that only wants to know the line doesn't load it.
    from ..shared.connection import Connection, NotServed
    try:
        with contextlib.closing(Connection(line)) as connection:
            hello = connection.hello
            run, found = connection.ask({"do": "devices"}, lambda keys: (keys["run"], len(keys["devices"])))
    except NotServed:
        return None
    # This program is one of them.
    count = hello["clients"] - 1
    return "; ".join(filter(None, (
        f"shared by process {hello['process']}, {count} program{'' if count == 1 else 's'}",
        "" if hello["there"] else hello["reason"],
        "a program has paused it" if hello["paused"] else "",
        f"{found} device{'' if found == 1 else 's'} found" if run else "no discovery so far",
        f"it sends as {hello['source']}")))


def no_permission(device: Path) -> str:
    """What is missing, if a device can't be opened."""
    try:
        name = grp.getgrgid(device.stat().st_gid).gr_name
    except OSError as fault:
        return str(fault.strerror)
    except KeyError:
        name = "of the device"
    return f"no permission: add yourself to the group {name}, and log in again"


def run_adapters(chosen: argparse.Namespace, output: Output) -> int:
    """Prints what is plugged in."""
    return show([*map(look_at, chips()), *universes()], output)


def show(found: Sequence[Union[Adapter, Universe]], output: Output) -> int:
    """Prints these adapters. The status is 0 if one can be used."""
    for each in found:
        output.result([f"{each.line}  {each.text}"], line=each.line, serial=each.serial_text, firmware=each.firmware,
                      fault=each.fault)
    if not found:
        output.failure(Failure(FAILED, "no adapter is plugged in", reason="adapter"))
    return DONE if any(each.fault is None for each in found) else FAILED


def choose(devices: List[Path]) -> str:
    """The line on the only adapter. Raises Failure if there is none, or more than one."""
    lines = [Adapter(device).line for device in devices]
    if not lines:
        raise Failure(BAD_ARGUMENTS, f"no adapter is plugged in; --line LINE or {LINE_VARIABLE} names another line",
                      reason="line")
    if len(lines) > 1:
        raise Failure(BAD_ARGUMENTS, f"which adapter? --line LINE or {LINE_VARIABLE} says it: {', '.join(lines)}",
                      reason="line")
    return line_of_olad(devices[0]) or lines[0]


def line_of_olad(device: Path, lock_folder: Folder = LOCK_FOLDER) -> Optional[str]:
    """The only universe of olad, if that has this device."""
    if holder_of(os.path.join(lock_folder, f"LCK..{device.resolve().name}")) != OLAD:
        return None
    lines = [each.line for each in universes() if each.fault is None]
    return lines[0] if len(lines) == 1 else None
