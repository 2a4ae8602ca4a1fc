"""Where the library can't do OLA's work, OLA does it: in another version, and if a function isn't there.

usage: test_own.py LIBRARY PRELOAD NO_SYMBOL OWN OTHER PLUGIN
  LIBRARY    libwurstlinen-ola.so
  PRELOAD    what daemon_preload.c makes
  NO_SYMBOL  what no_symbol.c makes
  OWN        the program whose tests only OLA's own class passes
  OTHER      the program over a stand-in for another OLA
  PLUGIN     the stand-in for that one's plugin

The last line is 'N passed, M failed'.
"""
from __future__ import annotations

import os
import subprocess
import sys
from pathlib import Path
from typing import Dict, List, NamedTuple, Sequence, Tuple

from checks import Checks

QUEUE, DISCOVERABLE = "_ZN3ola3rdm21QueueingRDMController", "_ZN3ola3rdm33DiscoverableQueueingRDMController"
DISCOVERY = "EPNS_13BaseCallback1IvRKNS0_6UIDSetEEE"
# OLA's functions that the library replaces, and the library of the plugin that has the last four.
SYMBOLS = [f"{QUEUE}C1EPNS0_22RDMControllerInterfaceEj", f"{QUEUE}D1Ev", f"{QUEUE}5PauseEv", f"{QUEUE}6ResumeEv",
           f"{QUEUE}14SendRDMRequestEPNS0_10RDMRequestEPNS_13BaseCallback1IvPNS0_8RDMReplyEEE",
           f"{DISCOVERABLE}C1EPNS0_34DiscoverableRDMControllerInterfaceEj",
           f"{DISCOVERABLE}16RunFullDiscovery{DISCOVERY}", f"{DISCOVERABLE}23RunIncrementalDiscovery{DISCOVERY}",
           "_ZN3ola3rdm14DiscoveryAgent5AbortEv"]
STOPS = [f"_ZN3ola6plugin6usbpro{name}4StopEv"
         for name in ("17ArduinoWidgetImpl", "16DmxterWidgetImpl", "16DmxTriWidgetImpl", "14RobeWidgetImpl")]
PLUGIN = "libolausbpro.so.0"
OWN_IS_USED = ": OLA's own controllers are used. Build it again for this OLA"


class Files(NamedTuple):
    """The shared objects and programs."""

    library: Path
    preload: Path
    no_symbol: Path
    own: Path
    other: Path
    plugin: Path


def run(command: Sequence[Path], preloads: Sequence[object], **settings: str) -> Tuple[bool, List[str]]:
    """Whether all tests of a program pass with these preloaded, and the library's messages."""
    environment: Dict[str, str] = {**os.environ, **settings, "LD_PRELOAD": ":".join(map(str, preloads))}
    done = subprocess.run(list(map(str, command)), env=environment, stdout=subprocess.PIPE, stderr=subprocess.PIPE,
                          check=False, text=True)
    return done.returncode == 0, [line for line in done.stderr.splitlines() if "wurstlinen: " in line]


def check_handed_on(checks: Checks, files: Files) -> None:
    """OLA's class does all the work, and one warning says why."""
    passes, told = run([files.own], [files.preload, files.library], TEST_REVISION="99")
    checks.check(passes and len(told) == 1, f"another version: {told}")
    checks.check("but this is OLA 0.10.99" + OWN_IS_USED in "".join(told), f"another version: {told}")
    for symbol in SYMBOLS + STOPS:
        plugin = [PLUGIN] if symbol in STOPS else []
        passes, told = run([files.own], [files.library, files.no_symbol, *plugin], TEST_NO_SYMBOL=symbol)
        checks.check(passes and len(told) == 1, f"without {symbol}: {told}")
        checks.check(f"but OLA has no {symbol}{OWN_IS_USED}" in "".join(told), f"without {symbol}: {told}")


def check_replaced(checks: Checks, files: Files) -> None:
    """With its own OLA it does the work, which its class's tests show, and nothing is wrong."""
    for plugin in ([], [PLUGIN]):
        passes, told = run([files.own], [files.library, files.no_symbol, *plugin])
        is_used = any(OWN_IS_USED in line for line in told)
        checks.check(not passes and not is_used, f"nothing is absent: {passes} {told}")


def main() -> int:
    """Runs all tests."""
    checks = Checks()
    files = Files(*map(Path, sys.argv[1:7]))
    check_handed_on(checks, files)
    check_replaced(checks, files)
    for preloads in ([files.library], []):
        passes, _ = run([files.other, files.plugin], preloads)
        checks.check(passes, f"another OLA, with {preloads}")
    print(f"{checks.passed} passed, {checks.failed} failed")
    return 1 if checks.failed else 0


if __name__ == "__main__":
    sys.exit(main())
