"""Where the proved program and the C library are, and what is known of this build."""
from __future__ import annotations

import os
import re
from typing import Dict, Optional

PROGRAM_VARIABLE = "WURSTLINEN_PROGRAM"
LIBRARY_VARIABLE = "WURSTLINEN_LIBRARY"
PACKAGE = os.path.dirname(os.path.dirname(os.path.realpath(__file__)))
# The package is in PREFIX/lib/python3/site-packages, or with the program in PREFIX/libexec/wurstlinen/python. Both are
# so deep below PREFIX, and a wheel has the program inside.
PREFIX = os.path.normpath(os.path.join(PACKAGE, "../../../.."))
PROGRAM_BELOW_PREFIX = "libexec/wurstlinen/wurstlinen"
PROGRAM_IN_PACKAGE = "rdm_port"
FOLDER_WITH_PROGRAM = "libexec/wurstlinen/python"
LIBRARY_BELOW_PREFIX = "lib/libwurstlinen.so.0"
UNKNOWN = "unknown"
# The status without the program, as of a shell that doesn't find a command.
NO_PROGRAM = 127


def program() -> Optional[str]:
    """The proved program: where the environment says, or else where it is installed with the package."""
    named = os.environ.get(PROGRAM_VARIABLE)
    places = [named] if named else [os.path.join(PACKAGE, PROGRAM_IN_PACKAGE),
                                    os.path.join(PREFIX, PROGRAM_BELOW_PREFIX)]
    return next((place for place in places if os.path.isfile(place)), None)


def name_library() -> None:
    """Says where the C library is, if the package is beside the program."""
    is_beside = os.path.dirname(PACKAGE) == os.path.join(PREFIX, FOLDER_WITH_PROGRAM)
    if is_beside and not os.environ.get(LIBRARY_VARIABLE):
        os.environ[LIBRARY_VARIABLE] = os.path.join(PREFIX, LIBRARY_BELOW_PREFIX)


def version_line() -> str:
    """The version, the kit that proved the program, what else compiled it, and the commit."""
    facts = proof() or repository()
    kit = facts.get("kit of the program", "").partition(" logic ")[0]
    state = f"proved with {kit}" if kit else "not proved here yet"
    if kit == UNKNOWN:
        state = "it isn't known what built it"
    compiler = facts.get("compiler", "")
    if compiler.startswith("rustc "):
        state = f"text {state}, compiled by {compiler}"
    commit = re.sub(r"^([0-9a-f]{8})[0-9a-f]+", r"\1", facts.get("commit", "unknown"))
    return f"wurstlinen {facts.get('version', 'unknown')} ({state}, commit {commit})"


def proof() -> Dict[str, str]:
    """What an installed package says of itself."""
    import pkgutil
    try:
        text = (pkgutil.get_data("wurstlinen", "PROOF") or b"").decode()
    except OSError:
        return {}
    return dict(re.findall(r"^([a-zA-Z ]+): (.*)$", text.partition("\n\n")[0], re.M))


def repository() -> Dict[str, str]:
    """The same of a repository that the package is in; what isn't there isn't known."""
    root = os.path.dirname(os.path.dirname(os.path.dirname(PACKAGE)))
    found = {"version": _text(f"{root}/VERSION"), "kit of the program": _text(f"{root}/out/wurstlinen.kit")}
    if found["version"]:
        found["commit"] = _commit(root)
    return {key: value for key, value in found.items() if value}


def _text(path: str) -> str:
    try:
        with open(path, encoding="utf-8") as file:
            return file.read().strip()
    except OSError:
        return ""


def _commit(root: str) -> str:
    import subprocess
    command = ["git", "-C", root, "rev-parse", "HEAD"]
    try:
        done = subprocess.run(command, check=False, stdout=subprocess.PIPE, stderr=subprocess.DEVNULL, text=True)
    except OSError:
        return ""
    return done.stdout.strip()
