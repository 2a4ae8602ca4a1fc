"""The crates of this repository, which are in Rattle, as a cargo workspace of plain Rust.

What is written by hand is in bindings/rust. Each crate in Rattle becomes a module of a package there.
"""
from __future__ import annotations

import os
import re
import shutil
import subprocess
import tempfile
from pathlib import Path
from typing import Dict, Iterator, NamedTuple, Tuple

from rust_text import Fault, plain_rust

ROOT = Path(__file__).resolve().parent.parent
BY_HAND = ROOT / "bindings/rust"
EDITION = "2024"
MARK = "# Made by tools/plain_rust"
# How the folder begins in which a call writes before it replaces anything. What is killed leaves it behind.
STAGING = ".plain_rust."


class Place(NamedTuple):
    """Where a crate in Rattle goes: a folder of the workspace, the name of its crate in Rust, and a module there. An
    empty module is the root of a program."""
    package: str
    crate: str
    module: str


# The packages: the folder, the name of the crate in Rust, the crates in Rattle that become modules with the same name
# without its beginning, and those that get another one.
PACKAGES = (
    ("wurstlinen", "wurstlinen", "rdm_",
     "agent client explain join lanes ledger line locked log past queue scenes wire", {"rdm": "facade"}),
    ("program", "wurstlinen_program", "rdm_", "arguments files findings port reports serving", {}),
    ("c", "wurstlinen_c", "rdm_", "handles", {"rdm_c": "calls"}),
    ("tests", "wurstlinen_tests", "test_", "memory port rig stage threads trials", {"test_core": "core_tests"}),
    ("program", "wurstlinen_main", "", "", {"wurstlinen": ""}),
    ("bench", "rdm_bench", "", "", {"rdm_bench": ""}),
    ("wurstlinen", "two_clients", "", "", {"rdm_example": ""}),
)
PLACES: Dict[str, Place] = {
    name: Place(package, crate, module)
    for package, crate, begin, modules, others in PACKAGES
    for name, module in [*((f"{begin}{it}", it) for it in modules.split()), *others.items()]
}
# The roots of programs.
ROOTS = {
    "wurstlinen": "src/main/main.rs",
    "rdm_bench": "src/main.rs",
    "rdm_example": "examples/two_clients/main.rs",
}
# The facade's names are those of the library, and crates of the kit have a module instead of the ecosystem's crate.
MODULES = {
    "rdm": "wurstlinen",
    "std": "wurstlinen::rattle",
    "hex": "wurstlinen::rattle::hex",
    "rtrb": "wurstlinen::stand_ins::rtrb",
    "left_right": "wurstlinen::stand_ins::left_right",
    "logbook": "wurstlinen::stand_ins::logbook",
    "clap": "wurstlinen_program::clap",
    "serde_json": "wurstlinen_program::json",
}


def paths_in(crate: str) -> Dict[str, str]:
    """By which path the text of a crate names each crate."""
    here = PLACES[crate]
    paths = {name: f"{it.crate}::{it.module}".removesuffix("::") for name, it in PLACES.items()}
    paths = {name: path for name, path in {**paths, **MODULES}.items() if name != "wurstlinen"}
    paths = {name: re.sub(rf"^{here.crate}\b", "crate", path) for name, path in paths.items()}
    return {**paths, "crate": f"crate::{here.module}".removesuffix("::")}


def files_of(crate: str) -> Iterator[Tuple[Path, Path]]:
    """Each file of a crate in Rattle, with its file in the workspace."""
    source, place = ROOT / "crates" / crate / "src", PLACES[crate]
    root = Path(place.package) / ROOTS.get(crate, f"src/{place.module}/mod.rs")
    for path in sorted(source.rglob("*.rt")):
        is_root = path.parent == source and path.stem in ("lib", "main")
        yield path, root if is_root else root.parent / path.relative_to(source).with_suffix(".rs")


def text_of(crate: str, path: Path) -> str:
    """The text of a file of a crate in Rust."""
    paths = paths_in(crate)
    try:
        return plain_rust(path.read_text(encoding="utf-8"), paths)
    except Fault as fault:
        raise SystemExit(f"plain_rust: {path.relative_to(ROOT)}: {fault}") from None


def by_hand() -> Dict[Path, str]:
    """The files that are written by hand."""
    files = (path for path in sorted(BY_HAND.rglob("*")) if path.is_file() and path.suffix in (".rs", ".toml"))
    found = {path.relative_to(BY_HAND): path.read_text(encoding="utf-8") for path in files}
    version = (ROOT / "VERSION").read_text(encoding="utf-8").strip()
    found[Path("Cargo.toml")] = found[Path("Cargo.toml")].replace('"VERSION"', f'"{version}"')
    return found


def staged(files: Dict[Path, str], folder: Path) -> None:
    """Writes files into an empty folder, and formats them if there is rustfmt."""
    for path, text in files.items():
        (folder / path).parent.mkdir(parents=True, exist_ok=True)
        (folder / path).write_text(text, encoding="utf-8")
    roots = [str(folder / path) for path in files if path.name in ("lib.rs", "main.rs") and "src" in path.parts]
    if shutil.which("rustfmt"):
        subprocess.run(["rustfmt", "--edition", EDITION, *roots], check=False, stderr=subprocess.DEVNULL)


def is_ours(folder: Path) -> bool:
    """Whether a folder is empty, or has what an earlier call has written."""
    try:
        others = [path for path in folder.iterdir() if not path.name.startswith(STAGING)]
        return not others or (folder / "Cargo.toml").read_text(encoding="utf-8").startswith(MARK)
    except FileNotFoundError:
        return not folder.exists()


def replace(staging: Path, folder: Path) -> None:
    """Moves each file that differs into its place, and removes sources that are no longer made."""
    made = {path.relative_to(staging) for path in staging.rglob("*") if path.is_file()}
    for path in sorted(made):
        to = folder / path
        if not to.is_file() or to.read_bytes() != (staging / path).read_bytes():
            to.parent.mkdir(parents=True, exist_ok=True)
            os.replace(staging / path, to)
    for package in {path.parts[0] for path in made if len(path.parts) > 1}:
        for old in (folder / package).rglob("*.rs"):
            if old.relative_to(folder) not in made:
                old.unlink()


def write(folder: Path) -> None:
    """Writes the whole workspace."""
    if not is_ours(folder):
        raise SystemExit(f"plain_rust: {folder} has other files: name an empty folder")
    files = {to: text_of(crate, path) for crate in PLACES for path, to in files_of(crate)}
    files.update(by_hand())
    folder.mkdir(parents=True, exist_ok=True)
    staging = Path(tempfile.mkdtemp(prefix=STAGING, dir=folder))
    try:
        try:
            staged(files, staging)
            replace(staging, folder)
        finally:
            shutil.rmtree(staging, ignore_errors=True)
    finally:
        # If a signal came meanwhile.
        shutil.rmtree(staging, ignore_errors=True)
