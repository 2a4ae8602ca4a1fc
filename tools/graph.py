"""Reads crates.txt, which says what each crate depends on, and finds the libraries that are built."""
from pathlib import Path
from typing import Dict, List, Optional

ROOT = Path(__file__).resolve().parent.parent


def read_named() -> Dict[str, List[str]]:
    """For each crate, the libraries that it names in crates.txt, those of the kit too."""
    lines = [line.partition("#")[0].partition(":") for line in (ROOT / "crates.txt").read_text().splitlines()]
    return {head.split()[0]: below.split() for head, _, below in lines if head.strip()}


def read_static() -> List[str]:
    """The crates that are libraries for C."""
    heads = [line.partition(":")[0].split() for line in (ROOT / "crates.txt").read_text().splitlines()]
    return [head[0] for head in heads if head[1:] == ["staticlib"]]


def read_graph() -> Dict[str, List[str]]:
    """The crates of the repository, and for each of them the ones that it names in crates.txt."""
    named = read_named()
    return {crate: [it for it in below if it in named] for crate, below in named.items()}


def all_below(graph: Dict[str, List[str]], crate: str) -> List[str]:
    """All crates that a crate depends on, each after its own."""
    found: List[str] = []
    for below in graph[crate]:
        found += [it for it in [*all_below(graph, below), below] if it not in found]
    return found


class NotBuilt(Exception):
    """Why a crate's library can't be used."""


def built_library(crate: str, begun: Optional[int]) -> Path:
    """The library of a crate that an `rt ci` has built which began then, or, without that, the one of `rt lib`."""
    rlib = ROOT / "crates" / crate / "out/rlib" / f"{crate}.rlib"
    # rt ci puts back what was built before, which may be of another text. Only what rt lib has built has a stamp.
    has_stamp = (rlib.parent / "stamp").exists()
    if begun is None and not (rlib.is_dir() and has_stamp):
        raise NotBuilt(f"{rlib.relative_to(ROOT)} isn't proved and built: call rt lib for {crate}")
    if begun is not None and (has_stamp or not rlib.is_dir() or rlib.stat().st_mtime < begun):
        raise NotBuilt(f"{rlib.relative_to(ROOT)} isn't what rt ci has built")
    return rlib


def rattle_words(kit: Path, crate: str, begun: Optional[int]) -> List[str]:
    """What `rattle` is told of a crate, and of the built libraries below it."""
    built = {it: built_library(it, begun) for it in all_below(read_graph(), crate)}
    is_program = (ROOT / "crates" / crate / "src/main.rt").exists()
    words = ["--crate-name", crate, "src/main.rt" if is_program else "src/lib.rt"]
    for name in ["std", *read_named()[crate]]:
        words += ["--extern", f"{name}={built.get(name, kit / 'rlibs' / f'{name}.rlib')}"]
    for folder in [kit / "rlibs", *(rlib.parent for rlib in built.values())]:
        words += ["-L", f"dependency={folder}"]
    words += ["--crate-type", "staticlib"] if crate in read_static() else []
    words += ["--antt-project", str(kit / "rattle/logic/antt-project.json"), "--logic-built", str(kit / "logic_built")]
    return [*words, "--links", f"{crate}="]
