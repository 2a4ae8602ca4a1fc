"""Which words of a text in Rust aren't those of the text in Rattle that it was made of.

Both texts are compared by diff, so this doesn't depend on what the tool says of itself. The names of crates are
compared as they are in Rattle. The line that each file begins with, which imports the names of Rattle's std, doesn't
count.
"""
from __future__ import annotations

import subprocess
import tempfile
from pathlib import Path
from typing import List, Mapping, Sequence

from rust_text import PASSED_OVER, tokens_of

PRELUDE = "#[allow(unused_imports)] use {}::prelude::*;"


def words_of(text: str) -> List[str]:
    """The tokens of a text without spaces and comments."""
    return [word for kind, word in tokens_of(text) if kind not in PASSED_OVER]


def as_in_rattle(text: str, paths: Mapping[str, str]) -> List[str]:
    """The words of a text in Rust, with crates named as in Rattle."""
    parts = [(words_of(path) + ["::"], [name, "::"]) for name, path in paths.items()]
    parts.append((words_of(PRELUDE.format(paths["std"])), []))
    parts.sort(key=lambda it: -len(it[0]))
    words, found, at = words_of(text), [], 0  # type: List[str], List[str], int
    while at < len(words):
        is_start = not found or found[-1] != "::"
        part, instead = next(
            (it for it in parts if is_start and words[at] == it[0][0] and words[at:at + len(it[0])] == it[0]),
            (words[at:at + 1], words[at:at + 1]))
        found += instead
        at += len(part)
    return found


def added(old: Sequence[str], new: Sequence[str]) -> List[str]:
    """The words of `new` that aren't those of `old`, in their order."""
    with tempfile.TemporaryDirectory(prefix="only_deletes.") as name:
        for file, words in (("old", old), ("new", new)):
            (Path(name) / file).write_text("".join(f"{word!r}\n" for word in words), encoding="utf-8")
        command = ["diff", "--minimal", "old", "new"]
        run = subprocess.run(command, cwd=name, check=False, capture_output=True, text=True)
    return [line[2:] for line in run.stdout.splitlines() if line.startswith(">")]


def words_added(old: str, new: str, paths: Mapping[str, str], crate: str) -> List[str]:
    """The words of a file of a crate in Rust, `new`, that its text in Rattle hasn't."""
    others = {name: path for name, path in paths.items() if name != crate}
    return added(words_of(old), as_in_rattle(new, others))
