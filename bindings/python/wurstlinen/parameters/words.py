"""Numbers and names as people type them."""
from __future__ import annotations

import re
from typing import Iterable

# Patterns, which are compiled when they are first used.
DECIMAL = r"-?(0|[1-9][0-9]*)"
HEXADECIMAL = r"0[xX][0-9a-fA-F]+"
BARE_DECIMAL = r"[0-9]+"
BARE_HEXADECIMAL = r"[0-9a-fA-F]+"
# No number of a parameter is as long, and Python refuses to read very long ones.
MOST_DIGITS = 40


class WordFault(ValueError):
    """Why a word isn't accepted."""


def whole(word: str) -> int:
    """The number that a word spells: a decimal one, or a hexadecimal one after 0x."""
    if len(word) > MOST_DIGITS:
        raise WordFault(f"'{word[:MOST_DIGITS]}..' is too long for a number")
    if re.fullmatch(DECIMAL, word):
        return int(word)
    if re.fullmatch(HEXADECIMAL, word):
        return int(word, 16)
    if re.fullmatch(BARE_DECIMAL, word) and int(word) == int(word, 16):
        raise WordFault(f"'{word}' has a leading zero: write {int(word)}")
    if re.fullmatch(BARE_DECIMAL, word):
        raise WordFault(f"'{word}' can be read in two ways: write {int(word)} for the decimal number, "
                        f"or 0x{word} for the hexadecimal one, which is {int(word, 16)}")
    if re.fullmatch(BARE_HEXADECIMAL, word):
        raise WordFault(f"'{word}' isn't a decimal number; as a hexadecimal one it is written 0x{word}, "
                        f"and is {int(word, 16)}")
    raise WordFault(f"'{word}' isn't a number")


def is_name(word: str) -> bool:
    """Whether a word is a name rather than a number."""
    return bool(word) and not word[0].isdigit() and word[0] != "-"


def is_only_a_name(word: str) -> bool:
    """Whether a word is a name, and can't be meant as a number in hexadecimal."""
    return is_name(word) and not re.fullmatch(BARE_HEXADECIMAL, word)


def name_of(word: str) -> str:
    """A name as the tables have it: in lower case, with underscores."""
    return word.strip().lower().replace("-", "_").replace(" ", "_")


def hint(word: str, known: Iterable[str]) -> str:
    """What may have been meant, as the end of a message; nothing if no name is similar."""
    # Most commands need no hint.
    import difflib
    similar = difflib.get_close_matches(name_of(word), list(known), n=1)
    return f"; did you mean {similar[0]}?" if similar else ""
