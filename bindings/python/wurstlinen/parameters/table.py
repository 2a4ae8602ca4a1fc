"""Looks parameters up by their names and numbers."""
from __future__ import annotations

from typing import Dict, Iterable, Mapping, Optional, Tuple

from . import e1_20, e1_37_1, e1_37_2
from .fields import Parameter
from .words import WordFault, hint, is_only_a_name, name_of, whole

STANDARDS: Mapping[str, Tuple[Parameter, ...]] = {
    "E1.20": e1_20.PARAMETERS,
    "E1.37-1": e1_37_1.PARAMETERS,
    "E1.37-2": e1_37_2.PARAMETERS,
}
MOST_PID = 0xFFFF
# Standards whose parameters aren't known here, with the first and the last number that they use.
OTHERS: Mapping[str, Tuple[int, int]] = {"E1.33": (0x0800, 0x08FF), "E1.37-7": (0x0900, 0x09FF)}


class Table:
    """Parameters. The first one of a name or a number counts."""

    def __init__(self, parameters: Iterable[Parameter]) -> None:
        self.parameters = tuple(parameters)
        self._by_name: Dict[str, Parameter] = {each.name: each for each in reversed(self.parameters)}
        self._by_number: Dict[int, Parameter] = {each.number: each for each in reversed(self.parameters)}

    def with_more(self, parameters: Iterable[Parameter]) -> Table:
        """A table that has these parameters too."""
        return Table((*self.parameters, *parameters))

    def numbered(self, number: int) -> Optional[Parameter]:
        """The parameter of this number; None if it isn't known."""
        return self._by_number.get(number)

    def named(self, word: str) -> Parameter:
        """The parameter of this name. Raises WordFault, which says what may have been meant."""
        found = self._by_name.get(name_of(word))
        if found is None:
            raise WordFault(f"there is no parameter '{word}'{hint(word, self._by_name)}")
        return found

    def pid(self, word: str) -> int:
        """The number of a parameter, by its name, or as a decimal or hexadecimal number. Raises WordFault."""
        if name_of(word) in self._by_name:
            return self.named(word).number
        if is_only_a_name(word):
            return self.named(word).number
        number = whole(word)
        if not 0 <= number <= MOST_PID:
            raise WordFault(f"the number of a parameter is from 0 to {MOST_PID}, not {word}")
        return number

    def name(self, number: int) -> str:
        """The name of a parameter, or else its number in hexadecimal."""
        found = self._by_number.get(number)
        return f"0x{number:04x}" if found is None else found.name


STANDARD = Table(parameter for parameters in STANDARDS.values() for parameter in parameters)


def standard_of(number: int) -> Optional[str]:
    """The standard that defines a parameter; None if it is none of these."""
    for standard, parameters in STANDARDS.items():
        if any(parameter.number == number for parameter in parameters):
            return standard
    return next((standard for standard, (first, last) in OTHERS.items() if first <= number <= last), None)
