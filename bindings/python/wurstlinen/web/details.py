"""All that a fixture supports, as `show` has it, with what can be set, in which ranges."""
from __future__ import annotations

from functools import partial
from typing import Any, Dict, Sequence

from .. import Uid
from ..front.naming import pid_of, raw_parameter
from ..front.pids import field_keys
from ..front.requests import change
from ..front.showing import CHOICES, Shown
from ..front.work import Work
from ..parameters.words import name_of
from .hands import Board
from .rig import Rig

# A board has no more of them.
MOST_SHOWN = 16
# These have a place of their own on the page.
ELSEWHERE = ("device_label", "dmx_start_address", "dmx_personality", "identify_device")


def forms_of(shown: Shown) -> Dict[str, Dict[str, Any]]:
    """How what a device supports is set, by the titles of its rows: the fields, with what they have now."""
    forms = {}
    for title, each in shown.parameters.items():
        if each.set is not None and each != raw_parameter(each.number) and each.name not in ELSEWHERE:
            fields, values = each.set.request, shown.values.get(title, {})
            # The number of a list's entry that is in use has another name where it is set.
            now = next(iter(values.values()), None) if each.number in CHOICES else None
            forms[title] = {"parameter": each.name, "about": each.about,
                            "fields": [field_keys(field, values.get(field.name, now)) for field in fields],
                            # What can only be set does something.
                            "acts": each.get is None or not fields}
    return forms


class Details:
    """What pages show of single fixtures."""

    def __init__(self, board: Board, rig: Rig) -> None:
        self._board = board
        self._rig = rig
        # What was shown last: sections with their rows, and forms.
        self._shown: Dict[Uid, Dict[str, Dict[str, Any]]] = {}

    def read(self, uid: Uid) -> None:
        """Has a fixture asked for all that it supports. Raises Failure."""
        self._rig.entry(uid)
        before = self._shown[uid] = self._shown.pop(uid, {"sections": {}, "forms": {}})
        for each in list(self._shown)[:-MOST_SHOWN]:
            self._shown.pop(each, None)
            self._board.put(f"details/{each}", None)
        self._rig.hands.do(str(uid), partial(self._read, uid, before)).result()

    def _read(self, uid: Uid, before: Dict[str, Dict[str, Any]], work: Work) -> None:
        """Shows each section as soon as it is there. Those of before stay until then."""
        shown, keys = Shown(work, uid), before
        now: Dict[str, Dict[str, Any]] = {"sections": {}, "forms": {}}
        try:
            for name, rows in shown.sections():
                now = {"sections": {**now["sections"], name: rows}, "forms": forms_of(shown)}
                keys = {key: {**before[key], **now[key]} for key in now}
                self._board.put(f"details/{uid}", {**keys, "is_over": False})
            keys = now
        finally:
            self._shown[uid] = keys
            self._board.put(f"details/{uid}", {**keys, "is_over": True})

    def set(self, uid: Uid, parameter: str, words: Sequence[str]) -> None:
        """Sets a parameter, and reads the fixture again. Raises Failure."""
        entry, pid = self._rig.entry(uid), pid_of(uid.manufacturer, name_of(parameter))
        self._rig.hands.do(str(uid), lambda work: change(work, uid, pid, words)).result()
        self._rig.read(entry.device, is_urgent=True)
        self.read(uid)
