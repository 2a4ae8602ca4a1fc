"""Reads a rig's file: a scene of docs/FORMATS.md, in which the scene and each device may have an object `rig`."""
from __future__ import annotations

import json
from dataclasses import dataclass, field
from enum import Enum
from pathlib import Path
from typing import Any, FrozenSet, Optional, Tuple, Union

from .keys import Keys, SceneFault, any_uid, byte_text, device_uid, digits, list_of, one_of, share, text, whole
from .numbers import DMX_SLOTS, MOST_DATA_BYTES, MOST_LABEL_BYTES
from .packets import MOST_PREAMBLE_BYTES

MOST_FILE_BYTES = 1_048_576
MOST_DIGITS = len(str(2 ** 64))
MOST_DEVICES = 1024
MOST_EXCHANGE = 1_000_000_000
LAST_EXCHANGE = 2 ** 64 - 1
MOST_PARTS = 512
MOST_COLLISION_BYTES = 257
MOST_PERSONALITIES = 255
MOST_SENSORS = 255
MOST_TENTHS = 0xFFFF

LEAST_NUMBER = -0x8000
MOST_NUMBER = 0x7FFF


class Collide(Enum):
    """What the wire carries when several devices answer a branch, if `collisions` doesn't say."""

    OR = "or"
    GARBLED = "garbled"


class Lie(Enum):
    """How a fixture breaks the rules of discovery."""

    # It acknowledges a mute, but still answers branches.
    STAYS_UNMUTED = "stays unmuted"
    # It neither acknowledges a mute nor obeys it.
    IGNORES_MUTES = "ignores mutes"
    # It answers no branch.
    HIDES = "hides"
    # It answers each branch while it is unmuted, whatever the range.
    ANSWERS_ALL = "answers all"
    # It answers only every second branch whose range has its UID.
    EVERY_OTHER = "every other"
    # Its reply to a branch has extra bytes at the end, or is cut off, or has a wrong checksum.
    ADDS_BYTES = "adds bytes"
    CUTS_SHORT = "cuts short"
    WRONG_SUM = "wrong sum"
    # It obeys only the third unmute in a row.
    UNMUTES_LATE = "unmutes late"


@dataclass(frozen=True)
class Personality:
    """E1.20, DMX personality: how many slots it takes, and its name."""

    footprint: int
    name: str = ""


@dataclass(frozen=True)
class Sensor:
    """E1.20, sensor definition, and the value that it measures."""

    name: str = ""
    kind: int = 0
    unit: int = 0
    prefix: int = 0
    limits: Tuple[int, int] = (LEAST_NUMBER, MOST_NUMBER)
    normal: Tuple[int, int] = (LEAST_NUMBER, MOST_NUMBER)
    value: int = 0


@dataclass(frozen=True)
class FixtureKeys:
    """The object `rig` of a device."""

    manufacturer: str = "Wurstlinen"
    model: str = "Simulated fixture"
    model_id: int = 1
    category: int = 0x0101
    software: str = "1.0"
    software_id: int = 1
    label: str = ""
    address: int = 1
    personality: int = 1
    personalities: Tuple[Personality, ...] = (Personality(1, "Dimmer"),)
    sensors: Tuple[Sensor, ...] = ()
    # The most bytes of data in one response; longer answers come in parts.
    part: int = MOST_DATA_BYTES
    # If it isn't None: requests are answered by ACK_TIMER with this many tenths of a second.
    timer: Optional[int] = None
    # If it isn't None: requests are refused for this reason.
    nack: Optional[int] = None
    lies: FrozenSet[Lie] = frozenset()
    # The UID that its replies to branches spell, if it isn't its own.
    spells: Optional[int] = None


@dataclass(frozen=True)
class DeviceKeys:
    """A device of a scene."""

    uid: int
    preamble: int = MOST_PREAMBLE_BYTES
    params: Tuple[Tuple[int, Tuple[bytes, ...]], ...] = ()
    control: int = 0
    binding: Optional[int] = None
    arrives: int = 0
    leaves: Optional[int] = None
    fixture: FixtureKeys = FixtureKeys()


@dataclass(frozen=True)
class RigKeys:
    """The object `rig` of a scene."""

    seed: int = 0
    # The share of replies that is lost, and the most consecutive ones.
    loss: float = 0.0
    most_losses: int = 4
    collide: Collide = Collide.OR


@dataclass(frozen=True)
class Scene:
    """A rig's file. A collision is a UID, bytes, or None for the OR of the replies."""

    source: int
    devices: Tuple[DeviceKeys, ...] = ()
    collisions: Tuple[Union[int, bytes, None], ...] = ()
    losses: FrozenSet[int] = frozenset()
    fails: FrozenSet[int] = frozenset()
    rig: RigKeys = field(default_factory=RigKeys)


def read_scene(path: Union[str, Path]) -> Scene:
    """The scene in a file; `SceneFault` if it has none, `OSError` if it can't be read."""
    with open(path, "rb") as file:
        data = file.read(MOST_FILE_BYTES + 1)
    if len(data) > MOST_FILE_BYTES:
        raise SceneFault(f"the file has more than {MOST_FILE_BYTES} bytes")
    try:
        value = json.loads(data.decode("utf-8"), parse_int=_number)
    except (ValueError, RecursionError) as error:
        raise SceneFault(f"the file isn't JSON: {error}") from error
    return parse_scene(value)


def _number(digits_of: str) -> Union[int, float]:
    """A whole number. One that is too long for any key becomes a float, which its key then refuses."""
    return int(digits_of) if len(digits_of) <= MOST_DIGITS else float(digits_of)


def parse_scene(value: Any) -> Scene:
    """The scene that a JSON value is."""
    keys = Keys(value)
    uids = set()
    devices = keys.optional("devices", list_of(_device, 0, MOST_DEVICES), ())
    for index, device in enumerate(devices):
        if device.uid in uids:
            raise SceneFault("there is a device with this UID already", f"devices[{index}].uid")
        uids.add(device.uid)
    numbers = list_of(whole(0, LAST_EXCHANGE), 0, None)
    return Scene(
        source=keys.required("source", device_uid),
        devices=devices,
        collisions=keys.optional("collisions", list_of(_collision, 0, None), ()),
        losses=frozenset(keys.optional("losses", numbers, ())),
        fails=frozenset(keys.optional("fails", numbers, ())),
        rig=keys.optional("rig", _rig, RigKeys()),
    )


def _collision(value: Any) -> Union[int, bytes, None]:
    if value == "or":
        return None
    keys = Keys(value)
    uid = keys.optional("uid", any_uid, None)
    data = keys.optional("bytes", byte_text(1, MOST_COLLISION_BYTES), None)
    if (uid is None) == (data is None):
        raise SceneFault("one of 'uid' and 'bytes' is expected")
    return uid if uid is not None else data


def _param(value: Any) -> Tuple[int, Tuple[bytes, ...]]:
    keys = Keys(value)
    parts = list_of(byte_text(0, MOST_DATA_BYTES), 1, MOST_PARTS)
    return keys.required("pid", digits(4)), keys.required("parts", parts)


def _device(value: Any) -> DeviceKeys:
    keys = Keys(value)
    device = DeviceKeys(
        uid=keys.required("uid", device_uid),
        preamble=keys.optional("preamble", whole(0, MOST_PREAMBLE_BYTES), MOST_PREAMBLE_BYTES),
        params=keys.optional("params", list_of(_param, 0, None), ()),
        control=keys.optional("control", digits(4), 0),
        binding=keys.optional("binding", device_uid, None),
        arrives=keys.optional("from", whole(0, MOST_EXCHANGE), 0),
        leaves=keys.optional("until", whole(1, MOST_EXCHANGE), None),
        fixture=keys.optional("rig", _fixture, FixtureKeys()),
    )
    if device.leaves is not None and device.leaves <= device.arrives:
        raise SceneFault("a number above 'from' is expected", "until")
    return device


def _fixture(value: Any) -> FixtureKeys:
    keys = Keys(value)
    plain = FixtureKeys()
    label = text(MOST_LABEL_BYTES)
    personalities = keys.optional("personalities", list_of(_personality, 0, MOST_PERSONALITIES), plain.personalities)
    fixture = FixtureKeys(
        manufacturer=keys.optional("manufacturer", label, plain.manufacturer),
        model=keys.optional("model", label, plain.model),
        model_id=keys.optional("model_id", digits(4), plain.model_id),
        category=keys.optional("category", digits(4), plain.category),
        software=keys.optional("software", label, plain.software),
        software_id=keys.optional("software_id", digits(8), plain.software_id),
        label=keys.optional("label", label, plain.label),
        address=keys.optional("address", whole(1, DMX_SLOTS), plain.address),
        personality=keys.optional("personality", whole(1, max(1, len(personalities))), plain.personality),
        personalities=personalities,
        sensors=keys.optional("sensors", list_of(_sensor, 0, MOST_SENSORS), plain.sensors),
        part=keys.optional("part", whole(1, MOST_DATA_BYTES), plain.part),
        timer=keys.optional("timer", whole(0, MOST_TENTHS), plain.timer),
        nack=keys.optional("nack", digits(4), plain.nack),
        lies=frozenset(keys.optional("lies", list_of(one_of(Lie, [lie.value for lie in Lie]), 0, None), ())),
        spells=keys.optional("spells", any_uid, plain.spells),
    )
    keys.end()
    return fixture


def _personality(value: Any) -> Personality:
    keys = Keys(value)
    personality = Personality(keys.required("footprint", whole(0, DMX_SLOTS)),
                              keys.optional("name", text(MOST_LABEL_BYTES), ""))
    keys.end()
    return personality


def _sensor(value: Any) -> Sensor:
    keys = Keys(value)
    plain = Sensor()
    sensor = Sensor(
        name=keys.optional("name", text(MOST_LABEL_BYTES), plain.name),
        kind=keys.optional("type", digits(2), plain.kind),
        unit=keys.optional("unit", digits(2), plain.unit),
        prefix=keys.optional("prefix", digits(2), plain.prefix),
        limits=keys.optional("range", _pair, plain.limits),
        normal=keys.optional("normal", _pair, plain.normal),
        value=keys.optional("value", whole(LEAST_NUMBER, MOST_NUMBER), plain.value),
    )
    keys.end()
    return sensor


def _pair(value: Any) -> Tuple[int, int]:
    low, high = list_of(whole(LEAST_NUMBER, MOST_NUMBER), 2, 2)(value)
    return low, high


def _rig(value: Any) -> RigKeys:
    keys = Keys(value)
    plain = RigKeys()
    rig = RigKeys(
        seed=keys.optional("seed", whole(0, LAST_EXCHANGE), plain.seed),
        loss=keys.optional("loss", share, plain.loss),
        most_losses=keys.optional("most_losses", whole(0, MOST_EXCHANGE), plain.most_losses),
        collide=keys.optional("collide", one_of(Collide, [collide.value for collide in Collide]), plain.collide),
    )
    keys.end()
    return rig
