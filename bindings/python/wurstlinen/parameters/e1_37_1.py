"""The parameters of E1.37-1, dimmers and their presets, in the order of their numbers."""
from __future__ import annotations

from typing import Optional, Tuple

from . import names
from .fields import (
    Field, Flag, Message, Number, Parameter, Range, SubDevices, Text, changeable, readable, uint8, uint16, uint32,
    writable,
)

ROOT = SubDevices.ROOT
ADDRESSES: Range = (1, 512)
CHOICES: Range = (1, 255)
PINS: Range = (0, 9999)
UNLOCKED = {0x00: "unlocked"}
SCENES: Range = (1, 0xFFFE)
INFINITE = 0xFFFF


def seconds(name: str, *, may_be_infinite: bool = False) -> Number:
    """A time in tenths of a second."""
    if may_be_infinite:
        return uint16(name, (0, INFINITE - 1), labels={INFINITE: "infinite"}, power=-1, unit="s")
    return uint16(name, power=-1, unit="s")


def choice(name: str, number: int, about: str, kind: str) -> Parameter:
    """A setting that is one of a numbered list."""
    return changeable(name, number, about, (uint8(f"current_{kind}", CHOICES), uint8(f"{kind}_count")),
                      (uint8(kind, CHOICES),))


def description(name: str, number: int, about: str, kind: str, between: Optional[Field] = None) -> Parameter:
    """The text of one of such a list's settings."""
    middle = () if between is None else (between,)
    return readable(name, number, about, uint8(kind, CHOICES), *middle, Text("description"),
                    by=(uint8(kind, CHOICES),))


PARAMETERS: Tuple[Parameter, ...] = (
    changeable("dmx_block_address", 0x0140, "the slots of all sub-devices, and the DMX address of the first",
               (uint16("total_sub_device_footprint"),
                uint16("base_dmx_address", ADDRESSES, labels={0xFFFF: "none"})),
               (uint16("base_dmx_address", ADDRESSES),), get_for=ROOT, set_for=ROOT),
    writable("dmx_fail_mode", 0x0141, "what happens when DMX is lost",
             uint16("scene_number", SCENES, labels={0x0000: "off", 0xFFFF: "all"}),
             seconds("loss_of_signal_delay", may_be_infinite=True), seconds("hold_time", may_be_infinite=True),
             uint8("level")),
    writable("dmx_startup_mode", 0x0142, "what happens before the first DMX",
             uint16("scene_number", SCENES, labels={0x0000: "off", 0xFFFF: "all"}),
             seconds("startup_delay", may_be_infinite=True), seconds("hold_time", may_be_infinite=True),
             uint8("level")),

    readable("dimmer_info", 0x0340, "the limits of the dimmer's settings",
             uint16("minimum_level_lower_limit"), uint16("minimum_level_upper_limit"),
             uint16("maximum_level_lower_limit"), uint16("maximum_level_upper_limit"),
             uint8("number_of_supported_curves"), uint8("levels_resolution", (1, 16)),
             Flag("split_levels_supported")),
    writable("minimum_level", 0x0341, "the lowest level of the output",
             uint16("minimum_level_increasing"), uint16("minimum_level_decreasing"), Flag("on_below_minimum")),
    writable("maximum_level", 0x0342, "the highest level of the output", uint16("maximum_level")),
    choice("curve", 0x0343, "the dimming curve, and how many there are", "curve"),
    description("curve_description", 0x0344, "the text of a dimming curve", "curve"),
    choice("output_response_time", 0x0345, "how fast the output follows, and how many settings there are",
           "output_response_time"),
    description("output_response_time_description", 0x0346, "the text of an output response time",
                "output_response_time"),
    choice("modulation_frequency", 0x0347, "the modulation frequency, and how many there are",
           "modulation_frequency"),
    description("modulation_frequency_description", 0x0348, "a modulation frequency, and its text",
                "modulation_frequency",
                uint32("frequency", unit="Hz")),

    writable("burn_in", 0x0440, "how long the lamp burns in", uint8("hours", unit="h")),

    changeable("lock_pin", 0x0640, "the number that locks are changed with", (uint16("pin", PINS),),
               (uint16("new_pin", PINS), uint16("current_pin", PINS))),
    changeable("lock_state", 0x0641, "what is locked, and how many such states there are",
               (uint8("current_lock_state", CHOICES, labels=UNLOCKED), uint8("lock_state_count")),
               (uint16("pin", PINS), uint8("lock_state", CHOICES, labels=UNLOCKED))),
    description("lock_state_description", 0x0642, "the text of a lock state", "lock_state"),

    writable("identify_mode", 0x1040, "how the device identifies itself",
             uint8("identify_mode", labels=names.IDENTIFY_MODES)),
    readable("preset_info", 0x1041, "what presets, the fail mode and the startup mode may be",
             Flag("level_field_supported"), Flag("preset_sequence_supported"), Flag("split_times_supported"),
             Flag("dmx_fail_infinite_delay_time_supported"), Flag("dmx_fail_infinite_hold_time_supported"),
             Flag("startup_infinite_hold_time_supported"), uint16("maximum_scene_number"),
             seconds("minimum_preset_fade_time"), seconds("maximum_preset_fade_time"),
             seconds("minimum_preset_wait_time"), seconds("maximum_preset_wait_time"),
             seconds("minimum_dmx_fail_delay_time"), seconds("maximum_dmx_fail_delay_time"),
             seconds("minimum_dmx_fail_hold_time"), seconds("maximum_dmx_fail_hold_time"),
             seconds("minimum_startup_delay_time"), seconds("maximum_startup_delay_time"),
             seconds("minimum_startup_hold_time"), seconds("maximum_startup_hold_time")),
    Parameter("preset_status", 0x1042, "the times of a preset, and whether it is stored; a SET changes or clears it",
              get=Message(
                  (uint16("scene_number", SCENES),),
                  (uint16("scene_number", SCENES), seconds("up_fade_time"), seconds("down_fade_time"),
                   seconds("wait_time"), uint8("programmed", labels=names.PRESET_PROGRAMMED)), SubDevices.ROOT_OR_ONE),
              set=Message(
                  (uint16("scene_number", SCENES), seconds("up_fade_time"), seconds("down_fade_time"),
                   seconds("wait_time"), Flag("clear_preset")), (), SubDevices.ROOT_ONE_OR_ALL)),
    writable("preset_mergemode", 0x1043, "how a preset and DMX are merged",
             uint8("mergemode", labels=names.MERGE_MODES)),
    writable("power_on_self_test", 0x1044, "whether the device tests itself when it is switched on",
             Flag("power_on_self_test")),
)
