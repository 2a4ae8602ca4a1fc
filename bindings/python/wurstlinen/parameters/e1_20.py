"""The parameters of E1.20, in the order of their numbers."""
from __future__ import annotations

from typing import Tuple

from . import names
from .fields import (
    MOST_JOINED_BYTES, Bytes, Flag, Message, Number, Parameter, Range, SubDevices, Text, UidField, action, changeable,
    group, int16, pid, readable, uint8, uint16, uint32, writable,
)

ROOT = SubDevices.ROOT
MANUFACTURERS_PIDS: Range = (0x8000, 0xFFDF)
# Ranges that the standard leaves to manufacturers.
OWN_CATEGORIES: Range = (0x8000, 0xDFFF)
OWN_IDS: Range = (0x8000, 0xFFDF)
OWN_TYPES: Range = (0x80, 0xFF)
OWN_STATES: Range = (0x80, 0xDF)

DMX_ADDRESSES: Range = (1, 512)
NO_ADDRESS = {0xFFFF: "none"}
SLOTS: Range = (0, 511)
SENSORS: Range = (0, 254)
ALL_SENSORS = {0xFF: "all"}
NO_MINIMUM = {-0x8000: "not_defined"}
NO_MAXIMUM = {0x7FFF: "not_defined"}
SCENES: Range = (1, 0xFFFE)

REQUESTED_STATUS = {number: names.STATUS_TYPES[number] for number in (0x00, 0x01, 0x02, 0x03, 0x04)}
QUEUED_STATUS = {number: names.STATUS_TYPES[number] for number in (0x01, 0x02, 0x03, 0x04)}
THRESHOLD_STATUS = {number: names.STATUS_TYPES[number] for number in (0x00, 0x02, 0x03, 0x04)}
REPORTED_STATUS = {number: names.STATUS_TYPES[number] for number in (0x02, 0x03, 0x04, 0x12, 0x13, 0x14)}

SETTABLE_LAMP_STATES = {number: names.LAMP_STATES[number] for number in (0x00, 0x01, 0x02, 0x03)}

MUTED = (uint16("control_field"), group("binding_uids", UidField("binding_uid"), most=1))
SENSOR_VALUES = (
    int16("present_value"), int16("lowest_detected_value"),
    int16("highest_detected_value"), int16("recorded_value"),
)

PARAMETERS: Tuple[Parameter, ...] = (
    Parameter("disc_unique_branch", 0x0001, "asks the unmuted devices of a range for their UIDs",
              discovery=Message((UidField("lower_bound_uid"), UidField("upper_bound_uid")), (), ROOT)),
    Parameter("disc_mute", 0x0002, "mutes a device for the rest of a discovery", discovery=Message((), MUTED, ROOT)),
    Parameter("disc_un_mute", 0x0003, "unmutes devices before a discovery", discovery=Message((), MUTED, ROOT)),

    readable("proxied_devices", 0x0010, "the UIDs of the devices behind a proxy",
             group("device_uids", UidField("device_uid")), sub_devices=ROOT),
    readable("proxied_device_count", 0x0011, "how many devices are behind a proxy, and whether its list has changed",
             uint16("device_count"), Flag("list_change"), sub_devices=ROOT),
    changeable("comms_status", 0x0015, "counters of faulty packets that were received; a SET clears them",
               (uint16("short_message"), uint16("length_mismatch"), uint16("checksum_fail")), (),
               get_for=ROOT, set_for=ROOT),

    readable("queued_message", 0x0020, "the next message that the device has queued, of any parameter",
             Bytes("message", 0, MOST_JOINED_BYTES), by=(uint8("status_type", labels=QUEUED_STATUS),),
             sub_devices=ROOT),
    readable("status_messages", 0x0030, "the status messages of this type and of graver ones",
             group("status_messages",
                   uint16("sub_device_id", (0, 512)), uint8("status_type", labels=REPORTED_STATUS),
                   uint16("status_message_id", OWN_IDS, labels=names.STATUS_IDS),
                   int16("data_value_1"), int16("data_value_2")),
             by=(uint8("status_type", labels=REQUESTED_STATUS),), sub_devices=ROOT),
    readable("status_id_description", 0x0031, "the text of a status message", Text("description"),
             by=(uint16("status_message_id", (0x0001, 0xFFDF), labels=names.STATUS_IDS),), sub_devices=ROOT),
    action("clear_status_id", 0x0032, "clears the status messages"),
    writable("sub_device_status_report_threshold", 0x0033, "the least status type that a sub-device reports",
             uint8("status_type", labels=THRESHOLD_STATUS), get_for=SubDevices.ONE, set_for=SubDevices.ONE_OR_ALL),

    readable("supported_parameters", 0x0050, "the parameters that the device has, except those that each device has",
             group("parameter_ids", pid("parameter_id"))),
    readable("parameter_description", 0x0051, "what a parameter of the manufacturer's own is",
             pid("parameter_id", MANUFACTURERS_PIDS), uint8("pdl_size", (0, 231)),
             uint8("data_type", OWN_STATES, labels=names.DATA_TYPES),
             uint8("command_class", labels=names.COMMAND_CLASSES), uint8("type"),
             uint8("unit", OWN_TYPES, labels=names.UNITS), uint8("prefix", labels=names.PREFIXES),
             uint32("minimum_valid_value"), uint32("maximum_valid_value"), uint32("default_value"),
             Text("description"), by=(pid("parameter_id", MANUFACTURERS_PIDS),), sub_devices=ROOT),

    readable("device_info", 0x0060, "what the device is, and its DMX settings",
             uint8("protocol_version_major"), uint8("protocol_version_minor"), uint16("device_model_id"),
             uint16("product_category", OWN_CATEGORIES, labels=names.PRODUCT_CATEGORIES),
             uint32("software_version_id"), uint16("dmx_footprint", (0, 512)), uint8("current_personality"),
             uint8("personality_count"), uint16("dmx_start_address", DMX_ADDRESSES, labels=NO_ADDRESS),
             uint16("sub_device_count", (0, 512)), uint8("sensor_count")),
    readable("product_detail_id_list", 0x0070, "details of what the device is and does",
             group("product_detail_ids",
                   uint16("product_detail_id", OWN_CATEGORIES, labels=names.PRODUCT_DETAILS), most=6)),
    readable("device_model_description", 0x0080, "the name of the model", Text("description")),
    readable("manufacturer_label", 0x0081, "the name of the manufacturer", Text("label")),
    writable("device_label", 0x0082, "a name for this device", Text("label")),
    changeable("factory_defaults", 0x0090, "whether the device has its factory settings; a SET restores them",
               (Flag("factory_defaults"),), ()),
    readable("language_capabilities", 0x00A0, "the languages that the device has",
             group("languages", Text("language", 2, 2))),
    writable("language", 0x00B0, "the language of texts, two letters of ISO 639-1", Text("language", 2, 2)),
    readable("software_version_label", 0x00C0, "the version of the device's software", Text("label")),
    readable("boot_software_version_id", 0x00C1, "the number of the boot software's version",
             uint32("boot_software_version_id")),
    readable("boot_software_version_label", 0x00C2, "the version of the boot software", Text("label")),

    changeable("dmx_personality", 0x00E0, "the personality, and how many there are",
               (uint8("current_personality", (1, 255)), uint8("personality_count")),
               (uint8("personality", (1, 255)),)),
    readable("dmx_personality_description", 0x00E1, "a personality's number of slots, and its name",
             uint8("personality", (1, 255)), uint16("slots_required", (0, 512)), Text("description"),
             by=(uint8("personality", (1, 255)),)),
    changeable("dmx_start_address", 0x00F0, "the first DMX slot of the device",
               (uint16("dmx_start_address", DMX_ADDRESSES, labels=NO_ADDRESS),),
               (uint16("dmx_start_address", DMX_ADDRESSES),)),
    readable("slot_info", 0x0120, "what the device's slots do",
             group("slots", uint16("slot_offset", SLOTS), uint8("slot_type", labels=names.SLOT_TYPES),
                   # A secondary slot has the offset of its primary slot here.
                   Number("slot_label_id", 2, ranges=((0, 0xFFDF),), labels=names.SLOT_IDS,
                          labelled_if=("slot_type", "primary")))),
    readable("slot_description", 0x0121, "the text of a slot", uint16("slot_number", SLOTS), Text("description"),
             by=(uint16("slot_number", SLOTS),)),
    readable("default_slot_value", 0x0122, "the default values of the slots",
             group("slots", uint16("slot_offset", SLOTS), uint8("default_slot_value"))),

    readable("sensor_definition", 0x0200, "what a sensor measures, its ranges and its name",
             uint8("sensor_number", SENSORS), uint8("type", OWN_TYPES, labels=names.SENSOR_TYPES),
             uint8("unit", OWN_TYPES, labels=names.UNITS), uint8("prefix", labels=names.PREFIXES),
             int16("range_minimum_value", NO_MINIMUM), int16("range_maximum_value", NO_MAXIMUM),
             int16("normal_minimum_value", NO_MINIMUM), int16("normal_maximum_value", NO_MAXIMUM),
             uint8("recorded_value_support", (0, 3)), Text("description"),
             by=(uint8("sensor_number", SENSORS),)),
    Parameter("sensor_value", 0x0201, "a sensor's values; a SET resets what was detected and recorded",
              get=Message((uint8("sensor_number", SENSORS),), (uint8("sensor_number", SENSORS), *SENSOR_VALUES),
                          SubDevices.ROOT_OR_ONE),
              set=Message((uint8("sensor_number", SENSORS, labels=ALL_SENSORS),),
                          (uint8("sensor_number", SENSORS, labels=ALL_SENSORS), *SENSOR_VALUES),
                          SubDevices.ROOT_ONE_OR_ALL)),
    action("record_sensors", 0x0202, "records a sensor's present value, or all sensors'",
           uint8("sensor_number", SENSORS, labels=ALL_SENSORS)),

    writable("device_hours", 0x0400, "how long the device has been on", uint32("device_hours", unit="h")),
    writable("lamp_hours", 0x0401, "how long the lamp has been on", uint32("lamp_hours", unit="h")),
    writable("lamp_strikes", 0x0402, "how often the lamp was struck", uint32("lamp_strikes")),
    changeable("lamp_state", 0x0403, "the state of the lamp",
               (uint8("lamp_state", OWN_STATES, labels=names.LAMP_STATES),),
               (uint8("lamp_state", OWN_STATES, labels=SETTABLE_LAMP_STATES),)),
    writable("lamp_on_mode", 0x0404, "when the lamp is struck",
             uint8("lamp_on_mode", OWN_STATES, labels=names.LAMP_ON_MODES)),
    writable("device_power_cycles", 0x0405, "how often the device was switched on", uint32("power_cycle_count")),

    writable("display_invert", 0x0500, "whether the display is upside down",
             uint8("display_invert", labels=names.DISPLAY_INVERTS)),
    writable("display_level", 0x0501, "the brightness of the display, 0 to 255", uint8("display_level")),

    writable("pan_invert", 0x0600, "whether pan goes the other way", Flag("pan_invert")),
    writable("tilt_invert", 0x0601, "whether tilt goes the other way", Flag("tilt_invert")),
    writable("pan_tilt_swap", 0x0602, "whether pan and tilt are swapped", Flag("pan_tilt_swap")),
    writable("real_time_clock", 0x0603, "the device's date and time", uint16("year", (2003, 65535)),
             uint8("month", (1, 12)), uint8("day", (1, 31)), uint8("hour", (0, 23)), uint8("minute", (0, 59)),
             uint8("second", (0, 60))),

    writable("identify_device", 0x1000, "whether the device shows which one it is", Flag("identify_state")),
    action("reset_device", 0x1001, "restarts the device", uint8("reset", labels=names.RESETS)),
    writable("power_state", 0x1010, "how far the device is on", uint8("power_state", labels=names.POWER_STATES)),
    changeable("perform_selftest", 0x1020, "whether a self-test runs; a SET starts one, or ends all",
               (Flag("self_tests_active"),),
               (uint8("self_test_number", (1, 254), labels={0x00: "off", 0xFF: "all"}),)),
    readable("self_test_description", 0x1021, "the text of a self-test",
             uint8("self_test_number"), Text("description"), by=(uint8("self_test_number"),)),
    action("capture_preset", 0x1030, "stores the present state as a preset",
           uint16("scene_number", SCENES), uint16("up_fade_time", power=-1, unit="s"),
           uint16("down_fade_time", power=-1, unit="s"), uint16("wait_time", power=-1, unit="s")),
    writable("preset_playback", 0x1031, "the preset that is played, and its level",
             uint16("mode", SCENES, labels={0x0000: "off", 0xFFFF: "all"}), uint8("level")),
)
