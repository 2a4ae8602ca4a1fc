"""The names that E1.20 gives to numbers, in lower case and without their prefixes."""
from __future__ import annotations

from typing import Dict, Mapping


def _numbered(rows: str) -> Mapping[int, str]:
    """The names of rows of text: each row has the first one's number, that one, and those of the numbers after it."""
    found: Dict[int, str] = {}
    for row in rows.strip().splitlines():
        first, *listed = row.split()
        found.update(enumerate(listed, int(first, 16)))
    return found


# The last rows are those of E1.37-2, E1.37-7 and E1.33.
NACK_REASONS = _numbered("""
    0000 unknown_pid format_error hardware_fault proxy_reject write_protect unsupported_command_class
    0006 data_out_of_range buffer_full packet_size_unsupported sub_device_out_of_range proxy_buffer_full
    000b action_not_supported
    000c endpoint_number_invalid invalid_endpoint_mode unknown_uid
    000f unknown_scope invalid_static_config_type invalid_ipv4_address invalid_ipv6_address invalid_port
""")

STATUS_TYPES = _numbered("""
    00 none get_last_message advisory warning error
    12 advisory_cleared warning_cleared error_cleared
""")

STATUS_IDS = _numbered("""
    01 cal_fail sens_not_found sens_always_on feedback_error index_error
    11 lamp_doused lamp_strike lamp_access_open lamp_always_on
    21 overtemp undertemp sens_out_range
    31 overvoltage_phase undervoltage_phase overcurrent undercurrent phase phase_error amps volts
    41 dimslot_occupied breaker_trip watts dim_failure dim_panic load_failure
    50 ready not_ready low_fluid
    60 eeprom_error ram_error fpga_error
    70 proxy_broadcast_dropped asc_rxok asc_dropped
    80 dmxnscnone dmxnscloss dmxnscerror dmxnsc_ok
""")

PRODUCT_CATEGORIES = _numbered("""
    0000 not_declared
    0100 fixture fixture_fixed fixture_moving_yoke fixture_moving_mirror
    01ff fixture_other
    0200 fixture_accessory fixture_accessory_color fixture_accessory_yoke fixture_accessory_mirror
    0204 fixture_accessory_effect fixture_accessory_beam
    02ff fixture_accessory_other
    0300 projector projector_fixed projector_moving_yoke projector_moving_mirror
    03ff projector_other
    0400 atmospheric atmospheric_effect atmospheric_pyro
    04ff atmospheric_other
    0500 dimmer dimmer_ac_incandescent dimmer_ac_fluorescent dimmer_ac_coldcathode dimmer_ac_nondim
    0505 dimmer_ac_elv dimmer_ac_other dimmer_dc_level dimmer_dc_pwm dimmer_cs_led
    05ff dimmer_other
    0600 power power_control power_source
    06ff power_other
    0700 scenic scenic_drive
    07ff scenic_other
    0800 data data_distribution data_conversion
    08ff data_other
    0900 av av_audio av_video
    09ff av_other
    0a00 monitor monitor_aclinepower monitor_dcpower monitor_environmental
    0aff monitor_other
    7000 control control_controller control_backupdevice
    70ff control_other
    7100 test test_equipment
    71ff test_equipment_other
    7fff other
""")

PRODUCT_DETAILS = _numbered("""
    0000 not_declared arc metal_halide incandescent led fluorescent coldcathode electroluminescent
    0008 laser flashtube
    0100 colorscroller colorwheel colorchange iris_douser dimming_shutter profile_shutter
    0106 barndoor_shutter effects_disc gobo_rotator
    0200 video slide film oilwheel lcdgate
    0300 fogger_glycol fogger_mineraloil fogger_water co2 ln2 bubble flame_propane flame_other
    0308 olefactory_stimulator snow water_jet wind confetti hazard
    0400 phase_control reversephase_control sine pwm dc hfballast hfhv_neonballast hfhv_el
    0408 mhr_ballast bitangle_modulation frequency_modulation highfrequency_12v relay_mechanical
    040d relay_electronic switch_electronic contactor
    0500 mirrorball_rotator other_rotator kabuki_drop curtain lineset motor_control damper_control
    0600 splitter ethernet_node merge datapatch wireless_link
    0701 protocol_convertor analog_demultiplex analog_multiplex switch_panel
    0800 router fader mixer
    0900 changeover_manual changeover_auto test
    0a00 gfi_rcd battery controllable_breaker
    7fff other
""")

SENSOR_TYPES = _numbered("""
    00 temperature voltage current frequency resistance power mass length area volume density
    0b velocity acceleration force energy pressure time angle position_x position_y position_z
    15 angular_velocity luminous_intensity luminous_flux illuminance chrominance_red
    1a chrominance_green chrominance_blue contacts memory items humidity counter_16bit
    7f other
""")

UNITS = _numbered("""
    00 none centigrade volts_dc volts_ac_peak volts_ac_rms ampere_dc ampere_ac_peak ampere_ac_rms
    08 hertz ohm watt kilogram meters meters_squared meters_cubed kilogrammes_per_meter_cubed
    10 meters_per_second meters_per_second_squared newton joule pascal second degree steradian
    18 candela lumen lux ire byte
""")

PREFIXES = _numbered("""
    00 none deci centi milli micro nano pico fempto atto zepto yocto
    11 deca hecto kilo mega giga tera peta exa zetta yotta
""")

# The powers of ten that the prefixes mean.
PREFIX_POWERS: Mapping[int, int] = {
    0x00: 0, 0x01: -1, 0x02: -2, 0x03: -3, 0x04: -6, 0x05: -9, 0x06: -12, 0x07: -15, 0x08: -18, 0x09: -21, 0x0A: -24,
    0x11: 1, 0x12: 2, 0x13: 3, 0x14: 6, 0x15: 9, 0x16: 12, 0x17: 15, 0x18: 18, 0x19: 21, 0x1A: 24,
}

DATA_TYPES = _numbered("""
    00 not_defined bit_field ascii unsigned_byte signed_byte unsigned_word signed_word
    07 unsigned_dword signed_dword
""")

COMMAND_CLASSES: Mapping[int, str] = {0x01: "get", 0x02: "set", 0x03: "get_set"}

SLOT_TYPES = _numbered("""
    00 primary sec_fine sec_timing sec_speed sec_control sec_index sec_rotation sec_index_rotate
    ff sec_undefined
""")

SLOT_IDS = _numbered("""
    0001 intensity intensity_master
    0101 pan tilt
    0201 color_wheel color_sub_cyan color_sub_yellow color_sub_magenta color_add_red color_add_green
    0207 color_add_blue color_correction color_scroll
    0210 color_semaphore color_add_amber color_add_white color_add_warm_white color_add_cool_white
    0215 color_sub_uv color_hue color_saturation
    0301 static_gobo_wheel roto_gobo_wheel prism_wheel effects_wheel
    0401 beam_size_iris edge frost strobe zoom framing_shutter shutter_rotate douser barn_door
    0501 lamp_control fixture_control fixture_speed macro power_control fan_control heater_control
    0508 fountain_control
    ffff undefined
""")

LAMP_STATES: Mapping[int, str] = {
    0x00: "off", 0x01: "on", 0x02: "strike", 0x03: "standby", 0x04: "not_present", 0x7F: "error",
}
LAMP_ON_MODES: Mapping[int, str] = {0x00: "off", 0x01: "dmx", 0x02: "on", 0x03: "after_cal"}
DISPLAY_INVERTS: Mapping[int, str] = {0x00: "off", 0x01: "on", 0x02: "auto"}
RESETS: Mapping[int, str] = {0x01: "warm", 0xFF: "cold"}
POWER_STATES: Mapping[int, str] = {0x00: "full_off", 0x01: "shutdown", 0x02: "standby", 0xFF: "normal"}

# E1.37-1
IDENTIFY_MODES: Mapping[int, str] = {0x00: "quiet", 0xFF: "loud"}
PRESET_PROGRAMMED: Mapping[int, str] = {0x00: "not_programmed", 0x01: "programmed", 0x02: "programmed_read_only"}
MERGE_MODES: Mapping[int, str] = {0x00: "default", 0x01: "htp", 0x02: "ltp", 0x03: "dmx_only", 0xFF: "other"}

# E1.37-2
DHCP_STATUSES: Mapping[int, str] = {0x00: "inactive", 0x01: "active", 0x02: "unknown"}
HARDWARE_TYPES: Mapping[int, str] = {0x0001: "ethernet"}
