"""Examples of each parameter's data, written by hand from the standards' tables.

Each line has a parameter, what its data is, the data in hexadecimal, and its values as people type and read them.
The data is `get` or `set`, of a request, or `gets` or `sets`, of the response.
"""
from __future__ import annotations

import shlex
from dataclasses import dataclass
from typing import List, Tuple

import common  # noqa: F401  (it makes the package known)
from wurstlinen.parameters.fields import Fields, Message, Parameter
from wurstlinen.parameters.table import STANDARD

ROWS = """
proxied_devices get - |
proxied_devices gets 123400000001 9abc00000002 | 1234:00000001 9abc:00000002
proxied_device_count get - |
proxied_device_count gets 0002 01 | 2 yes
comms_status get - |
comms_status gets 0001 0102 ffff | 1 258 65535
comms_status set - |
queued_message get 04 | error
queued_message gets 0082 | 0x0082
status_messages get 02 | advisory
status_messages gets 0000 02 0021 0005 fffe 0001 13 8001 0000 7fff \
    | 0 advisory overtemp 5 -2 1 warning_cleared 32769 0 32767
status_id_description get 0021 | overtemp
status_id_description gets 46726f6e74 | Front
clear_status_id set - |
sub_device_status_report_threshold get - |
sub_device_status_report_threshold gets 03 | warning
sub_device_status_report_threshold set 04 | error
supported_parameters get - |
supported_parameters gets 0082 00e0 8001 | device_label dmx_personality 0x8001
parameter_description get 8001 | 0x8001
parameter_description gets 8001 02 05 03 00 15 03 00000001 000003e8 0000000a 46726f6e74 \
    | 0x8001 2 unsigned_word get_set 0 second milli 1 1000 10 Front
device_info get - |
device_info gets 01 00 1234 0102 00000005 0007 01 02 0011 0000 03 | 1 0 4660 fixture_moving_yoke 5 7 1 2 17 0 3
product_detail_id_list get - |
product_detail_id_list gets 0004 0900 | led changeover_manual
device_model_description get - |
device_model_description gets 46726f6e74 | Front
manufacturer_label get - |
manufacturer_label gets 46726f6e74 | Front
device_label get - |
device_label gets 46726f6e74206c656674 | 'Front left'
device_label set 46726f6e74206c656674 | 'Front left'
factory_defaults get - |
factory_defaults gets 01 | yes
factory_defaults set - |
language_capabilities get - |
language_capabilities gets 656e 6465 | en de
language get - |
language gets 656e | en
language set 6465 | de
software_version_label get - |
software_version_label gets 312e32 | 1.2
boot_software_version_id get - |
boot_software_version_id gets 00010002 | 65538
boot_software_version_label get - |
boot_software_version_label gets 312e32 | 1.2
dmx_personality get - |
dmx_personality gets 02 05 | 2 5
dmx_personality set 03 | 3
dmx_personality_description get 02 | 2
dmx_personality_description gets 02 0007 46726f6e74 | 2 7 Front
dmx_start_address get - |
dmx_start_address gets 0011 | 17
dmx_start_address set 0200 | 512
slot_info get - |
slot_info gets 0000 00 0101 0001 01 0000 0002 00 0001 | 0 primary pan 1 sec_fine 0 2 primary intensity
slot_description get 0002 | 2
slot_description gets 0002 46726f6e74 | 2 Front
default_slot_value get - |
default_slot_value gets 0000 7f 0001 00 | 0 127 1 0
sensor_definition get 01 | 1
sensor_definition gets 01 00 01 00 ffec 0064 0000 0032 03 46726f6e74 \
    | 1 temperature centigrade none -20 100 0 50 3 Front
sensor_value get 01 | 1
sensor_value gets 01 ffff 8000 7fff 0017 | 1 -1 -32768 32767 23
sensor_value set ff | all
sensor_value sets 01 0001 0000 0002 0003 | 1 1 0 2 3
record_sensors set ff | all
device_hours get - |
device_hours gets 000004d2 | 1234
device_hours set 00000000 | 0
lamp_hours get - |
lamp_hours gets 000004d2 | 1234
lamp_hours set 00000001 | 1
lamp_strikes get - |
lamp_strikes gets 00000100 | 256
lamp_strikes set 00000000 | 0
lamp_state get - |
lamp_state gets 7f | error
lamp_state set 01 | on
lamp_on_mode get - |
lamp_on_mode gets 03 | after_cal
lamp_on_mode set 01 | dmx
device_power_cycles get - |
device_power_cycles gets 00000009 | 9
device_power_cycles set 00000000 | 0
display_invert get - |
display_invert gets 02 | auto
display_invert set 01 | on
display_level get - |
display_level gets ff | 255
display_level set 80 | 128
pan_invert get - |
pan_invert gets 00 | no
pan_invert set 01 | yes
tilt_invert get - |
tilt_invert gets 01 | yes
tilt_invert set 00 | no
pan_tilt_swap get - |
pan_tilt_swap gets 01 | yes
pan_tilt_swap set 00 | no
real_time_clock get - |
real_time_clock gets 07ea 0b 1b 02 1e 3b | 2026 11 27 2 30 59
real_time_clock set 07ea 0b 1b 02 1e 3b | 2026 11 27 2 30 59
identify_device get - |
identify_device gets 00 | no
identify_device set 01 | yes
reset_device set ff | cold
power_state get - |
power_state gets ff | normal
power_state set 02 | standby
perform_selftest get - |
perform_selftest gets 01 | yes
perform_selftest set ff | all
self_test_description get 07 | 7
self_test_description gets 07 46726f6e74 | 7 Front
capture_preset set 0001 0005 000f ffff | 1 0.5 1.5 6553.5
preset_playback get - |
preset_playback gets ffff 80 | all 128
preset_playback set 0003 ff | 3 255
dmx_block_address get - |
dmx_block_address gets 0018 ffff | 24 none
dmx_block_address set 0064 | 100
dmx_fail_mode get - |
dmx_fail_mode gets 0000 000a ffff 00 | off 1 infinite 0
dmx_fail_mode set 0001 000a 0019 ff | 1 1 2.5 255
dmx_startup_mode get - |
dmx_startup_mode gets 0007 ffff 0001 80 | 7 infinite 0.1 128
dmx_startup_mode set 0000 0000 ffff 00 | off 0 infinite 0
dimmer_info get - |
dimmer_info gets 0000 00ff 7fff ffff 04 08 01 | 0 255 32767 65535 4 8 yes
minimum_level get - |
minimum_level gets 0100 0200 01 | 256 512 yes
minimum_level set 0001 0002 00 | 1 2 no
maximum_level get - |
maximum_level gets ffff | 65535
maximum_level set 8000 | 32768
curve get - |
curve gets 01 04 | 1 4
curve set 02 | 2
curve_description get 02 | 2
curve_description gets 02 46726f6e74 | 2 Front
output_response_time get - |
output_response_time gets 01 02 | 1 2
output_response_time set 02 | 2
output_response_time_description get 01 | 1
output_response_time_description gets 01 46726f6e74 | 1 Front
modulation_frequency get - |
modulation_frequency gets 03 04 | 3 4
modulation_frequency set 04 | 4
modulation_frequency_description get 04 | 4
modulation_frequency_description gets 04 000004b0 46726f6e74 | 4 1200 Front
burn_in get - |
burn_in gets 0c | 12
burn_in set 00 | 0
lock_pin get - |
lock_pin gets 270f | 9999
lock_pin set 04d2 0000 | 1234 0
lock_state get - |
lock_state gets 00 02 | unlocked 2
lock_state set 04d2 01 | 1234 1
lock_state_description get 01 | 1
lock_state_description gets 01 46726f6e74 | 1 Front
identify_mode get - |
identify_mode gets 00 | quiet
identify_mode set ff | loud
preset_info get - |
preset_info gets 01 00 01 00 01 00 0064 0000 ffff 0001 0002 0003 0004 0005 0006 0007 0008 0009 000a \
    | yes no yes no yes no 100 0 6553.5 0.1 0.2 0.3 0.4 0.5 0.6 0.7 0.8 0.9 1
preset_status get 0002 | 2
preset_status gets 0002 000a 0014 001e 01 | 2 1 2 3 programmed
preset_status set 0002 0000 0005 0000 01 | 2 0 0.5 0 yes
preset_mergemode get - |
preset_mergemode gets 02 | ltp
preset_mergemode set ff | other
power_on_self_test get - |
power_on_self_test gets 01 | yes
power_on_self_test set 00 | no
list_interfaces get - |
list_interfaces gets 00000001 0001 00000002 0020 | 1 ethernet 2 32
interface_label get 00000001 | 1
interface_label gets 00000001 46726f6e74 | 1 Front
interface_hardware_address_type1 get 00000001 | 1
interface_hardware_address_type1 gets 00000001 0200000000ff | 1 02:00:00:00:00:ff
ipv4_dhcp_mode get 00000001 | 1
ipv4_dhcp_mode gets 00000001 01 | 1 yes
ipv4_dhcp_mode set 00000002 00 | 2 no
ipv4_zeroconf_mode get 00000001 | 1
ipv4_zeroconf_mode gets 00000001 00 | 1 no
ipv4_zeroconf_mode set 00000001 01 | 1 yes
ipv4_current_address get 00000001 | 1
ipv4_current_address gets 00000001 c0000201 18 01 | 1 192.0.2.1 24 active
ipv4_static_address get 00000001 | 1
ipv4_static_address gets 00000001 c0000201 18 | 1 192.0.2.1 24
ipv4_static_address set 00000001 0a000002 08 | 1 10.0.0.2 8
interface_renew_dhcp set 00000001 | 1
interface_release_dhcp set 00000001 | 1
interface_apply_configuration set ffffff00 | 4294967040
ipv4_default_route get - |
ipv4_default_route gets 00000000 00000000 | no_default_route 0.0.0.0
ipv4_default_route set 00000001 c00002fe | 1 192.0.2.254
dns_ipv4_name_server get 02 | 2
dns_ipv4_name_server gets 02 c0000235 | 2 192.0.2.53
dns_ipv4_name_server set 00 c0000235 | 0 192.0.2.53
dns_hostname get - |
dns_hostname gets 6c616d70 | lamp
dns_hostname set 6c616d70 | lamp
dns_domain_name get - |
dns_domain_name gets 6578616d706c652e6f7267 | example.org
dns_domain_name set 6578616d706c652e6f7267 | example.org
"""


@dataclass(frozen=True)
class Example:
    """Data of a parameter, and its values."""

    parameter: Parameter
    is_set: bool
    is_response: bool
    data: bytes
    words: Tuple[str, ...]

    @property
    def name(self) -> str:
        """What it is, for messages."""
        return f"{self.parameter.name} {'SET' if self.is_set else 'GET'}{' response' if self.is_response else ''}"

    @property
    def fields(self) -> Fields:
        """The fields of its data."""
        message = self.parameter.set if self.is_set else self.parameter.get
        assert isinstance(message, Message), self.name
        return message.response if self.is_response else message.request


def examples() -> List[Example]:
    """All examples."""
    found = []
    for row in ROWS.strip().splitlines():
        left, _, words = row.partition("|")
        name, kind, *data = left.split()
        hexadecimal = "".join(data).replace("-", "")
        found.append(Example(STANDARD.named(name), kind.startswith("set"), kind.endswith("s"),
                             bytes.fromhex(hexadecimal), tuple(shlex.split(words))))
    return found
