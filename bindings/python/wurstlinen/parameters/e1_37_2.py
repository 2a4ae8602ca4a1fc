"""The parameters of E1.37-2, IPv4 and DNS, in the order of their numbers."""
from __future__ import annotations

from typing import Tuple

from . import names
from .fields import (
    Flag, Ipv4, Mac, Message, Parameter, Range, SubDevices, Text, action, group, readable, uint8, uint16, uint32,
    writable,
)

GET_FOR = SubDevices.ROOT_OR_ONE
SET_FOR = SubDevices.ROOT_ONE_OR_ALL
INTERFACES: Range = (1, 0xFFFFFF00)
INTERFACE = uint32("interface_id", INTERFACES)
NETMASK = uint8("netmask", (0, 32))
NAME_SERVER_INDEX = uint8("name_server_index", (0, 2))


def mode(name: str, number: int, about: str, field: str) -> Parameter:
    """A setting of an interface that is off or on."""
    fields = (INTERFACE, Flag(field))
    return Parameter(name, number, about, Message((INTERFACE,), fields, GET_FOR), Message(fields, (), SET_FOR))


PARAMETERS: Tuple[Parameter, ...] = (
    readable("list_interfaces", 0x0700, "the network interfaces of the device",
             group("interfaces", INTERFACE, uint16("hardware_type", (0, 0xFFFF), labels=names.HARDWARE_TYPES))),
    readable("interface_label", 0x0701, "the name of an interface", INTERFACE, Text("label"), by=(INTERFACE,)),
    readable("interface_hardware_address_type1", 0x0702, "the hardware address of an interface", INTERFACE,
             Mac("hardware_address"), by=(INTERFACE,)),
    mode("ipv4_dhcp_mode", 0x0703, "whether an interface uses DHCP", "dhcp_mode"),
    mode("ipv4_zeroconf_mode", 0x0704, "whether an interface chooses an address of its own", "zeroconf_mode"),
    readable("ipv4_current_address", 0x0705, "an interface's address, and whether it has it by DHCP", INTERFACE,
             Ipv4("ipv4_address"), NETMASK, uint8("dhcp_status", labels=names.DHCP_STATUSES), by=(INTERFACE,)),
    Parameter("ipv4_static_address", 0x0706, "the address that an interface has without DHCP",
              get=Message((INTERFACE,), (INTERFACE, Ipv4("ipv4_address"), NETMASK), GET_FOR),
              set=Message((INTERFACE, Ipv4("ipv4_address"), NETMASK), (), SET_FOR)),
    action("interface_renew_dhcp", 0x0707, "asks for an address by DHCP again", INTERFACE),
    action("interface_release_dhcp", 0x0708, "gives an address of DHCP back", INTERFACE),
    action("interface_apply_configuration", 0x0709, "puts an interface's settings into use", INTERFACE),
    writable("ipv4_default_route", 0x070A, "the interface and the address of the default route",
             uint32("interface_id", INTERFACES, labels={0x00000000: "no_default_route"}), Ipv4("ipv4_default_route")),
    Parameter("dns_ipv4_name_server", 0x070B, "a name server, by its index",
              get=Message((NAME_SERVER_INDEX,), (NAME_SERVER_INDEX, Ipv4("name_server_address")), GET_FOR),
              set=Message((NAME_SERVER_INDEX, Ipv4("name_server_address")), (), SET_FOR)),
    writable("dns_hostname", 0x070C, "the device's host name", Text("host_name", 1, 63)),
    writable("dns_domain_name", 0x070D, "the device's domain name", Text("domain_name", 0, 231)),
)
