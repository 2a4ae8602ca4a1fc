"""Values as the library takes and returns them."""

import ctypes
from typing import Optional, Tuple

from ._faults import check
from ._held import Held
from ._library import LIBRARY, DeviceForm, RequestForm, buffer_of
from ._types import MOST_BAD_UIDS, BadUids, Device, Request, RunFault, RunFaultKind, Uid, whole


def read_uid(text: str) -> int:
    """The number of the UID that a text spells. Raises UidLength, UidSeparator or UidDigit."""
    buffer, length = buffer_of(text.encode("utf-8", "surrogatepass"))
    number = ctypes.c_uint64()
    check(LIBRARY.wurst_uid_read(buffer, length, number))
    return number.value


def uid_if(there: bool, number: int) -> Optional[Uid]:
    return Uid.from_number(number) if there else None


def run_fault(fault: int, corrupt: int) -> Optional[RunFault]:
    if fault == 0:
        return None
    return RunFault(RunFaultKind(fault), uid_if(fault == RunFaultKind.CORRUPT, corrupt))


def devices_of(forms: "ctypes.Array[DeviceForm]", count: int) -> Tuple[Device, ...]:
    return tuple(
        Device(Uid.from_number(form.uid), form.control, uid_if(form.has_binding, form.binding))
        for form in forms[:count]
    )


def bad_uids_of(held: Held) -> BadUids:
    """The bad UIDs of a queue's last run, or of a single run."""
    numbers, count, more = (ctypes.c_uint64 * MOST_BAD_UIDS)(), ctypes.c_size_t(), ctypes.c_bool()
    check(held._made(held._calls.bad_uids, numbers, MOST_BAD_UIDS, count, more))
    return BadUids(tuple(Uid.from_number(number) for number in numbers[:count.value]), more.value)


def form_of_device(device: Device) -> DeviceForm:
    binding = device.binding
    number = 0 if binding is None else binding.number
    return DeviceForm(device.uid.number, number, whole(device.control, 16, "control field"), binding is not None)


def form_of_request(request: Request) -> RequestForm:
    return RequestForm(request.target.number, int(request.request_class),
                       whole(request.sub_device, 16, "sub-device"), whole(request.pid, 16, "PID"))
