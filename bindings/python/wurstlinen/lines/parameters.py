"""The parameters that each fixture of a rig has, by E1.20's tables."""
from __future__ import annotations

from typing import Callable, Dict, Iterable, List, Tuple

from .numbers import (
    DMX_SLOTS, MOST_LABEL_BYTES, NO_DMX_ADDRESS, PROTOCOL_VERSION, UNLISTED_PIDS, NackReason, Pid,
)
from .scene import FixtureKeys, Sensor

# It returns the data of an answer, or raises `Refused`.
Handler = Callable[[bytes], bytes]

ALL_SENSORS = 0xFF
RECORDED = 0x01
LOWEST_AND_HIGHEST = 0x02


class Refused(Exception):
    """A request that is answered by NACK_REASON."""

    def __init__(self, reason: NackReason) -> None:
        super().__init__(reason.name)
        self.reason = reason


class SensorState:
    """What a sensor measures now, and what it remembers."""

    def __init__(self, sensor: Sensor) -> None:
        self.sensor = sensor
        self.present = sensor.value
        self.lowest = self.highest = sensor.value
        self.recorded = 0

    def reset(self) -> None:
        """Forgets all but the present value."""
        self.lowest = self.highest = self.recorded = self.present

    def record(self) -> None:
        """Remembers the present value."""
        self.recorded = self.present


class Parameters:
    """The values of a fixture, which GETs read and SETs change."""

    def __init__(self, keys: FixtureKeys, other_pids: Iterable[int]) -> None:
        self._keys = keys
        self._label = keys.label.encode()
        self._address = keys.address
        self._personality = keys.personality
        self._is_identifying = False
        self._sensors = [SensorState(sensor) for sensor in keys.sensors]
        self._getters = self._all_getters()
        self._setters = self._all_setters()
        pids = {*self._getters, *self._setters, *other_pids} - UNLISTED_PIDS
        self._supported = b"".join(_word(pid) for pid in sorted(pids))

    def get(self, pid: int, data: bytes) -> bytes:
        """The data of the answer to a GET."""
        return self._handler(self._getters, self._setters, pid)(data)

    def set(self, pid: int, data: bytes) -> bytes:
        """Changes a value, and returns the data of the answer."""
        return self._handler(self._setters, self._getters, pid)(data)

    @staticmethod
    def _handler(handlers: Dict[int, Handler], others: Dict[int, Handler], pid: int) -> Handler:
        if pid in handlers:
            return handlers[pid]
        raise Refused(NackReason.UNSUPPORTED_COMMAND_CLASS if pid in others else NackReason.UNKNOWN_PID)

    def _all_getters(self) -> Dict[int, Handler]:
        getters: Dict[int, Handler] = {
            Pid.SUPPORTED_PARAMETERS: _without_data(lambda: self._supported),
            Pid.DEVICE_INFO: _without_data(self._device_info),
            Pid.DEVICE_MODEL_DESCRIPTION: _without_data(lambda: self._keys.model.encode()),
            Pid.MANUFACTURER_LABEL: _without_data(lambda: self._keys.manufacturer.encode()),
            Pid.DEVICE_LABEL: _without_data(lambda: self._label),
            Pid.SOFTWARE_VERSION_LABEL: _without_data(lambda: self._keys.software.encode()),
            Pid.DMX_START_ADDRESS: _without_data(lambda: _word(self._dmx_address())),
            Pid.IDENTIFY_DEVICE: _without_data(lambda: bytes([self._is_identifying])),
        }
        if self._keys.personalities:
            getters[Pid.DMX_PERSONALITY] = _without_data(self._get_personality)
            getters[Pid.DMX_PERSONALITY_DESCRIPTION] = self._describe_personality
        if self._sensors:
            getters[Pid.SENSOR_DEFINITION] = self._define_sensor
            getters[Pid.SENSOR_VALUE] = self._get_sensor
        return getters

    def _all_setters(self) -> Dict[int, Handler]:
        setters: Dict[int, Handler] = {
            Pid.DEVICE_LABEL: self._set_label,
            Pid.DMX_START_ADDRESS: self._set_address,
            Pid.IDENTIFY_DEVICE: self._set_identify,
        }
        if self._keys.personalities:
            setters[Pid.DMX_PERSONALITY] = self._set_personality
        if self._sensors:
            setters[Pid.SENSOR_VALUE] = self._reset_sensors
            setters[Pid.RECORD_SENSORS] = self._record_sensors
        return setters

    def _footprint(self) -> int:
        personalities = self._keys.personalities
        return personalities[self._personality - 1].footprint if personalities else 0

    def _dmx_address(self) -> int:
        return self._address if self._footprint() else NO_DMX_ADDRESS

    def _device_info(self) -> bytes:
        """E1.20, device info: 19 bytes."""
        keys = self._keys
        sub_devices = 0
        return (_word(PROTOCOL_VERSION) + _word(keys.model_id) + _word(keys.category)
                + keys.software_id.to_bytes(4, "big") + _word(self._footprint()) + self._get_personality()
                + _word(self._dmx_address()) + _word(sub_devices) + bytes([len(self._sensors)]))

    def _set_label(self, data: bytes) -> bytes:
        if len(data) > MOST_LABEL_BYTES:
            raise Refused(NackReason.FORMAT_ERROR)
        self._label = data
        return b""

    def _set_address(self, data: bytes) -> bytes:
        address = int.from_bytes(_sized(data, 2), "big")
        if not 1 <= address <= DMX_SLOTS or not self._footprint():
            raise Refused(NackReason.DATA_OUT_OF_RANGE)
        self._address = address
        return b""

    def _set_identify(self, data: bytes) -> bytes:
        state = _sized(data, 1)[0]
        if state > 1:
            raise Refused(NackReason.DATA_OUT_OF_RANGE)
        self._is_identifying = bool(state)
        return b""

    def _get_personality(self) -> bytes:
        return bytes([self._personality, len(self._keys.personalities)])

    def _set_personality(self, data: bytes) -> bytes:
        self._personality = self._personality_number(data)
        return b""

    def _describe_personality(self, data: bytes) -> bytes:
        number = self._personality_number(data)
        personality = self._keys.personalities[number - 1]
        return bytes([number]) + _word(personality.footprint) + personality.name.encode()

    def _personality_number(self, data: bytes) -> int:
        number = _sized(data, 1)[0]
        if not 1 <= number <= len(self._keys.personalities):
            raise Refused(NackReason.DATA_OUT_OF_RANGE)
        return number

    def _define_sensor(self, data: bytes) -> bytes:
        number, state = self._numbered_sensor(data)
        sensor = state.sensor
        numbers = b"".join(_signed(value) for value in (*sensor.limits, *sensor.normal))
        kinds = bytes([number, sensor.kind, sensor.unit, sensor.prefix])
        return kinds + numbers + bytes([LOWEST_AND_HIGHEST | RECORDED]) + sensor.name.encode()

    def _get_sensor(self, data: bytes) -> bytes:
        number, state = self._numbered_sensor(data)
        values = (state.present, state.lowest, state.highest, state.recorded)
        return bytes([number]) + b"".join(_signed(value) for value in values)

    def _reset_sensors(self, data: bytes) -> bytes:
        for state in self._chosen_sensors(data):
            state.reset()
        if data[0] == ALL_SENSORS:
            return data + bytes(8)
        return self._get_sensor(data)

    def _record_sensors(self, data: bytes) -> bytes:
        for state in self._chosen_sensors(data):
            state.record()
        return b""

    def _chosen_sensors(self, data: bytes) -> List[SensorState]:
        if _sized(data, 1)[0] == ALL_SENSORS:
            return self._sensors
        return [self._numbered_sensor(data)[1]]

    def _numbered_sensor(self, data: bytes) -> Tuple[int, SensorState]:
        number = _sized(data, 1)[0]
        if number >= len(self._sensors):
            raise Refused(NackReason.DATA_OUT_OF_RANGE)
        return number, self._sensors[number]


def _without_data(value: Callable[[], bytes]) -> Handler:
    """A GET that takes no data."""
    def handler(data: bytes) -> bytes:
        _sized(data, 0)
        return value()
    return handler


def _sized(data: bytes, size: int) -> bytes:
    if len(data) != size:
        raise Refused(NackReason.FORMAT_ERROR)
    return data


def _word(number: int) -> bytes:
    return number.to_bytes(2, "big")


def _signed(number: int) -> bytes:
    return number.to_bytes(2, "big", signed=True)
