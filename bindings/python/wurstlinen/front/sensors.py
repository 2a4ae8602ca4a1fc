"""What a sensor measures, as text."""
from __future__ import annotations

from decimal import Decimal
from typing import List, Mapping, Optional

from ..parameters.decoding import Values
from ..parameters.names import PREFIX_POWERS, PREFIXES

SYMBOLS: Mapping[str, str] = {
    "none": "", "centigrade": "°C", "volts_dc": "V", "volts_ac_peak": "V (peak)", "volts_ac_rms": "V (rms)",
    "ampere_dc": "A", "ampere_ac_peak": "A (peak)", "ampere_ac_rms": "A (rms)", "hertz": "Hz", "ohm": "Ω",
    "watt": "W", "kilogram": "kg", "meters": "m", "meters_squared": "m²", "meters_cubed": "m³",
    "kilogrammes_per_meter_cubed": "kg/m³", "meters_per_second": "m/s", "meters_per_second_squared": "m/s²",
    "newton": "N", "joule": "J", "pascal": "Pa", "second": "s", "degree": "°", "steradian": "sr", "candela": "cd",
    "lumen": "lm", "lux": "lx", "ire": "IRE", "byte": "bytes",
}
POWERS: Mapping[str, int] = {PREFIXES[number]: power for number, power in PREFIX_POWERS.items()}
# The bits of recorded_value_support.
HAS_RECORDED = 1
HAS_LOWEST_AND_HIGHEST = 2


def sensor_text(values: Values, definition: Optional[Values]) -> str:
    """A sensor's value with its unit, and what else is known of it."""
    known = definition or {}
    support = known.get("recorded_value_support", 0)
    bits = support if isinstance(support, int) else 0
    details: List[str] = []
    for name in ("range", "normal"):
        least, most = (scaled(known.get(f"{name}_{end}_value"), known) for end in ("minimum", "maximum"))
        details += [f"{name} {least} to {most}"] if least and most else []
    if bits & HAS_LOWEST_AND_HIGHEST:
        details += [f"{name} {scaled(values[f'{name}_detected_value'], known)}" for name in ("lowest", "highest")]
    if bits & HAS_RECORDED:
        details.append(f"recorded {scaled(values['recorded_value'], known)}")
    unit = str(known.get("unit", "none"))
    text = f"{scaled(values['present_value'], known)} {SYMBOLS.get(unit, unit)}".rstrip()
    return f"{text} ({', '.join(details)})" if details else text


def scaled(value: object, definition: Values) -> str:
    """A number with its prefix applied; nothing if it isn't known."""
    power = POWERS.get(str(definition.get("prefix")), 0)
    if not isinstance(value, int):
        return ""
    return format(Decimal(value).scaleb(power).normalize(), "f")
