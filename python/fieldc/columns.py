"""The words of tables that people have: truth values, decimal commas, degrees; as a network has them."""

from __future__ import annotations

import math
import re
from collections.abc import Mapping
from decimal import ROUND_HALF_UP, Decimal

from .networks import Input, Position
from .refusals import Fault

TRUTHS = {"true": True, "false": False, "yes": True, "no": False}
DIGITS = {"1": True, "0": False}
LATITUDES, LONGITUDES = ("lat", "latitude"), ("lon", "lng", "long", "longitude")
TIMES = ("t", "time", "timestamp", "seconds")
EARTH = 6_371_008.8
"""The mean radius of the earth, in metres."""
MOST_METRES = 500_000.0
FARTHEST = 1e12
DECIMAL = re.compile(r"[+-]?[0-9]+(?:[.,][0-9]+)?(?:[eE][+-]?[0-9]+)?|[+-]?[.,][0-9]+")


def decimal(word: str, where: str) -> Decimal:
    """A number with a decimal point or comma. Raises Fault, of status 3, for any other word."""
    if DECIMAL.fullmatch(word):
        return Decimal(word.replace(",", "."))
    marks = "; don't separate thousands" if re.fullmatch(r"[+-]?[0-9][0-9., ]*[0-9]", word) else ""
    raise Fault(f"{where} is {word!r}, which isn't a number{marks}", 3)


def real(word: str, where: str) -> float:
    """A position or a time. Raises Fault, of status 3, if it is no number, or too great to be computed with."""
    found = float(decimal(word, where))
    if not -FARTHEST <= found <= FARTHEST:
        raise Fault(f"{where} is {word}; it has to be from -{FARTHEST:g} to {FARTHEST:g}", 3)
    return found


def input_word(word: str, where: str, name: str, truth: bool, scale: Mapping[str, float]) -> Input | str:
    """The value of an input in a field: true, false, yes or no in any letters, or a whole number, which is scaled.

    With `truth`, 1 and 0 are truth values too. Raises Fault, of status 3, if a number isn't whole, with the remedy.
    """
    if word.lower() in TRUTHS:
        return TRUTHS[word.lower()]
    if truth or not DECIMAL.fullmatch(word):
        return DIGITS.get(word, word)
    number = decimal(word, where)
    if name in scale:
        return int((number * Decimal(str(scale[name]))).to_integral_value(ROUND_HALF_UP))
    if number != number.to_integral_value():
        factor = 10 ** -int(number.as_tuple().exponent)
        remedy = f"--scale {name}={factor} takes {int(number * factor)}"
        raise Fault(f"{where} is {word}, and an input is a whole number: {remedy}", 3)
    return int(number)


# ---- degrees -------------------------------------------------------------------------------------------------------


def latitude(word: str, where: str) -> float:
    """Degrees to the north. Raises Fault, of status 3, if they are none."""
    return _degrees(word, where, 90)


def longitude(word: str, where: str) -> float:
    """Degrees to the east. Raises Fault, of status 3, if they are none."""
    return _degrees(word, where, 180)


def _degrees(word: str, where: str, most: int) -> float:
    found = float(decimal(word, where))
    if not -most <= found <= most:
        raise Fault(f"{where} is {word}; it has to be from -{most} to {most} degrees", 3)
    return found


def in_metres(
    degrees: Mapping[int, tuple[float, float]], where: Mapping[int, str] | None = None
) -> dict[int, Position]:
    """Positions in metres to the east and north of the middle, of latitudes and longitudes on a ball.

    Distances from the middle are exact, and others by a thousandth within 500 km of it. Raises Fault, of status 3,
    which says `where`, if a device is further away.
    """
    places = {device: (math.radians(lat), math.radians(lon)) for device, (lat, lon) in degrees.items()}
    vectors = [(math.cos(a) * math.cos(b), math.cos(a) * math.sin(b), math.sin(a)) for a, b in places.values()]
    x, y, z = (sum(parts) for parts in zip(*vectors))
    north, east = math.atan2(z, math.hypot(x, y)), math.atan2(y, x)
    found = {device: _flat(lat, lon, north, east) for device, (lat, lon) in places.items()}
    far = max(found, key=lambda device: math.hypot(*found[device]))
    if math.hypot(*found[far]) > MOST_METRES:
        away = math.hypot(*found[far]) / 1000
        stands = f"{where[far]}: " if where is not None else ""
        middle = "km away from the middle of all devices; a flat map has at most 500 km"
        raise Fault(f"{stands}a device is {away:,.0f} {middle}", 3)
    return found


def _flat(lat: float, lon: float, north: float, east: float) -> Position:
    """Where a place lies on the flat map around the middle that keeps distances and directions from there."""
    to_east = math.cos(lat) * math.sin(lon - east)
    to_north = math.cos(north) * math.sin(lat) - math.sin(north) * math.cos(lat) * math.cos(lon - east)
    along = math.sin(north) * math.sin(lat) + math.cos(north) * math.cos(lat) * math.cos(lon - east)
    across = math.hypot(to_east, to_north)
    stretch = EARTH * (math.atan2(across, along) / across if across else 1.0)
    return stretch * to_east, stretch * to_north
