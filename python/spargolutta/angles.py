"""Degrees as whole ten-millionths, exactly: from text, decimals and floats, and back to text.

No float is on the way: a text or a decimal is rounded to seven decimals half to even, and a float by its exact value.
"""
import ctypes
import math
import sys
from array import array
from decimal import ROUND_HALF_EVEN, Decimal, InvalidOperation
from fractions import Fraction
from typing import Any, Iterable, List, NamedTuple, Sequence, Tuple, Union

from .library import lib
from .numbers import DONE, Refused

COARSE, FINE = 0, 1
GRIDS = ("coarse", "fine")
LIMITS = (1 << 20, 1 << 26)
STEP_METRES = (6.1, 0.1)
UNITS = 10_000_000
BEYOND = 2**31 - 1
HALF_TURN = 180 * UNITS

Number = Union[int, str, Decimal, Fraction, float]
Point = Tuple[int, int, int]


class Position(NamedTuple):
    """A place in ten-millionths of a degree."""

    lon: int
    lat: int


def of_decimal(value: Decimal) -> int:
    """Ten-millionths, half to even; BEYOND, with its sign, for what is past a thousand degrees or no number."""
    if not value.is_finite() or value.adjusted() > 3:
        return -BEYOND if value.is_signed() else BEYOND
    if value.adjusted() < -9:
        return 0
    sign, digits, exponent = value.as_tuple()
    return int(Decimal((sign, digits, int(exponent) + 7)).to_integral_value(rounding=ROUND_HALF_EVEN))


def of_text(text: str) -> int:
    """Ten-millionths of a degree from a text such as `23.61`; raises ValueError for what is no decimal number."""
    whole, point, decimals = text.partition(".")
    if len(decimals) <= 7 and len(whole) <= 4 and text.isascii():
        digits = whole[1:] if whole[:1] in ("-", "+") else whole
        if digits.isdigit() and (decimals.isdigit() if point else True):
            angle: int = int(digits + decimals) * 10 ** (7 - len(decimals))
            return -angle if whole[0] == "-" else angle
    if not text.isascii() or "_" in text or len(text) > 1000:
        raise ValueError(text)
    try:
        value = Decimal(text.strip())
    except InvalidOperation:
        raise ValueError(text) from None
    if not value.is_finite():
        raise ValueError(text)
    return of_decimal(value)


def of_number(value: Number) -> int:
    """Ten-millionths of a degree from a number of any of Python's kinds."""
    if isinstance(value, str):
        return of_text(value)
    if isinstance(value, Decimal):
        return of_decimal(value)
    if isinstance(value, Fraction):
        return _within(round(value * UNITS))
    if isinstance(value, float) or not hasattr(value, "__index__"):
        exact = float(value)
        return _within(round(Fraction(exact) * UNITS)) if math.isfinite(exact) else BEYOND
    return _within(value.__index__() * UNITS)


def _within(angle: int) -> int:
    return max(-BEYOND, min(BEYOND, angle))


def to_text(angle: int) -> str:
    """Degrees with up to seven decimals, none of them spare."""
    size = abs(angle)
    text = f"{size // UNITS}.{size % UNITS:07d}".rstrip("0").rstrip(".")
    return "-" + text if angle < 0 else text


def words(position: Position) -> str:
    """A place in words: `23.61 east, 37.93 north`."""
    lon, lat = position
    return (f"{to_text(abs(lon))} {'west' if lon < 0 else 'east'}, "
            f"{to_text(abs(lat))} {'south' if lat < 0 else 'north'}")


def in_bytes(numbers: Sequence[int]) -> bytes:
    """Signed 32-bit numbers, big-endian."""
    packed = array("i", numbers)
    if sys.byteorder == "little":
        packed.byteswap()
    return packed.tobytes()


def from_bytes(data: bytes, unsigned: bool = False) -> "array[int]":
    """The 32-bit numbers, big-endian, of some bytes."""
    numbers = array("I" if unsigned else "i")
    numbers.frombytes(data)
    if sys.byteorder == "little":
        numbers.byteswap()
    return numbers


def points_of(degrees: bytes, grid: int) -> bytes:
    """Points on a grid, twelve bytes each, of positions of eight bytes; all zero where one is out of range."""
    points = bytearray(len(degrees) // 8 * 12)
    number = lib.spg_points_number(degrees, len(degrees), grid, lent(points), len(points))
    if number != DONE:
        raise Refused(number)
    return bytes(points)


def lent(buffer: bytearray) -> Any:
    """A buffer that the library may write."""
    return (ctypes.c_char * len(buffer)).from_buffer(buffer)


def grid_points(positions: Iterable[Tuple[int, int]], grid: int) -> List[Point]:
    """The grid numbers of positions."""
    flat = [_within(angle) for position in positions for angle in position]
    numbers = from_bytes(points_of(in_bytes(flat), grid))
    return list(zip(numbers[0::3], numbers[1::3], numbers[2::3]))


def place_of(point: Point) -> Position:
    """Where a point is, to be read by people: longitude and latitude by floating point, to about a centimetre."""
    x, y, z = point
    lon, lat = math.degrees(math.atan2(y, x)), math.degrees(math.atan2(z, math.hypot(x, y)))
    return Position(round(lon * UNITS), round(lat * UNITS))
