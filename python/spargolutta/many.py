"""Many places at once: degrees to bytes, and results to arrays; with numpy where it is there, else without."""
from typing import Any, Sequence

from . import angles
from .angles import Number
from .numbers import POSITION_OUTSIDE
from .zone import Answers

try:
    import numpy
except ImportError:
    numpy = None  # type: ignore[assignment]

_NEARLY_HALF = 0.4999


def degrees(lons: Sequence[Number], lats: Sequence[Number]) -> bytes:
    """Positions of eight bytes. Raises ValueError where the two are not of one length."""
    if len(lons) != len(lats):
        raise ValueError("as many longitudes as latitudes are needed")
    if numpy is not None and all(isinstance(a, numpy.ndarray) and a.dtype.kind == "f" for a in (lons, lats)):
        pairs = numpy.empty((len(lons), 2), ">i4")
        pairs[:, 0], pairs[:, 1] = _rounded(lons), _rounded(lats)
        return bytes(pairs.tobytes())
    flat = [angles.of_number(angle) for pair in zip(lons, lats) for angle in pair]
    return angles.in_bytes([max(-angles.BEYOND, min(angles.BEYOND, angle)) for angle in flat])


def _rounded(floats: Any) -> Any:
    """Ten-millionths of floats, as angles.of_number rounds them: products near a half are worked out exactly."""
    scaled = numpy.asarray(floats, float) * angles.UNITS
    whole = numpy.where(numpy.abs(scaled) <= angles.BEYOND, numpy.rint(scaled), angles.BEYOND)
    for i in numpy.flatnonzero(numpy.abs(scaled - whole) > _NEARLY_HALF):
        whole[i] = angles.of_number(float(floats[i]))
    return whole


def answers(points: bytes, results: bytes) -> Answers:
    """Results of a feed as three arrays. A place out of range, which became no point, has 31."""
    if numpy is not None:
        table = numpy.frombuffer(results, ">u4").reshape(-1, 3).astype(numpy.uint32)
        outside = ~numpy.frombuffer(points, ">i4").reshape(-1, 3).any(axis=1)
        table[outside, 0] = POSITION_OUTSIDE
        return Answers(table[:, 0], table[:, 1], table[:, 2])
    numbers = angles.from_bytes(results, unsigned=True)
    table_of = [list(numbers[k::3]) for k in range(3)]
    for i in range(len(table_of[0])):
        if points[12 * i:12 * i + 12] == bytes(12):
            table_of[0][i] = POSITION_OUTSIDE
    return Answers(*table_of)
