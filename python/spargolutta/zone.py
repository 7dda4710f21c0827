"""A zone: a checked sheet, its parts, and its verdicts. Every one of them is the library's."""
import ctypes
from functools import cached_property
from typing import Any, List, NamedTuple, Optional, Sequence, Tuple, Union

from . import angles
from .angles import COARSE, Number, Point, Position
from .library import SHEET_MOST, lib
from .numbers import BOUNDARY, DONE, POSITION_OUTSIDE, SIDES_SHARE, TOO_MANY_SIDES, Refused, Verdict

UTF8, ISO_8859_7, WINDOWS_1253 = 1, 2, 3
CODECS = {UTF8: "utf-8", ISO_8859_7: "iso8859-7", WINDOWS_1253: "cp1253"}
CHARSETS = {"utf-8": UTF8, "iso-8859-7": ISO_8859_7, "windows-1253": WINDOWS_1253}

Bytes = Union[bytes, bytearray, memoryview]


class Answers(NamedTuple):
    """Answers to many queries: three arrays of one length. A number above 3 is a refusal of that query alone."""

    numbers: Any
    places: Any
    counts: Any


class Zone:
    """A sheet that the library accepts; Refused is raised for any other."""

    def __init__(self, sheet: Bytes) -> None:
        self.sheet = bytes(sheet)
        self._at = (self.sheet, len(self.sheet))
        self.notes: List[str] = []
        number = lib.spg_sheet_number(*self._at)
        if number != DONE:
            raise Refused(number, lib.spg_sheet_place(*self._at), 0, where_in_sheet(self.sheet, number, self._place()))

    def _place(self) -> int:
        return int(lib.spg_sheet_place(*self._at))

    @classmethod
    def write(cls, vertices: bytes, known: Point, number: int, name: Union[str, bytes], grid: int = COARSE,
              charset: int = UTF8, second: Point = (0, 0, 0)) -> "Zone":
        """A zone from its parts; the vertices are twelve bytes each."""
        name = name.encode(CODECS[charset]) if isinstance(name, str) else name
        sheet = ctypes.create_string_buffer(SHEET_MOST)
        parts = (number, charset, name, len(name), *known, *second, vertices, len(vertices), grid)
        refusal = lib.spg_write_number(*parts, sheet, SHEET_MOST)
        place = lib.spg_write_place(*parts, SHEET_MOST)
        if refusal != DONE:
            raise Refused(refusal, place, 0, where_in_vertices(vertices, refusal, place))
        return cls(sheet.raw[:place])

    @classmethod
    def read_text(cls, text: bytes, known: Point, number: int, name: Union[str, bytes], charset: int = UTF8) -> "Zone":
        """A zone by the library's own import, from the strict text that it takes."""
        name = name.encode(CODECS[charset]) if isinstance(name, str) else name
        sheet = ctypes.create_string_buffer(SHEET_MOST)
        parts = (text, len(text), number, charset, name, len(name), *known)
        refusal = lib.spg_import_number(*parts, sheet, SHEET_MOST)
        place = lib.spg_import_place(*parts, SHEET_MOST)
        if refusal != DONE:
            raise Refused(refusal, place)
        return cls(sheet.raw[:place])

    @classmethod
    def from_geojson(cls, text: Union[str, bytes], number: int = 1, name: str = "zone", **options: Any) -> "Zone":
        """A zone from a map of one feature, as tools write it. What was changed is in `notes`, and a warning each.

        Options are those of `maps.Options`: known=(lon, lat), grid, charset, simplify, far_side_inside.
        """
        from .maps import zone_of_text
        return zone_of_text(text, number, name, options)

    @cached_property
    def number(self) -> int:
        """The zone's number."""
        return int(lib.spg_sheet_zone(*self._at))

    @cached_property
    def charset(self) -> int:
        """The character set of the name: 1 UTF-8, 2 ISO 8859-7, 3 windows-1253."""
        return int(lib.spg_sheet_charset(*self._at))

    @cached_property
    def name_bytes(self) -> bytes:
        """The name as it was received."""
        at = lib.spg_sheet_name_place(*self._at)
        return self.sheet[at:at + lib.spg_sheet_name_length(*self._at)]

    @cached_property
    def name(self) -> str:
        """The name as text; bytes that are none in its character set are shown as \\xNN."""
        return self.name_bytes.decode(CODECS[self.charset], "backslashreplace")

    @cached_property
    def grid(self) -> int:
        """0 coarse, 1 fine."""
        return int(lib.spg_sheet_grid(*self._at))

    @cached_property
    def known(self) -> Point:
        """The known point's grid numbers."""
        return (lib.spg_sheet_known_x(*self._at), lib.spg_sheet_known_y(*self._at), lib.spg_sheet_known_z(*self._at))

    @cached_property
    def second(self) -> Optional[Point]:
        """The second known point's grid numbers, or None."""
        point = (lib.spg_sheet_second_x(*self._at), lib.spg_sheet_second_y(*self._at),
                 lib.spg_sheet_second_z(*self._at))
        return point if any(point) else None

    @cached_property
    def vertex_bytes(self) -> bytes:
        """The vertices, twelve bytes each."""
        vertices = bytearray(12 * lib.spg_sheet_vertices(*self._at))
        number = lib.spg_vertices_number(*self._at, angles.lent(vertices), len(vertices))
        if number != DONE:
            raise Refused(number)
        return bytes(vertices)

    @cached_property
    def vertices(self) -> List[Point]:
        """The vertices' grid numbers."""
        numbers = angles.from_bytes(self.vertex_bytes)
        return list(zip(numbers[0::3], numbers[1::3], numbers[2::3]))

    def judge_point(self, point: Point) -> Verdict:
        """The verdict on a point of the zone's grid. Raises Refused."""
        number = lib.spg_judge_number(*self._at, *point)
        verdict = Verdict(number, lib.spg_judge_place(*self._at, *point), lib.spg_judge_count(*self._at, *point))
        if number > BOUNDARY:
            raise Refused(*verdict)
        return verdict

    def judge(self, lon: Number, lat: Number) -> Verdict:
        """The verdict on a place in degrees, rounded to seven decimals half to even. Raises Refused."""
        point = angles.grid_points([(angles.of_number(lon), angles.of_number(lat))], self.grid)[0]
        if point == (0, 0, 0):
            raise Refused(POSITION_OUTSIDE)
        return self.judge_point(point)

    def judge_points(self, points: bytes) -> bytes:
        """Twelve bytes of result (number, place, count) for each point of twelve bytes, in one call."""
        results = bytearray(len(points))
        number = lib.spg_feed_number(*self._at, points, len(points), angles.lent(results), len(results))
        if number != DONE:
            raise Refused(number, lib.spg_feed_place(*self._at, points, len(points), len(results)))
        return bytes(results)

    def judge_many(self, lons: Sequence[Number], lats: Sequence[Number]) -> Answers:
        """Numbers, places and counts for many places; arrays of numpy where it is there."""
        from .many import answers, degrees
        positions = degrees(lons, lats)
        points = angles.points_of(positions, self.grid)
        return answers(points, self.judge_points(points))

    def far_side(self) -> int:
        """1 or 2: the far side of the globe is inside or outside; 0 where the outline has no far side."""
        return int(lib.spg_far_number(*self._at))

    def shared(self) -> Optional[Tuple[int, int]]:
        """None if the outline is simple, else the first two sides that share a point. Refused has 34 over 512 sides."""
        outline = (self.vertex_bytes, len(self.vertex_bytes), self.grid)
        number = lib.spg_basin_number(*outline)
        pair = (lib.spg_basin_place(*outline), lib.spg_basin_count(*outline))
        if number not in (DONE, SIDES_SHARE):
            raise Refused(number, pair[0])
        return pair if number == SIDES_SHARE else None

    def is_simple(self) -> Optional[bool]:
        """Whether no two sides share a point that they may not; None over 512 sides."""
        try:
            return self.shared() is None
        except Refused as refused:
            if refused.number == TOO_MANY_SIDES:
                return None
            raise

    def side(self, i: int) -> Tuple[Position, Position]:
        """The ends of side i, in degrees, to be read by people."""
        ends = self.vertices[i], self.vertices[(i + 1) % len(self.vertices)]
        return angles.place_of(ends[0]), angles.place_of(ends[1])

    def __repr__(self) -> str:
        return f"<Zone {self.number} {self.name!r}, {len(self.vertices)} sides, {angles.GRIDS[self.grid]} grid>"

    def __eq__(self, other: object) -> bool:
        return isinstance(other, Zone) and self.sheet == other.sheet

    def __hash__(self) -> int:
        return hash(self.sheet)

    def __reduce__(self) -> Tuple[type, Tuple[bytes]]:
        return Zone, (self.sheet,)


def where_in_vertices(vertices: bytes, number: int, place: int) -> Optional[str]:
    """Where the vertex or side of a refusal is, in degrees; None where it has none."""
    if number not in (11, 13, 14, 16) or len(vertices) % 12 != 0 or 12 * place >= len(vertices):
        return None
    numbers = angles.from_bytes(vertices)
    count = len(numbers) // 3
    points = [tuple(numbers[3 * i:3 * i + 3]) for i in (place, (place + 1) % count)]
    ends = [angles.words(angles.place_of(point)) for point in points if any(point)]  # type: ignore[arg-type]
    if number == 11:
        return "numbers " + " ".join(map(str, points[0]))
    return " to ".join(ends)


def where_in_sheet(sheet: bytes, number: int, place: int) -> Optional[str]:
    """The same for a sheet whose fields are sound, which numbers 11 to 16 say of it."""
    if not 11 <= number <= 16:
        return None
    at = 14 + int.from_bytes(sheet[12:14], "big") + 15
    length = int.from_bytes(sheet[at + 1:at + 3], "big")
    return where_in_vertices(sheet[at + 3:at + 3 + length], number, place)
