"""Zones from files: sheets, books, GeoJSON files, and folders of these. What a file is, its bytes say."""
from pathlib import Path
from typing import Iterator, List, NamedTuple, Sequence

from . import geojson, maps
from .book import sheets_of
from .known import FarSideInside, WrongKnown
from .library import SHEET_MOST, SHEETS_MOST
from .maps import NotUnderstood, Options
from .numbers import BOOK_LONG, Refused
from .report import Failure, Report, why_not
from .zone import CODECS, Zone

MAP_MOST = 1 << 28
SUFFIXES = (".sheet", ".book", ".geojson", ".json")
SHEET_CUT = 20


class Loaded(NamedTuple):
    """A zone and the file that it is from."""

    path: str
    zone: Zone


def read(path: str, most: int = MAP_MOST) -> bytes:
    """A file's bytes. Raises Failure."""
    try:
        with open(path, "rb") as file:
            data = file.read(most + 1)
    except (OSError, ValueError) as error:
        raise Failure(path, why_not(error) if isinstance(error, OSError) else error) from None
    if len(data) > most:
        raise Failure(path, f"longer than {most} bytes")
    return data


def is_map(data: bytes) -> bool:
    """Whether the bytes begin as a JSON text does; a sheet begins with its tag, 1."""
    return data[:100].removeprefix(b"\xef\xbb\xbf").lstrip(b" \t\r\n")[:1] in (b"{", b"[")


def is_sheet(data: bytes) -> bool:
    """Whether the bytes begin as a sheet's or a book's do."""
    return data[:1] == b"\x01"


def files_of(path: str) -> List[str]:
    """The path itself, or the files of a folder by name. Raises Failure."""
    folder = Path(path)
    if not folder.is_dir():
        return [path]
    try:
        found = sorted(str(file) for file in folder.iterdir() if file.suffix.lower() in SUFFIXES and file.is_file())
    except OSError as error:
        raise Failure(path, why_not(error)) from None
    if not found:
        raise Failure(path, "no file ends with " + ", ".join(SUFFIXES))
    return found


def sheets(path: str, data: bytes, report: Report) -> Iterator[Loaded]:
    """The zones of a sheet or a book; what is refused is said."""
    place, parts = 0, []  # type: int, List[bytes]
    try:
        if not data:
            raise Refused(SHEET_CUT)
        for sheet in sheets_of(data):
            if len(parts) == SHEETS_MOST:
                raise Refused(BOOK_LONG, place)
            parts.append(sheet)
            place += len(sheet)
    except Refused as refused:
        report.refuse(path, refused)
        return
    for i, sheet in enumerate(parts):
        try:
            yield Loaded(path, Zone(sheet))
        except Refused as refused:
            report.refuse(path, f"sheet {i}: {refused}" if len(parts) > 1 else refused)


def map_zones(path: str, data: bytes, options: Options, report: Report) -> Iterator[Loaded]:
    """The zones of a map, one for each feature; what was changed and what is refused is said."""
    stem = Path(path).stem[:40] or "zone"
    try:
        found = geojson.features(geojson.parse(data, CODECS[options.charset]))
        if options.known is not None and len(found) > 1:
            raise NotUnderstood(f"a known point is for one feature, and here are {len(found)}")
    except (Refused, geojson.NotWgs84) as refused:
        report.refuse(path, refused)
        return
    except NotUnderstood as problem:
        report.fail(path, problem)
        return
    for order, feature in enumerate(found):
        called = f"feature {feature.index}: " if len(found) > 1 else ""
        try:
            number, name = maps.numbered(feature, order, stem, options)
            zone = maps.zone_of(feature, number, name, options)
        except (Refused, WrongKnown, FarSideInside, NotUnderstood) as refused:
            report.refuse(path, f"{called}{refused}")
            continue
        for note in zone.notes:
            report.say(path, f"{called}{note}")
        yield Loaded(path, zone)


def zones(paths: Sequence[str], options: Options, report: Report) -> List[Loaded]:
    """All zones of the paths, in their order. Raises Failure for a file that cannot be read."""
    found: List[Loaded] = []
    for path in paths:
        for file in files_of(path):
            data = read(file)
            if is_map(data):
                found += map_zones(file, data, options, report)
            elif len(data) > SHEETS_MOST * SHEET_MOST + 1:
                raise Failure(file, "longer than any book, and no JSON text")
            else:
                found += sheets(file, data, report)
    return found


def sheet_zones(paths: Sequence[str], report: Report) -> List[Loaded]:
    """The zones of sheets and books alone."""
    found: List[Loaded] = []
    for path in paths:
        for file in files_of(path):
            found += sheets(file, read(file, SHEETS_MOST * SHEET_MOST + 1), report)
    return found
