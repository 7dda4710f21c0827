"""Stops from a CSV text, GTFS's stops.txt or any other with longitude and latitude, read in parts of constant size.

A line that cannot be read is refused by its number, and the rest goes on.
"""
import csv
from typing import BinaryIO, Dict, Iterator, List, NamedTuple, Optional, Sequence, Tuple

from . import angles
from .report import Failure, Report, why_not

LINE_MOST = 1 << 20
_FIRST, _MOST = 64, 16_384
_LONGITUDES = ("stop_lon", "longitude", "lon", "lng")
_LATITUDES = ("stop_lat", "latitude", "lat")
_IDS = ("stop_id", "id")
_NAMES = ("stop_name", "name")
_WITHOUT_PLACE = ("3", "4")  # GTFS: generic nodes and boarding areas need no coordinates


class Wanted(NamedTuple):
    """The names of columns, None where the usual ones are looked for, and how the file is written."""

    lon: Optional[str] = None
    lat: Optional[str] = None
    id: Optional[str] = None
    name: Optional[str] = None
    delimiter: str = ","
    codec: str = "utf-8"


class Columns(NamedTuple):
    """The numbers of the columns; id, name and kind may be missing."""

    lon: int
    lat: int
    id: Optional[int]
    name: Optional[int]
    kind: Optional[int]


class Part(NamedTuple):
    """Some stops: line, id, name of each, and all positions, eight bytes each. Bytes read so far."""

    lines: List[int]
    ids: List[str]
    names: List[str]
    positions: bytes
    read: int


class Lines:
    """The lines of a file as text; one that is not in the character set is refused and left out."""

    def __init__(self, file: BinaryIO, path: str, codec: str, report: Report) -> None:
        self._file, self._path, self._codec, self._report = file, path, codec, report
        self.number, self.read = 0, 0

    def __iter__(self) -> Iterator[str]:
        while True:
            try:
                line = self._file.readline(LINE_MOST)
            except OSError as error:
                raise Failure(self._path, why_not(error)) from None
            if not line:
                return
            self.number += 1
            self.read += len(line)
            if self.number == 1 and self._codec == "utf-8":
                line = line.removeprefix(b"\xef\xbb\xbf")
            if len(line) == LINE_MOST:
                raise Failure(self._path, f"line {self.number}: longer than {LINE_MOST} bytes")
            try:
                yield line.decode(self._codec)
            except UnicodeDecodeError as error:
                self._report.refuse(f"{self._path}, line {self.number}",
                                    f"byte {line[error.start]:#04x} is not {self._codec} (--charset names another)")
                yield "\n"


def _find(header: Dict[str, int], wanted: Optional[str], usual: Sequence[str], path: str, what: str) -> Optional[int]:
    """The number of a column by its name, or by the usual ones. Raises Failure."""
    if wanted is not None:
        if wanted not in header:
            raise Failure(path, f"no column '{wanted}'; there are: {', '.join(header)[:200]}")
        return header[wanted]
    lowered = {name.strip().lower(): number for name, number in header.items()}
    found = [lowered[name] for name in usual if name in lowered]
    if len(found) > 1 and what in ("lon", "lat"):
        raise Failure(path, f"more than one column may be the {what}: name it with --{what}")
    return found[0] if found else None


def columns_of(row: Sequence[str], wanted: Wanted, path: str) -> Columns:
    """The columns that matter, by the header. Raises Failure."""
    header: Dict[str, int] = {}
    for number, name in enumerate(row):
        header.setdefault(name, number)
    lon = _find(header, wanted.lon, _LONGITUDES, path, "lon")
    lat = _find(header, wanted.lat, _LATITUDES, path, "lat")
    if lon is None or lat is None:
        hint = " (--delimiter)" if len(row) == 1 and any(c in row[0] for c in ";\t|") else ""
        raise Failure(path, "no columns with longitude and latitude: name them with --lon and --lat"
                      f"{hint}; the first line has: {', '.join(row)[:200]}")
    kind = header.get("location_type") if "stop_lon" in header else None
    return Columns(lon, lat, _find(header, wanted.id, _IDS, path, "id"),
                   _find(header, wanted.name, _NAMES, path, "name"), kind)


class Stops:
    """The stops of a file, part by part."""

    def __init__(self, file: BinaryIO, path: str, wanted: Wanted, report: Report) -> None:
        self._path, self._report = path, report
        self._lines = Lines(file, path, wanted.codec, report)
        self._rows = csv.reader(iter(self._lines), delimiter=wanted.delimiter, strict=True)
        self.without_place = 0
        header = next(self._records(), None)
        if header is None:
            raise Failure(path, "an empty file: a first line with the names of columns is needed")
        self._columns = columns_of(header[1], wanted, path)

    def _records(self) -> Iterator[Tuple[int, List[str]]]:
        """Records with the number of their first line; what is no record is refused."""
        while True:
            line = self._rows.line_num + 1
            try:
                row = next(self._rows)
            except StopIteration:
                return
            except csv.Error as error:
                self._report.refuse(f"{self._path}, line {line}", f"not CSV: {error}")
                continue
            if row:
                yield line, row

    def _angles(self, line: int, row: List[str]) -> Optional[Tuple[int, int]]:
        """Longitude and latitude of a record, or None and why not is said."""
        columns = self._columns
        try:
            return angles.of_text(row[columns.lon]), angles.of_text(row[columns.lat])
        except IndexError:
            why = f"{len(row)} fields, and longitude or latitude is not among them"
        except ValueError:
            lon, lat = (row[at].strip() if at < len(row) else "" for at in (columns.lon, columns.lat))
            kind = row[columns.kind].strip() if columns.kind is not None and columns.kind < len(row) else ""
            if not lon and not lat and kind in _WITHOUT_PLACE:
                self.without_place += 1
                return None
            why = f"no degrees: longitude '{lon[:30]}', latitude '{lat[:30]}'"
        self._report.refuse(f"{self._path}, line {line}", why)
        return None

    def __iter__(self) -> Iterator[Part]:
        """Parts, small ones first, so that rows come out while the rest is read."""
        most, lines, ids, names, flat = _FIRST, [], [], [], []  # type: ignore[var-annotated]
        id_at, name_at = (-1 if at is None else at for at in (self._columns.id, self._columns.name))
        for line, row in self._records():
            pair = self._angles(line, row)
            if pair is None:
                continue
            lines.append(line)
            ids.append(row[id_at] if 0 <= id_at < len(row) else str(line))
            names.append(row[name_at] if 0 <= name_at < len(row) else "")
            flat += pair
            if len(lines) == most:
                yield Part(lines, ids, names, _positions(flat), self._lines.read)
                most, lines, ids, names, flat = min(2 * most, _MOST), [], [], [], []
        if lines:
            yield Part(lines, ids, names, _positions(flat), self._lines.read)
        if self.without_place:
            self._report.say(self._path, "generic nodes and boarding areas without coordinates, not judged: "
                             f"{self.without_place}")


def _positions(flat: List[int]) -> bytes:
    try:
        return angles.in_bytes(flat)
    except OverflowError:
        return angles.in_bytes([max(-angles.BEYOND, min(angles.BEYOND, angle)) for angle in flat])
