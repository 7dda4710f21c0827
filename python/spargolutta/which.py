"""`which`: the zones that hold each stop."""
import csv
import json
import os
import sys
from typing import Any, Iterator, List, NamedTuple, Sequence, Tuple

from . import angles
from .angles import Position
from .book import Book, Sets
from .library import lib
from .numbers import DONE, Refused
from .report import Failure, Progress, Report, stop_text, why_not
from .stops import Part, Stops, Wanted
from .zone import Zone

HEADER = ("stop_id", "stop_name", "zone", "zone_name", "verdict", "side")


class Row(NamedTuple):
    """A stop and a zone that holds it."""

    stop_id: str
    stop_name: str
    zone: str
    zone_name: str
    verdict: str
    side: str


class Judge:
    """Rows for parts of a list of stops; what is refused is said."""

    def __init__(self, zones: Sequence[Zone], path: str, every: bool, report: Report) -> None:
        self._book, self._path, self._every, self._report = Book(zones), path, every, report
        self._called = [(str(zone.number), zone.name) for zone in zones]

    def rows(self, part: Part) -> List[Row]:
        """The rows of a part, by stops and then by zones."""
        found: List[Row] = []
        for k, sets in enumerate(self._book.which_of(part.positions)):
            if any(sets):
                found += self._rows_of(part, k, sets)
            elif self._every:
                found.append(Row(part.ids[k], part.names[k], "", "", "outside", ""))
        return found

    def _rows_of(self, part: Part, k: int, sets: Sets) -> Iterator[Row]:
        stop = (part.ids[k], part.names[k])
        position = Position(*angles.from_bytes(part.positions[8 * k:8 * k + 8]))
        if sets.refused:
            self._refuse(part.lines[k], stop, position, sets.refused)
        for i, zone in enumerate(self._book.zones):
            if sets.inside >> i & 1:
                yield Row(*stop, *self._called[i], "inside", "")
            elif sets.boundary >> i & 1:
                side = zone.judge_point(angles.grid_points([position], zone.grid)[0]).place
                yield Row(*stop, *self._called[i], "boundary", str(side))

    def _refuse(self, line: int, stop: Tuple[str, str], position: Position, refused: int) -> None:
        """Says why a stop was refused: by its degrees, or by each zone that refuses it."""
        at = f"{self._path}, line {line}"
        number = lib.spg_point_number(*position)
        if number != DONE:
            lon, lat = map(angles.to_text, position)
            self._report.refuse(at, stop_text(*stop, Refused(number, 0, 0, f"longitude {lon}, latitude {lat}", "none")))
            return
        for i, zone in enumerate(self._book.zones):
            if refused >> i & 1:
                try:
                    zone.judge_point(angles.grid_points([position], zone.grid)[0])
                except Refused as why:
                    why.where = f"zone {zone.number} ({zone.name}), {angles.words(position)}"
                    self._report.refuse(at, stop_text(*stop, why))


class Output:
    """Rows to standard output, as CSV with a header or as lines of JSON."""

    def __init__(self, as_json: bool) -> None:
        self._json = as_json
        reconfigure: Any = getattr(sys.stdout, "reconfigure")
        reconfigure(encoding="utf-8", newline="", errors="backslashreplace")
        self._writer: Any = csv.writer(sys.stdout, lineterminator="\n")
        if not as_json:
            self._writer.writerow(HEADER)

    def write(self, rows: Sequence[Row]) -> None:
        """Writes the rows at once."""
        if self._json:
            sys.stdout.write("".join(json.dumps(_typed(row), ensure_ascii=False) + "\n" for row in rows))
        else:
            self._writer.writerows(rows)
        sys.stdout.flush()


def _typed(row: Row) -> Any:
    """A row with its numbers as numbers, and null where there is none."""
    return {**row._asdict(), "zone": int(row.zone) if row.zone else None, "zone_name": row.zone_name or None,
            "side": int(row.side) if row.side else None}


def open_stops(path: str) -> Any:
    """The file's bytes; standard input for `-`. Raises Failure."""
    if path == "-":
        return sys.stdin.buffer
    try:
        return open(path, "rb")
    except (OSError, ValueError) as error:
        raise Failure(path, why_not(error) if isinstance(error, OSError) else error) from None


def run(zones: Sequence[Zone], path: str, wanted: Wanted, every: bool, as_json: bool, report: Report) -> None:
    """Judges all stops of a file and writes the rows."""
    with open_stops(path) as file:
        stops = Stops(file, "standard input" if path == "-" else path, wanted, report)
        judge = Judge(zones, "standard input" if path == "-" else path, every, report)
        output, count = Output(as_json), 0
        progress = Progress(os.path.getsize(path) if os.path.isfile(path) else None)
        for part in stops:
            output.write(judge.rows(part))
            count += len(part.lines)
            progress.at(part.read, count)
        progress.end()
