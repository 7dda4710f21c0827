"""What each verb of the command does."""
import argparse
import json
import os
from dataclasses import replace
from pathlib import Path
from typing import List, Sequence

from . import angles, describe, draw, inputs, svg, which
from .angles import Position
from .book import Book
from .inputs import Loaded
from .maps import Options
from .numbers import Refused
from .report import Failure, Report, why_not
from .stops import Stops, Wanted
from .zone import CHARSETS, CODECS, UTF8


def _known(text: str) -> Position:
    """A place as `LON,LAT`. Raises Failure."""
    try:
        lon, lat = map(angles.of_text, text.split(","))
    except ValueError:
        raise Failure("--known", f"'{text}' is not LON,LAT in degrees") from None
    return Position(lon, lat)


def options_of(args: argparse.Namespace) -> Options:
    """How zones are made of maps, by the words that all verbs share. Raises Failure."""
    return Options(grid=angles.GRIDS.index(args.grid), charset=CHARSETS[args.charset] if args.charset else UTF8,
                   simplify=args.simplify, far_side_inside=args.far_side_inside, number_from=args.number_from,
                   name_from=args.name_from)


def write(path: str, data: bytes) -> None:
    """Writes a file whole, or leaves what was there. Raises Failure."""
    beside = f"{path}.new-{os.getpid()}"
    try:
        if os.path.exists(path) and not os.path.isfile(path):
            Path(path).write_bytes(data)
            return
        Path(beside).write_bytes(data)
        os.replace(beside, path)
    except (OSError, ValueError) as error:
        if os.path.exists(beside):
            os.unlink(beside)
        raise Failure(path, why_not(error) if isinstance(error, OSError) else error) from None


def zone(args: argparse.Namespace, report: Report) -> None:
    """A sheet from a map; a folder of sheets or a book where it has several features."""
    data = inputs.read(args.map)
    known = None if args.known is None else _known(args.known)
    options = replace(options_of(args), known=known, number=args.number, name=args.name)
    found = list(inputs.map_zones(args.map, data, options, report))
    into = args.output
    if not found:
        return
    if into.endswith("/") or os.path.isdir(into):
        _write_folder(into, found)
    elif len(found) == 1 and not into.endswith(".book"):
        write(into, found[0].zone.sheet)
    elif into.endswith(".book"):
        write(into, _book(found, into))
    else:
        raise Failure(args.map, f"{len(found)} zones: name a folder (-o {Path(into).stem}/) or a .book to write")


def _write_folder(into: str, found: Sequence[Loaded]) -> None:
    numbers = [loaded.zone.number for loaded in found]
    twice = [number for number in numbers if numbers.count(number) > 1]
    if twice:
        raise Failure(into, f"two zones have the number {twice[0]}, and files are named by it")
    try:
        os.makedirs(into, exist_ok=True)
    except OSError as error:
        raise Failure(into, why_not(error)) from None
    for loaded in found:
        write(os.path.join(into, f"{loaded.zone.number}.sheet"), loaded.zone.sheet)


def _book(found: Sequence[Loaded], path: str) -> bytes:
    try:
        return bytes(Book(loaded.zone for loaded in found))
    except Refused as refused:
        raise Failure(path, f"refused: {refused}: {len(found)} zones, and a book has up to 64") from None


def book(args: argparse.Namespace, report: Report) -> None:
    """Joins sheets to a book; where one is refused none is written."""
    found = inputs.sheet_zones(args.sheets, report)
    if report.status == 0:
        write(args.output, _book(found, args.output))


def show(args: argparse.Namespace, report: Report) -> None:
    """What each zone is."""
    for i, loaded in enumerate(inputs.sheet_zones(args.sheets, report)):
        told = describe.shown(loaded.path, loaded.zone)
        if args.json:
            print(json.dumps({key.replace(" ", "_"): value for key, value in told.items()}, ensure_ascii=False))
            continue
        if i > 0:
            print()
        for key, value in told.items():
            if value is not None:
                print(f"{key + ':':20} {value}")


def check(args: argparse.Namespace, report: Report) -> None:
    """Refusals and doubts."""
    found: List[Loaded] = inputs.sheet_zones(args.sheets, report)
    for path, checked in found:
        told = describe.doubts(checked)
        called = f"zone {checked.number} ({checked.name})"
        if args.far_side_inside:
            told = [doubt for doubt in told if not doubt.startswith("the far side")]
        for doubt in told:
            print(f"{path}: {called}: doubt: {doubt}")
        if not told:
            print(f"{path}: {called}: good")
        if any(doubt.startswith("the far side") for doubt in told):
            report.status = max(report.status, 1)


def compare(args: argparse.Namespace, report: Report) -> None:
    """What two sheets differ in."""
    pair = [list(inputs.sheets(path, inputs.read(path), report)) for path in (args.old, args.new)]
    for path, found in zip((args.old, args.new), pair):
        if len(found) > 1:
            raise Failure(path, f"a book of {len(found)} zones: one sheet is compared with one")
    if report.status == 0:
        told = describe.differences(pair[0][0].zone, pair[1][0].zone)
        print("\n".join(told) if told else "no difference")


def which_zones(args: argparse.Namespace, report: Report) -> None:
    """Which zones hold each stop."""
    found = inputs.zones(args.zones, options_of(args), report)
    if not found:
        raise Failure(args.zones[0], "no zone to judge by")
    which.run([loaded.zone for loaded in found], args.stops, wanted_of(args), args.all, args.json, report)


def _is_zone(path: str) -> bool:
    """Whether a path has zones: a folder, a map, a sheet or a book. Raises Failure."""
    if os.path.isdir(path):
        return True
    data = inputs.read(path)
    return inputs.is_map(data) or inputs.is_sheet(data)


def draw_zones(args: argparse.Namespace, report: Report) -> None:
    """A page or a picture of zones and stops; the last file is one of stops if it is no zone."""
    paths, last = list(args.zones), args.zones[-1]
    stops_path = paths.pop() if last == "-" or not _is_zone(last) else None
    found = [loaded.zone for loaded in inputs.zones(paths, options_of(args), report)]
    if not found:
        raise Failure(last, "no zone to draw")
    stops = []
    if stops_path is not None:
        with which.open_stops(stops_path) as file:
            called = "standard input" if stops_path == "-" else stops_path
            stops = draw.stop_data(found, Stops(file, called, wanted_of(args), report), called, report)
    if args.output.endswith(".svg"):
        write(args.output, svg.picture(found, stops))
        return
    if draw.library_as_wasm() is None:
        report.say(args.output, "without the library as WebAssembly: the page shows the verdicts on its stops alone")
    write(args.output, draw.page(found, stops))


def wanted_of(args: argparse.Namespace) -> Wanted:
    """How the stops are written, by the command's words."""
    return Wanted(args.lon, args.lat, args.id, args.name, {"tab": "\t"}.get(args.delimiter, args.delimiter),
                  CODECS[CHARSETS[args.charset]] if args.charset else "utf-8")
