"""The command `spargolutta`: its words, and how it ends."""
import argparse
import os
import sys
from typing import Any, List, Optional, Sequence

from . import __version__, verbs
from .library import LibraryMissing
from .report import Failure, Report
from .zone import CHARSETS

_ABOUT = "Which zones of the globe hold which stops: exact verdicts from maps and stop lists."


def _delimiter(text: str) -> str:
    if text != "tab" and (len(text) != 1 or not text.isprintable() or text in "\"\r\n"):
        raise argparse.ArgumentTypeError("one character, or 'tab'")
    return text


def _metres(text: str) -> float:
    try:
        value = float(text)
    except ValueError:
        value = -1.0
    if not 0 < value < 1e7:
        raise argparse.ArgumentTypeError("metres, above 0")
    return value


def _verb(parsers: Any, name: str, run: Any, about: str, example: str) -> argparse.ArgumentParser:
    parser: argparse.ArgumentParser = parsers.add_parser(
        name, help=about, description=about, epilog=f"example:\n  spargolutta {name} {example}",
        formatter_class=argparse.RawDescriptionHelpFormatter)
    parser.set_defaults(run=run)
    return parser


def _add_map_options(parser: argparse.ArgumentParser) -> None:
    group = parser.add_argument_group("zones from maps")
    group.add_argument("--number-from", metavar="PROPERTY", help="the property that has the number")
    group.add_argument("--name-from", metavar="PROPERTY",
                       help="the property that has the name (else 'name', else the file's name)")
    group.add_argument("--grid", choices=("coarse", "fine"), default="coarse",
                       help="steps of six metres, or of ten centimetres for berths")
    group.add_argument("--simplify", type=_metres, metavar="METRES", help="drop vertices within this tolerance")
    group.add_argument("--far-side-inside", action="store_true", help="allow a zone larger than a hemisphere")


def _add_charset(parser: argparse.ArgumentParser, what: str) -> None:
    parser.add_argument("--charset", choices=sorted(CHARSETS), help=f"the character set of {what} (UTF-8)")


def _add_stop_options(parser: argparse.ArgumentParser) -> None:
    group = parser.add_argument_group("stops")
    group.add_argument("--lon", metavar="COLUMN", help="the column with the longitude")
    group.add_argument("--lat", metavar="COLUMN", help="the column with the latitude")
    group.add_argument("--id", metavar="COLUMN", help="the column with the stop's id")
    group.add_argument("--name", metavar="COLUMN", help="the column with the stop's name")
    group.add_argument("--delimiter", type=_delimiter, default=",", help="between fields: one character, or 'tab'")


def parser() -> argparse.ArgumentParser:
    """The command's words."""
    top = argparse.ArgumentParser(prog="spargolutta", description=_ABOUT, epilog=(
        "Exit status: 0 done, 1 something was refused, 2 usage or a file that cannot be read, written or understood."))
    top.add_argument("--version", action="version", version=f"spargolutta {__version__}")
    parsers = top.add_subparsers(metavar="VERB", required=True)

    zone = _verb(parsers, "zone", verbs.zone, "make a sheet from a map (GeoJSON)",
                 "harbour.geojson --number 7 -o piraeus.sheet")
    zone.add_argument("map", metavar="MAP")
    zone.add_argument("-o", dest="output", metavar="FILE", required=True, help="a sheet, a .book, or a folder/")
    _add_charset(zone, "the map, and so of the name in the sheet")
    zone.add_argument("--number", type=int, metavar="N", help="the zone's number (1); further features count on")
    zone.add_argument("--name", help="the zone's name")
    zone.add_argument("--known", metavar="LON,LAT", help="a place inside; else one is found")
    _add_map_options(zone)

    which = _verb(parsers, "which", verbs.which_zones, "say which zones hold each stop",
                  "harbours/ gtfs/stops.txt > found.csv")
    which.add_argument("zones", metavar="ZONES", nargs="+", help="sheets, books, GeoJSON files, or folders of these")
    which.add_argument("stops", metavar="STOPS", help="GTFS stops.txt or another CSV file; - is standard input")
    which.add_argument("--all", action="store_true", help="a row also for each stop that is in none")
    which.add_argument("--json", action="store_true", help="lines of JSON instead of CSV")
    _add_charset(which, "stops and maps")
    _add_stop_options(which)
    _add_map_options(which)

    draw = _verb(parsers, "draw", verbs.draw_zones, "make a page to look at zones and stops, or an SVG picture",
                 "harbours.book gtfs/stops.txt -o map.html")
    draw.add_argument("zones", metavar="ZONES", nargs="+", help="as for which; the last may be a file of stops")
    draw.add_argument("-o", dest="output", metavar="FILE", required=True, help="map.html or map.svg")
    _add_charset(draw, "stops and maps")
    _add_stop_options(draw)
    _add_map_options(draw)

    _add_sheet_verbs(parsers)
    return top


def _add_sheet_verbs(parsers: Any) -> None:
    show = _verb(parsers, "show", verbs.show, "say what sheets and books have in them", "piraeus.sheet")
    show.add_argument("sheets", metavar="SHEET", nargs="+")
    show.add_argument("--json", action="store_true", help="lines of JSON")

    check = _verb(parsers, "check", verbs.check, "say what is refused or doubtful in sheets and books",
                  "harbours.book")
    check.add_argument("sheets", metavar="SHEET", nargs="+")
    check.add_argument("--far-side-inside", action="store_true", help="allow zones larger than a hemisphere")

    compare = _verb(parsers, "compare", verbs.compare, "say what two sheets differ in", "old.sheet new.sheet")
    compare.add_argument("old", metavar="OLD")
    compare.add_argument("new", metavar="NEW")

    book = _verb(parsers, "book", verbs.book, "join sheets to a book", "*.sheet -o harbours.book")
    book.add_argument("sheets", metavar="SHEET", nargs="+")
    book.add_argument("-o", dest="output", metavar="FILE", required=True, help="the book to write")


def _with_known(words: Sequence[str]) -> List[str]:
    """`--known -23.5,37.9` as one word, so that the minus does not begin an option."""
    joined: List[str] = []
    for word in words:
        if joined and joined[-1] == "--known":
            joined[-1] = f"--known={word}"
        else:
            joined.append(word)
    return joined


def main(words: Optional[Sequence[str]] = None) -> int:
    """Runs the command; the exit status."""
    args = parser().parse_args(_with_known(sys.argv[1:] if words is None else words))
    report = Report()
    try:
        args.run(args, report)
        sys.stdout.flush()
    except Failure as failure:
        report.status = 2
        print(failure, file=sys.stderr)
    except BrokenPipeError:
        os.dup2(os.open(os.devnull, os.O_WRONLY), sys.stdout.fileno())
        return 2
    except LibraryMissing as missing:
        print(f"spargolutta: {missing}", file=sys.stderr)
        return 2
    except OSError as error:
        print(f"standard output: {error.strerror}", file=sys.stderr)
        os.dup2(os.open(os.devnull, os.O_WRONLY), sys.stdout.fileno())
        return 2
    except KeyboardInterrupt:
        print("interrupted", file=sys.stderr)
        return 130
    return report.status
