"""The shared library: where it is, and the calls of spargolutta.h that this package makes.

Looked for in this order: the file that the environment variable SPARGOLUTTA_LIBRARY names, a library beside this file
(pip puts it there), one built in the repository that this file is part of, an installed one.
"""
import ctypes
import ctypes.util
import os
import sys
from pathlib import Path
from typing import Any, Dict, Iterator, Tuple

HERE = Path(__file__).resolve().parent
MAJOR = 1
SHEET_MOST = 49_319
NAME_MOST = 120
VERTICES_MOST = 4_096
SHEETS_MOST = 64

_TYPES = {"p": ctypes.c_void_p, "z": ctypes.c_size_t, "u": ctypes.c_uint32, "i": ctypes.c_int32, "U": ctypes.c_uint64}

# Arguments, then the result. p and z are a buffer and its length, u and i numbers of 32 bits, U one of 64.
_CALLS = """
judge_number pziii:u
judge_place pziii:z
judge_count pziii:u
feed_number pzpzpz:u
feed_place pzpzz:z
choose_number pzpz:u
choose_place pzpz:z
basin_number pzu:u
basin_place pzu:z
basin_count pzu:u
book_feed_number pzupzpz:u
book_feed_place pzupzz:z
book_next_number pzz:u
book_next_place pzz:z
book_next_count pzz:z
compare_number pzpz:u
compare_place pzpz:z
compare_way pzpz:u
compare_fields pzpz:U
far_number pz:u
import_number pzuupziiipz:u
import_place pzuupziiiz:z
point_number ii:u
points_number pzupz:u
write_number uupziiiiiipzupz:u
write_place uupziiiiiipzuz:z
sheet_number pz:u
sheet_place pz:z
sheet_zone pz:u
sheet_charset pz:u
sheet_name_place pz:z
sheet_name_length pz:z
sheet_known_x pz:i
sheet_known_y pz:i
sheet_known_z pz:i
sheet_second_x pz:i
sheet_second_y pz:i
sheet_second_z pz:i
sheet_grid pz:u
sheet_vertices pz:z
vertices_number pzpz:u
meaning_text upz:z
place_kind u:u
"""


class LibraryMissing(OSError):
    """No library was found, or one that lacks a call."""


def _candidates() -> Iterator[str]:
    """Files that may be the library, the wanted one first."""
    named = os.environ.get("SPARGOLUTTA_LIBRARY")
    if named:
        yield named
        return
    suffix = {"darwin": ".dylib", "win32": ".dll"}.get(sys.platform, ".so")
    yield from map(str, sorted(HERE.glob("libspargolutta*" + suffix)))
    tree = HERE.parent.parent
    if (tree / "include" / "spargolutta.h").exists():
        for folder in ("target/sharedlib", "target/portable"):
            yield str(tree / folder / ("libspargolutta" + suffix))
    installed = ctypes.util.find_library("spargolutta")
    if installed:
        yield installed
    yield f"libspargolutta.so.{MAJOR}"


class Library:
    """The calls by their names, from the library that is found at the first of them."""

    def __getattr__(self, name: str) -> Any:
        if not name.startswith("spg_"):
            raise AttributeError(name)
        self.__dict__.update(_declared(*_loaded()))
        return self.__dict__[name]


def _declared(library: ctypes.CDLL, path: str) -> Dict[str, Any]:
    """The calls with their types. Raises LibraryMissing."""
    calls = {}
    for name, types in (line.split() for line in _CALLS.strip().split("\n")):
        arguments, result = types.split(":")
        try:
            call = getattr(library, "spg_" + name)
        except AttributeError:
            raise LibraryMissing(f"{path}: a library without spg_{name}, so an older one") from None
        call.argtypes, call.restype = [_TYPES[letter] for letter in arguments], _TYPES[result]
        calls["spg_" + name] = call
    return calls


def _loaded() -> Tuple[ctypes.CDLL, str]:
    """The first library that is there, and its file. Raises LibraryMissing."""
    problem = ""
    for path in _candidates():
        try:
            return ctypes.CDLL(path), path
        except OSError as error:
            if Path(path).exists():
                problem = f": {error}"
    raise LibraryMissing("libspargolutta is not found: install it, or name its file by SPARGOLUTTA_LIBRARY" + problem)


lib = Library()
