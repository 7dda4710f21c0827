"""Exact verdicts on places and zones of the sphere, by libspargolutta.

    import spargolutta as spg
    zone = spg.Zone.from_geojson(text, number=7, name="Piraeus")    # or Zone(sheet_bytes)
    zone.judge(lon, lat)            # Verdict(number=1, place=0, count=0); .inside, .boundary, .outside; or Refused
    zone.judge_many(lons, lats)     # arrays of numbers, places, counts
    spg.Book(zones).which(lons, lats)

Degrees are texts, whole numbers, decimals or floats, and are rounded to seven decimals half to even. Nothing in this
package decides a verdict: every one is the library's.
"""
from .angles import COARSE, FINE
from .book import Book, Sets
from .geojson import NotWgs84
from .known import FarSideInside, WrongKnown
from .library import LibraryMissing
from .maps import NotUnderstood, Repaired
from .numbers import BOUNDARY, INSIDE, OUTSIDE, Refused, Verdict, meaning
from .zone import ISO_8859_7, UTF8, WINDOWS_1253, Answers, Zone

__version__ = "1.0.0"
__all__ = ["Answers", "BOUNDARY", "Book", "COARSE", "FINE", "FarSideInside", "INSIDE", "ISO_8859_7", "LibraryMissing",
           "NotUnderstood", "NotWgs84", "OUTSIDE", "Refused", "Repaired", "Sets", "UTF8", "Verdict", "WINDOWS_1253",
           "WrongKnown", "Zone", "meaning"]
