"""Places: words of a note, and points of a layer of the standard (docs/FORMATS.md, 'Numbers and places of a crew')."""

import collections
import dataclasses
import math
import re
import struct

# Unicode's White_Space: what the patterns of Python and of the page's language mean by theirs is not the same.
SPACE = r"[\t-\r \x85\xa0\u1680\u2000-\u200a\u2028\u2029\u202f\u205f\u3000]"
ORDINATE = r"(-?[0-9]{1,9}(?:\.[0-9]{1,6})?)"
PLACE = re.compile(rf"(?:^|{SPACE})@(?:(-1|[1-9][0-9]{{0,15}}):)?{ORDINATE}/{ORDINATE}(?={SPACE}|$)")
# What is meant for a place, whether it is one or not.
MEANT = re.compile(rf"(?:^|{SPACE})@")
COORDINATE_LIMIT = 1_000_000_000
# The bytes of an envelope by its kind in the flags of a geometry.
ENVELOPES = {0: 0, 1: 32, 2: 48, 3: 48, 4: 64}
POINT, FLAGS = 1, 0xE0000000


class OtherGeometry(Exception):
    """A geometry that is no point."""


@dataclasses.dataclass
class Place:
    """A place in metres of a system."""

    system: int
    east: float
    north: float

    def word(self):
        return f"@{self.system}:{decimal(self.east)}/{decimal(self.north)}"


def decimal(metres):
    """Metres with at most six decimals, as a place has them."""
    text = f"{metres:.6f}".rstrip("0").rstrip(".")
    return "0" if text == "-0" else text


def place_in(note, only_system):
    """The place that a note tells, and the rest of the note; None and the note where it tells none."""
    found = PLACE.search(note)
    system = int(found[1]) if found and found[1] else only_system
    if found is None or system is None:
        return None, note
    rest = (note[: found.start()] + note[found.end() :]).strip()
    return Place(system, float(found[2]), float(found[3])), rest


def system_of(places, systems):
    """The system of most places, of those that there are; None where no place has one."""
    counted = collections.Counter(it.system for it in places if it.system in systems)
    return min(counted, key=lambda it: (-counted[it], it)) if counted else None


def geometry_of(place):
    """A point as the standard has it: its head without an envelope, and WKB, both with the least byte first."""
    head = struct.pack("<2sBBi", b"GP", 0, 1, place.system)
    return head + struct.pack("<BIdd", 1, POINT, place.east, place.north)


def point_in(data):
    """East and north of a point of the standard, None where it is empty.

    OtherGeometry is raised where it is of another kind.
    """
    if data is None:
        return None
    try:
        mark, _, flags = struct.unpack_from("<2sBB", data)
        start = 8 + ENVELOPES[flags >> 1 & 7]
        order = "<" if data[start] == 1 else ">"
        (kind,) = struct.unpack_from(order + "I", data, start + 1)
        if mark != b"GP" or (kind & ~FLAGS) % 1000 != POINT:
            raise OtherGeometry
        east, north = struct.unpack_from(order + "dd", data, start + 5)
    except (struct.error, KeyError, IndexError, TypeError) as error:
        raise OtherGeometry from error
    return None if math.isnan(east) and math.isnan(north) else (east, north)
