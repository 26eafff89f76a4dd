"""Places in systems that a page can't reckon itself, brought there from degrees, and back, by PROJ's own operations.

Wants GDAL's modules, and projinfo of Debian's proj-bin, which tells what an operation is worth. No series of our own
and no file of the network takes part.
"""

import functools
import math
import os
import re
import subprocess

from osgeo import osr

osr.UseExceptions()

DEGREES = "EPSG:4326"
MOST_PLACES, MOST_DEFINITION = 5_000, 8_192
# How often an operation is looked for at most for one question.
MOST_OPERATIONS = 64
# An operation is chosen for cells of so many parts of a degree, in which all places of a question are.
CELLS = 100
PATIENCE = 20
WKT = re.compile(r"\s*[A-Z_]+\[")
# What projinfo says of an operation: its number, its name, within how many metres it is, and where it holds.
OPERATION = re.compile(
    r"(?m)^Operation No\. [0-9]+:\n\n[^,\n]+, (.*?), (unknown accuracy|[0-9.e+-]+ m), .*\n\nPROJ string:\n(.+)$"
)


class Cannot(Exception):
    """What can't be brought over, in words."""


def word_of(told):
    """How PROJ is asked for a system that a question tells: by a number at EPSG, or by its definition."""
    number, definition = told.get("epsg"), told.get("definition")
    if isinstance(number, int) and not isinstance(number, bool) and 0 < number < 10**7:
        return f"EPSG:{number}"
    if isinstance(definition, str) and len(definition) <= MOST_DEFINITION and WKT.match(definition):
        return definition
    raise ValueError(told)


def in_order(word):
    """A system whose places are told as easting and northing, or as longitude and latitude."""
    made = osr.SpatialReference()
    made.SetFromUserInput(word)
    made.SetAxisMappingStrategy(osr.OAMS_TRADITIONAL_GIS_ORDER)
    return made


@functools.lru_cache(64)
def checked(word):
    """A system by its word; Cannot where PROJ knows none, or it isn't in metres."""
    try:
        system = in_order(word)
    except RuntimeError as error:
        raise Cannot(f"PROJ knows no such system: {error}") from error
    if not system.IsProjected() or system.GetLinearUnits() != 1:
        raise Cannot("the system isn't in metres")
    return word


def said_of_operations(word, box):
    """What projinfo says of the operations that hold in all of a box of degrees, and whose files are there."""
    how = ["--spatial-test", "contains", "--hide-ballpark", "--grid-check", "discard_missing", "-o", "PROJ"]
    words = ["projinfo", "-s", DEGREES, "-t", word, "--bbox", ",".join(map(str, box)), *how, "--single-line"]
    try:
        done = subprocess.run(
            words, stdout=subprocess.PIPE, stderr=subprocess.DEVNULL, stdin=subprocess.DEVNULL, timeout=PATIENCE,
            check=False, text=True, env={**os.environ, "PROJ_NETWORK": "OFF"},
        )  # fmt: skip
    except FileNotFoundError as error:
        raise Cannot("PROJ's projinfo isn't there: apt-get install proj-bin") from error
    except subprocess.TimeoutExpired as error:
        raise Cannot("PROJ's projinfo took too long") from error
    return done.stdout


@functools.lru_cache(512)
def operation(word, box):
    """PROJ's best operation in a box of degrees: its name, within how many metres it is, and its steps.

    None where it has none but a ballpark one, which changes no datum. The metres are None where nobody knows them.
    """
    found = OPERATION.search(said_of_operations(word, box))
    if not found:
        return None
    name, accuracy, steps = found.groups()
    return name, None if accuracy == "unknown accuracy" else float(accuracy.removesuffix(" m")), steps


def box_of(places):
    """The cells in which places in degrees are, as west, south, east, north."""
    across, along = zip(*places)
    least = [max(math.floor(min(it) * CELLS) / CELLS, edge) for it, edge in ((across, -180), (along, -90))]
    most = [min((math.floor(max(it) * CELLS) + 1) / CELLS, edge) for it, edge in ((across, 180), (along, 90))]
    return (*least, *most)


def moved(there, places):
    """What becomes of places; None where an operation leads nowhere."""
    found = [it[:2] for it in there.TransformPoints([list(it) for it in places])] if places else []
    return [it if all(map(math.isfinite, it)) else None for it in found]


def roughly(word, places):
    """Where places of a system are in degrees, by whatever operation, to choose one by that."""
    options = osr.CoordinateTransformationOptions()
    options.SetBallparkAllowed(True)
    return moved(osr.CoordinateTransformation(in_order(word), in_order(DEGREES), options), places)


def operations_for(word, near):
    """Which operation holds for which places, by their numbers: one for all, else in parts, so that none that lies far
    off takes that from the others.
    """
    parts, found = [sorted((at for at, it in enumerate(near) if it), key=near.__getitem__)], []
    for _ in range(MOST_OPERATIONS):
        part = parts.pop() if parts else []
        chosen = operation(word, box_of([near[at] for at in part])) if part else None
        if chosen:
            found.append((part, chosen))
        elif len(part) > 1:
            parts += [part[len(part) // 2 :], part[: len(part) // 2]]
    return found


def way_of(word, steps, back):
    """What brings degrees into a system by the steps of an operation, or back."""
    options = osr.CoordinateTransformationOptions()
    options.SetOperation(steps)
    there = osr.CoordinateTransformation(in_order(DEGREES), in_order(word), options)
    return there.GetInverse() if back else there


def brought(told, places, back=False):
    """Places in degrees as east and north of a system, or back, with the operation's name and what that is worth.

    A place for which PROJ has no operation, or of which nobody knows what that is worth, isn't told.
    """
    word = checked(word_of(told))
    if len(places) > MOST_PLACES or not all(map(is_place, places)):
        raise ValueError("no places")
    found = operations_for(word, roughly(word, places) if back else list(map(tuple, places)))
    answer = [None] * len(places)
    for part, (_, worth, steps) in found:
        if worth is not None:
            now = dict(zip(part, moved(way_of(word, steps, back), [places[at] for at in part])))
            answer = [now.get(at, it) for at, it in enumerate(answer)]
    worths = [worth for _, (_, worth, _) in found if worth is not None]
    names = dict.fromkeys(name for _, (name, _, _) in found)
    return {"places": answer, "worth": max(worths, default=None), "name": " / ".join(names)}


def is_place(it):
    return isinstance(it, list) and len(it) == 2 and all(isinstance(to, (int, float)) and abs(to) < 1e9 for to in it)
