"""The ways round: what a file is that is no standard GeoPackage, and commands that make what comes in, as they run."""

import contextlib
import csv
import pathlib
import re
import shlex
import sqlite3
import sys

import zones
from border import name_for

# The folder of the tools where the Debian package has them, whose commands are named mmpkg-NAME.
INSTALLED = pathlib.Path("/usr/share/mmpkg")
COMMANDS = {"fill": "mmpkg-fill", "crew": "mmpkg-crew", "export_standard": "mmpkg-export"}
LOOKED_AT = 1_000_000
# A system that stands for the reader's own.
SYSTEM = 25832
WHERE = "where {} is your projected system in metres"
NO_PLACES = "which has rows without places, since no two columns are E and N, or X and Y"

PICTURES = {
    "a TIFF": (b"II*\0", b"MM\0*", b"II+\0", b"MM\0+"),
    "a PNG": (b"\x89PNG",),
    "a JPEG": (b"\xff\xd8\xff",),
    "JPEG 2000": (b"\0\0\0\x0cjP", b"\xff\x4f\xff\x51"),
    "a VRT": (b"<VRTDataset",),
}
LAYERS = (".shp", ".geojson", ".json", ".kml", ".kmz", ".dxf", ".gml", ".fgb", ".gdb", ".sqlite", ".tab", ".mif")
EAST = ("e", "east", "easting", "rechtswert", "rechts", "rw", "ostwert", "ost", "x")
NORTH = ("n", "north", "northing", "hochwert", "hoch", "hw", "nordwert", "nord", "y")
LONGITUDE = ("lon", "long", "lng", "longitude")
LATITUDE = ("lat", "latitude")
PLAIN = re.compile(r"[A-Za-z_]\w*", re.ASCII)


def command(tool):
    """A tool's command, as who started this one starts that."""
    folder = pathlib.Path(sys.argv[0]).parent
    return COMMANDS[tool] if folder.resolve() == INSTALLED else shlex.quote(str(folder / f"{tool}.py"))


def shell(*words):
    """Words as a shell reads them, in double quotes where single ones stand within."""
    return " ".join(map(shell_word, map(str, words)))


def shell_word(word):
    if "'" not in word or set(word) & set("!$`\\"):
        return shlex.quote(word)
    return '"' + word.replace('"', '\\"') + '"'


def sql_name(name):
    """A name as SQL spells it, without quotes where it needs none."""
    return name if PLAIN.fullmatch(name) and name.lower() not in KEYWORDS else '"' + name.replace('"', '""') + '"'


# Names of columns that are met and that SQL takes for words of its own.
KEYWORDS = {
    "add", "all", "alter", "and", "as", "between", "by", "case", "check", "collate", "commit", "constraint", "create",
    "current_date", "current_time", "current_timestamp", "default", "delete", "distinct", "drop", "else", "end",
    "escape", "except", "exists", "foreign", "from", "group", "having", "in", "index", "insert", "intersect", "into",
    "is", "isnull", "join", "limit", "not", "notnull", "null", "on", "or", "order", "primary", "references", "select",
    "set", "table", "then", "to", "transaction", "union", "unique", "update", "using", "values", "when", "where",
}  # fmt: skip


def fill(source):
    """The command that brings a map in."""
    return f"{command('fill')} FILE {shell(source)}"


def why_no_geopackage(file):
    """What a file is instead of a standard GeoPackage, with the way in; None where it may be one."""
    if file.is_dir():
        return f"is a folder; of tiles {fill(file)} takes them in"
    if not file.exists():
        return "isn't there"
    with open(file, "rb") as opened:
        head = opened.read(LOOKED_AT)
    if head.startswith(b"SQLite format 3\0"):
        return why_other_database(file)
    for what, marks in PICTURES.items():
        if head.startswith(marks):
            return f"is {what} and no GeoPackage; {fill(file)} takes it in as a map"
    return why_other_text(file, head)


def why_other_database(file):
    """What a database of SQLite is that is known and no GeoPackage; None where it may be one."""
    with contextlib.suppress(sqlite3.Error), contextlib.closing(sqlite3.connect(address(file), uri=True)) as opened:
        names = {name for (name,) in opened.execute("SELECT name FROM sqlite_master")}
        if "mm_profile" in names:
            return f"is a package of mmpkg; {command('export_standard')} makes a GeoPackage of one"
        if {"tiles", "metadata"} <= names and "gpkg_contents" not in names:
            return f"is MBTiles and no GeoPackage; {fill(file)} takes it in as a map"
        if "gpkg_contents" not in names and file.suffix.lower() in LAYERS:
            return f"is no GeoPackage; {layers_of(file)}"
    return None


def address(file):
    return f"{file.resolve().as_uri()}?mode=ro&immutable=1"


def why_other_text(file, head):
    """What a file is that is neither database nor picture, by its name and its first bytes."""
    if b"<gpx" in head:
        return f"is GPX and no GeoPackage; {waypoints_of(file, head)}"
    if file.suffix.lower() in (".csv", ".txt", ".tsv", ".asc", ".koo"):
        return f"is a text and no GeoPackage; {table_of(file, head)}"
    if file.suffix.lower() in LAYERS:
        return f"is no GeoPackage; {layers_of(file)}"
    return "no standard GeoPackage; what GDAL reads (ogrinfo FILE) ogr2ogr -f GPKG makes one of"


def layers_of(file):
    return f"{shell('ogr2ogr', '-f', 'GPKG', 'rows.gpkg', file)} makes one, and --columns takes that in"


def waypoints_of(file, head):
    """The command that makes a layer of the points of a GPX."""
    place = re.search(rb'<(?:wpt|trkpt)\s[^>]*>', head)
    text = place[0] if place else b""
    told = [re.search(rb"\s" + name + rb"\s*=\s*[\"'](-?[0-9]+(?:\.[0-9]+)?)", text) for name in (b"lon", b"lat")]
    system = (zones.system_at(*(float(it[1]) for it in told)) if all(told) else None) or SYSTEM
    layer = "track_points" if place and place[0].startswith(b"<trkpt") else "waypoints"
    words = shell("-t_srs", f"EPSG:{system}", "rows.gpkg", file, layer, "-nln", name_for(file.stem))
    return f"ogr2ogr -f GPKG {words} makes one, {WHERE.format(system)}, and --columns takes that in"


def table_of(file, head):
    """The command that makes a layer of a text with a line of names, of any encoding."""
    text, encoding = decoded(head)
    names, sample = first_lines(text)
    places = [next((name for name in names if name.strip().lower() in known), None) for known in (EAST, NORTH)]
    degrees = [next((name for name in names if name.strip().lower() in known), None) for known in (LONGITUDE, LATITUDE)]
    source = [file] if encoding == "utf-8" and file.suffix.lower() == ".csv" else ["CSV:/vsistdin/"]
    words, where = ["-nln", name_for(file.stem)], NO_PLACES
    if all(degrees):
        system = degrees_in(names, sample, degrees)
        words = ["-s_srs", "EPSG:4326", "-t_srs", f"EPSG:{system}", *words, *columns_of_place(degrees)]
        where = WHERE.format(system)
    elif all(places):
        words = ["-a_srs", f"EPSG:{SYSTEM}", *words, *columns_of_place(places)]
        where = f"where {SYSTEM} is the system of its places, {places[0]} the easting and {places[1]} the northing"
    piped = "" if source == [file] else f"iconv -f {encoding} -t utf-8 {shell(file)} | "
    made = shell("ogr2ogr", "-f", "GPKG", "rows.gpkg", *source, *words)
    return f"{piped}{made} makes one, {where}; --columns takes that in"


def columns_of_place(names):
    options = [f"X_POSSIBLE_NAMES={names[0]}", f"Y_POSSIBLE_NAMES={names[1]}", "KEEP_GEOM_COLUMNS=NO"]
    return [word for option in options for word in ("-oo", option)]


def decoded(head):
    """A text that begins with some bytes, and the name of its encoding."""
    for encoding in ("utf-8", "cp1252"):
        with contextlib.suppress(UnicodeDecodeError):
            # What was read may end within a letter.
            return head[: head.rfind(b"\n") + 1 or len(head)].decode(encoding), encoding
    return head.decode("latin1"), "latin1"


def first_lines(text):
    """The names in the first line of a text, and the fields of the second, parted by what is oftest in the first."""
    lines = text.removeprefix("\ufeff").splitlines()[:2]
    sign = max(";,\t", key=lambda it: lines[0].count(it)) if lines else ","
    return ([*csv.reader(lines, delimiter=sign)] + [[], []])[:2]


def degrees_in(names, sample, degrees):
    """The system that suits the place of the first row."""
    told = dict(zip(names, sample))
    with contextlib.suppress(ValueError, KeyError):
        return zones.system_at(*(float(told[name].replace(",", ".")) for name in degrees)) or SYSTEM
    return SYSTEM
