"""Lines, areas and tracks of rows: files of a package, and layers of the standard (docs/FORMATS.md, section 12)."""

import dataclasses
import datetime
import json
import math
import struct
import xml.etree.ElementTree

import points
from border import first_free, quoted

GEOJSON, GPX = "application/geo+json", "application/gpx+xml"
WGS_84 = 4326
# By kind, what a layer of it is called, and the geometry that it has.
LAYERS = {"line": ("lines", "LINESTRING"), "area": ("areas", "POLYGON"), "track": ("tracks", "MULTILINESTRING")}
COLUMNS = {"row": "INTEGER NOT NULL", "title": "TEXT NOT NULL", "item": "INTEGER NOT NULL"}
MOMENTS = {"began": "DATETIME", "ended": "DATETIME"}
LINE_OF, POLYGON_OF, LINES_OF = 2, 3, 5
# Each file of a row that a relation of the name media relates to it, and that may be a shape.
RELATED = """
SELECT r.base_table_name, m.base_id, w.title, r.related_table_name, m.related_id, p.content_type, b.data
FROM package.gpkgext_relations r JOIN package.mm_map m ON m.mapping = r.mapping_table_name
JOIN package.mm_rows w ON w.table_name = r.base_table_name AND w.id = m.base_id
JOIN package.mm_media p ON p.table_name = r.related_table_name AND p.id = m.related_id
JOIN package.mm_blobs b ON b.id = p.blob
WHERE r.relation_name = 'media' AND p.content_type IN (?, ?)
ORDER BY r.base_table_name, m.base_id, r.mapping_table_name, m.related_id
"""


@dataclasses.dataclass
class Shape:
    """A line, an area or a track: its parts in metres of a system, and in degrees, as far as they are told."""

    kind: str
    system: int | None = None
    metres: list | None = None
    degrees: list | None = None
    moments: tuple = (None, None)


@dataclasses.dataclass
class Item:
    """A shape of a row of a table."""

    table: str
    row: int
    title: str
    media: str
    number: int
    shape: Shape


def is_number(it, most):
    return isinstance(it, (int, float)) and not isinstance(it, bool) and abs(it) <= most


def points_in(told, most):
    """Points of a list of GeoJSON; None where it is none of such."""
    if not isinstance(told, list) or not all(isinstance(it, list) and len(it) >= 2 for it in told):
        return None
    found = [tuple(it[:2]) for it in told]
    return found if all(is_number(part, most) for it in found for part in it) else None


def without_end(ring):
    """A ring without the first point once more."""
    return ring[:-1] if len(ring) > 1 and ring[0] == ring[-1] else ring


def is_whole(kind, parts):
    """Whether parts are a line, or an area with its rings."""
    return bool(parts) and all(it is not None and len(it) >= (3 if kind == "area" else 2) for it in parts)


def degrees_in(geometry):
    """The kind and the parts of a geometry of GeoJSON; None twice where it is no line and no area."""
    geometry = geometry if isinstance(geometry, dict) else {}
    told, sort = geometry.get("coordinates"), str(geometry.get("type"))
    kind = {"LineString": "line", "Polygon": "area"}.get(sort)
    parts = [told] if kind == "line" else told if isinstance(told, list) else []
    found = [points_in(it, 360) for it in parts]
    if kind == "area":
        found = [it and without_end(it) for it in found]
    return (kind, found) if kind and is_whole(kind, found) else (None, None)


def of_geojson(data):
    """The line or area of a text of GeoJSON, None where it is none; its corners in a system count, where it has
    some."""
    try:
        told = json.loads(data)
    except (ValueError, RecursionError):
        return None
    if not isinstance(told, dict) or told.get("type") != "Feature":
        return None
    kind, degrees = degrees_in(told.get("geometry"))
    own = told.get("properties") if isinstance(told.get("properties"), dict) else {}
    corners, system = points_in(own.get("corners"), points.COORDINATE_LIMIT), own.get("system")
    if own.get("kind") in ("line", "area") and type(system) is int and corners:
        return Shape(own["kind"], system, [corners], degrees) if is_whole(own["kind"], [corners]) else None
    return Shape(kind, None, None, degrees) if kind else None


def moment_of(text):
    """A moment as a GeoPackage has it, None where a text tells none."""
    try:
        told = datetime.datetime.fromisoformat((text or "").strip().replace("Z", "+00:00"))
    except ValueError:
        return None
    if told.tzinfo is None:
        return None
    return told.astimezone(datetime.timezone.utc).strftime("%Y-%m-%dT%H:%M:%S.%f")[:-3] + "Z"


def of_gpx(data):
    """The tracks of a text of GPX as one, None where it has none that is longer than a place."""
    try:
        root = xml.etree.ElementTree.fromstring(data)
        parts = [
            [(float(it.get("lon")), float(it.get("lat"))) for it in part.iterfind("{*}trkpt")]
            for part in root.iterfind("{*}trk/{*}trkseg")
        ]
    except (xml.etree.ElementTree.ParseError, ValueError, TypeError):
        return None
    parts = [part for part in parts if len(part) > 1]
    if not parts or not all(math.isfinite(number) for part in parts for it in part for number in it):
        return None
    times = [moment_of(it.text) for it in root.iterfind("{*}trk/{*}trkseg/{*}trkpt/{*}time")]
    known = sorted(it for it in times if it)
    return Shape("track", None, None, parts, (known[0], known[-1]) if known else (None, None))


def shape_of(content_type, data):
    """The shape of a file, None where it is none."""
    return of_gpx(data) if content_type == GPX else of_geojson(data)


def system_of(shape, systems):
    """The system in which a shape goes out: that of its corners, else WGS 84; None where it has none of both."""
    if shape.metres and shape.system in systems:
        return shape.system
    return WGS_84 if shape.degrees else None


def ring_of(part):
    """A ring that is closed, and goes round against the clock."""
    ring = without_end(list(part))
    east, north = ring[0]  # near which large coordinates cost no digits
    near = [(x - east, y - north) for x, y in ring]
    twice = sum(x * near[(at + 1) % len(near)][1] - near[(at + 1) % len(near)][0] * y for at, (x, y) in enumerate(near))
    ring = ring if twice >= 0 else [ring[0], *reversed(ring[1:])]
    return [*ring, ring[0]]


def well_known(kind, parts):
    """A shape as WKB, the least byte first. Rings behind the first go round as the clock does."""

    def points_of(list_of):
        return struct.pack("<I", len(list_of)) + b"".join(struct.pack("<dd", *it) for it in list_of)

    if kind == "line":
        return struct.pack("<BI", 1, LINE_OF) + points_of(parts[0])
    if kind == "area":
        rings = [ring_of(it) if at == 0 else ring_of(it)[::-1] for at, it in enumerate(parts)]
        return struct.pack("<BII", 1, POLYGON_OF, len(rings)) + b"".join(map(points_of, rings))
    lines = [struct.pack("<BI", 1, LINE_OF) + points_of(it) for it in parts]
    return struct.pack("<BII", 1, LINES_OF, len(lines)) + b"".join(lines)


def geometry_of(shape, system):
    """A shape as the standard has it: its head without an envelope, and WKB."""
    parts = shape.degrees if system == WGS_84 else shape.metres
    return struct.pack("<2sBBi", b"GP", 0, 1, system) + well_known(shape.kind, parts)


def items_of(out, report):
    """By table, kind and system, the shapes of rows; those that have no place in a layer are named."""
    numbers = {it for (it,) in out.execute("SELECT srs_id FROM package.gpkg_spatial_ref_sys")}
    systems = {it for it in numbers if -1 <= it < 2**31 and it not in (0, WGS_84)}
    found = {}
    for table, row, title, media, number, content_type, data in out.execute(RELATED, (GEOJSON, GPX)):
        shape = shape_of(content_type, data)
        system = system_of(shape, systems) if shape else None
        if system is None:
            report.note(f"item {number} of {media}", "no line, no area and no track for a layer; it is in its table")
            continue
        found.setdefault((table, shape.kind, system), []).append(Item(table, row, title, media, number, shape))
    return found


def write(out, report):
    """Writes the layers: of each table and kind one, and one more for each further system, that of the most first."""
    taken = {it for (it,) in out.execute("SELECT name FROM main.sqlite_master")}
    told = {it for (it,) in out.execute("SELECT identifier FROM main.gpkg_contents")}
    for (table, kind, system), items in sorted(items_of(out, report).items(), key=lambda it: (it[0][:2], -len(it[1]))):
        plural, _ = LAYERS[kind]
        name = first_free(f"{table}_{plural}", taken, "_")
        query = "SELECT identifier FROM package.gpkg_contents WHERE table_name = ?"
        (of,) = out.execute(query, (table,)).fetchone()
        identifier = first_free(f"{of}, {plural}", told, " ")
        taken.add(name)
        told.add(identifier)
        write_layer(out, name, identifier, kind, system, items)


def write_layer(out, name, identifier, kind, system, items):
    """A layer of the shapes of a table's rows, with these rows' numbers and titles, and the items' numbers."""
    _, geometry = LAYERS[kind]
    columns = COLUMNS | (MOMENTS if kind == "track" else {})
    told = ", ".join(f"{quoted(column)} {sort}" for column, sort in columns.items())
    out.execute(f"CREATE TABLE main.{quoted(name)} (id INTEGER PRIMARY KEY AUTOINCREMENT, geom {geometry}, {told})")
    rows = [
        (geometry_of(it.shape, system), it.row, it.title, it.number, *(it.shape.moments if kind == "track" else ()))
        for it in items
    ]
    names = ", ".join(["geom", *map(quoted, columns)])
    out.executemany(f"INSERT INTO main.{quoted(name)} ({names}) VALUES ({', '.join('?' * (len(columns) + 1))})", rows)
    parts = [part for it in items for part in (it.shape.degrees if system == WGS_84 else it.shape.metres)]
    east, north = [x for part in parts for x, _ in part], [y for part in parts for _, y in part]
    query = "SELECT max(last_change) FROM package.gpkg_contents WHERE table_name IN (?, ?)"
    (change,) = out.execute(query, (items[0].table, items[0].media)).fetchone()
    out.execute(
        "INSERT INTO main.gpkg_contents VALUES (?, 'features', ?, '', ?, ?, ?, ?, ?, ?)",
        (name, identifier, change, min(east), min(north), max(east), max(north), system),
    )
    out.execute("INSERT INTO main.gpkg_geometry_columns VALUES (?, 'geom', ?, ?, 0, 0)", (name, geometry, system))


def are_columns(columns):
    """Whether a layer's columns are those of shapes, which come in as files of their rows."""
    own = ["id", "geom", *COLUMNS]
    return list(columns) in (own, [*own, *MOMENTS])
