#!/usr/bin/env python3
"""Writes a package as a GeoPackage 1.3, which GDAL and QGIS open.

    tools/export_standard.py FILE OUT.gpkg [--points TABLE ..] [--columns TABLE ..] [--photos FOLDER] [--all-tables]

FILE is a package of mmpkg, which is left as it is; nothing may write it meanwhile. It has to pass 'mmpkg check', with
the program that the environment's MMPKG names, else out/mmpkg of this repository, else mmpkg of the path. Where its
journal holds commits, or another program has it, or it can't be written, a copy of both is read, in the folder that the
environment's TMPDIR names, else /tmp; as large as they are. OUT.gpkg must not be there; it is written under another
name and renamed when it is whole. docs/BORDER.md says what goes across. Editions don't: standard error says how many
are published, whose content is in, and names those that are open. Tiles that the standard has no place for are named
too. What is of use to a package alone is left out and named, but with --all-tables: the crew's page, and map_bounds
where the contents tell all of it.

With --points each attribute table that is named is a layer of points: its rows stand at the places that their notes
tell (docs/FORMATS.md), in the system of most of them, and without the place's word in the note. A row without a place
has no geometry. One whose place is of another system keeps it in its note, and is noted. Relations stay, so a row's
photos are a point's.

With --columns the words NAME=VALUE of the notes of these tables are columns of their own, as an import with --columns
took them in: of whole numbers, of decimal ones, or of text. --photos writes the photos of all rows as files too, into
FOLDER, which must not be there: one folder a table, each file named by its row's title and number, and photos.csv that
lists them.

Lines, areas and tracks that rows are related to are layers too, TABLE_lines, TABLE_areas and TABLE_tracks, beside the
files that they are: each with its row's number and title, in the system of its corners, tracks in WGS 84.

Rows whose note has a word that begins with @ and is no place, and rows whose place is on no map, are named.

Exit status: 0 OUT.gpkg was written; 2 wrong arguments, or a file that can't be read or written; else what 'mmpkg check'
ended with, whose line is told: 3 a fault, 4 no package or one that breaks a rule.
"""

import contextlib
import dataclasses
import os
import pathlib
import re
import sqlite3
import tempfile

import note_words
import photos
import points
import shapes
from border import (
    BOUNDS_TABLE,
    LINE,
    UNITS_OF_VERSION,
    Refused,
    Report,
    Source,
    arguments,
    bounds_of,
    expect_new,
    expect_new_database,
    made_beside,
    quoted,
    run_tool,
)
from packages import word_in

# The tables of OGC 12-128r17, annex C, and of OGC 18-000, as those write them. Where no table has features,
# gpkg_geometry_columns stays empty; without it GDAL lists no attribute table.
TABLES = """
CREATE TABLE gpkg_spatial_ref_sys (srs_name TEXT NOT NULL, srs_id INTEGER NOT NULL PRIMARY KEY,
    organization TEXT NOT NULL, organization_coordsys_id INTEGER NOT NULL, definition TEXT NOT NULL, description TEXT);
CREATE TABLE gpkg_contents (table_name TEXT NOT NULL PRIMARY KEY, data_type TEXT NOT NULL, identifier TEXT UNIQUE,
    description TEXT DEFAULT '', last_change DATETIME NOT NULL DEFAULT (strftime('%Y-%m-%dT%H:%M:%fZ','now')),
    min_x DOUBLE, min_y DOUBLE, max_x DOUBLE, max_y DOUBLE, srs_id INTEGER,
    CONSTRAINT fk_gc_r_srs_id FOREIGN KEY (srs_id) REFERENCES gpkg_spatial_ref_sys (srs_id));
CREATE TABLE gpkg_tile_matrix_set (table_name TEXT NOT NULL PRIMARY KEY, srs_id INTEGER NOT NULL,
    min_x DOUBLE NOT NULL, min_y DOUBLE NOT NULL, max_x DOUBLE NOT NULL, max_y DOUBLE NOT NULL,
    CONSTRAINT fk_gtms_table_name FOREIGN KEY (table_name) REFERENCES gpkg_contents (table_name),
    CONSTRAINT fk_gtms_srs FOREIGN KEY (srs_id) REFERENCES gpkg_spatial_ref_sys (srs_id));
CREATE TABLE gpkg_tile_matrix (table_name TEXT NOT NULL, zoom_level INTEGER NOT NULL, matrix_width INTEGER NOT NULL,
    matrix_height INTEGER NOT NULL, tile_width INTEGER NOT NULL, tile_height INTEGER NOT NULL,
    pixel_x_size DOUBLE NOT NULL, pixel_y_size DOUBLE NOT NULL, CONSTRAINT pk_ttm PRIMARY KEY (table_name, zoom_level),
    CONSTRAINT fk_tmm_table_name FOREIGN KEY (table_name) REFERENCES gpkg_contents (table_name));
CREATE TABLE gpkg_geometry_columns (table_name TEXT NOT NULL, column_name TEXT NOT NULL,
    geometry_type_name TEXT NOT NULL, srs_id INTEGER NOT NULL, z TINYINT NOT NULL, m TINYINT NOT NULL,
    CONSTRAINT pk_geom_cols PRIMARY KEY (table_name, column_name),
    CONSTRAINT uk_gc_table_name UNIQUE (table_name),
    CONSTRAINT fk_gc_tn FOREIGN KEY (table_name) REFERENCES gpkg_contents (table_name),
    CONSTRAINT fk_gc_srs FOREIGN KEY (srs_id) REFERENCES gpkg_spatial_ref_sys (srs_id));
CREATE TABLE gpkg_extensions (table_name TEXT, column_name TEXT, extension_name TEXT NOT NULL, definition TEXT NOT NULL,
    scope TEXT NOT NULL, CONSTRAINT ge_tce UNIQUE (table_name, column_name, extension_name));
"""
RELATIONS_TABLE = """
CREATE TABLE gpkgext_relations (id INTEGER PRIMARY KEY AUTOINCREMENT, base_table_name TEXT NOT NULL,
    base_primary_column TEXT NOT NULL DEFAULT 'id', related_table_name TEXT NOT NULL,
    related_primary_column TEXT NOT NULL DEFAULT 'id', relation_name TEXT NOT NULL,
    mapping_table_name TEXT NOT NULL UNIQUE)
"""

# By a table's kind, its columns behind id, the package's table that has its rows, the columns' names, and what they are
# of in the package.
BYTES = "(SELECT data FROM package.mm_blobs b WHERE b.id = blob)"
TILE_COLUMNS = (
    "zoom_level INTEGER NOT NULL, tile_column INTEGER NOT NULL, tile_row INTEGER NOT NULL, tile_data BLOB NOT NULL, "
    "UNIQUE (zoom_level, tile_column, tile_row)"
)
TILE_NAMES = ("zoom_level, tile_column, tile_row, tile_data", f"zoom_level, tile_column, tile_row, {BYTES}")
USER_TABLES = {
    "two": (TILE_COLUMNS, "mm_tiles", *TILE_NAMES),
    "other": (TILE_COLUMNS, "mm_tiles", *TILE_NAMES),
    "attributes": (
        "title TEXT NOT NULL, note TEXT NOT NULL, amount INTEGER NOT NULL",
        "mm_rows",
        "id, title, note, amount",
        "id, title, note, amount",
    ),
    "media": (
        "data BLOB NOT NULL, content_type TEXT NOT NULL",
        "mm_media",
        "id, data, content_type",
        f"id, {BYTES}, content_type",
    ),
}

DEFINITIONS = {
    "gpkg_zoom_other": "http://www.geopackage.org/spec130/#extension_zoom_other_intervals",
    "gpkg_webp": "http://www.geopackage.org/spec130/#extension_tiles_webp",
    "gpkg_related_tables": "http://www.geopackage.org/18-000.html",
}

WKT = re.compile(
    r"\s*(PROJ|GEOG|GEOC|LOCAL_|VERT_|COMPD_|FITTED_|GEOD|GEODETIC|GEOGRAPHIC|PROJECTED|ENG|ENGINEERING|VERT|COMPOUND|"
    r"BOUND)"
    r"(CS|CRS)\s*[\[(].*[\])]\s*",
    re.DOTALL,
)
# The standard wants a definition of WGS 84, and the package has none in WKT.
WGS_84 = (
    'GEOGCS["WGS 84",DATUM["WGS_1984",SPHEROID["WGS 84",6378137,298.257223563,AUTHORITY["EPSG","7030"]],'
    'AUTHORITY["EPSG","6326"]],'
    'PRIMEM["Greenwich",0,AUTHORITY["EPSG","8901"]],UNIT["degree",0.0174532925199433,AUTHORITY["EPSG","9122"]],'
    'AUTHORITY["EPSG","4326"]]'
)

# How many names of words in a table's notes may become columns: SQLite has no more than 2,000.
MOST_COLUMNS = 500

RELATED = "SELECT base_table_name, related_table_name FROM package.gpkgext_relations"

IS_WEBP = "(substr(tile_data, 1, 4) = x'52494646' AND substr(tile_data, 9, 4) = x'57454250')"
IS_IMAGE = f"(substr(tile_data, 1, 4) = x'89504e47' OR substr(tile_data, 1, 3) = x'ffd8ff' OR {IS_WEBP})"


def wkt_of(system, definition):
    """The definition that the standard gets: as it is where it is WKT, else 'undefined'."""
    if system == 4326:
        return WGS_84
    return definition if WKT.fullmatch(definition) else "undefined"


def write_systems(out, report):
    rows = out.execute(
        "SELECT srs_name, srs_id, organization, organization_coordsys_id, definition, description "
        "FROM package.gpkg_spatial_ref_sys ORDER BY srs_id"
    ).fetchall()
    out.executemany(
        "INSERT INTO main.gpkg_spatial_ref_sys VALUES (?, ?, ?, ?, ?, ?)",
        [(*row[:4], wkt_of(row[1], row[4]), row[5]) for row in rows],
    )
    for row in rows:
        if row[1] >= 2**31:
            report.note(f"system {row[1]}", "GDAL reads numbers of systems as 32 bits, and takes it for another")


def write_contents(out, units):
    """The contents, the matrix sets and the matrices, with coordinates and pixel sizes in metres."""
    metres = {"units": float(units)}
    extent = "min_x / :units, min_y / :units, max_x / :units, max_y / :units"
    out.execute(
        f"INSERT INTO main.gpkg_contents SELECT table_name, data_type, identifier, description, last_change, {extent}, "
        "srs_id FROM package.gpkg_contents ORDER BY table_name",
        metres,
    )
    for name, bounds in bounds_of(out, "package").items():
        out.execute(
            "UPDATE main.gpkg_contents SET min_x = ?, min_y = ?, max_x = ?, max_y = ? WHERE table_name = ?",
            (*(it / units for it in bounds), name),
        )
    out.execute(
        f"INSERT INTO main.gpkg_tile_matrix_set SELECT table_name, srs_id, {extent} "
        "FROM package.gpkg_tile_matrix_set ORDER BY table_name",
        metres,
    )
    out.execute(
        "INSERT INTO main.gpkg_tile_matrix SELECT table_name, zoom_level, matrix_width, matrix_height, tile_width, "
        "tile_height, pixel_x_size / :units, pixel_y_size / :units FROM package.gpkg_tile_matrix "
        "ORDER BY table_name, zoom_level",
        metres,
    )


def add_extension(out, table, column, extension):
    out.execute(
        "INSERT INTO main.gpkg_extensions VALUES (?, ?, ?, ?, 'read-write')",
        (table, column, extension, DEFINITIONS[extension]),
    )


def write_user_table(out, name, kind):
    """The table of a pyramid, of attribute rows or of media, with all its rows."""
    columns, source, names, values = USER_TABLES[kind]
    out.execute(f"CREATE TABLE main.{quoted(name)} (id INTEGER PRIMARY KEY AUTOINCREMENT, {columns})")
    order = "zoom_level, tile_column, tile_row" if source == "mm_tiles" else "id"
    out.execute(
        f"INSERT INTO main.{quoted(name)} ({names}) SELECT {values} FROM package.{source} "
        f"WHERE table_name = ? ORDER BY {order}",
        (name,),
    )


def only_system(out):
    """The system of all pyramids, None where they have several: a place that names no system is of it."""
    found = [it for (it,) in out.execute("SELECT DISTINCT srs_id FROM package.gpkg_tile_matrix_set")]
    return found[0] if len(found) == 1 else None


@dataclasses.dataclass
class Row:
    """An attribute row, and what its note tells: a place, and values of columns. The note is the rest then."""

    number: int
    title: str
    note: str
    amount: int
    place: points.Place | None = None
    words: dict = dataclasses.field(default_factory=dict)


def rows_of(out, name):
    query = "SELECT id, title, note, amount FROM package.mm_rows WHERE table_name = ? ORDER BY id"
    return [Row(*it) for it in out.execute(query, (name,))]


def place_rows(out, name, rows, report):
    """Gives rows their places, and answers the system of these, None where no note tells one.

    A place of another system, or of none, stays in its note, which is noted.
    """
    # Geometries have 32 bits for the number of a system.
    numbers = {it for (it,) in out.execute("SELECT srs_id FROM package.gpkg_spatial_ref_sys")}
    only, systems = only_system(out), {it for it in numbers if -1 <= it < 2**31 and it not in (0, 4326)}
    found = [points.place_in(row.note, only) for row in rows]
    system = points.system_of([place for place, _ in found if place], systems)
    for row, (place, rest) in zip(rows, found):
        if place and place.system == system:
            row.place, row.note = place, rest
        elif place:
            report.note(f"row {row.number} of {name}", f"its place is of system {place.system}; it stays in its note")
    if system is None:
        report.note(f"table {name}", "no note of it tells a place, so it is no layer of points")
    return system


def part_words(name, rows):
    """Gives rows the words NAME=VALUE of their notes, and answers these by name, each with the type of its values."""
    values = {}
    for row in rows:
        row.words, row.note = note_words.columns_in(row.note)
        for word, value in row.words.items():
            values.setdefault(word, []).append(value)
    if len(values) > MOST_COLUMNS:
        raise Refused(f"--columns: the notes of {name} have {len(values)} names, at most {MOST_COLUMNS} are columns")
    return {word: note_words.type_of(values[word]) for word in note_words.in_order(list(values))}


def write_rows(out, name, points_too, words_too, report):
    """An attribute table with what its notes tell: as a layer of points, with further columns, or both."""
    rows = rows_of(out, name)
    system = place_rows(out, name, rows, report) if points_too else None
    types = part_words(name, rows) if words_too else {}
    free = note_words.free_names(types, ("id", "geom", "title", "note", "amount"))
    columns = [*(["geom POINT"] if system is not None else []), "title TEXT NOT NULL", "note TEXT NOT NULL"]
    columns += ["amount INTEGER NOT NULL", *(f"{quoted(free[word])} {sort}" for word, sort in types.items())]
    out.execute(f"CREATE TABLE main.{quoted(name)} (id INTEGER PRIMARY KEY AUTOINCREMENT, {', '.join(columns)})")
    shape = [lambda row: row.place and points.geometry_of(row.place)] if system is not None else []
    out.executemany(
        f"INSERT INTO main.{quoted(name)} VALUES ({', '.join('?' * (len(columns) + 1))})",
        [
            (row.number, *(it(row) for it in shape), row.title, row.note, row.amount, *map(row.words.get, types))
            for row in rows
        ],
    )
    if system is not None:
        make_layer(out, name, system, [row.place for row in rows if row.place])


def make_layer(out, name, system, places):
    """Has the contents tell that a table is a layer of points."""
    east, north = [it.east for it in places], [it.north for it in places]
    out.execute(
        "UPDATE main.gpkg_contents SET data_type = 'features', min_x = ?, min_y = ?, max_x = ?, max_y = ?, srs_id = ? "
        "WHERE table_name = ?",
        (min(east), min(north), max(east), max(north), system, name),
    )
    out.execute("INSERT INTO main.gpkg_geometry_columns VALUES (?, 'geom', 'POINT', ?, 0, 0)", (name, system))


def tell_slips(out, units, report):
    """Names rows whose note means a place and tells none, and rows whose place is on no map."""
    maps = out.execute("SELECT srs_id, min_x, min_y, max_x, max_y FROM package.gpkg_tile_matrix_set").fetchall()
    only = only_system(out)
    for table, number, note in out.execute(
        "SELECT table_name, id, note FROM package.mm_rows WHERE note LIKE '%@%' ORDER BY table_name, id"
    ):
        place, _ = points.place_in(note, only)
        if place is None and points.MEANT.search(note):
            report.note(f"row {number} of {table}", "a word of its note begins with @, and is no place")
        elif place and maps and not any(is_on(place, units, *it) for it in maps):
            report.note(f"row {number} of {table}", "its place is on no map")


def is_on(place, units, system, west, south, east, north):
    """Whether a place is within the extent of a map, which is told in units."""
    return place.system == system and west <= place.east * units <= east and south <= place.north * units <= north


def finish_pyramid(out, name, kind, report):
    """The extensions of a pyramid; tiles that the standard doesn't have are named."""
    if kind == "other":
        add_extension(out, name, "tile_data", "gpkg_zoom_other")
    if out.execute(f"SELECT EXISTS (SELECT 1 FROM main.{quoted(name)} WHERE {IS_WEBP})").fetchone()[0]:
        add_extension(out, name, "tile_data", "gpkg_webp")
    for zoom, column, row in out.execute(
        f"SELECT zoom_level, tile_column, tile_row FROM main.{quoted(name)} WHERE NOT {IS_IMAGE} ORDER BY id"
    ):
        report.note(f"tile {zoom}/{column}/{row} of {name}", "it is no PNG, JPEG or WebP; it was written all the same")


def write_relations(out):
    """The relations with their mapping tables; without a relation the standard has none of the extension's tables."""
    relations = out.execute(
        "SELECT base_table_name, base_primary_column, related_table_name, related_primary_column, relation_name, "
        "mapping_table_name FROM package.gpkgext_relations ORDER BY mapping_table_name"
    ).fetchall()
    if not relations:
        return
    out.execute(RELATIONS_TABLE)
    add_extension(out, "gpkgext_relations", None, "gpkg_related_tables")
    for relation in relations:
        mapping = relation[5]
        out.execute(
            "INSERT INTO main.gpkgext_relations (base_table_name, base_primary_column, related_table_name, "
            "related_primary_column, relation_name, mapping_table_name) VALUES (?, ?, ?, ?, ?, ?)",
            relation,
        )
        add_extension(out, mapping, None, "gpkg_related_tables")
        out.execute(f"CREATE TABLE main.{quoted(mapping)} (base_id INTEGER NOT NULL, related_id INTEGER NOT NULL)")
        out.execute(
            f"INSERT INTO main.{quoted(mapping)} SELECT base_id, related_id FROM package.mm_map WHERE mapping = ? "
            "ORDER BY base_id, related_id",
            (mapping,),
        )


def tell_editions(out, report):
    """Names the editions that are open, and says how many are published: what these brought is in."""
    for name, pieces in out.execute(
        "SELECT e.name, (SELECT count(*) FROM package.mm_pieces p WHERE p.edition = e.name) "
        "FROM package.mm_editions e WHERE e.state = 'open' ORDER BY e.name"
    ):
        report.note(f"edition {name}", f"left out, open with pieces: {pieces}")
    (published,) = out.execute("SELECT count(*) FROM package.mm_editions WHERE state = 'published'").fetchone()
    if published:
        report.note(f"published editions ({published})", "left out: what they brought is here")


def tables_of(out, all_tables, report):
    """The tables that go out, each with its kind; those that only a package has a use for are left out."""
    tables = dict(out.execute("SELECT table_name, kind FROM package.mm_tables ORDER BY table_name"))
    if not all_tables:
        related = {it for row in out.execute(RELATED) for it in row}
        own = sorted(it for it in {*pages(out), *told_bounds(out)} & tables.keys() if it not in related)
        for name in own:
            report.note(f"table {name}", "left out, since only a package has a use for it; --all-tables takes it along")
            out.execute("DELETE FROM main.gpkg_contents WHERE table_name = ?", (name,))
            del tables[name]
    return tables


def pages(out):
    """The tables of pages: media whose item 1 is a page, and whose item 4 is what that has to know."""
    found = out.execute(
        "SELECT m.table_name, b.data FROM package.mm_media m JOIN package.mm_blobs b ON b.id = m.blob "
        "JOIN package.mm_media f ON f.table_name = m.table_name AND f.id = 1 AND f.content_type = 'text/html' "
        "WHERE m.id = 4 AND m.content_type = 'application/json'"
    )
    return [name for name, data in found if word_in(data)]


def told_bounds(out):
    """The table of bounds, where the bounds of maps that it has are all that it has."""
    query = "SELECT count(*) FROM package.mm_rows WHERE table_name = ?"
    (count,) = out.execute(query, (BOUNDS_TABLE,)).fetchone()
    return [BOUNDS_TABLE] if count == len(bounds_of(out, "package")) else []


def expect_attributes(out, option, names):
    """Refuses where a table of which notes are read has no rows."""
    kinds = dict(out.execute("SELECT table_name, kind FROM package.mm_tables"))
    for name in names:
        if kinds.get(name) != "attributes":
            raise Refused(f"{option}: {name!r} is no attribute table of the package")


def write_standard(source, made, report, given, folder):
    """Writes all that goes across from a package into a new file, and the photos into a folder where one is given."""
    out = sqlite3.connect(made.absolute().as_uri(), uri=True)
    try:
        out.execute("ATTACH DATABASE ? AS package", (source.address(),))
        (version,) = out.execute("SELECT version FROM package.mm_profile").fetchone()
        if version not in UNITS_OF_VERSION:
            raise Refused(f"version {version} of the profile isn't known here")
        expect_attributes(out, "--points", given.points)
        expect_attributes(out, "--columns", given.columns)
        out.executescript(f"PRAGMA main.application_id = {0x47504B47}; PRAGMA main.user_version = 10300; {TABLES}")
        out.execute("BEGIN")
        write_systems(out, report)
        write_contents(out, UNITS_OF_VERSION[version])
        for name, kind in tables_of(out, given.all_tables, report).items():
            LINE.tell(f"table {name}", at_once=True)
            if name in (*given.points, *given.columns):
                write_rows(out, name, name in given.points, name in given.columns, report)
                continue
            write_user_table(out, name, kind)
            if kind in ("two", "other"):
                finish_pyramid(out, name, kind, report)
        LINE.clear()
        write_relations(out)
        shapes.write(out, report)
        tell_slips(out, UNITS_OF_VERSION[version], report)
        if folder and not photos.write(out, "package", folder):
            report.note("photos", "no row has one")
        tell_editions(out, report)
        out.commit()
    finally:
        out.close()


def main():
    parser = arguments(__doc__)
    parser.add_argument("FILE", type=pathlib.Path)
    parser.add_argument("OUT", type=pathlib.Path)
    parser.add_argument("--points", nargs="+", default=[], metavar="TABLE")
    parser.add_argument("--columns", nargs="+", default=[], metavar="TABLE")
    parser.add_argument("--photos", type=pathlib.Path, metavar="FOLDER")
    parser.add_argument("--all-tables", action="store_true")
    given = parser.parse_args()
    if given.OUT.suffix != ".gpkg":
        raise Refused(f"{given.OUT}: a GeoPackage's name ends with .gpkg")
    expect_new_database(given.OUT)
    report = Report()
    with contextlib.ExitStack() as stack:
        source = Source(given.FILE, pathlib.Path(stack.enter_context(tempfile.TemporaryDirectory())))
        made = stack.enter_context(made_beside(given.OUT)) / given.OUT.name
        folder = stack.enter_context(made_beside(given.photos)) / "photos" if given.photos else None
        try:
            write_standard(source, made, report, given, folder)
        except sqlite3.Error as error:
            raise Refused(f"{given.OUT}: {error}") from error
        source.expect_unchanged()
        expect_new_database(given.OUT)
        if folder:
            expect_new(given.photos)
            os.rename(folder, given.photos)
        os.rename(made, given.OUT)
    report.tell_notes()
    return 0


if __name__ == "__main__":
    run_tool(main)
