#!/usr/bin/env python3
"""Writes what a package can take of a standard GeoPackage as a command list, or as a command list and kits.

    tools/import_standard.py IN.gpkg LIST.csv [--table 'THEIRS=OURS'].. [--key NAME] [--columns] [--all-zooms]
                                              [--kit EDITION FOLDER] [--first-id N] [--into FILE [--replace]]

LIST.csv gets the records for 'mmpkg run': systems, tile pyramids with their matrices, attribute tables (id, title,
note, amount), layers of points with these columns, media tables (id, data, content_type), relations between them, and
their content. A point comes in as a place in the note of its row (docs/FORMATS.md). With --kit the content
goes into kits of at most 4,096 pieces for 'mmpkg kit' instead, and LIST.csv makes their editions: FOLDER for EDITION,
then FOLDER_2 for EDITION_2 and so on. The commands that take all in are printed, with FILE for the package. Neither
LIST.csv nor a kit's folder may be there. Nothing may write IN.gpkg meanwhile.

Into a package that has some of these tables --into names it. It is left as it is, and has to pass 'mmpkg check'. What
stands in it of systems, tables and relations isn't made again. Rows and media of a table that has some there get the
numbers behind the last, which is noted; with --key they keep those of their key. With --first-id they get N and the
numbers behind it, with --into and without. Where FILE has another row, media item or tile under a number that comes in,
all of these are named, and nothing is made; --replace has them written over. Without --into the files are for a package
that has none of these tables.

--table gives a table of IN.gpkg another name in the package. --key says what the key of tables of rows and media is
called; without it it is id, and GDAL and QGIS call theirs fid. With --columns tables and layers of points with any
columns come in by their own key: title (else name, else the first column of text), note and amount are the row's, and
each further value is a word NAME=VALUE behind its note, which the export makes a column of again. A matrix without
tiles is left out where its pyramid has tiles at other zooms, and noted; --all-zooms keeps it. NULL comes in as the
empty text, 7.0 as 7, and a content type without its parameters. Bounds of a map that are less than its tiles are kept
as rows of the table map_bounds, for the viewer and the export.

What a package can't hold is named on standard error and left out, with a command that brings it where there is one
(docs/BORDER.md). What is only noted there changes no exit status.

Exit status: 0 all was taken; 1 something was left out; 2 wrong arguments, or a file that can't be read or written.
"""

import contextlib
import dataclasses
import math
import os
import pathlib
import re
import shlex
import sqlite3
import sys
import tempfile
import zlib

import note_words
import points
import shapes
import ways
import zones
from border import (
    AMOUNT_LIMIT,
    BOUNDS_IDENTIFIER,
    BOUNDS_TABLE,
    CONTENT_TYPE,
    COORDINATE_LIMIT,
    DEFINITION_LIMIT,
    GEOGRAPHIC_SYSTEMS,
    GIVEN_SYSTEMS,
    MATRIX_LIMIT,
    MEDIA_LIMIT,
    NUMBER_LIMIT,
    PIXEL_SIZE_LIMIT,
    TEXT_LIMIT,
    TILE_LIMIT,
    TILE_SIDE_LIMIT,
    UNITS_PER_METRE,
    ZOOM_LIMIT,
    KitWriter,
    Piece,
    Refused,
    Report,
    Source,
    arguments,
    counted,
    expect_new,
    is_identifier,
    is_name,
    is_text,
    is_whole,
    is_within,
    made_beside,
    media_piece,
    name_for,
    quoted,
    record,
    run_tool,
    tile_piece,
    whole_units,
)
from standing import Standing

APPLICATION_IDS = {int.from_bytes(mark, "big") for mark in (b"GPKG", b"GP10", b"GP11")}
GEOGRAPHIC = re.compile(r"\s*(GEOGCS|GEOGCRS|GEODCRS|GEOGRAPHICCRS|GEODETICCRS|GEOCCS)\b")
METRIC = re.compile(r"\s*(PROJCS|PROJCRS|PROJECTEDCRS|LOCAL_CS|ENGCRS|ENGINEERINGCRS)\b")
# A system with heights, whose first part is that of the plane.
COMPOUND = re.compile(r'\s*(COMPD_CS|COMPOUNDCRS)\s*\[\s*"[^"]*"\s*,')
METRES = r'UNIT\["[^"]*",\s*([0-9]+(?:\.[0-9]*)?(?:[eE][+-]?[0-9]+)?)'
WKT_TOKEN = re.compile(METRES + r'|"[^"]*"|[\[\]]')
# In the newer WKT each axis may have a unit of its own.
AXIS_UNIT = re.compile(r'AXIS\["[^"]*",\s*\w+,\s*(?:ORDER\[\d+\],\s*)?(?:LENGTH)?' + METRES)

# What becomes of the standard's extensions: these come back by themselves, and of the others nothing crosses.
OWN_EXTENSIONS = {"gpkg_zoom_other", "gpkg_webp", "gpkg_related_tables", "related_tables"}
TILE_COLUMNS = ["zoom_level", "tile_column", "tile_row", "tile_data"]
# Behind the key.
ROW_COLUMNS = ["title", "note", "amount"]
MEDIA_COLUMNS = ["data", "content_type"]
RELATED_KINDS = {"media": "media", "simple_attributes": "attributes"}

# Behind the commands, where no package was named.
FOR_A_NEW_ONE = (
    "next: FILE is one without the tables {}; where it has some, --into FILE names it, and writes over nothing"
)


def metres_of_unit(definition):
    """How many metres the unit of a projected system's coordinates is by its WKT, None where that doesn't tell."""
    depth = 0
    for token in WKT_TOKEN.finditer(definition):
        if token[1] and depth == 1:
            return float(token[1])
        depth += {"]": -1, "[": 1}.get(token[0], 1 if token[1] else 0)
    axis = AXIS_UNIT.search(definition)
    return float(axis[1]) if axis else None


def is_whole_double(value):
    """Whether a value of a column is a DOUBLE that has nothing behind its point, and is of one whole number alone."""
    return isinstance(value, float) and abs(value) <= NUMBER_LIMIT and value.is_integer()


def why_no_system(row):
    """Why a system is none that a package takes, None where it is."""
    number, name, organization, organization_number, definition, description = row
    if not is_whole(number, 1, NUMBER_LIMIT) or not is_whole(organization_number, 1, NUMBER_LIMIT):
        return "its number, or that at its organization, is outside 1 to 2^53"
    if (
        not is_text(name, 1, TEXT_LIMIT)
        or not is_text(organization, 1, TEXT_LIMIT)
        or not is_text(description or "", 0, TEXT_LIMIT)
    ):
        return "its name, organization or description is no text within the limits"
    if not is_text(definition, 1, DEFINITION_LIMIT):
        return "its definition is no text within the limits"
    plane = COMPOUND.sub("", definition, count=1)
    if GEOGRAPHIC.match(plane):
        return "it is geographic"
    if METRIC.match(plane) and metres_of_unit(plane) not in (None, 1.0):
        return "its unit isn't the metre"
    return None


def why_no_matrix(row, extent, step, before):
    """Why a matrix doesn't suit its pyramid, None where it does.

    All sizes are in units; before has those of the zoom before, if any.
    """
    zoom, width, height, tile_width, tile_height, pixel_x, pixel_y = row
    if not is_whole(zoom, 0, ZOOM_LIMIT):
        return "its zoom is outside 0 to 30"
    if not all(is_whole(side, 1, MATRIX_LIMIT) for side in (width, height)):
        return "its number of tiles is outside 1 to 2^30"
    if not all(is_whole(side, 1, TILE_SIDE_LIMIT) for side in (tile_width, tile_height)):
        return "its tiles have no side of 1 to 4096 pixels"
    if not all(is_whole(size, 1, PIXEL_SIZE_LIMIT) for size in (pixel_x, pixel_y)):
        return "its pixel size isn't whole in the package's unit, or outside the limits"
    if extent[2] - extent[0] != width * tile_width * pixel_x or extent[3] - extent[1] != height * tile_height * pixel_y:
        return "it doesn't cover the extent exactly"
    if before and not (pixel_x < before[5] and pixel_y < before[6]):
        return "its pixels aren't smaller than those of the zoom before"
    if before and step == "two" and zoom == before[0] + 1 and (before[5], before[6]) != (2 * pixel_x, 2 * pixel_y):
        return "its pixels aren't half of those of the zoom before, and the table isn't marked for other factors"
    return None


def read_only(file):
    """The address of a file that is read, beside which nothing is made.

    Where a journal stands, what is in it is read too.
    """
    file = file.resolve()
    journal = any(pathlib.Path(f"{file}{suffix}").exists() for suffix in ("-wal", "-journal"))
    return f"{file.as_uri()}?mode=ro{'' if journal else '&immutable=1'}"


class Standard:
    """A standard GeoPackage that is read, and the layout records that came of it.

    Names are those of the package, but in `theirs`.
    """

    def __init__(self, file, report, names, key=None, all_zooms=False, first=None, all_columns=False):
        self.file = file
        self.names, self.key, self.all_zooms, self.all_columns = names, key or "id", all_zooms, all_columns
        self.keeps_numbers, self.first, self.standing = key is not None, first, None
        self.theirs = {}
        self.bounds = {}
        self.shapes = {}
        why = ways.why_no_geopackage(file)
        if why:
            raise Refused(f"{file}: {why}")
        self.source = sqlite3.connect(read_only(file), uri=True)
        self.source.text_factory = lambda data: data.decode("utf-8", "surrogateescape")
        self.report = report
        self.records = []
        self.kinds = {}
        self.systems = set(GIVEN_SYSTEMS)
        self.matrices = {}
        self.identifiers = set()
        self.relations = []
        self.ids = {}
        (mark,) = self.source.execute("PRAGMA application_id").fetchone()
        if mark not in APPLICATION_IDS or not self.columns("gpkg_contents"):
            raise Refused(f"{file}: no standard GeoPackage")

    def columns(self, table):
        """The columns of a table by name, each with its place in the primary key.

        Empty where there is no such table.
        """
        if not isinstance(table, str):
            return {}
        return {row[1]: row[5] for row in self.source.execute(f"PRAGMA table_xinfo({quoted(table)})")}

    def types(self, table):
        """By name, the types that a table declares for its columns, in capitals."""
        return {row[1]: str(row[2]).upper() for row in self.source.execute(f"PRAGMA table_xinfo({quoted(table)})")}

    def rows(self, table, columns, order, condition="", values=()):
        """Rows of a table in an order; none where the table is missing."""
        if not self.columns(table):
            return self.source.execute("SELECT NULL WHERE 0")
        return self.source.execute(
            f"SELECT {', '.join(columns)} FROM {quoted(table)} {condition} ORDER BY {order}", values
        )

    def read_layout(self):
        """The records of systems, tables and relations."""
        self.read_systems()
        contents = [
            "table_name",
            "data_type",
            "identifier",
            "description",
            "srs_id",
            "min_x",
            "min_y",
            "max_x",
            "max_y",
        ]
        for theirs, data_type, identifier, description, *bounds in self.rows(
            "gpkg_contents", contents, "table_name"
        ).fetchall():
            self.read_table(theirs, data_type, identifier, description, bounds)
        self.read_bounds()
        self.read_relations()
        for (extension,) in self.rows("gpkg_extensions", ["DISTINCT extension_name"], "extension_name"):
            if extension not in OWN_EXTENSIONS:
                self.report.note(f"extension {extension}", "nothing of it crosses")
        for theirs in self.names.keys() - set(self.theirs.values()):
            self.report.left_out(f"--table {theirs!r}", "no table of this name came in")

    def read_bounds(self):
        """The table of bounds that are less than the tiles, where there are some and it didn't come in by itself."""
        if BOUNDS_TABLE in self.kinds or BOUNDS_IDENTIFIER in self.identifiers:
            told = self.told_bounds()
            for name in [it for it, bounds in self.bounds.items() if told.get(it) != text_of_bounds(bounds)]:
                why = f"they don't come in: {BOUNDS_TABLE} of IN.gpkg tells others, or none"
                self.report.note(f"bounds of {name}", why)
            self.bounds = {}
        if self.bounds:
            self.records.append(["table", BOUNDS_TABLE, "attributes", BOUNDS_IDENTIFIER])
        for name in self.bounds:
            self.report.note(f"bounds of {name}", f"its tiles reach further; the table {BOUNDS_TABLE} keeps them")

    def told_bounds(self):
        """What the table of bounds tells that came in by itself, by the name of the map."""
        if self.kinds.get(BOUNDS_TABLE) != "attributes":
            return {}
        return dict(self.rows(self.theirs[BOUNDS_TABLE], ["title", "note"], "1"))

    def read_systems(self):
        names = ["srs_id", "srs_name", "organization", "organization_coordsys_id", "definition", "description"]
        for row in self.rows("gpkg_spatial_ref_sys", names, "srs_id"):
            if row[0] in GIVEN_SYSTEMS:
                continue
            why = why_no_system(row)
            if why:
                self.report.left_out(f"system {row[0]}", why)
                continue
            self.systems.add(row[0])
            self.records.append(["srs", *row[:5], row[5] or ""])

    def read_table(self, theirs, data_type, identifier, description, bounds):
        """The records that make a table, or why there are none."""
        made = list(self.records), dict(self.kinds), dict(self.bounds)
        try:
            if data_type == "features" and shapes.are_columns(self.columns(theirs)):
                self.report.note(f"table {theirs}", "left behind, since its shapes come in as files of their rows")
                return
            why = self.why_no_table(theirs, data_type, identifier, bounds)
        except sqlite3.Error as error:
            why = f"it can't be read: {error}"
            self.records, self.kinds, self.bounds = made
        if why:
            self.report.left_out(f"table {theirs!r}", why)
        elif description:
            self.report.note(f"description of {self.came(theirs)}", "a package has none")

    def why_no_table(self, theirs, data_type, identifier, bounds):
        """Makes the records of a table, and answers why there are none, None where there are."""
        name = self.names.get(theirs, theirs)
        identifier = theirs if identifier is None else identifier
        readers = {"tiles": self.read_pyramid, "attributes": self.read_plain, "features": self.read_points}
        if not isinstance(theirs, str):
            return "its name is no text"
        if not is_name(name):
            given = f"--table {ways.shell(f'{theirs}={name_for(theirs)}')} gives it one"
            return f"its name is no name of a package, which has small letters, digits and _; {given}"
        if not self.columns(theirs):
            return "there is no such table"
        if name in self.kinds:
            return f"another table came in as {name}"
        if not is_identifier(identifier) or identifier in self.identifiers:
            return f"its identifier {identifier!r} is none, or another table has it"
        if data_type not in readers:
            return self.why_no_kind(name, theirs, data_type)
        why = readers[data_type](name, theirs, identifier, bounds)
        if why is None:
            self.theirs[name] = theirs
            self.identifiers.add(identifier)
        return why

    def why_no_kind(self, name, theirs, data_type):
        """Why a table of another type of data is none that a package takes, with what makes one of it."""
        why = f"a package has no table of {data_type}"
        if data_type != "aspatial":
            return why
        return f"{why}; {self.rows_of(name, theirs, self.shape_of(theirs, None, None))} takes its rows along"

    def read_points(self, name, theirs, identifier, bounds):
        """A layer of points: rows, whose notes tell their places."""
        layer = self.rows(
            "gpkg_geometry_columns",
            ["column_name", "geometry_type_name", "srs_id"],
            "1",
            "WHERE table_name = ?",
            (theirs,),
        ).fetchone()
        column, kind, system = layer or ("", "", 0)
        kind, there = str(kind or "").upper(), self.columns(theirs)
        if kind not in ("POINT", "GEOMETRY") or column not in there:
            return self.why_no_points(name, theirs, kind if column in there else "")
        shape = self.shape_of(theirs, column, system)
        why = self.why_no_rows(theirs, shape)
        if why is None and (system in GEOGRAPHIC_SYSTEMS or system not in self.systems):
            why = f"its system {system} is geographic, or was left out"
        if why:
            target = self.system_for(system, bounds)
            makes = self.rows_of(name, theirs, shape, target)
            return f"{why}; {makes} makes points that come in{f', {ways.WHERE.format(target)}' if target else ''}"
        return self.take_rows(name, identifier, shape)

    def why_no_points(self, name, theirs, kind):
        """Why a layer is none of points, with what makes one of it, or rows."""
        why = f"a package has no {kind or 'geometry'}, only points come in, as places"
        if kind == "MULTIPOINT":
            words = ways.shell("-nlt", "POINT", "-lco", "FID=id", "rows.gpkg", self.file, theirs)
            return f"{why}; ogr2ogr -f GPKG -explodecollections -unsetFid {words} makes points of it"
        rows = self.rows_of(name, theirs, self.shape_of(theirs, None, None))
        return f"{why}; {rows} takes its rows along, and gdal_rasterize draws it into a map (docs/BORDER.md)"

    def system_for(self, system, bounds):
        """The system into which a layer is brought, None where it has one that comes in."""
        if system not in GEOGRAPHIC_SYSTEMS and system in self.systems:
            return None
        places = [it for it in bounds[1:] if isinstance(it, (int, float))]
        middle = ((places[0] + places[2]) / 2, (places[1] + places[3]) / 2) if len(places) == 4 else (181, 0)
        return zones.system_at(*middle) or ways.SYSTEM

    def shape_of(self, theirs, geometry, system):
        """What the columns of a table are to a row."""
        return shape_of(self.columns(theirs), self.types(theirs), self.key, geometry, system)

    def why_no_rows(self, theirs, shape):
        """Why the columns of a table are not those of rows, None where they are or where all are taken."""
        plain = shape.is_plain() and shape.key in ("id", self.key)
        if shape.key and (plain or self.all_columns):
            return None
        if shape.key == "fid" and shape.is_plain():
            return "its key is fid, as GDAL and QGIS call it; --key fid takes it"
        there = ", ".join(self.columns(theirs))
        takes = "; --columns takes them all" if shape.key else ""
        wanted = f"neither id, {', '.join(ROW_COLUMNS)} nor id, {', '.join(MEDIA_COLUMNS)}"
        if shape.geometry:
            wanted = f"not id, {shape.geometry}, {', '.join(ROW_COLUMNS)}"
        return f"its columns {there} are {wanted} with id as the key{takes}"

    def take_rows(self, name, identifier, shape):
        self.shapes[name] = shape
        self.kinds[name] = "attributes"
        self.records.append(["table", name, "attributes", identifier])

    def rows_of(self, name, theirs, shape, target=None):
        """The command that makes rows of a package of any table, and points of a layer of points."""
        words = ["-f", "GPKG", *(["-preserve_fid"] if shape.key else [])]
        if target:
            words += ["-t_srs", f"EPSG:{target}", *(["-s_srs", "EPSG:4326"] if shape.system == 0 else [])]
        taken = [theirs] if self.all_columns and shape.geometry else ["-sql", shape.select(theirs)]
        words += ["rows.gpkg", self.file, *taken, "-nln", name, "-nlt", "POINT" if shape.geometry else "NONE"]
        kind = [] if shape.geometry else ["-lco", "ASPATIAL_VARIANT=GPKG_ATTRIBUTES"]
        return ways.shell("ogr2ogr", *words, "-lco", "FID=id", *kind)

    def key_of(self, columns):
        """The column that is the key of a table: id, or what --key says; None where it has another key."""
        keys = [column for column, place in columns.items() if place]
        return keys[0] if keys in (["id"], [self.key]) else None

    def read_plain(self, name, theirs, identifier, _):
        """A table of attribute rows or of media, by its columns."""
        there = self.columns(theirs)
        key = self.key_of(there)
        if key and set(there) - {key} == set(MEDIA_COLUMNS):
            self.kinds[name] = "media"
            self.records.append(["table", name, "media", identifier])
            return None
        if set(there) - {"fid"} == set(MEDIA_COLUMNS):
            return "its key is fid, as GDAL and QGIS call it; --key fid takes it"
        shape = self.shape_of(theirs, None, None)
        why = self.why_no_rows(theirs, shape)
        if why is None:
            return self.take_rows(name, identifier, shape)
        if why.endswith("takes it"):
            return why
        return f"{why}; {self.rows_of(name, theirs, shape)} makes rows of it"

    def read_pyramid(self, name, theirs, identifier, bounds):
        sets = self.rows(
            "gpkg_tile_matrix_set",
            ["srs_id", "min_x", "min_y", "max_x", "max_y"],
            "rowid",
            "WHERE table_name = ?",
            (theirs,),
        )
        system, *metres = sets.fetchone() or (None,)
        if not metres or not self.columns(theirs).keys() >= set(TILE_COLUMNS):
            return "it has no matrix set, or lacks a column of tiles"
        if system in GEOGRAPHIC_SYSTEMS or system not in self.systems:
            return f"its system {system} is geographic, or was left out; {self.filled(theirs)}"
        extent = [whole_units(metre) for metre in metres]
        if not all(is_whole(bound, -COORDINATE_LIMIT, COORDINATE_LIMIT) for bound in extent):
            return f"its extent {metres} isn't whole in micrometres, or outside the limits; {self.filled(theirs)}"
        if extent[0] >= extent[2] or extent[1] >= extent[3]:
            return "its extent is empty"
        if bounds[1:] != metres:
            self.note_bounds(name, bounds[1:], metres, extent)
        marked = self.rows(
            "gpkg_extensions", ["1"], "1", "WHERE table_name = ? AND extension_name = 'gpkg_zoom_other'", (theirs,)
        ).fetchone()
        step = "other" if marked else "two"
        self.kinds[name] = step
        self.records.append(["pyramid", name, identifier, system, *extent, step])
        self.read_matrices(name, theirs, extent, step)
        return None

    def filled(self, theirs):
        """The command that brings a map in which isn't taken as it is."""
        return f"{ways.fill(f'GPKG:{self.file}:{theirs}')} brings it in, in a system in metres"

    def note_bounds(self, name, bounds, metres, extent):
        """Keeps bounds that are less than the extent of the tiles, to the nearest unit."""
        units = [round(it * UNITS_PER_METRE) for it in bounds if isinstance(it, float) and math.isfinite(it)]
        if is_within(units, extent):
            self.bounds[name] = units
        else:
            self.report.note(f"bounds of {name}", f"{bounds} become those of its matrix set, {metres}")

    def read_matrices(self, name, theirs, extent, step):
        columns = [
            "zoom_level",
            "matrix_width",
            "matrix_height",
            "tile_width",
            "tile_height",
            "pixel_x_size",
            "pixel_y_size",
        ]
        filled = {zoom for (zoom,) in self.source.execute(f"SELECT DISTINCT zoom_level FROM {quoted(theirs)}")}
        before = None
        taken = self.matrices[name] = {}
        for row in self.rows("gpkg_tile_matrix", columns, "zoom_level", "WHERE table_name = ?", (theirs,)):
            row = (*row[:5], whole_units(row[5]), whole_units(row[6]))
            if filled and row[0] not in filled and not self.all_zooms:
                self.report.note(
                    f"zoom {row[0]} of {name}",
                    "it has no tiles and is left out; gdaladdo makes them, --all-zooms keeps it without",
                )
                continue
            why = why_no_matrix(row, extent, step, before)
            if why:
                self.report.left_out(f"matrix of {name} at zoom {row[0]}", why)
                continue
            before = row
            taken[row[0]] = (row[1], row[2])
            self.records.append(["matrix", name, *row])

    def came(self, theirs):
        """The name by which a table came in, empty where it was left out."""
        return next((name for name, it in self.theirs.items() if it == theirs), "")

    def key_in(self, theirs):
        """The column that is the key by which a table comes in."""
        shape = self.shapes.get(self.came(theirs))
        return shape.key if shape else self.key_of(self.columns(theirs))

    def read_relations(self):
        columns = [
            "mapping_table_name",
            "base_table_name",
            "base_primary_column",
            "related_table_name",
            "related_primary_column",
            "relation_name",
        ]
        for theirs, base, base_column, related, related_column, name in self.rows(
            "gpkgext_relations", columns, "mapping_table_name"
        ):
            mapping = self.names.get(theirs, theirs)
            ends = [self.came(base), self.came(related)]
            keys = [self.key_in(it) for it in (base, related)]
            why = None
            if (
                not is_name(mapping)
                or mapping in self.kinds
                or not {"base_id", "related_id"} <= self.columns(theirs).keys()
            ):
                why = "its mapping table has no name of a package, or lacks a column"
            elif self.kinds.get(ends[0]) not in ("attributes", "media") or self.kinds.get(ends[1]) != RELATED_KINDS.get(
                name, ""
            ):
                why = (
                    f"it is {name!r} from {base!r} to {related!r}, which a package doesn't relate so, "
                    "or which were left out"
                )
            elif [base_column, related_column] != keys:
                why = "it isn't by the keys of its tables"
            if why:
                self.report.left_out(f"relation {theirs!r}", why)
                continue
            self.theirs[mapping] = theirs
            self.relations.append((mapping, *ends))
            self.records.append(["relation", mapping, *ends, name])

    def expect_in(self, standing):
        """Has what comes in go to a package that stands."""
        self.standing = standing
        self.records = list(standing.missing(self.records, self.report))

    def numbers(self, name):
        """By its key, the number that a row or a media item of a table gets: its own where nothing else is wanted."""
        last = self.standing.last_number(name) if self.standing and name != BOUNDS_TABLE else None
        if self.first:
            return Numbers(self.first)
        return Numbers(last + 1) if last and not self.keeps_numbers else Numbers()

    def told_numbers(self, name):
        """Notes the numbers that a table got anew."""
        given = self.ids[name]
        if given.next and given and not self.first:
            self.report.note(
                f"{name}: its numbers are {min(given.values())} to {max(given.values())}",
                f"behind the last that FILE has; --key {self.key} keeps those of IN.gpkg",
            )

    def pieces(self):
        """The content as pieces: the tables by name, then what is related."""
        readers = {"two": self.tiles, "other": self.tiles, "attributes": self.attribute_rows, "media": self.media}
        for name, kind in self.kinds.items():
            yield from readers[kind](name, self.theirs[name])
            if name in self.ids:
                self.told_numbers(name)
        for name, bounds in self.bounds.items():
            # Several imports into one package don't take each other's numbers.
            yield Piece(["row", BOUNDS_TABLE, zlib.crc32(name.encode()) + 1, name, text_of_bounds(bounds), 0])
        for relation in self.relations:
            yield from self.mapping_rows(*relation)

    def tiles(self, name, theirs):
        without_matrix = {}
        for zoom, column, row, data in self.rows(theirs, TILE_COLUMNS, "zoom_level, tile_column, tile_row"):
            width, height = self.matrices[name].get(zoom, (0, 0))
            if width == 0:
                without_matrix[zoom] = without_matrix.get(zoom, 0) + 1
            elif not is_whole(column, 0, width - 1) or not is_whole(row, 0, height - 1):
                self.report.left_out(f"tile {zoom}/{column}/{row} of {name}", "it is outside its matrix")
            elif not isinstance(data, bytes) or not 1 <= len(data) <= TILE_LIMIT:
                self.report.left_out(f"tile {zoom}/{column}/{row} of {name}", f"it has no 1 to {TILE_LIMIT} bytes")
            else:
                yield tile_piece(name, zoom, column, row, data)
        for zoom, count in without_matrix.items():
            self.report.left_out(f"tiles of {name} at zoom {zoom}", f"no matrix was taken for these, {count} in all")

    def attribute_rows(self, name, theirs):
        taken, shape = self.numbers(name), self.shapes[name]
        self.ids[name] = taken
        for number, title, note, amount, point, *others in self.rows(theirs, shape.asked(), quoted(shape.key)):
            if not self.all_columns:
                self.note_missing(name, number, {"title": title, "note": note})
            title, note = (self.text_of(it) for it in (title, note))
            amount = int(amount) if is_whole_double(amount) else 0 if amount is None and self.all_columns else amount
            note = self.with_words(name, note, shape, others)
            note, why = placed(note, point, shape.system)
            why = why or why_no_row(number, title, note, amount)
            if why:
                self.report.left_out(f"row {number} of {name}", why)
            else:
                yield Piece(["row", name, taken.take(number), title, note, amount])

    def note_missing(self, name, number, texts):
        for column in [column for column, text in texts.items() if text is None]:
            self.report.note(f"{column} of row {number} of {name}", "it is NULL, and comes in as the empty text")

    def text_of(self, value):
        """A title or a note: empty where it is NULL, and with --columns a number is one too."""
        if value is None:
            return ""
        return str(value) if self.all_columns and isinstance(value, (int, float)) else value

    def with_words(self, name, note, shape, others):
        """A note with the values of further columns as words behind it; NULL is none, and bytes stay behind."""
        words = [note] if note else []
        for column, value in zip(shape.others, others):
            if isinstance(value, bytes):
                self.report.note(f"column {column} of {name}", "its bytes stay behind")
            elif value is not None:
                words.append(note_words.word_of(column, str(value)))
        return " ".join(words) if isinstance(note, str) else note

    def media(self, name, theirs):
        key = self.key_of(self.columns(theirs))
        taken = self.ids[name] = self.numbers(name)
        for number, data, told in self.rows(theirs, [quoted(key), *MEDIA_COLUMNS], quoted(key)):
            content_type = told.split(";")[0].strip() if isinstance(told, str) else told
            if not is_whole(number, 1, NUMBER_LIMIT):
                self.report.left_out(f"media item {number} of {name}", "its id is outside 1 to 2^53")
            elif not isinstance(content_type, str) or not CONTENT_TYPE.fullmatch(content_type):
                self.report.left_out(
                    f"media item {number} of {name}",
                    f"its content type {told!r} isn't two words round a /, as image/png is",
                )
            elif not isinstance(data, bytes) or not 1 <= len(data) <= MEDIA_LIMIT:
                self.report.left_out(f"media item {number} of {name}", f"it has no 1 to {MEDIA_LIMIT} bytes")
            else:
                if content_type != told:
                    self.report.note(
                        f"media item {number} of {name}", f"its content type {told!r} comes in as {content_type}"
                    )
                yield media_piece(name, taken.take(number), content_type, data)

    def mapping_rows(self, mapping, base, related):
        for base_id, related_id in self.rows(
            self.theirs[mapping], ["DISTINCT base_id", "related_id"], "base_id, related_id"
        ):
            if base_id in self.ids[base] and related_id in self.ids[related]:
                yield Piece(["map", mapping, self.ids[base][base_id], self.ids[related][related_id]])
            else:
                self.report.left_out(
                    f"mapping row {base_id}, {related_id} of {mapping}", "an end isn't there, or was left out"
                )


@dataclasses.dataclass
class Shape:
    """What the columns of a table are to a row: their names, None where there is none; others are the further ones."""

    key: str | None
    title: str | None
    note: str | None
    amount: str | None
    others: list
    geometry: str | None
    system: int | None

    def is_plain(self):
        """Whether the columns are those of rows and no others."""
        return [self.title, self.note, self.amount, self.others] == [*ROW_COLUMNS, []]

    def asked(self):
        """The columns as a query asks for them: the key, title, note, amount, the geometry, and the further ones."""
        found = ((self.title, "''"), (self.note, "''"), (self.amount, "0"), (self.geometry, "NULL"))
        return [quoted(self.key), *(quoted(it) if it else none for it, none in found), *map(quoted, self.others)]

    def select(self, theirs):
        """The query that makes rows of a table, as it is told: its key, and its place, stay."""
        name = ways.sql_name
        texts = [f"coalesce({name(it)}, '')" if it else "''" for it in (self.title, self.note)]
        amount = f"coalesce({name(self.amount)}, 0)" if self.amount else "0"
        taken = [f"{value} AS {ours}" for value, ours in zip([*texts, amount], ROW_COLUMNS)]
        ends = [[name(it)] if it else [] for it in (self.key, self.geometry)]
        return f"SELECT {', '.join([*ends[0], *taken, *ends[1]])} FROM {name(theirs)}"


def shape_of(there, types, key, geometry, system):
    """What the columns of a table are to a row, by their names and types."""
    keys = [column for column, place in there.items() if place]
    own = keys[0] if keys in (["id"], [key]) or len(keys) == 1 and "INT" in types[keys[0]] else None
    rest = {column.lower(): column for column in there if column not in (own, geometry)}
    texts = [it for it, column in rest.items() if "TEXT" in types[column] or "CHAR" in types[column]]
    title = next((it for it in ("title", "name", *texts) if it in rest and it not in ("note", "amount")), None)
    taken = [rest.pop(it, None) for it in (title, "note", "amount")]
    return Shape(own, *taken, list(rest.values()), geometry, system)


class Numbers(dict):
    """By the number that a row or a media item has in IN.gpkg the one that it gets: its own, or the next of a count."""

    def __init__(self, first=None):
        super().__init__()
        self.next = first

    def take(self, number):
        self[number] = self.next or number
        if self.next:
            if self.next > NUMBER_LIMIT:
                raise Refused(f"no number is left behind {NUMBER_LIMIT}; --first-id names another to begin with")
            self.next += 1
        return self[number]


def text_of_bounds(bounds):
    """Bounds as the note of a row keeps them."""
    return " ".join(map(str, bounds))


def placed(note, geometry, system):
    """A note with the place of a geometry in front of it, and why there is none."""
    try:
        found = points.point_in(geometry)
    except points.OtherGeometry:
        return note, "its geometry is no point"
    if found is None or not isinstance(note, str):
        return note, None
    if not all(abs(round(it, 6)) < points.COORDINATE_LIMIT for it in found):
        return note, "its place is outside the limits"
    word = points.Place(system, *found).word()
    return f"{word} {note}" if note else word, None


def why_no_row(number, title, note, amount):
    """Why a row is none that a package takes, None where it is."""
    if not is_whole(number, 1, NUMBER_LIMIT):
        return "its id is no whole number of 1 to 2^53"
    if not is_whole(amount, -AMOUNT_LIMIT, AMOUNT_LIMIT):
        return f"its amount {'NULL' if amount is None else repr(amount)} is no whole number of at most 10^15"
    for column, text in (("title", title), ("note", note)):
        if not is_text(text, 0, TEXT_LIMIT):
            return f"its {column} is no text of at most {TEXT_LIMIT} bytes of UTF-8"
    return None


def write_list(standard, pieces, made):
    with open(made, "w", encoding="utf-8", newline="") as out:
        out.writelines(map(record, standard.records))
        out.writelines(piece.command() for piece in counted("record", pieces))


def write_kits(standard, pieces, made, beside, edition, folder):
    kits = KitWriter(edition, folder, beside)
    for piece in pieces:
        kits.add(piece)
    with open(made, "w", encoding="utf-8", newline="") as out:
        out.writelines(map(record, standard.records))
        out.writelines(record(["edition", name]) for name, _ in kits.kits)
    return kits


def write(standard, given):
    """Writes the list, and the kits where they are asked for; returns those."""
    with contextlib.ExitStack() as stack:
        made = stack.enter_context(made_beside(given.LIST)) / given.LIST.name
        standing, pieces = None, standard.pieces()
        if given.into:
            folder = pathlib.Path(stack.enter_context(tempfile.TemporaryDirectory()))
            standing = Standing(given.into, Source(given.into, folder))
            standard.expect_in(standing)
            pieces = standing.watched(pieces)
        if given.kit:
            beside = stack.enter_context(made_beside(pathlib.Path(given.kit[1])))
            kits = write_kits(standard, pieces, made, beside, *given.kit)
        else:
            kits = write_list(standard, pieces, made)
        if standing and not given.replace:
            standing.expect_nothing_over()
        if standing:
            standing.end()
        if kits:
            kits.name()
        expect_new(given.LIST)
        os.rename(made, given.LIST)
    return kits


def main():
    parser = arguments(__doc__)
    parser.add_argument("IN", type=pathlib.Path)
    parser.add_argument("LIST", type=pathlib.Path)
    parser.add_argument("--kit", nargs=2, metavar=("EDITION", "FOLDER"))
    parser.add_argument("--table", action="append", default=[], metavar="THEIRS=OURS")
    parser.add_argument("--key")
    parser.add_argument("--columns", action="store_true")
    parser.add_argument("--first-id", type=int, metavar="N")
    parser.add_argument("--all-zooms", action="store_true")
    parser.add_argument("--into", type=pathlib.Path, metavar="FILE")
    parser.add_argument("--replace", action="store_true")
    given = parser.parse_args()
    if given.first_id is not None and not is_whole(given.first_id, 1, NUMBER_LIMIT):
        raise Refused("--first-id: is no number of 1 to 2^53")
    if given.replace and not given.into:
        raise Refused("--replace is for --into FILE")
    names = dict(it.rpartition("=")[::2] for it in given.table)
    for ours in names.values():
        if not is_name(ours):
            raise Refused(f"--table: {ours!r} is no name of a package")
    if given.kit and not is_name(given.kit[0]):
        raise Refused(f"{given.kit[0]!r} is no name of an edition")
    report = Report()
    try:
        standard = Standard(given.IN, report, names, given.key, given.all_zooms, given.first_id, given.columns)
        standard.read_layout()
        kits = write(standard, given)
    except sqlite3.Error as error:
        raise Refused(f"{given.IN}: {error}") from error
    report.tell_notes()
    print(f"mmpkg run FILE < {shlex.quote(str(given.LIST))}")
    if kits:
        kits.tell()
    if standard.kinds and not given.into:
        sys.stdout.flush()
        print(FOR_A_NEW_ONE.format(", ".join(standard.kinds)), file=sys.stderr)
    return 1 if report.count else 0


if __name__ == "__main__":
    run_tool(main)
