#!/usr/bin/env python3
"""Takes out of a package what GDAL and QGIS put into it, so that it is one again.

    tools/repair_gis.py FILE OUT.mmpkg

GDAL and QGIS open a file whose name ends with .gpkg for writing, also one that is a package of mmpkg: they add tables
of their own, and from then on the program answers 'fault 91' or names a broken rule. FILE and its journal are copied
and left as they are; nothing may write them meanwhile. Out of the copy go all tables, views, triggers, indexes and
columns that a package doesn't have, what its own tables say of these, and the mark of GeoPackage in the file's header.
Each is named on standard error. Then the copy has to pass 'mmpkg check', with the program that the environment's MMPKG
names, else out/mmpkg of this repository, else mmpkg of the path, and becomes OUT.mmpkg, which must not be there. The
content of what is taken out is lost in OUT.mmpkg; FILE has it still.

What was changed in the package's own tables can't be mended: where the copy doesn't pass the check OUT.mmpkg isn't
made, and a copy of the package has to be fetched. Systems that GDAL or QGIS added stay, as a package may have them.

Exit status: 0 OUT.mmpkg was written; 2 wrong arguments, or a file that can't be read or written; else what 'mmpkg
check' ended with, whose line is told: 3 a fault, 4 no package or one that breaks a rule.
"""

import contextlib
import os
import pathlib
import sqlite3
import sys

from border import (
    Refused,
    arguments,
    copy_with_journal,
    expect_new_database,
    made_beside,
    program_says,
    quoted,
    run_tool,
)

# The tables of a package with their columns (docs/FORMATS.md, section 2).
TABLES = {
    "gpkg_spatial_ref_sys": "srs_name srs_id organization organization_coordsys_id definition description",
    "gpkg_contents": "table_name data_type identifier description last_change min_x min_y max_x max_y srs_id",
    "gpkg_tile_matrix_set": "table_name srs_id min_x min_y max_x max_y",
    "gpkg_tile_matrix": "table_name zoom_level matrix_width matrix_height tile_width tile_height pixel_x_size "
    "pixel_y_size",
    "gpkg_extensions": "table_name column_name extension_name definition scope",
    "gpkgext_relations": "id base_table_name base_primary_column related_table_name related_primary_column "
    "relation_name mapping_table_name",
    "mm_profile": "id version",
    "mm_tables": "table_name kind",
    "mm_tiles": "table_name zoom_level tile_column tile_row blob",
    "mm_rows": "table_name id title note amount",
    "mm_media": "table_name id blob content_type",
    "mm_map": "mapping base_id related_id",
    "mm_editions": "name state",
    "mm_pieces": "edition piece_no kind name k1 k2 k3 k4 k5 k6 k7 t1 t2 blob",
    "mm_blobs": "id digest data",
}
INDEXES = {"mm_blobs_digest", "mm_tiles_blob", "mm_media_blob", "mm_pieces_blob", "mm_map_related"}

# Which rows of a package's own tables speak of nothing that a package has.
FOREIGN_ROWS = {
    "gpkg_extensions": "extension_name NOT IN ('gpkg_related_tables', 'gpkg_zoom_other') OR "
    "table_name NOT IN (SELECT table_name FROM mm_tables UNION SELECT mapping_table_name FROM gpkgext_relations "
    "UNION SELECT 'gpkgext_relations')",
    "gpkg_tile_matrix": "table_name NOT IN (SELECT table_name FROM mm_tables)",
    "gpkg_tile_matrix_set": "table_name NOT IN (SELECT table_name FROM mm_tables)",
    "gpkg_contents": "table_name NOT IN (SELECT table_name FROM mm_tables)",
}


class Patient:
    """A copy of a package that another program changed."""

    def __init__(self, opened):
        self.opened = opened
        opened.execute("PRAGMA foreign_keys = OFF")
        if "mm_profile" not in self.names("type = 'table'"):
            raise Refused("has no table mm_profile, so it never was a package", 4)

    def names(self, condition):
        return [
            name for (name,) in self.opened.execute(f"SELECT name FROM sqlite_schema WHERE {condition} ORDER BY name")
        ]

    def take_out(self, what, statement):
        self.opened.execute(statement)
        print(f"taken out: {what}", file=sys.stderr)

    def take_out_all(self):
        """Takes out all that a package doesn't have; the tables that others are made of come last."""
        self.opened.execute("BEGIN")
        self.take_out_schema("trigger", "1")
        self.take_out_schema("view", "1")
        self.take_out_schema("table", "sql LIKE 'CREATE VIRTUAL TABLE%'")
        self.take_out_schema("table", "name NOT LIKE 'sqlite!_%' ESCAPE '!'")
        self.take_out_schema("index", "sql IS NOT NULL")
        self.take_out_columns()
        self.take_out_rows()
        if self.names("name = 'sqlite_sequence'"):
            self.opened.execute("DELETE FROM sqlite_sequence")
        self.opened.execute("COMMIT")
        self.opened.execute("PRAGMA application_id = 0")
        self.opened.execute("PRAGMA user_version = 0")

    def take_out_schema(self, kind, condition):
        for name in self.names(f"type = '{kind}' AND {condition}"):
            if name not in TABLES and name not in INDEXES:
                self.take_out(f"{kind} {name}", f"DROP {kind} {quoted(name)}")

    def take_out_columns(self):
        for table, columns in TABLES.items():
            for _, name, *_ in self.opened.execute(f"PRAGMA table_info({table})").fetchall():
                if name not in columns.split():
                    self.take_out(f"column {name} of {table}", f"ALTER TABLE {table} DROP COLUMN {quoted(name)}")

    def take_out_rows(self):
        for table, condition in FOREIGN_ROWS.items():
            (count,) = self.opened.execute(f"SELECT count(*) FROM {table} WHERE {condition}").fetchone()
            if count:
                self.take_out(f"{count} of the rows of {table}", f"DELETE FROM {table} WHERE {condition}")

    def loose_ends(self):
        """How many rows of each table refer to rows that aren't there."""
        tables = [row[0] for row in self.opened.execute("PRAGMA foreign_key_check")]
        return ", ".join(f"{tables.count(it)} of {it}" for it in sorted(set(tables)))


def mend(file, copy):
    """Mends the copy of a package, which has to be one then."""
    with contextlib.closing(sqlite3.connect(copy, isolation_level=None)) as opened:
        try:
            patient = Patient(opened)
            patient.take_out_all()
            loose = patient.loose_ends()
        except sqlite3.Error as error:
            raise Refused(f"{file}: {error}: go back to a copy") from error
        except Refused as refused:
            raise Refused(f"{file}: {refused}", refused.status) from refused
    status, said = program_says("check", copy)
    if status != 0:
        why = f" (rows that refer to what isn't there: {loose})" if loose else ""
        raise Refused(
            f"{file}: what a package doesn't have is out, and the rest is still {said}{why}: go back to a copy", status
        )


def main():
    parser = arguments(__doc__)
    parser.add_argument("FILE", type=pathlib.Path)
    parser.add_argument("OUT", type=pathlib.Path)
    given = parser.parse_args()
    if given.OUT.suffix != ".mmpkg":
        raise Refused(f"{given.OUT}: a package's name ends with .mmpkg, so that GDAL and QGIS leave it alone")
    expect_new_database(given.OUT)
    if not given.FILE.is_file():
        raise Refused(f"{given.FILE}: is no file")
    with made_beside(given.OUT) as beside:
        made = beside / given.OUT.name
        copy_with_journal(given.FILE, made)
        mend(given.FILE, made)
        expect_new_database(given.OUT)
        os.rename(made, given.OUT)
    print(f"{given.OUT}: package ok", file=sys.stderr)
    return 0


if __name__ == "__main__":
    run_tool(main)
