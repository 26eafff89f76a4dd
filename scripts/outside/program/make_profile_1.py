#!/usr/bin/python3
"""Puts a package of profile 2 back to profile 1, whole millimetres, so that `mmpkg migrate` can be tried and tested.

    scripts/outside/program/make_profile_1.py FILE

The statements are the test's own and run by Python's sqlite3: mmpkg itself makes packages of profile 2 alone. A package
whose numbers are no whole millimetres, or that holds staged matrices, has no form in profile 1: it is left as it is,
with status 1.
"""
import contextlib
import pathlib
import sqlite3
import sys

EXTENT = "min_x", "min_y", "max_x", "max_y"
# The columns that a unit is in, by table.
COLUMNS = {
    "gpkg_contents": EXTENT,
    "gpkg_tile_matrix_set": EXTENT,
    "gpkg_tile_matrix": ("pixel_x_size", "pixel_y_size"),
}


def put_back(file):
    """Puts a package back to profile 1, in one transaction; returns whether that could be done."""
    with contextlib.closing(sqlite3.connect(pathlib.Path(file).resolve().as_uri() + "?mode=rw", uri=True)) as package:
        (version,) = package.execute("SELECT version FROM mm_profile").fetchone()
        (matrices,) = package.execute("SELECT count(*) FROM mm_pieces WHERE kind = 'matrix'").fetchone()
        odd = [
            column
            for table, column in all_columns()
            if package.execute(f"SELECT 1 FROM {table} WHERE {column} % 1000 <> 0").fetchone()
        ]
        if version != 2 or matrices or odd:
            return False
        for table, column in all_columns():
            package.execute(f"UPDATE {table} SET {column} = {column} / 1000")
        package.execute("UPDATE mm_profile SET version = 1")
        package.commit()
    return True


def all_columns():
    """Returns each table with each of its columns."""
    return [(table, column) for table, columns in COLUMNS.items() for column in columns]


if __name__ == "__main__":
    if len(sys.argv) != 2:
        sys.exit(__doc__.split("\n\n")[1].strip())
    sys.exit(0 if put_back(sys.argv[1]) else "no form in profile 1: it stays as it is")
