#!/usr/bin/env python3
"""The whole check of a package, against SQLite's own checks of a database with as many tiles.

    bench/check.py [--program out/mmpkg] [--tiles 100000] [--bytes 200] [--folder FOLDER]

A package is filled with half the tiles, checked, filled with the rest, and checked again: processor seconds and peak
memory, as /usr/bin/time tells them. SQLite's side, through Python's sqlite3 in a process of its own, does PRAGMA
integrity_check, PRAGMA foreign_key_check and one scan that reads every tile. The check must take at most 2.3 times as
long for twice the tiles, and its memory must not grow with their number. The store's own opening is measured apart,
which reads each page and checks its keys: what is left of the check is the product's.
"""

import os
import re
import shutil
import sqlite3
import subprocess
import sys
import tempfile

import common

SIDE = 400
CHECKS = """
import sqlite3, sys
database = sqlite3.connect(sys.argv[1])
assert database.execute("PRAGMA integrity_check").fetchone() == ("ok",)
assert database.execute("PRAGMA foreign_key_check").fetchone() is None
assert sum(len(row[4]) for row in database.execute("SELECT * FROM mm_tiles")) > 0
"""


def measured(words, status=0):
    """Processor seconds and peak kilobytes of a command."""
    done = subprocess.run(
        ["/usr/bin/time", "-v", *words],
        stdin=subprocess.DEVNULL,
        stdout=subprocess.PIPE,
        stderr=subprocess.PIPE,
        check=False,
    )
    told = done.stderr.decode()
    if done.returncode != status:
        raise SystemExit(done.stdout.decode()[:400] + told[-400:])
    seconds = sum(float(re.search(rf"{kind} time \(seconds\): ([\d.]+)", told).group(1)) for kind in ("User", "System"))
    return seconds, int(re.search(r"Maximum resident set size \(kbytes\): (\d+)", told).group(1))


def places(start, end):
    return ((number % SIDE, number // SIDE) for number in range(start, end))


def fill(program, file, folder, start, end, size):
    path = os.path.join(folder, "records.csv")
    with open(path, "w") as out:
        for column, row in places(start, end):
            out.write(f"tile,base,0,{column},{row},{os.urandom(size).hex()}\n")
    with open(path, "rb") as records:
        subprocess.run([program, "run", file, "--at", "0"], stdin=records, stdout=subprocess.DEVNULL, check=True)


def fill_other(file, start, end, size):
    database = sqlite3.connect(file)
    if start == 0:
        database.executescript(
            """CREATE TABLE gpkg_tile_matrix (table_name TEXT NOT NULL, zoom_level INTEGER NOT NULL,
                matrix_width INTEGER NOT NULL, matrix_height INTEGER NOT NULL,
                PRIMARY KEY (table_name, zoom_level)) STRICT;
            CREATE TABLE mm_tiles (table_name TEXT NOT NULL, zoom_level INTEGER NOT NULL,
                tile_column INTEGER NOT NULL, tile_row INTEGER NOT NULL, tile_data BLOB NOT NULL,
                PRIMARY KEY (table_name, zoom_level, tile_column, tile_row),
                FOREIGN KEY (table_name, zoom_level) REFERENCES gpkg_tile_matrix ON DELETE CASCADE) STRICT;"""
        )
        database.execute("INSERT INTO gpkg_tile_matrix VALUES ('base', 0, ?, ?)", (SIDE, SIDE))
    tiles = (("base", 0, column, row, os.urandom(size)) for column, row in places(start, end))
    database.executemany("INSERT INTO mm_tiles VALUES (?, ?, ?, ?, ?)", tiles)
    database.commit()
    database.close()


def opening(program, file, folder):
    """The same of the store's opening alone: a copy whose profile row is that of another program is refused as soon as
    it is open."""
    copy = os.path.join(folder, "copy.mmpkg")
    shutil.copy(file, copy)
    database = sqlite3.connect(copy)
    database.execute("UPDATE mm_profile SET version = 3")
    database.commit()
    database.close()
    return measured([program, "check", copy], status=4)


def new_package(given, folder):
    """Makes a package with an empty pyramid in a file of the folder, whose path it returns."""
    if given.tiles > SIDE * SIDE:
        raise SystemExit(f"at most {SIDE * SIDE} tiles")
    file = os.path.join(folder, "bench.mmpkg")
    common.make_package(given.program, file, common.layout(SIDE))
    return file


def main():
    given = common.words_of(
        __doc__, tiles=(100000, "tiles in the end, at most 160,000"), bytes=(200, "bytes of a tile")
    )
    with tempfile.TemporaryDirectory(dir=given.folder) as folder:
        file = new_package(given, folder)
        other = os.path.join(folder, "other.db")
        taken = []
        for start, end in ((0, given.tiles // 2), (given.tiles // 2, given.tiles)):
            fill(given.program, file, folder, start, end, given.bytes)
            fill_other(other, start, end, given.bytes)
            ours = min(measured([given.program, "check", file]) for _ in range(3))
            alone = min(opening(given.program, file, folder) for _ in range(3))
            theirs = measured([sys.executable, "-c", CHECKS, other])
            taken.append(ours)
            print(
                f"{end} tiles: mmpkg {ours[0]:.2f} s, {ours[1]} KB, of which the store's opening {alone[0]:.2f} s, "
                f"{alone[1]} KB; SQLite {theirs[0]:.2f} s, {theirs[1]} KB"
            )
        print(
            f"twice the tiles: {taken[1][0] / max(taken[0][0], 0.01):.2f} times the seconds, "
            f"{taken[1][1] / taken[0][1]:.2f} times the memory"
        )


if __name__ == "__main__":
    main()
