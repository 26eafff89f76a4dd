#!/usr/bin/env python3
"""Opening and closing a large package, beside sha256sum of its file and SQLite's own integrity_check of it.

    bench/opening_large.py [--program out/mmpkg] [--megabytes 200] [--bytes 100000] [--folder FOLDER]

A package is filled with tiles that all differ, and a run of no record opens and closes it. Told are MB a second of a
processor, and of the clock, and the peak of memory, of each. Opening reads each page and checks its keys, hashes each
blob, and asks the sixteen rules.
"""

import os
import shutil
import sqlite3
import subprocess
import sys
import tempfile
import time

import common
from check import measured

SIDE = 400
# As a program of its own, so that its memory is its own.
INTEGRITY = (
    "import sqlite3, sys; assert sqlite3.connect(sys.argv[1]).execute('PRAGMA integrity_check').fetchone() == ('ok',)"
)


def fill(program, file, tiles, size):
    """Fills a package with so many tiles, each of so many bytes of its own."""
    with subprocess.Popen([program, "run", file, "--at", "0"], stdin=subprocess.PIPE, stdout=subprocess.DEVNULL) as run:
        for number in range(tiles):
            run.stdin.write(f"tile,base,0,{number % SIDE},{number // SIDE},{os.urandom(size).hex()}\n".encode())
        run.stdin.close()
    if run.returncode != 0:
        raise SystemExit("the package was not filled")


def told(what, words, megabytes):
    """Prints what a command takes for a file of so many megabytes."""
    begin = time.perf_counter()
    seconds, peak = measured(words)
    clock = time.perf_counter() - begin
    print(
        f"= {what}: {megabytes / seconds:.0f} MB a second of a processor, {megabytes / clock:.0f} of the clock, "
        f"{peak / 1024:.0f} MiB at most"
    )


def main():
    asked = common.words_of(__doc__, megabytes=(200, "megabytes of tiles"), bytes=(100_000, "bytes of a tile"))
    with tempfile.TemporaryDirectory(dir=asked.folder) as folder:
        file, copy = os.path.join(folder, "large.mmpkg"), os.path.join(folder, "copy.db")
        common.make_package(asked.program, file, common.layout(SIDE))
        fill(asked.program, file, asked.megabytes * 1_000_000 // asked.bytes, asked.bytes)
        size = os.path.getsize(file) / 1e6
        shutil.copyfile(file, copy)
        with sqlite3.connect(copy) as connection:
            connection.execute("SELECT 1 FROM mm_profile")
        told(f"opening {size:.0f} MB", [asked.program, "run", file, "--at", "0"], size)
        told(f"sha256sum of {size:.0f} MB", ["sha256sum", file], size)
        told(f"integrity_check of {size:.0f} MB", [sys.executable, "-c", INTEGRITY, copy], size)


if __name__ == "__main__":
    main()
