#!/usr/bin/env python3
"""What a removal of many rows with their bytes holds in memory, beside what opening the same file holds.

    bench/removal.py [--program out/mmpkg] [--bytes 10000] [--folder FOLDER]

A table of 16,000 tiles is dropped, and an edition of 4,096 tiles is discarded, and another is published; the tiles all
differ. Each is one transaction. Told is the most that the program held, for a run of no record and for the run of the
one record.
"""

import os
import subprocess
import tempfile

import common
from check import measured

SIDE = 127
TILES, PIECES = 16_000, 4_096


def records_of(what, size):
    """Yields the records that make what is removed."""
    count, prefix = (TILES, "tile,base,0") if what == "drop,base" else (PIECES, "stage,spring,{},tile,base,0")
    if prefix.startswith("stage"):
        yield "edition,spring\n"
    for number in range(count):
        yield f"{prefix.format(number + 1)},{number % SIDE},{number // SIDE},{os.urandom(size).hex()}\n"


def held(program, file, folder, record):
    """The most that a run of a record holds, or of none, in MiB."""
    path = os.path.join(folder, "record.csv")
    with open(path, "w") as out:
        out.write(record)
    return measured(["sh", "-c", 'exec "$0" run "$1" --at 0 < "$2"', program, file, path])[1] / 1024


def main():
    asked = common.words_of(__doc__, bytes=(10000, "bytes of a tile"))
    for what in ("drop,base", "discard,spring", "publish,spring"):
        with tempfile.TemporaryDirectory(dir=asked.folder) as folder:
            file = os.path.join(folder, "removal.mmpkg")
            common.make_package(asked.program, file, common.layout(SIDE))
            with subprocess.Popen(
                [asked.program, "run", file, "--at", "0"], stdin=subprocess.PIPE, stdout=subprocess.DEVNULL, text=True
            ) as run:
                run.stdin.writelines(records_of(what, asked.bytes))
                run.stdin.close()
            size, opening = os.path.getsize(file) / 1e6, held(asked.program, file, folder, "")
            removing = held(asked.program, file, folder, f"{what}\n")
            print(
                f"{what}: a file of {size:.0f} MB; {opening:.1f} MiB to open and close it, "
                f"{removing:.1f} MiB with the command"
            )


if __name__ == "__main__":
    main()
