#!/usr/bin/env python3
"""Tiles into a package, in lists, against C over SQLite doing the same reading, looks, writes and commits.

    bench/tiles.py [--program out/mmpkg] [--lists 10] [--tiles 2000] [--bytes 10000] [--folder FOLDER]

Each list of tiles is one run of each side, read from a file that is written beforehand; opening and closing are in no
time. A tile is a commit: the kind, the matrix, the blob of the bytes by their digest and the tile are looked up by
their keys, the blob and the tile are inserted, and last_change is set. The sides take turns, list by list, and the
least of the lists counts on each. The last list is compared with the first: a tile must not cost more as the package
fills.
"""

import os
import tempfile

import common

SIDE = 200


def write_records(path, start, count, size):
    """Writes the records of so many tiles of random bytes."""
    with open(path, "w") as out:
        for number in range(start, start + count):
            out.write(f"tile,base,0,{number % SIDE},{number // SIDE},{os.urandom(size).hex()}\n")


def main():
    asked = common.words_of(
        __doc__, lists=(10, "lists of tiles"), tiles=(2000, "tiles in a list"), bytes=(10000, "bytes of a tile")
    )
    sides = common.sides(asked.program)
    costs = {side: [] for side in sides}
    with tempfile.TemporaryDirectory(dir=asked.folder) as folder:
        path = os.path.join(folder, "records.csv")
        files = common.make_packages(asked.program, folder, common.layout(SIDE))
        for number in range(asked.lists):
            write_records(path, number * asked.tiles, asked.tiles, asked.bytes)
            for side, words in sides.items():
                costs[side].append(common.seconds_of_records(words, files[side], path)[0] / (asked.tiles - 1))
    print("last list to first: " + ", ".join(f"{side} {each[-1] / each[0]:.2f}" for side, each in costs.items()))
    common.tell_costs(f"tile of {asked.bytes:,} bytes", costs)


if __name__ == "__main__":
    main()
