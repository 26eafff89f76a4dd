#!/usr/bin/env python3
"""The time of one `matrix` command, as a package fills with pyramids.

    bench/matrices.py [--program out/mmpkg] [--pyramids 500] [--folder FOLDER]

Each pyramid gets 31 matrices, in one of three orders: rising zooms, falling zooms, and inside out. The program answers
each record before it reads the next, so each is sent when the last has been answered, and timed alone. The first 100
matrix commands are compared with the last 100: the time of one must not grow with what the package holds.
"""

import os
import statistics
import tempfile

import common

# 31 numbers of tiles whose pixel sizes divide one extent, from the coarsest on.
WIDTH = 3 << 29
TILE = 16
SIZES = sorted(
    (
        size << power
        for size in (1, 3)
        for power in range(31)
        if size << power <= 10**9 and WIDTH % (size << power) == 0
    ),
    reverse=True,
)[:31]


def inside_out(count):
    """The middle zoom, then the ones beside it, outwards."""
    return sorted(range(count), key=lambda zoom: abs(2 * zoom - count + 1))


ORDERS = {"rising": list(range(31)), "falling": list(range(30, -1, -1)), "inside out": inside_out(31)}


def records_of(pyramids, order):
    """The records, each with what it is counted under."""
    yield "srs,25832,ETRS89 / UTM zone 32N,EPSG,25832,projected metres,", ""
    for number in range(pyramids):
        yield f"pyramid,p{number},Pyramid {number},25832,0,0,{WIDTH * TILE},{WIDTH * TILE},other", ""
        for zoom in order:
            tiles = WIDTH // SIZES[zoom]
            yield f"matrix,p{number},{zoom},{tiles},{tiles},{TILE},{TILE},{SIZES[zoom]},{SIZES[zoom]}", "matrix"


def times_of(program, file, pyramids, order):
    """The seconds of each matrix command."""
    common.make_package(program, file)
    return common.times_by_kind(program, file, records_of(pyramids, order))["matrix"]


def main():
    asked = common.words_of(__doc__, pyramids=(500, "pyramids of 31 matrices each"))
    for name, order in ORDERS.items():
        with tempfile.TemporaryDirectory(dir=asked.folder) as folder:
            times = times_of(asked.program, os.path.join(folder, "bench.mmpkg"), asked.pyramids, order)
        first, last = statistics.median(times[:100]), statistics.median(times[-100:])
        print(f"{name}: {1e6 * first:.0f} us at first, {1e6 * last:.0f} us at last; ratio {last / first:.2f}")


if __name__ == "__main__":
    main()
