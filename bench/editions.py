#!/usr/bin/env python3
"""An edition of tiles, staged and published, against C over SQLite doing the same looks and writes in one
transaction; and the memory that it takes.

    bench/editions.py [--program out/mmpkg] [--rounds 5] [--folder FOLDER]

4,096 tiles of 1 kB are staged, one command each, and then published behind a record of another kind, in some rounds, of
which the least of each time counts. Opening and closing are in no time. To publish is, for each piece, to read its row,
to look up the kind, the matrix and the tile by their keys, to insert the tile and to set last_change; then the edition
is published, those blobs of its pieces are listed that no tile and no medium names, the pieces are removed, and each
blob of the list is asked for. Memory is the most that the program held (as `/usr/bin/time -v` tells it), for publishing
512 and 4,096 pieces of 10 kB.
"""

import os
import re
import subprocess
import tempfile

import common

SIDE = 64
PIECES = 4096


def stage_records(count, size):
    """The records that stage so many tiles of random bytes."""
    return "".join(
        f"stage,spring,{n + 1},tile,base,0,{n % SIDE},{n // SIDE},{os.urandom(size).hex()}\n" for n in range(count)
    )


def seconds_of(side, file, folder, records):
    """The processor seconds of records but the first."""
    path = os.path.join(folder, "records.csv")
    with open(path, "w") as out:
        out.write(records)
    return common.seconds_of_records(side, file, path)[0]


def round_of(program, folder):
    """By the sides, the processor seconds of staging a piece and of publishing one."""
    files = common.make_packages(program, folder, common.layout(SIDE) + "edition,spring\n")
    pieces = stage_records(PIECES, 1000)
    costs = {}
    for side, words in common.sides(program).items():
        staged = seconds_of(words, files[side], folder, pieces) / (PIECES - 1)
        published = seconds_of(words, files[side], folder, "srs,4,Local,NONE,4,a plane,\npublish,spring\n") / PIECES
        costs[side] = staged, published
    return costs


def memory_of_publishing(program, folder, count):
    """The most that the program holds while it publishes so many pieces of 10 kB, in MiB."""
    file = os.path.join(folder, "memory.mmpkg")
    common.make_package(program, file, common.layout(SIDE) + "edition,spring\n" + stage_records(count, 10000))
    words = ["/usr/bin/time", "-v", program, "run", file, "--at", "0"]
    done = subprocess.run(
        words, input=b"publish,spring\n", stdout=subprocess.DEVNULL, stderr=subprocess.PIPE, check=True
    )
    return int(re.search(rb"Maximum resident set size \(kbytes\): (\d+)", done.stderr)[1]) / 1024


def main():
    asked = common.words_of(__doc__, rounds=(5, "rounds"))
    rounds = []
    for _ in range(asked.rounds):
        with tempfile.TemporaryDirectory(dir=asked.folder) as folder:
            rounds.append(round_of(asked.program, folder))
    common.tell_costs(
        "staging a piece of 1,000 bytes", {side: [each[side][0] for each in rounds] for side in rounds[0]}
    )
    common.tell_costs("publishing a piece", {side: [each[side][1] for each in rounds] for side in ("mmpkg", "C")})
    for pieces in (512, 4096):
        with tempfile.TemporaryDirectory(dir=asked.folder) as folder:
            print(
                f"publishing {pieces} pieces of 10 kB held "
                f"{memory_of_publishing(asked.program, folder, pieces):.1f} MiB at most"
            )


if __name__ == "__main__":
    main()
