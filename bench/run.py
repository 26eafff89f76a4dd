#!/usr/bin/env python3
"""What a commit of `mmpkg run` costs, against C over SQLite doing the same work.

    bench/run.py [--program out/mmpkg] [--records 2000] [--rounds 9] [--folder FOLDER]

Each record is one commit: a look by the primary key, an insert, and a commit that is synced. Both sides read the
records from standard input and write a line for each, in files that were equal; opening and closing are in no time. The
sides take turns, and the least of the rounds counts on each. Printed too are the commits a second by the clock, and
what two synced writes take against one on the same disk with no database at all.
"""

import os
import statistics
import tempfile
import time

import common


def write_records(path, count):
    """Writes the records of so many reference systems."""
    with open(path, "w") as out:
        for number in range(count):
            out.write(
                f"srs,{100000 + number},System {number},NONE,{number + 1},projected metres,a system of the bench\n"
            )


def time_syncs(folder, count, syncs):
    """The seconds of so many appends to a file with these syncs each, and nothing else: what the disk itself takes."""
    with open(os.path.join(folder, "bench.raw"), "wb", buffering=0) as file:
        begin = time.perf_counter()
        for _ in range(count):
            file.write(bytes(4096))
            os.fdatasync(file.fileno())
            for _ in range(1, syncs):
                file.write(b"1")
                os.fdatasync(file.fileno())
        return time.perf_counter() - begin


def round_of(program, folder, records):
    """The processor seconds and those of the clock of each side."""
    path = os.path.join(folder, "records.csv")
    write_records(path, records)
    files = common.make_packages(program, folder)
    return {
        side: common.seconds_of_records(words, files[side], path)
        for side, words in common.sides(program).items()
        if side in ("mmpkg", "C")
    }


def main():
    asked = common.words_of(__doc__, records=(2000, "records in a round"), rounds=(9, "rounds of each side"))
    rounds, twice = [], []
    for _ in range(asked.rounds):
        with tempfile.TemporaryDirectory(dir=asked.folder) as folder:
            rounds.append(round_of(asked.program, folder, asked.records))
            twice.append(time_syncs(folder, asked.records, 2) / time_syncs(folder, asked.records, 1))
    of = asked.records - 1
    for side in rounds[0]:
        print(f"{side}: {of / statistics.median(each[side][1] for each in rounds):.0f} commits a second")
    print(f"two synced writes by one, on the disk alone: {statistics.median(twice):.2f}")
    common.tell_costs("srs", {side: [each[side][0] / of for each in rounds] for side in rounds[0]})


if __name__ == "__main__":
    main()
