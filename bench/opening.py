#!/usr/bin/env python3
"""Opening and closing a package of ten tables: a run of no record, without what starting the program takes.

    bench/opening.py [--program out/mmpkg] [--rounds 100] [--folder FOLDER]

Opening finds what the journal holds, checks the store's keys and the sixteen rules; closing copies the journal back.
"""

import os
import statistics
import subprocess
import tempfile
import time

import common


def records():
    """The records of five pyramids, three tables of rows and two of media, each with an entry."""
    yield "srs,25832,ETRS89 / UTM zone 32N,EPSG,25832,projected metres,\n"
    for number in range(5):
        yield f"pyramid,p{number},Pyramid {number},25832,0,0,256000000,256000000,two\n"
        yield f"matrix,p{number},0,1,1,256,256,1000000,1000000\ntile,p{number},0,0,0,5a\n"
    for number in range(3):
        yield f"table,r{number},attributes,Rows {number}\nrow,r{number},1,Well,,0\n"
    for number in range(2):
        yield f"table,m{number},media,Media {number}\nmedia,m{number},1,image/png,5a\n"


def seconds(words):
    """The seconds of one run of the program."""
    begin = time.perf_counter()
    subprocess.run(words, stdin=subprocess.DEVNULL, stdout=subprocess.DEVNULL, check=True)
    return time.perf_counter() - begin


def main():
    asked = common.words_of(__doc__, rounds=(100, "runs"))
    with tempfile.TemporaryDirectory(dir=asked.folder) as folder:
        file = os.path.join(folder, "bench.mmpkg")
        common.make_package(asked.program, file, "".join(records()))
        opened = [seconds([asked.program, "run", file, "--at", "0"]) for _ in range(asked.rounds)]
        started = [seconds([asked.program, "--help"]) for _ in range(asked.rounds)]
    common.tell_figure(
        "opening and closing a package of ten tables",
        1e3 * (statistics.median(opened) - statistics.median(started)),
        " ms",
    )


if __name__ == "__main__":
    main()
