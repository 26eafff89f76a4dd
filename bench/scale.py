#!/usr/bin/env python3
"""What each command costs in a package of 1,000, of 10,000 and of 100,000 tiles, rows, media and mapping rows.

    bench/scale.py [--program out/mmpkg] [--most 100000] [--records 100] [--rounds 3] [--folder FOLDER]

Each package is filled by the program itself. Then each command is given so many times, each record sent when the last
has been answered and timed alone, to one package after the other, so that a machine that grows slower does so for all
three; its median is taken. In each round the packages are as they were filled. Printed are the medians of the rounds,
and the cost in the largest package against that in the smallest, which is to be at most 1.2: a command finds its rows
by a key.
"""

import contextlib
import os
import shutil
import statistics
import subprocess
import tempfile

import common

SIDE = 400
MOST = SIDE * SIDE // 2


def filling(count):
    """The records of a package with so many entries of each sort, each mapping row of a row and a medium of its own."""
    yield common.layout(SIDE)
    yield "table,spots,attributes,Spots\ntable,photos,media,Photos\nrelation,spot_photos,spots,photos,media\n"
    for number in range(count):
        yield f"tile,base,0,{number % SIDE},{number // SIDE},{number:08x}\n"
    for number in range(1, count + 1):
        row, photo = f"row,spots,{number},Well,,0\n", f"media,photos,{number},image/png,{number:08x}\n"
        yield f"{row}{photo}map,spot_photos,{number},{number}\n"


def fill(program, file, count):
    """Makes a package with so many entries of each sort."""
    common.make_package(program, file)
    with subprocess.Popen([program, "run", file, "--at", "0"], stdin=subprocess.PIPE, stdout=subprocess.DEVNULL) as run:
        for record in filling(count):
            run.stdin.write(record.encode())
        run.stdin.close()
        if run.wait() != 0:
            raise SystemExit("the package was not filled")


def of_entries(count, records):
    """Records of entries beside those of the package, each with what it is counted under."""
    for new in range(records):
        place = f"{(count + new) % SIDE},{(count + new) // SIDE}"
        entry = count + 1 + new
        yield f"tile,base,0,{place},5a5a", "tile"
        yield f"tile,base,0,{place},5b5b", "tile, in place of another"
        yield f"row,spots,{entry},Gate,,1", "row"
        yield f"media,photos,{entry},image/png,5a5a", "media"
        yield f"map,spot_photos,{entry},{entry}", "map"
        yield f"map-drop,spot_photos,{entry},{entry}", "map-drop"
        yield f"media-drop,photos,{entry}", "media-drop"
        yield f"row-drop,spots,{entry}", "row-drop"
        yield f"tile-drop,base,0,{place}", "tile-drop"


def of_tables(records):
    """Records of systems, tables and relations that go again, but for the systems."""
    for new in range(records):
        yield f"srs,{100000 + new},System,NONE,{new + 1},projected metres,", "srs"
        yield f"pyramid,p{new},Pyramid {new},25832,0,0,256000000,256000000,two", "pyramid"
        yield f"matrix,p{new},0,1,1,256,256,1000000,1000000", "matrix"
        yield f"drop,p{new}", "drop"
        yield f"table,t{new},attributes,Table {new}", "table"
        yield f"relation,r{new},t{new},photos,media", "relation"
        yield f"relation-drop,r{new}", "relation-drop"
        yield f"drop,t{new}", "drop"


def of_editions(count, records):
    """Records of editions of one piece, of which each second is published."""
    for new in range(records):
        place = f"{(count + new) % SIDE},{(count + new) // SIDE}"
        for name, end in ((f"kept{new}", "publish"), (f"left{new}", "discard")):
            yield f"edition,{name}", "edition"
            yield f"stage,{name},1,tile,base,0,{place},5c5c", "stage"
            yield f"rehearse,{name}", "rehearse"
            yield f"{end},{name}", end


def medians(program, filled, records):
    """The median seconds of each command in a copy of each package, by kind and entries; the packages take turns, a
    record each."""
    asked = {
        count: [*of_entries(count, records), *of_tables(records), *of_editions(count, records)] for count in filled
    }
    times = {}
    with tempfile.TemporaryDirectory(
        dir=os.path.dirname(next(iter(filled.values())))
    ) as folder, contextlib.ExitStack() as opened:
        runs = {
            count: opened.enter_context(common.Run(program, shutil.copy(file, folder)))
            for count, file in filled.items()
        }
        for together in zip(*asked.values()):
            for (count, run), (record, kind) in zip(runs.items(), together):
                times.setdefault((kind, count), []).append(run.seconds_of(record))
    return {it: statistics.median(each) for it, each in times.items()}


def main():
    asked = common.words_of(
        __doc__,
        most=(100000, f"entries of each sort in the largest package, at most {MOST:,}"),
        records=(100, "records of each command in a round"),
        rounds=(3, "rounds"),
    )
    sizes = [asked.most // 100, asked.most // 10, asked.most]
    times = {}
    with tempfile.TemporaryDirectory(dir=asked.folder) as folder:
        filled = {count: os.path.join(folder, f"filled{count}.mmpkg") for count in sizes}
        for count, file in filled.items():
            fill(asked.program, file, count)
        for _ in range(asked.rounds):
            for (kind, count), seconds in medians(asked.program, filled, asked.records).items():
                times.setdefault(kind, {}).setdefault(count, []).append(seconds)
    print(
        "| command | "
        + " | ".join(f"{count:,}" for count in sizes)
        + " | last to first |\n"
        + "|---" * (len(sizes) + 2)
        + "|"
    )
    for kind, by_size in times.items():
        costs = [statistics.median(by_size[count]) for count in sizes]
        print(
            f"| {kind} | " + " | ".join(f"{1e6 * cost:.0f} us" for cost in costs) + f" | {costs[-1] / costs[0]:.2f} |"
        )


if __name__ == "__main__":
    main()
