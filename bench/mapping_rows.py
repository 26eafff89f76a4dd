#!/usr/bin/env python3
"""The time of one `map` command as mapping rows are added, and of one `row-drop` beside them.

    bench/mapping_rows.py [--program out/mmpkg] [--rows 10000] [--folder FOLDER]

Each record is sent when the last has been answered, and timed alone. The first 1,000 `map` commands are compared with
the last 1,000 (medians). Then 100 rows that no mapping row names are dropped, and 100 media.
"""

import os
import statistics
import tempfile

import common


def records_of(rows):
    """The records, each with what it is counted under."""
    yield "table,spots,attributes,Spots", ""
    yield "table,photos,media,Photos", ""
    yield "relation,spot_photos,spots,photos,media", ""
    for number in range(1, 101):
        yield f"row,spots,{number},Well,,0", ""
        yield f"media,photos,{number},image/png,00", ""
    for number in range(rows + 1, rows + 101):
        yield f"row,spots,{number},Gate,,0", ""
        yield f"media,photos,{number},image/png,00", ""
    for number in range(rows):
        yield f"map,spot_photos,{number // 100 + 1},{number % 100 + 1}", "map"
    for number in range(rows + 1, rows + 101):
        yield f"row-drop,spots,{number}", "row-drop"
        yield f"media-drop,photos,{number}", "media-drop"


def main():
    asked = common.words_of(__doc__, rows=(10000, "mapping rows, at most 10,000"))
    with tempfile.TemporaryDirectory(dir=asked.folder) as folder:
        file = os.path.join(folder, "bench.mmpkg")
        common.make_package(asked.program, file)
        times = common.times_by_kind(asked.program, file, records_of(asked.rows))
    first, last = statistics.median(times["map"][:1000]), statistics.median(times["map"][-1000:])
    print(f"map: {1e6 * first:.0f} us at first, {1e6 * last:.0f} us at last; ratio {last / first:.2f}")
    for kind in ("row-drop", "media-drop"):
        common.tell_figure(f"{kind} beside {asked.rows:,} mapping rows", 1e6 * statistics.median(times[kind]), " us")


if __name__ == "__main__":
    main()
