#!/usr/bin/env python3
"""What `migrate` costs beside `check`, in a package of many tiles.

    bench/migrate.py [--program out/mmpkg] [--tiles 100000] [--bytes 200] [--folder FOLDER]

A package of one pyramid is filled, and put back to profile 1 by scripts/outside/program/make_profile_1.py. Printed are
the processor seconds and the peak memory of `migrate`, of `migrate` again, which only checks, and of `check`; and how
much of the file migrating changed.
"""

import pathlib
import sys
import tempfile

import common
from check import fill, measured, new_package

sys.path.insert(0, str(pathlib.Path(__file__).resolve().parent.parent / "scripts" / "outside" / "program"))
from make_profile_1 import put_back  # noqa: E402

PAGE = 4096


def changed(before, after):
    """How many pages of the file differ."""
    return sum(before[at : at + PAGE] != after[at : at + PAGE] for at in range(0, max(len(before), len(after)), PAGE))


def main():
    given = common.words_of(__doc__, tiles=(100000, "tiles, at most 160,000"), bytes=(200, "bytes of a tile"))
    with tempfile.TemporaryDirectory(dir=given.folder) as folder:
        file = new_package(given, folder)
        fill(given.program, file, folder, 0, given.tiles, given.bytes)
        if not put_back(file):
            raise SystemExit("no form in profile 1")
        before = pathlib.Path(file).read_bytes()
        for name, word in (("migrate", "migrate"), ("migrate again", "migrate"), ("check", "check")):
            seconds, memory = measured([given.program, word, file])
            print(f"{name}: {seconds:.2f} s of the processor, {memory} KB")
        after = pathlib.Path(file).read_bytes()
        print(f"{len(before) // PAGE} pages, of which migrating changed {changed(before, after)}")


if __name__ == "__main__":
    main()
