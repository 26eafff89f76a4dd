#!/usr/bin/env python3
"""The size of a package whose tiles are often equal, and what asking for the form of its blobs takes.

    bench/blobs.py [--program out/mmpkg] [--tiles 10000] [--bytes 10000] [--folder FOLDER]

Two packages are made: one whose tiles all differ, and one of which every second tile is the same blank one. Their sizes
are told, the journal's too. Then each is checked, and sha256sum reads as many bytes as the first package has in its
tiles: seconds a GB of each, and the peak memory of the check.
"""

import os
import subprocess
import tempfile

import common
from check import measured

SIDE = 400


def make(program, file, folder, tiles, size, is_blank):
    common.make_package(program, file, common.layout(SIDE))
    path = os.path.join(folder, "records.csv")
    with open(path, "w") as out:
        for number in range(tiles):
            content = "5a" * size if is_blank(number) else os.urandom(size).hex()
            out.write(f"tile,base,0,{number % SIDE},{number // SIDE},{content}\n")
    with open(path, "rb") as records:
        subprocess.run([program, "run", file, "--at", "0"], stdin=records, stdout=subprocess.DEVNULL, check=True)
    os.remove(path)
    return sum(os.path.getsize(file + suffix) for suffix in ("", "-wal"))


def main():
    asked = common.words_of(__doc__, tiles=(10000, "tiles"), bytes=(10000, "bytes of a tile"))
    with tempfile.TemporaryDirectory(dir=asked.folder) as folder:
        for name, is_blank in (
            ("all differ", lambda number: False),
            ("every second is blank", lambda number: number % 2 == 1),
        ):
            file = os.path.join(folder, f"{name.replace(' ', '_')}.mmpkg")
            size = make(asked.program, file, folder, asked.tiles, asked.bytes, is_blank)
            seconds, peak = measured([asked.program, "check", file])
            print(
                f"{name}: {size / 1e6:.1f} MB; check {seconds:.2f} s of processor time, {peak / 1024:.0f} MiB at most"
            )
        plain = os.path.join(folder, "plain")
        with open(plain, "wb") as out:
            for _ in range(asked.tiles):
                out.write(os.urandom(asked.bytes))
        seconds, _ = measured(["sha256sum", plain])
        print(f"sha256sum: {seconds / (asked.tiles * asked.bytes / 1e9):.2f} s a GB")


if __name__ == "__main__":
    main()
