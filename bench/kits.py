#!/usr/bin/env python3
"""The import of a kit, from nothing and again when all is staged, against C over SQLite doing the same reading,
looks, writes and commits.

    bench/kits.py [--program out/mmpkg] [--tiles 4000] [--bytes 20000] [--rounds 5] [--folder FOLDER]

A kit of tiles is imported into an open edition, one commit a piece, and then once more, which reads each file and
compares it with the piece that stands. The edition, the piece and the one before it, and the blob of the bytes by their
digest are looked up by their keys. What starting the program, and opening and closing the file as it stands before each
import take, is measured by runs of no record and taken out. Of each time the least of the rounds counts.
"""

import os
import tempfile

import common

SIDE = 200


def make_kit(folder, tiles, size):
    """Writes a kit of so many tiles of random bytes."""
    with open(os.path.join(folder, "kit.csv"), "w") as out:
        for number in range(tiles):
            out.write(f"{number + 1},tile,base,0,{number % SIDE},{number // SIDE},t{number}.bin\n")
            with open(os.path.join(folder, f"t{number}.bin"), "wb") as tile:
                tile.write(os.urandom(size))


def import_kit(side, file, kit, tiles):
    """The processor seconds of a run of no record, the least of three, and of one import."""
    opening = min(common.seconds_of_command([*side, "run", file, "--at", "0"])[0] for _ in range(3))
    took, told = common.seconds_of_command([*side, "kit", file, "k", kit, "--at", "0"])
    if told != f"kit complete {tiles}\n":
        raise SystemExit(told)
    return opening, took


def round_of(program, folder, kit, tiles):
    """By the sides, the times of the import from nothing, and then of the one that finds each piece."""
    files = common.make_packages(program, folder, "edition,k\n")
    return {
        side: [import_kit(words, files[side], kit, tiles) for _ in range(2)]
        for side, words in common.sides(program).items()
    }


def tell(what, asked, rounds, sides, turn):
    """Tells the figure of the first import of all rounds, or of the second."""
    costs = {}
    for side in sides:
        opening, took = (min(each) for each in zip(*(times[side][turn] for times in rounds)))
        costs[side] = [(took - opening) / asked.tiles]
        print(f"{side}: opening apart, {1e3 * opening:.0f} ms")
    common.tell_costs(f"{what}, {asked.bytes:,} bytes", costs)


def main():
    asked = common.words_of(
        __doc__, tiles=(4000, "tiles of the kit"), bytes=(20000, "bytes of a tile"), rounds=(5, "rounds")
    )
    rounds = []
    with tempfile.TemporaryDirectory(dir=asked.folder) as kit:
        make_kit(kit, asked.tiles, asked.bytes)
        for _ in range(asked.rounds):
            with tempfile.TemporaryDirectory(dir=asked.folder) as folder:
                rounds.append(round_of(asked.program, folder, kit, asked.tiles))
    tell("piece of a kit", asked, rounds, common.sides(asked.program), 0)
    tell("piece of a kit that stands already", asked, rounds, ("mmpkg", "C"), 1)


if __name__ == "__main__":
    main()
