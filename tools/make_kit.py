#!/usr/bin/env python3
"""Makes a kit of a folder of tiles, as 'gdal2tiles.py --xyz' or a like tool writes it.

    tools/make_kit.py FOLDER TABLE EDITION OUT

FOLDER has the tiles of one pyramid as Z/C/R.png, .jpg, .jpeg or .webp: zoom, column and row, where row 0 is the
uppermost (without --xyz it is the lowest: such a folder, with tilemapresource.xml, is refused, and tools/fill.py takes
it). OUT gets them as pieces for the pyramid TABLE, with kit.csv, for 'mmpkg kit FILE EDITION OUT'; behind 4,096 tiles a
next kit begins, OUT_2 for EDITION_2 and so on. OUT must not be there. TABLE and its matrices have to stand when EDITION
is published; nothing here looks at them. The commands that take the kits in are printed, with FILE for the package.

Other files are named on standard error and left out.

Exit status: 0 all was taken; 1 something was left out; 2 wrong arguments, no tile, or a file that can't be read or
written.
"""

import pathlib

import tile_folders
import ways
from border import (
    MATRIX_LIMIT,
    TILE_LIMIT,
    ZOOM_LIMIT,
    KitWriter,
    Refused,
    Report,
    arguments,
    is_name,
    made_beside,
    run_tool,
    tile_piece,
)


def tiles_of(folder, report):
    """The tiles of a folder as zoom, column, row and file, in their order."""
    tiles, taken = [], {}
    for file in sorted(folder.rglob("*")):
        path = file.relative_to(folder).as_posix()
        if file.is_dir():
            if file.is_symlink():
                report.left_out(path, "it is a link to a folder, and its tiles aren't looked for")
            continue
        place = tile_folders.TILE.fullmatch(path)
        zoom, column, row = map(int, place.groups()[:3]) if place else (-1, -1, -1)
        if place is None or zoom > ZOOM_LIMIT or max(column, row) >= MATRIX_LIMIT:
            report.left_out(path, "it is no tile Z/C/R.png, .jpg or .webp")
        elif (zoom, column, row) in taken:
            report.left_out(path, f"{taken[zoom, column, row]} is the same tile")
        elif not 1 <= file.stat().st_size <= TILE_LIMIT:
            report.left_out(path, f"it has no 1 to {TILE_LIMIT} bytes")
        else:
            taken[zoom, column, row] = path
            tiles.append((zoom, column, row, file))
    return sorted(tiles)


def expect_folder(folder):
    """Refuses what is no folder whose tiles count from above."""
    takes = f"{ways.fill(folder)} takes it in as a map"
    if not folder.is_dir():
        raise Refused(f"{folder}: is no folder of tiles; {takes}" if folder.exists() else f"{folder}: isn't there")
    if (folder / tile_folders.TMS).exists():
        raise Refused(f"{folder}: has {tile_folders.TMS}, so its rows count from below; {takes}")


def main():
    parser = arguments(__doc__)
    parser.add_argument("FOLDER", type=pathlib.Path)
    parser.add_argument("TABLE")
    parser.add_argument("EDITION")
    parser.add_argument("OUT", type=pathlib.Path)
    given = parser.parse_args()
    for name in (given.TABLE, given.EDITION):
        if not is_name(name):
            raise Refused(f"{name!r} is no name of a package")
    expect_folder(given.FOLDER)
    report = Report()
    tiles = tiles_of(given.FOLDER, report)
    if not tiles:
        raise Refused(f"{given.FOLDER}: has no tile")
    with made_beside(given.OUT) as beside:
        kits = KitWriter(given.EDITION, given.OUT, beside)
        for zoom, column, row, file in tiles:
            kits.add(tile_piece(given.TABLE, zoom, column, row, file.read_bytes()))
        kits.name()
    kits.tell()
    return 1 if report.count else 0


if __name__ == "__main__":
    run_tool(main)
