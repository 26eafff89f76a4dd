#!/usr/bin/env python3
"""Fills a package with a map: from a GeoTIFF, GeoPackage, MBTiles or a folder of tiles to a pyramid, by one command.

    tools/fill.py FILE SOURCE [--table TABLE] [--system NUMBER] [--format png|jpeg]

SOURCE is a map that GDAL opens (a GeoTIFF, a map of a GeoPackage as GPKG:in.gpkg:base, MBTiles, VRT, ..), or a folder
of tiles Z/C/R.png, .jpg or .webp: with tilemapresource.xml one of TMS, whose rows count from below, else one of Web
Mercator, whose rows count from above. FILE is a package of mmpkg, which is made where it is missing; no other program
may have it. The map becomes the pyramid TABLE (the source's name), with all zooms up to one of a single tile, its tiles
of 256 x 256 pixels, and its bounds. Places without a pixel get no tile.

A map in metres keeps its system and its pixels. One in Web Mercator, in degrees or in feet is drawn anew in a system in
metres, with pixels of its own size on the ground: that of --system, a number at EPSG, else the zone of UTM in which its
middle lies, of ETRS89 in Europe. Tiles are JPEG where the map is a photo, and PNG where it is a map of lines and where
a part of the tile is clear; which it is is found by looking at some tiles, or told by --format.

It may be stopped and begun again by the same command: what stands isn't drawn again, and the end is the same. A
terminal tells how far it is. The last line says how to open the package.

Wants GDAL's modules for Python (Debian's python3-gdal), and the program: the one that the environment's MMPKG names,
else out/mmpkg of this repository, else mmpkg of the path.

Exit status: 0 the map is in; 2 wrong arguments, or a source or file that can't be read or written, or has no place in a
package; 3 a fault; 4 FILE is no package, or one that breaks a rule.
"""

import pathlib
import sqlite3

from border import NUMBER_LIMIT, Refused, arguments, is_whole, run_tool
from gdal_python import go_on_with_gdal


def main():
    parser = arguments(__doc__)
    parser.add_argument("FILE", type=pathlib.Path)
    parser.add_argument("SOURCE", type=pathlib.Path)
    parser.add_argument("--table")
    parser.add_argument("--system", type=int, metavar="NUMBER")
    parser.add_argument("--format", choices=("png", "jpeg"))
    given = parser.parse_args()
    if given.system is not None and not is_whole(given.system, 1, NUMBER_LIMIT):
        raise Refused("--system: is no number of a system at EPSG")
    go_on_with_gdal()
    import filling

    try:
        return filling.work(given)
    except sqlite3.Error as error:
        raise Refused(f"{given.FILE}: {error}") from error


if __name__ == "__main__":
    run_tool(main)
