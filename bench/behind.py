#!/usr/bin/env python3
"""A picture of 100,000 x 100,000 pixels behind the work (tools/maps.py), or an MBTiles of some GB: how soon it is
opened and drawn, and the memory.

    bench/behind.py [--folder FOLDER] [--side 10] [--mbtiles GB]

The picture is a VRT over SIDE x SIDE GeoTIFFs of 10,000 x 10,000 pixels with overviews, as gdalbuildvrt makes it, with
the line <OverviewList> that has GDAL use those. The GeoTIFFs are one file under as many names. The MBTiles has JPEG
tiles of the zooms 10 to 17 about 9 degrees east and 50.5 north, all of one picture. Times are by the clock, of a
program of maps that is started anew; its files are in the system's memory then, as far as that goes. Wants Debian's
gdal-bin and python3-gdal. The last line is the peak of its memory.
"""

import argparse
import concurrent.futures
import contextlib
import http.client
import json
import math
import os
import pathlib
import sqlite3
import statistics
import subprocess
import sys
import tempfile
import time
import urllib.parse

TOP = pathlib.Path(__file__).resolve().parent.parent
PYTHON = "/usr/bin/python3"
TILE, SYSTEM, WEST, NORTH = 10_000, 25832, 500_000, 5_700_000
OVERVIEWS = [2, 4, 8, 16, 32, 64]
AT_ONCE, PARTS = 4, 40
BAND = '<VRTRasterBand dataType="Byte" band="{band}"><ColorInterp>{colour}</ColorInterp>{sources}</VRTRasterBand>'
SOURCE = (
    '<SimpleSource><SourceFilename relativeToVRT="1">{name}</SourceFilename><SourceBand>{band}</SourceBand>'
    '<SourceProperties RasterXSize="{tile}" RasterYSize="{tile}" DataType="Byte" BlockXSize="256" BlockYSize="256"/>'
    '<SrcRect xOff="0" yOff="0" xSize="{tile}" ySize="{tile}"/>'
    '<DstRect xOff="{across}" yOff="{down}" xSize="{tile}" ySize="{tile}"/></SimpleSource>'
)


def run(*words):
    subprocess.run([str(it) for it in words], check=True, stdout=subprocess.DEVNULL)


def make_noise(folder):
    noise = folder / "noise.raw"
    noise.write_bytes(os.urandom(3 * 1000 * 1000))
    (folder / "noise.vrt").write_text(
        '<VRTDataset rasterXSize="1000" rasterYSize="1000">'
        + "".join(
            f'<VRTRasterBand dataType="Byte" band="{it + 1}" subClass="VRTRawRasterBand">'
            f'<SourceFilename relativeToVRT="1">noise.raw</SourceFilename>'
            f"<ImageOffset>{it * 1_000_000}</ImageOffset><PixelOffset>1</PixelOffset>"
            "<LineOffset>1000</LineOffset></VRTRasterBand>"
            for it in range(3)
        )
        + "</VRTDataset>"
    )
    return folder / "noise.vrt"


def make_tile(folder):
    """A GeoTIFF that looks like the ground from above, as far as a computer can tell."""
    made = folder / "tile.tif"
    how = "-co TILED=YES -co COMPRESS=JPEG -co PHOTOMETRIC=YCBCR".split()
    run("gdal_translate", "-q", "-outsize", TILE, TILE, "-r", "cubic", *how, make_noise(folder), made)
    run("gdaladdo", "-q", "-r", "average", made, *OVERVIEWS)
    return made


def make_picture(folder, side):
    tile, places = make_tile(folder), [(across, down) for down in range(side) for across in range(side)]
    for across, down in places:
        os.link(tile, folder / f"{across}_{down}.tif")
    bands = "".join(
        BAND.format(band=band, colour=colour, sources="".join(
            SOURCE.format(name=f"{across}_{down}.tif", band=band, tile=TILE, across=across * TILE, down=down * TILE)
            for across, down in places))
        for band, colour in enumerate(("Red", "Green", "Blue"), 1)
    )  # fmt: skip
    size, listed = side * TILE, " ".join(map(str, OVERVIEWS))
    (folder / "picture.vrt").write_text(
        f'<VRTDataset rasterXSize="{size}" rasterYSize="{size}"><SRS>EPSG:{SYSTEM}</SRS>'
        f"<GeoTransform>{WEST}, 0.1, 0, {NORTH}, 0, -0.1</GeoTransform>{bands}"
        f'<OverviewList resampling="nearest">{listed}</OverviewList></VRTDataset>'
    )
    return folder / "picture.vrt"


def place_of(zoom, east=9.0, north=50.5):
    """Column and row, counted from the north, of the tile that a place lies in."""
    sides, angle = 1 << zoom, math.radians(north)
    return int((east / 360 + 0.5) * sides), int((1 - math.asinh(math.tan(angle)) / math.pi) / 2 * sides)


def make_mbtiles(folder, size):
    """An MBTiles of about so many bytes."""
    made, tile = folder / "map.mbtiles", folder / "tile.jpg"
    run("gdal_translate", "-q", "-of", "JPEG", "-outsize", 256, 256, make_noise(folder), tile)
    data = tile.read_bytes()
    side = math.isqrt(int(size / len(data) * 3 / 4))
    with contextlib.closing(sqlite3.connect(made)) as opened, opened:
        opened.execute("CREATE TABLE metadata (name TEXT, value TEXT)")
        opened.execute("CREATE TABLE tiles (zoom_level INTEGER, tile_column INTEGER, tile_row INTEGER, tile_data BLOB)")
        told = {"name": "map", "format": "jpg", "minzoom": 10, "maxzoom": 17, "type": "baselayer", "version": "1.1"}
        opened.executemany("INSERT INTO metadata VALUES (?, ?)", [(it, str(value)) for it, value in told.items()])
        for zoom in range(10, 18):
            count, (column, row) = max(1, side >> (17 - zoom)), place_of(zoom)
            left, top = column - count // 2, row - count // 2
            tiles = (
                (zoom, left + it % count, (1 << zoom) - 1 - top - it // count, data) for it in range(count * count)
            )
            opened.executemany("INSERT INTO tiles VALUES (?, ?, ?, ?)", tiles)
        opened.execute("CREATE UNIQUE INDEX tile_index ON tiles (zoom_level, tile_column, tile_row)")
    return made


class Server:
    """A program of maps, and how long each question took."""

    def __init__(self, picture):
        began = time.monotonic()
        words = [PYTHON, "-B", TOP / "tools" / "maps.py", "http://127.0.0.1:8090", picture]
        self.running = subprocess.Popen(words, stdin=subprocess.PIPE, stdout=subprocess.PIPE, text=True)
        self.address = urllib.parse.urlsplit(self.running.stdout.readline().strip())
        assert self.running.stdout.readline() == "ready\n", "the picture isn't opened"
        self.opened = time.monotonic() - began

    def ask(self, path):
        """The seconds that an answer took, its status and body."""
        began, connection = time.monotonic(), http.client.HTTPConnection(self.address.netloc, timeout=600)
        connection.request("GET", f"{self.address.path}{path}")
        response = connection.getresponse()
        body = response.read()
        connection.close()
        return time.monotonic() - began, response.status, body

    def part(self, pixel, column, row, system=SYSTEM, corner=(WEST, NORTH)):
        seconds, status, _ = self.ask(f"parts/0/{system}/{corner[0]}/{corner[1]}/{pixel}/{column}/{row}")
        assert status == 200, (status, pixel, column, row)
        return seconds

    def peak(self):
        told = pathlib.Path(f"/proc/{self.running.pid}/status").read_text()
        return int(told.split("VmHWM:")[1].split()[0]) / 1024

    def end(self):
        self.running.stdin.close()
        self.running.wait()


def tell(what, seconds):
    taken = sorted(1000 * it for it in seconds)
    told = (
        f"{taken[0]:.0f} ms"
        if len(taken) == 1
        else (f"{taken[0]:.0f} to {taken[-1]:.0f} ms, {statistics.median(taken):.0f} ms in the middle")
    )
    print(f"{what}: {told}", flush=True)


def measure(picture, side):
    server = Server(picture)
    tell("opened, from the start of the program on", [server.opened])
    seconds, _, body = server.ask(f"maps?system={SYSTEM}")
    coarsest = json.loads(body)["maps"][0]["coarsest"]
    tell("the list", [seconds])
    middle = side * TILE // 2 // 256
    tell("the first part, pixel by pixel", [server.part(0.1, middle, middle)])
    tell(
        f"{PARTS} parts side by side, pixel by pixel", [server.part(0.1, middle + it, 3) for it in range(1, PARTS + 1)]
    )
    for pixel in (0.4, 1.6, 6.4, min(25.6, coarsest)):
        places = [(column, row) for row in range(3) for column in range(3)]
        count = max(1, min(3, int(side * TILE * 0.1 / pixel / 256)))
        tell(f"parts of {pixel:g} m a pixel", [server.part(pixel, *it) for it in places if max(it) < count])
    west, north = 500_000, 5_700_300
    tell(
        "10 parts in another system (EPSG:32632)",
        [server.part(0.1, 100 + it, 100, 32632, (west, north)) for it in range(10)],
    )
    began = time.monotonic()
    with concurrent.futures.ThreadPoolExecutor(AT_ONCE) as asking:
        list(asking.map(lambda it: server.part(0.2, it % 8, 20 + it // 8), range(PARTS)))
    tell(f"{PARTS} parts, {AT_ONCE} at a time, all together", [time.monotonic() - began])
    print(f"the peak of its memory: {server.peak():.0f} MiB")
    server.end()


def measure_mbtiles(file):
    """Opens an MBTiles behind a work in EPSG:25832, into whose system each part is brought over."""
    print(f"an MBTiles of {file.stat().st_size / 1e9:.1f} GB", flush=True)
    server, corner = Server(file), (490_000, 5_600_000)
    tell("opened, from the start of the program on", [server.opened])
    tell("the list", [server.ask(f"maps?system={SYSTEM}")[0]])
    column, row = int(10_000 / 0.8 / 256), int(6_000 / 0.8 / 256)
    tell("the first part, pixel by pixel", [server.part(0.8, column, row, corner=corner)])
    near = [server.part(0.8, column + it % 8, row + 1 + it // 8, corner=corner) for it in range(PARTS)]
    tell(f"{PARTS} parts about it, pixel by pixel", near)
    for pixel in (3.2, 12.8, 51.2):
        places = (int(10_000 / pixel / 256), int(6_000 / pixel / 256))
        tell(f"a part of {pixel:g} m a pixel", [server.part(pixel, *places, corner=corner) for _ in range(3)])
    print(f"the peak of its memory: {server.peak():.0f} MiB")
    server.end()


def main():
    words = argparse.ArgumentParser(description=__doc__, formatter_class=argparse.RawDescriptionHelpFormatter)
    words.add_argument("--folder", help="where the files are made (default: the system's folder for such)")
    words.add_argument("--side", type=int, default=10, help="how many tiles of 10,000 pixels each way (default: 10)")
    words.add_argument("--mbtiles", type=float, metavar="GB", help="an MBTiles of so many GB instead")
    given = words.parse_args()
    with tempfile.TemporaryDirectory(dir=given.folder) as name:
        folder = pathlib.Path(name)
        made = make_mbtiles(folder, 1e9 * given.mbtiles) if given.mbtiles else make_picture(folder, given.side)
        print(f"beside: load {os.getloadavg()[0]:.1f} on {os.cpu_count()} processors", flush=True)
        measure_mbtiles(made) if given.mbtiles else measure(made, given.side)
    return 0


if __name__ == "__main__":
    sys.exit(main())
