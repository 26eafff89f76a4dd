#!/usr/bin/env python3
"""A large map by one command, and the first days with it: what tools/fill.py takes, what tools/crew.py says and takes.

    bench/large_map.py [--program out/mmpkg] [--side 27000] [--folder FOLDER]

A picture of so many pixels a side, all of whose tiles differ, fills a new package, as JPEG. Told are minutes,
megabytes, and the peak of memory of one process. Then crew.py opens it: at the first day the page comes in, and at the
second it is there. Told is what it said before, and what it took until the page had its address. What is said rests on
one opening before, by 'mmpkg check'. Wants GDAL's programs and modules (Debian's gdal-bin and python3-gdal) and
libjs-leaflet.
"""

import contextlib
import os
import pathlib
import random
import re
import subprocess
import sys
import tempfile
import time

import common

TOOLS = pathlib.Path(__file__).resolve().parent.parent / "tools"
sys.path.insert(0, str(TOOLS))
import border  # noqa: E402

# The sides of the picture of chance that is drawn larger, and of what that is: no multiple of a tile's.
SMALL, PART = 400, 3001
SOURCE = (
    "<SimpleSource><SourceFilename>{file}</SourceFilename><SourceBand>{band}</SourceBand>"
    '<SrcRect xOff="0" yOff="0" xSize="{size}" ySize="{size}"/>'
    '<DstRect xOff="{x}" yOff="{y}" xSize="{size}" ySize="{size}"/></SimpleSource>'
)


def picture(folder, side):
    """A picture of so many pixels a side: one of chance with soft edges, as often as it fits."""
    small, part, whole = folder / "small.ppm", folder / "part.tif", folder / "ortho.vrt"
    noise = random.Random(1).randbytes(SMALL * SMALL * 3)
    small.write_bytes(b"P6 %d %d 255\n" % (SMALL, SMALL) + noise)
    drawn = ["-outsize", str(PART), str(PART), "-r", "cubic"]
    subprocess.run(["gdal_translate", "-q", *drawn, str(small), str(part)], check=True)
    bands = []
    for band, colour in enumerate(("Red", "Green", "Blue"), 1):
        places = [(x, y) for y in range(0, side, PART) for x in range(0, side, PART)]
        sources = "".join(SOURCE.format(file=part, band=band, size=PART, x=x, y=y) for x, y in places)
        head = f'<VRTRasterBand dataType="Byte" band="{band}"><ColorInterp>{colour}</ColorInterp>'
        bands.append(f"{head}{sources}</VRTRasterBand>")
    place = "<SRS>EPSG:25832</SRS><GeoTransform>500000, 0.5, 0, 5650000, 0, -0.5</GeoTransform>"
    text = f'<VRTDataset rasterXSize="{side}" rasterYSize="{side}">{place}{"".join(bands)}</VRTDataset>'
    whole.write_text(text)
    return whole


def fill(file, source, environment):
    """Fills a package with a picture by one command, and tells what that takes."""
    words = [sys.executable, "-B", TOOLS / "fill.py", file, source, "--format", "jpeg"]
    began = time.perf_counter()
    done = subprocess.run(["/usr/bin/time", "-v", *words], capture_output=True, check=True, env=environment)
    minutes = (time.perf_counter() - began) / 60
    peak = int(re.search(rb"Maximum resident set size \(kbytes\): (\d+)", done.stderr)[1]) / 1024
    size = file.stat().st_size / 1e6
    print(done.stdout.decode().splitlines()[0])
    print(f"= fill.py, {size:.0f} MB: {minutes:.1f} minutes of the clock, {peak:.0f} MiB at most in one process")


def day(file, environment):
    """Opens a package for a day; how long it said that would take, and how long it took, in seconds."""
    words = ["--no-browser", "--port", str(common.free_port())]
    began = time.perf_counter()
    running = subprocess.Popen(
        [sys.executable, "-B", TOOLS / "crew.py", file, *words], stdout=subprocess.PIPE, text=True, env=environment
    )
    said = running.stdout.readline()
    for line in running.stdout:
        if line.startswith("The page is"):
            break
    took = time.perf_counter() - began
    running.terminate()
    running.communicate()
    return int(re.search(r"about (\d+) s", said)[1]), took


def main():
    asked = common.words_of(__doc__, side=(27_000, "pixels of the picture's side"))
    with contextlib.ExitStack() as stack:
        folder = pathlib.Path(stack.enter_context(tempfile.TemporaryDirectory(dir=asked.folder)))
        os.environ |= {"MMPKG": os.path.realpath(asked.program), "XDG_CACHE_HOME": str(folder / "cache")}
        environment, file = dict(os.environ), folder / "ortho.mmpkg"
        fill(file, picture(folder, asked.side), environment)
        border.program_says("check", file)
        for name in ("the first day, when the page comes in", "the second day"):
            about, took = day(file, environment)
            print(f"= {name}: about {about} s were told, {took:.0f} s it took ({took / about:.2f})")


if __name__ == "__main__":
    main()
