#!/usr/bin/python3
"""Fills packages with maps by tools/fill.py, and compares what GDAL finds in their export with the maps
(docs/BORDER.md, 'A map by one command').

    apt-get install gdal-bin python3-gdal
    scripts/outside/border/fill_check.py [PROGRAM] [WORD ..]

WORD picks the checks whose names have it. The last line is 'N passed, M failed'. Exit status: 0 all passed, 1 something
failed, 2 the program isn't there, 77 GDAL isn't there.
"""

import collections
import contextlib
import os
import pathlib
import shutil
import signal
import sqlite3
import subprocess
import sys
import time

sys.path.insert(0, str(pathlib.Path(__file__).resolve().parents[1] / "lib"))
from checks import (  # noqa: E402
    PROGRAM, TOP, end, expect, in_a_folder, mmpkg, new_package, run, run_checks, wait_until_free, want, words_given,
)  # fmt: skip
import images  # noqa: E402
import border_check  # noqa: E402
from border_check import GDAL, export, geotiff, standard_of, tool, validate  # noqa: E402

FILL = TOP / "tools" / "fill.py"
# A photo by chance: smooth waves with noise, clear in its upper left part.
PHOTO = """
import sys, numpy
from osgeo import gdal, osr
side = int(sys.argv[2])
across, down = numpy.meshgrid(numpy.arange(side), numpy.arange(side))
noise = numpy.random.default_rng(1).integers(0, 40, (3, side, side))
waves = [numpy.sin(across / 37) * 50, numpy.cos(down / 23) * 50, numpy.sin((across + down) / 31) * 50]
made = gdal.GetDriverByName("GTiff").Create(sys.argv[1], side, side, 4, options=["ALPHA=YES", "PHOTOMETRIC=RGB"])
system = osr.SpatialReference()
system.ImportFromEPSG(25832)
made.SetProjection(system.ExportToWkt())
made.SetGeoTransform([500000, 0.2, 0, 5600000, 0, -0.2])
for number, wave in enumerate(waves):
    made.GetRasterBand(number + 1).WriteArray((100 + wave + noise[number]).astype(numpy.uint8))
made.GetRasterBand(4).WriteArray(numpy.where((across < 300) & (down < 300), 0, 255).astype(numpy.uint8))
"""
# Fills of one process, and what each is refused with.
REFUSED = """
import sys
tools, folder, *cases = sys.argv[1:]
sys.path.insert(0, tools)
import fill
from border import Refused
for case in cases:
    source, *words = case.split()
    sys.argv = ["fill.py", f"{folder}/a.mmpkg", f"{folder}/{source}", *words]
    try:
        print(fill.main())
    except Refused as refused:
        print(refused.status, str(refused).replace(chr(10), " "))
"""
# How many bytes of the journal are waited for before each kill, and at most how long for anything.
KILLS, PATIENCE = (600_000, 40_000, 40_000), 120


def fill(file, source, *words, status=0):
    return run(FILL, file, source, *words, status=status)


def exported(file, folder):
    """What goes out of a package, which is whole."""
    expect(mmpkg("check", file), "package ok\n", "mmpkg check")
    out = folder / f"{file.stem}.gpkg"
    export(file, out)
    return out


def middles(width, height, corner=(500_000, 5_600_000), pixel=1):
    """The places of the nine colours of a picture."""
    left, low = corner
    return [(left + (it % 3 + 0.5) * width / 3 * pixel, low + (2.5 - it // 3) * height / 3 * pixel) for it in range(9)]


def moved(places, source, target):
    """Places in another system."""
    given = "".join(f"{east!r} {north!r}\n" for east, north in places).encode()
    said = run("gdaltransform", "-s_srs", source, "-t_srs", target, "-output_xy", given=given)[0]
    return [tuple(map(float, line.split())) for line in said.splitlines()]


def colours_at(out, places):
    """The colours that GDAL finds at places."""
    given = "".join(f"{east!r} {north!r}\n" for east, north in places).encode()
    said = run("gdallocationinfo", "-valonly", "-geoloc", out, given=given)[0].split()
    return [tuple(map(int, said[at : at + 3])) for at in range(0, len(said), len(said) // len(places) or 1)]


def expect_colours(out, places):
    expect(colours_at(out, places), images.COLOURS, f"colours of {out}")


def tiles_of(file, table):
    """By place, the bytes of the tiles of a pyramid."""
    with contextlib.closing(sqlite3.connect(f"file:{file}?mode=ro", uri=True)) as opened:
        query = "SELECT zoom_level, tile_column, tile_row, data FROM mm_tiles JOIN mm_blobs b ON b.id = blob "
        query += "WHERE table_name = ?"
        return {row[:3]: row[3] for row in opened.execute(query, (table,))}


def check_a_geotiff(folder):
    """A GeoTIFF of no whole number of tiles comes in as it is, at all zooms, and goes out as large; once more nothing
    is missing."""
    picture = geotiff(folder, 1500, 1100)
    file = folder / "my map.mmpkg"
    said, told = fill(file, picture)
    expect(told, "", "what is told")
    expect(said.splitlines(), [said.splitlines()[0], f"next: {TOP / 'tools' / 'crew.py'} '{file}'"], "the last line")
    assert said.startswith("picture: 44 tiles, ") and said.splitlines()[0].endswith(
        "; 4 zooms up to 1 m a pixel, in EPSG:25832"
    ), said
    out = exported(file, folder)
    validate(out)
    assert "Size is 1500, 1100" in run("gdalinfo", out)[0], "the size by GDAL"
    expect_colours(out, middles(1500, 1100))
    run("gdal_translate", "-q", "-of", "GTiff", "-b", 1, "-b", 2, "-b", 3, out, folder / "back.tif")
    expect(run("gdalcompare.py", picture, folder / "back.tif", status=None)[0].count("Band"), 0, "values that differ")
    for column, row, zoom in ((0, 0, 0), (1, 1, 1)):
        assert (zoom, column, row) in tiles_of(file, "picture"), "a tile of a lower zoom is missing"
    again, _ = fill(file, picture)
    assert "picture: nothing was missing; " in again, again


def check_other_systems(folder):
    """Maps in Web Mercator, in degrees, in thirds of a metre and on the other side of the earth lie where they should,
    in metres."""
    cases = {
        "mercator": ("EPSG:3857", (1_001_875.4, 6_446_275.8), 2.5, "EPSG:25832"),
        "degrees": ("EPSG:4326", (9, 50.5), 0.00002, "EPSG:25832"),
        "thirds": ("EPSG:25833", (300_000, 5_600_000), 1 / 3, "EPSG:25833"),
        "south": ("EPSG:4326", (174.5, -41.3), 0.00002, "EPSG:32760"),
        "named": ("EPSG:4326", (7.5, 46.9), 0.00002, "EPSG:2056"),
    }
    file = folder / "a.mmpkg"
    for name, (system, corner, pixel, target) in cases.items():
        (folder / name).mkdir()
        picture = geotiff(folder / name, 600, 450, system, corner, pixel)
        said, _ = fill(file, picture, "--table", name, *(["--system", 2056] if name == "named" else []))
        assert f"in {target}" in said, said
    out = exported(file, folder)
    for name, (system, corner, pixel, target) in cases.items():
        expect_colours(f"GPKG:{out}:{name}", moved(middles(600, 450, corner, pixel), system, target))
    with contextlib.closing(sqlite3.connect(file)) as opened:
        ((pixel,),) = opened.execute("SELECT min(pixel_x_size) FROM gpkg_tile_matrix WHERE table_name = 'mercator'")
    # A pixel of 2.5 m of Mercator is as long on the ground as the cosine of the latitude says, at 50 degrees.
    assert 1_560_000 < pixel < 1_640_000, f"the pixel is {pixel} um"


def check_tiles_of_others(folder):
    """MBTiles, a GeoPackage's map, and folders of tiles, XYZ and TMS, in metres and in Web Mercator, lie where they
    should."""
    picture = geotiff(folder, 700, 500)
    run("gdal_translate", "-q", "-of", "MBTILES", picture, folder / "map.mbtiles")
    standard_of(picture, folder / "in.gpkg", "Base map")
    for name, words in (
        ("plane tms", ["--profile=raster"]),
        ("tms", ["--profile=mercator"]),
        ("xyz", ["--profile=mercator", "--xyz"]),
    ):
        run(
            "gdal2tiles.py",
            "-q",
            *words,
            "-w",
            "none",
            "-z",
            "0-2" if "plane" in name else "14-16",
            picture,
            folder / name,
        )
    shutil.copytree(folder / "xyz", folder / "jpeg")
    for it in (folder / "jpeg").rglob("*.png"):
        run(
            "gdal_translate",
            "-q",
            "-of",
            "JPEG",
            "-co",
            "QUALITY=100",
            "-b",
            1,
            "-b",
            2,
            "-b",
            3,
            it,
            it.with_suffix(".jpg"),
        )
        it.unlink()
    file = folder / "a.mmpkg"
    for source in ("map.mbtiles", "plane tms", "tms", "xyz", "jpeg"):
        fill(file, folder / source, "--format", "png")
    fill(file, f"GPKG:{folder / 'in.gpkg'}:Base map")
    out, names = exported(file, folder), ("map", "plane_tms", "tms", "xyz", "base_map")
    for name in names:
        expect_colours(f"GPKG:{out}:{name}", middles(700, 500))
    for name in ("plane_tms", "base_map"):
        assert "Size is 700, 500" in run("gdalinfo", f"GPKG:{out}:{name}")[0], f"the size of {name} by GDAL"
    near = colours_at(f"GPKG:{out}:jpeg", middles(700, 500))
    far = max(abs(one - other) for found, wanted in zip(near, images.COLOURS) for one, other in zip(found, wanted))
    assert far <= 6, f"the colours of JPEG are off by {far}: {near}"


def check_a_photo_with_clear_ground(folder):
    """A photo is JPEG, and PNG where a part of the tile is clear; where all is clear there is no tile."""
    run(sys.executable, "-c", PHOTO, folder / "photo.tif", 1024)
    fill(folder / "a.mmpkg", folder / "photo.tif")
    kinds = {place: data[:4] for place, data in tiles_of(folder / "a.mmpkg", "photo").items()}
    finest = {place[1:]: kind for place, kind in kinds.items() if place[0] == 2}
    expect((0, 0) in finest, False, "whether a clear tile is there")
    partly = [(0, 1), (1, 0), (1, 1)]
    expect({finest[it] for it in partly}, {b"\x89PNG"}, "tiles that are clear in part")
    expect(
        collections.Counter(kind[:3] for place, kind in finest.items() if place not in partly),
        {b"\xff\xd8\xff": 12},
        "tiles that are opaque",
    )
    fill(folder / "b.mmpkg", folder / "photo.tif", "--format", "png")
    expect({it[:4] for it in tiles_of(folder / "b.mmpkg", "photo").values()}, {b"\x89PNG"}, "tiles with --format png")


def killed(file, source, size):
    """Begins to fill a package, and kills that when the journal is as large; answers whether it was still on its
    way."""
    before, until = size_of_journal(file), time.monotonic() + PATIENCE
    with subprocess.Popen(
        [FILL, file, source], stdout=subprocess.DEVNULL, env={**os.environ, "MMPKG": PROGRAM}
    ) as running:
        while running.poll() is None and not (size_of_journal(file) >= size and size_of_journal(file) != before):
            assert time.monotonic() < until, "it takes too long"
            time.sleep(0.01)
        on_its_way = running.poll() is None
        running.send_signal(signal.SIGKILL)
    return on_its_way


def size_of_journal(file):
    journal = pathlib.Path(f"{file}-wal")
    return journal.stat().st_size if journal.exists() else 0


def check_it_goes_on(folder):
    """Killed again and again, it comes to the same end by the same command, and each tile that stands is whole."""
    run(sys.executable, "-c", PHOTO, folder / "photo.tif", 2048)
    fill(folder / "a.mmpkg", folder / "photo.tif")
    kills = [killed(folder / "b.mmpkg", folder / "photo.tif", size) for size in KILLS]
    assert any(kills), "it was never killed on its way"
    wanted = tiles_of(folder / "a.mmpkg", "photo")
    wait_until_free(folder / "b.mmpkg")
    expect(mmpkg("check", folder / "b.mmpkg"), "package ok\n", "mmpkg check behind the kills")
    stands = tiles_of(folder / "b.mmpkg", "photo")
    expect(
        {place: wanted.get(place) == data for place, data in stands.items() if wanted.get(place) != data},
        {},
        "tiles that stand otherwise",
    )
    said, _ = fill(folder / "b.mmpkg", folder / "photo.tif")
    missing = len(wanted) - len(stands)
    print(f"    {sum(kills)} of {len(kills)} kills on its way; {missing} of {len(wanted)} tiles were missing then")
    assert said.startswith(f"photo: {missing} tiles, " if missing else "photo: nothing was missing; "), said
    expect(tiles_of(folder / "b.mmpkg", "photo"), wanted, "tiles")
    for name in "ab":
        mmpkg("run", folder / f"{name}.mmpkg", "--at", 0, given=b"table,later,attributes,Later\n")
    expect_rows_equal(folder / "a.mmpkg", folder / "b.mmpkg")


def expect_rows_equal(first, second):
    before, after = border_check.rows_of(first), border_check.rows_of(second)
    expect(after, before, "rows of the package")


def check_a_second_map(folder):
    """A second map and one in another place come into a package that has rows; what stands stays, and another map of
    the name is refused."""
    new_package(folder / "a.mmpkg", border_check.nine_tiles())
    shown = mmpkg("show", folder / "a.mmpkg", "spots")
    picture = geotiff(folder, 600, 450)
    fill(folder / "a.mmpkg", picture, "--table", "second")
    fill(folder / "a.mmpkg", picture, "--table", "third")
    listed = [line.split()[:2] for line in mmpkg("list", folder / "a.mmpkg").splitlines()]
    for name in ("base", "second", "third"):
        assert [name, "two"] in listed, f"{name} isn't there: {listed}"
    expect(mmpkg("show", folder / "a.mmpkg", "spots"), shown, "rows")
    before = border_check.rows_of(folder / "a.mmpkg")
    for table, why in (
        ("base", "pyramid base stands there otherwise"),
        ("spots", "pyramid spots stands there otherwise"),
    ):
        _, told = fill(folder / "a.mmpkg", picture, "--table", table, status=2)
        assert told.startswith(f"{folder / 'a.mmpkg'}: {why}; --table gives a table another name"), told
    expect(border_check.rows_of(folder / "a.mmpkg"), before, "rows of the package")
    expect_colours(f"GPKG:{exported(folder / 'a.mmpkg', folder)}:second", middles(600, 450))


def check_what_is_no_map(folder):
    """What can't be a map is told in words, and no file is made."""
    picture = geotiff(folder, 300, 200)
    run("gdal_translate", "-q", "-ot", "UInt16", picture, folder / "deep.tif")
    run("gdal_translate", "-q", "-of", "PNG", "-co", "WORLDFILE=NO", picture, folder / "bare.png")
    (folder / "bare.png.aux.xml").unlink(missing_ok=True)
    for name in ("one", "two"):
        run(
            "gdal_translate",
            "-q",
            "-of",
            "GPKG",
            "-co",
            f"RASTER_TABLE={name}",
            "-co",
            "APPEND_SUBDATASET=YES",
            picture,
            folder / "several.gpkg",
        )
    run("gdal_translate", "-q", "-a_srs", "EPSG:4326", "-a_ullr", -180, 85, 180, -85, picture, folder / "world.tif")
    (folder / "notes.txt").write_text("ten bytes\n")
    (folder / "empty").mkdir()
    (folder / "area.json").write_text(border_check.AREA)
    (folder / "other.mmpkg").write_bytes(b"no package\n")
    files = sorted(folder.iterdir())
    cases = [
        ("deep.tif", "", "its pixels are UInt16"),
        ("bare.png", "", "tells no place"),
        ("several.gpkg", "", "has several maps; name one: GPKG:"),
        ("notes.txt", "", "GDAL opens no map of it"),
        ("empty", "", "has no tile Z/C/R.png"),
        ("area.json", "", "GDAL opens no map of it"),
        ("none.tif", "", "GDAL opens no map of it"),
        ("world.tif", "", "it is wider than 15 degrees"),
        ("picture.tif", "--system 4326", "is no system in metres"),
        ("picture.tif", "--system 99999", "EPSG has no system 99999"),
        ("picture.tif", "--table Base", "'Base' is no name of a package"),
        ("picture.tif", "--system 0", "--system: is no number"),
    ]
    told = run(
        sys.executable,
        "-B",
        "-c",
        REFUSED,
        TOP / "tools",
        folder,
        *(f"{source} {words}" for source, words, _ in cases),
    )[0].splitlines()
    for (source, _, words), line in zip(cases, told, strict=True):
        assert words in line, f"{words!r} isn't told of {source}: {line}"
    expect(sorted(folder.iterdir()), files, "files")
    expect(
        fill(folder / "other.mmpkg", picture, status=4)[1],
        f"{folder / 'other.mmpkg'}: is no package\n",
        "what is told of no package",
    )
    code = f"import sys; sys.path.insert(0, {str(TOP / 'tools')!r}); import gdal_python, border\n"
    code += "gdal_python.MODULES = 'none'\ngdal_python.importlib.util.find_spec = lambda _: None\n"
    code += "border.run_tool(gdal_python.go_on_with_gdal)"
    expect(
        run(sys.executable, "-B", "-c", code, status=2)[1],
        "GDAL's modules for Python aren't there: apt-get install python3-gdal\n",
        "without GDAL",
    )


def check_the_other_tools_tell_it(folder):
    """The tools that take no such map tell the command that does, and make_kit.py takes JPEG."""
    picture = geotiff(folder, 300, 200)
    run("gdal_translate", "-q", "-of", "MBTILES", picture, folder / "map.mbtiles")
    run("gdal2tiles.py", "-q", "--profile=raster", "-w", "none", "-z", "0-1", picture, folder / "tms")
    for source in ("map.mbtiles", "tms", "picture.tif"):
        _, told = tool("make_kit.py", folder / source, "base", "first", folder / "kit", status=2)
        assert f"fill.py FILE {folder / source} " in told, f"of {source} is told: {told}"
    (folder / "xyz" / "0" / "0").mkdir(parents=True)
    for name, data in (
        ("0.jpg", b"\xff\xd8\xff"),
        ("1.jpeg", b"\xff\xd8\xff1"),
        ("2.webp", b"RIFF1234WEBP"),
        ("3.png", b"\x89PNG"),
    ):
        (folder / "xyz" / "0" / "0" / name).write_bytes(data)
    tool("make_kit.py", folder / "xyz", "base", "first", folder / "kit")
    expect(
        (folder / "kit" / "kit.csv").read_text().splitlines(),
        [
            "1,tile,base,0,0,0,base-0-0-0.jpg",
            "2,tile,base,0,0,1,base-0-0-1.jpg",
            "3,tile,base,0,0,2,base-0-0-2.webp",
            "4,tile,base,0,0,3,base-0-0-3.png",
        ],
        "the kit",
    )
    (folder / "xyz" / "0" / "0" / "0.png").write_bytes(b"\x89PNG")
    _, told = tool("make_kit.py", folder / "xyz", "base", "first", folder / "kit_2", status=1)
    expect(told, "left out: 0/0/0.png: 0/0/0.jpg is the same tile\n", "what is told of two files of one tile")


if __name__ == "__main__":
    want("GDAL isn't there, and no map was filled in", *GDAL)
    end(*run_checks("fill", globals(), words_given(__doc__).words, in_a_folder))
