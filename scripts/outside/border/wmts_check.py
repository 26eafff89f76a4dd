#!/usr/bin/python3
"""Compares what GDAL and QGIS see of a served package by its WMTS description (docs/BORDER.md) with the export.

    apt-get install gdal-bin python3-gdal libjs-leaflet python3-qgis
    scripts/outside/border/wmts_check.py [PROGRAM] [WORD ..]

A package of maps in three systems, two of which tell the northing first, gets its viewer with --wmts, is served and
exported; each map has to have the same place, size, system and pixels by both ways. Where QGIS isn't there GDAL alone
looks. WORD picks the checks whose names have it. The last line is 'N passed, M failed'. Exit status: 0 all passed, 1
something failed, 2 the program isn't there, 77 GDAL or Leaflet isn't there.
"""

import os
import pathlib
import subprocess
import sys
import tempfile

sys.path.insert(0, str(pathlib.Path(__file__).resolve().parents[1] / "lib"))
from checks import MODULES, TOP, end, expect, free_port, mmpkg, run, run_checks, want, words_given  # noqa: E402
from browsers import LEAFLET  # noqa: E402
from border_check import geotiff  # noqa: E402
from viewer_package import served  # noqa: E402
import wmts  # noqa: E402

TOOLS = TOP / "tools"

# Name, system, lower left corner in metres, columns, rows, metres of a pixel, and the format of the tiles. The last two
# are northing first.
MAPS = [
    ("utm", 25832, (500_000, 5_600_000), 1500, 1100, 1, "PNG"),
    ("gauss", 31468, (4_468_000, 5_332_000), 512, 512, 0.5, "JPEG"),
    ("new_zealand", 2193, (1_500_000, 5_200_000), 600, 520, 2, "PNG8"),
]
MORE = """srs,7,plan,NONE,7,metres,
srs,8,without axes,EPSG,8,metres,
pyramid,plan,Plan,7,0,0,64000000,64000000,two
matrix,plan,0,1,1,64,64,1000000,1000000
pyramid,flat,Flat,25832,0,0,128000000,64000000,two
matrix,flat,0,1,1,64,64,2000000,1000000
pyramid,none,None,25832,0,0,128000000,64000000,two
pyramid,axes,Axes,8,0,0,64000000,64000000,two
matrix,axes,0,1,1,64,64,1000000,1000000
"""
NAMED = [
    "left out: map flat of the WMTS description: its pixels aren't square, and WMTS has one scale for both sides",
    "left out: map none of the WMTS description: it has no matrix",
    "left out: map plan of the WMTS description: its system is NONE:7, and WMTS names one of EPSG's",
    "note: map axes: its system's definition is no WKT with axes, so the WMTS description tells easting first",
]

BY_GDAL = """
import sys
from osgeo import gdal
def seen(name):
    it = gdal.Open(name)
    place = [round(number, 6) for number in it.GetGeoTransform()]
    bands = [it.GetRasterBand(band).ReadRaster() for band in range(1, 5)]
    return it, (it.RasterXSize, it.RasterYSize, place, it.GetSpatialRef().GetAuthorityCode(None)), list(zip(*bands))
description, out, *names = sys.argv[1:]
for name in names:
    live, by_page, one = seen(f"WMTS:{description},layer={name}")
    file, by_export, other = seen(f"GPKG:{out}:{name}")
    off = sum(a != b and (a[3] or b[3]) != 0 for a, b in zip(one, other))
    print(name, *by_page if by_page == by_export else (by_page, "but", by_export), f"differing: {off} of {len(one)}")
"""
BY_QGIS = """
import os, sys
os.environ.setdefault("QT_QPA_PLATFORM", "offscreen")
from qgis.core import QgsApplication, QgsMapRendererSequentialJob, QgsMapSettings, QgsRasterLayer, QgsRectangle
from qgis.PyQt.QtCore import QSize
QgsApplication.setPrefixPath("/usr", True)
app = QgsApplication([], False)
app.initQgis()
def drawn(layer, extent, side):
    settings = QgsMapSettings()
    settings.setLayers([layer])
    settings.setDestinationCrs(layer.crs())
    settings.setExtent(extent)
    settings.setOutputSize(QSize(side, side))
    settings.setOutputDpi(96)
    job = QgsMapRendererSequentialJob(settings)
    job.start()
    job.waitForFinished()
    return job.renderedImage()
description, out, *names = sys.argv[1:]
for name, form in (it.split("=") for it in names):
    file = QgsRasterLayer(f"GPKG:{out}:{name}", name, "gdal")
    words = f"crs={file.crs().authid()}&dpiMode=7&format={form}&layers={name}&styles=default"
    words += f"&tileMatrixSet={name}&url={description}"
    live = QgsRasterLayer(words, name, "wms")
    if not live.isValid():
        print(name, "isn't valid:", live.error().message())
        continue
    whole, side, pixel = file.extent(), 512, file.rasterUnitsPerPixelX()
    left, top = whole.xMinimum(), whole.yMaximum()
    part = QgsRectangle(left, top - side * pixel, left + side * pixel, top)
    one, other = drawn(live, part, side), drawn(file, part, side)
    places = [(x, y) for x in range(0, side, 7) for y in range(0, side, 7)]
    off = sum(one.pixel(*it) != other.pixel(*it) for it in places)
    print(name, live.crs().authid(), f"differing: {off} of {len(places)}")
sys.stdout.flush()
os._exit(0)  # QGIS without a window may fall over its layers as Python ends.
"""


class Scene:
    """A package that is served, with its WMTS description, and its export."""

    def __init__(self, folder):
        self.folder = folder
        self.file = folder / "a.mmpkg"
        self.out = folder / "out.gpkg"
        self.port = free_port()
        self.description = f"http://127.0.0.1:{self.port}/media/viewer/5"

    def make(self):
        """Makes the package of GDAL's maps by the tools' own commands.

        Answers what the tool told of its description.
        """
        mmpkg("init", self.file)
        for name, system, corner, columns, rows, pixel, form in MAPS:
            picture = geotiff(self.folder, columns, rows, f"EPSG:{system}", corner, pixel)
            made = self.folder / "in.gpkg"
            made.unlink(missing_ok=True)
            run(
                "gdal_translate",
                "-q",
                "-of",
                "GPKG",
                "-co",
                f"TILE_FORMAT={form}",
                "-co",
                f"RASTER_TABLE={name}",
                picture,
                made,
            )
            run("gdaladdo", "-q", "-r", "nearest", made, 2)
            self.take_in(
                run(TOOLS / "import_standard.py", made, self.folder / f"{name}.csv", "--kit", name, self.folder / name)[
                    0
                ]
            )
        mmpkg("run", self.file, given=MORE.encode())
        commands, told = run(TOOLS / "make_viewer.py", self.file, self.folder / "viewer", "--wmts", self.port, status=1)
        assert "mmpkg serve" not in commands, "who pipes the commands into a shell would wait for ever"
        *told, last = told.splitlines(keepends=True)
        expect(last, f"next: mmpkg serve FILE --port {self.port} shows them to GDAL and QGIS\n", "what is told last")
        self.take_in(commands)
        run(TOOLS / "export_standard.py", self.file, self.out)
        return "".join(told)

    def take_in(self, commands):
        """Runs commands on the package.

        The table of bounds is refused where it stands, and its rows are put beside the others.
        """
        commands = commands.replace("FILE", f"'{self.file}'")
        subprocess.run(
            ["bash", "-c", f"mmpkg() {{ '{os.environ['MMPKG']}' \"$@\"; }}; {commands}"],
            stdout=subprocess.DEVNULL,
            check=False,
        )


def check_what_is_named(scene):
    """Maps that WMTS doesn't tell are named, and the order of axes that nothing tells."""
    expect(sorted(scene.told.splitlines()), sorted(NAMED), "what is told")


def check_the_order_of_axes(_):
    """Heights are no axis of the plane, and around a pole the names of the axes tell their order (EPSG 25832, 31468,
    5972, 3031, 32661)."""
    utm = 'PROJCS["n",AXIS["Easting",EAST],AXIS["Northing",NORTH]]'
    for definition, northing_first in (
        (utm, False),
        ('PROJCS["n",AXIS["X",NORTH],AXIS["Y",EAST]]', True),
        (f'COMPD_CS["h",{utm},VERT_CS["v",AXIS["Gravity-related height",UP]]]', False),
        ('PROJCS["n",AXIS["Easting",NORTH],AXIS["Northing",NORTH]]', False),
        ('PROJCRS["n",AXIS["(N)",south,ORDER[1]],AXIS["(E)",south,ORDER[2]]]', True),
        ('PROJCS["n"]', None),
    ):
        expect(wmts.is_northing_first(definition), northing_first, f"whether the northing is first in {definition}")


def check_by_gdal(scene):
    """Each map has its place, size, system and pixels by GDAL."""
    names = [name for name, *_ in MAPS]
    found, told = run("env", "-C", scene.folder, sys.executable, "-c", BY_GDAL, scene.description, scene.out, *names)
    for line, (name, system, _, columns, rows, *_) in zip(found.splitlines(), MAPS):
        print(f"    {line}")
        assert line.startswith(f"{name} {columns} {rows} [") and line.endswith(
            f" {system} differing: 0 of {columns * rows}"
        ), line
    expect(len(found.splitlines()), len(MAPS), "maps")


def check_by_qgis(scene):
    """Each map is drawn by QGIS as its export is, where QGIS is there."""
    if subprocess.run([sys.executable, "-c", "import qgis.core"], stderr=subprocess.DEVNULL, check=False).returncode:
        print("    QGIS isn't there, and didn't look (apt-get install python3-qgis)")
        return
    names = [f"{name}=image/{'jpeg' if form == 'JPEG' else 'png'}" for name, *_, form in MAPS]
    found, _ = run("env", f"HOME={scene.folder}", sys.executable, "-c", BY_QGIS, scene.description, scene.out, *names)
    for line, (name, system, *_) in zip(found.splitlines(), MAPS):
        print(f"    {line}")
        assert line.startswith(f"{name} EPSG:{system} differing: 0 of "), line
    expect(len(found.splitlines()), len(MAPS), "maps")


def main():
    given = words_given(__doc__)
    tools = (f"{it}:gdal-bin" for it in ("gdal_translate", "gdaladdo", "gdaldem", "gdalinfo"))
    want("nobody opened the page by WMTS", *tools, f"{MODULES}/osgeo/gdal.py:python3-gdal", LEAFLET)
    with tempfile.TemporaryDirectory() as name:
        scene = Scene(pathlib.Path(name))
        scene.told = scene.make()
        with served(scene.file, scene.port, opens_ahead=True):
            passed, failed = run_checks("wmts", globals(), given.words, lambda check: check(scene))
    end(passed, failed)


if __name__ == "__main__":
    main()
