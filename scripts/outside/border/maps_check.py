#!/usr/bin/python3
"""Serves maps by tools/maps.py and compares what comes with what gdalwarp and ogr2ogr make of them. It wants no
program of mmpkg.

    apt-get install gdal-bin python3-gdal
    scripts/outside/border/maps_check.py [WORD ..]

The last line is 'N passed, M failed'; the exit status is 1 where one failed, and 77 where GDAL isn't there.
"""

import hashlib
import http.client
import json
import math
import os
import pathlib
import socket
import subprocess
import sys
import threading
import time
import urllib.parse
import urllib.request

sys.path.insert(0, str(pathlib.Path(__file__).resolve().parents[1] / "lib"))
from checks import MODULES, TOP, end, expect, in_a_folder, run, run_checks, serving, want, words_given  # noqa: E402
from border_check import AREA, geotiff  # noqa: E402

ORIGIN = "http://127.0.0.1:8090"
PATIENCE = 60


class Served:
    """Maps that are served, and what is asked of them."""

    def __init__(self, *paths, open_map=None):
        self.server = maps.Server(paths, ORIGIN, open_map=open_map)
        self.served = serving(self.server)

    def __enter__(self):
        self.served.__enter__()
        return self

    def __exit__(self, *why):
        self.served.__exit__(*why)

    def ask(self, path, method="GET", token=None, body=None, **headers):
        connection = http.client.HTTPConnection("127.0.0.1", self.server.server_port, timeout=PATIENCE)
        try:
            connection.request(method, f"/{token or self.server.token}/{path}", body=body, headers=headers)
            response = connection.getresponse()
            return response.status, response.headers, response.read()
        finally:
            connection.close()

    def told(self, path):
        status, _, body = self.ask(path)
        expect(status, 200, f"the status of {path}")
        return json.loads(body)

    def brought(self, places, back=False, status=200, **system):
        """What becomes of places, or the words of why not."""
        asked = json.dumps({**system, "places": places, "back": back}).encode()
        found, _, body = self.ask("places", "POST", body=asked)
        expect(found, status, f"the status of {places} in {system}")
        return json.loads(body) if status == 200 else body.decode()

    def listed(self, system=25832):
        return self.told(f"maps?system={system}")["maps"]


def pixels_of(data):
    """The pixels of a PNG, as GDAL reads them."""
    return pictures.decoded(data)


def warped(source, system, box, folder):
    """The part of a map that gdalwarp draws."""
    out = folder / "warped.tif"
    out.unlink(missing_ok=True)
    run(
        "gdalwarp",
        "-q",
        "-r",
        "bilinear",
        "-dstalpha",
        "-t_srs",
        f"EPSG:{system}",
        "-te",
        *box,
        "-ts",
        256,
        256,
        source,
        out,
    )
    return numpy.moveaxis(gdal.Open(str(out)).ReadAsArray(), 0, 2)


def part(number, system, west, north, pixel, column=0, row=0):
    return f"parts/{number}/{system}/{west}/{north}/{pixel}/{column}/{row}"


def check_parts_are_as_gdalwarp_draws_them(folder):
    """Parts of a GeoTIFF in Web Mercator and of MBTiles are, pixel by pixel, what gdalwarp makes of them in another
    system."""
    picture = geotiff(folder, 900, 700, "EPSG:3857", (1_001_875.4, 6_446_275.8), 2.388657133911758)
    run("gdal_translate", "-q", "-of", "MBTILES", picture, folder / "map.mbtiles")
    sums = {it: hashlib.sha256(it.read_bytes()).hexdigest() for it in folder.iterdir()}
    with Served(picture, folder / "map.mbtiles") as served:
        listed = served.listed()
        expect(
            [(it["name"], it["kind"]) for it in listed],
            [("picture.tif", "picture"), ("map.mbtiles", "picture")],
            "the list",
        )
        for number, source in enumerate((picture, folder / "map.mbtiles")):
            west, south, east, north = listed[number]["bounds"]
            for column, row, pixel in ((0, 0, 1.5), (1, 1, 1.5), (2, 0, 1.5), (0, 0, 3)):
                box = [
                    west + column * 256 * pixel,
                    north - (row + 1) * 256 * pixel,
                    west + (column + 1) * 256 * pixel,
                    north - row * 256 * pixel,
                ]
                status, headers, body = served.ask(part(number, 25832, repr(west), repr(north), pixel, column, row))
                expect((status, headers["Content-Type"]), (200, "image/png"), "the answer")
                found, wanted = pixels_of(body).astype(int), warped(source, 25832, box, folder).astype(int)
                opaque = wanted[:, :, 3] > 0
                off = numpy.abs(found - wanted)[opaque].max() if opaque.any() else 0
                assert (
                    off <= 1 and (found[:, :, 3] == wanted[:, :, 3]).all()
                ), f"{source.name} {column} {row} {pixel}: off by {off}"
            expect(served.ask(part(number, 25832, west - 10_000, north, 1))[0], 404, "the status beside the map")
    (folder / "warped.tif").unlink()
    expect({it: hashlib.sha256(it.read_bytes()).hexdigest() for it in folder.iterdir()}, sums, "files")


def check_shapes(folder):
    """Shapes come in the system that is asked for, thinned to a pixel, those of a box alone, with a name."""
    (folder / "area.json").write_text(AREA)
    run("ogr2ogr", "-f", "GPKG", folder / "areas.gpkg", folder / "area.json", "-nln", "areas")
    files = sorted(folder.iterdir())
    with Served(folder / "areas.gpkg") as served:
        (it,) = served.listed()
        expect((it["kind"], it["columns"]), ("shapes", ["name"]), "the list")
        west, south, east, north = it["bounds"]
        box = f"{west}/{south}/{east}/{north}"
        found = served.told(f"shapes/0/25832/{box}/1?name=name")
        ((shape,), more) = found["features"], found["more"]
        expect(
            (shape["properties"], more, len(shape["geometry"]["coordinates"][0])),
            ({"name": "x"}, False, 4),
            "the shape",
        )
        run(
            "ogr2ogr",
            "-f",
            "GeoJSON",
            "-lco",
            "RFC7946=NO",
            "-t_srs",
            "EPSG:25832",
            folder / "wanted.json",
            folder / "areas.gpkg",
        )
        wanted = json.loads((folder / "wanted.json").read_text())["features"][0]["geometry"]["coordinates"][0]
        off = max(
            abs(one - other) for a, b in zip(shape["geometry"]["coordinates"][0], wanted) for one, other in zip(a, b)
        )
        assert off <= 0.001, f"the shape is off by {off} m"
        expect(served.told(f"shapes/0/25832/{box}/20000")["features"], [], "shapes that are smaller than a pixel")
        expect(
            served.told(f"shapes/0/25832/{west - 9000}/{south}/{west - 5000}/{north}/1")["features"],
            [],
            "shapes beside",
        )
    (folder / "wanted.json").unlink()
    expect(sorted(folder.iterdir()), files, "files")


def check_many_shapes(folder):
    """Of more shapes than a page draws, as many come, and that there are more is said."""
    points = [
        {"type": "Feature", "properties": {}, "geometry": {"type": "Point", "coordinates": [9 + it / 1e5, 50]}}
        for it in range(4000)
    ]
    (folder / "points.json").write_text(json.dumps({"type": "FeatureCollection", "features": points}))
    with Served(folder / "points.json") as served:
        (it,) = served.listed()
        box = "/".join(map(str, [it["bounds"][0] - 1, it["bounds"][1] - 1, it["bounds"][2] + 1, it["bounds"][3] + 1]))
        found = served.told(f"shapes/0/25832/{box}/1")
        expect((len(found["features"]), found["more"]), (behind.MOST_SHAPES, True), "the shapes")


def check_what_can_not_be_opened(folder):
    """What can't be opened is listed with why, and the others are served."""
    picture = geotiff(folder, 300, 200)
    run("gdal_translate", "-q", "-ot", "UInt16", picture, folder / "deep.tif")
    (folder / "notes.txt").write_text("ten bytes\n")
    run("ogr2ogr", "-f", "CSV", folder / "table.csv", TOP / "examples" / "nothing.csv", status=None)
    (folder / "table.csv").write_text("a,b\n1,2\n")
    with Served(
        folder / "notes.txt", folder / "none.tif", folder / "deep.tif", folder / "table.csv", picture
    ) as served:
        listed = served.listed()
        expect([it["kind"] for it in listed], ["none"] * 4 + ["picture"], "the kinds")
        for number, words in enumerate(
            ("GDAL opens no map of it", "GDAL opens no map of it", "its pixels are UInt16", "it has no shapes")
        ):
            assert words in listed[number]["why"], f"{words!r} isn't told: {listed[number]}"
            expect(served.ask(part(number, 25832, 500_000, 5_600_200, 1))[0], 404, "the status of a part")
        expect(served.ask(part(4, 25832, 500_000, 5_600_200, 1))[0], 200, "the status of a part of the map")


def check_who_may_ask(folder):
    """Another page, another host, another token and another method get nothing; what is no address is 404."""
    picture = geotiff(folder, 300, 200)
    with Served(picture) as served:
        good = part(0, 25832, 500_000, 5_600_200, 1)
        status, headers, _ = served.ask(good, Origin=ORIGIN)
        expect((status, headers["Access-Control-Allow-Origin"]), (200, ORIGIN), "the page's answer")
        for wanted, words in (
            (403, {"Origin": "http://127.0.0.1:8080"}),
            (403, {"Origin": "null"}),
            (403, {"Host": "example.org"}),
            (404, {"token": "x" * 32}),
            (404, {"method": "POST"}),
            (501, {"method": "PUT"}),
        ):
            status, headers, body = served.ask(good, **words)
            expect(
                (status, headers.get("Access-Control-Allow-Origin") in (None, ORIGIN), body[:4] != b"\x89PNG"),
                (wanted, True, True),
                f"the answer to {words}",
            )
        for path in (
            "",
            "maps?system=x",
            "maps?x=1",
            "maps?system=-1",
            "maps/x?system=1",
            "parts",
            "parts/0",
            part(9, 25832, 0, 0, 1),
            part(-1, 25832, 0, 0, 1),
            part(0, 25832, "nan", 0, 1),
            part(0, 25832, 0, 0, 0),
            part(0, 25832, 0, 0, "1e99"),
            part(0, 25832, 0, 0, 1, "1.5"),
            part(0, 25832, 0, 0, 1, 2**40),
            part(0, "x", 0, 0, 1),
            good + "/1",
            "shapes/0/25832/0/0/1/1/1",
            "../../etc/passwd",
            "%00",
        ):
            expect(served.ask(urllib.parse.quote(path, safe="/?=&%"))[0], 404, f"the status of {path!r}")
        expect(served.ask(part(0, 999999, 0, 0, 1))[0], 500, "the status of a system that there isn't")


# Places that others have published, in metres and in degrees, within how many metres PROJ's operation is there, and its
# name. LV95 and the old observatory of Bern: swisstopo, 'Formulas and constants'. RD: the tower of Amersfoort,
# RDNAPTRANS. Lambert-93: its origin, by its definition. The water tower of Caister: Ordnance Survey, 'A guide to
# coordinate systems in Great Britain', which brings it over by a grid: without that PROJ is off by about two metres
# each
# way.
PLACES = [
    ("LV95", 2056, (2_600_000, 1_200_000), (7.438632495, 46.951082877), 1, "CH1903+ to WGS 84 (1)"),
    ("RD", 28992, (155_000, 463_000), (5.387203658, 52.155172910), 1, "Amersfoort to WGS 84"),
    ("Lambert-93", 2154, (700_000, 6_600_000), (3, 46.5), 1, "Lambert-93"),
    ("British grid", 27700, (651_409.804, 313_177.450), (1.716073973, 52.658007833), 2, "OSGB36 to WGS 84"),
]


def apart(one, other):
    return math.hypot(one[0] - other[0], one[1] - other[1])


def metres_apart(one, other):
    """How far two places in degrees are from each other, in metres, where they are near."""
    return 111_320 * math.hypot((one[0] - other[0]) * math.cos(math.radians(one[1])), one[1] - other[1])


def check_places_in_other_systems(_):
    """Places come into systems of other shapes and datums, and back, as others have published them, to what PROJ says
    that it is worth; by a number at EPSG, and by WKT."""
    with Served() as served:
        for name, system, metres, degrees, worth, operation in PLACES:
            told = served.brought([degrees], epsg=system)
            expect((told["worth"], operation in told["name"]), (worth, True), f"{name}, by {told['name']}")
            off = apart(told["places"][0], metres)
            assert off < 2 * worth, f"{name}: {told['places'][0]}, {off:.3f} m off"
            back = served.brought([metres], back=True, epsg=system)
            off = metres_apart(back["places"][0], degrees)
            assert back["worth"] == worth and off < 2 * worth, f"{name}: {back['places'][0]}, {off:.3f} m off"
        bern = served.brought([PLACES[0][3]], epsg=2056)["places"][0]
        assert apart(bern, PLACES[0][2]) < 0.05, f"Bern, which PROJ's three parameters have to centimetres: {bern}"
        made = gdal_system(2056)
        expect(served.brought([PLACES[0][3]], definition=made)["places"], [bern], "by WKT")


def gdal_system(number):
    from osgeo import osr

    made = osr.SpatialReference()
    made.ImportFromEPSG(number)
    return made.ExportToWkt()


def check_places_that_can_not_be_brought(folder):
    """A place out of reach is none, and takes nothing from the others; what is no system in metres is told, and what is
    no question is 404; files that an operation lacks make it one that PROJ doesn't use; and nothing is read that a
    question names."""
    bern = PLACES[0][3]
    with Served() as served:
        told = served.brought([bern, [20, 46], bern, [1e8, 1e8], [-179, 89]], epsg=2056)
        expect([it is not None for it in told["places"]], [True, False, True, False, False], "which places come")
        told = served.brought([[2_600_000, 1_200_000], [9e8, 9e8], [2_600_100, 1_200_000]], back=True, epsg=2056)
        expect([it is not None for it in told["places"]], [True, False, True], "which places come back")
        nothing = {"places": [None], "worth": None, "name": ""}
        expect(served.brought([[20, 46]], epsg=2056), nothing, "a place in Serbia, in LV95")
        expect(served.brought([], epsg=2056), {"places": [], "worth": None, "name": ""}, "no place")
        many = served.brought([bern] * 5_000, epsg=2056)["places"]
        expect((len(many), many[0] == many[-1]), (5_000, True), "many places")
        plan = 'LOCAL_CS["plan",UNIT["metre",1]]'
        none, feet = "knows no such system", "isn't in metres"
        for words, system in ((feet, {"epsg": 4326}), (feet, {"epsg": 2263}), (feet, {"definition": plan}),
                              (none, {"epsg": 999_999}), (none, {"definition": "PROJCS[x"})):  # fmt: skip
            assert words in served.brought([bern], status=500, **system), f"{system}: wanted {words}"
        (folder / "own.wkt").write_text(gdal_system(2056))
        texts = (f"@{folder}/own.wkt", f"{folder}/own.wkt", "EPSG:2056", f"PROJCS[{' ' * 9000}")
        for system in ({}, {"epsg": "2056"}, {"epsg": -1}, {"epsg": True}, *({"definition": it} for it in (3, *texts))):
            question = json.dumps({**system, "places": [bern]}).encode()
            expect(served.ask("places", "POST", body=question)[0], 404, f"the status of {system}")
        for places in (None, 3, [3], [["a", 1]], [[1]], [[1, 2, 3]], [[None, 1]], [[1e10, 1]], [bern] * 5_001):
            question = json.dumps({"epsg": 2056, "places": places}).encode()
            expect(served.ask("places", "POST", body=question)[0], 404, f"the status of {places!r:.50}")
        for body in (b"", b"[]", b"{", b"\xff"):
            expect(served.ask("places", "POST", body=body)[0], 404, f"the status of {body}")
        expect(served.ask("places", "POST", **{"Content-Length": "1000001"})[0], 413, "the status of a long question")
        good = json.dumps({"epsg": 2056, "places": [bern]}).encode()
        page = {"Origin": "http://127.0.0.1:8080"}
        others = ((403, page), (403, {"Host": "example.org"}), (404, {"token": "x" * 32}))
        for wanted, words in (*others, (200, {"Origin": ORIGIN})):
            expect(served.ask("places", "POST", body=good, **words)[0], wanted, f"the answer to {words}")
        expect(served.ask("places")[0], 404, "the status of what is asked in another way")
    import beyond

    head = "Operation No. 1:\n\nunknown id, A, b (2) + C, unknown accuracy, World."
    found = beyond.OPERATION.search(f"{head}\n\nPROJ string:\n+proj=noop\n")
    expect(found.groups(), ("A, b (2) + C", "unknown accuracy", "+proj=noop"), "what nobody knows the worth of")
    beyond.operation.cache_clear()
    real, beyond.said_of_operations = beyond.said_of_operations, lambda *_: found.string
    try:
        expect(beyond.brought({"epsg": 2056}, [list(bern)]), {**nothing, "name": "A, b (2) + C"}, "a place by that")
    finally:
        beyond.said_of_operations = real
        beyond.operation.cache_clear()


def check_a_system_that_suits(folder):
    """Where no system is asked for, one in metres is chosen that suits the first map, with what reckons it."""
    web = geotiff(folder, 300, 200, "EPSG:3857", (1_001_875.4, 6_446_275.8), 2.388657133911758)
    web = web.rename(folder / "web.tif")
    south = folder / "south.json"
    south.write_text(
        AREA.replace("[9,50]", "[18,-34]").replace("[9.1,50]", "[18.1,-34]").replace("[9,50.1]", "[18,-33.9]")
    )
    (folder / "notes.txt").write_text("ten bytes\n")
    own = geotiff(folder, 300, 200, "EPSG:31467", (3_500_000, 5_600_000))
    for paths, wanted, meridian in (
        ([web], 25832, 9),
        ([own, web], 31467, None),
        ([south], 32734, 21),
        ([folder / "notes.txt", web], 25832, 9),
    ):
        with Served(*paths) as served:
            told = served.told("maps")
            found = told["system"], (told["reckoned"] or {}).get("central_meridian")
            expect(found, (wanted, meridian), f"the system of {[it.name for it in paths]}")
            assert told["maps"] == served.listed(wanted), "the list differs from that of the system"
    with Served(folder / "notes.txt") as served:
        expect([served.told("maps")[it] for it in ("system", "reckoned")], [None, None], "the system of no map")


def check_the_program(folder):
    """The program tells its address and what can't be opened, and ends with who began it, however that ends."""
    picture = geotiff(folder, 300, 200)
    (folder / "notes.txt").write_text("ten bytes\n")
    words = [sys.executable, "-B", TOP / "tools" / "maps.py", ORIGIN, picture, folder / "notes.txt"]
    began = "import subprocess, sys, time; subprocess.Popen(sys.argv[1:], stdin=subprocess.PIPE); "
    began += f"time.sleep({2 * PATIENCE})"
    with subprocess.Popen([sys.executable, "-c", began, *words], stdout=subprocess.PIPE) as parent:
        said = [parent.stdout.readline().decode().strip() for _ in range(3)]
        assert said[1].startswith("notes.txt: GDAL opens no map of it") and said[2] == "ready", said
        with urllib.request.urlopen(f"{said[0]}maps?system=25832", timeout=PATIENCE) as told:
            expect([it["kind"] for it in json.load(told)["maps"]], ["picture", "none"], "the kinds")
        parent.kill()
        expect(parent.stdout.read(), b"", "what it says more, until it ends")


class Slow:
    """A map that is drawn when it is let go, and counts."""

    kind, stamp = "picture", ""

    def __init__(self):
        self.go, self.begun, self.drawn = threading.Event(), [], []

    def told(self, _):
        return {}

    def part(self, system, west, north, pixel):
        self.begun.append(west)
        assert self.go.wait(PATIENCE)
        self.drawn.append(west)
        return b"\x89PNG"


def check_a_part_that_nobody_wants(_):
    """A part whose client has gone before its turn isn't drawn; one that was drawn is kept, and not drawn again."""
    slow = Slow()
    with Served("x", open_map=lambda _: slow) as served:
        workers = served.server.maps.threads._max_workers
        waiting = [threading.Thread(target=served.ask, args=(part(0, 25832, 256 * it, 0, 1),)) for it in range(workers)]
        for it in waiting:
            it.start()
        until(lambda: len(slow.begun) == workers, "the parts are begun")
        gone = [socket.create_connection(("127.0.0.1", served.server.server_port)) for _ in range(5)]
        for number, it in enumerate(gone):
            path = f"/{served.server.token}/{part(0, 25832, -256 * (number + 1), 0, 1)}"
            it.sendall(f"GET {path} HTTP/1.1\r\nHost: 127.0.0.1:{served.server.server_port}\r\n\r\n".encode())
        until(lambda: served.server.maps.threads._work_queue.qsize() == len(gone), "they wait for their turn")
        for it in gone:
            it.close()
        slow.go.set()
        for it in waiting:
            it.join(PATIENCE)
        expect(served.ask(part(0, 25832, 99, 0, 1))[0], 200, "the status of another part")
        expect(sorted(slow.drawn), sorted([*(256 * it for it in range(workers)), 99]), "what was drawn")
        expect(served.ask(part(0, 25832, 99, 0, 1))[0], 200, "the status of a part that was drawn")
        expect(slow.drawn.count(99), 1, "how often it was drawn")


def until(holds, what):
    end_of = time.monotonic() + PATIENCE
    while not holds():
        assert time.monotonic() < end_of, f"it isn't so that {what}"
        time.sleep(0.01)


def check_a_large_picture(folder):
    """A picture of 100,000 x 100,000 pixels is opened and drawn where it is asked for, and not from too far out."""
    (folder / "large.vrt").write_text(LARGE.format(system="EPSG:25832", small=geotiff(folder, 900, 700)))
    with Served(folder / "large.vrt") as served:
        (it,) = served.listed()
        expect(it["kind"], "picture", "the kind")
        west, _, _, north = it["bounds"]
        began = time.monotonic()
        expect(served.ask(part(0, 25832, west, north, 1, 100, 100))[0], 200, "the status of a part")
        print(f"    a part of 100,000 x 100,000 pixels: {1000 * (time.monotonic() - began):.0f} ms")
        expect(served.ask(part(0, 25832, west, north, 390))[0], 404, "the status of all of it at once")
        assert it["coarsest"] < 390, it


LARGE = """<VRTDataset rasterXSize="100000" rasterYSize="100000"><SRS>{system}</SRS>
  <GeoTransform>500000, 1, 0, 5700000, 0, -1</GeoTransform>
<VRTRasterBand dataType="Byte" band="1"><SimpleSource><SourceFilename>{small}</SourceFilename><SourceBand>1</SourceBand>
<SrcRect xOff="0" yOff="0" xSize="900" ySize="700"/><DstRect xOff="0" yOff="0" xSize="100000" ySize="100000"/>
</SimpleSource></VRTRasterBand></VRTDataset>"""


if __name__ == "__main__":
    tools = (f"{it}:gdal-bin" for it in ("gdalwarp", "gdal_translate", "gdaldem", "ogr2ogr"))
    want("GDAL isn't there, and no map was served", *tools, f"{MODULES}/osgeo/gdal.py:python3-gdal", program=False)
    os.environ["GDAL_PAM_ENABLED"] = "NO"
    import numpy
    from osgeo import gdal

    import behind
    import maps
    import pictures

    end(*run_checks("maps", globals(), words_given(__doc__).words, in_a_folder))
