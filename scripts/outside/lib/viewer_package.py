"""The package that scripts/outside/viewer/viewer_check.py looks at: four pyramids whose tiles' colours follow from
their places, rows and media."""

import contextlib
import dataclasses
import subprocess
import zlib

from checks import PROGRAM, TOP, expect, held_port, run
import images
from border import UNITS_PER_METRE, Piece, media_piece, record, tile_piece
from images import picture

TOOL = TOP / "tools" / "make_viewer.py"

BLANK = (228, 232, 234)
PLAIN = (40, 90, 160)
UTM = (
    'PROJCS["ETRS89 / UTM zone 32N",GEOGCS["ETRS89",DATUM["European_Terrestrial_Reference_System_1989",'
    'SPHEROID["GRS 1980",6378137,298.257222101]],PRIMEM["Greenwich",0],UNIT["degree",0.0174532925199433]],'
    'PROJECTION["Transverse_Mercator"],PARAMETER["latitude_of_origin",0],PARAMETER["central_meridian",9],'
    'PARAMETER["scale_factor",0.9996],PARAMETER["false_easting",500000],PARAMETER["false_northing",0],'
    'UNIT["metre",1]]'
)
SEEN_SECONDS = 600


@dataclasses.dataclass
class Zoom:
    """A matrix: its zoom, the number of its tiles, the pixels of a tile, and the size of a pixel in micrometres."""

    zoom: int
    columns: int
    rows: int
    wide: int
    high: int
    pixel_x: int
    pixel_y: int


@dataclasses.dataclass
class Pyramid:
    """A pyramid with the upper left corner of its extent in metres; its missing tiles are (zoom, column, row)."""

    table: str
    identifier: str
    system: int
    left: float
    top: float
    step: str
    zooms: list
    missing: frozenset = frozenset()

    def extent(self):
        it = self.zooms[0]
        left, top = round(self.left * UNITS_PER_METRE), round(self.top * UNITS_PER_METRE)
        return left, top - it.rows * it.high * it.pixel_y, left + it.columns * it.wide * it.pixel_x, top

    def records(self):
        lines = [record(["pyramid", self.table, self.identifier, self.system, *self.extent(), self.step])]
        for it in self.zooms:
            lines.append(record(["matrix", self.table, *dataclasses.astuple(it)]))
            places = [(it.zoom, column, row) for column in range(it.columns) for row in range(it.rows)]
            lines += [
                tile_piece(self.table, *place, self.tile(it, *place[1:])).command()
                for place in places
                if place not in self.missing
            ]
        return "".join(lines)

    def tile(self, zoom, column, row):
        """A picture of four colours, one a quarter."""
        places = [(2 * column + right, 2 * row + below) for below in (0, 1) for right in (0, 1)]
        return images.quarters(zoom.wide, zoom.high, [self.colour(zoom.zoom, *it) for it in places])

    def colour(self, zoom, quarter_column, quarter_row):
        if self.table == "plain":
            return PLAIN
        mixed = zlib.crc32(f"{self.table} {zoom} {quarter_column} {quarter_row}".encode())
        return tuple(32 + (mixed >> shift & 0xFF) * 3 // 4 for shift in (0, 8, 16))

    def colour_at(self, zoom, easting, northing):
        """The colour at a place in metres, and how far the nearest edge of a quarter is in metres, across and down."""
        across, down = zoom.wide * zoom.pixel_x / UNITS_PER_METRE / 2, zoom.high * zoom.pixel_y / UNITS_PER_METRE / 2
        column, row = (easting - self.left) / across, (self.top - northing) / down
        outside = max(-column, column - 2 * zoom.columns) * across, max(-row, row - 2 * zoom.rows) * down
        if max(outside) >= 0:
            return BLANK, tuple(abs(it) for it in outside)
        edges = abs(column - round(column)) * across, abs(row - round(row)) * down
        if (zoom.zoom, int(column) // 2, int(row) // 2) in self.missing:
            return BLANK, edges
        return self.colour(zoom.zoom, int(column), int(row)), edges


PYRAMIDS = [
    Pyramid(
        "base",
        'Base <b>map</b> & "relief"',
        25832,
        500_000,
        5_601_024,
        "two",
        [
            Zoom(0, 2, 2, 64, 64, 8_000_000, 8_000_000),
            Zoom(1, 4, 4, 64, 64, 4_000_000, 4_000_000),
            Zoom(2, 8, 8, 64, 64, 2_000_000, 2_000_000),
            Zoom(4, 16, 16, 128, 128, 500_000, 500_000),
        ],
        frozenset({(1, 1, 2), (2, 3, 3), (2, 4, 4), (4, 8, 7)}),
    ),
    Pyramid(
        "plain",
        "Plain",
        25834,
        0,
        0,
        "other",
        [Zoom(0, 4, 4, 64, 64, 1_400_000, 600_000), Zoom(1, 8, 8, 64, 64, 700_000, 300_000)],
    ),
    Pyramid(
        "relief",
        "Relief",
        25832,
        500_100.5,
        5_600_950.25,
        "other",
        [
            Zoom(3, 2, 3, 90, 60, 5_000_000, 5_000_000),
            Zoom(5, 6, 5, 100, 120, 1_500_000, 1_500_000),
            Zoom(6, 10, 8, 100, 125, 900_000, 900_000),
        ],
        frozenset({(5, 2, 2)}),
    ),
    Pyramid(
        "strip",
        "Strip",
        25833,
        -200,
        10.5,
        "two",
        [Zoom(0, 4, 4, 64, 64, 1_400_000, 600_000), Zoom(1, 8, 8, 64, 64, 700_000, 300_000)],
        frozenset({(1, 0, 7)}),
    ),
]


def content():
    """The layout and the content of the package, but for the viewer."""
    systems = [["srs", 25832 + it, f"UTM {32 + it}N", "EPSG", 25832 + it, "metres", ""] for it in range(3)]
    tables = [
        ["table", "spots", "attributes", "Spots"],
        ["table", "owners", "attributes", "Owners"],
        ["table", "photos", "media", "Photos"],
        ["table", "papers", "media", "Papers"],
        ["relation", "spots_photos", "spots", "photos", "media"],
        ["relation", "spots_papers", "spots", "papers", "media"],
        ["relation", "spots_owners", "spots", "owners", "simple_attributes"],
    ]
    pieces = [
        Piece(["row", "spots", 7, "Well", "by the road", 3]),
        Piece(["row", "owners", 2**53, "Ada", "", 0]),
        Piece(["row", "spots", 8, "Gate", "", 1]),
        media_piece("photos", 1, "image/png", picture(160, 120, (200, 60, 40))),
        media_piece("photos", 2, "image/png", picture(120, 160, (40, 160, 80))),
        media_piece("photos", 9, "image/jpeg", b"\xff\xd8\xff"),
        media_piece("papers", 4, "application/pdf", b"%PDF-1.4 no more"),
        *(
            Piece(["map", f"spots_{table}", 7, it])
            for table, it in (("photos", 1), ("photos", 2), ("photos", 9), ("papers", 4), ("owners", 2**53))
        ),
    ]
    return "".join(
        [
            *map(record, systems),
            *(it.records() for it in PYRAMIDS),
            *map(record, tables),
            *(it.command() for it in pieces),
        ]
    )


def base_map(zooms):
    """The map of packages that a crew works at, with so many zooms."""
    return Pyramid("base", "Base map", 25832, 500_000, 5_601_024, "two", PYRAMIDS[0].zooms[:zooms])


def content_of_crews(base, *more):
    """A map in UTM, one in a plan's system, the tables of rows, of their owners and of photos, and more records."""
    systems = [
        ["srs", 25832, "ETRS89 / UTM zone 32N", "EPSG", 25832, UTM, ""],
        ["srs", 7, "plan", "NONE", 7, "metres of a plan", ""],
    ]
    plan = Pyramid("plan", "Plan", 7, 0, 128, "two", base.zooms[-1:])
    tables = [
        ["table", "owners", "attributes", "Owners"],
        ["table", "spots", "attributes", "Spots"],
        ["table", "photos", "media", "Photos"],
        ["relation", "spots_photos", "spots", "photos", "media"],
        ["relation", "owners_spots", "owners", "spots", "simple_attributes"],
    ]
    return "".join([*map(record, systems), base.records(), plan.records(), *map(record, [*tables, *more])])


def take_in(file, out, *words):
    """Makes a viewer and takes it in by the commands that the tool prints."""
    commands, told = run(TOOL, file, out, *words)
    for line in commands.splitlines():
        run("bash", "-c", f"set -o pipefail; mmpkg() {{ {PROGRAM} \"$@\"; }}; " + line.replace("FILE", f"'{file}'"))
    return commands, told


@contextlib.contextmanager
def served(file, port=0, opens_ahead=False):
    """Serves a package, answers the page's address, and expects in the end that the program told no fault.

    A client that opens connections ahead may leave some on which nothing comes, which is told by 96.
    """
    held = None if port else held_port()
    port = port or held.getsockname()[1]
    # The service ends by itself, should this script be killed.
    command = ["timeout", str(SEEN_SECONDS), PROGRAM, "serve", file, "--port", str(port), "--count", "100000"]
    serving = subprocess.Popen(command, stdout=subprocess.PIPE)
    try:
        expect(serving.stdout.readline(), f"serving 127.0.0.1:{port}\n".encode(), "what serve prints")
        yield f"http://127.0.0.1:{port}"
    finally:
        serving.terminate()
        rest = serving.communicate()[0]
    told = [it for it in rest.splitlines() if not (opens_ahead and it == b"page fault 96")]
    expect(told, [], "what serve prints behind that")
