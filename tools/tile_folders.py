"""Folders of tiles, XYZ and TMS, as GDAL is told of them."""

import dataclasses
import pathlib
import re
import xml.etree.ElementTree
from xml.sax.saxutils import escape

from border import MATRIX_LIMIT, ZOOM_LIMIT, Refused

TILE = re.compile(r"(0|[1-9][0-9]{0,9})/(0|[1-9][0-9]{0,9})/(0|[1-9][0-9]{0,9})\.(png|jpg|jpeg|webp)")
TMS = "tilemapresource.xml"
SIDE = 256
# Half of the sides of the square that Web Mercator draws, in its metres.
MERCATOR = 20_037_508.342789244
# By profile: the system, the lower left corner, and the side of the only tile of zoom 0.
WORLDS = {
    "mercator": ("EPSG:3857", -MERCATOR, -MERCATOR, 2 * MERCATOR),
    "geodetic": ("EPSG:4326", -180.0, -90.0, 360.0),
}

DESCRIPTION = """<GDAL_WMS><Service name="TMS"><ServerUrl>{url}</ServerUrl></Service><DataWindow>
<UpperLeftX>{left!r}</UpperLeftX><UpperLeftY>{top!r}</UpperLeftY><LowerRightX>{right!r}</LowerRightX>
<LowerRightY>{low!r}</LowerRightY><TileLevel>{zoom}</TileLevel><TileX>0</TileX><TileY>0</TileY>
<SizeX>{wide}</SizeX><SizeY>{high}</SizeY><YOrigin>{origin}</YOrigin></DataWindow>
<Projection>{system}</Projection><BlockSizeX>256</BlockSizeX><BlockSizeY>256</BlockSizeY><BandsCount>4</BandsCount>
<OverviewCount>0</OverviewCount><ZeroBlockHttpCodes>204,404</ZeroBlockHttpCodes>
<ZeroBlockOnServerException>true</ZeroBlockOnServerException></GDAL_WMS>"""


@dataclasses.dataclass(frozen=True)
class Tiles:
    """The tiles of a folder at its last zoom: that, their least and greatest column and row, and the files' suffix."""

    zoom: int
    columns: tuple
    rows: tuple
    suffix: str


def tiles_in(names):
    """The tiles at the last zoom, of files that are named as zoom, column and row."""
    found = [TILE.fullmatch(it) for it in names]
    places = [(*map(int, it.groups()[:3]), it[4]) for it in found if it]
    places = [it for it in places if it[0] <= ZOOM_LIMIT and max(it[1:3]) < MATRIX_LIMIT]
    if not places:
        raise Refused("has no tile Z/C/R.png, .jpg or .webp")
    last = max(it[0] for it in places)
    there = [it for it in places if it[0] == last]
    suffixes = sorted({it[3] for it in there})
    if len(suffixes) > 1:
        raise Refused(f"has tiles of several kinds, {', '.join(suffixes)}: one folder for each, please")
    columns, rows = [it[1] for it in there], [it[2] for it in there]
    return Tiles(last, (min(columns), max(columns)), (min(rows), max(rows)), suffixes[0])


def url_of(folder, suffix):
    return f"{folder.resolve().as_uri()}/${{z}}/${{x}}/${{y}}.{suffix}"


def part(tiles, high, from_below):
    """The pixels of a grid of a height that have tiles: across, down, and how many each way."""
    (left, right), (low, high_row) = tiles.columns, tiles.rows
    top = high // SIDE - 1 - high_row if from_below else low
    return [left * SIDE, top * SIDE, (right - left + 1) * SIDE, (high_row - low + 1) * SIDE]


def world(folder, tiles, profile="mercator", from_below=False, halves=False):
    """What GDAL is told of a folder whose tiles are of a grid of the whole world, and the part that has tiles.

    With halves two tiles lie beside each other at zoom 0.
    """
    system, left, low, side = WORLDS[profile]
    side, across = (side / 2, 2) if halves else (side, 1)
    count = SIDE << tiles.zoom
    told = DESCRIPTION.format(
        url=escape(url_of(folder, tiles.suffix)), left=left, top=low + side, right=left + across * side, low=low,
        zoom=tiles.zoom, wide=across * count, high=count, origin="bottom" if from_below else "top", system=system,
    )  # fmt: skip
    return told, part(tiles, count, from_below)


def plane(folder, tiles, system, corner, far, pixel):
    """What GDAL is told of a folder whose rows count from below, from a corner of a system of its own, and its part.

    Its tiles reach up to a far corner, or a little further, where they are clear.
    """
    columns, rows = tiles.columns[1] + 1, tiles.rows[1] + 1
    left, low = corner
    wide, high = (round((end - begin) / pixel) for begin, end in zip(corner, far))
    told = DESCRIPTION.format(
        url=escape(url_of(folder, tiles.suffix)), left=left, top=low + rows * SIDE * pixel,
        right=left + columns * SIDE * pixel, low=low, zoom=tiles.zoom, wide=columns * SIDE, high=rows * SIDE,
        origin="bottom", system=escape(system),
    )  # fmt: skip
    across, down, width, height = part(tiles, rows * SIDE, True)
    over = max(0, rows * SIDE - high)
    if across + width >= wide > across and over < SIDE:
        return told, [across, down + over, wide - across, height - over]
    return told, [across, down, width, height]


def in_halves(tiles, box):
    """Whether two tiles lie beside each other at zoom 0, as the first column tells beside the west of a box in degrees.

    Tools write both grids, and tell one size of a pixel of both.
    """
    return int((float(box.get("minx")) + 180) * 2**tiles.zoom / 180) == tiles.columns[0]


def of_tms(folder, tiles, text):
    """What GDAL is told of a folder by its description of TMS, whose rows count from below."""
    try:
        root = xml.etree.ElementTree.fromstring(text.strip())
        sets = root.find("TileSets")
        profile = sets.get("profile", "").removeprefix("global-")
        if profile in WORLDS:
            halves = profile == "geodetic" and in_halves(tiles, root.find("BoundingBox"))
            return world(folder, tiles, profile, from_below=True, halves=halves)
        pixels = {int(it.get("order")): float(it.get("units-per-pixel")) for it in sets}
        shape = root.find("TileFormat")
        if (shape.get("width"), shape.get("height")) != (str(SIDE), str(SIDE)):
            raise Refused(f"{TMS}: its tiles aren't {SIDE} pixels wide and high")
        corner = [float(root.find("Origin").get(it)) for it in "xy"]
        far = [float(root.find("BoundingBox").get(it)) for it in ("maxx", "maxy")]
        return plane(folder, tiles, root.find("SRS").text, corner, far, pixels[tiles.zoom])
    except (xml.etree.ElementTree.ParseError, AttributeError, TypeError, ValueError, KeyError) as error:
        raise Refused(f"{TMS}: it isn't as TMS wants it: {error!r}") from error


def described(folder):
    """What GDAL is told of a folder of tiles, and the pixels that have some: across, down, how many each way."""
    names = (it.relative_to(folder).as_posix() for it in pathlib.Path(folder).glob("*/*/*"))
    try:
        tiles = tiles_in(names)
        about = folder / TMS
        if about.exists():
            return of_tms(folder, tiles, about.read_text(encoding="utf-8"))
        return world(folder, tiles)
    except Refused as refused:
        raise Refused(f"{folder}: {refused}") from refused
