#!/usr/bin/env python3
"""Invents a piece of land, what the office knows of it, and what a crew finds there. Rows and heights are the same
on each machine.

    land.py terrain > TERRAIN.asc      heights in metres, 128 by 128 places of 16 m
    land.py office TERRAIN.asc         spots.csv: tables, boundary stones, a photo, and the fields of their form; stones.geojson and
                                       stones_wide.geojson to draw
    land.py crew NAME TERRAIN.asc      of the crew north or south: NAME.csv, a list of rows, photos, a PDF and a sound, with words of notes as
                                       the page writes them; NAME_more.csv, rows and mapping rows
                                       for its kit; NAME.geojson and NAME_wide.geojson, its way and what it found, to draw
    land.py paper TEXT > OUT.pdf       the PDF that a crew has of a stone
    land.py try > crew.csv             the list of a small package for a try (examples/crew.csv): a map of 1,024 m, and tables for rows and photos
"""

import itertools
import json
import math
import pathlib
import random
import struct
import sys
import zlib

sys.path.insert(0, str(pathlib.Path(__file__).resolve().parents[2] / "tools"))
from border import Piece, media_piece, tile_piece  # noqa: E402

SIDE, METRES, LAKE = 128, 16, 230.0
LEFT, BOTTOM = 500_000, 5_600_000
STONES = [
    (300, 1890),
    (560, 1720),
    (880, 1790),
    (1210, 1640),
    (1500, 1500),
    (1790, 1290),
    (1480, 1010),
    (1210, 830),
    (900, 700),
    (610, 560),
    (390, 370),
    (240, 130),
]
BAY = (900, 250)
PATHS = {
    "north": [STONES[0], STONES[1], (690, 1480), STONES[2], STONES[3], (1290, 1330), STONES[4], STONES[5]],
    "south": [
        STONES[11],
        STONES[10],
        (500, 450),
        STONES[9],
        STONES[8],
        (1180, 560),
        STONES[7],
        (1560, 760),
        (1780, 420),
    ],
}
# By crew, the first number of its spots and photos, and the stones that it finds.
CREWS = {"north": (100, range(1, 7)), "south": (200, range(8, 13))}
FINDS = ["Spring", "Gate", "Bench", "Old oak", "Footbridge", "Marker post"]
# The fields of the form of spots (docs/FORMATS.md, section 12), and how far the ellipsoid lies below the sea there, in
# metres.
FIELDS = {
    "condition": "label=Condition kind=choice choices=good|leaning|gone wanted=yes",
    "depth": "label=Depth kind=number unit=cm",
    "marked": "label=Marked kind=yesno",
}
GEOID = 47.2


def terrain():
    """Heights by row from the north, by halving squares and moving their middles."""
    dice = random.Random(31)
    high = [[0.0] * (SIDE + 1) for _ in range(SIDE + 1)]
    high[0][0], high[0][SIDE], high[SIDE][0], high[SIDE][SIDE] = 0.9, 0.6, 0.35, 0.75
    step, rough = SIDE, 0.36
    while step > 1:
        half = step // 2
        for y, x in itertools.product(range(half, SIDE, step), repeat=2):
            corners = (
                high[y - half][x - half]
                + high[y - half][x + half]
                + high[y + half][x - half]
                + high[y + half][x + half]
            )
            high[y][x] = corners / 4 + (dice.random() - 0.5) * rough
        for y in range(0, SIDE + 1, half):
            for x in range(half if y % step == 0 else 0, SIDE + 1, step):
                near = [
                    high[b][a]
                    for b, a in ((y - half, x), (y + half, x), (y, x - half), (y, x + half))
                    if 0 <= a <= SIDE and 0 <= b <= SIDE
                ]
                high[y][x] = sum(near) / len(near) + (dice.random() - 0.5) * rough
        step, rough = half, rough * 0.45
    least, most = min(map(min, high)), max(map(max, high))
    return [[max(LAKE, 172 + 470 * (value - least) / (most - least)) for value in row[:SIDE]] for row in high[:SIDE]]


def write_terrain():
    print(f"ncols {SIDE}\nnrows {SIDE}\nxllcorner {LEFT}\nyllcorner {BOTTOM}\ncellsize {METRES}")
    for row in terrain():
        print(*(f"{value:.1f}" for value in row))


def read_terrain(file):
    lines = pathlib.Path(file).read_text(encoding="ascii").splitlines()
    return [[float(word) for word in line.split()] for line in lines[5:]]


def height(land, x, y):
    """The height at a place, between those of four cells; the land goes on behind its edges as it is there."""
    column, row = (min(max(it / METRES - 0.5, 0), SIDE - 1.001) for it in (x, SIDE * METRES - y))
    left, above = int(column), int(row)
    right, below = column - left, row - above
    upper, lower = land[above], land[above + 1]
    return (upper[left] * (1 - right) + upper[left + 1] * right) * (1 - below) + (
        lower[left] * (1 - right) + lower[left + 1] * right
    ) * below


def view(land, place, wide=240, high=160):
    """A photo as PNG: the land from above a place towards the bay, drawn column by column from near to far."""
    eye, ahead = height(land, *place) + 35, math.atan2(BAY[0] - place[0], BAY[1] - place[1])
    rows = [[(150 + y // 3, 190 + y // 4, 225)] * wide for y in range(high)]
    for column in range(wide):
        angle = ahead + column / wide - 0.5
        top, far = high, 8.0
        while far < 2400 and top > 0:
            x, y = place[0] + far * math.sin(angle), place[1] + far * math.cos(angle)
            ground = height(land, x, y)
            line = max(0, int(high * 0.42 + (eye - ground) * 240 / far))
            if line < top:
                colour = shade(land, x, y, ground, far)
                for row in range(line, top):
                    rows[row][column] = colour
                top = line
            far *= 1.02
    return png(wide, high, rows)


def shade(land, x, y, ground, far):
    """The colour of a place, by its height and its slope, paler from afar."""
    colour = (
        (112, 150, 180)
        if ground <= LAKE
        else (96, 130, 66)
        if ground < 400
        else (150, 140, 96)
        if ground < 520
        else (210, 206, 200)
    )
    light = 1 + max(-0.4, min(0.4, (height(land, x + 12, y - 12) - ground) / -30))
    haze = min(0.75, far / 3000)
    return tuple(min(255, int(part * light * (1 - haze) + air * haze)) for part, air in zip(colour, (176, 202, 226)))


def chunk(kind, data):
    return struct.pack(">I", len(data)) + kind + data + struct.pack(">I", zlib.crc32(kind + data))


def png(wide, high, rows):
    packed = zlib.compress(b"".join(b"\0" + bytes(itertools.chain(*row)) for row in rows), 9)
    return (
        b"\x89PNG\r\n\x1a\n"
        + chunk(b"IHDR", struct.pack(">IIBBBBB", wide, high, 8, 2, 0, 0, 0))
        + chunk(b"IDAT", packed)
        + chunk(b"IEND", b"")
    )


def walk(corners, step=5):
    """Places on a smooth way through corners."""
    ends = [corners[0], *corners, corners[-1]]
    for a, b, c, d in zip(ends, ends[1:], ends[2:], ends[3:]):
        count = max(1, round(math.dist(b, c) / step))
        for part in (it / count for it in range(count)):
            yield tuple(
                q + part / 2 * (r - p + part * (2 * p - 5 * q + 4 * r - s + part * (3 * (q - r) + s - p)))
                for p, q, r, s in zip(a, b, c, d)
            )


def draw(file, discs):
    """Writes discs of a place and a radius as polygons, in the map's system."""
    shapes = [
        [
            [
                [LEFT + x + radius * math.cos(it * math.pi / 8), BOTTOM + y + radius * math.sin(it * math.pi / 8)]
                for it in range(17)
            ]
        ]
        for (x, y), radius in discs
    ]
    features = [{"type": "Feature", "properties": {}, "geometry": {"type": "MultiPolygon", "coordinates": shapes}}]
    system = {"type": "name", "properties": {"name": "urn:ogc:def:crs:EPSG::25832"}}
    pathlib.Path(file).write_text(
        json.dumps({"type": "FeatureCollection", "crs": system, "features": features}), encoding="ascii"
    )


def where(place):
    """A place as a word of a note (docs/FORMATS.md)."""
    return f"@25832:{LEFT + round(place[0])}/{BOTTOM + round(place[1])}"


def decimetres(land, place):
    return round(10 * height(land, *place))


def values_of(number):
    """What a crew tells of a boundary stone in the form's fields."""
    return {
        "condition": "leaning" if number % 3 == 0 else "good",
        "depth": str(8 + 5 * number % 17),
        "marked": "yes" if number % 2 else "no",
    }


def words(name, minute, values, land=None, place=None):
    """The words of a note as the page writes them: how exact, how high and how old a place of the device is, fields,
    and who saved it when."""
    device = (
        {"acc": str(2 + minute % 3), "h": f"{height(land, *place) + GEOID:.2f}".rstrip("0").rstrip("."), "age": "0"}
        if place
        else {}
    )
    who = {"by": name.title(), "at": f"2026-06-15T{6 + minute // 60:02}:{minute % 60:02}:00Z"}
    return " ".join(f"{word}={value}" for word, value in (device | values | who).items())


def paper(text):
    """A PDF of one page with a line."""
    line = f"BT /F1 20 Tf 30 120 Td ({text}) Tj ET"
    parts = [
        "<< /Type /Catalog /Pages 2 0 R >>",
        "<< /Type /Pages /Kids [3 0 R] /Count 1 >>",
        "<< /Type /Page /Parent 2 0 R /MediaBox [0 0 420 240] /Contents 4 0 R /Resources << /Font << /F1 5 0 R >> >> >>",
        f"<< /Length {len(line)} >>\nstream\n{line}\nendstream",
        "<< /Type /Font /Subtype /Type1 /BaseFont /Helvetica >>",
    ]
    made, places = "%PDF-1.4\n", []
    for number, part in enumerate(parts, 1):
        places.append(len(made))
        made += f"{number} 0 obj\n{part}\nendobj\n"
    table = "".join(f"{place:010} 00000 n \n" for place in places)
    count = len(parts) + 1
    return f"{made}xref\n0 {count}\n0000000000 65535 f \n{table}trailer\n<< /Size {count} /Root 1 0 R >>\nstartxref\n{len(made)}\n%%EOF\n".encode()


def sound(rate=8000, hertz=440):
    """A tone of half a second that dies away, as WAV."""
    samples = bytes(
        128 + round(100 * math.exp(-8 * it / rate) * math.sin(2 * math.pi * hertz * it / rate))
        for it in range(rate // 2)
    )
    form = struct.pack("<IHHIIHH", 16, 1, 1, rate, rate, 1, 8)
    body = b"WAVEfmt " + form + b"data" + struct.pack("<I", len(samples)) + samples
    return b"RIFF" + struct.pack("<I", len(body)) + body


def write(file, pieces):
    pathlib.Path(file).write_text("".join(piece.command() for piece in pieces), encoding="utf-8")


def office(land):
    """Stones as they stand in the books, none measured yet."""
    pieces = [
        Piece(["table", "spots", "attributes", "Spots"]),
        Piece(["table", "photos", "media", "Photos"]),
        Piece(["relation", "spots_photos", "spots", "photos", "media"]),
    ]
    pieces += [
        Piece(["row", "spots", it, f"Boundary stone {it}", f"{where(place)} by the books", 0])
        for it, place in enumerate(STONES, 1)
    ]
    pieces += [media_piece("photos", 1, "image/png", view(land, STONES[6])), Piece(["map", "spots_photos", 7, 1])]
    pieces += [Piece(["table", "forms", "attributes", "Forms"])]
    pieces += [
        Piece(["row", "forms", it, f"spots.{name}", told, it]) for it, (name, told) in enumerate(FIELDS.items(), 1)
    ]
    write("spots.csv", pieces)
    draw("stones_wide.geojson", [(place, 17) for place in STONES])
    draw("stones.geojson", [(place, 12) for place in STONES])


def crew(name, land):
    """What a crew finds on its way: boundary stones, which it takes photos from, and new spots. Both crews see stone 7
    from afar.

    Of its first stone it has a PDF, of its second a sound."""
    first, stones = CREWS[name]
    way = list(walk(PATHS[name]))
    finds = [way[len(way) * it // 50 + 3] for it in range(50)]
    told = {it: words(name, 10 * (it - stones[0]), values_of(it), land, STONES[it - 1]) for it in stones}
    notes = {it: f"{where(STONES[it - 1])} found by the {name} crew {told[it]}" for it in stones}
    found = [
        Piece(["row", "spots", it, f"Boundary stone {it}", notes[it], decimetres(land, STONES[it - 1])])
        for it in stones
    ]
    leaning = f"{where(STONES[6])} seen from the {name} {words(name, 80, {'condition': 'leaning'})}"
    seen = Piece(["row", "spots", 7, "Boundary stone 7", leaning, 2300 + first // 20])
    notes = [f"{where(place)} {words(name, 90 + 2 * it, {}, land, place)}" for it, place in enumerate(finds)]
    spots = [
        Piece(["row", "spots", first + it, FINDS[it % 6], note, decimetres(land, finds[it])])
        for it, note in enumerate(notes)
    ]
    photos = [media_piece("photos", first + it, "image/png", view(land, STONES[it - 1])) for it in stones]
    files = [
        media_piece("photos", first + 51, "application/pdf", paper(f"Boundary stone {stones[0]}")),
        media_piece("photos", first + 52, "audio/wav", sound()),
    ]
    write(f"{name}.csv", [*found, seen, *spots[:20], *photos, *files])
    related = [*((it, first + it) for it in stones), (stones[0], first + 51), (stones[1], first + 52)]
    write(f"{name}_more.csv", [*spots[20:], *(Piece(["map", "spots_photos", row, item]) for row, item in related)])
    discs = (
        [(place, 5) for place in way] + [(place, 10) for place in finds[2::5]] + [(STONES[it - 1], 14) for it in stones]
    )
    draw(f"{name}_wide.geojson", [(place, radius + 4) for place, radius in discs])
    draw(f"{name}.geojson", discs)


def bands(land, left, top, metres):
    """A tile of 256 by 256 pixels in a few colours, by heights, from an upper left corner."""
    colours = [(112, 150, 180), *((96 + 12 * it, 130 + 8 * it, 66 + 14 * it) for it in range(9))]
    pixels = (height(land, left + (x + 0.5) * metres, top - (y + 0.5) * metres) for y in range(256) for x in range(256))
    found = bytes(min(9, int((it - LAKE) / 40 + 0.99)) for it in pixels)
    lines = (found[at : at + 256] for at in range(0, 65536, 256))
    rows = b"".join(b"\0" + bytes(16 * a + b for a, b in zip(line[::2], line[1::2])) for line in lines)
    head, palette = struct.pack(">IIBBBBB", 256, 256, 4, 3, 0, 0, 0), bytes(itertools.chain(*colours))
    parts = [(b"IHDR", head), (b"PLTE", palette), (b"IDAT", zlib.compress(rows, 9)), (b"IEND", b"")]
    return b"\x89PNG\r\n\x1a\n" + b"".join(chunk(*it) for it in parts)


def write_try():
    """A small package's list: one map, a table of rows, and one of photos."""
    land, side = terrain(), 1024
    definition = (
        'PROJCS["ETRS89 / UTM zone 32N",GEOGCS["ETRS89",DATUM["European_Terrestrial_Reference_System_1989",SPHEROID["GRS 1980",6378137,'
        '298.257222101]],PRIMEM["Greenwich",0],UNIT["degree",0.0174532925199433]],PROJECTION["Transverse_Mercator"],'
        'PARAMETER["latitude_of_origin",0],PARAMETER["central_meridian",9],PARAMETER["scale_factor",0.9996],'
        'PARAMETER["false_easting",500000],PARAMETER["false_northing",0],UNIT["metre",1]]'
    )
    micrometres = [it * 10**6 for it in (LEFT, BOTTOM, LEFT + side, BOTTOM + side)]
    pieces = [
        Piece(["srs", 25832, "ETRS89 / UTM zone 32N", "EPSG", 25832, definition, ""]),
        Piece(["pyramid", "base", "Base map", 25832, *micrometres, "two"]),
    ]
    for zoom, count, metres in ((0, 1, 4), (1, 2, 2)):
        pieces.append(Piece(["matrix", "base", zoom, count, count, 256, 256, metres * 10**6, metres * 10**6]))
        pieces += [
            tile_piece("base", zoom, column, row, bands(land, column * 512, side - row * 512, metres))
            for column, row in itertools.product(range(count), repeat=2)
        ]
    pieces += [
        Piece(["table", "spots", "attributes", "Spots"]),
        Piece(["table", "photos", "media", "Photos"]),
        Piece(["relation", "spots_photos", "spots", "photos", "media"]),
    ]
    for it in (9, 10, 11, 12):
        pieces.append(Piece(["row", "spots", it, f"Boundary stone {it}", f"{where(STONES[it - 1])} by the books", 0]))
    print("".join(piece.command() for piece in pieces), end="")


def main():
    match sys.argv[1:]:
        case ["terrain"]:
            write_terrain()
        case ["office", file]:
            office(read_terrain(file))
        case ["crew", ("north" | "south") as name, file]:
            crew(name, read_terrain(file))
        case ["paper", text]:
            sys.stdout.buffer.write(paper(text))
        case ["try"]:
            write_try()
        case _:
            print(__doc__)
            sys.exit(2)


if __name__ == "__main__":
    main()
