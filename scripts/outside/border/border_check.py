#!/usr/bin/python3
"""Compares what goes from the standard into a package and out again with GDAL's view of it (docs/BORDER.md), and
packages with what comes back.

    apt-get install gdal-bin python3-gdal
    scripts/outside/border/border_check.py [PROGRAM] [WORD ..]

WORD picks the checks whose names have it. The last line is 'N passed, M failed'. Exit status: 0 all passed, 1 something
failed, 2 the program isn't there, 77 GDAL isn't there.

Two packages are equal where 'mmpkg list' tells the same tables at the same moments, and all tables have the same rows.
Editions, their pieces and the ids of relations are no part of it, and a definition of a system that is no WKT counts as
'undefined'.
"""

import contextlib
import csv
import hashlib
import io
import json
import pathlib
import random
import re
import shlex
import shutil
import sqlite3
import subprocess
import sys

sys.path.insert(0, str(pathlib.Path(__file__).resolve().parents[1] / "lib"))
from checks import (  # noqa: E402
    MODULES, PROGRAM, TOP, content_of, end, expect, in_a_folder, mmpkg, new_package, run, run_checks, want, words_given,
)  # fmt: skip
import images  # noqa: E402
import import_standard  # noqa: E402
import points  # noqa: E402

from border import (  # noqa: E402
    KIT_PIECES, UNITS_OF_VERSION, UNITS_PER_METRE, Piece, Refused, media_piece, record, tile_piece, whole_units,
)  # fmt: skip

TOOLS = TOP / "tools"

UTM = (
    'PROJCS["a grid",GEOGCS["g",DATUM["d",SPHEROID["s",6378137,298]],PRIMEM["p",0],UNIT["degree",0.01745]],'
    'UNIT["metre",1]]'
)
NOT_COMPARED = {
    ("gpkg_contents", "last_change"),
    ("gpkgext_relations", "id"),
    ("mm_tiles", "blob"),
    ("mm_media", "blob"),
}
RELATIONSHIPS = """
import sys
from osgeo import gdal
opened = gdal.OpenEx(sys.argv[1], gdal.OF_VECTOR)
for name in opened.GetRelationshipNames() or []:
    it = opened.GetRelationship(name)
    print(it.GetLeftTableName(), it.GetRightTableName(), it.GetMappingTableName(), it.GetRelatedTableType())
"""
# What GDAL is looked by.
GDAL = (
    *(f"{it}:gdal-bin" for it in ("gdalinfo", "ogrinfo", "gdal_translate", "gdaldem", "gdallocationinfo")),
    *(f"{it}:python3-gdal" for it in ("gdal2tiles.py", f"{MODULES}/osgeo/gdal_array.py")),
    f"{MODULES}/osgeo_utils/samples/validate_gpkg.py:python3-gdal",
)


def tool(name, *words, status=0):
    return run(TOOLS / name, *words, status=status)


def listing(file):
    """The tables that the program lists, without the editions."""
    return [
        line
        for line in mmpkg("list", file).splitlines()
        if not re.fullmatch("edition [a-z0-9_]+ (open [0-9]+|published)", line)
    ]


def rows_of(file):
    """By table, the rows of a package that are compared. What the staged pieces of one have alone, the other hasn't."""
    with contextlib.closing(sqlite3.connect(f"file:{file}?mode=ro", uri=True)) as opened:
        tables = [name for (name,) in opened.execute("SELECT name FROM sqlite_schema WHERE type = 'table'")]
        return {
            table: compared(opened, table) for table in tables if table not in ("mm_editions", "mm_pieces", "mm_blobs")
        }


def compared(opened, table):
    bytes_too = ", (SELECT data FROM mm_blobs b WHERE b.id = blob) AS data" if table in ("mm_tiles", "mm_media") else ""
    cursor = opened.execute(f"SELECT *{bytes_too} FROM {table}")
    names = [(table, column[0]) for column in cursor.description]
    rows = []
    for row in cursor:
        fields = {name: value for name, value in zip(names, row) if name not in NOT_COMPARED}
        definition = ("gpkg_spatial_ref_sys", "definition")
        if "[" not in fields.get(definition, "[") and row[1] != 4326:
            fields[definition] = "undefined"
        rows.append(repr(sorted(fields.items())))
    return sorted(rows)


def expect_equal(first, second):
    expect(listing(second), listing(first), "mmpkg list")
    before, after = rows_of(first), rows_of(second)
    for table in before:
        expect(after.get(table), before[table], f"rows of {table}")
    expect(sum(map(len, after.values())), sum(map(len, before.values())), "rows in all")


def sums_of_tiles(file, query):
    """The sums of all tiles, by pyramid, zoom, column and row."""
    with contextlib.closing(sqlite3.connect(f"file:{file}?mode=ro", uri=True)) as opened:
        tables = [name for (name,) in opened.execute("SELECT table_name FROM gpkg_contents WHERE data_type = 'tiles'")]
        return {
            (table, *row[:3]): hashlib.sha256(row[3]).hexdigest()
            for table in tables
            for row in opened.execute(query.format(table))
        }


def expect_same_content(file, out):
    """The tiles and the moments of last change of a package stand in what was made of it."""
    columns = "SELECT zoom_level, tile_column, tile_row, "
    sums = sums_of_tiles(file, columns + "data FROM mm_tiles JOIN mm_blobs b ON b.id = blob WHERE table_name = '{}'")
    expect(sums_of_tiles(out, columns + 'tile_data FROM "{}"'), sums, "sums of tiles")
    changed = "SELECT table_name, last_change FROM gpkg_contents ORDER BY table_name"
    with contextlib.closing(sqlite3.connect(file)) as before, contextlib.closing(sqlite3.connect(out)) as after:
        expect(after.execute(changed).fetchall(), before.execute(changed).fetchall(), "last_change")


def untold(told):
    """What an import tells, but for the line that says for which packages it is."""
    return re.sub("next: FILE is one without the tables .*\n", "", told)


def export(file, out, *words):
    return tool("export_standard.py", file, out, *words)[1]


def validate(out):
    """GDAL's validator finds no error, its extra checks included."""
    found, _ = run(sys.executable, "-m", "osgeo_utils.samples.validate_gpkg", "-k", "--extra", out)
    expect(found, "", "validate_gpkg.py")
    print(f"    validate_gpkg.py -k --extra {out.name}: 0 errors")


def colour_at(out, x, y):
    """The colour that GDAL finds at a place of the system."""
    return tuple(map(int, run("gdallocationinfo", "-valonly", "-geoloc", out, x, y)[0].split()[:3]))


def take_in(commands, file, folder, moment=0):
    """Runs the commands that a tool printed on a package, at one moment."""
    for line in commands.splitlines():
        words = [str(file) if word == "FILE" else word for word in line.split()]
        if words[:2] == ["mmpkg", "run"]:
            mmpkg("run", file, "--at", moment, given=(folder / words[-1]).read_bytes())
        elif words[:2] == ["mmpkg", "kit"]:
            mmpkg(*words[1:], "--at", moment)
        else:
            mmpkg("run", file, "--at", moment, given=f"{words[1]}\n".encode())


def expect_round_trip(file, folder, *kit, valid=True, moment=0):
    """What is exported and imported again is an equal package, where all its tables were changed at one moment."""
    export(file, folder / "out.gpkg", "--all-tables")
    if valid:
        validate(folder / "out.gpkg")
    expect_same_content(file, folder / "out.gpkg")
    commands, told = tool("import_standard.py", folder / "out.gpkg", folder / "list.csv", "--all-zooms", *kit)
    expect(untold(told), "", "what the import tells")
    mmpkg("init", folder / "back.mmpkg")
    take_in(commands, folder / "back.mmpkg", folder, moment)
    expect_equal(file, folder / "back.mmpkg")


def nine_tiles():
    """Nine coloured tiles with a spot, a photo and their relation."""
    png = images.tile((1, 2, 3))
    pieces = [
        Piece(["row", "spots", 7, "Well", "by the road, north", 3]),
        media_piece("photos", 1, "image/png", png),
        Piece(["map", "spots_photos", 7, 1]),
    ]
    layout = [
        "table,spots,attributes,Spots\n",
        "table,photos,media,Photos\n",
        "relation,spots_photos,spots,photos,media\n",
    ]
    return images.nine_tiles() + "".join(layout) + "".join(piece.command() for piece in pieces)


def check_worked_example(folder):
    """The example that begins with GDAL's picture ends with its colours in their places, but for the tile that was
    edited."""
    run(TOP / "examples" / "border" / "run.sh", folder / "example")
    out = folder / "example" / "out.gpkg"
    lines = (TOP / "examples" / "border" / "colours.txt").read_text().splitlines()
    colours = [tuple(map(int, line.split()[1:])) for line in lines]
    colours[4] = (20, 20, 20)
    found = [colour_at(out, 500_128 + 256 * (number % 3), 5_600_640 - 256 * (number // 3)) for number in range(9)]
    expect(found, colours, "colours of the example")
    crew = folder / "example" / "crew.mmpkg"
    with contextlib.closing(sqlite3.connect(crew)) as opened:
        ((*row,),) = opened.execute("SELECT 'row', * FROM mm_rows WHERE table_name = 'map_bounds'")
    mmpkg("run", crew, "--at", 86_400_000, given=record(row).encode())
    expect_round_trip(crew, folder, moment=86_400_000)


def check_nine_tiles_by_gdal(folder):
    """GDAL finds nine colours in their places, the attribute row and the relation, in what is exported."""
    out = folder / "out.gpkg"
    new_package(folder / "a.mmpkg", nine_tiles())
    expect(export(folder / "a.mmpkg", out), "", "what the export tells")
    validate(out)
    expect_same_content(folder / "a.mmpkg", out)
    info, told = run("gdalinfo", out)
    expect(told, "", "what gdalinfo tells")
    for line in (
        "Size is 192, 192",
        "Pixel Size = (1.000000000000000,-1.000000000000000)",
        'PROJCRS["ETRS89 / UTM zone 32N"',
    ):
        assert line in info, f"gdalinfo doesn't tell {line}"
    run("gdal_translate", "-q", "-of", "PNG", "-b", "1", "-b", "2", "-b", "3", out, folder / "all.png")
    rows = images.pixels_of((folder / "all.png").read_bytes())
    found = [rows[number // 3 * images.SIDE + 32][number % 3 * images.SIDE + 32] for number in range(9)]
    expect(found, images.COLOURS, "colours of gdal_translate")
    layers, told = run("ogrinfo", "-al", out)
    expect(told, "", "what ogrinfo tells")
    for line in (
        "OGRFeature(spots):7",
        "title (String) = Well",
        "note (String) = by the road, north",
        "amount (Integer64) = 3",
        "OGRFeature(photos):1",
        "content_type (String) = image/png",
    ):
        assert line in layers, f"ogrinfo doesn't tell {line}"
    expect(run(sys.executable, "-c", RELATIONSHIPS, out)[0], "spots photos spots_photos media\n", "relations by GDAL")


def check_round_trip_of_the_examples(folder):
    """The package of the readme's lists; its tiles are no pictures, so the validator has no say."""
    lists = "".join((TOP / "examples" / f"{name}.csv").read_text() for name in ("systems", "base_map", "spring"))
    new_package(folder / "a.mmpkg", lists, status=1)
    mmpkg("run", folder / "a.mmpkg", "--at", "0", given=b"edition,autumn\n")
    mmpkg("kit", folder / "a.mmpkg", "autumn", TOP / "examples" / "autumn", "--at", "0")
    mmpkg("run", folder / "a.mmpkg", "--at", "0", given=b"publish,autumn\n")
    told = export(folder / "a.mmpkg", folder / "told.gpkg")
    expect(told.splitlines()[-1], "note: published editions (2): left out: what they brought is here", "the last note")
    (folder / "trip").mkdir()
    expect_round_trip(folder / "a.mmpkg", folder / "trip", "--kit", "again", folder / "trip" / "kit", valid=False)


def random_text(source, least):
    return "".join(source.choice("aZ9 ,\"'\r\n;%\tüß中") for _ in range(source.randint(least, 30)))


def random_pyramid(source, name, system):
    """A pyramid of one to three zooms with some of its tiles, anywhere within the limits."""
    step = source.choice(["two", "other"])
    factors = [2 if step == "two" else source.randint(2, 5) for _ in range(source.randint(0, 2))]
    pixel, side, wide, high = (
        source.randint(1, 20000),
        source.choice([1, 16, 60]),
        source.randint(1, 3),
        source.randint(1, 3),
    )
    zoom, pixels = source.randint(0, 20), [pixel]
    for factor in factors:
        pixels.insert(0, pixels[0] * factor)
    tiles = 1
    for factor in factors:
        tiles *= factor
    extent = (wide * side * pixels[0], high * side * pixels[0])
    x, y = (source.randint(-(10**11), 10**11 - length) for length in extent)
    lines = [record(["pyramid", name, f"Map {name}", system, x, y, x + extent[0], y + extent[1], step])]
    for level, size in enumerate(pixels):
        count = pixels[0] // size
        lines.append(record(["matrix", name, zoom + level, wide * count, high * count, side, side, size, size]))
        for _ in range(4):
            colour = tuple(source.randbytes(3))
            lines.append(
                tile_piece(
                    name,
                    zoom + level,
                    source.randrange(wide * count),
                    source.randrange(high * count),
                    images.tile(colour),
                ).command()
            )
    return lines


def random_package(seed):
    """Records of a package by a seed: systems, pyramids, rows, media, relations and an edition, with odd texts and
    numbers at their limits."""
    source = random.Random(seed)
    lines = [
        record(["srs", 2**53, random_text(source, 1), "NONE", 1, "no wkt", random_text(source, 0)]),
        record(["srs", 31467, "a grid", "EPSG", 31467, UTM, ""]),
    ]
    for number in range(3):
        lines += random_pyramid(source, f"map_{number}", source.choice([-1, 31467, 2**53]))
    for number, kind in enumerate(["attributes", "media", "attributes", "media"]):
        lines.append(record(["table", f"{kind}_{number}", kind, f'Ümlaut, "{number}"']))
    numbers = {
        name: sorted({2**53, *(source.randint(1, 2 ** source.randint(1, 53)) for _ in range(6))})
        for name in ("attributes_0", "media_1", "attributes_2", "media_3")
    }
    for name, ids in numbers.items():
        for number in ids:
            piece = (
                media_piece(name, number, "x.a/b+c", source.randbytes(source.randint(1, 3000)))
                if name.startswith("media")
                else Piece(
                    [
                        "row",
                        name,
                        number,
                        random_text(source, 0),
                        random_text(source, 0),
                        source.choice([-1, 1]) * 10 ** source.randint(0, 15),
                    ]
                )
            )
            lines.append(piece.command())
    lines += [record(["edition", "draft"]), record(["stage", "draft", 1, "row-drop", "attributes_0", 2**53])]
    for number in range(4):
        base, related = source.choice(list(numbers)), source.choice(list(numbers))
        name = "media" if related.startswith("media") else "simple_attributes"
        lines.append(record(["relation", f"relation_{number}", base, related, name]))
        pairs = sorted({(source.choice(numbers[base]), source.choice(numbers[related])) for _ in range(5)})
        lines += [record(["map", f"relation_{number}", *pair]) for pair in pairs]
    return "".join(lines)


def check_round_trip_of_random_1(folder):
    """By a command list."""
    new_package(folder / "a.mmpkg", random_package(1))
    expect_round_trip(folder / "a.mmpkg", folder)


def check_round_trip_of_random_2(folder):
    """By a kit."""
    new_package(folder / "a.mmpkg", random_package(2))
    expect_round_trip(folder / "a.mmpkg", folder, "--kit", "all", folder / "kit")


def check_round_trip_of_random_3(folder):
    """By a command list; the open edition is named, and the system whose number GDAL can't read."""
    new_package(folder / "a.mmpkg", random_package(3))
    told = export(folder / "a.mmpkg", folder / "told.gpkg").splitlines()
    expect(
        [line.split(": ")[1:3] for line in told],
        [
            ["system 9007199254740992", "GDAL reads numbers of systems as 32 bits, and takes it for another"],
            ["edition draft", "left out, open with pieces"],
        ],
        "what the export tells",
    )
    expect_round_trip(folder / "a.mmpkg", folder)


# What a standard GeoPackage may have and a package has not, put beside a package's own tables.
FOREIGN = """
INSERT INTO gpkg_spatial_ref_sys VALUES ('in feet', 2225, 'EPSG', 2225,
  'PROJCS["f",GEOGCS["g",UNIT["degree",0.01745]],UNIT["foot",0.3048]]', NULL);
INSERT INTO gpkg_spatial_ref_sys VALUES ('ETRS89', 4258, 'EPSG', 4258, 'GEOGCS["ETRS89",UNIT["degree",0.01745]]', NULL);
CREATE TABLE roads (fid INTEGER PRIMARY KEY, geom BLOB);
INSERT INTO gpkg_contents VALUES ('roads', 'features', 'roads', '', '2026-01-01T00:00:00.000Z', 0, 0, 1, 1, 25832);
CREATE TABLE crew (fid INTEGER PRIMARY KEY, title TEXT);
INSERT INTO gpkg_contents VALUES ('crew', 'attributes', 'crew', '',
  '2026-01-01T00:00:00.000Z', NULL, NULL, NULL, NULL, NULL);
CREATE TABLE crew_spots (base_id INTEGER, related_id INTEGER);
INSERT INTO gpkgext_relations VALUES (9, 'crew', 'id', 'spots', 'id', 'simple_attributes', 'crew_spots');
INSERT INTO spots VALUES (8, 'Gate', 'half', 0.5);
INSERT INTO spots VALUES (9, x'00', 'bytes', 1);
INSERT INTO photos VALUES (4, x'01', 'no type');
INSERT INTO spots_photos VALUES (8, 1);
INSERT INTO base (zoom_level, tile_column, tile_row, tile_data) VALUES (0, 3, 0, x'01');
INSERT INTO base (zoom_level, tile_column, tile_row, tile_data) VALUES (5, 0, 0, x'01');
INSERT INTO gpkg_tile_matrix VALUES ('base', 5, 9, 9, 64, 64, 0.3333, 0.3333);
"""
UNIT = 1 / UNITS_PER_METRE
FOREIGN_PYRAMIDS = [
    ("Base Map", 25832, 64.0, 1.0),
    ("fine", 25832, 32 * UNIT, UNIT / 2),
    ("part", 25832, 64 + UNIT / 2, 1.0),
    ("world", 4326, 64.0, 1.0),
    ("degrees", 4258, 64.0, 1.0),
    ("feet", 2225, 64.0, 1.0),
    ("far", 25832, 10**8 + UNIT, 1.0),
]
LEFT_OUT = [
    "system 2225",
    "system 4258",
    "table 'Base Map'",
    "table 'crew'",
    "table 'degrees'",
    "table 'far'",
    "table 'feet'",
    "matrix of fine at zoom 0",
    "table 'part'",
    "table 'roads'",
    "table 'world'",
    "matrix of base at zoom 5",
    "relation 'crew_spots'",
    "row 8 of spots",
    "row 9 of spots",
    "media item 4 of photos",
    "mapping row 8, 1 of spots_photos",
    "tile 0/3/0 of base",
    "tiles of base at zoom 5",
]


def add_foreign(out):
    with contextlib.closing(sqlite3.connect(out)) as opened:
        opened.executescript(FOREIGN)
        for name, system, width, pixel in FOREIGN_PYRAMIDS:
            opened.execute(
                f'CREATE TABLE "{name}" (id INTEGER PRIMARY KEY, zoom_level, tile_column, tile_row, tile_data)'
            )
            opened.execute(
                "INSERT INTO gpkg_contents VALUES (?, 'tiles', ?, '', '2026-01-01T00:00:00.000Z', 0, 0, ?, ?, ?)",
                (name, name, width, width, system),
            )
            opened.execute("INSERT INTO gpkg_tile_matrix_set VALUES (?, ?, 0, 0, ?, ?)", (name, system, width, width))
            opened.execute("INSERT INTO gpkg_tile_matrix VALUES (?, 0, 1, 1, 64, 64, ?, ?)", (name, pixel, pixel))
        opened.commit()


def check_what_is_whole(_):
    """The rounding of sums of DOUBLEs is passed over, and nothing that could be meant."""
    unit = UNITS_PER_METRE
    for metres, units in (
        (3 * 0.1, 3 * unit // 10),
        (5_600_000.1 + 0.2, 56_000_003 * unit // 10),
        (1e8, 10**8 * unit),
        (-2, -2 * unit),
        (1 / unit, 1),
        (0.5 / unit, None),
        (1.001 / unit, None),
        (1 / 3, None),
        (float("nan"), None),
        (None, None),
        ("1", None),
    ):
        expect(whole_units(metres), units, f"{metres} m in units")


FOOT, METRE, DEGREE = 'UNIT["US survey foot",0.3048006]', 'UNIT["metre",1]', 'UNIT["degree",0.0174532925199433]'
NEWER = (
    'PROJCRS["n",BASEGEOGCRS["g",PRIMEM["p",0,ANGLEUNIT["degree",0.0174532925199433]]],CONVERSION["c",METHOD["m"],'
    'PARAMETER["p",0,LENGTHUNIT["metre",1]]],CS[Cartesian,2],AXIS["(E)",east,ORDER[1],LENGTH{0}],'
    'AXIS["(N)",north,ORDER[2],LENGTH{0}]]'
)


def check_units_of_systems(_):
    """A system is taken only where its coordinates are no degrees and no feet, also with heights, of a site alone, and
    in the newer WKT."""
    plane = f'PROJCS["n",GEOGCS["g",{DEGREE}],{{}}]'
    foot, degrees = "its unit isn't the metre", "it is geographic"
    for definition, why in (
        (plane.format(METRE), None),
        (plane.format(FOOT), foot),
        (f'GEOGCS["g",{DEGREE}]', degrees),
        (f'COMPD_CS["h",{plane.format(METRE)},VERT_CS["v",{FOOT}]]', None),
        (f'COMPD_CS["h",{plane.format(FOOT)},VERT_CS["v",{METRE}]]', foot),
        (f'COMPD_CS["h",GEOGCS["g",{DEGREE}],VERT_CS["v",{METRE}]]', degrees),
        (f'LOCAL_CS["site",{FOOT}]', foot),
        (f'LOCAL_CS["site",{METRE}]', None),
        (NEWER.format(METRE), None),
        (NEWER.format(FOOT), foot),
        ("undefined", None),
    ):
        expect(
            import_standard.why_no_system((9, "n", "EPSG", 9, definition, "")), why, f"why {definition} is no system"
        )


def check_what_is_left_out(folder):
    """Each thing that a package can't hold is named, and the rest is taken whole."""
    new_package(folder / "a.mmpkg", nine_tiles() + "pyramid,fine,fine,25832,0,0,32,32,two\n")
    export(folder / "a.mmpkg", folder / "out.gpkg")
    with contextlib.closing(sqlite3.connect(folder / "out.gpkg")) as opened:
        for table in ("gpkg_tile_matrix_set", "gpkg_contents"):
            opened.execute(f"DELETE FROM {table} WHERE table_name = 'fine'")
        opened.execute("DROP TABLE fine")
        opened.commit()
    add_foreign(folder / "out.gpkg")
    commands, told = tool("import_standard.py", folder / "out.gpkg", folder / "list.csv", status=1)
    named = [line.split(": ")[1] for line in told.splitlines() if line.startswith("left out: ")]
    expect(sorted(named), sorted(LEFT_OUT), "what is named")
    mmpkg("init", folder / "back.mmpkg")
    take_in(commands, folder / "back.mmpkg", folder)
    expect_equal(folder / "a.mmpkg", folder / "back.mmpkg")


def check_what_is_refused(folder):
    """No package is told by the program's own numbers; nothing is written or overwritten, and FILE stays byte for
    byte."""
    new_package(folder / "a.mmpkg", nine_tiles())
    with contextlib.closing(sqlite3.connect(folder / "a.mmpkg")) as opened:
        opened.execute("UPDATE gpkg_contents SET description = 'x' WHERE table_name = 'spots'")
        opened.commit()
    (folder / "notes.mmpkg").write_bytes(b"ten bytes\n")
    with contextlib.closing(sqlite3.connect(folder / "other.mmpkg")) as opened:
        opened.execute("CREATE TABLE other (id INTEGER)")
    (folder / "stands.gpkg").write_bytes(b"stands")
    files = sorted(folder.iterdir())
    before = [file.read_bytes() for file in files]
    for name, line, status in (
        ("none", "not a package 94", 4),
        ("other", "not a package 94", 4),
        ("notes", "fault 91", 3),
        ("a", "rule Q16", 4),
    ):
        _, told = tool("export_standard.py", folder / f"{name}.mmpkg", folder / "out.gpkg", status=status)
        expect(told, f"{folder / name}.mmpkg: {line}\n", f"what is told of {name}")
    tool("export_standard.py", folder / "a.mmpkg", folder / "stands.gpkg", status=2)
    tool("import_standard.py", folder / "a.mmpkg", folder / "list.csv", status=2)
    expect(sorted(folder.iterdir()), files, "files")
    expect([file.read_bytes() for file in files], before, "bytes of the files")


def check_units_of_the_profile(folder):
    """Coordinates go out in metres by the version of the profile."""
    new_package(folder / "a.mmpkg", nine_tiles())
    for version, units in UNITS_OF_VERSION.items():
        with contextlib.closing(sqlite3.connect(folder / "a.mmpkg")) as opened:
            opened.execute("UPDATE mm_profile SET version = ?", (version,))
            opened.commit()
            (wide,) = opened.execute("SELECT max_x FROM gpkg_contents WHERE table_name = 'base'").fetchone()
        out = folder / f"{version}.gpkg"
        run("env", "MMPKG=true", TOOLS / "export_standard.py", folder / "a.mmpkg", out)
        with contextlib.closing(sqlite3.connect(out)) as opened:
            for table in ("gpkg_contents", "gpkg_tile_matrix_set"):
                expect(
                    opened.execute(f"SELECT max_x FROM {table} WHERE table_name = 'base'").fetchone(),
                    (wide / units,),
                    table,
                )
            expect(
                opened.execute("SELECT pixel_x_size FROM gpkg_tile_matrix").fetchone(),
                (wide / 192 / units,),
                "pixel size",
            )


def check_what_stands_in_the_journal(folder):
    """A command that was answered crosses where the program was killed behind it, when it stands in the journal
    alone."""
    mmpkg("init", folder / "a.mmpkg")
    with subprocess.Popen(
        [PROGRAM, "run", folder / "a.mmpkg", "--at", "0"], stdin=subprocess.PIPE, stdout=subprocess.PIPE
    ) as running:
        running.stdin.write(b"table,spots,attributes,Spots\nrow,spots,1,Well,,2\n")
        running.stdin.flush()
        expect([running.stdout.readline() for _ in range(2)], [b"1 ok\n", b"2 ok\n"], "answers")
        running.kill()
    files = [folder / "a.mmpkg", folder / "a.mmpkg-wal"]
    before = [file.read_bytes() for file in files]
    export(folder / "a.mmpkg", folder / "out.gpkg")
    expect([file.read_bytes() for file in files], before, "bytes of the package and its journal")
    validate(folder / "out.gpkg")
    with contextlib.closing(sqlite3.connect(folder / "out.gpkg")) as opened:
        expect(opened.execute("SELECT * FROM spots").fetchall(), [(1, "Well", "", 2)], "rows of spots")


def patched(name, patch, *words, status=0):
    """Runs a tool behind a patch of what it imports."""
    # What runs behind a shell's & would pass over SIGINT.
    heard = "signal.signal(signal.SIGINT, signal.default_int_handler)"
    code = f"import sys, os, signal, types, border, {name}\n{heard}\n{patch}\n{name}.run_tool({name}.main)"
    return run("env", f"PYTHONPATH={TOOLS}", sys.executable, "-B", "-c", code, *words, status=status)


def check_a_link_to_a_package(folder):
    """A package is read with its journal, and a GeoPackage with its own, also where a link in another folder leads to
    it."""
    for name in ("here", "there"):
        (folder / name).mkdir()
    new_package(folder / "here" / "a.mmpkg", nine_tiles())
    (folder / "there" / "a.mmpkg").symlink_to(folder / "here" / "a.mmpkg")
    with subprocess.Popen(
        [PROGRAM, "run", folder / "here" / "a.mmpkg", "--at", "0"], stdin=subprocess.PIPE, stdout=subprocess.PIPE
    ) as running:
        running.stdin.write(b"row,spots,1,Oak,,2\n")
        running.stdin.flush()
        expect(running.stdout.readline(), b"1 ok\n", "the answer")
        export(folder / "there" / "a.mmpkg", folder / "here" / "out.gpkg")
        running.kill()
    tool("repair_gis.py", folder / "there" / "a.mmpkg", folder / "mended.mmpkg")
    expect(mmpkg("show", folder / "mended.mmpkg", "spots", "1"), "row,spots,1,Oak,,2\n", "the row of the journal")
    (folder / "there" / "in.gpkg").symlink_to(folder / "here" / "out.gpkg")
    with contextlib.closing(sqlite3.connect(folder / "here" / "out.gpkg")) as opened:
        expect(
            opened.execute("SELECT title FROM spots ORDER BY id").fetchall(),
            [("Oak",), ("Well",)],
            "rows that went out",
        )
        opened.execute("PRAGMA journal_mode = WAL")
        opened.execute("UPDATE spots SET title = 'Ash' WHERE id = 1")
        opened.commit()
        tool("import_standard.py", folder / "there" / "in.gpkg", folder / "list.csv")
    assert "row,spots,1,Ash,,2\n" in (folder / "list.csv").read_text(), "the row of the GeoPackage's journal"


def check_a_journal_beside_a_name(folder):
    """Nothing is made where a journal of an earlier file would be taken for its own."""
    new_package(folder / "a.mmpkg", nine_tiles())
    for name, out, suffix in (
        ("export_standard.py", "out.gpkg", "-wal"),
        ("export_standard.py", "other.gpkg", "-journal"),
        ("repair_gis.py", "back.mmpkg", "-wal"),
    ):
        (folder / f"{out}{suffix}").write_bytes(b"of before")
        _, told = tool(name, folder / "a.mmpkg", folder / out, status=2)
        assert f"{out}{suffix}: is there, and is not overwritten" in told, told
        expect((folder / out).exists(), False, "whether it was made")


def check_reading_in_place(folder):
    """A package whose journal holds nothing is read without a copy; where a copy has no room that is told with what it
    wants."""
    new_package(folder / "a.mmpkg", nine_tiles())
    patched("export_standard", "border.shutil.copyfile = None", folder / "a.mmpkg", folder / "in_place.gpkg")
    with subprocess.Popen(
        [PROGRAM, "run", folder / "a.mmpkg", "--at", "0"], stdin=subprocess.PIPE, stdout=subprocess.PIPE
    ) as running:
        running.stdin.write(b"row,spots,1,Well,,2\n")
        running.stdin.flush()
        expect(running.stdout.readline(), b"1 ok\n", "the answer")
        export(folder / "a.mmpkg", folder / "in_use.gpkg")
        running.kill()
    no_room = "border.shutil.disk_usage = lambda _: types.SimpleNamespace(free=0)"
    _, told = patched("export_standard", no_room, folder / "a.mmpkg", folder / "out.gpkg", status=2)
    assert re.search(
        r"a copy is read, which wants \d+ MB in /\S+, where 0 MB are free; TMPDIR names another folder\n$", told
    ), told


def check_stopped_by_hand(folder):
    """Behind Ctrl-C there is a line and no traceback, and nothing that was half made."""
    new_package(folder / "a.mmpkg", nine_tiles())
    export(folder / "a.mmpkg", folder / "in.gpkg")
    (folder / "tiles" / "0" / "0").mkdir(parents=True)
    (folder / "tiles" / "0" / "0" / "0.png").write_bytes(images.tile((1, 2, 3)))
    files = sorted(folder.rglob("*"))
    stop = "os.kill(os.getpid(), signal.SIGINT)"
    for name, patch, words in (
        (
            "import_standard",
            f"border.KitWriter.end = lambda *_: {stop}",
            (folder / "in.gpkg", folder / "l", "--kit", "k", folder / "k"),
        ),
        ("make_kit", f"border.KitWriter.end = lambda *_: {stop}", (folder / "tiles", "base", "k", folder / "k")),
        (
            "export_standard",
            f"export_standard.write_relations = lambda *_: {stop}",
            (folder / "a.mmpkg", folder / "out.gpkg"),
        ),
    ):
        expect(patched(name, patch, *words, status=130), ("", "stopped; nothing was made\n"), f"what {name} tells")
    expect(sorted(folder.rglob("*")), files, "files")


def check_names_with_spaces(folder):
    """The commands that are printed are quoted as a shell wants them, and a folder that stands is named before the
    work."""
    new_package(folder / "a.mmpkg", nine_tiles())
    export(folder / "a.mmpkg", folder / "in.gpkg")
    words = ("import_standard.py", folder / "in.gpkg", folder / "my list.csv", "--kit", "first", folder / "my kit")
    commands, _ = tool(*words)
    mmpkg("init", folder / "back.mmpkg")
    for line in commands.splitlines():
        run(
            "bash",
            "-c",
            f'set -o pipefail; mmpkg() {{ {PROGRAM} "$@" --at 0; }}; '
            + line.replace("FILE", str(folder / "back.mmpkg")),
        )
    expect_equal(folder / "a.mmpkg", folder / "back.mmpkg")
    (folder / "my list.csv").unlink()
    expect(
        tool(*words, status=2)[1],
        f"{folder}/my kit: is there, and is not overwritten; remove it, or choose another name\n",
        "what is told",
    )


AREA = (
    '{"type":"FeatureCollection","features":[{"type":"Feature","properties":{"name":"x"},'
    '"geometry":{"type":"Polygon","coordinates":[[[9,50],[9.1,50],[9,50.1],[9,50]]]}}]}'
)
POINT = (
    '{"type":"FeatureCollection","features":[{"type":"Feature","properties":{"name":"x"},'
    '"geometry":{"type":"Point","coordinates":[10,50]}}]}'
)


def small_picture(folder):
    """A small picture of nine colours, as a GeoTIFF."""
    example = TOP / "examples" / "border"
    words = ("gdaldem", "color-relief", "-q", "-nearest_color_entry")
    run(*words, example / "picture.asc", example / "colours.txt", folder / "small.tif")


def geotiff(folder, width, height, system="EPSG:25832", corner=(500_000, 5_600_000), pixel=1):
    """A picture of nine colours as GDAL's users have it: of no whole number of tiles."""
    small_picture(folder)
    left, low = corner
    place = left, low + height * pixel, left + width * pixel, low
    run(
        "gdal_translate",
        "-q",
        "-outsize",
        width,
        height,
        "-r",
        "nearest",
        "-a_srs",
        system,
        "-a_ullr",
        *place,
        folder / "small.tif",
        folder / "picture.tif",
    )
    return folder / "picture.tif"


def standard_of(picture, out, table):
    run("gdal_translate", "-q", "-of", "GPKG", "-co", "TILE_FORMAT=PNG", "-co", f"RASTER_TABLE={table}", picture, out)


def matrices_of(listed):
    return [int(line.split(",")[2]) for line in listed.read_text().splitlines() if line.startswith("matrix,")]


def check_zooms_without_tiles(folder):
    """A zoom without tiles is left out and noted, or kept by --all-zooms; gdaladdo makes its tiles."""
    standard_of(geotiff(folder, 1500, 1100), folder / "in.gpkg", "base")
    _, told = tool("import_standard.py", folder / "in.gpkg", folder / "one.csv")
    note = "note: zoom 0 of base, zoom 1 of base, zoom 2 of base: it has no tiles and is left out; "
    note += "gdaladdo makes them, --all-zooms keeps it without"
    assert note in told.splitlines(), told
    expect(matrices_of(folder / "one.csv"), [3], "zooms")
    tool("import_standard.py", folder / "in.gpkg", folder / "all.csv", "--all-zooms")
    expect(matrices_of(folder / "all.csv"), [0, 1, 2, 3], "zooms of --all-zooms")
    run("gdaladdo", "-q", "-r", "average", folder / "in.gpkg", 2, 4, 8)
    _, told = tool("import_standard.py", folder / "in.gpkg", folder / "full.csv")
    expect("zoom" in told, False, "a zoom is noted")
    expect(matrices_of(folder / "full.csv"), [0, 1, 2, 3], "zooms behind gdaladdo")


def check_bounds_are_kept(folder):
    """A map of no whole number of tiles comes out as large as it went in, and once more."""
    standard_of(geotiff(folder, 1500, 1100), folder / "in.gpkg", "base")
    for number, source in enumerate(("in", "out_0")):
        commands, _ = tool("import_standard.py", folder / f"{source}.gpkg", folder / f"{number}.csv")
        mmpkg("init", folder / f"{number}.mmpkg")
        take_in(commands, folder / f"{number}.mmpkg", folder)
        export(folder / f"{number}.mmpkg", folder / f"out_{number}.gpkg")
        validate(folder / f"out_{number}.gpkg")
        assert "Size is 1500, 1100" in run("gdalinfo", folder / f"out_{number}.gpkg")[0], "the size by GDAL"
    expect_equal(folder / "0.mmpkg", folder / "1.mmpkg")
    export(folder / "1.mmpkg", folder / "all.gpkg", "--all-tables")
    with contextlib.closing(sqlite3.connect(folder / "all.gpkg")) as opened:
        opened.execute("UPDATE gpkg_contents SET max_x = max_x - 100 WHERE table_name = 'base'")
        opened.commit()
    _, told = tool("import_standard.py", folder / "all.gpkg", folder / "2.csv")
    expect(
        untold(told),
        "note: bounds of base: they don't come in: map_bounds of IN.gpkg tells others, or none\n",
        "what is told of other bounds",
    )


def check_without_optional_tables(folder):
    """A GeoPackage without the tables that the standard doesn't ask for comes in whole, as far as they told of
    nothing."""
    new_package(folder / "a.mmpkg", "table,spots,attributes,Spots\nrow,spots,7,Well,,3\n")
    export(folder / "a.mmpkg", folder / "in.gpkg")
    for table in ("gpkg_extensions", "gpkgext_relations", "gpkg_tile_matrix_set", "gpkg_tile_matrix"):
        with contextlib.closing(sqlite3.connect(folder / "in.gpkg")) as opened:
            opened.execute(f"DROP TABLE IF EXISTS {table}")
        tool("import_standard.py", folder / "in.gpkg", folder / f"{table}.csv")
        expect(
            (folder / f"{table}.csv").read_text(),
            "table,spots,attributes,Spots\nrow,spots,7,Well,,3\n",
            f"the list without {table}",
        )
    new_package(folder / "b.mmpkg", nine_tiles())
    export(folder / "b.mmpkg", folder / "map.gpkg")
    with contextlib.closing(sqlite3.connect(folder / "map.gpkg")) as opened:
        opened.execute("DROP TABLE gpkg_extensions")
    commands, _ = tool("import_standard.py", folder / "map.gpkg", folder / "map.csv")
    mmpkg("init", folder / "back.mmpkg")
    take_in(commands, folder / "back.mmpkg", folder)
    expect_equal(folder / "b.mmpkg", folder / "back.mmpkg")


def check_nothing_is_written_over(folder):
    """What other rows, media and tiles of FILE an import would write over is named, and nothing is made but with
    --replace."""
    new_package(folder / "a.mmpkg", nine_tiles() + "row,spots,8,Gate,,1\nrow,spots,9,Oak,,1\nrow,spots,11,Ash,,1\n")
    export(folder / "a.mmpkg", folder / "in.gpkg")
    with contextlib.closing(sqlite3.connect(folder / "in.gpkg")) as opened:
        opened.execute("UPDATE spots SET title = 'WP ' || id WHERE id <> 9")
        opened.execute("UPDATE photos SET data = x'ffd8ff'")
        opened.execute("UPDATE base SET tile_data = x'ffd8ff' WHERE tile_column = 1 AND tile_row = 1")
        opened.commit()
    files = {file: content_of(file) for file in sorted(folder.iterdir())}
    for kit in ((), ("--kit", "more", folder / "kit")):
        words = (
            "import_standard.py",
            folder / "in.gpkg",
            folder / "list.csv",
            *kit,
            "--into",
            folder / "a.mmpkg",
            "--key",
            "id",
        )
        _, told = tool(*words, status=2)
        lines = [
            f"{folder / 'a.mmpkg'}: has other {it}"
            for it in (
                "media of photos under these numbers: 1",
                "rows of spots under these numbers: 7 to 8, 11",
                "tiles of base under these numbers: 0/1/1",
            )
        ]
        expect(told.splitlines(), [*lines, "nothing was made; --replace writes over them"], "what is told")
        expect({file: content_of(file) for file in sorted(folder.iterdir())}, files, "files")
    commands, told = tool(*words, "--replace")
    expect(told, "note: system 25832: FILE has it with other texts, and keeps them\n", "what is told with --replace")
    expect([line.split()[1] for line in commands.splitlines()], ["run", "kit", "publish,more"], "commands")
    _, told = tool("import_standard.py", folder / "in.gpkg", folder / "new.csv")
    said = "next: FILE is one without the tables base, photos, spots; where it has some, --into FILE names it, "
    said += "and writes over nothing\n"
    expect(told, said, "what is told where no package is named")
    tool("import_standard.py", folder / "in.gpkg", folder / "no.csv", "--replace", status=2)
    expect((folder / "list.csv").read_text(), "edition,more\n", "the list, where the layout stands")
    new_package(folder / "other.mmpkg", "table,else,attributes,Else\nrow,else,7,Well,,1\n")
    tool("import_standard.py", folder / "in.gpkg", folder / "other.csv", "--into", folder / "other.mmpkg")


def check_numbers_of_a_second_layer(folder):
    """A second layer gets the numbers behind the last with its photos, or those from --first-id on, or keeps its own by
    --key."""
    layer = "table,spots,attributes,Spots\ntable,photos,media,Photos\nrelation,spots_photos,spots,photos,media\n"
    new_package(
        folder / "a.mmpkg",
        layer + "row,spots,1,Stone,,0\nrow,spots,2,Stone,,0\nmedia,photos,1,a/b,00\nmap,spots_photos,1,1\n",
    )
    new_package(
        folder / "b.mmpkg",
        layer + "row,spots,1,WP 1,,0\nrow,spots,7,WP 2,,0\nmedia,photos,1,a/b,01\nmap,spots_photos,7,1\n",
    )
    export(folder / "b.mmpkg", folder / "in.gpkg")
    stones = mmpkg("show", folder / "a.mmpkg", "spots")
    commands, told = tool("import_standard.py", folder / "in.gpkg", folder / "list.csv", "--into", folder / "a.mmpkg")
    note = "behind the last that FILE has; --key id keeps those of IN.gpkg"
    expect(told, f"note: photos: its numbers are 2 to 2, spots: its numbers are 3 to 4: {note}\n", "what is told")
    take_in(commands, folder / "a.mmpkg", folder)
    expect(mmpkg("show", folder / "a.mmpkg", "spots"), stones + "row,spots,3,WP 1,,0\nrow,spots,4,WP 2,,0\n", "rows")
    with contextlib.closing(sqlite3.connect(folder / "a.mmpkg")) as opened:
        expect(
            opened.execute("SELECT base_id, related_id FROM mm_map ORDER BY base_id").fetchall(),
            [(1, 1), (4, 2)],
            "mapping rows",
        )
    _, told = tool(
        "import_standard.py",
        folder / "in.gpkg",
        folder / "over.csv",
        "--into",
        folder / "a.mmpkg",
        "--first-id",
        4,
        status=2,
    )
    expect(
        told.splitlines()[0],
        f"{folder / 'a.mmpkg'}: has other rows of spots under these numbers: 4",
        "what is told of --first-id",
    )
    for words in (("--into", folder / "a.mmpkg"), ()):
        tool("import_standard.py", folder / "in.gpkg", folder / f"first_{len(words)}.csv", "--first-id", 101, *words)
        lines = (folder / f"first_{len(words)}.csv").read_text().splitlines()
        wanted = [
            "media,photos,101,a/b,01",
            "row,spots,101,WP 1,,0",
            "row,spots,102,WP 2,,0",
            "map,spots_photos,102,101",
        ]
        expect(lines[-4:], wanted, "the list of --first-id")
    tool("import_standard.py", folder / "in.gpkg", folder / "no.csv", "--first-id", 0, status=2)
    new_package(folder / "c.mmpkg", "table,spots,media,Spots\n")
    _, told = tool("import_standard.py", folder / "in.gpkg", folder / "no.csv", "--into", folder / "c.mmpkg", status=2)
    expect(
        told,
        f"{folder / 'c.mmpkg'}: table spots stands there otherwise; --table gives a table another name\n",
        "what is told of another kind",
    )
    new_package(folder / "d.mmpkg", f"table,spots,attributes,Spots\nrow,spots,{2**53},Last,,0\n")
    _, told = tool("import_standard.py", folder / "in.gpkg", folder / "no.csv", "--into", folder / "d.mmpkg", status=2)
    expect(
        told,
        "no number is left behind 9007199254740992; --first-id names another to begin with\n",
        "what is told behind the last number",
    )


HANDED_OVER = """
CREATE TABLE Spots (fid INTEGER PRIMARY KEY AUTOINCREMENT, title TEXT, note TEXT, amount REAL);
INSERT INTO Spots VALUES (1, 'Well', NULL, 7.0), (2, NULL, NULL, -3), (3, 'Gate', '', 1.5), (4, 'Oak', '', NULL);
INSERT INTO gpkg_contents VALUES ('Spots', 'attributes', 'Spots of 2026', '',
  '2026-01-01T00:00:00.000Z', NULL, NULL, NULL, NULL, NULL);
CREATE TABLE photos (fid INTEGER PRIMARY KEY AUTOINCREMENT, data BLOB, content_type TEXT);
INSERT INTO photos VALUES (1, x'01', 'text/plain; charset=utf-8'),
  (2, x'02', 'image'), (3, x'03', 'text/plain;charset=utf-8');
INSERT INTO gpkg_contents VALUES ('photos', 'attributes', 'photos', '',
  '2026-01-01T00:00:00.000Z', NULL, NULL, NULL, NULL, NULL);
CREATE TABLE gpkgext_relations (id INTEGER PRIMARY KEY, base_table_name, base_primary_column,
  related_table_name, related_primary_column,
    relation_name, mapping_table_name);
INSERT INTO gpkgext_relations VALUES (1, 'Spots', 'fid', 'photos', 'fid', 'media', 'spots_photos');
CREATE TABLE spots_photos (base_id INTEGER, related_id INTEGER);
INSERT INTO spots_photos VALUES (1, 1), (2, 3);
"""
HANDED_OVER_LEFT_OUT = [
    "row 3 of spots: its amount 1.5 is no whole number of at most 10^15",
    "row 4 of spots: its amount NULL is no whole number of at most 10^15",
    "media item 2 of photos: its content type 'image' isn't two words round a /, as image/png is",
]
HANDED_OVER_NOTED = [
    (
        "note of row 1 of spots, title of row 2 of spots, note of row 2 of spots: it is NULL, and comes in as the empty"
        " text"
    ),
    "media item 1 of photos: its content type 'text/plain; charset=utf-8' comes in as text/plain",
]


def check_what_a_gis_hands_over(folder):
    """Names, keys and values as GDAL and QGIS write them come in by --table and --key, and what doesn't is told with
    what takes it."""
    standard_of(geotiff(folder, 768, 768), folder / "in.gpkg", "Basemap")
    with contextlib.closing(sqlite3.connect(folder / "in.gpkg")) as opened:
        opened.executescript(HANDED_OVER)
    _, told = tool("import_standard.py", folder / "in.gpkg", folder / "none.csv", status=1)
    for line in (
        (
            "left out: table 'Basemap': its name is no name of a package, which has small letters, digits and _; "
            "--table Basemap=basemap gives it one"
        ),
        "left out: table 'photos': its key is fid, as GDAL and QGIS call it; --key fid takes it",
    ):
        assert line in told.splitlines(), f"{line!r} isn't told: {told}"
    words = "--table", "Basemap=base", "--table", "Spots=spots", "--key", "fid"
    commands, told = tool("import_standard.py", folder / "in.gpkg", folder / "list.csv", *words, status=1)
    for kind, lines in (("left out", HANDED_OVER_LEFT_OUT), ("note", HANDED_OVER_NOTED)):
        for line in lines:
            assert f"{kind}: {line}" in told.splitlines(), f"{line!r} isn't told: {told}"
    mmpkg("init", folder / "a.mmpkg")
    take_in(commands, folder / "a.mmpkg", folder)
    expect(
        [line.split()[:3] for line in listing(folder / "a.mmpkg")],
        [
            ["base", "two", "9"],
            ["map_bounds", "attributes", "1"],
            ["photos", "media", "2"],
            ["spots", "attributes", "2"],
        ],
        "what came in",
    )
    with contextlib.closing(sqlite3.connect(folder / "a.mmpkg")) as opened:
        expect(
            opened.execute("SELECT id, title, note, amount FROM mm_rows WHERE table_name = 'spots'").fetchall(),
            [(1, "Well", "", 7), (2, "", "", -3)],
            "rows",
        )
        expect(
            opened.execute("SELECT base_id, related_id FROM mm_map ORDER BY base_id").fetchall(),
            [(1, 1), (2, 3)],
            "mapping rows",
        )


def remedy(told, command):
    """The command that a message tells, up to the word that goes on behind it."""
    found = re.search(rf"; ((?:iconv [^|]* \| )?[^ ;]*{command} .*?) (?:makes|takes|brings) ", told)
    assert found, f"no {command} is told: {told}"
    return found[1]


def run_remedy(told, folder, command="ogr2ogr"):
    """Runs a command that was told, as it is told."""
    run("bash", "-c", f"set -o pipefail; cd '{folder}' && rm -f rows.gpkg && {remedy(told, command)}")


def rows_in(listed):
    """The records of rows in a list."""
    with open(listed, encoding="utf-8", newline="") as it:
        return [line for line in csv.reader(it) if line[0] == "row"]


def check_remedies(folder):
    """The commands that are told for a map in degrees of arc or of Web Mercator, and for a layer of features, run as
    they are told."""
    for system, corner, pixel in (
        ("EPSG:3857", (1_001_875.4, 6_446_275.8), 2.388657133911758),
        ("EPSG:4326", (9, 50.5), 0.00001),
    ):
        where = folder / system[5:]
        where.mkdir()
        standard_of(geotiff(where, 500, 300, system, corner, pixel), where / "in.gpkg", "base")
        _, told = tool("import_standard.py", where / "in.gpkg", where / "none.csv", status=1)
        run("bash", "-c", f"cd '{where}' && " + remedy(told, "fill.py").replace("FILE", "a.mmpkg"))
        assert re.match("base +two ", mmpkg("list", where / "a.mmpkg")), "the map isn't in"
    for kind, shape, note in (("points", POINT, "@25832:571666.447504/5539109.815176"), ("areas", AREA, "")):
        where = folder / kind
        where.mkdir()
        (where / "in.json").write_text(shape)
        run("ogr2ogr", "-f", "GPKG", where / "in.gpkg", where / "in.json", "-nln", kind)
        _, told = tool("import_standard.py", where / "in.gpkg", where / "none.csv", status=1)
        run_remedy(told, where)
        tool("import_standard.py", where / "rows.gpkg", where / "list.csv")
        lines = [line for line in (where / "list.csv").read_text().splitlines() if not line.startswith(("srs,", '"'))]
        expect(lines[-2:], [f"table,{kind},attributes,{kind}", f"row,{kind},1,x,{note},0"], f"the list of {kind}")


# By the name of a file of odd_files.py what its import ends with, and what it tells; all others end with 0.
ODD = {
    "any_shape.gpkg": (1, "left out: row 1 of spots: its geometry is no point"),
    "broken_view.gpkg": (1, "it can't be read: no such table"),
    "cut.gpkg": (2, "malformed"),
    "few_matrix_columns.gpkg": (1, "no such column: matrix_width"),
    "degrees.gpkg": (1, "-t_srs EPSG:25832"),
    "few_columns.gpkg": (2, "no such column: identifier"),
    "head.gpkg": (2, "file is not a database"),
    "lines.gpkg": (1, "a package has no LINESTRING"),
    "map.mbtiles": (2, "is MBTiles and no GeoPackage"),
    "map.png": (2, "is a PNG and no GeoPackage"),
    "map.tif": (2, "is a TIFF and no GeoPackage"),
    "map.vrt": (2, "is a VRT and no GeoPackage"),
    "no_geometry_columns.gpkg": (1, "a package has no geometry"),
    "no_kind.gpkg": (1, "a package has no geometry"),
    "no_matrix_sets.gpkg": (1, "it has no matrix set"),
    "no_such_column.gpkg": (1, "a package has no geometry"),
    "no_system.gpkg": (1, "-s_srs EPSG:4326"),
    "no_systems.gpkg": (1, "its system 25832 is geographic, or was left out"),
    "no_table.gpkg": (1, "there is no such table"),
    "no_texts.gpkg": (1, "left out: table None: its name is no text"),
    "nulls.gpkg": (1, "coalesce(amount, 0) AS amount"),
    "odd_extent.gpkg": (1, "isn't whole in micrometres"),
    "odd_matrices.gpkg": (1, "no matrix was taken"),
    "odd_relations.gpkg": (1, "left out: relation None"),
    "odd_systems.gpkg": (1, "left out: system None"),
    "ok.geojson": (2, "ogr2ogr -f GPKG rows.gpkg"),
    "ok.sqlite": (2, "ogr2ogr -f GPKG rows.gpkg"),
    "quotes.gpkg": (1, "its name is no name of a package"),
    "several.gpkg": (1, "-explodecollections"),
    "short_relations.gpkg": (2, "no such column"),
    "south.gpkg": (1, "-t_srs EPSG:32760"),
    "stones.gpkg": (1, "--columns takes them all"),
    "table.gpkg": (1, "--columns takes them all"),
    "two_geometries.gpkg": (1, "--columns takes them all"),
    "view.gpkg": (1, "left out: table 'more'"),
}
# By the name of a file the rows that come in behind the command that its import tells.
BROUGHT = {
    "degrees": [["1", "Oak", "@25832:535460.445813/5594344.786006 old", "7"]],
    "no_system": [["1", "Oak", "@25832:535460.445813/5594344.786006 old", "7"]],
    "lines": [["1", "Lane", "", "0"]], "nulls": [["1", "", "@25832:500001/5600001", "0"]],
    "south": [["1", "Oak", "@32760:290533.818405/5430475.829403 old", "7"]],
    "several": [["1", "Oak", "@25832:1/2 old", "7"], ["2", "Oak", "@25832:3/4 old", "7"]],
    "table": [["1", "Ada", "", "0"]], "no_kind": [["1", "Oak", "old", "7"]],
    "stones": [["1", "S 1", "@25832:500000.5/5600000.25", "0"], ["2", "", "@25832:1/2", "0"]],
}  # fmt: skip


def imported(*words, status=0):
    """What an import tells on standard error, which has to end with the status; it has no process of its own, since
    there are many."""
    told, given = io.StringIO(), sys.argv
    try:
        sys.argv = ["import_standard.py", *map(str, words)]
        with contextlib.redirect_stdout(io.StringIO()), contextlib.redirect_stderr(told):
            found = import_standard.main()
    except Refused as refused:
        found = refused.status
        told.write(f"{refused}\n")
    except Exception as error:
        raise AssertionError(f"{words[0]}: a traceback: {error!r}") from error
    finally:
        sys.argv = given
    expect(found, status, f"the status of the import of {words[0]}: {told.getvalue()}")
    return told.getvalue()


def check_odd_files(folder):
    """Files of many kinds, as GDAL makes them and odd ones, end in words; what of them is whole comes in."""
    run(sys.executable, TOP / "scripts" / "outside" / "border" / "odd_files.py", folder)
    files = sorted(it for it in folder.iterdir() if it.suffix != ".xml")
    expect(set(ODD) <= {it.name for it in files}, True, "whether all files are there")
    for file in files:
        status, words = ODD.get(file.name, (0, ""))
        told = imported(file, folder / f"{file.name}.csv", status=status)
        assert words in told, f"{words!r} isn't told of {file.name}: {told}"
        expect((folder / f"{file.name}.csv").exists(), status < 2, f"whether {file.name} has a list")
    expect((folder / "few_matrix_columns.gpkg.csv").read_text().count("map"), 0, "lines of a map that can't be read")
    for name in ("ok", "no_extent", "no_extensions", "trigger", "generated", "no_rowid"):
        expect(
            rows_in(folder / f"{name}.gpkg.csv")[-1],
            ["row", "spots", "1", "Oak", "@25832:500000.5/5600000.25 old", "7"],
            f"the row of {name}",
        )
    for name, rows in BROUGHT.items():
        run_remedy(imported(folder / f"{name}.gpkg", folder / f"{name}_none.csv", status=1), folder)
        imported(folder / "rows.gpkg", folder / f"{name}.csv")
        expect(
            [it[2:] for it in rows_in(folder / f"{name}.csv")], rows, f"rows of {name} behind the command that was told"
        )


def check_columns_go_in_and_out(folder):
    """With --columns a layer comes in with all its columns, by its own key, and goes out with them, letter by
    letter."""
    run(sys.executable, TOP / "scripts" / "outside" / "border" / "odd_files.py", folder)
    with contextlib.closing(sqlite3.connect(folder / "stones.gpkg")) as opened:
        for (name,) in opened.execute(
            "SELECT name FROM sqlite_master WHERE type = 'trigger' AND tbl_name = 'stones'"
        ).fetchall():
            opened.execute(f"DROP TRIGGER {name}")
        opened.execute("UPDATE stones SET fid = fid + 100")
        opened.commit()
    commands, told = tool("import_standard.py", folder / "stones.gpkg", folder / "list.csv", "--columns")
    expect(
        [it[2:] for it in rows_in(folder / "list.csv")],
        [
            ["101", "S 1", '@25832:500000.5/5600000.25 height=12.5 kept_by="the ""Post""" day=2026-01-02', "0"],
            ["102", "", "@25832:1/2", "0"],
        ],
        "rows",
    )
    mmpkg("init", folder / "a.mmpkg")
    take_in(commands, folder / "a.mmpkg", folder)
    mmpkg("run", folder / "a.mmpkg", given=b"row,stones,103,New,@25832:5/6 by hand height=7 x=007 Note=b,2\n")
    tool("export_standard.py", folder / "a.mmpkg", folder / "out.gpkg", "--points", "stones", "--columns", "stones")
    validate(folder / "out.gpkg")
    run("ogr2ogr", "-f", "CSV", "-lco", "GEOMETRY=AS_XY", folder / "seen.csv", folder / "out.gpkg", "stones")
    with open(folder / "seen.csv", encoding="utf-8", newline="") as it:
        expect(
            list(csv.reader(it)),
            [
                ["X", "Y", "title", "note", "amount", "height", "kept_by", "day", "x", "Note_2"],
                ["500000.5", "5600000.25", "S 1", "", "0", "12.5", 'the "Post"', "2026-01-02", "", ""],
                ["1", "2", "", "", "0", "", "", "", "", ""],
                ["5", "6", "New", "by hand", "2", "7", "", "", "007", "b"],
            ],
            "columns that GDAL sees",
        )
    commands, _ = tool(
        "import_standard.py",
        folder / "out.gpkg",
        folder / "again.csv",
        "--columns",
        "--into",
        folder / "a.mmpkg",
        "--key",
        "id",
        "--replace",
    )
    expect(
        [it[2:4] for it in rows_in(folder / "again.csv")],
        [["101", "S 1"], ["102", ""], ["103", "New"]],
        "rows that come back to their own",
    )
    names = shlex.split(
        re.search(
            "--table (.*) gives it one",
            tool("import_standard.py", folder / "quotes.gpkg", folder / "none.csv", status=1)[1],
        )[1]
    )
    tool("import_standard.py", folder / "quotes.gpkg", folder / "quotes.csv", "--table", *names, "--columns")
    expect(
        [it[1:] for it in rows_in(folder / "quotes.csv")],
        [["it_s_x", "1", "a", "@25832:1/2 a__b_=1 select=2.5", "0"]],
        "odd names of columns",
    )
    _, told = tool("import_standard.py", folder / "quotes.gpkg", folder / "none_2.csv", "--table", *names, status=1)
    run_remedy(told, folder)
    tool("import_standard.py", folder / "rows.gpkg", folder / "rows.csv")
    expect(
        [it[1:] for it in rows_in(folder / "rows.csv")],
        [["it_s_x", "1", "a", "@25832:1/2", "0"]],
        "the row of the command that was told",
    )


STONES = (
    "Punkt;Höhe;Rechtswert;Hochwert;Art\n101;12,5;565100,25;5933200,5;Grenzstein alt\n102;;565101,25;5933201,5;Münze\n"
)
WAYPOINTS = (
    '<?xml version="1.0"?><gpx version="1.1" creator="x" xmlns="http://www.topografix.com/GPX/1/1">'
    "<wpt lat='50.5' lon='9.1'><name>WP 1</name><desc>by 'it</desc></wpt></gpx>"
)


def check_texts_of_devices(folder):
    """A surveyor's text with semicolons, decimal commas and Latin-1, and waypoints of a GPX, come in behind the command
    that is told."""
    wanted = {
        "stones 1.csv": (
            STONES.encode("latin1"),
            ["101", '@25832:565100.25/5933200.5 Höhe=12,5 Art="Grenzstein alt"'],
            ["102", '@25832:565101.25/5933201.5 Höhe="" Art=Münze'],
        ),
        "way.gpx": (WAYPOINTS.encode(), ["WP 1", '@25832:507092.105557/5594230.17033 desc="by \'it"']),
    }
    for name, (data, *rows) in wanted.items():
        (folder / name).write_bytes(data)
        _, told = tool("import_standard.py", folder / name, folder / "none.csv", status=2)
        run_remedy(told, folder)
        tool("import_standard.py", folder / "rows.gpkg", folder / f"{name}.list", "--columns")
        expect([it[3:5] for it in rows_in(folder / f"{name}.list")], rows, f"rows of {name}")


def check_photos_as_files(folder):
    """Photos go out as files that are named by their rows; nothing is overwritten."""
    png = images.tile((1, 2, 3))
    lines = [
        ["media", "photos", number, content_type, data.hex()]
        for number, content_type, data in (
            (2, "image/jpeg", b"\xff\xd8\xff"),
            (3, "application/pdf", b"%PDF"),
            (4, "x/y", b"z"),
        )
    ]
    lines += [
        ["row", "spots", 8, "../Oak/ß", "", 0],
        ["map", "spots_photos", 7, 2],
        ["map", "spots_photos", 8, 1],
        ["map", "spots_photos", 8, 3],
    ]
    new_package(folder / "a.mmpkg", nine_tiles() + "".join(map(record, lines)))
    words = "export_standard.py", folder / "a.mmpkg", folder / "out.gpkg", "--photos", folder / "my photos"
    tool(*words)
    found = {
        str(it.relative_to(folder / "my photos")): it.read_bytes()
        for it in (folder / "my photos").rglob("*")
        if it.is_file()
    }
    listed = found.pop("photos.csv").decode().splitlines()
    expect(
        found,
        {
            "spots/Well-7.png": png,
            "spots/Well-7_2.jpg": b"\xff\xd8\xff",
            "spots/Oak_ß-8.png": png,
            "spots/Oak_ß-8_2.pdf": b"%PDF",
            "photos/row-4.bin": b"z",
        },
        "files",
    )
    expect((listed[1], len(listed)), ("spots/Well-7.png,spots,7,Well,photos,1,image/png", 6), "the list")
    (folder / "out.gpkg").unlink()
    expect(
        tool(*words, status=2)[1],
        f"{folder}/my photos: is there, and is not overwritten; remove it, or choose another name\n",
        "what is told",
    )
    expect((folder / "out.gpkg").exists(), False, "whether OUT was made")


def check_slips_are_said(folder):
    """Rows whose place is none, and rows whose place is on no map, are named, and no others."""
    notes = [
        "@25832:100,5/50",
        "@25832:100/50weg",
        "@5600100/100",
        "@25832:0/192",
        "@100.5/50",
        "a@b.de",
        "see @home",
        "",
    ]
    lines = [["row", "spots", 11 + number, "x", note, 0] for number, note in enumerate(notes)]
    new_package(folder / "a.mmpkg", nine_tiles() + "".join(map(record, lines)))
    _, told = tool("export_standard.py", folder / "a.mmpkg", folder / "out.gpkg")
    wanted = [
        "note: row 11 of spots, row 12 of spots, row 17 of spots: a word of its note begins with @, and is no place",
        "note: row 13 of spots: its place is on no map",
    ]
    expect(sorted(told.splitlines()), wanted, "what is told")
    lines = [["row", "spots", 100 + number, "x", "@x", 0] for number in range(30)]
    mmpkg("run", folder / "a.mmpkg", given="".join(map(record, lines)).encode())
    assert (
        ", row 106 of spots and 23 more: a word"
        in tool("export_standard.py", folder / "a.mmpkg", folder / "out_2.gpkg")[1]
    ), "how many there are"


PLACES = [(1, "Spring", "@25832:500000.5/5600000.25 by the road", 3), (2, "Gate", "", 0),
          (3, "Oak", "@25832:-7/0.000001", -5), (4, "Plan", "@7:10/20 of the plan", 0),
          (5, "Late", "seen @500100/5600100 by", 1), (6, "No", "@25832:1,5/2 @x/y a@1/2", 0),
          (2**53, "Far", "@25832:999999999.999999/-999999999.999999 \"x\"\nüß", 10**15)]  # fmt: skip
SLIPS = (
    (
        "row 1 of spots, row 3 of spots, row 4 of spots, row 5 of spots, row 9007199254740992 of spots: its place is on"
        " no map"
    ),
    "row 6 of spots: a word of its note begins with @, and is no place",
)


PAGE_AND_BOUNDS = """table,viewer,media,Map viewer
media,viewer,1,text/html,00
media,viewer,4,application/json,{known}
table,map_bounds,attributes,Bounds of maps
row,map_bounds,1,base,{bounds},0
table,pages,media,Pages
media,pages,1,text/html,00
edition,draft
"""
OWN = "left out, since only a package has a use for it; --all-tables takes it along"


def tables_in(out):
    with contextlib.closing(sqlite3.connect(out)) as opened:
        return [name for (name,) in opened.execute("SELECT table_name FROM gpkg_contents ORDER BY table_name")]


def check_what_only_a_package_has_a_use_for(folder):
    """The crew's page and bounds that the contents tell stay out but at the asking; other pages and bounds go out."""
    new_package(folder / "a.mmpkg", nine_tiles())
    with contextlib.closing(sqlite3.connect(folder / "a.mmpkg")) as opened:
        extent = opened.execute("SELECT min_x, min_y, max_x, max_y FROM gpkg_tile_matrix_set").fetchone()
    bounds = [extent[0], extent[1], extent[2] - 1_000_000, extent[3]]
    known = b'{"package":"0123456789abcdef"}'.hex()
    lists = PAGE_AND_BOUNDS.format(known=known, bounds=" ".join(map(str, bounds)))
    mmpkg("run", folder / "a.mmpkg", "--at", 0, given=lists.encode())
    told = export(folder / "a.mmpkg", folder / "out.gpkg")
    lines = [f"note: table map_bounds, table viewer: {OWN}", "note: edition draft: left out, open with pieces: 0"]
    expect(told.splitlines(), lines, "what is told")
    expect(tables_in(folder / "out.gpkg"), ["base", "pages", "photos", "spots"], "tables")
    validate(folder / "out.gpkg")
    tool("import_standard.py", folder / "out.gpkg", folder / "list.csv", "--all-zooms")
    end_of_row = f",base,{' '.join(map(str, bounds))},0"
    rows = [line for line in (folder / "list.csv").read_text().splitlines() if line.startswith("row,map_bounds,")]
    expect([line.endswith(end_of_row) for line in rows], [True], f"the bounds that come in again: {rows}")
    export(folder / "a.mmpkg", folder / "all.gpkg", "--all-tables")
    expect(tables_in(folder / "all.gpkg"), ["base", "map_bounds", "pages", "photos", "spots", "viewer"], "all tables")
    mmpkg("run", folder / "a.mmpkg", "--at", 0, given=b"row,map_bounds,2,elsewhere,0 0 1 1,0\n")
    assert f"note: table viewer: {OWN}\n" in export(folder / "a.mmpkg", folder / "more.gpkg"), "bounds of no map"
    expect("map_bounds" in tables_in(folder / "more.gpkg"), True, "whether bounds go out that the contents don't tell")


def points_package(file):
    """A map in UTM, a plan's system, rows at places, and photos."""
    lines = [["srs", 7, "plan", "NONE", 7, "metres", ""], *(["row", "spots", *row] for row in PLACES)]
    new_package(
        file,
        nine_tiles()
        + "".join(map(record, [*lines, ["map", "spots_photos", 1, 1], ["table", "bare", "attributes", "Bare"]])),
    )


def check_points_go_out_and_in(folder):
    """Rows go out as points at their places with their photos, and come in letter by letter but for where a place stood
    in its note."""
    points_package(folder / "a.mmpkg")
    _, told = tool("export_standard.py", folder / "a.mmpkg", folder / "out.gpkg", "--points", "spots", "bare")
    expect(
        sorted(told.splitlines(keepends=True)),
        [
            f"note: {SLIPS[0]}\n",
            "note: row 4 of spots: its place is of system 7; it stays in its note\n",
            f"note: {SLIPS[1]}\n",
            "note: table bare: no note of it tells a place, so it is no layer of points\n",
        ],
        "what is told",
    )
    validate(folder / "out.gpkg")
    run("ogr2ogr", "-f", "CSV", "-lco", "GEOMETRY=AS_XY", folder / "seen.csv", folder / "out.gpkg", "spots")
    with open(folder / "seen.csv", encoding="utf-8", newline="") as it:
        seen = {
            row["title"]: (row["X"] and float(row["X"]), row["Y"] and float(row["Y"]), row["note"])
            for row in csv.DictReader(it)
        }
    expect(seen, {"Spring": (500000.5, 5600000.25, "by the road"), "Gate": ("", "", ""), "Oak": (-7, 0.000001, ""),
                  "Plan": ("", "", "@7:10/20 of the plan"), "Well": ("", "", "by the road, north"),
                  "Late": (500100, 5600100, "seen by"),
                  "No": ("", "", "@25832:1,5/2 @x/y a@1/2"),
                  "Far": (999999999.999999, -999999999.999999, '"x"\nüß')}, "points by GDAL")  # fmt: skip
    assert "ETRS89 / UTM zone 32N" in run("ogrinfo", "-so", folder / "out.gpkg", "spots")[0], "the layer's system"
    expect(
        run(sys.executable, "-c", RELATIONSHIPS, folder / "out.gpkg")[0],
        "spots photos spots_photos media\n",
        "relations by GDAL",
    )
    commands, told = tool("import_standard.py", folder / "out.gpkg", folder / "list.csv")
    expect(untold(told), "", "what the import tells")
    mmpkg("init", folder / "back.mmpkg")
    take_in(commands, folder / "back.mmpkg", folder)
    mmpkg("run", folder / "a.mmpkg", "--at", 0, given=b"row,spots,5,Late,@25832:500100/5600100 seen by,1\n")
    expect_equal(folder / "a.mmpkg", folder / "back.mmpkg")
    _, told = tool("export_standard.py", folder / "a.mmpkg", folder / "no.gpkg", "--points", "photos", status=2)
    expect(told, "--points: 'photos' is no attribute table of the package\n", "what is told of a table of photos")


# Corners of a line and of an area that is drawn as the clock goes, as a crew's page keeps them; degrees are by
# gdaltransform.
CORNERS = [[500070, 5600060], [500350, 5600300.25], [500350, 5600060]]
IN_DEGREES = [[9.000988108, 50.552471971], [9.004940766, 50.554632485], [9.00494054, 50.552471871]]
TRACK = """<?xml version="1.0" encoding="UTF-8"?>
<gpx version="1.1" creator="mmpkg" xmlns="http://www.topografix.com/GPX/1/1">
<trk>
<trkseg><trkpt lat="50.552471971" lon="9.000988108"><time>2026-06-15T12:00:00.000Z</time></trkpt>
<trkpt lat="50.554632485" lon="9.004940766"><ele>181.50</ele><time>2026-06-15T12:02:30.500Z</time></trkpt></trkseg>
<trkseg><trkpt lat="50.5" lon="9.1"/></trkseg>
<trkseg><trkpt lat="50.5" lon="9"/><trkpt lat="50.5" lon="9.25"><time>2026-06-15T14:04:00+02:00</time></trkpt></trkseg>
</trk>
</gpx>
"""


def feature(geometry, **properties):
    return json.dumps({"type": "Feature", "geometry": geometry, "properties": properties})


def shapes_package(file):
    """Rows with a line, an area, a track, a line of a plan, one in degrees alone, and files of GeoJSON that are none of
    these."""
    area = {"type": "Polygon", "coordinates": [[*IN_DEGREES, IN_DEGREES[0]]]}
    files = {
        10: feature(
            {"type": "LineString", "coordinates": IN_DEGREES[:2]}, kind="line", system=25832, corners=CORNERS[:2]
        ),
        11: feature(area, kind="area", system=25832, corners=CORNERS),
        12: TRACK,
        13: feature(None, kind="line", system=7, corners=[[1.5, 2], [3.000001, -4]]),
        14: feature({"type": "LineString", "coordinates": [[9, 50, 200], [9.5, 50.25, 201]]}),
        15: '{"type":"FeatureCollection","features":[]}',
        16: feature({"type": ["Polygon"], "coordinates": 1}, kind="area", system=True, corners=CORNERS),
        17: "[" * 100_000,
    }
    lines = [["srs", 7, "plan", "NONE", 7, "metres", ""], ["row", "spots", 8, "Way, \"old\"", "", 0]]
    for number, text in files.items():
        kind = "application/gpx+xml" if number == 12 else "application/geo+json"
        lines += [
            ["media", "photos", number, kind, text.encode().hex()],
            ["map", "spots_photos", 8 if number == 12 else 7, number],
        ]
    new_package(file, nine_tiles() + "".join(map(record, lines)))
    return files


def seen_by_gdal(out, folder, layer):
    """The rows of a layer as GDAL reads them, with their geometries as WKT, in which whole numbers have no decimals."""
    (folder / "seen.csv").unlink(missing_ok=True)
    run("ogr2ogr", "-f", "CSV", "-lco", "GEOMETRY=AS_WKT", folder / "seen.csv", out, layer)
    with open(folder / "seen.csv", encoding="utf-8", newline="") as it:
        return [[re.sub(r"\.0(?=[ ,)])", "", value) for value in row.values()] for row in csv.DictReader(it)]


def check_lines_areas_and_tracks(folder):
    """Lines, areas and tracks of rows go out as layers, as GDAL reads them, and as the files that they are; as these
    they come in again."""
    files = shapes_package(folder / "a.mmpkg")
    told = export(folder / "a.mmpkg", folder / "out.gpkg", "--photos", folder / "files")
    none = ", ".join(f"item {it} of photos" for it in (15, 16, 17))
    expect(told, f"note: {none}: no line, no area and no track for a layer; it is in its table\n", "what is told")
    validate(folder / "out.gpkg")
    seen = {
        it: seen_by_gdal(folder / "out.gpkg", folder, f"spots_{it}")
        for it in ("lines", "lines_2", "lines_3", "areas", "tracks")
    }
    expect(seen, {
        "lines": [["LINESTRING (500070 5600060,500350 5600300.25)", "7", "Well", "10"]],
        "lines_2": [["LINESTRING (1.5 2,3.000001 -4)", "7", "Well", "13"]],
        "lines_3": [["LINESTRING (9 50,9.5 50.25)", "7", "Well", "14"]],
        "areas": [["POLYGON ((500070 5600060,500350 5600060,500350 5600300.25,500070 5600060))", "7", "Well", "11"]],
        "tracks": [["MULTILINESTRING ((9.000988108 50.552471971,9.004940766 50.554632485),(9 50.5,9.25 50.5))",
                   "8", "Way, \"old\"", "12",
                    "2026/06/15 12:00:00+00", "2026/06/15 12:04:00+00"]]}, "layers by GDAL")  # fmt: skip
    for layer, words in (
        ("lines", "ETRS89 / UTM zone 32N"),
        ("areas", "ETRS89 / UTM zone 32N"),
        ("lines_3", "WGS 84"),
        ("tracks", "WGS 84"),
    ):
        assert words in run("ogrinfo", "-so", folder / "out.gpkg", f"spots_{layer}")[0], f"the system of {layer}"
    area = run(
        "ogrinfo",
        "-q",
        "-sql",
        "SELECT ST_Area(geom) AS area FROM spots_areas",
        "-dialect",
        "SQLite",
        folder / "out.gpkg",
    )[0]
    assert "area (Real) = 33635\n" in area, area  # 280 by 240.25, halved
    found = {
        it.name: it.read_text() for it in (folder / "files" / "spots").iterdir() if it.suffix in (".geojson", ".gpx")
    }
    expect(sorted(found.values()), sorted(files.values()), "files")
    expect("Way_old-8.gpx" in found, True, f"the name of a track's file: {sorted(found)}")
    told = run("ogrinfo", "-ro", "-so", folder / "files" / "spots" / "Way_old-8.gpx", "track_points")[0]
    assert "Feature Count: 5\n" in told, told
    commands, told = tool("import_standard.py", folder / "out.gpkg", folder / "list.csv")
    tables = ", ".join(f"table spots_{it}" for it in sorted(seen))
    expect(
        untold(told),
        f"note: {tables}: left behind, since its shapes come in as files of their rows\n",
        "what the import tells",
    )
    mmpkg("init", folder / "back.mmpkg")
    take_in(commands, folder / "back.mmpkg", folder)
    expect_equal(folder / "a.mmpkg", folder / "back.mmpkg")


BY_A_GIS = """
ALTER TABLE spots RENAME COLUMN geom TO shape;
UPDATE gpkg_geometry_columns SET column_name = 'shape', geometry_type_name = 'GEOMETRY';
"""
# By the number of a row: an empty point, one with the greatest byte first, one with a height, a line, and no geometry.
SHAPES = {
    1: "4750001164000000 01 01000000 000000000000F87F 000000000000F87F",
    2: "4750000000000064 00 00000001 3FF0000000000000 4000000000000000",
    3: "4750000164000000 01 E9030000 000000000000F03F 0000000000000040 0000000000000840",
    4: "4750000164000000 01 02000000 00000000",
    5: "4750",
}


def check_places_of_a_plan(folder):
    """Places in the system without a definition, and behind spaces that aren't ASCII, go out and come in; what no place
    can be is named."""
    layout = (
        "table,spots,attributes,Spots\npyramid,plan,Plan,-1,0,0,64000000,64000000,two\n"
        "matrix,plan,0,1,1,64,64,1000000,1000000\n"
    )
    rows = [["row", "spots", 1, "Oak", "@-1:500.5/600.25 old", 0], ["row", "spots", 2, "Ash", "tall\u00a0@5/6", 0]]
    new_package(folder / "a.mmpkg", layout + "".join(map(record, rows)))
    _, told = tool("export_standard.py", folder / "a.mmpkg", folder / "out.gpkg", "--points", "spots")
    expect(told, "note: row 1 of spots: its place is on no map\n", "what is told")
    tool("import_standard.py", folder / "out.gpkg", folder / "list.csv", "--all-zooms")
    lines = [line for line in (folder / "list.csv").read_text().splitlines() if line.startswith("row,")]
    expect(lines, ["row,spots,1,Oak,@-1:500.5/600.25 old,0", "row,spots,2,Ash,@-1:5/6 tall,0"], "rows that come in")
    with contextlib.closing(sqlite3.connect(folder / "out.gpkg")) as opened:
        for number, east in ((1, float("inf")), (2, 999_999_999.9999998)):
            opened.execute(
                "UPDATE spots SET geom = ? WHERE id = ?", (points.geometry_of(points.Place(-1, east, 5)), number)
            )
        opened.commit()
    _, told = tool("import_standard.py", folder / "out.gpkg", folder / "list_2.csv", "--all-zooms", status=1)
    expect(
        untold(told).splitlines(),
        [f"left out: row {it} of spots: its place is outside the limits" for it in (1, 2)],
        "what is named",
    )


def check_points_of_other_programs(folder):
    """Points in either order of bytes, with heights, and empty ones come in; what is no point is named, and the rest
    comes in."""
    points_package(folder / "a.mmpkg")
    tool("export_standard.py", folder / "a.mmpkg", folder / "out.gpkg", "--points", "spots")
    with contextlib.closing(sqlite3.connect(folder / "out.gpkg")) as opened:
        opened.executescript(BY_A_GIS)
        opened.executemany(
            "UPDATE spots SET shape = ? WHERE id = ?", [(bytes.fromhex(it), number) for number, it in SHAPES.items()]
        )
        opened.commit()
    _, told = tool("import_standard.py", folder / "out.gpkg", folder / "list.csv", status=1)
    named = [line for line in told.splitlines() if "row " in line]
    expect(named, [f"left out: row {it} of spots: its geometry is no point" for it in (4, 5)], "what is named")
    lines = (folder / "list.csv").read_text().splitlines()
    expect(
        [line for line in lines if line.startswith("row,spots,")][:3],
        ["row,spots,1,Spring,by the road,3", "row,spots,2,Gate,@25832:1/2,0", "row,spots,3,Oak,@25832:1/2,-5"],
        "the rows",
    )


def check_what_gdal_puts_in(folder):
    """GDAL writes into a package that is named as a GeoPackage; what it put in is taken out, and the package is as it
    was."""
    (folder / "points.json").write_text(POINT)
    new_package(folder / "a.mmpkg", nine_tiles())
    shutil.copyfile(folder / "a.mmpkg", folder / "trap.gpkg")
    run("ogr2ogr", "-f", "GPKG", "-update", folder / "trap.gpkg", folder / "points.json", "-nln", "points")
    mmpkg("check", folder / "trap.gpkg", status=3)
    trap = (folder / "trap.gpkg").read_bytes()
    _, told = tool("repair_gis.py", folder / "trap.gpkg", folder / "back.mmpkg")
    for line in (
        "taken out: table points",
        "taken out: table rtree_points_geom",
        "taken out: 1 of the rows of gpkg_contents",
    ):
        assert line in told.splitlines(), f"{line!r} isn't told: {told}"
    expect((folder / "trap.gpkg").read_bytes(), trap, "the file that was mended")
    expect_equal(folder / "a.mmpkg", folder / "back.mmpkg")


def check_what_can_not_be_mended(folder):
    """What was changed in a package's own tables is named with the program's line, and nothing is made."""
    new_package(folder / "a.mmpkg", nine_tiles())
    with contextlib.closing(sqlite3.connect(folder / "a.mmpkg")) as opened:
        opened.execute("CREATE TABLE layer_styles (id INTEGER PRIMARY KEY)")
        opened.execute("UPDATE gpkg_contents SET description = 'x' WHERE table_name = 'spots'")
        opened.commit()
    with contextlib.closing(sqlite3.connect(folder / "other.mmpkg")) as opened:
        opened.execute("CREATE TABLE other (id INTEGER)")
    files = sorted(folder.iterdir())
    for name, line, status in (
        ("a", "what a package doesn't have is out, and the rest is still rule Q16: go back to a copy", 4),
        ("other", "has no table mm_profile, so it never was a package", 4),
        ("none", "is no file", 2),
    ):
        _, told = tool("repair_gis.py", folder / f"{name}.mmpkg", folder / "back.mmpkg", status=status)
        expect(told.splitlines()[-1], f"{folder / name}.mmpkg: {line}", f"what is told of {name}")
    tool("repair_gis.py", folder / "a.mmpkg", folder / "back.gpkg", status=2)
    tool("repair_gis.py", folder / "a.mmpkg", folder / "other.mmpkg", status=2)
    expect(sorted(folder.iterdir()), files, "files")


def check_kit_of_gdal2tiles(folder):
    """The tiles that gdal2tiles.py cuts come in as a kit and show their colours in their places."""
    small_picture(folder)
    run(
        "gdal_translate",
        "-q",
        "-of",
        "PNG",
        "-outsize",
        768,
        768,
        "-r",
        "nearest",
        folder / "small.tif",
        folder / "all.png",
    )
    run("gdal2tiles.py", "-q", "--profile=raster", "--xyz", "-w", "none", "-z", 2, folder / "all.png", folder / "tiles")
    (folder / "tiles" / "about.txt").write_text("no tile")
    commands, told = tool("make_kit.py", folder / "tiles", "base", "first", folder / "kit", status=1)
    expect(told, "left out: about.txt: it is no tile Z/C/R.png, .jpg or .webp\n", "what is told")
    layout = (
        images.nine_tiles().splitlines()[0]
        + "\npyramid,base,Base,25832,0,0,{0},{0},two\nmatrix,base,2,3,3,256,256,{1},{1}\n"
    )
    new_package(folder / "a.mmpkg", layout.format(768 * UNITS_PER_METRE, UNITS_PER_METRE) + "edition,first\n")
    take_in(commands, folder / "a.mmpkg", folder)
    export(folder / "a.mmpkg", folder / "out.gpkg")
    validate(folder / "out.gpkg")
    found = [colour_at(folder / "out.gpkg", 128 + 256 * (number % 3), 640 - 256 * (number // 3)) for number in range(9)]
    expect(found, images.COLOURS, "colours")


def check_a_folder_of_links(folder):
    """A link to a tile is a tile, and a link to a folder is named."""
    for place in ("tiles/3/0", "disk/4/0"):
        (folder / place).mkdir(parents=True)
    (folder / "disk" / "4" / "0" / "0.png").write_bytes(b"a tile")
    (folder / "tiles" / "3" / "0" / "0.png").symlink_to(folder / "disk" / "4" / "0" / "0.png")
    (folder / "tiles" / "4").symlink_to(folder / "disk" / "4")
    _, told = tool("make_kit.py", folder / "tiles", "base", "first", folder / "kit", status=1)
    expect(told, "left out: 4: it is a link to a folder, and its tiles aren't looked for\n", "what is told")
    assert "tile,base,3,0,0" in (folder / "kit" / "kit.csv").read_text(), "the tile isn't in the kit"


def check_kits_of_many_tiles(folder):
    """One tile more than a kit takes begins a second one, by both tools."""
    tile = images.tile((9, 9, 9))
    (folder / "tiles" / "0" / "0").mkdir(parents=True)
    for row in range(KIT_PIECES + 1):
        (folder / "tiles" / "0" / "0" / f"{row}.png").write_bytes(tile)
    commands, _ = tool("make_kit.py", folder / "tiles", "base", "first", folder / "kit")
    expect(
        [line.split()[1] for line in commands.splitlines()],
        ["kit", "publish,first", "kit", "publish,first_2"],
        "commands",
    )
    lists = [(folder / name / "kit.csv").read_text().splitlines() for name in ("kit", "kit_2")]
    expect([len(lines) for lines in lists], [KIT_PIECES, 1], "pieces")
    expect(
        [lists[0][-1], lists[1][0]],
        ["4096,tile,base,0,0,4095,base-0-0-4095.png", "1,tile,base,0,0,4096,base-0-0-4096.png"],
        "the last pieces",
    )
    layout = f"pyramid,base,Base,-1,0,0,{64 * UNITS_PER_METRE},{64 * UNITS_PER_METRE * (KIT_PIECES + 1)},two\n"
    layout += f"matrix,base,0,1,{KIT_PIECES + 1},64,64,{UNITS_PER_METRE},{UNITS_PER_METRE}\n"
    new_package(folder / "a.mmpkg", layout + "edition,first\nedition,first_2\n")
    take_in("\n".join(commands.splitlines()[2:]), folder / "a.mmpkg", folder)
    expect(
        listing(folder / "a.mmpkg"),
        ["base                     two                 1 1970-01-01T00:00:00.000Z Base"],
        "the package",
    )


if __name__ == "__main__":
    want("GDAL isn't there, and nothing was compared", *GDAL)
    end(*run_checks("border", globals(), words_given(__doc__).words, in_a_folder))
