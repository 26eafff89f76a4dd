#!/usr/bin/python3
"""Unit tests of what lies on the way into a package: zones, words of columns, told commands, the layout of a map,
names of photos; and, where Debian's GDAL for Python is there, pixels as tiles. No program is run.

    scripts/outside/border/way_in_test.py
"""

import contextlib
import importlib.util
import pathlib
import shlex
import sqlite3
import sys
import tempfile
import unittest

sys.path.insert(0, str(pathlib.Path(__file__).resolve().parents[1] / "lib"))
from checks import run_tests  # noqa: E402
import fill_layout  # noqa: E402
import note_words  # noqa: E402
import photos  # noqa: E402
import systems  # noqa: E402
import tile_folders  # noqa: E402
import ways  # noqa: E402
import zones  # noqa: E402
from border import Refused  # noqa: E402
from fill_layout import Grid, Layout  # noqa: E402

HAS_GDAL = importlib.util.find_spec("osgeo") is not None


class Zones(unittest.TestCase):
    def test_the_zone_of_a_place(self):
        for place, system in (
            ((9, 50), 25832), ((11.99, 50), 25832), ((12, 50), 25833), ((-8.5, 40), 25829), ((-74, 40.7), 32618),
            ((174.8, -41.3), 32760), ((180, 0), 32660), ((-180, -1), 32701), ((0, 85), None), ((500000, 5600000), None),
            ((3, 30), 32631), ((9, 73), 32632),
        ):  # fmt: skip
            self.assertEqual(zones.system_at(*place), system, place)

    def test_the_zone_of_a_box(self):
        for box, system in (
            ((8, 49, 10, 51), 25832),
            ((-180, -85, 180, 85), None),
            ((5, 47, 16, 55), 25832),
            ((179, 1, -179, 2), None),
        ):
            self.assertEqual(zones.system_over(*box), system, box)


class NoteWords(unittest.TestCase):
    def test_values_come_back_letter_by_letter(self):
        told = {
            "a": "1",
            "b": 'x "y" z',
            "c": "",
            "d": '"',
            "e": "a=b",
            "f": "ü\nß",
            "g": "\u2003",
            "h": "@1/2",
            "i": "'",
        }
        note = " ".join(["the rest,  as it is", *(note_words.word_of(*it) for it in told.items())])
        self.assertEqual(note_words.columns_in(note), (told, "the rest,  as it is"))

    def test_names_that_no_word_has(self):
        for name, word in (("kept by", "kept_by"), ('a"=b', "a__b"), ("@x", "_@x"), ("", "_"), ("Höhe", "Höhe")):
            self.assertEqual(note_words.name_of(name), word)
            self.assertEqual(note_words.columns_in(note_words.word_of(name, "1")), ({word: "1"}, ""))

    def test_what_is_no_word_stays(self):
        for note in ("", "=x", "x=", "a = b", 'a="b', 'a="b"c', "@25832:1/2", "a==", "x@y=", "1/2"):
            found = {"a": "="} if note == "a==" else {}
            self.assertEqual(note_words.columns_in(note), (found, "" if found else note), note)
        self.assertEqual(note_words.columns_in("a=1 a=2 b=3"), ({"a": "1", "b": "3"}, "a=2"))

    def test_types_change_no_letter(self):
        for values, sort in (
            (["1", "-5", "0"], "INTEGER"), (["007"], "TEXT"), (["1.5", "2"], "REAL"), (["1.50"], "TEXT"),
            (["-0"], "TEXT"), (["0.1", "12.0"], "REAL"), (["1,5"], "TEXT"), (["1e5"], "TEXT"), (["9" * 19], "TEXT"),
            (["0.30000000000000004"], "TEXT"),
        ):  # fmt: skip
            self.assertEqual(note_words.type_of(values), sort, values)

    def test_names_of_columns_that_others_have(self):
        free = note_words.free_names(["note", "Art", "art", "note_2"], ("id", "note"))
        self.assertEqual(free, {"note": "note_2", "Art": "Art", "art": "art_2", "note_2": "note_2_2"})


UTM = (
    'PROJCS["ETRS89 / UTM zone 32N",GEOGCS["ETRS89",DATUM["European_Terrestrial_Reference_System_1989",'
    'SPHEROID["GRS 1980",6378137,298.257222101]],PRIMEM["Greenwich",0],UNIT["degree",0.0174532925199433]],'
    'PROJECTION["Transverse_Mercator"],PARAMETER["latitude_of_origin",0],PARAMETER["central_meridian",9],'
    'PARAMETER["scale_factor",0.9996],PARAMETER["false_easting",500000],PARAMETER["false_northing",0],UNIT["metre",1]]'
)


class Systems(unittest.TestCase):
    def test_how_proj_is_asked(self):
        self.assertEqual(systems.asked_of_proj("epsg", 2056, "metres"), {"epsg": 2056})
        self.assertEqual(systems.asked_of_proj("NONE", 7, " PROJCRS[a]"), {"definition": " PROJCRS[a]"})
        for definition in ("metres of a plan", "", 'GEOGCS["a"]', "@PROJCS["):
            self.assertIsNone(systems.asked_of_proj("NONE", 7, definition), definition)
        self.assertIsNone(systems.asked_of_proj("EPSG", -1, ""))

    def test_systems_of_maps_that_the_page_can_not_reckon(self):
        with contextlib.closing(sqlite3.connect(":memory:")) as made:
            columns = "(srs_id, organization, organization_coordsys_id, definition)"
            made.execute(f"CREATE TABLE gpkg_spatial_ref_sys {columns}")
            made.execute("CREATE TABLE gpkg_contents (srs_id, data_type)")
            rows = [
                (25832, "EPSG", 25832, UTM), (2056, "EPSG", 2056, "LV95"), (28992, "EPSG", 28992, "RD"),
                (7, "NONE", 7, "a plan"), (9, "OUR", 9, "PROJCS[x"),
            ]  # fmt: skip
            kinds = [(it[0], "attributes" if it[0] == 28992 else "tiles") for it in rows]
            made.executemany("INSERT INTO gpkg_spatial_ref_sys VALUES (?, ?, ?, ?)", rows)
            made.executemany("INSERT INTO gpkg_contents VALUES (?, ?)", kinds)
            self.assertEqual(systems.beyond(made), {9: {"definition": "PROJCS[x"}, 2056: {"epsg": 2056}})


class Ways(unittest.TestCase):
    def test_words_for_a_shell(self):
        for word in ("plain", "two words", "it's", 'it\'s "x" $HOME `ls` \\', "don't!", "", "'", "ü"):
            self.assertEqual(shlex.split(ways.shell(word)), [word])
        self.assertEqual(ways.shell("SELECT '' AS note"), "\"SELECT '' AS note\"")

    def test_names_for_sql(self):
        for name, spelled in (
            ("geom", "geom"),
            ("kept by", '"kept by"'),
            ('a"b', '"a""b"'),
            ("select", '"select"'),
            ("Höhe", '"Höhe"'),
        ):
            self.assertEqual(ways.sql_name(name), spelled)

    def told_of(self, name, data):
        with tempfile.TemporaryDirectory() as folder:
            file = pathlib.Path(folder) / name
            file.write_bytes(data)
            return ways.why_no_geopackage(file).replace(folder + "/", "")

    def test_texts_of_surveyors(self):
        told = self.told_of("Stones 1.csv", "Punkt;Höhe;Rechtswert;Hochwert\n1;2,5;3;4\n".encode("latin1"))
        self.assertIn(
            "iconv -f cp1252 -t utf-8 'Stones 1.csv' | ogr2ogr -f GPKG rows.gpkg CSV:/vsistdin/ -a_srs EPSG:25832 "
            "-nln stones_1 -oo X_POSSIBLE_NAMES=Rechtswert -oo Y_POSSIBLE_NAMES=Hochwert",
            told,
        )
        told = self.told_of("p.csv", b"id,lon,lat\n1,174.8,-41.3\n")
        self.assertIn("ogr2ogr -f GPKG rows.gpkg p.csv -s_srs EPSG:4326 -t_srs EPSG:32760 -nln p", told)
        self.assertIn("no two columns are E and N, or X and Y", self.told_of("p.txt", b"a\tb\n1\t2\n"))
        self.assertIn("makes one", self.told_of("p.csv", b""))

    def test_waypoints_and_tracks(self):
        place = b"<gpx><wpt lon='-74' lat=\"40.7\"><name>a</name></wpt></gpx>"
        self.assertIn("-t_srs EPSG:32618 rows.gpkg p.gpx waypoints -nln p makes", self.told_of("p.gpx", place))
        self.assertIn("EPSG:32618 rows.gpkg p.gpx track_points", self.told_of("p.gpx", place.replace(b"wpt", b"trkpt")))
        self.assertIn("waypoints", self.told_of("p.gpx", b"<gpx></gpx>"))

    def test_pictures_and_others(self):
        for data, what in (
            (b"II*\0", "is a TIFF"),
            (b"\x89PNG", "is a PNG"),
            (b"\xff\xd8\xff", "is a JPEG"),
            (b"<VRTDataset ", "is a VRT"),
        ):
            self.assertIn(what, self.told_of("x", data))
        self.assertIn("fill.py FILE 'a b'", self.told_of("a b", b"MM\0*"))
        self.assertIn("ogr2ogr -f GPKG rows.gpkg a.shp", self.told_of("a.shp", b"\0"))
        self.assertIn("no standard GeoPackage", self.told_of("x", b""))


class Layouts(unittest.TestCase):
    def test_the_zooms_of_a_map(self):
        for width, height, last in (
            (1, 1, 0),
            (256, 256, 0),
            (257, 1, 1),
            (512, 512, 1),
            (700, 500, 2),
            (10_000, 10_000, 6),
        ):
            self.assertEqual(Layout(Grid(0, 0, 1, 1, width, height)).last, last)

    def test_records_keep_the_rules_of_pyramids(self):
        layout = Layout(Grid(500_000_000_000, 5_600_500_000_000, 333_333, 250_000, 700, 500))
        pyramid, *matrices, bounds = layout.records("base", "Base", 25832)
        west, south, east, north = pyramid[4:8]
        self.assertEqual((west, north, pyramid[8]), (500_000_000_000, 5_600_500_000_000, "two"))
        for zoom, matrix in enumerate(matrices):
            _, table, told, wide, high, side_x, side_y, pixel_x, pixel_y = matrix
            self.assertEqual(
                (table, told, wide * side_x * pixel_x, high * side_y * pixel_y),
                ("base", zoom, east - west, north - south),
            )
        self.assertEqual([it[7] for it in matrices], [4 * 333_333, 2 * 333_333, 333_333])
        self.assertEqual(bounds[:2], ["table", "map_bounds"])
        row = layout.bounds_record("base")
        self.assertEqual(row[3:], ["base", "500000000000 5600375000000 500233333100 5600500000000", 0])

    def test_a_map_of_whole_tiles_has_no_bounds(self):
        layout = Layout(Grid(0, 0, 1, 1, 512, 512))
        self.assertEqual([it[0] for it in layout.records("a", "A", 1)], ["pyramid", "matrix", "matrix"])
        self.assertIsNone(layout.bounds_record("a"))

    def test_limits(self):
        for grid in (
            Grid(0, 0, 10**12, 1, 257, 1),
            Grid(10**14, 0, 10**6, 10**6, 1, 1),
            Grid(0, 0, 1, 1, 2**39, 1),
        ):
            with self.assertRaises(Refused):
                Layout(grid).expect_within_limits()
        Layout(Grid(0, 0, 1, 1, 2**38, 1)).expect_within_limits()

    def test_tiles_of_a_map(self):
        layout = Layout(Grid(0, 0, 1, 1, 700, 300))
        there = [
            (zoom, column, row)
            for zoom in range(3)
            for column in range(4)
            for row in range(4)
            if layout.has(zoom, column, row)
        ]
        self.assertEqual((len(there), layout.count()), (9, 9))
        self.assertEqual(layout.below(0, 0, 0), [(1, 0, 0), (1, 1, 0), (1, 0, 1), (1, 1, 1)])
        self.assertTrue(set(layout.samples()) <= set(there))
        self.assertEqual(len(Layout(Grid(0, 0, 1, 1, 10**6, 10**6)).samples()), 25)

    def test_the_grid_over_bounds(self):
        grid = fill_layout.grid_over([0.5, -2.25, 3, 1], 500_000)
        self.assertEqual(grid, Grid(500_000, 1_000_000, 500_000, 500_000, 5, 7))
        self.assertEqual(grid.bounds(), [500_000, -2_500_000, 3_000_000, 1_000_000])

    def test_photos_and_lines(self):
        self.assertTrue(fill_layout.is_photo([(100_000, 20_000), (90_000, 30_000)]))
        self.assertFalse(fill_layout.is_photo([(10_000, 20_000)]))
        self.assertFalse(fill_layout.is_photo([]))


class Folders(unittest.TestCase):
    def test_the_last_zoom_counts(self):
        names = ["tilemapresource.xml", "3/1/2.png", "4/5/6.png", "4/7/9.png", "4/7/x.png", "4/07/9.png", "99/0/0.png"]
        self.assertEqual(tile_folders.tiles_in(names), tile_folders.Tiles(4, (5, 7), (6, 9), "png"))
        for wrong in ([], ["1/2.png"], ["1/0/0.png", "1/0/1.jpg"]):
            with self.assertRaises(Refused):
                tile_folders.tiles_in(wrong)

    def test_parts_from_above_and_from_below(self):
        tiles = tile_folders.Tiles(4, (5, 7), (6, 9), "png")
        self.assertEqual(tile_folders.world(pathlib.Path("a b&c"), tiles)[1], [5 * 256, 6 * 256, 3 * 256, 4 * 256])
        self.assertEqual(
            tile_folders.world(pathlib.Path("x"), tiles, from_below=True)[1], [5 * 256, 6 * 256, 3 * 256, 4 * 256]
        )
        tiles = tile_folders.Tiles(4, (0, 0), (0, 0), "png")
        self.assertEqual(tile_folders.world(pathlib.Path("x"), tiles, from_below=True)[1], [0, 15 * 256, 256, 256])
        told, part = tile_folders.plane(
            pathlib.Path("a b&c"), tile_folders.Tiles(2, (0, 2), (0, 1), "jpg"), "EPSG:1", [10, 20], [710, 520], 1.0
        )
        self.assertEqual(part, [0, 12, 700, 500])
        self.assertIn("/a%20b%26c/${z}/${x}/${y}.jpg<", told)

    def test_what_is_no_description(self):
        tiles = tile_folders.Tiles(2, (0, 2), (0, 1), "jpg")
        for text in ("", "<TileMap>", "<TileMap/>", "<TileMap><TileSets><TileSet order='x'/></TileSets></TileMap>"):
            with self.assertRaises(Refused):
                tile_folders.of_tms(pathlib.Path("x"), tiles, text)


class Photos(unittest.TestCase):
    def test_names_are_safe_and_no_two_agree(self):
        for title, name in (
            ("Well", "Well-7.jpg"),
            ("../../etc/passwd", "etc_passwd-7.jpg"),
            ("", "row-7.jpg"),
            ("a/b\\c:*?", "a_b_c-7.jpg"),
            ("Größe ß", "Größe_ß-7.jpg"),
            ("x" * 300, "x" * 120 + "-7.jpg"),
            ("\0\n", "row-7.jpg"),
        ):
            self.assertEqual(photos.name_of(title, 7, 1, ".jpg"), name)
        self.assertEqual(photos.name_of("x", 1, 2, ".png"), "x-1_2.png")
        names = {photos.name_of(title, row, count, "") for title in ("x",) for row in (1, 12) for count in (1, 2, 12)}
        self.assertEqual(len(names), 6)

    def test_the_longest_name_is_one_of_a_disk(self):
        for letter in "xß字\U00020000":
            name = photos.name_of(letter * 500, 2**53, 999_999, ".jpeg")
            self.assertLessEqual(len(name.encode()), 255)
            self.assertTrue(name.startswith(letter * 30), name)

    def test_suffixes(self):
        self.assertEqual(
            [
                photos.suffix_of(*it)
                for it in (
                    ("image/jpeg", b"\xff\xd8\xff"),
                    ("application/pdf", b"%PDF"),
                    ("x/y", b"z"),
                    ("audio/ogg", b"OggS"),
                    ("audio/wav", b"RIFF"),
                )
            ],
            [".jpg", ".pdf", ".bin", ".ogg", ".wav"],
        )


@unittest.skipUnless(HAS_GDAL, "GDAL for Python isn't there")
class Pixels(unittest.TestCase):
    def setUp(self):
        import numpy
        import pictures

        self.numpy, self.pictures = numpy, pictures
        self.chance = numpy.random.default_rng(1)

    def test_png_comes_back(self):
        few = self.numpy.array([[1, 2, 3, 255], [4, 5, 6, 0], [7, 8, 9, 128]], dtype=self.numpy.uint8)[
            self.chance.integers(0, 3, (16, 16))
        ]
        many = self.chance.integers(0, 256, (256, 256, 4), dtype=self.numpy.uint8)
        opaque = many.copy()
        opaque[:, :, 3] = 255
        one = self.numpy.full((4, 4, 4), 255, dtype=self.numpy.uint8)
        for pixels in (few, many, opaque, one):
            data = self.pictures.png(pixels)
            self.assertTrue((self.pictures.decoded(data) == pixels).all())
            self.assertEqual(self.pictures.png(self.pictures.decoded(data)), data)

    def test_what_is_clear_weighs_nothing(self):
        pixels = self.numpy.zeros((2, 4, 4), dtype=self.numpy.uint8)
        pixels[0, 0] = (200, 100, 50, 255)
        pixels[:, 2:] = (10, 20, 30, 255)
        self.assertEqual(self.pictures.halved(pixels).tolist(), [[[200, 100, 50, 64], [10, 20, 30, 255]]])

    def test_four_parts_in_their_places(self):
        parts = [self.numpy.full((2, 2, 4), value, dtype=self.numpy.uint8) for value in (255, 254, 253)]
        whole = self.pictures.joined([parts[0], None, parts[1], parts[2]])
        self.assertEqual(whole[:, :, 3].tolist(), [[255, 0], [254, 253]])


if __name__ == "__main__":
    run_tests()
