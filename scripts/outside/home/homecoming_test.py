#!/usr/bin/python3
"""Unit tests of what a homecoming does, over states of packages, and of the files that an office keeps beside its own.

    scripts/outside/home/homecoming_test.py

No program is run: these are tools/homecoming.py, tools/lineage.py and tools/keeping.py alone.
"""

import contextlib
import io
import os
import pathlib
import sys
import tempfile
import unittest
import unittest.mock

sys.path.insert(0, str(pathlib.Path(__file__).resolve().parents[1] / "lib"))
from checks import run_tests  # noqa: E402
import homecoming  # noqa: E402
import keeping  # noqa: E402
import lineage  # noqa: E402
import three_way  # noqa: E402
from border import Piece, Refused  # noqa: E402
from lineage import Mark, Past  # noqa: E402

NORTH, SOUTH = Mark("north", 1, "aaaaaa"), Mark("south", 1, "bbbbbb")
SPOTS = three_way.Table("attributes", "Spots", None, (None,) * 4)
PHOTOS = three_way.Table("media", "Photos", None, (None,) * 4)
PAGE = three_way.LEAST_OF_PAGE


def state(rows=(), photos=(), mapped=(), **parts):
    """A state with spots and photos: rows by their numbers, photos by theirs, and which are related."""
    found = {part: {} for part in three_way.PARTS}
    found["tables"] = {("spots",): SPOTS, ("photos",): PHOTOS}
    found["relations"] = {("pairs",): ("spots", "photos", "media")}
    found["items"] = {("spots", number): ("row", title, "", 0) for number, title in dict(rows).items()}
    found["items"] |= {("photos", number): ("media", "a/b", data) for number, data in dict(photos).items()}
    found["mapped"] = {("pairs", *ends): ("spots", "photos") for ends in mapped}
    for part, values in parts.items():
        found[part] = {**found[part], **values}
    return found


def past(*editions, **words):
    return Past(frozenset(editions), words, {})


class Bytes:
    """Pieces with bytes, by their digest alone."""

    @staticmethod
    def piece(fields, digest):
        return Piece(fields, digest.encode(), digest)


def home(before, after, office, mark=SOUTH):
    return homecoming.Homecoming(before, after, office, mark, Bytes)


def done(coming, office):
    """The office's state behind a homecoming."""
    found = {part: dict(values) for part, values in coming.merged.result.items()}
    for piece in coming.pieces:
        if piece.fields[:2] == ["row", homecoming.NUMBERS_TABLE]:
            found["items"][homecoming.NUMBERS_TABLE, piece.fields[2]] = ("row", *piece.fields[3:])
            found["tables"][homecoming.NUMBERS_TABLE,] = homecoming.NUMBERS
    return found


class Marks(unittest.TestCase):
    def test_a_mark_is_read_as_it_is_written(self):
        for mark in (NORTH, Mark("north_2", 17, "z9z9z9"), Mark("a", 1, "000000")):
            self.assertEqual(lineage.marks_of([f"out_{mark}"]), {mark})
        self.assertEqual(
            lineage.marks_of(
                ["out_north", "out_north_1", "home_north_1_aaaaaa", "out_north_0_aaaaaa", "out_1_1_aaaaaa"]
            ),
            set(),
        )

    def test_numbers_count_the_copies_of_a_crew(self):
        self.assertEqual(homecoming.next_mark("north", [], set(), "w"), Mark("north", 1, "w"))
        editions = ["out_north_1_aaaaaa", "out_south_7_aaaaaa", "out_north_3_aaaaaa", "first"]
        self.assertEqual(homecoming.next_mark("north", editions, set(), "w").number, 4)
        self.assertEqual(homecoming.next_mark("north", editions, {Mark("north", 9, "cccccc"), SOUTH}, "w").number, 10)
        self.assertEqual(homecoming.next_mark("north_3", editions, set(), "w").number, 1)

    def test_what_is_no_name_of_a_crew(self):
        for crew in ("", "North", "1st", "a" * 25, "nörd", "a-b", "_a"):
            with self.assertRaises(Refused, msg=crew):
                homecoming.expect_crew(crew)
        homecoming.expect_crew("a" * 24)

    def test_the_longest_names_are_names_of_editions(self):
        longest = homecoming.home_edition(Mark("a" * 24, 999_999_999, "zzzzzz"), 9)
        self.assertLessEqual(len(longest + "_theirs"), 60)
        self.assertLessEqual(len(longest + "_part_9"), 60)

    def test_how_often_a_copy_came_home(self):
        self.assertEqual(homecoming.times_home(NORTH, set()), 0)
        self.assertEqual(homecoming.times_home(NORTH, {"home_north_1_aaaaaa", "home_south_1_bbbbbb"}), 1)
        self.assertEqual(
            homecoming.times_home(
                NORTH, {"home_north_1_aaaaaa", "home_north_1_aaaaaa_2", "home_north_1_aaaaaa_theirs"}
            ),
            2,
        )


class Copies(unittest.TestCase):
    OFFICE = past("first", "out_north_1_aaaaaa", "out_south_1_bbbbbb", "home_north_1_aaaaaa")
    COPY = ("first", "out_north_1_aaaaaa", "out_south_1_bbbbbb", "copy_south_1_bbbbbb")

    def refused(self, why, office, after):
        with self.assertRaisesRegex(Refused, why):
            homecoming.mark_of_copy(office, after)

    def test_a_copy_is_known_by_its_own_mark(self):
        self.assertEqual(homecoming.mark_of_copy(self.OFFICE, past(*self.COPY)), SOUTH)
        self.assertEqual(
            homecoming.mark_of_copy(past(*self.OFFICE.editions, viewer="a"), past(*self.COPY, viewer="a", other="b")),
            SOUTH,
        )

    def test_what_is_no_copy_of_this_package(self):
        self.refused("no copy that was handed out", self.OFFICE, self.OFFICE)
        self.refused("no copy that was handed out", past(*self.COPY), self.OFFICE)
        self.refused("didn't hand out", past("first"), past(*self.COPY))
        self.refused("didn't hand out", self.OFFICE, past("out_south_1_cccccc", "copy_south_1_cccccc"))
        self.refused("copy of a copy", self.OFFICE, past(*self.COPY, "out_alice_1_dddddd", "copy_alice_1_dddddd"))

    def test_a_copy_of_a_copy_comes_home_to_that_one(self):
        alice = Mark("alice", 1, "dddddd")
        middle = past(*self.COPY, f"out_{alice}")
        self.assertEqual(homecoming.mark_of_copy(middle, past(*middle.editions, f"copy_{alice}")), alice)
        self.assertEqual(homecoming.mark_of_copy(self.OFFICE, middle), SOUTH)

    def test_once_and_again(self):
        homecoming.expect_next(NORTH, 0, False)
        homecoming.expect_next(NORTH, 1, True)
        for times, again in ((1, False), (2, False), (0, True)):
            with self.assertRaises(Refused):
                homecoming.expect_next(NORTH, times, again)

    def test_an_older_copy_is_refused(self):
        homecoming.expect_descent(past("a", "b"), past("a", "b", "c"))
        with self.assertRaisesRegex(Refused, "b; it is an older copy"):
            homecoming.expect_descent(past("a", "b"), past("a", "c"))


class Homecomings(unittest.TestCase):
    def test_changes_of_both_stand(self):
        before = state({1: "a", 2: "b", 3: "c"})
        coming = home(before, state({1: "A", 3: "c"}), state({1: "a", 2: "b", 3: "C", 4: "d"}))
        self.assertEqual(coming.merged.result, state({1: "A", 3: "C", 4: "d"}))
        self.assertEqual((coming.records, coming.numbers), ([], {}))

    def test_what_both_made_gets_numbers_that_are_kept(self):
        before, office = state({1: "a"}), state({1: "a", 2: "north"}, {1: "n"}, [(2, 1)])
        coming = home(before, state({1: "a", 2: "south"}, {1: "s"}, [(2, 1)]), office)
        self.assertEqual(
            coming.merged.result, state({1: "a", 2: "north", 3: "south"}, {1: "n", 2: "s"}, [(2, 1), (3, 2)])
        )
        self.assertEqual(coming.records, [["table", "crew_numbers", "attributes", homecoming.NUMBERS.identifier]])
        self.assertEqual(
            [piece.fields for piece in coming.pieces[:2]],
            [
                ["row", "crew_numbers", 1, str(SOUTH), "media photos 1 2", 0],
                ["row", "crew_numbers", 2, str(SOUTH), "row spots 2 3", 0],
            ],
        )
        self.assertEqual(homecoming.remembered(done(coming, office), SOUTH), {("photos", 1): 2, ("spots", 2): 3})
        self.assertEqual(homecoming.remembered(done(coming, office), NORTH), {})

    def test_a_row_with_another_number_comes_home_as_the_same_row(self):
        before, office, first = state(), state({2: "north"}), state({2: "south"})
        office = done(home(before, first, office), office)
        again = home(first, state({2: "south, changed"}), office)
        self.assertEqual(again.merged.result["items"]["spots", 3], ("row", "south, changed", "", 0))
        self.assertEqual(again.merged.result["items"]["spots", 2], ("row", "north", "", 0))
        self.assertEqual((again.merged.conflicts, again.numbers), ({}, {}))
        gone = home(first, state(), office)
        self.assertNotIn(("spots", 3), gone.merged.result["items"])

    def test_a_new_row_under_a_number_that_another_got_is_a_row_of_its_own(self):
        before, office, first = state(), state({2: "north"}), state({2: "south"})
        office = done(home(before, first, office), office)
        again = home(first, state({2: "south", 3: "more"}), office)
        self.assertEqual(again.numbers, {("spots", 3): 4})
        self.assertEqual(again.merged.result["items"]["spots", 4], ("row", "more", "", 0))
        self.assertEqual(again.merged.result["items"]["spots", 3], ("row", "south", "", 0))

    def test_no_new_number_is_one_that_copies_have_which_are_out(self):
        coming = homecoming.Homecoming(
            state(), state({2: "south"}), state({2: "north"}), SOUTH, Bytes, {("spots", 7), ("photos", 9)}
        )
        self.assertEqual(coming.numbers, {("spots", 2): 8})
        coming = homecoming.Homecoming(
            state(), state({2: "south", 5: "x"}), state(), SOUTH, Bytes, {("spots", 2), ("spots", 4)}
        )
        self.assertEqual(coming.numbers, {("spots", 2): 6})
        self.assertEqual(coming.merged.result["items"].keys(), {("spots", 5), ("spots", 6)})

    def test_a_number_that_was_given_is_never_given_again(self):
        before, first = state(), state({2: "south"})
        office = done(home(before, first, state({2: "north"})), state({2: "north"}))
        del office["items"]["spots", 3]
        coming = home(state(), state({2: "east", 3: "new"}), office, NORTH)
        self.assertEqual(coming.numbers, {("spots", 2): 4, ("spots", 3): 5})

    def test_items_of_a_page_keep_their_numbers(self):
        coming = homecoming.Homecoming(state(), state({}, {4: "a"}), state({}, {4: "b"}), SOUTH, Bytes, (), {"photos"})
        self.assertEqual((coming.numbers, coming.merged.conflicts), ({}, {("items", ("photos", 4)): "both made one"}))

    def test_numbers_of_the_page_stay(self):
        coming = home(state(), state({PAGE: "Tuesday"}), state({PAGE: "Monday"}))
        self.assertEqual((coming.numbers, coming.merged.conflicts), ({}, {("items", ("spots", PAGE)): "both made one"}))

    def test_done_again_it_comes_to_the_same_end(self):
        before, after = state({1: "a", 5: "x"}), state({1: "A", 2: "south", 5: "y"}, {1: "s"}, [(2, 1)])
        office = state({1: "a", 2: "north", 5: "z"})
        whole = home(before, after, office)
        half = {part: dict(values) for part, values in office.items()}
        numbers = [piece for piece in whole.pieces if piece.fields[1] == "crew_numbers"]
        half["tables"][homecoming.NUMBERS_TABLE,] = homecoming.NUMBERS
        half["items"] |= {("crew_numbers", piece.fields[2]): ("row", *piece.fields[3:]) for piece in numbers}
        half["items"]["spots", 1] = after["items"]["spots", 1]
        rest = home(before, after, half)
        self.assertEqual(done(rest, half), done(whole, office))
        self.assertEqual(rest.merged.conflicts, whole.merged.conflicts)

    def test_a_table_that_stands_is_not_made_anew(self):
        media = three_way.Table("media", "Spots", None, (None,) * 4)
        before, office = state({1: "a"}), state({1: "a"})
        after = state(tables={("spots",): media}, items={("spots", 1): ("media", "a/b", "d")})
        coming = home(before, after, office)
        self.assertEqual((coming.records, coming.pieces), ([], []))
        self.assertEqual(coming.merged.conflicts["tables", ("spots",)], homecoming.NO_PIECE)
        self.assertIn(("items", ("spots", 1)), coming.merged.conflicts)

    def test_a_zoom_that_goes_or_changes_is_not_made_anew(self):
        base = three_way.Table("two", "Base", -1, (0, 0, 8, 8))
        old, new = {("base", 0): (1, 1, 8, 8, 1, 1)}, {("base", 0): (2, 2, 4, 4, 1, 1)}
        before = state(tables={("base",): base}, matrices=old, tiles={("base", 0, 0, 0): ("d",)})
        for matrices, tiles in ((new, {}), ({}, {})):
            coming = home(before, state(tables={("base",): base}, matrices=matrices, tiles=tiles), before)
            self.assertEqual((coming.records, coming.pieces, coming.merged.result), ([], [], before))
        gone = home(before, state(), before)
        self.assertEqual(gone.records, [["drop", "base"]])

    def test_an_identifier_stays_and_what_rests_on_its_table_comes(self):
        renamed = three_way.Table("attributes", "Places", None, (None,) * 4)
        coming = home(state({1: "a"}), state({1: "A"}, tables={("spots",): renamed}), state({1: "a"}))
        self.assertEqual((coming.renamed, coming.merged.result), (["spots"], state({1: "A"})))

    def test_tables_systems_and_relations_come_by_records(self):
        after = state(
            tables={("more",): three_way.Table("attributes", "More", None, (None,) * 4)},
            systems={(7,): ("g", "E", 7, "d", "")},
            relations={("links",): ("spots", "more", "simple_attributes")},
        )
        coming = home(state(), after, state())
        self.assertEqual(
            coming.records,
            [
                ["srs", 7, "g", "E", 7, "d", ""],
                ["table", "more", "attributes", "More"],
                ["relation", "links", "spots", "more", "simple_attributes"],
            ],
        )

    def test_a_table_of_another_kind_under_the_name_of_the_numbers(self):
        office = state({2: "north"}, tables={("crew_numbers",): PHOTOS})
        with self.assertRaisesRegex(Refused, "crew_numbers of kind media"):
            home(
                state(tables={("crew_numbers",): PHOTOS}),
                state({2: "south"}, tables={("crew_numbers",): PHOTOS}),
                office,
            )


def news(base, office, copy, mark=SOUTH):
    return homecoming.News(base, office, copy, mark, Bytes)


def common(found):
    """What a copy and its office have in common behind news."""
    return found.common.goal


class TheNews(unittest.TestCase):
    def test_what_the_office_changed_comes_and_is_common_then(self):
        found = news(state({1: "a", 2: "b"}), state({1: "A", 2: "b", 3: "c"}), state({1: "a", 2: "B", 4: "own"}))
        self.assertEqual(found.merged.result, state({1: "A", 2: "B", 3: "c", 4: "own"}))
        self.assertEqual(common(found), state({1: "A", 2: "b", 3: "c"}))

    def test_what_both_changed_stays_and_is_not_common(self):
        found = news(state({1: "a"}), state({1: "office"}), state({1: "copy"}))
        self.assertEqual((found.merged.result, common(found)), (state({1: "copy"}), state({1: "a"})))
        self.assertEqual(found.merged.conflicts, {("items", ("spots", 1)): "both changed it"})

    def test_a_row_with_another_number_is_found_by_it(self):
        first, office = state({2: "south"}), state({2: "north"}, {7: "n"}, [(2, 7)])
        office = done(home(state(), first, office), office)
        office["items"]["spots", 3] = ("row", "south, painted", "", 0)
        found = news(first, office, first)
        self.assertEqual(found.left, [("spots", 2)])
        self.assertEqual(found.merged.result["items"]["spots", 2], ("row", "south, painted", "", 0))
        self.assertNotIn(("spots", 3), found.merged.result["items"])
        self.assertEqual(found.merged.result["mapped"], {})

    def test_news_do_not_come_home_as_work(self):
        base, office = state({1: "a"}), state({1: "A", 2: "b"})
        found = news(base, office, base)
        coming = home(common(found), found.merged.result, state({1: "later", 2: "b"}))
        self.assertEqual((coming.pieces, coming.merged.conflicts), ([], {}))

    def test_what_rests_on_what_each_made_is_not_common(self):
        found = news(state({1: "a"}), state({1: "a"}, {1: "office"}, [(1, 1)]), state({1: "a"}, {1: "copy"}, [(1, 1)]))
        self.assertEqual(common(found), state({1: "a"}))

    def test_how_often_a_copy_had_news(self):
        editions = {
            homecoming.news_edition(SOUTH, 0, 1),
            homecoming.news_edition(SOUTH, 0, 2),
            homecoming.news_edition(SOUTH, 1, 1),
        }
        self.assertEqual([homecoming.news_had(SOUTH, times, editions) for times in (0, 1, 2)], [2, 1, 0])


class Editions(unittest.TestCase):
    def test_the_last_of_several_has_the_name(self):
        pieces = list(range(homecoming.KIT_PIECES * 2 + 1))
        found = homecoming.editions_of(pieces, "home", {"home_part_1"})
        self.assertEqual(
            [(name, len(part)) for name, part in found], [("home_part_2", 4096), ("home_part_3", 4096), ("home", 1)]
        )
        self.assertEqual([it for _, part in found for it in part], pieces)
        self.assertEqual(homecoming.editions_of([], "home", ()), [("home", [])])


class Folders(unittest.TestCase):
    """A folder of conflicts that a homecoming left which was cut, and the halves of copies on another disk."""

    def setUp(self):
        self.place = pathlib.Path(self.enterContext(tempfile.TemporaryDirectory()))
        self.list = self.place / f"{SOUTH}.conflicts"

    def written(self):
        (self.list / "theirs").mkdir(parents=True)
        (self.list / "conflicts.csv").write_text("what\nrow\ntile\n")
        (self.list / "theirs" / "kit.csv").write_text("1,row\n")
        keeping.seal(self.list)

    def put_away(self):
        """What is told; what is left beside the folder."""
        told = io.StringIO()
        with tempfile.TemporaryDirectory(dir=self.place) as beside, contextlib.redirect_stderr(told):
            keeping.put_away(self.list, pathlib.Path(beside))
        return told.getvalue(), sorted(it.name for it in self.place.iterdir())

    def test_a_folder_that_nobody_changed_goes(self):
        self.assertEqual(self.put_away(), ("", []))
        self.written()
        self.assertEqual(self.put_away(), ("", []))

    def test_what_a_clerk_struck_out_or_put_there_is_kept_and_told(self):
        changes = {
            "a line that is struck out": lambda: (self.list / "conflicts.csv").write_text("what\ntile\n"),
            "a note": lambda: (self.list / "theirs" / "ask north.txt").write_text("?"),
            "a file that is gone": lambda: (self.list / "theirs" / "kit.csv").unlink(),
            "a folder of the tools of before": lambda: (self.list / keeping.SUMS).unlink(),
        }
        for number, (what, change) in enumerate(changes.items(), 1):
            self.written()
            change()
            told, left = self.put_away()
            name = f"{self.list.name}.changed{'' if number == 1 else f'_{number}'}"
            self.assertIn(f"{self.list}: was changed since ", told, what)
            self.assertIn(f"is kept as {name}\n", told, what)
            self.assertEqual(len(left), number, what)
        self.assertEqual((self.place / f"{self.list.name}.changed" / "conflicts.csv").read_text(), "what\ntile\n")

    def test_two_offices_share_no_half_of_a_copy(self):
        north = Mark(NORTH.crew, NORTH.number, "cccccc")
        halves = [keeping.part_of(self.place, it) for it in (NORTH, north)]
        for it in halves:
            it.touch()
        keeping.clear_parts(self.place, [NORTH, SOUTH])
        self.assertEqual([it.exists() for it in halves], [False, True])

    def test_a_copy_that_came_meanwhile_is_not_written_over(self):
        made, taken = self.place / "copy.mmpkg", self.place / "crew.mmpkg"
        made.write_bytes(b"mine")
        taken.write_bytes(b"another's")
        with self.assertRaises(Refused):
            keeping.name_new(made, taken)
        self.assertEqual([taken.read_bytes(), made.read_bytes()], [b"another's", b"mine"])

    def test_a_copy_is_named_on_a_disk_without_links(self):
        made, name = self.place / "copy.mmpkg", self.place / "crew.mmpkg"
        for link in (os.link, None):
            made.write_bytes(b"mine")
            with unittest.mock.patch.object(os, "link", link or unittest.mock.Mock(side_effect=PermissionError)):
                keeping.name_new(made, name)
            self.assertEqual([name.read_bytes(), made.exists()], [b"mine", False])
            name.unlink()


if __name__ == "__main__":
    run_tests()
