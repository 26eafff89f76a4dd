"""What a homecoming does to an office's package: the rule of hand_out.py and come_home.py, over states of packages.

Nothing here reads or writes. A state is that of three_way.py; what a package tells of its past is that of lineage.py.
"""

import dataclasses
import itertools
import re

import lineage
import three_way
from border import KIT_PIECES, Refused
from difference import Difference
from lineage import Mark, listed

# The table in which an office keeps which numbers rows and media of crews got: a row's title is the crew's mark, its
# note 'row TABLE THEIRS OURS', or 'media ..'.
NUMBERS_TABLE = "crew_numbers"
NUMBERS = three_way.Table("attributes", "Numbers that rows of crews got", None, (None,) * 4)
NOTE = re.compile("(row|media) ([a-z0-9_]{1,60}) ([1-9][0-9]{0,15}) ([1-9][0-9]{0,15})")

NO_PIECE = "a homecoming makes no table, zoom or relation anew that stands; kit_between.py does"


def expect_crew(crew):
    """Refuses what is no name of a crew."""
    if not lineage.CREW.fullmatch(crew):
        raise Refused(f"{crew!r}: a crew's name is a small letter, and up to 23 small letters, digits and _ behind it")


def next_mark(crew, editions, kept, word):
    """The mark of the next copy for a crew, behind those among the editions, and those of which something is kept."""
    numbers = [mark.number for mark in lineage.marks_of(editions) | kept if mark.crew == crew]
    return Mark(crew, 1 + max([0, *numbers]), word)


def home_edition(mark, time):
    """The edition that brings home a copy for the first time, or once more; published, it says that it is home."""
    return f"{lineage.HOME}{mark}" + (f"_{time}" if time > 1 else "")


def times_home(mark, published):
    """How often a copy came home."""
    times = 0
    while home_edition(mark, times + 1) in published:
        times += 1
    return times


def news_edition(mark, times, number):
    """The edition that brings news to a copy, behind some homecomings; published there, it says that it has them."""
    return f"{lineage.NEWS}{mark}_{times}_{number}"


def news_had(mark, times, published):
    """How often a copy got news since it came home last."""
    number = 0
    while news_edition(mark, times, number + 1) in published:
        number += 1
    return number


def is_published(edition, states):
    """Whether an edition is published, by the states of all."""
    return states.get(edition) == "published"


def mark_of_copy(office, after):
    """The mark of a copy that comes home to an office; refused where it wasn't handed out there."""
    marks = lineage.marks_of(after.editions, lineage.COPY) - lineage.marks_of(office.editions, lineage.COPY)
    told = listed(map(str, marks))
    if not marks:
        raise Refused(
            "is no copy that was handed out, but the office's package or a backup: are the two in the wrong places?"
        )
    if not marks & lineage.marks_of(office.editions):
        raise Refused(f"is the copy {told}, which this package didn't hand out: it is of another project")
    if len(marks) > 1:
        raise Refused(f"is a copy of a copy ({told}), and comes home to that one first")
    return marks.pop()


def expect_next(mark, times, again):
    """Refuses where a copy came home already, or is to come once more and never did."""
    if times and not again:
        raise Refused(f"the copy {mark} came home already; --again takes what was done since")
    if again and not times:
        raise Refused(f"the copy {mark} never came home: do it without --again")


def expect_descent(before, after):
    """Refuses where AFTER lacks a published edition of what was handed out, or came home last."""
    lost = before.editions - after.editions
    if lost:
        raise Refused(f"lacks published editions of the copy that it comes of: {listed(lost)}; it is an older copy")


def notes(office):
    """What an office's package has of numbers that were given: the mark, the table, the crew's number, the new one."""
    for (table, _), value in office["items"].items():
        note = table == NUMBERS_TABLE and value[0] == "row" and NOTE.fullmatch(value[2])
        if note:
            yield value[1], note[2], int(note[3]), int(note[4])


def remembered(office, mark):
    """By the key of a crew's row or media item, the number that it got in an office's package."""
    return {(table, old): new for of, table, old, new in notes(office) if of == str(mark)}


def given_numbers(before, after, office, known, others, pages):
    """The numbers that rows and media get now, by their keys in the crew's copy; none is one of some other keys.

    So do those that are new there under a number that another of the copy's got at the office, or that is one of these.
    Items of a page stay, since each has its number.
    """
    got = {(table, number) for (table, _), number in known.items()}
    mapped = three_way.with_numbers(after, known)
    keys = {key for key in three_way.colliding(before, after, office) if key not in known}
    keys |= {key for key in after["items"] if key in got and key not in known}
    new = after["items"].keys() - before["items"].keys() - office["items"].keys() - known.keys()
    keys |= {key for key in new & set(others) if key[1] < three_way.LEAST_OF_PAGE}
    return three_way.new_numbers(
        sorted(key for key in keys if key[0] not in pages), (before, after, office, mapped), others
    )


def with_identifiers(before, after):
    """AFTER with the identifiers that BEFORE's tables have, and the names of those that had others."""
    tables = {
        key: dataclasses.replace(table, identifier=before["tables"][key].identifier)
        for key, table in after["tables"].items()
        if key in before["tables"]
    }
    renamed = sorted(key[0] for key, table in tables.items() if table != after["tables"][key])
    return {**after, "tables": {**after["tables"], **tables}}, renamed


class Homecoming:
    """What brings home what a crew did from BEFORE to AFTER, onto an office's package as it is now.

    `records` go before the pieces, each of which may be given again; `pieces` are accepted behind them, in their order.
    `numbers` are those that rows and media got anew, by their keys; `merged` has the conflicts. No new number is one
    that other copies have (`others`): what they relate by it would be related to another row. `pages` are tables of
    pages.
    """

    def __init__(self, before, after, office, mark, files, others=(), pages=()):
        known = remembered(office, mark)
        others = {*others, *((it[1], it[3]) for it in notes(office))}
        given = given_numbers(before, after, office, known, others, pages)
        self.words = {key: after["items"][key][0] for key in given}
        before, after = (three_way.with_numbers(it, {**known, **given}) for it in (before, after))
        after, self.renamed = with_identifiers(before, after)
        self.merged = three_way.Merge(before, after, office, lambda *it: why_held(before, after, *it))
        items = self.merged.result["items"]
        self.numbers = {
            key: number
            for key, number in given.items()
            if (key[0], number) in items and items[key[0], number] == after["items"][key[0], number]
        }
        goal = self.with_memory(mark)
        difference = Difference(office, goal, files)
        assert not difference.tables & {name for (name,) in goal["tables"]}, "a table would be made anew"
        assert not difference.relations & {name for (name,) in goal["relations"]}, "a relation would be made anew"
        self.records = list(difference.layout())
        self.pieces = sorted(difference.content(), key=lambda it: it.fields[:2] != ["row", NUMBERS_TABLE])

    def with_memory(self, mark):
        """The result with the numbers that were given, for the next homecoming."""
        result = self.merged.result
        if not self.numbers:
            return result
        table = result["tables"].get((NUMBERS_TABLE,), NUMBERS)
        if table.kind != "attributes":
            raise Refused(f"has a table {NUMBERS_TABLE} of kind {table.kind}: new numbers can't be kept there")
        last = max([0, *(number for name, number in result["items"] if name == NUMBERS_TABLE)])
        lines = [f"{self.words[key]} {key[0]} {key[1]} {number}" for key, number in sorted(self.numbers.items())]
        items = {(NUMBERS_TABLE, last + place): ("row", str(mark), line, 0) for place, line in enumerate(lines, 1)}
        return {
            **result,
            "tables": {**result["tables"], (NUMBERS_TABLE,): table},
            "items": {**result["items"], **items},
        }


class News:
    """What brings to a copy what its office changed since BASE, which both had; `common` is what both have then.

    Numbers are those of the copy. What the office has under a number that is another row there is left out (`left`).
    """

    def __init__(self, base, office, copy, mark, files):
        known = remembered(office, mark)
        self.left = sorted(key for key in known if key in office["items"])
        office = with_numbers_of_copy(office, known)
        office, self.renamed = with_identifiers(base, office)
        self.merged = three_way.Merge(base, office, copy, lambda *it: why_held(base, office, *it))
        self.numbers = self.words = {}
        difference = Difference(copy, self.merged.result, files)
        self.records, self.pieces = list(difference.layout()), list(difference.content())
        common = {part: dict(values) for part, values in base.items()}
        for part, key in [*self.merged.changes, *self.merged.there]:
            three_way.put(common[part], key, office[part].get(key))
        self.common = Difference(base, whole(common), files)


def whole(state):
    """A state without what rests on something that it lacks, as a mapping row by whose number each side has another."""
    tables, matrices = state["tables"], state["matrices"]
    items = {key: value for key, value in state["items"].items() if key[:1] in tables}
    relations = {key: it for key, it in state["relations"].items() if all((name,) in tables for name in it[:2])}
    mapped = {
        key: ends
        for key, ends in state["mapped"].items()
        if relations.get(key[:1], ())[:2] == ends and all(it in items for it in zip(ends, key[1:]))
    }
    matrices = {key: sizes for key, sizes in matrices.items() if key[:1] in tables}
    tiles = {key: digest for key, digest in state["tiles"].items() if key[:2] in matrices}
    return {**state, "items": items, "relations": relations, "mapped": mapped, "matrices": matrices, "tiles": tiles}


def with_numbers_of_copy(office, known):
    """An office's state as a copy numbers it, without rows and media that are others there, and their mapping rows."""
    items = {key: value for key, value in office["items"].items() if key not in known}
    mapped = {
        key: tables for key, tables in office["mapped"].items() if not any(it in known for it in zip(tables, key[1:]))
    }
    back = {(table, number): old for (table, old), number in known.items()}
    return three_way.with_numbers({**office, "items": items, "mapped": mapped}, back)


def why_held(before, after, part, key):
    """Why a change is none that a homecoming makes: what stood would be missing until all of it has come again."""
    was, becomes = before[part].get(key), after[part].get(key)
    if part in ("tables", "relations") and was is not None and becomes is not None:
        return NO_PIECE
    if part == "matrices" and was is not None and (becomes is not None or key[:1] in after["tables"]):
        return NO_PIECE
    return None


def editions_of(pieces, edition, taken):
    """Pieces in as many editions as they want, of names that aren't taken.

    All but the last are parts: so the one that says that all is home is published last.
    """
    parts = [pieces[at : at + KIT_PIECES] for at in range(0, len(pieces), KIT_PIECES)] or [[]]
    free = (name for number in itertools.count(1) if (name := f"{edition}_part_{number}") not in taken)
    return list(zip([*itertools.islice(free, len(parts) - 1), edition], parts))
