#!/usr/bin/python3
"""Compares what tools/kit_between.py writes with the rule that its help states, on random packages and on some by
hand.

    scripts/outside/home/kit_between_check.py [PROGRAM] [--seed N] [--rounds N] [WORD ..]

A round makes a package by random lists, changes two copies of it by more of them, takes what turns one into another to
a copy, and what one changed onto the other. What then stands is compared row by row with what the rule gives, which
scripts/model/package_merge.py states once more, entry by entry over the dictionaries of the model, without code of the
tool. WORD picks the checks whose names have it. The last line is 'N passed, M failed'; the exit status is 1 where one
failed.
"""

import collections
import contextlib
import csv
import os
import pathlib
import random
import re
import shutil
import sqlite3
import sys

sys.path.insert(0, str(pathlib.Path(__file__).resolve().parents[1] / "lib"))
from checks import PROGRAM, TOP, content_of, end, expect, in_a_folder, run, run_checks, want, words_given  # noqa: E402
from make_profile_1 import put_back  # noqa: E402
from package_merge import by_the_rule, entries, package_of  # noqa: E402
from package_model import Package  # noqa: E402
from package_records import Refused, read_command, records  # noqa: E402
from package_views import query_of, table_rows  # noqa: E402
from random_records import OPENING, Author  # noqa: E402

TOOL = TOP / "tools" / "kit_between.py"
LEAST_OF_PAGE = 4096 * 189_388_800_000
DEFAULT_SEED = 1
DEFAULT_ROUNDS = 40
MOST_PIECES = 4096

# How often a change has each word; few names, numbers and bytes, so that two who change one package often meet.
CHANGES = {
    "srs": 2, "pyramid": 2, "matrix": 5, "table": 3, "drop": 1, "tile": 8, "tile-drop": 2, "row": 6, "row-drop": 2,
    "media": 5, "media-drop": 2, "relation": 3, "relation-drop": 1, "map": 5, "map-drop": 2, "edition": 1, "stage": 2,
    "publish": 1, "remake": 2,
}  # fmt: skip
NAMES = "a", "b", "c", "d", "e", "f", "g", "h"
IDENTIFIERS = "One", 'Two, "2"', "Drei", "Vier ü", "Five", "Six", "Seven"
BYTES = b"\x89PNG\r\n", b"\xff\xd8\xff\xe0", b"RIFF....WEBP", b"\0", b"x" * 5000
SPANS = 256, 1024


# Random packages.


class Neighbour(Author):
    """Writes records that suit a package, of few names, numbers and bytes."""

    def __init__(self, source, package):
        super().__init__(source, package)
        self.slip = 0

    def new_name(self, taken=()):
        used = {*self.package.tables, *self.package.relations, *self.package.editions}
        return self.pick([name for name in NAMES if name not in used] or ["w"])

    def new_identifier(self):
        used = {table.identifier for table in self.package.tables.values()}
        return self.pick([it for it in IDENTIFIERS if it not in used] or IDENTIFIERS)

    def srs(self):
        return [self.pick("1234"), self.pick("ab"), "EPSG", "1", 'a\n"grid"', self.pick(("", ","))]

    def side(self):
        least = self.pick((0, 1000))
        return least, least + self.pick(SPANS)

    def data(self):
        return self.pick(BYTES).hex()

    def remake(self):
        """Returns the records that make a table anew under its name, or another under its identifier."""
        table = self.pick([*self.package.tables, "w"])
        if table not in self.package.tables:
            return []
        records_of = [["relation-drop", name] for name, it in self.package.relations.items() if table in it[:2]] + [
            ["drop", table]
        ]
        kind = self.pick(("attributes", "media"))
        if self.random.random() < 0.3 and not self.package.is_pyramid(table):
            kind = self.package.kind(table)
        identifier = self.pick((self.package.tables[table].identifier, self.new_identifier()))
        return [*records_of, ["table", table, kind, identifier]]

    def change(self, words):
        """Does records of some words, as far as they are accepted, to the package; returns their list."""
        text = b""
        for word in words:
            several = self.remake() if word == "remake" else [self.record(word)]
            for fields in several:
                line = self.spelled([field.encode() for field in fields])
                text += line if self.accepted(line) else b""
        return text

    def accepted(self, line):
        try:
            return self.package.apply(read_command(records(line)[0]), 1) == "ok"
        except Refused:
            return False


def words_of(source, count):
    return source.choices(list(CHANGES), list(CHANGES.values()), k=count)


# What the tool writes, and what it makes of a package.


def rows_of(file):
    """The rows of all tables of a package that has no journal."""
    with contextlib.closing(sqlite3.connect(file)) as opened:
        return {table: opened.execute(query_of(table)).fetchall() for table in table_rows(Package())}


def expect_rows(file, package):
    """A file has the rows of a package, but for the moments of last change."""
    found, wanted = rows_of(file), table_rows(package)
    for rows in (found, wanted):
        rows["gpkg_contents"] = [(*row[:4], *row[5:]) for row in rows["gpkg_contents"]]
    for table in wanted:
        expect(sorted(found[table], key=repr), sorted(wanted[table], key=repr), f"rows of {table}")


def take_in(commands, file, out):
    """Does the commands that the tool printed on a package; each record and each kit has to be accepted. Returns the
    editions."""
    editions = []
    for line in commands.splitlines():
        words = line.split()
        if words[:2] == ["mmpkg", "kit"]:
            expect(words[4], str(out / words[3]), "folder of a kit")
            run(PROGRAM, "kit", file, words[3], words[4], "--at", 0)
        elif words[0] == "echo":
            run(PROGRAM, "run", file, "--at", 0, given=f"{words[1]}\n".encode())
            editions.append(words[1].split(",")[1])
        else:
            expect(words, ["mmpkg", "run", "FILE", "<", str(out / "before.csv")], "command")
            run(PROGRAM, "run", file, "--at", 0, given=(out / "before.csv").read_bytes())
    return editions


def expect_files_once(out, editions):
    """Each kit has the files that its list names, and no two with equal bytes; returns the words of its records."""
    words = []
    for edition in editions:
        with open(out / edition / "kit.csv", newline="", encoding="utf-8") as opened:
            lines = list(csv.reader(opened))
        names = {fields[-1] for fields in lines if fields[1] in ("tile", "media")}
        files = {file.name: file.read_bytes() for file in (out / edition).iterdir() if file.name != "kit.csv"}
        expect(files.keys(), names, "files of a kit")
        expect(len(set(files.values())), len(files), "files with equal bytes")
        words += [fields[1] for fields in lines]
    return words


def listed(out):
    """The conflicts that are listed, as the tool names them."""
    if not (out / "conflicts.csv").exists():
        return []
    with open(out / "conflicts.csv", newline="", encoding="utf-8") as opened:
        rows = list(csv.reader(opened))
    expect(rows[0], ["what", "key", "before", "after", "other"], "columns of conflicts.csv")
    assert all(len(row) == 5 and row[2:5] != ["", "", ""] and row[2] != row[3] for row in rows[1:]), rows
    return sorted([row[0], row[1]] for row in rows[1:])


def named(entry, states):
    """An entry as the tool names it."""
    part, *key = entry
    if part == "item":
        part = next(state[entry][0] for state in states if entry in state)
    return [part, " ".join(map(str, key))]


class Kept:
    """A package as a file and as the model has it."""

    def __init__(self, file, package):
        self.file, self.package = file, package

    def copy(self, file):
        for suffix in ("", "-wal"):
            pathlib.Path(f"{file}{suffix}").unlink(missing_ok=True)
        shutil.copyfile(self.file, file)
        return Kept(file, self.package.copy())

    def do(self, text):
        run(PROGRAM, "run", self.file, "--at", 1, given=text)
        return self

    def change(self, source, words):
        return self.do(Neighbour(source, self.package).change(words))


def new_package(file):
    run(PROGRAM, "init", file)
    return Kept(file, Package())


def by_hand(kept, text):
    """Does records that are all accepted to a package."""
    for fields in records(text.encode()):
        expect(kept.package.apply(read_command(fields), 1), "ok", str(fields)[:300])
    return kept.do(text.encode())


def renumbered(after, before, other, out):
    """AFTER's entries with the numbers that the tool gave: free ones, to new rows and media that collide and nothing
    else."""
    numbers = {}
    if (out / "renumbered.csv").exists():
        with open(out / "renumbered.csv", newline="", encoding="utf-8") as opened:
            numbers = {
                ("item", table, int(old)): ("item", table, int(new))
                for _, table, old, new in list(csv.reader(opened))[1:]
            }
    collide = {
        key for key in after if key[0] == "item" and key not in before and other.get(key, after[key]) != after[key]
    }
    wanted = {key for key in collide if key[2] < LEAST_OF_PAGE}
    expect(numbers.keys(), wanted, "what is renumbered")
    expect(
        [key for key in numbers.values() if key in after or key in before or key in other], [], "numbers that are taken"
    )
    expect(len(set(numbers.values())), len(numbers), "new numbers")
    return {with_numbers(key, value, numbers): value for key, value in after.items()}


def with_numbers(key, value, numbers):
    if key[0] != "map":
        return numbers.get(key, key)
    ends = [("item", *end) for end in zip(value, key[2:])]
    return (*key[:2], *(numbers.get(end, end)[2] for end in ends))


def expect_theirs(out, told, target, after, result, conflicts):
    """The kit of the conflicts is accepted behind the others; returns what stands then: of each conflict that it has
    AFTER's side."""
    commands = [line.strip() for line in told.splitlines() if line.startswith("    ")]
    expect(bool(commands), (out / "conflicts").exists(), "whether there is a kit of conflicts")
    settled = set()
    for line in commands:
        run(
            "bash",
            "-c",
            f'set -o pipefail; mmpkg() {{ {PROGRAM} "$@" --at 0; }}; ' + line.replace("FILE", str(target.file)),
        )
    for folder in sorted(out.glob("conflicts*")):
        if folder.is_dir():
            settled |= {entry_of(fields) for fields in records((folder / "kit.csv").read_bytes())}
    expect(settled - conflicts, set(), "what the kit of conflicts has that is none")
    left = re.search("no piece takes AFTER's side of (.*?)(;|$)", told, re.MULTILINE)
    expect(
        len(settled) + (len(left[1].split(", ")) if left else 0), len(conflicts), "conflicts that are settled or named"
    )
    final = {entry: value for entry, value in result.items() if entry not in settled} | {
        entry: after[entry] for entry in settled if entry in after
    }
    return final, [line.split()[1].split(",")[1] for line in commands if line.startswith("echo edition,")]


def entry_of(fields):
    """What a record of a kit's list is of, as the model names it."""
    word = fields[1].decode().removesuffix("-drop")
    part, size = {
        "matrix": ("matrix", 1),
        "tile": ("tile", 3),
        "row": ("item", 1),
        "media": ("item", 1),
        "map": ("map", 2),
    }[word]
    return (part, fields[2].decode(), *map(int, fields[3 : 3 + size]))


def expect_between(before, after, other, folder, onto, seen=None, renumber=False, anyway=False):
    """What the tool writes makes of a copy of OTHER what the rule gives, without a refusal; returns the conflicts, and
    what was told."""
    out, states = folder / "out", [entries(it.package) for it in (after, before, other)]
    words = [
        *(["--onto", other.file] if onto else []),
        *(["--renumber"] if renumber else []),
        *(["--anyway"] if anyway else []),
    ]
    status = 1 if by_the_rule(states[1], states[0], states[2])[1] or states[0] == states[1] else 0
    printed, told = run(TOOL, before.file, after.file, "home", out, *words, status=status if not renumber else None)
    if renumber:
        states[0] = renumbered(*states, out)
    result, conflicts = by_the_rule(states[1], states[0], states[2])
    wanted = sorted(named(entry, states) for entry in conflicts)
    expect(listed(out), wanted if onto else [], "conflicts")
    why = {line.split(": ")[1]: line.split(": ", 2)[2] for line in told.splitlines() if line.startswith("left out: ")}
    expect(sorted(why), sorted(" ".join(name) for name in wanted), "what is named")
    target = other.copy(folder / "target.mmpkg")
    editions = take_in(printed, target.file, out)
    expect_rows(target.file, package_of(result, target.package.editions | dict.fromkeys(editions)))
    if onto and conflicts:
        final, more = expect_theirs(out, told, target, states[0], result, conflicts)
        expect_rows(target.file, package_of(final, target.package.editions | dict.fromkeys([*editions, *more])))
    if seen is not None:
        count(seen, out, editions, why)
        seen["renumbered"] += (out / "renumbered.csv").exists()
        seen["kit of conflicts"] += (out / "conflicts").exists()
    shutil.rmtree(out)
    return wanted, told


def count(seen, out, editions, why):
    """Counts the words of all records that were written, and why conflicts are some."""
    seen.update(expect_files_once(out, editions))
    seen.update(fields[0].decode() for fields in records((out / "before.csv").read_bytes()))
    seen.update(f"conflict: {''.join(letter for letter in it if not letter.isdigit())}" for it in why.values())


# The checks.


def check_random_packages(folder, given):
    """What turns one into another, and what one changed onto the other, gives the rows that the rule gives."""
    seen = collections.Counter()
    empty = new_package(folder / "empty.mmpkg")
    for number in range(1, given.rounds + 1):
        source = random.Random(f"{given.seed} {number}")
        try:
            one_round(folder, empty, source, number, seen)
        except AssertionError as error:
            raise AssertionError(f"seed {given.seed}, round {number}: {error}") from error
    for word, times in sorted(seen.items()):
        print(f"    {times:6} {word}")
    missing = {
        "relation-drop",
        "drop",
        "srs",
        "pyramid",
        "table",
        "relation",
        "edition",
        "matrix",
        "tile",
        "tile-drop",
        "row",
        "row-drop",
        "media",
        "media-drop",
        "map",
        "map-drop",
        "renumbered",
        "kit of conflicts",
    } - {it for it, times in seen.items() if times}
    assert given.rounds < DEFAULT_ROUNDS or not missing, f"not seen: {missing}"
    return given.rounds * 3 + given.rounds // 4


def one_round(folder, empty, source, number, seen):
    """A pair, a three, and now and then a pair of which neither came of the other, so that systems may have changed or
    gone."""
    before = empty.copy(folder / "before.mmpkg").change(source, [*OPENING, *words_of(source, 45)])
    after, other = (
        before.copy(folder / f"{name}.mmpkg").change(source, words_of(source, 24)) for name in ("after", "other")
    )
    for kept in (before, after, other):
        expect_rows(kept.file, kept.package)
    conflicts, _ = expect_between(before, after, before, folder, False, seen)
    expect(conflicts, [], "what is left out")
    expect(
        by_the_rule(*(entries(it.package) for it in (before, after, before)))[0],
        entries(after.package),
        "the rule between two",
    )
    expect_between(before, after, other, folder, True, seen)
    expect_between(before, after, other, folder, True, seen, renumber=True)
    if number % 4 == 0:
        expect_between(other, after, other, folder, False, seen, anyway=True)


BY_HAND = """srs,7,grid,EPSG,7,grid,
pyramid,base,Base,7,0,0,1024,1024,two
matrix,base,2,4,4,64,64,4,4
tile,base,2,0,0,01
tile,base,2,1,0,02
pyramid,gone,Gone,7,0,0,1024,1024,other
matrix,gone,0,4,4,64,64,4,4
pyramid,cut,Cut,-1,0,0,1024,1024,other
matrix,cut,0,4,4,64,64,4,4
pyramid,steps,Steps,-1,0,0,1024,1024,other
pyramid,moved,Moved,-1,0,0,1024,1024,two
matrix,moved,0,4,4,64,64,4,4
pyramid,turned,Turned,-1,0,0,1024,1024,two
matrix,turned,0,4,4,64,64,4,4
table,spots,attributes,Spots
table,photos,media,Photos
table,left,attributes,Left
table,kind,attributes,Kind
table,first,attributes,First
table,second,attributes,Second
table,titled,attributes,Titled
table,retitled,attributes,Retitled
table,used,attributes,Used
table,twice,attributes,Twice
relation,twice_photos,twice,photos,media
table,seen,attributes,Seen
relation,seen_photos,seen,photos,media
row,seen,1,one,,1
table,renamed,media,Named
table,remade,attributes,Remade
relation,remade_photos,remade,photos,media
row,remade,1,one,,1
row,spots,1,one,,1
row,spots,2,two,,2
row,spots,3,three,,3
row,left,1,one,,1
row,kind,1,one,,1
media,photos,1,image/png,89504e47
media,photos,2,image/png,89504e47
relation,spots_photos,spots,photos,media
relation,loose,spots,photos,media
map,spots_photos,1,1
map,loose,1,1
"""
AFTER_BY_HAND = """srs,8,ours,EPSG,8,ours,
pyramid,new_base,New base,8,0,0,1024,1024,two
matrix,base,3,8,8,64,64,2,2
tile,base,3,7,7,04
tile,base,2,0,0,05
tile-drop,base,2,1,0
tile,gone,0,0,0,06
drop,cut
pyramid,cut,Cut,-1,0,0,1024,1024,other
matrix,cut,0,2,2,128,128,4,4
drop,renamed
table,renamed,media,Renamed
tile,moved,0,0,0,0a
tile,turned,0,0,0,0a
map,remade_photos,1,1
matrix,steps,5,4,4,128,128,2,2
matrix,steps,7,8,8,128,128,1,1
row,spots,1,ours,,1
row-drop,spots,2
row,left,2,new,,2
drop,kind
table,kind,media,Kind
media,kind,1,a/b,00
map,spots_photos,3,2
relation-drop,loose
drop,first
table,first,attributes,Ours
table,word,attributes,Word
row,word,1,,,0
table,named,attributes,Taken
relation,pair,left,photos,media
map,pair,1,1
row,spots,9,new,"many
lines",9
row,titled,1,,,1
drop,retitled
table,retitled,attributes,Ours again
row,retitled,1,,,1
row,spots,10,ours,,10
map,spots_photos,10,1
relation,other,spots,photos,media
drop,used
relation-drop,twice_photos
drop,twice
table,twice,media,Twice
relation,twice_photos,twice,photos,media
media,twice,1,a/b,00
map,twice_photos,1,1
relation-drop,seen_photos
drop,seen
table,seen,media,Seen
relation,seen_photos,seen,photos,media
media,seen,1,a/b,00
"""
OTHER_BY_HAND = """srs,8,theirs,EPSG,8,theirs,
matrix,base,4,8,8,64,64,2,2
tile,base,2,0,0,07
tile,base,2,1,0,08
drop,gone
tile,cut,0,3,3,09
matrix,steps,3,4,4,128,128,2,2
media,renamed,1,a/b,0b0c
drop,moved
pyramid,moved,Moved,-1,1024,0,2048,1024,two
matrix,moved,0,4,4,64,64,4,4
drop,turned
pyramid,turned,Turned,7,0,0,1024,1024,two
matrix,turned,0,4,4,64,64,4,4
relation-drop,remade_photos
drop,remade
table,remade,media,Remade
relation,remade_photos,remade,photos,media
media,remade,1,a/b,00
row,spots,1,theirs,,1
map,spots_photos,2,1
row-drop,spots,3
drop,left
row,kind,2,theirs,,2
map,loose,2,2
drop,first
table,first,attributes,Theirs
relation,word,spots,photos,media
table,other,attributes,Taken
row,spots,9,new,"many
lines",9
drop,titled
table,titled,attributes,Their title
drop,retitled
table,retitled,attributes,Theirs again
row,spots,10,theirs,,10
relation,uses,used,photos,media
row,twice,2,theirs,,2
map,seen_photos,1,1
"""
REASONS = """a mapping row names it
a relation has its name
a table has its name
a table that it relates isn't as in AFTER, or is a conflict
another table has its identifier
both changed it
both made one
it would take mapping rows along that AFTER doesn't have so
it would take something along that AFTER doesn't have so
it would take tiles along that AFTER doesn't have so
its matrix isn't as in AFTER, or is a conflict
its pixel size doesn't suit another zoom
its relation isn't as in AFTER, or is a conflict
its table isn't as in AFTER, or is a conflict
system 8 isn't as in AFTER, or is a conflict
what it relates isn't there, or is a conflict"""
BY_HAND_CONFLICTS = """map pair 1 1
map remade_photos 1 1
map loose 1 1
map spots_photos 10 1
map spots_photos 3 2
map twice_photos 1 1
matrix base 3
matrix cut 0
matrix steps 5
media kind 1
media seen 1
media twice 1
relation loose
relation other
relation pair
row left 2
row retitled 1
row spots 1
row spots 10
row spots 2
row word 1
system 8
table first
table kind
table named
table new_base
table retitled
table seen
table twice
table used
table word
tile base 2 0 0
tile base 2 1 0
tile base 3 7 7
tile gone 0 0 0
tile moved 0 0 0
tile turned 0 0 0"""


def check_each_conflict(folder, _):
    """By hand: each way in which two changes don't go together is listed, with the values of all three, and no
    other."""
    before = by_hand(new_package(folder / "before.mmpkg"), BY_HAND)
    after = by_hand(before.copy(folder / "after.mmpkg"), AFTER_BY_HAND)
    other = by_hand(before.copy(folder / "other.mmpkg"), OTHER_BY_HAND)
    run(TOOL, before.file, after.file, "home", folder / "listed", "--onto", other.file, status=1)
    found = (folder / "listed" / "conflicts.csv").read_text().splitlines()
    assert 'row,spots 1,"one,,1","ours,,1","theirs,,1"' in found, found
    assert 'row,left 2,,"new,,2",' in found, found
    conflicts, told = expect_between(before, after, other, folder, True)
    expect(sorted(" ".join(it) for it in conflicts), sorted(BY_HAND_CONFLICTS.splitlines()), "conflicts")
    expect(
        sorted({line.split(": ", 2)[2] for line in told.splitlines() if line.startswith("left out: ")}),
        REASONS.splitlines(),
        "reasons",
    )
    assert "there already: 1 row\n" in told, told


CREWS = "table,spots,attributes,Spots\ntable,photos,media,Photos\nrelation,spots_photos,spots,photos,media\n"
CREWS += "row,spots,3,Well,,1\n"
CREW_A = "row,spots,4,Oak,,1\nmedia,photos,2,image/png,89504e47\nmap,spots_photos,4,2\n"
CREW_B = "row,spots,4,Gate,,2\nmedia,photos,2,image/jpeg,ffd8ff\nmap,spots_photos,4,2\n"
CREW_B += "row,spots,5,Fence,,1\nrow,spots,3,Well,dry,1\n"


def two_crews(folder):
    """Two crews that both made row 4 with photo 2; the second made a row more, and changed one. The second one's work
    comes behind the first's."""
    before = by_hand(new_package(folder / "before.mmpkg"), CREWS)
    other = by_hand(before.copy(folder / "other.mmpkg"), CREW_A + "row,spots,3,Well,deep,1\n")
    after = by_hand(before.copy(folder / "after.mmpkg"), CREW_B)
    return before, after, other


def check_two_crews(folder, _):
    """What both made is told in other words than what both changed, and the kit of conflicts brings the bytes of the
    second crew."""
    before, after, other = two_crews(folder)
    _, told = expect_between(before, after, other, folder, True)
    for line in (
        "left out: media photos 2: both made one",
        "left out: row spots 4: both made one",
        "left out: row spots 3: both changed it",
        "    echo edition,home_theirs | mmpkg run FILE",
        "    echo publish,home_theirs | mmpkg run FILE",
    ):
        assert line in told.splitlines(), f"{line!r} isn't told: {told}"
    run(TOOL, before.file, after.file, "home", folder / "kept", "--onto", other.file, status=1)
    expect(
        sorted(it.read_bytes() for it in (folder / "kept" / "conflicts").iterdir() if it.name != "kit.csv"),
        [b"\xff\xd8\xff"],
        "bytes",
    )


def check_one_crew_then_the_next(folder, _):
    """Behind the commands it is said that they come before the next crew's; where nothing is to be taken in, or by a
    pair, it isn't."""
    before, after, other = two_crews(folder)
    said = "next: run these before the next crew's work is reckoned: they suit OTHER as it is now, and no later one"
    words = TOOL, before.file, after.file, "home", folder / "both", "--onto", other.file
    both = run("bash", "-c", '"$@" 2>&1 || [ $? = 1 ]', "bash", *words)[0].splitlines()
    expect(both[-2:], ["echo publish,home | mmpkg run FILE", said], "the last lines")
    for name, words, status in (("pair", (before.file, after.file), 0), ("nothing", (before.file, before.file), 1)):
        onto = ("--onto", other.file) if name == "nothing" else ()
        _, told = run(TOOL, *words, "home", folder / name, *onto, status=status)
        assert said not in told, told


def check_new_numbers(folder, _):
    """With --renumber what the second crew made comes in beside the first one's, with its mapping row, and old and new
    numbers are told."""
    before, after, other = two_crews(folder)
    conflicts, told = expect_between(before, after, other, folder, True, renumber=True)
    expect(conflicts, [["row", "spots 3"]], "conflicts")
    for line in (
        "renumbered: media photos 2 is 3",
        "renumbered: row spots 4 is 6",
        "there already: nothing",
        "next: give the crew a new copy: its own has the old numbers",
    ):
        assert line in told.splitlines(), f"{line!r} isn't told: {told}"
    run(TOOL, before.file, after.file, "home", folder / "kept", "--onto", other.file, "--renumber", status=1)
    expect(
        (folder / "kept" / "renumbered.csv").read_text(),
        "what,table,old,new\nmedia,photos,2,3\nrow,spots,4,6\n",
        "renumbered.csv",
    )
    assert (
        ",map,spots_photos,6,3\n" in (folder / "kept" / "home" / "kit.csv").read_text()
    ), "the mapping row isn't there"
    run(TOOL, before.file, after.file, "home", folder / "out", "--renumber", status=2)


def check_numbers_of_the_page(folder, _):
    """A row of the page that comes home twice is one row: with --renumber too it is a conflict where it was changed
    meanwhile."""
    page = f"row,spots,{LEAST_OF_PAGE + 17}"
    before = by_hand(new_package(folder / "before.mmpkg"), CREWS)
    other = by_hand(before.copy(folder / "other.mmpkg"), f"{page},Oak,Monday,1\n")
    after = by_hand(before.copy(folder / "after.mmpkg"), f"{page},Oak,Tuesday,1\n")
    conflicts, told = expect_between(before, after, other, folder, True, renumber=True)
    expect(conflicts, [["row", f"spots {LEAST_OF_PAGE + 17}"]], "conflicts")
    assert "renumbered" not in told, told


def expect_refused(folder, words, *lines):
    """The tool refuses with 2 and these lines, and makes nothing; with --anyway it reckons. Returns what it tells
    then."""
    told = run(TOOL, *words[:2], "home", folder / "refused", *words[2:], status=2)
    expect(
        told,
        ("", "".join(f"{line}\n" for line in (*lines, "nothing was made; --anyway reckons all the same"))),
        "what is told",
    )
    expect((folder / "refused").exists(), False, "whether something was made")
    shutil.rmtree(folder / "anyway", ignore_errors=True)
    return run(TOOL, *words[:2], "home", folder / "anyway", *words[2:], "--anyway", status=None)[1]


def check_wrong_order(folder, _):
    """Packages in the wrong order are refused by the moments of their last change, where their published editions are
    the same."""
    before = by_hand(new_package(folder / "before.mmpkg"), CREWS)
    after = before.copy(folder / "after.mmpkg")
    run(PROGRAM, "run", after.file, "--at", 86400000, given=b"row,spots,4,Oak,,1\n")
    why = "it was last changed before BEFORE was: are the packages in the wrong order?"
    run(TOOL, before.file, after.file, "home", folder / "right")
    told = expect_refused(folder, (after.file, before.file), f"{before.file}: as AFTER {why}")
    assert "written: 1 edition, 1 row-drop\n" in told, told
    expect_refused(folder, (after.file, after.file, "--onto", before.file), f"{before.file}: as OTHER {why}")
    slow = by_hand(before.copy(folder / "slow.mmpkg"), "edition,day\npublish,day\n")
    run(PROGRAM, "run", slow.file, "--at", 0, given=b"row,spots,4,Oak,,1\n")
    run(TOOL, before.file, slow.file, "home", folder / "clock")


def check_editions_that_are_lacking(folder, _):
    """A copy of another crew as BEFORE, an older one as AFTER, and a package that handed none of them out are refused
    by their editions."""
    office = by_hand(new_package(folder / "office.mmpkg"), CREWS + "edition,first\npublish,first\n")
    copies = {}
    for mark in ("out_a_1_zzzzzz", "out_b_2_zzzzzz"):
        by_hand(office, f"edition,{mark}\npublish,{mark}\n")
        copies[mark[4]] = office.copy(folder / f"{mark}.mmpkg")
    crews = {
        name: by_hand(copy.copy(folder / f"crew_{name}.mmpkg"), f"row,spots,4,Of {name},,1\n")
        for name, copy in copies.items()
    }
    lacks = "as AFTER it lacks published editions of BEFORE, which never go away: out_b_2_zzzzzz"
    words = copies["b"].file, crews["a"].file, "--onto", office.file
    told = expect_refused(folder, words, f"{crews['a'].file}: {lacks}")
    assert "written: 1 edition, 1 row\n" in told, told
    for name in "ab":
        run(TOOL, copies[name].file, crews[name].file, "home", folder / name, "--onto", office.file)
    other = by_hand(new_package(folder / "other.mmpkg"), CREWS + "edition,last\npublish,last\n")
    expect_refused(
        folder,
        (copies["a"].file, crews["a"].file, "--onto", other.file),
        f"{other.file}: as OTHER it has none of BEFORE's published editions: first, out_a_1_zzzzzz",
    )
    by_hand(other, "edition,first\npublish,first\n")
    expect_refused(
        folder,
        (copies["a"].file, crews["a"].file, "--onto", other.file),
        f"{other.file}: as OTHER it didn't hand BEFORE out, which is marked out_a_1_zzzzzz",
    )


def check_words_of_pages(folder, _):
    """Another project is refused by the word of its page; what is no page's item 4 has none."""
    page = "table,viewer,media,Map\nmedia,viewer,4,application/json,{}\n"
    words = {name: page.format(f'{{"package":"{name * 16}"}}'.encode().hex()) for name in "ab"}
    one = by_hand(new_package(folder / "one.mmpkg"), CREWS + words["a"])
    two = by_hand(new_package(folder / "two.mmpkg"), CREWS + words["b"])
    why = "is of another project than BEFORE, by the words of their pages"
    expect_refused(folder, (one.file, two.file), f"{two.file}: as AFTER it {why}")
    expect_refused(folder, (one.file, one.file, "--onto", two.file), f"{two.file}: as OTHER it {why}")
    for number, text in enumerate(('["package"]', '{"package":4}', "{", '{"package":"b"}')):
        none = by_hand(new_package(folder / f"{number}.mmpkg"), CREWS + page.format(text.encode().hex()))
        run(TOOL, one.file, none.file, "home", folder / f"none_{number}")


def check_rows_that_never_came_home(folder, _):
    """Rows and media that BEFORE and AFTER have alike, and OTHER hasn't, are named; the line that matters stands before
    all notes."""
    office = by_hand(new_package(folder / "office.mmpkg"), CREWS)
    before = by_hand(
        office.copy(folder / "before.mmpkg"), "row,spots,40,Gate,,1\nrow,spots,41,Oak,,1\nmedia,photos,7,a/b,00\n"
    )
    after = by_hand(before.copy(folder / "after.mmpkg"), "row,spots,5,Fence,,1\n")
    run(PROGRAM, "run", after.file, "--at", 86400000, given=b"row,spots,3,Well,deep,1\n")
    told = run(TOOL, before.file, after.file, "home", folder / "out", "--onto", office.file)[1].splitlines()
    missing = "BEFORE and AFTER have it, OTHER doesn't: it was removed there, or never came home"
    expect(
        told[:5],
        [
            "written: 1 edition, 2 row",
            "there already: nothing",
            "conflicts: nothing",
            f"note: media photos 7, row spots 40, row spots 41: {missing}",
            "note: last_change of spots: it is another in AFTER, and doesn't cross",
        ],
        "what is told",
    )


def check_system_that_changed(folder, _):
    """A system that is another is named and left out, with the pyramids that come on it, and the rest is taken in."""
    empty = new_package(folder / "empty.mmpkg")
    layout = "table,a,attributes,One\npyramid,base,Base,8,0,0,1024,1024,two\nmatrix,base,2,4,4,64,64,4,4\n"
    before = by_hand(empty.copy(folder / "before.mmpkg"), "srs,8,theirs,EPSG,8,a,\nsrs,9,gone,EPSG,9,a,\n")
    after = by_hand(empty.copy(folder / "after.mmpkg"), "srs,8,ours,EPSG,8,a,\nsrs,10,new,EPSG,10,a,\n" + layout)
    conflicts, _ = expect_between(before, after, before, folder, False)
    expect(conflicts, [["matrix", "base 2"], ["system", "8"], ["system", "9"], ["table", "base"]], "what is left out")


def check_identifiers_that_swap(folder, _):
    """Two tables take each other's identifiers, and a name passes from a table to a relation and back."""
    layout = "table,a,attributes,One\ntable,b,media,Two\nrow,a,1,x,,1\nmedia,b,1,a/b,00\nrelation,m,a,b,media\n"
    layout += "map,m,1,1\ntable,t,attributes,T\n"
    swapped = (
        "relation-drop,m\ndrop,a\ndrop,b\ndrop,t\ntable,a,attributes,Two\ntable,b,media,One\nrow,a,1,x,,1\n"
        "media,b,1,a/b,00\nrelation,t,a,b,media\nmap,t,1,1\ntable,m,attributes,T\n"
    )
    before = by_hand(new_package(folder / "before.mmpkg"), layout)
    after = by_hand(before.copy(folder / "after.mmpkg"), swapped)
    expect_between(before, after, before, folder, False)
    expect_between(after, before, after, folder, False)


def check_one_that_is_as_the_other(folder, _):
    """Between equal packages nothing is written but an empty list, which is told with status 1; other editions and
    moments are named."""
    before = by_hand(new_package(folder / "before.mmpkg"), "table,a,attributes,One\nrow,a,1,x,,1\n")
    after = by_hand(before.copy(folder / "after.mmpkg"), "edition,draft\nstage,draft,1,row,a,2,,,0\n")
    run(PROGRAM, "run", after.file, "--at", 86400000, given=b"row,a,1,x,,1\n")
    printed, told = run(TOOL, before.file, after.file, "home", folder / "out", status=1)
    expect(printed, "", "commands")
    expect([file.name for file in (folder / "out").iterdir()], ["before.csv"], "files")
    expect((folder / "out" / "before.csv").read_bytes(), b"", "before.csv")
    expect(
        told.splitlines(),
        [
            "written: nothing",
            f"{after.file}: nothing was changed: was its journal copied along?",
            "note: edition draft: none in BEFORE, open with pieces: 1 in AFTER; editions don't cross",
            "note: last_change of a: it is another in AFTER, and doesn't cross",
        ],
        "what is told",
    )


def with_rows(kept, numbers, *values):
    """Puts rows into a table of a closed package, which the program checks before the tool reads it."""
    with contextlib.closing(sqlite3.connect(kept.file)) as opened:
        opened.executemany(
            "INSERT INTO mm_rows VALUES (?, ?, ?, ?, ?)", [("z" * 60, number, *values) for number in numbers]
        )
        opened.commit()
    kept.package.rows.update({("z" * 60, number): values for number in numbers})


def check_many_pieces(folder, _):
    """One piece more than a kit takes begins a second one, and both are taken in."""
    before = by_hand(new_package(folder / "before.mmpkg"), f"table,{'z' * 60},attributes,One\n")
    after = before.copy(folder / "after.mmpkg")
    with_rows(after, range(1, MOST_PIECES + 2), "x", "", 0)
    printed, _ = run(TOOL, before.file, after.file, "home", folder / "out")
    lists = [(folder / "out" / name / "kit.csv").read_text().splitlines() for name in ("home", "home_2")]
    expect([len(lines) for lines in lists], [MOST_PIECES, 1], "pieces")
    expect((folder / "out" / "before.csv").read_text(), "edition,home\nedition,home_2\n", "before.csv")
    expect(
        [line.split()[1] for line in printed.splitlines()],
        ["run", "kit", "publish,home", "kit", "publish,home_2"],
        "commands",
    )
    shutil.rmtree(folder / "out")
    expect_between(before, after, before, folder, False)


def check_full_list(folder, _):
    """A list that would grow past its limit ends, and a second kit begins."""
    before = by_hand(new_package(folder / "before.mmpkg"), f"table,{'z' * 60},attributes,One\n")
    after = before.copy(folder / "after.mmpkg")
    with_rows(after, range(2**53 - MOST_PIECES + 1, 2**53 + 1), '"' * 1000, '"' * 1000, -(10**15))
    run(TOOL, before.file, after.file, "home", folder / "out")
    sizes = [(folder / "out" / name / "kit.csv").stat().st_size for name in ("home", "home_2")]
    assert 2**24 - 5000 < sizes[0] <= 2**24 and sizes[1] < 200_000, sizes


def check_bad_input(folder, _):
    """No package is told by the program's own line; OUT that stands is not touched, nothing half made is left, and the
    packages stay."""
    one = by_hand(new_package(folder / "a.mmpkg"), "table,a,attributes,One\nrow,a,1,x,,1\nedition,taken\n")
    two = by_hand(one.copy(folder / "b.mmpkg"), "row,a,2,y,,2\n")
    shutil.copyfile(one.file, folder / "older.mmpkg")
    assert put_back(folder / "older.mmpkg")
    (folder / "notes.mmpkg").write_bytes(b"ten bytes\n")
    with contextlib.closing(sqlite3.connect(folder / "other.mmpkg")) as opened:
        opened.execute("CREATE TABLE other (id INTEGER)")
    (folder / "stands").mkdir()
    files = {file: content_of(file) for file in sorted(folder.iterdir())}
    lines = {
        "none": ("not a package 94", 4),
        "other": ("not a package 94", 4),
        "notes": ("fault 91", 3),
        "older": ("not a package 93 (of profile 1; 'mmpkg migrate {}' brings it to this one)", 4),
    }
    for name, (line, status) in lines.items():
        bad = folder / f"{name}.mmpkg"
        for words in (
            (bad, two.file, "home", folder / "out"),
            (one.file, bad, "home", folder / "out"),
            (one.file, two.file, "home", folder / "out", "--onto", bad),
        ):
            expect(run(TOOL, *words, status=status), ("", f"{bad}: {line.format(bad)}\n"), f"what is told of {name}")
    for edition, out in (
        ("home", "stands"),
        ("home", "notes.mmpkg/out"),
        ("home", "missing/out"),
        ("taken", "out"),
        ("Home", "out"),
        ("mm_a", "out"),
    ):
        printed, told = run(TOOL, one.file, two.file, edition, folder / out, status=2)
        assert printed == "" and len(told.splitlines()) == 1, told
    expect(
        run(TOOL, one.file, two.file, "taken", folder / "out", status=2)[1],
        f"{one.file}: has an edition taken, and no name is used twice\n",
        "what is told of a name that is taken",
    )
    run(TOOL, one.file, two.file, status=2)
    expect({file: content_of(file) for file in sorted(folder.iterdir())}, files, "files")


def check_output_that_fails(folder, _):
    """Where nobody reads the commands, that is told in a line, and the files stand whole."""
    one = by_hand(new_package(folder / "a.mmpkg"), "table,a,attributes,One\n")
    two = by_hand(one.copy(folder / "b.mmpkg"), "row,a,2,y,,2\n")
    read, write = os.pipe()
    os.close(read)
    told = run(TOOL, one.file, two.file, "home", folder / "out", status=2, out=write)[1]
    os.close(write)
    expect(told, "written: 1 edition, 1 row\nstandard output: nobody reads it\n", "what is told")
    expect(sorted(file.name for file in (folder / "out").iterdir()), ["before.csv", "home"], "files")
    expect((folder / "out" / "home" / "kit.csv").read_text(), "1,row,a,2,y,,2\n", "the kit")


def main():
    given = words_given(__doc__, seed=DEFAULT_SEED, rounds=DEFAULT_ROUNDS)
    want("nothing was turned into another")
    print(f"seed {given.seed}")
    end(*run_checks("kit_between", globals(), given.words, lambda check: in_a_folder(check, given)))


if __name__ == "__main__":
    main()
