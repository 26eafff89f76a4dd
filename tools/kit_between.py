#!/usr/bin/env python3
"""Writes what turns one package into another: the work of a crew comes home as records and kits.

    tools/kit_between.py BEFORE AFTER EDITION OUT [--anyway]
    tools/kit_between.py BEFORE AFTER EDITION OUT --onto OTHER [--renumber] [--anyway]

BEFORE, AFTER and OTHER are packages of mmpkg, and are left as they are; nothing may write them meanwhile. Each has to
pass 'mmpkg check', with the program that the environment's MMPKG names, else out/mmpkg of this repository, else mmpkg
of the path. Of one whose journal holds commits, or which another program has, or which can't be written, a copy is
read, in the folder that the environment's TMPDIR names, else /tmp; as large as it is. OUT must not be there; it is
written under another name and renamed when it is whole. It gets

    before.csv   records for 'mmpkg run': relations and tables that go; systems, tables and relations that come; the
                 editions
    EDITION      a kit: mapping rows, rows, media and tiles that go; matrices by rising zoom; rows, media and tiles that
                 come or changed; mapping rows that come. Behind 4,096 pieces or a full list EDITION_2 goes on, and so
                 on. Equal bytes are one file

and the commands that take these in are printed in their order, with FILE for a package that is as BEFORE is. What has
no record of its own to change it goes and comes again: a table with another kind, identifier, system or extent, or of
which a matrix goes or changed, with all its content; a relation with other ends, or an end that does so, with all its
mapping rows.

The records of before.csv are done one by one, and each kit is published by itself. From before.csv on until the last
kit is published the content of what goes and comes again is missing in FILE, and what goes is gone for good: keep a
copy. Where before.csv was cut short, run it again before the first kit is published; what is done already is refused,
and it goes on. Never run it again behind that. An edition that is open in FILE keeps its pieces, whether or not they
suit what stands then.

Editions, their pieces and last_change are no part of it, and are named on standard error where they differ. A system
that changed or went is named too: no record does that. It is left out, with the pyramids that come on it. Bytes with
equal digests are taken for equal. Where AFTER is as BEFORE that is told, and the status is 1: the work of a day may
stand in a journal that wasn't copied along.

Packages that don't belong together are refused, with status 2 but for --anyway, as far as it can be seen: where AFTER
lacks a published edition of BEFORE, which never goes away; OTHER has none of these, or not the mark by which BEFORE was
handed out; the words of their pages differ; or, where their published editions are the same, one was last changed
before BEFORE was. --anyway is for the way back too, from AFTER to BEFORE.

With --onto OTHER, a package that began as BEFORE and was changed meanwhile, the changes are written as they can be made
on OTHER, and FILE is one that is as OTHER is. So one crew comes home wholly, its last edition published, before this
tool is run for the next one: what was reckoned for both at once would undo the first one's work, and nothing would say
so. By the key of each system, table, matrix, tile, row, media item, relation and mapping row:

    1. Where AFTER is as BEFORE, or as OTHER, nothing is done. Where OTHER is as BEFORE, the change is made. Else it is
       a conflict.
    2. A pyramid rests on its system; a matrix, a tile, a row or a media item on its table, but not on the table's
       identifier; a tile on its matrix too; a relation on its two tables; a mapping row on its relation, on both
       tables, and, by their numbers alone, on the row and the item. What goes rests on its table, its matrix or its
       relation alone.
    3. A change is made only where the result has what it rests on as AFTER has it, which may be: not at all, and that
       is no conflict itself. And it takes nothing along: whatever of the result rests on what changed, AFTER has it so
       too.
    4. Names, identifiers and pixel sizes suit what else the result has (docs/FORMATS.md, Q3, Q4, Q8, Q9).
    5. A change against 2 to 4 is a conflict, and is taken back; the others are asked again, until nothing is left to
       take back.

A conflict leaves OTHER as it is. conflicts.csv has them by what, key, before, after and other (of bytes the digest);
standard error says why: 'both made one' where BEFORE has none, else 'both changed it', or what else it goes against.
Rows and media that BEFORE and AFTER have, and OTHER hasn't, are named there too.
The kit 'conflicts' has AFTER's side of them, with bytes: published as EDITION_theirs behind all others it takes AFTER's
side where a piece does that, and what no piece can do is named. Records that are not wanted are taken out of its
kit.csv, where the others are numbered anew.

With --renumber rows and media that AFTER made, and OTHER made otherwise under the same number, are new ones and no
conflict: they get the next numbers behind all that their table has, their mapping rows too. renumbered.csv has what,
table, old and new number. Numbers of the crew's page stay: what has one of these on both sides is one row. So a crew
that comes home once more needs no --renumber; BEFORE is its copy as it came home last.

Exit status: 0 all was written; 1 something was left out, or was a conflict, or nothing was changed; 2 wrong arguments,
packages that don't belong together, or a file that can't be read or written; else what 'mmpkg check' ended with, whose
line is told: 3 a fault, 4 no package or one that breaks a rule.
"""

import collections
import os
import pathlib
import shlex
import sqlite3
import sys
import tempfile

import lineage
import three_way
from border import KitWriter, Refused, Report, Source, arguments, expect_new, is_name, made_beside, record, run_tool
from difference import Difference, summary, told, word_of
from packages import Files, Package

# Behind the commands, where other crews may come home too.
ONE_BY_ONE = "next: run these before the next crew's work is reckoned: they suit OTHER as it is now, and no later one"


def tell_rest(before, after, report):
    """Names the editions and the moments of last change that differ, of which nothing crosses."""
    first, second = before.editions(), after.editions()
    for name in sorted(first.keys() | second.keys()):
        states = [editions.get(name, ["none"]) for editions in (first, second)]
        if states[0] != states[1]:
            told_states = [
                state[0] + (f" with pieces: {len(state) - 1}" if state[0] == "open" else "") for state in states
            ]
            report.note(
                f"edition {name}", f"{told_states[0]} in BEFORE, {told_states[1]} in AFTER; editions don't cross"
            )
    for name in sorted(before.changed.keys() & after.changed.keys()):
        if before.changed[name] != after.changed[name]:
            report.note(f"last_change of {name}", "it is another in AFTER, and doesn't cross")


def expect_one_past(before, after, other):
    """Refuses where AFTER or OTHER can't have come of BEFORE, as far as that can be seen."""
    files = {"AFTER": after.file, "OTHER": other.file}
    found = [
        f"{files[name]}: as {name} it {why}" for name, why in lineage.against(before.past(), after.past(), other.past())
    ]
    if found:
        raise Refused("\n".join([*found, "nothing was made; --anyway reckons all the same"]))


def tell_missing(before, after, other, report):
    """Notes rows and media that BEFORE and AFTER have alike, and OTHER hasn't."""
    items = before.parts["items"], after.parts["items"], other.parts["items"]
    for key, value in sorted(items[0].items()):
        if items[1].get(key) == value and key not in items[2]:
            report.note(
                f"{value[0]} {key[0]} {key[1]}",
                "BEFORE and AFTER have it, OTHER doesn't: it was removed there, or never came home",
            )


def tell_numbers(numbers, after, folder):
    """Names which rows and media have other numbers than in AFTER."""
    rows = [[after.parts["items"][key][0], *key, number] for key, number in sorted(numbers.items())]
    for what, table, old, new in rows:
        print(f"renumbered: {what} {table} {old} is {new}", file=sys.stderr)
    if rows:
        with open(folder / "renumbered.csv", "w", encoding="utf-8", newline="") as out:
            out.writelines(map(record, [["what", "table", "old", "new"], *rows]))


def tell_conflicts(merged, report):
    """Names what was left out, with why; returns the rows of the list, and how many there are of each sort."""
    rows, counts = [], collections.Counter()
    for (part, key), why in sorted(merged.conflicts.items(), key=lambda entry: entry[0]):
        values = [state[part].get(key) for state in (merged.before, merged.after, merged.other)]
        what, name = word_of(merged, part, key), " ".join(map(str, key))
        report.left_out(f"{what} {name}", why)
        rows.append([what, name, *(told(part, value) for value in values)])
        counts[what] += 1
    return rows, counts


def write_files(difference, edition, out, folder):
    """Writes the kits, and before.csv with their editions.

    Returns the kits, and how many records there are of each word.
    """
    kits = KitWriter(edition, out / edition, folder)
    records, counts = list(difference.layout()), collections.Counter()
    for piece in difference.content():
        kits.add(piece)
        counts[piece.fields[0]] += 1
    kits.end()
    records += [["edition", name] for name, _ in kits.kits]
    counts.update(fields[0] for fields in records)
    with open(folder / "before.csv", "w", encoding="utf-8", newline="") as out:
        out.writelines(map(record, records))
    return kits, counts


def write_conflicts(rows, folder):
    with open(folder / "conflicts.csv", "w", encoding="utf-8", newline="") as out:
        out.writelines(map(record, [["what", "key", "before", "after", "other"], *rows]))


def write_theirs(merged, files, edition, out, folder):
    """Writes AFTER's side of the conflicts as a kit, or several; returns them, and what no piece settles."""
    theirs = three_way.Theirs(merged)
    kits = KitWriter(f"{edition}_theirs", out / "conflicts", folder)
    for piece in Difference(merged.result, theirs.goal, files).content():
        kits.add(piece)
    kits.end()
    return kits, sorted(merged.conflicts.keys() - theirs.taken)


def tell_next(merged, theirs, left, out):
    """Says on standard error what there is to do about conflicts, behind the commands that are printed."""
    lines = [f"look at {shlex.quote(str(out / 'conflicts.csv'))}: OTHER keeps its side of each"]
    if left:
        lines.append(
            "no piece takes AFTER's side of "
            + ", ".join(f"{word_of(merged, part, key)} {' '.join(map(str, key))}" for part, key in left)
        )
    if theirs.kits:
        lines.append(
            f"to take AFTER's side of {'the others' if left else 'them'}, behind the commands that are printed:"
        )
    print("next: " + "; ".join(lines), file=sys.stderr)
    for edition, folder in theirs.kits:
        print(
            f"    echo edition,{edition} | mmpkg run FILE\n    mmpkg kit FILE {edition} {shlex.quote(str(folder))}\n"
            f"    echo publish,{edition} | mmpkg run FILE",
            file=sys.stderr,
        )


def expect_new_edition(edition, package):
    if package.has_edition(edition):
        raise Refused(f"{package.file}: has an edition {edition}, and no name is used twice")


def write(packages, given, folder, report):
    """Writes all files into a folder; returns the kits, how many records there are of each word, and new numbers."""
    before, after, other = packages[0], packages[1], packages[-1] if len(packages) == 3 else packages[0]
    edition, out = given.EDITION, given.OUT
    expect_new_edition(edition, other)
    if not given.anyway:
        expect_one_past(before, after, other)
    goal, numbers = (
        three_way.renumbered(before.parts, after.parts, other.parts) if given.renumber else (after.parts, {})
    )
    tell_numbers(numbers, after, folder)
    merged = three_way.Merge(before.parts, goal, other.parts)
    files = Files((after, other))
    rows, conflicts = tell_conflicts(merged, report)
    kits, counts = write_files(Difference(other.parts, merged.result, files), edition, out, folder)
    for name, _ in kits.kits:
        expect_new_edition(name, other)
    tell_counts(merged, counts, conflicts, len(packages) == 3)
    if after.parts == before.parts:
        print(f"{after.file}: nothing was changed: was its journal copied along?", file=sys.stderr)
        report.count += 1
    tell_missing(before, after, other, report)
    tell_rest(before, after, report)
    report.tell_notes()
    if rows and len(packages) == 3:
        write_conflicts(rows, folder)
        theirs, left = write_theirs(merged, files, edition, out, folder)
        for name, _ in theirs.kits:
            expect_new_edition(name, other)
        tell_next(merged, theirs, left, out)
    return kits, counts, numbers


def tell_counts(merged, counts, conflicts, onto):
    """Says what was written, and onto a package that changed meanwhile what wasn't."""
    there = collections.Counter(word_of(merged, *change) for change in merged.there)
    print(f"written: {summary(counts)}", file=sys.stderr)
    if onto:
        print(f"there already: {summary(there)}\nconflicts: {summary(conflicts)}", file=sys.stderr)


def made_in(folder, name):
    """A folder that is made in another."""
    made = pathlib.Path(folder) / str(name)
    made.mkdir()
    return made


def main():
    parser = arguments(__doc__)
    for name, kind in (("BEFORE", pathlib.Path), ("AFTER", pathlib.Path), ("EDITION", str), ("OUT", pathlib.Path)):
        parser.add_argument(name, type=kind)
    parser.add_argument("--onto", type=pathlib.Path, metavar="OTHER")
    parser.add_argument("--renumber", action="store_true")
    parser.add_argument("--anyway", action="store_true")
    given = parser.parse_args()
    if not is_name(given.EDITION):
        raise Refused(f"{given.EDITION!r} is no name of an edition")
    if given.EDITION == "conflicts":
        raise Refused("'conflicts' is the folder of what is left out; choose another name of an edition")
    if given.renumber and not given.onto:
        raise Refused("--renumber is for --onto OTHER")
    report = Report()
    files = [given.BEFORE, given.AFTER] + ([given.onto] if given.onto else [])
    with tempfile.TemporaryDirectory() as name, made_beside(given.OUT) as beside:
        made = beside / "made"
        made.mkdir()
        try:
            packages = [Package(Source(file, made_in(name, place))) for place, file in enumerate(files)]
            kits, counts, numbers = write(packages, given, made, report)
        except sqlite3.Error as error:
            raise Refused(f"{given.OUT}: {error}") from error
        for package in packages:
            package.read.expect_unchanged()
        expect_new(given.OUT)
        os.rename(made, given.OUT)
    if counts:
        print(f"mmpkg run FILE < {shlex.quote(str(given.OUT / 'before.csv'))}")
    kits.tell()
    sys.stdout.flush()
    if counts and given.onto:
        print(ONE_BY_ONE, file=sys.stderr)
    if numbers:
        print("next: give the crew a new copy: its own has the old numbers", file=sys.stderr)
    return 1 if report.count else 0


if __name__ == "__main__":
    run_tool(main)
