#!/usr/bin/env python3
"""Takes what a crew did into the office's package, onto what others changed there meanwhile.

    tools/come_home.py OFFICE AFTER [--again]
    tools/come_home.py OFFICE --theirs FOLDER

AFTER is a copy that hand_out.py made of OFFICE, and that comes back; its mark tells which, and which copy OFFICE.crews
keeps of it as it went out. AFTER is left as it is. What changed between the two is made on OFFICE by the rule of
kit_between.py, in one session: nobody writes OFFICE between the look and the writing. Tables, systems and relations
come by records; all else is one edition, home_CREW_NUMBER_WORD, which is published whole or not at all. Where that
wants more than 4,096 pieces there are editions .._part_1 and so on before it, which is told. Killed at any moment and
done again, it comes to the same end.

What both changed is a conflict, and stays as OFFICE has it. It is named, and OFFICE.crews gets a folder with both
sides: conflicts.csv with what, key, before, after and office, and the kits 'theirs' and 'office'. --theirs FOLDER takes
the crew's side, as far as OFFICE still is as that list says, as the edition .._theirs; lines that are taken out of
conflicts.csv stay as they are. Tables, zooms and relations that stand are not made anew: those are conflicts too, and
kit_between.py takes them.

Rows and photos that AFTER made, and OFFICE made otherwise under the same number, get the next numbers. They are told,
and kept as rows of the table crew_numbers, so that they are the same rows when the copy comes home --again. Give the
crew a new copy then: in its own it has the old numbers.

With --again a copy that came home comes home once more, with what was done since.

Refused, with nothing changed: a copy that OFFICE didn't hand out, or of another project; one that came home already;
one that lacks what it had when it went out; a journal beside AFTER that holds commits.

The program is the one that the environment's MMPKG names, else out/mmpkg of this repository, else mmpkg of the path.

Exit status: 0 all came home; 1 something stayed as OFFICE has it, or nothing was changed; 2 refused, wrong arguments,
or a file that can't be read or written; 3 a fault, as where another program has OFFICE; 4 no package, or one that
breaks a rule.
"""

import os
import pathlib
import shlex
import sqlite3
import sys
import tempfile

import homecoming
import their_side
import three_way
from border import KitWriter, Refused, Report, Source, arguments, has_commits, record, run_tool
from difference import Difference
from keeping import Keeping, expect_room_for, flush, flush_all, install, put_away, seal
from packages import Files, Package
from session import Held, Session
from taking import about, base_of, editions, expect_two, made, tell

COLUMNS = ["what", "key", "before", "after", "office"]
THEIRS, OFFICES = "theirs", "office"


def expect_closed(file):
    """Refuses where a journal with commits lies beside a copy that comes home."""
    if has_commits(file):
        raise Refused(
            f"{file}: its journal {file.name}-wal holds commits: end the day at the tablet. Where that can't be done, "
            "and the journal is that of this copy, 'mmpkg check' on it takes the journal in"
        )


class Taking:
    """A homecoming that is reckoned: what comes, where it is kept, and what its editions are called."""

    def __init__(self, given, after, office, folder):
        keeping, past = Keeping(given.OFFICE), office.past()
        with about(given.AFTER):
            self.mark = homecoming.mark_of_copy(past, after.past())
            times = homecoming.times_home(self.mark, past.editions)
            homecoming.expect_next(self.mark, times, given.again)
        self.before = base_of(after, self.mark, times, keeping, folder)
        self.edition = homecoming.home_edition(self.mark, times + 1)
        self.home, self.conflicts = keeping.home(self.mark, times + 1), keeping.conflicts(self.mark, times + 1)
        self.after, self.office = after, office
        self.is_empty = self.before.parts == after.parts
        self.files = Files((after, office))
        with about(given.OFFICE):
            states = self.before.parts, after.parts, office.parts
            others = keeping.numbers(after.parts["items"].keys() - self.before.parts["items"].keys(), self.home)
            pages = {*after.past().words, *past.words}
            self.all = homecoming.Homecoming(*states, self.mark, self.files, others, pages)

    def records(self):
        """All records, in their order: what goes before, and then each edition, which is published before the next."""
        yield from (record(fields).encode() for fields in self.all.records)
        yield from editions(self.all.pieces, self.edition, self.office.states())


def sides(taking):
    """By the name of a kit of conflicts, the states between which it leads: of the crew's side, and of the office's."""
    merged = taking.all.merged
    ours = {part: {} for part in three_way.PARTS}
    for part, key in merged.conflicts.keys() & {it for it in merged.conflicts if it[0] in ("tiles", "items", "mapped")}:
        if key in merged.other[part]:
            ours[part][key] = merged.other[part][key]
    yield THEIRS, merged.result, three_way.Theirs(merged).goal
    yield OFFICES, {part: {} for part in three_way.PARTS}, ours


def write_conflicts(taking, rows, folder):
    """Writes what stays as the office has it into a folder, with both sides, and has the disk keep it."""
    for name, start, goal in sides(taking):
        kits = KitWriter(f"{taking.edition}_{name}", taking.conflicts / name, folder)
        for piece in Difference(start, goal, taking.files).content():
            kits.add(piece)
        kits.end()
    with open(folder / "conflicts.csv", "w", encoding="utf-8", newline="") as out:
        out.writelines(map(record, [COLUMNS, *rows]))
    (folder / "edition").write_text(f"{taking.edition}\n", encoding="ascii")
    seal(folder)
    flush_all(folder)


def keep_conflicts(taking, rows):
    """Keeps the folder of conflicts, where there are some; that of a homecoming that was cut goes out of the way."""
    path = taking.conflicts
    with tempfile.TemporaryDirectory(prefix=f".{path.name}-", dir=path.parent) as name:
        beside = pathlib.Path(name)
        if rows:
            write_conflicts(taking, rows, made(beside, path.name))
        put_away(path, beside)
        if rows:
            (beside / path.name).rename(path)
    flush(path.parent)


def take(given, session, folder, after, report):
    """Takes a copy home in a session; returns how that is told."""
    taking = Taking(given, after, Package(Held(given.OFFICE, made(folder, "office"))), folder)
    if taking.is_empty:
        report.count += 1
        return f"{given.AFTER}: nothing was changed: was its journal copied along?"
    Keeping(given.OFFICE).make()
    expect_room_for(given.AFTER, taking.home.parent)
    rows = tell(taking.all, "comes home", report)
    keep_conflicts(taking, rows)
    install(given.AFTER, taking.home)
    after.read.expect_unchanged()
    session.expect_done(taking.records())
    tell_next(given, taking, rows)
    return f"{given.OFFICE}: the copy {taking.mark.name()} is home"


def tell_next(given, taking, rows):
    """Says on standard error what there is to do."""
    if rows:
        name = pathlib.Path(sys.argv[0]).name if os.access(sys.argv[0], os.X_OK) else "mmpkg-come-home"
        words = shlex.join([name, str(given.OFFICE), "--theirs", str(taking.conflicts)])
        print(
            f"next: look at {shlex.quote(str(taking.conflicts / 'conflicts.csv'))}; to take the crew's side of what "
            f"a piece can settle:\n    {words}",
            file=sys.stderr,
        )
    if taking.all.numbers:
        print(f"next: give the crew {taking.mark.crew} a new copy: its own has the old numbers", file=sys.stderr)


def come_home(given, report):
    expect_closed(given.AFTER)
    expect_two(given.OFFICE, given.AFTER)
    with tempfile.TemporaryDirectory() as name:
        folder = pathlib.Path(name)
        after = Package(Source(given.AFTER, made(folder, "after")))
        with Session(given.OFFICE) as session:
            return take(given, session, folder, after, report)


def take_theirs(given, report):
    """Takes the crew's side of what a folder has."""
    listed, pieces = their_side.read_list(given.theirs), their_side.read_pieces(given.theirs)
    home = (given.theirs / "edition").read_text(encoding="ascii").strip()
    edition = f"{home}_{THEIRS}"
    with tempfile.TemporaryDirectory() as name, Session(given.OFFICE) as session:
        office = Package(Held(given.OFFICE, pathlib.Path(name)))
        states = office.states()
        if not homecoming.is_published(home, states):
            raise Refused(f"{given.theirs}: is of a homecoming that was cut: do that again first")
        if homecoming.is_published(edition, states):
            raise Refused(f"{given.theirs}: was taken already, as the edition {edition}")
        wanted = list(their_side.still_wanted(pieces, listed, office.parts, report))
        session.expect_done(editions(wanted, edition, states))
    return f"{given.OFFICE}: {len(wanted)} of the crew's side taken"


def main():
    parser = arguments(__doc__)
    parser.add_argument("OFFICE", type=pathlib.Path)
    parser.add_argument("AFTER", type=pathlib.Path, nargs="?")
    parser.add_argument("--again", action="store_true")
    parser.add_argument("--theirs", type=pathlib.Path, metavar="FOLDER")
    given = parser.parse_args()
    if (given.AFTER is None) == (given.theirs is None):
        raise Refused("a copy that comes home is asked for, or --theirs FOLDER")
    report = Report()
    try:
        said = take_theirs(given, report) if given.theirs else come_home(given, report)
    except sqlite3.Error as error:
        raise Refused(f"{given.OFFICE}: {error}") from error
    print(said)
    return 1 if report.count else 0


if __name__ == "__main__":
    run_tool(main)
