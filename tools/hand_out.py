#!/usr/bin/env python3
"""Hands a copy of the office's package out to a crew, marked so that its work finds home.

    tools/hand_out.py OFFICE CREW [--to FOLDER]
    tools/hand_out.py OFFICE --news COPY

OFFICE is a package of mmpkg, CREW a name: a small letter, and up to 23 small letters, digits and _ behind it. An empty
edition out_CREW_NUMBER_WORD is published in OFFICE, and in the copy another, copy_CREW_NUMBER_WORD. NUMBER counts the
copies of the crew, WORD is by chance, and a published edition never goes away: so OFFICE and the copy tell for ever
that they belong together, and which of them is the copy. Then there are two copies, closed and equal:

    FOLDER/CREW_NUMBER.mmpkg                            for the crew; FOLDER is that of OFFICE where --to names none
    OFFICE.crews/CREW_NUMBER_WORD.before.mmpkg          stays with the office: come_home.py finds it by the mark

All is done in one session of OFFICE, so no other program may have it. Behind a kill it is done again; then the mark is
the next, and a copy of the first that is left in OFFICE.crews is of no use.

With --news a copy that is out gets what OFFICE changed since it went out, came home or got news last: by the rule of
kit_between.py, in one session of OFFICE and one of COPY, as an edition news_CREW_NUMBER_WORD_.. there, so that nobody
writes either of them between the look and the writing. What OFFICE has is left as it is. What both
changed stays as COPY has it, and is named; it comes home as a conflict. OFFICE.crews keeps what both have in common
then, so that no news comes home as the crew's work. Rows that got other numbers at OFFICE are found by these; what
OFFICE has under a number that is another row in COPY is named and stays out: such a crew wants a new copy.

The program is the one that the environment's MMPKG names, else out/mmpkg of this repository, else mmpkg of the path.

Exit status: 0 the copies are there, or COPY has all news; 1 some news stayed out; 2 refused, wrong arguments, or a file
that can't be read or written; 3 a fault, as where another program has the package; 4 no package, or one that breaks a
rule.
"""

import pathlib
import secrets
import tempfile

import homecoming
import lineage
from border import Piece, Refused, Report, arguments, expect_new_database, record, run_tool
from keeping import Keeping, clear_parts, copy_with, expect_room_for, hand_over, install
from packages import Files, Package
from session import Held, Session
from taking import about, base_of, editions, expect_two, made, tell

LETTERS = "abcdefghijkmnpqrstuvwxyz23456789"


def new_mark(office, crew, keeping):
    """The mark of the next copy: behind those that OFFICE has, and those of which it keeps a copy."""
    word = "".join(secrets.choice(LETTERS) for _ in range(6))
    return homecoming.next_mark(crew, office.states(), keeping.marks(), word)


def hand_out(given, folder):
    """Marks OFFICE and writes both copies; returns the crew's."""
    keeping = Keeping(given.OFFICE)
    with Session(given.OFFICE) as session:
        office = Package(Held(given.OFFICE, folder))
        mark = new_mark(office, given.CREW, keeping)
        out = (given.to or given.OFFICE.parent) / f"{mark.name()}.mmpkg"
        expect_new_database(out)
        keeping.make()
        clear_parts(out.parent, lineage.marks_of(office.states()))
        expect_room_for(given.OFFICE, keeping.folder, out.parent)
        left = lineage.marks_of(name for name, state in office.states().items() if state == "open")
        session.expect_done(record(["discard", f"{lineage.OUT}{it}"]).encode() for it in left)
        session.expect_done(published(f"{lineage.OUT}{mark}"))
        with copy_with(given.OFFICE, b"".join(published(f"{lineage.COPY}{mark}")), keeping.folder) as copy:
            install(copy, keeping.before(mark))
        hand_over(keeping.before(mark), out, keeping.folder, mark)
    return out


def published(edition):
    """The records of an empty edition that is published."""
    return [record([word, edition]).encode() for word in ("edition", "publish")]


def bring_news(given, folder, report):
    """Brings a copy what its office changed; returns how that is told."""
    keeping = Keeping(given.OFFICE)
    expect_two(given.OFFICE, given.news)
    with Session(given.OFFICE), Session(given.news) as session:
        office = Package(Held(given.OFFICE, made(folder, "office")))
        copy = Package(Held(given.news, made(folder, "copy")))
        with about(given.news):
            mark = homecoming.mark_of_copy(office.past(), copy.past())
        times = homecoming.times_home(mark, office.past().editions)
        number = homecoming.news_had(mark, times, copy.past().editions) + 1
        base = base_of(copy, mark, times, keeping, folder)
        news = homecoming.News(base.parts, office.parts, copy.parts, mark, Files((office, copy, base)))
        tell(news, "news", report)
        for table, old in news.left:
            report.left_out(f"{table} {old} of {given.OFFICE}", "the copy has another under this number")
        keeping.make()
        keep_common(news, keeping, base, keeping.news(mark, times, number))
        edition = homecoming.news_edition(mark, times, number)
        session.expect_done(record(fields).encode() for fields in news.records)
        session.expect_done(editions(news.pieces, edition, copy.states()))
    return f"{given.news}: has the news of {given.OFFICE}"


def keep_common(news, keeping, base, path):
    """Keeps what a copy and its office have in common behind the news."""
    expect_room_for(base.file, keeping.folder)
    lines = [record(fields) for fields in news.common.layout()]
    for piece in news.common.content():
        data = piece.data() if callable(piece.data) else piece.data
        lines.append(Piece(piece.fields, data).command())
    with copy_with(base.file, "".join(lines).encode(), keeping.folder) as copy:
        install(copy, path)


def main():
    parser = arguments(__doc__)
    parser.add_argument("OFFICE", type=pathlib.Path)
    parser.add_argument("CREW", nargs="?")
    parser.add_argument("--to", type=pathlib.Path, metavar="FOLDER")
    parser.add_argument("--news", type=pathlib.Path, metavar="COPY")
    given = parser.parse_args()
    if (given.CREW is None) == (given.news is None) or (given.news and given.to):
        raise Refused("a crew's name is asked for, or --news COPY")
    if given.to and not given.to.is_dir():
        raise Refused(f"{given.to}: is no folder")
    report = Report()
    with tempfile.TemporaryDirectory() as name:
        folder = pathlib.Path(name)
        if given.news:
            print(bring_news(given, folder, report))
        else:
            homecoming.expect_crew(given.CREW)
            out = hand_out(given, folder)
            print(f"{out} is for the crew {given.CREW}")
    return 1 if report.count else 0


if __name__ == "__main__":
    run_tool(main)
