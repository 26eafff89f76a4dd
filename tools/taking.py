"""What come_home.py and hand_out.py share: what a copy comes of, and how what was reckoned is told and done."""

import collections
import contextlib
import pathlib
import sys

import homecoming
from border import Piece, Refused, Source, record
from difference import summary, told, word_of
from packages import Package


@contextlib.contextmanager
def about(file):
    """Has a refusal that speaks of a package name it."""
    try:
        yield
    except Refused as refused:
        raise Refused(f"{file}: {refused}", refused.status) from refused


def expect_two(office, copy):
    """Refuses where a copy and the office's package are one file."""
    if copy.exists() and office.exists() and copy.samefile(office):
        raise Refused(f"{copy}: is the office's package itself")


def made(folder, name):
    """A folder that is made in another."""
    path = pathlib.Path(folder) / name
    path.mkdir()
    return path


def base_of(copy, mark, times, keeping, folder):
    """What a copy and its office have in common: as it went out, came home last, or got its news last."""
    kept = keeping.base(mark, times, homecoming.news_had(mark, times, copy.past().editions))
    with about(copy.file):
        if not kept.exists():
            raise Refused(f"comes of {kept}, which isn't there: is that beside the office's package?")
        base = Package(Source(kept, made(folder, "base")))
        homecoming.expect_descent(base.past(), copy.past())
    return base


def editions(pieces, edition, states):
    """The records that stage and publish pieces as an edition, or as several. What a kill left open of it goes."""
    for name, state in states.items():
        if state == "open" and (name == edition or name.startswith(f"{edition}_part_")):
            yield record(["discard", name]).encode()
    taken = {name for name, state in states.items() if state == "published"}
    for name, part in homecoming.editions_of(pieces, edition, taken):
        yield record(["edition", name]).encode()
        yield from staged(part, name)


def staged(pieces, edition):
    """The records that stage pieces in an edition that stands, and publish it."""
    for number, piece in enumerate(pieces, 1):
        data = piece.data() if callable(piece.data) else piece.data
        yield f"stage,{edition},{number},{Piece(piece.fields, data).command()}".encode()
    yield record(["publish", edition]).encode()


def tell(reckoned, title, report):
    """Says what comes, what doesn't, and which numbers are others; returns the rows of the list of conflicts."""
    merged, rows, counts = reckoned.merged, [], collections.Counter()
    for (part, key), why in sorted(merged.conflicts.items(), key=lambda entry: entry[0]):
        what, name = word_of(merged, part, key), " ".join(map(str, key))
        report.left_out(f"{what} {name}", why)
        states = merged.before, merged.after, merged.other
        rows.append([what, name, *(told(part, it[part].get(key)) for it in states)])
        counts[what] += 1
    for name in reckoned.renamed:
        report.left_out(f"identifier of {name}", "the table keeps its own")
    for key, number in sorted(reckoned.numbers.items()):
        print(f"renumbered: {reckoned.words[key]} {key[0]} {key[1]} is {number}", file=sys.stderr)
    came = collections.Counter(fields[0] for fields in reckoned.records)
    came.update(piece.fields[0] for piece in reckoned.pieces)
    there = collections.Counter(word_of(merged, *change) for change in merged.there)
    for title, counted in ((title, came), ("there already", there), ("conflicts", counts)):
        print(f"{title}: {summary(counted)}", file=sys.stderr)
    parts = -(-len(reckoned.pieces) // homecoming.KIT_PIECES)
    if parts > 1:
        print(f"{len(reckoned.pieces)} pieces want {parts} editions: the last says that all is there", file=sys.stderr)
    return rows
