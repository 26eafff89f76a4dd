"""The crew's side of what a homecoming left as the office has it: the folder that come_home.py wrote."""

import csv

from border import Piece, Refused
from difference import told

# By a record's word, which part it is of, and how many fields its key has.
PARTS = {
    "matrix": ("matrices", 2),
    "tile": ("tiles", 4),
    "row": ("items", 2),
    "media": ("items", 2),
    "map": ("mapped", 3),
}


def read_list(folder):
    """By what and key, what the office's package had of each conflict of a list."""
    with open(folder / "conflicts.csv", encoding="utf-8", newline="") as opened:
        rows = list(csv.reader(opened))[1:]
    if any(len(row) != 5 for row in rows):
        raise Refused(f"{folder}/conflicts.csv: a line has other than five fields")
    return {(row[0], row[1]): row[4] for row in rows}


def read_pieces(folder):
    """The pieces of the kits of a folder, with their bytes."""
    for kit in sorted(folder.glob("theirs*"), key=lambda it: int(it.name.removeprefix("theirs").strip("_") or 1)):
        with open(kit / "kit.csv", encoding="utf-8", newline="") as opened:
            for _, *fields in csv.reader(opened):
                has_bytes = fields[0] in ("tile", "media")
                yield Piece(fields[:-1], (kit / fields[-1]).read_bytes()) if has_bytes else Piece(fields)


def still_wanted(pieces, listed, office, report):
    """The pieces whose conflicts are listed, and of which the office's package still has what the list says."""
    for piece in pieces:
        word = piece.fields[0].removesuffix("-drop")
        part, size = PARTS[word]
        name, *numbers = piece.fields[1 : 1 + size]
        key = " ".join([name, *numbers])
        if (word, key) not in listed:
            continue
        if told(part, office[part].get((name, *map(int, numbers)))) == listed[word, key]:
            yield piece
        else:
            report.left_out(f"{word} {key}", "the office's package has it otherwise by now")
