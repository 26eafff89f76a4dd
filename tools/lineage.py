"""What published editions, pages' words and moments tell of the past that packages have in common.

A published edition never goes away, so what a package came of has no published edition that it lacks. The office marks
each copy that it hands out by empty ones: out_MARK in its own package and so in the copy, and copy_MARK in the copy
alone. So a copy is known from what it was copied of, and from a backup of that. MARK is CREW_NUMBER_WORD: NUMBER counts
the copies of a crew, and WORD is by chance, so that no other project has it, nor a package that was put back.
"""

import dataclasses
import re

MARK = re.compile(r"(?P<crew>[a-z][a-z0-9_]{0,23})_(?P<number>[1-9][0-9]{0,8})_(?P<word>[a-z0-9]{6})")
CREW = re.compile("[a-z][a-z0-9_]{0,23}")
OUT, COPY, HOME, NEWS = "out_", "copy_", "home_", "news_"


@dataclasses.dataclass(frozen=True)
class Mark:
    """What a copy of a package is known by."""

    crew: str
    number: int
    word: str

    def __str__(self):
        return f"{self.name()}_{self.word}"

    def name(self):
        """What people call the copy."""
        return f"{self.crew}_{self.number}"


def marks_of(editions, front=OUT):
    """The marks among some editions, behind what tells of what they are."""
    found = [MARK.fullmatch(it.removeprefix(front)) for it in editions if it.startswith(front)]
    return {Mark(it["crew"], int(it["number"]), it["word"]) for it in found if it}


@dataclasses.dataclass(frozen=True)
class Past:
    """What a package tells of its past: published editions, by media table a page's word, by table its last change."""

    editions: frozenset
    words: dict
    changed: dict


def listed(names):
    return ", ".join(sorted(names))


def against(before, after, other):
    """Why AFTER or OTHER can't have come of BEFORE, each with which of them it is; OTHER may be BEFORE itself."""
    lost = before.editions - after.editions
    if lost:
        yield "AFTER", f"lacks published editions of BEFORE, which never go away: {listed(lost)}"
    if before.editions and not before.editions & other.editions:
        yield "OTHER", f"has none of BEFORE's published editions: {listed(before.editions)}"
    unmarked = marks_of(before.editions) - marks_of(other.editions)
    if unmarked and before.editions & other.editions:
        yield "OTHER", f"didn't hand BEFORE out, which is marked {listed(f'{OUT}{it}' for it in unmarked)}"
    for name, past in (("AFTER", after), ("OTHER", other)):
        if any(past.words[table] != word for table, word in before.words.items() if table in past.words):
            yield name, "is of another project than BEFORE, by the words of their pages"
        if past.editions == before.editions and is_older(past, before):
            yield name, "was last changed before BEFORE was: are the packages in the wrong order?"


def is_older(past, before):
    """Whether a package was last changed before BEFORE was, by the tables that both have."""
    moments = [(past.changed[it], changed) for it, changed in before.changed.items() if it in past.changed]
    return any(one < other for one, other in moments) and not any(one > other for one, other in moments)
