"""Columns of a layer that a package has no place for, as words NAME=VALUE of a row's note (docs/FORMATS.md)."""

import re

from points import SPACE

WHITE = SPACE[1:-1]
NOT_IN_A_NAME = re.compile(f'[="{WHITE}]')
SPACED = re.compile(SPACE)
WORD = re.compile(rf'(?:^|{SPACE})([^="@{WHITE}][^="{WHITE}]*)=("(?:[^"]|"")*"|[^"{WHITE}][^{WHITE}]*)(?={SPACE}|$)')
WHOLE = re.compile(r"0|-?[1-9][0-9]{0,17}")
DECIMAL = re.compile(r"-?(0|[1-9][0-9]{0,14})\.[0-9]{0,14}[1-9]|-?(0|[1-9][0-9]{0,14})\.0")


def name_of(column):
    """A column's name as a word of a note can have it."""
    name = NOT_IN_A_NAME.sub("_", column)
    return f"_{name}" if name.startswith("@") or not name else name


def word_of(column, value):
    """A value of a column as a word: in double quotes where it is empty, has white space, or begins with one."""
    if not value or value.startswith('"') or SPACED.search(value):
        value = '"' + value.replace('"', '""') + '"'
    return f"{name_of(column)}={value}"


def columns_in(note):
    """The values that a note has as words, by their names, and the rest of it; of two of one name the first counts."""
    found, rest, end = {}, "", 0
    for word in WORD.finditer(note):
        if word[1] not in found:
            found[word[1]] = word[2][1:-1].replace('""', '"') if word[2].startswith('"') else word[2]
            rest, end = rest + note[end : word.start()], word.end()
    return found, (rest + note[end:]).strip()


def type_of(values):
    """The type of a column with such values, by which none of them changes a letter."""
    if all(WHOLE.fullmatch(it) for it in values):
        return "INTEGER"
    if all(WHOLE.fullmatch(it) or DECIMAL.fullmatch(it) for it in values) and all(spelled(it) for it in values):
        return "REAL"
    return "TEXT"


def spelled(value):
    """Whether a number is spelled as a DOUBLE of it is, but for what stands behind a whole one."""
    return value in (repr(float(value)), repr(float(value)).removesuffix(".0"))


def in_order(names):
    """Names of words in the order of their columns: those of a place that the device told stay behind each other."""
    behind = [it for it in ("h", "age") if "acc" in names and it in names]
    return [it for name in names if name not in behind for it in ([name, *behind] if name == "acc" else [name])]


def free_names(names, taken):
    """By name, a name of a column that no other has, whatever its letters' case: numbered where it is taken."""
    used, found = {it.lower() for it in taken}, {}
    for name in names:
        number, free = 1, name
        while free.lower() in used:
            number += 1
            free = f"{name}_{number}"
        used.add(free.lower())
        found[name] = free
    return found
