"""What a package becomes that was changed in two places, from docs/BORDER.md alone, over the dictionaries of the
model.

It shares no code with tools/kit_between.py, and takes the rule as it is written: each change is held against every
entry. An entry is the word of a part with a key, and its value; bytes are themselves here.
"""

from package_model import Package, in_order
from package_records import PYRAMIDS


def entries(package):
    """All that a package has and that crosses, by its entry."""
    found = {("system", number): values for number, values in package.systems.items()}
    found |= {("table", name): (it.kind, it.identifier, it.system, it.extent) for name, it in package.tables.items()}
    found |= {("matrix", *key): it for key, it in package.matrices.items()}
    found |= {("tile", *key): data for key, data in package.tiles.items()}
    found |= {("item", *key): ("row", *values) for key, values in package.rows.items()}
    found |= {("item", *key): ("media", *values) for key, values in package.media.items()}
    found |= {("relation", name): values for name, values in package.relations.items()}
    return found | {("map", *key): package.relations[key[0]][:2] for key in package.mapped}


def package_of(found, editions):
    """The package that has these entries, and some editions."""
    package = Package()
    package.editions = editions
    for (part, *key), value in found.items():
        key = tuple(key)
        if part == "system":
            package.do_srs(*key, *value)
        elif part == "table" and value[0] in PYRAMIDS:
            package.do_pyramid(*key, value[1], value[2], *value[3], value[0])
        elif part == "table":
            package.do_table(*key, value[0], value[1])
        elif part == "item":
            (package.rows if value[0] == "row" else package.media)[key] = value[1:]
        elif part == "map":
            package.mapped.add(key)
        elif part == "relation":
            package.relations[key[0]] = value
        else:
            (package.matrices if part == "matrix" else package.tiles)[key] = value
    return package


def ground(value):
    """What of a table content rests on: all but its identifier."""
    return value and (value[0], value[2], value[3])


def whole(value):
    return value


def stands(value):
    return value is not None


def below(entry, value):
    """What an entry rests on, each with what of it matters; what goes has no value."""
    part, *key = entry
    if part in ("matrix", "tile", "item"):
        yield ("table", key[0]), ground
    if part == "tile":
        yield ("matrix", key[0], key[1]), whole
    if part == "map":
        yield ("relation", key[0]), whole
    if value is None:
        return
    if part == "table" and value[2] is not None:
        yield ("system", value[2]), whole
    if part in ("relation", "map"):
        yield from ((("table", name), ground) for name in value[:2])
    if part == "map":
        yield from ((("item", *end), stands) for end in zip(value, key[1:]))


def suits_others(entry, value, result):
    """Whether names, identifiers and pixel sizes suit the other entries."""
    part, *key = entry
    if part == "table":
        same = [other for other, it in result.items() if other[0] == "table" and it[1] == value[1]]
        return ("relation", key[0]) not in result and same == [entry]
    if part == "relation":
        return ("table", key[0]) not in result
    if part == "matrix" and ("table", key[0]) in result:
        others = [(other[2], it) for other, it in result.items() if other[:2] == entry[:2] and other != entry]
        kind = result["table", key[0]][0]
        return all(
            in_order(kind, *low, *high)
            for low, high in (sorted([(key[1], value), it], key=lambda at: at[0]) for it in others)
        )
    return True


def can_be_made(entry, after, other, result, conflicts):
    """Whether a change of OTHER can be made, where the result is what all changes that were not taken back give."""
    value = after.get(entry)
    if entry[0] == "system" and entry in other:
        return False
    if any(it in conflicts or matters(result.get(it)) != matters(after.get(it)) for it, matters in below(entry, value)):
        return False
    for above, it in result.items():
        if it != after.get(above) and any(
            on == entry and matters(value) != matters(other.get(entry)) for on, matters in below(above, it)
        ):
            return False
    return value is None or suits_others(entry, value, result)


def by_the_rule(before, after, other):
    """What OTHER becomes with the changes from BEFORE to AFTER, and the entries that are conflicts."""
    changed = {
        entry for entry in before.keys() | after.keys() if after.get(entry) not in (before.get(entry), other.get(entry))
    }
    made = {entry for entry in changed if before.get(entry) == other.get(entry)}
    while True:
        result = {entry: value for entry, value in other.items() if entry not in made} | {
            entry: after[entry] for entry in made if entry in after
        }
        back = {entry for entry in made if not can_be_made(entry, after, other, result, changed - made)}
        if not back:
            return result, changed - made
        made -= back
