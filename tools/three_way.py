"""What becomes of a package that was changed in two places: the rule of kit_between.py and come_home.py.

A state of a package is a dictionary by part. Each part has a value for each key, a tuple whose first entry is the name
of a table or of a relation (of a system its number). docs/FORMATS.md has the rules that a state keeps; the help of
kit_between.py states this one.
"""

import collections
import dataclasses
import itertools

NUMBER_LIMIT = 2**53
PARTS = ("systems", "tables", "matrices", "tiles", "items", "relations", "mapped")


@dataclasses.dataclass(frozen=True)
class Table:
    """A table's definition; only a pyramid has a system and an extent."""

    kind: str
    identifier: str
    system: int | None
    extent: tuple

    def ground(self):
        """What content rests on: all but the identifier."""
        return self.kind, self.system, self.extent

    def fields(self, name):
        """The record that makes the table."""
        if self.system is None:
            return ["table", name, self.kind, self.identifier]
        return ["pyramid", name, self.identifier, self.system, *self.extent, self.kind]


def ground(state, name):
    """What the content of a table rests on, None where there is no such table."""
    table = state["tables"].get((name,))
    return table and table.ground()


def in_order(kind, zooms):
    """Whether the pixel sizes of two zooms are in the order of Q8 and Q9. Each zoom is with its sizes."""
    (low_zoom, low), (high_zoom, high) = sorted(zooms)
    pairs = list(zip(low, high))
    if kind == "two" and high_zoom == low_zoom + 1:
        return all(at_low == 2 * at_high for at_low, at_high in pairs)
    return all(at_low > at_high for at_low, at_high in pairs)


# The least number that the crew's page makes, that of 2026 begun (docs/FORMATS.md, 'Numbers and places of a crew'): no
# two crews have one, so what has it on both sides is one row.
LEAST_OF_PAGE = 4096 * 189_388_800_000


def renumbered(before, after, other):
    """AFTER with other numbers for new rows and media that collide with OTHER's, and by key the numbers that changed.

    The next numbers behind all that a table has anywhere are taken. Mapping rows go along. Numbers of the page stay.
    """
    numbers = new_numbers(colliding(before, after, other), (before, after, other))
    return with_numbers(after, numbers), numbers


def colliding(before, after, other):
    """The keys of rows and media that AFTER made, and OTHER made otherwise; those of the page aren't among them."""
    return [
        key
        for key, value in sorted(after["items"].items())
        if key not in before["items"] and other["items"].get(key, value) != value and key[1] < LEAST_OF_PAGE
    ]


def new_numbers(keys, states, others=()):
    """By their keys, numbers behind all that the tables have in some states, and among some other keys."""
    used = collections.defaultdict(set)
    for name, number in itertools.chain(others, *(state["items"] for state in states)):
        used[name].add(number)
    numbers = {}
    for key in keys:
        numbers[key] = next_number(used[key[0]])
        used[key[0]].add(numbers[key])
    return numbers


def with_numbers(state, numbers):
    """A state whose rows and media have other numbers, by their keys. Mapping rows go along."""
    items = {(key[0], numbers.get(key, key[1])): value for key, value in state["items"].items()}
    mapped = {
        (name, *(numbers.get(end, end[1]) for end in zip(tables, ids))): tables
        for (name, *ids), tables in state["mapped"].items()
    }
    return {**state, "items": items, "mapped": mapped}


def next_number(used):
    """The number behind those that are used, or where that is past the limit the first that is free."""
    last = max(used)
    return last + 1 if last < NUMBER_LIMIT else next(it for it in itertools.count(1) if it not in used)


class Merge:
    """OTHER with the changes from BEFORE to AFTER that can be made on it (result).

    Those that can't are kept with why (conflicts), and those that it has already are listed (there). `held` tells of a
    part and a key why a change of it isn't made at all, None where it may be.
    """

    def __init__(self, before, after, other, held=lambda part, key: None):
        self.before, self.after, self.other, self.held = before, after, other, held
        self.result = {part: dict(other[part]) for part in PARTS}
        self.changes, self.there, self.conflicts = set(), [], {}
        for part in PARTS:
            for key in before[part].keys() | after[part].keys():
                self.compare(part, key)
        while self.take_back():
            pass

    def compare(self, part, key):
        """Makes a change where OTHER is as BEFORE."""
        before, after, other = (state[part].get(key) for state in (self.before, self.after, self.other))
        if after == before:
            return
        if after == other:
            self.there.append((part, key))
        elif other == before and (why := self.held(part, key)):
            self.conflicts[part, key] = why
        elif other == before:
            self.changes.add((part, key))
            put(self.result[part], key, after)
        else:
            self.conflicts[part, key] = "both made one" if before is None else "both changed it"

    def take_back(self):
        """Takes back the changes that don't suit the result; returns whether there were some."""
        fit = Fit(self.after, self.other, self.result, self.conflicts)
        found = {(part, key): why for part, key in self.changes if (why := fit.against(part, key))}
        for part, key in found:
            put(self.result[part], key, self.other[part].get(key))
        self.changes -= found.keys()
        self.conflicts.update(found)
        return bool(found)


def put(part, key, value):
    """Gives a key a value, or takes it away by None."""
    if value is None:
        part.pop(key, None)
    else:
        part[key] = value


class Fit:
    """Why a change does not suit a result, where some are conflicts."""

    def __init__(self, after, other, result, conflicts):
        self.after, self.other, self.result, self.conflicts = after, other, result, conflicts
        self.rules = {
            "systems": self.against_system,
            "tables": self.against_table,
            "matrices": self.against_matrix,
            "tiles": self.against_tile,
            "items": self.against_item,
            "relations": self.against_relation,
            "mapped": self.against_mapped,
        }
        own = {part: {key for key, value in result[part].items() if after[part].get(key) != value} for part in PARTS}
        # Where the result has what AFTER has not so.
        self.own_tables = {key[0] for part in ("matrices", "tiles", "items") for key in own[part]}
        self.own_tables |= {
            name for part in ("relations", "mapped") for key in own[part] for name in result[part][key][:2]
        }
        self.own_zooms = {key[:2] for key in own["tiles"]}
        self.own_relations = {key[0] for key in own["mapped"]}
        self.identifiers = collections.Counter(table.identifier for table in result["tables"].values())
        self.ends = {end for (_, *ids), tables in result["mapped"].items() for end in zip(tables, ids)}
        self.zooms = collections.defaultdict(list)
        for (name, zoom), sizes in result["matrices"].items():
            self.zooms[name].append((zoom, sizes[4:]))

    def against(self, part, key):
        """Why a change does not suit, None where it does."""
        return self.rules[part](key, self.after[part].get(key))

    def same(self, part, key):
        """Whether the result has a key as AFTER has it, and so it is no conflict."""
        return self.result[part].get(key) == self.after[part].get(key)

    def same_ground(self, *names):
        """Whether the result has tables as AFTER has them, their identifiers aside, and none is a conflict."""
        return all(
            ground(self.result, name) == ground(self.after, name) and ("tables", (name,)) not in self.conflicts
            for name in names
        )

    def against_system(self, key, _):
        return "no record changes a system or takes it away" if key in self.other["systems"] else None

    def against_table(self, key, table):
        if table and table.system is not None and not self.same("systems", (table.system,)):
            return f"system {table.system} isn't as in AFTER, or is a conflict"
        if table and key in self.result["relations"]:
            return "a relation has its name"
        if table and self.identifiers[table.identifier] > 1:
            return "another table has its identifier"
        if key[0] in self.own_tables and ground(self.other, key[0]) != ground(self.after, key[0]):
            return "it would take something along that AFTER doesn't have so"
        return None

    def against_matrix(self, key, sizes):
        name, zoom = key
        if not self.same_ground(name):
            return "its table isn't as in AFTER, or is a conflict"
        if key in self.own_zooms:
            return "it would take tiles along that AFTER doesn't have so"
        if sizes and not all(
            in_order(ground(self.result, name)[0], [(zoom, sizes[4:]), other])
            for other in self.zooms[name]
            if other[0] != zoom
        ):
            return "its pixel size doesn't suit another zoom"
        return None

    def against_tile(self, key, _):
        if not self.same_ground(key[0]):
            return "its table isn't as in AFTER, or is a conflict"
        return None if self.same("matrices", key[:2]) else "its matrix isn't as in AFTER, or is a conflict"

    def against_item(self, key, value):
        if not self.same_ground(key[0]):
            return "its table isn't as in AFTER, or is a conflict"
        return "a mapping row names it" if value is None and key in self.ends else None

    def against_relation(self, key, value):
        if value and not self.same_ground(*value[:2]):
            return "a table that it relates isn't as in AFTER, or is a conflict"
        if value and key in self.result["tables"]:
            return "a table has its name"
        return "it would take mapping rows along that AFTER doesn't have so" if key[0] in self.own_relations else None

    def against_mapped(self, key, tables):
        if not self.same("relations", key[:1]):
            return "its relation isn't as in AFTER, or is a conflict"
        if tables and not self.same_ground(*tables):
            return "a table that it relates isn't as in AFTER, or is a conflict"
        if tables and not all(
            end in self.result["items"] and ("items", end) not in self.conflicts for end in zip(tables, key[1:])
        ):
            return "what it relates isn't there, or is a conflict"
        return None


class Theirs:
    """Which conflicts pieces of a kit can settle as AFTER has them, behind a merge; `goal` is its result with these."""

    def __init__(self, merged):
        self.start, self.after = merged.result, merged.after
        self.goal = {part: dict(values) for part, values in self.start.items()}
        self.taken = {change for change in merged.conflicts if change[0] in ("matrices", "tiles", "items", "mapped")}
        for part, key in self.taken:
            put(self.goal[part], key, self.after[part].get(key))
        while self.take_back():
            pass

    def take_back(self):
        """Takes back what the goal doesn't suit; returns whether there was some."""
        self.ends = {end for (_, *ids), tables in self.goal["mapped"].items() for end in zip(tables, ids)}
        rules = {
            "matrices": self.suits_matrix,
            "tiles": self.suits_tile,
            "items": self.suits_item,
            "mapped": self.suits_mapped,
        }
        unsuited = {(part, key) for part, key in self.taken if not rules[part](key, self.after[part].get(key))}
        for part, key in unsuited:
            put(self.goal[part], key, self.start[part].get(key))
        self.taken -= unsuited
        return bool(unsuited)

    def suits_matrix(self, key, sizes):
        """A matrix only comes: none goes or changes as a piece."""
        table = self.goal["tables"].get(key[:1])
        if sizes is None or key in self.start["matrices"] or table is None or table.system is None:
            return False
        left, low, right, high = table.extent
        covers = (right - left, high - low) == (sizes[0] * sizes[2] * sizes[4], sizes[1] * sizes[3] * sizes[5])
        others = [
            (zoom, it[4:]) for (name, zoom), it in self.goal["matrices"].items() if name == key[0] and zoom != key[1]
        ]
        return covers and all(in_order(table.kind, [(key[1], sizes[4:]), other]) for other in others)

    def suits_tile(self, key, value):
        if value is None:
            return key in self.start["tiles"]
        sizes = self.goal["matrices"].get(key[:2])
        return sizes is not None and key[2] < sizes[0] and key[3] < sizes[1]

    def suits_item(self, key, value):
        if value is None:
            return key in self.start["items"] and key not in self.ends
        table = self.goal["tables"].get(key[:1])
        return table is not None and table.kind == {"row": "attributes", "media": "media"}[value[0]]

    def suits_mapped(self, key, tables):
        if tables is None:
            return key in self.start["mapped"]
        relation = self.goal["relations"].get(key[:1])
        return (
            key not in self.start["mapped"]
            and relation is not None
            and relation[:2] == tables
            and all(end in self.goal["items"] for end in zip(tables, key[1:]))
        )
