"""A map package in plain Python, written from docs/FORMATS.md alone: its commands with their conditions, editions
and kits.

It shares no code with the program and none of its definitions, so a mistake would have to be made in both to be missed.
What it leaves out: faults, openings and the sixteen rules, of which the program's own check answers for the last.
"""

import datetime
from dataclasses import dataclass, replace

from package_records import (
    FILE_NAME,
    ITEM,
    MOST_KIT_BYTES,
    MOST_PIECES,
    PIECES,
    PYRAMIDS,
    Refused,
    Word,
    decoded,
    read_fields,
    records,
)

GIVEN_SYSTEMS = {
    4326: ("WGS 84 geographic", "EPSG", 4326, "EPSG:4326", "longitude and latitude"),
    -1: ("Undefined Cartesian", "NONE", -1, "undefined", "undefined Cartesian coordinates"),
    0: ("Undefined geographic", "NONE", 0, "undefined", "undefined geographic coordinates"),
}
GEOGRAPHIC = (0, 4326)


def stamp(moment):
    """Returns the stamp of a moment."""
    civil = datetime.datetime(1970, 1, 1) + datetime.timedelta(milliseconds=moment)
    return civil.isoformat(timespec="milliseconds") + "Z"


@dataclass(frozen=True)
class Table:
    """A row of the contents, with its kind: a pyramid has a system and an extent."""

    kind: str
    identifier: str
    last_change: str
    system: int = None
    extent: tuple = (None,) * 4


@dataclass(frozen=True)
class Matrix:
    """A matrix of tiles, each pair as of x and of y."""

    size: tuple
    tile: tuple
    pixel: tuple

    def covers(self, extent):
        """Whether the extent is the product."""
        spans = extent[2] - extent[0], extent[3] - extent[1]
        return all(
            span == size * tile * pixel for span, size, tile, pixel in zip(spans, self.size, self.tile, self.pixel)
        )


def in_order(kind, low_zoom, low, high_zoom, high):
    """Whether the matrices of two zooms keep the rules on pixel sizes."""
    pairs = list(zip(low.pixel, high.pixel))
    falling = all(at_low > at_high for at_low, at_high in pairs)
    ratio = kind != "two" or high_zoom != low_zoom + 1 or all(at_low == 2 * at_high for at_low, at_high in pairs)
    return falling and ratio


class Package:
    """A package as a value. A command is its word and values; `apply` answers it.

    Of each command `against_..` yields the conditions that hold, and `do_..` makes the change.
    """

    def __init__(self):
        self.systems = dict(GIVEN_SYSTEMS)
        self.tables = {}
        self.matrices = {}
        self.tiles = {}
        self.rows = {}
        self.media = {}
        self.relations = {}
        self.mapped = set()
        self.editions = {}

    def copy(self):
        """Returns a package that stays as it is where this one changes."""
        other = Package()
        for part, value in vars(self).items():
            setattr(other, part, value.copy())
        return other

    def apply(self, command, moment):
        """Does a command at a moment, or leaves all as it is; returns the answer."""
        word, *values = command
        if word in ("publish", "rehearse"):
            return self.publish(word, values[0], moment)
        conditions = set(getattr(self, "against_" + word.replace("-", "_"))(*values))
        if conditions:
            return f"refused {min(conditions)}"
        getattr(self, "do_" + word.replace("-", "_"))(*values)
        if word in ("pyramid", "table", *PIECES) and word not in ("map", "map-drop"):
            self.tables[values[0]] = replace(self.tables[values[0]], last_change=stamp(moment))
        return "ok"

    def publish(self, word, edition, moment):
        """Does or rehearses the pieces of an edition in turn; returns the answer."""
        pieces = self.editions.get(edition, ())
        for number in self.against_discard(edition):
            return f"refused {number}"
        future = self.copy()
        for number, piece in enumerate(pieces, 1):
            answer = future.apply(piece, moment)
            if answer != "ok":
                return f"refused 53 {number} {answer.split()[1]}"
        if word == "publish":
            future.editions[edition] = None
            self.__dict__ = future.__dict__
        return "ok"

    def kind(self, table):
        """Returns the kind of a table, or None."""
        return self.tables[table].kind if table in self.tables else None

    def is_pyramid(self, table):
        """Whether a pyramid has the name."""
        return self.kind(table) in PYRAMIDS

    def zooms(self, table):
        """Returns the matrices of a pyramid by zoom."""
        return {zoom: matrix for (name, zoom), matrix in self.matrices.items() if name == table}

    def is_item(self, table, item):
        """Whether a row or a media item stands."""
        return (table, item) in self.rows or (table, item) in self.media

    def is_mapped(self, table, item):
        """Whether a mapping row names an item, as base or as related."""
        ends = ((self.relations[mapping], base, related) for mapping, base, related in self.mapped)
        return any((table, item) in ((ends_of[0], base), (ends_of[1], related)) for ends_of, base, related in ends)

    def against_name(self, table, kinds):
        """25 and 26: the table is missing, or of no such kind."""
        if table not in self.tables:
            yield 25
        elif self.kind(table) not in kinds:
            yield 26

    def against_new(self, table, identifier):
        """23 and 24: the name or the identifier is taken."""
        if table in self.tables or table in self.relations:
            yield 23
        if any(it.identifier == identifier for it in self.tables.values()):
            yield 24

    def against_srs(self, system, *_):
        if system in self.systems:
            yield 20

    def do_srs(self, system, *values):
        self.systems[system] = values

    def against_pyramid(self, table, identifier, system, min_x, min_y, max_x, max_y, _step):
        if system not in self.systems:
            yield 21
        if system in GEOGRAPHIC:
            yield 22
        yield from self.against_new(table, identifier)
        if min_x >= max_x or min_y >= max_y:
            yield 27

    def do_pyramid(self, table, identifier, system, *extent_and_step):
        *extent, step = extent_and_step
        self.tables[table] = Table(step, identifier, "", system, tuple(extent))

    def against_matrix(self, table, zoom, *sizes):
        yield from self.against_name(table, PYRAMIDS)
        if not self.is_pyramid(table):
            return
        matrix, others = Matrix(sizes[:2], sizes[2:4], sizes[4:]), self.zooms(table)
        if zoom in others:
            yield 30
        if not matrix.covers(self.tables[table].extent):
            yield 31
        for other_zoom, other in others.items():
            low, high = sorted([(zoom, matrix), (other_zoom, other)], key=lambda it: it[0])
            if zoom != other_zoom and not in_order(self.kind(table), *low, *high):
                yield 32

    def do_matrix(self, table, zoom, *sizes):
        self.matrices[table, zoom] = Matrix(sizes[:2], sizes[2:4], sizes[4:])

    def against_table(self, table, _kind, identifier):
        yield from self.against_new(table, identifier)

    def do_table(self, table, kind, identifier):
        self.tables[table] = Table(kind, identifier, "")

    def against_drop(self, table):
        if table not in self.tables:
            yield 25
        if any(table in relation[:2] for relation in self.relations.values()):
            yield 48

    def do_drop(self, table):
        del self.tables[table]
        for part in ("matrices", "tiles", "rows", "media"):
            setattr(self, part, {key: value for key, value in getattr(self, part).items() if key[0] != table})

    def against_tile(self, table, zoom, column, row, _data):
        yield from self.against_name(table, PYRAMIDS)
        matrix = self.matrices.get((table, zoom))
        if self.is_pyramid(table) and matrix is None:
            yield 33
        if matrix and (column >= matrix.size[0] or row >= matrix.size[1]):
            yield 34

    def do_tile(self, table, zoom, column, row, data):
        self.tiles[table, zoom, column, row] = data

    def against_tile_drop(self, table, *place):
        yield from self.against_name(table, PYRAMIDS)
        if self.is_pyramid(table) and (table, *place) not in self.tiles:
            yield 35

    def do_tile_drop(self, *key):
        del self.tiles[key]

    def against_row(self, table, *_):
        yield from self.against_name(table, ("attributes",))

    def do_row(self, table, item, title, note, amount):
        self.rows[table, item] = title, note, amount

    def against_row_drop(self, table, item):
        yield from self.against_name(table, ("attributes",))
        if self.kind(table) == "attributes" and (table, item) not in self.rows:
            yield 40
        if self.is_mapped(table, item):
            yield 42

    def do_row_drop(self, *key):
        del self.rows[key]

    def against_media(self, table, *_):
        yield from self.against_name(table, ("media",))

    def do_media(self, table, item, content_type, data):
        self.media[table, item] = content_type, data

    def against_media_drop(self, table, item):
        yield from self.against_name(table, ("media",))
        if self.kind(table) == "media" and (table, item) not in self.media:
            yield 41
        if self.is_mapped(table, item):
            yield 42

    def do_media_drop(self, *key):
        del self.media[key]

    def against_relation(self, mapping, base, related, name):
        if mapping in self.tables or mapping in self.relations:
            yield 43
        if base not in self.tables or related not in self.tables:
            yield 25
            return
        wanted = "media" if name == "media" else "attributes"
        if self.is_pyramid(base) or self.kind(related) != wanted:
            yield 47

    def do_relation(self, mapping, *values):
        self.relations[mapping] = values

    def against_relation_drop(self, mapping):
        if mapping not in self.relations:
            yield 44

    def do_relation_drop(self, mapping):
        del self.relations[mapping]
        self.mapped = {it for it in self.mapped if it[0] != mapping}

    def against_map(self, mapping, *items):
        if mapping not in self.relations:
            yield 44
            return
        for table, item in zip(self.relations[mapping], items):
            if not self.is_item(table, item):
                yield 40 if self.kind(table) == "attributes" else 41
        if (mapping, *items) in self.mapped:
            yield 45

    def do_map(self, *key):
        self.mapped.add(key)

    def against_map_drop(self, mapping, *items):
        if mapping not in self.relations:
            yield 44
        elif (mapping, *items) not in self.mapped:
            yield 46

    def do_map_drop(self, *key):
        self.mapped.remove(key)

    def against_edition(self, edition):
        if edition in self.editions:
            yield 50

    def do_edition(self, edition):
        self.editions[edition] = ()

    def against_discard(self, edition):
        if edition not in self.editions:
            yield 51
        elif self.editions[edition] is None:
            yield 55

    def do_discard(self, edition):
        del self.editions[edition]

    def against_stage(self, edition, number, *piece):
        yield from self.against_discard(edition)
        pieces = self.editions.get(edition)
        if pieces is None:
            return
        if number > len(pieces) + 1 or (number <= len(pieces) and pieces[number - 1] != piece):
            yield 52
        if number == MOST_PIECES + 1 == len(pieces) + 1:
            yield 54

    def do_stage(self, edition, number, *piece):
        if number > len(self.editions[edition]):
            self.editions[edition] += (piece,)

    def import_kit(self, edition, folder):
        """Stages the pieces of a kit, a folder as the bytes of its files by name; returns the answer."""
        text = folder.get("kit.csv")
        if text is None or len(text) > MOST_KIT_BYTES:
            return "refused 0 57" if text is None else "refused 0 11"
        kit = records(text)
        for place, record in enumerate(kit, 1):
            against = against_kit_record(place, record)
            if against:
                return f"refused {place} {min(against)}"
        for number in self.against_discard(edition):
            return f"refused 0 {number}"
        if len(self.editions[edition]) > len(kit):
            return f"refused {len(kit) + 1} 52"
        for place, record in enumerate(kit, 1):
            answer = self.import_record(edition, place, decoded(record), folder)
            if answer != "ok":
                return answer
        return f"complete {len(kit)}"

    def import_record(self, edition, place, fields, folder):
        """Stages the piece of a kit's record; returns the answer."""
        if fields[1] in ("tile", "media"):
            data = folder.get(fields[-1])
            if data is None:
                return f"refused {place} 57"
            fields = [*fields[:-1], data.hex()]
        values, against = read_fields(PIECES[fields[1]], fields[2:])
        conditions = against or set(self.against_stage(edition, place, fields[1], *values))
        if conditions:
            return f"refused {place} {min(conditions)}"
        self.do_stage(edition, place, fields[1], *values)
        return "ok"


def against_kit_record(place, record):
    """Returns the numbers against a record of a kit's list that are known without its file."""
    try:
        fields = decoded(record)
    except Refused as refused:
        return {refused.number}
    sorts = PIECES.get(fields[1]) if len(fields) > 1 else None
    if sorts is None:
        return {10}
    sorts = (*sorts[:-1], FILE_NAME) if fields[1] in ("tile", "media") else sorts
    values, against = read_fields((ITEM, Word(tuple(PIECES)), *sorts), fields)
    if values and values[0] not in (None, place):
        against.add(56)
    return against | ({54} if place > MOST_PIECES else set())
