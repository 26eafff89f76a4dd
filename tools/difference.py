"""What turns one state of a package into another, as records and pieces, and how states are told."""

from border import Piece, record


class Difference:
    """What turns one state into another that has all its systems: records of the layout, and pieces of content."""

    def __init__(self, start, goal, files):
        self.start, self.goal, self.files = start, goal, files
        self.tables = {
            key[0]
            for part in ("tables", "matrices")
            for key, value in start[part].items()
            if goal[part].get(key) != value
        }
        self.relations = {
            key[0]
            for key, value in start["relations"].items()
            if goal["relations"].get(key) != value or self.tables & set(value[:2])
        }

    def layout(self):
        """The records that go before the content."""
        for name in sorted(self.relations):
            yield ["relation-drop", name]
        for name in sorted(self.tables):
            yield ["drop", name]
        for key, value in self.comes("systems"):
            yield ["srs", *key, *value]
        for key, table in self.comes("tables"):
            yield table.fields(*key)
        for key, value in self.comes("relations"):
            yield ["relation", *key, *value]

    def gone(self, part):
        """Of which tables or relations the layout takes away all that a part has."""
        return self.relations if part in ("relations", "mapped") else self.tables

    def goes(self, part):
        """What goes of what the layout leaves."""
        gone = self.gone(part)
        return sorted(
            (key, value) for key, value in self.start[part].items() if key not in self.goal[part] and key[0] not in gone
        )

    def comes(self, part):
        """What comes, changed, or comes again."""
        start, gone = self.start[part], self.gone(part)
        return sorted(
            ((key, value) for key, value in self.goal[part].items() if start.get(key) != value or key[0] in gone),
            key=lambda entry: entry[0],
        )

    def content(self):
        """The pieces, in an order in which each is accepted behind the layout."""
        yield from (Piece(["map-drop", *key]) for key, _ in self.goes("mapped"))
        yield from (Piece([f"{value[0]}-drop", *key]) for key, value in self.goes("items"))
        yield from (Piece(["tile-drop", *key]) for key, _ in self.goes("tiles"))
        yield from (Piece(["matrix", *key, *value]) for key, value in self.comes("matrices"))
        yield from (self.item(key, value) for key, value in self.comes("items"))
        yield from (self.files.piece(["tile", *key], digest) for key, (digest,) in self.comes("tiles"))
        yield from (Piece(["map", *key]) for key, _ in self.comes("mapped"))

    def item(self, key, value):
        if value[0] == "row":
            return Piece(["row", *key, *value[1:]])
        return self.files.piece(["media", *key, value[1]], value[2])


def told(part, value):
    """A value as the fields of its record, without its key."""
    if value is None:
        return ""
    if part == "tables":
        value = value.fields("")[:1] + value.fields("")[2:]
    return record(value[1:] if part == "items" else value).removesuffix("\n")


def word_of(merged, part, key):
    """What a key is of, in one word: of a row or a media item that goes it is what BEFORE has."""
    if part == "items":
        return (merged.after[part].get(key) or merged.before[part][key])[0]
    return {
        "systems": "system",
        "tables": "table",
        "matrices": "matrix",
        "tiles": "tile",
        "relations": "relation",
        "mapped": "map",
    }[part]


def summary(counts):
    """How many there are of each word."""
    return ", ".join(f"{count} {word}" for word, count in sorted(counts.items())) or "nothing"
