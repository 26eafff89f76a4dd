"""What stands in the package that an import is for: its layout, its last numbers, and what would be written over."""

import collections
import hashlib
import sqlite3

from border import NOTED, Refused

# By a record's word, how many fields of it are its key, and the query for what the rest of it is in a package.
QUERIES = {
    "row": (3, "SELECT title, note, amount FROM mm_rows WHERE table_name = ? AND id = ?"),
    "media": (
        3,
        "SELECT content_type, digest FROM mm_media m JOIN mm_blobs b ON b.id = m.blob "
        "WHERE table_name = ? AND m.id = ?",
    ),
    "tile": (
        5,
        "SELECT digest FROM mm_tiles t JOIN mm_blobs b ON b.id = t.blob "
        "WHERE table_name = ? AND zoom_level = ? AND tile_column = ? AND tile_row = ?",
    ),
}
WORDS = {"row": "rows", "media": "media", "tile": "tiles"}

# By a record's word, which of its fields are the key, which are the rest, and the query for these. Identifiers are no
# matter: a table is found by its name.
LAYOUT = {
    "srs": (
        slice(1, 2),
        slice(2, None),
        "SELECT srs_name, organization, organization_coordsys_id, definition, description FROM gpkg_spatial_ref_sys "
        "WHERE srs_id = ?",
    ),
    "table": (slice(1, 2), slice(2, 3), "SELECT kind FROM mm_tables WHERE table_name = ?"),
    "pyramid": (
        slice(1, 2),
        slice(3, None),
        "SELECT srs_id, min_x, min_y, max_x, max_y, kind FROM gpkg_contents JOIN mm_tables USING (table_name) "
        "WHERE table_name = ?",
    ),
    "matrix": (
        slice(1, 3),
        slice(3, None),
        "SELECT matrix_width, matrix_height, tile_width, tile_height, pixel_x_size, pixel_y_size FROM gpkg_tile_matrix "
        "WHERE table_name = ? AND zoom_level = ?",
    ),
    "relation": (
        slice(1, 2),
        slice(2, None),
        "SELECT base_table_name, related_table_name, relation_name FROM gpkgext_relations WHERE mapping_table_name = ?",
    ),
}


class Standing:
    """A package that is read, and of the pieces that pass those that would write over what it has."""

    def __init__(self, file, source):
        self.file = file
        self.source = source
        self.opened = sqlite3.connect(self.source.address(), uri=True)
        self.over = collections.defaultdict(list)

    def last_number(self, table):
        """The greatest number of a row or a media item, None where a table has none."""
        queries = (f"SELECT max(id) FROM {it} WHERE table_name = ?" for it in ("mm_rows", "mm_media"))
        return max((self.opened.execute(it, (table,)).fetchone()[0] for it in queries), key=lambda it: it or 0)

    def missing(self, records, report):
        """The records of a layout that FILE lacks; refused where a table of it is another."""
        for fields in records:
            key, rest, query = LAYOUT[fields[0]]
            found = self.opened.execute(query, fields[key]).fetchone()
            if found is None:
                yield fields
            elif list(found) != fields[rest]:
                name = " ".join(map(str, [fields[0], *fields[key]]))
                if fields[0] != "srs":
                    raise Refused(f"{self.file}: {name} stands there otherwise; --table gives a table another name")
                report.note(f"system {fields[1]}", "FILE has it with other texts, and keeps them")

    def watched(self, pieces):
        """The pieces, each looked at as it passes."""
        for piece in pieces:
            if piece.fields[0] in QUERIES and self.is_over(piece):
                size = QUERIES[piece.fields[0]][0]
                self.over[piece.fields[0], piece.fields[1]].append(piece.fields[2:size])
            yield piece

    def is_over(self, piece):
        """Whether something else stands under the key of a piece."""
        size, query = QUERIES[piece.fields[0]]
        found = self.opened.execute(query, piece.fields[1:size]).fetchone()
        digest = [] if piece.data is None else [hashlib.sha256(piece.data).hexdigest()]
        return found is not None and list(found) != [*piece.fields[size:], *digest]

    def expect_nothing_over(self):
        """Refuses where pieces that passed would write over something, and names what."""
        if self.over:
            lines = [
                f"{self.file}: has other {WORDS[word]} of {table} under these numbers: {told(word, keys)}"
                for (word, table), keys in sorted(self.over.items())
            ]
            raise Refused("\n".join([*lines, "nothing was made; --replace writes over them"]))

    def end(self):
        """Refuses where the package was written meanwhile."""
        self.opened.close()
        self.source.expect_unchanged()


def told(word, keys):
    """Numbers of rows or media in their spans, or places of tiles, the first of many."""
    if word == "tile":
        names = ["/".join(map(str, key)) for key in keys]
    else:
        names = [str(low) if low == high else f"{low} to {high}" for low, high in spans(key[0] for key in keys)]
    more = f" and {len(names) - NOTED} more" if len(names) > NOTED else ""
    return ", ".join(names[:NOTED]) + more


def spans(numbers):
    """Numbers as the first and last of each run without a gap."""
    found = []
    for number in sorted(numbers):
        if found and found[-1][1] == number - 1:
            found[-1][1] = number
        else:
            found.append([number, number])
    return found
