"""What a package holds, as kit_between.py and come_home.py read it."""

import functools
import json
import re
import sqlite3
import sys

import lineage
import three_way
from border import LINE, Piece, Refused, image_suffix
from three_way import Table

PROFILE = 2

# By part, how many columns in front are the key, and the query. What is behind the key is what a record has behind it,
# but for bytes, in whose place their digest stands, and for a mapping row, which has the tables that it relates.
QUERIES = (
    (
        "systems",
        1,
        "SELECT srs_id, srs_name, organization, organization_coordsys_id, definition, description "
        "FROM gpkg_spatial_ref_sys",
    ),
    (
        "matrices",
        2,
        "SELECT table_name, zoom_level, matrix_width, matrix_height, tile_width, tile_height, pixel_x_size, "
        "pixel_y_size FROM gpkg_tile_matrix",
    ),
    (
        "tiles",
        4,
        "SELECT table_name, zoom_level, tile_column, tile_row, digest FROM mm_tiles t JOIN mm_blobs b ON b.id = t.blob",
    ),
    ("items", 2, "SELECT table_name, id, 'row', title, note, amount FROM mm_rows"),
    (
        "items",
        2,
        "SELECT table_name, m.id, 'media', content_type, digest FROM mm_media m JOIN mm_blobs b ON b.id = m.blob",
    ),
    (
        "relations",
        1,
        "SELECT mapping_table_name, base_table_name, related_table_name, relation_name FROM gpkgext_relations",
    ),
    (
        "mapped",
        3,
        "SELECT mapping, base_id, related_id, base_table_name, related_table_name "
        "FROM mm_map JOIN gpkgext_relations ON mapping_table_name = mapping",
    ),
)
TABLES = (
    "SELECT table_name, kind, identifier, srs_id, min_x, min_y, max_x, max_y, last_change "
    "FROM gpkg_contents JOIN mm_tables USING (table_name)"
)
PIECES = (
    "SELECT edition, piece_no, kind, name, k1, k2, k3, k4, k5, k6, k7, t1, t2, digest "
    "FROM mm_pieces p LEFT JOIN mm_blobs b ON b.id = p.blob ORDER BY edition, piece_no"
)


class Package:
    """What a package has: by part, a value for each key. Bytes stay in the file, and are told by their digest."""

    def __init__(self, read):
        self.file, self.read = read.file, read
        self.source = sqlite3.connect(read.address(), uri=True)
        # Names and digests come again and again, and are kept once.
        self.source.text_factory = lambda data: sys.intern(data.decode())
        versions = self.source.execute("SELECT version FROM mm_profile").fetchall()
        if versions != [(PROFILE,)]:
            raise Refused(
                f"{self.file}: is of another profile than {PROFILE}; 'mmpkg migrate' brings one of profile 1 over"
            )
        self.parts = {part: {} for part in three_way.PARTS}
        LINE.tell(f"reading {self.file}", at_once=True)
        for part, size, query in QUERIES:
            self.parts[part].update((row[:size], row[size:]) for row in self.source.execute(query))
        self.changed = {}
        for name, kind, identifier, system, *extent, changed in self.source.execute(TABLES):
            self.parts["tables"][(name,)] = Table(kind, identifier, system, tuple(extent))
            self.changed[name] = changed
        LINE.clear()

    def editions(self):
        """By name, the state of each edition, and behind it its pieces."""
        found = {name: [state] for name, state in self.source.execute("SELECT name, state FROM mm_editions")}
        for name, *piece in self.source.execute(PIECES):
            found[name].append(piece)
        return found

    def past(self):
        """What it tells of its past."""
        editions = self.source.execute("SELECT name FROM mm_editions WHERE state = 'published'")
        return lineage.Past(frozenset(name for (name,) in editions), self.words(), self.changed)

    def words(self):
        """By media table, the word of the page that it has as items 1 to 4."""
        items = self.source.execute(
            "SELECT table_name, data FROM mm_media m JOIN mm_blobs b ON b.id = m.blob "
            "WHERE m.id = 4 AND content_type = 'application/json'"
        )
        found = {table: word_in(data) for table, data in items}
        return {table: word for table, word in found.items() if word}

    def states(self):
        """By name, the state of each edition."""
        return dict(self.source.execute("SELECT name, state FROM mm_editions"))

    def has_edition(self, name):
        return self.source.execute("SELECT 1 FROM mm_editions WHERE name = ?", (name,)).fetchone() is not None

    def data(self, digest, columns="data"):
        """The bytes with a digest, None where the package has none."""
        found = self.source.execute(f"SELECT {columns} FROM mm_blobs WHERE digest = ?", (digest,)).fetchone()
        return found and found[0]


def word_in(data):
    """The package's word in item 4 of a page, None where it is no such item."""
    try:
        word = json.loads(data)["package"]
    except (ValueError, TypeError, KeyError):
        return None
    return word if isinstance(word, str) and re.fullmatch("[0-9a-f]{16}", word) else None


class Files:
    """Pieces whose bytes are files, named by their digest, that are read from the first package that has them."""

    def __init__(self, packages):
        self.packages = packages
        self.name = functools.cache(self.named)

    def read(self, digest, columns="data"):
        return next(data for data in (package.data(digest, columns) for package in self.packages) if data is not None)

    def named(self, digest):
        return digest + image_suffix(self.read(digest, "substr(data, 1, 12)"))

    def piece(self, fields, digest):
        return Piece(fields, functools.partial(self.read, digest), self.name(digest))
