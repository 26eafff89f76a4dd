"""Random records, kits and requests for a package: most suit it as it stands, and some miss by one field."""

import re

from package_records import (
    CONTENT_TYPE,
    MOST_COORDINATE,
    MOST_HEAD_BYTES,
    MOST_HEAD_LINES,
    MOST_MATRIX,
    MOST_NUMBER,
    MOST_PIXEL_SIZE,
    MOST_TILE_SIDE,
    MOST_ZOOM,
    NAME,
    PIECES,
    PYRAMIDS,
    RECORDS,
    STAGE,
    Hexadecimal,
    Number,
    Refused,
    Text,
    Word,
    read_command,
    records,
)

# With which weight a record has a word, and with which words the first list of a package begins.
WEIGHTS = {
    "srs": 2, "pyramid": 3, "matrix": 8, "table": 3, "drop": 2, "tile": 9, "tile-drop": 3, "row": 7, "row-drop": 3,
    "media": 7, "media-drop": 3, "relation": 3, "relation-drop": 1, "map": 8, "map-drop": 3, "edition": 3, "discard": 1,
    "stage": 22, "publish": 3, "rehearse": 2,
}  # fmt: skip
OPENING = (
    "srs pyramid pyramid table table table table matrix matrix matrix matrix matrix tile tile row row row media media "
    "relation relation relation map map edition"
).split()
TEXTS = (
    "", "a", "Well, by \"the\" road", "two\nlines\r\n", "Straße", "\U0010ffff", "\x01\t\x7f", "é" * 500, "'; --", " ",
    "NULL", "\"", "x" * 1000, "0", "\ufeff",
)  # fmt: skip
IDENTIFIERS = "Base map", "Karte, \"neu\"", "Straße \\ /", "\U0010ffff", " ", "é" * 500, "0", "a'b", "\x80", "\u2028"
CONTENT_TYPES = "image/png", "a/b", "x" * 64 + "/" + "Y" * 64, "!#$&^_.+-/0"
ITEMS = 1, 2, 3, 4, 5, MOST_NUMBER - 1, MOST_NUMBER
FILES = {"a.bin": b"\x00", "b": b"\x89PNG\r\n", "-c.": b"c" * 300, "_" * 100: b"\xff", "none.png": b""}

NUMBER_EDGES = (
    "", "-0", "+1", "01", "00", "-01", "1.0", " 1", "1 ", "1e3", "-", "--1", "0x1", "1,0", "\u0661", "1" + "0" * 30,
    "-" + "9" * 40, "9" * 5000, "9223372036854775808", "18446744073709551616", "-1", "0", "1",
)  # fmt: skip
TEXT_EDGES = "", "\0", "a\0b", "\x1f", "\x7f", " ", "\n", "é"
NAME_EDGES = (
    "", "a" * 60, "a" * 61, "_" * 60, "gpkg", "gpkg_a", "sqlite_", "sqlite1", "mm_", "mm_a", "mm", "gpk", "sqlit",
    "a_gpkg", "Abc", "aB", "1a", "a1", "a-b", "a b", "é", "a\0", "a\n",
)  # fmt: skip
CONTENT_TYPE_EDGES = (
    "", "a", "/", "a/", "/a", "a/b/c", "a b/c", "a/b;c", "é/b", "a/b\n", "a" * 65 + "/b", "b/" + "a" * 65,
    "a" * 64 + "/b", "*/*", "a/b\0",
)  # fmt: skip
HEXADECIMAL_EDGES = "", "0", "0g", "AbcD", " 00", "0x00", "abc", "00\n", "é"
WORD_EDGES = (
    "",
    "Two",
    "two ",
    "other",
    "attributes",
    "media",
    "MEDIA",
    "simple-attributes",
    "tile_drop",
    "stage",
    "srs",
)
BREAKS = re.compile(b"[,\r\n]")
NO_TEXTS = b"\xff", b"\xc3", b"\xa9", b"\xc0\x80", b"\xed\xa0\x80", b"\xf4\x90\x80\x80"


def edges_of(sort):
    """Returns fields at the borders of a sort."""
    if isinstance(sort, Number):
        near = (sort.least - 1, sort.least, sort.most, sort.most + 1)
        return (*map(str, near), *NUMBER_EDGES)
    if isinstance(sort, Text):
        near = [size for size in (sort.least, sort.most, sort.most + 1) if size > 1]
        return (*TEXT_EDGES, *["x" * size for size in near], *["é" * (size // 2) + "x" * (size % 2) for size in near])
    if isinstance(sort, Hexadecimal):
        return (*HEXADECIMAL_EDGES, "5A" * sort.most, "a5" * (sort.most + 1))
    if isinstance(sort, Word):
        return WORD_EDGES
    return {NAME: NAME_EDGES, CONTENT_TYPE: CONTENT_TYPE_EDGES}[sort]


def all_edges():
    """Returns each field at a border, as the words of its record, its place among the fields, and the field."""
    sorts = {(word,): it for word, it in RECORDS.items()} | {("stage", word): STAGE + it for word, it in PIECES.items()}
    return [
        (words, place, field if isinstance(field, bytes) else field.encode())
        for words, fields in sorts.items()
        for place, sort in enumerate(fields, 1)
        for field in (*edges_of(sort), *NO_TEXTS)
    ]


def divisors(number):
    """Returns the divisors of a number of small prime factors."""
    found, rest, prime = [1], number, 2
    while rest > 1 and prime < 100:
        powers = [1]
        while rest % prime == 0:
            rest //= prime
            powers.append(powers[-1] * prime)
        found = [a * b for a in found for b in powers]
        prime += 1
    return found


def fields_of(values):
    """Returns the fields that spell the values of a command."""
    return [value.hex() if isinstance(value, bytes) else str(value) for value in values]


class Author:
    """Writes records for a package, which each record of `next_list` is done to."""

    def __init__(self, random, package):
        self.random = random
        self.package = package
        self.pick = random.choice
        # How likely a field is chosen that does not suit.
        self.slip = 0.06

    def slips(self, often=1):
        """Whether something is chosen that does not suit."""
        return self.random.random() < self.slip * often

    def next_list(self, words, edges, moment):
        """Returns a list of records of the words and of fields at borders, mixed; it is done to the package."""
        wanted = [(word, None) for word in words] + [(None, edge) for edge in edges]
        if self.package.tables:
            self.random.shuffle(wanted)
        text = b""
        for word, edge in wanted:
            record = self.spelled(self.at_edge(*edge) if edge else self.bent(self.encoded(word)))
            self.done(record, moment)
            text += record
        return text + self.pick((b"", b"", b'drop,"t', b"drop,", b'"', b"\r\n\n"))

    def done(self, record, moment):
        """Does a record to the package, where it can be."""
        for fields in records(record):
            try:
                self.package.apply(read_command(fields), moment)
            except Refused:
                pass

    def words(self, count):
        """Returns words of records."""
        return self.random.choices(list(WEIGHTS), list(WEIGHTS.values()), k=count)

    def encoded(self, *words):
        """Returns the fields of a record as bytes."""
        return [field.encode() for field in self.record(*words)]

    def record(self, word, *piece):
        """Returns the fields of a record; of `stage` the word of the piece may be given."""
        return [word, *getattr(self, word.replace("-", "_"))(*piece)]

    def at_edge(self, words, place, field):
        """Returns the fields of a record that suits, but for one at a border, and maybe a second one."""
        self.slip = 0
        fields = self.encoded(*words)
        self.slip = 0.06
        fields[place] = field
        if self.random.random() < 0.2:
            fields[self.random.randrange(1, len(fields))] = self.pick(
                (b"", b"1.5", b"A", b"-7", b"\xff", b"zz", b"9" * 30)
            )
        return fields

    def bent(self, fields):
        """Returns the fields of a record, or now and then of none."""
        if not self.slips(0.5):
            return fields
        place = self.random.randrange(len(fields))
        bends = (
            fields[:place] + fields[place + 1 :],
            fields[:place] + [b""] + fields[place:],
            fields + [b"x"],
            [fields[0].upper(), *fields[1:]],
            [fields[0] + b" ", *fields[1:]],
            fields[:place] + [fields[place][:-1] + b"\xc3", b"\xa9"] + fields[place + 2 :],
        )
        return self.pick(bends) or [b""]

    def spelled(self, fields):
        """Returns a record as a line of CSV, in one of its forms."""
        line = b",".join(map(self.field, fields))
        end = self.random.choices((b"\n", b"\r\n", b"\r", b"\n\n\r\n", b"\n\r"), (12, 3, 2, 1, 1))[0]
        return (line or b'""') + end

    def field(self, field):
        """Returns a field in one of its forms."""
        quoted = b'"' + field.replace(b'"', b'""') + b'"'
        if field[:1] == b'"' or BREAKS.search(field) or self.random.random() < 0.1:
            cut = self.random.randrange(len(field) + 1)
            if self.slips() and field[cut : cut + 1] != b'"' and not BREAKS.search(field, cut):
                return b'"' + field[:cut].replace(b'"', b'""') + b'"' + field[cut:]
            return quoted
        return field

    # The fields of each record behind its word.

    def new_name(self, taken=()):
        """Returns a name that is new, or now and then one that is taken, by one of its sort most often."""
        if self.slips(2):
            others = [*self.package.tables, *self.package.relations, *self.package.editions, "gpkg_contents"]
            return self.pick([*taken] or others) if self.random.random() < 0.7 else self.pick(others)
        name = self.pick(("t", "_", "map", "agpkg", "m_m", "x9_")) + str(self.random.randrange(10000))
        return name.ljust(60, "z") if self.random.random() < 0.05 else name

    def new_identifier(self):
        """Returns an identifier, most often a new one."""
        taken = [it.identifier for it in self.package.tables.values()]
        if taken and self.slips():
            return self.pick(taken)
        identifier = self.pick(IDENTIFIERS)
        return f"Table {self.random.randrange(10**6)}" if identifier in taken else identifier

    def table_of(self, *kinds):
        """Returns the name of a table of some kinds, or now and then of another or of none."""
        tables = [name for name, it in self.package.tables.items() if it.kind in kinds]
        if tables and not self.slips():
            return self.pick(tables)
        return self.pick([*self.package.tables, *self.package.relations, "nowhere"])

    def one_of(self, keys, other):
        """Returns one of some keys, or now and then another."""
        keys = sorted(keys)
        return self.pick(keys) if keys and not self.slips(2) else other

    def data(self):
        """Returns bytes in hexadecimal digits."""
        size = self.pick((1, 2, 3, 8)) if self.random.random() < 0.98 else 70000
        text = self.random.randbytes(size).hex()
        return text.upper() if self.random.random() < 0.3 else text

    def srs(self):
        system = self.pick((0, 4326, *self.package.systems)) if self.slips(3) else self.random.randrange(1, 10**4)
        texts = [self.pick(TEXTS[1:]) for _ in range(3)]
        return [str(system), *texts[:2], self.pick(("1", "25832")), texts[2], self.pick(TEXTS)]

    def pyramid(self):
        systems = [it for it in self.package.systems if it not in (0, 4326)]
        system = self.pick((0, 4326, 77777)) if self.slips(2) else self.pick(systems)
        min_x, max_x = self.side()
        min_y, max_y = self.side()
        step = self.pick(PYRAMIDS)
        return [
            self.new_name(self.package.tables),
            self.new_identifier(),
            *map(str, (system, min_x, min_y, max_x, max_y)),
            step,
        ]

    def side(self):
        """Returns the least and the most coordinate of an extent."""
        span = self.pick((1, 3, 100, 256, 1024)) * 2 ** self.random.randrange(12) * self.pick((1, 5, 1000, 10**6))
        if self.random.random() < 0.08:
            return -MOST_COORDINATE, MOST_COORDINATE
        if self.slips():
            span = self.pick((0, -span))
        least = self.random.randrange(-MOST_COORDINATE, MOST_COORDINATE - abs(span))
        return least, least + span

    def matrix(self):
        table = self.table_of(*PYRAMIDS)
        if not self.package.is_pyramid(table):
            return [table, *"0 1 1 1 1 1 1".split()]
        known = self.package.zooms(table)
        zoom = self.pick([*known, 3, 10]) + self.pick((-2, -1, 1, 1, 2, 0))
        zoom = min(max(zoom, 0), MOST_ZOOM) if self.random.random() < 0.95 else self.pick((0, 30))
        extent = self.package.tables[table].extent
        sides = [self.sides(table, zoom, axis, extent[axis + 2] - extent[axis]) for axis in (0, 1)]
        sizes = [side[part] for part in range(3) for side in sides]
        if self.slips():
            place = self.random.randrange(6)
            sizes[place] = max(1, sizes[place] + self.pick((-1, 1)))
        return [table, *map(str, (zoom, *sizes))]

    def sides(self, table, zoom, axis, span):
        """Returns the width of a matrix that covers a span, of its tiles, and of a pixel, or the same of heights."""
        known = {it: matrix.pixel[axis] for it, matrix in self.package.zooms(table).items()}
        pixels = [it for it in divisors(span) if it <= MOST_PIXEL_SIZE]
        suiting = [pixel for pixel in pixels if self.suits(table, known, zoom, pixel)]
        pixel = self.pick(suiting if suiting and not self.slips(2) else pixels)
        whole = span // pixel
        tiles = [it for it in divisors(whole) if it <= MOST_TILE_SIDE and whole // it <= MOST_MATRIX]
        tile = self.pick(tiles) if tiles else 1
        return whole // tile, tile, pixel

    def suits(self, table, known, zoom, pixel):
        """Whether a pixel size is in order between those of the other zooms."""
        two = self.package.kind(table) == "two"
        falls = all((other > pixel) == (it < zoom) and other != pixel for it, other in known.items() if it != zoom)
        return falls and not (
            two and (known.get(zoom - 1, 2 * pixel) != 2 * pixel or 2 * known.get(zoom + 1, pixel / 2) != pixel)
        )

    def table(self):
        return [self.new_name(self.package.tables), self.pick(("attributes", "media")), self.new_identifier()]

    def drop(self):
        return [self.table_of(*PYRAMIDS, "attributes", "media")]

    def place(self):
        """Returns a place for a tile, as its four fields."""
        table, zoom = self.one_of(self.package.matrices, (self.table_of(*PYRAMIDS), self.random.randrange(31)))
        matrix = self.package.matrices.get((table, zoom))
        sizes = matrix.size if matrix else (2, 2)
        place = [self.pick((0, 0, size - 1, self.random.randrange(size))) for size in sizes]
        if self.slips():
            place[self.random.randrange(2)] = min(max(sizes), MOST_MATRIX - 1)
        return [table, *map(str, (zoom, *place))]

    def tile(self):
        return [*self.place(), self.data()]

    def tile_drop(self):
        key = self.one_of(self.package.tiles, None)
        return fields_of(key) if key else self.place()

    def row(self):
        table = self.table_of("attributes")
        amount = self.pick((0, -1, 10**15, -(10**15), self.random.randrange(10**6)))
        return [table, str(self.pick(ITEMS)), self.pick(TEXTS), self.pick(TEXTS), str(amount)]

    def row_drop(self):
        return fields_of(self.one_of(self.package.rows, (self.table_of("attributes"), self.pick(ITEMS))))

    def media(self):
        return [self.table_of("media"), str(self.pick(ITEMS)), self.pick(CONTENT_TYPES), self.data()]

    def media_drop(self):
        return fields_of(self.one_of(self.package.media, (self.table_of("media"), self.pick(ITEMS))))

    def relation(self):
        name = self.pick(("media", "simple_attributes"))
        base = self.table_of("media", "attributes")
        return [
            self.new_name(self.package.relations),
            base,
            self.table_of("media" if name == "media" else "attributes"),
            name,
        ]

    def relation_drop(self):
        return [self.one_of(self.package.relations, self.new_name())]

    def map(self):
        mapping = self.one_of(self.package.relations, self.new_name())
        ends = self.package.relations.get(mapping, ("", ""))[:2]
        items = [item for part in (self.package.rows, self.package.media) for item in part]
        chosen = [self.one_of([it for table, it in items if table == end], self.pick(ITEMS)) for end in ends]
        return fields_of((mapping, *chosen))

    def map_drop(self):
        return fields_of(self.one_of(self.package.mapped, (self.relation_drop()[0], 1, 1)))

    def edition_of(self):
        """Returns the name of an open edition, or now and then of another or of none."""
        names = [name for name, pieces in self.package.editions.items() if pieces is not None]
        return self.one_of(names, self.pick([*self.package.editions, "nowhere"]))

    def edition(self):
        return [self.new_name(self.package.editions)]

    def discard(self):
        return [self.edition_of()]

    publish = rehearse = discard

    def stage(self, word=None):
        edition = self.edition_of()
        pieces = self.package.editions.get(edition) or ()
        if pieces and word is None and self.random.random() < 0.15:
            number = self.random.randrange(len(pieces))
            kind, *values = pieces[number]
            return [edition, str(number + 1), kind, *fields_of(values)]
        number = len(pieces) + 1
        if self.slips():
            number = self.pick((1, number + 1, number - 1, MOST_NUMBER))
        slip, self.slip = self.slip, self.pick((0, 0, 0, self.slip))
        piece = self.record(word or self.pick(list(PIECES)))
        self.slip = slip
        return [edition, str(number), *piece]

    # Kits and requests.

    def kit(self):
        """Returns an edition, and a kit for it: a folder as the bytes of its files by name."""
        edition = self.edition_of()
        pieces = [fields_of(piece) for piece in self.package.editions.get(edition) or ()]
        pieces += [self.record(self.pick(list(PIECES))) for _ in range(self.random.randrange(6))]
        folder, text = dict(FILES), b""
        for place, piece in enumerate(pieces[1:] if self.slips() else pieces, 1):
            if piece[0] in ("tile", "media"):
                name = f"p{place}.{self.random.randrange(10)}"
                folder[name] = bytes.fromhex(piece[-1])
                piece = [
                    *piece[:-1],
                    self.pick([*FILES, "missing", "../x", ".x", "x" * 101]) if self.slips(2) else name,
                ]
            number = self.pick((0, 1, place + 1, "01", 2**53 + 1)) if self.slips(0.5) else place
            text += self.spelled(self.bent([it.encode() for it in (str(number), *piece)]))
        return edition, folder if self.slips(0.5) else folder | {"kit.csv": text}

    def requests(self):
        """Returns requests, each as its method (None where it is none), its target and its bytes."""
        targets = [self.target() for _ in range(16)] + ["/contents", "/contents?a/b?c"]
        targets += [self.bent_target() for _ in range(8)]
        methods = [self.pick(("GET",) * 8 + ("POST", "HEAD", "get", "GETS", "PUT")) for _ in targets]
        told = [(method, target, self.head(method, target)) for method, target in zip(methods, targets)]
        told += [("GET", "/contents", it) for it in FULL_HEADS] + [(None, "", it) for it in BAD_HEADS]
        self.random.shuffle(told)
        return told

    def target(self):
        """Returns the target of something that stands, or now and then does not."""
        items = [*self.package.rows, *self.package.media]
        route, keys = self.pick((("tiles", self.package.tiles), ("media", self.package.media), ("related", items)))
        if route == "related" and self.package.mapped and self.random.random() < 0.7:
            mapping, base, _ = self.pick(sorted(self.package.mapped))
            keys = [(self.package.relations[mapping][0], base)]
        table = self.table_of("attributes", "media", *PYRAMIDS)
        other = self.place() if route == "tiles" else [table, str(self.pick(ITEMS))]
        return "/".join(["", route, *fields_of(self.one_of(keys, other))])

    def bent_target(self):
        """Returns a target in which something is off."""
        parts = self.target().split("/")
        place = self.random.randrange(1, len(parts))
        off = (
            "",
            "-0",
            "01",
            "+1",
            "-1",
            "31",
            "1073741824",
            "9007199254740993",
            "A",
            "%61",
            "media",
            "9" * 40,
            parts[place] + "%20",
        )
        parts[place] = self.pick(off)
        return self.pick(
            (
                "/".join(parts),
                "/".join(parts[1:]) or "*",
                self.target() + "/",
                "/" + self.target(),
                self.target() + "?x=1/2",
                "/",
            )
        )

    def head(self, method, target):
        """Returns the head of a request, with some lines and maybe a body."""
        lines = "".join(f"X-{number}: {number}\r\n" for number in range(self.random.randrange(4)))
        body = "body\r\n\r\n" if self.random.random() < 0.2 else ""
        return f"{method} {target} HTTP/1.{self.pick('01')}\r\nHost: localhost\r\n{lines}\r\n{body}".encode()


def filled(front, end, size):
    """Returns bytes between two others that make up a size."""
    return front + b"x" * (size - len(front) - len(end)) + end


HEAD = b"GET /contents HTTP/1.1\r\n"
FULL_HEADS = (
    HEAD + b"a: b\r\n" * MOST_HEAD_LINES + b"\r\n",
    filled(HEAD + b"a: ", b"\r\n\r\n", MOST_HEAD_BYTES),
)
BAD_HEADS = (
    b"",
    b"GET",
    HEAD + b"Host: loc",
    b"GET /contents\r\n\r\n",
    b"GET /contents HTTP/2.0\r\n\r\n",
    b"GET /con tents HTTP/1.1\r\n\r\n",
    b"\0GET /contents HTTP/1.1\r\n\r\n",
    HEAD + b"no colon\r\n\r\n",
    HEAD + b"a b: c\r\n\r\n",
    HEAD + b"a: b\r\n" * (MOST_HEAD_LINES + 1) + b"\r\n",
    filled(HEAD + b"a: ", b"\r\n\r\n", MOST_HEAD_BYTES + 1),
)
