"""How a map fills a package: the tiles as they are drawn, and the session that takes them. Wants GDAL's modules."""

import contextlib
import os
import pathlib
import subprocess
import sys
import tempfile

import fill_layout
import pictures
import ways
from border import (
    BOUNDS_IDENTIFIER,
    LINE,
    TILE_LIMIT,
    UNITS_PER_METRE,
    Refused,
    Report,
    expect_new_database,
    first_free,
    is_name,
    made_beside,
    megabytes,
    name_for,
    program,
    record,
    tile_piece,
)
from session import Held, Session
from standing import Standing

# How many tiles, across and down, are read of the source at once.
BLOCK = 4
# How many bytes of tiles go in one request.
AT_ONCE = 500_000
# What a file of SQLite begins with.
DATABASE = b"SQLite format 3\0"
# From how many bytes on a map is told to be dear to open.
DEAR = 300_000_000


class Tree:
    """A pyramid as it is drawn: each tile behind the four that it is made of, and none that stands already."""

    def __init__(self, layout, picture, photo, stands, fetch):
        self.layout, self.picture, self.photo = layout, picture, photo
        self.stands, self.fetch = stands, fetch
        self.block = (None, None)
        self.done = 0

    def draw(self, place=(0, 0, 0)):
        """Yields place and bytes of the tiles from one on down, and ends with its pixels, None where it is clear."""
        if not self.layout.has(*place):
            return None
        if place in self.stands:
            self.done += self.counted_below(place)
            return pictures.decoded(self.fetch(place))
        pixels = self.finest(place) if place[0] == self.layout.last else (yield from self.joined(place))
        self.done += 1
        if pixels is None or pictures.is_clear(pixels):
            return None
        data, kept = self.encoded(pixels)
        yield place, data
        return kept

    def joined(self, place):
        """The pixels of a tile that is made of four."""
        parts = []
        for below in self.layout.below(*place):
            parts.append((yield from self.draw(below)))
        return pictures.joined(parts) if any(it is not None for it in parts) else None

    def finest(self, place):
        """The pixels of a tile of the last zoom, of a block that is read at once."""
        _, column, row = place
        key = (column // BLOCK, row // BLOCK)
        side = fill_layout.SIDE
        if self.block[0] != key:
            wide = side * BLOCK
            self.block = (key, self.picture.read(key[0] * wide, key[1] * wide, wide, wide))
        across, down = column % BLOCK * side, row % BLOCK * side
        return self.block[1][down : down + side, across : across + side]

    def encoded(self, pixels):
        """The bytes of a tile, and its pixels as these give them: a tile is made of what those below it show."""
        if self.photo and pictures.is_opaque(pixels):
            data = pictures.jpeg(pixels)
            return data, pictures.decoded(data)
        return pictures.png(pixels), pixels

    def counted_below(self, place):
        """How many tiles have a part of the map from one on down."""
        if not self.layout.has(*place):
            return 0
        if place[0] == self.layout.last:
            return 1
        return 1 + sum(map(self.counted_below, self.layout.below(*place)))


def is_photo(picture, layout, told):
    """Whether a map is a photo, as told or by some tiles of it, and about how many bytes a tile has."""
    sizes = []
    for _, column, row in layout.samples():
        pixels = picture.read(column * fill_layout.SIDE, row * fill_layout.SIDE, fill_layout.SIDE, fill_layout.SIDE)
        if not pictures.is_clear(pixels):
            sizes.append((len(pictures.png(pixels)), len(pictures.jpeg(pixels))))
    photo = fill_layout.is_photo(sizes) if told is None else told == "jpeg"
    return photo, sum(it[photo] for it in sizes) // max(len(sizes), 1)


def make_package(file):
    """Makes FILE where it is missing; refuses a file that is no database at all."""
    if file.exists():
        with open(file, "rb") as opened:
            if opened.read(len(DATABASE)) != DATABASE:
                raise Refused(f"{file}: is no package", 4)
        return
    expect_new_database(file)
    with made_beside(file) as beside:
        made = beside / file.name
        done = subprocess.run([program(), "init", made], capture_output=True, check=False)
        if done.returncode != 0:
            raise Refused(f"{file}: mmpkg init: {done.stdout.decode(errors='replace').strip()}", 3)
        expect_new_database(file)
        os.rename(made, file)


def lay_out(session, standing, layout, table, title, system, report):
    """Makes what FILE lacks of the system, the pyramid, its zooms and its bounds."""
    taken = [it for (it,) in standing.opened.execute("SELECT identifier FROM gpkg_contents")]
    records = [["srs", *system], *layout.records(table, first_free(title, taken, " "), system[0])]
    for fields in records:
        if fields[-1] == BOUNDS_IDENTIFIER:
            fields[-1] = first_free(BOUNDS_IDENTIFIER, taken, " ")
    records = list(standing.missing(records, report))
    bounds = layout.bounds_record(table)
    session.expect_done(record(it).encode() for it in [*records, *([bounds] if bounds else [])])


def standing_tiles(standing, table):
    """The places of the tiles that stand."""
    query = "SELECT zoom_level, tile_column, tile_row FROM mm_tiles WHERE table_name = ?"
    return set(standing.opened.execute(query, (table,)))


def fetch_tile(session, table, place):
    """The bytes of a tile that stands, by the session's own page."""
    return session.ask(f"/tiles/{table}/{'/'.join(map(str, place))}", method="GET")


def bring(session, tree, table):
    """Brings the tiles that are drawn, some at a time; returns how many came, and their bytes."""
    waiting, held, size, count, total = [], 0, 0, 0, tree.layout.count()
    for place, data in tree.draw():
        if len(data) > TILE_LIMIT:
            raise Refused(f"{session.file}: tile {place} of {table} has {len(data)} bytes, at most {TILE_LIMIT} go in")
        waiting.append(tile_piece(table, *place, data).command().encode())
        held, size, count = held + len(data), size + len(data), count + 1
        LINE.tell(f"{table}: {tree.done} of {total} tiles, {megabytes(size)}")
        if held > AT_ONCE:
            session.expect_done(waiting)
            waiting, held = [], 0
    session.expect_done(waiting)
    LINE.clear()
    return count, size


def tell_dear(file, table, bytes_of_all):
    if bytes_of_all > DEAR:
        print(
            f"note: {table}: about {megabytes(bytes_of_all)}. A package is checked and held in memory as it is opened, "
            f"15 to 20 s and 1 GB for each GB; a part of the map may do for {file} (gdal_translate -projwin)",
            file=sys.stderr,
        )


def tell_end(file, table, layout, picture, came):
    pixel = layout.grid.pixel_x / UNITS_PER_METRE
    count, size = came
    what = f"{count} tiles, {megabytes(size)}" if count else "nothing was missing"
    print(f"{table}: {what}; {layout.last + 1} zooms up to {pixel:g} m a pixel, in EPSG:{picture.number}")
    print(f"next: {ways.command('crew')} {ways.shell(file)}")


def named(source, given):
    """The table's name and its title: of the map of a GeoPackage that map's, else the file's."""
    text = str(source)
    title = text.rpartition(":")[2] if text.startswith("GPKG:") else pathlib.Path(os.path.abspath(text)).stem
    table = given or name_for(title)
    if not is_name(table):
        raise Refused(f"{table!r} is no name of a package")
    return table, title


def work(given):
    table, title = named(given.SOURCE, given.table)
    picture = pictures.Picture(given.SOURCE, given.system)
    layout = fill_layout.Layout(picture.grid)
    layout.expect_within_limits()
    photo, bytes_a_tile = is_photo(picture, layout, given.format)
    tell_dear(given.FILE, table, bytes_a_tile * layout.count())
    make_package(given.FILE)
    report = Report()
    with Session(given.FILE) as session, tempfile.TemporaryDirectory() as folder:
        standing = Standing(given.FILE, Held(given.FILE, folder))
        with contextlib.closing(standing.opened):
            stands = standing_tiles(standing, table)
            lay_out(session, standing, layout, table, title, picture.definition(), report)
        came = bring(session, Tree(layout, picture, photo, stands, lambda it: fetch_tile(session, table, it)), table)
    report.tell_notes()
    tell_end(given.FILE, table, layout, picture, came)
    return 0
