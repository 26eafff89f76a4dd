#!/usr/bin/env python3
"""Makes a viewer that travels in a package: a page with its map, on which a crew works.

    tools/make_viewer.py FILE OUT [--table TABLE] [--edition EDITION] [--wmts PORT]

FILE is a package of mmpkg. OUT, which must not be there, gets layout.csv, which makes the media table TABLE ('viewer')
and an open edition, and a kit of four media items: 1 the page, 2 and 3 the script and the style of Leaflet with their
licence, 4 what the page has to know: the matrices of all pyramids of FILE and where their tiles are, the relations, and
the systems in which it can tell a device's place, with their numbers at EPSG. The commands that take them in are
printed, with FILE for the package; then 'mmpkg serve FILE --port PORT' shows the page at
http://127.0.0.1:PORT/media/TABLE/1, and 'mmpkg desk FILE --port PORT --page TABLE' works at the address that it prints
(tools/crew.py does all of this). Leaflet is that of Debian's package libjs-leaflet.

With --wmts there is a fifth item, a WMTS description by which QGIS and GDAL open the maps of
http://127.0.0.1:PORT/media/TABLE/5 while they are served. It has whole addresses, so another port wants another
description. Maps that WMTS doesn't tell are named on standard error.

Where matrices come later, make the viewer anew, in another OUT: where FILE has the table, layout.csv only makes the
edition, and publishing puts the four items in place of the old ones. An edition is published once, so it has the
table's name, or behind that TABLE_2, TABLE_3 and so on, the first that FILE doesn't have; --edition names another. A
table TABLE that is no media table, has other media than a viewer's, or a relation, is refused: its items run at the
page's address.

FILE is left as it is; nothing may write it meanwhile. It has to pass 'mmpkg check', with the program that the
environment's MMPKG names, else out/mmpkg of this repository, else mmpkg of the path. Where its journal holds commits,
or another program has it, or it can't be written, a copy of both is read, in the folder that the environment's TMPDIR
names, else /tmp; as large as they are.

Exit status: 0 OUT was made; 1 so, and a map is no part of the WMTS description; 2 wrong arguments, a name that is
taken, Leaflet isn't there, or a file that can't be read or written; else what 'mmpkg check' ended with, whose line is
told: 3 a fault, 4 no package or one that breaks a rule.
"""

import base64
import contextlib
import hashlib
import json
import pathlib
import re
import secrets
import shlex
import sqlite3
import sys
import tempfile
import xml.etree.ElementTree

import systems
import wmts
from border import (
    MEDIA_LIMIT,
    KitWriter,
    Refused,
    Report,
    Source,
    arguments,
    bounds_of,
    first_free,
    is_name,
    made_beside,
    media_piece,
    record,
    run_tool,
)

PAGE = pathlib.Path(__file__).resolve().parent / "page"
# The page's script in its order: what it reckons with, which asks no browser anything, and then what does.
CORE = (
    "german.mjs",
    "tongue.mjs",
    "notes.mjs",
    "notewords.mjs",
    "told.mjs",
    "typed.mjs",
    "slips.mjs",
    "systems.mjs",
    "fixes.mjs",
    "nmea.mjs",
    "exif.mjs",
    "exifout.mjs",
    "shots.mjs",
    "behind.mjs",
    "beyond.mjs",
    "answers.mjs",
    "signing.mjs",
    "changes.mjs",
    "webm.mjs",
    "media.mjs",
    "records.mjs",
    "past.mjs",
    "steps.mjs",
    "words.mjs",
    "degrees.mjs",
    "files.mjs",
    "day.mjs",
    "plane.mjs",
    "lines.mjs",
    "tracks.mjs",
    "grid.mjs",
    "styles.mjs",
    "kinds.mjs",
    "fields.mjs",
)
SCRIPTS = (
    *CORE,
    "tongue.js",
    "asking.js",
    "behind.js",
    "beyond.js",
    "parts.js",
    "shapes.js",
    "layers.js",
    "pyramids.js",
    "map.js",
    "related.js",
    "places.js",
    "mine.js",
    "nearest.js",
    "receiver.js",
    "outbox.js",
    "sending.js",
    "waiting.js",
    "photos.js",
    "camera.js",
    "sound.js",
    "tables.js",
    "legend.js",
    "marks.js",
    "way.js",
    "measure.js",
    "draw.js",
    "lines.js",
    "track.js",
    "stake.js",
    "drafts.js",
    "fields.js",
    "past.js",
    "form.js",
    "formplace.js",
    "formtold.js",
    "rows.js",
    "who.js",
    "out.js",
    "report.js",
    "work.js",
    "news.js",
    "start.js",
)
IMPORT = re.compile(r'(?m)^import \{ ([^}]*) \} from "\./([a-z]+\.mjs)";\n')
EXPORT = re.compile(r"(?m)^export (?=(?:async function|function|const) (\w+))")
LEAFLET = pathlib.Path("/usr/share/javascript/leaflet")
LICENCE = pathlib.Path("/usr/share/doc/libjs-leaflet/copyright")
CONTENT_TYPES = {1: "text/html", 2: "text/javascript", 3: "text/css", 4: "application/json"}
DESCRIPTION = 5
DESCRIPTION_TYPE = "text/xml"
NAMESPACES = ("http://www.opengis.net/wmts/1.0", "http://www.opengis.net/ows/1.1")
WORD = re.compile("[0-9a-f]{16}")


class Package:
    """What a viewer asks of the copy of a package."""

    def __init__(self, opened):
        self.opened = opened

    def column(self, query, *values):
        return [value for (value,) in self.opened.execute(query, values)]

    def has_viewer_table(self, table):
        """Whether the table stands already.

        Refused where another kind has its name, or it has other media than a viewer's.
        """
        if self.column("SELECT 1 FROM gpkgext_relations WHERE mapping_table_name = ?", table):
            raise Refused(f"{table}: is the name of a mapping; --table names another table")
        kinds = self.column("SELECT kind FROM mm_tables WHERE table_name = ?", table)
        if kinds not in ([], ["media"]):
            raise Refused(f"{table}: is a table of kind {kinds[0]}; --table names another table")
        for stranger in self.strangers(table):
            raise Refused(f"{table}: {stranger}; --table names another table")
        return bool(kinds)

    def strangers(self, table):
        """What a page's table has that is none of the page's, in words.

        Its items run at the page's address, so none of them is anybody else's, and no row leads to one.
        """
        types = CONTENT_TYPES | {DESCRIPTION: DESCRIPTION_TYPE}
        items = "SELECT id, content_type FROM mm_media WHERE table_name = ? ORDER BY id"
        for number, content_type in self.opened.execute(items, (table,)):
            if types.get(number) != content_type:
                yield f"its item {number} is {content_type} and no viewer's"
        if not is_description(self.item(table, DESCRIPTION)):
            yield f"its item {DESCRIPTION} is no WMTS description of these tools"
        relations = (
            "SELECT mapping_table_name, base_table_name, related_table_name FROM gpkgext_relations "
            "WHERE ? IN (base_table_name, related_table_name) ORDER BY 1"
        )
        for mapping, base, related in self.opened.execute(relations, (table,)):
            yield f"the relation {mapping} relates {related} to {base}"

    def free_edition(self, table, wanted, report):
        """The edition that brings the viewer: what is wanted, else the first of the table's name that is free."""
        states = dict(self.opened.execute("SELECT name, state FROM mm_editions"))
        edition = wanted or first_free(table, states, "_")
        if wanted in states:
            raise Refused(f"{wanted}: this edition is {states[wanted]} in the package; --edition names another")
        if not is_name(edition):
            raise Refused(f"{edition!r} is no name of an edition; --edition names another")
        for name, state in states.items():
            if state == "open" and re.fullmatch(f"{table}(_[0-9]+)?", name):
                report.note(
                    f"edition {name}", f"is open; 'discard,{name}' takes it back where it was for an earlier viewer"
                )
        return edition

    def table_records(self, table):
        """The record that makes the table, none where it stands."""
        if self.has_viewer_table(table):
            return []
        return [
            [
                "table",
                table,
                "media",
                first_free("Map viewer", self.column("SELECT identifier FROM gpkg_contents"), " "),
            ]
        ]

    def tiles(self, table):
        """By zoom, where tiles of a pyramid are: the least and greatest column and row, and one near their middle."""
        boxes = self.opened.execute(
            "SELECT zoom_level, min(tile_column), min(tile_row), max(tile_column), max(tile_row) FROM mm_tiles "
            "WHERE table_name = ? GROUP BY zoom_level",
            (table,),
        ).fetchall()
        near = (
            "SELECT tile_column, tile_row FROM mm_tiles WHERE table_name = ? AND zoom_level = ? "
            "ORDER BY abs(2 * tile_column - ?) + abs(2 * tile_row - ?) LIMIT 1"
        )
        return {
            zoom: [*box, *self.opened.execute(near, (table, zoom, box[0] + box[2], box[1] + box[3])).fetchone()]
            for zoom, *box in boxes
        }

    def matrices(self):
        """The matrices, last change, tiles and bounds of each pyramid, in the package's columns and unit."""
        columns = "zoom_level, matrix_width, matrix_height, tile_width, tile_height, pixel_x_size, pixel_y_size"
        found, bounds = {}, bounds_of(self.opened)
        tiled = "SELECT table_name, last_change FROM gpkg_contents WHERE data_type = 'tiles' ORDER BY table_name"
        for table, last_change in self.opened.execute(tiled):
            rows = self.opened.execute(
                f"SELECT {columns} FROM gpkg_tile_matrix WHERE table_name = ? ORDER BY zoom_level", (table,)
            )
            found[table] = {
                "last_change": last_change,
                "matrices": [dict(zip(columns.split(", "), row)) for row in rows],
                "tiles": self.tiles(table),
                **({"bounds": bounds[table]} if table in bounds else {}),
            }
        return found

    def relations(self):
        """The relations, by the names of their mappings."""
        query = (
            "SELECT mapping_table_name, base_table_name, related_table_name, relation_name FROM gpkgext_relations "
            "ORDER BY mapping_table_name"
        )
        return [dict(zip(("mapping", "base", "related", "name"), row)) for row in self.opened.execute(query)]

    def systems(self):
        """By number, the parameters of the systems that the page can reckon."""
        query = "SELECT srs_id, definition FROM gpkg_spatial_ref_sys ORDER BY srs_id"
        found = {number: systems.transverse_mercator(definition) for number, definition in self.opened.execute(query)}
        return {number: it for number, it in found.items() if it}

    def numbers_at_epsg(self):
        """By number, the numbers that the package's systems have at EPSG, by which maps behind the work are drawn."""
        query = (
            "SELECT srs_id, organization_coordsys_id FROM gpkg_spatial_ref_sys "
            "WHERE upper(organization) = 'EPSG' AND organization_coordsys_id > 0 ORDER BY srs_id"
        )
        return dict(self.opened.execute(query))

    def item(self, table, number):
        """The bytes of a media item, None where there is none."""
        query = "SELECT data FROM mm_media JOIN mm_blobs b ON b.id = blob WHERE table_name = ? AND mm_media.id = ?"
        return next(iter(self.column(query, table, number)), None)

    def known(self, table):
        """What the page has to know.

        Its word of the package stays when the viewer is made anew: by it a browser keeps what isn't in the package yet.
        """
        before = read_known(self.item(table, 4)).get("package")
        word = before if isinstance(before, str) and WORD.fullmatch(before) else secrets.token_hex(8)
        return {
            "package": word,
            "page": digest_of(f"\n{page_script()}"),
            "pyramids": self.matrices(),
            "relations": self.relations(),
            "systems": self.systems(),
            "epsg": self.numbers_at_epsg(),
            "beyond": systems.beyond(self.opened),
        }

    def is_current(self, table):
        """Whether the page stands in the package as it would be made now, but for where tiles are."""
        items = fixed_items()
        if any(self.strangers(table)):
            return False
        return all(self.item(table, number) == items[number] for number in items) and without_tiles(
            read_known(self.item(table, 4))
        ) == without_tiles(json.loads(json.dumps(self.known(table))))


def is_description(data):
    """Whether bytes are a WMTS description alone: its elements and no other, so that nothing of them runs in a browser.

    Where there are none that is so too.
    """
    if data is None:
        return True
    try:
        elements = list(xml.etree.ElementTree.fromstring(data).iter())
    except (xml.etree.ElementTree.ParseError, ValueError):
        return False
    others = [it for it in elements if not str(it.tag).startswith(tuple(f"{{{name}}}" for name in NAMESPACES))]
    return not others and b"<!" not in data and data.count(b"<?") <= 1 and data.startswith(b"<?xml ")


def read_known(data):
    """What item 4 tells; nothing where it is none."""
    try:
        known = json.loads(data or "{}")
    except ValueError:
        known = {}
    return known if isinstance(known, dict) else {}


def without_tiles(known):
    """What a page knows, without what each new tile changes."""
    kept = {
        name: {key: it[key] for key in ("matrices", "bounds") if key in it}
        for name, it in known.get("pyramids", {}).items()
    }
    return known | {"pyramids": kept}


def leaflet_item(name):
    """A file of Leaflet, its licence as a comment in front.

    What it says of a map of its source, which doesn't travel, is left out.
    """
    for file in (LEAFLET / name, LICENCE):
        if not file.exists():
            raise Refused(f"{file}: isn't there; 'apt-get install libjs-leaflet' brings it")
    licence = LICENCE.read_text(encoding="utf-8").replace("*/", "* /")
    text = re.sub(r"(?m)^(//#|/\*#) sourceMappingURL=.*$", "", (LEAFLET / name).read_text(encoding="utf-8"))
    head = "Leaflet, from Debian's package libjs-leaflet, whose file 'copyright' follows."
    return f"/* {head}\n\n{licence}*/\n{text}".encode()


def digest_of(text):
    """A text's digest as a policy has it."""
    return f"sha256-{base64.b64encode(hashlib.sha256(text.encode()).digest()).decode()}"


def page_script():
    """The page's modules as one script: each takes names of modules before it alone, under the names these give."""
    given, texts = {}, ['"use strict";']
    for module in SCRIPTS:
        text = (PAGE / module).read_text(encoding="utf-8")
        for names, other in IMPORT.findall(text):
            missing = set(names.split(", ")) - given.get(other, set())
            assert not missing, f"{module}: {other} before it gives no {missing}"
        given[module] = set(EXPORT.findall(text))
        texts.append(EXPORT.sub("", IMPORT.sub("", text)))
        assert not re.search(r"(?m)^(import|export)\b", texts[-1]), f"{module}: an import or export of another form"
    return "\n".join(texts)


def page_item():
    """The page with its style and script, whose hashes are in its policy, which lets nothing else run in it."""
    page = (PAGE / "page.html").read_text(encoding="utf-8")
    script = page_script()
    style = (PAGE / "page.css").read_text(encoding="utf-8")
    for element, text in (("style", f"\n{style}"), ("script", f"\n{script}")):
        page = page.replace(f"HASH-OF-{element.upper()}", digest_of(text), 1)
        page = page.replace(f"<{element}></{element}>", f"<{element}>{text}</{element}>", 1)
    return page.encode()


def fixed_items():
    """The items that are the same for every package."""
    return {1: page_item(), 2: leaflet_item("leaflet.min.js"), 3: leaflet_item("leaflet.css")}


def page_items():
    """The items that are the same for every package, each with its content type."""
    return {number: (CONTENT_TYPES[number], data) for number, data in fixed_items().items()}


def write_kit(folder, beside, table, edition, items):
    kit = KitWriter(edition, folder, beside)
    for number, (content_type, data) in items.items():
        if len(data) > MEDIA_LIMIT:
            raise Refused(f"item {number} has {len(data)} bytes, and a media item at most {MEDIA_LIMIT}")
        kit.add(media_piece(table, number, content_type, data))
    return kit


def read_package(source, given, report):
    """The records of the layout, the edition, and the items that tell of the package."""
    types = CONTENT_TYPES | ({DESCRIPTION: DESCRIPTION_TYPE} if given.wmts else {})
    with contextlib.closing(sqlite3.connect(source.address(), uri=True)) as opened:
        package = Package(opened)
        tables = package.table_records(given.table)
        edition = package.free_edition(given.table, given.edition, report)
        if not package.column("SELECT 1 FROM gpkg_tile_matrix LIMIT 1"):
            report.note(given.FILE, "has no matrix yet: make the viewer anew when it has")
        items = {4: json.dumps(package.known(given.table), separators=(",", ":")).encode()}
        if given.wmts:
            items[DESCRIPTION] = wmts.describe(opened, given.wmts, f"/media/{given.table}/{DESCRIPTION}", report)
        elif package.column(
            "SELECT 1 FROM mm_media WHERE table_name = ? AND id = ? AND content_type = ?",
            given.table,
            DESCRIPTION,
            DESCRIPTION_TYPE,
        ):
            report.note(
                f"item {DESCRIPTION} of {given.table}", "the WMTS description stays as it is; --wmts PORT makes it anew"
            )
        return (
            [*tables, ["edition", edition]],
            edition,
            {number: (types[number], data) for number, data in items.items()},
        )


def main():
    parser = arguments(__doc__)
    parser.add_argument("FILE", type=pathlib.Path)
    parser.add_argument("OUT", type=pathlib.Path)
    parser.add_argument("--table", default="viewer")
    parser.add_argument("--edition")
    parser.add_argument("--wmts", type=int, choices=range(1, 65536), metavar="PORT")
    given = parser.parse_args()
    for name in (given.table, given.edition or given.table):
        if not is_name(name):
            raise Refused(f"{name!r} is no name of a package")
    items = page_items()
    with tempfile.TemporaryDirectory() as name, made_beside(given.OUT) as beside:
        source, report = Source(given.FILE, pathlib.Path(name)), Report()
        try:
            layout, edition, more = read_package(source, given, report)
        except sqlite3.Error as error:
            raise Refused(f"{given.FILE}: {error}") from error
        source.expect_unchanged()
        kit = write_kit(given.OUT, beside, given.table, edition, items | more)
        text = "".join(map(record, layout))
        (beside / given.OUT.name / "layout.csv").write_text(text, encoding="utf-8", newline="")
        kit.name()
    report.tell_notes()
    print(f"mmpkg run FILE < {shlex.quote(str(given.OUT / 'layout.csv'))}")
    kit.tell()
    if given.wmts:
        sys.stdout.flush()
        print(f"next: mmpkg serve FILE --port {given.wmts} shows them to GDAL and QGIS", file=sys.stderr)
    return 1 if report.count else 0


if __name__ == "__main__":
    run_tool(main)
