#!/usr/bin/python3
"""Looks at the viewer that travels in a package (docs/BORDER.md) as a surveyor does, in a browser without a window.

    apt-get install chromium firefox-esr libjs-leaflet python3-pil
    scripts/outside/viewer/viewer_check.py [PROGRAM] [--browser chromium | firefox-esr] [--keep FOLDER] [WORD ..]

A package of four pyramids and photos gets its viewer by the tool's own commands, and 'mmpkg serve' serves it. Each
place of the map has to show the colour that this script gave the tile there; the place is what the page tells of the
pointer, and what the tile is follows from the package's layout alone. --keep keeps the screenshots in a folder; WORD
picks the checks whose names have it. The last line is 'N passed, M failed'. Exit status: 0 all passed, 1 something
failed, 2 the program isn't there, 77 the browser or Leaflet isn't there.
"""

import contextlib
import dataclasses
import json
import os
import pathlib
import re
import shutil
import socket
import sqlite3
import subprocess
import sys
import tempfile
import time
import traceback

sys.path.insert(0, str(pathlib.Path(__file__).resolve().parents[1] / "lib"))
from checks import (  # noqa: E402
    PROGRAM, TOP, content_of, end, expect, mmpkg, new_package, run, run_checks, want, words_given,
)  # fmt: skip
import browsers  # noqa: E402
import make_profile_1  # noqa: E402
import images  # noqa: E402
from images import picture  # noqa: E402
from viewer_package import (  # noqa: E402
    BLANK,
    PLAIN,
    PYRAMIDS,
    TOOL,
    UNITS_PER_METRE,
    content,
    served,
    take_in,
    tile_piece,
)


class Scene:
    """The package with its viewer, a folder for what a check makes, and the browser that looks."""

    def __init__(self, folder, browser, keep):
        self.folder = folder
        self.browser = browser
        self.keep = keep
        self.file = folder / "a.mmpkg"
        self.address = ""
        self.pages = []

    def call(self, check):
        """Does a check, and closes the pages that it opened."""
        try:
            check(self)
        finally:
            for page in self.pages:
                page.close()
            self.pages = []

    def open(self, address=None, **how):
        """Opens the viewer, and waits until it shows its map."""
        page = self.browser.open(address or f"{self.address}/media/viewer/1", **how)
        self.pages.append(page)
        page.wait("document.readyState === 'complete' && byId('tables').children.length > 0")
        settle(page)
        return page

    def screenshot(self, page, name):
        data = page.screenshot()
        if self.keep:
            (self.keep / f"{name}.png").write_bytes(data)
        return images.pixels_of(data)


def settle(page):
    """Waits until no tile is on its way and nothing moves."""
    page.wait(
        "!document.querySelector('img.leaflet-tile:not(.leaflet-tile-loaded), .leaflet-zoom-anim, .leaflet-pan-anim')"
    )
    page.value("new Promise(done => requestAnimationFrame(() => requestAnimationFrame(() => done(1))))")


def choose(page, table):
    page.value(f"byId('pyramids').value = '{table}'; byId('pyramids').dispatchEvent(new Event('change'))")
    settle(page)


def zoom_to(page, zoom, easting=None, northing=None):
    """Shows the zoom at a place in Leaflet's list, without the animation of a button."""
    place = "map.getCenter()" if easting is None else f"[{northing}, {easting}]"
    page.value(f"map.setView({place}, {zoom}, {{ animate: false }}); 0")
    settle(page)


def position(page):
    """What the page tells: easting, northing, of what, and the zoom."""
    told = page.value("byId('position').innerText")
    found = re.fullmatch(
        r"E (-?[0-9.]+) m, N (-?[0-9.]+) m \((pointer|finger|centre)\)\n"
        r"zoom ([0-9]+), ([0-9.]+)(?: by ([0-9.]+))? m a pixel(?:, [0-9]+ times (?:larger|smaller))?",
        told,
    )
    assert found, f"the page tells {told!r}"
    return float(found[1]), float(found[2]), found[3], int(found[4])


def box_of(page, element="byId('map')"):
    """Left, top, width and height of an element on the screen."""
    return page.value(f"(({{ x, y, width, height }}) => [x, y, width, height])({element}.getBoundingClientRect())")


def places(page):
    """Places on the map's part of the screen, away from its buttons and its scale bar."""
    left, top, wide, high = box_of(page)
    return [
        (round(left + wide * x / 9) + 0.5, round(top + high * y / 8) + 0.5) for x in range(2, 9) for y in range(1, 7)
    ]


def near(found, wanted, by):
    return max(abs(a - b) for a, b in zip(found, wanted)) <= by


def expect_colours(scene, page, pyramid, name):
    """What the screen shows at places is what the tiles there have; answers how many places were within the map."""
    rows = scene.screenshot(page, name)
    side = page.value("metresAt(shown, map.getZoom())")
    compared = within = 0
    for x, y in places(page):
        page.move(x, y)
        easting, northing, whose, zoom = position(page)
        expect(whose, "pointer", "whose position is told")
        matrix = next(it for it in pyramid.zooms if it.zoom == zoom)
        colour, edges = pyramid.colour_at(matrix, easting, northing)
        # Where colours meet a browser mixes them: within a few pixels of the screen, and within one of the tile that is
        # enlarged.
        if any(
            edge < max(3 * side, 1.5 * pixel / UNITS_PER_METRE)
            for edge, pixel in zip(edges, (matrix.pixel_x, matrix.pixel_y))
        ):
            continue
        shown = rows[int(y)][int(x)]
        assert near(shown, colour, 2), f"{name}: {shown} for {colour} at {x}, {y}, which is {easting}, {northing}"
        compared += 1
        within += colour != BLANK
    assert compared >= 8, f"{name}: only {compared} places were compared"
    return within


def expect_quiet(scene, pages):
    """The pages asked for nothing but their own address, no tile outside its matrix, and their consoles tell of missing
    tiles alone."""
    asked = [url for page in pages for url in page.asked if not url.startswith(("blob:", "data:"))]
    strange = [url for url in asked if not url.startswith(scene.address + "/")]
    expect(strange, [], "requests elsewhere")
    zooms = {(it.table, zoom.zoom): (zoom, it.missing) for it in PYRAMIDS for zoom in it.zooms}
    missing = set()
    for url in asked:
        if "/tiles/" in url:
            table, *place = url.split("/")[-4:]
            place = tuple(map(int, place))
            zoom, gone = zooms[table, place[0]]
            assert place[1] < zoom.columns and place[2] < zoom.rows, f"a tile outside its matrix was asked for: {url}"
            missing |= {url} if place in gone else set()
    said = [it for page in pages for it in page.said]
    strange = [it for it in said if not (it[0] == "network" and "404" in it[1] and it[2] in missing)]
    expect(strange, [], "what the console tells")
    return len(asked), len(said)


def check_colours_at_every_zoom(scene):
    """Each zoom of each pyramid, and the two before and behind them that are drawn from its tiles, in their colours at
    their places."""
    page = scene.open(width=1000, height=600)
    count = 0
    for pyramid in PYRAMIDS:
        choose(page, pyramid.table)
        left, bottom, right, top = (it / UNITS_PER_METRE for it in pyramid.extent())
        for zoom in range(page.value("map.getMinZoom()"), len(pyramid.zooms) + 2):
            zoom_to(page, zoom, left + (right - left) * 0.52, bottom + (top - bottom) * 0.49)
            count += expect_colours(scene, page, pyramid, f"{pyramid.table}-{zoom}")
    print(f"    {count} places in their colours, and {expect_quiet(scene, [page])[0]} requests")
    assert count > 300, "few places"


def check_missing_tiles(scene):
    """Where a tile is missing nothing is drawn, up to its edges."""
    page = scene.open()
    zoom_to(page, 1)
    page.move(*places(page)[0])
    left, top, wide, high = box_of(page, "document.querySelector('img.leaflet-tile:not([src])')")
    expect((wide, high), (64, 64), "the tile's sides")
    rows = scene.screenshot(page, "missing")
    shown = {rows[int(top) + y][int(left) + x] for x in (0, 1, 10, 62, 63) for y in (0, 1, 10, 62, 63)}
    expect(shown, {BLANK}, "colours of the missing tile")
    expect_quiet(scene, [page])


def check_whole_map(scene):
    """The whole extent is shown at the start, and by the button, with its middle in the middle, as large as a zoom
    allows."""
    page = scene.open()
    for pyramid in PYRAMIDS:
        choose(page, pyramid.table)
        left, bottom, right, top = (it / UNITS_PER_METRE for it in pyramid.extent())
        zoom_to(page, len(pyramid.zooms) - 1, left, top)
        page.click(*middle(page, "fit"))
        settle(page)
        easting, northing, whose, zoom = position(page)
        expect(whose, "centre", "whose position is told")
        assert near(
            (easting, northing), ((left + right) / 2, (bottom + top) / 2), 0.51
        ), f"the middle is {easting}, {northing}"
        _, _, wide, high = box_of(page)
        fits = [
            it.zoom
            for it in pyramid.zooms
            if max((right - left) / wide, (top - bottom) / high) <= min(it.pixel_x, it.pixel_y) / UNITS_PER_METRE
        ]
        expect(zoom, fits[-1], f"the zoom of {pyramid.table}")
    expect_quiet(scene, [page])


def middle(page, element):
    left, top, wide, high = box_of(page, f"byId('{element}')")
    return left + wide / 2, top + high / 2


def check_place_stays(scene):
    """Another pyramid of the same system is shown at the same place and at about the same scale, one of another system
    as a whole."""
    page = scene.open()
    zoom_to(page, 2, 500_300, 5_600_500)
    choose(page, "relief")
    easting, northing, _, zoom = position(page)
    assert near((easting, northing), (500_300, 5_600_500), 1.6), f"the place is {easting}, {northing}"
    expect(zoom, 5, "the zoom")
    choose(page, "strip")
    expect(near(position(page)[:2], (-20.8, -66.3), 0.1), True, "the middle of the strip is shown")


def check_no_hair_lines(scene):
    """Where all tiles have one colour nothing shows between them, on screens of all sorts."""
    for scale in (1, 1.1, 1.25, 1.5, 2, 2.625):
        page = scene.open(scale=scale)
        choose(page, "plain")
        for zoom in range(0, 4):
            zoom_to(page, zoom, 179.2, -76.8)
            page.value("byId('map').classList.remove('centre')")
            x, y = middle(page, "map")
            data = page.screenshot((x - 80, y - 40, 160, 80))
            off = max(abs(a - b) for row in images.pixels_of(data) for pixel in row for a, b in zip(pixel, PLAIN))
            assert off <= (
                0 if scale == int(scale) else 6
            ), f"a pixel is off by {off} at zoom {zoom} on a screen of {scale}"


def check_scale_bar(scene):
    """The bar is as long as the map at its place, by the page's own positions, which the colours hold to account."""
    page = scene.open()
    for zoom in range(0, 6):
        zoom_to(page, zoom, 500_512, 5_600_512)
        words = page.value("document.querySelector('.leaflet-control-scale-line').textContent")
        number, unit = re.fullmatch(r"([0-9.]+) (m|km)", words).groups()
        long = page.value("document.querySelector('.leaflet-control-scale-line').offsetWidth")
        left, top, _, _ = box_of(page)
        page.move(left + 300, top + 300)
        from_easting = position(page)[0]
        page.move(left + 300 + long, top + 300)
        metres = position(page)[0] - from_easting
        assert (
            abs(metres / (float(number) * (1000 if unit == "km" else 1)) - 1) < 0.02
        ), f"the bar of {words} is {metres} m long"


def check_mouse(scene):
    """A mouse moves the map by dragging, and a notch of its wheel goes on by one zoom about the pointer."""
    page = scene.open()
    zoom_to(page, 1)
    x, y = middle(page, "map")
    page.move(x + 100, y + 50)
    before = position(page)
    page.drag((x + 100, y + 50), (x + 20, y + 90))
    settle(page)
    page.move(x + 20, y + 90)
    # Leaflet lets the first of the eight steps of 10 pixels go by, to tell a drag from a click.
    assert near(position(page)[:2], before[:2], 44.1), f"the pointer drags {before} to {position(page)}"
    before = position(page)
    page.wheel(x + 20, y + 90, -120)
    settle(page)
    expect(page.value("map.getZoom()"), 2, "the zoom behind a notch")
    assert near(position(page)[:2], before[:2], 4.1), f"the wheel goes from {before} to {position(page)}"
    expect_quiet(scene, [page])


def check_keys(scene):
    """All works by keys alone: another pyramid, the map's place and zoom, and related media."""
    page = scene.open()
    expect(focus_by_tab(page, "pyramids"), True, "the choice of maps is reached")
    page.press("ArrowDown")
    settle(page)
    expect(page.value("shown.table"), "plain", "the map behind the first")
    page.press("ArrowUp")
    settle(page)
    expect(focus_by_tab(page, "map"), True, "the map is reached")
    before = position(page)
    for key, axis, sign in (("ArrowRight", 0, 1), ("ArrowUp", 1, 1), ("ArrowLeft", 0, -1), ("ArrowDown", 1, -1)):
        easting = position(page)
        page.press(key)
        time.sleep(0.5)
        settle(page)
        moved = position(page)[axis] - easting[axis]
        assert moved * sign > 0, f"{key} moves the place by {moved}"
        expect(position(page)[2], "centre", "whose position is told")
    page.press("+")
    time.sleep(0.5)
    settle(page)
    expect(position(page)[3], 4, "the zoom behind plus")
    for _ in range(2):
        page.press("-")
        time.sleep(0.5)
        settle(page)
    assert position(page)[3] < before[3], "minus shows a lower zoom"
    expect(focus_by_tab(page, "table"), True, "the choice of tables is reached")
    page.type("Spots")
    page.value("byId('table').value = 'spots'")
    expect(focus_by_tab(page, "number"), True, "the number is reached")
    page.type("7")
    page.press("Enter")
    page.wait("byId('related').children.length === 5")
    scene.screenshot(page, "keys")
    expect_quiet(scene, [page])


def focus_by_tab(page, element):
    """Presses the tabulator until an element has the focus."""
    for _ in range(30):
        if page.value(f"document.activeElement === byId('{element}')"):
            return True
        page.press("Tab")
    return False


def check_fingers(scene):
    """A finger moves the map and tells its place, two zoom it, and the buttons do, on a tablet's screen."""
    page = scene.open(width=800, height=1100, touch=True)
    x, y = middle(page, "map")
    before = position(page)
    page.touch([(x, y)], *([(x - 12 * step, y)] for step in range(1, 11)))
    time.sleep(0.6)
    settle(page)
    expect(position(page)[2], "finger", "whose position is told")
    centre = page.value("map.getCenter().lng")
    assert centre > before[0] + 50 * page.value(
        "metresAt(shown, map.getZoom())"
    ), f"the map moved from {before[0]} to {centre}"
    zoom = page.value("map.getZoom()")
    page.touch([(x - 20, y), (x + 20, y)], *([(x - 20 - 6 * step, y), (x + 20 + 6 * step, y)] for step in range(1, 13)))
    time.sleep(0.8)
    settle(page)
    assert page.value("map.getZoom()") > zoom, "two fingers that part zoom in"
    expect(page.value("Number.isInteger(map.getZoom())"), True, "a whole zoom")
    left, top, wide, high = box_of(page, "document.querySelector('.leaflet-control-zoom-out')")
    page.touch([(left + wide / 2, top + high / 2)])
    time.sleep(0.5)
    settle(page)
    expect(position(page)[2], "centre", "whose position is told behind a button")
    within = expect_colours_touched(scene, page)
    assert within, "the place of a finger is in its colour"
    page.touch([middle(page, "toggle")])
    page.wait("byId('panel').hidden")
    settle(page)
    scene.screenshot(page, "fingers")
    expect_quiet(scene, [page])


def expect_colours_touched(scene, page):
    """Whether the colour under a finger that touched the map is that of the place which the page tells."""
    x, y = middle(page, "map")
    pyramid = PYRAMIDS[0]
    rows = scene.screenshot(page, "touched")
    for step in range(1, 12):
        at = round(x + 17 * step) + 0.5, round(y + 13 * step) + 0.5
        page.touch([at])
        easting, northing, whose, zoom = position(page)
        colour, edges = pyramid.colour_at(next(it for it in pyramid.zooms if it.zoom == zoom), easting, northing)
        if min(edges) > 3 * page.value("metresAt(shown, map.getZoom())"):
            return whose == "finger" and near(rows[int(at[1])][int(at[0])], colour, 2)
    return False


def check_related_media(scene):
    """Pictures are shown as pictures, the rest as links, rows as buttons that go on; what isn't there is said."""
    page = scene.open()
    ask_related(page, "spots", 7, 5)
    items = page.value(
        "[...byId('related').children].map(it => [it.innerText.trim(), it.querySelector('img')?.naturalWidth ?? 0, "
        "it.querySelector('a')?.getAttribute('href') ?? ''])"
    )
    expect(
        items,
        [
            ["owners 9007199254740992", 0, ""],
            ["papers 4 (application/pdf)", 0, "/media/papers/4"],
            ["photos 1 (image/png)", 160, "/media/photos/1"],
            ["photos 2 (image/png)", 120, "/media/photos/2"],
            ["photos 9 (image/jpeg)", 0, "/media/photos/9"],
        ],
        "related items",
    )
    expect(page.value("byId('answer').innerText"), "spots 7 is related to 5 items.", "the answer")
    page.value("byId('related').querySelectorAll('li')[2].scrollIntoView()")
    rows = scene.screenshot(page, "related")
    left, top, wide, high = box_of(page, "byId('related').querySelector('img')")
    assert near(rows[int(top + high / 2)][int(left + wide / 2)], (200, 60, 40), 2), "the photo isn't in its colour"
    page.value("byId('related').querySelector('button').click()")
    page.wait("byId('answer').innerText === 'owners 9007199254740992 is related to no items.'")
    ask_related(page, "photos", 2, 1)
    expect(page.value("byId('related').querySelector('img').naturalWidth"), 120, "the photo itself")
    expect_quiet(scene, [page])
    ask_related(page, "spots", 9, 0)
    expect(page.value("byId('answer').innerText"), "spots has no 9.", "the answer")


def ask_related(page, table, number, count):
    page.value(f"byId('table').value = '{table}'; byId('number').value = ''; byId('number').focus()")
    page.type(str(number))
    page.press("Enter")
    page.wait(f"byId('answer').innerText.startsWith('{table} ') && byId('related').children.length === {count}")


def check_tables(scene):
    """All tables are listed with identifier and last change, as text whatever they are called."""
    page = scene.open()
    listed = page.value("[...byId('tables').children].map(it => it.innerText)")
    told = [
        line for line in mmpkg("list", copy_of(scene, "listed.mmpkg")).splitlines() if not line.startswith("edition ")
    ]
    expect(len(listed), len(told), "tables")
    for shown, line in zip(listed, told):
        table, kind, _, changed, identifier = line.split(None, 4)
        expect(shown.splitlines()[:3], [identifier, f"{table}, {kind}", f"last change {changed}"], "a table")
    expect(page.value("document.querySelectorAll('b').length"), 0, "elements out of an identifier")
    expect(page.value("document.title"), PYRAMIDS[0].identifier, "the title")
    expect(page.value("byId('messages').innerText"), "", "messages")


def check_nothing_elsewhere(scene):
    """The page's policy keeps it from other addresses, and from running what isn't its own."""
    page = scene.open()
    page.value(
        "addEventListener('securitypolicyviolation', it => (window.blocked ??= []).push(it.effectiveDirective)); 0"
    )
    with socket.create_server(("127.0.0.1", 0)) as other:
        other.settimeout(2)
        there = f"http://127.0.0.1:{other.getsockname()[1]}"
        expect(page.value(f"fetch('{there}/a').then(() => 'had', () => 'kept')"), "kept", "a fetch of another address")
        image = (
            "new Promise(done => { const it = new Image(); it.onload = it.onerror = event => done(event.type); it.src"
            f" = '{there}/b'; }})"
        )
        expect(page.value(image), "error", "an image of another address")
        page.value(
            "document.body.append(Object.assign(document.createElement('script'), { textContent: 'window.foreign ="
            " true' }))"
        )
        expect(page.value("window.foreign ?? false"), False, "a script that isn't the page's own")
        with contextlib.suppress(TimeoutError):
            other.accept()
            raise AssertionError("another address was asked")
    page.wait("window.blocked?.length >= 3")
    expect(sorted(page.value("blocked")), ["connect-src", "img-src", "script-src-elem"], "what the policy kept back")


def copy_of(scene, name):
    """A copy of the package with its journal: the one that is served is no other program's meanwhile."""
    file = scene.folder / name
    for suffix in ("", "-wal"):
        if pathlib.Path(f"{scene.file}{suffix}").exists():
            shutil.copy(f"{scene.file}{suffix}", f"{file}{suffix}")
    return file


def check_no_answer(scene):
    """Where the program has ended the page says so in words, in place of holes alone; where it never answered too."""
    with served(copy_of(scene, "ended.mmpkg")) as address:
        page = scene.open(f"{address}/media/viewer/1")
        zoom_to(page, 0)
        expect(page.value("byId('messages').innerText"), "", "messages")
    page.value("map.setZoom(3, { animate: false }); 0")
    page.wait("byId('messages').innerText.startsWith(\"The package doesn't answer\")")
    page.value("byId('table').value = 'spots'; showRelated('spots', 7); 0")
    page.wait("byId('answer').innerText.startsWith(\"The package doesn't answer\")")
    scene.screenshot(page, "no-answer")


def check_what_came_later(scene):
    """A pyramid that came behind the viewer is named, and shown when the viewer is made anew and taken in by the same
    commands."""
    file = copy_of(scene, "later.mmpkg")
    later = dataclasses.replace(PYRAMIDS[2], table="later", identifier="Later map", missing=frozenset())
    mmpkg("run", file, given=later.records().encode())
    with served(file) as address:
        page = scene.open(f"{address}/media/viewer/1")
        told = "This viewer was made before the zooms of Later map: make the viewer anew to see them."
        expect(page.value("byId('messages').innerText"), told, "messages")
        expect(
            page.value("[...byId('pyramids').options].map(it => it.value)"),
            [it.table for it in PYRAMIDS],
            "maps to choose",
        )
        scene.screenshot(page, "later")
    commands, _ = take_in(file, scene.folder / "anew")
    words = [json.loads((scene.folder / it / "viewer-4").read_text())["package"] for it in ("out", "anew")]
    expect(words[1], words[0], "the package's word in a viewer that is made anew")
    expect((scene.folder / "anew" / "layout.csv").read_text(), "edition,viewer_2\n", "the layout of the second viewer")
    assert "publish,viewer_2" in commands, commands
    with served(file) as address:
        page = scene.open(f"{address}/media/viewer/1")
        expect(page.value("byId('messages').innerText"), "", "messages")
        choose(page, "later")
        expect(page.value("shown.matrices.length"), 3, "zooms of the later map")


def shown_tiles(page):
    """How many tiles of the zoom that is shown have a picture."""
    return page.value("document.querySelectorAll('img.leaflet-tile[src]').length")


def is_told_missing(page):
    return not page.value("byId('none').hidden")


# Two maps of 4096 m: one with tiles at its last zoom alone, in a corner; one without any.
SPARSE = """srs,1,grid,NONE,1,metres,
pyramid,corner,Corner,1,0,0,4096000000,4096000000,two
matrix,corner,0,1,1,64,64,64000000,64000000
matrix,corner,6,64,64,64,64,1000000,1000000
pyramid,empty,Empty,1,0,0,4096000000,4096000000,two
matrix,empty,0,1,1,64,64,64000000,64000000
"""


def sparse_package(file):
    tile = picture(64, 64, PLAIN)
    new_package(
        file,
        SPARSE
        + "".join(
            tile_piece("corner", 6, column, row, tile).command() for column in range(50, 54) for row in range(3, 6)
        ),
    )


def check_where_tiles_are(scene):
    """A map opens where its tiles are; where there is none that is said, and a button and a typed place go on from
    there."""
    file = scene.folder / "sparse.mmpkg"
    sparse_package(file)
    take_in(file, scene.folder / "sparse")
    with served(file) as address:
        page = scene.open(f"{address}/media/viewer/1")
        expect(
            (position(page)[3], is_told_missing(page), shown_tiles(page)),
            (6, False, 12),
            "the zoom, the word, and tiles at the start",
        )
        page.click(*middle(page, "fit"))
        settle(page)
        expect((position(page)[3], is_told_missing(page), shown_tiles(page)), (0, True, 0), "behind 'Whole map'")
        scene.screenshot(page, "no-tile")
        page.click(*middle(page, "tiles"))
        settle(page)
        expect((position(page)[3], is_told_missing(page), shown_tiles(page)), (6, False, 12), "behind 'To the tiles'")
        for typed, place, said in (
            ("1000 2000", (1000, 2000), ""),
            ("E 3296.5, N 3808", (3296.5, 3808), ""),
            ("9000 1", (9000, 1), "This place is outside the map."),
            ("x 7", (9000, 1), "Two numbers are asked for: easting, then northing."),
        ):
            page.value(f"byId('wanted').value = '{typed}'; byId('go').requestSubmit(); 0")
            settle(page)
            assert near(position(page)[:2], place, 0.51), f"{typed}: {position(page)}"
            expect(page.value("byId('gone').innerText"), said, f"what is said of {typed}")
        choose(page, "empty")
        expect(
            (is_told_missing(page), page.value("byId('tiles').disabled"), page.value("byId('messages').innerText")),
            (True, True, ""),
            "an empty map",
        )


def check_bounds_of_a_map(scene):
    """A map of kept bounds is shown within them: what its tiles have outside is covered, and 'Whole map' is theirs."""
    file = scene.folder / "bounded.mmpkg"
    sparse_package(file)
    mmpkg(
        "run",
        file,
        given=(
            b"table,map_bounds,attributes,Bounds of maps\nrow,map_bounds,1,corner,3200000000 3700000000 3300000000"
            b" 3904000000,0\n"
        ),
    )
    take_in(file, scene.folder / "bounded")
    with served(file) as address:
        page = scene.open(f"{address}/media/viewer/1")
        page.value("byId('wanted').value = '3300 3800'; byId('go').requestSubmit(); 0")
        settle(page)
        page.value("byId('map').classList.remove('centre'); 0")
        rows, (x, y) = scene.screenshot(page, "bounds"), middle(page, "map")
        expect((rows[int(y)][int(x) - 10], rows[int(y)][int(x) + 10]), (PLAIN, BLANK), "colours within and outside")
        page.click(*middle(page, "fit"))
        assert near(position(page)[:2], (3250, 3802), 0.51), f"the middle is {position(page)}"


def check_small_screens(scene):
    """On a phone nothing is cut off at the side, and the map has its place."""
    for wide, high in ((390, 800), (844, 390), (320, 640)):
        page = scene.open(width=wide, height=high, touch=True)
        expect(page.value("document.documentElement.scrollWidth <= innerWidth"), True, f"the page fits {wide} pixels")
        assert box_of(page)[3] >= 195, f"the map is {box_of(page)} at {wide}"
        expect(
            page.value("[map.getSize().x, map.getSize().y]"),
            page.value("[byId('map').clientWidth, byId('map').clientHeight]"),
            "the map's size",
        )
        scene.screenshot(page, f"screen-{wide}")


def package_files(folder):
    return {file.name: content_of(file) for file in sorted(folder.rglob("*")) if file.is_file()}


def check_tool_makes_a_kit(scene):
    """OUT has the layout and four items, whose bytes are the page, Leaflet with its licence, and what the page has to
    know."""
    out = scene.folder / "out"
    expect(
        sorted(it.name for it in out.iterdir()),
        ["kit.csv", "layout.csv", "viewer-1", "viewer-2", "viewer-3", "viewer-4"],
        "files",
    )
    expect((out / "layout.csv").read_text(), "table,viewer,media,Map viewer\nedition,viewer\n", "layout.csv")
    for number in (2, 3):
        text = (out / f"viewer-{number}").read_text()
        assert (
            text.startswith("/* Leaflet")
            and "Redistributions in binary form" in text
            and "sourceMappingURL" not in text
        ), f"item {number}"
    known = json.loads((out / "viewer-4").read_text())
    expect(
        {table: [tuple(it.values()) for it in entry["matrices"]] for table, entry in known["pyramids"].items()},
        {it.table: [dataclasses.astuple(zoom) for zoom in it.zooms] for it in PYRAMIDS},
        "matrices of item 4",
    )
    expect(
        [tuple(it.values()) for it in known["relations"]],
        [
            ("spots_owners", "spots", "owners", "simple_attributes"),
            ("spots_papers", "spots", "papers", "media"),
            ("spots_photos", "spots", "photos", "media"),
        ],
        "relations of item 4",
    )
    assert re.fullmatch("[0-9a-f]{16}", known["package"]), known["package"]
    expect(
        [it.name for it in (TOP / "tools" / "page").iterdir() if len(it.read_text().splitlines()) > 250],
        ["german.mjs"],
        "files of the page of more than 250 lines: the table of another language alone",
    )
    expect({it.name for it in scene.folder.iterdir() if it.name.startswith(".viewer")}, set(), "what is left behind")


def check_tool_with_a_standing_table(scene):
    """A media table of the name is taken, where its items are a viewer's; the next edition's name is found."""
    file = scene.folder / "named.mmpkg"
    new_package(
        file, "table,maps,media,Map viewer\nmedia,maps,1,text/html,3c\nedition,maps\npublish,maps\nedition,maps_2\n"
    )
    commands, told = take_in(file, scene.folder / "maps out", "--table", "maps")
    expect(
        told,
        (
            "note: edition maps_2: is open; 'discard,maps_2' takes it back where it was for an earlier viewer\n"
            f"note: {file}: has no matrix yet: make the viewer anew when it has\n"
        ),
        "what is told",
    )
    expect((scene.folder / "maps out" / "layout.csv").read_text(), "edition,maps_3\n", "layout.csv")
    assert "kit FILE maps_3" in commands and mmpkg("list", file).splitlines()[0].split()[:3] == [
        "maps",
        "media",
        "4",
    ], commands
    take_in(file, scene.folder / "other", "--edition", "spring")
    expect(
        (scene.folder / "other" / "layout.csv").read_text(),
        "table,viewer,media,Map viewer 2\nedition,spring\n",
        "layout.csv",
    )
    with served(file) as address:
        page = scene.open(f"{address}/media/viewer/1")
        expect(page.value("byId('messages').innerText"), "The package has no map yet.", "messages")


# Words for the tool with {} for the folder, the line that it tells, and its status.
REFUSED = [
    (["{}/none.mmpkg", "{}/out"], "{}/none.mmpkg: not a package 94", 4),
    (["{}/notes.mmpkg", "{}/out"], "{}/notes.mmpkg: fault 91", 3),
    (["{}/broken.mmpkg", "{}/out"], "{}/broken.mmpkg: rule Q16", 4),
    (
        ["{}/one.mmpkg", "{}/out"],
        "{}/one.mmpkg: not a package 93 (of profile 1; 'mmpkg migrate {}/one.mmpkg' brings it to this one)",
        4,
    ),
    (["{}", "{}/out"], "[Errno 21] Is a directory: '{}'", 2),
    (
        ["{}/good.mmpkg", "{}/stands"],
        "{}/stands: is there, and is not overwritten; remove it, or choose another name",
        2,
    ),
    (["{}/good.mmpkg", "{}/no/out"], "{}/no: is no folder", 2),
    (["{}/good.mmpkg", "{}/notes.mmpkg/out"], "{}/notes.mmpkg: is no folder", 2),
    (
        ["{}/good.mmpkg", "{}/out", "--table", "spots"],
        "spots: is a table of kind attributes; --table names another table",
        2,
    ),
    (
        ["{}/good.mmpkg", "{}/out", "--table", "photos"],
        "photos: its item 1 is image/png and no viewer's; --table names another table",
        2,
    ),
    (["{}/foreign.mmpkg", "{}/out"], "viewer: its item 9 is text/html and no viewer's; --table names another table", 2),
    (
        ["{}/foreign.mmpkg", "{}/out", "--table", "run"],
        "run: its item 5 is no WMTS description of these tools; --table names another table",
        2,
    ),
    (
        ["{}/related.mmpkg", "{}/out"],
        "viewer: the relation shown relates viewer to spots; --table names another table",
        2,
    ),
    (
        ["{}/good.mmpkg", "{}/out", "--table", "views"],
        "views: is the name of a mapping; --table names another table",
        2,
    ),
    (["{}/good.mmpkg", "{}/out", "--table", "mm_map"], "'mm_map' is no name of a package", 2),
    (
        ["{}/good.mmpkg", "{}/out", "--edition", "old"],
        "old: this edition is published in the package; --edition names another",
        2,
    ),
]


def make_refused(folder):
    """The files that are refused, and a good one."""
    folder.mkdir()
    new_package(
        folder / "good.mmpkg",
        (
            "table,spots,attributes,Spots\ntable,photos,media,Photos\nmedia,photos,1,image/png,89504e47\n"
            "relation,views,spots,photos,media\nedition,old\npublish,old\n"
        ),
    )
    script = b"<x:script xmlns:x='http://www.w3.org/1999/xhtml'>stop()</x:script>".hex()
    new_package(folder / "foreign.mmpkg", "table,viewer,media,V\nmedia,viewer,9,text/html,3c\ntable,run,media,R\n"
                                         f"media,run,5,text/xml,{script}\n")  # fmt: skip
    new_package(folder / "related.mmpkg", "table,spots,attributes,Spots\ntable,viewer,media,V\n"
                                          "relation,shown,spots,viewer,media\n")  # fmt: skip
    shutil.copy(folder / "good.mmpkg", folder / "broken.mmpkg")
    with contextlib.closing(sqlite3.connect(folder / "broken.mmpkg")) as opened:
        opened.execute("UPDATE gpkg_contents SET description = 'x'")
        opened.commit()
    new_package(folder / "one.mmpkg")
    expect(make_profile_1.put_back(folder / "one.mmpkg"), True, "a package of profile 1")
    (folder / "notes.mmpkg").write_bytes(b"ten bytes\n")
    (folder / "stands").mkdir()


def check_tool_refuses(scene):
    """Bad input is told in a line with its status, and nothing is made or changed."""
    folder = scene.folder / "refused"
    make_refused(folder)
    before = package_files(folder), sorted(it.name for it in folder.iterdir())
    for words, line, status in REFUSED:
        told = run(TOOL, *(it.replace("{}", str(folder)) for it in words), status=status)
        expect(told, ("", line.replace("{}", str(folder)) + "\n"), f"what is told of {words}")
    _, told = run(TOOL, folder / "good.mmpkg", "/proc/out", status=2)
    expect(len(told.splitlines()), 1, "lines where a folder can't be written")
    expect((package_files(folder), sorted(it.name for it in folder.iterdir())), before, "the files")


def check_tool_without_leaflet(scene):
    """Where Leaflet, its licence or the program is missing, that is named with what brings it; a reader who is gone
    gets no traceback."""
    for name in ("LEAFLET", "LICENCE"):
        code = f"import sys, pathlib, make_viewer; make_viewer.{name} = pathlib.Path('/nowhere'); "
        code += "make_viewer.run_tool(make_viewer.main)"
        _, told = run(
            "env",
            f"PYTHONPATH={TOP / 'tools'}",
            "python3",
            "-B",
            "-c",
            code,
            scene.file,
            scene.folder / "unmade",
            status=2,
        )
        assert re.fullmatch(r"/nowhere.*: isn't there; 'apt-get install libjs-leaflet' brings it\n", told), told
    _, told = run("env", "MMPKG=/nowhere", TOOL, scene.file, scene.folder / "unmade", status=2)
    expect(
        told, "/nowhere: isn't there; scripts/build.sh makes out/mmpkg, or MMPKG names the program\n", "what is told"
    )
    expect((scene.folder / "unmade").exists(), False, "something was made")
    read, write = os.pipe()
    os.close(read)
    for words in ([TOOL, scene.file, scene.folder / "unread"], [TOOL, "--help"]):
        done = subprocess.run(
            words,
            stdout=write,
            stderr=subprocess.PIPE,
            check=False,
            env={**os.environ, "MMPKG": PROGRAM, "PYTHONUNBUFFERED": ""},
        )
        expect((done.returncode, done.stderr), (2, b"standard output: nobody reads it\n"), f"what {words} tells")
    os.close(write)
    expect(
        package_files(scene.folder / "unread").keys(),
        package_files(scene.folder / "out").keys(),
        "a folder whose commands nobody read",
    )


def main():
    given = words_given(__doc__, browser=True)
    want("the viewer wasn't looked at", *browsers.needs(given.browser))
    with tempfile.TemporaryDirectory() as name, browsers.held(given.browser):
        folder = pathlib.Path(name)
        with browsers.start(given.browser, folder / "profile") as browser:
            scene = Scene(folder, browser, given.keep)
            new_package(scene.file, content())
            take_in(scene.file, folder / "out")
            faults = 0
            try:
                with served(scene.file) as scene.address:
                    passed, failed = run_checks("viewer", globals(), given.words, scene.call)
            except AssertionError:
                traceback.print_exc(file=sys.stdout)
                faults = 1
    end(passed, failed + faults)


if __name__ == "__main__":
    main()
