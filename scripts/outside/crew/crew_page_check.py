#!/usr/bin/python3
"""Works at the page of 'mmpkg desk' (docs/BORDER.md) as a crew does, in a browser without a window.

    apt-get install chromium firefox-esr libjs-leaflet python3-pil python3-piexif
    scripts/outside/crew/crew_page_check.py [PROGRAM] [--browser chromium | firefox-esr] [--keep FOLDER] [WORD ..]

What a form saves has to stand in the package, wholly and once, by what the program and SQLite tell of it; also where
the program or the answer is cut at each line, the browser ends, or another tab works too. --keep keeps screenshots in a
folder; WORD picks the checks whose names have it. The last line is 'N passed, M failed'. Exit status: 0 all passed, 1
something failed, 2 the program isn't there, 77 the browser or Leaflet isn't there.
"""

import base64
import contextlib
import http.server
import importlib
import itertools
import json
import pathlib
import re
import shutil
import socket
import sqlite3
import struct
import sys
import tempfile
import threading
import time

sys.path.insert(0, str(pathlib.Path(__file__).resolve().parents[1] / "lib"))
from checks import (
    end,
    expect,
    free_port,
    mmpkg,
    new_package,
    run_checks,
    serving,
    want,
    words_given,
)  # noqa: E402
import browsers  # noqa: E402
import maps_drawn  # noqa: E402
import images  # noqa: E402
from browser_page import WAIT_SECONDS  # noqa: E402
from crew_page import KEY, MIDDLE, STANDS, Crew, Seat, wait_until  # noqa: E402
from images import picture  # noqa: E402
from viewer_package import base_map, content_of_crews, record, take_in  # noqa: E402

BASE = base_map(3)
STONES = 12


def content():
    """Rows at places, owners of rows, and photos."""
    places = {it: f"@25832:{500_000 + 70 * it}/{5_600_000 + 60 * it}" for it in range(1, STONES + 1)}
    rows = [["row", "spots", it, f"Stone {it}", f"{places[it]} from the books", it] for it in places]
    photo = [
        ["media", "photos", 7, "image/png", picture(160, 120, (200, 60, 40)).hex()],
        ["map", "spots_photos", 7, 7],
        ["row", "owners", 1, "Ada", "", 0],
        ["map", "owners_spots", 1, 9],
    ]
    return content_of_crews(BASE, *rows, *photo)


class Scene:
    """A package with its page, copies of which are worked on, and the browser."""

    def __init__(self, folder, browser, command, keep):
        self.folder, self.browser, self.command, self.keep = folder, browser, command, keep
        self.file = folder / "a.mmpkg"
        self.count = 0
        self.seats, self.pages = [], []
        new_package(self.file, content())
        take_in(self.file, folder / "page")
        self.photo = folder / "photo.png"
        self.photo.write_bytes(picture(300, 200, (40, 160, 80)))

    def call(self, check):
        """Does a check, and ends what it began."""
        try:
            check(self)
        finally:
            pages, seats = self.pages, self.seats
            self.pages, self.seats = [], []
            for seat in seats:
                seat.kill()
            for page in pages:
                page.close()

    def copy(self):
        self.count += 1
        file = self.folder / f"{self.count}.mmpkg"
        for suffix in ("", "-wal"):
            if pathlib.Path(f"{self.file}{suffix}").exists():
                shutil.copy(f"{self.file}{suffix}", f"{file}{suffix}")
        return file

    def seat(self, **how):
        seat = Seat(self.copy(), **how)
        self.seats.append(seat)
        return seat

    def crew(self, address, **how):
        crew = Crew(self.browser, address, **how)
        self.pages.append(crew.page)
        return crew

    def begin(self, **how):
        seat = self.seat()
        return seat, self.crew(seat.address, **how)

    def screenshot(self, crew, name):
        if self.keep:
            (self.keep / f"{name}.png").write_bytes(crew.page.screenshot())


def rows_of(seat, table="spots"):
    """By id, the rows of a package whose desk is killed first, as the program left them; it has to be whole."""
    seat.kill()
    expect(mmpkg("check", seat.file), "package ok\n", "the check")
    with contextlib.closing(sqlite3.connect(f"file:{seat.file}?mode=ro&immutable=1", uri=True)) as opened:
        return {
            row[0]: row[1:]
            for row in opened.execute("SELECT id, title, note, amount FROM mm_rows WHERE table_name = ?", (table,))
        }


def related_of(seat, row):
    """The sizes and types of the photos that a row is related to."""
    query = (
        "SELECT content_type, length(data) FROM mm_map JOIN mm_media m ON m.table_name = 'photos' AND m.id = related_id"
        " JOIN mm_blobs b ON b.id = m.blob WHERE mapping = 'spots_photos' AND base_id = ?"
    )
    with contextlib.closing(sqlite3.connect(f"file:{seat.file}?mode=ro&immutable=1", uri=True)) as opened:
        return opened.execute(query, (row,)).fetchall()


def count_of(seat, table):
    with contextlib.closing(sqlite3.connect(f"file:{seat.file}?mode=ro&immutable=1", uri=True)) as opened:
        return opened.execute(f"SELECT count(*) FROM {table}").fetchone()[0]


def by_title(rows, title):
    """The number and the rest of the only row of a title."""
    found = [(number, row[1:]) for number, row in rows.items() if row[0] == title]
    assert len(found) == 1, f"{len(found)} rows are called {title!r}"
    return found[0]


def expect_quiet(crew, *allowed):
    """The console tells nothing but what is named."""
    said = [it for it in crew.page.said if not any(word in it[1] for word in allowed)]
    expect(said, [], "what the console tells")


def check_a_row_with_a_photo(scene):
    """A new row by a tap, with a note, an amount and a photo, stands with all of it, and is seen on the map and in its
    form."""
    seat, crew = scene.begin()
    crew.new(title='Spring, "cold"', note="under the oak", amount=12, place=(500_400, 5_600_500), photos=[scene.photo])
    crew.wait_until_it_stands()
    crew.open('Spring, "cold"')
    crew.page.wait("byId('thumbnails').querySelector('img')?.naturalWidth === 300")
    expect(
        [crew.value(f"byId('{it}').value") for it in ("title", "note", "amount", "east", "north")],
        ['Spring, "cold"', "under the oak", "12", "500400.0", "5600500.0"],
        "the form",
    )
    scene.screenshot(crew, "row")
    expect_quiet(crew)
    number, rest = by_title(rows_of(seat), 'Spring, "cold"')
    expect(rest, ("@25832:500400.0/5600500.0 under the oak", 12), "the row")
    expect([it[0] for it in related_of(seat, number)], ["image/jpeg"], "its photos")
    assert abs(number / 4096 - (time.time() - 1577836800) * 1000) < 600_000, f"the number {number} is not of now"


def check_changes(scene):
    """What is changed stands; what isn't stays letter by letter; two more photos are related, and one is taken off."""
    seat, crew = scene.begin()
    crew.change("Stone 3", title="Stone three", amount=-7)
    crew.change("Stone 4", note="leaning", place=(500_300, 5_600_700))
    crew.change("Stone 7", photos=[scene.photo, scene.photo])
    crew.wait_until_it_stands()
    crew.open("Stone 7")
    crew.page.wait("byId('thumbnails').querySelectorAll('img').length === 3")
    old = "[...byId('thumbnails').children].find(it => it.innerText.includes('photos 7\\n')).querySelector('button')"
    for _ in range(2):
        crew.press(f"({old})")
    crew.wait_until_it_stands()
    crew.page.wait("byId('thumbnails').querySelectorAll('img').length === 2")
    expect_quiet(crew)
    rows = rows_of(seat)
    expect(rows[3], ("Stone three", "@25832:500210/5600180 from the books", -7), "a row whose place wasn't touched")
    expect(rows[4], ("Stone 4", "@25832:500300.0/5600700.0 leaning", 4), "a row at another place")
    expect([it[0] for it in related_of(seat, 7)], ["image/jpeg"] * 2, "photos")
    expect(count_of(seat, "mm_media WHERE table_name = 'photos'"), 2, "photos in the package")


def check_a_photo_on_its_way(scene):
    """A row that is saved while its photos are still being made smaller has them; of what is no picture that is told,
    and the form stays."""
    seat, crew = scene.begin()
    shut = "window.gate = new Promise(good => { window.opens = good; }), 0"
    crew.value(
        "window.atOnce = createImageBitmap, window.createImageBitmap = async file => { await gate; return"
        f" atOnce(file); }}, {shut}"
    )
    crew.press("fresh")
    crew.fill(title="Quick", place=(500_400, 5_600_500))
    crew.page.choose_files("byId('pictures')", [scene.photo, scene.photo])
    waits = "byId('told').innerText === 'Waiting for the photo ..'"
    crew.press("save")
    crew.page.wait(waits)
    crew.value("opens(), 0")
    crew.page.wait("byId('edit').hidden")
    crew.open("Stone 4")
    crew.value(shut)
    crew.page.choose_files("byId('pictures')", [scene.folder / "page" / "kit.csv"])
    crew.press("save")
    crew.page.wait(waits)
    crew.value("opens(), 0")
    crew.page.wait(
        "byId('told').innerText === 'kit.csv is no picture that this browser draws, no PDF, no sound and no line.'"
    )
    expect(crew.value("form.row.title"), "Stone 4", "the form")
    crew.wait_until_it_stands()
    expect_quiet(crew)
    number, _ = by_title(rows_of(seat), "Quick")
    expect([it[0] for it in related_of(seat, number)], ["image/jpeg"] * 2, "its photos")


def check_a_form_that_opens_while_another_is_kept(scene):
    """A slow disk keeps an act behind the next form's opening: that form stays open, and both are kept."""
    seat, crew = scene.begin()
    crew.value(
        "window.atOnce = keep; keep = async work => { await atOnce(work); await new Promise(good => setTimeout(good,"
        " 1000)); }; 0"
    )
    crew.open("Stone 4")
    for _ in range(2):
        crew.press("remove")
    crew.press("fresh")
    crew.write("title", "The next")
    time.sleep(2)
    expect((crew.value("form?.fresh"), crew.value("byId('title').value")), (True, "The next"), "the form")
    crew.save()
    crew.wait_until_it_stands()
    expect_quiet(crew)
    rows = rows_of(seat)
    by_title(rows, "The next")
    expect(4 in rows, False, "the row that was removed stands")


def check_a_row_is_removed(scene):
    """A row goes with its mapping rows and its photo; it is asked twice."""
    seat, crew = scene.begin()
    crew.open("Stone 7")
    crew.press("remove")
    expect(crew.text("remove"), "Remove: press again", "the button")
    crew.press("title")
    expect(crew.text("remove"), "Remove", "the button, left")
    crew.press("leave")
    crew.remove("Stone 7")
    crew.wait_until_it_stands()
    expect_quiet(crew)
    rows = rows_of(seat)
    expect((7 in rows, len(rows)), (False, STONES - 1), "the rows")
    left = count_of(seat, "mm_map WHERE mapping = 'spots_photos'"), count_of(
        seat, "mm_media WHERE table_name = 'photos'"
    )
    expect(left, (0, 0), "what is left of what went along")


def check_search_and_order(scene):
    """The list is searched by all words, and ordered in each way."""
    _, crew = scene.begin()
    expect(crew.rows(), [f"Stone {it}" for it in range(STONES, 0, -1)], "newest first")
    crew.write("search", "BOOKS  stone 11")
    expect((crew.rows(), crew.text("count")), (["Stone 11"], "1 of 12 rows"), "found")
    crew.write("search", "stöne 11")
    expect(crew.rows(), ["Stone 11"], "found by other letters")
    crew.write("search", "nothing of this")
    expect((crew.rows(), crew.text("count")), ([], "0 of 12 rows"), "found")
    crew.write("search", "")
    crew.value("map.setView([5600360, 500420], 1, { animate: false }); 0")
    for order, first in (("oldest", ["Stone 1", "Stone 2"]), ("title", ["Stone 1", "Stone 2"]),
                         ("amount", ["Stone 12", "Stone 11"]), ("near", ["Stone 6", "Stone 5"]),
                         ("newest", ["Stone 12", "Stone 11"])):  # fmt: skip
        crew.value(f"byId('order').value = '{order}'; byId('order').dispatchEvent(new Event('change')); 0")
        expect(crew.rows()[:2], first, order)
    expect_quiet(crew)


def check_words_for_what_is_no_row(scene):
    """What is no row is told in words, and nothing of it is kept or sent. A place in a system without a definition is
    one."""
    seat, crew = scene.begin()
    place = "placeIn(noteOf({ system: -1, east: '500.5', north: '-6' }, 'oak'))"
    expect(crew.value(place), {"system": -1, "east": "500.5", "north": "-6", "rest": "oak"}, "a place of a plan")
    crew.press("fresh")
    for fields, words in (({"amount": "1.5"}, "whole number"), ({"amount": "007"}, "whole number"),
                          ({"amount": "1000000000000001"}, "whole number"),
                          ({"amount": "1", "title": "é" * 501}, "title has more"),
                          ({"title": "x", "note": "n" * 1001}, "note, with the place"),
                          ({"note": "", "east": "12"}, "East and north"), ({"north": "1e5"}, "East and north"),
                          ({"north": "5.1234567"}, "East and north")):  # fmt: skip
        for element, text in fields.items():
            crew.write(element, text)
        crew.save()
        assert words in crew.text("told"), f"{fields}: {crew.text('told')}"
        marked = "[...byId('edit').querySelectorAll('[aria-invalid]')]"
        invalid = crew.value(f"{marked}.map(it => it === document.activeElement)")
        expect(invalid, [True], f"the field that {fields} is about has the focus, and it alone is marked")
        told = crew.value(f"{marked}.map(it => byId(it.getAttribute('aria-describedby'))?.innerText)")
        expect(told, [crew.text("told")], "what a screen reader tells of the field")
    expect(crew.value("outbox.waiting.length"), 0, "what waits")
    crew.write("north", "5600000,25")
    crew.save()
    words = "This place is outside all maps. Press Save again if that is right."
    expect(crew.text("told"), words, "what is said of a place in the sea")
    crew.save()
    crew.wait_until_it_stands()
    crew.press("fresh")
    crew.fill(title="y", note="@25832:12/34 call tomorrow")
    crew.save()
    words = "The note tells a place: east 12, north 34. Press Save again if that is right."
    expect(crew.text("told"), words, "what is said of a word of the note")
    crew.write("note", "12/34 call tomorrow")
    crew.save()
    crew.wait_until_it_stands()
    expect(by_title(rows_of(seat), "x")[1], ("@25832:12/5600000.25", 1), "the row")


def check_by_keys_alone(scene):
    """A row is made, found, changed and removed by keys alone."""
    seat, crew = scene.begin()
    page = crew.page
    focus(page, "fresh")
    page.press("Enter")
    focus(page, "title")
    page.type("Keys")
    focus(page, "note")
    page.type("by keys")
    focus(page, "middle")
    page.press("Enter")
    focus(page, "save")
    page.press("Enter")
    page.wait("byId('edit').hidden")
    crew.wait_until_it_stands()
    focus(page, "search")
    page.type("Keys")
    for _ in range(10):
        page.press("Tab")
        if page.value("document.activeElement.closest('#rows') !== null"):
            break
    page.press("Enter")
    page.wait("form !== null")
    focus(page, "remove")
    page.press("Enter", "Enter")
    page.wait("byId('edit').hidden")
    crew.wait_until_it_stands()
    expect_quiet(crew)
    rows = rows_of(seat)
    expect(len(rows), STONES, "rows in the end")


def focus(page, element):
    """Presses the tabulator until an element has the focus."""
    for _ in range(80):
        if page.value(f"document.activeElement === byId('{element}')"):
            return
        page.press("Tab")
    raise AssertionError(f"{element} isn't reached by keys")


def check_where_the_device_is(scene):
    """The device's place is told in the map's system where the page can reckon it; else there is no button."""
    seat, crew = scene.begin()
    page = crew.page
    page.device_is_at(9.005, 50.552, 4.2)
    # By gdaltransform -s_srs EPSG:4258 -t_srs EPSG:25832.
    known = (
        (9.005, 50.552, 500354.215816, 5600007.530529),
        (11.9, -33.25, 770185.680644, -3682753.508127),
        (9, 0, 500000, 0),
    )
    for longitude, latitude, east, north in known:
        found = crew.value(f"projected(rows.systems[25832], {longitude}, {latitude})")
        assert (
            abs(found["east"] - east) < 0.001 and abs(found["north"] - north) < 0.001
        ), f"{found} for {longitude}, {latitude}"
    crew.press("fresh")
    crew.write("title", "Here")
    crew.press("here")
    page.wait("byId('told').innerText.includes('within 5 m')")
    expect([crew.value(f"byId('{it}').value") for it in ("east", "north")], ["500354.22", "5600007.53"], "the place")
    crew.save()
    crew.wait_until_it_stands()
    crew.press("locate")
    page.wait("byId('messages').innerText === 'The device is here, within 5 m.'")
    page.value("byId('pyramids').value = 'plan'; byId('pyramids').dispatchEvent(new Event('change')); 0")
    expect(crew.value("[byId('locate').hidden, byId('here').hidden]"), [True, True], "the buttons in a plan")
    expect_quiet(crew)


LATE_DEVICE = """navigator.geolocation.getCurrentPosition = good => {
  window.tells = () => good({ coords: { longitude: 9.005, latitude: 50.552, accuracy: 4.2 } });
}; 0"""


def check_a_device_that_tells_late(scene):
    """Its place goes into the form that asked for it, which is saved behind that, and in place of no other that was set
    meanwhile."""
    seat, crew = scene.begin()
    crew.value(LATE_DEVICE)
    crew.press("fresh")
    crew.write("title", "Waits for it")
    crew.press("here")
    crew.press("save")
    expect(crew.text("told"), "Waiting for the device's place ..", "what is said")
    crew.value("tells(); 0")
    crew.page.wait("byId('edit').hidden")
    crew.press("fresh")
    crew.press("here")
    crew.press("leave")
    crew.open("Stone 4")
    crew.value("tells(); 0")
    expect(
        crew.value("[byId('east').value, byId('told').innerText, isHeld()]"),
        ["500280", "", False],
        "the form of another row",
    )
    crew.press("leave")
    crew.press("fresh")
    crew.write("title", "By a tap")
    crew.press("here")
    crew.fill(place=(500_400, 5_600_500))
    crew.value("tells(); 0")
    crew.save()
    crew.wait_until_it_stands()
    expect_quiet(crew)
    rows = rows_of(seat)
    note = by_title(rows, "Waits for it")[1][0]
    assert re.fullmatch("@25832:500354.22/5600007.53 acc=4.2 age=[0-9]+", note), f"the device's place: {note}"
    expect(by_title(rows, "By a tap")[1][0], "@25832:500400.0/5600500.0", "the place that was tapped")


def check_the_way_to_a_row(scene):
    """A form tells how far its place is from the map's middle and which way, and the list does in its order; the device
    leads there as it goes."""
    seat, crew = scene.begin()
    page = crew.page
    ways = {
        (3, 4): "5.0 m, 37° (NE)",
        (0, -12.4): "12 m, 180° (S)",
        (-1500, 1): "1,500 m, 270° (W)",
        (-0.01, 20): "20 m, 0° (N)",
    }
    for (east, north), words in ways.items():
        expect(crew.value(f"wordsOfWay({east}, {north})"), words, "a way in words")
    crew.value("map.setView([5600360, 500420], 2, { animate: false }); 0")
    crew.value("byId('order').value = 'near'; byId('order').dispatchEvent(new Event('change')); 0")
    texts = "[...byId('rows').querySelectorAll('small')].slice(0, 2).map(it => it.innerText)"
    expect(
        crew.value(texts), ["0.0 m, 0° (N) · from the books · 6", "92 m, 229° (SW) · from the books · 5"], "the list"
    )
    crew.value("map.setView([5600420, 500490], 2, { animate: false }); 0")
    expect(crew.value(texts)[0], "0.0 m, 0° (N) · from the books · 7", "the list where the map has moved")
    crew.open("Stone 6")
    expect(crew.text("way"), "From the map's middle: 92 m, 229° (SW)", "the way in the form")
    crew.write("east", "500490")
    expect(crew.text("way"), "From the map's middle: 60 m, 180° (S)", "the way to another place")
    # By gdaltransform the first is at 500354.2 E, 5600007.5 N.
    page.device_is_at(9.005, 50.552, 4.2)
    crew.value(
        "window.awake = 0; navigator.wakeLock.request = async () => { window.awake += 1; return { release() {"
        " window.awake -= 1; } }; }; 0"
    )
    crew.press("lead")
    page.wait("byId('way').innerText === '378 m, 21° (N), within 5 m'")
    expect(
        crew.value("document.dispatchEvent(new Event('visibilitychange')), window.awake"),
        2,
        "how often the screen was asked to stay on",
    )
    expect(
        crew.value("[[5600007, 500354], [5600360, 500490]].every(it => map.getBounds().contains(it))"),
        True,
        "both are on the map",
    )
    scene.screenshot(crew, "way")
    page.device_is_at(9.006, 50.552, 9)
    page.wait("byId('way').innerText === '358 m, 10° (N), within 9 m'")
    crew.press("lead")
    expect((crew.value("led"), crew.text("way").split(":")[0]), (None, "From the map's middle"), "the way behind that")
    crew.press("lead")
    page.value("byId('pyramids').value = 'plan'; byId('pyramids').dispatchEvent(new Event('change')); 0")
    expect(crew.value("[led, byId('lead').hidden, byId('way').innerText]"), [None, True, ""], "the way in a plan")
    expect_quiet(crew)


class Late:
    """Answers to requests that have a word: they come when they are let go."""

    def __init__(self, word):
        self.word, self.came, self.may_go = word, threading.Event(), threading.Event()

    def wait(self):
        assert self.came.wait(WAIT_SECONDS), f"nobody asked for {self.word}"

    def go(self):
        self.may_go.set()


class Cutter:
    """Stands between a browser and a desk, and cuts one answer or one body off; what goes through has the desk's port
    for its own."""

    def __init__(self, seat):
        self.seat, self.cut, self.renames, self.late, self.drops = seat, None, True, None, None
        self.listener = socket.create_server(("127.0.0.1", 0), backlog=128)
        self.port = self.listener.getsockname()[1]
        threading.Thread(target=self.listen, daemon=True).start()

    @property
    def address(self):
        return f"http://127.0.0.1:{self.port}/{self.seat.key}"

    def listen(self):
        with contextlib.suppress(OSError):
            while True:
                connection, _ = self.listener.accept()
                threading.Thread(target=self.serve, args=(connection,), daemon=True).start()

    def serve(self, connection):
        with connection, contextlib.suppress(OSError):
            connection.settimeout(20)
            read = b""
            while b"\r\n\r\n" not in read:
                more = connection.recv(65536)
                if not more:
                    return
                read += more
            head, _, body = read.partition(b"\r\n\r\n")
            size = re.search(rb"(?i)content-length: *([0-9]+)", head)
            while len(body) < int(size[1] if size else 0):
                body += connection.recv(65536)
            self.hand_on(connection, head + b"\r\n\r\n", body)

    def hand_on(self, connection, head, body):
        cut = self.cut if head.startswith(b"POST") else None
        if self.drops and self.drops in body:
            return None
        if self.renames:
            head = head.replace(b"127.0.0.1:%d" % self.port, b"127.0.0.1:%d" % self.seat.port)
        if cut == "before":
            return self.done()
        if cut == "body":
            with socket.create_connection(("127.0.0.1", self.seat.port)) as desk:
                desk.sendall(head + body[: len(body) // 2])
            return self.done()
        with socket.create_connection(("127.0.0.1", self.seat.port)) as desk:
            desk.sendall(head + body)
            if self.late and self.late.word in head + body:
                self.answer_late(connection, desk, self.late)
            else:
                self.answer(connection, desk, cut)
        return None

    def answer_late(self, connection, desk, late):
        """Hands the answer on when it is let go; the desk is free for others meanwhile."""
        told = b"".join(iter(lambda: desk.recv(65536), b""))
        late.came.set()
        late.may_go.wait(WAIT_SECONDS)
        connection.sendall(told)

    def answer(self, connection, desk, cut):
        """Hands the answer on, up to so many lines and the half of one more."""
        told = b""
        while more := desk.recv(1 if cut is not None else 65536):
            told += more
            lines = told.partition(b"\r\n\r\n")[2]
            if lines and lines.count(b"\n") == cut and not lines.endswith(b"\n"):
                self.done()
                return
            connection.sendall(more)

    def done(self):
        """The desk is killed at the cut, which is made once."""
        self.cut = None
        self.seat.kill()


def check_an_act_cut_at_each_line(scene):
    """The program is killed before an act comes, in its body, and at each line: behind that the act stands, wholly and
    once."""
    for cut in ("before", "body", 0, 1, 2):
        seat = scene.seat()
        cutter = Cutter(seat)
        crew = scene.crew(cutter.address)
        cutter.cut = cut
        crew.new(title="Cut", place=(500_400, 5_600_500), photos=[scene.photo])
        crew.page.wait("byId('state').className === 'gone'")
        expect(crew.rows()[0], "Cut", "what is shown meanwhile")
        assert "waits to be sent" in crew.waiting()[0], crew.waiting()
        seat.start()
        crew.wait_until_it_stands()
        expect_quiet(crew, "ERR_", "Failed to load resource")
        number, rest = by_title(rows_of(seat), "Cut")
        expect(rest, ("@25832:500400.0/5600500.0", 0), f"the row, cut at {cut}")
        expect(
            (len(related_of(seat, number)), count_of(seat, "mm_media WHERE table_name = 'photos'")),
            (1, 2),
            f"its photo, cut at {cut}",
        )


def check_a_removal_cut_at_each_line(scene):
    """A removal with a photo: two lists, each cut at each line."""
    for cut, lists in (("before", 1), (0, 1), (1, 1), (0, 2)):
        seat = scene.seat()
        cutter = Cutter(seat)
        crew = scene.crew(cutter.address)
        if lists == 1:
            cutter.cut = cut
        else:
            cut_at_second(cutter, cut)
        crew.remove("Stone 7")
        crew.page.wait("byId('state').className === 'gone'")
        seat.start()
        crew.wait_until_it_stands()
        rows = rows_of(seat)
        photos = count_of(seat, "mm_media WHERE table_name = 'photos'")
        expect((7 in rows, len(rows), photos), (False, STONES - 1, 0), f"what stands, cut at {cut}")


def cut_at_second(cutter, cut):
    """Has the list cut that is sent behind a removal."""
    real = cutter.hand_on

    def counted(connection, head, body):
        if head.startswith(b"POST") and b"media-drop" in body:
            cutter.cut, cutter.hand_on = cut, real
        return real(connection, head, body)

    cutter.hand_on = counted


def check_a_photo_whose_row_is_open_again(scene):
    """A photo that waits is shown as that, and once it stands as one that stands, and as nothing else."""
    seat = scene.seat()
    cutter = Cutter(seat)
    crew = scene.crew(cutter.address)
    cutter.late = late = Late(b"Looked at")
    crew.new(title="Looked at", photos=[scene.photo])
    late.wait()
    crew.open("Looked at")
    shown = "[...byId('thumbnails').children].map(it => it.innerText.split(/[ \\n]/)[0]).join()"
    expect(crew.value(shown), "waits", "the photo on its way")
    late.go()
    crew.wait_until_it_stands()
    crew.page.wait(f"{shown} === 'photos'")
    expect_quiet(crew)


def check_the_table_of_a_new_row(scene):
    """A new row is one of the table that was chosen, also before its rows are there; whether it may have photos goes by
    the table of the form."""
    seat = scene.seat()
    cutter = Cutter(seat)
    crew = scene.crew(cutter.address)
    cutter.late = late = Late(b"/rows/owners/")
    crew.value("byId('book').value = 'owners'; byId('book').dispatchEvent(new Event('change')); 0")
    late.wait()
    crew.press("fresh")
    expect(
        crew.value("[byId('into').value, byId('pictures').disabled]"),
        ["owners", True],
        "the form for a table without photos",
    )
    crew.value("byId('into').value = 'spots'; byId('into').dispatchEvent(new Event('change', { bubbles: true })); 0")
    crew.page.wait("byId('thumbnails').ariaBusy === 'false'")
    expect(
        crew.value("[byId('pictures').disabled, byId('thumbnails').innerText]"),
        [False, ""],
        "the form for one with photos",
    )
    crew.fill(title="Of the spots", photos=[scene.photo])
    late.go()
    crew.save()
    crew.wait_until_it_stands()
    expect_quiet(crew)
    number, _ = by_title(rows_of(seat), "Of the spots")
    expect([it[0] for it in related_of(seat, number)], ["image/jpeg"], "its photos")


def check_a_package_without_a_map(scene):
    """Rows are read anew where the program is back, also where there is no map."""
    file = scene.folder / "no map.mmpkg"
    new_package(file, record(["table", "spots", "attributes", "Spots"]) + record(["row", "spots", 1, "Stone", "", 0]))
    take_in(file, scene.folder / "no map")
    seat = Seat(file)
    scene.seats.append(seat)
    crew = scene.crew(seat.address)
    seat.kill()
    crew.new(title="Meanwhile")
    crew.page.wait("byId('state').innerText === \"the package doesn't answer\"")
    expect(
        mmpkg("run", file, "--at", 0, given=b"row,spots,2,By another,,0\n"), "1 ok\n", "a row that another program put"
    )
    seat.start()
    crew.wait_until_it_stands()
    crew.page.wait("byId('count').innerText === '3 rows'")
    expect_quiet(crew, "ERR_")


def check_line_ends_of_a_row(scene):
    """A title and a note with line ends, which a field doesn't have, stay letter by letter where others than these are
    changed."""
    seat, crew = scene.begin()
    expect(send(crew, 'row,spots,30,"Two\nlines","by the road\r\nand the oak ",3\n'), "1 ok\n", "the office's row")
    crew.reload()
    crew.value("open(rows.stood.get(30)); 0")
    crew.fill(amount=4, photos=[scene.photo])
    crew.save()
    crew.wait_until_it_stands()
    crew.value("open(rows.stood.get(30)); 0")
    crew.fill(place=(500_400, 5_600_500))
    crew.save()
    crew.wait_until_it_stands()
    expect_quiet(crew)
    expect(rows_of(seat)[30], ("Two\nlines", "@25832:500400.0/5600500.0 by the road\r\nand the oak ", 4), "the row")


def check_rows_that_come_late(scene):
    """What was saved, changed and removed while the rows were being read is shown when they come at last, though they
    are of before it."""
    seat = scene.seat()
    cutter = Cutter(seat)
    crew = scene.crew(cutter.address)
    cutter.late = late = Late(b"/rows/spots/1 ")
    crew.value("window.areRead = false; readRows().then(() => { window.areRead = true; }); 0")
    late.wait()
    crew.new(title="Meanwhile", place=(500_400, 5_600_500))
    crew.change("Stone 2", amount=99)
    crew.remove("Stone 3")
    crew.wait_until_it_stands()
    crew.write("search", "")
    shown = crew.rows()
    expect((shown[0], "Stone 3" in shown, len(shown)), ("Meanwhile", False, STONES), "what is shown before")
    late.go()
    crew.page.wait("window.areRead")
    expect(crew.rows(), shown, "what is shown behind that")
    expect(crew.value("rowsNow().find(it => it.id === 2).amount"), 99, "the row that was changed")
    expect_quiet(crew)
    by_title(rows_of(seat), "Meanwhile")


def check_kills_of_browser_and_program(scene):
    """What was saved while no program was there is in the next browser, and goes to the package once the program is
    there."""
    seat = scene.seat()
    profile = scene.folder / "kept"
    with browsers.start(scene.command, profile) as browser:
        crew = Crew(browser, seat.address, kept=True)
        seat.kill()
        crew.new(title="In the dark", note="kept", place=(500_200, 5_600_300), photos=[scene.photo])
        crew.change("Stone 2", amount=99)
        crew.page.wait("byId('state').className === 'gone'")
        expect(crew.value("outbox.waiting.length"), 2, "what waits")
        browser.kill()
    seat.start()
    with browsers.start(scene.command, profile) as browser:
        Crew(browser, seat.address, kept=True).wait_until_it_stands()
    rows = rows_of(seat)
    number, _ = by_title(rows, "In the dark")
    expect((rows[2][2], len(related_of(seat, number))), (99, 1), "what stands")


def check_two_tabs(scene):
    """Two tabs work at one time: each shows what both have saved, and all of it stands once."""
    seat = scene.seat()
    with browsers.start(scene.command, scene.folder / "tabs") as browser:
        tabs = [Crew(browser, seat.address, kept=True) for _ in range(2)]
        for turn in range(6):
            tabs[turn % 2].new(
                title=f"Tab {turn}", place=(500_100 + 50 * turn, 5_600_900), photos=[scene.photo] if turn < 2 else []
            )
        for crew in tabs:
            crew.wait_until_it_stands()
            crew.page.wait(f"byId('count').innerText === '{STONES + 6} rows'")
            expect_quiet(crew)
        seat.kill()
        tabs[0].new(title="Tab 6")
        tabs[1].page.wait("outbox.waiting.length === 1")
        tabs[0].page.close()
        seat.start()
        tabs[1].wait_until_it_stands()
    titles = sorted(row[0] for row in rows_of(seat).values() if row[0].startswith("Tab"))
    expect(titles, [f"Tab {it}" for it in range(7)], "the rows")


def check_two_tabs_that_type(scene):
    """Each of two tabs keeps what is typed and taken in it, also when it is loaded again; what a closed one leaves is
    listed in the other."""
    seat = scene.seat()
    with browsers.start(scene.command, scene.folder / "drafts") as browser:
        one, other = (Crew(browser, seat.address, kept=True) for _ in range(2))
        for crew, title in ((one, "One"), (other, "Other")):
            crew.page.to_front()
            crew.press("fresh")
            crew.fill(title=title, note=f"of {title}", photos=[scene.photo])
        for crew, title in ((other, "Other"), (one, "One")):
            crew.page.to_front()
            crew.reload()
            crew.page.wait(f"form !== null && form.photos.length === 1 && byId('state').innerText === '{STANDS}'")
            expect(crew.value("byId('title').value"), title, "the form that comes back")
        closed = one.value("tab")
        one.page.close()
        other.page.to_front()
        other.page.wait(f"String(left.map(it => it.owner)) === '{closed}' && byId('state').innerText === '1 not saved'")
        expect(
            other.waiting(), ["One / typed in a tab that is closed, and not saved / Open Throw away"], "what is listed"
        )
        press_of_outbox(other, "Open")
        expect(
            (other.text("told"), other.value("byId('title').value")),
            ("Save or close this row first.", "Other"),
            "the form that is open",
        )
        scene.screenshot(other, "left")
        other.save()
        press_of_outbox(other, "Open")
        other.page.wait("form !== null && byId('thumbnails').ariaBusy === 'false'")
        other.save()
        other.wait_until_it_stands()
        expect_quiet(other)
    rows = rows_of(seat)
    found = [
        (note, [it[0] for it in related_of(seat, number)])
        for number, (note, _) in (by_title(rows, it) for it in ("One", "Other"))
    ]
    expect(found, [("of One", ["image/jpeg"]), ("of Other", ["image/jpeg"])], "the rows with their photos")


def check_forms_of_a_browser_that_was_killed(scene):
    """Of two forms that were open when the browser ended one opens in the next, and the other is listed, also for two
    tabs at once."""
    seat = scene.seat()
    profile = scene.folder / "ended"
    with browsers.start(scene.command, profile) as browser:
        for title in ("One", "Other"):
            crew = Crew(browser, seat.address, kept=True)
            crew.page.to_front()
            crew.press("fresh")
            crew.fill(title=title, photos=[scene.photo])
            crew.page.wait("done(drafts('strict').get(tab + 1)).then(it => it?.ids.length === 1)")
        browser.kill()
    with browsers.start(scene.command, profile) as browser:
        crew = Crew(browser, seat.address, kept=True)
        crew.page.wait("form !== null && form.photos.length === 1 && left.length === 1")
        shown = crew.value("byId('title').value")
        second = Crew(browser, seat.address, kept=True)
        second.page.wait("form !== null && form.photos.length === 1")
        crew.page.wait("left.length === 0")
        expect({shown, second.value("byId('title').value")}, {"One", "Other"}, "the forms")
        second.page.close()
        crew.page.to_front()
        crew.page.wait("left.length === 1")
        for _ in range(2):
            press_of_outbox(crew, "Throw away")
        crew.page.wait("left.length === 0 && byId('outbox').children.length === 0")
        expect(crew.value("byId('title').value"), shown, "the form that is left")
        expect_quiet(crew)


def check_what_waits_as_a_file(scene):
    """What waits while the package is lost goes into another copy by the file that the browser keeps of it, and stands
    there as it was saved."""
    seat, crew = scene.begin()
    seat.kill()
    crew.new(title='A "stone", lost', note="by file", amount=4, place=(500_400, 5_600_500), photos=[scene.photo])
    crew.change("Stone 2", amount=99)
    crew.remove("Stone 3")
    crew.page.wait("outbox.waiting.length === 3 && byId('state').className === 'gone'")
    folder = scene.folder / "kept files"
    folder.mkdir()
    crew.page.keep_files_in(folder)
    crew.press("file")
    wait_until(lambda: any(it.stat().st_size for it in folder.glob("*.csv")), "the file is there")
    scene.screenshot(crew, "file")
    (file,) = folder.glob("*.csv")
    assert re.fullmatch(r"not-in-the-package-[0-9-]{10}\.csv", file.name), file.name
    other = scene.copy()
    expect(mmpkg("run", other, given=file.read_bytes()), "1 ok\n2 ok\n3 ok\n4 ok\n5 ok\n", "the records of the file")
    second = Seat(other)
    scene.seats.append(second)
    rows = rows_of(second)
    number, rest = by_title(rows, 'A "stone", lost')
    expect(
        (rest, related_of(second, number)[0][0]),
        (("@25832:500400.0/5600500.0 by file", 4), "image/jpeg"),
        "the new row and its photo",
    )
    expect((rows[2][2], 3 in rows), (99, False), "the row that was changed, and that which was removed")
    seat.start()
    crew.wait_until_it_stands()
    expect(crew.value("byId('file').hidden"), True, "no file of nothing")
    expect_quiet(crew, "ERR_", "Failed to load resource")


def check_the_outbox_of_another_package(scene):
    """Unsent work of one package doesn't go to another at the same port, nor, unasked, to a copy under another key."""
    seat = scene.seat()
    other = scene.folder / "other.mmpkg"
    new_package(other, content())
    take_in(other, scene.folder / "other")
    with browsers.start(scene.command, scene.folder / "mixed") as browser:
        crew = Crew(browser, seat.address, kept=True)
        seat.kill()
        crew.new(title="Of the first")
        crew.page.wait("byId('state').className === 'gone'")
        crew.page.close()
        second = Seat(other, port=seat.port)
        scene.seats.append(second)
        crew = Crew(browser, second.address, kept=True)
        crew.page.wait("byId('messages').innerText.includes('keeps work for another package too')")
        expect((crew.value("outbox.waiting.length"), crew.text("state")), (0, STANDS), "what waits for the second")
        crew.page.close()
        expect(any("Of the first" in row for row in rows_of(second).values()), False, "it went to another package")
        seat.start(key="another-key-of-it")
        crew = Crew(browser, seat.address, kept=True)
        crew.page.wait("outbox.waiting.length === 1")
        assert "was saved under another key" in crew.waiting()[0], crew.waiting()
        press_of_outbox(crew, "Send it here")
        crew.wait_until_it_stands()
    by_title(rows_of(seat), "Of the first")


def check_what_the_desk_refuses(scene):
    """403, 404 and 413 in words; a removal that is refused in words, and what it took off the row stands again."""
    seat = scene.seat()
    cutter = Cutter(seat)
    crew = scene.crew(cutter.address)
    cutter.renames = False
    crew.new(title="Waits")
    crew.page.wait("byId('state').innerText.includes('lets no page of this address in')")
    cutter.renames = True
    seat.again(key="quite-another-key")
    crew.page.wait("byId('state').innerText.includes('its key has changed')")
    seat.again(key=KEY)
    crew.wait_until_it_stands()
    large = (
        "[{ table: 'spots', what: 'Large', records: [['media', 'photos', 9, 'image/jpeg']] }], [{ id: 9, bytes: new"
        " ArrayBuffer(8400000) }]"
    )
    crew.value(f"post({large})")
    crew.page.wait("outbox.waiting.length === 1 && outbox.waiting[0].refused")
    assert "too large for the package" in crew.waiting()[0], crew.waiting()
    for _ in range(2):
        press_of_outbox(crew, "Throw away")
    crew.wait_until_it_stands()
    expect(send(crew, "map,spots_photos,9,7\n"), "1 ok\n", "a photo of the row")
    crew.remove("Stone 9")
    crew.page.wait("outbox.waiting.length === 1 && outbox.waiting[0].refused")
    assert "something is still related to it (42)" in crew.waiting()[0], crew.waiting()
    crew.page.wait("byId('state').innerText === '1 refused'")  # behind what is put back
    related = (
        "fetch(ROOT + 'related/spots/9').then(it => it.json()).then(all => all.map(it => it.table + it.id).join())"
    )
    expect(crew.value(related), "photos7", "the photo of a row that wasn't removed")
    scene.screenshot(crew, "refused")
    for _ in range(2):
        press_of_outbox(crew, "Throw away")
    crew.wait_until_it_stands()
    expect_quiet(crew, "403", "404", "ERR_")
    by_title(rows_of(seat), "Waits")


def send(crew, records):
    """What the desk answers to records that the page doesn't know of."""
    how = f"{{ method: 'POST', headers: {{ 'Content-Type': 'text/csv' }}, body: {json.dumps(records)} }}"
    return crew.value(f"fetch(ROOT + 'records', {how}).then(it => it.text())")


def press_of_outbox(crew, words):
    """Presses the first button of the outbox whose text begins with words."""
    crew.press(f"([...byId('outbox').querySelectorAll('button')].find(it => it.innerText.startsWith('{words}')))")


def change_a_refused_row(crew):
    """Opens the form on a row that was refused, since its table is gone."""
    expect(send(crew, "relation-drop,owners_spots\ndrop,owners\n"), "1 ok\n2 ok\n", "the office's records")
    crew.press("fresh")
    crew.fill(title="Ben", note="a word")
    crew.value("byId('into').value = 'owners'; 0")
    crew.save()
    crew.page.wait("outbox.waiting.length === 1 && outbox.waiting[0].refused")
    assert "refused: the row: there is no such table (25)" in crew.waiting()[0], crew.waiting()
    press_of_outbox(crew, "Change")
    crew.page.wait("form !== null")
    expect(crew.value("byId('title').value"), "Ben", "the form")


def save_as_bench(crew):
    """Saves the form's row in the table that is there, under another title."""
    crew.value("byId('into').value = 'spots'; 0")
    crew.write("title", "Bench")
    crew.save()


def check_what_is_refused_is_changed(scene):
    """A row for a table that is gone is refused, put into another table by the form, and stands."""
    seat, crew = scene.begin()
    change_a_refused_row(crew)
    save_as_bench(crew)
    crew.wait_until_it_stands()
    expect_quiet(crew, "404")
    expect(by_title(rows_of(seat), "Bench")[1], ("a word", 0), "the row")


def check_a_refused_row_that_is_being_changed(scene):
    """What was typed into the form of a refused row is there when the page is loaded again, with the row's photo and
    others that came, and is saved in its place."""
    seat, crew = scene.begin()
    row = "{ id: 900, title: 'With', note: '', amount: 0 }"
    records = "[['row', 'none', 900, 'With', '', 0], ['media', 'photos', 902, 'image/jpeg']]"
    crew.value(
        f"post([{{ table: 'spots', of: 900, row: {row}, what: 'With', records: {records} }}], [{{ id: 902, bytes: new"
        " ArrayBuffer(10) }])"
    )
    crew.page.wait("outbox.waiting.length === 1 && outbox.waiting[0].refused")
    press_of_outbox(crew, "Change")
    crew.page.wait("form !== null")
    crew.write("note", "half a word")
    crew.fill(photos=[scene.photo] * 2)
    crew.reload()
    crew.page.wait("form !== null && byId('thumbnails').ariaBusy === 'false'")
    found = crew.value("[byId('which').innerText, byId('note').value, form.photos.length, outbox.waiting.length]")
    expect(found, ["Refused: the row: there is no such table (25)", "half a word", 3, 1], "the form behind that")
    save_as_bench(crew)
    crew.wait_until_it_stands()
    expect_quiet(crew)
    expect(by_title(rows_of(seat), "Bench"), (900, ("half a word", 0)), "the row")
    sizes = sorted(size for _, size in related_of(seat, 900))
    assert len(sizes) == 3 and sizes[0] == 10 and sizes[1] > 100, f"its photo, and two that came later: {sizes}"


def check_a_list_that_is_refused_in_part(scene):
    """A row that stands while its photo was refused is shown, also when what was refused is thrown away."""
    seat, crew = scene.begin()
    row = "{ id: 900, title: 'Half', note: '', amount: 0 }"
    crew.value(
        f"post([{{ table: 'spots', row: {row}, what: 'Half', records: [['row', 'spots', 900, 'Half', '', 0], ['row',"
        " 'none', 1, '', '', 0]] }])"
    )
    crew.page.wait("outbox.waiting.length === 1 && outbox.waiting[0].refused")
    for _ in range(2):
        press_of_outbox(crew, "Throw away")
    crew.page.wait("outbox.waiting.length === 0 && rows.stood.has(900)")
    expect("Half" in crew.rows(), True, "the row that stands is shown")
    expect_quiet(crew)
    by_title(rows_of(seat), "Half")


def check_a_row_saved_anew_while_it_is_sent(scene):
    """A refused row that is sent again, and is changed and saved before the answer comes, stands as it was saved
    last."""
    seat = scene.seat()
    cutter = Cutter(seat)
    crew = scene.crew(cutter.address)
    change_a_refused_row(crew)
    cutter.late = late = Late(b"row,owners,")
    press_of_outbox(crew, "Send again")
    late.wait()
    save_as_bench(crew)
    late.go()
    crew.wait_until_it_stands()
    expect_quiet(crew, "404")
    expect(by_title(rows_of(seat), "Bench")[1], ("a word", 0), "the row")


def with_rows(scene, rows, **how):
    """A desk and its page, with more rows than the stones, each told by its table, number, title, note and amount."""
    file = scene.copy()
    with contextlib.closing(sqlite3.connect(file)) as opened:  # which is quicker than so many commits
        opened.executemany("INSERT INTO mm_rows (table_name, id, title, note, amount) VALUES (?, ?, ?, ?, ?)", rows)
        opened.commit()
    expect(mmpkg("check", file), "package ok\n", "the check")
    seat = Seat(file)
    scene.seats.append(seat)
    return seat, scene.crew(seat.address, **how)


def with_trees(scene, trees, **how):
    """A desk and its page, with so many rows more than the stones."""
    places = [(500_000 + it * 389 % 1000, 5_600_000 + it * 211 % 997) for it in range(trees)]
    rows = [
        ("spots", 1000 + it, f"Tree {it}", f"@25832:{east}/{north} oak", it) for it, (east, north) in enumerate(places)
    ]
    seat, crew = with_rows(scene, rows, **how)
    crew.page.wait(f"byId('count').innerText === '{trees + STONES} rows, 100 are shown'", 60)
    return seat, crew


def check_5000_rows(scene):
    """With 5,000 rows the list is there, searched and ordered within a second, and the map shows them."""
    _, crew = with_trees(scene, 5000 - STONES)
    timed = (
        "(act => { const began = performance.now(); act(); byId('rows').offsetHeight; return performance.now() -"
        " began; })"
    )
    changed = "(() => {{ byId('{0}').value = '{1}'; byId('{0}').dispatchEvent(new Event('{2}')); }})"
    took = {word or "no word": crew.value(timed + changed.format("search", word, "input")) for word in ("tree 12", "")}
    took |= {
        order: crew.value(timed + changed.format("order", order, "change")) for order in ("title", "near", "newest")
    }
    took["marks"] = crew.value(f"{timed}(showMarks)")
    took["all read"] = crew.value(
        "(async () => { const began = performance.now(); await readRows(); return performance.now() - began; })()"
    )
    print("    " + ", ".join(f"{name} {it:.0f} ms" for name, it in took.items()))
    assert max(it for name, it in took.items() if name != "all read") < 1000, "the list takes over a second"
    crew.press("more")
    expect(len(crew.rows()), 200, "rows behind 'Show more rows'")
    expect_quiet(crew)


def check_numbers_where_the_clock_is_wrong(scene):
    """Numbers of rows all differ, and are those of no other clock, also where a tablet whose battery was empty tells a
    day of 1970 or 2080."""
    _, crew = scene.begin()

    def numbers(day):
        return crew.value(f"Date.now = () => Date.parse('{day}'), Array.from({{ length: 2000 }}, freshId)")

    wrong = [it for day in ("1970-01-02", "2020-01-01", "2080-01-01") for it in numbers(day)]
    right = numbers("2049-12-31")
    expect(len(set(wrong)), 6000, "numbers that differ")
    assert max(right) < 2**52 <= min(wrong) and max(wrong) < 2**53, (max(right), min(wrong), max(wrong))


def check_what_is_typed(scene):
    """What is typed or taken and not saved stays where another row is tapped, and when the page is loaded again, until
    it is saved or closed."""
    seat, crew = scene.begin()
    crew.press("fresh")
    crew.fill(title="Half", note="a word", place=(500_400, 5_600_500), photos=[scene.photo])
    number = crew.value("form.row.id")
    crew.tap(500_350, 5_600_300)
    expect(
        (crew.text("told"), crew.value("form.row.id")),
        ("Save or close this row first.", number),
        "the form behind a tap on another row",
    )
    for _ in range(2):
        crew.reload()
        crew.page.wait("form !== null")
        found = [crew.value(f"byId('{it}').value") for it in ("title", "note", "east", "north")]
        expect((found, crew.value("form.row.id")), (["Half", "a word", "500400.0", "5600500.0"], number), "the form")
        expect(
            (crew.text("told"), crew.value("isTapping()")),
            ("This wasn't saved yet.", False),
            "what is said, and whether a tap sets another place",
        )
        crew.page.wait("byId('thumbnails').querySelector('img')?.naturalWidth === 300")
    crew.save()
    crew.wait_until_it_stands()
    crew.open("Stone 3")
    crew.write("title", "Stone three")
    crew.reload()
    crew.page.wait("form !== null && byId('thumbnails').ariaBusy === 'false'")
    expect(crew.value("[byId('title').value, form.photos.length]"), ["Stone three", 0], "the form of another row")
    crew.save()
    crew.wait_until_it_stands()
    crew.reload()
    expect(crew.value("form"), None, "the form behind that")
    expect_quiet(crew)
    expect(by_title(rows_of(seat), "Half")[0], number, "the row's number")
    expect([it[0] for it in related_of(seat, number)], ["image/jpeg"], "its photo")


def check_a_mark_opens_its_row(scene):
    """A tap on a row's mark opens its form; while a place is set the tap is that place."""
    _, crew = scene.begin()
    crew.tap(500_350, 5_600_300)
    crew.page.wait("form !== null")
    expect(crew.value("byId('title').value"), "Stone 5", "the form")
    crew.press("tap")
    crew.tap(500_284, 5_600_246)
    found = [crew.value(f"byId('{it}').value") for it in ("title", "east", "north")]
    expect(found, ["Stone 5", "500284.0", "5600246.0"], "the place by a tap on a mark")
    expect_quiet(crew)


def check_names_and_places_in_sight(scene):
    """Names stand beside the marks that are seen, where there is room for them; the map goes to a row that is opened
    where it doesn't show it."""
    seat, crew = scene.begin(width=390, height=800, touch=True)
    names = "[...document.querySelectorAll('.leaflet-tooltip')].map(it => it.innerText).sort().join()"
    crew.page.wait("byId('map').querySelector('.leaflet-tooltip') === null && marked.size === 12")
    crew.value("map.setView([5600360, 500420], 4, { animate: false }); 0")
    crew.page.wait(f"{names} === 'Stone 5,Stone 6,Stone 7'")
    crew.open("Stone 12")
    expect(crew.value("((it) => [it.lng, it.lat])(map.getCenter())"), [500840, 5600720], "the map's middle")
    crew.page.wait(f"{names} === 'Stone 12'")
    crew.write("search", "")
    crew.page.wait(f"{names} === 'Stone 11,Stone 12'")
    scene.screenshot(crew, "names")
    crew.write("title", "Stone twelve")
    crew.save()
    crew.page.wait(f"{names} === 'Stone 11,Stone twelve'")
    crew.tap(500_840, 5_600_722)
    crew.page.wait("form !== null")
    expect(crew.value("map.getCenter().lat"), 5_600_722, "the map's middle where the row was in sight")
    crew.wait_until_it_stands()
    expect_quiet(crew)
    rows_of(seat)


# The part of the map that its marks cover, by what is drawn of them.
COVERED = """(() => {
  const { width, height } = marks.canvas._container, drawn = marks.canvas._ctx.getImageData(0, 0, width, height).data;
  let count = 0;
  for (let at = 3; at < drawn.length; at += 4) count += drawn[at] > 0;
  return count / width / height;
})()"""


def check_marks_of_hundreds_of_rows(scene):
    """Hundreds of marks leave a phone's map to be seen, and are larger where fewer are; the map has those that are
    searched for alone."""
    _, crew = with_trees(scene, 350, width=390, height=800, touch=True)
    crew.page.wait("marked.size === 362")
    crew.page.wait("new Promise(good => requestAnimationFrame(() => requestAnimationFrame(() => good(true))))")
    covered = crew.value(COVERED)
    assert 0 < covered < 0.2, f"marks cover {covered:.2f} of the map"
    small = crew.value("[...marked.values()][0].mark.getRadius()")
    scene.screenshot(crew, "hundreds")
    crew.write("search", "stone")
    crew.page.wait(f"marked.size === {STONES}")
    expect(crew.value("[...marked.values()].every(it => it.mark.row.title.startsWith('Stone'))"), True, "the marks")
    large = crew.value("[...marked.values()][0].mark.getRadius()")
    assert small < large, f"marks of {small} pixels, and of {large} where few are searched for"
    crew.write("search", "")
    crew.page.wait("marked.size === 362")
    expect_quiet(crew)


# Whether a mark is drawn, at so many times its size to the right and down of its place.
IS_DRAWN = """((id, right, down) => {
  const { mark } = marked.get(`spots/${id}`), { canvas } = marks,
    at = mark._point, from = canvas._bounds.min, size = mark.getRadius();
  const [x, y] = [at.x - from.x + right * size, at.y - from.y + down * size].map(Math.round);
  return canvas._ctx.getImageData(x, y, 1, 1).data[3] > 0;
})"""


def check_a_map_that_goes_while_marks_are_drawn(scene):
    """A map that is moved and left in one moment, before its marks were drawn anew, goes without a word."""
    _, crew = scene.begin()
    crew.page.wait("marked.size > 0")
    other = "byId('pyramids').value = 'plan'; byId('pyramids').dispatchEvent(new Event('change'));"
    drawn = (
        "[...marked.values()][0].mark.redraw(); map.setView(map.getCenter(), map.getZoom() - 1, { animate: false });"
    )
    crew.value(f"(() => {{ {drawn} {other} }})()")
    crew.page.wait("new Promise(good => requestAnimationFrame(() => requestAnimationFrame(() => good(true))))")
    expect_quiet(crew)


def check_the_shape_of_a_mark(scene):
    """Waiting, refused and other marks differ by their shape, and not by their colour alone."""
    seat, crew = scene.begin()
    crew.value("map.setView([5600360, 500420], 4, { animate: false }); 0")
    seat.kill()
    crew.change("Stone 5", amount=50)
    row = "{ id: 6, title: 'Stone 6', note: '@25832:500420/5600360', amount: 1 }"
    act = f"{{ table: 'spots', of: 6, row: {row}, what: 'Stone 6', records: [], refused: 'no' }}"
    crew.value(f"keep(acts => acts.put({{ ...{act}, at: KEY, saved: saving() }}))")
    crew.write("search", "")
    crew.page.wait(
        "marked.get('spots/5')?.mark.row.waits === 'waits' && marked.get('spots/6')?.mark.row.waits === 'refused' &&"
        " marked.has('spots/7')"
    )
    crew.page.wait("new Promise(good => requestAnimationFrame(() => requestAnimationFrame(() => good(true))))")
    # A square has its corners, and a triangle two of them below, and none above.
    corners = [(0.9, -0.9), (0.9, 0.9)]
    found = [[crew.value(f"{IS_DRAWN}({row}, {right}, {down})") for right, down in corners] for row in (5, 6, 7)]
    expect(found, [[True, True], [False, True], [False, False]], "corners of a waiting, a refused and another mark")
    scene.screenshot(crew, "shapes")


def check_the_end_of_the_day(scene):
    """'End the day' closes the package well, behind what waits, and says so; not while a form has what isn't saved."""
    seat = scene.seat()
    cutter = Cutter(seat)
    crew = scene.crew(cutter.address)
    crew.open("Stone 4")
    crew.write("title", "Stone four")
    for _ in range(2):
        crew.press("end")
    expect(
        (crew.text("told"), crew.value("ended")), ("Save or close this row first.", False), "the end with an open form"
    )
    cutter.late = late = Late(b"Stone four")
    crew.save()
    late.wait()
    crew.new(title="The last")
    for _ in range(2):
        crew.press("end")
    expect(crew.value("[ended, outbox.waiting.length]"), [False, 2], "the end while two wait")
    late.go()
    crew.page.wait("byId('state').innerText.startsWith('the day is ended')")
    words = "The package is closed, and its file may be copied. This page may be closed too."
    expect(crew.text("messages"), words, "what is said")
    expect(seat.program.wait(10), 0, "the desk's status")
    journal = pathlib.Path(f"{seat.file}-wal")
    assert not journal.exists() or journal.stat().st_size < 100, "the journal holds commits"
    crew.new(title="Behind the end")
    without = "the day is ended, without this: 1 to send"
    expect(crew.text("state"), without, "what is said of a row behind the end")
    for _ in range(2):
        crew.press("end")
    crew.page.wait("byId('end').ariaBusy !== 'true'")
    expect(crew.text("state"), without, "what is said of an end behind the end")
    seat.again()
    crew.wait_until_it_stands()
    expect(crew.text("messages"), "", "what is said where the package is open again")
    rows = rows_of(seat)
    by_title(rows, "Behind the end")
    by_title(rows, "The last")
    by_title(rows, "Stone four")


def check_a_frame_of_another_site(scene):
    """A page of another port of this machine that has the key can neither show the page, nor read, nor write."""
    seat = scene.seat()
    folder = scene.folder / "site"
    folder.mkdir()
    (folder / "index.html").write_text(
        f"<!doctype html><title>other</title><iframe src='{seat.address}/media/viewer/1' width='800'"
        f" height='600'></iframe><img id='image' src='{seat.address}/media/photos/7'><form id='form' method='post'"
        f" enctype='text/plain' action='{seat.address}/records'><input name='row,spots,800,Evil,,' value='0'></form>"
    )

    class Quiet(http.server.SimpleHTTPRequestHandler):
        def __init__(self, *words):
            super().__init__(*words, directory=str(folder))

        def log_message(self, *_):
            pass

    with serving(http.server.ThreadingHTTPServer(("127.0.0.1", free_port()), Quiet)) as server:
        page = scene.browser.open(f"http://127.0.0.1:{server.server_address[1]}/index.html")
        scene.pages.append(page)
        page.wait("document.readyState === 'complete'")
        (shown,) = page.frames()
        for mode, kind in itertools.product(("no-cors", "cors"), ("text/csv", "text/plain")):
            how = (
                f"{{ method: 'POST', mode: '{mode}', headers: {{ 'Content-Type': '{kind}' }}, body:"
                " 'row,spots,801,Evil,,0' }"
            )
            page.value(f"fetch('{seat.address}/records', {how}).then(it => it.status, it => 0)")
        expect(
            page.value(f"fetch('{seat.address}/rows/spots/1').then(it => it.text(), () => 'kept')"),
            "kept",
            "rows that another page reads",
        )
        expect(page.value("document.getElementById('image').naturalWidth"), 0, "a photo in another page")
        page.value("document.getElementById('form').submit(); 0")
        time.sleep(1)
    assert shown.startswith(("chrome-error", seat.address)), shown
    expect(sorted(rows_of(seat)), list(range(1, STONES + 1)), "the rows")


class Stranger:
    """Another program at a port, which answers each request alike."""

    def __init__(self, port, status=200, kind="text/html", body=b"<p>another program</p>\n" * 30, **heads):
        def answer(handler):
            handler.rfile.read(int(handler.headers.get("Content-Length", 0)))
            is_page = handler.path == "/login"
            handler.send_response(200 if is_page else status)
            for name, it in {"Content-Type": kind, "Content-Length": len(body), **({} if is_page else heads)}.items():
                handler.send_header(name, it)
            handler.end_headers()
            handler.wfile.write(body)
            self.asked.add(f"{handler.command} {handler.path.split('/')[-1]}")

        class Handler(http.server.BaseHTTPRequestHandler):
            do_GET = do_POST = answer

            def log_message(self, *_):
                pass

        self.asked = set()
        self.served = serving(http.server.ThreadingHTTPServer(("127.0.0.1", port), Handler))

    def __enter__(self):
        self.served.__enter__()
        return self

    def __exit__(self, *why):
        self.served.__exit__(*why)


def check_a_stranger_at_the_port(scene):
    """What another program at the port answers is nothing of the package: what waits stays, that is said, and it
    stands once the package is back."""
    for how in ({}, {"status": 302, "Location": "/login"}):
        seat, crew = scene.begin()
        seat.kill()
        crew.new(title="Meanwhile", place=(500_400, 5_600_500), photos=[scene.photo])
        crew.page.wait("byId('state').className === 'gone'")
        with Stranger(seat.port, **how):
            crew.page.wait("byId('state').innerText === 'another program has the port' || outbox.waiting.length === 0")
            found = crew.value("outbox.waiting.length"), crew.text("state")
            expect(found, (1, "another program has the port"), f"what waits beside {how}")
        seat.start()
        crew.wait_until_it_stands()
        number, rest = by_title(rows_of(seat), "Meanwhile")
        expect((rest, len(related_of(seat, number))), (("@25832:500400.0/5600500.0", 0), 1), "the row and its photo")


def check_answers_of_a_stranger(scene):
    """Lines of another form, number or type, and what isn't the package's list, do nothing: no act, no end, no row of
    the list."""
    seat, crew = scene.begin()
    shown = crew.rows()
    seat.kill()
    crew.new(title="Meanwhile", photos=[scene.photo])
    kinds = [{"kind": "text/html", "body": b"1 ok\n2 ok\n3 ok\n"},
             {"kind": "text/plain", "body": b"1 ok\n2 ok\n3 ok\n4 ok\n"},
             {"kind": "text/plain", "body": b"ok\nok\nok\n"}, {"kind": "application/json", "body": b"[]"},
             {"kind": "application/json", "body": b"{}"},
             {"status": 404, "body": b"none"}, {"kind": "text/plain", "body": b""}]  # fmt: skip
    for how in kinds:
        with Stranger(seat.port, **how) as stranger:
            crew.value("clearTimeout(later), send(), 0")
            wait_until(lambda: stranger.asked, "the page asks the stranger")
            crew.page.wait("!sending")
            crew.value("readRows()")
            for _ in range(2):
                crew.press("end")
            first = "What waits is sent first, and then the day ends."
            crew.page.wait(f"!sending && byId('messages').innerText !== '{first}'")
            found = crew.value("[outbox.waiting.length, ended, rows.stood.size]")
            expect(found, [1, False, STONES], f"what waits, whether the day is ended, and the rows beside {how}")
    expect(crew.rows(), ["Meanwhile", *shown], "the list")
    seat.start()
    crew.wait_until_it_stands()
    by_title(rows_of(seat), "Meanwhile")


@contextlib.contextmanager
def two_tabs_on(scene, seat, title):
    """Two tabs of a browser, both with the form of a row."""
    scene.count += 1
    with browsers.start(scene.command, scene.folder / f"pair-{scene.count}") as browser:
        pair = [Crew(browser, seat.address, kept=True) for _ in range(2)]
        for crew in pair:
            crew.page.to_front()
            crew.open(title)
        yield pair


def outbox_shows(crew, words):
    crew.page.wait(f"byId('outbox').innerText.includes({json.dumps(words)})", 30)


def check_two_tabs_on_one_row(scene):
    """What two tabs change of one row is joined where each changes another part, and that is said until somebody has
    seen it."""
    seat = scene.seat()
    with two_tabs_on(scene, seat, "Stone 9") as (one, other):
        one.fill(amount=77, photos=[scene.photo])
        other.page.to_front()
        other.fill(title="Stone nine", note="leaning")
        other.save()
        other.wait_until_it_stands()
        one.page.to_front()
        one.save()
        one.page.wait("byId('state').innerText === 'all is in the package, 1 joined'")
        words = "in the package, joined: the title and the note as another changed it, the rest as you did"
        expect(one.waiting(), [f"Stone 9, with a photo / {words} / Seen"], "what is said")
        scene.screenshot(one, "joined")
        press_of_outbox(one, "Seen")
        one.wait_until_it_stands()
        expect("Stone nine" in one.rows(), True, "the list has the row as it stands")
        expect_quiet(one)
    expect(rows_of(seat)[9], ("Stone nine", "@25832:500630/5600540 leaning", 77), "the row")
    expect(len(related_of(seat, 9)), 1, "its photos")


def check_two_tabs_that_change_one_part(scene):
    """Where both changed one part nothing is written until somebody says whose it is: mine, theirs, or changed once
    more. All else is of who changed it."""
    for words, title in (("Take mine", "By one"), ("Take theirs", "By the other"), ("Change", "By both")):
        seat = scene.seat()
        with two_tabs_on(scene, seat, "Stone 9") as (one, other):
            one.fill(title="By one", amount=77, photos=[scene.photo])
            other.page.to_front()
            other.fill(title="By the other", note="leaning")
            other.save()
            other.wait_until_it_stands()
            one.page.to_front()
            one.save()
            outbox_shows(one, "changed meanwhile: you and another have changed the title")
            expect(one.text("state"), "1 changed meanwhile", "the state")
            sides = one.value("[...byId('outbox').querySelectorAll('td')].map(it => it.innerText)")
            expect(sides, ["By one", "By the other"], "both sides of what both changed")
            scene.screenshot(one, "changed-meanwhile")
            press_of_outbox(one, words)
            if words == "Take theirs":
                press_of_outbox(one, words)
            if words == "Change":
                one.page.wait("form !== null && byId('thumbnails').ariaBusy === 'false'")
                one.write("title", "By both")
                one.save()
            one.wait_until_it_stands()
            expect_quiet(one)
        expect(rows_of(seat)[9], (title, "@25832:500630/5600540 leaning", 77), f"the row, {words}")
        expect(len(related_of(seat, 9)), 1, f"its photos, {words}")


def check_a_row_that_another_tab_removes(scene):
    """A row that another tab has removed isn't brought back unsaid, and one that another has changed isn't removed
    unsaid."""
    seat = scene.seat()
    with two_tabs_on(scene, seat, "Stone 8") as (one, other):
        other.page.to_front()
        for _ in range(2):
            other.press("remove")
        other.page.wait("byId('edit').hidden")
        other.wait_until_it_stands()
        one.page.to_front()
        one.fill(amount=77)
        one.save()
        outbox_shows(one, "changed meanwhile: the row was removed")
        press_of_outbox(one, "Make it again")
        one.wait_until_it_stands()
        one.open("Stone 8")
        other.page.to_front()
        other.change("Stone 8", amount=78)
        other.wait_until_it_stands()
        one.page.to_front()
        for _ in range(2):
            one.press("remove")
        outbox_shows(one, "changed meanwhile: the row that you remove isn't as you saw it")
        expect("Stone 8" in one.rows(), True, "the row is shown")
        press_of_outbox(one, "Leave it")
        press_of_outbox(one, "Leave it")
        one.wait_until_it_stands()
        one.remove("Stone 8")
        one.wait_until_it_stands()
        expect_quiet(one)
    expect(8 in rows_of(seat), False, "the row stands")


def check_a_newer_copy_of_the_package(scene):
    """What waits meets what the office has corrected since, in a newer copy at the same path: joined, or changed
    meanwhile, and never over it."""
    seat, crew = scene.begin()
    seat.kill()
    crew.change("Stone 6", amount=66)
    crew.change("Stone 7", note="by the crew")
    crew.page.wait("outbox.waiting.length === 2 && byId('state').className === 'gone'")
    office = ("row,spots,6,Stone six,@25832:500420/5600360 corrected,6\n"
              "row,spots,7,Stone 7,@25832:500490/5600420 by the office,7\n")  # fmt: skip
    expect(mmpkg("run", seat.file, "--at", 0, given=office.encode()), "1 ok\n2 ok\n", "the office's records")
    seat.start()
    outbox_shows(crew, "changed meanwhile: you and another have changed the note")
    outbox_shows(crew, "joined: the title and the note as another changed it")
    expect(crew.text("state"), "1 changed meanwhile", "the state")
    press_of_outbox(crew, "Take mine")
    press_of_outbox(crew, "Seen")
    crew.wait_until_it_stands()
    expect_quiet(crew, "ERR_")
    rows = rows_of(seat)
    expect(rows[6], ("Stone six", "@25832:500420/5600360 corrected", 66), "the row that was joined")
    expect(rows[7], ("Stone 7", "@25832:500490/5600420 by the crew", 7), "the row that the crew took its own side of")


def check_what_others_write(scene):
    """What another client of the desk writes is in the list once the page is looked at again, and an open form of the
    row tells it."""
    seat, crew = scene.begin()
    crew.open("Stone 5")
    records = "row,spots,5,Stone five,,5\nrow,spots,5555,Of another,,0\nrow-drop,spots,4\n"
    expect(send(crew, records), "1 ok\n2 ok\n3 ok\n", "the other's records")
    crew.value("dispatchEvent(new Event('focus')); 0")
    crew.page.wait("byId('which').innerText === 'Row 5, which another has changed meanwhile'")
    crew.write("search", "")
    rows = crew.rows()
    expect((rows[0], "Stone five" in rows, "Stone 4" in rows), ("Of another", True, False), "the list")
    expect_quiet(crew)


def check_an_act_that_does_not_come_through(scene):
    """An act that fails again and again, though the package answers, lets others by, says why, and can be thrown away;
    it stands once it comes through. What is behind it of its row waits for it."""
    seat = scene.seat()
    cutter = Cutter(seat)
    crew = scene.crew(cutter.address)
    cutter.drops = b"media,photos,"
    crew.new(title="Large", photos=[scene.photo, scene.photo])
    crew.new(title="Small")
    failed = "byId('outbox').innerText.includes('failed 2 times: the package doesn\\'t answer')"
    crew.page.wait(f"outbox.waiting.length === 2 && byId('outbox').children.length === 2 && {failed}", 30)
    expect(["Throw away" in it for it in crew.waiting()], [True, False], "the buttons")
    expect(crew.text("state"), "2 to send", "the state")
    cutter.drops = None
    crew.value("send()")
    crew.wait_until_it_stands()
    rows = rows_of(seat)
    by_title(rows, "Small")
    expect(len(related_of(seat, by_title(rows, "Large")[0])), 2, "the photos of the other")


def check_a_full_storage(scene):
    """Where the browser's storage is full Save says so, and a form says that its photos aren't kept; nothing is closed
    or lost meanwhile."""
    seat, crew = scene.begin()
    crew.page.fill_storage(True)
    crew.press("fresh")
    crew.fill(title="Full", photos=[scene.photo])
    crew.page.wait("byId('told').innerText.includes('its storage is full')")
    assert "isn't kept" in crew.text("told"), crew.text("told")
    crew.press("save")
    crew.page.wait("['its storage is full', 'it isn\\'t saved yet'].every(it => byId('told').innerText.includes(it))")
    found = crew.value("[outbox.waiting.length, byId('edit').hidden]")
    expect(found, [0, False], "what waits, and whether the form is closed")
    crew.page.fill_storage(False)
    crew.save()
    crew.wait_until_it_stands()
    number, _ = by_title(rows_of(seat), "Full")
    expect(len(related_of(seat, number)), 1, "its photos")


def check_a_window_that_is_not_kept(scene):
    """A window whose storage the browser may clear says so beside the state, and none that keeps it does."""
    _, crew = scene.begin()
    words = ("This browser doesn't promise to keep what waits here: a private window loses it, "
             "and so may one whose disk is full.")  # fmt: skip
    expect(crew.text("kept"), words, "what is said")
    _, other = scene.begin()
    expect(other.value("tellKept(true), byId('kept').hidden"), True, "what is said where it is kept")


def check_a_page_that_is_older(scene):
    """A page that is open while the package gets a newer one says so, and none that is the package's does."""
    _, crew = scene.begin()
    expect(crew.text("messages"), "", "what is said")
    known = json.loads(crew.value("fetch('4').then(it => it.text())"))
    known["page"] = "sha256-of-another"
    record = f"media,viewer,4,application/json,{json.dumps(known).encode().hex()}\n"
    expect(send(crew, record), "1 ok\n", "the newer item")
    crew.value("dispatchEvent(new Event('focus')); 0")
    crew.page.wait("byId('messages').innerText.startsWith('The package has a newer page than this')")
    expect_quiet(crew)


def check_the_name_of_the_package(scene):
    """The page names the package's file where the address does, also when it is opened again without."""
    seat = scene.seat()
    with browsers.start(scene.command, scene.folder / "named") as browser:
        for behind in ("#two%20crews.mmpkg", ""):
            page = browser.open(f"{seat.address}/media/viewer/1{behind}", kept=True)
            page.wait("document.title !== '' && typeof byId === 'function' && byId('count').innerText !== ''")
            found = page.value("[document.title, byId('package').innerText]")
            expect(found, ["two crews.mmpkg: Base map", "two crews.mmpkg"], "its name")
            page.close()


# Posts a number of acts that make rows.
MANY = """(async count => {
  const rows = Array.from({ length: count }, (_, at) => ({ id: 9000 + at, title: `Post ${at}`, note: '', amount: at }));
  const act = row => ({ row, records: [rowRecord('spots', row)],
    table: 'spots', of: row.id, saw: null, what: row.title });
  await post(rows.map(act));
})"""


def check_what_waits_in_parts(scene):
    """Of hundreds of acts that wait the list has some, and more when they are asked for; an item that says the same
    stays."""
    seat, crew = scene.begin()
    seat.kill()
    crew.value(f"({MANY})(500)")
    for there, behind in ((50, 450), (100, 400), (150, 350)):
        crew.page.wait(f"byId('outbox').children.length === {there} && !byId('behind').hidden")
        expect(crew.text("behind"), f"Show more of what waits ({behind} behind these)", "the button below the list")
        crew.press("behind")
    crew.value("window.first = byId('outbox').firstChild; recount()")
    expect(crew.value("byId('outbox').firstChild === first"), True, "an item that says the same stays")
    expect(crew.value("byId('outbox').children.length"), 200, "items behind three presses")


# Counts how often all acts are read, and how often list, marks and what waits are drawn.
COUNTED = """(() => {
  window.counts = { read: 0, listed: 0, marks: 0, waits: 0 };
  const all = IDBObjectStore.prototype.getAll;
  IDBObjectStore.prototype.getAll = function (...words) {
    if (this.name === 'acts') counts.read += 1;
    return all.apply(this, words);
  };
  const [rows, marks, waits] = [showRows, showMarks, showWaiting];
  showRows = () => { counts.listed += 1; rows(); };
  showMarks = () => { counts.marks += 1; marks(); };
  showWaiting = () => { counts.waits += 1; waits(); };
})()"""
# Sends what waits, and answers in how many milliseconds it is all in the package.
SENT = """(async () => {
  clearTimeout(later);
  const began = performance.now();
  await send();
  return performance.now() - began;
})()"""


def check_300_acts_over_5000_rows(scene):
    """While hundreds of acts are sent all of them are read a few times, and what is shown is drawn each 200
    milliseconds at most; all stand."""
    seat, crew = with_trees(scene, 5000 - STONES)
    crew.page.wait("!sending")
    seat.kill()
    crew.value(f"({MANY})(300)")
    crew.page.wait("outbox.waiting.length === 300 && !sending")
    crew.value(COUNTED)
    seat.start()
    took = crew.value(SENT)
    counts = crew.value("counts")
    print(f"    {took:.0f} ms, {counts}")
    expect(crew.value("outbox.waiting.length"), 0, "what waits")
    most = took / 200 + 5
    assert max(counts["listed"], counts["marks"], counts["waits"]) <= most, f"{counts} in {took:.0f} ms"
    assert counts["read"] <= counts["waits"] + 5, f"all acts are read too often: {counts}"
    assert took < 60_000, f"300 acts take {took:.0f} ms"
    expect(crew.value("[byId('rows').children.length, byId('outbox').children.length]"), [100, 0], "items of the lists")
    expect(len(rows_of(seat)), 5300, "the rows")


# Counts which photos are written, and how many pixels of pictures are there at one time.
PICTURES = """(() => {
  window.wrote = [], window.drew = 0, window.pixels = 0, window.mostPixels = 0;
  const put = IDBObjectStore.prototype.put, draw = window.createImageBitmap, close = ImageBitmap.prototype.close;
  IDBObjectStore.prototype.put = function (it, key) {
    if (it?.byteLength) wrote.push(key);
    return put.call(this, it, key);
  };
  window.createImageBitmap = async (...words) => {
    drew += 1;
    const image = await draw(...words);
    pixels += image.width * image.height;
    mostPixels = Math.max(mostPixels, pixels);
    return image;
  };
  ImageBitmap.prototype.close = function () {
    pixels -= this.width * this.height;
    close.call(this);
  };
})()"""
KEPT_PHOTOS = "done(outbox.store.transaction('photos').objectStore('photos').getAllKeys()).then(it => it.length)"


def check_photos_are_written_once(scene):
    """Each photo of a form is written once, and drawn once, however many there are; those of a form that is closed are
    gone."""
    seat, crew = scene.begin()
    crew.value(PICTURES)
    large = scene.folder / "large.png"
    large.write_bytes(picture(1200, 900, (40, 160, 80)))
    crew.press("fresh")
    crew.fill(title="Six", photos=[large] * 6)
    expect(crew.value(KEPT_PHOTOS), 6, "photos that are kept")
    found = crew.value("[wrote.length, new Set(wrote).size, drew]")
    expect(found, [6, 6, 6], "photos written, and pictures drawn")
    crew.save()
    crew.wait_until_it_stands()
    expect(crew.value("[wrote.length, new Set(wrote).size]"), [6, 6], "photos written behind the save")
    crew.press("fresh")
    crew.fill(photos=[large])
    for _ in range(2):
        crew.press("leave")
    crew.page.wait(f"byId('edit').hidden && {KEPT_PHOTOS}.then(it => it === 0)")
    expect_quiet(crew)
    number, _ = by_title(rows_of(seat), "Six")
    expect(len(related_of(seat, number)), 6, "its photos")


def check_20_photos_of_12_megapixels(scene):
    """Of many large photos one is there to be drawn at a time, also where a form comes back with them; what is shown of
    them is small."""
    seat, crew = scene.begin()
    large = scene.folder / "megapixels.png"
    large.write_bytes(picture(4000, 3000, (40, 160, 80)))
    crew.value(PICTURES)
    crew.press("fresh")
    crew.write("title", "Twenty")
    crew.page.choose_files("byId('pictures')", [large] * 20)
    there = "form?.photos.length === 20 && form.coming === 0 && byId('thumbnails').ariaBusy === 'false'"
    crew.page.wait(there, 300)
    expect(
        crew.value("[wrote.length, new Set(wrote).size, mostPixels]"),
        [20, 20, 12_000_000],
        "photos written, and pixels at a time",
    )
    seen = "[...byId('thumbnails').querySelectorAll('img')].map(it => Math.max(it.naturalWidth, it.naturalHeight))"
    crew.page.wait(f"{seen}.length === 20 && {seen}.every(it => it > 0)")
    assert max(crew.value(seen)) <= 400, f"what is shown of them: {crew.value(seen)}"
    crew.page.wait(f"{KEPT_PHOTOS}.then(it => it === 20)")
    crew.save()
    crew.wait_until_it_stands(120)
    crew.value("mostPixels = 0; open(rowsNow().find(it => it.title === 'Twenty')); 0")
    crew.page.wait(f"byId('thumbnails').ariaBusy === 'false' && {seen}.length === 20", 120)
    expect(crew.value("mostPixels"), 2048 * 1536, "pixels at a time where the row is opened")
    number, _ = by_title(rows_of(seat), "Twenty")
    expect(len(related_of(seat, number)), 20, "its photos")


def check_a_press_in_another_form(scene):
    """Who pressed Remove once in one form removes nothing by one press in another, also where a browser tells nothing
    of a button that is hidden."""
    seat, crew = scene.begin()
    crew.value("addEventListener('blur', event => event.isTrusted && event.stopImmediatePropagation(), true); 0")
    crew.open("Stone 5")
    crew.press("remove")
    expect(crew.text("remove"), "Remove: press again", "the button")
    crew.press("leave")
    crew.open("Stone 4")
    expect(crew.text("remove"), "Remove", "the button in another form")
    crew.press("remove")
    expect(crew.value("[byId('edit').hidden, outbox.waiting.length]"), [False, 0], "behind one press")
    expect(sorted(rows_of(seat)), list(range(1, STONES + 1)), "the rows")


def check_numbers_of_the_system_that_was_shown(scene):
    """A place that was typed is of the system that stood beside it, also where another map is shown when it is
    saved."""
    seat, crew = scene.begin()
    crew.press("fresh")
    crew.fill(title="Typed")
    crew.write("east", "500400.5")
    crew.write("north", "5600500")
    expect(crew.text("system"), "in metres of system 25832", "the system beside it")
    crew.value("byId('pyramids').value = 'plan'; byId('pyramids').dispatchEvent(new Event('change')); 0")
    expect(crew.text("system"), "in metres of system 25832", "the system beside another map")
    crew.save()
    crew.wait_until_it_stands()
    expect_quiet(crew)
    expect(by_title(rows_of(seat), "Typed")[1], ("@25832:500400.5/5600500", 0), "the row")


def check_a_drawing_with_a_clear_ground(scene):
    """A drawing whose ground is clear has a white one as a photo: black words on it can be read."""
    _, crew = scene.begin()
    drawing = scene.folder / "drawing.png"
    drawing.write_bytes(picture(40, 30, (0, 0, 0, 0)))
    crew.press("fresh")
    crew.fill(title="Sketch", photos=[drawing])
    pixel = """(async () => {
      const image = await createImageBitmap(new Blob([form.photos[0].bytes]));
      const canvas = new OffscreenCanvas(image.width, image.height);
      const drawing = canvas.getContext('2d');
      drawing.drawImage(image, 0, 0);
      return [...drawing.getImageData(20, 15, 1, 1).data];
    })()"""
    expect(crew.value(pixel), [255, 255, 255, 255], "a pixel of the ground")
    expect_quiet(crew)


# All that the state may count, in both tongues.
COUNTS = "12 to send, 3 changed meanwhile, 1 refused, 2 not saved"
COUNTS_IN_GERMAN = "12 zu senden, 3 inzwischen geändert, 1 abgelehnt, 2 nicht gespeichert"
# The texts that don't stand out from their ground by 4.5 to 1.
CONTRAST = """(() => {
  const parts = text => text.match(/[0-9.]+/g).map(Number);
  const light = ([r, g, b]) => [r, g, b].map(it => it / 255)
    .map(it => it <= 0.04045 ? it / 12.92 : ((it + 0.055) / 1.055) ** 2.4)
    .reduce((sum, it, at) => sum + it * [0.2126, 0.7152, 0.0722][at], 0);
  const ground = it => parts(getComputedStyle(it).backgroundColor);
  const behind = it => !it ? [255, 255, 255] : ground(it)[3] === 0 ? behind(it.parentElement) : ground(it);
  return [...document.querySelectorAll('header *, aside *, #messages *, #none *')]
    .filter(it => it.offsetParent && !it.disabled &&
    [...it.childNodes].some(node => node.nodeType === 3 && node.data.trim())).map(it => {
    const [one, other] = [light(parts(getComputedStyle(it).color)), light(behind(it))].sort((a, b) => b - a);
    return [(one + 0.05) / (other + 0.05), it.tagName, it.textContent.slice(0, 30)];
  }).filter(([ratio]) => ratio < 4.5);
})()"""


# Has the page look as where a browser is asked for all of some things: its rules for these are rules for all then.
LOOK_AS = """(words => {
  const rules = [...document.styleSheets].filter(it => it.ownerNode.tagName === 'STYLE')
    .flatMap(it => [...it.cssRules]);
  const asks = it => it.media?.mediaText.split(' and ').every(part => words.some(word => part.includes(word)));
  const asked = rules.filter(asks);
  for (const it of asked) it.media.mediaText = 'all';
  return asked.length;
})"""


def check_by_night_and_with_more_contrast(scene):
    """Each text stands out from its ground at night too, and by 7 to 1 where more contrast is asked for; where a
    browser gives all colours a button that is pressed has its own."""
    for words, least in ((["scheme: dark"], 4.5), (["contrast: more"], 7), (["scheme: dark", "contrast: more"], 7)):
        _, crew = scene.begin()
        crew.press("fresh")
        assert crew.value(f"{LOOK_AS}({json.dumps(words)})"), f"the page has no rules for {words}"
        crew.value("say('test', 'A message'); byId('told').textContent = 'No'; 0")
        dim = crew.value(CONTRAST.replace("ratio < 4.5", f"ratio < {least}"))
        expect([it for it in dim if it[1] != "BUTTON" or it[0] < 4.5], [], f"texts that don't stand out, {words}")
        scene.screenshot(crew, "-".join(it.split()[-1] for it in words))
    _, crew = scene.begin()
    expect(crew.value(f"{LOOK_AS}(['forced-colors'])") > 0, True, "the page knows forced colours")
    crew.press("fresh")
    grounds = "['tap', 'middle'].map(it => getComputedStyle(byId(it)).backgroundColor)"
    pressed, other = crew.value(grounds)
    assert pressed != other, f"a button that is pressed is {pressed}, as another"


NAMES = """[...document.querySelectorAll('button, input, select, textarea')]
  .filter(it => it.checkVisibility()).map(it =>
  it.getAttribute('aria-label') ?? (it.labels?.[0]?.firstChild.data ?? it.innerText).trim())"""


def check_names_of_what_is_pressed(scene):
    """Each field and button has a name that no other has, the page has a head and the panel a name; coordinates aren't
    told aloud at each move."""
    _, crew = scene.begin()
    crew.press("fresh")
    names = crew.value(NAMES)
    expect([it for it in set(names) if not it or names.count(it) > 1], [], "names that are none, or of two")
    heads = crew.value(
        "[...document.querySelectorAll('h1, h2, legend')].filter(it => it.checkVisibility()).map(it =>"
        " it.firstChild.data.trim())"
    )
    expect([it for it in heads if heads.count(it) > 1], [], "heads of one name")
    expect(
        crew.value("[byId('package').tagName, byId('panel').ariaLabel]"),
        ["H1", "Work, tables and media"],
        "the head, and the panel's name",
    )
    live = "(it => it.tagName === 'OUTPUT' || it.role !== null || it.ariaLive !== null)(byId('position'))"
    expect(crew.value(live), False, "coordinates are told aloud")
    expect_quiet(crew)


def check_the_focus_in_what_waits(scene):
    """Where an item of what waits says something else the focus stays on its button; where the item goes it is on the
    list's head."""
    seat, crew = scene.begin()
    seat.kill()
    crew.new(title="Waits")
    crew.page.wait("outbox.waiting.length === 1 && !sending")
    crew.value("failures.set(outbox.waiting[0].saved, { count: 2, why: 'no' }); showWaiting()")
    crew.value("byId('outbox').querySelector('button').focus(); window.button = document.activeElement; 0")
    crew.value("failures.set(outbox.waiting[0].saved, { count: 3, why: 'no' }); showWaiting()")
    expect(
        crew.value("[button.isConnected, document.activeElement.innerText]"),
        [False, "Throw away"],
        "the focus behind other words",
    )
    crew.page.press("Enter", "Enter")
    crew.page.wait("outbox.waiting.length === 0 && byId('outbox').children.length === 0")
    expect(crew.value("document.activeElement.id"), "waits", "the focus where the item has gone")


def check_words_above_the_map(scene):
    """Where the program is gone, or the day is ended, no tile is told to be missing; that a tile is no picture is told
    until the map is moved."""
    seat, crew = scene.begin()
    page = crew.page
    zoom = "map.setView([5600500, 500500], {}, {{ animate: false }}); 0"
    page.wait("document.querySelector('img.leaflet-tile[src]') !== null")
    crew.value("window.real = drawn; drawn = async () => false; " + zoom.format(1))
    page.wait("byId('messages').innerText.includes('is no picture that this browser draws')")
    page.wait("document.querySelector('img.leaflet-tile:not(.leaflet-tile-loaded)') === null")
    crew.value("drawn = real; " + zoom.format(2))
    expect("is no picture" in crew.text("messages"), False, "what is said behind a move")
    seat.kill()
    crew.value(zoom.format(3))
    page.wait("byId('messages').innerText.startsWith('The package doesn\\'t answer')")
    page.wait("document.querySelector('img.leaflet-tile:not(.leaflet-tile-loaded)') === null")
    expect(crew.value("byId('none').hidden"), True, "a tile is told to be missing while the program is gone")
    seat.start()
    page.wait("byId('messages').innerText === '' && document.querySelector('img.leaflet-tile[src]') !== null")
    for _ in range(2):
        crew.press("end")
    page.wait("byId('state').innerText.startsWith('the day is ended')")
    expect(crew.value("byId('state').className"), "", "the state's colour at the end of the day")
    crew.value(zoom.format(1))
    page.wait("document.querySelector('img.leaflet-tile:not(.leaflet-tile-loaded)') === null")
    page.wait("new Promise(good => requestAnimationFrame(() => requestAnimationFrame(() => good(true))))")
    expect(crew.value("byId('none').hidden"), True, "a tile is told to be missing behind the end of the day")


def check_a_map_without_a_zoom(scene):
    """A map that has no matrix yet is named, with what helps."""
    file = scene.folder / "bare.mmpkg"
    bare = record(["srs", 7, "plan", "NONE", 7, "metres of a plan", ""]) + record(
        ["pyramid", "bare", "Bare map", 7, 0, 0, 4_096_000_000, 4_096_000_000, "two"]
    )
    new_package(file, bare + record(["table", "spots", "attributes", "Spots"]))
    take_in(file, scene.folder / "bare")
    seat = Seat(file)
    scene.seats.append(seat)
    crew = scene.crew(seat.address)
    words = (
        "No zoom is laid out yet for Bare map: there is nothing to see of it until the office lays one out and "
        "puts in tiles. Open the package again then."
    )
    expect(crew.text("messages"), words, "what is said")
    expect_quiet(crew)


def check_a_new_row_while_the_panel_is_hidden(scene):
    """With the panel hidden the map has a button for a new row, which shows the form; else it has none."""
    _, crew = scene.begin(width=390, height=800, touch=True)
    expect(crew.value("byId('anew').hidden"), True, "the button beside the panel")
    touch(crew, "toggle")
    crew.page.wait("byId('panel').hidden && !byId('anew').hidden")
    touch(crew, "anew")
    crew.page.wait("form !== null && form.fresh && !byId('panel').hidden && byId('anew').hidden")
    expect_quiet(crew)


def check_a_new_row_on_small_screens(scene):
    """In the form of a new row the buttons for photos are to be seen without a scroll, and nothing leads to its place;
    with a phone's keys up nothing of the map hangs over the form."""
    inside = "(it => { const box = byId(it).getBoundingClientRect(); return [box.top, box.bottom]; })"
    for wide, high in ((360, 740), (800, 1280), (1024, 768)):
        _, crew = scene.begin(width=wide, height=high, touch=True)
        touch(crew, "fresh")
        crew.page.wait("form !== null && byId('thumbnails').ariaBusy === 'false'")
        top, bottom = crew.value("(it => [it.top, it.bottom])(byId('camera').closest('label').getBoundingClientRect())")
        above, below = crew.value(f"{inside}('panel')")[0], crew.value(f"{inside}('acts')")[0]
        assert (
            above <= top and bottom <= below
        ), f"'Take a photo' at {top} to {bottom} of {above} to {below}, {wide} pixels"
        expect(crew.value("byId('lead').hidden"), True, "a way that leads to a row that is being made")
        crew.page.close()
        scene.pages.remove(crew.page)
    _, crew = scene.begin(width=360, height=450, touch=True)
    touch(crew, "fresh")
    for element in ("title", "search"):
        crew.value(f"byId('{element}').focus(); 0")
        over = (
            "[...byId('place').querySelectorAll('button, a')].filter(it => it.checkVisibility() &&"
            " it.getBoundingClientRect().bottom > byId('place').getBoundingClientRect().bottom).map(it => it.id ||"
            " it.className)"
        )
        expect(crew.value(over), [], f"what hangs over the form, with the keys for {element} up")
        scene.screenshot(crew, f"keys-{element}")


def check_a_title_of_1000_bytes(scene):
    """A title of 1,000 bytes takes some lines of the list, and of what waits, and not the screen."""
    seat, crew = scene.begin()
    seat.kill()
    title = " ".join(["boundary"] * 111)
    crew.new(title=title)
    crew.page.wait("byId('outbox').children.length === 1")
    expect(crew.rows()[0], title, "the title in the list")
    high = crew.value("[byId('rows').firstChild, byId('outbox').firstChild].map(it => it.offsetHeight)")
    assert max(high) < 110, f"the items are {high} pixels high"


def check_small_screens_and_sunlight(scene):
    """On a phone nothing is cut off at the side, map, form and state are to be seen, what is pressed is 44 pixels high,
    and each text stands out from its ground by 4.5 to 1."""
    for wide, high in ((320, 568), (360, 740), (740, 360), (800, 1280)):
        _, crew = scene.begin(width=wide, height=high, touch=True)
        crew.value("byId('fresh').click(); 0")
        whole = "(it => it.scrollWidth <= it.clientWidth && it.scrollHeight <= it.clientHeight)(byId('state'))"
        for state in ("the package doesn\\'t answer", COUNTS, COUNTS_IN_GERMAN):
            expect(
                crew.value(f"tellState('{state}', 'gone'), {whole}"),
                True,
                f"the state is told whole at {wide} pixels, {state!r}",
            )
        sizes = crew.value(
            "['map', 'panel', 'edit', 'save'].map(it => byId(it).getBoundingClientRect()).map(it => [it.left, it.top,"
            " it.right, it.bottom])"
        )
        of_map, panel, edit, save = (
            [max(left, 0), max(top, 0), min(right, wide), min(bottom, high)] for left, top, right, bottom in sizes
        )
        seen = [
            (it[2] - it[0], it[3] - it[1])
            for it in (of_map, [*map(max, panel[:2], edit[:2]), *map(min, panel[2:], edit[2:])], save)
        ]
        assert all(across >= 290 and down >= 150 for across, down in seen[:2]), f"map and form at {wide} pixels: {seen}"
        assert seen[2][1] >= 44, f"the button at {wide} pixels: {seen}"
        expect(crew.value("document.documentElement.scrollWidth <= innerWidth"), True, f"the page fits {wide} pixels")
        expect(
            crew.value("byId('panel').scrollWidth <= byId('panel').clientWidth"), True, f"the panel fits {wide} pixels"
        )
        pressed = "[...document.querySelectorAll('button, input, select')].filter(it => it.offsetParent)"
        expect(
            crew.value(f"{pressed}.filter(it => it.getBoundingClientRect().height < 44).map(it => it.id)"),
            [],
            "what is too small for a finger",
        )
        crew.value("say('test', 'A message'); tellState('1 to send', 'waits'); 0")
        expect(crew.value(CONTRAST), [], "texts that don't stand out")
        crew.value("tellState('the package does not answer', 'gone'); byId('told').textContent = 'No'; 0")
        expect(crew.value(CONTRAST), [], "texts that don't stand out")
        scene.screenshot(crew, f"screen-{wide}")
    for wide in (1024, 1280):
        _, crew = scene.begin(width=wide, height=768)
        for left in ("", "2 to send, 1 not saved"):
            expect(
                crew.value(f"tellEnd('{left}'), {whole}"),
                True,
                f"the end of the day is told whole at {wide} pixels, {left!r}",
            )


def check_the_way_to_what_waits(scene):
    """A tap on the state shows what isn't in the package yet, on a phone behind all rows, also where the panel was
    hidden."""
    seat, crew = scene.begin(width=360, height=740, touch=True)
    seat.kill()
    crew.new(title="Waits")
    crew.page.wait("outbox.waiting.length === 1")
    touch(crew, "toggle")
    touch(crew, "state")
    top, bottom = crew.value("(it => [it.top, it.bottom])(byId('outbox').firstChild.getBoundingClientRect())")
    assert 0 <= top and bottom <= 740, f"what waits is at {top} to {bottom}"
    expect_quiet(crew, "ERR_")


def check_by_finger(scene):
    """A row is made by fingers on a phone: the button, a tap on the map, and Save."""
    seat, crew = scene.begin(width=390, height=800, touch=True)
    touch(crew, "fresh")
    crew.page.wait("form !== null")
    crew.value("byId('title').focus(); 0")
    crew.page.type("By finger")
    x, y = crew.value("(box => [box.x + box.width / 2, box.y + box.height / 2])(byId('map').getBoundingClientRect())")
    crew.page.touch([(x, y)])
    crew.page.wait("byId('east').value !== ''")
    touch(crew, "save")
    crew.page.wait("byId('edit').hidden")
    crew.wait_until_it_stands()
    expect_quiet(crew)
    number, (note, _) = by_title(rows_of(seat), "By finger")
    assert re.fullmatch(r"@25832:5005[0-9.]+/56005[0-9.]+", note), note


GROUND, WHITE = (200, 180, 20), (255, 255, 255)
AROUND = [499_000, 5_599_000, 503_000, 5_603_000]
SETTLED = "!document.querySelector('img.leaflet-tile:not(.leaflet-tile-loaded), .leaflet-zoom-anim, .leaflet-pan-anim')"


@contextlib.contextmanager
def with_maps(scene, file=None, how=None, **named):
    """A crew at a page with maps behind the work, and their server."""
    seat = Seat(file) if file else scene.seat()
    if file:
        scene.seats.append(seat)
    with maps_drawn.served(f"http://127.0.0.1:{seat.port}", **named) as server:
        crew = scene.crew(seat.address, behind=maps_drawn.told_behind(server), **(how or {}))
        crew.page.wait("lying.length > 0")
        yield seat, crew, server


def colour_at(crew, east, north):
    """What a screenshot has at a place of the map, once all that was asked for is drawn."""
    crew.value("byId('map').classList.remove('centre'); 0")
    crew.page.wait(SETTLED)
    crew.value("new Promise(good => requestAnimationFrame(() => requestAnimationFrame(() => good(1))))")
    where = f"map.latLngToContainerPoint([{north}, {east}]), byId('map').getBoundingClientRect()"
    x, y = crew.value(f"((it, box) => [box.x + it.x, box.y + it.y])({where})")
    return images.pixels_of(crew.page.screenshot())[int(y)][int(x)]


def listed(crew):
    """The maps behind the work as the list has them: the name, and what is said of it."""
    return crew.value("lying.map(it => [it.map.name, it.words.innerText])")


def check_maps_behind_the_work(scene):
    """A picture is seen where the package has no tile, also outside its map, below its tiles, as strong as it is
    chosen, and not where it is off."""
    ground = maps_drawn.Ground(GROUND, AROUND)
    with with_maps(scene, **{"ortho.tif": ground, "notes.txt": "GDAL opens no map of it"}) as (_, crew, _server):
        crew.value("map.setView([5600950, 501000], 1, { animate: false }); 0")
        expect(colour_at(crew, 501_120, 5_601_130), GROUND, "the picture outside the package's map")
        own = colour_at(crew, 500_930, 5_600_900)
        assert own != GROUND, "the picture lies over the package's tiles"
        expect(crew.value("byId('none').hidden"), True, "that no tile is here isn't said where a picture is")
        expect(listed(crew), [["ortho.tif", ""], ["notes.txt", "can't be shown: GDAL opens no map of it"]], "the list")
        expect(
            crew.value("[...byId('layers').querySelectorAll('label')].map(it => it.innerText)"),
            ["Base map, of the package", "ortho.tif"],
            "what can be chosen",
        )
        scene.screenshot(crew, "behind")
        switch(crew, 0, "[type=checkbox]", "checked = false")
        expect(colour_at(crew, 500_930, 5_600_900), GROUND, "the picture where the package's map is off")
        switch(crew, 1, "[type=range]", "value = 50")
        found = colour_at(crew, 501_120, 5_601_130)
        assert all(
            abs(it - (one + other) / 2) <= 2 for it, one, other in zip(found, GROUND, (228, 232, 234))
        ), f"half as strong: {found}"
        switch(crew, 1, "[type=checkbox]", "checked = false")
        expect(colour_at(crew, 501_120, 5_601_130), (228, 232, 234), "where the picture is off")
        crew.reload()
        crew.page.wait("lying.length > 0")
        expect(
            crew.value("[own.on, lying[0].look.on, lying[0].look.strength]"),
            [False, False, 50],
            "what was chosen, when the page is loaded again",
        )
        crew.value("map.setView([5700000, 600000], 1, { animate: false }); 0")
        switch(crew, 1, "[type=checkbox]", "checked = true")
        expect(listed(crew)[0], ["ortho.tif", "lies elsewhere"], "what is said where it isn't")
        expect_quiet(crew)


def switch(crew, at, what, to):
    """Changes a field of a map in the list."""
    crew.value(
        f"(it => {{ it.{to}; it.dispatchEvent(new Event('change'));"
        f" }})(byId('layers').children[{at}].querySelector('{what}')); 0"
    )


def check_parts_in_sight_alone(scene):
    """Parts are asked for where the map is looked at; those that nobody looks at any more before they are drawn aren't
    drawn."""
    ground = maps_drawn.Ground(GROUND, [400_000, 5_500_000, 600_000, 5_700_000])
    with with_maps(scene, **{"ortho.tif": ground}) as (_, crew, server):
        crew.page.wait(SETTLED)
        near = [500_000 - 2048, 5_600_000 - 2048, 501_024 + 2048, 5_601_024 + 2048]
        assert ground.asked and all(
            near[0] <= it[0] and near[1] <= it[1] and it[2] <= near[2] and it[3] <= near[3] for it in ground.asked
        ), ground.asked
        workers, before = server.maps.threads._max_workers, len(ground.asked)
        while ground.begun.acquire(blocking=False):
            pass
        ground.go.clear()
        crew.value("map.setView([5650000, 550000], 1, { animate: false }); 0")
        for _ in range(workers):
            assert ground.begun.acquire(timeout=WAIT_SECONDS), "no part is begun"
        crew.value("map.setView([5510000, 410000], 1, { animate: false }); 0")
        wait_until(lambda: server.count_of_gone() >= maps_drawn.CONNECTIONS, "the requests of before are taken back")
        ground.go.set()
        crew.page.wait(SETTLED)
        far = [it for it in ground.asked[before:] if it[0] > 500_000]
        assert len(far) <= workers, f"{len(far)} parts were drawn that nobody waited for, {workers} at a time"
        assert any(it[0] < 420_000 for it in ground.asked), "the parts that are looked at"
        expect(crew.text("mapped"), "", "what is said")
        expect_quiet(crew)


def check_shapes_behind_the_work(scene):
    """Parcels are drawn above the package's tiles with names by a column, those in sight alone, and asked for anew
    where that has moved."""
    parcels, ground = maps_drawn.Parcels([500_000, 5_600_000, 501_000, 5_601_000]), maps_drawn.Ground(GROUND, AROUND)
    with with_maps(scene, **{"parcels.gpkg": parcels, "ortho.tif": ground}) as (_, crew, _server):
        crew.value("map.setView([5600500, 500500], 2, { animate: false }); 0")
        there = "lying[0].layer.shapes?.getLayers().length ?? 0"
        crew.page.wait(f"{there} > 0")
        expect(crew.value("document.querySelectorAll('.named').length"), 0, "names where none are chosen")
        switch(crew, 1, "select", "value = 'parcel'")
        crew.page.wait("document.querySelectorAll('.named').length > 10")
        expect(
            crew.value(
                "[...document.querySelectorAll('.named')].every(it => /^parcel [0-9]+.[0-9]+$/.test(it.innerText))"
            ),
            True,
            "the names",
        )
        overlaps = """(boxes => boxes.some((one, at) =>
          boxes.slice(at + 1).some(it => one.left < it.right && it.left < one.right
          && one.top < it.bottom && it.top < one.bottom)))
            ([...document.querySelectorAll('.named')].map(it => it.getBoundingClientRect()))"""
        expect(crew.value(overlaps), False, "whether one name lies over another")
        scene.screenshot(crew, "parcels")
        asked = len(parcels.asked)
        crew.value("map.panBy([20, 0], { animate: false }); 0")
        time.sleep(0.6)
        expect(len(parcels.asked), asked, "what is asked where the map has hardly moved")
        crew.value("map.setZoom(map.getZoom() + 1, { animate: false }); 0")
        wait_until(lambda: len(parcels.asked) == asked + 1, "the shapes of another zoom")
        crew.page.wait("document.querySelectorAll('.named').length > 0 && lying[0].layer.pixel <= 1")
        expect(crew.value(overlaps), False, "whether one name lies over another, nearer")
        # Their order is kept, and the first of two pictures lies on top.
        crew.press("byId('layers').children[1].querySelector('.down')")
        expect([it[0] for it in listed(crew)], ["ortho.tif", "parcels.gpkg"], "the order")
        expect(
            crew.value("Object.values(lying).map(it => Number(map.getPane(paneOf(it)).style.zIndex) > 200)"),
            [False, True],
            "which lies above the tiles",
        )
        crew.reload()
        crew.page.wait("lying.length > 0")
        expect(
            [it[0] for it in listed(crew)], ["ortho.tif", "parcels.gpkg"], "the order, when the page is loaded again"
        )
        crew.page.wait("document.querySelectorAll('.named').length > 0")
        expect_quiet(crew)


def check_a_map_behind_a_package_without_one(scene):
    """A package without any pyramid works on a map behind it, in a system that suits that; without one it says that it
    has no map."""
    file = scene.folder / f"bare-{len(scene.seats)}.mmpkg"
    new_package(
        file,
        "".join(
            map(
                record,
                [["table", "spots", "attributes", "Spots"], ["row", "spots", 1, "Stone 1", "@25832:500500/5600500", 0]],
            )
        ),
    )
    take_in(file, scene.folder / "without")
    with with_maps(scene, file, **{"ortho.tif": maps_drawn.Ground(GROUND, AROUND)}) as (seat, crew, _server):
        expect(
            crew.value("[shown.srs_id, shown.table, byId('messages').innerText, byId('none').hidden]"),
            [25832, "", "", True],
            "the map",
        )
        expect(colour_at(crew, 500_400, 5_600_900), GROUND, "the map's colour")
        expect(crew.value("marked.size"), 1, "marks")
        crew.new(title="Oak", place=(500_400, 5_600_500))
        crew.wait_until_it_stands()
        scene.screenshot(crew, "bare")
        expect_quiet(crew)
        note, _ = by_title(rows_of(seat), "Oak")[1]
        told = re.fullmatch(r"@25832:([0-9.]+)/([0-9.]+)", note)
        assert told and abs(float(told[1]) - 500_400) < 10 and abs(float(told[2]) - 5_600_500) < 10, note
    seat = Seat(file)
    scene.seats.append(seat)
    crew = scene.crew(seat.address)
    expect(
        crew.value("[map, byId('messages').innerText, byId('maps').hidden]"),
        [None, "The package has no map yet.", True],
        "without a map behind it",
    )


def check_the_maps_address_alone(scene):
    """The policy opens for the one address of the maps: no other port, and nothing else at that port; without maps for
    none."""
    with with_maps(scene, **{"ortho.tif": maps_drawn.Ground(GROUND, AROUND)}) as (seat, crew, server):
        asked = "fetch('{}').then(it => it.status, () => 'kept')"
        expect(crew.value(asked.format(f"{server.address}maps?system=25832")), 200, "the maps")
        with socket.create_server(("127.0.0.1", 0)) as other:
            other.settimeout(1)
            there = f"http://127.0.0.1:{other.getsockname()[1]}"
            for address in (
                f"{there}/{server.token}/maps",
                f"http://127.0.0.1:{server.server_port}/other/maps",
                f"http://localhost:{server.server_port}/",
            ):
                expect(crew.value(asked.format(address)), "kept", f"a fetch of {address}")
            plain = scene.crew(seat.address)
            expect(
                plain.value(asked.format(f"{server.address}maps?system=25832")),
                "kept",
                "a fetch of the maps by a page that wasn't told of them",
            )
            expect(plain.value("byId('maps').hidden"), True, "whether that page has no list of maps")
            plain = scene.crew(seat.address, behind=f"x&maps={there.rsplit(':', 1)[1]}/short")
            expect(
                plain.value("[MAPS, byId('maps').hidden, packageFile]"),
                [None, True, "x"],
                "a page whose address tells no maps",
            )
            with contextlib.suppress(TimeoutError):
                other.accept()
                raise AssertionError("another address was asked")


def check_maps_that_end(scene):
    """Where the program of maps ends that is said in the list, and the work goes on; nothing of it waits."""
    with with_maps(
        scene, **{"ortho.tif": maps_drawn.Ground(GROUND, AROUND), "parcels.gpkg": maps_drawn.Parcels(AROUND)}
    ) as (seat, crew, server):
        crew.page.wait(SETTLED)
        server.end()
        crew.value("map.setView([5600950, 501900], 2, { animate: false }); 0")
        crew.page.wait("byId('mapped').innerText.startsWith(\"The maps don't answer\")")
        expect(crew.text("messages"), "", "what is said above the map")
        crew.new(title="Spring", place=(500_400, 5_600_500))
        crew.wait_until_it_stands()
        expect_quiet(crew, "ERR_", "CORS", "NetworkError", "Cross-Origin")
        by_title(rows_of(seat), "Spring")


def photo_with_a_place(scene, crew, name, degrees=True):
    """A JPEG of the browser's making, with Exif that tells 50° 33' 7.2" N, 9° 0' 18" E where it is asked for."""
    told = crew.value(
        "(it => (it.width = 400, it.height = 300, it.getContext('2d').fillRect(0, 0, 200, 150),"
        " it.toDataURL('image/jpeg')))(document.createElement('canvas'))"
    )
    data = base64.b64decode(told.split(",")[1])
    rationals = struct.pack("<12I", 50, 1, 33, 1, 72, 10, 9, 1, 0, 1, 18, 1)
    gps = (
        struct.pack("<H", 4)
        + b"".join(struct.pack("<HHI", *it) for it in ((1, 2, 2),))
        + b"N\0\0\0"
        + struct.pack("<HHII", 2, 5, 3, 80)
    )
    gps += struct.pack("<HHI", 3, 2, 2) + b"E\0\0\0" + struct.pack("<HHII", 4, 5, 3, 104) + struct.pack("<I", 0)
    head = struct.pack("<2sHI", b"II", 42, 8) + struct.pack("<HHHII", 1, 0x8825, 4, 1, 26) + struct.pack("<I", 0)
    exif = b"Exif\0\0" + head + gps + rationals
    assert len(head) == 26 and len(head + gps) == 80, (len(head), len(head + gps))
    file = scene.folder / name
    file.write_bytes(data[:2] + (b"\xff\xe1" + struct.pack(">H", len(exif) + 2) + exif if degrees else b"") + data[2:])
    return file


def check_a_photos_own_place(scene):
    """The place that a photo tells is offered to the form and never taken unasked; where it can't be reckoned that is
    said."""
    seat, crew = scene.begin()
    photo, plain = photo_with_a_place(scene, crew, "told.jpg"), photo_with_a_place(
        scene, crew, "plain.jpg", degrees=False
    )
    crew.press("fresh")
    crew.fill(title="By the photo", photos=[plain])
    expect(crew.value("byId('shot').hidden"), True, "an offer without a place")
    crew.fill(photos=[plain, photo])
    crew.page.wait("!byId('shot').hidden")
    expect(
        [crew.value(f"byId('{it}').value") for it in ("east", "north")],
        ["", ""],
        "the place before the button is pressed",
    )
    crew.press("shot")
    # By gdaltransform -s_srs EPSG:4258 -t_srs EPSG:25832.
    expect(
        [crew.value(f"byId('{it}').value") for it in ("east", "north")],
        ["500354.22", "5600007.53"],
        "the photo's place",
    )
    scene.screenshot(crew, "photo-place")
    crew.save()
    crew.wait_until_it_stands()
    crew.press("fresh")
    expect(crew.value("[byId('shot').hidden, byId('noshot').innerText]"), [True, ""], "the next form")
    crew.fill(title="Unasked", photos=[photo])
    crew.page.wait("!byId('shot').hidden")
    crew.value("byId('pyramids').value = 'plan'; byId('pyramids').dispatchEvent(new Event('change')); 0")
    words = "The photo tells where it was taken, and this page can't reckon that in the map's system."
    expect(crew.value("[byId('shot').hidden, byId('noshot').innerText]"), [True, words], "the offer in a plan")
    crew.save()
    crew.wait_until_it_stands()
    expect_quiet(crew)
    rows = rows_of(seat)
    number, (note, _) = by_title(rows, "By the photo")
    expect((note, len(related_of(seat, number))), ("@25832:500354.22/5600007.53", 3), "the row")
    expect(by_title(rows, "Unasked")[1][0], "", "a row whose photo's place nobody took")


def check_slips_are_told(scene):
    """How many words with @ are no place, places are outside all maps, and maps less than a metre, is told below the
    list."""
    file = scene.copy()
    lines = [
        'row,spots,30,Comma,"@25832:500100,5/5600100,25",0',
        "row,spots,31,Tail,@25832:500100/5600100weg,0",
        "row,spots,32,Swapped,@25832:5600100/500100,0",
        "row,spots,33,Address,mail ada@example.org,0",
        "pyramid,tiny,Tiny map,25832,565000,5933000,567048,5935048,two",
        "matrix,tiny,0,8,8,256,256,1,1",
    ]
    mmpkg("run", file, given="\n".join([*lines, ""]).encode())
    take_in(file, scene.folder / f"page-{scene.count}")
    seat = Seat(file)
    scene.seats.append(seat)
    crew = scene.crew(seat.address)
    words = (
        "2 rows have a word with @ that is no place; 1 row has its place outside all maps; less than a metre wide or"
        " high: Tiny map"
    )
    expect(crew.text("slips"), words, "what is said")
    expect(crew.text("messages"), "", "what is said above the map")
    crew.change("Comma", note="mended")
    crew.wait_until_it_stands()
    crew.page.wait("byId('slips').innerText.startsWith('1 row has a word with @')")
    expect_quiet(crew)
    _, plain = scene.begin()
    expect(plain.value("byId('slips').hidden"), True, "a package without slips")


def touch(crew, element):
    crew.page.touch([tuple(crew.value(f"({MIDDLE})(byId('{element}'))"))])


def main():
    given = words_given(__doc__, browser=True)
    want("no crew worked at the page", *browsers.needs(given.browser))
    with tempfile.TemporaryDirectory() as name, browsers.held(given.browser):
        folder = pathlib.Path(name)
        with browsers.start(given.browser, folder / "profile") as browser:
            scene = Scene(folder, browser, given.browser, given.keep)
            # They take what all checks share from here.
            names = (
                "out",
                "measure",
                "mine",
                "camera",
                "media",
                "who",
                "tables",
                "forms",
                "shapes",
                "history",
                "beyond",
                "german",
            )
            more = [vars(importlib.import_module(f"crew_{it}_checks")) for it in names]
            checks = {name: it for named in (globals(), *more) for name, it in named.items()}
            passed, failed = run_checks("crew's page", checks, given.words, scene.call)
    end(passed, failed)


if __name__ == "__main__":
    main()
