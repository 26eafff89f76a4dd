"""What a random day (page_days.py) happens in: a package with its desk, an office, a stranger, and tabs of a browser.

A tab is known by what it shows alone: the page's own names may change.
"""

import contextlib
import http.client
import itertools
import pathlib
import re
import shutil
import signal
import sqlite3
import subprocess
import threading
import time

from checks import expect, mmpkg, new_package
import browsers
import images
from crew_page import IS_KEPT, KEY, STANDS, Seat, press_at_rest
from page_told import Row, tag_of
from stranger import Stranger
from images import picture
from viewer_package import base_map, content_of_crews, record, take_in

SYSTEM = 25832
STONES = 6
# What a row's field has to choose from, and a word of its note that tells which it is.
KINDS = ("oak", "elm", "ash")
KIND = re.compile(r" kind=(\w+)")
# A program that doesn't answer is asked again after 4 s, which a day hasn't.
SOONER = """(at => {
  window.setTimeout = (act, wait, ...more) => at(act, wait > 3000 && wait < 4500 ? 400 : wait, ...more);
})(window.setTimeout)"""
JOINED = "in the package, joined"
LEFT = "and not saved"
BEHIND = "waits for the one above of its row"
# Who saved a row, and when, behind all else of its note.
SIGNED = re.compile(r'(?:^| )by=("[^"]*"|[^ ]+) at=[0-9]{4}-[0-9]{2}-[0-9]{2}T[0-9:]{8}Z$')
# What a form says that came back by itself, before or behind a press that was to open another.
CAME_BACK = ("This wasn't saved yet", "Save or close this row first")
CLOCK = "Date.now = () => performance.timeOrigin + performance.now() + %d; 0"


def stone(number):
    """A row of the office's, from the beginning."""
    return Row(f"S{number:03} t{number}", f"n{number}", number)


def content():
    """Rows of the office's, one of them with an owner, and the tables of what rows were and of what to choose from."""
    tables = [
        ["table", "history", "attributes", "History"],
        ["relation", "spots_history", "spots", "history", "simple_attributes"],
        ["table", "forms", "attributes", "Forms"],
        ["row", "forms", 1, "spots.kind", f"kind=choice choices={'|'.join(KINDS)}", 1],
    ]
    rows = [["row", "spots", it, stone(it).title, stone(it).note, it] for it in range(1, STONES + 1)]
    more = [["row", "owners", 1, "Ada", f"@{SYSTEM}:500800/5600500", 0], ["map", "owners_spots", 1, STONES]]
    return content_of_crews(base_map(2), *tables, *rows, *more)


def size_of(data):
    """The width and height of a picture, PNG or JPEG; of what is none its size alone."""
    if not data.startswith((b"\x89PNG", b"\xff\xd8\xff")):
        return 0, len(data)
    return images.size_of(data)


def told_row(title, note, amount, sizes):
    """A row of the package, with who saved it beside its note."""
    signed = SIGNED.search(note)
    return Row(title, SIGNED.sub("", note), amount, sizes, signed[1].strip('"') if signed else "")


class Package:
    """A file with its journal, the copies that an office kept of it, and what stands in it."""

    def __init__(self, folder, first):
        self.folder, self.file, self.count = folder, folder / "day.mmpkg", 0
        copy_of(first, self.file)

    def kept(self):
        self.count += 1
        return copy_of(self.file, self.folder / f"kept {self.count}.mmpkg")

    def take(self, copy):
        """A copy takes the package's place."""
        copy_of(copy, self.file)

    def rows(self):
        """The rows by tag, read from a copy, with the sizes of their photos; and by tag the number of a row."""
        for _ in range(5):
            with contextlib.suppress(sqlite3.DatabaseError):  # the program was writing
                return self.rows_of_copy()
            time.sleep(0.1)
        return self.rows_of_copy()

    def rows_of_copy(self):
        copy = copy_of(self.file, self.folder / "read.mmpkg")
        with contextlib.closing(sqlite3.connect(copy)) as opened:
            found = opened.execute(
                "SELECT id, title, note, amount FROM mm_rows WHERE table_name = 'spots' ORDER BY id"
            ).fetchall()
            photos = opened.execute(
                "SELECT base_id, data FROM mm_map JOIN mm_media m ON m.table_name = 'photos' AND m.id = related_id "
                "JOIN mm_blobs b ON b.id = m.blob WHERE mapping = 'spots_photos'"
            ).fetchall()
        rows, numbers = {}, {}
        for number, *values in found:
            sizes = [size_of(data) for of, data in photos if of == number]
            rows.setdefault(tag_of(values[0]), []).append(told_row(*values, sizes))
            numbers[tag_of(values[0])] = number
        return rows, numbers


def copy_of(file, to):
    for suffix in ("", "-wal", "-shm"):
        pathlib.Path(f"{to}{suffix}").unlink(missing_ok=True)
        if suffix != "-shm" and pathlib.Path(f"{file}{suffix}").exists():
            shutil.copy(f"{file}{suffix}", f"{to}{suffix}")
    return to


class Port:
    """The port of a package: its desk has it, a stranger, or nobody."""

    def __init__(self, file):
        self.seat, self.stranger, self.timers, self.lock = Seat(file), None, [], threading.RLock()

    @property
    def is_open(self):
        return self.stranger is None and self.seat.program.poll() is None

    def kill(self):
        with self.lock:
            if not self.seat.program.stdout.closed:
                self.seat.kill()

    def start(self):
        with self.lock:
            self.leave()
            if not self.is_open:
                self.kill()
                self.seat.start()

    def leave(self):
        if self.stranger:
            self.stranger.close()
        self.stranger = None

    def take(self, answer):
        """A stranger takes the port."""
        with self.lock:
            self.kill()
            self.leave()
            self.stranger = Stranger(self.seat.port, answer)

    def soon(self, seconds, act):
        timer = threading.Timer(seconds, act)
        self.timers.append(timer)
        timer.start()

    def hang(self, seconds):
        """The desk answers nothing for a while."""
        with self.lock:
            if self.is_open:
                program = self.seat.program
                program.send_signal(signal.SIGSTOP)
                self.soon(seconds, lambda: program.send_signal(signal.SIGCONT))

    def settle(self):
        """What was to come soon has come."""
        for timer in self.timers:
            timer.join()
        self.timers.clear()

    def close(self):
        self.settle()
        self.leave()
        self.kill()

    def send(self, records):
        """Sends records of the office, to the desk or, where that is gone, by the program alone."""
        if self.is_open:
            connection = http.client.HTTPConnection("127.0.0.1", self.seat.port, timeout=60)
            with contextlib.closing(connection):
                connection.request("POST", f"/{KEY}/records", records.encode(), {"Content-Type": "text/csv"})
                return connection.getresponse().read().decode()
        return mmpkg("run", self.seat.file, "--at", 0, given=records.encode(), status=None)


def is_open(item):
    """Whether an item of the list is something that isn't in the package yet, and was saved."""
    return JOINED not in item and LEFT not in item


BY_NAME = "(it => document.getElementById(it))"


def by(element):
    return f"document.getElementById('{element}')"


class Tab:
    """A tab of a browser at the page; `form` is the act that its open form would save, typed `since` then."""

    def __init__(self, browser, address):
        self.page = browser.open(f"{address}/media/viewer/1", kept=True, before=SOONER)
        self.form, self.since, self.is_full = None, 0, False

    def is_there(self, seconds=10):
        """Whether the page has come, with its rows."""
        deadline = time.monotonic() + seconds
        while time.monotonic() < deadline:
            there = f"!!{by('count')} && {by('count')}.textContent !== ''"
            if self.page.is_so(f"!window.wasBefore && document.readyState === 'complete' && {there}"):
                return True
            time.sleep(0.05)
        return False

    def has_page(self):
        return self.page.is_so(f"!window.wasBefore && !!{by('state')} && {by('state')}.innerText !== ''")

    def reload(self):
        """Loads the page again, once what was typed is kept: until the other comes this one is none any more."""
        self.page.is_so(f"window.wasBefore = true, {IS_KEPT}")
        self.page.reload()

    def text(self, element):
        return self.page.value(f"{by(element)}.innerText")

    def state(self):
        return tuple(self.page.value(f"[{by('state')}.innerText, {by('state')}.className]"))

    def listed(self):
        """What isn't in the package yet, as the page lists it; what it has joined is listed there too, and stands."""
        return [it if is_open(it) else "" for it in self.items()]

    def left(self):
        """What a tab has left that was typed and not saved, as the page lists it."""
        return [it for it in self.items() if LEFT in it]

    def items(self):
        return self.page.value(f"[...{by('outbox')}.children].map(it => it.innerText.replaceAll('\\n', ' / '))")

    def says_that_all_stands(self):
        return self.state()[0].startswith(STANDS)

    def titles(self):
        """The titles of the list, without the search, and what is told beside them."""
        self.page.value(f"(it => {{ it.value = ''; it.dispatchEvent(new Event('input')); }})({by('search')}); 0")
        return self.page.value(
            f"[...{by('rows')}.querySelectorAll('button')].map(it => [it.firstChild.data, it.innerText])"
        )

    def press(self, element):
        """Presses what an expression or an id names: Gone where that isn't there, since the page shows lists anew."""
        press_at_rest(self.page, element if "(" in element else by(element))

    def hold(self, at, wanted, number=0):
        """Holds one of the wanted buttons of an item of the list, and answers what both say, None where it has none.

        All is asked in one moment: the list moves up where what waited is sent.
        """
        buttons = f"[...item?.querySelectorAll('button') ?? []].filter(it => {wanted})"
        said = "held ? [item.innerText.replaceAll('\\n', ' / '), held.innerText] : null"
        chosen = f"(all => window.held = all[{number} % all.length])({buttons})"
        return self.page.value(f"(item => (held => {said})({chosen}))({by('outbox')}.children[{at}])")

    def press_held(self):
        """Presses the button that is held, where it is there still."""
        self.press(f"(window.held?.isConnected ? window.held : {by('waits')})")

    def write(self, element, text):
        """Writes into a field, in place of what it has."""
        self.press(element)
        self.page.value(f"{by(element)}.select(); 0")
        if text:
            self.page.type(text)
        else:
            self.page.press("Delete")

    def write_field(self, field, text):
        """Writes a field of a row: where the office has laid out fields the note's text has an element of its own."""
        self.write("text" if field == "note" else field, text)

    def choose_kind(self, kind):
        """Presses a choice of a field: it is taken, or taken back."""
        self.press(f"([...{by('fields')}.querySelectorAll('button')].find(it => it.innerText === '{kind}'))")

    def crew(self):
        """The crew's name, as the page shows it; empty where it has none."""
        told = self.text("whoever")
        return told.removeprefix("Crew: ") if told.startswith("Crew: ") else ""

    def name_crew(self, name):
        self.page.value(f"{by('who')}.open = true, 0")
        self.write("signer", name)
        self.page.press("Tab")
        assert self.within(lambda: self.crew() == name), f"the crew is {self.crew()!r}"

    def switch_table(self):
        """Switches a table on the map, or off, that isn't worked on, and answers whether there is one."""
        self.page.value(f"{by('tabled')}.open = true, 0")
        box = f"({by('legend')}.querySelector('input:enabled'))"
        if not self.page.value(f"{box} !== null"):
            return False
        before = self.page.value(f"{box}.checked")
        self.press(f"({by('legend')}.querySelector('input:enabled'))")
        assert self.within(lambda: self.page.value(f"{box}.checked") != before), "a table can't be switched on the map"
        return True

    def choose_map(self, table):
        choose = f"it.value = '{table}'; it.dispatchEvent(new Event('change', {{ bubbles: true }}));"
        self.page.value(f"(it => {{ {choose} }})({by('pyramids')}); 0")

    def is_ending(self):
        """Whether what waits is being sent, or the program asked, for the day's end."""
        return self.page.value(f"{by('end')}.ariaBusy === 'true'")

    def has_form(self):
        return self.page.value(f"!{by('edit')}.hidden")

    def fields(self):
        """The row as the form shows it."""
        values = f"['title', 'note', 'amount', 'east', 'north'].map({BY_NAME}).map(it => it.value)"
        title, note, amount, east, north = self.page.value(values)
        system = self.text("system")
        number = re.search(r"(-?\d+)\s*$", system)
        place = f"@{number[1] if number else SYSTEM}:{east}/{north}" if east else ""
        return Row(title, " ".join(it for it in (place, note) if it), int(amount or 0))

    def open_row(self, tag):
        """Opens the form of a row by the list, and answers whether it is there, and none that came back meanwhile."""
        self.write("search", tag)
        it = f"[...{by('rows')}.querySelectorAll('button')].find(it => it.firstChild.data.startsWith('{tag} '))"
        if not self.page.value(f"{it} !== undefined"):
            return False
        self.press(f"({it})")
        is_open = self.within(lambda: self.has_form() and tag_of(self.fields().title) == tag)
        return is_open and self.has_fields() and not self.came_back()

    def open_fresh(self):
        """Opens the form of a new row, and answers whether it is there, and none that came back meanwhile."""
        self.press("fresh")
        return self.within(self.has_form) and self.has_fields() and not self.came_back()

    def has_fields(self):
        """Whether the form has what the office laid out, which a page has once it has read that."""
        return self.within(lambda: self.page.value(f"!{by('fields')}.hidden"))

    def came_back(self):
        return self.text("told").startswith(CAME_BACK)

    def within(self, holds, seconds=10):
        deadline = time.monotonic() + seconds
        while time.monotonic() < deadline:
            if holds():
                return True
            time.sleep(0.03)
        return False

    def unsaved_photos(self):
        self.within(lambda: self.page.value(f"{by('thumbnails')}.ariaBusy !== 'true'"))
        return self.page.value(f"{by('thumbnails')}.innerText.split('not saved yet').length - 1")

    def save(self):
        """Presses 'Save', and answers whether the form was closed by that; else it says why not."""
        before, began, pressed = self.text("told"), time.monotonic(), 0
        while time.monotonic() < began + 30:
            if time.monotonic() > pressed + 6 and not self.page.value(f"{by('save')}.disabled"):
                self.press("save")
                pressed = time.monotonic()
            if not self.has_form():
                return True
            told = self.text("told")
            if told and not told.startswith(("Waiting", "asking")) and (told != before or time.monotonic() > began + 3):
                return False
            time.sleep(0.03)
        raise AssertionError(f"'Save' comes to nothing: the form says {self.text('told')!r}")

    def press_twice(self, element):
        """Presses a button that asks once more, until the form is closed."""
        for _ in range(4):
            if not self.has_form():
                return True
            self.press(element)
            time.sleep(0.05)
        return self.within(lambda: not self.has_form(), 5)

    def is_settled(self):
        """Whether nothing is being sent: what waits for the crew's own wish isn't."""
        text, kind = self.state()
        listed = self.listed()
        held = any(BEHIND in it for it in listed)
        is_sending = (
            ("to send" in text and not held) or kind == "gone" or any("waits to be sent" in it for it in listed)
        )
        return text.startswith(STANDS) or not is_sending


# By the end of a file's name what is in it, but for blanks: a PDF and a sound by their heads, a line and a track.
FILES = {
    "pdf": b"%PDF-1.4\n",
    "wav": b"RIFF\0\0\0\0WAVEfmt ",
    "geojson": b'{"type":"Feature","geometry":{"type":"LineString","coordinates":[[9.005,50.552],[9.006,50.553]]},'
    b'"properties":{}}',
    "gpx": b'<gpx version="1.1" creator="day" xmlns="http://www.topografix.com/GPX/1/1"><trk><trkseg>'
    b'<trkpt lat="50.552" lon="9.005"/><trkpt lat="50.553" lon="9.006"/></trkseg></trk></gpx>',
}
LEAST_FILE = max(map(len, FILES.values()))


class World:
    """The browser and the first package, which all days share."""

    def __init__(self, folder, command):
        self.folder, self.command, self.profile = folder, command, folder / "profile"
        self.browser, self.days = None, itertools.count(1)
        self.first = folder / "first.mmpkg"
        new_package(self.first, content())
        take_in(self.first, folder / "page")
        expect(mmpkg("check", self.first), "package ok\n", "the check")

    def started(self):
        if self.browser is None:
            self.browser = browsers.start(self.command, self.profile)
        return self.browser

    def has_ended(self, seconds=2):
        """Whether the browser has ended, or does within seconds."""
        try:
            return self.browser is None or self.browser.process.wait(seconds) is not None
        except subprocess.TimeoutExpired:
            return False

    def kill_browser(self):
        if self.browser is not None:
            self.browser.kill()
        self.browser = None

    def close(self):
        if self.browser is not None:
            self.browser.__exit__()
        self.browser = None

    def photo(self, size):
        """A file with a picture of a size, which tells it from others; of no width another kind of so many bytes."""
        wide, high = size
        kind = "png" if wide else sorted(FILES)[high % len(FILES)]
        file = self.folder / f"{wide or high}.{kind}"
        if not file.exists():
            file.write_bytes(picture(*size, (wide % 256, 120, 60)) if wide else FILES[kind].ljust(high, b" "))
        return file

    def new_folder(self):
        folder = self.folder / f"day {next(self.days)}"
        folder.mkdir()
        return folder


def row_record(number, row):
    return record(["row", "spots", number, row.title, row.note, row.amount])
