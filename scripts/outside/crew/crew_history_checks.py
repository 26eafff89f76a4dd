"""What a row was before. Its checks are run by scripts/outside/crew/crew_page_check.py.

Rows of the table 'history', related to rows that were changed, by docs/FORMATS.md, section 12: what a change writes,
cut at each line, joined, removed; what the form shows of it; and what comes home of two crews.
"""

import contextlib
import pathlib
import re
import shutil
import sqlite3
import tempfile
import time

from checks import TOP, expect, mmpkg, run
from crew_measure_checks import look
from crew_page import Seat
from crew_page_check import (
    Cutter,
    LOOK_AS,
    NAMES,
    count_of,
    expect_quiet,
    focus,
    outbox_shows,
    press_of_outbox,
    related_of,
    rows_of,
    send,
    touch,
)
from crew_who_checks import named
from viewer_package import take_in

LAID = "table,history,attributes,History\nrelation,spots_history,spots,history,simple_attributes\n"
STONE_3 = ("Stone 3", "@25832:500210/5600180 from the books", 3)
STONE_7 = ("Stone 7", "@25832:500490/5600420 from the books", 7)
SHOWN = "[...byId('versions').children].map(it => [...it.children].map(part => part.innerText))"


def laid_out(scene, more=""):
    """A package in which the office has laid the history out, with its page."""
    file = scene.copy()
    given = LAID + more
    answers = "".join(f"{at} ok\n" for at in range(1, given.count("\n") + 1))
    expect(mmpkg("run", file, given=given.encode()), answers, "the office's records")
    take_in(file, scene.folder / f"page-{scene.count}")
    seat = Seat(file)
    scene.seats.append(seat)
    return seat


def with_history(scene, more="", **how):
    seat = laid_out(scene, more)
    return seat, scene.crew(seat.address, **how)


def history_of(seat):
    """The rows of the history, the oldest first, each with the rows to which it is related; the desk is killed
    first."""
    rows = rows_of(seat, "history")
    query = "SELECT base_id FROM mm_map WHERE mapping = 'spots_history' AND related_id = ?"
    with contextlib.closing(sqlite3.connect(f"file:{seat.file}?mode=ro&immutable=1", uri=True)) as opened:
        related = {it: [base for (base,) in opened.execute(query, (it,))] for it in rows}
    return [(*rows[it], related[it]) for it in sorted(rows)]


def was(row, number, related=None):
    """A row as the history has it."""
    title, note, amount = row
    return (title, f"{note} of=spots/{number}".strip(), amount, [number] if related is None else related)


def open_past(crew, title):
    crew.open(title)
    crew.press("(byId('past').querySelector('summary'))")
    crew.page.wait("byId('past').open && ![\"\", \"asking ..\"].includes(byId('pasts').textContent)"
                   " || byId('versions').children.length > 0")  # fmt: skip


def check_a_row_that_is_changed_twice(scene):
    """Each change writes beside the row what that was before, related to it; a new row, photos alone and a form that is
    only opened write nothing of it; and the table is none to work on, nor on the map."""
    seat, crew = with_history(scene)
    choices = "[...byId('book').options, ...byId('into').options].map(it => it.value)"
    expect(crew.value(choices), ["owners", "spots"] * 2, "the tables to work on")
    crew.change("Stone 3", title="Stone three")
    crew.wait_until_it_stands()
    named(crew, "North 2")
    crew.change("Stone three", amount=33)
    crew.change("Stone 7", photos=[scene.photo])
    crew.new(title="New", note="oak", place=(500_400, 5_600_500))
    crew.open("Stone 5")
    crew.save()
    crew.wait_until_it_stands()
    expect(crew.value("[...legend.keys()].includes('history')"), False, "the history in the legend")
    expect_quiet(crew)
    rows = rows_of(seat)
    expect((rows[3][0], rows[3][2]), ("Stone three", 33), "the row")
    expect(history_of(seat), [was(STONE_3, 3), was(("Stone three", *STONE_3[1:]), 3)], "what it was")
    numbers = sorted(rows_of(seat, "history"))
    assert all(abs(it / 4096 - (time.time() - 1577836800) * 1000) < 600_000 for it in numbers), f"numbers {numbers}"
    crew.page.close()
    scene.pages.remove(crew.page)
    seat.start()
    crew = scene.crew(seat.address)
    crew.change("Stone three", title="Stone 3", note="from the books")
    crew.wait_until_it_stands()
    title, note, amount, related = history_of(seat)[2]
    wanted = r'@25832:500210/5600180 from the books by="North 2" at=[0-9T:-]+Z of=spots/3'
    expect((title, bool(re.fullmatch(wanted, note)), amount, related), ("Stone three", True, 33, [3]), f"who: {note}")


def check_a_change_cut_at_each_line(scene):
    """The program is killed before a change comes, in its body, and at each line: behind that the row stands, and what
    it was is there once."""
    for cut in ("before", "body", 0, 1, 2):
        seat = laid_out(scene)
        cutter = Cutter(seat)
        crew = scene.crew(cutter.address)
        cutter.cut = cut
        crew.change("Stone 3", title="Stone three", photos=[scene.photo])
        crew.page.wait("byId('state').className === 'gone'")
        seat.start()
        crew.wait_until_it_stands()
        expect_quiet(crew, "ERR_", "Failed to load resource")
        expect(rows_of(seat)[3], ("Stone three", *STONE_3[1:]), f"the row, cut at {cut}")
        expect(history_of(seat), [was(STONE_3, 3)], f"what it was, cut at {cut}")
        expect(len(related_of(seat, 3)), 1, f"its photo, cut at {cut}")


def check_a_change_whose_browser_ends(scene):
    """A page that is loaded again behind a cut answer sends the same list: what the row was is there once."""
    seat = laid_out(scene)
    cutter = Cutter(seat)
    crew = scene.crew(cutter.address)
    cutter.cut = 2
    crew.change("Stone 3", title="Stone three")
    crew.page.wait("byId('state').className === 'gone' && outbox.waiting[0]?.past")
    kept = crew.value("outbox.waiting[0].past.row.id")
    seat.start()
    crew.reload()
    crew.wait_until_it_stands()
    expect((history_of(seat), list(rows_of(seat, "history"))), ([was(STONE_3, 3)], [kept]), "what it was")


def check_a_change_that_another_met(scene):
    """What is kept is the row that is written over: as another has changed it, where both changes are joined, and where
    the crew takes its own side of what both changed."""
    seat, crew = with_history(scene)
    crew.open("Stone 3")
    crew.fill(title="Stone three")
    theirs = ("Stone 3", "@25832:500210/5600180 leaning", 3)
    expect(send(crew, f"row,spots,3,{','.join(map(str, theirs))}\n"), "1 ok\n", "another's change")
    crew.save()
    crew.page.wait("byId('state').innerText === 'all is in the package, 1 joined'")
    press_of_outbox(crew, "Seen")
    crew.open("Stone three")
    crew.fill(amount=33)
    other = ("Stone three", "@25832:500210/5600180 leaning", 34)
    expect(send(crew, f"row,spots,3,{','.join(map(str, other))}\n"), "1 ok\n", "another's change")
    crew.save()
    outbox_shows(crew, "changed meanwhile: you and another have changed the amount")
    press_of_outbox(crew, "Take mine")
    crew.wait_until_it_stands()
    expect_quiet(crew)
    expect(rows_of(seat)[3], ("Stone three", "@25832:500210/5600180 leaning", 33), "the row")
    expect(history_of(seat), [was(theirs, 3), was(other, 3)], "what it was")


def check_a_removal_and_what_was(scene):
    """A row that is removed leaves all that it was, also at last, related to nothing; a removal that is refused, or
    cut, leaves nothing twice."""
    seat = laid_out(scene)
    cutter = Cutter(seat)
    crew = scene.crew(cutter.address)
    crew.change("Stone 7", title="Stone seven")
    crew.change("Stone 9", amount=99)
    crew.wait_until_it_stands()
    cutter.cut = 1
    crew.remove("Stone seven")
    crew.page.wait("byId('state').className === 'gone'")
    seat.start()
    crew.wait_until_it_stands()
    crew.remove("Stone 9")  # to which an owner is related
    outbox_shows(crew, "something is still related to it (42)")
    crew.page.wait("outbox.waiting.length === 1 && outbox.waiting[0].refused")
    for _ in range(2):
        press_of_outbox(crew, "Throw away")
    crew.wait_until_it_stands()
    rows = rows_of(seat)
    expect((7 in rows, rows[9][2]), (False, 99), "the rows")
    stone_9 = ("Stone 9", "@25832:500630/5600540 from the books", 9)
    found = sorted(history_of(seat), key=lambda it: it[1:] + it[:1])
    wanted = [was(STONE_7, 7, []), was(("Stone seven", *STONE_7[1:]), 7, []), was(stone_9, 9)]
    expect(found, wanted, "what they were")
    expect(count_of(seat, "mm_media WHERE table_name = 'photos'"), 0, "photos")


def check_what_it_was_is_shown(scene):
    """The form tells what the row was, the newest first, with who and when, and what differs; one of it is taken into
    the form, and stands where that is saved."""
    seat, crew = with_history(scene)
    crew.open("Stone 3")
    expect(crew.value("byId('past').checkVisibility()"), True, "the offer")
    crew.press("leave")
    crew.change("Stone 3", note="leaning", place=(500_300, 5_600_700))
    named(crew, "North 2")
    crew.change("Stone 3", title="Stone three")
    crew.change("Stone three", amount=33)
    crew.wait_until_it_stands()
    open_past(crew, "Stone three")
    crew.page.wait("byId('versions').children.length === 3")
    shown = crew.value(SHOWN)
    expect(
        [it[1:-1] for it in shown],
        [["amount 3"], ["title Stone 3"], ["place @25832:500210/5600180", "note from the books"]],
        "what differs",
    )
    moments = [r"by North 2, [0-9-]{10} [0-9:]{5}", r"until [0-9-]{10} [0-9:]{5}", r"until [0-9-]{10} [0-9:]{5}"]
    assert all(re.fullmatch(wanted, it[0]) for wanted, it in zip(moments, shown)), shown
    scene.screenshot(crew, "what-it-was")
    crew.press("([...byId('versions').querySelectorAll('button')][2])")
    fields = "['title', 'note', 'amount', 'east', 'north'].map(it => byId(it).value)"
    expect(crew.value(fields), ["Stone 3", "from the books", "3", "500210", "5600180"], "the form")
    expect(crew.text("told"), "This is what it was before: Save has it stand again.", "what is said")
    crew.press("leave")
    expect(crew.text("leave"), "Close: press again", "the form holds what isn't saved")
    crew.save()
    crew.wait_until_it_stands()
    expect_quiet(crew)
    title, note, amount = rows_of(seat)[3]
    assert (title, amount) == STONE_3[::2] and note.startswith(f'{STONE_3[1]} by="North 2" at='), note
    expect([it[0] for it in history_of(seat)], ["Stone 3", "Stone 3", "Stone three", "Stone three"], "what it was")


def check_much_of_what_it_was(scene):
    """Of 50 versions the newest 20 are shown, and then 20 more; each of them stands behind others of the table, and a
    few requests bring them. A row of which nothing is kept says so."""
    lines = []
    for at in range(50):
        number = 1_000_000 + 100 * at
        lines += [
            f"row,history,{number},Stone 3,from the books of=spots/3,{1000 + at}",
            f"map,spots_history,3,{number}",
        ]
        lines += [f"row,history,{number + it},Other,of=spots/4,0" for it in range(1, 60)]
    seat, crew = with_history(scene, "".join(f"{it}\n" for it in lines))
    crew.value(
        "window.seen = 0, window.atOnce = asked, asked = (address, ...more) => "
        "{ seen += address.includes('/rows/history/'); return atOnce(address, ...more); }, 0"
    )
    open_past(crew, "Stone 3")
    for count, rest in ((20, 30), (40, 10), (50, 0)):
        crew.page.wait(f"byId('versions').children.length === {count}")
        expect(crew.value("byId('earlier').hidden"), rest == 0, f"more behind {count}")
        if rest:
            expect(crew.text("earlier"), f"Show what it was before these ({rest})", "the button")
            crew.press("earlier")
    amounts = crew.value("[...byId('versions').children].map(it => it.innerText.match(/amount (\\d+)/)?.[1])")
    expect([int(it) for it in amounts], [1049 - at for at in range(50)], "the newest first")
    assert crew.value("seen") <= 8, f"{crew.value('seen')} requests"
    crew.press("leave")
    open_past(crew, "Stone 5")
    expect(crew.text("pasts"), "Nothing is kept of what it was before.", "a row without history")
    seat.kill()
    crew.press("leave")
    open_past(crew, "Stone 3")
    crew.page.wait("byId('pasts').textContent === \"What it was isn't to be had now.\"")
    crew.press("leave")
    crew.press("fresh")
    expect(crew.value("byId('past').checkVisibility()"), False, "the offer of a new row")
    expect_quiet(crew, "ERR_", "Failed to load resource")


def check_what_it_was_with_fields_and_by_keys(scene):
    """What a row was is opened and taken by keys alone; its values are in the form's fields."""
    lines = [
        "table,forms,attributes,Forms",
        "row,forms,1,spots.kind,kind=choice choices=oak|elm,1",
        "row,spots,30,Tree,tall kind=oak,1",
    ]
    fields = "".join(f"{it}\n" for it in lines)
    seat, crew = with_history(scene, fields)
    crew.page.wait("allRowsOf('forms').length === 1")
    crew.open("Tree")
    crew.press("([...byId('fields').querySelectorAll('button')].find(it => it.ariaLabel === 'kind: elm'))")
    crew.save()
    crew.wait_until_it_stands()
    crew.open("Tree")
    focus(crew.page, "leave")
    crew.value("byId('past').querySelector('summary').focus(), 0")
    crew.page.press("Enter")
    crew.page.wait("byId('versions').children.length === 1")
    crew.page.press("Tab")
    expect(crew.value("document.activeElement.textContent"), "Take this", "the focus")
    crew.page.press("Enter")
    pressed = "[...byId('fields').querySelectorAll('[aria-pressed=true]')].map(it => it.ariaLabel)"
    expect(crew.value(f"[byId('text').value, {pressed}]"), ["tall", ["kind: oak"]], "the form")
    crew.save()
    crew.wait_until_it_stands()
    expect_quiet(crew)
    expect(rows_of(seat)[30], ("Tree", "tall kind=oak", 1), "the row")


def check_what_it_was_on_small_screens_and_by_night(scene):
    """What a row was fits a phone and a tablet, is large enough for a finger, stands out by night too, and has names of
    its own."""
    for wide, high in ((360, 740), (1024, 768)):
        lines = "".join(
            f"row,history,{it},Stone 3,from the books {'w' * 60},{it}\nmap,spots_history,3,{it}\n" for it in (70, 71)
        )
        _, crew = with_history(scene, lines, width=wide, height=high, touch=True)
        crew.value("byId('search').value = 'Stone 3', search(), byId('rows').querySelector('button').click(), 0")
        crew.page.wait("form !== null && byId('thumbnails').ariaBusy === 'false'")
        touch(crew, "past")
        crew.value("byId('past').open = true, 0")
        crew.page.wait("byId('versions').children.length === 2")
        for night in (False, True):
            if night:
                assert crew.value(f"{LOOK_AS}(['scheme: dark'])"), "the page has no rules for the night"
            look(scene, crew, "byId('edit')", f"what-it-was-{wide}{'-night' if night else ''}")
            expect(crew.value("byId('panel').scrollWidth <= byId('panel').clientWidth"), True, f"the panel fits {wide}")
        names = crew.value(NAMES)
        expect([it for it in set(names) if not it or names.count(it) > 2], [], "names that are none, or of many")


class Reader(Cutter):
    """Keeps the lists that come."""

    def __init__(self, seat):
        super().__init__(seat)
        self.lists = []

    def hand_on(self, connection, head, body):
        if head.startswith(b"POST"):
            self.lists.append(body.decode())
        return super().hand_on(connection, head, body)


def check_a_package_without_a_history(scene):
    """Where nothing is laid out a change and a removal are the lists that they ever were, byte for byte; and a table of
    that name that nothing leads to is worked on as any other."""
    file = scene.copy()
    expect(
        mmpkg("run", file, given=b"table,history,attributes,Own\nrow,history,1,Founded,,1899\n"),
        "1 ok\n2 ok\n",
        "the records",
    )
    take_in(file, scene.folder / f"page-{scene.count}")
    seat = Seat(file)
    scene.seats.append(seat)
    reader = Reader(seat)
    crew = scene.crew(reader.address)
    expect(crew.value("tables().map(it => it.table)"), ["history", "owners", "spots"], "the tables to work on")
    crew.change("Stone 3", title="Stone three")
    crew.wait_until_it_stands()
    crew.open("Stone three")
    expect(crew.value("byId('past').checkVisibility()"), False, "the offer")
    crew.press("leave")
    crew.remove("Stone 7")
    crew.wait_until_it_stands()
    crew.value("byId('book').value = 'history'; byId('book').dispatchEvent(new Event('change')); 0")
    crew.page.wait("rows.showing === 'history'")
    crew.change("Founded", amount=1898)
    crew.wait_until_it_stands()
    expect_quiet(crew)
    wanted = [
        "row,spots,3,Stone three,@25832:500210/5600180 from the books,3\n",
        "map-drop,spots_photos,7,7\nrow-drop,spots,7\n",
        "media-drop,photos,7\n",
        "row,history,1,Founded,,1898\n",
    ]
    expect(reader.lists, wanted, "the lists")


def do(file, text):
    expect(
        mmpkg("run", file, given=text.encode()),
        "".join(f"{at} ok\n" for at in range(1, text.count("\n") + 1)),
        "the records",
    )


def version_of(title, number, row):
    """The records by which a page changes a row of the books."""
    place = f"@25832:{500_000 + 70 * row}/{5_600_000 + 60 * row} from the books"
    past = f"row,history,{number},Stone {row},{place} of=spots/{row},{row}\nmap,spots_history,{row},{number}\n"
    return f"{past}row,spots,{row},{title},{place},{row}\n"


def check_histories_of_two_crews_come_home(scene):
    """What rows were comes home from two crews. Of a row that both changed the second's is there too, and its relation
    is named beside the row, and comes with that; the page shows once what both kept of one version."""
    seat = laid_out(scene)
    seat.kill()
    tools, crews = TOP / "tools", ("north", "south")
    with tempfile.TemporaryDirectory() as name:
        office = pathlib.Path(name) / "office.mmpkg"
        copy_of(seat.file, office)
        copies = [pathlib.Path(run(tools / "hand_out.py", office, it)[0].split(" is for ")[0]) for it in crews]
        for at, (crew, copy) in enumerate(zip(crews, copies)):
            do(copy, version_of(f"By {crew}", 9001 + at, 3) + version_of(f"Of {crew}", 9101 + at, 4 + at))
            printed, told = run(tools / "come_home.py", office, copy, status=at)
        named_ones = [it for it in told.splitlines() + printed.splitlines() if it.startswith("left out")]
        wanted = ["left out: row spots 3: both changed it",
                  "left out: map spots_history 3 9002: what it relates isn't there, or is a conflict"]  # fmt: skip
        expect(named_ones, wanted, "what is a conflict")
        (folder,) = pathlib.Path(f"{office}.crews").glob("south*.conflicts")
        run(tools / "come_home.py", office, "--theirs", folder)
        copy_of(office, seat.file)
    seat.start()
    crew = scene.crew(seat.address)
    for title, row in (("By south", 3), ("Of north", 4), ("Of south", 5)):
        open_past(crew, title)
        crew.page.wait("byId('versions').children.length === 1")
        expect([it[1:] for it in crew.value(SHOWN)], [[f"title Stone {row}", "Take this"]], "what is shown")
        crew.press("leave")
    expect_quiet(crew)
    wanted = [("Stone 3", [3]), ("Stone 3", [3]), ("Stone 4", [4]), ("Stone 5", [5])]
    expect([it[::3] for it in history_of(seat)], wanted, "what came home")


def copy_of(file, other):
    """Copies a package that no program has, with its journal where there is one."""
    for suffix in ("", "-wal"):
        pathlib.Path(f"{other}{suffix}").unlink(missing_ok=True)
        if pathlib.Path(f"{file}{suffix}").exists():
            shutil.copy(f"{file}{suffix}", f"{other}{suffix}")
