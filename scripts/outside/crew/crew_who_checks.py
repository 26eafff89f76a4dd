"""Who saved a row, and when. Its checks are run by scripts/outside/crew/crew_page_check.py."""

import contextlib
import datetime
import json
import re
import sqlite3
import time

from checks import TOP, expect, mmpkg, new_package, run
from crew_page_check import by_title, content, expect_quiet, rows_of, send
from viewer_package import record

SIGNED = re.compile(r'^(.*) by=("[^"]*"|[^ ]*) at=([0-9]{4}-[0-9]{2}-[0-9]{2}T[0-9]{2}:[0-9]{2}:[0-9]{2}Z)$')
SHOWN = "rows.found.map(it => it.title).sort().join()"


def named(crew, name):
    """Tells the crew's name."""
    crew.value("byId('who').open = true, 0")
    crew.write("signer", name)
    crew.page.press("Tab")
    crew.page.wait(f"crewName() === '{name}'")


def choose(crew, element, value):
    crew.value(
        f"byId('{element}').value = '{value}', byId('{element}').dispatchEvent(new Event('input', {{ bubbles: true"
        " })), 0"
    )


def signed(row):
    found = SIGNED.match(row[1])
    assert found, f"who saved it, and when: {row}"
    return found.groups()


def check_who_saved_a_row_and_when(scene):
    """A crew that told its name has it, with the moment, in each row that it saves, and in no other; without a name
    there is none."""
    seat, crew = scene.begin()
    expect(crew.text("whoever"), "Which crew is this?", "before a name is told")
    crew.new(title="Unsigned", note="oak")
    crew.wait_until_it_stands()
    began = int(time.time())
    named(crew, "North 2")
    expect(crew.text("whoever"), "Crew: North 2", "the name")
    crew.new(title="New", note="elm h=4", place=(500_400, 5_600_500))
    crew.change("Stone 5", amount=77)
    crew.open("Stone 6")
    crew.save()
    crew.open("Stone 7")
    crew.fill(photos=[scene.photo])
    crew.save()
    crew.wait_until_it_stands()
    ended = time.time()
    crew.open("Stone 5")
    expect(crew.value("byId('note').value"), "from the books", "the note in the form")
    crew.press("leave")
    line = "[...byId('rows').querySelectorAll('button')].find(it => it.firstChild.data === 'Stone 5').innerText"
    assert re.search(r"· by North 2, [0-9-]{10} [0-9]{2}:[0-9]{2}$", crew.value(line)), crew.value(line)
    scene.screenshot(crew, "who")
    expect_quiet(crew)
    rows = rows_of(seat)
    expect(by_title(rows, "Unsigned")[1][0], "oak", "a row of nobody")
    for title, rest in (
        ("New", "@25832:500400.0/5600500.0 elm h=4"),
        ("Stone 5", "@25832:500350/5600300 from the books"),
    ):
        found, by, at = signed(next(it for it in rows.values() if it[0] == title))
        moment = datetime.datetime.fromisoformat(at.replace("Z", "+00:00")).timestamp()
        assert began <= moment <= ended, f"{at} is not between {began} and {ended}"
        expect((found, by), (rest, '"North 2"'), f"the note of {title}")
    for number in (6, 7):
        expect(
            rows[number][1],
            f"@25832:{500_000 + 70 * number}/{5_600_000 + 60 * number} from the books",
            "a row that wasn't changed",
        )


def check_two_crews_with_names(scene):
    """Of two crews that changed other parts of a row both have theirs, and the row is the later one's; by= and at=
    alone are no change."""
    seat, one = scene.begin()
    named(one, "Ada")
    other = scene.crew(seat.address)
    named(other, "Ben")
    other.open("Stone 5")
    one.page.to_front()
    one.change("Stone 5", title="Stone five")
    one.wait_until_it_stands()
    other.page.to_front()
    other.fill(amount=55)
    other.save()
    other.page.wait("outbox.waiting.length === 0 && outbox.joinings.length === 1")
    other.press("byId('outbox').querySelector('button')")
    other.wait_until_it_stands()
    # Another client signs a row that a form has open: to the form it is as it was.
    other.open("Stone 4")
    expect(
        send(other, 'row,spots,4,Stone 4,"@25832:500280/5600240 from the books by=Cid at=2026-06-15T12:00:07Z",4\n'),
        "1 ok\n",
        "the other client",
    )
    other.fill(amount=44)
    other.save()
    other.wait_until_it_stands()
    expect(other.value("[outbox.joinings.length, outbox.waiting.length]"), [0, 0], "what is left to decide")
    expect_quiet(other)
    rows = rows_of(seat)
    expect(
        (rows[5][0], signed(rows[5])[:2], rows[5][2]),
        ("Stone five", ("@25832:500350/5600300 from the books", "Ben"), 55),
        "what two changed",
    )
    expect(
        (signed(rows[4])[:2], rows[4][2]), (("@25832:500280/5600240 from the books", "Ben"), 44), "what another signed"
    )


def check_rows_of_a_crew_of_a_kind_and_of_a_day(scene):
    """The list and the map have the rows of the crew, of the kind and of the day that are chosen alone; the search
    goes on in them."""
    seat, crew = scene.begin()
    lines = [
        "row,spots,31,One,oak by=Ada at=2026-06-15T12:00:07Z,0",
        "row,spots,32,Two,elm by=Ada at=2026-06-16T12:00:07Z,0",
        'row,spots,33,Three,"elm by=""Ben B"" at=2026-06-15T12:30:00Z",0',
        "row,spots,35,Stake A,by=Ada at=2026-06-17T12:00:07Z,0",
        'row,spots,36,"stake, B","by=""Ben B"" at=2026-06-17T12:30:00Z",0',
        "row,spots,34,Four,by=contractor oak,0",
    ]
    expect(send(crew, "\n".join([*lines, ""])), "1 ok\n2 ok\n3 ok\n4 ok\n5 ok\n6 ok\n", "the office's records")
    crew.value("readRows()")
    crew.page.wait("byId('crews').options.length === 3")
    expect(crew.value("[...byId('crews').options].map(it => it.text)"), ["all", "Ada", "Ben B"], "the crews")
    for crews, when, search, wanted in (
        ("Ada", "", "oak", "One"),
        ("Ada", "2026-06-15", "", "One"),
        ("", "2026-06-15", "", "One,Three"),
        ("", "2026-06-15", "elm", "Three"),
        ("Ben B", "2026-06-16", "", ""),
        ("", "", "contractor", "Four"),
    ):
        crew.value("byId('who').open = true, 0")
        choose(crew, "crews", crews)
        choose(crew, "when", when)
        crew.write("search", search)
        crew.page.wait(f"{SHOWN} === '{wanted}'")
        crew.page.wait("marked.size === rows.found.filter(it => placeIn(it.note)).length")
    for it in ("crews", "when"):
        choose(crew, it, "")
    crew.write("search", "")
    expect(crew.value("[...byId('like').options].map(it => it.text)"), ["all", "Stake", "Stone"], "the kinds")
    for like, crews, wanted in (("stake", "", "Stake A,stake, B"), ("stake", "Ada", "Stake A"), ("stone", "Ada", "")):
        choose(crew, "crews", crews)
        choose(crew, "like", like)
        crew.page.wait(f"{SHOWN} === '{wanted}'")
    for it in ("crews", "like"):
        choose(crew, it, "")
    crew.new(title="Today")
    crew.wait_until_it_stands()
    choose(crew, "when", crew.value("dayTold(new Date())"))
    crew.page.wait(f"{SHOWN} === 'Today'")
    expect_quiet(crew)


def check_who_and_when_at_the_border(scene):
    """The office's export has who and when as columns, and its import brings them in again so that the page knows
    them."""
    file, out, listed, again = (scene.folder / f"who{it}" for it in (".mmpkg", ".gpkg", ".csv", "-again.mmpkg"))
    notes = {
        101: "@25832:500500/5600500 oak by=Ada at=2026-06-15T12:00:07Z kind=oak",
        102: '@25832:500600/5600600 by="Ben B" at=2026-06-16T08:00:00Z girth=3',
    }
    new_package(
        file,
        content()
        + "".join(record(["row", "spots", number, f"Row {number}", note, 0]) for number, note in notes.items()),
    )
    run(TOP / "tools" / "export_standard.py", file, out, "--points", "spots", "--columns", "spots")
    with contextlib.closing(sqlite3.connect(out)) as opened:
        columns = opened.execute("SELECT title, by, at, kind, girth FROM spots WHERE id > 100 ORDER BY id").fetchall()
    wanted = [
        ("Row 101", "Ada", "2026-06-15T12:00:07Z", "oak", None),
        ("Row 102", "Ben B", "2026-06-16T08:00:00Z", None, 3),
    ]
    expect(columns, wanted, "columns of the office")
    run(TOP / "tools" / "import_standard.py", out, listed, "--columns", status=None)
    new_package(again)
    mmpkg("run", again, given=listed.read_bytes())
    with contextlib.closing(sqlite3.connect(f"file:{again}?mode=ro", uri=True)) as opened:
        found = dict(opened.execute("SELECT id, note FROM mm_rows WHERE table_name = 'spots' AND title LIKE 'Row 10_'"))
    _, crew = scene.begin()
    told = [crew.value(f"signatureIn({json.dumps(note)}).signature") for _, note in sorted(found.items())]
    expect(
        told,
        [{"by": "Ada", "at": "2026-06-15T12:00:07Z"}, {"by": "Ben B", "at": "2026-06-16T08:00:00Z"}],
        "behind the border",
    )
