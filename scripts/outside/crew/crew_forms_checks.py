"""Values to choose in the crew's forms. Its checks are run by scripts/outside/crew/crew_page_check.py.

Fields that the office lays out in the table 'forms', kept as words of the note, and read by the office's export; what
is odd about them, said once; and the first words that are common among titles. Words and columns are by
docs/FORMATS.md.
"""

import contextlib
import json
import re
import sqlite3

from checks import TOP, expect, run
from crew_measure_checks import look
from crew_page import MIDDLE
from crew_page_check import LOOK_AS, NAMES, by_title, expect_quiet, focus, rows_of, send, touch

FORM = '''table,forms,attributes,Forms
row,forms,1,spots.kind,"kind=choice choices=""stone|pipe|iron bar"" wanted=yes label=""Kind of mark""",1
row,forms,2,spots.state,kind=choice choices=good|leaning|gone,2
row,forms,3,spots.girth,kind=number unit=cm,3
row,forms,4,spots.checked,kind=yesno,4
row,forms,5,spots.seen_on,kind=date,5
row,forms,6,spots.by,who has seen it,6
row,forms,7,owners.phone,,1
row,forms,8,spots.wood,kind=choice choices=a|b|c|d|e|f|g|h|i,7
row,spots,30,Old 30,"@25832:500350/5600500 by the wall  kind=wood h=181.5",4
'''
LINES = "".join(f"{it} ok\n" for it in range(1, 11))
READ = "rows.showing === 'spots' && allRowsOf('forms').length === 8"


def with_form(scene, **how):
    """A desk and its page, with a form that the office has laid out, and a row from before that."""
    seat, crew = scene.begin(**how)
    expect(send(crew, FORM), LINES, "the office's records")
    crew.reload()
    crew.page.wait(READ)
    return seat, crew


def chip(label, choice):
    return f"([...byId('fields').querySelectorAll('button')].find(it => it.ariaLabel === '{label}: {choice}'))"


def field(name):
    return f"(byId('why-{name}').parentElement.querySelector('input, select'))"


def type_into(crew, name, text):
    crew.value(f"{field(name)}.focus(), {field(name)}.select?.(), 0")
    crew.page.type(text)


def touch_until(crew, element, holds):
    """Touches what an expression names, in its middle, and waits for what comes of it."""
    crew.page.touch([tuple(crew.value(f"({MIDDLE})({element})"))])
    crew.page.wait(holds)


def begin_new(crew):
    crew.press("fresh")
    crew.page.wait("form !== null && form.fresh && byId('thumbnails').ariaBusy === 'false'")


def said_of(crew):
    """What is said beside fields."""
    return crew.value("[...byId('fields').querySelectorAll('small')].map(it => it.textContent).filter(it => it)")


def check_a_row_by_taps_alone(scene):
    """A row with its title, kind, state and whether it was checked is made by taps alone; its values are words of its
    note, columns of the office's export, and pressed when the form is open again."""
    seat, crew = with_form(scene, width=390, height=844, touch=True)
    touch(crew, "fresh")
    crew.page.wait("form !== null && byId('thumbnails').ariaBusy === 'false'")
    crew.tap(500_400, 5_600_500)
    crew.page.wait("byId('east').value !== ''")
    touch_until(
        crew, "([...byId('titles').children].find(it => it.textContent === 'Stone'))", "byId('title').value === 'Stone'"
    )
    for label, choice in (("Kind of mark", "iron bar"), ("state", "leaning"), ("state", "good"), ("checked", "yes")):
        touch_until(crew, chip(label, choice), f"{chip(label, choice)}.ariaPressed === 'true'")
    touch_until(crew, "byId('save')", "byId('edit').hidden")
    crew.wait_until_it_stands()
    crew.open("Stone")
    pressed = "[...byId('fields').querySelectorAll('[aria-pressed=true]')].map(it => it.ariaLabel)"
    expect(crew.value(pressed), ["Kind of mark: iron bar", "state: good", "checked: yes"], "what is pressed")
    scene.screenshot(crew, "fields")
    crew.press("leave")
    expect_quiet(crew)
    number, (note, amount) = by_title(rows_of(seat), "Stone")
    place, words = note.split(" ", 1)
    expect(
        (place.startswith("@25832:5004"), words, amount), (True, 'kind="iron bar" state=good checked=yes', 0), "the row"
    )
    out = scene.folder / f"office-{scene.command}.gpkg"
    run(TOP / "tools" / "export_standard.py", seat.file, out, "--points", "spots", "--columns", "spots")
    with contextlib.closing(sqlite3.connect(out)) as opened:
        found = opened.execute("SELECT kind, state, checked FROM spots WHERE id = ?", (number,)).fetchone()
    out.unlink()
    expect(found, ("iron bar", "good", "yes"), "the columns of the office's export")


def check_a_place_of_the_device_beside_fields(scene):
    """What the device told of a place stays in the note, whether it is taken before a value is chosen or behind that;
    another place takes it out, and leaves the values."""
    seat, crew = with_form(scene)
    crew.page.device_is_at(9.005, 50.552, 4)
    crew.page.wait("!byId('here').hidden")

    def take_here():
        crew.press("here")
        crew.page.wait("byId('told').innerText.startsWith('The device tells this place within 4 m')")

    for title, acts in (
        ("Before", [take_here, lambda: crew.press(chip("Kind of mark", "stone"))]),
        ("Behind", [lambda: crew.press(chip("Kind of mark", "stone")), take_here]),
        (
            "Elsewhere",
            [take_here, lambda: crew.press(chip("Kind of mark", "stone")), lambda: crew.write("east", "500400")],
        ),
    ):
        begin_new(crew)
        crew.fill(title=title)
        crew.write("text", "under the oak")
        for act in acts:
            act()
        crew.save()
        crew.page.wait("byId('edit').hidden")
    crew.wait_until_it_stands()
    expect_quiet(crew)
    rows = rows_of(seat)
    found = [re.sub("age=[0-9]+", "age=0", by_title(rows, title)[1][0]) for title in ("Before", "Behind", "Elsewhere")]
    # By gdaltransform -s_srs EPSG:4258 -t_srs EPSG:25832.
    wanted = [
        "@25832:500354.22/5600007.53 under the oak acc=4 age=0 kind=stone",
        "@25832:500354.22/5600007.53 under the oak kind=stone acc=4 age=0",
        "@25832:500400/5600007.53 under the oak kind=stone",
    ]
    expect(found, wanted, "the notes")


def check_what_is_odd_about_fields(scene):
    """What is odd about a field is said beside it, and Save pressed again saves it; a number has a comma too; a row
    that was before the form keeps what the form doesn't know, and all of it letter by letter where nothing is changed.
    """
    seat, crew = with_form(scene)
    begin_new(crew)
    crew.write("title", "Odd")
    type_into(crew, "girth", "thick")
    crew.save()
    expect(crew.text("told"), "Look at: Kind of mark, girth. Press Save again if that is right.", "what is said")
    expect(said_of(crew), ["This is wanted.", "This is no number."], "what is said beside the fields")
    expect(crew.value("document.activeElement.ariaLabel"), "Kind of mark: stone", "the focus")
    tied = (
        f"[{field('girth')}.getAttribute('aria-invalid'),"
        f" byId({field('girth')}.getAttribute('aria-describedby')).innerText]"
    )
    expect(crew.value(tied), ["true", "This is no number."], "what a screen reader tells of the field")
    crew.press(chip("Kind of mark", "stone"))
    expect(said_of(crew), ["This is no number."], "what is said behind a choice")
    crew.save()
    crew.wait_until_it_stands()
    begin_new(crew)
    crew.write("title", "Right")
    crew.press(chip("Kind of mark", "pipe"))
    type_into(crew, "girth", "2,50")
    crew.value(
        f"{field('seen_on')}.value = '2026-06-15', {field('seen_on')}.dispatchEvent(new Event('input', {{ bubbles: true"
        " })), 0"
    )
    crew.value(
        f"{field('wood')}.value = 'i', {field('wood')}.dispatchEvent(new Event('change', {{ bubbles: true }})), 0"
    )
    type_into(crew, "by", "Ada B")
    crew.write("text", "by the road")
    crew.save()
    expect(crew.value("byId('edit').hidden"), True, "the form, with nothing odd")
    crew.wait_until_it_stands()
    crew.open("Old 30")
    expect(
        crew.value("[byId('text').value, form.first.note]"),
        ["by the wall  h=181.5", "by the wall  kind=wood h=181.5"],
        "the text",
    )
    expect(crew.value(f"{chip('Kind of mark', 'wood')}?.ariaPressed"), "true", "a value that is none of the choices")
    crew.save()
    expect(crew.value("[byId('edit').hidden, outbox.waiting.length]"), [True, 0], "a row that isn't changed")
    crew.open("Old 30")
    crew.write("amount", "5")
    crew.save()
    expect(said_of(crew), ["This is none of the choices."], "what is said of a value from before")
    crew.save()
    crew.wait_until_it_stands()
    expect_quiet(crew)
    rows = rows_of(seat)
    expect(by_title(rows, "Odd")[1], ("kind=stone girth=thick", 0), "an odd row")
    expect(
        by_title(rows, "Right")[1],
        ('by the road kind=pipe girth=2.5 seen_on=2026-06-15 by="Ada B" wood=i', 0),
        "a right one",
    )
    expect(rows[30], ("Old 30", "@25832:500350/5600500 by the wall  kind=wood h=181.5", 5), "the row from before")


def check_fields_that_are_not_saved(scene):
    """What is chosen and not saved is there again when the page is loaded again; another choice takes its place, and a
    press on it takes it back; so do fields that the office lays out meanwhile."""
    seat, crew = with_form(scene)
    begin_new(crew)
    crew.write("title", "Half")
    crew.press(chip("Kind of mark", "pipe"))
    crew.write("text", "under the oak")
    kept = "it.result?.values[FIELDS.indexOf('note')] === 'under the oak kind=pipe'"
    crew.page.wait(
        f"new Promise(good => {{ const it = drafts('relaxed').get(tab); it.onsuccess = () => good({kept}); }})"
    )
    crew.reload()
    crew.page.wait(f"form !== null && {READ} && byId('fields').querySelector('[aria-pressed=true]') !== null")
    expect(
        crew.value("[byId('title').value, byId('text').value, byId('note').value]"),
        ["Half", "under the oak", "under the oak kind=pipe"],
        "the form",
    )
    expect(send(crew, "row,forms,9,spots.depth,kind=number unit=m,0\n"), "1 ok\n", "another field")
    crew.value("lookForNews().then(() => 0)")
    crew.page.wait("byId('why-depth') !== null")
    expect(
        crew.value(f"[byId('text').value, {chip('Kind of mark', 'pipe')}.ariaPressed]"),
        ["under the oak", "true"],
        "the form with another field",
    )
    crew.press(chip("Kind of mark", "pipe"))
    crew.press(chip("Kind of mark", "stone"))
    type_into(crew, "depth", "0,8")
    crew.save()
    crew.wait_until_it_stands()
    expect_quiet(crew)
    expect(by_title(rows_of(seat), "Half")[1], ("under the oak depth=0.8 kind=stone", 0), "the row")


def check_fields_by_keys(scene):
    """Fields are reached and set by keys; those of another table come when that is chosen, and what was typed stays."""
    seat, crew = with_form(scene)
    page = crew.page
    focus(page, "fresh")
    page.press("Enter")
    focus(page, "title")
    page.type("Keys")
    for _ in range(10):
        page.press("Tab")
        if page.value("document.activeElement.ariaLabel === 'Kind of mark: pipe'"):
            break
    page.press(" ")
    expect(crew.value("byId('note').value"), "kind=pipe", "the note behind a key")
    focus(page, "save")
    crew.value("byId('into').value = 'owners', byId('into').dispatchEvent(new Event('change', { bubbles: true })), 0")
    expect(
        crew.value("[byId('text').value, byId('fields').children.length]"),
        ["kind=pipe", 1],
        "the form of a table with another field",
    )
    type_into(crew, "phone", "12 34")
    crew.save()
    crew.wait_until_it_stands()
    expect_quiet(crew)
    expect(by_title(rows_of(seat, "owners"), "Keys")[1], ('kind=pipe phone="12 34"', 0), "the row")


def check_a_form_without_fields(scene):
    """Where nothing is laid out the form has its note, and no fields; a new row is offered common first words, which a
    tap puts into its title."""
    seat, crew = scene.begin()
    expect(
        send(crew, "row,spots,31,Oak 1,,0\nrow,spots,32,oak 2,,0\nrow,spots,33,Elm,,0\n"),
        "1 ok\n2 ok\n3 ok\n",
        "the office's records",
    )
    crew.value("readRows()")
    crew.page.wait("rows.stood.has(33)")
    begin_new(crew)
    seen = "['note', 'text', 'fields', 'titles'].map(it => byId(it).checkVisibility())"
    expect(crew.value(seen), [True, False, False, True], "note, text, fields and words")
    expect(crew.value("[...byId('titles').children].map(it => it.textContent)"), ["Stone", "Oak"], "common words")
    crew.write("title", "7")
    crew.press("([...byId('titles').children][0])")
    expect(crew.value("byId('title').value"), "Stone 7", "the title")
    crew.press("([...byId('titles').children][1])")
    crew.write("note", "a word kind=oak")
    crew.save()
    crew.wait_until_it_stands()
    crew.open("Elm")
    expect(crew.value(seen), [True, False, False, False], "in the form of a row that is there")
    expect_quiet(crew)
    expect(by_title(rows_of(seat), "Oak 7")[1], ("a word kind=oak", 0), "the row")


def check_fields_on_small_screens_and_by_night(scene):
    """A form with fields fits a phone and a tablet, is large enough for a finger, and stands out, by night too; its
    names are its own."""
    for wide, high in ((360, 740), (1024, 768)):
        _, crew = with_form(scene, width=wide, height=high, touch=True)
        touch(crew, "fresh")
        crew.page.wait("form !== null && byId('thumbnails').ariaBusy === 'false'")
        crew.press(chip("state", "good"))
        for night in (False, True):
            if night:
                assert crew.value(f"{LOOK_AS}(['scheme: dark'])"), "the page has no rules for the night"
            crew.value("areFieldsDoubted(), 0")
            look(scene, crew, "byId('edit')", f"fields-{wide}{'-night' if night else ''}")
            expect(
                crew.value("byId('panel').scrollWidth <= byId('panel').clientWidth"),
                True,
                f"the panel fits {wide} pixels",
            )
        names = crew.value(NAMES)
        expect([it for it in set(names) if not it or names.count(it) > 1], [], "names that are none, or of two")
        expect(
            json.dumps(
                crew.value(
                    "[...byId('fields').querySelectorAll('fieldset')].every(it =>"
                    " it.querySelector('legend').textContent)"
                )
            ),
            "true",
            "groups have names",
        )
