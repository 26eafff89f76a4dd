"""All tables on the crew's map. Its checks are run by scripts/outside/crew/crew_page_check.py.

Rows of each table with a look of its own, which are switched on and off, tapped, searched and grouped; what marks tell
of a row; and the legend, on small screens and by night. Numbers are of the rows that each check makes.
"""

import json

from checks import expect
from crew_measure_checks import look
from crew_page_check import COVERED, LOOK_AS, NAMES, STONES, expect_quiet, focus, rows_of, send, with_rows

KINDS = ("Oak", "Elm", "Oak", "Ash")
DRAWN = "new Promise(good => requestAnimationFrame(() => requestAnimationFrame(() => good(true))))"
# How long a function takes until the browser has drawn, in milliseconds: the least of five times, since others work
# too.
TOOK = """(async act => {
  const took = [];
  for (let turn = 0; turn < 5; turn++) {
    const began = performance.now();
    act(turn);
    await new Promise(good => requestAnimationFrame(() => setTimeout(good)));
    took.push(performance.now() - began);
  }
  return Math.min(...took);
})"""


def place_of(tree):
    return 500_000 + tree * 389 % 1000, 5_600_000 + tree * 211 % 997


def with_owners(scene, count, **how):
    """A desk and its page, with so many rows at places in the table that isn't worked on, numbered from 1000 on."""
    places = [place_of(it) for it in range(count)]
    rows = [
        ("owners", 1000 + it, f"{KINDS[it % 4]} {it}", f"@25832:{east}/{north} by the way", it % 7)
        for it, (east, north) in enumerate(places)
    ]
    seat, crew = with_rows(scene, rows, **how)
    crew.page.wait(f"placed.length === {count + STONES}")
    return seat, crew


def middle_of(crew, key):
    """Where a mark is in the window, once it is drawn and alone there; the map is moved to it."""
    crew.value(
        f"map.setView(marked.get('{key}')?.mark.getLatLng() ?? placed.filter(it => it.key === '{key}').map(it =>"
        " [it.north, it.east])[0], 4, { animate: false }); 0"
    )
    crew.page.wait(DRAWN)
    at = f"map.latLngToContainerPoint(marked.get('{key}').mark.getLatLng()), byId('map').getBoundingClientRect()"
    return crew.value(f"((it, box) => [box.x + it.x, box.y + it.y])({at})")


def tap_mark(crew, key):
    crew.page.click(*middle_of(crew, key))


def choose(crew, element, value):
    crew.value(
        f"byId('{element}').value = '{value}'; byId('{element}').dispatchEvent(new Event('change', {{ bubbles: true"
        " })); 0"
    )


def switch_of(name):
    return f"([...byId('legend').querySelectorAll('input')].find(it => it.ariaLabel === 'On the map: {name}'))"


def legend_of(crew):
    return crew.value(
        "[...byId('legend').querySelectorAll('label > span')].map(it => `${it.firstChild.data} /"
        " ${it.lastChild.textContent}`)"
    )


def check_rows_of_all_tables(scene):
    """Rows of another table are on the map, of another colour and shape; a tap opens one in its table, which is worked
    on then, with the program gone too; what is typed isn't lost."""
    seat, crew = with_owners(scene, 40)
    looks = (
        "(keys => keys.map(it => [marked.get(it).mark.options.fillColor,"
        " JSON.stringify(marked.get(it).mark.options.corners)]))"
    )
    [colour, shape], [other, others] = crew.value(f"{looks}(['spots/5', 'owners/1007'])")
    assert colour != other and shape != others, f"{colour} {shape} and {other} {others}"
    expect(
        crew.value("[rows.showing, rows.found.length, marked.size]"),
        ["spots", STONES, 40 + STONES],
        "the table, its rows and the marks",
    )
    scene.screenshot(crew, "tables")
    tap_mark(crew, "owners/1007")
    crew.page.wait("form !== null && byId('thumbnails').ariaBusy === 'false'")
    found = crew.value(
        "[form.row.title, form.table, rows.showing, byId('book').value, byId('which').innerText, placed.length]"
    )
    expect(
        found, ["Ash 7", "owners", "owners", "owners", "Row 1007", 40 + STONES], "the form of a row of another table"
    )
    crew.write("title", "Ash seven")
    tap_mark(crew, "spots/5")
    crew.page.wait("byId('told').innerText !== ''")
    expect(
        crew.value("[byId('told').innerText, byId('book').value, rows.showing]"),
        ["Save or close this row first.", "owners", "owners"],
        "behind a tap elsewhere",
    )
    crew.save()
    crew.wait_until_it_stands()
    seat.kill()
    tap_mark(crew, "spots/5")
    crew.page.wait("form !== null && byId('thumbnails').ariaBusy === 'false'")
    expect(
        crew.value("[form.row.title, rows.showing, rows.found.length]"),
        ["Stone 5", "spots", STONES],
        "a row, with the program gone",
    )
    crew.write("note", "meanwhile")
    crew.save()
    crew.page.wait("marked.get('spots/5')?.mark.row.waits === 'waits'")
    choose(crew, "book", "owners")
    crew.page.wait("rows.showing === 'owners' && marked.get('spots/5')?.mark.row.waits === 'waits'")
    crew.press("fresh")
    expect(crew.value("byId('into').value"), "owners", "the table of a new row")
    crew.press("leave")
    seat.start()
    crew.wait_until_it_stands()
    crew.page.wait(
        "rows.showing === 'owners' && placed.length === 52 && placed.every(it => it.row.waits === undefined)"
    )
    expect_quiet(crew, "ERR_", "Failed to load resource")
    owners = rows_of(seat, "owners")
    expect(
        (owners[1007], len(owners)),
        (("Ash seven", "@25832:500723/5600480 by the way", 0), 41),
        "the row of another table",
    )
    expect(rows_of(seat)[5], ("Stone 5", "@25832:500350/5600300 meanwhile", 5), "the row")


def check_what_another_writes_in_a_table_beside(scene):
    """What another writes into a table that isn't worked on comes to the map; what this page saves there is on it at
    once."""
    _, crew = with_owners(scene, 4)
    expect(
        send(crew, "row,owners,1001,Elm 1,@25832:500101/5600102 moved,1\nrow,owners,3,Beech,@25832:500200/5600200,1\n"),
        "1 ok\n2 ok\n",
        "another's records",
    )
    crew.value("lookForNews().then(() => 0)")
    crew.page.wait(
        "marked.get('owners/3')?.mark.row.title === 'Beech' &&"
        " marked.get('owners/1001')?.mark.row.note.endsWith('moved')"
    )
    crew.press("fresh")
    choose(crew, "into", "owners")
    crew.fill(title="Lime", place=(500_400, 5_600_500))
    crew.save()
    mine = "[...marked.values()].find(it => it.mark.row.title === 'Lime')"
    crew.page.wait(f"{mine} !== undefined && {mine}.mark.table === 'owners'")
    crew.wait_until_it_stands()
    crew.page.wait(f"{mine} !== undefined && {mine}.mark.row.waits === undefined")
    expect(crew.value("[rows.showing, rows.found.length]"), ["spots", STONES], "the list")
    expect_quiet(crew)


def check_the_switch_of_a_table(scene):
    """A table is switched off and on by fingers and keys, which is kept; one that is off isn't asked for; that which is
    worked on stays."""
    _, crew = with_owners(scene, 40, width=390, height=844, touch=True)
    crew.value("byId('tabled').open = true; 0")
    expect(legend_of(crew), ["Owners / 40 on this map", f"Spots / {STONES} on this map, worked on"], "the legend")
    box, mine = switch_of("Owners"), switch_of("Spots")
    expect(
        crew.value(f"[{box}.checked, {box}.disabled, {mine}.checked, {mine}.disabled]"),
        [True, False, True, True],
        "the switches",
    )
    x, y = crew.value(
        "(it => { it.scrollIntoView({ block: 'center' }); const box = it.closest('label').getBoundingClientRect();"
        f" return [box.x + box.width / 2, box.y + box.height / 2]; }})({box})"
    )
    crew.page.touch([(x, y)])
    crew.page.wait(f"placed.length === {STONES} && !{box}.checked")
    expect(legend_of(crew)[0], "Owners / not shown", "the legend, switched off")
    crew.reload()
    crew.page.wait(f"placed.length === {STONES}")
    crew.value("readAlongside().then(() => 0)")
    asked = [it for it in crew.page.asked if "/rows/owners/" in it]
    expect(
        (len(asked), crew.value(f"{box}.checked")),
        (1, False),
        "how often its rows were asked for, and its switch behind that",
    )
    choose(crew, "book", "owners")
    crew.page.wait("rows.showing === 'owners' && placed.length === 52")
    choose(crew, "book", "spots")
    crew.page.wait(f"rows.showing === 'spots' && placed.length === {STONES}")
    crew.value(f"byId('tabled').open = true; {box}.focus(); 0")
    crew.page.press(" ")
    crew.page.wait(f"placed.length === 52 && {box}.checked && document.activeElement === {box}")
    expect_quiet(crew)


def check_a_search_thins_all_tables(scene):
    """The marks of all tables are those of rows that have the words that are searched for."""
    _, crew = with_owners(scene, 40)
    crew.write("search", "oak")
    crew.page.wait("placed.length === 20")
    expect(crew.value("placed.every(it => it.row.title.startsWith('Oak'))"), True, "the marks")
    expect(legend_of(crew), ["Owners / 20 on this map", "Spots / 0 on this map, worked on"], "the legend")
    crew.write("search", "stone 5")
    crew.page.wait("placed.length === 1 && placed[0].key === 'spots/5'")
    crew.write("search", "")
    crew.page.wait("placed.length === 52")
    expect_quiet(crew)


def check_marks_of_5000_rows_of_two_tables(scene):
    """5,000 rows are drawn as few marks, which leave the map to be seen, and how long that takes is told; those of the
    table that is worked on stay; a tap on a group goes nearer, down to marks of their own."""
    _, crew = with_owners(scene, 5000 - STONES)
    crew.page.wait(DRAWN)
    crew.value("fit(); 0")
    crew.page.wait(DRAWN)
    scene.screenshot(crew, "tables-5000")
    stones = "[...marked.keys()].filter(it => it.startsWith('spots/')).length"
    all_of = "[...marked.values()].reduce((sum, it) => sum + (parseInt(it.mark.words) || 1), 0)"
    marks, mine, whole, elements = crew.value(
        f"[marked.size, {stones}, {all_of}, document.querySelectorAll('*').length]"
    )
    expect((mine, whole), (STONES, 5000), "marks of the table that is worked on, and rows of all marks")
    assert marks <= 500 and elements <= 600, f"{marks} marks, {elements} elements"
    covered = crew.value(COVERED)
    assert 0 < covered < 0.2, f"marks cover {covered:.2f} of the map"
    crew.value("window.was = map.getCenter(); 0")
    took = {name: crew.value(f"{TOOK}({act})") for name, act in (
        ("all anew", "() => { marks.clearLayers(); marked = new Map(); showMarks(); }"),
        ("a search", "turn => { byId('search').value = turn % 2 ? 'oak' : ''; showFound(); }"),
        ("a move", "turn => map.panBy([turn % 2 ? 40 : -40, 20], { animate: false })"),
        ("a zoom", "turn => map.setZoom(1 + turn % 2, { animate: false })"))}  # fmt: skip
    print("    " + ", ".join(f"{name} {it:.0f} ms" for name, it in took.items()))
    crew.value("byId('search').value = ''; showFound(); fit(); 0")
    for _ in range(8):
        crew.page.wait(DRAWN)
        group = (
            "[...marked.values()].find(it => it.mark.words && map.getBounds().pad(-0.2).contains(it.mark.getLatLng()))"
        )
        where = crew.value(
            "(it => it ? ((at, box) => [box.x + at.x, box.y + at.y])(map.latLngToContainerPoint(it.mark.getLatLng()),"
            f" byId('map').getBoundingClientRect()) : null)({group})"
        )
        if where is None:
            break
        before = crew.value("map.getZoom()")
        crew.page.click(*where)
        crew.page.wait(f"map.getZoom() > {before}")
    expect(
        crew.value("[form, [...marked.values()].some(it => it.mark.words)]"),
        [None, False],
        "the form, and whether groups are left",
    )
    assert crew.value("marked.size") > 0, "no mark is left"
    expect_quiet(crew)


def check_what_marks_tell(scene):
    """Marks have a letter of the title's first word, or a digit of the amount's class, as the legend says; which of
    them is kept."""
    _, crew = with_owners(scene, 40)
    crew.value("byId('tabled').open = true; map.setView([5600360, 500420], 3, { animate: false }); 0")
    signs = "['owners/1000', 'owners/1001', 'spots/5'].map(it => placed.find(({ key }) => key === it).sign)"
    expect(crew.value(signs), ["", "", ""], "signs, at first")
    choose(crew, "tells", "word")
    crew.page.wait(f"{signs}.join() === 'O,E,S'")
    kinds = "[...byId('legend').querySelectorAll('.kinds li')].map(it => it.textContent)"
    expect(crew.value(kinds), ["OOak 20", "EElm 10", "AAsh 10", "SStone 12"], "the kinds in the legend")
    scene.screenshot(crew, "kinds")
    crew.reload()
    crew.page.wait(f"placed.length === 52 && {signs}.join() === 'O,E,S' && byId('tells').value === 'word'")
    choose(crew, "tells", "amount")
    crew.page.wait(f"{signs}[2] === '2'")
    classes = [it for it in crew.value(kinds) if it.startswith("1")]
    expect(classes, ["10 to 1 13", "11 to 3 3"], "the first classes of both tables")
    choose(crew, "tells", "")
    crew.page.wait(f"{signs}.join() === ',,'")
    expect_quiet(crew)


def check_the_legend_on_small_screens_and_by_night(scene):
    """The legend fits a phone and a tablet, is large enough for a finger, and stands out, by night too; its names are
    its own; keys reach it."""
    for wide, high in ((360, 740), (1024, 768)):
        _, crew = with_owners(scene, 40, width=wide, height=high, touch=True)
        for night in (False, True):
            if night:
                assert crew.value(f"{LOOK_AS}(['scheme: dark'])"), "the page has no rules for the night"
            crew.value(
                "byId('tabled').open = true, byId('tells').value = 'word', byId('tells').dispatchEvent(new"
                " Event('change')), byId('tabled').scrollIntoView(), 0"
            )
            look(scene, crew, "byId('tabled')", f"legend-{wide}{'-night' if night else ''}")
        expect(
            crew.value("byId('panel').scrollWidth <= byId('panel').clientWidth"), True, f"the panel fits {wide} pixels"
        )
    _, crew = with_owners(scene, 4)
    crew.value("byId('tabled').open = true; 0")
    names = crew.value(NAMES)
    expect([it for it in set(names) if not it or names.count(it) > 1], [], "names that are none, or of two")
    focus(crew.page, "tells")
    expect(
        json.dumps(crew.value("[...byId('tabled').querySelectorAll('svg')].every(it => it.ariaLabel)")),
        "true",
        "pictures have names",
    )
