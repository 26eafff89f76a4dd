"""The page in German, for a crew whose browser reads that. Its checks are run by
scripts/outside/crew/crew_page_check.py."""

import contextlib
import re

from checks import expect, new_package
import browsers
from crew_page import Crew, Seat
from crew_page_check import BASE, by_title, expect_quiet, rows_of, send, touch
from images import picture
from viewer_package import UTM, record, take_in

STANDS = "outbox.waiting.length === 0 && byId('state').innerText === 'alles ist im Paket'"
# What is to be seen or told to a screen reader: texts, what may be chosen, and what attributes say.
SAYS = """(() => {
  const walk = document.createTreeWalker(document.body, NodeFilter.SHOW_TEXT), found = [document.title];
  const isSeen = it => it.checkVisibility({ visibilityProperty: true });
  while (walk.nextNode()) {
    const of = walk.currentNode.parentElement;
    if (!of.matches('script, style') && isSeen(of.closest('select') ?? of)) found.push(walk.currentNode.data);
  }
  for (const name of ['title', 'aria-label', 'placeholder']) {
    for (const it of document.querySelectorAll(`[${name}]`)) if (isSeen(it)) found.push(it.getAttribute(name));
  }
  return [...new Set(found.map(it => it.trim().replace(/\\s+/g, ' ')).filter(it => /\\p{L}/u.test(it)))];
})()"""
# What has more text than room, or reaches over the screen's edge; not what is for screen readers alone.
CUT = """(() => {
  const pen = document.createElement('canvas').getContext('2d'),
    isSeen = it => it.checkVisibility({ visibilityProperty: true });
  const lists = [...document.querySelectorAll('select')].filter(it => isSeen(it) && it.value &&
    !['pyramids', 'into', 'book'].includes(it.id)).filter(it => {
    const { font, paddingLeft, paddingRight } = getComputedStyle(it), arrow = 16;
    pen.font = font;
    const room = it.clientWidth - parseFloat(paddingLeft) - parseFloat(paddingRight) - arrow;
    return pen.measureText(it.selectedOptions[0].text).width > room;
  });
  const all = 'button, label, legend, summary, p, h1, h2, h3, li, small, ' +
    'th, td, fieldset, aside, #state, #position span';
  const boxes = [...document.querySelectorAll(all)].filter(it => isSeen(it) &&
    it.id !== 'aloud' && !it.closest('.leaflet-control'));
  const isCut = it => it.clientWidth && it.scrollWidth > it.clientWidth + 1 ||
    it.getBoundingClientRect().right > innerWidth + 1
    || it.matches('button') && it.scrollHeight > it.clientHeight + 1;
  const words = it => `${it.id || it.localName}: ${(it.selectedOptions?.[0].text ?? it.innerText).slice(0, 60)}`;
  return [...[...boxes.filter(isCut), ...lists].map(words),
    ...document.documentElement.scrollWidth > innerWidth ? ['the page'] : []];
})()"""
ENGLISH = re.compile(
    r"\b(the|is|are|of|not|and|to|by|with|this|these|it|rows?|photos|saved?|changed|map|place|here|all|any|that)\b",
    re.IGNORECASE,
)
# What a browser and the program call things.
FOREIGN = re.compile(r"^(fotos|punkte|viewer|base|forms|fotos_zu_punkten), \w+$|^image/|^Map viewer\b")


def german_package(folder):
    """A package whose tables, fields and rows have German names."""
    tables = [
        ["table", "punkte", "attributes", "Punkte"],
        ["table", "fotos", "media", "Fotos"],
        ["table", "forms", "attributes", "Felder"],
        ["relation", "fotos_zu_punkten", "punkte", "fotos", "media"],
    ]
    rows = [
        ["row", "punkte", it, f"Stein {it}", f"@25832:{500_000 + 70 * it}/{5_600_000 + 60 * it} aus der Akte", it]
        for it in range(1, 7)
    ]
    fields = [
        ["row", "forms", 1, "punkte.art", "kind=choice choices=Grenzstein|Bolzen|Rohr label=Art wanted=yes", 1],
        ["row", "forms", 2, "punkte.sichtbar", "kind=yesno label=Sichtbar", 2],
    ]
    photo = [
        ["media", "fotos", 7, "image/png", picture(160, 120, (200, 60, 40)).hex()],
        ["map", "fotos_zu_punkten", 6, 7],
    ]
    system = record(["srs", 25832, "ETRS89 / UTM zone 32N", "EPSG", 25832, UTM, ""])
    file = folder / "karte.mmpkg"
    new_package(
        file,
        "".join(
            [system, BASE.records().replace("Base map", "Grundkarte"), *map(record, [*tables, *rows, *fields, *photo])]
        ),
    )
    take_in(file, folder / "page")
    return file


@contextlib.contextmanager
def reader_of(scene, language, **how):
    """A crew at a page whose browser reads a language, and its desk."""
    folder = scene.folder / f"german-{scene.count}"
    scene.count += 1
    folder.mkdir()
    seat = Seat(german_package(folder))
    scene.seats.append(seat)
    with browsers.start(scene.command, folder / "profile", language=language) as browser:
        yield seat, Crew(browser, seat.address, **how)


class Reader:
    """Who looks whether all that a crew's page says is German, and has its room."""

    def __init__(self, crew):
        self.crew = crew
        table = crew.value("Object.entries(GERMAN)")
        assert len(table) > 300, len(table)
        self.forms = [
            re.compile(re.sub(r"\\\{\d\\\}", ".+", re.escape(english)), re.DOTALL)
            for english, german in table
            if english != german
        ]

    def looks(self, when):
        says = [it for it in self.crew.value(SAYS) if not FOREIGN.search(it)]
        assert len(says) > 20, f"{when}: {says}"
        expect([it for it in says if any(form.fullmatch(it) for form in self.forms)], [], f"English phrases, {when}")
        expect([it for it in says if ENGLISH.search(it)], [], f"texts with English words, {when}")
        expect(self.crew.value(CUT), [], f"what is cut off, {when}")


def press_of_outbox(crew, words):
    crew.press(f"([...byId('outbox').querySelectorAll('button')].find(it => it.innerText.startsWith('{words}')))")


def unfold(crew):
    crew.value("for (const it of document.querySelectorAll('details')) it.open = true; 0")


def make_a_row(scene, crew, reader):
    """A new row at a tap with a photo, what the form says of what isn't right, and that it stands."""
    touch(crew, "fresh")
    crew.page.wait("form !== null && byId('thumbnails').ariaBusy === 'false'")
    reader.looks("in the form of a new row")
    crew.save()
    expect(
        crew.text("told"),
        "Bitte ansehen: Art. Noch einmal „Speichern“ drücken, wenn es stimmt.",
        "what is said of a choice that is wanted",
    )
    reader.looks("where a choice is wanted")
    crew.fill(title="Quelle", amount="1,5", place=(500_400, 5_600_500), photos=[scene.photo])
    for element, text in (("text", "unter der Eiche"), ("east", "500400,25"), ("north", "5600500,5")):
        crew.write(element, text)
    crew.press("([...byId('fields').querySelectorAll('button')].find(it => it.innerText === 'Bolzen'))")
    crew.press("([...byId('fields').querySelectorAll('button')].find(it => it.innerText === 'ja'))")
    crew.save()
    expect(
        crew.text("told"), "Die Menge ist eine ganze Zahl bis 10^15, ohne führende Nullen.", "what is said of an amount"
    )
    reader.looks("where the amount is none")
    crew.write("amount", "12")
    crew.save()
    crew.page.wait(f"form === null && {STANDS}")
    reader.looks("where all is in the package")


def meet_another(crew, reader):
    """A row that is refused, one that another changed meanwhile, and one that is joined."""
    row = "{ id: 900, title: 'Rohr', note: '', amount: 0 }"
    crew.value(
        f"post([{{ table: 'punkte', of: 900, row: {row}, what: 'Rohr', records: [['row', 'keine', 900, 'Rohr', '', 0]]"
        " }])"
    )
    crew.page.wait("byId('state').innerText === '1 abgelehnt'")
    expect(crew.waiting()[0].split(" / ")[1], "abgelehnt: der Eintrag: diese Tabelle gibt es nicht (25)", "what waits")
    reader.looks("where a row is refused")
    press_of_outbox(crew, "Ändern")
    crew.page.wait("form !== null")
    reader.looks("where a refused row is changed")
    crew.press("leave")
    for _ in range(2):
        press_of_outbox(crew, "Verwerfen")
    crew.page.wait(STANDS)
    crew.open("Stein 3")
    expect(send(crew, 'row,punkte,3,Stein drei,"@25832:500210/5600180 aus der Akte",3\n'), "1 ok\n", "another client")
    crew.fill(title="Stein III")
    crew.save()
    crew.save()
    crew.page.wait("byId('state').innerText === '1 inzwischen geändert'")
    reader.looks("where another has changed a row")
    press_of_outbox(crew, "Meins nehmen")
    crew.page.wait(STANDS)
    crew.open("Stein 4")
    expect(send(crew, 'row,punkte,4,Stein vier,"@25832:500280/5600240 aus der Akte",4\n'), "1 ok\n", "another client")
    crew.fill(amount=44)
    crew.save()
    crew.save()
    crew.page.wait("byId('state').innerText === 'alles ist im Paket, 1 zusammengeführt'")
    expect(
        crew.waiting()[0].split(" / ")[1],
        "im Paket, zusammengeführt: Titel wie anderswo geändert, das Übrige wie hier",
        "what is joined",
    )
    reader.looks("where a row is joined")
    press_of_outbox(crew, "Gesehen")
    crew.page.wait(STANDS)


def look_around(crew, reader):
    """What else the page has: what is unfolded, the ruler, a photo's row, and the report."""
    unfold(crew)
    reader.looks("where all is unfolded")
    crew.press("measure")
    for place in ((500_400, 5_600_500), (500_600, 5_600_500), (500_600, 5_600_700)):
        crew.value(f"measureAt({place[0]}, {place[1]}), 0")
    expect(crew.text("length"), "Strecke 400,0 m (zuletzt 200,0 m), Fläche 20\u202f000 m²", "what is measured")
    reader.looks("where it measures")
    crew.press("stop")
    crew.open("Stein 6")
    reader.looks("in the form of a row with a photo")
    crew.press("remove")
    expect(crew.text("remove"), "Entfernen: noch einmal drücken", "the button")
    crew.press("leave")
    crew.write("search", "Quelle")
    crew.press("reporter")
    crew.page.wait("byId('made').innerText === '1 Foto.'")
    reader.looks("in the report")
    crew.press("back")
    crew.write("search", "")


def lose_the_package(seat, crew, reader):
    """What is said where the package doesn't answer, and of what waits then."""
    seat.kill()
    touch(crew, "fresh")
    crew.page.wait("form !== null")
    crew.write("title", "Wartet")
    crew.press("([...byId('fields').querySelectorAll('button')].find(it => it.innerText === 'Rohr'))")
    crew.save()
    crew.page.wait("byId('state').innerText === 'das Paket antwortet nicht'")
    crew.page.wait(
        "byId('messages').innerText.startsWith('Das Paket antwortet nicht. Was hier gespeichert wird, behält dieser"
        " Browser')"
    )
    expect(crew.waiting(), ["Wartet / wartet auf das Senden"], "what waits")
    reader.looks("where the package doesn't answer")
    seat.again()
    crew.page.wait(f"byId('messages').innerText === '' && {STANDS}")


def check_a_day_in_german(scene):
    """A crew whose browser reads German has all of its day in German, with nothing cut off at 360 pixels; what stands
    is as in English."""
    with reader_of(scene, "de-DE,de,en", width=360, height=740, touch=True) as (seat, crew):
        expect(crew.value("document.documentElement.lang"), "de", "the page's language")
        reader = Reader(crew)
        crew.page.wait(STANDS)
        reader.looks("in the morning")
        scene.screenshot(crew, "german-morning")
        make_a_row(scene, crew, reader)
        meet_another(crew, reader)
        scene.screenshot(crew, "german-joined")
        look_around(crew, reader)
        lose_the_package(seat, crew, reader)
        for _ in range(2):
            crew.press("end")
        crew.page.wait("byId('state').innerText === 'Tag beendet: Paket geschlossen'")
        reader.looks("in the evening")
        scene.screenshot(crew, "german-evening")
        expect_quiet(crew, "ERR_", "NetworkError")
        rows = rows_of(seat, "punkte")
        number, rest = by_title(rows, "Quelle")
        expect(rest, ("@25832:500400.25/5600500.5 unter der Eiche art=Bolzen sichtbar=yes", 12), "the row")
        expect(rows[3], ("Stein III", "@25832:500210/5600180 aus der Akte", 3), "the row that both changed")
        expect(rows[4], ("Stein vier", "@25832:500280/5600240 aus der Akte", 44), "the row that was joined")


def check_the_language_of_the_browser(scene):
    """The first of a browser's languages that the page knows is spoken, else English."""
    seat = scene.seat()
    english, german = ["en", "Save", "all is in the package"], ["de", "Speichern", "alles ist im Paket"]
    for languages, wanted in ((["fr", "de-AT", "en"], german), (["en-GB", "de"], english), (["fr"], english)):
        crew = scene.crew(
            seat.address, before=f"Object.defineProperty(navigator, 'languages', {{ value: {languages} }})"
        )
        crew.page.wait("byId('state').innerText !== ''")
        expect(
            crew.value("[document.documentElement.lang, byId('save').innerText, byId('state').innerText]"),
            wanted,
            f"{languages}",
        )
