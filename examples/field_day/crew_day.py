#!/usr/bin/env python3
"""A crew's day at the page of its package, in headless Chromium: rows are added, changed and removed by the page's
own forms.

    crew_day.py work NAME FILE TERRAIN.asc SEED OUT.json     of the crew north or south; OUT.json has what stands in the end, by title
    crew_day.py look FILE TITLE OUT.png                      the page at 1180 by 800, with the form of a row
    crew_day.py compare SEEN.csv JSON..                      what GDAL sees as points with columns, with what the crews wrote

'work' opens FILE by tools/crew.py. The crew tells its name, chooses in the fields that the office laid out, takes a PDF
and a sound into forms, and has the device tell the place of its first new row. The program is killed five times, a
moment after a row was saved, and started again by crew.py; the browser is killed once, and started again with what it
keeps. In the end all that was saved stands, once, and 'End the day' closes the package.
"""

import contextlib
import csv
import json
import os
import pathlib
import random
import signal
import subprocess
import sys
import tempfile
import time

TOP = pathlib.Path(__file__).resolve().parents[2]
sys.path[:0] = [str(TOP / "tools"), str(TOP / "scripts" / "outside" / "lib")]
import devtools  # noqa: E402
import land  # noqa: E402
import note_words  # noqa: E402
from checks import free_port  # noqa: E402
from crew_page import Crew  # noqa: E402

BROWSER = "chromium"
KILLS = 5
NEW_SPOTS, PHOTOS = 10, 3
COLUMNS = ("acc", "h", "age", *land.FIELDS, "by", "at")


@contextlib.contextmanager
def opened(file):
    """A package that tools/crew.py has opened: its process, and the address of the desk."""
    words = [TOP / "tools" / "crew.py", file, "--port", str(free_port()), "--no-browser"]
    running = subprocess.Popen(["timeout", "600", *words], stdout=subprocess.PIPE, text=True)
    try:
        address = next(line.split()[-1] for line in running.stdout if line.startswith("The page is http"))
        yield running, address.split("#")[0].removesuffix("/media/viewer/1")
    finally:
        with contextlib.suppress(ProcessLookupError):
            running.send_signal(signal.SIGTERM)
        running.communicate()


def children(pid):
    return [int(it) for it in pathlib.Path(f"/proc/{pid}/task/{pid}/children").read_text(encoding="ascii").split()]


def kill_program(running):
    """Kills the desk that crew.py runs, where it runs."""
    for it in (child for launcher in children(running.pid) for child in children(launcher)):
        with contextlib.suppress(ProcessLookupError):
            os.kill(it, signal.SIGKILL)


def acts_of(name, terrain, folder):
    """What a crew does, one act behind another: a word, a title, and what it fills in."""
    first, stones = land.CREWS[name]
    way = list(land.walk(land.PATHS[name]))
    photo, good = folder / "photo.png", {"condition": "good"}
    files = {0: folder / "sheet.pdf", 1: folder / "words.wav"}
    files[0].write_bytes(land.paper(f"Boundary stone {stones[0]}"))
    files[1].write_bytes(land.sound())
    for number, it in enumerate(stones):
        place = land.STONES[it - 1]
        photos = [folder / f"{it}.png"] if number < PHOTOS else []
        for file in photos:
            file.write_bytes(land.view(terrain, place))
            photo = file
        photos += [files[number]] if number in files else []
        yield "change", f"Boundary stone {it}", {"note": f"found by the {name} crew", "amount": land.decimetres(terrain, place), "photos": photos,
                                                 "values": land.values_of(it)}  # fmt: skip
    yield "change", "Boundary stone 7", {
        "note": f"seen from the {name}",
        "amount": 2300 + first // 20,
        "values": {"condition": "leaning"},
    }
    for it in range(NEW_SPOTS):
        place = way[len(way) * it // NEW_SPOTS + 3]
        there = (land.LEFT + round(place[0]), land.BOTTOM + round(place[1]))
        what = {
            "note": f"on the way {name}",
            "amount": land.decimetres(terrain, place),
            "photos": [photo] if it == 0 else [],
            "values": good,
        }
        yield "new", f"{land.FINDS[it % 6]} {name} {it + 1}", what | {"device" if it == 0 else "place": there}
    yield "new", f"A slip of {name}", {"place": (land.LEFT + 1000, land.BOTTOM + 1000), "values": good}
    yield "remove", f"A slip of {name}", {}
    yield "remove", f"Boundary stone {stones[-1]}", {}


def do(crew, act):
    """Does an act by the page's forms."""
    word, title, what = act
    if word == "remove":
        crew.remove(title)
        return
    if word == "change":
        crew.open(title)
    else:
        crew.press("fresh")
        crew.page.wait("form !== null && form.fresh")
    crew.fill(**{it: what[it] for it in ("amount", "place", "photos") if it in what}, title=title)
    if "note" in what:
        crew.write("text", what["note"])
    for name, value in what.get("values", {}).items():
        fill_field(crew, name, value)
    if "device" in what:
        take_place(crew, *what["device"])
    crew.save()
    assert crew.text("told") == "", crew.text("told")


def fill_field(crew, name, value):
    """Chooses a value of a field by its button, or writes it."""
    label = name.capitalize()
    there = f"[...byId('fields').children].find(it => it.firstChild.textContent.startsWith('{label}'))"
    if crew.value(f"{there}.matches('fieldset')"):
        crew.press(f"([...{there}.querySelectorAll('button')].find(it => it.innerText === '{value}'))")
        return
    crew.value(f"{there}.querySelector('input').focus(), {there}.querySelector('input').select(), 0")
    crew.page.type(value)


def take_place(crew, east, north):
    """Takes the device's place into the form, which is at a place of the map, within four metres."""
    at = crew.value(f"degreesOf(rows.systems[shown.srs_id], {east}, {north})")
    crew.page.device_is_at(at["longitude"], at["latitude"], 4)
    crew.press("here")
    crew.page.wait("byId('told').innerText.startsWith('The device tells this place within 4 m')")


def related_to(crew, number):
    """How many files a row has, by the package: asked again where a busy machine let the desk close a connection."""
    crew.page.wait(f"ask(`${{ROOT}}related/spots/{number}`, 'json').then(it => (window.related = it) !== null)")
    return crew.value("related.length")


def work(name, file, terrain, seed, out):
    dice = random.Random(int(seed))
    with tempfile.TemporaryDirectory() as folder, opened(file) as (running, address):
        folder = pathlib.Path(folder)
        acts = list(acts_of(name, land.read_terrain(terrain), folder))
        kills, dark = set(dice.sample(range(len(acts)), KILLS)), dice.randrange(3, len(acts) - 3)
        browser, crew = start(folder, address, name)
        for number, act in enumerate(acts):
            do(crew, act)
            time.sleep(dice.random() * 0.03 if number in kills else 0)
            if number in kills:
                kill_program(running)
            if number == dark:
                browser.kill()
                wait_for(address, running)
                browser, crew = start(folder, address, name)
        crew.wait_until_it_stands(60)
        rows = crew.value("rowsNow().map(it => [it.id, it.title, it.note, it.amount])")
        stand = crew.value(
            "ask(`${ROOT}rows/spots/1`, 'json').then(all => all.map(it => [it.id, it.title, it.note, it.amount]))"
        )
        assert sorted(rows) == sorted(stand), f"the page shows {sorted(rows)}, and the package has {stand}"
        related = {row[1]: related_to(crew, row[0]) for row in rows}
        for _ in range(2):
            crew.press("end")
        crew.page.wait("ended")
        browser.__exit__()
        status = running.wait(60)
    found = {row[1]: [*row[2:], related[row[1]]] for row in rows}
    assert status == 0, f"crew.py ended with {status}"
    assert len(found) == len(rows), "a row stands twice"
    pathlib.Path(out).write_text(json.dumps(found, indent=1), encoding="utf-8")
    tell(name, acts, found)


def wait_for(address, running):
    """Waits until the desk answers."""
    assert running.poll() is None, "crew.py has ended"
    for _ in range(200):
        if subprocess.run(["curl", "-sf", "-o", "/dev/null", f"{address}/contents"], check=False).returncode == 0:
            return
        time.sleep(0.1)
    raise AssertionError("the desk doesn't answer")


def start(folder, address, name):
    browser = devtools.Browser(BROWSER, folder / "profile")
    crew = Crew(browser, address, kept=True, width=1080, height=720)
    crew.value("byId('who').open = true, 0")
    crew.write("signer", name.title())
    crew.page.press("Tab")
    crew.page.wait(f"crewName() === '{name.title()}'")
    crew.value("byId('who').open = false, 0")
    return browser, crew


def tell(name, acts, found):
    """Says what was done, and fails where something of it doesn't stand."""
    gone = {title for word, title, _ in acts if word == "remove"}
    for word, title, what in acts:
        if title in gone:
            assert title not in found, f"{title} stands"
            continue
        note, amount, photos = found[title]
        _, words, text = parts_of(note)
        wanted = what["values"] | {"by": name.title()} | ({"acc": "4", "age": "0"} if "device" in what else {})
        assert (text, amount) == (what["note"], what["amount"]), f"{title}: {found[title]}"
        assert words.pop("at").startswith("20") and words == wanted, f"{title}: {words}"
        assert photos >= len(what.get("photos", [])), f"{title}: {photos} photos"
    words = [word for word, _, _ in acts]
    print(
        f"the crew in the {name}: {words.count('new')} rows added, {words.count('change')} changed, {words.count('remove')} removed; "
        f"the program was killed {KILLS} times, the browser once; all stands, each once"
    )


def parts_of(note):
    """The place of a note, its words, and its text."""
    place, _, rest = note.partition(" ")
    return [float(it) for it in place.removeprefix("@25832:").split("/")], *note_words.columns_in(rest)


def look(file, title, out):
    """The page with the form of a row, and its photo."""
    with contextlib.ExitStack() as stack:
        _, address = stack.enter_context(opened(file))
        profile = stack.enter_context(tempfile.TemporaryDirectory())
        browser = stack.enter_context(devtools.Browser(BROWSER, pathlib.Path(profile) / "profile"))
        crew = Crew(browser, address, width=1180, height=800)
        crew.page.wait("!document.querySelector('img.leaflet-tile:not(.leaflet-tile-loaded)')")
        crew.open(title)
        crew.write("search", "")
        crew.page.wait("marked.size > 10")
        crew.page.wait("byId('thumbnails').querySelector('img')?.naturalWidth > 0")
        crew.value(
            "byId('map').classList.remove('centre'); byId('edit').scrollIntoView({ block: 'end' }); document.activeElement.blur(); 0"
        )
        crew.value("new Promise(done => requestAnimationFrame(() => requestAnimationFrame(() => done(1))))")
        pathlib.Path(out).write_bytes(crew.page.screenshot())


def compare(seen, *told):
    """Each row that GDAL sees is a point where a crew that has it so left it, with the words of its note as columns;
    and each row that both crews have is seen."""
    with open(seen, encoding="utf-8", newline="") as it:
        points = {row["title"]: row for row in csv.DictReader(it)}
    left = [json.loads(pathlib.Path(file).read_text(encoding="utf-8")) for file in told]
    for title, point in points.items():
        rows = [(*parts_of(it[title][0]), it[title][1]) for it in left if title in it]
        columns = {name: value for name, value in point.items() if name in COLUMNS and value}
        seen_so = [float(point["X"]), float(point["Y"])], columns, point["note"], int(point["amount"])
        assert seen_so in rows, f"{title}: {seen_so}, {rows}"
    missing = {title for it in left for title in it if all(title in other for other in left)} - set(points)
    assert not missing, f"GDAL doesn't find {missing}"
    signed = sum(1 for it in points.values() if it["by"])
    print(
        f"GDAL finds {len(points)} rows, each at its place, and {signed} with who saved them and the values of the form as columns"
    )


def main():
    match sys.argv[1:]:
        case ["work", ("north" | "south") as name, *words] if len(words) == 4:
            work(name, *words)
        case ["look", file, title, out]:
            look(file, title, out)
        case ["compare", seen, *told]:
            compare(seen, *told)
        case _:
            print(__doc__)
            sys.exit(2)


if __name__ == "__main__":
    main()
