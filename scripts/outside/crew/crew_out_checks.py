"""What leaves the crew's page. Its checks are run by scripts/outside/crew/crew_page_check.py.

What is listed as files, beside what the office's export and GDAL read; and a report of the day, also on paper. Degrees
are by gdaltransform.
"""

import base64
import contextlib
import csv
import io
import json
import re
import shutil
import sqlite3
import xml.etree.ElementTree

from checks import TOP, expect, run
import browsers
from crew_page import wait_until
from crew_page_check import LOOK_AS, STONES, expect_quiet, send

GPX = "{http://www.topografix.com/GPX/1/1}"
# Rows whose notes have words, a place of a plan's system, and what a spreadsheet would run.
MORE = '''row,spots,21,Oak 21,"@25832:500240.5/5600130.25 by the wall kind=oak girth=2.5 say=""two """"words""""""",4
row,spots,22,=1+1,@7:12/34.5 kind=elm,-7
row,spots,23,Elm 23,"kind=""old elm"" girth=3 h=181.5",0
'''
# By gdaltransform -s_srs EPSG:25832 -t_srs EPSG:4258.
DEGREES_21 = (9.003394902, 50.553103698)


def begin_with_more(scene):
    seat, crew = scene.begin()
    expect(send(crew, MORE), "1 ok\n2 ok\n3 ok\n", "the office's records")
    crew.value("readRows()")
    crew.page.wait(f"byId('count').innerText === '{STONES + 3} rows'")
    return seat, crew


def file_of(crew, kind, folder):
    """What the browser keeps as a file of a kind: its name and its bytes."""
    crew.value(f"byId('out').open = true, byId('kind').value = '{kind}', 0")
    before = set(folder.iterdir())
    crew.press("get")
    there = lambda: [it for it in folder.glob(f"*.{kind}") if it not in before and it.stat().st_size]  # noqa: E731
    wait_until(there, f"a file of the kind {kind}")
    (file,) = there()
    return file


def cells_of(file):
    return list(csv.DictReader(io.StringIO(file.read_bytes().decode("utf-8-sig"), newline="")))


def check_what_is_listed_as_files(scene):
    """What is listed is a table, GeoJSON and waypoints, as the office's export and GDAL have it; what waits is
    marked."""
    seat, crew = begin_with_more(scene)
    seat.kill()
    crew.new(title="Waits, é", note="kind=ash", place=(500_400, 5_600_500))
    crew.page.wait("outbox.waiting.length === 1")
    folder = scene.folder / "out"
    folder.mkdir()
    crew.page.keep_files_in(folder)
    files = {it: file_of(crew, it, folder) for it in ("csv", "geojson", "gpx")}
    scene.screenshot(crew, "files")
    for kind, file in files.items():
        assert re.fullmatch(rf"spots-[0-9]{{4}}-[0-9]{{2}}-[0-9]{{2}}\.{kind}", file.name), file.name
    expect(
        crew.text("filed").split(".", 1)[1].split(". "),
        ["gpx", "Left out, for want of degrees: 2", "Not in the package yet, and marked so: 1."],
        "what is said of the waypoints",
    )
    rows = {it["id"]: it for it in cells_of(files["csv"])}
    by_office(scene, seat, rows)
    expect(
        [rows[it]["title"] for it in ("21", "22", "23")],
        ["Oak 21", "'=1+1", "Elm 23"],
        "titles, none of them a formula",
    )
    waits = [it for it in rows.values() if it["state"] != "in the package"]
    expect(
        [(it["title"], it["state"], it["kind"], it["east"]) for it in waits],
        [("Waits, é", "to send", "ash", "500400.0")],
        "what waits",
    )
    features = json.loads(files["geojson"].read_text())
    expect(len(features["features"]), STONES + 4, "features")
    assert (
        "Not in the package yet: 1 row" in features["description"]
        and "=1+1 at east 12, north 34.5 of system 7" in features["description"]
    )
    by_number = {it["id"]: it for it in features["features"]}
    expect(by_number[21]["geometry"]["coordinates"], list(DEGREES_21), "a place in degrees")
    expect((by_number[22]["geometry"], by_number[22]["properties"]["east"]), (None, 12), "a place in a plan's metres")
    points = xml.etree.ElementTree.parse(files["gpx"]).getroot().findall(f"{GPX}wpt")
    told = {it.findtext(f"{GPX}name"): it for it in points}
    expect(
        (len(points), told["Oak 21"].get("lon"), told["Oak 21"].get("lat")),
        (STONES + 2, *map(str, DEGREES_21)),
        "waypoints",
    )
    expect(told["Waits, é"].findtext(f"{GPX}cmt"), "to send", "a waypoint that waits")
    by_gdal(files)
    crew.write("search", "kind oak")
    again = scene.folder / "out again"
    again.mkdir()
    crew.page.keep_files_in(again)
    rows = cells_of(file_of(crew, "csv", again))
    expect([it["title"] for it in rows], ["Oak 21"], "what is listed where something is searched")
    expect(list(rows[0])[10:], ["kind", "girth", "say"], "its columns")
    expect_quiet(crew, "ERR_", "Failed to load resource")


def by_office(scene, seat, rows):
    """The office's export has the same titles, notes, amounts and columns."""
    out = scene.folder / "office.gpkg"
    run(TOP / "tools" / "export_standard.py", seat.file, out, "--points", "spots", "--columns", "spots")
    with contextlib.closing(sqlite3.connect(out)) as opened:
        opened.row_factory = sqlite3.Row
        for it in opened.execute("SELECT * FROM spots"):
            mine = rows[str(it["id"])]
            for name in set(it.keys()) - {"geom"}:
                # A place of another system than most stays in the note there, and a column of decimals has 3.0 for 3.
                theirs = "" if it[name] is None else str(it[name]).removeprefix("@7:12/34.5").removesuffix(".0")
                expect(mine[name].removeprefix("'"), theirs, f"{name} of row {it['id']}")
            expect(set(it.keys()) - {"geom"} <= set(mine), True, "columns")


def by_gdal(files):
    """GDAL, where it is there, reads places and columns alike of each."""
    if not shutil.which("ogr2ogr"):
        return
    for kind, title, layer in (("geojson", "title", []), ("gpx", "name", ["waypoints"])):
        text, _ = run("ogr2ogr", "-f", "CSV", "/vsistdout/", files[kind], *layer, "-lco", "GEOMETRY=AS_XY")
        found = {it[title]: it for it in csv.DictReader(io.StringIO(text))}
        there = tuple(round(float(found["Oak 21"][it]), 9) for it in "XY")
        expect(there, DEGREES_21, f"the place in {kind}, by GDAL")
    text, _ = run("ogr2ogr", "-f", "CSV", "/vsistdout/", files["csv"], "-oo", "AUTODETECT_TYPE=YES")
    found = {it["title"]: it for it in csv.DictReader(io.StringIO(text))}
    expect((found["Oak 21"]["say"], found["Elm 23"]["h"]), ('two "words"', "181.5"), "the table, by GDAL")


def papers(scene, crew):
    """The page on paper, as PDF."""
    if browsers.is_firefox(scene.command):
        return base64.b64decode(crew.page.ask("browsingContext.print", background=False)["data"])
    return base64.b64decode(crew.page.ask("Page.printToPDF")["data"])


TITLES = "[...byId('reported').querySelectorAll('h2')].map(it => it.innerText)"


def check_a_report_of_the_day(scene):
    """It has the rows of the day with their photos, else all that are listed, prints alone, and asks nothing of
    others."""
    seat, crew = scene.begin()
    page = crew.page
    crew.value("byId('out').open = true, window.prints = 0, window.print = () => { prints += 1; }, 0")
    crew.write("search", "stone 1")
    crew.press("reporter")
    page.wait("byId('made').innerText === '0 photos.'")
    expect(
        (crew.value("byId('scope').value"), crew.value(TITLES)),
        ("listed", ["Stone 12", "Stone 11", "Stone 10", "Stone 1"]),
        "a day without work",
    )
    page.press("Escape")
    expect(
        crew.value("[byId('report').hidden, document.activeElement.id]"), [True, "reporter"], "the report behind Escape"
    )
    crew.write("search", "")
    crew.new(
        title="Spring", note="under the oak kind=spring", amount=12, place=(500_400, 5_600_500), photos=[scene.photo]
    )
    crew.change("Stone 7", amount=70)
    crew.write("search", "")
    crew.wait_until_it_stands()
    crew.reload()
    crew.value("byId('out').open = true, window.prints = 0, window.print = () => { prints += 1; }, 0")
    asked = len(page.asked)
    crew.press("reporter")
    page.wait("byId('made').innerText === '2 photos.'")
    expect((crew.value("byId('scope').value"), crew.value(TITLES)), ("today", ["Spring", "Stone 7"]), "the day's rows")
    words = crew.value(
        "[...byId('reported').firstElementChild.querySelectorAll('p')].filter(it => !it.hidden).map(it => it.innerText)"
    )
    place = "east 500400.0, north 5600500.0 of system 25832 · 50.556429° N, 9.005647° E"
    expect(words, [place, "under the oak", "kind: spring", "amount 12"], "what the report tells of a row")
    pictures = crew.value(
        "[...byId('reported').querySelectorAll('img')].map(it => [it.naturalWidth, it.alt.split(' ')[0]])"
    )
    expect(pictures, [[300, "photos"], [160, "photos"]], "its photos")
    others = [it for it in page.asked[asked:] if not it.startswith((seat.address, "blob:", "data:"))]
    expect(others, [], "what it asked of others")
    expect(crew.value("document.querySelector('main').inert"), True, "what lies below is out of reach")
    scene.screenshot(crew, "report")
    crew.press("print")
    page.wait("prints === 1")
    paper = papers(scene, crew)
    assert paper.startswith(b"%PDF") and len(paper) > 5000, f"{len(paper)} bytes of {paper[:8]!r}"
    if scene.keep:
        (scene.keep / f"report-{scene.command}.pdf").write_bytes(paper)
    assert crew.value(f"{LOOK_AS}(['print'])"), "the page has no rules for paper"
    seen = "['map', 'panel', 'print', 'day', 'reported'].map(it => byId(it).checkVisibility())"
    expect(crew.value(seen), [False, False, False, True, True], "what is on paper")
    scene.screenshot(crew, "report-paper")
    expect_quiet(crew)


def check_a_report_while_the_package_is_gone(scene):
    """What waits is in the report, with its photo, and marked; that the package's photos aren't to be had is said."""
    seat, crew = scene.begin()
    seat.kill()
    crew.new(title="Waits", photos=[scene.photo])
    crew.change("Stone 7", note="leaning")
    crew.write("search", "")
    crew.page.wait("outbox.waiting.length === 2")
    crew.value("byId('out').open = true, 0")
    crew.press("reporter")
    crew.page.wait("byId('made').innerText.startsWith('1 photo.')")
    assert crew.text("made").endswith("those that it has aren't all here."), crew.text("made")
    marked = (
        "[...byId('reported').querySelectorAll('li')].map(it => [it.querySelector('h2').innerText,"
        " it.querySelector('.waits').innerText])"
    )
    expect(crew.value(marked), [["Waits", "to send"], ["Stone 7", "to send"]], "what waits")
    assert "not in the package yet: 2" in crew.text("about"), crew.text("about")
    expect_quiet(crew, "ERR_", "Failed to load resource")
