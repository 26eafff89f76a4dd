"""Lines, areas and tracks of rows at the crew's page. Its checks are run by scripts/outside/crew/crew_page_check.py.

Lengths and areas are by hand, degrees by gdaltransform from EPSG:25832 to EPSG:4258.
"""

import json
import xml.etree.ElementTree

from checks import expect
import browsers
from crew_camera_checks import TAKEN, photos_of
from crew_measure_checks import look
from crew_media_checks import ITEMS, MOST
from crew_mine_checks import BETWEEN, DEVICE, NEAR_5, NEARER_5, BESIDE_5
from crew_page import MIDDLE, Crew, wait_until
from crew_page_check import NAMES, by_title, expect_quiet, rows_of, touch

# Stone 1, Stone 5, and a place of the free map: sides of 368.78, 240 and 280 metres.
CORNERS = [[500070, 5600060], [500350, 5600300], [500350, 5600060]]
DEGREES = [[9.000988108, 50.552471971], [9.004940766, 50.554630237], [9.00494054, 50.552471871]]
SHOWN = "(linesShown?.drawn ?? []).length === {}"
LENGTH = "byId('length').innerText"
GPX = "{http://www.topografix.com/GPX/1/1}"
WALKS = "walking !== null && gps.watches.size === 1"
KEPT = "done(drafts('strict').get([TRACK, 0])).then(it => it?.steps.length === {})"


def beside(crew, east, north, pixels):
    """A place so many pixels east of another."""
    return east + pixels * crew.value("metresAt(shown, map.getZoom())"), north


def add_middle(crew, east, north):
    """Adds the map's middle, once that is a place."""
    crew.value(f"map.setView([{north}, {east}], map.getZoom(), {{ animate: false }}); 0")
    crew.press("add")


def draw_three(crew, kind):
    """Draws what begins beside a mark, goes over one, and ends on the free map; answers what was said behind each."""
    crew.press(kind)
    said = [crew.value(LENGTH)]
    crew.tap(*beside(crew, 500_070, 5_600_060, 18.5))
    said.append(crew.value(LENGTH))
    crew.tap(*beside(crew, 500_350, 5_600_300, -4))
    said.append(crew.value(LENGTH))
    add_middle(crew, 500_350, 5_600_060)
    return [*said, crew.value(LENGTH)]


def only_file(seat, title, table="spots"):
    """The number, the type and the bytes of the only file of a row."""
    number, _ = by_title(rows_of(seat, table), title)
    ((item, (kind, data)),) = photos_of(seat, number).items()
    return item, kind, data


def check_a_line_with_snapping(scene):
    """A line snaps to the places of rows, stands in the package as it was drawn, is on the map, and is taken off
    again."""
    seat, crew = scene.begin()
    crew.press("fresh")
    crew.write("title", "Fence")
    said = draw_three(crew, "line")
    words = [
        "Tap the corners of the line on the map.",
        "Tap the next corner., snapped",
        "Line 368.8 m, snapped",
        "Line 608.8 m (last 240.0 m)",
    ]
    expect(said, words, "what is said as it is drawn")
    expect(crew.value("drawingNow().points"), CORNERS, "the corners")
    crew.tap(500_500, 5_600_800)
    expect(crew.value("drawingNow().points.length"), 4, "corners, with one of the free map")
    crew.press("undo")
    expect(crew.value(LENGTH), words[3], "behind 'Undo'")
    scene.screenshot(crew, "line")
    crew.press("title")
    crew.press("leave")
    expect(
        (crew.text("told"), crew.text("leave")),
        ("Save or close this row first.", "Close: press again"),
        "a form with a drawing that isn't done",
    )
    crew.press("finish")
    crew.page.wait(TAKEN.format(1))
    expect(
        crew.value(f"[isMeasuring(), byId('measured').hidden, {ITEMS}]"),
        [False, True, ["Line, 608.8 m / not saved yet / Leave out"]],
        "the form",
    )
    crew.page.wait(SHOWN.format(1))
    crew.save()
    crew.wait_until_it_stands()
    crew.reload()
    crew.page.wait(SHOWN.format(1))
    crew.tap(500_350, 5_600_180)
    crew.page.wait("form !== null && byId('thumbnails').ariaBusy === 'false'")
    expect(
        crew.value(f"[form.row.title, {ITEMS}.map(it => it.split(' / ')[0])]"),
        ["Fence", ["Line, 608.8 m"]],
        "behind a tap on the line",
    )
    scene.screenshot(crew, "line-of-a-row")
    crew.press("leave")
    crew.press("fresh")
    crew.press("line")
    for place in (CORNERS[2], (500_500, 5_600_800)):
        crew.tap(*beside(crew, *place, 12))
    expect(crew.value("drawingNow().points[0]"), CORNERS[2], "a corner beside one of the line")
    for _ in range(2):
        crew.press("scrap")
    crew.press("leave")
    crew.page.wait("form === null")
    expect_quiet(crew)
    item, kind, data = only_file(seat, "Fence")
    geometry = {"type": "LineString", "coordinates": DEGREES}
    told = {
        "type": "Feature",
        "geometry": geometry,
        "properties": {"kind": "line", "system": 25832, "corners": CORNERS},
    }
    expect((kind, json.loads(data)), ("application/geo+json", told), "what stands")
    assert item % 4096 >= 3840, f"the number {item} is none of a shape"
    seat.start()
    crew.page.wait("!isAway()")
    crew.open("Fence")
    for _ in range(2):
        crew.press(
            "([...byId('thumbnails').querySelectorAll('button')].find(it => it.innerText.startsWith('Take off')))"
        )
    crew.wait_until_it_stands()
    crew.page.wait(SHOWN.format(0))
    expect(photos_of(seat, by_title(rows_of(seat), "Fence")[0]), {}, "the row's files, once it was taken off")


def check_an_area(scene):
    """An area is closed where it began, its ring goes against the clock; one that crosses itself or has too few corners
    isn't taken."""
    seat, crew = scene.begin()
    crew.open("Stone 7")
    crew.write("search", "")
    crew.page.wait("placed.length === 12")
    said = draw_three(crew, "area")
    words = ["Tap the corners of the area on the map.", "Tap the next corner., snapped",
             "Side 368.8 m. Tap the next corner., snapped",
             "Area 33,600 m², 888.8 m around (last 240.0 m)"]  # fmt: skip
    expect(said, words, "what is said as it is drawn")
    crew.tap(*beside(crew, 500_070, 5_600_060, -3))
    expect(crew.value(LENGTH), f"{words[3]}, snapped", "closed where it began")
    crew.save()
    crew.page.wait("byId('edit').hidden")
    crew.wait_until_it_stands()
    crew.page.wait(SHOWN.format(1))
    crew.press("fresh")
    crew.write("title", "None")
    crew.press("line")
    crew.tap(500_100, 5_600_700)
    crew.press("finish")
    more = "Go on with it, or throw it away."
    expect(
        (crew.text("told"), crew.value("isDrawing()")),
        (f"A line has two corners at least. {more}", True),
        "a line of one corner",
    )
    for _ in range(2):
        crew.press("scrap")
    crew.press("area")
    for place in ((500_100, 5_600_700), (500_300, 5_600_900), (500_300, 5_600_700), (500_100, 5_600_900)):
        crew.tap(*place)
    expect(crew.value(LENGTH), "No area: it crosses itself", "one that crosses itself")
    crew.save()
    expect(
        (crew.text("told"), crew.value("isDrawing()")),
        (f"The edge crosses itself: take corners back. {more}", True),
        "when it is saved",
    )
    crew.value("measured.points.push(...Array.from({ length: MOST_CORNERS }, (_, at) => [500100 + at, 5600700])); 0")
    crew.tap(500_200, 5_600_950)
    expect(crew.text("told"), "More than 2,000 corners are none: begin another.", "one more corner than there may be")
    for _ in range(2):
        crew.press("scrap")
    expect(crew.value("[isDrawing(), form.photos.length, byId('title').value]"), [False, 0, "None"], "thrown away")
    crew.save()
    crew.wait_until_it_stands()
    expect_quiet(crew)
    rows = rows_of(seat)
    shapes = [json.loads(data) for kind, data in photos_of(seat, 7).values() if kind == "application/geo+json"]
    ring = [DEGREES[0], DEGREES[2], DEGREES[1], DEGREES[0]]
    told = {
        "type": "Feature",
        "geometry": {"type": "Polygon", "coordinates": [ring]},
        "properties": {"kind": "area", "system": 25832, "corners": CORNERS},
    }
    expect(shapes, [told], "what stands")
    expect(photos_of(seat, by_title(rows, "None")[0]), {}, "files of the other row")


def check_a_drawing_that_is_not_done(scene):
    """What is drawn is there when the page is loaded again, waits on a map of another system, and has corners where the
    device is."""
    seat, crew = scene.begin()
    crew.press("fresh")
    crew.write("title", "Ditch")
    crew.press("line")
    add_middle(crew, 500_350, 5_600_060)
    crew.value(f"{DEVICE}; {BETWEEN.format('')}, 0")
    crew.press("corner")
    crew.page.wait("drawingNow().points.length === 2")
    expect(
        crew.value("[drawingNow().points[1], byId('told').innerText]"),
        [[500500, 5600500], "The device tells this corner within 5 m."],
        "a corner of the device",
    )
    crew.reload()
    crew.page.wait("form !== null && isDrawing()")
    expect(
        crew.value(f"[drawingNow().points, {LENGTH}]"),
        [[[500350, 5600060], [500500, 5600500]], "Line 464.9 m"],
        "loaded again",
    )
    choose_map(crew, "plan")
    words = "The line is in metres of system 25832: show a map of that to go on."
    crew.tap(20, 30)
    expect(crew.value(f"[drawingNow().points.length, {LENGTH}]"), [2, words], "on a map of another system")
    choose_map(crew, "base")
    expect(crew.value(LENGTH), "Line 464.9 m", "on its own map again")
    crew.save()
    crew.page.wait("byId('edit').hidden")
    crew.wait_until_it_stands()
    expect_quiet(crew)
    expect(
        json.loads(only_file(seat, "Ditch")[2])["properties"]["corners"],
        [[500350, 5600060], [500500, 5600500]],
        "what stands",
    )


def choose_map(crew, name):
    crew.value(f"byId('pyramids').value = '{name}'; byId('pyramids').dispatchEvent(new Event('change')); 0")
    crew.page.wait(f"shown.table === '{name}'")


def check_lines_of_a_plan(scene):
    """In a plan's system, which the page can't reckon, a line has its corners alone, which is said; the map shows
    it."""
    seat, crew = scene.begin()
    choose_map(crew, "plan")
    crew.press("fresh")
    crew.write("title", "Wall")
    crew.press("line")
    for place in ((20, 30), (20, 70)):
        add_middle(crew, *place)
    expect(crew.value(LENGTH), "Line 40.00 m (no degrees: this page can't reckon them here)", "what is said")
    crew.press("finish")
    crew.page.wait(TAKEN.format(1))
    crew.save()
    crew.wait_until_it_stands()
    crew.page.wait(SHOWN.format(1))
    choose_map(crew, "base")
    crew.page.wait(SHOWN.format(0))
    expect_quiet(crew)
    told = {
        "type": "Feature",
        "geometry": None,
        "properties": {"kind": "line", "system": 7, "corners": [[20, 30], [20, 70]]},
    }
    expect(json.loads(only_file(seat, "Wall")[2]), told, "what stands")


def check_files_of_shapes(scene):
    """GeoJSON and GPX of other programs are files of a row, byte for byte, and on the map; one that is too long isn't
    taken."""
    seat, crew = scene.begin()
    place = '{{"type": "Feature", "properties": {{}}, "geometry": {}}}'
    texts = {"line.geojson": place.format(json.dumps({"type": "LineString", "coordinates": DEGREES[:2]})),
             "point.geojson": place.format('{"type": "Point", "coordinates": [9, 50]}'),
             "way.gpx": f"<gpx version='1.1' xmlns='{GPX[1:-1]}'><trk><trkseg>"
                        f"<trkpt lon='{DEGREES[0][0]}' lat='{DEGREES[0][1]}'/>"
                        f"<trkpt lon='{DEGREES[2][0]}' lat='{DEGREES[2][1]}'/></trkseg></trk></gpx>"}  # fmt: skip
    texts["longer.gpx"] = texts["way.gpx"].ljust(MOST + 1)
    for name, text in texts.items():
        (scene.folder / name).write_text(text)
    crew.press("fresh")
    crew.write("title", "Of others")
    crew.page.choose_files("byId('pictures')", [scene.folder / name for name in texts])
    words = "longer.gpx has 4.1 MiB: the package takes files of at most 4.0 MiB."
    crew.page.wait(f"byId('told').innerText === {json.dumps(words)} && {TAKEN.format(3)}")
    shown = ["Line, 368.8 m / line.geojson, not saved yet / Leave out",
             "Shape, 1 KiB / point.geojson, not saved yet / Leave out",
             "Track, 280.0 m / way.gpx, not saved yet / Leave out"]  # fmt: skip
    expect(crew.value(ITEMS), shown, "what is taken")
    crew.page.wait(SHOWN.format(2))
    crew.save()
    crew.wait_until_it_stands()
    crew.page.wait(SHOWN.format(2))
    expect_quiet(crew)
    number, _ = by_title(rows_of(seat), "Of others")
    found = [(kind, data.decode()) for kind, data in photos_of(seat, number).values()]
    kinds = ["application/geo+json"] * 2 + ["application/gpx+xml"]
    expect(found, list(zip(kinds, list(texts.values())[:3])), "what stands")


def steps_of(data):
    """The parts of a GPX's track: longitudes, latitudes, and whether each has a time."""
    root = xml.etree.ElementTree.fromstring(data)
    assert root.tag == f"{GPX}gpx" and root.get("version") == "1.1", root.tag
    return [[(float(it.get("lon")), float(it.get("lat")), it.find(f"{GPX}ele") is not None,
            it.find(f"{GPX}time") is not None)
             for it in part] for part in root.iterfind(f"{GPX}trk/{GPX}trkseg")]  # fmt: skip


def check_a_track(scene):
    """A track is recorded while its row is saved and others are looked at, thinned by distance and accuracy, and is its
    row's GPX in the end."""
    seat, crew = scene.begin()
    crew.value(DEVICE)
    crew.press("fresh")
    crew.write("title", "Way")
    crew.press("walk")
    crew.page.wait(WALKS)
    expect(
        crew.value("[byId('trailed').innerText, byId('walk').disabled]"),
        ["Track of Way: 0.00 m, 0 places, no place yet", True],
        "at first",
    )
    high = NEAR_5[:-1] + ", { altitude: 181.504 })"
    crew.value(f"{high}, {NEARER_5}, {BESIDE_5}, 0")
    expect(
        crew.text("trailed"), "Track of Way: 5.39 m, 2 places", "behind three places, the last of them near the second"
    )
    crew.value(f"{BETWEEN.format(', { accuracy: 40 }')}, 0")
    expect(
        crew.text("trailed"), "Track of Way: 5.39 m, 2 places, only within 40 m", "behind one that isn't exact enough"
    )
    scene.screenshot(crew, "track")
    crew.save()
    crew.wait_until_it_stands()
    crew.open("Stone 3")
    crew.write("note", "typed")
    crew.press("endtrack")
    expect(
        crew.value("[byId('told').innerText, walking !== null]"),
        ["Save or close this row first.", True],
        "with another form that isn't saved",
    )
    crew.save()
    crew.value(f"{BETWEEN.format('')}, 0")
    crew.press("endtrack")
    crew.page.wait(f"{TAKEN.format(1)} && walking === null && byId('trail').hidden")
    expect(crew.value("[form.row.title, gps.watches.size]"), ["Way", 0], "the form that opens")
    assert crew.value(ITEMS)[0].startswith("Track, 260.8 m in "), crew.value(ITEMS)
    expect(
        crew.value("done(drafts('strict').getAllKeys()).then(all => all.filter(it => typeof it !== 'number').length)"),
        0,
        "what is kept of the track",
    )
    crew.save()
    crew.wait_until_it_stands()
    expect_quiet(crew)
    item, kind, data = only_file(seat, "Way")
    expect((kind, item % 4096 >= 3840), ("application/gpx+xml", True), "the file's type and number")
    places = [(9.004799596, 50.554585277), (9.004870181, 50.55460326), (9.007058505, 50.556428766)]
    expect(
        steps_of(data), [[(*places[0], True, True), (*places[1], False, True), (*places[2], False, True)]], "the track"
    )


def check_a_track_of_a_browser_that_was_killed(scene):
    """A track that is recorded when the browser is killed is there in the next, and goes on as another part."""
    seat, profile = scene.seat(), scene.folder / "walked"
    with browsers.start(scene.command, profile) as browser:
        crew = Crew(browser, seat.address, kept=True)
        crew.value(DEVICE)
        crew.press("fresh")
        crew.write("title", "Way")
        crew.press("walk")
        crew.page.wait(WALKS)
        crew.value(f"{NEAR_5}, {NEARER_5}, 0")
        crew.page.wait(KEPT.format(2))
        browser.kill()
    with browsers.start(scene.command, profile) as browser:
        crew = Crew(browser, seat.address, kept=True)
        crew.page.wait("walking !== null && form !== null")
        expect(crew.value("[walking.steps.length, walking.title]"), [2, "Way"], "the track, loaded again")
        crew.value(f"{DEVICE}; askForNone('track'), askForPlaces('track', stepOn, noStep), {BETWEEN.format('')}, 0")
        crew.page.wait(KEPT.format(3))
        crew.press("endtrack")
        crew.page.wait(f"{TAKEN.format(1)} && walking === null")
        expect(crew.value("byId('title').value"), "Way", "the form")
        crew.save()
        crew.wait_until_it_stands()
        expect_quiet(crew)
    expect([len(it) for it in steps_of(only_file(seat, "Way")[2])], [2, 1], "places of the track's parts")


def check_tracks_that_come_to_nothing(scene):
    """A track without a place is none; one is thrown away by pressing twice; two at once there are not; a row that
    wasn't saved is made anew."""
    seat = scene.seat()
    with browsers.start(scene.command, scene.folder / "walks") as browser:
        crew, other = (Crew(browser, seat.address, kept=True) for _ in range(2))
        for it in (other, crew):
            it.page.to_front()
            it.value(DEVICE)
            it.press("fresh")
        crew.press("walk")
        crew.page.wait(WALKS)
        other.page.to_front()
        other.press("walk")
        other.page.wait("byId('told').innerText === 'A track is recorded already: end that first.'")
        crew.page.to_front()
        crew.press("endtrack")
        crew.page.wait("walking === null && byId('messages').innerText === 'No place came, and so there is no track.'")
        crew.press("walk")
        crew.page.wait(WALKS)
        crew.value(f"{NEAR_5}, walking.steps = Array(MOST_PLACES).fill(walking.steps[0]), {NEARER_5}, 0")
        expect(
            crew.value("[walking.steps.length, byId('trailed').innerText.split(', ').at(-1)]"),
            [30000, "more it doesn't take: end it"],
            "a track that is full",
        )
        for _ in range(2):
            crew.press("droptrack")
        crew.page.wait("walking === null && gps.watches.size === 0")
        crew.press("walk")
        crew.page.wait(WALKS)
        crew.value(f"{NEAR_5}, {NEARER_5}, 0")
        crew.press("leave")
        crew.page.wait("form === null")
        crew.press("endtrack")
        crew.page.wait(f"{TAKEN.format(1)} && form.fresh")
        crew.fill(title="Late")
        crew.save()
        crew.wait_until_it_stands()
        expect_quiet(crew)
    expect([len(it) for it in steps_of(only_file(seat, "Late")[2])], [2], "the track")


def check_drawing_by_fingers(scene):
    """On a phone a line is drawn by fingers, and nothing of it or of a track is too small, beside the screen, or
    without a name."""
    seat, crew = scene.begin(width=360, height=740, touch=True)
    crew.value(DEVICE)
    touch(crew, "fresh")
    crew.page.wait("form !== null && form.fresh")
    crew.value("byId('title').value = 'By fingers'; 0")
    crew.value(f"({MIDDLE})(byId('walk')), 0")
    touch(crew, "walk")
    crew.page.wait(WALKS)
    crew.value(f"{NEAR_5}, ({MIDDLE})(byId('line')), 0")
    touch(crew, "line")
    crew.page.wait("isDrawing()")
    for at in (1, 2):
        x, y = crew.value(f"(box => [box.x + 60 + 80 * {at}, box.y + 40])(byId('map').getBoundingClientRect())")

        def is_taken(count=at, place=(x, y)):
            crew.page.touch([place])
            return crew.value(f"drawingNow().points.length === {count}")

        wait_until(is_taken, f"corner {at}")
    scene.screenshot(crew, "line-fingers")
    inside = (
        "((it, box) => it.top >= box.top && it.bottom <= box.bottom)(byId('measured').getBoundingClientRect(),"
        " byId('map').getBoundingClientRect())"
    )
    expect(crew.value(inside), True, "the drawing's words and buttons are over the map")
    free = "byId('measured').getBoundingClientRect().top - byId('map').getBoundingClientRect().top"
    assert crew.value(free) >= 88, f"{crew.value(free)} pixels of the map are free"
    look(scene, crew, "document", "line-360")
    names = crew.value(NAMES)
    expect([it for it in set(names) if not it or names.count(it) > 1], [], "names that are none, or of two")
    touch(crew, "finish")
    crew.page.wait(TAKEN.format(1))
    touch(crew, "endtrack")
    crew.page.wait(f"{TAKEN.format(2)} && walking === null")
    crew.save()
    crew.wait_until_it_stands()
    expect_quiet(crew)
    number, _ = by_title(rows_of(seat), "By fingers")
    kinds = sorted(kind for kind, _ in photos_of(seat, number).values())
    expect(kinds, ["application/geo+json", "application/gpx+xml"], "what stands")


def check_shapes_of_many_rows(scene):
    """Rows in sight and those without a place are asked for their shapes once, a few hundred at most, and again once
    another has written."""
    seat, crew = scene.begin()
    related = "/related/spots/"

    def asked():
        crew.value("0")  # which has the browser tell what it asked for
        return [it.split(related)[1] for it in crew.page.asked if related in it]

    wait_until(lambda: len(asked()) >= 12, "each row is asked for")
    crew.value("map.setView([5600950, 500950], map.getZoom(), { animate: false }); 0")
    crew.value("map.setView([5600500, 500500], map.getZoom(), { animate: false }); 0")
    crew.page.wait("new Promise(good => setTimeout(() => good(!isAskingShapes), 2 * ASK_PAUSE))")
    expect(sorted(asked(), key=int), [str(it) for it in range(1, 13)], "each row once")
    expect_quiet(crew)
    expect(len(rows_of(seat)), 12, "rows")
