"""Places in systems that the page can't reckon. Its checks are run by scripts/outside/crew/crew_page_check.py.

A map in LV95: PROJ brings the device's place there, by the program of tools/maps.py, as swisstopo has published the old
observatory of Bern; what a stand-in of that program says, and where it ends.
"""

import contextlib
import json
import threading
import urllib.parse

from checks import expect, new_package, serving
import maps_drawn
from crew_mine_checks import DEVICE, SWITCHES, in_the_middle
from crew_out_checks import file_of
from crew_page import Seat
from crew_page_check import by_title, expect_quiet, photo_with_a_place, rows_of
from viewer_package import PYRAMIDS, Pyramid, record, take_in
import beside
import gdal_python

BERN = Pyramid("bern", "Bern", 2056, 2_599_500, 1_200_512, "two", PYRAMIDS[0].zooms[:3])
PLAN = Pyramid("plan", "Plan", 7, 0, 128, "two", PYRAMIDS[0].zooms[2:3])
AT_BERN = "deviceTells(7.438632495, 46.951082877{})"  # E 2,600,000 N 1,200,000, by swisstopo
NEAR_BERN = "deviceTells(7.438763782, 46.951082773)"  # E 2,600,010 N 1,200,000, by cs2cs
SAID = "[byId('messages').innerText, byId('mine').innerText, document.querySelectorAll('#map .mine').length]"


def package_of(scene, *pyramids):
    """A package of maps in systems that the page can't reckon, with its page."""
    scene.count += 1
    file = scene.folder / f"beyond-{scene.count}.mmpkg"
    systems = [
        ["srs", 2056, "CH1903+ / LV95", "EPSG", 2056, "LV95", ""],
        ["srs", 7, "plan", "NONE", 7, "metres of a plan", ""],
    ]
    tables = [
        ["table", "spots", "attributes", "Spots"],
        ["table", "photos", "media", "Photos"],
        ["relation", "spots_photos", "spots", "photos", "media"],
        ["row", "spots", 1, "Observatory", "@2056:2600000/1200000 old", 0],
        ["row", "spots", 2, "Peg", "@7:3/4", 0],
    ]
    new_package(file, "".join([*map(record, systems), *(it.records() for it in pyramids), *map(record, tables)]))
    take_in(file, scene.folder / f"page-{scene.count}")
    seat = Seat(file)
    scene.seats.append(seat)
    return seat


@contextlib.contextmanager
def with_proj(scene, *pyramids, **how):
    """A crew at a page of such a package, with the program that crew.py starts; None where GDAL isn't there."""
    if gdal_python.python_with_gdal() is None:
        print(f"    not tried: {gdal_python.MISSING}")
        yield None
        return
    seat = package_of(scene, *pyramids or (BERN, PLAN))
    with beside.drawn([], f"http://127.0.0.1:{seat.port}", print, True) as running:
        address, unopened = running.opened()
        expect(unopened, [], "what the program says")
        told = urllib.parse.urlsplit(address)
        yield seat, begun(scene, seat, f"trip.mmpkg&maps={told.port}{told.path.rstrip('/')}", **how), running


def begun(scene, seat, behind, **how):
    crew = scene.crew(seat.address, behind=behind, **how)
    crew.value(DEVICE)
    return crew


class StandIn:
    """Answers in place of PROJ: so many metres beside the device's degrees, which are worth what it says, and when it
    is let go."""

    def __init__(self, worth, name="A way"):
        self.worth, self.name, self.asked, self.go = worth, name, [], threading.Event()
        self.go.set()

    def __call__(self, told, places, back):
        assert self.go.wait(maps_drawn.PATIENCE)
        self.asked.append((told, places, back))
        here = [[2_600_000 + 70_000 * (it[0] - 7.438632495), 1_200_000.0] for it in places]
        return {
            "places": [it if self.worth is not None else None for it in here],
            "worth": self.worth,
            "name": self.name,
        }


@contextlib.contextmanager
def with_stand_in(scene, stand_in):
    seat = package_of(scene, BERN)
    with serving(maps_drawn.Server([], f"http://127.0.0.1:{seat.port}", open_map=str, bring=stand_in)) as server:
        try:
            yield seat, begun(scene, seat, maps_drawn.told_behind(server)), server
        finally:
            stand_in.go.set()


def listed_in(scene, crew):
    """What is listed, as GeoJSON."""
    folder = scene.folder / f"out-{scene.count}"
    folder.mkdir(exist_ok=True)
    crew.page.keep_files_in(folder)
    return json.loads(file_of(crew, "geojson", folder).read_text())


def check_my_place_in_a_system_beyond(scene):
    """In a map in LV95 my place is shown, followed and old as in any other; Here fills the form, with the worse of the
    device's accuracy and the system's; files have degrees. No list of maps is shown, and a plan has no such buttons."""
    with with_proj(scene) as begin:
        if begin is None:
            return
        seat, crew, _ = begin
        expect(
            crew.value("[byId('locate').hidden, byId('maps').hidden, shown.srs_id]"), [False, True, 2056], "the buttons"
        )
        crew.press("locate")
        crew.value(f"{AT_BERN.format('')}, 0")
        crew.page.wait(f"({SAID})[2] === 1")
        expect(crew.value(SAID), ["The device is here, within 5 m.", "within 5 m", 1], "the first place")
        east, north = crew.value("(at => [at.lng, at.lat])(tracked.mark.getLayers()[1].getLatLng())")
        assert abs(east - 2_600_000) < 0.05 and abs(north - 1_200_000) < 0.05, f"the mark is at {east}, {north}"
        scene.screenshot(crew, "lv95")
        crew.value(f"{NEAR_BERN}, 0")
        crew.page.wait(in_the_middle(2_600_010, 1_200_000))
        crew.press("fresh")
        crew.fill(title="By the device", note="a peg")
        crew.press("here")
        crew.page.wait("byId('told').innerText === 'The device tells this place within 5 m.'")
        crew.save()
        crew.value(f"{AT_BERN.format(', { accuracy: 0.02 }')}, 0")
        crew.page.wait("tracked.fix.accuracy === 0.02")
        expect(crew.text("mine"), "within 1 m", "a place that the system doesn't hold as well as the device")
        crew.press("fresh")
        crew.fill(title="Exact")
        crew.press("here")
        crew.page.wait("byId('told').innerText === 'The device tells this place within 1 m.'")
        crew.save()
        crew.wait_until_it_stands()
        told = listed_in(scene, crew)
        points = {
            it["properties"]["title"]: it["geometry"] and it["geometry"]["coordinates"] for it in told["features"]
        }
        east, north = points["Observatory"]
        assert abs(east - 7.438632495) < 1e-6 and abs(north - 46.951082877) < 1e-6, points
        expect(points["Peg"], None, "a place of the plan in degrees")
        assert "PROJ's, by \"Inverse of CH1903+ to WGS 84 (1)" in told["description"], told["description"]
        crew.value("byId('pyramids').value = 'plan'; byId('pyramids').dispatchEvent(new Event('change')); 0")
        expect(
            crew.value(f"[...{SWITCHES}, byId('locate').hidden]"), ["false", True, "false", True, 0, True], "in a plan"
        )
        expect_quiet(crew)
        rows = rows_of(seat)
        expect(
            by_title(rows, "By the device")[1][0].split(" age=")[0],
            "@2056:2600010.00/1200000.00 a peg acc=4.2",
            "the row",
        )
        expect(by_title(rows, "Exact")[1][0].split(" age=")[0], "@2056:2600000.01/1200000.01 acc=1", "the exact row")


def check_a_photos_place_in_a_system_beyond(scene):
    """A photo's own place is offered in a map in LV95 where it is near, and else it is said that it can't be."""
    with with_proj(scene) as begin:
        if begin is None:
            return
        _, crew, _ = begin
        photo = photo_with_a_place(scene, crew, "far.jpg")  # 50° 33' N: not in Switzerland
        crew.press("fresh")
        crew.fill(photos=[photo])
        crew.page.wait("byId('noshot').innerText !== ''")
        words = "The photo tells where it was taken, and this page can't reckon that in the map's system."
        expect(crew.value("[byId('shot').hidden, byId('noshot').innerText]"), [True, words], "the offer")
        crew.value("setOf(form, { shot: { longitude: 7.438632495, latitude: 46.951082877 } }), offerPlaceOfPhoto(), 0")
        crew.page.wait("!byId('shot').hidden")
        crew.press("shot")
        expect(crew.value("['east', 'north'].map(it => byId(it).value)"), ["2600000.01", "1200000.01"], "the form")
        expect(crew.text("told"), "The photo tells this place; how exact it is it doesn't tell.", "what is said")
        expect_quiet(crew)


def check_a_system_that_is_good_for_five_metres(scene):
    """Where PROJ's way is worth five metres that is said, and kept; where nobody knows, or there is none, no place is
    told, and why is said."""
    stand_in = StandIn(5)
    with with_stand_in(scene, stand_in) as (seat, crew, _):
        crew.press("locate")
        crew.value(f"{AT_BERN.format('')}, 0")
        crew.page.wait(f"({SAID})[2] === 1")
        worth = "Places of this map's system are good for 5 m only."
        expect(crew.value(SAID), [f"The device is here, within 5 m. {worth}", "within 5 m", 1], "what is said")
        expect(crew.value("tracked.mark.getLayers()[0].getRadius()"), 5, "the ring")
        crew.press("fresh")
        crew.fill(title="Rough")
        crew.press("here")
        crew.page.wait(f"byId('told').innerText === `The device tells this place within 5 m. {worth}`")
        crew.save()
        crew.wait_until_it_stands()
        expect(stand_in.asked[0][0]["epsg"], 2056, "the system that was asked for")
        unknown = 'How exact places are in this map\'s system here nobody knows: PROJ brings them there by "A way".'
        for name, why in (("A way", unknown), ("", "PROJ brings no place from here into this map's system.")):
            stand_in.worth, stand_in.name = None, name
            if not crew.value("tracked.on"):
                crew.press("locate")
            crew.value(f"{AT_BERN.format('')}, 0")
            crew.page.wait("!tracked.on")
            expect(crew.value(SAID), [why, "asking the device ..", 0], "what is said")
            crew.press("fresh")
            crew.press("here")
            crew.page.wait(f"byId('told').innerText === {json.dumps(why)}")
            crew.press("leave")
        expect_quiet(crew)
        expect(by_title(rows_of(seat), "Rough")[1][0].split(" age=")[0], "@2056:2600000.00/1200000.00 acc=5", "the row")


def check_a_program_of_systems_that_is_slow_or_ends(scene):
    """Of places that come while one is brought over the last counts; where the program ends that is said, a place that
    is typed is as ever, and the work goes on."""
    stand_in = StandIn(1)
    with with_stand_in(scene, stand_in) as (seat, crew, server):
        stand_in.go.clear()
        crew.press("locate")
        for metres in range(5):
            crew.value(f"deviceTells(7.438632495 + {metres} / 70000, 46.951082877), 0")
        stand_in.go.set()
        crew.page.wait(f"({SAID})[2] === 1 && Math.abs(tracked.mark.getLayers()[1].getLatLng().lng - 2600004) < 0.01")
        assert len(stand_in.asked) <= 3, f"{len(stand_in.asked)} questions"
        server.end()
        crew.value(f"{AT_BERN.format('')}, 0")
        why = "The program beside the desk that knows this map's system doesn't answer: open the package again."
        crew.page.wait(f"byId('messages').innerText === {json.dumps(why)}")
        expect(crew.value("[tracked.on, document.querySelectorAll('#map .mine').length]"), [True, 0], "my place")
        crew.press("fresh")
        crew.fill(title="Typed")
        crew.press("here")
        crew.page.wait(f"byId('told').innerText === {json.dumps(why)}")
        for element, text in (("east", "2600100"), ("north", "1200050.5")):
            crew.write(element, text)
        crew.save()
        crew.wait_until_it_stands()
        kept = listed_in(scene, crew)
        expect([it["geometry"] for it in kept["features"]], [None] * 3, "geometries without the program")
        assert why in crew.text("filed"), crew.text("filed")
        expect_quiet(crew, "ERR_", "CORS", "NetworkError", "Cross-Origin")
        expect(by_title(rows_of(seat), "Typed")[1][0], "@2056:2600100/1200050.5", "the row")


def check_a_system_beyond_without_its_program(scene):
    """Without that program a map in such a system has no buttons that ask the device, and all else works."""
    seat = package_of(scene, BERN)
    crew = begun(scene, seat, "")
    expect(crew.value("[byId('locate').hidden, byId('maps').hidden]"), [True, True], "the buttons")
    crew.new(title="Tapped", place=(2_600_100, 1_200_100))
    crew.wait_until_it_stands()
    expect_quiet(crew)
    by_title(rows_of(seat), "Tapped")
