"""What is measured at the crew's page. Its checks are run by scripts/outside/crew/crew_page_check.py.

Ways and areas by taps, keys and fingers; a place that is staked out; and how all of this, with files and the report,
fits a screen. Lengths and areas are by hand, places of the device by gdaltransform.
"""

import re

from checks import expect
from crew_page_check import CONTRAST, LOOK_AS, NAMES, STONES, expect_quiet, focus, rows_of, touch


def check_ways_and_areas(scene):
    """Taps on the map measure a way and an area, a mark's at its own place; the last point goes; it ends, and nothing
    was written."""
    seat, crew = scene.begin()
    crew.press("measure")
    expect(crew.text("length"), "Tap the points of a way on the map.", "at first")
    crew.tap(500_070, 5_600_060)
    crew.tap(500_350, 5_600_300)
    expect((crew.text("length"), crew.value("form")), ("Way 368.8 m", None), "between two marks")
    crew.value("map.setView([5600060, 500350], map.getZoom(), { animate: false }); 0")
    crew.press("add")
    words = "Way 608.8 m (last 240.0 m), area 33,600 m²"
    expect(crew.text("length"), words, "with a third point")
    scene.screenshot(crew, "measure")
    crew.tap(500_500, 5_600_600)
    expect(crew.value("measured.points.length"), 4, "points, with one of the free map")
    near = crew.value(
        "Math.hypot(measured.points[3][0] - 500500, measured.points[3][1] - 5600600) / metresAt(shown, map.getZoom())"
    )
    assert near < 1.5, f"a tap is {near} pixels off"
    crew.press("undo")
    expect(crew.text("length"), words, "behind 'Undo'")
    crew.page.press("Escape")
    gone = "[isMeasuring(), byId('measured').hidden, byId('measure').ariaPressed, document.activeElement.id]"
    expect(crew.value(gone), [False, True, "false", "measure"], "behind Escape")
    crew.press("measure")
    crew.press("add")
    crew.press("stop")
    expect(crew.value(gone)[:2], [False, True], "behind 'End'")
    crew.tap(500_350, 5_600_300)
    crew.page.wait("form !== null")
    expect(crew.value("byId('title').value"), "Stone 5", "a tap on a mark opens its row again")
    expect([it for it in crew.page.asked if it.endswith("/records")], [], "what was sent")
    expect(crew.value("outbox.waiting.length"), 0, "what waits")
    expect_quiet(crew)
    expect(len(rows_of(seat)), STONES, "rows")


def check_measuring_beside_a_form_and_other_maps(scene):
    """A form's next tap is its place, while it measures too; a map of another system ends it; so it does by keys and
    fingers."""
    _, crew = scene.begin(width=390, height=844, touch=True)
    touch(crew, "measure")
    crew.page.wait("isMeasuring()")
    touch(crew, "fresh")
    crew.page.wait("form !== null")
    crew.tap(500_400, 5_600_500)
    expect(crew.value("[byId('east').value, measured.points.length]"), ["500400.0", 0], "a tap for the form")
    crew.value("byId('title').focus(); 0")
    crew.page.type("x")
    crew.page.press("Escape")
    expect(crew.value("[isMeasuring(), form !== null]"), [True, True], "Escape in the form")
    for _ in range(2):
        x, y = crew.value(
            "(box => [box.x + box.width / 2 + 20 * measured.points.length, box.y +"
            " 60])(byId('map').getBoundingClientRect())"
        )
        crew.page.touch([(x, y)])
        crew.page.wait("measured.points.length > 0")
    crew.page.wait("measured.points.length === 2")
    scene.screenshot(crew, "measure-390")
    crew.value("byId('pyramids').value = 'plan'; byId('pyramids').dispatchEvent(new Event('change')); 0")
    expect(crew.value("[isMeasuring(), byId('measured').hidden]"), [False, True], "on a map of another system")
    _, crew = scene.begin()
    focus(crew.page, "measure")
    crew.page.press("Enter")
    for _ in range(2):
        crew.value("byId('map').focus(); 0")
        crew.page.press("ArrowRight")
        crew.page.wait("!map._panAnim?._inProgress")
        focus(crew.page, "add")
        crew.page.press("Enter")
    assert re.fullmatch(r"Way [0-9.]+ m", crew.text("length")), crew.text("length")
    focus(crew.page, "undo")
    crew.page.press("Enter")
    expect(crew.text("length"), "Tap the next point.", "by keys")
    focus(crew.page, "stop")
    crew.page.press("Enter")
    expect(crew.value("[isMeasuring(), document.activeElement.id]"), [False, "measure"], "by keys, in the end")
    expect_quiet(crew)


DEVICE = """(() => {
  let good = null;
  const device = navigator.geolocation;
  device.watchPosition = act => { good = act; return 1; };
  device.clearWatch = () => {};
  window.deviceTells = (longitude, latitude, more) => good({
    coords: { longitude, latitude, accuracy: 0.02, ...more } });
  window.shakes = 0;
  navigator.vibrate = () => { shakes += 1; };
  window.tones = 0;
  const start = OscillatorNode.prototype.start;
  OscillatorNode.prototype.start = function (at) { tones += 1; start.call(this, at); };
})(); 0"""


def check_a_place_that_is_staked_out(scene):
    """East, north and up from the device to the place, and a sound and a shake within a metre, unless it is to be
    quiet."""
    _, crew = scene.begin()
    page = crew.page
    crew.value(DEVICE)
    crew.open("Stone 5")
    crew.write("note", "from the books h=181.5")
    expect((crew.text("offset"), crew.value("byId('quiet').hidden")), ("", True), "before the device leads")
    crew.press("lead")
    # By gdaltransform 500340 E, 5600295 N; the stone is at 500350, 5600300.
    crew.value("deviceTells(9.00479959646962, 50.5545852768122, { altitude: 180, altitudeAccuracy: 2.4 }); 0")
    expect(crew.text("offset"), "10.00 m east, 5.00 m north, 1.50 m up (within 3 m)", "the offset")
    expect(crew.text("way"), "11 m, 63° (NE), within 0.02 m", "the way")
    expect(crew.value("[shakes, tones, byId('quiet').hidden]"), [0, 0, False], "signals, ten metres off")
    scene.screenshot(crew, "stake")
    # 500349.4 E, 5600299.5 N.
    near = "deviceTells(9.00493229541794, 50.5546257406264, { altitude: 181.75 }); "
    crew.value(f"{near} {near} 0")
    expect(crew.text("offset"), "Here: 0.60 m east, 0.50 m north, 0.25 m down", "the offset, within a metre")
    expect(
        crew.value("[shakes, tones, byId('offset').className]"), [1, 1, "led reached"], "signals, of two places at once"
    )
    scene.screenshot(crew, "stake-near")
    crew.press("quiet")
    page.wait("performance.now() > signalled + SIGNALS")
    crew.value(f"{near} 0")
    expect(crew.value("[shakes, tones]"), [1, 1], "signals, where it is quiet")
    crew.value("deviceTells(9.00493229541794, 50.5546257406264, { altitude: null }); 0")
    expect(crew.text("offset"), "Here: 0.60 m east, 0.50 m north", "where the device tells no height")
    crew.press("lead")
    expect((crew.text("offset"), crew.value("byId('quiet').hidden")), ("", True), "behind that")
    expect_quiet(crew)
    crew.reload()
    expect(crew.value("isQuiet()"), True, "whether it is quiet still")


def check_what_is_new_on_small_screens_and_by_night(scene):
    """Measuring, files and the report fit a phone and a tablet, are large enough for a finger, and stand out, by night
    too."""
    inside = (
        "((it, box) => it.top >= box.top && it.bottom <= box.bottom)(byId('{}').getBoundingClientRect(),"
        " byId('map').getBoundingClientRect())"
    )
    for wide, high in ((390, 844), (320, 568), (740, 360), (1280, 800)):
        _, crew = scene.begin(width=wide, height=high, touch=wide < 1000)
        for night in (False, True):
            if night:
                assert crew.value(f"{LOOK_AS}(['scheme: dark'])"), "the page has no rules for the night"
            name = f"{wide}{'-night' if night else ''}"
            crew.value(
                "measure(true), measureAt(500070, 5600060), measureAt(500350, 5600300), measureAt(500350, 5600060),"
                " byId('out').open = true, 0"
            )
            crew.value("byId('filed').textContent = '12 rows are in spots.csv.'; 0")
            look(scene, crew, "document", f"measure-{name}")
            for element in ("measure", "measured"):
                expect(crew.value(inside.format(element)), True, f"{element} is over the map, {name}")
            crew.value("measure(false), openReport(), 0")
            crew.page.wait("byId('made').innerText === '1 photo.'")
            look(scene, crew, "byId('report')", f"report-{name}")
            crew.value("closeReport(), 0")
        crew.page.close()
        scene.pages.remove(crew.page)
    _, crew = scene.begin()
    crew.press("fresh")
    crew.value("measure(true), byId('out').open = true, byId('quiet').hidden = false, 0")
    names = crew.value(NAMES)
    expect([it for it in set(names) if not it or names.count(it) > 1], [], "names that are none, or of two")


def look(scene, crew, part, name):
    """A part of the page fits the screen, has nothing too small for a finger, and all of its texts stand out."""
    scene.screenshot(crew, name)
    expect(crew.value("document.documentElement.scrollWidth <= innerWidth"), True, f"the page fits the screen, {name}")
    small = (
        f"[...{part}.querySelectorAll('button, input, select, summary')].filter(it => it.checkVisibility() &&"
        " it.getBoundingClientRect().height < 44)"
    )
    expect(crew.value(f"{small}.map(it => it.id || it.tagName)"), [], f"what is too small for a finger, {name}")
    expect(crew.value(CONTRAST), [], f"texts that don't stand out, {name}")
