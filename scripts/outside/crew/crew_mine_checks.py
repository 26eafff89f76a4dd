"""Where the crew itself is. Its checks are run by scripts/outside/crew/crew_page_check.py.

My place as the device tells it, on the map and in the list; what it tells of a form's place, as words of the note, out
as columns and in again; and a GNSS receiver. Places of the device are by gdaltransform.
"""

import contextlib
import json
import re
import sqlite3

from checks import TOP, expect, new_package, run
from crew_page import wait_until
from crew_page_check import NAMES, by_title, expect_quiet, focus, rows_of

# Stands for the device: what asks it, how often that began, what it tells to who asks, and what the page said above the
# map.
DEVICE = """(() => {
  const device = navigator.geolocation;
  const gps = window.gps = { watches: new Map(), begun: 0, asked: 0, at: null };
  device.watchPosition = (good, bad) => {
    gps.begun += 1; gps.watches.set(gps.begun, { good, bad }); return gps.begun; };
  device.clearWatch = number => void gps.watches.delete(number);
  device.getCurrentPosition = good => { gps.asked += 1; good(gps.at); };
  window.deviceTells = (longitude, latitude, more) => {
    gps.at = { coords: { longitude, latitude, accuracy: 4.2, ...more }, timestamp: 0 };
    for (const { good } of [...gps.watches.values()]) good(gps.at);
  };
  gps.said = [];
  new MutationObserver(() => gps.said.push(byId('messages').innerText)).observe(byId('messages'), { childList: true });
  window.deviceFails = code => { for (const { bad } of [...gps.watches.values()]) bad({ code, message: '' }); };
})(); 0"""
# By east and north of places in UTM, how the device tells them.
NEAR_5 = "deviceTells(9.00479959646962, 50.5545852768122)"  # 500340, 5600295
NEARER_5 = "deviceTells(9.00487018062358, 50.5546032602635)"  # 500345, 5600297
BESIDE_5 = "deviceTells(9.00482783030847, 50.554594268836)"  # 500342, 5600296
BELOW_9 = "deviceTells(9.00889375062439, 50.5566085037079)"  # 500630, 5600520
BETWEEN = "deviceTells(9.00705850539726, 50.5564287656389{})"  # 500500, 5600500
TITLES = "[...byId('rows').querySelectorAll('button')].map(it => it.firstChild.data).slice(0, 2)"
SWITCHES = (
    "[byId('locate').ariaPressed, byId('follow').hidden, byId('follow').ariaPressed, byId('mine').hidden,"
    " gps.watches.size]"
)


def in_the_middle(east, north):
    """Whether a place is in the map's middle, but for what whole pixels leave."""
    return f"fromMiddle(L.latLng({north}, {east})) < 2"


def check_my_place_that_moves(scene):
    """My place moves on the map as the device tells it, which follows it until that is moved; switched off nobody asks
    the device."""
    _, crew = scene.begin()
    page = crew.page
    crew.value(DEVICE)
    expect(crew.value(SWITCHES), ["false", True, "false", True, 0], "at first")
    crew.press("locate")
    expect(crew.value(SWITCHES), ["true", False, "true", False, 1], "switched on")
    expect(
        (crew.text("messages"), crew.text("mine")),
        ("The device is asked where it is ..", "asking the device .."),
        "before it tells a place",
    )
    said = "[byId('messages').innerText, byId('mine').innerText, document.querySelectorAll('#map .mine').length]"
    expect(crew.value(f"{NEAR_5}, {said}"), ["The device is here, within 5 m.", "within 5 m", 1], "the first place")
    expect(crew.value(in_the_middle(500340, 5600295)), True, "the map goes there")
    expect(
        crew.value("tracked.mark.getLayers().map(it => it.getRadius?.() ?? null)"),
        [4.2, None],
        "the ring, and the mark",
    )
    scene.screenshot(crew, "mine")
    crew.value(f"{NEARER_5}, 0")
    expect(crew.value(in_the_middle(500345, 5600297)), True, "the map follows")
    zoom = crew.value("map.getZoom()")
    crew.press("(document.querySelector('.leaflet-control-zoom-in'))")
    crew.value(f"{NEAR_5}, 0")
    page.wait(
        f"map.getZoom() === {zoom + 1} && !map._animatingZoom && tracked.follows && {in_the_middle(500340, 5600295)}"
    )
    x, y = crew.value("(box => [box.x + box.width / 2, box.y + box.height / 2])(byId('map').getBoundingClientRect())")
    page.drag((x + 40, y + 90), (x + 160, y + 150))
    page.wait("byId('follow').ariaPressed === 'false'")
    page.wait("!map._panAnim?._inProgress")
    middle = "[map.getCenter().lng, map.getCenter().lat]"
    before = crew.value(middle)
    expect(crew.value(f"{NEARER_5}, {middle}"), before, "the map's middle, once it was dragged")
    expect(
        crew.value("(({ lng, lat }) => [Math.round(lng), Math.round(lat)])(tracked.mark.getLayers()[1].getLatLng())"),
        [500345, 5600297],
        "the mark",
    )
    crew.press("follow")
    expect(
        crew.value(f"[{in_the_middle(500345, 5600297)}, byId('follow').ariaPressed]"),
        [True, "true"],
        "it follows again",
    )
    crew.press("follow")
    before = crew.value(middle)
    expect(crew.value(f"{NEAR_5}, {middle}"), before, "the map's middle, let go by the button")
    crew.press("locate")
    expect(crew.value(SWITCHES), ["false", True, "false", True, 0], "switched off")
    expect(
        crew.value(f"{NEARER_5}, [document.querySelectorAll('#map .mine').length, tracked.fix, tracked.looking]"),
        [0, None, 0],
        "what is left",
    )
    expect_quiet(crew)


def check_my_place_by_keys_and_fingers(scene):
    """My place is switched and followed by keys, and let go by arrows and by a finger that drags; another system ends
    it."""
    _, crew = scene.begin()
    page = crew.page
    crew.value(DEVICE)
    focus(page, "locate")
    page.press("Enter")
    crew.value(f"{NEAR_5}, byId('map').focus(), 0")
    page.press("ArrowRight")
    page.wait("byId('follow').ariaPressed === 'false'")
    focus(page, "follow")
    page.press("Enter")
    expect(crew.value("byId('follow').ariaPressed"), "true", "by keys")
    crew.value("centreOn([5600600, 500600]), 0")
    expect(crew.value("byId('follow').ariaPressed"), "false", "where the map goes to a place")
    page.value("byId('pyramids').value = 'plan'; byId('pyramids').dispatchEvent(new Event('change')); 0")
    expect(crew.value(SWITCHES), ["false", True, "false", True, 0], "in a plan")
    expect(
        crew.value("[byId('locate').hidden, document.querySelectorAll('#map .mine').length]"),
        [True, 0],
        "the button in a plan",
    )
    expect_quiet(crew)
    _, crew = scene.begin(width=360, height=740, touch=True)
    crew.value(DEVICE)
    crew.press("locate")
    crew.page.wait("gps.watches.size === 1")
    crew.value(f"{NEAR_5}, 0")
    x, y = crew.value("(box => [box.x + box.width / 2, box.y + box.height - 40])(byId('map').getBoundingClientRect())")

    def is_let_go():
        # A finger that is held up on a busy machine drags nothing, and is put down again.
        crew.page.touch(*[[(x + 8 * step, y)] for step in range(10)])
        return crew.value("byId('follow').ariaPressed === 'false'")

    wait_until(is_let_go, "a finger that drags lets go")
    crew.press("follow")
    crew.page.wait(f"byId('follow').ariaPressed === 'true' && {in_the_middle(500340, 5600295)}")
    expect_quiet(crew)


def check_my_place_that_is_old(scene):
    """Where no new place comes that is said, and the mark is another; where the device fails it says why."""
    _, crew = scene.begin()
    crew.value(DEVICE)
    crew.press("locate")
    crew.value(f"{NEAR_5}, 0")
    crew.page.wait("byId('mine').classList.contains('old')")
    words, looks, said = crew.value(
        "[byId('mine').innerText, document.querySelector('#map .mine').classList.contains('old'), gps.said]"
    )
    assert re.fullmatch("within 5 m, [0-9]+ s old", words), words
    expect(
        (looks, said[-1]),
        (True, "No new place comes: my place on the map is where it was told last."),
        "what is said of an old place",
    )
    scene.screenshot(crew, "mine-old")
    now = "[byId('mine').innerText, byId('messages').innerText, document.querySelectorAll('#map .old').length]"
    expect(crew.value(f"{NEARER_5}, {now}"), ["within 5 m", "", 0], "a new place")
    said = "byId('messages').innerText"
    expect(
        crew.value(f"deviceFails(3), [{said}, tracked.on]"),
        ["The device didn't tell where it is within 20 seconds.", True],
        "a device that is slow",
    )
    why = "The browser may not tell where the device is: allow it for this address."
    expect(
        crew.value(f"deviceFails(1), [...{SWITCHES}, {said}]"),
        ["false", True, "false", True, 0, why],
        "a device that may not be asked",
    )
    crew.press("locate")
    expect(
        crew.value(f"deviceTells(-70, 50), [{said}, tracked.on]"),
        ["The device is too far from here for this map's system.", False],
        "far away",
    )
    expect_quiet(crew)


def check_the_nearest_to_my_place(scene):
    """'Nearest first' goes from my place where that is known, else from the map's middle; which of them is said."""
    _, crew = scene.begin()
    crew.value(DEVICE)
    crew.value("map.setView([5600360, 500420], 1, { animate: false }); 0")
    expect(crew.value("byId('nearest').hidden"), True, "in another order")
    crew.value("byId('order').value = 'near'; byId('order').dispatchEvent(new Event('change')); 0")
    told = f"[{TITLES}, byId('nearest').innerText]"
    middle = ["Stone 6", "Stone 5"], "The nearest to the map's middle are first."
    expect(crew.value(told), list(middle), "by the map's middle")
    crew.press("locate")
    unknown = "The nearest to the map's middle are first: my place isn't known."
    expect(crew.value(told), [middle[0], unknown], "before the device tells a place")
    mine = "The nearest to my place are first."
    expect(crew.value(f"{BELOW_9}, {told}"), [["Stone 9", "Stone 8"], mine], "by my place")
    ways = "byId('rows').querySelector('small').innerText"
    expect(crew.value(f"{BELOW_9}, {ways}"), "20 m, 0° (N) · from the books · 9", "the way")
    crew.value("map.setView([5600060, 500070], 1, { animate: false }); 0")
    expect(crew.value(f"{BELOW_9}, {told}"), [["Stone 9", "Stone 8"], mine], "where the map was moved")
    expect(crew.value(f"{NEAR_5}, {told}"), [["Stone 5", "Stone 4"], mine], "where I have moved")
    before, now = crew.value(f"[({NEAR_5}, {ways}), ({BESIDE_5}, {ways})]")
    expect(now, before, "the list where I have hardly moved")
    scene.screenshot(crew, "nearest")
    aged = "tracked.fix.came = { ticks: -1e6, clock: 0 }, lookAtMyPlace()"
    expect(
        crew.value(f"{BELOW_9}, {aged}, {told}"),
        [["Stone 1", "Stone 2"], unknown],
        "by the map's middle, where my place is old",
    )
    expect(crew.value(f"{BELOW_9}, {told}"), [["Stone 9", "Stone 8"], mine], "by my place again")
    crew.press("locate")
    expect(crew.value(told), [["Stone 1", "Stone 2"], middle[1]], "switched off")
    expect_quiet(crew)


def check_what_the_device_told_in_the_note(scene):
    """How exact, how high and how old the device's place is are words of the note; a place that is set otherwise takes
    them away."""
    seat, crew = scene.begin()
    crew.value(DEVICE)
    crew.value(f"{BETWEEN.format(', { altitude: 181.504, altitudeAccuracy: 7 }')}, 0")
    crew.press("fresh")
    crew.fill(title="Oak", note="under the oak")
    crew.press("here")
    crew.page.wait("byId('told').innerText === 'The device tells this place within 5 m.'")
    # How many seconds old it is nobody knows on a busy machine.
    fields = "['east', 'north', 'note'].map(it => byId(it).value.replace(/ age=[0-9]+/, ' age=N'))"
    said = "byId('told').innerText.replace(/ age=[0-9]+/, ' age=N')"
    told = ["500500.00", "5600500.00", "under the oak acc=4.2 h=181.5 age=N"]
    expect(crew.value(fields), told, "the device's place")
    scene.screenshot(crew, "mine-note")
    crew.press("middle")
    away = "Taken out of the note, since the place is another now: acc=4.2 h=181.5 age=N"
    expect((crew.value(fields)[2], crew.value(said)), ("under the oak", away), "the map's middle")
    for set_otherwise in (lambda: crew.fill(place=(500_400, 5_600_500)), lambda: crew.write("east", "500401")):
        crew.press("here")
        crew.page.wait("byId('told').innerText.startsWith('The device tells')")
        expect(crew.value(fields), told, "the device's place again")
        set_otherwise()
        expect((crew.value(fields)[2], crew.value(said)), ("under the oak", away), "a place by a tap, or typed")
    crew.press("here")
    crew.page.wait("byId('told').innerText.startsWith('The device tells')")
    crew.reload()
    crew.page.wait("form !== null")
    expect(crew.value(fields), told, "a form that wasn't saved, when the page is loaded again")
    crew.save()
    crew.wait_until_it_stands()
    crew.open("Oak")
    expect(crew.value(fields), told, "the row, opened again")
    crew.press("middle")
    expect((crew.value(fields)[2], crew.value(said)), ("under the oak", away), "the middle in place of the device's")
    for _ in range(2):
        crew.press("leave")
    crew.value(DEVICE)
    crew.value(f"{BETWEEN.format(', { altitude: 181.504 }')}, 0")
    crew.open("Stone 5")
    crew.write("note", "from the books h=179")
    crew.press("here")
    crew.page.wait("byId('told').innerText === 'The device tells this place within 5 m. The note keeps its own h=179.'")
    expect(crew.value(fields)[2], "from the books h=179 acc=4.2 age=N", "a note with a height of its own")
    crew.save()
    crew.wait_until_it_stands()
    crew.open("Stone 6")
    crew.value(f"byId('note').value = '{'n' * 960}', 0")
    crew.press("here")
    crew.page.wait(
        "byId('told').innerText === 'The device tells this place within 5 m. The note has no room for that.'"
    )
    expect(crew.value(fields)[2], "n" * 960, "a note without room")
    for _ in range(2):
        crew.press("leave")
    expect_quiet(crew)
    rows = rows_of(seat)
    note = by_title(rows, "Oak")[1][0]
    expect(re.sub("age=[0-9]+", "age=N", note), f"@25832:500500.00/5600500.00 {told[2]}", "the row")
    out_and_in_again(scene, seat, rows)


def out_and_in_again(scene, seat, rows):
    """What the device told goes out as columns of numbers, and comes in again as the same words."""
    out, records = scene.folder / "mine.gpkg", scene.folder / "mine.csv"
    run(TOP / "tools" / "export_standard.py", seat.file, out, "--points", "spots", "--columns", "spots")
    with contextlib.closing(sqlite3.connect(out)) as opened:
        columns = [(name, kind) for _, name, kind, *_ in opened.execute("PRAGMA table_info(spots)")]
        expect(columns[-3:], [("acc", "REAL"), ("h", "REAL"), ("age", "INTEGER")], "the columns")
        found = {title: it for title, *it in opened.execute("SELECT title, note, acc, h, age >= 0 FROM spots")}
    expect([found[it] for it in ("Oak", "Stone 5", "Stone 6")],
           [["under the oak", 4.2, 181.5, 1], ["from the books", 4.2, 179, 1], ["from the books", None, None, None]],
           "what they have")  # fmt: skip
    run(TOP / "tools" / "import_standard.py", out, records, "--columns", "--key", "id", status=None)
    file = scene.folder / "mine.mmpkg"
    new_package(file, records.read_text())
    with contextlib.closing(sqlite3.connect(f"file:{file}?mode=ro", uri=True)) as opened:
        notes = dict(opened.execute("SELECT title, note FROM mm_rows WHERE table_name = 'spots'"))
    expect(len(notes), len(rows), "rows that came in again")
    words = {it: notes[it].split(" ", 1)[1] for it in ("Oak", "Stone 6")}
    before = by_title(rows, "Oak")[1][0].split(" ", 1)[1]
    expect(words, {"Oak": before, "Stone 6": "from the books"}, "their notes")


# Stands for a serial port, before the page's scripts: what a receiver at it tells, and how it goes. A moment of a
# receiver
# with corrections is at 9.005, 50.552, that is 500354.2158, 5600007.5305.
SERIAL = """(() => {
  const sum = text => [...text].reduce((all, it) => all ^ it.charCodeAt(0), 0)
    .toString(16).toUpperCase().padStart(2, '0');
  const sentences = (second, fixed) => [
    `GNRMC,1200${second}.00,A,5033.12000,N,00900.30000,E,0.01,,290626,,,${fixed ? 'R' : 'A'},V`,
    `GNGGA,1200${second}.00,5033.12000,N,00900.30000,E,${fixed ? 4 : 1},14,0.60,133.500,M,48.000,M,1.0,0000`,
    `GNGST,1200${second}.00,0.02,0.012,0.009,45.0,0.010,0.010,0.021`].map(it => `$${it}*${sum(it)}\\r\\n`).join('');
  let lines = null, ticks = 0, second = 10;
  const port = {
    readable: null, opened: [],
    async open(how) {
      if (window.refuses) throw Object.assign(new Error('no access'), { name: 'NetworkError' });
      port.opened.push(how.baudRate);
      port.readable = new ReadableStream({ start(it) { lines = it; }, cancel() { lines = null; } });
    },
    async close() { port.readable = lines = null; },
  };
  const requestPort = async () => {
    if (window.choosesNone) throw Object.assign(new Error('none chosen'), { name: 'NotFoundError' });
    return port;
  };
  Object.defineProperty(navigator, 'serial', { configurable: true, value: { requestPort } });
  window.opened = port.opened;
  window.lineTells = text => lines.enqueue(new TextEncoder().encode(text));
  const tick = fixed => { second = second === 59 ? 10 : second + 1; lines && lineTells(sentences(second, fixed)); };
  window.lineRuns = fixed => { clearInterval(ticks); ticks = setInterval(tick, 100, fixed); };
  window.lineStops = () => clearInterval(ticks);
  window.lineBreaks = () => { const was = lines;
    port.readable = lines = null; was.error(new Error('The device has been lost.')); };
})();"""


def check_a_receiver(scene):
    """A receiver at a serial port tells places in the device's stead: to the form, with how exact and how high, and on
    the map."""
    seat, crew = scene.begin(before=SERIAL)
    page = crew.page
    crew.value(DEVICE)
    expect(
        crew.value("[byId('receivers').hidden, byId('receiver').innerText]"),
        [False, "Connect a receiver"],
        "the button",
    )
    crew.value("byId('speed').value = '38400', 0")
    crew.press("receiver")
    page.wait("byId('received').innerText === 'The receiver tells nothing yet.'")
    expect(
        crew.value("[opened, byId('speed').disabled, byId('receiver').innerText]"),
        [[38400], True, "Leave the receiver"],
        "the port",
    )
    crew.value("lineRuns(true), 0")
    page.wait(
        "byId('received').innerText === 'RTK fixed, 14 satellites, within 0.03 m, 181.50 m above the ellipsoid (within"
        " 0.05 m)'"
    )
    scene.screenshot(crew, "receiver")
    crew.press("locate")
    page.wait("byId('mine').innerText === 'RTK fixed, within 0.03 m' && gps.watches.size === 0")
    crew.value(f"{NEAR_5}, 0")
    crew.press("fresh")
    crew.write("title", "Corner")

    def is_told():
        # A machine that stood still for ten seconds has the device asked.
        crew.press("here")
        page.wait("byId('told').innerText.startsWith('The ')")
        return crew.value("byId('told').innerText === 'The receiver tells this place within 0.03 m.'")

    wait_until(is_told, "the receiver's place")
    fields = "['east', 'north', 'note'].map(it => byId(it).value.replace(/age=[0-9]+$/, 'age=N'))"
    expect(crew.value(fields), ["500354.216", "5600007.531", "acc=0.028 h=181.5 age=N"], "the receiver's place")
    crew.save()
    crew.wait_until_it_stands()
    crew.value("lineBreaks(), 0")
    page.wait("byId('receiver').innerText === 'Connect a receiver'")
    expect(crew.text("received"), "The receiver is gone.", "a receiver that is gone")
    page.wait("gps.watches.size === 1")
    gone = "The receiver is gone: the device is asked where it is again."
    expect(crew.value(f"gps.said.some(it => it.includes('{gone}'))"), True, "what is said above the map")
    expect(crew.value(f"{NEAR_5}, byId('mine').innerText"), "within 5 m", "the device in its stead")
    crew.press("receiver")
    page.wait("gps.watches.size === 0 && byId('mine').innerText === 'RTK fixed, within 0.03 m'")
    crew.press("receiver")
    page.wait("byId('receiver').innerText === 'Connect a receiver' && gps.watches.size === 1")
    expect((crew.text("received"), crew.value("opened.length")), ("", 2), "a receiver that was left")
    expect_quiet(crew)
    note = by_title(rows_of(seat), "Corner")[1][0]
    assert re.fullmatch(r"@25832:500354\.216/5600007\.531 acc=0\.028 h=181\.5 age=[0-9]+", note), note


def check_a_receiver_without_a_place(scene):
    """A receiver without a place, another program's port, one that can't be opened and none chosen are told; the device
    is asked meanwhile."""
    _, crew = scene.begin(before=SERIAL)
    page = crew.page
    crew.value(DEVICE)
    crew.value("window.choosesNone = true, 0")
    crew.press("receiver")
    page.wait("!byId('receiver').disabled")
    expect((crew.text("received"), crew.value("receiver")), ("", None), "where none was chosen")
    crew.value("choosesNone = false, window.refuses = true, 0")
    crew.press("receiver")
    page.wait('byId("received").innerText === "The receiver can\'t be opened: no access"')
    page.wait("!byId('receiver').disabled")
    crew.value("refuses = false, 0")
    crew.press("receiver")
    page.wait("byId('received').innerText === 'The receiver tells nothing yet.'")
    crew.value("lineTells('x'.repeat(5000)), 0")
    page.wait("""byId('received').innerText === "What comes isn't a receiver's NMEA: is the speed right?" """)
    crew.value(f"lineTells({json.dumps(chr(10) + '$GPGGA,,,,,,0,,,,,,,,*66' + chr(13) + chr(10))}), 0")
    page.wait("byId('received').innerText === 'no place'")
    crew.press("locate")
    page.wait("gps.watches.size === 1")
    expect(crew.value(f"{NEAR_5}, byId('mine').innerText"), "within 5 m", "the device meanwhile")
    crew.value("lineRuns(false), 0")
    page.wait("gps.watches.size === 0 && byId('mine').innerText === 'GNSS, within 0.03 m'")
    crew.value("lineStops(), 0")
    page.wait("gps.watches.size === 1")
    expect(crew.value("byId('mine').classList.contains('old')"), True, "a receiver that tells no more places")
    expect(
        crew.value(f"{NEAR_5}, [byId('mine').innerText, byId('mine').classList.contains('old')]"),
        ["within 5 m", False],
        "the device in its stead",
    )
    expect_quiet(crew)


def check_a_receiver_is_offered_where_there_are_ports(scene):
    """Where the browser knows no serial ports there is no button for a receiver, and nothing else is missing."""
    _, crew = scene.begin()
    expect(crew.value("byId('receivers').hidden === !navigator.serial"), True, "whether the button is there")
    expect(crew.value("byId('locate').hidden"), False, "whether the button for my place is there")
    expect_quiet(crew)


def check_my_place_on_small_screens(scene):
    """The buttons and words of my place fit each screen, lie beside each other, and stand out."""
    inside = (
        "(box => it => it.left >= box.left && it.right <= box.right && it.top >= box.top && it.bottom <="
        " box.bottom)(byId('map').getBoundingClientRect())"
    )
    boxes = "['locate', 'measure', 'follow', 'mine'].map(it => byId(it).getBoundingClientRect())"
    lie = """(boxes => boxes.some((one, at) => boxes.slice(at + 1).some(it => one.left < it.right && it.left < one.right
      && one.top < it.bottom && it.top < one.bottom)))"""
    for wide, high in ((320, 568), (360, 740), (360, 450), (740, 360), (1024, 768), (1280, 800)):
        _, crew = scene.begin(width=wide, height=high, touch=wide < 1280, before=SERIAL)
        crew.value(DEVICE)
        crew.value(f"showMyPlace(true), {NEAR_5}, tracked.fix.came.clock -= 90000, lookAtMyPlace(), 0")
        name = f"mine-{wide}-{high}"
        scene.screenshot(crew, name)
        expect(crew.value(f"{boxes}.every({inside})"), True, f"all is over the map, {name}")
        star = (
            "(it => new DOMRect(it.x + it.width / 2 - 10, it.y + it.height / 2 - 10, 20,"
            " 20))(document.querySelector('#map .mine').getBoundingClientRect())"
        )
        expect(crew.value(f"{lie}([...{boxes}, {star}])"), False, f"one lies over another, or over the mark, {name}")
        expect(crew.value("document.documentElement.scrollWidth <= innerWidth"), True, f"the page fits, {name}")
        small = "['locate', 'follow', 'receiver', 'speed'].filter(it => byId(it).getBoundingClientRect().height < 44)"
        expect(crew.value(small), [], f"what is too small for a finger, {name}")
        names = crew.value(NAMES)
        expect(
            [it for it in set(names) if not it or names.count(it) > 1], [], f"names that are none, or of two, {name}"
        )
        crew.page.close()
        scene.pages.remove(crew.page)
