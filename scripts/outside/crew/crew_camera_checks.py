"""Pictures by the page's own camera, and what becomes of a file's bytes and Exif. Its checks are run by
scripts/outside/crew/crew_page_check.py.

The camera is one of the browser's own making. What Exif tells is what Debian's python3-piexif reads from it, where that
is there.
"""

import base64
import contextlib
import datetime
import importlib.util
import json
import sqlite3
import struct
import time

from checks import expect
import browsers
from crew_mine_checks import SERIAL
from crew_page import Crew
from crew_page_check import CONTRAST, NAMES, by_title, expect_quiet, focus, rows_of, touch

if importlib.util.find_spec("piexif"):
    import piexif
else:
    piexif = None

OPEN = "sight?.stream && !byId('shutter').disabled"
TAKEN = "form !== null && form.photos.length === {} && form.coming === 0 && byId('thumbnails').ariaBusy === 'false'"
# Before the page's own code: its address has no device. A page that isn't of a safe address, as the empty one before
# it, knows none at all.
NO_DEVICE = "if (navigator.mediaDevices) navigator.mediaDevices.enumerateDevices = async () => [];"
# Keeps each stream that the page is given.
STREAMS = """(() => {
  const get = navigator.mediaDevices.getUserMedia.bind(navigator.mediaDevices);
  window.streams = [];
  navigator.mediaDevices.getUserMedia = async how => {
    const stream = await get(how);
    streams.push(stream);
    return stream;
  };
})(); 0"""
LET_GO = (
    "streams.length === {} && streams.every(it => it.getTracks().every(track => track.readyState === 'ended')) && sight"
    " === null"
)
UNSEEN = "The camera was let go, since it wasn't to be seen."


@contextlib.contextmanager
def with_camera(scene):
    """A browser of the scene's kind with a camera."""
    profile = scene.folder / f"camera-{time.monotonic_ns()}"
    with browsers.start(scene.command, profile, camera=True) as browser:
        yield browser


def begin(scene, browser, **how):
    """A desk, and its page in a browser with a camera."""
    seat = scene.seat()
    crew = Crew(browser, seat.address, **how)
    crew.page.wait("!byId('shoot').hidden")
    crew.value(STREAMS)
    return seat, crew


def open_camera(crew):
    crew.press("shoot")
    crew.page.wait(OPEN)


def photos_of(seat, row):
    """By number, the types and bytes of the photos of a row."""
    query = (
        "SELECT m.id, content_type, data FROM mm_map JOIN mm_media m ON m.table_name = 'photos' AND m.id = related_id "
        "JOIN mm_blobs b ON b.id = m.blob WHERE mapping = 'spots_photos' AND base_id = ?"
    )
    with contextlib.closing(sqlite3.connect(f"file:{seat.file}?mode=ro&immutable=1", uri=True)) as opened:
        return {number: rest for number, *rest in opened.execute(query, (row,))}


def exif_of(data):
    """What piexif reads of a JPEG, by part and tag; None where it isn't there."""
    if piexif is None:
        return None
    parts = piexif.load(data)
    told = {name: {str(tag): plain(it) for tag, it in parts[name].items()} for name in ("0th", "Exif", "GPS")}
    return json.loads(json.dumps(told))  # which has lists where piexif has pairs


def plain(value):
    """A value of Exif; a text without the zero at its end."""
    return value.decode("latin-1").rstrip("\0") if isinstance(value, bytes) else value


def degrees_of(values):
    return sum(over / under / 60**at for at, (over, under) in enumerate(values))


def check_a_picture_by_the_camera(scene):
    """A picture that is taken in the form stands with its row, and its Exif tells when, where and in which direction;
    its place is offered."""
    with with_camera(scene) as browser:
        seat, crew = begin(scene, browser)
        crew.page.device_is_at(9.005, 50.552, 4.2)
        began = time.time()
        crew.press("fresh")
        crew.write("title", "By the camera")
        open_camera(crew)
        crew.page.wait("byId('senses').innerText.includes('the place (within 5 m)')")
        turn = (
            "dispatchEvent(new DeviceOrientationEvent('deviceorientationabsolute', { absolute: true, alpha: 297, beta:"
            " 90, gamma: 0 })); 0"
        )
        crew.value(turn)
        words = "The picture tells the time, the place (within 5 m), and the direction, 63° (NE)."
        expect(crew.text("senses"), words, "what the picture will tell")
        scene.screenshot(crew, "camera")
        crew.press("shutter")
        crew.page.wait(TAKEN.format(1))
        ended = time.time()
        crew.page.wait("!byId('shot').hidden")
        expect(
            crew.value("[byId('east').value, sight !== null, byId('sight').innerText]"),
            ["", True, ""],
            "behind the picture",
        )
        crew.press("shutter")
        crew.page.wait(TAKEN.format(2))
        first, _ = crew.value("form.photos.map(it => it.id)")
        crew.save()
        crew.page.wait(LET_GO.format(1))
        crew.wait_until_it_stands()
        expect_quiet(crew)
        number, _ = by_title(rows_of(seat), "By the camera")
        photos = photos_of(seat, number)
        expect([kind for kind, _ in photos.values()], ["image/jpeg"] * 2, "its photos")
        told = exif_of(photos[first][1])
        if told:
            exif, gps = told["Exif"], told["GPS"]
            moment = datetime.datetime.strptime(f"{exif['36867']} {exif['36881']}", "%Y:%m:%d %H:%M:%S %z").timestamp()
            assert began - 1 <= moment <= ended + 1, f"taken at {moment}, between {began} and {ended}"
            assert abs(degrees_of(gps["2"]) - 50.552) < 1e-7 and abs(degrees_of(gps["4"]) - 9.005) < 1e-7, gps
            expect(
                [gps[it] for it in ("1", "3", "16", "17", "31")],
                ["N", "E", "M", [6300, 100], [420, 100]],
                "place and direction",
            )


def check_a_receivers_place_in_a_picture(scene):
    """A picture has the place of the receiver that is connected, with how exact that is, and not the tablet's own."""
    with with_camera(scene) as browser:
        seat, crew = begin(scene, browser, before=SERIAL)
        crew.page.device_is_at(9.3, 50.9, 30)
        crew.press("receiver")
        crew.value("lineRuns(true), 0")
        crew.page.wait("byId('received').innerText.startsWith('RTK fixed')")
        crew.press("fresh")
        crew.write("title", "By the receiver")
        open_camera(crew)
        crew.page.wait("byId('senses').innerText === 'The picture tells the time, the place (within 0.03 m).'")
        crew.press("shutter")
        crew.page.wait(TAKEN.format(1))
        photo = crew.value("form.photos[0].id")
        crew.save()
        crew.wait_until_it_stands()
        expect(crew.value("askers.has('camera')"), False, "whether the place is asked for still")
        expect_quiet(crew)
        number, _ = by_title(rows_of(seat), "By the receiver")
        told = exif_of(photos_of(seat, number)[photo][1])
        if told:
            gps = told["GPS"]
            assert abs(degrees_of(gps["2"]) - 50.552) < 1e-7 and abs(degrees_of(gps["4"]) - 9.005) < 1e-7, gps
            expect(gps["31"], [3, 100], "how exact it is")


def check_the_camera_is_let_go(scene):
    """Where the camera isn't seen any more it is let go at once, however that comes, also where it is still being asked
    for."""
    hide = (
        "Object.defineProperty(document, 'hidden', {{ get: () => {}, configurable: true }}), document.dispatchEvent(new"
        " Event('visibilitychange')), 0"
    )
    with with_camera(scene) as browser:
        _, crew = begin(scene, browser)
        page, count = crew.page, 0
        crew.press("fresh")
        ways = {
            "Camera off": (lambda: crew.press("shut"), ""),
            "Camera again": (lambda: crew.press("shoot"), ""),
            "a scroll": (lambda: crew.value("byId('panel').scrollTop = byId('panel').scrollHeight, 0"), UNSEEN),
            "the panel goes": (lambda: crew.press("toggle"), UNSEEN),
            "another tab": (lambda: crew.value(hide.format("true")), UNSEEN),
            "a report": (lambda: crew.value("byId('reporter').click(), 0"), UNSEEN),
            "the form closes": (lambda: crew.press("leave"), UNSEEN),
        }
        for way, (act, words) in ways.items():
            open_camera(crew)
            count += 1
            act()
            page.wait(LET_GO.format(count))
            expect(
                crew.value("[byId('sight').textContent, byId('finder').hidden, byId('shoot').ariaExpanded]"),
                [words, True, "false"],
                way,
            )
            if way == "the panel goes":
                crew.press("toggle")
            crew.value(f"{hide.format('false')}, byId('report').hidden || closeReport(), 0")
        crew.press("fresh")
        crew.value("openCamera(), closeCamera(), 0")
        page.wait(LET_GO.format(count + 1))
        expect(
            crew.value("[byId('finder').hidden, byId('sight').textContent]"),
            [True, ""],
            "where it was still being asked for",
        )
        expect_quiet(crew)


def one_device(kind):
    """So it has one device, of this kind."""
    return NO_DEVICE.replace("[]", f"[{{ kind: '{kind}', deviceId: '' }}]")


def refused_device(kind):
    """So it has one, which the page isn't let have."""
    refuses = "navigator.mediaDevices.getUserMedia = async () => { throw new DOMException('', 'NotAllowedError'); };"
    return f"{one_device(kind)} if (navigator.mediaDevices) {refuses}"


def check_where_there_is_no_camera(scene):
    """Without a camera, or an address that may have none, there is no such button; where it is refused the form says
    so, and files come as ever."""
    none = "Object.defineProperty(navigator, 'mediaDevices', { value: undefined });"
    seat = scene.seat()
    for before in (none, NO_DEVICE):
        crew = scene.crew(seat.address, before=before)
        crew.press("fresh")
        expect(
            crew.value("offerCamera().then(() => [byId('shoot').hidden, byId('camera').disabled])"),
            [True, False],
            f"the buttons where {before}",
        )
        expect_quiet(crew)
    crew = scene.crew(seat.address, before=refused_device("videoinput"))
    crew.page.wait("!byId('shoot').hidden")
    crew.press("fresh")
    crew.press("shoot")
    words = "The browser doesn't let this page have the camera: allow it for this address, or choose a file."
    crew.page.wait(f"byId('sight').innerText === {json.dumps(words)}")
    expect(crew.value("[sight, byId('finder').hidden]"), [None, True], "the camera")
    crew.fill(title="By a file", photos=[scene.photo])
    crew.save()
    crew.wait_until_it_stands()
    expect_quiet(crew)
    number, _ = by_title(rows_of(seat), "By a file")
    expect([kind for kind, _ in photos_of(seat, number).values()], ["image/jpeg"], "its photo")


def check_the_camera_by_keys_and_on_small_screens(scene):
    """The camera works by keys and by fingers, and fits a phone and a tablet: what takes a picture is seen without a
    scroll."""
    with with_camera(scene) as browser:
        _, crew = begin(scene, browser)
        page = crew.page
        crew.press("fresh")
        focus(page, "shoot")
        page.press("Enter")
        page.wait(f"{OPEN} && document.activeElement.id === 'shutter'")
        names = crew.value(NAMES)
        expect([it for it in set(names) if not it or names.count(it) > 1], [], "names that are none, or of two")
        page.press("Enter")
        page.wait(TAKEN.format(1))
        page.press("Escape")
        page.wait(LET_GO.format(1))
        expect(crew.value("[form !== null, document.activeElement.id]"), [True, "shoot"], "behind Escape")
        page.close()
        for wide, high in ((360, 740), (740, 360), (1024, 768)):
            _, crew = begin(scene, browser, width=wide, height=high, touch=True)
            touch(crew, "fresh")
            crew.page.wait("form !== null && byId('thumbnails').ariaBusy === 'false'")
            touch(crew, "shoot")
            crew.page.wait(OPEN)
            scene.screenshot(crew, f"camera-{wide}")
            box = crew.value(
                "['panel', 'acts', 'shutter', 'viewfinder'].map(it => byId(it).getBoundingClientRect()).map(it =>"
                " [it.top, it.bottom])"
            )
            (above, _), (below, _), (top, bottom), (_, seen) = box
            assert (
                above <= top and bottom <= below and seen > above
            ), f"'Take it' at {top} to {bottom} of {above} to {below}, {wide} pixels"
            expect(
                crew.value("document.documentElement.scrollWidth <= innerWidth"),
                True,
                f"the page fits the screen, {wide}",
            )
            small = (
                "[...byId('finder').querySelectorAll('button')].filter(it => it.checkVisibility() &&"
                " it.getBoundingClientRect().height < 44)"
            )
            expect(crew.value(f"{small}.map(it => it.id)"), [], "what is too small for a finger")
            expect(crew.value(CONTRAST), [], "texts that don't stand out")
            touch(crew, "shutter")
            crew.page.wait(TAKEN.format(1))
            crew.page.close()


SEEN = """(it => {
  const box = it.getBoundingClientRect(), x = box.x + box.width / 2, y = box.y + box.height / 2;
  return it.checkVisibility() && it.contains(document.elementFromPoint(x, y));
})"""


def touch_seen(crew, element):
    """Touches what is seen where it is: nobody scrolls for it."""
    crew.page.wait(f"{SEEN}(byId('{element}'))")
    touch(crew, element)


def check_a_point_with_a_photo_by_five_touches(scene):
    """A new row with a place and a photo takes five touches and no scroll, on a phone and on a tablet."""
    with with_camera(scene) as browser:
        for wide, high in ((360, 740), (1024, 768)):
            seat, crew = begin(scene, browser, width=wide, height=high, touch=True)
            touch_seen(crew, "fresh")
            crew.page.wait("form !== null && byId('thumbnails').ariaBusy === 'false'")
            crew.page.touch(
                [
                    tuple(
                        crew.value(
                            "(box => [box.x + box.width / 2, box.y + box.height /"
                            " 3])(byId('map').getBoundingClientRect())"
                        )
                    )
                ]
            )
            crew.page.wait("byId('east').value !== ''")
            touch_seen(crew, "shoot")
            crew.page.wait(OPEN)
            touch_seen(crew, "shutter")
            crew.page.wait(TAKEN.format(1))
            photo, number = crew.value("[form.photos[0].id, form.row.id]")
            touch_seen(crew, "save")
            crew.page.wait("byId('edit').hidden")
            crew.wait_until_it_stands()
            expect_quiet(crew)
            _, note, _ = rows_of(seat)[number]
            assert note.startswith("@25832:5005"), f"{note}, {wide} pixels"
            expect(list(photos_of(seat, number)), [photo], f"the photo, {wide} pixels")
            crew.page.close()


def exif_on_its_side():
    """Exif of a camera that stood on its side (orientation 6), with a size, at 50° 33' 7.2" N, 9° 0' 18" E."""
    first = (
        struct.pack("<H", 3)
        + struct.pack("<HHIHH", 0x0112, 3, 1, 6, 0)
        + struct.pack("<HHII", 0x8769, 4, 1, 50)
        + struct.pack("<HHII", 0x8825, 4, 1, 80)
    )
    sizes = (
        struct.pack("<H", 2)
        + struct.pack("<HHII", 0xA002, 4, 1, 2400)
        + struct.pack("<HHII", 0xA003, 4, 1, 1600)
        + bytes(4)
    )
    gps = struct.pack("<H", 4) + struct.pack("<HHI", 1, 2, 2) + b"N\0\0\0" + struct.pack("<HHII", 2, 5, 3, 134)
    gps += struct.pack("<HHI", 3, 2, 2) + b"E\0\0\0" + struct.pack("<HHII", 4, 5, 3, 158) + bytes(4)
    rationals = struct.pack("<12I", 50, 1, 33, 1, 72, 10, 9, 1, 0, 1, 18, 1)
    tiff = struct.pack("<2sHI", b"II", 42, 8) + first + bytes(4) + sizes + gps + rationals
    assert tiff.index(sizes) == 50 and tiff.index(gps) == 80 and tiff.index(rationals) == 134
    return b"Exif\0\0" + tiff


def jpeg_on_its_side(crew, file, wide, high):
    """A JPEG of the browser's making whose left half is red, the other blue, with the Exif above."""
    halves = f"""(it => {{
      const [wide, high, ground] = [it.width = {wide}, it.height = {high}, it.getContext('2d')];
      [ground.fillStyle = '#f00', ground.fillRect(0, 0, wide / 2, high),
        ground.fillStyle = '#00f', ground.fillRect(wide / 2, 0, wide / 2, high)];
      return it.toDataURL('image/jpeg');
    }})(document.createElement('canvas'))"""
    data, exif = base64.b64decode(crew.value(halves).split(",")[1]), exif_on_its_side()
    file.write_bytes(data[:2] + b"\xff\xe1" + struct.pack(">H", len(exif) + 2) + exif + data[2:])
    return file


def check_the_bytes_and_exif_of_files(scene):
    """A JPEG that is small enough stands with each of its bytes; one that is made smaller keeps its Exif, upright;
    other pictures become JPEG."""
    seat, crew = scene.begin()
    small = jpeg_on_its_side(crew, scene.folder / "small.jpg", 480, 320)
    large = jpeg_on_its_side(crew, scene.folder / "large.jpg", 2400, 1600)
    crew.press("fresh")
    crew.fill(title="By files", photos=[small, large, scene.photo])
    look = """Promise.all(form.photos.map(async it => {
      const image = await createImageBitmap(new Blob([it.bytes])),
        drawing = new OffscreenCanvas(image.width, image.height).getContext('2d');
      drawing.drawImage(image, 0, 0);
      const [red, , blue] = drawing.getImageData(image.width / 2, 20, 1, 1).data;
      return [image.width, image.height, red > 200, blue > 200];
    }))"""
    expect(crew.value(look)[:2], [[320, 480, True, False], [1365, 2048, True, False]], "sizes, and what is above")
    crew.page.wait("!byId('shot').hidden")
    numbers = crew.value("form.photos.map(it => it.id)")
    crew.save()
    crew.wait_until_it_stands()
    expect_quiet(crew)
    number, _ = by_title(rows_of(seat), "By files")
    kinds, data = zip(*(photos_of(seat, number)[it] for it in numbers))
    expect(kinds, ("image/jpeg",) * 3, "types")
    expect(data[0] == small.read_bytes(), True, "each byte of the small one")
    told = exif_of(data[1])
    if told:
        expect(
            (told["0th"]["274"], told["Exif"]["40962"], told["Exif"]["40963"]),
            (1, 1365, 2048),
            "orientation and size of the large one",
        )
        expect((degrees_of(told["GPS"]["2"]), degrees_of(told["GPS"]["4"])), (50.552, 9.005), "its place")
        expect(exif_of(data[2])["GPS"], {}, "Exif of a PNG")
