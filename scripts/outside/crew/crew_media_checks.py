"""Files of rows that are no pictures: PDF and sound, chosen or recorded. Its checks are run by
scripts/outside/crew/crew_page_check.py."""

import io
import json
import math
import struct
import wave

from checks import expect
from crew_camera_checks import (
    LET_GO,
    NO_DEVICE,
    TAKEN,
    begin,
    one_device,
    photos_of,
    refused_device,
    with_camera,
)
from crew_page_check import by_title, expect_quiet, rows_of

MOST = 4_194_304
ITEMS = "[...byId('thumbnails').children].map(it => it.innerText.replaceAll('\\n', ' / '))"
RECORDS = "recording?.recorder?.state === 'recording' && recording.size > 0"


def tone():
    """A second of a tone, as WAV."""
    made = io.BytesIO()
    with wave.open(made, "wb") as sound:
        sound.setnchannels(1)
        sound.setsampwidth(2)
        sound.setframerate(8000)
        sound.writeframes(b"".join(struct.pack("<h", round(9000 * math.sin(it / 3))) for it in range(8000)))
    return made.getvalue()


def element(name, body):
    """An element of a WebM, with a size of two bytes."""
    return name + struct.pack(">H", 0x4000 + len(body)) + body


def webm(*codecs, packed):
    """A WebM with tracks of a kind and codec, and what it packs."""
    tracks = [element(b"\xae", element(b"\x83", kind) + element(b"\x86", codec)) for kind, codec in codecs]
    head = element(b"\x1a\x45\xdf\xa3", element(b"\x42\x82", b"webm"))
    body = element(b"\x16\x54\xae\x6b", b"".join(tracks)) + element(b"\x1f\x43\xb6\x75", element(b"\xa3", packed))
    return head + element(b"\x18\x53\x80\x67", body)


def small_pdf():
    """A PDF of one empty page."""
    parts = [
        b"<</Type/Catalog/Pages 2 0 R>>",
        b"<</Type/Pages/Kids[3 0 R]/Count 1>>",
        b"<</Type/Page/Parent 2 0 R/MediaBox[0 0 99 99]>>",
    ]
    made, places = b"%PDF-1.4\n", []
    for number, part in enumerate(parts, 1):
        places.append(len(made))
        made += b"%d 0 obj%sendobj\n" % (number, part)
    lines = b"".join(b"%010d 00000 n \n" % it for it in places)
    return (
        made
        + b"xref\n0 4\n0000000000 65535 f \n"
        + lines
        + b"trailer<</Size 4/Root 1 0 R>>\nstartxref\n%d\n%%%%EOF\n" % len(made)
    )


def check_files_of_a_row(scene):
    """A PDF and sound stand with their row, byte for byte and with their types; the form shows what they are, as the
    report does, and plays sound."""
    seat, crew = scene.begin()
    files = {}
    for name, data in (("plan.pdf", small_pdf()), ("gate.wav", tone())):
        files[name] = scene.folder / name
        files[name].write_bytes(data)
    crew.press("fresh")
    crew.fill(title="With files", photos=[*files.values(), scene.photo])
    shown = [
        "PDF, 1 KiB / plan.pdf, not saved yet / Leave out",
        "Sound, 16 KiB / gate.wav, not saved yet / Play Leave out",
        "not saved yet / Leave out",
    ]
    expect(crew.value(ITEMS), shown, "what isn't saved yet")
    crew.page.wait(
        f"{'done(outbox.store.transaction(`photos`).objectStore(`photos`).getAllKeys())'}.then(it => it.length === 3)"
    )
    crew.reload()
    crew.page.wait(TAKEN.format(3))
    shown = [
        "PDF, 1 KiB / not saved yet / Leave out",
        "Sound, 16 KiB / not saved yet / Play Leave out",
        "not saved yet / Leave out",
    ]
    expect(crew.value(ITEMS), shown, "when the page is loaded again")
    pdf, sound, _ = numbers = crew.value("form.photos.map(it => it.id)")
    crew.save()
    crew.wait_until_it_stands()
    crew.open("With files")
    link = "[...byId('thumbnails').querySelectorAll('a')].find(it => it.innerText === 'PDF, 1 KiB')?.pathname"
    expect(crew.value(link), f"/{seat.key}/media/photos/{pdf}", "the link to the PDF")
    crew.press(f"[...byId('thumbnails').querySelectorAll('button')].find(it => it.ariaLabel === 'Play photos {sound}')")
    crew.page.wait("!byId('player').hidden && byId('player').readyState > 0")
    assert abs(crew.value("byId('player').duration") - 1) < 0.01, "the sound's length"
    scene.screenshot(crew, "files-of-a-row")
    crew.press("leave")
    crew.page.wait("byId('player').hidden && byId('player').paused && !byId('player').hasAttribute('src')")
    crew.value("byId('out').open = true, 0")
    crew.press("reporter")
    crew.page.wait("byId('made').innerText === '3 photos.'")
    told = "[...byId('reported').querySelectorAll('.pictures span')].map(it => it.innerText)"
    expect(
        sorted(crew.value(told)), sorted([f"photos {pdf}: PDF, 1 KiB", f"photos {sound}: Sound, 16 KiB"]), "the report"
    )
    expect_quiet(crew)
    number, _ = by_title(rows_of(seat), "With files")
    there = photos_of(seat, number)
    expect([there[it][0] for it in numbers], ["application/pdf", "audio/wav", "image/jpeg"], "types")
    expect(
        [there[pdf][1] == files["plan.pdf"].read_bytes(), there[sound][1] == files["gate.wav"].read_bytes()],
        [True, True],
        "bytes",
    )


def check_a_file_that_is_too_long(scene):
    """A file that is longer than a media item may be is told and not taken; one as long as that stands."""
    seat, crew = scene.begin()
    files = [scene.folder / f"{it}.pdf" for it in ("longest", "longer")]
    for more, file in enumerate(files):
        file.write_bytes(small_pdf().ljust(MOST + more, b"\n"))
    crew.press("fresh")
    crew.write("title", "Long")
    crew.page.choose_files("byId('pictures')", files)
    words = "longer.pdf has 4.1 MiB: the package takes files of at most 4.0 MiB."
    crew.page.wait(f"byId('told').innerText === {json.dumps(words)} && {TAKEN.format(1)}")
    expect(crew.value(ITEMS), ["PDF, 4.0 MiB / longest.pdf, not saved yet / Leave out"], "what is taken")
    crew.save()
    crew.wait_until_it_stands(120)
    expect_quiet(crew)
    number, _ = by_title(rows_of(seat), "Long")
    expect([len(data) for _, data in photos_of(seat, number).values()], [MOST], "bytes in the package")


def check_a_recording(scene):
    """What is recorded in the form stands with its row, also where it is saved meanwhile; where the form is closed it
    is gone, and the microphone with it."""
    with with_camera(scene) as browser:
        seat, crew = begin(scene, browser)
        crew.page.wait("!byId('record').hidden")
        crew.press("fresh")
        crew.write("title", "Spoken")
        crew.press("record")
        crew.page.wait(RECORDS)
        expect(
            crew.value("[byId('record').innerText, byId('record').ariaPressed, isHeld()]"),
            ["End recording", "true", True],
            "while it is recorded",
        )
        assert crew.text("recorded").endswith(" of at most 4.0 MiB."), crew.text("recorded")
        scene.screenshot(crew, "recording")
        crew.press("record")
        crew.page.wait(f"{TAKEN.format(1)} && {LET_GO.format(1)}")
        crew.page.wait("byId('recorded').textContent === '' && byId('record').innerText === 'Record sound'")
        crew.press("record")
        crew.page.wait(RECORDS)
        crew.press("save")
        crew.page.wait(f"byId('edit').hidden && {LET_GO.format(2)}")
        crew.press("fresh")
        crew.press("record")
        crew.page.wait(RECORDS)
        for _ in range(2):
            crew.press("leave")
        crew.page.wait(f"byId('edit').hidden && recording === null && {LET_GO.format(3)}")
        crew.wait_until_it_stands()
        expect_quiet(crew)
        number, _ = by_title(rows_of(seat), "Spoken")
        there = photos_of(seat, number).values()
        kind = "audio/ogg" if "firefox" in scene.command else "audio/webm"
        expect([it for it, _ in there], [kind] * 2, "types")
        assert all(len(data) > 100 for _, data in there), [len(data) for _, data in there]


def check_sound_with_any_letters(scene):
    """Sound whose packed bytes have the letters of a picture's track is sound; and what an older page took into a form
    as sound, subtitles beside it, is sound where it is saved."""
    seat, crew = scene.begin()
    opus, subtitles = (b"\x02", b"A_OPUS"), (b"\x11", b"S_TEXT/UTF8")
    sound, older = webm(opus, packed=b"\x81\0\0\x80 V_VP8"), webm(opus, subtitles, packed=b"\x81")
    file = scene.folder / "letters.webm"
    file.write_bytes(sound)
    crew.press("fresh")
    crew.fill(title="Letters", photos=[file])
    expect(crew.value(ITEMS)[0].split(", ")[0], "Sound", "what isn't saved yet")
    file.write_bytes(older)
    crew.page.choose_files("byId('pictures')", [file])
    words = "letters.webm is no picture that this browser draws, no PDF, no sound and no line."
    crew.page.wait(f"byId('told').innerText === {json.dumps(words)}")
    crew.save()
    crew.wait_until_it_stands()
    crew.press("fresh")
    crew.fill(title="Older", photos=[scene.photo])
    bytes_of_older = f"Uint8Array.from({list(older)}).buffer"
    photos = "outbox.store.transaction(`photos`, `readwrite`).objectStore(`photos`)"
    crew.value(f"done({photos}.put({bytes_of_older}, form.photos[0].id)).then(() => 0)")
    crew.reload()
    crew.page.wait(TAKEN.format(1))
    crew.save()
    crew.wait_until_it_stands()
    expect_quiet(crew)
    for title, data in (("Letters", sound), ("Older", older)):
        number, _ = by_title(rows_of(seat), title)
        expect(list(photos_of(seat, number).values()), [["audio/webm", data]], f"the sound of {title}")


def check_where_nothing_is_recorded(scene):
    """Where the browser knows no microphone there is no such button; where it is refused the form says so."""
    seat = scene.seat()
    for before in (NO_DEVICE, f"{one_device('audioinput')} delete window.MediaRecorder;"):
        crew = scene.crew(seat.address, before=before)
        crew.press("fresh")
        expect(crew.value("offerRecorder().then(() => byId('record').hidden)"), True, f"the button where {before}")
    crew = scene.crew(seat.address, before=refused_device("audioinput"))
    crew.page.wait("!byId('record').hidden")
    crew.press("fresh")
    crew.press("record")
    words = "The browser doesn't let this page have the microphone: allow it for this address."
    crew.page.wait(f"byId('recorded').innerText === {json.dumps(words)}")
    expect(
        crew.value("[recording, form.coming, byId('record').innerText, isHeld()]"),
        [None, 0, "Record sound", False],
        "the form",
    )
    expect_quiet(crew)
