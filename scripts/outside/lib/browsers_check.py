#!/usr/bin/python3
"""Drives each browser that is there as the checks of the page do.

Its keys, mouse, fingers and files, what its profile keeps, and the crew's page:

    apt-get install chromium firefox-esr libjs-leaflet
    scripts/outside/lib/browsers_check.py [PROGRAM] [--browser chromium | firefox-esr] [WORD ..]

Without --browser each one that this machine has. WORD picks the checks whose names have it. The last line is 'N passed,
M failed'. Exit status: 0 all passed, 1 something failed, 2 the program isn't there, 77 the browser or Leaflet isn't
there.
"""

import argparse
import contextlib
import http.server
import pathlib
import sys

sys.path.insert(0, str(pathlib.Path(__file__).resolve().parents[1] / "lib"))
from checks import end, expect, in_a_folder, mmpkg, new_package, run_checks, serving, want  # noqa: E402
import browsers  # noqa: E402
from crew_page import Crew, Gone, Seat  # noqa: E402
from page_world import Tab  # noqa: E402
from images import picture  # noqa: E402
from viewer_package import record, take_in  # noqa: E402

PAGE = """<!doctype html><meta charset='utf-8'><meta name='viewport' content='width=device-width'><title>tried</title>
<style>body * { position: absolute; left: 10px; width: 200px; height: 30px }</style>
<button id='button' style='top: 10px'>Press</button><input id='field' style='top: 50px'>
<input id='file' type='file' style='top: 90px'>
<div id='pad' style='top: 130px; height: 200px; touch-action: none'></div>
<iframe src='/frame' style='top: 350px'></iframe>
<script>
const seen = [];
for (const kind of ['click', 'keydown', 'input', 'change', 'pointerdown', 'pointermove', 'pointerup', 'wheel']) {
  const tell = it => seen.push(`${kind} ${it.target.id} ${it.pointerType ?? it.key ?? ''}`.trim());
  addEventListener(kind, it => it.isTrusted && tell(it), true);
}
console.log('said', 5);
setTimeout(() => { throw new Error('failed'); });
</script>"""


class Site(http.server.BaseHTTPRequestHandler):
    def do_GET(self):
        body = ("" if self.path == "/frame" else PAGE).encode()
        self.send_response(200)
        self.send_header("Content-Type", "text/html; charset=utf-8")
        self.send_header("Content-Length", str(len(body)))
        self.end_headers()
        self.wfile.write(body)

    def log_message(self, *_):
        pass


class Scene:
    """A folder, a small site, and a package with its page, for one browser."""

    def __init__(self, folder, command, site):
        self.folder, self.command, self.site = folder, command, site

    def started(self):
        return browsers.start(self.command, self.folder / "profile")

    def open(self, browser, **how):
        page = browser.open(self.site, **how)
        page.wait("document.readyState === 'complete' && typeof seen !== 'undefined'")
        return page


def check_values(scene):
    """A value comes as it is, a promise is waited for, what fails is told, and the page's own names are had."""
    with scene.started() as browser:
        page = scene.open(browser)
        values = [1, 2.5, "é\U0001f600", None, True, {"a": [{"b": 1}]}]
        expect(page.value("[1, 2.5, 'é\U0001f600', null, true, { a: [{ b: 1 }] }]"), values, "a value")
        expect(page.value("new Promise(good => setTimeout(() => good(seen.length), 20))"), 0, "a promise's value")
        with contextlib.suppress(AssertionError):
            page.value("nobody.knows")
            raise ValueError("an expression that fails has a value")
        page.wait("document.title === 'tried'", 5)
        expect(page.frames(), [f"{scene.site}frame"], "frames")
        expect(
            [it for it in page.asked if "favicon" not in it], [scene.site, f"{scene.site}frame"], "what was asked for"
        )
        said = [(kind, text.split("\n")[0]) for kind, text, _ in page.said]
        expect(said, [("log", "said 5"), ("exception", "Error: failed")], "what was said")
        expect(
            page.screenshot((0, 0, 40, 30))[16:24],
            (40).to_bytes(4, "big") + (30).to_bytes(4, "big"),
            "the size of a part of the page",
        )


def check_keys_mouse_and_fingers(scene):
    """Each comes as an event of the user's."""
    with scene.started() as browser:
        page = scene.open(browser, width=400, height=600, touch=True)
        expect(page.value("[innerWidth, innerHeight]"), [400, 600], "the page's size")
        page.click(60, 25)
        page.click(60, 65)
        page.type("Grüße \U0001f600")
        page.press("ArrowLeft", "Backspace", "Tab")
        expect(page.value("document.getElementById('field').value"), "Grüße\U0001f600", "what was typed")
        page.drag((20, 150), (100, 250))
        page.wheel(60, 200, 40)
        page.touch([(60, 200)], [(80, 220)])
        page.touch([(40, 200), (80, 200)], [(30, 200), (90, 200)])
        seen = page.value("seen")
        for it in (
            "click button mouse",
            "keydown field Tab",
            "change field",
            "pointermove pad mouse",
            "wheel pad",
            "pointermove pad touch",
        ):
            assert it in seen, f"no {it} in {seen}"
        expect(seen.count("pointerdown pad touch"), 3, "fingers that were put down")


def check_files(scene):
    """Files are chosen, and kept where they are to be."""
    with scene.started() as browser:
        page = scene.open(browser)
        file, folder = scene.folder / "chosen.txt", scene.folder / "files"
        file.write_text("chosen")
        folder.mkdir()
        page.choose_files("document.getElementById('file')", [file])
        expect(page.value("document.getElementById('file').files[0].text()"), "chosen", "the file")
        page.keep_files_in(folder)
        given = "{ href: URL.createObjectURL(new Blob(['had'])), download: 'had.csv' }"
        page.value(f"Object.assign(document.createElement('a'), {given}).click(); 0")
        page.wait("new Promise(good => setTimeout(() => good(true), 500))")
        expect([(it.name, it.read_text()) for it in folder.iterdir()], [("had.csv", "had")], "what the page gave")
        page.device_is_at(9.005, 50.552, 4.2)
        asked = "navigator.geolocation.getCurrentPosition(it => good(it.coords.longitude), it => bad(it.message))"
        expect(page.value(f"new Promise((good, bad) => {asked})"), 9.005, "where the device is")


def check_what_a_profile_keeps(scene):
    """A page that is kept finds what it had put on the disk behind a kill; one that isn't finds nothing of it."""
    opened = """new Promise(good => {
      const request = indexedDB.open('kept', 1);
      request.onupgradeneeded = () => request.result.createObjectStore('all').put('had', 1);
      const read = () => request.result.transaction('all').objectStore('all').get(1);
      request.onsuccess = () => read().onsuccess = it => good(it.target.result);
    })"""
    there = "indexedDB.databases().then(all => all.map(it => it.name))"
    with scene.started() as browser:
        page = scene.open(browser, kept=True, before="Date.now = () => 5")
        expect(page.value(opened), "had", "what is kept")
        expect(page.value("Date.now()"), 5, "what was done before")
        page.reload()
        page.wait("document.readyState === 'complete' && Date.now() === 5")
        expect(scene.open(browser).value(there), [], "what another page has")
        browser.kill()
    with scene.started() as browser:
        page = scene.open(browser, kept=True)
        expect(page.value(there), ["kept"], "what is there behind a kill")
        other = scene.open(browser)
        other.close()
        page.to_front()
        page.click(60, 25)
        expect(page.value("seen.includes('click button mouse')"), True, "a click in the page in front")


def check_a_list_that_moves(scene):
    """A button of the list that goes with its item isn't pressed, nor another in its place; of no item there is
    none."""
    listed = """const list = document.createElement('ul');
      list.id = 'outbox';
      list.innerHTML = '<li>one <button>Send</button></li><li>two <button>Change</button></li>';
      document.body.replaceChildren(Object.assign(document.createElement('h2'),
        { id: 'waits', innerText: 'Waits' }), list);
      list.addEventListener('click', it => it.target.closest('li').remove()); 0"""
    with scene.started() as browser:
        tab = Tab(browser, scene.site)
        tab.page.wait("document.readyState === 'complete' && typeof seen !== 'undefined'")
        tab.page.value(f"document.querySelector('style').remove(); {listed}")
        expect(tab.hold(1, "it.innerText === 'Change'"), ["two Change", "Change"], "what is held")
        tab.page.value("document.getElementById('outbox').children[1].remove(); 0")
        tab.press_held()
        expect(tab.items(), ["one Send"], "the list behind a press of what has gone")
        expect([tab.hold(1, "true"), tab.hold(0, "false")], [None, None], "what no item has")
        expect(tab.hold(0, "true", 3), ["one Send", "Send"], "what is held")
        tab.press_held()
        expect(tab.items(), [], "the list behind a press")
        with contextlib.suppress(Gone):
            tab.press("(undefined)")
            raise ValueError("what isn't there was pressed")


def check_a_crew_s_page(scene):
    """A row that is saved by clicks and keys stands; what waits stands behind a kill of program and browser."""
    file, photo = scene.folder / "a.mmpkg", scene.folder / "photo.png"
    tables = [
        ["table", "spots", "attributes", "Spots"],
        ["table", "photos", "media", "Photos"],
        ["relation", "spots_photos", "spots", "photos", "media"],
    ]
    new_package(file, "".join(map(record, tables)))
    take_in(file, scene.folder / "page")
    photo.write_bytes(picture(60, 40, (40, 160, 80)))
    seat = Seat(file)
    try:
        with scene.started() as browser:
            crew = Crew(browser, seat.address, kept=True)
            crew.new(title="By clicks and keys", note="in sight", amount=7, photos=[photo])
            crew.wait_until_it_stands()
            seat.kill()
            crew.new(title="In the dark")
            crew.page.wait("document.getElementById('state').className === 'gone'")
            browser.kill()
        seat.start()
        with scene.started() as browser:
            Crew(browser, seat.address, kept=True).wait_until_it_stands()
    finally:
        seat.kill()
    expect(mmpkg("check", file), "package ok\n", "the check")
    shown = mmpkg("show", file, "spots")
    for it in ("By clicks and keys", "in sight", "In the dark"):
        expect(shown.count(it), 1, f"{it!r} in {shown}")


def main():
    parser = argparse.ArgumentParser(description=__doc__, formatter_class=argparse.RawDescriptionHelpFormatter)
    parser.add_argument("--browser", action="append")
    parser.add_argument("words", nargs="*", metavar="WORD")
    given = parser.parse_args()
    commands = given.browser or browsers.there() or browsers.COMMANDS
    want("no browser was driven", *(need for it in commands for need in browsers.needs(it)))
    passed = failed = 0
    with serving(http.server.ThreadingHTTPServer(("127.0.0.1", 0), Site)) as server:
        for command in commands:

            def call(check, command=command):
                site = f"http://127.0.0.1:{server.server_address[1]}/"
                in_a_folder(lambda folder: check(Scene(folder, command, site)))

            with browsers.held(command):
                good, bad = run_checks(command, globals(), given.words, call)
            passed, failed = passed + good, failed + bad
    end(passed, failed)


if __name__ == "__main__":
    main()
