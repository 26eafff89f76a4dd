"""The page of 'mmpkg desk' as a crew uses it: its forms by mouse and keys in a browser of
scripts/outside/lib/browsers.py.

A Seat is a package whose desk is killed and started again at one port; a Crew is a page of it.
"""

import json
import os
import select
import subprocess
import time

from checks import PROGRAM, held_port

KEY = "a-key-of-this-crew"
STANDS = "all is in the package"
AT_ONCE = 60
# Waits until what is kept of a form is on the disk, where the page keeps something.
IS_KEPT = "(async () => { try { await done(drafts('relaxed').count()); } catch { } })()"
# The middle of an element, which is scrolled into view.
MIDDLE = """it => {
  it.scrollIntoView({ block: 'center' });
  const { x, y, width, height } = it.getBoundingClientRect();
  return [x + width / 2, y + height / 2];
}"""

# The same where nothing is over it; else null.
OPEN_TO = f"""it => {{
  const [x, y] = ({MIDDLE})(it), hit = document.elementFromPoint(x, y);
  return hit && (it.contains(hit) || hit.contains(it)) ? [x, y] : null;
}}"""
REST_SECONDS = 2


class Gone(AssertionError):
    """What was to be pressed is not there, or not any more."""


def press_at_rest(page, element):
    """Presses what an expression names, in its middle, once nothing moves it and nothing is over it."""
    deadline, before = time.monotonic() + REST_SECONDS, None
    while time.monotonic() < deadline:
        where = page.value(f"(it => it ? ({OPEN_TO})(it) : 'gone')({element})")
        if where == "gone" or (where and where == before):
            break
        before = where
        time.sleep(0.03)
    where = page.value(f"(it => it ? ({MIDDLE})(it) : null)({element})")
    if where is None:
        raise Gone(element)
    page.click(*where)


class Seat:
    """A desk on a package, at a port that stays when it is killed and started again."""

    def __init__(self, file, key=KEY, port=0):
        self.held = None if port else held_port()
        self.file, self.key, self.port = file, key, port or self.held.getsockname()[1]
        self.program = None
        self.start()

    @property
    def address(self):
        return f"http://127.0.0.1:{self.port}/{self.key}"

    def start(self, key=None):
        self.key = key or self.key
        words = ["desk", self.file, "--port", str(self.port), "--count", "1000000", "--page", "viewer"]
        self.program = subprocess.Popen(
            [PROGRAM, *words], stdout=subprocess.PIPE, env=os.environ | {"MMPKG_KEY": self.key}
        )
        ready, _, _ = select.select([self.program.stdout], [], [], AT_ONCE)
        said = self.program.stdout.readline().decode() if ready else ""
        assert said == f"desk {self.address}/media/viewer/1\n", f"the desk says {said!r}"

    def kill(self):
        """Kills the desk, as a loss of power does."""
        self.program.kill()
        self.program.wait()
        self.program.stdout.close()

    def again(self, key=None):
        self.kill()
        self.start(key)


class Crew:
    """A page of a desk, and what a crew does there; `behind` is what stands behind the '#' of its address."""

    def __init__(self, browser, address, kept=False, behind="", **how):
        self.page = browser.open(f"{address}/media/viewer/1{behind and '#' + behind}", kept=kept, **how)
        self.wait_for_rows()

    def wait_for_rows(self):
        loaded = "document.readyState === 'complete' && typeof byId === 'function'"
        shown = "outbox.store !== null && byId('count').innerText !== ''"
        self.page.wait(f"!window.wasBefore && {loaded} && {shown}")

    def reload(self):
        """Loads the page again, once what is kept of a form is on the disk: a page that goes takes back what isn't."""
        self.value(f"window.wasBefore = true, {IS_KEPT}")
        self.page.reload()
        self.wait_for_rows()

    def value(self, expression):
        return self.page.value(expression)

    def text(self, element):
        return self.value(f"byId('{element}').innerText")

    def press(self, element):
        """Presses what an expression or an id names, in its middle."""
        press_at_rest(self.page, element if "(" in element else f"byId('{element}')")

    def write(self, element, text):
        """Writes into a field, in place of what it has."""
        self.value(f"byId('{element}').focus(); byId('{element}').select(); 0")
        if text:
            self.page.type(text)
        else:
            self.page.press("Delete")

    def tap(self, east, north):
        """Taps on a place of the map, which is shown."""
        self.value(f"map.setView([{north}, {east}], map.getZoom(), {{ animate: false }}); 0")
        where = f"map.latLngToContainerPoint([{north}, {east}]), byId('map').getBoundingClientRect()"
        self.page.click(*self.value(f"((it, box) => [box.x + it.x, box.y + it.y])({where})"))

    def fill(self, title=None, note=None, amount=None, place=None, photos=()):
        """Fills in the form that is open."""
        for element, text in (("title", title), ("note", note), ("amount", amount)):
            if text is not None:
                self.write(element, str(text))
        if place is not None:
            if self.value("!isTapping()"):
                self.press("tap")
            self.tap(*place)
        if photos:
            self.page.choose_files("byId('pictures')", photos)
            there = f"form !== null && form.photos.length >= {len(photos)} && byId('pictures').files.length === 0"
            # Photos that come move what is below them.
            self.page.wait(f"{there} && byId('thumbnails').ariaBusy === 'false'")

    def save(self):
        """Saves the form; it closes when the act is in the outbox. What it had said before is no answer."""
        self.value("byId('told').textContent = ''; 0")
        self.press("save")
        self.page.wait("byId('edit').hidden || byId('told').innerText !== ''")

    def new(self, **what):
        self.page.to_front()
        self.press("fresh")
        self.page.wait("form !== null && form.fresh")
        self.fill(**what)
        self.save()

    def open(self, title):
        """Opens the form of the row of a title, by the list."""
        self.write("search", title)
        mine = f"[...byId('rows').querySelectorAll('button')].find(it => it.firstChild.data === {json.dumps(title)})"
        self.page.wait(f"{mine} !== undefined")
        self.press(f"({mine})")
        # Photos that come move what is below them.
        self.page.wait("form !== null && byId('thumbnails').ariaBusy === 'false'")
        assert (
            self.value("form.row.title") == title
        ), f"the form of {self.value('form.row.title')} opened, not that of {title}"

    def change(self, row, **what):
        self.open(row)
        self.fill(**what)
        self.save()

    def remove(self, title):
        self.open(title)
        for _ in range(2):
            self.press("remove")
        self.page.wait("byId('edit').hidden")

    def rows(self):
        """The titles that the list shows."""
        return self.value("[...byId('rows').querySelectorAll('button')].map(it => it.firstChild.data)")

    def waiting(self):
        """What the outbox shows, as lines."""
        return self.value("[...byId('outbox').children].map(it => it.innerText.replaceAll('\\n', ' / '))")

    def wait_until_it_stands(self, seconds=30):
        self.page.wait(f"byId('state').innerText === '{STANDS}' && outbox.waiting.length === 0", seconds)
        return self


def wait_until(holds, what, seconds=60):
    deadline = time.monotonic() + seconds
    while not holds():
        assert time.monotonic() < deadline, f"not within {seconds} s: {what}"
        time.sleep(0.05)
