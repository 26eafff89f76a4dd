"""Browsers without a window, which a check drives by mouse, keys and fingers: written once, it runs in each of them.

    with browsers.start("firefox-esr", folder / "profile") as browser:
        page = browser.open("http://127.0.0.1:8090/")
        page.click(20, 30)
        page.wait("document.title === 'pressed'")

Chromium is driven by devtools.py, Firefox by bidi.py. What both have:

- a browser: `open`, `kill`, `process`; it ends with the block that it is made in, and its profile stays;
- a page: `value`, `is_so`, `wait`, `move`, `click`, `drag`, `wheel`, `press`, `type`, `touch`, `choose_files`,
  `screenshot`, `go`, `reload`, `to_front`, `keep_files_in`, `device_is_at`, `fill_storage`, `frames`, `close`; and what
  it `asked` for and `said`.
"""

import contextlib
import fcntl
import os
import pathlib
import shutil

import bidi
import devtools

# The commands of Debian's browsers.
COMMANDS = ("chromium", "firefox-esr")
# What the package's viewer and the crew's page draw their map by.
LEAFLET = "/usr/share/javascript/leaflet/leaflet.min.js:libjs-leaflet"


def is_firefox(command):
    return "firefox" in pathlib.Path(command).name


def start(command, profile, camera=False, language="en"):
    """Starts a browser with a profile, which is made where there is none.

    With `camera` it has a camera and a microphone of its own making, which each page may have unasked. It tells pages
    that its user reads `language`, whatever the machine's is.
    """
    return (bidi if is_firefox(command) else devtools).Browser(command, profile, camera, language)


def there():
    """The commands of the browsers that this machine has."""
    return [it for it in COMMANDS if shutil.which(it)]


def needs(command):
    """What a check wants that looks at a page in a browser."""
    return f"{command}:{command}", LEAFLET


@contextlib.contextmanager
def held(command):
    """Has a browser as soon as no other check has that one: on a busy machine they disturb one another."""
    name = f"mmpkg-browser-{pathlib.Path(command).name}-{os.geteuid()}.lock"
    with open(pathlib.Path(os.environ.get("TMPDIR") or "/tmp", name), "a", encoding="ascii") as lock:
        fcntl.flock(lock, fcntl.LOCK_EX)
        yield
