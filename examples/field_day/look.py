#!/usr/bin/env python3
"""Shows the map of a package in headless Chromium, by the viewer that travels in it, and keeps what is seen.

    look.py FILE SPOT OUT.png      the whole map at 900 by 600, and beside it what the spot is related to

Where Chromium, or what drives it (scripts/outside/lib/devtools.py), isn't there, that is told on standard error and
nothing is made.
"""

import contextlib
import pathlib
import shutil
import socket
import subprocess
import sys
import tempfile

TOP = pathlib.Path(__file__).resolve().parents[2]
sys.path[:0] = [str(TOP / "tools"), str(TOP / "scripts" / "outside" / "lib")]
from border import program  # noqa: E402

SETTLED = (
    "document.readyState === 'complete' && typeof byId === 'function' && byId('tables').children.length > 0 && "
    "!document.querySelector('img.leaflet-tile:not(.leaflet-tile-loaded), .leaflet-zoom-anim, .leaflet-pan-anim')"
)


@contextlib.contextmanager
def served(file):
    """Serves a package, and answers its address; the service ends by itself, should this script be killed."""
    with socket.socket() as it:
        it.bind(("127.0.0.1", 0))
        port = str(it.getsockname()[1])
    serving = subprocess.Popen(
        ["timeout", "120", program(), "serve", file, "--port", port, "--count", "100000"], stdout=subprocess.PIPE
    )
    try:
        assert serving.stdout.readline().decode() == f"serving 127.0.0.1:{port}\n", "the package isn't served"
        yield f"http://127.0.0.1:{port}"
    finally:
        serving.terminate()
        serving.wait()


def seen(browser, address, spot):
    page = browser.open(f"{address}/media/viewer/1", width=900, height=600)
    page.wait(SETTLED)
    page.value("byId('map').classList.remove('centre'); 0")
    page.value(f"byId('table').value = 'spots'; byId('number').value = '{spot}'; byId('form').requestSubmit(); 0")
    page.wait(
        "byId('related').children.length > 0 && [...document.querySelectorAll('#related img')].every(it => it.complete)"
    )
    page.wait(SETTLED)
    page.value("new Promise(done => requestAnimationFrame(() => requestAnimationFrame(() => done(1))))")
    return page.screenshot()


def main(file, spot, out):
    try:
        import devtools
    except ImportError:
        print(f"{out}: not shown: there is no scripts/outside/lib/devtools.py", file=sys.stderr)
        return
    if not shutil.which("chromium"):
        print(f"{out}: not shown: there is no Chromium (apt-get install chromium)", file=sys.stderr)
        return
    with tempfile.TemporaryDirectory() as profile, served(file) as address, devtools.Browser(
        "chromium", profile
    ) as browser:
        pathlib.Path(out).write_bytes(seen(browser, address, spot))


if __name__ == "__main__":
    if len(sys.argv) != 4:
        print(__doc__)
        sys.exit(2)
    main(*sys.argv[1:])
