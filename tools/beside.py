"""The maps that lie beside a package: which they are, kept in FILE.maps, and the program that draws them for a page.

They are no part of the package, nor of what it promises: the program of maps reads files, and writes none. It brings
places into systems too that the page can't reckon, and runs for that where no map lies there.
"""

import contextlib
import json
import os
import pathlib
import select
import subprocess
import tempfile
import threading
import time
import urllib.parse

from gdal_python import MISSING, python_with_gdal

SERVER = pathlib.Path(__file__).resolve().parent / "maps.py"
# How many seconds all maps may take to open: one on a disk of the network may take long.
PATIENCE = 30
# The program of maps is given up where it ends so often one behind another, each time within so many seconds.
ENDS, SOON = 3, 5


def list_of(file):
    """The file beside a package that keeps which maps lie behind its work."""
    return pathlib.Path(f"{file}.maps")


def kept_maps(file):
    """The maps that are kept; ValueError where what stands there is no list of these tools."""
    try:
        told = json.loads(list_of(file).read_text(encoding="utf-8"))
    except FileNotFoundError:
        return []
    names = told.get("maps") if isinstance(told, dict) else None
    if not isinstance(names, list) or not all(isinstance(it, str) and it for it in names):
        raise ValueError("it has no maps")
    return names


def keep_maps(file, names):
    """Keeps which maps lie behind a package's work, whole or not at all; none is no file."""
    path = list_of(file)
    if not names:
        path.unlink(missing_ok=True)
        return
    with tempfile.NamedTemporaryFile(
        "w", dir=path.parent, prefix=f".{path.name}-", delete=False, encoding="utf-8"
    ) as made:
        try:
            json.dump({"maps": names}, made, ensure_ascii=False, indent=1)
            made.flush()
            os.fsync(made.fileno())
            os.replace(made.name, path)
        except BaseException:
            os.unlink(made.name)
            raise


def name_beside(file, name):
    """How a map's name is kept: by its way from the package's folder where it lies in that, else by its whole path.

    What is no path, as GPKG:FILE:TABLE, is kept as it is.
    """
    if not os.path.exists(name):
        return name
    way = os.path.relpath(os.path.abspath(name), os.path.abspath(file.parent))
    return os.path.abspath(name) if way.split(os.sep)[0] == os.pardir else way


def path_of(file, name):
    """Where a map lies that is kept by its name."""
    there = os.path.join(os.path.abspath(file.parent), name)
    return there if os.path.exists(there) else name


def chosen(file, named, forgets, tell):
    """The paths of the maps behind a package's work: those that are kept, but where they are forgotten, and those that
    are named behind them, and kept from then on. What can't be read or kept is told, and left as it is.
    """
    added = [name_beside(file, it) for it in named]
    try:
        kept = kept_maps(file)
        names = list(dict.fromkeys([*([] if forgets else kept), *added]))
        if names != kept:
            keep_maps(file, names)
    except ValueError:
        tell(f"{list_of(file)}: is no list of maps of these tools, and stays as it is: move it away")
        names = added
    except OSError as error:
        tell(f"Which maps lie behind the work isn't kept: {error}")
        names = added
    return [path_of(file, it) for it in names]


class Maps:
    """The program that draws maps for a page. It ends with its standard input, and so with this one, however it
    ends. Where it ends by itself it is started again at its address, so that the page goes on."""

    def __init__(self, python, paths, origin, tell):
        self.words, self.tell = [python, "-B", SERVER, origin, *paths], tell
        self.at, self.is_over, self.lock = "", False, threading.Lock()
        self.running = self.start()

    def start(self):
        """Starts the program, at the port and with the token that it had before, if any."""
        return subprocess.Popen(
            self.words,
            stdin=subprocess.PIPE,
            stdout=subprocess.PIPE,
            stderr=subprocess.DEVNULL,
            start_new_session=True,
            bufsize=0,
            env={**os.environ, "MMPKG_MAPS": self.at},
        )

    def lines(self):
        """What the program says until it is ready; fewer lines where it isn't in time, or ends."""
        until, said = time.monotonic() + PATIENCE, b""
        while not said.endswith(b"ready\n"):
            left = until - time.monotonic()
            if left <= 0 or not select.select([self.running.stdout], [], [], left)[0]:
                break
            more = os.read(self.running.stdout.fileno(), 65536)
            if not more:
                break
            said += more
        return said.decode(errors="replace").splitlines()

    def opened(self):
        """The address of the maps, and what can't be opened, each with why; None where the program isn't ready."""
        address, *unopened, ready = self.lines() or [""]
        if not address or ready != "ready":
            return None
        told = urllib.parse.urlsplit(address)
        self.at = f"{told.port}{told.path.rstrip('/')}"
        threading.Thread(target=self.keep, daemon=True).start()
        return address, unopened

    def keep(self):
        """Starts the program again each time that it ends by itself, but not where it does so again and again."""
        quick = 0
        while True:
            began = time.monotonic()
            self.running.wait()
            quick = quick + 1 if time.monotonic() - began < SOON else 0
            with self.lock:
                if self.is_over:
                    return
                self.let_go()
                if quick < ENDS:
                    self.running = self.start()
            if quick >= ENDS:
                self.tell(f"What GDAL does beside the page ended {ENDS} times as soon as it began: it is missing.")
                return
            self.tell("What GDAL does beside the page ended: it is started again.")
            self.lines()

    def let_go(self):
        with contextlib.suppress(OSError):
            self.running.stdin.close()
        self.running.kill()
        self.running.wait()
        self.running.stdout.close()

    def end(self):
        with self.lock:
            self.is_over = True
            self.let_go()


@contextlib.contextmanager
def drawn(paths, origin, tell, is_beyond=False):
    """The program that draws maps for the page of an origin, or brings places into a system of the package that the
    page can't reckon; None where neither is wanted, or it can't be, and why is told.
    """
    running = begun(paths, origin, tell) if paths or is_beyond else None
    try:
        yield running
    finally:
        if running:
            running.end()


def begun(paths, origin, tell):
    """The program, where it can be begun; else why not is told, and the day goes on without it."""
    without = "No map is shown behind the work" if paths else "The device's place isn't told in the package's system"
    python = python_with_gdal()
    if python is None:
        tell(f"{without}: {MISSING}")
        return None
    try:
        return Maps(python, paths, origin, tell)
    except OSError as error:
        tell(f"{without}: {error}")
        return None
