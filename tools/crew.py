#!/usr/bin/env python3
"""Opens a package for a crew's day: its map and rows in a browser, by a program that is started again when it ends.

    tools/crew.py [FILE] [--map MAP ..] [--no-maps] [--port PORT] [--table TABLE] [--no-browser] [--wait]

FILE is a package of mmpkg; without it the only *.mmpkg of the folder is taken. The page is brought into FILE where it
is missing or older than these tools (as the media table TABLE, 'viewer'). Then 'mmpkg desk' is started at PORT (8090)
of this machine, and its address opened in the browser. The address has a key, which is kept in FILE.key, that nobody
else may read: so the address is the same tomorrow, and what a browser keeps is sent there. Keep PORT the same too.

--map MAP has a map lie behind the work: whatever GDAL opens, of any size and system (GeoTIFF, MBTiles, GeoPackage, VRT,
parcels and lines of any format), drawn as it is asked for, and no part of FILE. Which they are is kept in FILE.maps, a
list of their names, and they come again without the word; --map adds to it, --no-maps forgets those of before. It wants
Debian's python3-gdal; without that the page opens, and has no maps behind it. The same program brings the device's
place into a system of the package that the page can't reckon, by PROJ, and runs for that too; it is started again where
it ends.

When the program ends by a fault, or is killed, it is started again, and the page goes on. Ctrl-C, or 'End the day' in
the page, ends it well: then FILE alone holds all, and may be copied. What can't be opened at the first start is told in
words. --no-browser opens none; --wait keeps the window open at the end until Enter is pressed. Where FILE is opened a
second time at the same PORT, the day goes on there, and the first window says so.

The program is the one that the environment's MMPKG names, else out/mmpkg of this repository, else mmpkg of the path.

Exit status: 0 the day was ended, or goes on in another window; 2 wrong arguments, or a file or port that can't be had;
3 the program ends again and again, or a fault; 4 FILE is no package, or one that breaks a rule.
"""

import contextlib
import errno
import fcntl
import http.client
import http.server
import os
import pathlib
import re
import secrets
import shlex
import signal
import stat
import subprocess
import sys
import tempfile
import threading
import time
import urllib.parse
import webbrowser

import beside
from border import (
    LINE,
    Refused,
    arguments,
    has_commits,
    is_name,
    keep_pace,
    megabytes,
    program,
    refuse,
    run_tool,
    seconds_to_open,
    sizes_of,
)
from bringing import Page, has_page, is_beyond
from session import Session

PORT = 8090
CONNECTIONS = 1_000_000
KEY = re.compile("[A-Za-z0-9_-]{16,64}")
# How often in a row the program may end within so many seconds of its start; how long it may take to end.
ENDS, SOON, PATIENCE = 5, 3, 120
STOPS = (signal.SIGINT, signal.SIGTERM, signal.SIGHUP)
# The state of a socket that listens, in /proc/net/tcp.
LISTENS = "0A"
# How long the address without the key leads on to the one with it.
LEADS = 120

FAULTS = {
    "fault 90": "the program was refused memory: end other programs",
    "fault 91": "another program has the file, the disk is full, or it can't be written (docs/USING.md, 'What a "
    "number asks of you')",
    "fault 96": "the port or the clock can't be had",
    "refused 11": "the clock of this machine is outside the years 1970 to 9999",
    "list fault 90": "the program was refused memory in the midst of a list",
    "list fault 91": "the file could not be read or written in the midst of a list. Is the disk full?",
    "page fault 90": "the program was refused memory for a request",
    "page fault 91": "the file could not be read for a request",
}


def tell(*words, to=sys.stdout):
    """Says something in the window; where that is gone nobody reads it, and the day goes on."""
    try:
        print(*words, file=to, flush=True)
    except OSError:
        # What Python still holds of it would be tried again with all that follows.
        os.dup2(os.open(os.devnull, os.O_WRONLY), to.fileno())


def the_only_package():
    """The package of the folder, where there is one alone."""
    found = sorted(pathlib.Path().glob("*.mmpkg"))
    if len(found) != 1:
        names = ", ".join(map(str, found)) or "there is none here"
        raise Refused(f"which package? {names}: name one, as in 'crew.py {found[0] if found else 'FILE.mmpkg'}'")
    return found[0]


def opened_key(path, file):
    """The file of a key, opened; refused where a day can't be written beside the package."""
    try:
        return os.open(path, os.O_RDWR | os.O_CREAT | os.O_NOFOLLOW, 0o600)
    except OSError as error:
        if error.errno not in (errno.EACCES, errno.EPERM, errno.EROFS):
            raise
        raise Refused(
            f"{path}: can't be written, as on a card with its lock on, and so no day can be begun there. Work on a "
            f"copy in a folder of your own, with the journal where there is one: cp {shlex.quote(str(file))}* FOLDER"
        ) from error


def key_of(file):
    """The key of a package's address, of a file beside it that only its owner may read; made where there is none."""
    path = pathlib.Path(f"{file}.key")
    with os.fdopen(opened_key(path, file), "r+", encoding="ascii", errors="replace") as kept:
        found = os.fstat(kept.fileno())
        if not stat.S_ISREG(found.st_mode) or found.st_uid != os.getuid():
            raise Refused(f"{path}: is no file of your own; remove it")
        text = kept.read(100).strip()
        if KEY.fullmatch(text) and not found.st_mode & 0o077:
            return text
        if text:
            why = "others could read it" if KEY.fullmatch(text) else "that is no key"
            tell(f"{path}: {why}, so a new one is made, and the address is new.")
        os.fchmod(kept.fileno(), 0o600)
        key = secrets.token_urlsafe(24)
        if os.fstat(kept.fileno()).st_mode & 0o077:
            tell(f"{path}: others may read it on this disk, so the key isn't kept, and the address is new each time.")
            path.unlink()
            return key
        kept.seek(0)
        kept.truncate()
        kept.write(key + "\n")
        kept.flush()
        os.fsync(kept.fileno())
        return key


def connections_here():
    """The TCP sockets of this machine, as Linux tells them: each a list of words."""
    return [line.split() for line in pathlib.Path("/proc/net/tcp").read_text(encoding="ascii").splitlines()[1:]]


def is_own(here, peer):
    """Whether a connection from a port of this machine is of a program of this user, as Linux tells it."""
    wanted = [f"0100007F:{peer:04X}", f"0100007F:{here:04X}"]
    return any(it[1:3] == wanted and it[7] == str(os.getuid()) for it in connections_here())


def may_have_key(port):
    """Whether the program that listens at a port of this machine is of this user, or nothing tells whose it is."""
    try:
        return any(
            it[1] == f"0100007F:{port:04X}" and it[3] == LISTENS and it[7] == str(os.getuid())
            for it in connections_here()
        )
    except OSError:
        return True


def lead_to(address):
    """An address without the key, for the words of a browser's command, which every user sees.

    It leads programs of this user on to the address with the key, for a while.
    """

    class Leads(http.server.BaseHTTPRequestHandler):
        def do_GET(self):
            own = is_own(self.server.server_address[1], self.client_address[1])
            self.send_response(302 if own else 403)
            if own:
                self.send_header("Location", address)
            self.send_header("Cache-Control", "no-store")
            self.send_header("Content-Length", "0")
            self.end_headers()

        def log_message(self, *_):
            pass

    server = http.server.ThreadingHTTPServer(("127.0.0.1", 0), Leads)
    threading.Thread(target=server.serve_forever, daemon=True).start()
    closing = threading.Timer(LEADS, lambda: (server.shutdown(), server.server_close()))
    closing.daemon = True
    closing.start()
    return f"http://127.0.0.1:{server.server_address[1]}/"


def open_browser(address):
    """Opens the address in the browser, where there is a screen."""
    if not any(os.environ.get(it) for it in ("DISPLAY", "WAYLAND_DISPLAY", "BROWSER")):
        tell("No screen is told here: open this address in the browser of this machine.")
        return
    lead = lead_to(address)
    threading.Thread(target=webbrowser.open, args=(lead,), daemon=True).start()


class Desk:
    """The program at its port, which is started again when it ends."""

    def __init__(self, given, file, key, maps=None):
        self.given, self.file, self.key, self.maps = given, file, key, maps
        self.running = None
        self.had = False
        self.size, self.began = 0, 0.0

    def ask(self, method, path, seconds=PATIENCE):
        """The status that the desk answers with; None where there is none, or another user has the port."""
        connection = http.client.HTTPConnection("127.0.0.1", self.given.port, timeout=seconds)
        try:
            connection.connect()
            if not may_have_key(self.given.port):
                return None
            connection.request(method, f"/{self.key}{path}")
            return connection.getresponse().status
        except (OSError, http.client.HTTPException):
            return None
        finally:
            connection.close()

    def end_earlier(self):
        """Ends a desk of this package that an earlier start has left, and answers whether there was one."""
        if self.ask("GET", "/contents", seconds=5) != 200:
            return False
        tell("The program runs already, of an earlier start: it is ended, and started anew.")
        self.ask("POST", "/end")
        return True

    def sit(self):
        """Runs the program until it ends, and answers its exit status and its last words."""
        words = ["--port", str(self.given.port), "--count", str(CONNECTIONS), "--page", self.given.table]
        self.size, self.began = sum(sizes_of(self.file)), time.monotonic()
        self.running = subprocess.Popen(
            [program(), "desk", self.file, *words],
            stdin=subprocess.DEVNULL,
            stdout=subprocess.PIPE,
            env={**os.environ, "MMPKG_KEY": self.key},
            start_new_session=True,
            text=True,
        )
        said = ""
        for line in self.running.stdout:
            said = line.strip()
            if said.startswith("desk "):
                self.opened(said.removeprefix("desk "))
            elif said in FAULTS and self.had:
                tell(f"{said}: {FAULTS[said]}")
        return self.running.wait(), said

    def opened(self, address):
        keep_pace(self.size, time.monotonic() - self.began)
        if self.had:
            tell("The program runs again, and the page goes on.")
            return
        self.had = True
        # What is behind the address no browser sends: the file, and where its maps are drawn.
        maps = self.maps_told()
        named = f"{address}#{urllib.parse.quote(self.file.name)}{maps}"
        tell(f"The page is {named if maps else address}")
        tell("Ctrl-C here, or 'End the day' in the page, ends the day.")
        if not self.given.no_browser:
            open_browser(named)

    def maps_told(self):
        """What the page's address tells of the maps behind the work; nothing where there are none."""
        if self.maps is None:
            return ""
        opened = self.maps.opened()
        if opened is None:
            tell("What GDAL does beside the page, as maps behind the work, is missing: it ended, or took too long.")
            return ""
        address, unopened = opened
        for why in unopened:
            tell(f"Behind the work, not shown: {why}")
        told = urllib.parse.urlsplit(address)
        return f"&maps={told.port}{told.path.rstrip('/')}"

    def day(self):
        """Starts the program again and again, until it ends well."""
        quick = 0
        while True:
            began = time.monotonic()
            status, said = self.sit()
            if status == 0 and self.had:
                return
            if not self.had:
                self.refuse_start(status, said)
            quick = quick + 1 if time.monotonic() - began < SOON else 0
            if quick >= ENDS:
                raise Refused(f"{self.file}: the program ended {ENDS} times as soon as it was started: {said}", 3)
            how = f"was killed (signal {-status})" if status < 0 else f"ended with {status}"
            tell(f"The program {how}: it is started again.")
            time.sleep(min(quick, 5))

    def refuse_start(self, status, said):
        """Refuses where the first start came to nothing."""
        if said == "fault 96":
            raise Refused(
                f"port {self.given.port}: another program has it; end that, or choose another by --port (a browser "
                "keeps what isn't in the package yet by the port)"
            )
        if said in FAULTS:
            raise Refused(f"{self.file}: {said}: {FAULTS[said]}", 3)
        refuse(self.file, self.file, status if status > 0 else 3, said or "it can not be opened")

    def end(self):
        """Ends the program well, as far as it lets.

        While it still checks the package it has no port, so it is asked again.
        """
        if self.running is None or self.running.poll() is not None:
            return
        tell("Ending the day ..")
        until = time.monotonic() + PATIENCE
        while self.running.poll() is None and (left := until - time.monotonic()) > 0:
            self.ask("POST", "/end", seconds=left)
            with contextlib.suppress(subprocess.TimeoutExpired):
                self.running.wait(min(left, 1))
        self.running.kill()
        self.running.wait()


def how_long(file, openings):
    """What is told before openings that take a while, by what the last one took."""
    size = sum(sizes_of(file))
    seconds = seconds_to_open(size, openings)
    twice = ", twice" if openings > 1 else ""
    return f" ({megabytes(size)}{twice}: about {seconds} s)" if seconds > 1 else ""


def stop(*_):
    """The end takes its time, and who asks for it twice gets it once: a window that is closed does."""
    for it in STOPS:
        signal.signal(it, signal.SIG_IGN)
    raise KeyboardInterrupt


@contextlib.contextmanager
def claimed(file):
    """A claim on a package while this window works, beside those of other windows; None where the key isn't kept."""
    with contextlib.ExitStack() as held:
        claim = None
        with contextlib.suppress(OSError):
            claim = held.enter_context(open(f"{file}.key", "rb"))
            fcntl.flock(claim, fcntl.LOCK_SH)
        yield claim


def is_shared(claim):
    """Whether another window has a claim too; this one has none behind that."""
    if claim is None:
        return False
    try:
        fcntl.flock(claim, fcntl.LOCK_EX | fcntl.LOCK_NB)
    except BlockingIOError:
        return True
    except OSError:  # a disk that has no locks
        return False
    finally:
        claim.close()
    return False


def make_ready(desk):
    """Gets the package from an earlier start, where there is one, and brings the page in, where it is to be.

    That is one opening, and the desk's is the second.
    """
    earlier = desk.end_earlier()
    ready = not earlier and has_page(desk.file, desk.given.table)
    tell(f"{desk.file} is opened: first it is checked as a whole{how_long(desk.file, 1 if ready else 2)}.")
    if ready:
        return
    with (
        tempfile.TemporaryDirectory() as folder,
        Session(desk.file, PATIENCE if earlier else 0, FAULTS) as session,
    ):
        page = Page(session, desk.given.table, folder)
        if page.is_missing():
            tell("The page is brought in: it is missing, or older than these tools.")
            page.bring()


def tell_end(file, claim):
    """Tells where the package stands when the program has ended."""
    if is_shared(claim):
        tell(f"{file} is open in another window, where the day goes on.")
    elif has_commits(file):
        raise Refused(f"{file}: the program didn't end well: keep {file} and {file}-wal together", 3)
    else:
        tell(f"The day is ended: {file} alone holds all, and may be copied.")


def maps_behind(given, file):
    """The maps that lie behind the work, which are told."""
    paths = beside.chosen(file, given.map, given.no_maps, tell)
    if paths:
        names = ", ".join(os.path.basename(it) or it for it in paths)
        tell(f"Behind the work: {names} ({beside.list_of(file)} keeps which; --no-maps forgets them)")
    return paths


def work(given):
    file = given.FILE or the_only_package()
    if not file.exists():
        raise Refused(f"{file}: isn't there; 'mmpkg init {shlex.quote(str(file))}' makes an empty package", 4)
    paths, origin = maps_behind(given, file), f"http://127.0.0.1:{given.port}"
    key = key_of(file)
    with claimed(file) as claim, beside.drawn(paths, origin, tell, is_beyond(file)) as maps:
        desk = Desk(given, file, key, maps)
        make_ready(desk)
        try:
            with contextlib.suppress(KeyboardInterrupt):
                desk.day()
        finally:
            desk.end()
        tell_end(file, claim)
    return 0


def worked(given):
    """Works, and answers the exit status; the reason is told before a window can be closed."""
    try:
        return work(given)
    except Refused as refused:
        why, status = refused, refused.status
    except OSError as error:
        why, status = error, 2
    except KeyboardInterrupt:
        why, status = "stopped", 130
    with contextlib.suppress(OSError):
        LINE.clear()
    tell(why, to=sys.stderr)
    return status


def main():
    parser = arguments(__doc__)
    parser.add_argument("FILE", type=pathlib.Path, nargs="?")
    parser.add_argument("--map", nargs="+", action="extend", default=[], metavar="MAP")
    parser.add_argument("--no-maps", action="store_true")
    parser.add_argument("--port", type=int, default=PORT, choices=range(1, 65536), metavar="PORT")
    parser.add_argument("--table", default="viewer")
    parser.add_argument("--no-browser", action="store_true")
    parser.add_argument("--wait", action="store_true")
    given = parser.parse_args()
    if not is_name(given.table):
        raise Refused(f"{given.table!r} is no name of a package")
    for it in STOPS:
        signal.signal(it, stop)
    try:
        return worked(given)
    finally:
        if given.wait and sys.stdin.isatty():
            with contextlib.suppress(EOFError, OSError, KeyboardInterrupt):
                input("Press Enter to close this window.")


if __name__ == "__main__":
    run_tool(main)
