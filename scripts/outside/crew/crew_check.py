#!/usr/bin/python3
"""Starts the crew's command, tools/crew.py, and looks at what it does and says: the page, the key, kills, Ctrl-C,
what can't be opened.

    apt-get install curl libjs-leaflet
    scripts/outside/crew/crew_check.py [PROGRAM] [WORD ..]

WORD picks the checks whose names have it. The last line is 'N passed, M failed'. Exit status: 0 all passed, 1 something
failed, 2 the program isn't there, 77 curl or Leaflet isn't there.
"""

import contextlib
import hashlib
import json
import os
import pathlib
import pty
import re
import select
import shutil
import signal
import socket
import stat
import subprocess
import sys
import tempfile
import threading
import time
import urllib.parse

sys.path.insert(0, str(pathlib.Path(__file__).resolve().parents[1] / "lib"))
from checks import (  # noqa: E402
    PROGRAM, TOP, content_of, end, expect, free_port, mmpkg, run, run_checks, wait_until_free, want, words_given,
)  # fmt: skip
from browsers import LEAFLET  # noqa: E402
from crew_page import wait_until  # noqa: E402
from terminal import read_until  # noqa: E402

TOOL = TOP / "tools" / "crew.py"
GDAL = pathlib.Path("/usr/lib/python3/dist-packages/osgeo")
# The crew's command where no interpreter has GDAL's modules.
WITHOUT_GDAL = ("-c", f"import sys; sys.path.insert(0, {str(TOOL.parent)!r}); import beside, border, crew; "
                "beside.python_with_gdal = lambda: None; border.run_tool(crew.main)")  # fmt: skip
AT_ONCE = 60
ENDED = "The day is ended: {} alone holds all, and may be copied."
BOTH = "{0}: the program didn't end well: keep {0} and {0}-wal together"


class Started:
    """A crew's command that runs on a package."""

    def __init__(self, file, *words, port=0, tool=(TOOL,), **environment):
        self.file, self.port = file, port or free_port()
        command = [sys.executable, "-B", *tool, file, "--port", str(self.port), *words]
        self.running = subprocess.Popen(
            command, stdout=subprocess.PIPE, stderr=subprocess.STDOUT, bufsize=0, env={**bare(), **environment}
        )
        self.said = []

    def until(self, words):
        """The next line that has some words."""
        deadline = time.monotonic() + AT_ONCE
        while select.select([self.running.stdout], [], [], max(0, deadline - time.monotonic()))[0]:
            line = self.running.stdout.readline().decode()
            if not line:
                break
            self.said.append(line.rstrip("\n"))
            if words in line:
                return line.rstrip("\n")
        raise AssertionError(f"{words!r} isn't said, but {self.said}")

    def address(self):
        return self.until("The page is http").split()[-1].split("#")[0].removesuffix("/media/viewer/1")

    def wait(self, status=0):
        """Waits for its end; all that it said."""
        with contextlib.suppress(AssertionError):
            self.until("no line has these words")
        self.running.wait(AT_ONCE)
        expect(self.running.returncode, status, f"the status, behind {self.said}")
        return self.said


def in_a_window(file, *words):
    """The crew's command in a terminal of its own, and the other end of that."""
    window, its_end = pty.openpty()
    command = ["setsid", "--ctty", sys.executable, "-B", TOOL, file, *words]
    running = subprocess.Popen(command, stdin=its_end, stdout=its_end, stderr=its_end, env=bare())
    os.close(its_end)
    return running, window


def shown_until(window, words):
    """What a window shows until it has shown some words."""
    shown = b""
    for _ in range(AT_ONCE // 10):
        shown += b"" if words.encode() in shown else read_until(window, words.encode())
    assert words.encode() in shown, f"{words!r} isn't shown, but {shown}"
    return shown.decode()


@contextlib.contextmanager
def listening_as(user):
    """A port of this machine that is another user's."""
    os.seteuid(user)
    try:
        listener = socket.create_server(("127.0.0.1", 0))
    finally:
        os.seteuid(0)
    with listener:
        yield listener
        listener.shutdown(socket.SHUT_RDWR)


def hear(listener, heard):
    """Keeps what comes on each connection, and ends it."""
    with contextlib.suppress(OSError):
        while True:
            with listener.accept()[0] as connection:
                connection.settimeout(AT_ONCE)
                heard.append(connection.recv(1000))


def bare():
    """The environment without a screen."""
    return {name: it for name, it in os.environ.items() if name not in ("DISPLAY", "WAYLAND_DISPLAY", "BROWSER")} | {
        "MMPKG": PROGRAM
    }


@contextlib.contextmanager
def folder_with(records=True):
    """A folder with the package of examples/crew.csv."""
    with tempfile.TemporaryDirectory() as name:
        file = pathlib.Path(name) / "trip.mmpkg"
        mmpkg("init", file)
        if records:
            mmpkg("run", file, "--at", 0, given=(TOP / "examples" / "crew.csv").read_bytes())
        try:
            yield file
        finally:
            kill_desks(file)
            wait_until_free(file)


def desks(file):
    """The desks that run on a file, by their process."""
    found = []
    for it in pathlib.Path("/proc").iterdir():
        with contextlib.suppress(OSError):
            if it.name.isdigit() and (it / "cmdline").read_bytes().split(b"\0")[1:3] == [b"desk", str(file).encode()]:
                found.append(int(it.name))
    return found


def kill_desks(file):
    for it in desks(file):
        with contextlib.suppress(ProcessLookupError):
            os.kill(it, signal.SIGKILL)


def program_that(file, does):
    """A program beside a package that does something of a shell first, and then is the program."""
    made = file.parent / "program"
    made.write_text(f'#!/bin/sh\n{does}\nexec "{PROGRAM}" "$@"\n')
    made.chmod(0o755)
    return str(made)


def status_of(address, *words):
    return run("curl", "-s", "-o", "/dev/null", "-w", "%{http_code}", *words, address, status=None)[0]


def post(address, body):
    return run("curl", "-s", "-H", "Content-Type: text/csv", "--data-binary", body, f"{address}/records")[0]


def check_a_day():
    """The page comes in, the key is its owner's, Ctrl-C ends well; the next day has the same address, and nothing is
    brought in."""
    with folder_with() as file:
        first = Started(file)
        expect(first.until("opened"), f"{file} is opened: first it is checked as a whole.", "the first line")
        first.until("The page is brought in")
        address = first.address()
        key = pathlib.Path(f"{file}.key")
        expect(
            (stat.S_IMODE(key.stat().st_mode), address),
            (0o600, f"http://127.0.0.1:{first.port}/{key.read_text().strip()}"),
            "the key",
        )
        expect(
            [status_of(f"{address}{it}") for it in ("/media/viewer/1", "/contents", "x")],
            ["200", "200", "404"],
            "what is asked",
        )
        expect(post(address, "row,spots,20,Spring,,1\n"), "1 ok\n", "a row")
        first.running.send_signal(signal.SIGINT)
        expect(first.wait()[-1], ENDED.format(file), "the last line")
        journal = pathlib.Path(f"{file}-wal")
        assert not journal.exists() or journal.stat().st_size < 100, "the journal holds commits"
        before = mmpkg("list", file)
        second = Started(file, port=first.port)
        expect(second.address(), address, "the address of the next day")
        expect(status_of(f"{address}/end", "-X", "POST"), "200", "the page's end of the day")
        said = second.wait()
        expect((said[-1], any("brought in" in it for it in said)), (ENDED.format(file), False), "what is said")
        expect(mmpkg("list", file), before, "the listing")


def check_an_older_page():
    """A page that is older than the tools is brought in anew, and keeps the package's word."""
    with folder_with() as file:
        first = Started(file)
        address = first.address()
        word = run("curl", "-s", f"{address}/media/viewer/4")[0]
        expect(post(address, "media,viewer,1,text/html,00\nrow,spots,21,x,,0\n"), "1 ok\n2 ok\n", "an older page")
        status_of(f"{address}/end", "-X", "POST")
        first.wait()
        second = Started(file)
        second.until("The page is brought in")
        address = second.address()
        expect(run("curl", "-s", f"{address}/media/viewer/4")[0][:40], word[:40], "the word")
        assert "<!doctype html>" in run("curl", "-s", f"{address}/media/viewer/1")[0], "the page"
        second.running.send_signal(signal.SIGTERM)
        second.wait()


def check_strangers_in_the_page_s_table():
    """A package whose page's table has another item, or a relation, isn't opened, also where the page stands in it as
    it is made now: what that table has runs at the page's address."""
    strangers = {
        "media,viewer,9,text/html,3c\n": "viewer: its item 9 is text/html and no viewer's",
        "relation,shown,spots,viewer,media\n": "viewer: the relation shown relates viewer to spots",
    }
    for record, words in strangers.items():
        with folder_with() as file:
            first = Started(file)
            address = first.address()
            expect(post(address, record), "1 ok\n", "the stranger")
            status_of(f"{address}/end", "-X", "POST")
            first.wait()
            said = Started(file).wait(2)
            assert words in said[-1], said


def check_kills():
    """A desk that is killed is started again; one that a killed command has left is ended by the next."""
    with folder_with() as file:
        first = Started(file)
        address = first.address()
        for number in range(3):
            kill_desks(file)
            expect(
                first.until("The program was killed"),
                "The program was killed (signal 9): it is started again.",
                "what is said",
            )
            first.until("The program runs again")
            expect(post(address, f"row,spots,{30 + number},Spring,,1\n"), "1 ok\n", "a row")
        first.running.kill()
        first.running.wait()
        expect(len(desks(file)), 1, "desks that are left")
        second = Started(file, port=first.port)
        second.until("an earlier start")
        expect(second.address(), address, "the address")
        expect(run("curl", "-s", f"{address}/rows/spots/30")[0].count('"id"'), 3, "the rows")
        second.running.send_signal(signal.SIGHUP)
        second.wait()


def check_an_end_behind_a_kill():
    """Ctrl-C behind a kill, before the program is started again: what the journal holds is told, and the next day has
    it."""
    with folder_with() as file:
        first = Started(file)
        address = first.address()
        expect(post(address, "row,spots,40,Spring,,1\n"), "1 ok\n", "a row")
        first.running.send_signal(signal.SIGSTOP)
        kill_desks(file)
        wait_until(lambda: not desks(file), "the kill", AT_ONCE)
        first.running.send_signal(signal.SIGINT)
        first.running.send_signal(signal.SIGCONT)
        expect(first.wait(3)[-1], BOTH.format(file), "the last line")
        second = Started(file, port=first.port)
        expect(run("curl", "-s", f"{second.address()}/rows/spots/40")[0].count('"id"'), 1, "the rows")
        second.running.send_signal(signal.SIGINT)
        expect(second.wait()[-1], ENDED.format(file), "the last line of the next day")


def check_an_end_before_the_page():
    """Ctrl-C while the program still checks the package, and has no port yet: it is asked again, and ends well."""
    with folder_with() as file:
        begun = file.parent / "begun"
        slow = program_that(file, f'case "$*" in *" --page "*) touch "{begun}"; sleep 2 ;; esac')
        started = Started(file, MMPKG=slow)
        wait_until(begun.exists, "the desk's start", AT_ONCE)
        began = time.monotonic()
        started.running.send_signal(signal.SIGINT)
        expect(started.wait()[-1], ENDED.format(file), "the last line")
        assert time.monotonic() - began < AT_ONCE, f"the end took {time.monotonic() - began:.0f} s"
        expect(desks(file), [], "desks that are left")


def check_an_end_while_the_page_comes_in():
    """Ctrl-C while the page comes in leaves no program and the package as it is; the next start brings it in."""
    with folder_with() as file:
        begun = file.parent / "begun"
        slow = program_that(file, f'[ "$1" = desk ] && touch "{begun}" && sleep 2')
        started = Started(file, MMPKG=slow)
        wait_until(begun.exists, "the start of the first program", AT_ONCE)
        started.running.send_signal(signal.SIGINT)
        expect(started.wait(130)[-1], "stopped", "the last line")
        wait_until_free(file)
        expect(desks(file), [], "desks that are left")
        second = Started(file)
        second.until("The page is brought in")
        expect(status_of(f"{second.address()}/end", "-X", "POST"), "200", "the end")
        second.wait()


# The crew's command on a card with its lock on, where root too makes no file.
LOCKED = """
import errno, os, sys
sys.path.insert(0, sys.argv.pop(1))
import crew
opened = os.open
def refused(path, *how):
    if str(path).endswith(".key"):
        raise OSError(errno.EROFS, os.strerror(errno.EROFS), str(path))
    return opened(path, *how)
os.open = refused
crew.run_tool(crew.main)
"""


def check_a_folder_that_can_not_be_written():
    """On a card with its lock on no day can be begun, and the way round is told."""
    with folder_with() as file:
        _, told = run(sys.executable, "-B", "-c", LOCKED, TOOL.parent, file, "--no-browser", status=2)
        assert told.startswith(f"{file}.key: can't be written") and told.endswith(f": cp {file}* FOLDER\n"), told


def check_a_second_window():
    """A second start takes the package over, and the first says so; one that was refused has no part in it."""
    with folder_with() as file:
        first = Started(file)
        address = first.address()
        second = Started(file, port=first.port)
        expect(second.address(), address, "the address")
        expect(first.wait()[-1], f"{file} is open in another window, where the day goes on.", "what the first says")
        refused, window = in_a_window(file, "--port", str(free_port()), "--wait")
        shown = shown_until(window, "Press Enter")
        assert "another program has the file" in shown, shown
        status_of(f"{address}/end", "-X", "POST")
        expect(second.wait()[-1], ENDED.format(file), "what the second says")
        os.write(window, b"\n")
        expect(refused.wait(AT_ONCE), 3, "the status of the third")
        os.close(window)


def check_a_window_that_is_closed():
    """Closing the window ends the day, though nothing can be told there any more."""
    with folder_with() as file:
        port = free_port()
        running, window = in_a_window(file, "--port", str(port))
        shown_until(window, "Ctrl-C here")
        key = pathlib.Path(f"{file}.key").read_text().strip()
        expect(post(f"http://127.0.0.1:{port}/{key}", "row,spots,41,Spring,,1\n"), "1 ok\n", "a row")
        os.close(window)
        running.wait(AT_ONCE)
        expect((desks(file), running.returncode), ([], 0), "desks that are left, and the status")
        expect(content_of(pathlib.Path(f"{file}-wal")) or b"", b"", "the journal")


def check_the_key():
    """A key that others could have read, or that is none, is made anew; a link in its place is refused."""
    with folder_with() as file:
        key = pathlib.Path(f"{file}.key")
        for text, mode, why in ((b"a-key-that-all-can-read\n", 0o644, "others could read it"),
                                ("a-key-with-\u00e4-letter\n".encode(), 0o600, "that is no key")):  # fmt: skip
            key.write_bytes(text)
            key.chmod(mode)
            started = Started(file)
            expect(
                started.until("so a new one"),
                f"{key}: {why}, so a new one is made, and the address is new.",
                "what is said",
            )
            address = started.address()
            found = (
                stat.S_IMODE(key.stat().st_mode),
                "/a-key" in address,
                address.endswith(f"/{key.read_text().strip()}"),
            )
            expect(found, (0o600, False, True), "the key")
            started.running.send_signal(signal.SIGINT)
            started.wait()
        key.unlink()
        key.symlink_to("/dev/null")
        said = Started(file).wait(2)
        assert "trip.mmpkg.key" in said[-1], said


def check_a_port_of_another_user():
    """Another user's program at the port never reads the key. Only root can try it."""
    if os.getuid() != 0:
        return
    with folder_with() as file, listening_as(65534) as listener:
        port = listener.getsockname()[1]
        heard = []
        threading.Thread(target=hear, args=(listener, heard), daemon=True).start()
        started = Started(file, port=port)
        assert started.wait(2)[-1].startswith(f"port {port}: another program has it"), started.said
        expect(b"".join(heard), b"", "what was heard")


def check_the_address_without_the_key():
    """The browser's command has an address without the key, which leads its user on, and no other; no process has the
    key in its words."""
    with folder_with() as file:
        seen = file.parent / "seen"
        # What %s stands for is the address that is opened.
        started = Started(file, BROWSER=f"sh -c 'echo \"$1\" > {seen}.part && mv {seen}.part {seen}' sh %s")
        address = started.address()
        wait_until(seen.exists, "the browser's command", 30)
        lead = seen.read_text().strip()
        assert re.fullmatch(r"http://127\.0\.0\.1:[0-9]+/", lead), lead
        expect(
            run("curl", "-s", "-o", "/dev/null", "-w", "%{redirect_url}", lead)[0],
            f"{address}/media/viewer/1#trip.mmpkg",
            "where it leads",
        )
        if os.getuid() == 0:
            other = [
                "setpriv",
                "--reuid=65534",
                "--clear-groups",
                "curl",
                "-s",
                "-o",
                "/dev/null",
                "-w",
                "%{http_code}",
                lead,
            ]
            expect(run(*other)[0], "403", "what another user gets")
        key = address.rpartition("/")[2].encode()
        for it in pathlib.Path("/proc").glob("[0-9]*/cmdline"):
            with contextlib.suppress(OSError):
                assert key not in it.read_bytes(), f"the key stands in the words of {it}"
        started.running.send_signal(signal.SIGINT)
        started.wait()


def check_what_can_not_be_opened():
    """What can't be opened is told in a line, with its status, and the package stays as it was."""
    with folder_with() as file, socket.create_server(("127.0.0.1", 0)) as taken:
        port = taken.getsockname()[1]
        said = Started(file, port=port).wait(2)
        assert said[-1].startswith(f"port {port}: another program has it"), said
        notes = file.parent / "notes.mmpkg"
        notes.write_text("x" * 1000)
        none = file.parent / "none.mmpkg"
        for words, line, status in (([none], "none.mmpkg: isn't there; 'mmpkg init", 4),
                                    ([notes], "notes.mmpkg: fault 91", 3),
                                    ([file, "--port", "0"], "argument --port", 2),
                                    ([file, "--table", "gpkg_x"], "is no name of a package", 2)):  # fmt: skip
            _, told = run(sys.executable, "-B", TOOL, *words, status=status)
            assert line in told and "Traceback" not in told, told
        served = subprocess.Popen(
            [PROGRAM, "serve", file, "--port", str(free_port()), "--count", "9"], stdout=subprocess.PIPE
        )
        served.stdout.readline()
        said = Started(file).wait(3)
        served.kill()
        served.communicate()
        assert f"{file}: fault 91: another program has the file" in said[-1], said


def check_a_window_that_waits():
    """With --wait the reason is told before the window waits, also where the machine gives it."""
    with folder_with() as file:
        pathlib.Path(f"{file}.key").mkdir()
        running, window = in_a_window(file, "--wait")
        shown = shown_until(window, "Press Enter")
        assert "trip.mmpkg.key" in shown.partition("Press Enter")[0], shown
        os.write(window, b"\n")
        expect(running.wait(AT_ONCE), 2, "the status")
        os.close(window)


def check_openings():
    """A package that has the page is opened once, by the desk, and else twice; what a large one took is told before."""
    with folder_with() as file:
        folder = file.parent
        kit = folder / "kit"
        kit.mkdir()
        for number in range(6):
            (kit / str(number)).write_bytes(os.urandom(4_000_000))
        (kit / "kit.csv").write_text("".join(f"{it + 1},media,photos,{90 + it},image/png,{it}\n" for it in range(6)))
        mmpkg("run", file, given=b"edition,large\n")
        mmpkg("kit", file, "large", kit)
        mmpkg("run", file, given=b"publish,large\n")
        ran = folder / "ran"
        kept = folder / "cache" / "mmpkg" / "seconds_a_gb"
        how = {"MMPKG": program_that(file, f'echo "$1" >>"{ran}"'), "XDG_CACHE_HOME": str(folder / "cache")}
        for day, (openings, before) in enumerate(((2, b""), (1, b""), (2, b"media,viewer,1,text/html,00\n"))):
            mmpkg("run", file, given=before)
            size = sum(content.stat().st_size for content in folder.glob("trip.mmpkg*") if content.suffix != ".key")
            about = f"{size / 1e6:.0f} MB{', twice' * (openings - 1)}: about {round(size * openings * 999.9 / 1e9)} s"
            words = f"{file} is opened: first it is checked as a whole{f' ({about})' if day else ''}."
            started = Started(file, **how)
            expect(started.until("is opened"), words, f"the words of day {day}")
            started.until("Ctrl-C")
            started.running.send_signal(signal.SIGINT)
            started.wait()
            expect(ran.read_text().split(), ["desk"] * openings, f"the openings of day {day}")
            assert 0 < float(kept.read_text()) < 1000, "what the opening took a GB"
            ran.unlink()
            kept.write_text("999.9\n")


def grid_in(folder):
    """A picture that tells its place, as its makers write it, and a text that is none."""
    picture = folder / "ground.asc"
    picture.write_text("ncols 4\nnrows 4\nxllcorner 500000\nyllcorner 5600000\ncellsize 100\n" + "1 2 3 4\n" * 4)
    run("gdal_translate", "-q", "-ot", "Byte", "-a_srs", "EPSG:25832", picture, folder / "ground.tif")
    (folder / "notes.txt").write_text("ten bytes\n")
    return folder / "ground.tif"


def maps_told(started):
    """The address of the maps that the page's address tells; None where it tells none."""
    told = re.fullmatch(r".*#trip\.mmpkg&maps=(\d+)/([\w-]+)", started.until("The page is http"))
    return f"http://127.0.0.1:{told[1]}/{told[2]}/" if told else None


def is_there(address):
    return run("curl", "-s", "-o", "/dev/null", "-w", "%{http_code}", f"{address}maps", status=None)[0] == "200"


def words_of_all_programs():
    """The words of all programs that run, which every user sees."""
    found = []
    for it in pathlib.Path("/proc").glob("[0-9]*/cmdline"):
        with contextlib.suppress(OSError):
            found.append(it.read_bytes())
    return b"\n".join(found)


def has_gdal():
    if GDAL.is_dir() and shutil.which("gdal_translate"):
        return True
    print("    GDAL isn't there, and this wasn't tried: apt-get install gdal-bin python3-gdal")
    return False


def check_maps_behind_the_work():
    """Maps that are named are drawn for the page as long as the command runs, however it ends, and the next day without
    being named; until they are forgotten."""
    if not has_gdal():
        return
    with folder_with() as file:
        ground, notes = grid_in(file.parent), file.parent / "notes.txt"
        before = {it: hashlib.sha256(it.read_bytes()).hexdigest() for it in (ground, notes)}
        first = Started(file, "--map", ground, notes)
        kept = pathlib.Path(f"{file}.maps")
        expect(
            first.until("Behind"),
            f"Behind the work: ground.tif, notes.txt ({kept} keeps which; --no-maps forgets them)",
            "the words",
        )
        assert first.until("not shown").startswith(
            "Behind the work, not shown: notes.txt: GDAL opens no map of it"
        ), first.said
        maps = maps_told(first)
        expect(json.loads(run("curl", "-s", f"{maps}maps?system=25832")[0])["maps"][0]["kind"], "picture", "the map")
        expect(json.loads(kept.read_text()), {"maps": ["ground.tif", "notes.txt"]}, "what is kept")
        assert (
            urllib.parse.urlsplit(maps).path.strip("/").encode() not in words_of_all_programs()
        ), "the token stands in a program's words"
        first.running.send_signal(signal.SIGINT)
        expect((first.wait()[-1], is_there(maps)), (ENDED.format(file), False), "the end")
        expect(content_of(file)[:16], b"SQLite format 3\0", "the package")
        second = Started(file, port=first.port)
        again = maps_told(second)
        assert again != maps and is_there(again), "the maps of the next day"
        second.running.kill()
        wait_until(lambda: not is_there(again), "the program of maps ends with a command that is killed")
        expect(len(desks(file)), 1, "the desk behind the kill")
        third = Started(file, "--map", ground, port=first.port)
        third.until("ground.tif, notes.txt (")
        third.address()
        third.running.send_signal(signal.SIGTERM)
        third.wait()
        fourth = Started(file, "--no-maps", port=first.port)
        expect(maps_told(fourth), None, "maps that are forgotten")
        expect((kept.exists(), any("Behind" in it for it in fourth.said)), (False, False), "what is kept of them")
        fourth.running.send_signal(signal.SIGINT)
        fourth.wait()
        expect({it: hashlib.sha256(it.read_bytes()).hexdigest() for it in before}, before, "the maps' files")
        expect(
            sorted(it.name for it in file.parent.iterdir() if "ground" in it.name or "notes" in it.name),
            ["ground.asc", "ground.tif", "notes.txt"],
            "files beside them",
        )


def programs_of_maps(ground):
    """The programs that draw a map, by their process."""
    found = []
    for it in pathlib.Path("/proc").glob("[0-9]*"):
        with contextlib.suppress(OSError):
            words = (it / "cmdline").read_bytes().split(b"\0")
            if str(ground).encode() in words and any(word.endswith(b"/maps.py") for word in words):
                found.append(int(it.name))
    return found


def check_a_program_of_maps_that_ends():
    """It is started again at its address, so that the page goes on; where it ends again and again that is said, and the
    day goes on."""
    if not has_gdal():
        return
    with folder_with() as file:
        ground = grid_in(file.parent)
        started = Started(file, "--map", ground)
        maps = maps_told(started)
        for _ in range(10):
            (running,) = programs_of_maps(ground)
            os.kill(running, signal.SIGKILL)
            if "as soon as" in started.until("What GDAL does beside the page ended"):
                break
            wait_until(lambda: is_there(maps), "the maps come again where they were")
        expect((programs_of_maps(ground), is_there(maps)), ([], False), "maps that end again and again")
        started.running.send_signal(signal.SIGINT)
        expect(started.wait()[-1], ENDED.format(file), "the end")


def check_which_maps_are_kept():
    """A list of maps goes along with its folder; what is no list stays as it is, and the package opens all the same."""
    if not has_gdal():
        return
    with folder_with() as file:
        grid_in(file.parent)
        kept = pathlib.Path(f"{file}.maps")
        for text in ("[1]", '{"maps": [1]}', "no list", '{"maps": "ground.tif"}'):
            kept.write_text(text)
            started = Started(file, "--map", file.parent / "ground.tif")
            expect(
                started.until("no list of maps"),
                f"{kept}: is no list of maps of these tools, and stays as it is: move it away",
                "the words",
            )
            assert is_there(maps_told(started)), "the map that is named"
            started.running.send_signal(signal.SIGINT)
            started.wait()
            expect(kept.read_text(), text, "what stood there")
        kept.write_text('{"maps": ["ground.tif"]}')
        with tempfile.TemporaryDirectory() as name:
            moved = pathlib.Path(name) / "there"
            shutil.copytree(file.parent, moved)
            (file.parent / "ground.tif").unlink()
            started = Started(moved / "trip.mmpkg")
            maps = maps_told(started)
            expect(
                json.loads(run("curl", "-s", f"{maps}maps?system=25832")[0])["maps"][0]["kind"],
                "picture",
                "the map of a folder that was copied",
            )
            started.running.send_signal(signal.SIGINT)
            started.wait()


def check_maps_without_gdal():
    """Without GDAL one line says what to install, and the page opens without maps; which they are is kept."""
    with folder_with() as file:
        (file.parent / "ground.tif").write_bytes(b"x")
        started = Started(file, "--map", file.parent / "ground.tif", tool=WITHOUT_GDAL)
        expect(
            started.until("No map"),
            "No map is shown behind the work: GDAL's modules for Python aren't there: apt-get install python3-gdal",
            "the words",
        )
        expect(status_of(f"{started.address()}/contents"), "200", "the package")
        assert not any("#" in it for it in started.said), started.said
        started.running.send_signal(signal.SIGINT)
        expect(started.wait()[-1], ENDED.format(file), "the last line")
        expect(json.loads(pathlib.Path(f"{file}.maps").read_text()), {"maps": ["ground.tif"]}, "what is kept")


LV95 = """srs,2056,CH1903+ / LV95,EPSG,2056,LV95,
pyramid,bern,Bern,2056,2599500000000,1199488000000,2600524000000,1200512000000,two
matrix,bern,0,2,2,64,64,8000000,8000000
table,spots,attributes,Spots
"""


@contextlib.contextmanager
def folder_in_lv95():
    """A folder with a package whose only map is in a system that the page can't reckon."""
    with folder_with(records=False) as file:
        mmpkg("run", file, "--at", 0, given=LV95.encode())
        yield file


def check_systems_beyond_the_page():
    """Where a package has a map in a system that the page can't reckon the program of maps runs without being asked
    for, brings places over as long as the command runs, and no map is kept."""
    if not has_gdal():
        return
    with folder_in_lv95() as file:
        started = Started(file)
        maps = maps_told(started)
        bern = '{"epsg": 2056, "places": [[7.438632495, 46.951082877]]}'  # by swisstopo, E 2,600,000 N 1,200,000
        told = json.loads(run("curl", "-s", "-d", bern, f"{maps}places")[0])
        ((east, north),) = told["places"]
        assert abs(east - 2_600_000) < 0.05 and abs(north - 1_200_000) < 0.05 and told["worth"] == 1, told
        assert not any("ehind the work" in it for it in started.said), started.said
        started.running.send_signal(signal.SIGINT)
        expect((started.wait()[-1], is_there(maps)), (ENDED.format(file), False), "the end")
        expect(pathlib.Path(f"{file}.maps").exists(), False, "a list of maps")


def check_systems_without_gdal():
    """Without GDAL one line says what to install for such a system, and the page opens."""
    with folder_in_lv95() as file:
        started = Started(file, tool=WITHOUT_GDAL)
        words = "The device's place isn't told in the package's system: GDAL's modules for Python aren't there: "
        expect(started.until("isn't told"), f"{words}apt-get install python3-gdal", "the words")
        expect(status_of(f"{started.address()}/contents"), "200", "the package")
        started.running.send_signal(signal.SIGINT)
        expect(started.wait()[-1], ENDED.format(file), "the last line")


def check_without_a_name():
    """Without FILE the folder's only package is taken; of several none is."""
    with folder_with() as file:
        command = [sys.executable, "-B", TOOL, "--port", str(free_port()), "--no-browser"]
        running = subprocess.Popen(command, cwd=file.parent, stdout=subprocess.PIPE, env=bare())
        expect(running.stdout.readline(), b"trip.mmpkg is opened: first it is checked as a whole.\n", "the first line")
        wait_until(lambda: b"Ctrl-C" in running.stdout.readline(), "the page", 60)
        running.send_signal(signal.SIGINT)
        running.communicate(timeout=AT_ONCE)
        (file.parent / "other.mmpkg").touch()
        done = subprocess.run(command, cwd=file.parent, capture_output=True, env=bare(), check=False)
        expect(
            (done.returncode, done.stderr.decode().splitlines()[0]),
            (2, "which package? other.mmpkg, trip.mmpkg: name one, as in 'crew.py other.mmpkg'"),
            "several",
        )


if __name__ == "__main__":
    want("no crew's command was started", "curl:curl", LEAFLET)
    end(*run_checks("crew", globals(), words_given(__doc__).words, lambda check: check()))
