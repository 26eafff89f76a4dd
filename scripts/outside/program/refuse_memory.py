#!/usr/bin/python3
"""Refuses each growth of memory in turn, and looks at what the program answers and at what then stands.

    scripts/outside/program/refuse_memory.py [PROGRAM] [--seconds N | --whole]

The program asks the C library for memory. A small library is loaded before it whose N-th call of malloc or realloc
answers that there is none; N counts upwards until a run meets no refusal. The answer has to be that of ample memory, or
fault 90 behind what was answered before. What then stands in the file, its rows read by Python's sqlite3, has to be the
package after the commands that were acknowledged, or after one more.

Each subcommand is a case, and so is each command, accepted once, each kind of read through the page, a list whose
records can't be read, a list that is sent to a desk, and rows that one shows. With --whole each growth of each case is
refused; else every so many-th, as few left out as N seconds allow (120 unless given). The last line says how many runs
there were. Needs cc.
"""

import argparse
import collections
import concurrent.futures
import contextlib
import math
import os
import pathlib
import re
import socket
import sqlite3
import subprocess
import sys
import tempfile
import time

sys.path.insert(0, str(pathlib.Path(__file__).resolve().parents[1] / "lib"))
from checks import PROGRAM, held_port, want  # noqa: E402
from make_profile_1 import put_back  # noqa: E402

# How many seconds a run of the program may take.
PATIENCE = 60

REFUSER = r"""
#define _GNU_SOURCE
#include <dlfcn.h>
#include <stdlib.h>
#include <unistd.h>
static long calls, wanted = -1;
static long number(const char *name) { const char *text = getenv(name); return text ? atol(text) : 0; }
static int refuses(void) {
    if (wanted < 0) wanted = number("REFUSE");
    if (++calls != wanted) return 0;
    if (write((int) number("REFUSE_TOLD"), "x", 1) < 0) return 1;
    return 1;
}
void *malloc(size_t size) {
    static void *(*real)(size_t);
    if (!real) real = (void *(*)(size_t)) dlsym(RTLD_NEXT, "malloc");
    return refuses() ? 0 : real(size);
}
void *realloc(void *old, size_t size) {
    static void *(*real)(void *, size_t);
    if (!real) real = (void *(*)(void *, size_t)) dlsym(RTLD_NEXT, "realloc");
    return refuses() ? 0 : real(old, size);
}
"""

PYRAMID = """srs,25832,ETRS89 / UTM zone 32N,EPSG,25832,projected metres,
pyramid,base,Base map,25832,500000000000,5600000000000,501024000000,5601024000000,two
matrix,base,0,1,1,256,256,4000000,4000000
matrix,base,1,2,2,256,256,2000000,2000000
"""
FILLED = f"""{PYRAMID}table,spots,attributes,Spots
table,photos,media,Photos
row,spots,7,Well,,3
row,spots,9,Gate,,0
media,photos,3,image/jpeg,ffd8ff
media,photos,5,image/png,01
relation,spot_photos,spots,photos,media
map,spot_photos,7,3
tile,base,1,0,1,89504e
edition,k
"""
STAGED = f"""{FILLED}stage,k,1,tile,base,1,0,0,01
stage,k,2,tile,base,1,1,0,02
stage,k,3,row,spots,8,Gate,,0
stage,k,4,media,photos,4,image/png,03
stage,k,5,map,spot_photos,8,4
"""
OUTSIDE = f"""{PYRAMID}edition,spring
stage,spring,1,tile,base,1,0,0,01
stage,spring,2,tile,base,1,2,0,02
stage,spring,3,tile,base,1,0,1,03
"""
# Each command, accepted on the package that has all.
COMMANDS = """srs,5001,A,NONE,1,undefined,
pyramid,q,Q,25832,0,0,1000,1000,other
matrix,base,2,4,4,256,256,1000000,1000000
table,t,attributes,T
drop,base
tile,base,1,1,1,89504e
tile-drop,base,1,0,1
row,spots,10,Well,,3
row-drop,spots,9
media,photos,6,image/png,02
media-drop,photos,5
relation,rr,spots,spots,simple_attributes
relation-drop,spot_photos
map,spot_photos,9,5
map-drop,spot_photos,7,3
edition,m
stage,k,6,row-drop,spots,9
discard,k
publish,k
rehearse,k
"""
# Lines that are no records of commands, and two that are.
UNREADABLE = b'srs,5001,A,NONE,1,undefined,\nsrs,007,B,NONE,1,undefined,\n\xff\xfe,1\nedition,a\nedition,"a'
KIT = {
    "kit.csv": b"1,tile,base,1,0,0,a.bin\n2,tile,base,1,1,0,b.bin\n3,row,spots,8,Gate,,0\n"
    b"4,media,photos,4,image/png,c.bin\n5,map,spot_photos,8,4\n",
    "a.bin": b"\x01",
    "b.bin": b"\x02",
    "c.bin": b"\x03",
}
PAGES = "/tiles/base/1/0/1", "/related/spots/7", "/media/photos/3", "/contents"
KEY = "0123456789abcdef"
# How a moment is written in a package, and what stands for each but the first.
MOMENT = re.compile(r"\d{4}-\d\d-\d\dT\d\d:\d\d:\d\d\.\d{3}Z")
LATER = "later"
# A list that a desk is sent: three commands, of which one is refused.
SENT = b"row,spots,10,Well,,3\nrow,spots,x,,,0\nmedia,photos,6,image/png,02\n"

# A case: what stands before it (None: no file), the words with FILE left out, its input, and what is asked of the page
# or of a desk; a desk that has
# input is sent it.
Case = collections.namedtuple("Case", "name start words input page behind", defaults=(b"", None, ()))
# What a run came to: its status, the lines that it printed, the page's response, and whether a growth was refused.
Ran = collections.namedtuple("Ran", "status lines response refused")


class Wrong(Exception):
    """The program answered something else, or something else stands."""


def cases():
    """Yields each case."""
    yield Case("init", None, ["init"])
    for record in COMMANDS.splitlines(keepends=True):
        yield Case(record.split(",")[0], STAGED, ["run", "--at", "0"], record.encode())
    yield Case("publish a tile outside", OUTSIDE, ["run", "--at", "0"], b"rehearse,spring\npublish,spring\n")
    yield Case("a list that can't be read", "", ["run", "--at", "0"], UNREADABLE)
    yield Case("check", STAGED, ["check"])
    yield Case("list", STAGED, ["list"])
    yield Case("show", STAGED, ["show"], b"", None, ("spots",))
    yield Case("kit", FILLED, ["kit", "k", "kit", "--at", "0"])
    yield Case("migrate", PYRAMID, ["migrate"])
    for page in PAGES:
        yield Case(f"GET {page}", FILLED, ["serve", "--count", "1"], b"", page)
    yield Case("GET rows of a desk", FILLED, ["desk", "--count", "1"], b"", "/rows/spots/1")
    yield Case("POST to a desk", FILLED, ["desk", "--count", "1"], SENT, "/records")


def build_refuser(folder):
    """Builds the library that refuses a growth, and returns its path."""
    source, library = folder / "refuser.c", folder / "refuser.so"
    source.write_text(REFUSER)
    subprocess.run(["cc", "-O2", "-shared", "-fPIC", "-o", library, source, "-ldl"], check=True)
    return library


def rows_in(file):
    """Returns all rows of all tables of a package, and nothing of a file that has no table. A desk's moments are the
    clock's: each but the first is a later one."""
    with contextlib.closing(sqlite3.connect(file)) as it:
        tables = [name for (name,) in it.execute("SELECT name FROM sqlite_schema WHERE type = 'table' ORDER BY name")]
        found = [(name, it.execute(f"SELECT * FROM {name}").fetchall()) for name in tables]
    return [(name, [[LATER if is_later(value) else value for value in row] for row in rows]) for name, rows in found]


def is_later(value):
    """Whether a value is a moment, and not the first."""
    return (
        isinstance(value, str)
        and MOMENT.fullmatch(value) is not None
        and not value.startswith("1970-01-01T00:00:00.000")
    )


def request(case, port, given):
    """The request of a case."""
    if case.words[0] == "serve":
        return f"GET {case.page} HTTP/1.1\r\n\r\n".encode()
    sends = f"Content-Type: text/csv\r\nContent-Length: {len(given)}\r\n" if given else ""
    return (
        f"{'POST' if given else 'GET'} /{KEY}{case.page} HTTP/1.1\r\nHost: 127.0.0.1:{port}\r\n{sends}\r\n".encode()
        + given
    )


def asked(running, port, sent):
    """Asks a program that is running once it serves; returns what it printed, and the response."""
    first = running.stdout.readline()
    if not first.startswith((b"serving ", b"desk ")):
        return first + running.stdout.read(), b""
    with socket.create_connection(("127.0.0.1", port), PATIENCE) as it:
        it.sendall(sent)
        response = b"".join(iter(lambda: it.recv(65536), b""))
    return first + running.stdout.read(), response


class Room:
    """A folder of a case's own, in which the program is run from the same beginning again and again."""

    def __init__(self, library, folder, case):
        self.library, self.folder, self.case = library, folder, case
        self.file, self.held = folder / "a.mmpkg", held_port()
        self.port = self.held.getsockname()[1]
        (folder / "kit").mkdir()
        for name, it in KIT.items():
            (folder / "kit" / name).write_bytes(it)
        if case.start is not None:
            self.make()
        self.start = {it: it.read_bytes() for it in self.files() if it.exists()}

    def files(self):
        return [pathlib.Path(f"{self.file}{ending}") for ending in ("", "-wal", "-shm")]

    def make(self):
        """Makes the package that the case begins with."""
        how = {"cwd": self.folder, "capture_output": True, "check": True, "timeout": PATIENCE}
        subprocess.run([PROGRAM, "init", self.file], **how)
        subprocess.run([PROGRAM, "run", self.file, "--at", "0"], input=self.case.start.encode(), **how)
        if self.case.words[0] == "migrate" and not put_back(self.file):
            raise Wrong("no package of profile 1 is made")

    def put_start(self):
        """Has the files be those that the case begins with."""
        for it in self.files():
            it.unlink(missing_ok=True)
        for it, content in self.start.items():
            it.write_bytes(content)

    def run(self, number, given=None):
        """Runs the program where its growth of this number is refused, and none with 0."""
        self.put_start()
        subcommand, *rest = self.case.words
        words = [
            PROGRAM,
            subcommand,
            self.file,
            *self.case.behind,
            *rest,
            *(["--port", str(self.port)] if self.case.page else []),
        ]
        given = self.case.input if given is None else given
        reader, writer = os.pipe()
        how = {"cwd": self.folder, "pass_fds": (writer,), "stdin": subprocess.PIPE, "stdout": subprocess.PIPE}
        how["env"] = {
            "LD_PRELOAD": str(self.library),
            "REFUSE": str(number),
            "REFUSE_TOLD": str(writer),
            "MMPKG_KEY": KEY,
        }
        with open(reader, "rb") as told, subprocess.Popen(words, **how) as running:
            os.close(writer)
            if self.case.page:
                printed, response = asked(running, self.port, request(self.case, self.port, given))
            else:
                printed, response = running.communicate(given, PATIENCE)[0], b""
            return Ran(running.wait(PATIENCE), printed.splitlines(keepends=True), response, told.read() != b"")

    def standings(self):
        """Returns what stands with ample memory before the work and after each part of it that changes something."""
        self.put_start()
        found = [rows_in(self.file)]
        for given in parts_of(self.case):
            if self.case.words[0] == "kit":
                (self.folder / "kit" / "kit.csv").write_bytes(given)
            self.run(0, given)
            rows = rows_in(self.file)
            found += [rows] if rows != found[-1] else []
        return found


def parts_of(case):
    """Yields the input of each first part of a case's work, or the list of each first part of its kit."""
    text = KIT["kit.csv"] if case.words[0] == "kit" else case.input
    lines = text.splitlines(keepends=True)
    for end in range(1, max(1, len(lines)) + 1):
        yield b"".join(lines[:end])


def lines_of(response):
    """The head of a response, and the lines behind it."""
    head, end, body = response.partition(b"\r\n\r\n")
    return head + end, body.splitlines(keepends=True)


def is_desk_answer(ample, ran):
    """Whether a desk answers a request, where a growth was refused, up to a fault 90."""
    told = ran.status, [line for line in ran.lines if not line.startswith(b"desk ")]
    if told in ((3, [b"fault 90\n"]), (0, [b"page fault 90\n"])):
        return ran.response in (b"", ample.response)
    (head, lines), (wanted_head, wanted) = lines_of(ran.response), lines_of(ample.response)
    if told[1] != [b"list fault 90\n"] or head != wanted_head or not lines:
        return False
    return lines == wanted[: len(lines) - 1] + [b"%d fault 90\n" % len(lines)]


def is_answer(case, ample, ran):
    """Whether a run answers as one with ample memory does, or where a growth was refused as that one up to a fault
    90."""
    if (ran.status, ran.lines, ran.response) == ample[:3]:
        return True
    if ran.refused and case.words[0] == "desk":
        return is_desk_answer(ample, ran)
    if not ran.refused or ran.status != 3 or not ran.lines or ran.response not in (b"", ample.response):
        return False
    *before, last = ran.lines
    faults = {"run": b"%d fault 90\n" % len(ran.lines), "kit": b"kit fault 90\n", "serve": b"page fault 90\n"}
    return before == ample.lines[: len(before)] and last in (b"fault 90\n", faults.get(case.words[0]))


def may_stand(case, found, ample, ran):
    """Returns what may stand after a run, of what stands after each part of the work."""
    if ran.lines == ample.lines:
        return found[-1:]
    if case.words[0] not in ("run", "desk"):
        return found
    answers = ran.lines if case.words[0] == "run" else lines_of(ran.response)[1]
    done = sum(line.endswith(b" ok\n") for line in answers)
    return found[done : done + 2]


def look(room, found, ample, number):
    """Refuses a growth, and raises where the answer or what stands after it is wrong."""
    ran = room.run(number)
    if not is_answer(room.case, ample, ran):
        raise Wrong(f"growth {number}: {ran}, and with ample memory {ample}")
    if rows_in(room.file) not in may_stand(room.case, found, ample, ran):
        raise Wrong(f"growth {number}: {ran}, and something else stands")


def growths(room):
    """Returns how many growths a run has: it meets no refusal of a later one."""
    low, high = 0, 1
    while room.run(high).refused:
        low, high = high, high * 2
    while high - low > 1:
        middle = (low + high) // 2
        low, high = (middle, high) if room.run(middle).refused else (low, middle)
    return low


def sweep(library, case, seconds):
    """Refuses each growth of a case, or every so many-th as the seconds allow; returns how many there are, and that
    stride."""
    with tempfile.TemporaryDirectory(prefix="refuse_") as folder:
        room = Room(library, pathlib.Path(folder), case)
        found = room.standings()
        (room.folder / "kit" / "kit.csv").write_bytes(KIT["kit.csv"])
        ample, count, began = room.run(0), growths(room), time.monotonic()
        look(room, found, ample, count + 1)
        stride = max(1, math.ceil(count * (time.monotonic() - began) / seconds))
        for number in range(1, count + 1, stride):
            look(room, found, ample, number)
    return count, stride


def main():
    parser = argparse.ArgumentParser(description="Refuses each growth of memory in turn.")
    parser.add_argument("--seconds", type=float, default=120)
    parser.add_argument("--whole", action="store_true")
    given = parser.parse_args()
    want("no memory was refused", "cc:gcc")
    all_cases, workers, tried = list(cases()), os.cpu_count() or 1, 0
    seconds = math.inf if given.whole else given.seconds * workers / len(all_cases)
    with tempfile.TemporaryDirectory() as folder, concurrent.futures.ProcessPoolExecutor(workers) as pool:
        library = build_refuser(pathlib.Path(folder))
        told = [(it, pool.submit(sweep, library, it, seconds)) for it in all_cases]
        for case, answer in told:
            try:
                count, stride = answer.result()
            except Wrong as why:
                pool.shutdown(cancel_futures=True)
                sys.exit(f"{case.name}: {why}")
            tried += math.ceil(count / stride)
            print(f"{case.name}: {count} growths, each {stride}-th refused", flush=True)
    print(
        f"{tried} growths refused in {len(all_cases)} cases: each was answered as with ample memory or by 90, and no "
        "acknowledged command is lost"
    )


if __name__ == "__main__":
    main()
