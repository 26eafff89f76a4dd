#!/usr/bin/env python3
"""Runs random lists of records on the program, and compares all that it answers with a model in plain Python.

    scripts/model/random_lists.py [--seed N] [--rounds N] [PROGRAM]

PROGRAM is the built program: without it the one of the environment's MMPKG, or out/mmpkg. The model
(scripts/model/package_model.py) is written from docs/FORMATS.md alone. A round makes a package and runs a few lists and
kits on it, each in a run of its own; behind each, the answers, the listing, the check and the rows of all tables are
compared, then what a desk answers to lists and looks of one sitting, and at the end what the page answers. The first
round fills an edition. At the first mismatch the lists are kept, and how to run them again is told; else the last line
says what was compared. It fails too where a refusal was not seen in all of DEFAULT_ROUNDS.
"""

import argparse
import collections
import contextlib
import itertools
import os
import pathlib
import random
import shutil
import socket
import sqlite3
import subprocess
import sys
import tempfile

from package_desk import Desk
from package_model import Package
from package_records import MOST_KIT_BYTES, MOST_MOMENT, MOST_PIECES, Refused, read_command, records
from package_views import listing, query_of, records_of_rows, respond, table_rows
from random_records import OPENING, Author, all_edges

TOP = pathlib.Path(__file__).resolve().parent.parent.parent
DEFAULT_ROUNDS = 20
LISTS = 3
WORDS = 40
# How many seconds a run of the program may take.
PATIENCE = 600
MOMENTS = 0, MOST_MOMENT, 951868799999, 951868800000, 999, 1000
# Which refusals have to be seen: those of records, and those of kits alone.
REFUSALS = {10, 11, 12, *range(20, 28), *range(30, 36), *range(40, 49), *range(50, 56)}
KIT_REFUSALS = {11, 51, 52, 54, 55, 56, 57}


# A machine whose clock stands, so that a desk's moment is known.
CLOCK = r"""
#include <stdlib.h>
#include <sys/syscall.h>
#include <time.h>
#include <unistd.h>
int clock_gettime(clockid_t id, struct timespec *at) {
    if (id != CLOCK_REALTIME)
        return syscall(SYS_clock_gettime, id, at);
    long long moment = atoll(getenv("CLOCK_MILLISECONDS"));
    at->tv_sec = moment / 1000;
    at->tv_nsec = moment % 1000 * 1000000;
    return 0;
}
"""
KEY = "random-lists-0123456789"


class Mismatch(Exception):
    """The program and the model do not answer the same."""


def standing_clock(folder):
    """Compiles a library for a clock that stands; its path."""
    source, library = pathlib.Path(folder, "clock.c"), pathlib.Path(folder, "clock.so")
    source.write_text(CLOCK)
    subprocess.run(["cc", "-shared", "-fPIC", "-o", library, source], check=True)
    return library


def answers(package, text, moment):
    """Does a list to a package; returns the answers, and the records."""
    found, told = records(text), []
    for record in found:
        try:
            told.append(package.apply(read_command(record), moment))
        except Refused as refused:
            told.append(f"refused {refused.number}")
    return told, found


def full_kit():
    """Returns a kit that fills an edition."""
    return {"kit.csv": b"".join(b"%d,row,spots,%d,,,0\n" % (place, place) for place in range(1, MOST_PIECES + 1))}


def stages(*numbers):
    """Returns a list that stages a piece of that kit's last row, under each of some numbers."""
    return b"".join(b"stage,full,%d,row,spots,%d,,,0\n" % (number, MOST_PIECES) for number in numbers)


class Round:
    """A package, and what is done to it by the program and by the model."""

    def __init__(self, program, clock, seed, number, edges, seen):
        self.program, self.clock, self.seed, self.number, self.seen = program, clock, seed, number, seen
        self.random = random.Random(f"{seed} {number}")
        self.edges = edges
        self.folder = pathlib.Path(tempfile.mkdtemp(prefix=f"random_lists_{seed}_{number}_"))
        self.file = self.folder / "a.mmpkg"
        self.package = Package()
        self.author = Author(self.random, self.package)
        self.again = [f"mmpkg init {self.file.name}"]

    def run(self):
        """Does the whole round, and leaves its folder only where it fails."""
        self.compare("init", self.program_lines("init", self.file), ["init ok"])
        self.compare_package()
        if self.number == 1:
            self.fill_an_edition()
        for number in range(LISTS):
            words = self.author.words(WORDS)
            self.random_list(OPENING + words if number == 0 else words, self.edges[number])
            if self.random.random() < 0.6:
                self.author.package = self.package.copy()
                self.do_kit(*self.author.kit())
        self.do_desk()
        self.compare_page()
        shutil.rmtree(self.folder)

    def random_list(self, words, edges):
        """Runs a random list."""
        moment = self.random.choice((*MOMENTS, self.random.randrange(MOST_MOMENT + 1)))
        self.author.package = self.package.copy()
        self.do_list(self.author.next_list(words, edges, moment), moment)

    def fill_an_edition(self):
        """Fills an edition by a kit, after kits that are too long, and publishes it."""
        self.do_list(b"table,spots,attributes,Spots\nedition,full\n" + stages(1, 2), 0)
        for edition in ("full", "nowhere"):
            self.do_kit(edition, full_kit())
        self.do_kit("full", {"kit.csv": b"\n" * (MOST_KIT_BYTES + 1)})
        self.do_kit("full", {"kit.csv": full_kit()["kit.csv"] + b"4097,row,spots,1,,,0"})
        self.do_list(b"discard,full\nedition,full\n", 0)
        self.do_kit(
            "full",
            full_kit() | {"kit.csv": b"\n" * (MOST_KIT_BYTES - len(full_kit()["kit.csv"])) + full_kit()["kit.csv"]},
        )
        numbers = MOST_PIECES, MOST_PIECES + 1, MOST_PIECES + 2, MOST_PIECES - 1
        self.do_list(stages(*numbers) + b"rehearse,full\npublish,full\n" + stages(1) + b"drop,spots\n", 1)
        self.do_kit("full", full_kit())

    def program_lines(self, *words, text=b"", status=0):
        """Returns the lines that the program prints, and compares its status."""
        done = subprocess.run([self.program, *words], input=text, capture_output=True, timeout=PATIENCE, check=False)
        told = done.stdout.decode("utf-8", "backslashreplace").split("\n")
        self.compare("status of " + words[0], [f"{done.returncode} {told[-1:]}"], [f"{status} ['']"])
        return told[:-1]

    def compare(self, what, told, wanted, sources=()):
        """Compares lines, and tells the first that differs with its source."""
        for place, (one, other, source) in enumerate(itertools.zip_longest(told, wanted, sources), 1):
            if one != other:
                shown = b",".join(source)[:300] if source else ""
                raise Mismatch(f"{what}, line {place}: {shown!r}\n  program: {one!r:.2000}\n  model:   {other!r:.2000}")

    def do_list(self, text, moment):
        """Runs a list, and compares its answers and what it leaves."""
        name = f"{len(self.again)}.csv"
        (self.folder / name).write_bytes(text)
        self.again.append(f"mmpkg run {self.file.name} --at {moment} < {name}")
        wanted, sources = answers(self.package, text, moment)
        for answer in wanted:
            self.seen["answer", int(answer.split()[1]) if answer != "ok" else "ok"] += 1
            self.seen["ok", ""] += answer == "ok"
        lines = [f"{place} {answer}" for place, answer in enumerate(wanted, 1)]
        status = int(any(answer != "ok" for answer in wanted))
        told = self.answer_lines(text, moment)
        self.compare(name, told[0], lines, sources)
        self.compare("status of run", [told[1]], [status])
        self.compare_package()

    def answer_lines(self, text, moment):
        """Returns the lines and the status of a run."""
        words = [self.program, "run", self.file, "--at", str(moment)]
        done = subprocess.run(words, input=text, capture_output=True, timeout=PATIENCE, check=False)
        return done.stdout.decode("utf-8", "backslashreplace").splitlines(), done.returncode

    def do_kit(self, edition, folder):
        """Imports a kit, and compares the answer and what it leaves."""
        name = f"{len(self.again)}.kit"
        (self.folder / name).mkdir()
        for file, data in folder.items():
            (self.folder / name / file).write_bytes(data)
        self.again.append(f"mmpkg kit {self.file.name} {edition} {name} --at 0")
        answer = self.package.import_kit(edition, folder)
        self.seen["kit", int(answer.split()[2]) if answer.startswith("refused") else "complete"] += 1
        words = "kit", self.file, edition, self.folder / name, "--at", "0"
        told = self.program_lines(*words, status=int(answer.startswith("refused")))
        self.compare(name, told, ["kit " + answer])
        self.compare_package()

    def compare_package(self):
        """Compares the listing, the check and the rows."""
        self.compare("listing", self.program_lines("list", self.file), listing(self.package))
        self.compare("check", self.program_lines("check", self.file), ["package ok"])
        self.compare_records()
        told, wanted = self.file_rows(), table_rows(self.package)
        for table in sorted(told.keys() | wanted.keys()):
            self.compare(
                "rows of " + table, *[sorted(rows.get(table, ["no table"]), key=repr) for rows in (told, wanted)]
            )
        self.seen["packages", ""] += 1
        self.seen["rows", ""] += sum(map(len, told.values()))

    def compare_records(self):
        """Compares the records of the rows of each table that may have some, and why the first of the others shows
        none."""
        tables = sorted(self.package.tables, key=lambda table: (self.package.kind(table) == "attributes", table))
        for place, table in enumerate(["nowhere", *tables]):
            if place < 2 or self.package.kind(table) == "attributes":
                wanted = records_of_rows(self.package, table)
                told = self.program_lines("show", self.file, table, status=int(wanted.startswith("refused")))
                self.compare("records of " + table, told, wanted.split("\n")[:-1])

    def file_rows(self):
        """Returns the rows of each table of a copy of the file, as Python's sqlite3 has them."""
        with tempfile.TemporaryDirectory() as folder:
            for file in self.folder.glob(self.file.name + "*"):
                shutil.copy(file, folder)
            connection = sqlite3.connect(os.path.join(folder, self.file.name))
            tables = [
                it
                for (it,) in connection.execute(
                    "SELECT name FROM sqlite_schema WHERE type = 'table' AND name NOT LIKE 'sqlite_%'"
                )
            ]
            rows = {table: connection.execute(query_of(table)).fetchall() for table in tables}
            connection.close()
        return rows

    def do_desk(self):
        """Runs lists and looks by one desk, and compares each response, how it ends, and what it leaves."""
        with socket.create_server(("127.0.0.1", 0)) as free:
            port = free.getsockname()[1]
        moment = self.random.randrange(MOST_MOMENT + 1)
        table = self.random.choice(
            [*(name for name, it in self.package.tables.items() if it.kind == "media"), "nowhere"]
        )
        words = [self.program, "desk", self.file, "--port", str(port), "--count", "1000", "--page", table]
        clock = {"LD_PRELOAD": str(self.clock), "CLOCK_MILLISECONDS": str(moment), "MMPKG_KEY": KEY}
        self.again.append(
            f"MMPKG_KEY={KEY} mmpkg desk {self.file.name} --port {port} --count 1000 --page {table}, at {moment}"
        )
        desk = Desk(port, KEY, table)
        with subprocess.Popen(words, stdout=subprocess.PIPE, env=os.environ | clock) as server:
            try:
                self.compare(
                    "desk",
                    [server.stdout.readline()],
                    [f"desk http://127.0.0.1:{port}/{KEY}/media/{table}/1\n".encode()],
                )
                for _ in range(LISTS):
                    self.sit(desk, port, moment)
                self.compare("end", [self.ask(desk, port, moment, "POST", f"/{KEY}/end", [], b"")], [True])
                self.compare("desk", [server.stdout.read(), server.wait(PATIENCE)], [b"", 0])
            finally:
                server.kill()
        self.compare_package()

    def sit(self, desk, port, moment):
        """Runs a random list by a desk, and asks it for some things."""
        self.author.package = self.package.copy()
        body = self.author.next_list(self.author.words(WORDS), [], moment)
        self.ask(
            desk,
            port,
            moment,
            "POST",
            f"/{KEY}/records",
            [("Content-Type", "text/csv"), ("Content-Length", str(len(body)))],
            body,
        )
        self.author.package = self.package
        for method, target, _ in self.author.requests():
            if method is not None:
                self.ask(desk, port, moment, method, f"/{KEY}{target}" if target.startswith("/") else target, [], b"")
        for table in self.package.tables:
            self.ask(
                desk,
                port,
                moment,
                "GET",
                f"/{KEY}/rows/{table}/{self.random.choice((0, 1, 2, 5, MOST_PIECES))}",
                [],
                b"",
            )

    def ask(self, desk, port, moment, method, target, fields, body):
        """Asks the desk, and compares what it answers with the model; whether the desk ends."""
        lines = [("Host", desk.host), *fields]
        head = f"{method} {target} HTTP/1.1\r\n" + "".join(f"{name}: {value}\r\n" for name, value in lines) + "\r\n"
        wanted, ends = desk.answer(self.package, moment, method, target, lines, body)
        self.compare(f"the desk's response to {head[:200]!r}", [exchange(port, head.encode() + body)], [wanted])
        self.seen["desk", int(wanted[9:12])] += 1
        return ends

    def compare_page(self):
        """Compares the responses to some requests."""
        self.author.package = self.package
        requests = self.author.requests()
        with socket.create_server(("127.0.0.1", 0)) as free:
            port = free.getsockname()[1]
        words = [self.program, "serve", self.file, "--port", str(port), "--count", str(len(requests))]
        with subprocess.Popen(words, stdout=subprocess.PIPE) as server:
            try:
                self.compare("serve", [server.stdout.readline()], [b"serving 127.0.0.1:%d\n" % port])
                for method, target, head in requests:
                    wanted = respond(self.package, method, target)
                    self.compare(f"response to {head[:300]!r}", [exchange(port, head)], [wanted])
                    self.seen["page", int(wanted[9:12])] += 1
                self.compare("serve", [server.stdout.read(), server.wait(PATIENCE)], [b"", 0])
            finally:
                server.kill()


def exchange(port, head):
    """Returns what is answered to a head."""
    told = b""
    with socket.create_connection(("127.0.0.1", port), timeout=PATIENCE) as connection:
        # The program may have answered and closed already, with bytes unread behind a head.
        with contextlib.suppress(OSError):
            connection.sendall(head)
            connection.shutdown(socket.SHUT_WR)
        with contextlib.suppress(ConnectionResetError):
            while part := connection.recv(1 << 16):
                told += part
    return told


def unseen(seen):
    """Returns which refusals have not been seen."""
    missing = {("answer", it) for it in REFUSALS} | {("kit", it) for it in KIT_REFUSALS}
    missing |= {("page", it) for it in (200, 400, 404, 405)}
    return sorted(missing - {key for key, count in seen.items() if count})


def counts(seen, sort):
    """Returns how often each answer of a sort was seen, as a text."""
    found = sorted((str(key), count) for (it, key), count in seen.items() if it == sort)
    return f"{sum(count for _, count in found)} ({', '.join(f'{key}: {count}' for key, count in found)})"


def arguments():
    """Returns the arguments."""
    parser = argparse.ArgumentParser(description=__doc__.splitlines()[0])
    parser.add_argument("--seed", type=int, default=1)
    parser.add_argument("--rounds", type=int, default=DEFAULT_ROUNDS)
    parser.add_argument("--first", type=int, default=1, help="the first round, where others are left out")
    parser.add_argument("program", nargs="?", default=os.environ.get("MMPKG", TOP / "out/mmpkg"))
    return parser.parse_args()


def main():
    """Does the rounds on a clock that stands."""
    with tempfile.TemporaryDirectory() as room:
        return all_rounds(arguments(), standing_clock(room))


def all_rounds(given, clock):
    """Does the rounds, and tells what was compared."""
    edges = all_edges()
    random.Random(given.seed).shuffle(edges)
    parts = DEFAULT_ROUNDS * LISTS
    seen = collections.Counter()
    for number in range(given.first, given.rounds + 1):
        chosen = [edges[(number * LISTS + it) % parts :: parts] for it in range(LISTS)]
        one = Round(pathlib.Path(given.program).resolve(), clock, given.seed, number, chosen, seen)
        try:
            one.run()
        except (Mismatch, OSError, subprocess.TimeoutExpired) as error:
            print(f"seed {given.seed}, round {number}: {error}")
            print(f"In {one.folder}:", *one.again, sep="\n    ")
            return 1
    print(
        f"seed {given.seed}, rounds {given.first} to {given.rounds}, all as in the model: records",
        counts(seen, "answer"),
        end="; ",
    )
    print("kits", counts(seen, "kit"), end="; ")
    print(
        f"{seen['packages', '']} listings, checks and files of {seen['rows', '']} rows in all; requests",
        counts(seen, "page"),
        end="; ",
    )
    print("a desk's", counts(seen, "desk"))
    if given.first == 1 and given.rounds >= DEFAULT_ROUNDS and unseen(seen):
        print("not seen:", unseen(seen))
        return 1
    return 0


if __name__ == "__main__":
    sys.exit(main())
