#!/usr/bin/env python3
"""Proves crates and what they stand on, each as soon as those below it are proved, as many side by side as there are
processors.

    scripts/prove.py CRATE ..

Of a program (mm_cli) what it stands on is proved. A crate that has processors to spare gets them (`rt lib --jobs`).
What stands is not proved again, and a build that was stopped goes on. It tells each crate as it is proved, how many of
how many, and the minutes so far; on a terminal in one line that is renewed. out/build.log has what rt said.

Two runs of rt in one tree wait for one another where they share a library, and all share the lowest. So each runs in a
copy of the sources of its own, in out/rooms. What is proved in a room is handed to the tree, and from there to each
room that wants it, without a second copy on the disk. The gate refuses a tree with such rooms: they are gone when this
ends, also by Ctrl-C or SIGTERM. A killed one leaves them to the next build, which goes on with their work, or to the
gate, which removes them (`.ci/run`). A second build waits for the first.
"""
import contextlib
import fcntl
import os
import shutil
import signal
import subprocess
import sys
import threading
import time
from pathlib import Path

TOP = Path(__file__).resolve().parent.parent
LOG = TOP / "out" / "build.log"
ROOMS = TOP / "out" / "rooms"
PARTS = ("src", "specs", "proofs")
PROGRAMS = {"mm_cli"}
# What rt keeps of a crate in its out/: the library, which is made anew and never changed, and the work on its proofs.
LIBRARY, WORK = "rlib", "incremental"
# The memory that the check of a crate may take, in kilobytes.
MEMORY = 3_500_000


def crates_listed():
    """The crates of crates.txt, each with the crates of this repository that it stands on."""
    lines = [line.split("#")[0].strip() for line in (TOP / "crates.txt").read_text().splitlines()]
    named = {line.split(":")[0].split()[0]: line.split(":")[1].split() for line in lines if line}
    return {name: [it for it in below if it in named] for name, below in named.items()}


def below(listed, name):
    """All that a crate stands on, itself left out."""
    found = set()
    for it in listed[name]:
        found |= {it} | below(listed, it)
    return found


def weight(name):
    """About how long a crate's proof takes: the size of its sources and proofs."""
    files = (TOP / "crates" / name).rglob("*")
    return sum(it.stat().st_size for it in files if it.suffix in (".rt", ".antt") and "out" not in it.parts)


def chains(listed, wanted):
    """For each crate the weight of the longest chain that begins with it."""
    above = {name: [it for it in wanted if name in listed[it]] for name in wanted}
    lengths = {}

    def length(name):
        if name not in lengths:
            lengths[name] = weight(name) + max(map(length, above[name]), default=0)
        return lengths[name]

    return {name: length(name) for name in wanted}


def room_for(wanted, number):
    """A copy of the sources of what is wanted, for one run of rt at a time."""
    room = ROOMS / str(number)
    for name in wanted:
        if not (TOP / "crates" / name / "out" / WORK).is_dir():
            hand_work(room / "crates" / name, TOP / "crates" / name)  # of a build that was stopped
        for part in PARTS:
            shutil.rmtree(room / "crates" / name / part, ignore_errors=True)
            if (TOP / "crates" / name / part).is_dir():
                shutil.copytree(TOP / "crates" / name / part, room / "crates" / name / part)
    lines = (TOP / "crates.txt").read_text().splitlines()
    kept = [line for line in lines if line.split(":")[0].split(" ")[0] in wanted]
    (room / "crates.txt").write_text("\n".join(kept) + "\n")
    shutil.copy(TOP / "HANDLES", room)
    return room


@contextlib.contextmanager
def held(folder):
    """Keeps all others who ask out of a folder: of a crate's each rt, which asks so too. Answers the lock's number."""
    folder.mkdir(parents=True, exist_ok=True)
    lock = os.open(folder, os.O_RDONLY)
    try:
        fcntl.flock(lock, fcntl.LOCK_EX)
        yield lock
    finally:
        os.close(lock)


@contextlib.contextmanager
def rooms_for(wanted, count):
    """The rooms of a build. Behind it what their proofs came to is the tree's, and they are gone."""
    try:
        yield [room_for(wanted, number) for number in range(count)]
    finally:
        for crate in ROOMS.glob("*/crates/*"):
            if not (TOP / "crates" / crate.name / "out" / WORK).is_dir():
                hand_work(crate, TOP / "crates" / crate.name)
        shutil.rmtree(ROOMS, ignore_errors=True)


def stamp(crate):
    """The sum of all that a crate's library was made from, or None where there is no library."""
    file = crate / "out" / LIBRARY / "stamp"
    return file.read_text() if file.is_file() else None


def hand_library(source, target):
    """Gives a crate's folder the library that another has."""
    if stamp(source) in (None, stamp(target)):
        return
    shutil.rmtree(target / "out" / LIBRARY, ignore_errors=True)
    shutil.copytree(source / "out" / LIBRARY, target / "out" / LIBRARY, copy_function=os.link)


def hand_work(source, target):
    """Moves the work on a crate's proofs from one folder to another."""
    if (source / "out" / WORK).is_dir():
        shutil.rmtree(target / "out" / WORK, ignore_errors=True)
        (target / "out").mkdir(parents=True, exist_ok=True)
        (source / "out" / WORK).rename(target / "out" / WORK)


def processors():
    """As many as there are, and as the memory that is free has room for."""
    free = [int(line.split()[1]) for line in open("/proc/meminfo") if line.startswith("MemAvailable:")]
    return max(1, min(len(os.sched_getaffinity(0)), *[it // MEMORY for it in free]))


class Build:
    """What is proved, what runs, and what of the processors is taken."""

    def __init__(self, listed, wanted, rooms, lock):
        self.listed, self.wanted, self.rooms, self.lock = listed, wanted, rooms, lock
        self.processors = len(rooms)
        self.lengths = chains(listed, wanted)
        self.proved, self.running, self.failed = set(), {}, None
        self.started, self.is_stopped = {}, False
        self.began, self.turn = time.monotonic(), threading.Condition()
        self.log = open(LOG, "w")

    def ready(self):
        """What can begin now, the longest chain first."""
        free = [it for it in self.wanted - self.proved - set(self.running) if self.proved >= set(self.listed[it])]
        return sorted(free, key=lambda it: -self.lengths[it])

    def prove(self, name, jobs, room):
        """Proves one crate, and says so to whoever waits."""
        here, there = TOP / "crates" / name, room / "crates" / name
        with held(here):
            for it in below(self.listed, name) | {name}:
                hand_library(TOP / "crates" / it, room / "crates" / it)
            hand_work(here, there)
            said, status = self.run_rt(name, jobs, there)
            hand_library(there, here)
            hand_work(there, here)
        with self.turn:
            self.log.write(f"== {name}\n{said}")
            self.log.flush()
            del self.running[name]
            self.rooms.append(room)
            if status:
                self.failed = name
            else:
                self.proved.add(name)
                self.tell(name)
            self.turn.notify()

    def run_rt(self, name, jobs, folder):
        """Runs rt, and answers what it said and its status. It ends where this program is killed, and keeps the tree's
        lock until it has ended."""
        with self.turn:
            if self.is_stopped:
                return "", 1
            self.started[name] = subprocess.Popen(
                ["setpriv", "--pdeathsig", "TERM", "rt", "lib", "--jobs", str(jobs)],
                cwd=folder,
                stdin=subprocess.DEVNULL,
                stdout=subprocess.PIPE,
                stderr=subprocess.STDOUT,
                text=True,
                errors="replace",
                pass_fds=(self.lock,),
            )
        said, _ = self.started[name].communicate()
        return said, self.started[name].returncode

    def stop(self):
        """Ends what runs, and waits for its end."""
        with self.turn:
            self.is_stopped = True
            for process in self.started.values():
                if process.poll() is None:
                    process.terminate()
            while self.running:
                self.turn.wait()

    def tell(self, name):
        """Says what is proved; a terminal's line is renewed."""
        minutes = (time.monotonic() - self.began) / 60
        line = f"{name}: proved ({len(self.proved)} of {len(self.wanted)}, {minutes:.1f} minutes so far)"
        end = "\n" if not sys.stdout.isatty() or self.proved == self.wanted else ""
        print(("\r\033[K" if sys.stdout.isatty() else "") + line, end=end, flush=True)

    def begin(self):
        """Gives the free processors to what is ready."""
        ready = self.ready()
        free = self.processors - sum(self.running.values())
        for at, name in enumerate(ready[:free]):
            jobs = max(1, free // (len(ready) - at))
            free -= jobs
            self.running[name] = jobs
            threading.Thread(target=self.prove, args=(name, jobs, self.rooms.pop()), daemon=True).start()
            if not free:
                return

    def run(self):
        """Proves all that is wanted. Returns whether that went well."""
        with self.turn:
            while not self.failed and self.proved != self.wanted:
                self.begin()
                self.turn.wait()
            while self.running:
                self.turn.wait()
        return not self.failed


def interrupt(number, _frame):
    """A signal that ends a program ends this one as Ctrl-C does; a second one finds it ending."""
    for it in (signal.SIGINT, signal.SIGTERM, signal.SIGHUP):
        signal.signal(it, signal.SIG_IGN)
    raise KeyboardInterrupt(number)


def main():
    if len(sys.argv) < 2:
        print(__doc__, file=sys.stderr)
        return 2
    listed = crates_listed()
    wanted = set().union(*(below(listed, it) | ({it} - PROGRAMS) for it in sys.argv[1:]))
    for it in (signal.SIGINT, signal.SIGTERM, signal.SIGHUP):
        signal.signal(it, interrupt)
    try:
        with held(LOG.parent) as lock, rooms_for(wanted, processors()) as rooms:
            build = Build(listed, wanted, rooms, lock)
            try:
                return 0 if build.run() else 1
            finally:
                build.stop()
    except KeyboardInterrupt as stop:
        print("stopped: what is proved is kept, and the next build goes on", file=sys.stderr)
        return 128 + stop.args[0]


if __name__ == "__main__":
    sys.exit(main())
