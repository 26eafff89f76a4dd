"""What the checks share: the program, what a check wants, commands with what they have to answer, and checks that are
run by their names.

The program is the one that a check's first word names by a path, or else the environment's MMPKG, or else out/mmpkg, or
else the one that the gate left. Checks begin with '#!/usr/bin/python3': that is Debian's interpreter, which alone is
sure to have Debian's modules (GDAL's, Pillow, piexif).
"""

import argparse
import contextlib
import fcntl
import os
import pathlib
import shutil
import socket
import sqlite3
import struct
import subprocess
import sys
import tempfile
import threading
import time
import traceback
import unittest

TOP = pathlib.Path(__file__).resolve().parents[3]
OUTSIDE = TOP / "scripts" / "outside"
# The folders whose modules checks import: those of the checks, of the tools and of the model.
FOLDERS = [*sorted(it for it in OUTSIDE.iterdir() if it.is_dir()), TOP / "tools", TOP / "scripts" / "model"]
sys.path[1:1] = [str(it) for it in FOLDERS if str(it) not in sys.path]
BUILT, OF_THE_GATE = TOP / "out" / "mmpkg", TOP / "crates" / "mm_cli" / "out" / "mm_cli"
MODULES = "/usr/lib/python3/dist-packages"
# How Linux is asked for a lock in the way of one's own: its kind, from where on, the first byte, how many, whose.
LOCK = struct.Struct("hhqqi4x")
# The sockets of the ports that this check was given.
HELD = []


def found_program():
    """The path of the program; a word that names it is taken off the words."""
    if len(sys.argv) > 1 and "/" in sys.argv[1] and not os.path.isdir(sys.argv[1]):
        return os.path.realpath(sys.argv.pop(1))
    built = OF_THE_GATE if OF_THE_GATE.exists() and not BUILT.exists() else BUILT
    return os.path.realpath(os.environ.get("MMPKG") or built)


PROGRAM = found_program()


def is_there(name):
    """Whether there is a file, or a command, also one of the administrator's."""
    path = f"{os.environ['PATH']}:/usr/sbin:/sbin"
    return os.path.exists(name) if "/" in name else shutil.which(name, path=path) is not None


def want(words, *needs, program=True):
    """Ends the check where it can't be done: with 2 where it wants the program and that isn't there; with 77, and these
    words as the last line, where a command or a file isn't. Each is told as NAME:PACKAGE, the package being Debian's.
    What the check runs finds the program by MMPKG.
    """
    if program and not os.access(PROGRAM, os.X_OK):
        print(f"{PROGRAM} isn't there: scripts/build.sh makes out/mmpkg", file=sys.stderr)
        sys.exit(2)
    if program:
        os.environ["MMPKG"] = PROGRAM
    missing = [it.split(":") for it in needs if not is_there(it.split(":")[0])]
    if missing:
        names, packages = ([*dict.fromkeys(it)] for it in zip(*missing))
        print(f"{words} ({' '.join(names)}): apt-get install {' '.join(packages)}")
        sys.exit(77)


def words_given(about, browser=False, **numbers):
    """What the words of a check say: WORD .., by which it picks among its checks; numbers, by their names with what
    they are where nothing is said; and where it wants a browser, which, and where its screenshots are kept."""
    parser = argparse.ArgumentParser(description=about, formatter_class=argparse.RawDescriptionHelpFormatter)
    for name, number in numbers.items():
        parser.add_argument(f"--{name}", type=int, default=number)
    if browser:
        parser.add_argument("--browser", default="chromium")
        parser.add_argument("--keep", type=pathlib.Path)
    parser.add_argument("words", nargs="*", metavar="WORD")
    given = parser.parse_args()
    if browser and given.keep:
        given.keep.mkdir(parents=True, exist_ok=True)
    return given


def run(*command, status=0, given=b"", out=subprocess.PIPE):
    """Runs a command, which has to end with the status, unless that is None, and answers what it printed and what it
    told on standard error."""
    done = subprocess.run(
        [str(word) for word in command],
        input=given,
        stdout=out,
        stderr=subprocess.PIPE,
        check=False,
        env={**os.environ, "MMPKG": PROGRAM},
    )
    printed, told = (done.stdout or b"").decode(), done.stderr.decode()
    assert status in (
        None,
        done.returncode,
    ), f"{command[:6]} ended with {done.returncode}, wanted {status}:\n{printed[-800:]}{told[-800:]}"
    return printed, told


def mmpkg(*words, status=0, given=b""):
    """What the program prints."""
    return run(PROGRAM, *words, status=status, given=given)[0]


def is_held(file):
    """Whether a program has a package: it locks the file and its journal, as long as it has them open."""
    for path in (file, f"{file}-wal"):
        if os.path.exists(path):
            with open(path, "rb") as opened:
                told = fcntl.fcntl(opened, fcntl.F_OFD_GETLK, LOCK.pack(fcntl.F_WRLCK, os.SEEK_SET, 0, 0, 0))
            if LOCK.unpack(told)[0] != fcntl.F_UNLCK:
                return True
    return False


def wait_until_free(*files, seconds=60):
    """Waits until no program has a package. One that is killed ends in its time: it may be in the midst of a write.

    Whoever looks at a package behind a kill of what is no child of its own, or has one, waits by this first.
    """
    deadline = time.monotonic() + seconds
    while held := [it for it in files if is_held(it)]:
        assert time.monotonic() < deadline, f"a program has {held} still, {seconds} s behind the kill"
        time.sleep(0.02)


def new_package(file, records="", status=0):
    """Makes a package of records, all at the first moment there is."""
    mmpkg("init", file)
    mmpkg("run", file, "--at", 0, given=records.encode(), status=status)


def held_port():
    """A socket that has a port of this machine: as long as it is there the system gives that to nobody else.

    It doesn't listen, so a program that is told of the port may, again and again, and nobody answers meanwhile.
    """
    held = socket.socket()
    held.setsockopt(socket.SOL_SOCKET, socket.SO_REUSEADDR, 1)
    held.bind(("127.0.0.1", 0))
    return held


def free_port():
    """A port that nobody else is given as long as this check runs."""
    HELD.append(held_port())
    return HELD[-1].getsockname()[1]


@contextlib.contextmanager
def serving(server):
    """A server of Python's that answers as long as the block goes on; it is closed behind it."""
    threading.Thread(target=server.serve_forever, daemon=True).start()
    try:
        yield server
    finally:
        server.shutdown()
        server.server_close()


def expect(found, wanted, what):
    """What was found has to be what was wanted."""
    assert found == wanted, f"{what}:\n  found:  {found!r:.1500}\n  wanted: {wanted!r:.1500}"


def content_of(file):
    """The bytes of a file, None where it is none. A journal that has its head alone has no content: each opening makes
    it anew."""
    data = file.read_bytes() if file.is_file() else None
    return b"" if data and file.name.endswith("-wal") and len(data) < 32 + 24 + 512 else data


def run_checks(of, functions, words, call):
    """Runs the functions check_NAME whose names have one of the words (each, where there are none), and tells of each.

    `call` calls a function, and answers for how many checks it counts (None: one). Returns how many passed and failed.
    """
    passed = failed = 0
    for name, check in [
        (name[6:].replace("_", " "), it) for name, it in functions.items() if name.startswith("check_")
    ]:
        if words and not any(word in name for word in words):
            continue
        began = time.monotonic()
        try:
            passed += call(check) or 1
            print(f"{of}: {name}: ok ({time.monotonic() - began:.1f} s)", flush=True)
        except (AssertionError, OSError, ValueError, KeyError, sqlite3.Error, subprocess.SubprocessError):
            failed += 1
            traceback.print_exc(file=sys.stdout)
            print(f"{of}: {name}: FAILED", flush=True)
    return passed, failed


def in_a_folder(check, *more):
    """Does a check in a new folder, which is gone behind it."""
    with tempfile.TemporaryDirectory() as folder:
        return check(pathlib.Path(folder), *more)


def run_tests():
    """Runs the unit tests of the program that calls this, and ends by how many passed."""
    done = unittest.main(exit=False).result
    wrong = len(done.failures) + len(done.errors) + len(done.unexpectedSuccesses)
    end(done.testsRun - wrong - len(done.skipped), wrong)


def end(passed, failed):
    """Prints the sum as the last line, and ends by it."""
    print(f"{passed} passed, {failed} failed")
    sys.exit(1 if failed or not passed else 0)
