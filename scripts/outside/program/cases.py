#!/usr/bin/python3
r"""Runs the program on the transcripts of a folder, and compares all that it answers byte by byte.

    scripts/outside/program/cases.py PROGRAM FOLDER     the last line is 'N passed, M failed'

A transcript NAME.case is a list of steps, done in turn in a new folder of its own; the first that fails ends it. Lines
that begin with # are comments. A step that runs the program is the line '$ WORDS', the words as a shell reads them, and
behind it

    < TEXT               a line of its input
    > TEXT               a line that it must print; '>' alone is an empty line
    >*                   it may print more
    = STATUS             its exit status, where that is not 0
    ~ LEAST MOST         how many seconds it takes
    <- TEXT, >- TEXT     the same without the end of the line
    <!                   the input fails behind what is given, and has no end: it is a terminal that goes away
    <1..9 TEXT           a line for each number from 1 to 9, which is \# in it (>1..9 TEXT too, and >-1..9 TEXT without
                         their ends)
    @ open, @ shut       a connection to the port while the program runs: '<' is sent and '>' must come back before it
                         is closed; 'shut' ends what is sent. All connections are made and sent to before the first is
                         read.
    @ drop, @ hold       one that is cut off as soon as '>' has come, with the rest unread; one of which nothing is read

Words that end in '< FILE', '> FILE' or '2> FILE' take the input from that file, or have the output or standard error go
there. The other steps are

    ! steps FILE         the steps of a file that lies beside the transcript
    ! write FILE         makes a file of the lines '<' that follow
    ! cut FROM TO SIZE   makes a file of the first SIZE bytes of another, or of a part of it, as 1/2
    ! sql FILE STATEMENT runs a statement by Python's sqlite3; '>' are the rows that it gives, with bars between the
                         values; sha256(DATA) is the digest of bytes, as a blob has it
    ! older FILE         puts a package back to profile 1, as scripts/outside/program/make_profile_1.py does
    ! same FILE          the file is byte for byte as it was before the last run of the program
    ! missing FILE       there is no such file
    ! folder NAME        makes a folder
    ! link NAME TARGET   makes a link to a file or a folder, which need not be there
    ! remove NAME        removes a file or an empty folder
    ! limit WHAT SIZE    from here on the program may have so many bytes of 'memory', or make no file longer ('files');
                         without SIZE any
    ! listen             the port is taken, by a listener of this script's own

In all lines \xHH is a byte, \x00..\xff all bytes from one to another, \5{TEXT} is TEXT five times, and {port} the port,
a free one.
"""

import contextlib
import fractions
import hashlib
import os
import pty
import re
import resource
import shlex
import signal
import socket
import sqlite3
import struct
import subprocess
import sys
import tempfile
import time
import tty

from make_profile_1 import put_back

# How many seconds a run of the program may take, and each call of a connection.
PATIENCE = 120
# How many lines are shown of a text that is not the wanted one.
SHOWN = 40
# What of a response that is not read the system holds for a connection at most, so that the program waits for its
# reader.
HELD_BYTES = 4096
# What a program's share is limited of.
LIMITS = {"memory": resource.RLIMIT_AS, "files": resource.RLIMIT_FSIZE}
# The connections that a transcript can have.
CONNECTIONS = "@ open", "@ shut", "@ drop", "@ hold"
# With which signs the lines behind a step begin.
TAKEN = {"$": "<>=~", "@": "<>", "write": "<", "sql": ">"}


class Failed(Exception):
    """A step did not go as the transcript has it."""


def bytes_of(text):
    """Returns the bytes that a line's text stands for."""

    def run_of(found):
        first = int(found[1], 16)
        return bytes(range(first, int(found[2] or found[1], 16) + 1))

    text = re.sub(r"\\(\d+)\{([^{}]*)\}", lambda found: int(found[1]) * found[2], text)
    return re.sub(rb"\\x([0-9a-f]{2})(?:\.\.\\x([0-9a-f]{2}))?", run_of, text.encode())


def lines_of(has_end, numbers, text):
    """Returns the bytes of a line, or of the lines of a range of numbers, with the end of each or without it."""
    end = b"\n" if has_end else b""
    if numbers is None:
        return bytes_of(text) + end
    first, last = map(int, numbers.split(".."))
    return b"".join(bytes_of(text.replace(r"\#", str(number))) + end for number in range(first, last + 1))


class Step:
    """A step, or a connection of one: what is given to it, and what must come of it."""

    def __init__(self, place, line):
        self.place, self.line = place, line
        self.verb, _, self.rest = line.removeprefix("! ").partition(" ")
        self.given, self.wanted, self.may_go_on, self.status = b"", b"", False, 0
        self.input_fails = False
        self.seconds = (0, PATIENCE)
        self.connections = []

    def take(self, line):
        """Takes a line that stands behind the step's own."""
        found = re.fullmatch(r"([<>])(-)?(\d+\.\.\d+)?(?: (.*))?", line)
        if line[0] not in TAKEN.get(self.verb, ""):
            raise Failed(f"no such line behind {self.line}: {line}")
        if line == ">*":
            self.may_go_on = True
        elif line == "<!" and self.verb == "$":
            self.input_fails = True
        elif re.fullmatch(r"= \d+", line):
            self.status = int(line[2:])
        elif seconds := re.fullmatch(r"~ (\d+(?:\.\d+)?) (\d+(?:\.\d+)?)", line):
            self.seconds = tuple(map(float, seconds.groups()))
        elif found and found[1] == "<":
            self.given += lines_of(not found[2], found[3], found[4] or "")
        elif found:
            self.wanted += lines_of(not found[2], found[3], found[4] or "")
        else:
            raise Failed(f"no such line: {line}")

    def compare(self, told, status=0):
        """Fails where this is not what must come of the step."""
        is_told = told.startswith(self.wanted) if self.may_go_on else told == self.wanted
        if is_told and status == self.status:
            return
        about = f"status {status}, wanted {self.status}"
        raise Failed(f"{about}\n{shown('told', told, self.wanted)}{shown('wanted', self.wanted, told)}".rstrip("\n"))


def shown(name, text, other):
    """Returns the text for a reader, from the first line that differs from the other's where it is long."""
    lines, others = text.splitlines(keepends=True), other.splitlines(keepends=True)
    first = 0
    if len(lines) > SHOWN:
        differ = [at for at, pair in enumerate(zip(lines, others)) if pair[0] != pair[1]]
        first = differ[0] if differ else min(len(lines), len(others))
    told = "".join(
        f"    {line[:200].decode(errors='backslashreplace').rstrip()}\n" for line in lines[first : first + SHOWN]
    )
    return f"  {name}, {len(text)} bytes, from line {first + 1}:\n{told}"


def steps_of(path, port):
    """Returns the steps of a transcript."""
    with open(path, encoding="utf-8") as file:
        lines = file.read().replace("{port}", str(port)).split("\n")
    steps, taking = [], None
    for number, line in enumerate(lines, 1):
        place = f"{os.path.basename(path)}:{number}"
        if not line or line.startswith("#"):
            continue
        if line.startswith("! steps "):
            steps += steps_of(f"{os.path.dirname(path)}/{line[8:]}", port)
            taking = None
        elif line[0] in "$!":
            taking = Step(place, line)
            steps.append(taking)
        elif line in CONNECTIONS and taking and steps[-1].verb == "$":
            taking = Step(place, line)
            steps[-1].connections.append(taking)
        elif taking:
            taking.take(line)
        else:
            raise Failed(f"{place}: no step that takes this line: {line}")
    if not steps:
        raise Failed(f"{os.path.basename(path)}: no step")
    return steps


def connected(step, port, program):
    """Returns a connection to the port on which the program is to listen, with all sent that the step has; none where
    the program ended."""
    end = time.monotonic() + PATIENCE
    while program.poll() is None and time.monotonic() < end:
        connection = socket.socket()
        connection.settimeout(PATIENCE)
        if step.rest in ("drop", "hold"):
            connection.setsockopt(socket.SOL_SOCKET, socket.SO_RCVBUF, HELD_BYTES)
        try:
            connection.connect(("127.0.0.1", port))
        except ConnectionRefusedError:
            connection.close()
            time.sleep(0.01)
            continue
        connection.sendall(step.given)
        if step.line == "@ shut":
            connection.shutdown(socket.SHUT_WR)
        return connection
    return None


def read_from(step, connection):
    """Returns what comes over the connection up to its end, or up to where it is cut off."""
    told = b""
    if step.rest == "drop":
        while len(told) < len(step.wanted) and (part := connection.recv(len(step.wanted) - len(told))):
            told += part
        # With no time to linger the system resets the connection.
        connection.setsockopt(socket.SOL_SOCKET, socket.SO_LINGER, struct.pack("ii", 1, 0))
        return told
    while part := connection.recv(65536):
        told += part
    return told


def fault_of(step, connection):
    """Reads the connection as the transcript has it, and returns what is wrong with what came, if anything."""
    if connection is None:
        return f"{step.place}: {step.line}: not connected"
    if step.rest == "hold":
        return None
    with connection:
        told = read_from(step, connection)
    try:
        step.compare(told)
    except Failed as why:
        return f"{step.place}: {step.line}: {why}"
    return None


class Room:
    """The folder in which a transcript's steps are done."""

    def __init__(self, program, folder, port):
        self.program, self.folder, self.port = program, folder, port
        self.before, self.limits = {}, {}
        self.held = contextlib.ExitStack()

    def at(self, name):
        return os.path.join(self.folder, name)

    def contents(self, name):
        with open(self.at(name), "rb") as file:
            return file.read()

    def do(self, step):
        """Does a step, and fails where something else comes of it than must."""
        verbs = {
            "$": self.run,
            "write": self.write,
            "cut": self.cut,
            "sql": self.sql,
            "older": self.older,
            "listen": self.listen,
        }
        verbs |= {
            "same": self.same,
            "missing": self.missing,
            "folder": self.make_folder,
            "remove": self.remove,
            "limit": self.limit,
            "link": self.link,
        }
        if step.verb not in verbs:
            raise Failed("no such step")
        verbs[step.verb](step)

    def run(self, step):
        """Runs the program."""
        self.before = {name: self.contents(name) for name in os.listdir(self.folder) if os.path.isfile(self.at(name))}
        words, ends = shlex.split(step.rest), dict.fromkeys(("<", ">", "2>"), subprocess.PIPE)
        with contextlib.ExitStack() as held:
            while len(words) > 1 and words[-2] in ends:
                flags = os.O_RDONLY if words[-2] == "<" else os.O_WRONLY | os.O_CREAT
                ends[words[-2]] = os.open(self.at(words[-1]), flags, 0o666)
                held.callback(os.close, ends[words[-2]])
                del words[-2:]
            if step.input_fails:
                ends["<"] = left_terminal(step.given)
                held.callback(os.close, ends["<"])
            how = {"executable": self.program, "cwd": self.folder, "env": {}, "preexec_fn": self.put_limits}
            began = time.monotonic()
            program = subprocess.Popen(
                ["mmpkg", *map(bytes_of, words)], stdin=ends["<"], stdout=ends[">"], stderr=ends["2>"], **how
            )
            held.enter_context(program)
            held.callback(program.kill)
            self.compare(step, program)
            took, (least, most) = time.monotonic() - began, step.seconds
            if not least <= took <= most:
                raise Failed(f"it took {took:.1f} seconds, wanted are {least:g} to {most:g}")

    def compare(self, step, program):
        """Fails where the program or a connection gives something else than is wanted."""
        asked = [(it, connected(it, self.port, program)) for it in step.connections]
        faults = [fault_of(it, connection) for it, connection in asked]
        told, errors = program.communicate(step.given if program.stdin else None, timeout=PATIENCE)
        for _, connection in asked:
            if connection:
                connection.close()
        step.compare((told or b"") + (errors or b""), program.returncode)
        if any(faults):
            raise Failed("\n  ".join(filter(None, faults)))

    def write(self, step):
        with open(self.at(step.rest), "wb") as file:
            file.write(step.given)

    def cut(self, step):
        source, target, size = step.rest.split()
        whole, part = self.contents(source), fractions.Fraction(size)
        end = int(part * len(whole)) if "/" in size else int(part)
        with open(self.at(target), "wb") as file:
            file.write(whole[:end])

    def sql(self, step):
        name, _, statement = step.rest.partition(" ")
        with contextlib.closing(sqlite3.connect(self.at(name), isolation_level=None)) as connection:
            connection.create_function("sha256", 1, lambda data: hashlib.sha256(data).hexdigest())
            rows = connection.execute(statement).fetchall()
        step.compare("".join("|".join(map(str, row)) + "\n" for row in rows).encode())

    def older(self, step):
        """Puts a package back to profile 1."""
        if not put_back(self.at(step.rest)):
            raise Failed("no form in profile 1")

    def same(self, step):
        if self.contents(step.rest) != self.before.get(step.rest):
            raise Failed("the file is not as it was")

    def missing(self, step):
        if os.path.lexists(self.at(step.rest)):
            raise Failed("there is such a file")

    def listen(self, _step):
        self.held.enter_context(socket.create_server(("127.0.0.1", self.port)))

    def make_folder(self, step):
        os.mkdir(self.at(step.rest))

    def link(self, step):
        name, _, target = step.rest.partition(" ")
        os.symlink(target, self.at(name))

    def remove(self, step):
        path = self.at(step.rest)
        (os.rmdir if os.path.isdir(path) else os.remove)(path)

    def limit(self, step):
        what, _, size = step.rest.partition(" ")
        if what not in LIMITS:
            raise Failed("no such limit")
        self.limits.pop(LIMITS[what], None)
        if size:
            self.limits[LIMITS[what]] = int(size)

    def put_limits(self):
        """Limits the program that begins, which is told by an error where a file would be longer, and not ended by the
        signal."""
        for what, size in self.limits.items():
            resource.setrlimit(what, (size, resource.getrlimit(what)[1]))
        if resource.RLIMIT_FSIZE in self.limits:
            signal.signal(signal.SIGXFSZ, signal.SIG_IGN)


def left_terminal(given):
    """Returns an input that gives these bytes, and then fails: the one end of a terminal whose other end is closed."""
    terminal, its_end = pty.openpty()
    try:
        tty.setraw(its_end)
        if os.write(its_end, given) != len(given):
            raise Failed("the input is longer than a terminal holds")
    finally:
        os.close(its_end)
    return terminal


def free_port():
    with socket.create_server(("127.0.0.1", 0)) as listener:
        return listener.getsockname()[1]


def passes(program, path):
    """Runs a transcript, and tells what failed."""
    step, port = None, free_port()
    with tempfile.TemporaryDirectory() as folder:
        room = Room(program, folder, port)
        with room.held:
            try:
                for step in steps_of(path, port):
                    room.do(step)
            except (Failed, OSError, ValueError, sqlite3.Error, subprocess.TimeoutExpired) as why:
                place = f"{step.place}: {step.line[:200]}" if step else os.path.basename(path)
                print(f"{os.path.basename(path)} failed at {place}\n  {why}")
                return False
    return True


def main(words):
    if len(words) != 2:
        print(__doc__, end="", file=sys.stderr)
        return 2
    program, folder = os.path.abspath(words[0]), words[1]
    names = sorted(name for name in os.listdir(folder) if name.endswith(".case"))
    told = [passes(program, f"{folder}/{name}") for name in names]
    print(f"{sum(told)} passed, {len(told) - sum(told)} failed")
    return 0 if told and all(told) else 1


if __name__ == "__main__":
    sys.exit(main(sys.argv[1:]))
