"""A session of a package for one tool alone: its own desk, by a key of its own, while nobody else may write."""

import ctypes
import functools
import http.client
import os
import pathlib
import secrets
import select
import signal
import socket
import subprocess
import sys
import time

from border import (
    LINE,
    RENEWED,
    Refused,
    copy_with_journal,
    expect_room,
    has_commits,
    keep_pace,
    program,
    refuse,
    sizes_of,
    tell_opening,
)

# How long a program that is about to end may have the file still, in seconds, from when on that is told, and how long
# it is between two looks.
PATIENCE, SILENCE, PAUSE = 30, 1, 0.25
FAULTS = {"fault 91": "another program has it, or it can't be written"}
# The exit status behind Ctrl-C.
STOPPED = 130
# How many bytes of records go in one request; a single record may be longer.
MOST_BYTES = 4_000_000
ANSWER_PATIENCE = 3600
# The request of Linux that a process gets a signal when the one that began it ends.
PARENT_ENDED = 1


def end_with(parent):
    """Has a process that is begun end when its parent does, also by a kill: what it was told stands all the same."""
    ctypes.CDLL(None).prctl(PARENT_ENDED, signal.SIGKILL)
    if os.getppid() != parent:
        os._exit(1)


def free_port():
    with socket.create_server(("127.0.0.1", 0)) as listener:
        return listener.getsockname()[1]


class Session:
    """A package that a desk of this tool has; `with` ends it well, and FILE alone holds all then.

    How long another program may have it still, in seconds, and what is told of a fault may be others than usual.
    """

    def __init__(self, file, patience=None, faults=None):
        self.file = file
        self.patience = PATIENCE if patience is None else patience
        self.faults = faults or FAULTS
        self.key = secrets.token_hex(16)
        self.port = 0
        self.running = self.begin()

    def __enter__(self):
        return self

    def __exit__(self, kind, *_):
        self.close(kind)
        if kind is KeyboardInterrupt:
            raise Refused(f"{self.file}: stopped in the midst; do it again, and it comes to the same end", STOPPED)

    def close(self, kind):
        """Ends the desk, well where it goes on."""
        try:
            if self.running.poll() is None:
                self.end()
        except Refused:
            # What ended the work before says more.
            if kind is None:
                raise
        finally:
            self.running.kill()
            self.running.communicate()

    def begin(self):
        """Starts the desk; a program that is about to end has the file for a while still, as on a slow disk."""
        began, is_told = time.monotonic(), False
        while True:
            running, said = self.start()
            if said.startswith("desk "):
                return running
            status = running.wait()
            running.communicate()
            waited, patience = time.monotonic() - began, {"fault 91": self.patience, "fault 96": PATIENCE}.get(said, 0)
            told = f"{said}: {self.faults[said]}" if said in self.faults else said
            if waited > patience or not patience:
                refuse(self.file, self.file, status if status > 0 else 3, told)
            if waited > SILENCE and not is_told:
                print(f"{self.file}: {told}; it is tried for {patience} s", file=sys.stderr, flush=True)
                is_told = True
            time.sleep(PAUSE)

    def start(self):
        self.port = free_port()
        size, began = sum(sizes_of(self.file)), time.monotonic()
        running = subprocess.Popen(
            [program(), "desk", self.file, "--port", str(self.port)],
            stdin=subprocess.DEVNULL,
            stdout=subprocess.PIPE,
            env={**os.environ, "MMPKG_KEY": self.key},
            preexec_fn=functools.partial(end_with, os.getpid()),
        )
        try:
            while not select.select([running.stdout], [], [], RENEWED)[0]:
                tell_opening(f"opening {self.file}", size, began)
            said = running.stdout.readline().decode(errors="replace").strip()
        except BaseException:
            running.kill()
            raise
        LINE.clear()
        if said.startswith("desk "):
            keep_pace(size, time.monotonic() - began)
        return running, said

    def ask(self, path, body=b"", method="POST"):
        """The bytes that the desk answers; refused where they were cut."""
        connection = http.client.HTTPConnection("127.0.0.1", self.port, timeout=ANSWER_PATIENCE)
        try:
            connection.request(method, f"/{self.key}{path}", body or None, {"Content-Type": "text/csv"})
            response = connection.getresponse()
            told = response.read()
        except (OSError, http.client.HTTPException) as error:
            raise Refused(f"{self.file}: the session ended in the midst: {error or type(error).__name__}", 3) from error
        finally:
            connection.close()
        if response.status != 200:
            raise Refused(f"{self.file}: the desk answers {response.status} to {method} {path}", 3)
        return told

    def do(self, records):
        """Does records, given as bytes, in as many requests as they want; returns how each was answered."""
        answers = []
        for body, count in batches(records):
            lines = self.ask("/records", body).decode(errors="replace").splitlines()
            if len(lines) != count:
                raise Refused(f"{self.file}: the session ended in the midst of a list", 3)
            answers += [line.split(" ", 1)[1] for line in lines]
        return answers

    def expect_done(self, records):
        """Does records that have to be accepted."""
        records = list(records)
        for line, answer in zip(records, self.do(records)):
            if answer != "ok":
                raise Refused(f"{self.file}: {line[:60].decode(errors='replace').strip()}: {answer}", 3)

    def end(self):
        """Ends the desk well."""
        self.ask("/end")
        status = self.running.wait()
        if status != 0:
            raise Refused(f"{self.file}: the session ended with {status}", 3)


def batches(records):
    """Records as bodies of requests, each with how many it has."""
    body, count = b"", 0
    for line in records:
        if body and len(body) + len(line) > MOST_BYTES:
            yield body, count
            body, count = b"", 0
        body, count = body + line, count + 1
    if body:
        yield body, count


class Held:
    """How a package is read that a session has: where it stands while its journal holds nothing, else by a copy."""

    def __init__(self, file, folder):
        self.file = file
        self.path = file
        if has_commits(file):
            expect_room(file, folder)
            self.path = pathlib.Path(folder) / "copy.mmpkg"
            copy_with_journal(file, self.path)

    def address(self):
        return f"{self.path.resolve().as_uri()}?mode=ro{'&immutable=1' if self.path == self.file else ''}"
