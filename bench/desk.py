#!/usr/bin/env python3
"""What a request of a day at the desk costs: by the clock, from the tap to the answer, and in processor time of the
program that answers.

    bench/desk.py [--program out/mmpkg] [--rows 1000] [--rounds 100] [--photo 300000] [--folder FOLDER]

Asked are one row by POST, a row with a photo and its mapping row by one POST, a tile, and 1,000 rows, in a package of
so many rows. Beside the desk stand `run`, which gets the same records, and `serve`, which is asked for the same tile;
and Python's http.server over sqlite3, which decodes the same digits, keeps the same rows in SQLite with WAL and
synchronous=FULL, and answers rows as JSON. The sides take turns.
"""

import contextlib
import http.server
import json
import os
import pathlib
import socket
import sqlite3
import statistics
import subprocess
import sys
import tempfile
import time

import common

KEY = "0123456789abcdef"
TILE_BYTES = 20_000
# More than any bench asks.
MOST = 1_000_000


def records(rows):
    """A pyramid with a tile, and tables of rows and of media with a relation between them."""
    yield common.layout(1) + f"tile,base,0,0,0,{'5a' * TILE_BYTES}\n"
    yield "table,spots,attributes,Spots\ntable,photos,media,Photos\nrelation,shows,spots,photos,media\n"
    for number in range(1, rows + 1):
        yield f"row,spots,{number},Well {number},by the road,{number}\n"


def row(number):
    """The record of a row, of a number that is new."""
    return f"row,spots,{number},Well,by the road,3\n"


def row_with_photo(number, photo):
    """The records of a row, of a photo whose bytes are its own, and of the mapping row between them."""
    digits = number.to_bytes(8, "big").hex() + "5a" * (photo - 8)
    return f"{row(number)}media,photos,{number},image/jpeg,{digits}\nmap,shows,{number},{number}\n"


class Server:
    """A program that answers on a port, and what it has taken of a processor."""

    def __init__(self, words, port, prefix=""):
        self.port, self.prefix = port, prefix
        self.process = subprocess.Popen(words, stdout=subprocess.PIPE, env=os.environ | {"MMPKG_KEY": KEY})
        self.process.stdout.readline()

    def ask(self, method, path, body=b""):
        """The response to a request."""
        fields = f"Content-Type: text/csv\r\nContent-Length: {len(body)}\r\n" if method == "POST" else ""
        head = f"{method} {self.prefix}{path} HTTP/1.1\r\nHost: 127.0.0.1:{self.port}\r\n{fields}\r\n".encode()
        with socket.create_connection(("127.0.0.1", self.port)) as client:
            client.sendall(head + body)
            told = bytearray()
            while piece := client.recv(1 << 16):
                told += piece
        assert told[9:12] == b"200", told[:200]
        return told

    def seconds(self):
        """The processor seconds so far, once it waits for the next connection."""
        return common.seconds_of_waiting(self.process)

    def end(self):
        """Ends it."""
        self.process.terminate()
        self.process.wait()
        self.process.stdout.close()


class Listed:
    """`run`, which is sent the same records in place of a body."""

    def __init__(self, program, file):
        self.process = subprocess.Popen([program, "run", file], stdin=subprocess.PIPE, stdout=subprocess.PIPE)

    def ask(self, _method, _path, body=b""):
        """Sends the records, and waits for their answers."""
        self.process.stdin.write(body)
        self.process.stdin.flush()
        for _ in range(body.count(b"\n")):
            common.answer_of(self.process)

    def seconds(self):
        """The processor seconds so far, once it waits for more of its input."""
        return common.seconds_of_waiting(self.process)

    def end(self):
        """Ends the list."""
        self.process.stdin.close()
        self.process.wait()
        self.process.stdout.close()


# ---- the other side: run as `bench/desk.py --python FILE PORT`


def made(file, rows):
    """A database of SQLite with the same tables, rows and tile."""
    with contextlib.closing(sqlite3.connect(file)) as connection:
        connection.executescript(
            """
            PRAGMA journal_mode = WAL;
            CREATE TABLE tiles (name TEXT, zoom INTEGER, tile_column INTEGER, tile_row INTEGER, data BLOB,
                PRIMARY KEY (name, zoom, tile_column, tile_row));
            CREATE TABLE spots (id INTEGER PRIMARY KEY, title TEXT, note TEXT, amount INTEGER);
            CREATE TABLE photos (id INTEGER PRIMARY KEY, content_type TEXT, data BLOB);
            CREATE TABLE shows (base_id INTEGER, related_id INTEGER, PRIMARY KEY (base_id, related_id));"""
        )
        connection.execute("INSERT INTO tiles VALUES ('base', 0, 0, 0, ?)", (b"\x5a" * TILE_BYTES,))
        connection.executemany(
            "INSERT INTO spots VALUES (?, ?, 'by the road', ?)", ((it, f"Well {it}", it) for it in range(1, rows + 1))
        )
        connection.commit()


def taken(connection, record):
    """Does what a record says, in a commit of its own."""
    kind, _, *fields = record.split(",")
    if kind == "row":
        connection.execute("INSERT OR REPLACE INTO spots VALUES (?, ?, ?, ?)", fields)
    elif kind == "media":
        connection.execute(
            "INSERT OR REPLACE INTO photos VALUES (?, ?, ?)", (fields[0], fields[1], bytes.fromhex(fields[2]))
        )
    else:
        connection.execute("INSERT OR REPLACE INTO shows VALUES (?, ?)", fields)
    connection.commit()


def serve_python(file, port):
    """Answers as the desk does, by Python's http.server and sqlite3."""
    connection = sqlite3.connect(file)
    connection.execute("PRAGMA synchronous = FULL")

    class Handler(http.server.BaseHTTPRequestHandler):
        def told(self, kind, body):
            self.send_response(200)
            self.send_header("Content-Type", kind)
            self.send_header("Content-Length", str(len(body)))
            self.end_headers()
            self.wfile.write(body)

        def do_POST(self):
            lines = self.rfile.read(int(self.headers["Content-Length"])).decode().splitlines()
            for line in lines:
                taken(connection, line)
            self.told("text/plain", "".join(f"{number + 1} ok\n" for number in range(len(lines))).encode())

        def do_GET(self):
            _, what, name, *place = self.path.split("/")
            if what == "tiles":
                key = (name, *map(int, place))
                found = connection.execute(
                    "SELECT data FROM tiles WHERE name = ? AND zoom = ? AND tile_column = ? AND tile_row = ?", key
                ).fetchone()
                return self.told("image/png", found[0])
            rows = connection.execute(
                "SELECT amount, id, note, title FROM spots WHERE id >= ? ORDER BY id LIMIT 1000", (int(place[0]),)
            )
            listed = [dict(zip(("amount", "id", "note", "title"), it)) for it in rows]
            return self.told("application/json", json.dumps(listed, separators=(",", ":")).encode())

        def log_message(self, *_):
            pass

    with http.server.HTTPServer(("127.0.0.1", port), Handler) as server:
        print("serving", flush=True)
        server.serve_forever()


# ---- the measures


def timed(side, rounds, method, path, body):
    """Seconds of the clock of each request, and processor seconds of one, of a side; the first request is not
    counted."""
    side.ask(method, path, body(0))
    before, clock = side.seconds(), []
    for number in range(1, rounds + 1):
        sent = body(number)
        begin = time.perf_counter()
        side.ask(method, path, sent)
        clock.append(time.perf_counter() - begin)
    return clock, (side.seconds() - before) / rounds


def tell(what, sides, rounds, method, path, body):
    """Times one kind of request on the sides that know it, in turns of a tenth of the rounds, and prints what was
    found."""
    clock, taken_up = {name: [] for name in sides}, {name: [] for name in sides}
    for turn in range(10):
        for name, side in sides.items():
            seconds, share = timed(
                side, max(1, rounds // 10), method, path, lambda it, turn=turn: body(turn * (rounds + 1) + it)
            )
            clock[name] += seconds
            taken_up[name].append(share)
    print(
        f"{what}: "
        + ", ".join(
            f"{it} {1e3 * statistics.median(clock[it]):.2f} ms of the clock, "
            f"{1e3 * min(taken_up[it]):.2f} ms of a processor"
            for it in sides
        )
    )
    others = [it for it in sides if it != "desk"]
    print(f"= {what}: " + " / ".join(f"{min(taken_up['desk']) / min(taken_up[it]):.2f} of {it}" for it in others))


def main():
    if sys.argv[1:2] == ["--python"]:
        return serve_python(sys.argv[2], int(sys.argv[3]))
    asked = common.words_of(
        __doc__,
        rows=(1000, "rows that stand"),
        rounds=(100, "requests of each kind"),
        photo=(300_000, "bytes of a photo"),
    )
    with tempfile.TemporaryDirectory(dir=asked.folder) as folder:
        place = pathlib.Path(folder)
        common.make_package(asked.program, str(place / "desk.mmpkg"), "".join(records(asked.rows)))
        for name in ("run", "serve"):
            (place / f"{name}.mmpkg").write_bytes((place / "desk.mmpkg").read_bytes())
        made(place / "python.db", asked.rows)
        ports = {name: common.free_port() for name in ("desk", "serve", "python")}
        words = {
            name: [asked.program, name, str(place / f"{name}.mmpkg"), "--port", str(ports[name]), "--count", str(MOST)]
            for name in ("desk", "serve")
        }
        words["python"] = [sys.executable, __file__, "--python", str(place / "python.db"), str(ports["python"])]
        sides = {
            "desk": Server(words["desk"], ports["desk"], f"/{KEY}"),
            "run": Listed(asked.program, str(place / "run.mmpkg")),
            "serve": Server(words["serve"], ports["serve"]),
            "python": Server(words["python"], ports["python"]),
        }
        some = {"write": ("desk", "run", "python"), "tile": ("desk", "serve", "python"), "rows": ("desk", "python")}
        of = {use: {name: sides[name] for name in names} for use, names in some.items()}
        first = 10 * MOST
        tell("one row", of["write"], asked.rounds, "POST", "/records", lambda it: row(first + it).encode())
        tell(
            f"a row with a photo of {asked.photo} bytes",
            of["write"],
            asked.rounds,
            "POST",
            "/records",
            lambda it: row_with_photo(2 * first + it, asked.photo).encode(),
        )
        tell(f"a tile of {TILE_BYTES} bytes", of["tile"], asked.rounds, "GET", "/tiles/base/0/0/0", lambda it: b"")
        tell("1,000 rows", of["rows"], asked.rounds, "GET", "/rows/spots/1", lambda it: b"")
        for side in sides.values():
            side.end()
    return 0


if __name__ == "__main__":
    sys.exit(main())
