#!/usr/bin/env python3
"""Requests a second for one tile over loopback, against Python's http.server with sqlite3.

    bench/page.py [--program out/mmpkg] [--requests 2000] [--bytes 20000] [--rounds 5] [--port 18082] [--folder FOLDER]

One client asks for the same tile, one connection a request. The two servers take turns for some rounds, each on the
same package file; Python's reads the tile by its key from the same table. What is compared is the median of the rounds.
"""

import http.server
import multiprocessing
import pathlib
import socket
import sqlite3
import statistics
import subprocess
import tempfile
import time

import common

REQUEST = b"GET /tiles/base/0/0/0 HTTP/1.1\r\nHost: localhost\r\n\r\n"


def python_server(file, port, ready):
    connection = sqlite3.connect(file)

    class Handler(http.server.BaseHTTPRequestHandler):
        def do_GET(self):
            _, _, table, zoom, column, row = self.path.split("/")
            found = connection.execute(
                "SELECT tile_data FROM mm_tiles "
                "WHERE table_name = ? AND zoom_level = ? AND tile_column = ? AND tile_row = ?",
                (table, int(zoom), int(column), int(row)),
            ).fetchone()
            self.send_response(200)
            self.send_header("Content-Type", "application/octet-stream")
            self.send_header("Content-Length", str(len(found[0])))
            self.end_headers()
            self.wfile.write(found[0])

        def log_message(self, *_):
            pass

    with http.server.HTTPServer(("127.0.0.1", port), Handler) as server:
        ready.set()
        server.serve_forever()


def ask(port, requests, size):
    begin = time.perf_counter()
    for _ in range(requests):
        with socket.create_connection(("127.0.0.1", port)) as client:
            client.sendall(REQUEST)
            told = bytearray()
            while piece := client.recv(65536):
                told += piece
        assert told.startswith(b"HTTP/1.") and told[9:12] == b"200" and len(told) - told.index(b"\r\n\r\n") - 4 == size
    return requests / (time.perf_counter() - begin)


def time_ours(program, file, port, requests, size):
    with subprocess.Popen(
        [program, "serve", file, "--port", str(port), "--count", str(requests)], stdout=subprocess.PIPE
    ) as server:
        assert server.stdout.readline().startswith(b"serving ")
        rate = ask(port, requests, size)
        assert server.wait() == 0
    return rate


def time_python(file, port, requests, size):
    ready = multiprocessing.Event()
    server = multiprocessing.Process(target=python_server, args=(file, port, ready))
    server.start()
    ready.wait()
    rate = ask(port, requests, size)
    server.terminate()
    server.join()
    return rate


def main():
    given = common.words_of(
        __doc__,
        requests=(2000, "requests in a round"),
        bytes=(20000, "bytes of the tile"),
        rounds=(5, "rounds of each side"),
        port=(18082, "the first of the ports, one for each round of each side"),
    )
    with tempfile.TemporaryDirectory(dir=given.folder) as folder:
        file = str(pathlib.Path(folder) / "a.mmpkg")
        common.make_package(given.program, file, common.layout(1) + f"tile,base,0,0,0,{'5a' * given.bytes}\n")
        # Python's SQLite reads a copy of the rows, since the package's own journal is not SQLite's.
        copy = str(pathlib.Path(folder) / "copy.db")
        with sqlite3.connect(copy) as connection:
            connection.execute(
                "CREATE TABLE mm_tiles (table_name TEXT, zoom_level INTEGER, tile_column INTEGER, tile_row INTEGER,"
                " tile_data BLOB, PRIMARY KEY (table_name, zoom_level, tile_column, tile_row)) STRICT"
            )
            connection.execute("INSERT INTO mm_tiles VALUES ('base', 0, 0, 0, ?)", (b"\x5a" * given.bytes,))
        ours, theirs = [], []
        for number in range(given.rounds):
            ours.append(time_ours(given.program, file, given.port + 2 * number, given.requests, given.bytes))
            theirs.append(time_python(copy, given.port + 2 * number + 1, given.requests, given.bytes))
            print(f"round {number + 1}: mmpkg {ours[-1]:.0f}, Python {theirs[-1]:.0f} requests a second")
        ratios = [one / other for one, other in zip(ours, theirs)]
        print(
            f"median: mmpkg {statistics.median(ours):.0f}, Python {statistics.median(theirs):.0f}; "
            f"ratio {statistics.median(ratios):.2f}"
            f" ({min(ratios):.2f} .. {max(ratios):.2f})"
        )


if __name__ == "__main__":
    main()
