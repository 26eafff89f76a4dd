"""A server of maps that lie beside a package, at a port of this machine and under a token, for the page of one address.

    maps.py ORIGIN MAP ..

tools/crew.py starts it, by an interpreter that has GDAL's modules. It prints its address, a line for each map that
can't be opened, and `ready`; and it ends with its standard input, and so with whoever began it, however that ends.
MMPKG_MAPS, as PORT/TOKEN, has it come again where it was, for the page that knows it there.

    GET /TOKEN/maps?system=N
    GET /TOKEN/parts/MAP/SYSTEM/WEST/NORTH/PIXEL/COLUMN/ROW
    GET /TOKEN/shapes/MAP/SYSTEM/WEST/SOUTH/EAST/NORTH/PIXEL?name=COLUMN
    POST /TOKEN/places

The first lists all maps, with why for what can't be opened; without a system it chooses one in metres that suits the
first map, and tells what a page needs to reckon it. The second is a PNG of 256 x 256 pixels, and 404 where the map has
nothing or is too large to be shown from so far out. The third has the shapes of a box as GeoJSON, thinned to a pixel,
each with its value of a column as its name; `more` says that there are more than a page draws. MAP is a map's number in
the list. All lengths are metres of SYSTEM, a number at EPSG; a part is that of a grid whose upper left corner is WEST,
NORTH. A part whose client has gone before its turn isn't drawn. Nothing is ever written, and the maps are no part of
the package or of its promise.

The last brings places into a system that a page can't reckon, by PROJ: its body is JSON with `places`, up to 5,000 of
longitude and latitude in degrees of WGS 84, and `epsg`, the system's number there, or `definition`, its WKT; with
`back` the places are east and north in metres, and come back as degrees. It answers `places`, null where one leads
nowhere; `name`, the operation; and `worth`, within how many metres that is, null where nobody knows it, and then no
place. It is 500 with words where PROJ knows no such system.
"""

import collections
import concurrent.futures
import contextlib
import http.server
import json
import math
import os
import secrets
import select
import socket
import sys
import threading
import urllib.parse

MOST_CACHED = 64_000_000
MOST_BODY = 1_000_000
# A place and a pixel are within these metres.
FAR, LEAST_PIXEL, MOST_PIXEL = 1e9, 1e-6, 1e7
MOST_COLUMN = 2**31


class Gone(Exception):
    """The client has gone, and nothing is drawn for it."""


class Cache:
    """Bytes by key, those that were asked for last."""

    def __init__(self, most):
        self.most, self.size, self.kept, self.lock = most, 0, collections.OrderedDict(), threading.Lock()

    def get(self, key):
        with self.lock:
            if key in self.kept:
                self.kept.move_to_end(key)
                return True, self.kept[key]
            return False, None

    def put(self, key, data):
        with self.lock:
            self.size += len(data or b"") - len(self.kept.pop(key, b"") or b"")
            self.kept[key] = data
            while self.size > self.most and len(self.kept) > 1:
                self.size -= len(self.kept.popitem(last=False)[1] or b"")


def number(text, least, most):
    """A number of an address within limits; ValueError where it is none."""
    value = float(text)
    if not (math.isfinite(value) and least <= value <= most):
        raise ValueError(text)
    return value


def whole(text, least, most):
    if not text.removeprefix("-").isascii() or not text.removeprefix("-").isdigit() or not least <= int(text) <= most:
        raise ValueError(text)
    return int(text)


def brought_by_proj(*words):
    """Places in another system, by PROJ, which is asked for when a page wants it."""
    import beyond

    return beyond.brought(*words)


class Maps:
    """The maps that are named, each opened or told why not, and threads that draw them."""

    def __init__(self, paths, open_map):
        self.names = [os.path.basename(it) or it for it in map(str, paths)]
        self.maps = [self.opened(path, open_map) for path in paths]
        self.cache = Cache(MOST_CACHED)
        self.threads = concurrent.futures.ThreadPoolExecutor(max_workers=max(1, min(4, (os.cpu_count() or 2) - 1)))

    def opened(self, path, open_map):
        try:
            return open_map(path)
        except Exception as error:  # whatever a file makes of GDAL
            return str(error) or type(error).__name__

    def listed(self, system):
        """What there is, as the page shows it, in a system, or in one that suits the first map that tells one."""
        suits = {"system": system} if system else self.suiting()
        return {**suits, "maps": [self.told(number, suits["system"]) for number in range(len(self.maps))]}

    def suiting(self):
        """A system in metres that suits the first map that tells one, and the parameters by which a page reckons it."""
        for it in self.maps:
            found = None
            with contextlib.suppress(Exception):  # whatever a map makes of GDAL
                found = None if isinstance(it, str) else it.suiting()
            if found:
                return dict(zip(("system", "reckoned"), found))
        return {"system": None, "reckoned": None}

    def unopened(self):
        """What can't be opened, each with why."""
        return [f"{name}: {it}" for name, it in zip(self.names, self.maps) if isinstance(it, str)]

    def told(self, number, system):
        it, told = self.maps[number], {"number": number, "name": self.names[number]}
        if isinstance(it, str):
            return {**told, "kind": "none", "why": it}
        if system is None:
            return {**told, "kind": "none", "why": "no system in metres suits its place"}
        try:
            return {**told, "kind": it.kind, **it.told(system)}
        except Exception as error:
            return {**told, "kind": "none", "why": f"it can't be drawn in EPSG:{system}: {error}"}

    def drawn(self, key, draw, is_gone):
        """What is drawn by a thread of its own, once for all who ask; Gone where the client is by then."""
        there, data = self.cache.get(key)
        if there:
            return data

        def work():
            if is_gone():
                raise Gone
            return draw()

        data = self.threads.submit(work).result()
        self.cache.put(key, data)
        return data

    def at(self, text, kind):
        it = self.maps[whole(text, 0, len(self.maps) - 1)]
        if isinstance(it, str) or it.kind != kind:
            raise ValueError(text)
        return it


class Answers(http.server.BaseHTTPRequestHandler):
    protocol_version = "HTTP/1.1"
    server_version, sys_version = "maps", ""
    timeout = 30

    def log_message(self, *_):
        pass

    def answer(self, status, kind=None, body=b""):
        self.send_response(status)
        self.send_header("Access-Control-Allow-Origin", self.server.origin)
        self.send_header("Vary", "Origin")
        self.send_header("Cross-Origin-Resource-Policy", "cross-origin")
        self.send_header("X-Content-Type-Options", "nosniff")
        kept = status == 200 and kind == "image/png"
        self.send_header("Cache-Control", "private, max-age=600" if kept else "no-store")
        if kind:
            self.send_header("Content-Type", kind)
        self.send_header("Content-Length", str(len(body)))
        self.end_headers()
        self.wfile.write(body)

    def is_gone(self):
        """Whether the client has closed the connection."""
        try:
            ready, _, _ = select.select([self.connection], [], [], 0)
            return bool(ready) and self.connection.recv(1, socket.MSG_PEEK) == b""
        except (OSError, ValueError):
            return True

    def may_ask(self):
        """Whether it is the page of one address, or no page at all, that asks this machine, and knows the token."""
        own = self.headers.get_all("Host") == [f"127.0.0.1:{self.server.server_port}"]
        return own and self.headers.get("Origin", self.server.origin) == self.server.origin

    def do_GET(self):
        address = urllib.parse.urlsplit(self.path)
        query = dict(urllib.parse.parse_qsl(address.query))
        self.answer_by(lambda rest: self.found(rest, query), "it can't be drawn: ")

    def do_POST(self):
        size = self.headers.get("Content-Length", "")
        if not size.isascii() or not size.isdigit() or int(size) > MOST_BODY:
            self.close_connection = True
            return self.answer(413)
        body = self.rfile.read(int(size))
        return self.answer_by(lambda rest: self.places(rest, body), "")

    def answer_by(self, find, front):
        """Answers with what is found at a route, to whom may ask."""
        token, *rest = urllib.parse.urlsplit(self.path).path.lstrip("/").split("/")
        if not self.may_ask():
            return self.answer(403)
        if not secrets.compare_digest(token.encode(), self.server.token.encode()):
            return self.answer(404)
        try:
            kind, body = find(rest)
        except Gone:
            self.close_connection = True
            return None
        except (ValueError, KeyError):
            kind, body = None, None
        except Exception as error:  # whatever a map or a system makes of GDAL
            return self.answer(500, "text/plain; charset=utf-8", f"{front}{error}".encode())
        return self.answer(200, kind, body) if body is not None else self.answer(404)

    def found(self, rest, query):
        """What stands at a route, as its content type and bytes."""
        routes = {"maps": self.listed, "parts": self.part, "shapes": self.shapes}
        return routes[rest[0]](rest[1:], query)

    def listed(self, rest, query):
        system = whole(query["system"], 1, 10**6) if query else None
        if rest:
            raise ValueError(rest)
        told = self.server.maps.threads.submit(self.server.maps.listed, system).result()
        return "application/json", json.dumps(told).encode()

    def part(self, rest, _):
        at, system, west, north, pixel, column, row = rest
        picture, system = self.server.maps.at(at, "picture"), whole(system, 1, 10**6)
        west, north, pixel = number(west, -FAR, FAR), number(north, -FAR, FAR), number(pixel, LEAST_PIXEL, MOST_PIXEL)
        wide = 256 * pixel
        corner = (
            west + whole(column, -MOST_COLUMN, MOST_COLUMN) * wide,
            north - whole(row, -MOST_COLUMN, MOST_COLUMN) * wide,
        )
        key = (at, picture.stamp, system, *corner, pixel)
        return "image/png", self.server.maps.drawn(key, lambda: picture.part(system, *corner, pixel), self.is_gone)

    def shapes(self, rest, query):
        at, system, *box, pixel = rest
        shapes, system = self.server.maps.at(at, "shapes"), whole(system, 1, 10**6)
        west, south, east, north = (number(it, -FAR, FAR) for it in box)
        pixel, name = number(pixel, LEAST_PIXEL, MOST_PIXEL), query.get("name")
        if west >= east or south >= north:
            raise ValueError(box)
        key = (at, shapes.stamp, system, west, south, east, north, pixel, name)

        def draw():
            return json.dumps(shapes.within(system, [west, south, east, north], pixel, name)).encode()

        return "application/geo+json", self.server.maps.drawn(key, draw, self.is_gone)

    def places(self, rest, body):
        told = json.loads(body)
        if rest != ["places"] or not isinstance(told, dict) or not isinstance(told.get("places"), list):
            raise ValueError(rest)
        bring = self.server.bring
        work = self.server.maps.threads.submit(bring, told, told["places"], told.get("back") is True)
        return "application/json", json.dumps(work.result()).encode()


class Server(http.server.ThreadingHTTPServer):
    """Serves maps at a free port, or a given one; `address` has the token."""

    daemon_threads = True

    def __init__(self, paths, origin, port=0, open_map=None, bring=None, token=None):
        if open_map is None:
            import behind

            open_map = behind.map_of
        self.bring = bring or brought_by_proj
        super().__init__(("127.0.0.1", port), Answers)
        self.origin, self.token = origin, token or secrets.token_urlsafe(24)
        self.maps = Maps(paths, open_map)
        self.address = f"http://127.0.0.1:{self.server_port}/{self.token}/"

    def handle_error(self, *_):
        """A client that goes in the midst of its answer is nothing to tell."""


def main():
    origin, *paths = sys.argv[1:]
    port, _, token = os.environ.pop("MMPKG_MAPS", "").partition("/")
    server = Server(paths, origin, int(port or 0), token=token)
    threading.Thread(target=server.serve_forever, daemon=True).start()
    for line in (server.address, *server.maps.unopened(), "ready"):
        print(" ".join(line.split()), flush=True)
    sys.stdin.buffer.read()
    # What is still being drawn is waited for by nobody.
    os._exit(0)


if __name__ == "__main__":
    main()
