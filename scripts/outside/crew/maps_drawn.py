"""Maps that lie behind a package, drawn here and not by GDAL: what the page asks of tools/maps.py is kept, and can
wait."""

import contextlib
import pathlib
import socket
import threading
import urllib.parse

from checks import serving
from images import picture
import maps

PATIENCE = 60
SIDE = 256
# How many connections a browser has to one server.
CONNECTIONS = 6
# The state of a socket whose client has closed it, in /proc/net/tcp.
CLOSED = "08"


class Ground:
    """A picture of one colour over a box; `asked` has the boxes that were drawn."""

    kind, stamp = "picture", ""

    def __init__(self, colour, box, coarsest=50):
        self.data, self.box, self.coarsest = picture(SIDE, SIDE, colour), box, coarsest
        self.asked, self.go, self.begun = [], threading.Event(), threading.Semaphore(0)
        self.go.set()

    def suiting(self):
        return 25832, None

    def told(self, _):
        return {"bounds": self.box, "finest": 0.5, "coarsest": self.coarsest}

    def part(self, _, west, north, pixel):
        self.begun.release()
        assert self.go.wait(PATIENCE)
        self.asked.append((west, north - SIDE * pixel, west + SIDE * pixel, north))
        return self.data


class Parcels:
    """Parcels in a grid of 100 m with names in a column; `asked` has the boxes and columns that were asked for."""

    kind, stamp = "shapes", ""

    def __init__(self, box):
        self.box, self.asked = box, []

    def suiting(self):
        return 25832, None

    def told(self, _):
        return {"bounds": self.box, "columns": ["parcel", "owner"]}

    def within(self, _, box, pixel, column):
        self.asked.append((*box, pixel, column))
        west, south, east, north = self.box
        corners = [(x, y) for x in range(west, east, 100) for y in range(south, north, 100)]
        names = {(x, y): f"{column} {x // 100 % 1000}/{y // 100 % 1000}" if column else "" for x, y in corners}
        return {"type": "FeatureCollection", "more": len(corners) > 3000, "features": [
            {"type": "Feature", "properties": {"name": names[x, y]}, "geometry": {
                "type": "Polygon",
                "coordinates": [[[x, y], [x + 90, y], [x + 90, y + 90], [x, y + 90], [x, y]]]}}
            for x, y in corners if x < box[2] and x + 100 > box[0] and y < box[3] and y + 100 > box[1]]}  # fmt: skip


class Server(maps.Server):
    """A server of maps that can end as a program does: with all of its connections."""

    def __init__(self, *words, **how):
        self.connections = []
        super().__init__(*words, **how)

    def get_request(self):
        connection, peer = super().get_request()
        self.connections.append(connection)
        return connection, peer

    def end(self):
        self.shutdown()
        self.server_close()

    def server_close(self):
        super().server_close()
        for it in self.connections:
            with contextlib.suppress(OSError):
                it.shutdown(socket.SHUT_RDWR)

    def count_of_gone(self):
        """How many connections have been closed by their client, and not here yet."""
        lines = pathlib.Path("/proc/net/tcp").read_text(encoding="ascii").splitlines()[1:]
        own = f"0100007F:{self.server_port:04X}"
        return sum(it[1] == own and it[3] == CLOSED for it in map(str.split, lines))


@contextlib.contextmanager
def served(origin, **named):
    """A server of maps by their names; a text is one that can't be opened."""

    def opened(name):
        if isinstance(named[name], str):
            raise ValueError(named[name])
        return named[name]

    with serving(Server(list(named), origin, open_map=opened)) as server:
        try:
            yield server
        finally:
            for it in named.values():
                if isinstance(it, Ground):
                    it.go.set()


def told_behind(server, file="trip.mmpkg"):
    """What the page's address tells of a server of maps."""
    address = urllib.parse.urlsplit(server.address)
    return f"{file}&maps={address.port}{address.path.rstrip('/')}"
