"""A program that has taken a port which isn't its own, and answers each request as it is told.

No answer is one of a package:

    with Stranger(port, "lines") as stranger:
        ..                      # what a page does meanwhile; stranger.asked has the requests
"""

import contextlib
import socket
import threading
import time

SLOW_SECONDS = 1.5
LINES = 30
PAGE = b"<!doctype html>\n<title>Login</title>\n" + b"<p>another program\n" * LINES
OKS = b"".join(b"%d ok\n" % it for it in range(1, LINES + 1))


def response(status, kind, body, *headers, size=None):
    lines = [
        f"HTTP/1.1 {status}",
        f"Content-Type: {kind}",
        f"Content-Length: {len(body) if size is None else size}",
        *headers,
        "Connection: close",
    ]
    return "\r\n".join([*lines, "", ""]).encode() + body


def redirect(path):
    """To a page of its own, which each request behind that gets."""
    return (
        response("200 OK", "text/html", PAGE)
        if path == "/login"
        else response("302 Found", "text/html", b"", "Location: /login")
    )


# By its name, what is answered to a request's path; None closes the connection without a word.
ANSWERS = {
    "lines": lambda path: response("200 OK", "text/plain", b"another program\n" * LINES),
    "page": lambda path: response("200 OK", "text/html; charset=utf-8", PAGE),
    "redirect": redirect,
    "cut": lambda path: response("200 OK", "text/plain", b"another program\n" * 2, size=4096),
    "cut oks": lambda path: response("200 OK", "text/plain", b"1 ok\n2 ok\n3 o", size=4096),
    "slow": lambda path: time.sleep(SLOW_SECONDS) or response("200 OK", "text/plain", b"another program\n" * LINES),
    "too many oks": lambda path: response("200 OK", "text/plain", OKS),
    "oks of a page": lambda path: response("200 OK", "text/html", b"1 ok\n"),
    "oks from two": lambda path: response("200 OK", "text/plain", b"2 ok\n3 ok\n4 ok\n5 ok\n"),
    "nothing": lambda path: response("200 OK", "text/plain", b""),
    "an empty list": lambda path: response("200 OK", "application/json", b"[]"),
    "an object": lambda path: response("200 OK", "application/json", b'{"status":"ok"}\n'),
    "not found": lambda path: response("404 Not Found", "text/plain", b"not found\n"),
    "an error": lambda path: response("500 Internal Server Error", "text/plain", b"1 ok\n"),
    "closes": lambda path: None,
}


class Stranger:
    """Listens at a port until the end of the block that it is made in."""

    def __init__(self, port, answer):
        self.answer, self.asked, self.ends, self.connections = ANSWERS[answer], [], False, set()
        self.listener = socket.create_server(("127.0.0.1", port), backlog=64)
        self.port = self.listener.getsockname()[1]
        threading.Thread(target=self.listen, daemon=True).start()

    def __enter__(self):
        return self

    def __exit__(self, *_):
        self.close()

    def close(self):
        """Leaves the port with all connections, so that another may have it at once."""
        self.ends = True
        for it in [self.listener, *self.connections]:
            with contextlib.suppress(OSError):
                it.shutdown(socket.SHUT_RDWR)
        self.listener.close()

    def listen(self):
        with contextlib.suppress(OSError):
            while True:
                connection, _ = self.listener.accept()
                self.connections.add(connection)
                threading.Thread(target=self.serve, args=(connection,), daemon=True).start()

    def serve(self, connection):
        with connection, contextlib.suppress(OSError, ValueError, IndexError):
            connection.settimeout(20)
            method, path = read_request(connection)
            self.asked.append((method, path))
            answer = self.answer(path)
            if answer is not None and not self.ends:
                connection.sendall(answer)
        self.connections.discard(connection)


def read_request(connection):
    """Reads a request whole, and answers its method and path."""
    read = b""
    while b"\r\n\r\n" not in read:
        more = connection.recv(65536)
        if not more:
            raise OSError("the connection ended")
        read += more
    head, _, body = read.partition(b"\r\n\r\n")
    sizes = [int(line.split(b":")[1]) for line in head.split(b"\r\n") if line.lower().startswith(b"content-length:")]
    size, had = sum(sizes), len(body)
    while had < size:
        more = connection.recv(65536)
        if not more:
            raise OSError("the connection ended")
        had += len(more)
    method, path = head.split(b" ")[:2]
    return method.decode(), path.decode()
