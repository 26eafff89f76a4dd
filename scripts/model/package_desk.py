"""What the desk answers: who is let in, what is asked, and what comes of it, from docs/FORMATS.md alone."""

import re

from package_records import ITEM, NAME, Refused, read_command, read_fields, records
from package_views import compact, page, respond, response

MOST_BODY_BYTES = 16_777_216
MOST_ROWS = 1000
GO_ON = b"HTTP/1.1 100 Continue\r\n\r\n"
ANSWERS_HEAD = (
    b"HTTP/1.1 200 OK\r\nContent-Type: text/plain\r\nX-Content-Type-Options: nosniff\r\nConnection: close\r\n\r\n"
)
REASONS = {
    400: "Bad Request", 403: "Forbidden", 404: "Not Found", 405: "Method Not Allowed", 411: "Length Required",
    413: "Payload Too Large", 415: "Unsupported Media Type",
}  # fmt: skip


class Desk:
    """A desk as its words make it: the port and the key that it answers by, and the table whose media run as pages."""

    def __init__(self, port, key, table):
        self.host, self.front, self.table = f"127.0.0.1:{port}", "/" + key, table

    def lets_in(self, fields):
        """Whether who sends these fields is let in."""
        origins, sites = values(fields, "origin"), values(fields, "sec-fetch-site")
        return (
            values(fields, "host") == [self.host]
            and origins in ([], ["http://" + self.host])
            and sites in ([], ["same-origin"], ["none"])
        )

    def demand(self, method, target, fields):
        """What a head asks for: a status that refuses it, or a word with what belongs to it."""
        path = target.split("?")[0]
        if not self.lets_in(fields):
            return 403
        if method not in ("GET", "POST"):
            return 405
        if not path.startswith(self.front):
            return 404
        path = path[len(self.front) :]
        if method == "GET":
            return "show", path
        if path == "/end":
            return "end", None
        return records_demand(fields) if path == "/records" else 404

    def answer(self, package, moment, method, target, fields, body, minor=1):
        """The bytes that are answered to a request, which is done to the package, and whether the desk ends."""
        asked = self.demand(method, target, fields)
        if isinstance(asked, int):
            return refusal(asked), False
        if asked[0] == "show":
            return self.show(package, asked[1]), False
        if asked[0] == "end":
            return response("200 OK"), True
        waits = (
            GO_ON
            if minor == 1
            and "100-continue" in [it.strip().lower() for it in ",".join(values(fields, "expect")).split(",")]
            else b""
        )
        if len(body) < asked[1]:
            return waits + refusal(400), False
        return waits + ANSWERS_HEAD + answer_lines(package, body[: asked[1]], moment), False

    def show(self, package, path):
        """What is shown at a path."""
        parts = path.split("/")
        if parts[:2] == ["", "rows"]:
            return rows_page(package, parts[2:])
        found = page(package, parts)
        if found is None or parts[1] != "media" or parts[2] == self.table:
            return respond(package, "GET", path)
        boxed = "Content-Security-Policy: sandbox\r\nX-Content-Type-Options: nosniff\r\n"
        return response("200 OK", f"Content-Type: {found[0]}\r\n{boxed}", found[1])


def values(fields, name):
    """The values of the fields of a name."""
    return [value for it, value in fields if it.lower() == name]


def refusal(status):
    """The response that refuses."""
    return response(f"{status} {REASONS[status]}", "Allow: GET, POST\r\n" if status == 405 else "")


def records_demand(fields):
    """What a head asks for that sends records."""
    lengths = values(fields, "content-length")
    if values(fields, "content-type") != ["text/csv"]:
        return 415
    if not lengths or values(fields, "transfer-encoding"):
        return 411
    if len(set(lengths)) > 1 or not re.fullmatch("[0-9]+", lengths[0]):
        return 400
    return ("records", int(lengths[0])) if int(lengths[0]) <= MOST_BODY_BYTES else 413


def answer_lines(package, body, moment):
    """Does a list to the package; the lines that answer it."""
    lines = b""
    for number, record in enumerate(records(body), 1):
        try:
            answer = package.apply(read_command(record), moment)
        except Refused as refused:
            answer = f"refused {refused.number}"
        lines += f"{number} {answer}\n".encode()
    return lines


def rows_page(package, keys):
    """The rows of an attributes table from an id on."""
    if len(keys) != 2:
        return refusal(404)
    (table, first), against = read_fields((NAME, ITEM), keys)
    if against or package.kind(table) != "attributes":
        return refusal(404)
    found = sorted((number, row) for (name, number), row in package.rows.items() if name == table and number >= first)[
        :MOST_ROWS
    ]
    told = [{"amount": amount, "id": number, "note": note, "title": title} for number, (title, note, amount) in found]
    return response("200 OK", "Content-Type: application/json\r\n", compact(told))
