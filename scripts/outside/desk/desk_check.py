#!/usr/bin/python3
"""Asks the desk over sockets and by curl, which share no code with this repository: the worked requests, bodies that
are large, cut or slow, clients that vanish, kills, keys.

    apt-get install curl
    scripts/outside/desk/desk_check.py [PROGRAM] [WORD ..]

With words only the checks whose names have one of them. Wanted values are those of docs/FORMATS.md, by the model in
scripts/model. The last line is 'N passed, M failed'. Exit status: 0 all passed, 1 something failed, 2 the program isn't
there, 77 curl isn't there.
"""
import contextlib
import datetime
import json
import os
import pathlib
import re
import resource
import select
import signal
import socket
import subprocess
import sys
import tempfile
import threading
import time

sys.path.insert(0, str(pathlib.Path(__file__).resolve().parents[1] / "lib"))
from checks import PROGRAM, end, expect, held_port, mmpkg, run, run_checks, want, words_given  # noqa: E402
from package_desk import MOST_BODY_BYTES, Desk  # noqa: E402
from package_model import Package  # noqa: E402
from package_views import listing  # noqa: E402

KEY = "0123456789abcdef"
PAGE = "viewer"
# How many seconds an answer may take that the desk owes at once; its own patience with a request that doesn't come.
AT_ONCE, FIRST_BYTE, WHOLE_REQUEST = 60, 1, 20
# A journal of so many bytes has its head alone; in it the two salts.
JOURNAL_HEAD, SALTS = 41, slice(16, 24)
OPENING = b"table,spots,attributes,Spots\nrow,spots,7,Well,by the road,3\n"


def long_files_are_errors():
    """Has a write past the length that files may have answer an error, and not end the program."""
    signal.signal(signal.SIGXFSZ, signal.SIG_IGN)


class Running:
    """A desk that runs on a package in a folder of its own."""

    def __init__(self, folder, count=1000, key=KEY, table=PAGE):
        self.file, self.held = pathlib.Path(folder) / "p.mmpkg", held_port()
        self.port = self.held.getsockname()[1]
        if not self.file.exists():
            expect(mmpkg("init", self.file), "init ok\n", "init")
        words = [
            PROGRAM,
            "desk",
            self.file,
            "--port",
            str(self.port),
            "--count",
            str(count),
            *(["--page", table] if table else []),
        ]
        self.model, self.package = Desk(self.port, key or "", table), Package()
        environment = {name: value for name, value in os.environ.items() if name != "MMPKG_KEY"} | (
            {"MMPKG_KEY": key} if key else {}
        )
        self.program = subprocess.Popen(
            words, stdout=subprocess.PIPE, env=environment, preexec_fn=long_files_are_errors
        )
        self.address = self.line()

    def line(self):
        """The next line that the desk prints, within the time that it may take."""
        ready, _, _ = select.select([self.program.stdout], [], [], AT_ONCE)
        assert ready, "the desk printed nothing"
        return self.program.stdout.readline().decode()

    def connect(self):
        """A new connection."""
        return socket.create_connection(("127.0.0.1", self.port), timeout=WHOLE_REQUEST + AT_ONCE)

    def head(self, method, path, *fields, length=None):
        """The bytes of a head, with the host and, of records, their type and length."""
        lines = [f"Host: 127.0.0.1:{self.port}", *fields]
        if length is not None:
            lines += ["Content-Type: text/csv", f"Content-Length: {length}"]
        return (f"{method} /{KEY}{path} HTTP/1.1\r\n" + "".join(f"{line}\r\n" for line in lines) + "\r\n").encode()

    def ask(self, sent, shut=True):
        """All that is answered to some bytes."""
        with self.connect() as connection:
            with contextlib.suppress(OSError):
                connection.sendall(sent)
                if shut:
                    connection.shutdown(socket.SHUT_WR)
            return everything(connection)

    def post(self, body):
        """What is answered to a list, which has to be as the model has it."""
        told = self.ask(self.head("POST", "/records", length=len(body)) + body)
        fields = [("Host", self.model.host), ("Content-Type", "text/csv"), ("Content-Length", str(len(body)))]
        wanted, _ = self.model.answer(self.package, 0, "POST", f"/{KEY}/records", fields, body)
        expect(told, wanted, f"the answer to {body[:60]!r}")

    def rows(self, table="spots", first=1):
        """What stands, by the desk."""
        return body_of(self.ask(self.head("GET", f"/rows/{table}/{first}"))).decode()

    def end(self):
        """Ends the desk well: it tells 200, ends with 0, and FILE alone holds all."""
        expect(
            self.ask(self.head("POST", "/end")),
            b"HTTP/1.1 200 OK\r\nContent-Length: 0\r\nConnection: close\r\n\r\n",
            "the end",
        )
        said, _ = self.program.communicate(timeout=AT_ONCE)
        expect((said, self.program.returncode), (b"", 0), "what is printed behind the end")
        journal = self.file.with_name(self.file.name + "-wal")
        assert (
            not journal.exists() or journal.stat().st_size <= JOURNAL_HEAD
        ), "the journal holds commits behind a good end"

    def listed(self):
        """Compares the listing, but for the moments of changes."""
        expect(untimed(mmpkg("list", self.file)), untimed("\n".join([*listing(self.package), ""])), "the listing")


def everything(connection):
    """What a connection tells until its end."""
    told = b""
    with contextlib.suppress(ConnectionResetError):
        while part := connection.recv(1 << 16):
            told += part
    return told


def body_of(response):
    """The body of a response."""
    return response.partition(b"\r\n\r\n")[2]


def status_of(response):
    """The status of a response."""
    return int(response.split(b" ")[1])


def untimed(text):
    """A listing without its moments."""
    return re.sub(r"\d{4}-\d\d-\d\dT[0-9:.]+Z", "-", text)


@contextlib.contextmanager
def desk(**words):
    """A desk on a new package, which is killed behind the check where it still runs."""
    with tempfile.TemporaryDirectory() as folder:
        running = Running(folder, **words)
        try:
            yield running
        finally:
            running.program.kill()
            running.program.wait()


def check_the_worked_requests():
    """The requests of the document, one after another on a new package."""
    with desk() as it:
        expect(it.address, f"desk http://127.0.0.1:{it.port}/{KEY}/media/{PAGE}/1\n", "the address")
        host, csv = ("Host", it.model.host), ("Content-Type", "text/csv")
        body = OPENING + b"row,spots,x,,,0\n"
        records = [host, csv, ("Content-Length", str(len(body)))]
        asked = 0
        for method, target, fields, sent in (
            ("GET", f"/{KEY}/contents", [host], b""),
            ("GET", "/contents", [host], b""),
            ("GET", f"/{KEY}/contents", [("Host", f"evil.example:{it.port}")], b""),
            ("GET", f"/{KEY}/contents", [("Host", f"localhost:{it.port}")], b""),
            ("GET", f"/{KEY}/contents", [host, host], b""),
            ("GET", f"/{KEY}/contents", [host, ("Sec-Fetch-Site", "same-site")], b""),
            ("GET", f"/{KEY}/contents", [host, ("Sec-Fetch-Site", "none")], b""),
            ("POST", f"/{KEY}/records", [*records, ("Origin", f"http://127.0.0.1:{it.port}")], body),
            ("GET", f"/{KEY}/rows/spots/1", [host], b""),
            ("GET", f"/{KEY}/rows/spots/8", [host], b""),
            ("GET", f"/{KEY}/rows/nope/1", [host], b""),
            ("GET", f"/{KEY}/rows/spots/0", [host], b""),
            ("POST", f"/{KEY}/records", [host, ("Content-Type", "text/plain"), records[2]], body),
            ("POST", f"/{KEY}/records", [*records, ("Origin", "http://evil.example")], body),
            ("POST", f"/{KEY}/records", [host, csv], b""),
            ("POST", f"/{KEY}/records", [*records, ("Transfer-Encoding", "chunked")], body),
            ("POST", f"/{KEY}/records", [host, csv, ("Content-Length", str(MOST_BODY_BYTES + 1))], b""),
            ("POST", f"/{KEY}/records", [host, csv, ("Content-Length", "30")], b"row,spots,10,Cut,,0\nrow,spo"),
            ("OPTIONS", f"/{KEY}/records", [host, ("Origin", f"http://127.0.0.1:{it.port}")], b""),
            ("POST", f"/{KEY}/contents", [host], b""),
            ("POST", f"/{KEY}/records", [host, csv, ("Content-Length", "62")],
             b"table,photos,media,Photos\nmedia,photos,3,text/html,3c\ntable,vi"),
            ("GET", f"/{KEY}/media/photos/3", [host], b""),
        ):  # fmt: skip
            head = (
                f"{method} {target} HTTP/1.1\r\n" + "".join(f"{name}: {value}\r\n" for name, value in fields) + "\r\n"
            )
            wanted, _ = it.model.answer(it.package, 0, method, target, fields, sent)
            expect(
                untimed(it.ask(head.encode() + sent).decode()), untimed(wanted.decode()), f"{method} {target} {fields}"
            )
            asked += 1
        it.end()
        it.listed()
        return asked


def check_a_head_that_is_none():
    """400 to what is no head."""
    with desk() as it:
        for sent in (
            b"\r\n\r\n\r\n",
            b"GET /\r\n\r\n",
            b"x" * 8193,
            b"GET / HTTP/1.1\r\n" + b"a: b\r\n" * 65 + b"\r\n",
        ):
            expect(status_of(it.ask(sent)), 400, f"the answer to {sent[:30]!r}")
        it.end()


def check_a_large_body_by_curl():
    """curl waits for 100 Continue before it sends; the largest body is taken, one byte more isn't."""
    with desk() as it, tempfile.TemporaryDirectory() as folder:
        it.post(b"table,photos,media,Photos\n")
        photo = b"media,photos,%d,image/jpeg," + b"ab" * 4_194_000 + b"\n"
        body = photo % 1 + photo % 2
        body = (
            body[:-1].rsplit(b",", 1)[0]
            + b","
            + b"cd" * ((MOST_BODY_BYTES - len(body[:-1].rsplit(b",", 1)[0]) - 2) // 2)
        )
        body += b"\n" * (MOST_BODY_BYTES - len(body))
        for more, wanted in ((b"", "1 ok\n2 refused 11\n"), (b"\n", "")):
            file = pathlib.Path(folder) / "body.csv"
            file.write_bytes(body + more)
            began = time.monotonic()
            said, _ = run(
                "curl",
                "-s",
                "-H",
                "Content-Type: text/csv",
                "--data-binary",
                f"@{file}",
                "-w",
                "%{http_code}",
                f"http://127.0.0.1:{it.port}/{KEY}/records",
            )
            expect(said[-3:], "413" if more else "200", "the status")
            expect("ok" in said, not more, f"the answers {said[:80]!r} (wanted like {wanted!r})")
            assert time.monotonic() - began < AT_ONCE, "curl waited"
        it.end()


def check_a_body_that_is_cut_at_each_byte():
    """A client that vanishes within the body: nothing is run, and the desk goes on."""
    body = b"row,spots,10,Cut,,0\nrow,spots,11,Cut,,0\n"
    with desk() as it:
        it.post(OPENING)
        before = it.rows()
        for length in range(len(body)):
            told = it.ask(it.head("POST", "/records", length=len(body)) + body[:length])
            expect(
                told,
                b"HTTP/1.1 400 Bad Request\r\nContent-Length: 0\r\nConnection: close\r\n\r\n",
                f"the answer behind {length} bytes",
            )
        expect(it.rows(), before, "the rows behind cut bodies")
        it.post(body)
        it.end()
        return len(body)


def reset(connection):
    """From here on the end of the connection is a reset, with what is unread lost."""
    connection.setsockopt(socket.SOL_SOCKET, socket.SO_LINGER, b"\1\0\0\0\0\0\0\0")


def rows_sent(it, count):
    """A connection on which so many rows were sent as one list."""
    body = b"".join(b"row,spots,%d,Spot,,0\n" % (number + 100) for number in range(count))
    connection = it.connect()
    connection.sendall(it.head("POST", "/records", length=len(body)) + body)
    return connection


def told_until(connection, is_enough):
    """What came on it until that was enough."""
    told = b""
    while not is_enough(told):
        told += connection.recv(37)
    return told


def check_a_body_that_is_reset_at_each_byte():
    """A client that resets within the body: nothing is run, 'page fault 96' or nothing is printed, and the desk goes
    on."""
    body = b"row,spots,10,Cut,,0\n"
    with desk() as it:
        it.post(OPENING)
        before = it.rows()
        for length in range(len(body)):
            with it.connect() as connection:
                connection.sendall(it.head("POST", "/records", length=len(body)) + body[:length])
                reset(connection)
        expect(it.rows(), before, "the rows behind reset bodies")
        it.program.send_signal(signal.SIGKILL)
        said = it.program.stdout.read().decode()
        expect(set(said.splitlines()) <= {"page fault 96", "page fault 97"}, True, f"what was printed: {said!r}")


def check_a_body_byte_by_byte():
    """A request that comes byte by byte is answered as one that comes at once."""
    with desk() as it:
        it.post(OPENING)
        body = b'row,spots,9,"Gate, N",,0\n'
        with it.connect() as connection:
            for byte in it.head("POST", "/records", length=len(body)) + body:
                connection.sendall(bytes([byte]))
                time.sleep(0.001)
            expect(body_of(everything(connection)), b"1 ok\n", "the answer")
        it.end()


def check_the_answers_end_at_once():
    """The end of the answers comes with the last of them, also to a client that has more to say."""
    took = []
    with desk() as it:
        it.post(OPENING)
        for _ in range(5):
            body, began = b"row,spots,9,Gate,,0\n", time.monotonic()
            expect(
                body_of(it.ask(it.head("POST", "/records", length=len(body)) + body, shut=False)),
                b"1 ok\n",
                "the answer",
            )
            took.append(time.monotonic() - began)
        it.end()
    assert min(took) < FIRST_BYTE / 2, f"the end came late: {took}"  # the least, on a busy machine


def check_a_request_that_is_not_read():
    """The answer to a head that is refused comes whole, though much of the request behind it is not read."""
    with desk() as it, it.connect() as connection:
        head = it.head("POST", "/records", length=MOST_BODY_BYTES + 1)
        connection.sendall(head + b"x" * 300_000)
        told = b""
        while part := connection.recv(1 << 16):
            told += part
        expect(status_of(told), 413, "the answer")
        it.end()


def check_the_moment_of_a_list():
    """The moment of a list's commands is the clock's when it comes."""
    with desk() as it:
        for name in ("one", "two"):
            first = time.time_ns() // 1_000_000
            it.post(f"table,{name},attributes,{name}\n".encode())
            last = time.time_ns() // 1_000_000
            tables = json.loads(body_of(it.ask(it.head("GET", "/contents"))))
            (change,) = [table["last_change"] for table in tables if table["table"] == name]
            at = round(datetime.datetime.fromisoformat(change).timestamp() * 1000)
            assert first <= at <= last, f"{name} was changed at {at}, and is told to be of {first} to {last}"
            time.sleep(1.1)
        it.end()


def check_200_requests_one_after_another():
    """200 lists and looks, each behind the other."""
    with desk() as it:
        it.post(OPENING)
        for number in range(100):
            it.post(b"row,spots,%d,Spot,,%d\n" % (number + 100, number))
            assert f'"id":{number + 100}' in it.rows(first=number + 100)
        it.end()
        it.listed()
        return 200


def check_the_lines_come_one_by_one():
    """Each line is sent as its command stands, before the list is done."""
    with desk() as it:
        it.post(OPENING)
        with rows_sent(it, 2000) as connection:
            told = told_until(connection, lambda told: b"\n1 ok\n" in told)
            early = told.count(b" ok\n")
            told += everything(connection)
        expect(told.count(b" ok\n"), 2000, "the answers")
        assert early < 2000, "the lines came only when the list was done"
        it.end()


def killed_behind(it, lines):
    """Sends a thousand rows and kills the desk behind some whole lines; how many came whole."""
    with rows_sent(it, 1000) as connection:
        told = told_until(connection, lambda told: body_of(told).count(b"\n") >= lines)
        it.program.kill()
        told += everything(connection)
    it.program.wait()
    return body_of(told).count(b"\n")


def check_kills():
    """Behind a kill the package is whole, and has every answered row and one more at the most."""
    for lines in (1, 7, 60, 203, 350):
        with desk() as it:
            it.post(OPENING)
            whole = killed_behind(it, lines)
            expect(mmpkg("check", it.file), "package ok\n", "the check behind a kill")
            stands = int(re.search(r"^spots +attributes +(\d+)", mmpkg("list", it.file), re.M)[1]) - 1
            assert whole <= stands <= whole + 1, f"{whole} lines came and {stands} rows stand"
            again = Running(it.file.parent)
            expect(again.rows().count('"id"'), stands + 1, "the rows by the next desk")
            again.end()
    return 5


def check_journals_have_salts_by_chance():
    """The salts of two journals differ, by which no frame of one is taken for the other's: a store's seed is by
    chance."""
    salts = set()
    for _ in range(2):
        with desk() as it:
            it.post(OPENING)
            it.program.kill()
            it.program.wait()
            salts.add(it.file.with_name(it.file.name + "-wal").read_bytes()[SALTS])
    expect(len(salts), 2, f"salts of two journals ({salts})")


def no_file_past(it, most):
    """From here on a write of the desk past this length of a file fails."""
    resource.prlimit(it.program.pid, resource.RLIMIT_FSIZE, (most, resource.RLIM_INFINITY))


def rows_under(folder, most):
    """Sends four rows to a desk whose files may not grow past a length; how many were answered ok, and whether all
    were."""
    it = Running(folder)
    it.post(OPENING)
    no_file_past(it, most)
    body = b"".join(b"row,spots,%d,Spot,,0\n" % (number + 100) for number in range(4))
    told = body_of(it.ask(it.head("POST", "/records", length=len(body)) + body))
    whole = told.count(b" ok\n")
    last = b"" if whole == 4 else b"%d fault 91\n" % (whole + 1)
    expect(told, b"".join(b"%d ok\n" % (number + 1) for number in range(whole)) + last, "the answers")
    no_file_past(it, resource.RLIM_INFINITY)
    if whole == 4:
        it.end()
    else:
        expect(it.line(), "list fault 91\n", "what is printed")
        expect(it.program.wait(AT_ONCE), 3, "the status")
    return whole


def check_a_store_that_fails():
    """At lengths past which no file may grow, a list ends behind its last whole command, and the next desk goes on with
    what stands."""
    seen, most = set(), 0
    while 4 not in seen:
        most += 4096
        with tempfile.TemporaryDirectory() as folder:
            whole = rows_under(folder, most)
            again = Running(folder)
            stands = again.rows().count('"id"') - 1
            assert (
                whole <= stands <= min(4, whole + 1)
            ), f"past {most} bytes {whole} lines came, and {stands} rows stand"
            again.end()
            seen.add(whole)
    assert {0, 1} < seen, f"each list stopped behind {seen} commands"
    return most // 4096


def check_a_client_that_goes_away():
    """A client that resets behind some lines: the run stops, it is told, and the desk goes on."""
    with desk() as it:
        it.post(OPENING)
        with rows_sent(it, 20000) as connection:
            told = told_until(connection, lambda told: told.count(b" ok\n") >= 30)
            reset(connection)
        expect(it.line(), "list fault 97\n", "what is printed")
        stands = it.rows().count('"id"')
        assert told.count(b" ok\n") <= stands < 20000, f"{told.count(b' ok')} lines came, and {stands} rows are shown"
        expect(it.ask(it.head("POST", "/end"))[:15], b"HTTP/1.1 200 OK", "the end")
        expect(it.program.wait(AT_ONCE), 0, "the status")


def check_the_key():
    """The key is the environment's, or else 32 digits of the system's random source; a bad one opens nothing."""
    found = set()
    for _ in range(2):
        with desk(key=None, table=None) as it:
            address = re.fullmatch(rf"desk http://127\.0\.0\.1:{it.port}/([0-9a-f]{{32}})/\n", it.address)
            assert address, it.address
            found.add(address[1])
    expect(len(found), 2, "keys of two desks")
    with tempfile.TemporaryDirectory() as folder:
        for key in (
            "short",
            "x" * 65,
            "0123456789abcde/",
            "0123456789abcde\u00e9",
            os.fsdecode(b"0123456789abcde\xff"),
        ):
            words = [PROGRAM, "desk", f"{folder}/none.mmpkg", "--port", str(it.port), "--count", "1"]
            done = subprocess.run(
                words, capture_output=True, env=os.environ | {"MMPKG_KEY": key}, timeout=AT_ONCE, check=False
            )
            expect((done.stdout, done.returncode), (b"refused 11\n", 1), f"a desk by the key {key!r}")
        expect(os.listdir(folder), [], "files")
    return 7


def as_the_model(it, path, key=KEY):
    """Asks for a path by a key, and compares what is answered, but for moments."""
    host = ("Host", it.model.host)
    wanted, _ = it.model.answer(it.package, 0, "GET", f"/{key}{path}", [host], b"")
    told = it.ask(f"GET /{key}{path} HTTP/1.1\r\nHost: {host[1]}\r\n\r\n".encode())
    expect(untimed(told.decode()), untimed(wanted.decode()), f"the answer to {path} by {key}")
    return status_of(told)


def check_a_key_is_taken_whole():
    """A key of 64 bytes stands whole in the address, and no part of it lets in."""
    key = KEY * 4
    with desk(key=key, table=None) as it:
        expect(it.address, f"desk http://127.0.0.1:{it.port}/{key}/\n", "the address")
        parts = (key[:16], key[:63], key[:-1] + "0", key + "0")
        expect([as_the_model(it, "/contents", part) for part in parts], [404] * 4, "the answers to parts of the key")
        expect(as_the_model(it, "/contents", key), 200, "the answer to the key")
        return 6


def check_the_pages_table():
    """Items of the table that the words name for pages run their scripts; all others are boxed."""
    body = b"".join(b"table,%s,media,%s\nmedia,%s,1,text/html,3c\n" % (it, it, it) for it in (b"photos", PAGE.encode()))
    for table in (PAGE, "photos", None):
        with desk(table=table) as it:
            it.post(body)
            expect([as_the_model(it, f"/media/{name}/1") for name in ("photos", PAGE)], [200, 200], "the statuses")
            it.end()
    return 6


def check_the_contents_of_many_tables():
    """What stands is told of 300 tables as of one."""
    with desk() as it:
        it.post(b"".join(b"table,t%d,attributes,Table %d\n" % (number, number) for number in range(300)))
        expect(as_the_model(it, "/contents"), 200, "the status")
        it.end()


def check_keys_by_chance():
    """Each of the 32 digits of a key by chance is one."""
    found = []
    for _ in range(8):
        with desk(key=None, table=None) as it:
            found.append(it.address.rstrip("/\n").rpartition("/")[2])
    alike = [place for place, digits in enumerate(zip(*found)) if len(set(digits)) == 1]
    expect((len(found[0]), alike), (32, []), "places where eight keys are alike")


def expect_wait(it, seconds):
    """The next request is answered once the one before it was waited for so long."""
    began = time.monotonic()
    expect(status_of(it.ask(it.head("GET", "/contents"))), 200, "the next request")
    waited = time.monotonic() - began
    assert seconds - 0.5 < waited < seconds + 15, f"the next waited {waited:.1f} s"  # less than the twenty are more


def check_patience():
    """Who sends nothing is let go behind a second, who sends slowly behind twenty; others are answered then."""
    with desk() as it:
        for sent, seconds in ((b"", FIRST_BYTE), (b"GET / HT", WHOLE_REQUEST)):
            with it.connect() as slow:
                slow.sendall(sent)
                expect_wait(it, seconds)
            expect(it.line(), "page fault 96\n", "what is printed")
        it.end()


def check_a_body_that_does_not_come():
    """A list whose end isn't there behind twenty seconds is not answered as a cut one: it is told as 96, and not
    run."""
    body = b"row,spots,10,Cut,,0\nrow,spots,11,Cut,,0\n"
    with desk() as it:
        it.post(OPENING)
        before = it.rows()
        with it.connect() as slow:
            slow.sendall(it.head("POST", "/records", length=len(body)) + body[:25])
            expect_wait(it, WHOLE_REQUEST)
            expect(everything(slow), b"", "what is answered")
        expect(it.line(), "page fault 96\n", "what is printed")
        expect(it.rows(), before, "the rows")
        it.end()


def drip(connection):
    """Sends a byte every four seconds, until that fails."""
    with contextlib.suppress(OSError):
        for byte in b"GET /contents HTTP/1.1":
            connection.sendall(bytes([byte]))
            time.sleep(4)


def check_a_client_that_drips():
    """The twenty seconds are of the whole request, and not of each byte."""
    with desk() as it, it.connect() as slow:
        threading.Thread(target=drip, args=(slow,), daemon=True).start()
        time.sleep(FIRST_BYTE / 2)
        expect_wait(it, WHOLE_REQUEST - FIRST_BYTE)
        expect(it.line(), "page fault 96\n", "what is printed")
        it.end()


def check_a_client_that_stops_reading():
    """A client that reads nothing of its answer is let go behind twenty seconds, also where the system took a part of
    it."""
    with desk() as it:
        it.post(b"table,photos,media,Photos\nmedia,photos,1,image/png," + b"ab" * 4_194_304 + b"\n")
        with socket.socket() as slow:
            slow.setsockopt(socket.SOL_SOCKET, socket.SO_RCVBUF, 4096)
            slow.connect(("127.0.0.1", it.port))
            slow.sendall(it.head("GET", "/media/photos/1"))
            expect_wait(it, WHOLE_REQUEST)
        expect(it.line(), "page fault 97\n", "what is printed")
        it.end()


def check_bound_on_this_machine_alone():
    """The port is bound on 127.0.0.1 alone."""
    with desk() as it:
        wanted = f"{it.port:04X}"
        tables = [pathlib.Path("/proc/net", name).read_text().splitlines()[1:] for name in ("tcp", "tcp6")]
        sockets = [line.split() for lines in tables for line in lines]
        bound = [it[1] for it in sockets if it[3] == "0A" and it[1].endswith(":" + wanted)]
        expect(bound, [f"0100007F:{wanted}"], "what is bound")
        it.end()


def check_the_last_connection():
    """The desk ends well behind its last connection."""
    with desk(count=2) as it:
        it.post(OPENING)
        expect(status_of(it.ask(it.head("GET", "/contents"))), 200, "the last")
        expect(it.program.wait(AT_ONCE), 0, "the status")
        it.listed()


if __name__ == "__main__":
    want("no desk was asked", "curl:curl")
    end(*run_checks("desk", globals(), words_given(__doc__).words, lambda check: check()))
