"""What the tools at the border share: limits, how a package is read, and how lists and kits are written.

The tools are export_standard.py, import_standard.py, fill.py, make_kit.py, make_viewer.py and kit_between.py. Nothing
here is proved: docs/FORMATS.md has the limits, the records and the kits, docs/BORDER.md says what goes across, and the
checks of scripts/outside compare.
"""

import argparse
import collections.abc
import contextlib
import dataclasses
import itertools
import math
import os
import pathlib
import re
import shlex
import shutil
import sqlite3
import subprocess
import sys
import tempfile
import time

# By the version in mm_profile, how many units of a package's coordinates and pixel sizes are a metre.
UNITS_OF_VERSION = {1: 1_000, 2: 1_000_000}

# The unit of records that are written here: that of the version that the program makes.
UNITS_PER_METRE = UNITS_OF_VERSION[2]
COORDINATE_LIMIT = 100_000_000 * UNITS_PER_METRE
PIXEL_SIZE_LIMIT = 1_000_000 * UNITS_PER_METRE

NUMBER_LIMIT = 2**53
AMOUNT_LIMIT = 10**15
ZOOM_LIMIT = 30
MATRIX_LIMIT = 2**30
TILE_SIDE_LIMIT = 4096
TEXT_LIMIT = 1000
DEFINITION_LIMIT = 8192
TILE_LIMIT = 1_048_576
MEDIA_LIMIT = 4_194_304
KIT_PIECES = 4096
KIT_LIST_LIMIT = 16_777_216

# The bytes of a journal with its head, and the head and the least page of one commit.
LEAST_COMMIT = 32 + 24 + 512

# From how many bytes on a copy of a package is told.
TOLD_COPY = 100_000_000

# How many things of which one note speaks are told by their names.
NOTED = 10

# How many seconds the line of a terminal that tells how far the work is stands at least.
RENEWED = 0.2

# From how many bytes on what an opening took is kept: a smaller package is open as soon as the program has started.
PACED = 20_000_000

# The table of attribute rows in which an import keeps the bounds of maps whose tiles reach further: a row has the map's
# name as its title, and as its note MIN_X MIN_Y MAX_X MAX_Y in whole units.
BOUNDS_TABLE = "map_bounds"
BOUNDS_IDENTIFIER = "Bounds of maps"

GIVEN_SYSTEMS = (-1, 0, 4326)
GEOGRAPHIC_SYSTEMS = (0, 4326)

NAME = re.compile(r"(?!gpkg|sqlite|mm_)[a-z_][a-z0-9_]{0,59}")
CONTENT_TYPE = re.compile(r"[A-Za-z0-9!#$&^_.+-]{1,64}/[A-Za-z0-9!#$&^_.+-]{1,64}")


class Refused(Exception):
    """Work that can't be done: a message, and the exit status that tells it."""

    def __init__(self, message, status=2):
        super().__init__(message)
        self.status = status


class Line:
    """The line of a terminal on which it is told how far the work is. Where standard error is none nothing is told."""

    def __init__(self):
        self.since = 0.0
        self.stands = False

    def tell(self, text, at_once=False):
        now = time.monotonic()
        if sys.stderr.isatty() and (at_once or now - self.since >= RENEWED):
            print(f"\r{text}\x1b[K", end="", file=sys.stderr, flush=True)
            self.since, self.stands = now, True

    def clear(self):
        if self.stands:
            print("\r\x1b[K", end="", file=sys.stderr, flush=True)
            self.stands = False


LINE = Line()


def counted(what, things):
    """The things, one after another, while it is told how many there were."""
    for number, it in enumerate(things, 1):
        LINE.tell(f"{what} {number}")
        yield it
    LINE.clear()


class Report:
    """Tells on standard error what does not cross the border, and counts what was left out.

    Notes that are alike are told once.
    """

    def __init__(self):
        self.count = 0
        self.notes = {}

    def left_out(self, what, why):
        self.count += 1
        LINE.clear()
        print(f"left out: {what}: {why}", file=sys.stderr)

    def note(self, what, why):
        self.notes.setdefault(why, []).append(str(what))

    def tell_notes(self):
        LINE.clear()
        for why, of in self.notes.items():
            more = f" and {len(of) - NOTED} more" if len(of) > NOTED else ""
            print(f"note: {', '.join(of[:NOTED])}{more}: {why}", file=sys.stderr)
        self.notes = {}


class Parser(argparse.ArgumentParser):
    """A parser whose help is a text as it stands, the second paragraph of which is the usage."""

    def format_help(self):
        return self.description.strip("\n") + "\n"

    def error(self, message):
        usage = self.description.split("\n\n")[1]
        self.exit(2, f"usage:\n{usage}\n{self.prog}: {message}\n")


def arguments(description):
    """The parser of a tool, of its docstring."""
    return Parser(usage=argparse.SUPPRESS, description=description, allow_abbrev=False)


def run_tool(main):
    """Runs a tool and ends with its exit status.

    A refusal is told on standard error, and that what it prints can't be written.
    """
    try:
        try:
            status = main()
        except SystemExit as ended:  # help, or wrong words
            status = ended.code
        LINE.clear()
        sys.stdout.flush()
    except Refused as refused:
        LINE.clear()
        print(refused, file=sys.stderr)
        status = refused.status
    except KeyboardInterrupt:
        LINE.clear()
        print("stopped; nothing was made", file=sys.stderr)
        status = 130
    except OSError as error:
        print("standard output: nobody reads it" if isinstance(error, BrokenPipeError) else error, file=sys.stderr)
        # What standard output still holds would be tried once more as Python ends.
        os.dup2(os.open(os.devnull, os.O_WRONLY), 1)
        status = 2
    sys.exit(status)


def program():
    """The program: what the environment's MMPKG names, else out/mmpkg beside the tools, else mmpkg of the path."""
    beside = pathlib.Path(__file__).resolve().parent.parent / "out" / "mmpkg"
    named = os.environ.get("MMPKG") or (str(beside) if beside.exists() else "mmpkg")
    if shutil.which(named) is None:
        raise Refused(f"{named}: isn't there; scripts/build.sh makes out/mmpkg, or MMPKG names the program")
    return named


def journal_of(file):
    """The journal of a package: of a link it stands beside the file that this leads to."""
    return pathlib.Path(f"{os.path.realpath(file)}-wal")


def copy_with_journal(file, copy):
    """Copies a package and its journal, as far as they are there."""
    for path, suffix in ((pathlib.Path(file), ""), (journal_of(file), "-wal")):
        if path.exists():
            shutil.copyfile(path, f"{copy}{suffix}")


def pace_file():
    """Where a user's tools keep how many seconds the last opening took a GB, among what may be forgotten."""
    kept = os.environ.get("XDG_CACHE_HOME") or os.path.expanduser("~/.cache")
    return pathlib.Path(kept) / "mmpkg" / "seconds_a_gb"


def seconds_to_open(size, times=1):
    """About how many seconds opening so many bytes takes, by what the last opening took; 0 where nothing is known."""
    try:
        seconds = float(pace_file().read_text(encoding="ascii")) * size * times / 1e9
    except (OSError, ValueError):
        return 0
    return round(seconds) if math.isfinite(seconds) and size >= PACED else 0


def keep_pace(size, seconds):
    """Keeps what opening so many bytes took, where the user's folder takes it."""
    if size >= PACED:
        with contextlib.suppress(OSError):
            pace_file().parent.mkdir(parents=True, exist_ok=True)
            pace_file().write_text(f"{seconds / size * 1e9:.1f}\n", encoding="ascii")


def tell_opening(what, size, began):
    """Tells on a terminal how far the opening of so many bytes is, by what the last one took."""
    about = seconds_to_open(size)
    of_about = f" of about {about}" if about else ""
    LINE.tell(f"{what}: {megabytes(size)}, {time.monotonic() - began:.0f}{of_about} s")


def program_says(subcommand, file):
    """The exit status of a subcommand of the program that opens a package, at least 0, and what it prints.

    On a terminal it is told how large the package is, how long it has taken, and about how long it will take.
    """
    size, began = sum(sizes_of(file)), time.monotonic()
    said = None
    with subprocess.Popen([program(), subcommand, file], stdin=subprocess.DEVNULL, stdout=subprocess.PIPE) as running:
        try:
            while said is None:
                tell_opening(f"mmpkg {subcommand} {file}", size, began)
                with contextlib.suppress(subprocess.TimeoutExpired):
                    said = running.communicate(timeout=RENEWED)[0]
        except BaseException:
            running.kill()
            raise
    LINE.clear()
    if running.returncode == 0:
        keep_pace(size, time.monotonic() - began)
    return running.returncode if running.returncode >= 0 else 3, said.decode(errors="replace").strip()


def checked_copy(file, folder):
    """Copies a package with its journal into a folder, where the program has to find it whole."""
    copy = folder / "copy.mmpkg"
    expect_room(file, folder)
    copy_with_journal(file, copy)
    status, said = program_says("check", copy)
    if status != 0:
        refuse(file, copy, status, said)
    return copy


def refuse(file, path, status, said):
    """Refuses a package by what the program says of it, or of its copy."""
    remedy = ""
    if said.endswith(" 93") and is_profile_1(path):
        remedy = f" (of profile 1; 'mmpkg migrate {shlex.quote(str(file))}' brings it to this one)"
    raise Refused(f"{file}: {said}{remedy}", status)


class Source:
    """A package that is read, in which the program found no fault: FILE itself, or a copy in a folder.

    All of it stands in FILE where its journal holds nothing. Where the program doesn't get FILE, since another has it
    or it can't be written, a copy is read too.
    """

    def __init__(self, file, folder):
        self.file = file
        self.stamps = None
        self.path = file if self.passes_here() else checked_copy(file, folder)

    def passes_here(self):
        """Whether FILE can be read as it is. A journal that only the check made is taken away again."""
        journal = journal_of(self.file)
        there = journal.exists()
        may_be_written = all(os.access(it, os.W_OK) for it in (self.file, journal.parent))
        if not may_be_written or has_commits(self.file):
            return False
        status, said = program_says("check", self.file)
        if not there and not has_commits(self.file):
            journal.unlink(missing_ok=True)
        if status not in (0, 3):
            refuse(self.file, self.file, status, said)
        self.stamps = stamps_of(self.file)
        return status == 0

    def address(self):
        """How SQLite is told to read it, and to make nothing beside it."""
        return f"{self.path.resolve().as_uri()}?mode=ro{'&immutable=1' if self.path == self.file else ''}"

    def expect_unchanged(self):
        """Refuses where FILE was written while it was read; of a copy there is nothing to say."""
        if self.path == self.file and stamps_of(self.file) != self.stamps:
            raise Refused(f"{self.file}: was written while it was read; do it again when no program has it")


def sizes_of(file):
    """The sizes of a package's file and its journal; one that isn't there has none."""
    return [it.stat().st_size if it.exists() else 0 for it in (pathlib.Path(file), journal_of(file))]


def has_commits(file):
    """Whether the journal of a package may hold a commit: it has room for a page behind two heads."""
    return sizes_of(file)[1] >= LEAST_COMMIT


def stamps_of(file):
    """What changes where a package is written: a commit stands in the journal, or in the file behind it."""
    return file.stat().st_size, file.stat().st_mtime_ns, has_commits(file)


def expect_room(file, folder):
    """Refuses where a folder has no room for a copy of a package, into which its journal goes; a large one is told."""
    size, journal = sizes_of(file)
    wanted, free = size + 2 * journal, shutil.disk_usage(folder).free
    why = f"{file}: its journal holds commits, another program has it, or it can't be written, so a copy is read"
    if wanted > free:
        raise Refused(
            f"{why}, which wants {megabytes(wanted)} in {folder.parent}, where {megabytes(free)} are free; "
            "TMPDIR names another folder"
        )
    if wanted > TOLD_COPY:
        print(f"note: {why}: {megabytes(wanted)} in {folder.parent}; TMPDIR names another folder", file=sys.stderr)


def megabytes(size):
    return f"{size / 1e6:.0f} MB"


def is_profile_1(path):
    with contextlib.closing(sqlite3.connect(f"{path.resolve().as_uri()}?mode=ro&immutable=1", uri=True)) as opened:
        return opened.execute("SELECT id, version FROM mm_profile").fetchall() == [(1, 1)]


def expect_new(path):
    """Refuses where something has a name that is to be made, or its folder isn't there."""
    if os.path.lexists(path):
        raise Refused(f"{path}: is there, and is not overwritten; remove it, or choose another name")
    if not path.parent.is_dir():
        raise Refused(f"{path.parent}: is no folder")


def expect_new_database(path):
    """Refuses also where a journal stands beside the name: SQLite would take it for that of the new file."""
    for suffix in ("", "-wal", "-journal", "-shm"):
        expect_new(pathlib.Path(f"{path}{suffix}"))


@contextlib.contextmanager
def made_beside(path):
    """A folder beside what is to be made, in which it is made first; it goes in any case."""
    expect_new(path)
    with tempfile.TemporaryDirectory(prefix=f".{path.name}-", dir=path.parent) as beside:
        yield pathlib.Path(beside)


def bounds_of(package, schema="main"):
    """By name, the bounds of maps that a package keeps, of those that lie within the map's extent."""
    kept = package.execute(
        f"SELECT title, note FROM {schema}.mm_rows WHERE table_name = ? ORDER BY id", (BOUNDS_TABLE,)
    ).fetchall()
    extents = {
        row[0]: row[1:]
        for row in package.execute(f"SELECT table_name, min_x, min_y, max_x, max_y FROM {schema}.gpkg_tile_matrix_set")
    }
    found = {}
    for name, note in kept:
        bounds = [int(it) for it in note.split() if re.fullmatch("-?[0-9]{1,18}", it)]
        if name in extents and is_within(bounds, extents[name]):
            found[name] = bounds
    return found


def is_within(bounds, extent):
    """Whether bounds are some, and lie within an extent."""
    return (
        len(bounds) == 4
        and extent[0] <= bounds[0] < bounds[2] <= extent[2]
        and extent[1] <= bounds[1] < bounds[3] <= extent[3]
    )


def quoted(name):
    """A name as SQL spells it."""
    return '"' + name.replace('"', '""') + '"'


def is_name(text):
    return isinstance(text, str) and NAME.fullmatch(text) is not None


def name_for(name):
    """A name of a package that is like another."""
    found = re.sub("[^a-z0-9_]+", "_", name.lower()).strip("_")[:60]
    return found if is_name(found) else f"t_{found}"[:60]


def first_free(name, taken, between):
    """A name, or with the first number from 2 on behind it that makes it none of those that are taken."""
    names = itertools.chain([name], (f"{name}{between}{number}" for number in itertools.count(2)))
    return next(it for it in names if it not in taken)


def is_whole(value, least, most):
    """Whether a value of a column is a whole number within limits."""
    return isinstance(value, int) and least <= value <= most


def is_text(value, least, most):
    """Whether a value of a column is a text of UTF-8 without byte 0 within limits, which count bytes."""
    if not isinstance(value, str) or "\0" in value:
        return False
    try:
        return least <= len(value.encode()) <= most
    except UnicodeEncodeError:
        return False


def is_identifier(value):
    return is_text(value, 1, TEXT_LIMIT) and not any(ord(letter) < 0x20 or ord(letter) == 0x7F for letter in value)


def whole_units(metres):
    """A DOUBLE of metres in whole units, None where it is not whole.

    What a sum or a quotient of DOUBLEs is off by is passed over: a millionth of a unit, or a few steps of a DOUBLE of
    that size.
    """
    if not isinstance(metres, (int, float)) or not math.isfinite(metres):
        return None
    units = round(metres * UNITS_PER_METRE)
    off = abs(metres - units / UNITS_PER_METRE)
    return units if off <= max(1e-6 / UNITS_PER_METRE, 4 * math.ulp(metres)) else None


def image_suffix(data):
    """The suffix of a file with such bytes, by the three image formats of the standard's tiles.

    Empty for other bytes.
    """
    if data.startswith(b"\x89PNG"):
        return ".png"
    if data.startswith(b"\xff\xd8\xff"):
        return ".jpg"
    if data.startswith(b"RIFF") and data[8:12] == b"WEBP":
        return ".webp"
    return ""


def record(fields):
    """A record of a command list or of a kit's list, with its line end."""
    return ",".join(map(field, fields)) + "\n"


def field(value):
    text = str(value)
    if any(letter in text for letter in ',"\r\n'):
        return '"' + text.replace('"', '""') + '"'
    return text


@dataclasses.dataclass
class Piece:
    """A record of content.

    The last field of a tile or a media item, its bytes, is kept apart, with the name that a kit's file gets.

    In place of bytes that are read only when they are written there may be what reads them.
    """

    fields: list
    data: bytes | collections.abc.Callable | None = None
    file: str = ""

    def command(self):
        return record(self.fields if self.data is None else [*self.fields, self.data.hex()])


def tile_piece(table, zoom, column, row, data):
    return Piece(["tile", table, zoom, column, row], data, f"{table}-{zoom}-{column}-{row}{image_suffix(data)}")


def media_piece(table, number, content_type, data):
    return Piece(["media", table, number, content_type], data, f"{table}-{number}")


class KitWriter:
    """Writes pieces as kits: in FOLDER for EDITION, and where that is full in FOLDER_2 for EDITION_2, and so on.

    They are written in a folder beside, and have their names only when all are whole. Pieces that name one file have
    equal bytes; it is written once a kit.
    """

    def __init__(self, edition, folder, beside):
        self.edition = edition
        self.folder = pathlib.Path(folder)
        self.beside = pathlib.Path(beside)
        self.kits = []
        self.lines = []
        self.size = 0

    def add(self, piece):
        line = self.line(piece)
        LINE.tell(f"{self.folder}: piece {len(self.lines) + 1}")
        if not self.kits or len(self.lines) == KIT_PIECES or self.size + len(line.encode()) > KIT_LIST_LIMIT:
            self.begin()
            line = self.line(piece)
        if piece.data is not None:
            self.write_file(self.made() / piece.file, piece.data)
        self.lines.append(line)
        self.size += len(line.encode())

    def made(self):
        """Where the kit that stands is written."""
        return self.beside / self.kits[-1][1].name

    def write_file(self, file, data):
        if not file.exists():
            file.write_bytes(data() if callable(data) else data)

    def line(self, piece):
        """The record of a piece behind those that stand in the kit."""
        return record([len(self.lines) + 1, *piece.fields, *([] if piece.data is None else [piece.file])])

    def begin(self):
        """Ends the kit that stands, and begins the next."""
        self.end()
        suffix = f"_{len(self.kits) + 1}" if self.kits else ""
        edition = self.edition + suffix
        if not is_name(edition):
            raise Refused(f"{edition!r} is no name of an edition")
        self.kits.append((edition, pathlib.Path(f"{self.folder}{suffix}")))
        self.made().mkdir()

    def end(self):
        """Writes the list of the kit that stands."""
        LINE.clear()
        if self.lines:
            (self.made() / "kit.csv").write_text("".join(self.lines), encoding="utf-8", newline="")
        self.lines = []
        self.size = 0

    def name(self):
        """Ends the last kit, and gives all their names."""
        self.end()
        for _, folder in self.kits:
            expect_new(folder)
            os.rename(self.beside / folder.name, folder)

    def tell(self):
        """Prints the commands that take the kits in."""
        for edition, folder in self.kits:
            print(f"mmpkg kit FILE {edition} {shlex.quote(str(folder))}")
            print(f"echo publish,{edition} | mmpkg run FILE")
