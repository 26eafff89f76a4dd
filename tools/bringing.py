"""How the page comes into a package for crew.py: what make_viewer.py makes, in a session that has the package."""

import contextlib
import pathlib
import sqlite3
import types

import make_viewer
import systems
from border import Report, has_commits, media_piece, record
from session import Held
from taking import staged


def has_page(file, table):
    """Whether the page stands in a package as it would be made now, as far as a file tells that nobody has checked.

    The program checks it as it opens it, and tells what it is then.
    """
    if has_commits(file):
        return False
    try:
        return is_current(f"{file.resolve().as_uri()}?mode=ro&immutable=1", table)
    except Exception:  # whatever a file that is no package makes of the reading
        return False


def is_beyond(file):
    """Whether a package has a map in a system that the page can't reckon, as far as a file tells nobody has checked."""
    try:
        with contextlib.closing(sqlite3.connect(f"{file.resolve().as_uri()}?mode=ro&immutable=1", uri=True)) as opened:
            return bool(systems.beyond(opened))
    except Exception:  # whatever a file that is no package makes of the reading
        return False


def is_current(address, table):
    """Whether the page stands in a package as it would be made now."""
    with contextlib.closing(sqlite3.connect(address, uri=True)) as opened:
        return make_viewer.Package(opened).is_current(table)


class Page:
    """The page of a package that a session has."""

    def __init__(self, session, table, folder):
        self.session, self.table = session, table
        self.read = Held(session.file, pathlib.Path(folder))

    def is_missing(self):
        """Whether it is missing, or older than these tools."""
        return not is_current(self.read.address(), self.table)

    def bring(self):
        """Makes it, and takes it in as an edition of its own."""
        wanted = types.SimpleNamespace(FILE=self.session.file, table=self.table, edition=None, wmts=None)
        layout, edition, known = make_viewer.read_package(self.read, wanted, Report())
        items = make_viewer.page_items() | known
        pieces = [media_piece(self.table, number, *item) for number, item in items.items()]
        self.session.expect_done(record(fields).encode() for fields in layout)
        self.session.expect_done(staged(pieces, edition))
