"""What an office keeps beside its package of the copies that are out: OFFICE.crews, a folder."""

import contextlib
import hashlib
import os
import pathlib
import re
import shutil
import sqlite3
import subprocess
import sys
import tempfile

import lineage
from border import (
    Refused,
    copy_with_journal,
    expect_new_database,
    first_free,
    journal_of,
    megabytes,
    program,
    sizes_of,
)

# What a folder of conflicts had when it was written, as sha256sum tells it.
SUMS = "sums"
# The folders in which copies are made, and which a kill leaves.
LEFT = re.compile(r"\.(copy|[a-z][a-z0-9_.]*)-[a-z0-9_]{8}")


class Keeping:
    """The folder beside a package in which its office keeps what went out, and what came home last."""

    def __init__(self, office):
        # Of a link it stands beside the file that this leads to.
        self.folder = pathlib.Path(f"{office.resolve() if office.is_symlink() else office}.crews")

    def make(self):
        """Makes the folder where it is missing, and takes away what a kill left in it; the caller has the package."""
        self.folder.mkdir(exist_ok=True)
        for it in self.folder.iterdir():
            if LEFT.fullmatch(it.name):
                shutil.rmtree(it, ignore_errors=True)

    def marks(self):
        """The marks of which something is kept."""
        names = [it.name for it in self.folder.iterdir()] if self.folder.is_dir() else []
        return lineage.marks_of({name.partition(".")[0] for name in names}, "")

    def numbers(self, keys, but):
        """Those of some keys of rows and media that a kept package has, but one, and by table the last of each."""
        found = set()
        for file in sorted(it for it in self.folder.glob("*.mmpkg") if it != but):
            address = f"{file.resolve().as_uri()}?mode=ro&immutable=1"
            with contextlib.closing(sqlite3.connect(address, uri=True)) as kept:
                for table in ("mm_rows", "mm_media"):
                    found.update(kept.execute(f"SELECT table_name, max(id) FROM {table} GROUP BY table_name"))
                    has = f"SELECT 1 FROM {table} WHERE table_name = ? AND id = ?"
                    found.update(key for key in keys if kept.execute(has, key).fetchone())
        return found

    def before(self, mark):
        """The copy that was handed out."""
        return self.folder / f"{mark}.before.mmpkg"

    def home(self, mark, time):
        """The copy as it came home."""
        return self.folder / f"{mark}.home{'' if time == 1 else f'_{time}'}.mmpkg"

    def news(self, mark, times, number):
        """What a copy and its office have in common since it got news, behind some homecomings."""
        return self.folder / f"{mark}.news_{times}_{number}.mmpkg"

    def base(self, mark, times, number):
        """What a copy and its office have in common behind some homecomings, and some news since."""
        if number:
            return self.news(mark, times, number)
        return self.home(mark, times) if times else self.before(mark)

    def conflicts(self, mark, time):
        """The folder of what a homecoming left as the office has it."""
        return self.folder / f"{mark}.conflicts{'' if time == 1 else f'_{time}'}"


def expect_room_for(file, *folders):
    """Refuses where folders have no room for a copy of a package each."""
    wanted = sum(sizes_of(file))
    for folder in folders:
        free = shutil.disk_usage(folder).free
        if free < wanted * (2 if len(folders) > 1 else 1):
            raise Refused(f"{folder}: a copy wants {megabytes(wanted)}, and {megabytes(free)} are free")


@contextlib.contextmanager
def copy_with(file, records, folder):
    """A closed copy of a package with records behind it, in a folder that goes."""
    with tempfile.TemporaryDirectory(prefix=".copy-", dir=folder) as beside:
        copy = pathlib.Path(beside) / "copy.mmpkg"
        copy_with_journal(file, copy)
        done = subprocess.run([program(), "run", copy], input=records, capture_output=True, check=False)
        if done.returncode != 0:
            raise Refused(f"{file}: its copy: {done.stdout.decode(errors='replace').strip()}", 3)
        journal_of(copy).unlink(missing_ok=True)
        yield copy


def install(file, path):
    """Copies a closed package under a name at once, whole, and has the disk keep it; what had the name goes."""
    with tempfile.TemporaryDirectory(prefix=".copy-", dir=path.parent) as beside:
        copy = pathlib.Path(beside) / path.name
        copy_whole(file, copy)
        os.replace(copy, path)
    flush(path.parent)


def hand_over(file, path, folder, mark):
    """Copies a closed package under a crew's name at once, whole, and has the disk keep it; refused where it is taken.

    It is made in a folder, where that is on the same disk, else beside the name, under one that its mark tells.
    """
    with made_near(path, folder, mark) as copy:
        copy_whole(file, copy)
        expect_new_database(path)
        name_new(copy, path)
    flush(path.parent)


def name_new(copy, path):
    """Gives a copy a name that nobody has: another office may have handed out there meanwhile."""
    try:
        os.link(copy, path)
    except FileExistsError:
        expect_new_database(path)
        raise
    except OSError:
        # The disk has no links, as a stick's: between this look and the naming another may still come.
        expect_new_database(path)
        os.rename(copy, path)
    else:
        copy.unlink()


def copy_whole(file, copy):
    """Copies a closed package, and has the disk keep its bytes."""
    shutil.copyfile(file, copy)
    flush(copy)


@contextlib.contextmanager
def made_near(path, folder, mark):
    """Where a crew's copy is made that gets its name when it is whole; behind the block nothing is left there."""
    if folder.stat().st_dev == path.parent.stat().st_dev:
        with tempfile.TemporaryDirectory(prefix=".copy-", dir=folder) as beside:
            yield pathlib.Path(beside) / path.name
        return
    try:
        yield part_of(path.parent, mark)
    finally:
        clear_parts(path.parent, [mark])


def part_of(folder, mark):
    """What a crew's copy is called on another disk until it is whole: no other office has its mark."""
    return folder / f".{mark}.part"


def clear_parts(folder, marks):
    """Takes away what a kill left on another disk of the copies of some marks."""
    for part in {part_of(folder, mark) for mark in marks} & set(folder.iterdir()):
        part.unlink(missing_ok=True)


def sums_of(folder):
    """What a folder has, but for the file that keeps this."""
    files = sorted(it for it in folder.rglob("*") if it.is_file() and it != folder / SUMS)
    return "".join(f"{hashlib.sha256(it.read_bytes()).hexdigest()}  {it.relative_to(folder)}\n" for it in files)


def seal(folder):
    """Keeps what a folder has, so that it is seen where somebody changes it."""
    (folder / SUMS).write_text(sums_of(folder), encoding="utf-8")


def is_as_written(folder):
    """Whether a folder has what it had when it was sealed."""
    kept = folder / SUMS
    return kept.is_file() and kept.read_text(encoding="utf-8") == sums_of(folder)


def put_away(folder, beside):
    """Takes a folder of conflicts of a homecoming that was cut out of the way.

    One that nobody changed goes into another, which goes; any other is kept under a name of its own, which is told.
    """
    if not folder.exists():
        return
    if is_as_written(folder):
        folder.rename(beside / "earlier")
        return
    taken = {it.name for it in folder.parent.iterdir()}
    kept = folder.with_name(first_free(f"{folder.name}.changed", taken, "_"))
    print(
        f"note: {folder}: was changed since the homecoming that was cut wrote it, and is kept as {kept.name}",
        file=sys.stderr,
        flush=True,
    )
    folder.rename(kept)


def flush(path):
    """Has the disk keep a file's bytes, or a folder's names."""
    opened = os.open(path, os.O_RDONLY)
    try:
        os.fsync(opened)
    finally:
        os.close(opened)


def flush_all(folder):
    """Has the disk keep a folder with all that is in it."""
    for path in [*folder.rglob("*"), folder]:
        flush(path)
