#!/usr/bin/python3
"""Goes through random weeks of an office and its crews by tools/hand_out.py and tools/come_home.py, and compares
each step with a model.

    scripts/outside/home/weeks_check.py [PROGRAM] [--seed N] [--weeks N] [--first N]

Two to four crews get copies, work by small numbers and by the page's, with photos and removals, come home, some again
and again, get news, lose a journal; the office works on; tools are killed at any request and done again; copies are
mixed up. The model knows a row by its title and a photo by its first bytes, so numbers are no matter to it, and takes
the rule from scripts/model/package_merge.py, which shares no code with the tools. It holds that nothing is lost
unnamed, nothing stands twice, and nothing of others is touched. A week that went wrong is told by its seed and number.
The last line is 'N passed, M failed'; the exit status is 1 where one failed.
"""

import collections
import contextlib
import csv
import hashlib
import os
import pathlib
import random
import shutil
import signal
import sqlite3
import subprocess
import sys
import tempfile
import traceback

sys.path.insert(0, str(pathlib.Path(__file__).resolve().parents[1] / "lib"))
from checks import (  # noqa: E402
    PROGRAM, content_of, end, expect, mmpkg, run, wait_until_free, want, words_given,
)  # fmt: skip
import come_home  # noqa: E402
import hand_out  # noqa: E402
import homecoming  # noqa: E402
import session  # noqa: E402
from package_merge import by_the_rule  # noqa: E402

TOOLS = {"hand_out": hand_out, "come_home": come_home}
LAYOUT = "table,spots,attributes,Spots\ntable,photos,media,Photos\nrelation,pairs,spots,photos,media\n"
PAGE = 4096 * 189_388_800_000
BYTES = "(SELECT data FROM mm_blobs b WHERE b.id = blob)"
CREWS = "north", "south", "east", "west"
DAYS = 3
OWN = "crew_numbers"


# What stands in a package, in the words of the model.


def entries_of(file):
    """All that a closed package has, as scripts/model/package_merge.py tells it: rows by their titles, photos by their
    first bytes."""
    found = {}
    with contextlib.closing(sqlite3.connect(f"file:{file}?mode=ro", uri=True)) as opened:
        for name, kind, identifier in opened.execute(
            "SELECT table_name, kind, identifier FROM gpkg_contents JOIN mm_tables USING (table_name)"
        ):
            found["table", name] = (kind, identifier, None, (None,) * 4)
        titles = add_items(found, opened)
        for name, *ends, kind in opened.execute(
            "SELECT mapping_table_name, base_table_name, related_table_name, relation_name FROM gpkgext_relations"
        ):
            found["relation", name] = (*ends, kind)
        for name, base, related in opened.execute("SELECT mapping, base_id, related_id FROM mm_map"):
            tables = found["relation", name][:2]
            found["map", name, titles[tables[0], base], titles[tables[1], related]] = tables
    return {entry: value for entry, value in found.items() if OWN not in entry}


def add_items(found, opened):
    """Adds rows and photos; returns by table and number how the model calls them."""
    titles = {}
    for table, number, *values in opened.execute("SELECT table_name, id, title, note, amount FROM mm_rows"):
        titles[table, number] = values[0] if table != OWN else number
        assert ("item", table, titles[table, number]) not in found, f"row {values[0]} of {table} stands twice"
        found["item", table, titles[table, number]] = ("row", *values)
    for table, number, content_type, data in opened.execute(
        f"SELECT table_name, id, content_type, {BYTES} FROM mm_media"
    ):
        titles[table, number] = data[:8]
        assert ("item", table, data[:8]) not in found, f"photo {data[:8]} of {table} stands twice"
        found["item", table, data[:8]] = ("media", content_type, data)
    return titles


def numbers_of(file):
    """By how the model calls them, the numbers of rows and photos."""
    with contextlib.closing(sqlite3.connect(f"file:{file}?mode=ro", uri=True)) as opened:
        rows = opened.execute("SELECT table_name, title, id FROM mm_rows WHERE table_name <> ?", (OWN,)).fetchall()
        photos = opened.execute(f"SELECT table_name, substr({BYTES}, 1, 8), id FROM mm_media").fetchall()
    return {("item", table, title): number for table, title, number in rows + photos}


def published(file):
    return {
        line.split()[1]
        for line in mmpkg("list", file).splitlines()
        if line.startswith("edition ") and line.endswith(" published")
    }


# Tools in processes of their own, which a kill may end.


def tool(name, *words, kill=0, behind=False, pieces=4096):
    """Runs a tool, killed at a request where that is wanted, with editions of so many pieces; status, and what it
    printed and told."""
    with tempfile.TemporaryFile() as printed, tempfile.TemporaryFile() as told:
        child = os.fork()
        if child == 0:
            os.dup2(printed.fileno(), 1)
            os.dup2(told.fileno(), 2)
            in_child(TOOLS[name], words, kill, behind, pieces)
        status = os.waitstatus_to_exitcode(os.waitpid(child, 0)[1])
        if status < 0:
            wait_until_free(*(it for it in words if os.path.isfile(it)))
        printed.seek(0)
        told.seek(0)
        return status, printed.read().decode(), told.read().decode()


def in_child(module, words, kill, behind, pieces):
    """Runs a tool and ends the process."""
    status = 70
    try:
        homecoming.KIT_PIECES = pieces
        if kill:
            session.MOST_BYTES = 1
            session.Session.ask = killing(session.Session.ask, kill, behind)
        sys.argv = [module.__file__, *map(str, words)]
        module.run_tool(module.main)
    except SystemExit as ended:
        status = ended.code
    except BaseException:  # a tool that fails in its own words is what is looked for
        traceback.print_exc()
    sys.stdout.flush()
    sys.stderr.flush()
    os._exit(status)


def killing(ask, kill, behind):
    """A request that ends the process at one of them."""
    left = [kill]

    def asked(self, path, body=b""):
        left[0] -= 1
        if left[0] == 0 and not behind:
            os.kill(os.getpid(), signal.SIGKILL)
        told = ask(self, path, body)
        if left[0] == 0:
            os.kill(os.getpid(), signal.SIGKILL)
        return told

    return asked


class Copy:
    """A copy that is out: its file, what it and the office have in common, and how often it came home."""

    def __init__(self, file, crew, base):
        self.file, self.crew, self.base, self.times = file, crew, base, 0
        self.renumbered = set()


class Week:
    """An office and its crews."""

    def __init__(self, folder, source, seen):
        self.folder, self.random, self.seen = folder, source, seen
        self.office, self.count, self.copies, self.taken = folder / "office.mmpkg", 0, [], collections.defaultdict(set)
        mmpkg("init", self.office)
        run(PROGRAM, "run", self.office, given=LAYOUT.encode())
        self.work(self.office, 12)
        other = folder / "other"
        other.mkdir()
        shutil.copyfile(self.office, other / "office.mmpkg")
        self.foreign = self.expect_tool("hand_out", other / "office.mmpkg", "north", status=0)[0].split(" is for ")[0]

    def chance(self, times_in_ten):
        return self.random.randrange(10) < times_in_ten

    def expect_tool(self, name, *words, status):
        ended, printed, told = tool(name, *words, pieces=self.random.choice((2, 5, 4096)))
        assert ended in (
            [status] if isinstance(status, int) else status
        ), f"{name} {words} ended with {ended}, wanted {status}: {printed}{told}"
        self.seen[f"{name} {ended}"] += 1
        return printed, told

    def killed_sometimes(self, name, *words):
        """A tool that is killed first, now and then."""
        while self.chance(3):
            ended, printed, told = tool(
                name, *words, kill=self.random.randint(1, 25), behind=self.chance(5), pieces=self.random.choice((2, 5))
            )
            assert ended in (0, 1, 2, -signal.SIGKILL), f"{name} {words} ended with {ended}: {printed}{told}"
            self.seen[f"{name} {'killed' if ended < 0 else 'not killed in time'}"] += 1
            if ended >= 0:
                return True
        return False

    # Work.

    def new_number(self, file, table, numbers):
        """A number that is new in a package: a small one, which others may take too, or one as the page makes them."""
        if self.chance(4):
            number = PAGE + self.random.randrange(2**50)
        else:
            number = 1 + max(
                [0, *(it for (_, name, _), it in numbers.items() if name == table and it < PAGE)], default=0
            )
        while (table, number) in self.taken[file]:
            number += 1
        self.taken[file].add((table, number))
        return number

    def records(self, file, count):
        """So many changes of a package, as records that suit it."""
        entries, numbers = entries_of(file), numbers_of(file)
        self.taken[file] |= {(table, number) for (_, table, _), number in numbers.items()}
        for _ in range(count):
            yield from self.change(file, entries, numbers)

    def change(self, file, entries, numbers):
        self.count += 1
        rows = [it for it in entries if it[:2] == ("item", "spots")]
        photos = [it for it in entries if it[:2] == ("item", "photos")]
        word = self.random.choice(
            (
                "new",
                "new",
                "change",
                "change",
                "change",
                "remove",
                "photo",
                "photo",
                "photo changed",
                "pair",
                "unpair",
                "table",
            )
        )
        if word == "new" or (word in ("change", "photo") and not rows):
            entry = ("item", "spots", f"r{self.count}")
            numbers[entry], entries[entry] = self.new_number(file, "spots", numbers), ("row", entry[2], "", 0)
            yield f"row,spots,{numbers[entry]},{entry[2]},,0\n"
        elif word == "change":
            entry = self.random.choice(rows)
            entries[entry] = ("row", entry[2], f"v{self.count}", self.count)
            yield f"row,spots,{numbers[entry]},{entry[2]},v{self.count},{self.count}\n"
        elif word == "photo":
            yield from self.photo(file, entries, numbers, self.random.choice(rows))
        elif word == "photo changed" and photos:
            entry = self.random.choice(photos)
            yield f"media,photos,{numbers[entry]},a/b,{(entry[2] + self.count.to_bytes(4, 'big')).hex()}\n"
        elif word == "table":
            yield from self.table(entries)
        elif word in ("remove", "pair", "unpair"):
            yield from self.relate(word, entries, numbers, rows, photos)

    def photo(self, file, entries, numbers, row):
        """A new photo of a row."""
        entry = ("item", "photos", b"p%07d" % self.count)
        numbers[entry], entries[entry] = self.new_number(file, "photos", numbers), ("media", "a/b", entry[2])
        entries["map", "pairs", row[2], entry[2]] = ("spots", "photos")
        yield f"media,photos,{numbers[entry]},a/b,{entry[2].hex()}\n"
        yield f"map,pairs,{numbers[row]},{numbers[entry]}\n"

    def table(self, entries):
        """A table more, with a row, or one less."""
        name = f"more_{self.random.randint(1, 3)}"
        if ("table", name) not in entries:
            entries["table", name] = ("attributes", name, None, (None,) * 4)
            entries["item", name, f"r{self.count}"] = ("row", f"r{self.count}", "", 0)
            yield f"table,{name},attributes,{name}\nrow,{name},{PAGE + self.count},r{self.count},,0\n"
        elif self.chance(3):
            for entry in [it for it in entries if it[1] == name]:
                del entries[entry]
            yield f"drop,{name}\n"

    def relate(self, word, entries, numbers, rows, photos):
        """Relates a row and a photo, or parts them, or removes a row with what leads from it."""
        pairs = [it for it in entries if it[0] == "map"]
        if word == "pair" and rows and photos:
            row, photo = self.random.choice(rows), self.random.choice(photos)
            if ("map", "pairs", row[2], photo[2]) not in entries:
                entries["map", "pairs", row[2], photo[2]] = ("spots", "photos")
                yield f"map,pairs,{numbers[row]},{numbers[photo]}\n"
            return
        row = self.random.choice(rows) if rows else None
        for pair in [it for it in pairs if row and it[2] == row[2]] if word == "remove" else pairs[:1]:
            del entries[pair]
            yield f"map-drop,pairs,{numbers['item', 'spots', pair[2]]},{numbers['item', 'photos', pair[3]]}\n"
        if word == "remove" and row:
            del entries[row]
            yield f"row-drop,spots,{numbers[row]}\n"

    def work(self, file, count):
        run(PROGRAM, "run", file, given="".join(self.records(file, count)).encode())

    def work_that_is_killed(self, copy):
        """A crew whose program is killed; sometimes its file comes home without the journal, and the rest another
        day."""
        text = "".join(self.records(copy.file, 8)).encode()
        with subprocess.Popen([PROGRAM, "run", copy.file], stdin=subprocess.PIPE, stdout=subprocess.PIPE) as running:
            running.stdin.write(text)
            running.stdin.flush()
            for _ in range(self.random.randint(1, max(1, text.count(b"\n") - 1))):
                running.stdout.readline()
            running.kill()
        if self.chance(5):
            self.expect_nothing(
                "come_home", self.office, copy.file, *(["--again"] if copy.times else []), why="holds commits"
            )
        if self.chance(5):
            alone = self.folder / f"alone_{self.count}.mmpkg"
            shutil.copyfile(copy.file, alone)
            self.come_home(copy, alone)
        mmpkg("check", copy.file)

    # Out and home.

    def hand_out(self, crew):
        self.killed_sometimes("hand_out", self.office, crew)
        printed, _ = self.expect_tool("hand_out", self.office, crew, status=0)
        copy = Copy(pathlib.Path(printed.split(" is for ")[0]), crew, entries_of(self.office))
        expect(entries_of(copy.file), copy.base, "the copy that went out")
        self.copies.append(copy)

    def come_home(self, copy, file=None):
        """Takes a copy home, and compares the office's package with what the rule gives."""
        file = file or copy.file
        after, office = entries_of(file), entries_of(self.office)
        words = (self.office, file, *(["--again"] if copy.times else []))
        wanted, conflicts = by_the_rule(copy.base, after, office)
        if copy.base == after:
            printed, _ = self.expect_tool("come_home", *words, status=1)
            assert "nothing was changed" in printed, printed
            expect(entries_of(self.office), office, "the office's package, where nothing was changed")
            return
        done = self.killed_sometimes("come_home", *words)
        homes = [it for it in published(self.office) if it.startswith(f"home_{copy.file.stem}_")]
        is_home = len([it for it in homes if "_part_" not in it and not it.endswith("_theirs")]) > copy.times
        assert is_home or not done, f"{copy.file}: it ended, and is not home"
        if not is_home:
            self.expect_tool("come_home", *words, status=1 if conflicts else 0)
        mmpkg("check", self.office)
        expect_entries(entries_of(self.office), wanted, f"the office's package behind {copy.file.name}")
        numbers = numbers_of(self.office)
        self.taken[self.office] |= {(it[1], number) for it, number in numbers.items()}
        own = {it: number for it, number in numbers_of(file).items() if it not in copy.base and it in numbers}
        copy.renumbered |= {(it[1], number) for it, number in own.items() if number != numbers[it]}
        copy.base, copy.times = after, copy.times + 1
        self.expect_named(copy, conflicts)
        self.seen["conflicts"] += len(conflicts)

    def expect_named(self, copy, conflicts):
        """Each conflict is in the folder with both sides, and no other."""
        (kept,) = [it for it in (self.folder / "office.mmpkg.crews").glob(f"{copy.file.stem}_*.before.mmpkg")]
        mark, suffix = kept.name.partition(".")[0], "" if copy.times == 1 else f"_{copy.times}"
        folder = kept.parent / f"{mark}.conflicts{suffix}"
        rows = []
        if conflicts:
            with open(folder / "conflicts.csv", encoding="utf-8", newline="") as opened:
                rows = list(csv.reader(opened))[1:]
        words = collections.Counter({"row": "item", "media": "item"}.get(row[0], row[0]) for row in rows)
        expect(
            words,
            collections.Counter(entry[0] for entry in conflicts),
            f"conflicts of {copy.file.name} that are listed: {rows}",
        )
        titles = {next(csv.reader([it]))[0] for row in rows if row[0] == "row" for it in row[2:5] if it}
        missing = {
            entry for entry in conflicts if entry[0] == "item" and isinstance(entry[2], str) and entry[2] not in titles
        }
        assert not missing, f"{missing} of {copy.file.name} are conflicts and not named: {rows}"
        if rows and self.chance(3):
            self.take_theirs(folder, conflicts)

    def take_theirs(self, folder, conflicts):
        """The crew's side touches the conflicts alone."""
        before = entries_of(self.office)
        self.killed_sometimes("come_home", self.office, "--theirs", folder)
        self.expect_tool("come_home", self.office, "--theirs", folder, status=(0, 1, 2, 3))
        mmpkg("check", self.office)
        after = entries_of(self.office)
        touched = {entry for entry in before.keys() | after.keys() if before.get(entry) != after.get(entry)}
        expect(touched - set(conflicts), set(), "what the crew's side touches beside the conflicts")

    def bring_news(self, copy):
        """Brings a copy what the office changed."""
        numbers, own, office = numbers_of(self.office), numbers_of(copy.file), entries_of(self.office)
        taken = {(entry[1], number) for entry, number in own.items()} | copy.renumbered
        strange = {
            it for it, number in numbers.items() if it not in copy.base and it not in own and (it[1], number) in taken
        }
        hidden = {
            it
            for it in office
            if it in strange or (it[0] == "map" and {("item", "spots", it[2]), ("item", "photos", it[3])} & strange)
        }
        news = {entry: value for entry, value in office.items() if entry not in hidden}
        before = entries_of(copy.file)
        wanted, conflicts = by_the_rule(copy.base, news, before)
        self.killed_sometimes("hand_out", self.office, "--news", copy.file)
        self.expect_tool("hand_out", self.office, "--news", copy.file, status=(0, 1) if conflicts or hidden else 0)
        mmpkg("check", copy.file)
        expect_entries(entries_of(copy.file), wanted, f"{copy.file.name} behind its news")
        expect(entries_of(self.office), office, "the office's package behind news")
        for entry in copy.base.keys() | news.keys():
            if entry not in conflicts and news.get(entry) != copy.base.get(entry):
                copy.base = {it: value for it, value in copy.base.items() if it != entry} | (
                    {entry: news[entry]} if entry in news else {}
                )

    # What is refused.

    def expect_nothing(self, name, *words, why):
        """A tool refuses, and neither package nor what is kept changes."""
        files = self.files()
        _, told = self.expect_tool(name, *words, status=2)
        assert why in told, f"{why!r} isn't told: {told}"
        expect(self.files(), files, "files behind a refusal")

    def files(self):
        found = {
            it: content_of(it)
            for it in sorted(self.folder.rglob("*"))
            if it.is_file() and not it.name.endswith(("-shm", "lock"))
        }
        return {
            it.name: hashlib.sha256(data).hexdigest()
            for it, data in found.items()
            if data or not it.name.endswith("-wal")
        }

    def mix_up(self):
        """Copies and packages that are given in wrong places, or twice."""
        copy = self.random.choice(self.copies)
        again = ["--again"] if copy.times else []
        backup = self.folder / "backup.mmpkg"
        shutil.copyfile(self.office, backup)
        wrong = [
            ((self.office, self.office), "is the office's package itself"),
            ((self.office, backup, *again), "is no copy that was handed out"),
            ((copy.file, self.office), "are the two in the wrong places?"),
            ((self.office, self.foreign), "of another project"),
            (
                (self.office, copy.file, *([] if copy.times else ["--again"])),
                "came home already" if copy.times else "never came home",
            ),
        ]
        words, why = self.random.choice(wrong)
        self.expect_nothing("come_home", *words, why=why)

    def day(self):
        crews = CREWS[: self.random.randint(2, 4)]
        for crew in crews:
            if self.chance(7) or not self.copies:
                self.hand_out(crew)
        steps = [*self.copies] * 2 + [None, "wrong"]
        self.random.shuffle(steps)
        for it in steps:
            if it is None:
                self.work(self.office, 6)
            elif it == "wrong":
                self.mix_up()
            else:
                self.step(it)

    def step(self, copy):
        """Something that is done with a copy."""
        what = self.random.randrange(10)
        if what < 4:
            self.work(copy.file, 6)
        elif what < 5:
            self.work_that_is_killed(copy)
        elif what < 9:
            self.come_home(copy)
        else:
            self.bring_news(copy)


def expect_entries(found, wanted, what):
    """Two packages are equal, or what differs is told."""
    differ = {
        entry: (found.get(entry), wanted.get(entry))
        for entry in found.keys() | wanted.keys()
        if found.get(entry) != wanted.get(entry)
    }
    assert not differ, f"{what}: by entry, what is found and what is wanted: {differ}"


def main():
    given = words_given(__doc__, seed=1, weeks=60, first=1)
    want("no week was gone through")
    print(f"seed {given.seed}")
    passed, failed, seen = 0, 0, collections.Counter()
    for number in range(given.first, given.first + given.weeks):
        with tempfile.TemporaryDirectory() as name:
            try:
                week = Week(pathlib.Path(name), random.Random(f"{given.seed} {number}"), seen)
                for _ in range(DAYS):
                    week.day()
                passed += 1
            except (AssertionError, OSError, ValueError, KeyError, sqlite3.Error):
                failed += 1
                traceback.print_exc(file=sys.stdout)
                print(f"weeks: seed {given.seed}, week {number}: FAILED", flush=True)
    for word, times in sorted(seen.items()):
        print(f"    {times:6} {word}")
    end(passed, failed)


if __name__ == "__main__":
    main()
