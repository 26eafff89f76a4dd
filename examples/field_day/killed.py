#!/usr/bin/env python3
"""Kills the program five times (kill -9) in the midst of its work, and looks at what stands then.

    killed.py run FILE LIST SEED MOMENT              of 'mmpkg run FILE --at MOMENT < LIST': rows, media and tiles of keys of their own
    killed.py kit FILE EDITION FOLDER SEED MOMENT    of 'mmpkg kit FILE EDITION FOLDER --at MOMENT'

Each kill comes at a random moment, by SEED and by how quick the machine is. Behind each one a copy of FILE and its
journal has to pass 'mmpkg check', and has to have what was answered 'N ok', and of the rest at most the one record that
was under way; of a kit, the first pieces of its list, none fewer than before. Then the program goes on where it stood.
The end of the work is left to who called.
"""

import contextlib
import csv
import os
import pathlib
import random
import signal
import sqlite3
import subprocess
import sys
import tempfile
import threading
import time

sys.path.insert(0, str(pathlib.Path(__file__).resolve().parents[2] / "tools"))
from border import checked_copy, program, run_tool  # noqa: E402

KILLS = 5
BYTES = "(SELECT data FROM mm_blobs b WHERE b.id = blob)"
# By a record's word, how many fields of it are the key, and what the rest of it is in a package.
QUERIES = {
    "row": (3, "SELECT title, note, amount FROM mm_rows WHERE table_name = ? AND id = ?"),
    "media": (3, f"SELECT content_type, lower(hex({BYTES})) FROM mm_media WHERE table_name = ? AND id = ?"),
    "tile": (
        5,
        f"SELECT lower(hex({BYTES})) FROM mm_tiles WHERE table_name = ? AND zoom_level = ? AND tile_column = ? AND tile_row = ?",
    ),
}


@contextlib.contextmanager
def opened(file):
    """A copy that the program found whole."""
    with tempfile.TemporaryDirectory() as folder, contextlib.closing(
        sqlite3.connect(checked_copy(file, pathlib.Path(folder)))
    ) as copy:
        yield copy


def stands(copy, fields):
    size, query = QUERIES[fields[0]]
    found = copy.execute(query, fields[1:size]).fetchone()
    return found is not None and [str(value) for value in found] == fields[size:]


def expect_first_part(file, records, answered):
    """The package has each record that was answered, and of the others at most the next."""
    with opened(file) as copy:
        there = [stands(copy, fields) for fields in records]
    assert all(
        there[:answered]
    ), f"of {answered} records that were answered these are lost: {[n for n in range(answered) if not there[n]]}"
    assert not any(there[answered + 1 :]), "a record is there that was not begun"


def feed(pipe, data):
    """Gives a process its list, and leaves the list open, so that the process doesn't end by itself."""
    with contextlib.suppress(BrokenPipeError):
        while data:
            data = data[os.write(pipe.fileno(), data) :]


def answers_until_killed(command, data, least, dice):
    """Runs a list, kills the program a moment after some answers, and returns how many records it answered."""
    with subprocess.Popen(command, stdin=subprocess.PIPE, stdout=subprocess.PIPE) as running:
        feeding = threading.Thread(target=feed, args=(running.stdin, data))
        feeding.start()
        said = b"".join(running.stdout.readline() for _ in range(least))
        time.sleep(dice.random() * 0.003)
        running.kill()
        said += running.stdout.read()
        feeding.join()
    assert running.returncode == -signal.SIGKILL, f"the program ended by itself, with {running.returncode}"
    lines = said.decode().split("\n")[:-1]  # a line that was cut short is no answer
    assert lines == [f"{number} ok" for number in range(1, len(lines) + 1)], f"the answers are {lines}"
    return len(lines)


def kill_runs(file, listed, seed, moment):
    data = pathlib.Path(listed).read_bytes()
    csv.field_size_limit(len(data) + 1)
    records, lines = list(csv.reader(data.decode().splitlines())), data.splitlines(keepends=True)
    dice, answered = random.Random(int(seed)), 0
    for left in range(KILLS, 0, -1):
        least = dice.randint(1, max(1, (len(records) - answered) // left)) if answered < len(records) else 0
        answered += answers_until_killed(
            [program(), "run", file, "--at", moment], b"".join(lines[answered:]), least, dice
        )
        expect_first_part(file, records, answered)
    print(f"killed {KILLS} times: nothing that was answered was lost")


def staged(file, edition, records):
    """How many pieces an edition has, which are the first of a kit's list."""
    with opened(file) as copy:
        pieces = copy.execute(
            "SELECT piece_no, kind, name, k1 FROM mm_pieces WHERE edition = ? ORDER BY piece_no", (edition,)
        ).fetchall()
    wanted = [(int(fields[0]), fields[1], fields[2], int(fields[3])) for fields in records[: len(pieces)]]
    assert pieces == wanted, f"the pieces are {pieces}"
    return len(pieces)


def kill_in_kit(command, journal, changes, dice):
    """Takes a kit in, kills the program a moment after some changes of its journal, and returns whether it was still at
    work."""
    with subprocess.Popen(command, stdout=subprocess.DEVNULL) as running:
        moment = journal.stat().st_mtime_ns
        while changes and running.poll() is None:
            now = journal.stat().st_mtime_ns
            changes, moment = changes - (now != moment), now
        time.sleep(dice.random() * 0.003)
        running.kill()
    return running.returncode == -signal.SIGKILL


def kill_kits(file, edition, folder, seed, moment):
    records = list(csv.reader((pathlib.Path(folder) / "kit.csv").read_text(encoding="utf-8").splitlines()))
    command = [program(), "kit", file, edition, folder, "--at", moment]
    dice, most, kills, before = random.Random(int(seed)), 24, 0, 0
    while kills < KILLS:
        killed = kill_in_kit(command, pathlib.Path(f"{file}-wal"), dice.randint(most // 6, most), dice)
        now = staged(file, edition, records)
        assert now >= before, f"of {before} pieces {now} are left"
        before, kills, most = now, kills + killed, most if killed else most // 2
    print(f"killed {KILLS} times: each piece that was staged stayed")


def main():
    match sys.argv[1:]:
        case ["run", *words] if len(words) == 4:
            kill_runs(*words)
        case ["kit", *words] if len(words) == 5:
            kill_kits(*words)
        case _:
            print(__doc__)
            return 2
    return 0


if __name__ == "__main__":
    run_tool(main)
