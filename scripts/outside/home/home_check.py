#!/usr/bin/python3
"""Hands copies out and takes them home by tools/hand_out.py and tools/come_home.py, also wrong ones.

    scripts/outside/home/home_check.py [PROGRAM] [WORD ..]

WORD picks the checks whose names have it. The last line is 'N passed, M failed'; the exit status is 1 where one failed.
"""

import contextlib
import hashlib
import os
import pathlib
import shutil
import sqlite3
import subprocess
import sys
import tempfile

sys.path.insert(0, str(pathlib.Path(__file__).resolve().parents[1] / "lib"))
from checks import (  # noqa: E402
    PROGRAM, TOP, content_of, end, expect, in_a_folder, mmpkg, run, run_checks, want, words_given,
)  # fmt: skip

TOOLS = TOP / "tools"
OUT, HOME = TOOLS / "hand_out.py", TOOLS / "come_home.py"
LAYOUT = """srs,25832,grid,EPSG,25832,grid,
pyramid,base,Base,25832,0,0,1024,1024,two
matrix,base,0,4,4,64,64,4,4
tile,base,0,0,0,01
table,spots,attributes,Spots
table,photos,media,Photos
relation,spots_photos,spots,photos,media
row,spots,1,Stone 1,,0
row,spots,2,Stone 2,,0
row,spots,3,Stone 3,,0
"""
NORTH = """row,spots,1,Stone 1,A found it leaning,1
row,spots,20,Oak,,1
media,photos,1,image/png,89504e47
map,spots_photos,20,1
row,spots,3,Stone 3,north,0
tile,base,0,0,0,0a
"""
SOUTH = """row,spots,2,Stone 2,repaired,2
row,spots,20,Gate,,1
media,photos,1,image/jpeg,ffd8ff
map,spots_photos,20,1
row,spots,3,Stone 3,south,0
tile,base,0,1,0,0b
"""
BYTES = "(SELECT data FROM mm_blobs b WHERE b.id = blob)"
QUERIES = {
    "systems": "SELECT srs_id, srs_name FROM gpkg_spatial_ref_sys WHERE srs_id > 0",
    "tables": "SELECT table_name, kind, identifier FROM gpkg_contents JOIN mm_tables USING (table_name)",
    "matrices": "SELECT * FROM gpkg_tile_matrix",
    "tiles": f"SELECT table_name, zoom_level, tile_column, tile_row, hex({BYTES}) FROM mm_tiles",
    "rows": "SELECT * FROM mm_rows WHERE table_name <> 'crew_numbers'",
    "media": f"SELECT table_name, id, content_type, hex({BYTES}) FROM mm_media",
    "relations": "SELECT mapping_table_name, base_table_name, related_table_name, relation_name FROM gpkgext_relations",
    "mapped": "SELECT * FROM mm_map",
}


def do(file, text, at=1):
    """Does records that are all accepted to a package."""
    run(PROGRAM, "run", file, "--at", at, given=text.encode())


def office_of(folder, text=LAYOUT):
    """A new office's package."""
    file = folder / "office.mmpkg"
    mmpkg("init", file)
    do(file, text)
    return file


def hand_out(office, crew, *words):
    """Hands a copy out, and answers where it is."""
    return pathlib.Path(run(OUT, office, crew, *words)[0].split(" is for ")[0])


def come_home(office, copy, *words, status=0):
    """Takes a copy home; answers what is printed and told."""
    return run(HOME, office, copy, *words, status=status)


def command_behind(patch, name, *words):
    """The command that runs a tool behind a patch of what it imports."""
    lines = ("import sys", f"sys.path.insert(0, {str(TOOLS)!r})", f"import {name}, homecoming, session", patch)
    code = "\n".join([*lines, f"{name}.run_tool({name}.main)"])
    return [sys.executable, "-B", "-c", code, *map(str, words)]


def patched(name, patch, *words, status=0, program=PROGRAM):
    """Runs a tool behind a patch; answers what it printed and told, and its status, one of those wanted.

    What it began, and a kill of it leaves, isn't waited for.
    """
    command = command_behind(patch, name, *words)
    with tempfile.TemporaryFile() as printed, tempfile.TemporaryFile() as told:
        done = subprocess.run(command, stdout=printed, stderr=told, check=False, env={**os.environ, "MMPKG": program})
        texts = []
        for it in (printed, told):
            it.seek(0)
            texts.append(it.read().decode())
    wanted = [status] if isinstance(status, int) else status
    assert done.returncode in wanted, f"{name} {words} ended with {done.returncode}: {texts}"
    return *texts, done.returncode


@contextlib.contextmanager
def in_use(file, record="row,spots,1,Stone 1,,0\n"):
    """A program that has a package, and has done a record there."""
    with subprocess.Popen(
        [PROGRAM, "run", file, "--at", "1"], stdin=subprocess.PIPE, stdout=subprocess.PIPE
    ) as running:
        running.stdin.write(record.encode())
        running.stdin.flush()
        expect(running.stdout.readline(), b"1 ok\n", "the answer")
        yield running


def content(file):
    """All that a closed package has, part by part, but for editions and the table of numbers."""
    mmpkg("check", file)
    with contextlib.closing(sqlite3.connect(f"file:{file}?mode=ro", uri=True)) as opened:
        return {part: sorted(opened.execute(query).fetchall(), key=repr) for part, query in QUERIES.items()}


def rows(file, table="spots"):
    return mmpkg("show", file, table).splitlines()


def editions(file):
    return [line.removeprefix("edition ") for line in mmpkg("list", file).splitlines() if line.startswith("edition ")]


def kept(office, words):
    """What is kept beside an office's package whose name has some words."""
    return [it for it in sorted(pathlib.Path(f"{office}.crews").iterdir()) if words in it.name]


def files_of(folder):
    """The sums of all files of a folder.

    Journals without commits, and what beside them tells who has a package, are no matter.
    """
    found = {
        it: content_of(it)
        for it in sorted(folder.rglob("*"))
        if it.is_file() and not it.name.endswith(("-shm", "lock"))
    }
    return {
        str(it): hashlib.sha256(data).hexdigest() for it, data in found.items() if data or not it.name.endswith("-wal")
    }


def expect_refused(office, words, why, status=2):
    """A homecoming is refused in these words, and neither package nor what is kept is changed."""
    before = files_of(office.parent)
    printed, told = run(HOME, office, *words, status=status)
    expect((printed, why in told, len(told.splitlines())), ("", True, 1), f"what is told: {told}")
    expect(files_of(office.parent), before, "files")


def check_two_crews(folder):
    """Two crews' copies come home in either order, by one command each.

    All that both did is there, and what both changed is named.
    """
    office = office_of(folder)
    copies = {crew: hand_out(office, crew) for crew in ("north", "south")}
    do(copies["north"], NORTH)
    do(copies["south"], SOUTH)
    do(office, "row,spots,4,Stone 4,of the office,0\n")
    printed, told = come_home(office, copies["north"])
    expect(
        told.splitlines(),
        ["comes home: 1 map, 1 media, 3 row, 1 tile", "there already: nothing", "conflicts: nothing"],
        "what is told",
    )
    expect(printed, f"{office}: the copy north_1 is home\n", "what is printed")
    _, told = come_home(office, copies["south"], status=1)
    folder_of_conflicts = kept(office, "conflicts")[0]
    expect(
        told.splitlines(),
        [
            "left out: row spots 3: both changed it",
            "renumbered: media photos 1 is 2",
            "renumbered: row spots 20 is 21",
            "comes home: 1 map, 1 media, 4 row, 1 table, 1 tile",
            "there already: nothing",
            "conflicts: 1 row",
            f"next: look at {folder_of_conflicts}/conflicts.csv; to take the crew's side of what a piece can settle:",
            f"    come_home.py {office} --theirs {folder_of_conflicts}",
            "next: give the crew south a new copy: its own has the old numbers",
        ],
        "what is told",
    )
    expect(
        rows(office),
        [
            "row,spots,1,Stone 1,A found it leaning,1",
            "row,spots,2,Stone 2,repaired,2",
            "row,spots,3,Stone 3,north,0",
            "row,spots,4,Stone 4,of the office,0",
            "row,spots,20,Oak,,1",
            "row,spots,21,Gate,,1",
        ],
        "rows",
    )
    found = content(office)
    expect(found["media"], [("photos", 1, "image/png", "89504E47"), ("photos", 2, "image/jpeg", "FFD8FF")], "photos")
    expect(found["mapped"], [("spots_photos", 20, 1), ("spots_photos", 21, 2)], "mapping rows")
    expect(found["tiles"], [("base", 0, 0, 0, "0A"), ("base", 0, 1, 0, "0B")], "tiles")
    mark = kept(office, "south")[0].name.partition(".")[0]
    expect(
        rows(office, "crew_numbers"),
        [f"row,crew_numbers,1,{mark},media photos 1 2,0", f"row,crew_numbers,2,{mark},row spots 20 21,0"],
        "numbers",
    )
    expect(
        [it.partition("_1_")[0] for it in editions(office)],
        ["home_north", "home_south", "out_north", "out_south"],
        "editions",
    )


def check_both_prepared_at_once(folder):
    """What loses a crew's work by kit_between.py doesn't by come_home.py: each homecoming looks at what stands then."""
    office = office_of(folder)
    copies = [hand_out(office, crew) for crew in ("a", "b")]
    do(copies[0], "row,spots,1,Stone 1,A found it leaning,1\nrow,spots,2,Stone 2,A repaired it,0\n")
    do(copies[1], "row,spots,1,Stone 1,B says gone,9\nrow-drop,spots,2\n")
    come_home(office, copies[0])
    come_home(office, copies[1], status=1)
    expect(
        rows(office)[:2], ["row,spots,1,Stone 1,A found it leaning,1", "row,spots,2,Stone 2,A repaired it,0"], "rows"
    )


def check_wrong_copies(folder):
    """What is no copy that came back is refused in words, with 2, and nothing is changed."""
    office = office_of(folder)
    shutil.copyfile(office, folder / "plain.mmpkg")
    north, south = (hand_out(office, crew) for crew in ("north", "south"))
    do(north, NORTH)
    shutil.copyfile(office, folder / "backup.mmpkg")
    (folder / "elsewhere").mkdir()
    other = office_of(folder / "elsewhere")
    theirs = hand_out(other, "north")
    for name, why in (("plain", "is no copy that was handed out"), ("backup", "is no copy that was handed out")):
        expect_refused(office, [folder / f"{name}.mmpkg"], why)
    expect_refused(office, [office], "is the office's package itself")
    expect_refused(office, [theirs], "which this package didn't hand out: it is of another project")
    expect_refused(
        north,
        [office],
        "is no copy that was handed out, but the office's package or a backup: are the two in the wrong places?",
    )
    expect_refused(north, [south], "which this package didn't hand out")
    expect_refused(office, [north, "--again"], "never came home")
    come_home(office, north)
    expect_refused(office, [north], "came home already; --again takes what was done since")
    shutil.copyfile(kept(office, "north_1")[0], folder / "morning.mmpkg")
    do(north, "edition,noon\npublish,noon\nrow,spots,30,Ash,,0\n")
    come_home(office, north, "--again")
    expect_refused(
        office,
        [folder / "morning.mmpkg", "--again"],
        "lacks published editions of the copy that it comes of: noon; it is an older copy",
    )
    kept(office, "south")[0].rename(folder / "away.mmpkg")
    expect_refused(office, [south], "before.mmpkg, which isn't there: is ")
    expect_refused(folder / "none.mmpkg", [south], "none.mmpkg: not a package 94", status=4)
    expect_refused(office, [folder / "none.mmpkg"], "none.mmpkg: not a package 94", status=4)
    run(HOME, office, status=2)
    run(HOME, office, south, "--theirs", folder, status=2)


def check_pages_of_two_crews(folder):
    """Where two crews brought the page in, each its own, that of the first comes home.

    Of the second what is otherwise is named.
    """
    page = "table,viewer,media,Map\nmedia,viewer,1,text/html,00\nmedia,viewer,4,application/json,{}\n"
    office = office_of(folder)
    copies = [hand_out(office, crew) for crew in ("north", "south")]
    for name, copy in zip("ab", copies):
        do(copy, page.format(f'{{"package":"{name * 16}"}}'.encode().hex()) + f"row,spots,1,Stone 1,{name},0\n")
    come_home(office, copies[0])
    _, told = come_home(office, copies[1], status=1)
    expect(
        [line for line in told.splitlines() if line.startswith(("left", "renumbered"))],
        ["left out: row spots 1: both changed it", "left out: media viewer 4: both made one"],
        "what is told",
    )
    expect([it[1] for it in content(office)["media"]], [1, 4], "items of the page")


def check_a_copy_of_a_copy(folder):
    """A crew hands a copy of its own out; it comes home to the crew, and with it to the office."""
    office = office_of(folder)
    north = hand_out(office, "north")
    alice = hand_out(north, "alice")
    do(alice, "row,spots,20,Oak,alice,0\n")
    expect_refused(office, [alice], "is a copy of a copy")
    come_home(north, alice)
    do(north, "row,spots,21,Ash,north,0\n")
    come_home(office, north)
    expect(rows(office)[3:], ["row,spots,20,Oak,alice,0", "row,spots,21,Ash,north,0"], "rows")


def check_a_journal_beside_a_copy(folder):
    """A journal with commits is named, with how it is closed.

    A copy without its journal has changed nothing, which is told with 1.
    """
    office = office_of(folder)
    copy = hand_out(office, "north")
    shutil.copyfile(copy, folder / "alone.mmpkg")
    with in_use(copy, "row,spots,20,Oak,,1\n") as running:
        running.kill()
    expect_refused(office, [copy], "its journal north_1.mmpkg-wal holds commits: end the day at the tablet")
    before = content(office)
    printed, _ = come_home(office, folder / "alone.mmpkg", status=1)
    expect(
        printed, f"{folder / 'alone.mmpkg'}: nothing was changed: was its journal copied along?\n", "what is printed"
    )
    expect((content(office), len(editions(office))), (before, 1), "the office's package")
    mmpkg("check", copy)
    come_home(office, copy)
    expect(rows(office)[3:], ["row,spots,20,Oak,,1"], "the row of the journal")


def check_once_more(folder):
    """What was renumbered is the same row when the copy comes home again: changed, or removed.

    So it is with a new row under a number that was given.
    """
    office = office_of(folder)
    north, south = (hand_out(office, crew) for crew in ("north", "south"))
    do(north, NORTH)
    do(south, SOUTH)
    come_home(office, north)
    come_home(office, south, status=1)
    do(
        south,
        "row,spots,20,Gate,closed,1\nmedia,photos,1,image/jpeg,ffd8ffe0\nrow,spots,21,Hut,,1\nmap,spots_photos,21,1\n",
    )
    _, told = come_home(office, south, "--again")
    assert "renumbered: row spots 21 is 22" in told.splitlines(), told
    expect(rows(office)[-3:], ["row,spots,20,Oak,,1", "row,spots,21,Gate,closed,1", "row,spots,22,Hut,,1"], "rows")
    found = content(office)
    expect(found["media"][1:], [("photos", 2, "image/jpeg", "FFD8FFE0")], "photos")
    expect(found["mapped"], [("spots_photos", 20, 1), ("spots_photos", 21, 2), ("spots_photos", 22, 2)], "mapping rows")
    do(south, "map-drop,spots_photos,20,1\nrow-drop,spots,20\n")
    come_home(office, south, "--again")
    expect(rows(office)[-2:], ["row,spots,20,Oak,,1", "row,spots,22,Hut,,1"], "rows")
    printed, _ = come_home(office, south, "--again", status=1)
    assert "nothing was changed" in printed, printed


def check_what_no_piece_carries(folder):
    """Tables, systems, relations and maps come, and a table that goes, goes.

    One that was made anew under its name stays, and is named.
    """
    office = office_of(
        folder, LAYOUT + "table,old,attributes,Old\nrow,old,1,x,,0\ntable,kind,attributes,Kind\nrow,kind,1,x,,0\n"
    )
    copy = hand_out(office, "north")
    do(
        copy,
        "srs,7,new,EPSG,7,new,\npyramid,plan,Plan,7,0,0,512,512,two\nmatrix,plan,0,1,1,256,256,2,2\n"
        "matrix,plan,1,2,2,256,256,1,1\ntile,plan,1,1,1,0c\ntable,finds,attributes,Finds\nrow,finds,1,Coin,,1\n"
        "relation,finds_photos,finds,photos,media\nmedia,photos,5,a/b,00\nmap,finds_photos,1,5\ndrop,old\ndrop,kind\n"
        "table,kind,media,Kind\nmedia,kind,1,a/b,01\n",
    )
    _, told = come_home(office, copy, status=1)
    assert (
        "left out: table kind: a homecoming makes no table, zoom or relation anew that stands; kit_between.py does"
        in told.splitlines()
    ), told
    found, wanted = content(office), content(copy)
    for part in ("systems", "matrices", "tiles", "relations", "mapped"):
        expect(found[part], wanted[part], part)
    expect(
        ("kind", "attributes", "Kind") in found["tables"] and not any(it[0] == "old" for it in found["tables"]),
        True,
        "tables",
    )
    expect([row for row in found["rows"] if row[0] == "kind"], [("kind", 1, "x", "", 0)], "the table that stays")


def check_news(folder):
    """What the office changed comes to a copy that is worked on, and doesn't come home as its work.

    What both changed stays, and is named.
    """
    office = office_of(folder)
    north, south = (hand_out(office, crew) for crew in ("north", "south"))
    do(south, SOUTH)
    come_home(office, south)
    do(north, "row,spots,1,Stone 1,north,1\nrow,spots,30,Ash,,0\n")
    do(office, "row,spots,3,Stone 3,office,0\nrow,spots,1,Stone 1,office,0\n")
    printed, told = run(OUT, office, "--news", north, status=1)
    expect(printed, f"{north}: has the news of {office}\n", "what is printed")
    expect(
        told.splitlines(),
        [
            "left out: row spots 1: both changed it",
            "news: 1 map, 1 media, 3 row, 1 tile",
            "there already: nothing",
            "conflicts: 1 row",
        ],
        "what is told",
    )
    expect(
        rows(north),
        [
            "row,spots,1,Stone 1,north,1",
            "row,spots,2,Stone 2,repaired,2",
            "row,spots,3,Stone 3,office,0",
            "row,spots,20,Gate,,1",
            "row,spots,30,Ash,,0",
        ],
        "rows of the copy",
    )
    do(office, "row,spots,20,Gate,closed,1\nrow,spots,3,Stone 3,later,0\n")
    _, told = come_home(office, north, status=1)
    expect(
        told.splitlines()[:4],
        ["left out: row spots 1: both changed it", "comes home: 1 row", "there already: nothing", "conflicts: 1 row"],
        "what is told of the homecoming",
    )
    expect(
        rows(office),
        [
            "row,spots,1,Stone 1,office,0",
            "row,spots,2,Stone 2,repaired,2",
            "row,spots,3,Stone 3,later,0",
            "row,spots,20,Gate,closed,1",
            "row,spots,30,Ash,,0",
        ],
        "rows of the office",
    )
    _, told = run(OUT, office, "--news", north, status=None)
    expect(rows(north)[2:4], ["row,spots,3,Stone 3,later,0", "row,spots,20,Gate,closed,1"], "the next news")
    do(north, "row,spots,3,Stone 3,north too,0\n")
    come_home(office, north, "--again", status=None)
    expect(rows(office)[2], "row,spots,3,Stone 3,north too,0", "work on what was news")


def check_news_under_other_numbers(folder):
    """A row with another number at the office is changed under its own in the copy.

    What has its number at the office stays out, and is named.
    """
    office = office_of(folder)
    north, south = (hand_out(office, crew) for crew in ("north", "south"))
    do(north, "row,spots,20,Oak,,1\n")
    do(south, "row,spots,20,Gate,,1\n")
    come_home(office, north)
    come_home(office, south)
    do(office, "row,spots,21,Gate,painted,1\nrow,spots,20,Oak,felled,1\nrow,spots,40,Elm,,1\n")
    _, told = run(OUT, office, "--news", south, status=1)
    assert f"left out: spots 20 of {office}: the copy has another under this number" in told.splitlines(), told
    expect(rows(south)[3:], ["row,spots,20,Gate,painted,1", "row,spots,40,Elm,,1"], "rows of the copy")
    do(south, "row,spots,20,Gate,painted green,1\n")
    come_home(office, south, "--again")
    expect(
        rows(office)[3:],
        ["row,spots,20,Oak,felled,1", "row,spots,21,Gate,painted green,1", "row,spots,40,Elm,,1"],
        "rows of the office",
    )


def check_their_side(folder):
    """The crew's side is taken by one command, but for what was struck out of the list, or is otherwise by now.

    No folder is taken twice.
    """
    office = office_of(folder)
    copy = hand_out(office, "north")
    do(
        copy,
        "row,spots,1,Stone 1,north,1\nrow,spots,2,Stone 2,north,1\nrow-drop,spots,3\n"
        "tile,base,0,0,0,0a\nmedia,photos,4,a/b,0d\n",
    )
    do(
        office,
        "row,spots,1,Stone 1,office,1\nrow,spots,2,Stone 2,office,1\nrow,spots,3,Stone 3,office,1\n"
        "tile,base,0,0,0,0b\n",
    )
    come_home(office, copy, status=1)
    (conflicts,) = kept(office, "conflicts")
    expect((conflicts / "conflicts.csv").read_text().splitlines()[0], "what,key,before,after,office", "columns")
    expect(
        sorted(it.read_bytes() for it in (conflicts / "theirs").iterdir() if it.name != "kit.csv"),
        [b"\x0a"],
        "bytes of the crew",
    )
    expect(
        sorted(it.read_bytes() for it in (conflicts / "office").iterdir() if it.name != "kit.csv"),
        [b"\x0b"],
        "bytes of the office",
    )
    lines = (conflicts / "conflicts.csv").read_text().splitlines(keepends=True)
    (conflicts / "conflicts.csv").write_text("".join(line for line in lines if not line.startswith("row,spots 2,")))
    do(office, "row,spots,1,Stone 1,later,1\n")
    _, told = run(HOME, office, "--theirs", conflicts, status=1)
    expect(told, "left out: row spots 1: the office's package has it otherwise by now\n", "what is told")
    expect(rows(office), ["row,spots,1,Stone 1,later,1", "row,spots,2,Stone 2,office,1"], "rows")
    expect(content(office)["tiles"], [("base", 0, 0, 0, "0A")], "tiles")
    _, told = run(HOME, office, "--theirs", conflicts, status=2)
    assert "was taken already, as the edition home_north_1_" in told, told


def check_a_session_of_its_own(folder):
    """While another program has the office's package nothing is handed out, taken home or news, and that is told."""
    office = office_of(folder)
    copy = hand_out(office, "north")
    do(copy, NORTH)
    held = f"{office}: fault 91: another program has it, or it can't be written"
    with in_use(office):
        tools = ("hand_out", (office, "south")), ("come_home", (office, copy)), ("hand_out", (office, "--news", copy))
        for name, words in tools:
            told = patched(name, "session.PATIENCE, session.SILENCE = 2, 0.5", *words, status=3)[1]
            expect(told, f"{held}; it is tried for 2 s\n{held}\n", "what is told")
    come_home(office, copy)


def check_handing_out(folder):
    """Where copies are written, what is told, and names that are none."""
    office = office_of(folder)
    (folder / "stick").mkdir()
    printed, told = run(OUT, office, "north", "--to", folder / "stick")
    expect((printed, told), (f"{folder / 'stick' / 'north_1.mmpkg'} is for the crew north\n", ""), "what is told")
    expect(hand_out(office, "north"), folder / "north_2.mmpkg", "the second copy")
    expect(hand_out(office, "south"), folder / "south_1.mmpkg", "another crew's copy")
    (folder / "north_3.mmpkg").write_bytes(b"stands")
    files = files_of(folder)
    for words in ((office, "North"), (office, "north"), (office, "x", "--to", folder / "none"), (office,)):
        run(OUT, *words, status=2)
    expect(files_of(folder), files, "files")


if __name__ == "__main__":
    want("no copy was handed out")
    end(*run_checks("home", globals(), words_given(__doc__).words, in_a_folder))
