#!/usr/bin/python3
"""Kills tools/hand_out.py and tools/come_home.py at each request and at each step on files, and does them again.

    scripts/outside/home/home_kills_check.py [PROGRAM] [WORD ..]

What is done again comes to the same end: no mark is used twice, nothing that was half written is taken for whole, and
what a kill left goes away. WORD picks the checks whose names have it. The last line is 'N passed, M failed'; the exit
status is 1 where one failed.
"""

import contextlib
import itertools
import os
import pathlib
import shutil
import signal
import sqlite3
import sys
import tempfile
import threading

sys.path.insert(0, str(pathlib.Path(__file__).resolve().parents[1] / "lib"))
from checks import (  # noqa: E402
    PROGRAM, end, expect, in_a_folder, is_held, mmpkg, run_checks, wait_until_free, want, words_given,
)  # fmt: skip

from home_check import (  # noqa: E402
    HOME, NORTH, OUT, SOUTH, come_home, command_behind, content, do, editions, expect_refused, files_of, hand_out,
    in_use, kept, office_of, patched, rows, run,
)  # fmt: skip

# Ends a tool at one of its requests, each of one record.
AT_A_REQUEST = """
import os, signal
session.MOST_BYTES, homecoming.KIT_PIECES, left = 1, 3, [{at}]
asked = session.Session.ask
def ask(self, path, body=b""):
    left[0] -= 1
    if left[0] == 0 and not {behind}:
        os.kill(os.getpid(), signal.SIGKILL)
    told = asked(self, path, body)
    if left[0] == 0:
        os.kill(os.getpid(), signal.SIGKILL)
    return told
session.Session.ask = ask
"""
# Ends a tool before one of the steps that it takes on files of some folders, or in the midst of a copy.
AT_A_STEP = """
import os, shutil, signal, sys
homecoming.KIT_PIECES, left, inside = 3, [{at}], [False]
STEPS = ("os.mkdir", "os.link", "os.rename", "os.remove", "os.rmdir", "shutil.copyfile", "shutil.rmtree",
         "subprocess.Popen", "open")

def is_there(path):
    path = os.fsdecode(path) if isinstance(path, (str, bytes, os.PathLike)) else "/"
    return path.startswith({places!r}) or (inside[0] and not path.startswith("/"))

def is_step(event, words):
    if event == "open" and words[1] is not None and not words[2] & (os.O_WRONLY | os.O_RDWR):
        return False
    if event == "shutil.rmtree":
        inside[0] = is_there(words[0])
    return any(map(is_there, words[1] if event == "subprocess.Popen" else words[:2]))

def is_the_one():
    left[0] -= 1
    return left[0] == 0

def step(event, words):
    if event in STEPS and is_step(event, words) and is_the_one():
        os.kill(os.getpid(), signal.SIGKILL)

def copyfile(source, target, **how):
    if is_there(target) and is_the_one():
        with open(source, "rb") as whole, open(target, "wb") as half:
            half.write(whole.read()[: os.path.getsize(source) // 2])
        os.kill(os.getpid(), signal.SIGKILL)
    return copied(source, target, **how)

copied, shutil.copyfile = shutil.copyfile, copyfile
sys.addaudithook(step)
"""
# Tells what a tool has had the disk keep before its first record.
FLUSHED = """
import os, pathlib
flushed, kept, asked = [], os.fsync, session.Session.ask
def fsync(opened):
    flushed.append(os.readlink(f"/proc/self/fd/{{opened}}"))
    kept(opened)
def ask(self, path, body=b""):
    if path == "/records" and not pathlib.Path({told!r}).exists():
        pathlib.Path({told!r}).write_text("\\n".join(flushed))
    return asked(self, path, body)
os.fsync, session.Session.ask = fsync, ask
"""
# The program, whose desk goes on for two seconds behind a kill of what began it, as one in the midst of a slow write.
OUTLIVES = """#!{python}
import os, subprocess, sys, time
if sys.argv[1] != "desk":
    os.execv({program!r}, [{program!r}, *sys.argv[1:]])
begun_by = os.getpid()
if child := os.fork():
    sys.exit(os.waitstatus_to_exitcode(os.waitpid(child, 0)[1]))
with subprocess.Popen([{program!r}, *sys.argv[1:]]) as desk:
    while desk.poll() is None:
        time.sleep(0.05)
        if os.getppid() != begun_by:
            time.sleep(2)
            desk.kill()
"""
# Runs another command before a tool copies a file to some name, or gives it that.
MEANWHILE = """
import os, shutil, subprocess
done = {step}
def step(source, target):
    if os.path.basename(target).endswith({name!r}):
        {step} = done
        subprocess.run({command!r}, check=True)
    done(source, target)
{step} = step
"""
# So long another program has a package, in seconds: longer than the tools were patient once.
LATE = 7


def is_killed(name, patch, *words, program=PROGRAM):
    """Runs a tool behind a patch that may kill it; whether it did. Behind that no program has the packages any more."""
    status = patched(name, patch, *words, status=(0, 1, -signal.SIGKILL), program=program)[2]
    wait_until_free(*(it for it in words if os.path.isfile(it)))
    return status == -signal.SIGKILL


def kills_at_requests(name, *words):
    """Kills a tool before and behind each of its requests, and yields behind each."""
    for behind in (False, True):
        at = 1
        while is_killed(name, AT_A_REQUEST.format(at=at, behind=behind), *words):
            yield at
            at += 1


def kills_at_steps(name, places, *words, stride=1):
    """Kills a tool at each of its steps on files of some folders, or each so many-th, and yields behind each."""
    at, places = 1, tuple(map(str, places))
    while is_killed(name, AT_A_STEP.format(at=at, places=places), *words):
        yield at
        at += stride


def evening(folder):
    """An office to which one crew came home, and the copy of another: rows, tiles and photos of both, and conflicts."""
    (folder / "start").mkdir()
    office = office_of(folder / "start")
    north, south = (hand_out(office, crew, "--to", folder) for crew in ("north", "south"))
    do(north, NORTH)
    do(south, SOUTH + "table,finds,attributes,Finds\nrow,finds,1,Coin,,1\nsrs,7,new,EPSG,7,new,\ntile,base,0,0,0,0c\n")
    come_home(office, north)
    return office, south


def put_back(office, to):
    """Puts an office's package, with what it keeps, into a folder, in place of what is there; the package there."""
    shutil.rmtree(to, ignore_errors=True)
    to.mkdir()
    shutil.copytree(f"{office}.crews", to / f"{office.name}.crews")
    shutil.copyfile(office, to / office.name)
    return to / office.name


def end_of(office):
    """All that an office has in the end: its package, the numbers in it, and what it keeps."""
    crews = pathlib.Path(f"{office}.crews")
    stands = {str(pathlib.Path(it).relative_to(crews)): data for it, data in files_of(crews).items()}
    return content(office), rows(office, "crew_numbers"), stands


def end_of_homecoming(office, copy, to):
    """What a homecoming comes to that isn't cut."""
    whole = put_back(office, to)
    come_home(whole, copy, status=1)
    return end_of(whole)


def expect_same_end(office, copy, wanted):
    """A homecoming that is done again comes to an end that is wanted, or was at that already."""
    _, told = come_home(office, copy, status=None)
    assert "came home already" in told or "conflicts: 1 row, 1 tile" in told, told
    expect(end_of(office), wanted, "what is there behind a kill")
    expect([it for it in editions(office) if " open " in it], [], "editions that are open")


def done_again(office, copy, cut, wanted, kills):
    """Takes a copy home again behind each kill of a homecoming to an office's package that is put there; how many."""
    tried = 0
    put_back(office, cut)
    for _ in kills:
        expect_same_end(cut / office.name, copy, wanted)
        expect_refused(cut / office.name, [copy], "came home already")
        put_back(office, cut)
        tried += 1
    return tried


def expect_kills(tried, least):
    assert tried > least, f"only {tried} kills"
    print(f"    killed {tried} times")


def check_kills_at_each_request_of_a_homecoming(folder):
    """A homecoming in several editions that is killed before or behind each of its requests comes to the same end."""
    office, copy = evening(folder)
    wanted, cut = end_of_homecoming(office, copy, folder / "whole"), folder / "cut"
    kills = kills_at_requests("come_home", cut / office.name, copy)
    expect_kills(done_again(office, copy, cut, wanted, kills), 30)


def check_kills_at_each_step_of_a_homecoming(folder):
    """So does one that is killed at each step on files, also where an earlier one had left all of them."""
    office, copy = evening(folder)
    wanted, cut, tried = end_of_homecoming(office, copy, folder / "whole"), folder / "cut", 0
    places = [f"{cut / office.name}.crews"]
    begun = put_back(office, folder / "begun")
    is_killed("come_home", AT_A_REQUEST.format(at=1, behind=False), begun, copy)
    left = pathlib.Path(f"{begun}.crews", ".copy-12345678")
    left.mkdir()
    shutil.copyfile(copy, left / "half.mmpkg")
    for first, stride in ((office, 4), (begun, 1)):
        kills = kills_at_steps("come_home", places, cut / office.name, copy, stride=stride)
        tried += done_again(first, copy, cut, wanted, kills)
    expect_kills(tried, 40)


def cut_short(office, copy):
    """Kills a homecoming behind its list of conflicts, and before its first record; where the list is."""
    assert is_killed("come_home", AT_A_REQUEST.format(at=1, behind=False), office, copy)
    (conflicts,) = kept(office, "conflicts")
    return conflicts


def strike(conflicts, word):
    """Takes the lines of a word out of a list of conflicts; what is left, but for the head."""
    lines = (conflicts / "conflicts.csv").read_text().splitlines(keepends=True)
    left = [it for it in lines if not it.startswith(f"{word},")]
    (conflicts / "conflicts.csv").write_text("".join(left))
    return left[1:]


def keeps(conflicts, told):
    """Where a list is kept that was changed behind a kill, which is told."""
    name = f"{conflicts.name}.changed"
    line = f"note: {conflicts}: was changed since the homecoming that was cut wrote it, and is kept as {name}"
    assert line in told.splitlines(), told
    return conflicts.with_name(name)


def check_a_list_that_was_changed_behind_a_kill(folder):
    """What was struck out of the list of a homecoming that was cut is kept when that is done again, which is told."""
    office, copy = evening(folder)
    conflicts = cut_short(office, copy)
    _, told = run(HOME, office, "--theirs", conflicts, status=2)
    assert "is of a homecoming that was cut: do that again first" in told, told
    left = strike(conflicts, "tile")
    changed = keeps(conflicts, come_home(office, copy, status=1)[1])
    expect((changed / "conflicts.csv").read_text().splitlines(keepends=True)[1:], left, "the list that was changed")
    expect(len((conflicts / "conflicts.csv").read_text().splitlines()), 3, "lines of the new list")
    run(HOME, office, "--theirs", changed)
    expect(rows(office)[2], "row,spots,3,Stone 3,south,0", "the row of which the crew's side was taken")
    expect(content(office)["tiles"][0], ("base", 0, 0, 0, "0A"), "the tile that was struck out")


def check_a_conflict_that_is_none_any_more(folder):
    """Of a homecoming that was cut, and whose conflicts the office has settled since, no list of conflicts is left.

    One that was changed is kept all the same.
    """
    office, copy = evening(folder)
    for is_changed in (False, True):
        cut = put_back(office, folder / "cut")
        conflicts = cut_short(cut, copy)
        if is_changed:
            strike(conflicts, "row")
        do(cut, "row,spots,3,Stone 3,south,0\ntile,base,0,0,0,0c\n")
        _, told = come_home(cut, copy)
        expect(kept(cut, "conflicts"), [keeps(conflicts, told)] if is_changed else [], "lists of conflicts")


def check_a_list_of_conflicts_is_on_the_disk(folder):
    """Before the first record of a homecoming the disk has the list of conflicts with both sides, and the copy."""
    office, copy = evening(folder)
    told = folder / "flushed"
    patched("come_home", FLUSHED.format(told=str(told)), office, copy, status=1)
    (conflicts,) = kept(office, "conflicts")
    listed = {it.parts[-2:] for it in conflicts.rglob("*") if it.is_file()}
    assert len(listed) > 4, f"only {listed}"
    flushed = {pathlib.Path(it).parts[-2:] for it in told.read_text().splitlines()}
    expect(listed - flushed, set(), "files that a loss of power may take")


def is_whole(file):
    """Whether a copy that was handed out is whole, and the one that its name says."""
    with contextlib.closing(sqlite3.connect(f"file:{file}?mode=ro&immutable=1", uri=True)) as opened:
        (marks,) = opened.execute("SELECT group_concat(name) FROM mm_editions WHERE name GLOB 'copy_*'").fetchone()
        return opened.execute("PRAGMA integrity_check").fetchone() == ("ok",) and (
            marks.startswith(f"copy_{file.name.partition('.')[0]}") and "," not in marks
        )


def expect_whole(places, looked):
    """What stands under the name of a copy in some folders is whole; what was looked at already isn't again."""
    new = {it for place in places if place.is_dir() for it in place.glob("*.mmpkg")} - looked
    expect([it for it in new if not is_whole(it)], [], "copies that aren't whole")
    looked |= new


def expect_another(office, copy, seen):
    """A copy that was handed out behind a kill has a mark of its own, is equal to what the office keeps, and whole."""
    data = copy.read_bytes()
    (mark,) = (it.split()[0] for it in editions(copy) if it.startswith("copy_"))
    assert mark not in seen, f"{mark} is used twice"
    seen.add(mark)
    before = pathlib.Path(f"{office}.crews") / f"{mark.removeprefix('copy_')}.before.mmpkg"
    expect(before.read_bytes() == data, True, "whether both copies are equal")
    expect(mmpkg("check", copy), "package ok\n", "the copy")
    left = [it for place in (before.parent, copy.parent) for it in place.iterdir() if it.name.startswith(".")]
    expect(left, [], "what is left half made")


def check_kills_of_handing_out(folder):
    """Handing out that is killed at each request and step on files is done again; the last copy comes home."""
    office, place = office_of(folder), folder / "out"
    place.mkdir()
    crews, words = pathlib.Path(f"{office}.crews"), (office, "north", "--to", place)
    seen, looked, tried = set(), set(), 0
    for _ in itertools.chain(kills_at_requests("hand_out", *words), kills_at_steps("hand_out", [crews, place], *words)):
        expect_whole([crews, place], looked)
        copy = hand_out(office, "north", "--to", place)
        expect_another(office, copy, seen)
        tried += 1
    expect_kills(tried, 20)
    do(copy, NORTH)
    come_home(office, copy)
    expect(content(office), content(copy), "what came home")


@contextlib.contextmanager
def on_another_disk(folder):
    """A folder that is on another disk than one, where there is such a one here."""
    shared = pathlib.Path("/dev/shm")
    if not shared.is_dir() or shared.stat().st_dev == folder.stat().st_dev:
        print("    tried on one disk alone: no folder of another is here")
        shared = folder
    with tempfile.TemporaryDirectory(dir=shared) as name:
        yield pathlib.Path(name)


def check_kills_of_handing_out_to_another_disk(folder):
    """So it is where the copy is to stand on another disk, as on a stick: nothing half made stays there."""
    office = office_of(folder)
    with on_another_disk(folder) as place:
        seen, looked = set(), set()
        for _ in kills_at_steps("hand_out", [place], office, "north", "--to", place):
            expect_whole([place], looked)
            expect_another(office, hand_out(office, "north", "--to", place), seen)
        assert len(seen) >= 4, f"only {len(seen)} kills"


def handed_out_meanwhile(offices, place, step, status=0):
    """Two offices hand out to crews of one name into a folder, one at a step of the other's; what the first is told."""
    others = [sys.executable, "-B", str(OUT), str(offices[1]), "north", "--to", str(place)]
    patch = MEANWHILE.format(step=step, name="north_1.mmpkg", command=others)
    return patched("hand_out", patch, offices[0], "north", "--to", place, status=status)[1]


def two_offices(folder):
    for name in ("a", "b"):
        (folder / name).mkdir()
        yield office_of(folder / name)


def check_two_offices_at_one_name(folder):
    """Two offices hand out a copy of one name at once: the second to be ready is refused, and takes nothing away."""
    offices = list(two_offices(folder))
    (folder / "out").mkdir()
    told = handed_out_meanwhile(offices, folder / "out", "shutil.copyfile", status=2)
    copy = folder / "out" / "north_1.mmpkg"
    expect(told, f"{copy}: is there, and is not overwritten; remove it, or choose another name\n", "what is told")
    expect_another(offices[1], copy, set())
    expect(hand_out(offices[0], "north", "--to", folder / "out").name, "north_2.mmpkg", "the next copy")


def check_two_offices_at_one_stick(folder):
    """Two offices hand copies out to crews of one name onto one stick at once: both are there, and whole."""
    offices = list(two_offices(folder))
    hand_out(offices[1], "north")
    with on_another_disk(folder) as place:
        handed_out_meanwhile(offices, place, "os.link")
        for office, name in zip(offices, ("north_1.mmpkg", "north_2.mmpkg")):
            expect_another(office, place / name, set())


def check_kills_of_news(folder):
    """News that are killed at each step on files come to the same end; what a kill left goes with the next copy."""
    office, copy = evening(folder)
    do(office, "row,spots,1,Stone 1,office,1\ntile,base,0,2,0,0d\nmedia,photos,9,a/b,0e\nmap,spots_photos,1,9\n")
    packages = folder / "cut" / office.name, folder / "copy.mmpkg"

    def again():
        put_back(office, folder / "cut")
        shutil.copyfile(copy, packages[1])

    def both():
        run(OUT, packages[0], "--news", packages[1], status=None)
        (common,) = kept(packages[0], ".news_")
        shutil.copyfile(common, folder / "common.mmpkg")
        return content(packages[0]), content(packages[1]), content(folder / "common.mmpkg")

    again()
    wanted, tried = both(), 0
    again()
    for _ in kills_at_steps("hand_out", [f"{packages[0]}.crews"], packages[0], "--news", packages[1]):
        expect(both(), wanted, "the packages, and what they have in common")
        hand_out(packages[0], "west")
        expect([it.name for it in kept(packages[0], "") if it.name.startswith(".")], [], "what is left half made")
        again()
        tried += 1
    expect_kills(tried, 8)


def check_news_beside_a_homecoming(folder):
    """While a copy gets news the office takes none home, and so takes away nothing that the news are making."""
    office = office_of(folder)
    copies = [hand_out(office, crew) for crew in ("north", "south")]
    do(copies[0], NORTH)
    do(office, "row,spots,4,Stone 4,of the office,0\n")
    home = command_behind("session.PATIENCE = 1", "come_home", office, copies[0])
    command = ["sh", "-c", '"$@"; [ $? = 3 ]', "sh", *home]
    patch = MEANWHILE.format(step="os.replace", name=".mmpkg", command=command)
    patched("hand_out", patch, office, "--news", copies[1])
    expect(rows(copies[1]), rows(office), "rows of the copy that got news")
    come_home(office, copies[0])


def check_a_desk_that_outlives_a_kill(folder):
    """A desk whose tool was killed has the package a while still: who waits until it is free finds it whole."""
    office = office_of(folder)
    copy = hand_out(office, "north")
    do(copy, NORTH)
    late = folder / "late"
    late.write_text(OUTLIVES.format(python=sys.executable, program=PROGRAM))
    late.chmod(0o755)
    patch = AT_A_REQUEST.format(at=4, behind=True)
    patched("come_home", patch, office, copy, status=-signal.SIGKILL, program=str(late))
    expect(is_held(office), True, "whether a program has the package behind the kill")
    wait_until_free(office)
    mmpkg("list", office)
    come_home(office, copy)
    expect(content(office), content(copy), "what came home")


def check_a_program_that_ends_late(folder):
    """Where another program has the office's package for some seconds still, that is told, and waited for."""
    office = office_of(folder)
    copy = hand_out(office, "north")
    do(copy, NORTH)
    held = f"{office}: fault 91: another program has it, or it can't be written; it is tried for 30 s"
    for words in ((OUT, office, "--news", copy), (HOME, office, copy)):
        with in_use(office) as running:
            threading.Timer(LATE, running.stdin.close).start()
            _, told = run(*words)
        expect(told.splitlines()[0], held, "what is told first")
    expect(content(office), content(copy), "what came home")


def check_an_office_that_was_killed(folder):
    """What stands in the journal of the office's package alone is seen, and goes out with the next copy."""
    office = office_of(folder)
    copy = hand_out(office, "north")
    do(copy, "row,spots,1,Stone 1,north,1\nrow,spots,20,Oak,,1\n")
    for row in ("row,spots,1,Stone 1,office,1\n", "row,spots,9,Ash,,1\n"):
        with in_use(office, row) as running:
            running.kill()
        if "office" in row:
            _, told = come_home(office, copy, status=1)
            expect(told.splitlines()[0], "left out: row spots 1: both changed it", "what is told")
    wanted = ["row,spots,1,Stone 1,office,1", *rows(office)[1:3], "row,spots,9,Ash,,1", "row,spots,20,Oak,,1"]
    expect(rows(hand_out(office, "south")), wanted, "rows")


def check_stopped_by_hand(folder):
    """Behind Ctrl-C a homecoming says what to do, and is done again."""
    office = office_of(folder)
    copy = hand_out(office, "north")
    do(copy, NORTH)
    # What runs behind a shell's & would pass over SIGINT.
    heard = "import signal\nsignal.signal(signal.SIGINT, signal.default_int_handler)\n"
    stopped = AT_A_REQUEST.format(at=4, behind=True).replace("SIGKILL", "SIGINT")
    told = patched("come_home", heard + stopped, office, copy, status=130)[1]
    wanted = f"{office}: stopped in the midst; do it again, and it comes to the same end"
    expect(told.splitlines()[-1], wanted, "what is told")
    come_home(office, copy)
    expect(content(office), content(copy), "what came home")


if __name__ == "__main__":
    want("no copy was handed out")
    end(*run_checks("kills", globals(), words_given(__doc__).words, in_a_folder))
