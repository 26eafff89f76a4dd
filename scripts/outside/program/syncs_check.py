#!/usr/bin/python3
"""What the subcommands that change nothing ask of the disk, as strace tells it.

    scripts/outside/program/syncs_check.py [PROGRAM]      the last line is 'N passed, M failed'; 77 where strace isn't

`check`, `list`, `show` and `serve` of a package that was closed well wait for nothing and write nothing behind what the
opening itself does: from the first byte that they print on they cut the journal to its head, and that is all. FILE
stays byte for byte as it was. A `run` is looked at in the same way, which waits for the disk: so the check sees it.
"""

import pathlib
import re
import subprocess
import sys
import urllib.request

sys.path.insert(0, str(pathlib.Path(__file__).resolve().parents[1] / "lib"))
from checks import (  # noqa: E402
    PROGRAM,
    content_of,
    end,
    expect,
    free_port,
    in_a_folder,
    mmpkg,
    new_package,
    run_checks,
    want,
    words_given,
)

RECORDS = "table,spots,attributes,Spots\nrow,spots,1,Well,by the road,3\n"
WAITS, WRITES = ("fsync", "fdatasync", "sync_file_range", "sync", "syncfs"), ("pwrite64", "pwritev", "ftruncate")
CALLS = ",".join((*WAITS, *WRITES, "write"))
TOLD = re.compile(r"^(?:\d+ +)?(\w+)\((.*)$")


def calls_behind_the_output(folder, *words, given=b"", meanwhile=lambda: None):
    """What a run of the program asks of its files behind the first byte that it prints, a call with its words each."""
    told = folder / "calls"
    command = ["strace", "-f", "-qq", "-e", f"trace={CALLS}", "-o", told, PROGRAM, *words]
    with subprocess.Popen([str(it) for it in command], stdin=subprocess.PIPE, stdout=subprocess.PIPE) as ran:
        ran.stdin.write(given)
        ran.stdin.close()
        first = ran.stdout.readline()
        meanwhile()
        rest = ran.stdout.read()
    expect(ran.returncode, 0, f"the status of {words[0]}, which printed {first + rest!r}")
    calls = [TOLD.match(line).groups() for line in told.read_text().splitlines()]
    printed = [place for place, (name, rest) in enumerate(calls) if name == "write" and rest.startswith("1, ")]
    return [it for it in calls[printed[0] :] if it[0] != "write"]


def a_package(folder):
    """A package of one row, which was closed well."""
    file = folder / "a.mmpkg"
    new_package(file, RECORDS)
    expect(content_of(pathlib.Path(f"{file}-wal")), b"", "the journal")
    return file


def looks(folder, *words, meanwhile=lambda: None):
    """A subcommand that looks at a package asks nothing of the disk behind its opening, and FILE stays as it was."""
    file = folder / "a.mmpkg"
    before = file.read_bytes()
    calls = calls_behind_the_output(folder, words[0], file, *words[1:], meanwhile=meanwhile)
    assert all(name == "ftruncate" and rest.split(")")[0].endswith(", 41") for name, rest in calls), calls
    expect(file.read_bytes(), before, "FILE")
    mmpkg("check", file)


def check_what_looks(folder):
    """`check`, `list` and `show` wait for nothing behind their opening."""
    a_package(folder)
    for words in (("check",), ("list",), ("show", "spots")):
        looks(folder, *words)
    return 3


def check_what_serves(folder):
    """Nor does `serve`, with a request that it answers."""
    file = a_package(folder)
    port = free_port()
    address = f"http://127.0.0.1:{port}/contents"

    def ask():
        with urllib.request.urlopen(address, timeout=60) as answer:
            assert b"Spots" in answer.read(), file

    looks(folder, "serve", "--port", port, "--count", 1, meanwhile=ask)


def check_what_runs(folder):
    """A `run` waits for the disk behind its answer, as it copies its journal: what is looked for is seen."""
    file = a_package(folder)
    given = b"row,spots,2,Oak,,1\n"
    calls = calls_behind_the_output(folder, "run", file, "--at", 0, given=given)
    assert any(name in WAITS for name, _ in calls), calls


if __name__ == "__main__":
    words = words_given(__doc__).words
    want("the syncs weren't looked at", "strace:strace")
    if subprocess.run(["strace", "-qq", "-o", "/dev/null", "true"], capture_output=True, check=False).returncode:
        print("the syncs weren't looked at: this machine lets no program be traced")
        raise SystemExit(77)
    end(*run_checks("syncs", globals(), words, in_a_folder))
