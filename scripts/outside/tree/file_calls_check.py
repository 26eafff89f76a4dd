#!/usr/bin/python3
"""Names each place where the program's code calls the system for a file or a port, and fails where one stands
elsewhere.

    scripts/outside/tree/file_calls_check.py      the last line says how many such words stand in how many files

What a clause says of the package's file is of its bytes as the store opened them. No clause tells what another call of
the system does to a file, before or behind that. So such calls stand in the few places that are listed here, and are
read there: the length of FILE and of its journal, and what is told of lengths on standard error; the files of a kit's
folder, which are read once more for what is told of a refusal; the one open of the store, and the port.
"""

import pathlib
import re
import sys

TOP = pathlib.Path(__file__).resolve().parents[3]

# What stands for a call of the system, and where it may stand: the file below crates/, with the words that it may have.
PLACES = {
    r"\bfs\b(?:::\w+)*": {
        "mm_program/src/files.rt": {"fs", "fs::metadata"},
        "mm_program/src/kits.rt": {"fs", "fs::File", "fs::File::open"},
        "mm_remarks/src/progress.rt": {"fs", "fs::metadata"},
        "mm_cli/src/kits.rt": {"fs", "fs::metadata", "fs::File::open"},
        "mm_cli/src/records.rt": {"fs", "fs::metadata"},
    },
    r"\bsqlite_std_file\b(?:::\w+)*": {
        "mm_files/src/files.rt": {"sqlite_std_file::open", "sqlite_std_file::OpenError"},
    },
    r"\bConnection::open\w*": {
        "mm_files/src/files.rt": {"Connection::open_files"},
        "mm_recovery/src/files.rt": {"Connection::open_files"},
        "mm_meta/src/memory.rt": {"Connection::open_in_memory"},
    },
    r"\bTcpListener::\w+": {
        "mm_program/src/serving.rt": {"TcpListener::bind"},
        "mm_program/src/desks.rt": {"TcpListener::bind"},
    },
    r"\bTcpStream::\w+|\bUdpSocket\b|\bUnixListener\b|\bprocess::Command\b": {},
    # names of the module, or of the functions in it, that the pattern for `fs` would not see
    r"\bfs::\s*(?:\{|\*)": {},
    r"\brename\(|\bhard_link\b|\bcreate_dir\w*|\bcreate_new\b|\bFile::create\b": {},
    r"\bset_len\b|\bremove_file\b|\bremove_dir\w*|\bOpenOptions\b": {},
}
# What the system's library is called by another name: then no word above would tell a call.
ALIAS = re.compile(
    r"\buse\s+(?:::)?(?:std|sqlite|sqlite_std_file)\b[^;]*?\bas\s+\w+|\bextern\s+crate\b|\buse\s+std::\*"
)
# Crates that are no part of the program, and the one crate that may stand on what opens files.
TESTS = re.compile(r"mm_(test_\w+|faults)$")
OPENER = "mm_files"


def code_of(text):
    """Returns the lines of code, without comments and what is only proved."""
    lines = (re.sub(r"(^|\s)//.*", "", line) for line in text.split("\n"))
    return "\n".join("" if line.lstrip().startswith("ghost ") else line for line in lines)


def calls_of(crates):
    """Returns each call: the file below crates/, the number of its line, the word, and whether it may stand there."""
    calls = []
    for path in sorted(crates.glob("*/src/**/*.rt")):
        name = path.relative_to(crates).as_posix()
        if TESTS.match(name.partition("/")[0]):
            continue
        code = code_of(path.read_text(encoding="utf-8"))
        for found in ALIAS.finditer(code):
            calls.append((name, code.count("\n", 0, found.start()) + 1, " ".join(found[0].split()), False))
        for number, line in enumerate(code.split("\n"), 1):
            for pattern, places in PLACES.items():
                words = (found[0] for found in re.finditer(pattern, line))
                calls += [(name, number, word, word in places.get(name, ())) for word in words]
    return calls


def openers_of(text):
    """Returns the crates that stand on what opens files."""
    rows = (line.partition(":") for line in text.split("\n") if not line.startswith("#"))
    return {name for name, _, below in rows if "sqlite_std_file" in below.split()}


def main():
    calls = calls_of(TOP / "crates")
    strays = [f"crates/{name}:{number}: {word} may not stand here" for name, number, word, may in calls if not may]
    others = openers_of((TOP / "crates.txt").read_text(encoding="utf-8")) - {OPENER}
    strays += [f"crates.txt: {name} may not stand on sqlite_std_file" for name in sorted(others)]
    for stray in strays:
        print(stray, file=sys.stderr)
    print(f"{len(calls)} words for calls in {len({name for name, *_ in calls})} files, {len(strays)} out of place")
    return 1 if strays or not calls else 0


if __name__ == "__main__":
    sys.exit(main())
