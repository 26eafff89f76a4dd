#!/usr/bin/env python3
"""Builds the other side of the benches, bench/native.c, at out/native, where that is missing or older.

    bench/native.py

It wants Debian's gcc, libsqlite3-dev and libssl-dev.
"""

import pathlib
import subprocess

SOURCE = pathlib.Path(__file__).resolve().with_suffix(".c")
BUILT = SOURCE.parent.parent / "out" / "native"


def built():
    """The path of the built program."""
    if not BUILT.exists() or BUILT.stat().st_mtime < SOURCE.stat().st_mtime:
        BUILT.parent.mkdir(exist_ok=True)
        subprocess.run(["cc", "-O2", "-Wall", "-Wextra", "-o", BUILT, SOURCE, "-lsqlite3", "-lcrypto"], check=True)
    return str(BUILT)


if __name__ == "__main__":
    print(built())
