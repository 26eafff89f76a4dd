#!/usr/bin/python3
"""A run whose records are typed on a terminal: each is answered at once, and one end key ends the list.

    scripts/outside/program/terminal.py [PROGRAM]
"""
import os
import pathlib
import pty
import select
import subprocess
import sys
import tempfile
import time

sys.path.insert(0, str(pathlib.Path(__file__).resolve().parents[1] / "lib"))
from checks import PROGRAM, mmpkg, want  # noqa: E402

WAIT = 60
END_KEY = b"\x04"
# The exit status where a record was refused, as the second one is.
REFUSED = 1


def read_until(terminal, wanted):
    """Returns what a terminal shows until it has shown this, or until it is closed or the time is over."""
    shown, ends_at = b"", time.monotonic() + WAIT
    while wanted not in shown and time.monotonic() < ends_at:
        if select.select([terminal], [], [], 0.1)[0]:
            try:
                got = os.read(terminal, 4096)
            except OSError:
                got = b""
            if not got:
                break
            shown += got
    return shown


def typed(package):
    """Types two records and one end key, and returns what is wrong, or None."""
    terminal, its_end = pty.openpty()
    run = subprocess.Popen([PROGRAM, "run", package], stdin=its_end, stdout=its_end, stderr=its_end)
    os.close(its_end)
    try:
        for number, record in ((1, b"edition,a\n"), (2, b"edition,a\n")):
            os.write(terminal, record)
            answer = b"%d ok" % number if number == 1 else b"%d refused" % number
            if answer not in read_until(terminal, answer):
                return f"record {number} is not answered before the next is typed"
        os.write(terminal, END_KEY)
        status = run.wait(WAIT)
        return None if status == REFUSED else f"the status is {status}"
    except subprocess.TimeoutExpired:
        return "one end key does not end the list"
    finally:
        run.kill()
        run.wait()
        os.close(terminal)


def main():
    want("nothing was typed")
    with tempfile.TemporaryDirectory() as folder:
        package = f"{folder}/a.mmpkg"
        mmpkg("init", package)
        wrong = typed(package)
    print(wrong or "two records are answered as they are typed, and one end key ends the list")
    return 1 if wrong else 0


if __name__ == "__main__":
    sys.exit(main())
