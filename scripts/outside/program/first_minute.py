#!/usr/bin/python3
"""As a new user: from the installed package to a row with a photo on the map, within a minute. Called by
scripts/outside/program/deb_check.sh.

    scripts/outside/program/first_minute.py ROOT

ROOT is the folder of a Debian in which the package is installed; its commands run there, and the browser is this
machine's Chromium. Prints how long it took. Exit status: 0 it took less than a minute; 1 it took more, or came to
nothing.
"""

import contextlib
import pathlib
import signal
import subprocess
import sys
import tempfile
import time

sys.path.insert(0, str(pathlib.Path(__file__).resolve().parents[1] / "lib"))
import devtools  # noqa: E402
from checks import free_port  # noqa: E402
from crew_page import Crew  # noqa: E402
from images import picture  # noqa: E402

EXAMPLE = "/usr/share/doc/mmpkg/examples/crew.csv"
# How many marks are where the tap was, within a pixel or two.
MARKS = """[...marked.values()].map(it => it.mark.getLatLng())
  .filter(it => Math.hypot(it.lng - 500500, it.lat - 5600400) < 9).length"""


def main(root):
    inside = ["env", "-i", "PATH=/usr/sbin:/usr/bin:/sbin:/bin", "LC_ALL=C.UTF-8", "HOME=/root", "chroot", root]
    with tempfile.TemporaryDirectory() as name, contextlib.ExitStack() as stack:
        photo = pathlib.Path(name) / "photo.png"
        photo.write_bytes(picture(300, 200, (40, 160, 80)))
        began = time.monotonic()
        first = f"cd /root; mmpkg init trip.mmpkg; mmpkg run trip.mmpkg < {EXAMPLE}"
        subprocess.run([*inside, "sh", "-euc", first], stdout=subprocess.DEVNULL, check=True)
        stack.callback(lambda: [it.unlink() for it in pathlib.Path(root, "root").glob("trip.mmpkg*")])
        command = [*inside, "mmpkg-crew", "/root/trip.mmpkg", "--port", str(free_port()), "--no-browser"]
        running = stack.enter_context(subprocess.Popen(command, stdout=subprocess.PIPE, text=True))
        stack.callback(running.send_signal, signal.SIGTERM)
        address = next(line.split()[-1] for line in running.stdout if line.startswith("The page is http"))
        browser = stack.enter_context(devtools.Browser("chromium", pathlib.Path(name) / "profile"))
        crew = Crew(browser, address.split("#")[0].removesuffix("/media/viewer/1"))
        crew.new(title="Spring", note="cold", amount=3, place=(500_500, 5_600_400), photos=[photo])
        crew.wait_until_it_stands()
        crew.open("Spring")
        crew.page.wait("byId('thumbnails').querySelector('img')?.naturalWidth === 300")
        took = time.monotonic() - began
        shown = crew.value(MARKS)
        running.send_signal(signal.SIGINT)
        last = running.communicate(timeout=60)[0].splitlines()[-1]
    print(f"a row with a photo stood on the map behind {took:.0f} s, {shown} mark at its place; {last}")
    return 0 if took < 60 and shown == 1 and running.returncode == 0 else 1


if __name__ == "__main__":
    sys.exit(main(sys.argv[1]))
