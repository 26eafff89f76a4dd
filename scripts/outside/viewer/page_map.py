#!/usr/bin/python3
"""A small map of nine PNG tiles in a browser, drawn from the page.

    apt-get install chromium python3-pil
    scripts/outside/viewer/page_map.py [PROGRAM] [--browser chromium] [--keep FOLDER]

Nine tiles of one colour each are put into a package, and the page is served. A file of HTML of this script's own shows
them as images whose addresses are the page's. Headless Chromium takes a screenshot, which is compared with the nine
colours at the middle of each tile. Pillow writes and reads the pictures. The last line is 'N passed, M failed'. Exit
status: 0 all passed, 1 something failed, 2 the program isn't there, 77 the browser or Pillow isn't there.
"""

import pathlib
import shutil
import subprocess
import sys

sys.path.insert(0, str(pathlib.Path(__file__).resolve().parents[1] / "lib"))
from checks import end, in_a_folder, new_package, want, words_given  # noqa: E402
from images import COLOURS, SIDE, nine_tiles, pixels_of  # noqa: E402
from viewer_package import served  # noqa: E402
import browsers  # noqa: E402

# How far a colour may be off as the browser shows it.
NEAR = 2


def html(address):
    """A page that shows the nine tiles."""
    images = "".join(
        f'<img style="position:absolute;left:{number % 3 * SIDE}px;top:{number // 3 * SIDE}px" '
        f'src="{address}/tiles/base/0/{number % 3}/{number // 3}">'
        for number in range(9)
    )
    return f'<!doctype html><body style="margin:0;background:#ffffff">{images}</body>'


def take_screenshot(browser, folder):
    """Has a browser keep what it shows of the file map.html as shot.png."""
    how = (
        "--headless=new", "--no-sandbox", "--disable-gpu", "--hide-scrollbars", "--force-device-scale-factor=1",
        f"--user-data-dir={folder / 'profile'}", f"--window-size={3 * SIDE},{3 * SIDE + 200}",
        "--virtual-time-budget=20000", f"--screenshot={folder / 'shot.png'}",
    )  # fmt: skip
    quiet = {"stdout": subprocess.DEVNULL, "stderr": subprocess.DEVNULL}
    subprocess.run([browser, *how, f"file://{folder / 'map.html'}"], check=True, timeout=120, **quiet)


def look(folder, given):
    """Counts the tiles that show their colours, and those that don't."""
    new_package(folder / "a.mmpkg", nine_tiles())
    with served(folder / "a.mmpkg") as address, browsers.held(given.browser):
        (folder / "map.html").write_text(html(address), encoding="utf-8")
        take_screenshot(given.browser, folder)
    rows, failed = pixels_of((folder / "shot.png").read_bytes()), 0
    if given.keep:
        shutil.copy(folder / "shot.png", given.keep)
    for number, colour in enumerate(COLOURS):
        shown = rows[number // 3 * SIDE + SIDE // 2][number % 3 * SIDE + SIDE // 2]
        if max(abs(a - b) for a, b in zip(shown, colour)) > NEAR:
            print(f"tile {number % 3}/{number // 3} shows {shown} for {colour}")
            failed += 1
    return len(COLOURS) - failed, failed


def main():
    given = words_given(__doc__, browser=True)
    want("no map was drawn", f"{given.browser}:{given.browser}")
    end(*in_a_folder(look, given))


if __name__ == "__main__":
    main()
