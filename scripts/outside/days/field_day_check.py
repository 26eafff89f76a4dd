#!/usr/bin/python3
"""The day of two crews (examples/field_day/run.sh): an office's map by GDAL, two crews whose program is killed again
and again, the work that comes home, and GDAL and a browser that see it.

    apt-get install gdal-bin libjs-leaflet chromium python3-pil
    scripts/outside/days/field_day_check.py [PROGRAM]

Each line that it prints is as in examples/field_day/expected.txt. Where Chromium isn't there the screenshots aren't
looked at. The last line is 'N passed, M failed'. Exit status: 0 all passed, 1 something failed, 2 the program isn't
there, 77 GDAL or Leaflet isn't there.
"""

import collections
import difflib
import pathlib
import shutil
import subprocess
import sys

sys.path.insert(0, str(pathlib.Path(__file__).resolve().parents[1] / "lib"))
from checks import TOP, end, expect, in_a_folder, run_checks, want, words_given  # noqa: E402
import images  # noqa: E402
from browsers import LEAFLET  # noqa: E402

EXAMPLE = TOP / "examples" / "field_day"
GDAL = (
    "gdal_translate", "gdaladdo", "gdal_contour", "gdaldem", "gdalinfo", "gdallocationinfo", "gdal_rasterize",
    "ogrinfo",
)  # fmt: skip
MOST_SECONDS = "900"
# By a crew, the colour of the area that it draws.
COLOURS = {"north": (208, 52, 44), "south": (74, 62, 168)}


def go_through(script, folder):
    """Goes through a day, keeps what it prints as said.txt, and answers its status."""
    with open(folder / "said.txt", "wb") as said:
        command = ["timeout", MOST_SECONDS, EXAMPLE / script, folder / "day"]
        return subprocess.run(command, stdout=said, check=False).returncode


def expect_lines(expected, folder):
    """What a day printed is, line by line, what stands beside it."""
    wanted, said = ((at / name).read_text(encoding="utf-8") for at, name in ((EXAMPLE, expected), (folder, "said.txt")))
    differ = list(difflib.unified_diff(wanted.splitlines(), said.splitlines(), expected, "said", lineterm=""))
    print(*differ, sep="\n", end="\n" if differ else "")
    assert wanted == said, f"not as in {expected}"


def check_a_day_from_its_morning_to_its_evening(folder):
    expect(go_through("run.sh", folder), 0, "the status of the day")


def check_each_line_is_as_expected(folder):
    expect_lines("expected.txt", folder)


def check_both_crews_are_seen_in_the_browser(folder):
    """The browser shows a crew's colour behind its work, and not before."""
    before, after = (
        collections.Counter(pixel for row in images.pixels_of((folder / "day" / name).read_bytes()) for pixel in row)
        for name in ("before.png", "after.png")
    )
    for crew, colour in COLOURS.items():
        print(f"    {crew}: {before[colour]} pixels before, {after[colour]} after")
        assert before[colour] == 0 and after[colour] >= 100, crew


def main():
    given = words_given(__doc__)
    want("no crew went out", *(f"{it}:gdal-bin" for it in GDAL), LEAFLET)
    checks = dict(globals())
    if not shutil.which("chromium"):
        print("the browser didn't look: apt-get install chromium")
        del checks["check_both_crews_are_seen_in_the_browser"]
    end(*in_a_folder(lambda folder: run_checks("day", checks, given.words, lambda check: check(folder))))


if __name__ == "__main__":
    main()
