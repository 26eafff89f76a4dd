#!/usr/bin/python3
"""The day of two crews at the page (examples/field_day/by_page.sh): an office's map by GDAL, two crews whose program
and browser are killed again and again, the work that comes home, and GDAL that finds each row at its place.

    apt-get install gdal-bin libjs-leaflet chromium curl python3-pil
    scripts/outside/days/crew_day_check.py [PROGRAM]

Each line is as in examples/field_day/by_page.txt. The last line is 'N passed, M failed'. Exit status: 0 all passed, 1
something failed, 2 the program isn't there, 77 GDAL, Leaflet or Chromium isn't there.
"""

import pathlib
import sys

sys.path.insert(0, str(pathlib.Path(__file__).resolve().parents[1] / "lib"))
from checks import end, expect, in_a_folder, run_checks, want, words_given  # noqa: E402
import browsers  # noqa: E402
from field_day_check import expect_lines, go_through  # noqa: E402

BROWSER = "chromium"
GDAL = ("gdal_translate", "gdaladdo", "gdal_contour", "gdaldem", "gdal_rasterize", "ogrinfo", "ogr2ogr")


def check_a_day_at_the_page(folder):
    with browsers.held(BROWSER):
        status = go_through("by_page.sh", folder)
    expect_lines("by_page.txt", folder)
    expect(status, 0, "the status of the day")


if __name__ == "__main__":
    want("no crew worked at the page", *(f"{it}:gdal-bin" for it in GDAL), *browsers.needs(BROWSER), "curl:curl")
    end(*run_checks("crew's day", globals(), words_given(__doc__).words, in_a_folder))
