#!/usr/bin/python3
"""Random days of a crew at the page of 'mmpkg desk': forms, choices, photos, PDF, sound, names, two tabs, kills, an
office.

    apt-get install chromium firefox-esr libjs-leaflet python3-pil
    scripts/outside/days/page_days.py [PROGRAM] [--browser chromium | firefox-esr] [--seed N] [--days N] [--seconds N]
                                      [--day 'STEPS'] [--all]

A day is a list of steps, made from the seed and the day's number. Beside it page_told.py keeps what the crew was told;
behind each step, and in the end, nothing that was shown as standing may be missing or stand twice, nothing that was
saved or typed may be gone, nobody's work overwritten unsaid, and the package is whole. Of a day that went wrong steps
are dropped as long as it goes wrong still, and the shortest is printed, to be gone through again by --day. --days is
how many (8), --seconds when no more are begun. Fixed days come first, and all of them; steps and fixed days that are
known to go wrong are named, and tried with --all. The last line is 'N passed, M failed'. Exit status: 0 all passed, 1
something failed, 2 the program isn't there, 77 the browser or Leaflet isn't there.
"""

import argparse
import json
import pathlib
import random
import sys
import tempfile
import time

sys.path.insert(0, str(pathlib.Path(__file__).resolve().parents[1] / "lib"))
from checks import end, want  # noqa: E402
import browsers  # noqa: E402
from page_day import Day  # noqa: E402
from page_world import STONES, World  # noqa: E402

SHORTEN_SECONDS = 120
# By its name, how often a step is drawn.
STEPS = {
    "new": 10, "change": 12, "type": 8, "save": 8, "leave": 2, "remove": 4, "half_remove": 2, "typed_place": 3,
    "kill": 6, "start": 8, "kill_soon": 4, "hang": 2, "stranger": 5, "kill_browser": 2, "kill_browser_soon": 2,
    "open_tab": 5, "close_tab": 2, "reload": 3, "office_change": 6, "office_new": 1, "office_remove": 2, "keep": 2,
    "replace": 2, "storage": 2, "clock": 2, "pause": 4, "decide": 3, "again": 3, "name": 4, "switch": 2,
    "end": 2,
}  # fmt: skip
# By its name, the steps of a day that went wrong once.
FIXED = {
    "a stranger's lines": [["kill", 0, 0], ["new", 0, 1], ["stranger", 0, 0], ["start", 0, 0]],
    "a stranger's page": [["kill", 0, 0], ["change", 0, 1], ["stranger", 1, 0], ["start", 0, 0]],
    "a stranger's redirect": [["kill", 0, 0], ["new", 0, 1], ["stranger", 2, 0], ["start", 0, 0]],
    "a stranger's empty list": [["kill", 0, 0], ["change", 0, 2], ["stranger", 10, 0], ["start", 0, 0]],
    "a stranger at the end of the day": [["kill", 0, 0], ["stranger", 1, 0], ["end", 0, 0], ["start", 0, 0]],
    "a stranger's oks": [["kill", 0, 0], ["change", 0, 2], ["stranger", 6, 0], ["start", 0, 0]],
    "an end behind an end": [["end", 0, 0], ["typed_place", 0, 0], ["end", 0, 0]],
    "a button armed on another row": [["half_remove", 0, 1]],
    "a place that is typed, and another map": [["typed_place", 0, 0]],
    "two tabs on one row": [["open_tab", 0, 0], ["type", 0, 2], ["change", 1, 2], ["save", 0, 0]],
    "a row that another tab has removed": [["open_tab", 0, 0], ["type", 0, 2], ["remove", 1, 2], ["save", 0, 0]],
    "newer work of the office under an open form": [["type", 0, 2], ["office_change", 0, 2], ["save", 0, 0]],
    "newer work of the office under what waits": [
        ["kill", 0, 0],
        ["change", 0, 2],
        ["office_change", 0, 2],
        ["start", 0, 0],
    ],
    "a photo of a row that is changed once more": [
        ["kill", 0, 0],
        ["change", 0, 10],
        ["office_change", 0, 10],
        ["start", 0, 0],
        ["pause", 1400, 0],
        ["again", 0, 3],
        ["pause", 1400, 0],
        ["reload", 0, 0],
        ["save", 0, 0],
    ],
    "a browser that is killed behind the last step": [["kill_browser_soon", 451, 0]],
    "a removal of what the office has changed": [
        ["kill", 0, 0],
        ["remove", 0, 2],
        ["office_change", 0, 2],
        ["start", 0, 0],
    ],
}
# What is known to go wrong at the page as it stands, and isn't tried but with --all: steps that aren't drawn, and days.
NOT_YET_STEPS = ()
NOT_YET = ()


def steps_of(seed, number, names):
    """The steps of a random day."""
    draw = random.Random(f"{seed} {number}")
    weights = [STEPS[it] for it in names]
    return [
        [name, draw.randrange(10_000), draw.randrange(10_000)]
        for name in draw.choices(names, weights, k=draw.randrange(6, 22))
    ]


def shortest(go, steps, why, seconds=SHORTEN_SECONDS):
    """The shortest of a day's parts that goes wrong still, as far as the seconds go, and why.

    `go` goes through steps, and answers why they went wrong, None where they didn't.
    """
    deadline, part = time.monotonic() + seconds, max(1, len(steps) // 2)
    while part:
        for behind in range(len(steps), 0, -part):
            fewer = steps[: max(0, behind - part)] + steps[behind:]
            found = go(fewer) if time.monotonic() < deadline else None
            if found:
                steps, why = fewer, found
        part //= 2
    return steps, why


def try_day(world, name, steps, shorten=True):
    """Goes through a day, tells of it, and answers whether nothing was wrong."""
    began = time.monotonic()
    day = Day(world)
    why = day.go(steps)
    what = f"{len(steps)} steps, {len(day.told.acts) - STONES} acts, {time.monotonic() - began:.1f} s"
    print(f"page's days: {name}: {'FAILED' if why else 'ok'} ({what})", flush=True)
    if why:
        print(f"    {why}\n    --day '{json.dumps(steps)}'", flush=True)
        if shorten and len(steps) > 1:
            steps, why = shortest(lambda fewer: Day(world).go(fewer), steps, why)
            print(f"    the shortest: {why}\n    --day '{json.dumps(steps)}'", flush=True)
    return not why


def days_of(given):
    """The names and steps of the days to go through."""
    if given.day:
        yield "the day that was given", json.loads(given.day)
        return
    for name, steps in FIXED.items():
        if given.all or name not in NOT_YET:
            yield name, steps
    names = [it for it in STEPS if given.all or it not in NOT_YET_STEPS]
    for number in range(given.days):
        yield f"seed {given.seed}, day {number}", steps_of(given.seed, number, names)


def main():
    parser = argparse.ArgumentParser(description=__doc__, formatter_class=argparse.RawDescriptionHelpFormatter)
    parser.add_argument("--browser", default="chromium")
    parser.add_argument("--seed", type=int, default=1)
    parser.add_argument("--days", type=int, default=8)
    parser.add_argument("--seconds", type=int, default=3600)
    parser.add_argument("--day", metavar="STEPS")
    parser.add_argument("--all", action="store_true")
    given = parser.parse_args()
    want("no day was gone through", *browsers.needs(given.browser))
    if not given.all and not given.day and (NOT_YET or NOT_YET_STEPS):
        print(f"not tried: {', '.join(NOT_YET)}; and days with the steps {', '.join(NOT_YET_STEPS)}", flush=True)
    began, found = time.monotonic(), []
    with tempfile.TemporaryDirectory() as name, browsers.held(given.browser):
        world = World(pathlib.Path(name), given.browser)
        try:
            for title, steps in days_of(given):
                if title not in FIXED and time.monotonic() > began + given.seconds:
                    break
                found.append(try_day(world, title, steps, shorten=title not in FIXED and not given.day))
        finally:
            world.close()
    end(found.count(True), found.count(False))


if __name__ == "__main__":
    main()
