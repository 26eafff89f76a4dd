#!/usr/bin/env python3
"""Writes the tables of bench/README.md from what the benches printed: the figures on a disk in memory, those on a
real disk, and what each command costs as a package grows. A figure with two numbers is beside C with SHA-256 /
without.

    bench/write_table.py MEMORY DISK SCALE
"""

import os
import pathlib
import re
import sys

README = pathlib.Path(__file__).resolve().parent / "README.md"


def figures(path):
    """The figures that the benches printed, each under what it is of."""
    lines = pathlib.Path(path).read_text().splitlines()
    return dict(line[2:].rsplit(": ", 1) for line in lines if line.startswith("= "))


def machine():
    """What kind of machine this is."""
    told = pathlib.Path("/proc/cpuinfo").read_text()
    kind = "virtual machine" if re.search(r"^flags\b.*\bhypervisor\b", told, re.MULTILINE) else "machine"
    model = re.search(r"^model name\s*: (.*)", told, re.MULTILINE)[1]
    return f"{kind}, {os.cpu_count()} processors, {model}"


def table(memory, disk):
    """The lines of the table of both disks."""
    yield f"| {machine()} | disk in memory | real disk |"
    yield "|---|---|---|"
    for what, figure in memory.items():
        yield f"| {what} | {figure} | {disk[what]} |"


def put(text, name, lines):
    """The text with these lines between the two marks of a name."""
    begin, end = f"<!-- {name} -->", f"<!-- end of {name} -->"
    return re.sub(f"{begin}\n.*?{end}", lambda _: "\n".join((begin, *lines, end)), text, count=1, flags=re.DOTALL)


def main():
    memory, disk, scale = sys.argv[1:]
    text = put(README.read_text(), "figures", table(figures(memory), figures(disk)))
    README.write_text(put(text, "scale", pathlib.Path(scale).read_text().splitlines()))


if __name__ == "__main__":
    main()
