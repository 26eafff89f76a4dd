#!/usr/bin/env python3
"""Writes the manual pages and the Debian changelog of the package, from what the programs and CHANGELOG.md say.

    packaging/documents.py program COMMAND PROGRAM VERSION OTHER..
    packaging/documents.py tool COMMAND SCRIPT VERSION OTHER..
    packaging/documents.py changelog MAINTAINER VERSION

The page of the program is of its help and that of its subcommands, that of a tool of what it says by --help, and the
changelog of CHANGELOG.md, its last entry of the package's VERSION and the moment that SOURCE_DATE_EPOCH tells. OTHER is
another command that has a page.

The text goes to standard output.
"""

import datetime
import email.utils
import os
import pathlib
import re
import subprocess
import sys
import textwrap

CHANGELOG = pathlib.Path(__file__).resolve().parent.parent / "CHANGELOG.md"
VERSION = re.compile(r"## (\d+(?:\.\d+)+) \((\d{4})-(\d\d)-(\d\d)\)")


def said_by(*words):
    """What a command prints, in the width that is asked for."""
    environment = {**os.environ, "COLUMNS": "200", "LC_ALL": "C.UTF-8"}
    return subprocess.run(words, env=environment, stdout=subprocess.PIPE, check=True).stdout.decode()


def escaped(line):
    """A line as a page spells it."""
    text = line.replace("\\", "\\e").replace("-", "\\-")
    return f"\\&{text}" if text.startswith((".", "'")) else text


def as_it_is(text):
    """The lines of a text whose lines are kept."""
    return [".nf", *map(escaped, text.strip("\n").splitlines()), ".fi"]


def running(text):
    """The lines of a text by its paragraphs, of which those are kept as they are that are set in."""
    for paragraph in text.strip("\n").split("\n\n"):
        yield ".PP"
        is_set_in = re.search("^ ", paragraph, re.MULTILINE)
        yield from as_it_is(paragraph) if is_set_in else map(escaped, paragraph.splitlines())


def head(command, version, summary):
    """The head of a page, up to its name."""
    name = f"{command} - {summary[0].lower()}{summary[1:].rstrip('.')}"
    return [f'.TH {command.upper()} 1 "" "mmpkg {version}" "mmpkg"', ".SH NAME", escaped(name)]


def foot(others):
    """The end of a page."""
    pages = (f".BR {escaped(other)} (1)," for other in others)
    return [".SH SEE ALSO", *pages, "and the documents in /usr/share/doc/mmpkg."]


def page_of_program(command, program, version, *others):
    told = said_by(program, "--help")
    summary, rest = told.split("\n", 1)
    commands = re.findall(r"^  (\w+) +\w", rest.split("Options:")[0], re.MULTILINE)
    yield from head(command, version, summary)
    yield from (".SH SYNOPSIS", f".B {command}", ".I COMMAND", ".SH DESCRIPTION", *as_it_is(rest))
    for name in commands:
        if name != "help":
            yield from (f".SH {command.upper()} {name.upper()}", *as_it_is(said_by(program, "help", name)))
    yield from foot(others)


def page_of_tool(command, script, version, *others):
    told = said_by(sys.executable, "-B", script, "--help").replace(f"tools/{pathlib.Path(script).name}", command)
    told = told.replace("tools/fill.py", "mmpkg-fill")
    told = re.sub(r"out/mmpkg\s+of\s+this\s+repository,\s+else\s+", "", told)
    summary, usage, *rest = told.strip("\n").split("\n\n")
    yield from head(command, version, summary)
    usage = re.sub("^    ", "", usage, flags=re.MULTILINE)
    yield from (".SH SYNOPSIS", *as_it_is(usage), ".SH DESCRIPTION", *running("\n\n".join(rest)))
    yield from foot(others)


def entries():
    """The versions of CHANGELOG.md, each with its day and its changes."""
    for section in re.split(r"^(?=## )", CHANGELOG.read_text(encoding="utf-8"), flags=re.MULTILINE)[1:]:
        first, *lines = section.rstrip().splitlines()
        version, *day = VERSION.fullmatch(first).groups()
        changes = re.split(r"^- ", "\n".join(lines), flags=re.MULTILINE)[1:]
        yield version, datetime.datetime(*map(int, day), 12, tzinfo=datetime.timezone.utc), changes


def changelog(maintainer, last):
    built = datetime.datetime.fromtimestamp(int(os.environ["SOURCE_DATE_EPOCH"]), datetime.timezone.utc)
    for number, (version, day, changes) in enumerate(entries()):
        version, day = (last, built) if number == 0 else (version, day)
        yield f"mmpkg ({version}) unstable; urgency=medium\n"
        for change in changes:
            yield textwrap.fill(" ".join(change.split()), 78, initial_indent="  * ", subsequent_indent="    ")
        yield f"\n -- {maintainer}  {email.utils.format_datetime(day)}\n"


def main():
    kinds = {"program": page_of_program, "tool": page_of_tool, "changelog": changelog}
    if len(sys.argv) < 3 or sys.argv[1] not in kinds:
        print(__doc__, end="")
        return 2
    sys.stdout.reconfigure(encoding="utf-8")
    print("\n".join(kinds[sys.argv[1]](*sys.argv[2:])))
    return 0


if __name__ == "__main__":
    sys.exit(main())
