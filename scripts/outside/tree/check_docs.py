#!/usr/bin/python3
"""Compares the documents with what they speak of.

    scripts/outside/tree/check_docs.py [PROGRAM] [--tours]     the last line is 'N passed, M failed'

Each line ' $ COMMAND' of README.md and docs/USING.md is run in turn, in a new folder with the examples, and must print
the lines that stand below it; 'cat' of a file that is not there makes it of them. Each edit of must-fail/ and each
mutant names a contract of docs/PROOFS.md; each name in backticks of any document that looks like one of the code stands
in some crate, script or transcript. Each line of cases/README.md names what shows its behaviour: a transcript, a test,
an edit, a mutant or a script that there is, or behind 'proved:' a name of docs/PROOFS.md. Each text of docs/NUMBERS.md
is what the program explains by its number, whole, and each number of docs/FORMATS.md has one. Each example in the head
of a crate stands word for word among the tests. With --tours the commands alone are run.
"""

import os
import pathlib
import re
import subprocess
import sys
import tempfile

sys.path.insert(0, str(pathlib.Path(__file__).resolve().parents[1] / "lib"))
from checks import PROGRAM, TOP, end, held_port, want  # noqa: E402

TOURS = "README.md", "docs/USING.md"
PROMISES = "docs/PROOFS.md"
FORMATS, NUMBERS = "docs/FORMATS.md", "docs/NUMBERS.md"
SHOWN = "cases/README.md"
TESTED = "crates/mm_test_sessions/src/examples.rt"
PORTS = "8090", "8080"
# What the tours run in; their tools find the program by themselves.
ENVIRONMENT = dict(os.environ)
# What the system names, and what stands behind a name that a tool makes: a number, or the word of a mark.
ELSEWHERE = {"sched_autogroup_enabled"}
NUMBERED = re.compile(r"(_\d+|_MARK\w*)+$")
SPOKEN_OF = (".rt", ".antt", ".edit", ".py", ".sh", ".case", ".steps")


def text_of(path):
    with open(path, encoding="utf-8") as it:
        return it.read()


def steps_of(text):
    """Yields each command of a tour with the lines below it, which may be empty within."""
    command, lines = None, []
    for line in text.splitlines() + ["end"]:
        if line.startswith("    $ "):
            if command:
                yield command, lines
            command, lines = line[6:], []
        elif line.startswith("    ") and command:
            lines.append(line[4:])
        elif line and command:
            yield command, lines
            command, lines = None, []


class Tour:
    """A folder in which the commands of a document are run."""

    def __init__(self, folder):
        self.folder = folder
        self.held = {it: held_port() for it in PORTS}
        self.ports = {it: str(held.getsockname()[1]) for it, held in self.held.items()}
        self.served = []
        os.makedirs(f"{folder}/bin")
        os.symlink(PROGRAM, f"{folder}/bin/mmpkg")
        for name in "examples", "scripts", "tools":
            os.symlink(f"{TOP}/{name}", f"{folder}/{name}")
        with open(f"{folder}/notes.mmpkg", "w", encoding="utf-8") as it:
            it.write("some notes")
        # Python writes nothing beside the tools, which may be a package's.
        more = {"PATH": f"{folder}/bin:{os.environ['PATH']}", "LC_ALL": "C.UTF-8", "PYTHONDONTWRITEBYTECODE": "1"}
        self.environment = ENVIRONMENT | more

    def start(self, command):
        """Starts a command that goes on behind the next, and returns the first line that it prints."""
        ran = subprocess.Popen(
            "exec " + command.rstrip("& "),
            shell=True,
            cwd=self.folder,
            env=self.environment,
            stdout=subprocess.PIPE,
            text=True,
        )
        self.served.append(ran)
        return ran.stdout.readline()

    def run(self, command):
        command = re.sub("|".join(self.ports), lambda it: self.ports[it[0]], command)
        if command.endswith("&"):
            said = self.start(command)
        else:
            how = {"shell": True, "cwd": self.folder, "env": self.environment, "timeout": 600, "text": True}
            said = subprocess.run(command, stdout=subprocess.PIPE, stderr=subprocess.STDOUT, check=False, **how).stdout
        told = {port: it for it, port in self.ports.items()}
        said = re.sub("|".join(told), lambda it: told[it[0]], said)
        return [line.rstrip() for line in said.replace("\r", "").splitlines()]

    def step(self, command, lines):
        """Runs a command, and returns whether it prints the lines."""
        made = re.fullmatch(r"cat (\S+)", command)
        if made and not os.path.exists(f"{self.folder}/{made[1]}"):
            with open(f"{self.folder}/{made[1]}", "w", encoding="utf-8") as it:
                it.writelines(f"{line}\n" for line in lines)
            return True
        wanted = [line.rstrip() for line in lines]
        said = self.run(command)
        while said and not said[-1]:
            said.pop()
        if said != wanted:
            print(f"$ {command}", *said, "but the document has", *wanted, sep="\n  ")
        return said == wanted

    def end(self):
        for ran in self.served:
            ran.kill()
            ran.wait()


def tour_fits(path):
    """Returns whether each command of a document prints what stands below it."""
    with tempfile.TemporaryDirectory(prefix="mmpkg-docs-") as folder:
        tour = Tour(folder)
        try:
            fits = all([tour.step(command, lines) for command, lines in steps_of(text_of(path))])
        finally:
            tour.end()
    return fits


def explained():
    """Returns by each heading of the page of numbers the text below it."""
    parts = re.split(r"^### (.*)$", text_of(NUMBERS), flags=re.MULTILINE)[1:]
    below = [re.split(r"^## ", it, maxsplit=1, flags=re.MULTILINE)[0] for it in parts[1::2]]
    return {
        head: re.sub(r"^    ", "", it.strip("\n"), flags=re.MULTILINE) + "\n" for head, it in zip(parts[::2], below)
    }


def numbers_of_formats():
    """Returns the heading of each number and each rule that the formats name."""
    answers = text_of(FORMATS).partition("**Refusals:**")[2].partition("\n## ")[0]
    refusals, faults, openings = re.split(r"^\*\*(?:Faults:|Openings\.)\*\*", answers, flags=re.MULTILINE)
    named = {f"refused {it}" for it in re.findall(r"\| (\d\d) (?=\|)", refusals)}
    named |= {f"fault {it}" for it in re.findall(r"^\| (\d\d) \|", faults, re.MULTILINE)}
    named |= {f"not a package {it}" for it in re.findall(r"^\| (\d\d) \|", openings, re.MULTILINE)}
    return named | {f"rule Q{k}" for k in range(1, 17)} | {"not empty"}


def numbers_are_explained():
    """Returns whether each number and rule has its text, and the program explains it by just that."""
    texts, named = explained(), numbers_of_formats()
    for it in sorted(named ^ set(texts)):
        print(f"{it}: it stands in one of {FORMATS} and {NUMBERS} alone")
    wrong = [head for head, text in texts.items() if text != explanation(head)]
    for it in wrong:
        print(f"{NUMBERS}: the program has another text for {it}")
    return not wrong and named == set(texts)


def explanation(head):
    """Returns what the program explains by the words of a heading."""
    said = subprocess.run([PROGRAM, "explain", *head.split()], stdout=subprocess.PIPE, check=False)
    return said.stdout.decode()


def spoken_of():
    """Returns all words of the code, and the names of its files."""
    words = set()
    for top in "crates", "scripts", "tools", "cases", "examples", "bench":
        for below, folders, files in os.walk(top):
            folders[:] = [it for it in folders if it != "out"]
            words.update(folders)
            for name in files:
                words.update((name, name.split(".")[0]))
                if name.endswith(SPOKEN_OF):
                    words.update(re.findall(r"\w+", text_of(f"{below}/{name}")))
    return words


def wrong_bodies_name_contracts():
    """Returns whether each edit and each mutant names, in its first line, a contract of the page of promises."""
    promised = set(re.findall(r"\w+", " ".join(re.findall(r"`([^`]+)`", text_of(PROMISES)))))
    there = [it for kind in ("must-fail", "mutants") for it in pathlib.Path("crates").glob(f"*/{kind}/*.edit")]
    wrong = []
    for it in sorted(there):
        named = re.match(r"# contract: ([\w:]+)\n", text_of(it))
        if not named or not set(named[1].split("::")) <= promised:
            print(f"{it}: its first line names no contract of {PROMISES}: '# contract: NAME'")
            wrong.append(it)
    return bool(there) and not wrong


def names_stand(path, words):
    """Returns whether each name of a document that looks like one of the code stands somewhere."""
    named = {
        it
        for them in re.findall(r"`([^`\n]+)`", text_of(path))
        for it in re.findall(r"[A-Za-z]\w*_\w+|Is[A-Z]\w+", them)
    }
    missing = sorted(it for it in named - ELSEWHERE if not {it, NUMBERED.sub("", it)} & words)
    for it in missing:
        print(f"{path} names {it}, which stands nowhere")
    return not missing


def all_names_stand():
    """Returns whether the names of all documents stand somewhere."""
    words, documents = spoken_of(), [
        "README.md",
        "CHANGELOG.md",
        *sorted(str(it) for it in pathlib.Path().glob("*/*.md") if it.parts[0] != "wip"),
    ]
    answers = [names_stand(it, words) for it in documents]
    return all(answers) and PROMISES in documents


def what_shows():
    """Returns the names of all transcripts, tests, edits, mutants and scripts."""
    here = pathlib.Path()
    files = [*here.glob("cases/*.case"), *here.glob("crates/*/must-fail/*.edit"), *here.glob("crates/*/mutants/*.edit")]
    tests = [
        it
        for path in here.glob("crates/mm_test_*/src/*.rt")
        for it in re.findall(r"#\[test\]\s+fn (\w+)", path.read_text(encoding="utf-8"))
    ]
    return {it.stem for it in files} | {it.name for it in here.glob("scripts/**/*.*")} | set(tests)


def wrong_of(behaviour, cell, there, promised):
    """Yields what is wrong with a line of the table of behaviours."""
    shown, proved = (
        re.findall(r"`([^`]+)`", it) for it in (cell.partition("proved:")[0], cell.partition("proved:")[2])
    )
    if not shown and not proved:
        yield f"nothing shows: {behaviour}"
    for it in [*(set(shown) - there), *(set(proved) - promised)]:
        yield f"there is no {it} to show: {behaviour}"


def behaviours_are_shown():
    """Returns whether each line of the table names what shows its behaviour, by names that there are."""
    there, promised = what_shows(), set(re.findall(r"\w+", text_of(PROMISES)))
    lines = re.findall(r"^\| (?!behaviour \|)(.*) \|(.*)\|$", text_of(SHOWN), re.MULTILINE)
    wrong = [it for behaviour, cell in lines for it in wrong_of(behaviour, cell, there, promised)]
    for it in wrong:
        print(f"{SHOWN}: {it}")
    return not wrong and bool(lines)


def examples_are_tested():
    """Returns whether each example in the head of a crate stands among the tests, and whether there is any."""
    tested, answers = text_of(TESTED), []
    for path in sorted(pathlib.Path().glob("crates/*/src/lib.rt")):
        for block in re.findall(r"^//! ```rust\n(.*?)^//! ```$", text_of(path), re.MULTILINE | re.DOTALL):
            answers.append(
                "".join(line[4:].rstrip() + "\n" if len(line) > 4 else "\n" for line in block.splitlines()) in tested
            )
            if not answers[-1]:
                print(f"{TESTED} does not have the example of {path}")
    return all(answers) and bool(answers)


def main():
    os.chdir(TOP)
    want("no document was looked through")
    answers = [tour_fits(path) for path in TOURS]
    if "--tours" not in sys.argv:
        answers += [
            numbers_are_explained(),
            wrong_bodies_name_contracts(),
            all_names_stand(),
            behaviours_are_shown(),
            examples_are_tested(),
        ]
    end(answers.count(True), answers.count(False))


if __name__ == "__main__":
    main()
