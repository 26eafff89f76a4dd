#!/usr/bin/python3
"""README's two commands, one behind the other in one clone: what a build leaves beside the tree, however it ends.

    scripts/outside/tree/build_check.py [WORD ..]

A tree of three small crates gets the scripts of this one, and an `rt` that proves nothing: it takes its time, keeps
what the toolchain's keeps, and refuses at the gate a list of crates below the top, as the toolchain's does. The last
line is 'N passed, M failed'. With words only the checks whose names have one of them.
"""
import contextlib
import os
import pathlib
import shutil
import signal
import subprocess
import sys
import time

sys.path.insert(0, str(pathlib.Path(__file__).resolve().parents[1] / "lib"))
from checks import TOP, end, expect, in_a_folder, run_checks, words_given  # noqa: E402

CRATES = {"low": "", "high": "low", "mm_cli": "low high"}
SCRIPTS = (".ci/run", "scripts/build.sh", "scripts/prove.py")
# What of the gate is no toolchain's passes here.
OTHERS = ("scripts/cases.sh", "scripts/outside.sh")
# How long a proof takes, in seconds, where one is to be met on its way.
SLOW = 30

RT = f"""#!{sys.executable}
import os, pathlib, sys, time
here, said = pathlib.Path.cwd(), os.environ["RT_SAID"]
if sys.argv[1] == "ci":
    lost = [it for it in here.rglob("crates.txt") if it.parent != here]
    print(*lost, "0 passed, 1 failed" if lost else "1 passed, 0 failed", sep="\\n")
    sys.exit(2 if lost else 0)
out = here / "out"
(out / "incremental").mkdir(parents=True, exist_ok=True)
with open(said, "a") as it:
    it.write(f"{{here.name}}{{' goes on' if (out / 'incremental' / 'begun').exists() else ''}}\\n")
(out / "incremental" / "begun").touch()
if here.name == os.environ.get("RT_FAILS"):
    sys.exit("a goal is open")
time.sleep(float(os.environ.get("RT_SECONDS", 0)))
if sys.argv[1] == "run":
    (out / here.name).write_text("built")
elif not (out / "rlib").exists():
    (out / "rlib").mkdir()
    (out / "rlib" / "stamp").write_text(here.name)
"""


class Tree:
    """A clone with three crates, and the toolchain that stands in for ours."""

    def __init__(self, folder):
        self.top, self.said = folder / "clone", folder / "said"
        for name in SCRIPTS:
            (self.top / name).parent.mkdir(parents=True, exist_ok=True)
            shutil.copy(TOP / name, self.top / name)
        for name in OTHERS:
            (self.top / name).write_text("#!/bin/sh\necho 1 passed, 0 failed\n")
            (self.top / name).chmod(0o755)
        for name in CRATES:
            (self.top / "crates" / name / "src").mkdir(parents=True)
            (self.top / "crates" / name / "src" / "lib.rt").write_text(f"//! {name}\n")
        (self.top / "crates.txt").write_text("".join(f"{name}: {below}\n" for name, below in CRATES.items()))
        (self.top / "HANDLES").write_text("Handles allowed: Net.\n")
        (folder / "bin").mkdir()
        (folder / "bin" / "rt").write_text(RT)
        (folder / "bin" / "rt").chmod(0o755)
        self.words = {**os.environ, "PATH": f"{folder / 'bin'}:{os.environ['PATH']}", "RT_SAID": str(self.said)}

    def begin(self, script, **words):
        """Begins a script in a session of its own."""
        return subprocess.Popen(
            [self.top / script],
            env={**self.words, **words},
            text=True,
            start_new_session=True,
            stdin=subprocess.DEVNULL,
            stdout=subprocess.PIPE,
            stderr=subprocess.STDOUT,
        )

    def run(self, script, status=0, **words):
        """Runs a script to its end, and answers what it said."""
        begun = self.begin(script, **words)
        said, _ = begun.communicate(timeout=60)
        expect(begun.returncode, status, f"the status of {script}, which said: {said}")
        return said

    def lists(self):
        """The lists of crates below the top."""
        return [str(it.relative_to(self.top)) for it in self.top.rglob("crates.txt") if it.parent != self.top]

    def told(self):
        """Which crates were begun, and of which the work went on."""
        return self.said.read_text().splitlines() if self.said.exists() else []

    def processes(self, word):
        """The processes of this tree whose command has a word."""
        found = []
        for it in pathlib.Path("/proc").glob("[0-9]*"):
            with contextlib.suppress(OSError):
                if os.readlink(it / "cwd").startswith(str(self.top)) or str(self.top) in (it / "cmdline").read_text():
                    found += [int(it.name)] if word in (it / "cmdline").read_text() else []
        return found


def until(seen, what):
    """Waits until something is so."""
    for _ in range(1200):
        if seen():
            return
        time.sleep(0.05)
    raise AssertionError(f"waited in vain: {what}")


@contextlib.contextmanager
def met_on_its_way(tree):
    """A build whose first proof has begun."""
    begun = tree.begin("scripts/build.sh", RT_SECONDS=str(SLOW))
    until(lambda: tree.told() == ["low"], "the first crate is begun")
    try:
        yield begun
    finally:
        begun.communicate(timeout=60)
        until(lambda: not tree.processes("rt"), "nothing of the build runs any more")


def expect_goes_on(tree):
    """The next build goes on with what was begun, and leaves nothing."""
    expect(tree.run("scripts/build.sh").splitlines()[-1], "built out/mmpkg (0 minutes)", "the last line")
    expect(tree.told(), ["low", "low goes on", "high", "mm_cli"], "what was begun")
    expect(tree.lists(), [], "lists of crates behind the next build")


def check_both_commands_in_one_clone(tree):
    tree.run("scripts/build.sh")
    expect(tree.lists(), [], "lists of crates behind the build")
    expect(tree.run(".ci/run").splitlines()[-1], "3 passed, 0 failed", "the gate's last line")


def check_a_second_build_proves_nothing_anew(tree):
    tree.run("scripts/build.sh")
    tree.run("scripts/build.sh")
    expect(tree.told()[3:], ["low goes on", "high goes on", "mm_cli goes on"], "what the second build began")


def check_a_crate_that_is_refused(tree):
    expect(
        tree.run("scripts/build.sh", 1, RT_FAILS="high").splitlines()[-1],
        "mmpkg was not built: out/build.log has more",
        "the last line",
    )
    expect(tree.lists(), [], "lists of crates")


def check_an_interrupt_from_the_keys(tree):
    with met_on_its_way(tree) as begun:
        os.killpg(begun.pid, signal.SIGINT)
    expect(tree.lists(), [], "lists of crates")
    expect_goes_on(tree)


def check_an_end_that_is_asked_of_the_script(tree):
    with met_on_its_way(tree) as begun:
        begun.terminate()
    until(lambda: not tree.lists(), "what the build needs is gone")
    expect_goes_on(tree)


def check_a_script_that_is_killed(tree):
    with met_on_its_way(tree) as begun:
        begun.kill()
    until(lambda: not tree.lists(), "what the build needs is gone")
    expect_goes_on(tree)


def check_a_prover_that_is_killed(tree):
    with met_on_its_way(tree):
        for it in tree.processes("prove.py"):
            os.kill(it, signal.SIGKILL)
    assert tree.lists(), "a killed one leaves its rooms"
    expect_goes_on(tree)


def check_the_gate_behind_a_prover_that_is_killed(tree):
    with met_on_its_way(tree):
        for it in tree.processes("prove.py"):
            os.kill(it, signal.SIGKILL)
    expect(tree.run(".ci/run").splitlines()[-1], "3 passed, 0 failed", "the gate's last line")
    expect(tree.lists(), [], "lists of crates")


def check_a_second_build_waits_for_the_first(tree):
    first = tree.begin("scripts/build.sh", RT_SECONDS="1")
    until(lambda: tree.told() == ["low"], "the first crate is begun")
    tree.run("scripts/build.sh")
    expect(first.wait(), 0, "the first build's status")
    expect(tree.lists(), [], "lists of crates")


def in_a_new_tree(check):
    """Does a check in a tree of its own."""
    in_a_folder(lambda folder: check(Tree(folder)))


if __name__ == "__main__":
    end(*run_checks("build", globals(), words_given(__doc__).words, in_a_new_tree))
