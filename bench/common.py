"""What the benches share: the words of their command lines, the packages that they make, commands timed one by one,
and the two sides.

The sides are mmpkg and bench/native.c, which does the same in C over the system's SQLite, once with SHA-256 and once
without. Each is a list of words that 'run' or 'kit' and its words follow, so that both are run alike. What is compared
is processor seconds, which the machine's other work and its disk change least.
"""

import argparse
import os
import pathlib
import shutil
import socket
import subprocess
import threading
import time

import native

PROGRAM = pathlib.Path(__file__).resolve().parent.parent / "out" / "mmpkg"


def words_of(bench, **numbers):
    """The words of a bench, whose documentation is its help: the program, the folder, and numbers, each by its default
    and what it counts."""
    words = argparse.ArgumentParser(description=bench, formatter_class=argparse.RawDescriptionHelpFormatter)
    words.add_argument("--program", default=str(PROGRAM), help="the program (default: out/mmpkg)")
    words.add_argument("--folder", help="where the files are made (default: the system's folder for such)")
    for name, (default, what) in numbers.items():
        words.add_argument(f"--{name}", type=int, default=default, help=f"{what} (default: {default})")
    return words.parse_args()


def layout(side):
    """The records of a pyramid with one matrix, of so many tiles each way."""
    edge = side * 256 * 1_000_000
    return f"""srs,25832,ETRS89 / UTM zone 32N,EPSG,25832,projected metres,
pyramid,base,Base map,25832,0,0,{edge},{edge},two
matrix,base,0,{side},{side},256,256,1000000,1000000
"""


def make_package(program, file, records=""):
    """Makes a package in a new file, with these records in it."""
    subprocess.run([program, "init", file], check=True, stdout=subprocess.DEVNULL)
    if records:
        subprocess.run(
            [program, "run", file, "--at", "0"], input=records.encode(), check=True, stdout=subprocess.DEVNULL
        )


def free_port():
    """A port that is free now."""
    with socket.create_server(("127.0.0.1", 0)) as listener:
        return listener.getsockname()[1]


class Run:
    """A run that is sent records one by one, each when the last has been answered."""

    def __init__(self, program, file):
        self.process = subprocess.Popen(
            [program, "run", file, "--at", "0"], stdin=subprocess.PIPE, stdout=subprocess.PIPE
        )

    def __enter__(self):
        return self

    def __exit__(self, *_):
        self.process.stdin.close()
        self.process.stdout.close()
        self.process.wait()

    def seconds_of(self, record):
        """The seconds until a record is answered, which has to be accepted."""
        begin = time.perf_counter()
        self.process.stdin.write(record.encode() + b"\n")
        self.process.stdin.flush()
        answer = self.process.stdout.readline()
        seconds = time.perf_counter() - begin
        if not answer.endswith(b" ok\n"):
            raise SystemExit(f"{record}: {answer.decode()}")
        return seconds


def times_by_kind(program, file, records):
    """The seconds of each record under its kind."""
    times = {}
    with Run(program, file) as run:
        for record, kind in records:
            times.setdefault(kind, []).append(run.seconds_of(record))
    return times


def sides(program):
    """The words that each side's command lines begin with."""
    return {"mmpkg": [program], "C": [native.built()], "C without SHA-256": [native.built(), "--plain"]}


def make_packages(program, folder, records=""):
    """Makes a package with these records for each side, equal files, and returns their paths by the sides."""
    files = {side: os.path.join(folder, f"{number}.mmpkg") for number, side in enumerate(sides(program))}
    first = files["mmpkg"]
    make_package(program, first, records)
    for file in files.values():
        if file != first:
            shutil.copyfile(first, file)
    return files


def seconds_of_waiting(process):
    """The processor seconds that a process has taken, once it waits for more of its input."""
    state = pathlib.Path(f"/proc/{process.pid}/stat")
    while state.read_text().rpartition(")")[2].split()[0] != "S":
        time.sleep(0.001)
    return int(pathlib.Path(f"/proc/{process.pid}/schedstat").read_text().split()[0]) / 1e9


def answer_of(run):
    """The next answer of a run, which has to accept its record."""
    line = run.stdout.readline()
    if not line.endswith(b" ok\n"):
        raise SystemExit(f"{' '.join(run.args)}: {line.decode()}")


def send(records, taker):
    """Sends the rest of a list to a run, which goes on waiting behind it."""
    shutil.copyfileobj(records, taker, 1 << 20)
    taker.flush()


def seconds_of_records(side, file, path):
    """The processor seconds, and those of the clock, of all records of a list but the first; so opening and closing are
    in neither."""
    with open(path, "rb") as records:
        more = sum(1 for _ in records) - 1
        records.seek(0)
        with subprocess.Popen([*side, "run", file, "--at", "0"], stdin=subprocess.PIPE, stdout=subprocess.PIPE) as run:
            run.stdin.write(records.readline())
            run.stdin.flush()
            answer_of(run)
            before, begin = seconds_of_waiting(run), time.perf_counter()
            sender = threading.Thread(target=send, args=(records, run.stdin))
            sender.start()
            for _ in range(more):
                answer_of(run)
                last = time.perf_counter()
            sender.join()
            return seconds_of_waiting(run) - before, last - begin


def seconds_of_command(words, records=os.devnull):
    """The processor seconds of a whole command that succeeds, and what it printed."""
    with open(records, "rb") as given, subprocess.Popen(words, stdin=given, stdout=subprocess.PIPE) as run:
        told = run.stdout.read().decode()
        _, status, taken = os.wait4(run.pid, 0)
        run.returncode = os.waitstatus_to_exitcode(status)
    if run.returncode != 0:
        raise SystemExit(f"{' '.join(words)}: {told[:400]}")
    return taken.ru_utime + taken.ru_stime, told


def tell_costs(what, costs):
    """Prints what a record costs each side in microseconds of a processor, the least of each, and mmpkg's by that of
    the others."""
    least = {side: min(each) for side, each in costs.items()}
    print(f"{what}: " + ", ".join(f"{side} {1e6 * cost:.0f} us" for side, cost in least.items()))
    print(f"= {what}: " + " / ".join(f"{least['mmpkg'] / cost:.2f}" for side, cost in least.items() if side != "mmpkg"))


def tell_figure(what, figure, unit=""):
    """Prints a figure of the table in bench/README.md, which bench/all.sh gathers."""
    print(f"= {what}: {figure:.2f}{unit}")
