#!/usr/bin/python3
"""A power cut on a real file system: a virtual machine runs `mmpkg run` on a list and is killed at a random moment; it
boots again, the file system replays, and `mmpkg check` is `package ok`.

    apt-get install qemu-system-x86 busybox-static e2fsprogs dosfstools mtools cpio kmod
    scripts/outside/program/power_cut_check.py [PROGRAM] [--cuts N] [--seed N]

Each cut has a list of its own; the answers that came before it are those of a model in plain Python, and the tables of
the file are those of the model's package behind the last answered command, or behind the one after it. Without --cuts
there are ten: seven on ext4, three on vfat. The kernel is Debian's, taken out of its package and not installed. The
last line is 'N passed, M failed'. Exit status: 0 all passed, 1 something failed, 2 the program isn't there, 77 qemu or
the kernel can't be had.
"""

import itertools
import os
import pathlib
import random
import re
import shutil
import sqlite3
import subprocess
import sys
import time

sys.path.insert(0, str(pathlib.Path(__file__).resolve().parents[1] / "lib"))
from checks import PROGRAM, end, expect, in_a_folder, mmpkg, run, want, words_given  # noqa: E402
from package_model import Package  # noqa: E402
from package_records import Refused, read_command, records  # noqa: E402
from package_views import query_of, table_rows  # noqa: E402
from random_records import OPENING, Author  # noqa: E402

# How many records a list has, how long the machine may boot, and at most how long behind the first answer the power is
# cut, in seconds.
RECORDS, BOOT, LONGEST_CUT = 6000, 600, 7.0
NEEDS = (
    "qemu-system-x86_64:qemu-system-x86", "busybox:busybox-static", "mkfs.ext4:e2fsprogs", "debugfs:e2fsprogs",
    "mkfs.vfat:dosfstools", "mcopy:mtools", "cpio:cpio", "modprobe:kmod",
)  # fmt: skip
MOMENT = 951868800000
DISK_BYTES = 128 << 20
FILE = "p.mmpkg"
# An answer line; the kernel's own messages may stand between them.
ANSWER = re.compile(rb"^(\d+) (ok|refused [\d a-z]+|fault \d+)\r?$")
MODULES = {"ext4": ["ext4"], "vfat": ["vfat", "nls_cp437", "nls_ascii"]}
INIT = """#!/bin/busybox sh
/bin/busybox mount -t proc proc /proc
/bin/busybox mount -t devtmpfs dev /dev
for word in $(/bin/busybox cat /proc/cmdline); do case $word in mm_*) eval "$word" ;; esac; done
for module in $(/bin/busybox cat /modules); do /bin/busybox insmod "/lib/modules/$module"; done
/bin/busybox mount -t "$mm_system" $mm_options /dev/vda /m
echo mm_ready
if [ "$mm_do" = run ]; then
    /bin/busybox head -c "$mm_length" /dev/vdb | /mmpkg run /m/p.mmpkg --at "$mm_at"
else
    /mmpkg check /m/p.mmpkg
fi
echo "mm_status $?"
/bin/busybox umount /m
/bin/busybox sync
/bin/busybox poweroff -f
"""


def libraries():
    """The files that the program is linked with."""
    said = run("ldd", PROGRAM)[0]
    return [pathlib.Path(it) for it in re.findall(r"(?:=> |^\s+)(/\S+) \(0x", said, re.M)]


def modules(kernel, system):
    """The files of the kernel's modules that the machine needs, each behind those that it needs."""
    version = next((kernel / "lib" / "modules").iterdir()).name
    if not (kernel / "lib" / "modules" / version / "modules.dep.bin").exists():
        run("depmod", "-b", kernel, version)
    found = []
    for name in ["virtio_pci", "virtio_blk", *MODULES[system]]:
        said = run("modprobe", "-S", version, "-d", kernel, "--show-depends", name)[0]
        found += [it for it in re.findall(r"^insmod (\S+)", said, re.M) if it not in found]
    return [pathlib.Path(it) for it in found]


def first_files(room, kernel, system):
    """The machine's first file system, with the program, packed as the kernel reads it."""
    root = room / f"root_{system}"
    for folder in ("bin", "dev", "proc", "m", "lib/modules"):
        (root / folder).mkdir(parents=True)
    shutil.copy(shutil.which("busybox"), root / "bin" / "busybox")
    shutil.copy(PROGRAM, root / "mmpkg")
    for file in libraries():
        (root / str(file.parent)[1:]).mkdir(parents=True, exist_ok=True)
        shutil.copy(file, root / str(file)[1:])
    needed = modules(kernel, system)
    for file in needed:
        shutil.copy(file, root / "lib" / "modules")
    (root / "modules").write_text("\n".join(it.name for it in needed) + "\n")
    (root / "init").write_text(INIT)
    (root / "init").chmod(0o755)
    names = b"\0".join(bytes(it.relative_to(root)) for it in root.rglob("*"))
    packed = room / f"first_{system}.cpio"
    packed.write_bytes(
        subprocess.run(
            ["cpio", "-0", "-o", "-H", "newc", "--quiet"], input=names, cwd=root, capture_output=True, check=True
        ).stdout
    )
    return packed


class Machine:
    """A virtual machine with one disk, on a file system."""

    def __init__(self, room, kernel, system):
        self.room, self.system = room, system
        self.image = next((kernel / "boot").glob("vmlinuz-*"))
        self.packed = first_files(room, kernel, system)
        self.disk, self.list = room / f"{system}.img", room / f"{system}.csv"

    def make_disk(self):
        """A disk with a new package in it."""
        folder = self.room / f"new_{self.system}"
        shutil.rmtree(folder, ignore_errors=True)
        folder.mkdir()
        expect(mmpkg("init", folder / FILE), "init ok\n", "init")
        self.disk.unlink(missing_ok=True)
        with open(self.disk, "wb") as disk:
            disk.truncate(DISK_BYTES)
        if self.system == "ext4":
            run("mkfs.ext4", "-q", "-F", "-d", folder, self.disk)
        else:
            run("mkfs.vfat", self.disk)
            run("mcopy", "-i", self.disk, folder / FILE, "::/" + FILE)

    def files_of_disk(self):
        """A folder with the package and its journal as the disk holds them."""
        folder = self.room / f"found_{self.system}"
        shutil.rmtree(folder, ignore_errors=True)
        folder.mkdir()
        for name in (FILE, FILE + "-wal"):
            if self.system == "ext4":
                subprocess.run(
                    ["debugfs", "-R", f"dump /{name} {folder / name}", self.disk], capture_output=True, check=True
                )
            else:
                subprocess.run(
                    ["mcopy", "-n", "-i", self.disk, "::/" + name, folder / name], capture_output=True, check=False
                )
        return folder

    def begin(self, what, length=0):
        """Boots the machine."""
        options = "-o,data=ordered" if self.system == "ext4" else "-o,iocharset=ascii"
        words = "console=ttyS0 quiet loglevel=1 edd=off panic=-1 "
        words += f"mm_system={self.system} mm_do={what} mm_length={length} mm_at={MOMENT}"
        return subprocess.Popen(
            [
                "qemu-system-x86_64",
                "-m",
                "256",
                "-nographic",
                "-no-reboot",
                "-nic",
                "none",
                "-accel",
                "tcg",
                "-cpu",
                "max",
                "-kernel",
                self.image,
                "-initrd",
                self.packed,
                "-append",
                f"{words} mm_options={options}",
                "-drive",
                f"file={self.disk},format=raw,if=virtio",
                "-drive",
                f"file={self.list},format=raw,if=virtio,readonly=on",
            ],
            stdin=subprocess.DEVNULL,
            stdout=subprocess.PIPE,
            stderr=subprocess.STDOUT,
        )

    def lines(self, machine):
        """The console's lines, as they come."""
        began = time.monotonic()
        for line in machine.stdout:
            yield line.rstrip(b"\r\n")
            assert time.monotonic() - began < BOOT, "the machine takes too long"

    def run_and_cut(self, text, seconds):
        """Runs a list, cuts the power behind the first answer, and tells the whole answers that came."""
        padded = text + b"\n" * (-len(text) % 512)
        self.list.write_bytes(padded)
        machine, told, at = self.begin("run", len(text)), [], None
        try:
            for line in self.lines(machine):
                found = ANSWER.match(line)
                if found:
                    told.append((int(found[1]), found[2].decode()))
                    at = at or time.monotonic() + seconds
                if (at and time.monotonic() >= at) or line.startswith(b"mm_status"):
                    break
        finally:
            machine.kill()
        # What the console still holds was printed before the cut.
        rest, _ = machine.communicate()
        whole = rest[: rest.rfind(b"\n") + 1].split(b"\n")
        told += [(int(it[1]), it[2].decode()) for it in map(ANSWER.match, whole) if it]
        return told

    def check(self):
        """Boots again and checks the package; tells what the program printed."""
        machine = self.begin("check")
        try:
            return [
                line
                for line in self.lines(machine)
                if line.startswith((b"package", b"fault", b"rule", b"not a", b"mm_status"))
            ]
        finally:
            machine.kill()
            machine.wait()


def rows_of(file):
    """The rows of each table of a file, as Python's sqlite3 has them."""
    connection = sqlite3.connect(file)
    tables = [
        it
        for (it,) in connection.execute(
            "SELECT name FROM sqlite_schema WHERE type = 'table' AND name NOT LIKE 'sqlite_%'"
        )
    ]
    rows = {table: sorted(connection.execute(query_of(table)).fetchall(), key=repr) for table in tables}
    connection.close()
    return rows


def model_rows(package):
    """The rows of each table of a model's package."""
    return {table: sorted(rows, key=repr) for table, rows in table_rows(package).items()}


def applied(package, record):
    """Does a record to a model's package; the answer."""
    try:
        return package.apply(read_command(record), MOMENT)
    except Refused as refused:
        return f"refused {refused.number}"


def stands_in_full(text, told, found):
    """Compares the answers and the rows that were found with the model; tells whether one more command stood than was
    answered."""
    package, todo = Package(), records(text)
    for (number, answer), (place, record) in zip(told, enumerate(todo, 1)):
        expect((number, answer), (place, applied(package, record)), "an answer")
    if found == model_rows(package):
        return False
    assert len(told) < len(todo), "more stands than was asked for"
    applied(package, todo[len(told)])
    expect(found, model_rows(package), "the rows behind the cut")
    return True


def list_for(chance):
    """A list of random records."""
    package = Package()
    author = Author(chance, package)
    author.slip = 0.02
    return author.next_list(OPENING + author.words(RECORDS), [], MOMENT)


def cut(machine, chance):
    """One cut; tells how many answers came, and whether one more command stood."""
    machine.make_disk()
    text = list_for(chance)
    told = machine.run_and_cut(text, chance.uniform(0, LONGEST_CUT))
    expect(machine.check(), [b"package ok", b"mm_status 0"], "the check behind the cut")
    folder = machine.files_of_disk()
    return len(told), stands_in_full(text, told, rows_of(folder / FILE))


def put_kernel(room):
    """Downloads Debian's newest kernel for this processor, and takes it out of its package."""
    told = run("apt-cache", "depends", "linux-image-amd64")[0]
    (name, *_) = re.findall(r"^ *Depends: (\S+)", told, re.MULTILINE) or [""]
    assert name, "linux-image-amd64 names no kernel"
    run("env", "-C", room, "apt-get", "download", name)
    run("dpkg", "-x", *room.glob(f"{name}_*.deb"), room / "kernel")


def cut_all(room, cuts, seed):
    """All cuts; answers how many passed and failed."""
    systems = [it for it in itertools.islice(itertools.cycle(["ext4", "ext4", "vfat"]), cuts)]
    machines = {system: Machine(room, room / "kernel", system) for system in sorted(set(systems))}
    passed = failed = answers = more = 0
    for number, system in enumerate(systems, 1):
        try:
            told, stood = cut(machines[system], random.Random(f"{seed} {number}"))
            passed, answers, more = passed + 1, answers + told, more + stood
            print(
                f"cut {number} on {system}: {told} answers, {'one command more' if stood else 'no command more'} stood",
                flush=True,
            )
        except (AssertionError, OSError, sqlite3.Error, subprocess.SubprocessError) as error:
            failed += 1
            print(f"cut {number} on {system} (seed {seed}): {error}", flush=True)
    print(f"{answers} answers in all, all as in the model; {more} commands stood that were not answered")
    return passed, failed


def with_a_kernel(room, given):
    """Has the kernel, and cuts."""
    try:
        put_kernel(room)
    except (AssertionError, OSError):
        print("no power was cut: Debian's linux-image-amd64 can't be had")
        sys.exit(77)
    return cut_all(room, given.cuts, given.seed)


def main():
    given = words_given(__doc__, cuts=10, seed=random.randrange(32768))
    want("no power was cut", *NEEDS)
    os.environ["PATH"] += ":/usr/sbin:/sbin"
    end(*in_a_folder(with_a_kernel, given))


if __name__ == "__main__":
    main()
