#!/usr/bin/env python3
"""bench/run.py PROGRAM [KIND..]: measures `desk cat` and `desk list` beside cpmtools, cbmconvert, cc1541 and a C
program that does the same work with the same checks (reference.c), all in one run. You need valgrind and gcc too; as
root, the script installs Debian's packages if one is missing.

It prints ratios of desk over the other program: instructions, which valgrind counts, and the least time of 1,000
runs. Below 1, desk needs less. The programs are timed in turn, round after round, so that what else the machine does
meets all of them. Images and outputs are in memory, so that the times are those of the programs and not of a disk.
Each run begins in an empty folder: cbmconvert looks for a free name where its file stands already.

Before it measures a case, it sees that each program ends with status 0 and that what desk, the C program, cpmcp and
cbmconvert write are the same bytes, and some. cpmcp reads no block above 239: the largest CP/M file is measured beside
the C program alone, and one that ends at that block beside both.

It fails where desk is not below cpmcp and cpmls in both ratios, or not below cc1541 in instructions, or takes more than
2.5 times those of the C program."""

import os
import shutil
import subprocess
import sys
import tempfile

import images
import rooms
from rooms import HERE

NEEDED = ["cpmcp", "cbmconvert", "cc1541", "valgrind", "gcc", "/usr/include/stdio.h"]
PACKAGES = ["cpmtools", "cbmconvert", "cc1541", "valgrind", "gcc", "libc6-dev"]
MEMORY = "/dev/shm"
RUNS = 5
ROUNDS = 200


def compiled(name, folder):
    """The path of a C program of this folder, compiled into another."""
    path = os.path.join(folder, name)
    subprocess.run(["gcc", "-O2", "-o", path, os.path.join(HERE, name + ".c")], check=True)
    return path


class Bench:
    """The programs, the image that they read and the folder that they write in."""

    def __init__(self, desk, built, memory):
        self.desk = desk
        self.reference = compiled("reference", built)
        self.least = compiled("least", built)
        self.image = os.path.join(memory, "image")
        self.folder = os.path.join(memory, "written")
        os.mkdir(self.folder)

    def run(self, command):
        """Runs a command in the emptied folder, and gives what it writes to its standard output and errors."""
        for name in os.listdir(self.folder):
            os.remove(os.path.join(self.folder, name))
        with open(self.image, "rb") as stdin:
            ran = subprocess.run(command, cwd=self.folder, stdin=stdin, capture_output=True)
        if ran.returncode:
            sys.exit(f"{command} ends with status {ran.returncode}: {ran.stderr.decode(errors='replace')}")
        return ran.stdout, ran.stderr

    def bytes_of(self, command, file):
        """What a command writes to a file, or to its standard output where none is named."""
        output, _ = self.run(command)
        if not file:
            return output
        with open(os.path.join(self.folder, file), "rb") as written:
            return written.read()

    def instructions(self, command):
        """How many instructions a command needs."""
        _, told = self.run(["valgrind", "--tool=callgrind", "--callgrind-out-file=/dev/null", *command])
        for line in told.decode(errors="replace").splitlines():
            if "Collected" in line:
                return int(line.split(":")[1])
        sys.exit(f"valgrind counted nothing of {command}")

    def least_time(self, command):
        """The least time that a command took in some runs, in microseconds."""
        ran = subprocess.run([self.least, str(RUNS), self.folder, self.image, *command], capture_output=True)
        if ran.returncode:
            sys.exit(f"{command} cannot be timed: {ran.stderr.decode(errors='replace')}")
        return float(ran.stdout)

    def measure(self, commands):
        """Instructions and least time of each of some commands, by their names."""
        rounds = [{who: self.least_time(words) for who, words in commands.items()} for _ in range(ROUNDS)]
        return {
            who: (self.instructions(words), min(times[who] for times in rounds)) for who, words in commands.items()
        }


def others(kind, command, path, name):
    """The programs that do the same work as a command of desk, by their names: their words, and the file that they
    write a file's bytes to."""
    if kind == "d64" and command == "list":
        return {"cc1541": (["cc1541", "-m", path], None)}
    if kind == "d64":
        return {"cbmconvert": (["cbmconvert", "-N", "-d", path], f"{name.lower()}.prg")}
    on = ["-f", "ibm-3740", path]
    if command == "cat" and name == "ALL.DAT":
        return {}
    if command == "cat":
        return {"cpmcp": (["cpmcp", *on, f"0:{name}", "copied"], "copied")}
    return {"cpmls": (["cpmls", *on], None), "fsck.cpm": (["fsck.cpm", "-n", *on], None)}


def check_outputs(bench, words, rivals):
    """Ends the bench where a program writes nothing, or other bytes than desk does."""
    ours = bench.bytes_of([bench.desk, *words], None)
    theirs = {who: (bench.bytes_of(command, file), file) for who, (command, file) in rivals.items()}
    if not ours or ours != bench.bytes_of([bench.reference, *words], None):
        sys.exit(f"desk and the C program write different bytes, or none: {words}")
    for who, (written, file) in theirs.items():
        if not written or (file and written != ours):
            sys.exit(f"desk and {who} write different bytes, or none: {words}")


def missed_by(who, ratio, time_ratio):
    """Whether ratios over a program miss what is owed."""
    if who in ("cpmcp", "cpmls"):
        return max(ratio, time_ratio) >= 1
    if who == "cc1541":
        return ratio >= 1
    return who == "C program" and ratio > 2.5


def bench_command(bench, title, words, rivals):
    """Prints the ratios of a command of desk, and gives what is missed of that which is owed."""
    check_outputs(bench, words, rivals)
    commands = {who: [shutil.which(command[0]), *command[1:]] for who, (command, _) in rivals.items()}
    commands = {"desk": [bench.desk, *words], **commands, "C program": [bench.reference, *words]}
    measured = bench.measure(commands)
    count, time = measured.pop("desk")
    where = "standard input" if words[2] == "-" else "a file"
    missed = []
    for who, (their_count, their_time) in measured.items():
        ratio, time_ratio = count / their_count, time / their_time
        print(f"{title:20} {words[0]:5} {where:15} {who:11} {ratio:8.2f} {time_ratio:8.2f}", flush=True)
        if missed_by(who, ratio, time_ratio):
            missed.append(f"{title}, {words[0]} from {where}, over {who}")
    return missed


def bench_case(bench, case):
    """Prints the ratios of a case, and gives what is missed of that which is owed."""
    title, kind, image, name, slot = case
    with open(bench.image, "wb") as file:
        file.write(image)
    missed = []
    for command in ("cat", "list"):
        rivals = others(kind, command, bench.image, name)
        for source in (bench.image, "-"):
            words = [command, kind, source, str(slot)] if command == "cat" else [command, kind, source]
            missed += bench_command(bench, title, words, rivals)
    return missed


def main():
    if sys.argv[1:2] in ([], ["--help"]):
        sys.exit(__doc__)
    desk, kinds = os.path.abspath(sys.argv[1]), sys.argv[2:] or ["cpm8", "d64", "d64e"]
    rooms.install(NEEDED, PACKAGES)
    memory = MEMORY if os.access(MEMORY, os.W_OK) else None
    missed = []
    with tempfile.TemporaryDirectory() as built, tempfile.TemporaryDirectory(dir=memory) as written:
        bench = Bench(desk, built, written)
        print(f"{'case':20} {'desk':5} {'read from':15} {'over':11} {'instr.':>8} {'time':>8}")
        for case in images.cases():
            if case[1] in kinds:
                missed += bench_case(bench, case)
    for what in missed:
        print("missed:", what)
    sys.exit(1 if missed else 0)


if __name__ == "__main__":
    main()
