#!/usr/bin/env python3
"""bench/visits.py NAME=PROGRAM [NAME=PROGRAM ..] [--runs N] [--thousand] [--part N]: what a visit costs.

Each PROGRAM is a desk. In one run it measures them side by side, and beside a C program over SQLite's library that does
the same work for a visit with the same tests, on a copy of the store of the first desk that keeps an index of files and
a table for error bytes (visits.c). You need gcc and the headers of SQLite (Debian's libsqlite3-dev); as root, the
script installs them if they are missing.

Each desk makes and fills its own stores. Then servers that this script starts are visited over loopback, one visit
after the other, by one visitor with a key of the reading room, and their processor time is read, of their own and of
the system for them: that of 2,100 visits without that of the first 100. It prints, for each question, the ratio of each
desk's time for a visit to that of the C program, and to that of the desk that is named first: the median of five runs,
and the least and the most of them. Programs take turns within a run, so that what else the machine does meets all.
With --thousand it also asks a store of 1,000 accessions for all of them; --part 10 makes a tenth of the visits.

Before it measures, it compares the first reply of each question, byte for byte, and looks at the status and the length
of each. Last it prints how the most memory that a server has had, which is mostly that of opening the store, grows from
the first to the tenth visit for the longest file.

It fails where a desk that is not named first takes more than the first for a question in each of the runs. With one
desk alone it only prints ratios, and fails if a reply is not the one that is due."""

import argparse
import os
import statistics
import sys
import tempfile

import rooms

C_NAME = "C program"


class Case:
    """A question: which store is asked, by which path at a visit of some number, which status the reply has and how
    long its body is, how many visits of it are left out and measured, and whether it is one for desks alone, which the
    C program has no answer to."""

    def __init__(self, title, shelf, path_at, status, length, few=100, many=2000, for_desks=False):
        self.title = title
        self.shelf = shelf
        self.path_at = path_at
        self.status = status
        self.length = length
        self.few = few
        self.many = many
        self.for_desks = for_desks

    def asked(self, number):
        """The bytes of the visit of a number, counted from 0."""
        return rooms.question("GET", self.path_at(number))

    def is_due(self, reply):
        """Whether a reply has the status and a body as long as the case wants, where it wants a length."""
        body = rooms.body_of(reply)
        return reply.startswith(b"HTTP/1.1 %d " % self.status) and self.length in (None, len(body))


def always(path):
    """The same path at each visit."""
    return lambda _: path


def bytes_of(place):
    """The path of a file, at each visit."""
    return always("/images/%d/files/%d" % place)


def file_after_file(number):
    """The files of one disk that the reading room may read, one after the other."""
    return "/images/50/files/%d" % (number % 7)


def disk_after_disk(number):
    """A file of each of 100 disks in turn."""
    return "/images/%d/files/0" % (number % 100 + 1)


class Takedown(Case):
    """A put of the takedown that an accession has already; `accession_at` names the accession by the number of the
    visit. The desk stays as it is; the row of the takedown moves to the end of its table."""

    def __init__(self, title, accession_at):
        done = len('{"done":true}')
        super().__init__(title, "100", self.path_of, 200, done, for_desks=True)
        self.accession_at = accession_at

    def path_of(self, number):
        return f"/images/{self.accession_at(number)}/rules/1"

    def asked(self, number):
        return rooms.question("PUT", self.path_at(number), rooms.STAFF, rooms.TAKEDOWN)


def cases_for_desks():
    """Questions that the C program has no answer to: it only reads, and writes no CSV."""
    return [
        Case("catalogue, 100 accessions", "100", always("/catalogue"), 200, None, for_desks=True),
        Takedown("takedowns, disk after disk", lambda number: number % 100 + 1),
        Takedown("takedowns of one disk", lambda _: 50),
    ]


def cases(thousand):
    denied = len('{"error":"denied","rule":"R7.10"}')
    told = [
        Case("a denied file", "few", bytes_of(rooms.DENIED), 403, denied),
        Case("a file of 258 bytes", "few", bytes_of(rooms.SHORT), 200, rooms.SHORT_SIZE),
        Case("a file of 168,656 bytes", "few", bytes_of(rooms.LONG), 200, rooms.LONG_SIZE),
        Case("listing of 144 files", "few", always(f"/images/{rooms.CROWD}"), 200, None),
        Case("images, 100 accessions", "100", always("/images"), 200, None),
        Case("file after file of a disk", "100", file_after_file, 200, None),
        Case("100 disks, a file of each", "100", disk_after_disk, 200, None),
    ]
    if thousand:
        told.append(Case("images, 1,000 accessions", "1000", always("/images"), 200, None, 10, 200))
    return told


SHELVES = {"few": rooms.few_files, "100": lambda: rooms.Shelf(100), "1000": lambda: rooms.Shelf(1000)}


class Bench:
    """The programs by their names: the commands by which they serve, and their stores by shelf."""

    def __init__(self, programs, shelves, folder):
        self.commands = {name: rooms.desk_serves(path) for name, path in programs.items()}
        self.stores = {}
        for name, path in programs.items():
            for shelf in shelves:
                store = os.path.join(folder, f"{len(self.stores)}.sqlite")
                rooms.fill(path, store, SHELVES[shelf]())
                self.stores[name, shelf] = store
        self.add_c_program(programs, shelves, folder)

    def add_c_program(self, programs, shelves, folder):
        """Puts the C program beside the desks, where the store of one of them has all tables that it reads."""
        for name in programs:
            copies = {shelf: os.path.join(folder, f"copy-{shelf}.sqlite") for shelf in shelves}
            if all(rooms.copied(self.stores[name, shelf], copy) for shelf, copy in copies.items()):
                self.commands[C_NAME] = rooms.compiled_c(folder)
                self.stores.update({(C_NAME, shelf): copy for shelf, copy in copies.items()})
                return
        print(f"no desk keeps an index of files and error bytes: none is measured beside the {C_NAME}")

    def names_for(self, case):
        """The programs that a case is for."""
        return [name for name in self.commands if name != C_NAME or not case.for_desks]

    def serve(self, name, shelf, count):
        return rooms.Server(self.commands[name], self.stores[name, shelf], count)

    def check(self, case):
        """Ends the script where a reply is not due, or two programs reply with different bytes."""
        replies = {}
        for name in self.names_for(case):
            with self.serve(name, case.shelf, 1) as server:
                replies[name] = server.visit(case.asked(0))
                server.end()
        for name, reply in replies.items():
            if not case.is_due(reply):
                sys.exit(f"{case.title}: {name} replies {reply[:300]!r}")
        if len(set(replies.values())) != 1:
            sys.exit(f"{case.title}: replies differ: { {name: reply[:300] for name, reply in replies.items()} }")

    def visit(self, server, case, number):
        """Makes the visit of a number; the script ends where the reply is not due."""
        reply = server.visit(case.asked(number))
        if not case.is_due(reply):
            sys.exit(f"{case.title}: the reply at visit {number} is {reply[:300]!r}")

    def time_of(self, name, case, part):
        """The processor time of a visit, without that of starting and of the first visits."""
        few, many = max(1, case.few // part), max(2, case.many // part)
        with self.serve(name, case.shelf, few + many + 1) as server:
            for number in range(few):
                self.visit(server, case, number)
            before = server.spent()
            for number in range(many):
                self.visit(server, case, few + number)
            spent = server.spent() - before
            self.visit(server, case, 0)
            server.end()
        return spent / many

    def memory_of(self, name, case):
        """How the most memory of a server grows from its start to the first visit, and from that to the tenth."""
        with self.serve(name, case.shelf, 11) as server:
            most = [server.most_memory()]
            for number in range(10):
                self.visit(server, case, number)
                most.append(server.most_memory())
            self.visit(server, case, 0)
            server.end()
        return most[1] / most[0], most[10] / most[1]


def shown(ratios):
    return f"{statistics.median(ratios):7.2f}  ({min(ratios):.2f} to {max(ratios):.2f})"


def tell(case, times):
    """Prints the ratios of a case, and gives what a desk takes more than the first in every run."""
    missed = []
    desks = [name for name in times if name != C_NAME]
    for base in ([C_NAME] if C_NAME in times else []) + desks[:1]:
        for name in desks:
            ratios = [ours / theirs for ours, theirs in zip(times[name], times[base])]
            if name == base:
                continue
            print(f"{case.title:26} {name:12} {base:12} {shown(ratios)}", flush=True)
            if base != C_NAME and min(ratios) > 1:
                missed.append(f"{case.title}: {name} takes more than {base}")
    return missed


def measure(bench, told, runs, part):
    """Prints the ratios of all cases, and gives what is missed."""
    missed = []
    print(f"{'question':26} {'desk':12} {'over':12} {'median':>7}  (least to most of {runs} runs)")
    for case in told:
        bench.check(case)
        times = {name: [] for name in bench.names_for(case)}
        for run in range(runs):
            names = list(times)
            for name in names[run % len(names) :] + names[: run % len(names)]:
                times[name].append(bench.time_of(name, case, part))
        missed += tell(case, times)
    return missed


def main():
    parser = argparse.ArgumentParser(usage=__doc__)
    parser.add_argument("programs", nargs="+")
    parser.add_argument("--runs", type=int, default=5)
    parser.add_argument("--part", type=int, default=1)
    parser.add_argument("--thousand", action="store_true")
    words = parser.parse_args()
    rooms.install(rooms.C_NEEDED, rooms.C_PACKAGES)
    told = cases(words.thousand)
    with tempfile.TemporaryDirectory() as folder:
        bench = Bench(rooms.named_programs(words.programs), list(dict.fromkeys(case.shelf for case in told)), folder)
        missed = measure(bench, told, words.runs, words.part)
        for name in bench.commands:
            first, tenth = bench.memory_of(name, told[2])
            told_first = f"after the first visit {first:.2f} of that before"
            print(f"most memory of {name}: {told_first}, after the tenth {tenth:.2f} of that")
    for what in missed:
        print("missed:", what)
    sys.exit(1 if missed else 0)


if __name__ == "__main__":
    main()
