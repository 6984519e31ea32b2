#!/usr/bin/env python3
"""bench/callgrind.py NAME=PROGRAM [NAME=PROGRAM ..] [--tree]: which crates a visit's instructions are spent in.

Each PROGRAM is a desk. The visits of bench/visits.py are made of it under valgrind's callgrind, and of the C program
beside it (visits.c): 12 of them in one run and 2 in another, and the difference is that of 10 visits. Desks alone are
asked for the catalogue and for takedowns, because the C program answers no such request. You need valgrind, gcc and
the headers of SQLite; as root, the script installs them if they are missing.

Instructions are counted by the crate of the symbol that they lie in, so that what the compiler has moved into another
function counts as that function's. Copies by the C library (memcpy, memmove) are told apart on both sides: callgrind
counts one instruction for each byte of `rep movsb`, so a copy looks dearer than it is. What is printed are shares of
the whole of the C program, its copies left out; where desks alone are asked, shares of the desk's own whole. --tree
also prints the functions of each crate.

Last it counts a start that nobody visits: `serve` opens a store of 100 accessions, reads its images, and ends. The C
program looks at nothing of the store as it starts, so desks alone are started.

It fails where the desk that is named last takes more in its own crates than the whole of the C program for a question
that both answer, where that desk calls a function of rd_cpm or rd_cbm for any question, and where no C program stands
beside it. Where two desks are named, it also prints the ratio of the last to the first: of their own crates alone, of
the whole without and with copies, and of all without what reading rows of the table `image` takes."""

import argparse
import collections
import os
import re
import sys
import tempfile

import rooms
import visits

FEW, MANY = 2, 12
COPIES = re.compile(r"_*(memcpy|memmove|mempcpy)")
OWN = re.compile(r"rd_[a-z]+")
READERS = ("rd_cpm", "rd_cbm")
# Where rows of the table `image` are asked for, and the functions that the compiler moves this into, also of desks of
# before.
ROW_READERS = re.compile(r"rd_store::images::|rd_desk::asking::(image|accession|register|look_up)\b")
OPENING = visits.Case("opening, 100 accessions", "100", None, None, None, for_desks=True)
NEEDED = ["valgrind", *rooms.C_NEEDED]
PACKAGES = ["valgrind", *rooms.C_PACKAGES]


class Profile:
    """What callgrind has counted: the instructions of each function itself, and of each call of one by another how
    often it was made and the instructions below it."""

    def __init__(self):
        self.own = collections.Counter()
        self.calls = collections.Counter()
        self.below = collections.Counter()

    def minus(self, other):
        """What this has more than another."""
        more = Profile()
        for name in ("own", "calls", "below"):
            mine, theirs = getattr(self, name), getattr(other, name)
            getattr(more, name).update({key: mine[key] - theirs[key] for key in mine if mine[key] > theirs[key]})
        return more

    def row_reads(self):
        """The instructions below the calls by which rows of the table `image` are read."""
        return sum(cost for (caller, callee), cost in self.below.items()
                   if ROW_READERS.match(caller) and (callee.startswith("sqlite") or "read_all" in names_of(callee)))

    def below_of(self, roots):
        """The functions that are called below some functions, them among these."""
        callees = collections.defaultdict(set)
        for caller, callee in self.calls:
            callees[caller].add(callee)
        met, left = set(roots), list(roots)
        while left:
            for callee in callees[left.pop()] - met:
                met.add(callee)
                left.append(callee)
        return met


def read_profile(path):
    """What a file of callgrind's tells, which was written without abbreviations."""
    profile, function, callee, count = Profile(), None, None, None
    with open(path, encoding="utf-8", errors="replace") as lines:
        for line in lines:
            line = line.rstrip("\n")
            if line.startswith("fn="):
                function = without_cycle(line[3:])
            elif line.startswith("cfn="):
                callee = without_cycle(line[4:])
            elif line.startswith("calls="):
                count = int(line[6:].split()[0])
            elif line[:1] in ("+", "-", "*") or line[:1].isdigit():
                cost = int(line.split()[1]) if " " in line else 0
                if count is None:
                    profile.own[function] += cost
                else:
                    profile.calls[function, callee] += count
                    profile.below[function, callee] += cost
                    count = None
    return profile


def without_cycle(name):
    return re.sub(r"'\d+$", "", name)


def names_of(symbol):
    """The last names in a symbol, without its path and what it is made for; a function whose symbol is `a+b` has the
    code of both."""
    return {part.split("::")[-1] for part in re.sub(r"::<.*>", "", symbol).split("+")}


def crate_of(symbol):
    """The crate of a symbol: the first name of its path."""
    return symbol.split("::")[0] if "::" in symbol else "the C library"


def profile_at(bench, name, case, count, folder):
    """What a server takes from its start to its end, which so many visits come to."""
    path = os.path.join(folder, "profile")
    before = ["valgrind", "--tool=callgrind", f"--callgrind-out-file={path}", "--compress-strings=no",
              "--compress-pos=no", "--dump-line=no"]
    with rooms.Server(bench.commands[name], bench.stores[name, case.shelf], count, before) as server:
        for number in range(count):
            bench.visit(server, case, number)
        server.end()
    return read_profile(path)


def profiles_of(bench, case, folder):
    """What ten visits take of each program, by the difference of two runs; of a case without visits, what its start
    takes."""
    names = bench.names_for(case)
    if case is OPENING:
        return {name: profile_at(bench, name, case, 0, folder) for name in names}
    bench.check(case)
    return {name: profile_at(bench, name, case, MANY, folder).minus(profile_at(bench, name, case, FEW, folder))
            for name in names}


def by_crate(profile):
    """The instructions of each crate, those of copies apart."""
    told = collections.Counter()
    for symbol, cost in profile.own.items():
        told["copies" if COPIES.match(symbol) else crate_of(symbol)] += cost
    return told


def own_of(told):
    return sum(cost for crate, cost in told.items() if OWN.fullmatch(crate))


def whole_of(told):
    return sum(cost for crate, cost in told.items() if crate != "copies")


def tell_desk(case, name, told, beside):
    """Prints what a desk spends, as shares of the whole of the C program, or of its own where there is none beside it;
    gives whether its own crates take more than the C program."""
    base = whole_of(beside) if beside else whole_of(told)
    copies = f"copies {told['copies'] / base:.2f}" + (f" and {beside['copies'] / base:.2f}" if beside else "")
    print(f"{case.title}: {name}: own crates {own_of(told) / base:.2f}, whole {whole_of(told) / base:.2f}, {copies}")
    for crate, cost in told.most_common():
        if crate != "copies" and cost >= base / 200:
            print(f"    {crate:24} {cost / base:6.2f}")
    return beside is not None and own_of(told) > base


def called_readers(profile):
    """The functions of the readers of images that run at a visit, and those that are called below `answer`."""
    ran = {symbol for symbol in profile.own if crate_of(symbol) in READERS}
    answers = [symbol for symbol in profile.own if "answer" in names_of(symbol) and crate_of(symbol) == "rd_desk"]
    return sorted(ran | {symbol for symbol in profile.below_of(answers) if crate_of(symbol) in READERS}), bool(answers)


def tell_readers(profile):
    """Prints which functions of the readers of images a visit calls, and gives them."""
    readers, has_answer = called_readers(profile)
    print("    of rd_cpm and rd_cbm " + (", ".join(readers) or "nothing") + " is called" +
          ("" if has_answer else "; `answer` has no symbol of its own, so whole visits were looked at"))
    return readers


def tell_tree(profile):
    for symbol, cost in profile.own.most_common(60):
        print(f"        {cost:12,} {symbol}")


def tell_pair(profiles):
    """Prints the ratios of the last desk to the first: of their own crates, of the whole without and with copies, and
    of all without the reading of images' rows."""
    names = [name for name in profiles if name != visits.C_NAME]
    if len(names) < 2:
        return
    rest = {name: sum(profiles[name].own.values()) - profiles[name].row_reads() for name in names}
    reads = {name: profiles[name].row_reads() / sum(profiles[name].own.values()) for name in names}
    first, last = names[0], names[-1]
    own = {name: own_of(by_crate(profiles[name])) for name in names}
    print(f"    own crates: {last} over {first} {own[last] / own[first]:.3f}")
    whole = {name: whole_of(by_crate(profiles[name])) for name in names}
    all_of = {name: sum(profiles[name].own.values()) for name in names}
    with_copies = f"with copies {all_of[last] / all_of[first]:.2f}"
    print(f"    whole: {last} over {first} {whole[last] / whole[first]:.2f}, {with_copies}")
    shares = ", ".join(f"{share:.0%} of {name}" for name, share in reads.items())
    print(f"    beside the rows of images ({shares}): {last} over {first} {rest[last] / rest[first]:.2f}")


def measure(bench, case, folder, shows_tree):
    """Prints what the programs spend at visits of a case, and gives what is missed."""
    missed = []
    profiles = profiles_of(bench, case, folder)
    told = {name: by_crate(profile) for name, profile in profiles.items()}
    beside = told.get(visits.C_NAME)
    if beside is None and not case.for_desks:
        missed.append(f"{case.title}: there is no C program to compare with")
    desks = [name for name in profiles if name != visits.C_NAME]
    for name in desks:
        if tell_desk(case, name, told[name], beside) and name == desks[-1]:
            missed.append(f"{case.title}: the crates of {name} take more than the C program")
        readers = [] if case is OPENING else tell_readers(profiles[name])
        if readers and name == desks[-1]:
            missed.append(f"{case.title}: {name} calls {', '.join(readers)}")
        if shows_tree:
            tell_tree(profiles[name])
    tell_pair(profiles)
    sys.stdout.flush()
    return missed


def main():
    parser = argparse.ArgumentParser(usage=__doc__)
    parser.add_argument("programs", nargs="+")
    parser.add_argument("--tree", action="store_true")
    words = parser.parse_args()
    rooms.install(NEEDED, PACKAGES)
    told = visits.cases(False) + visits.cases_for_desks() + [OPENING]
    missed = []
    with tempfile.TemporaryDirectory() as folder:
        shelves = list(dict.fromkeys(case.shelf for case in told))
        bench = visits.Bench(rooms.named_programs(words.programs), shelves, folder)
        for case in told:
            missed += measure(bench, case, folder, words.tree)
    for what in missed:
        print("missed:", what)
    sys.exit(1 if missed else 0)


if __name__ == "__main__":
    main()
