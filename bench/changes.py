#!/usr/bin/env python3
"""bench/changes.py NAME=PROGRAM NAME=PROGRAM [..] [--sums NAME] [--size N] [--visits N]: what a change of the store
costs.

Each PROGRAM is a desk. Each makes and fills a store of its own, of 100 accessions with eight files each, and with sums
if --sums names it; a program may have two names. Then their servers, which this script starts, are asked in turn for
changes, and for a file beside them: so what else the machine does meets all. It prints what each costs divided by what
it costs the desk that is named first: by the clock and in processor time, the median of 20 visits; and how many syncs
and how many bytes a change takes, as strace counts them of five more. Of opening the store it prints both times, the
median of eleven. You need Debian's strace; as root, the script installs it."""

import argparse
import hashlib
import os
import re
import statistics
import sys
import tempfile
import time

import rooms
import shelves
from shelves import Question

OPENINGS, TRACED = 11, 5
CALL = re.compile(rb"(fsync|fdatasync|pwrite64)\(.*= (-?\d+)")


def key_at(visit):
    """The SHA-256 of a key."""
    return hashlib.sha256(b"key %d" % visit).hexdigest()


def deed_of(visit):
    """A deed that no other visit has put last."""
    return b'{"donor":"B. Donor","signed":"2020-02-%02d"}' % (visit % 28 + 1)


def questions(size):
    """What is asked of a store of a size, in this order: what a visit drops, a visit of the same number has put."""
    acc, rule = size // 2, rooms.rule("public", "deny", slot=3)
    return [
        Question("put of a deed", lambda n: ("PUT", "/deeds/8", deed_of(n))),
        Question("put of a rule", lambda n: ("PUT", f"/images/{acc}/rules/{100 + n}", rule)),
        Question("drop of a rule", lambda n: ("DELETE", f"/images/{acc}/rules/{100 + n}", None)),
        Question("put of a key", lambda n: ("PUT", f"/badges/{key_at(n)}", b'{"audience":"room"}')),
        Question("drop of a key", lambda n: ("DELETE", f"/badges/{key_at(n)}", None)),
        Question("check", lambda n: ("POST", f"/images/{n % size + 1}/check", None)),
        Question("put of an image", lambda n: shelves.put_disk(size + 1 + n)),
        Question("a file of 2,000 bytes", lambda n: ("GET", f"/images/{acc}/files/0", None)),
    ]


def answered(server, question, visit):
    """The clock's time of a visit, and the server's processor time."""
    method, path, body = question.ask(visit)
    asked = rooms.question(method, path, question.key, body)
    spent, began = server.spent(), time.monotonic()
    reply = server.visit(asked)
    took = time.monotonic() - began, server.spent() - spent
    if not reply.startswith(b"HTTP/1.1 %d " % question.status):
        sys.exit(f"{method} {path}: {reply[:300]!r}")
    return took


def serve(stores, visits, before=lambda name: ()):
    """A server of each desk over its store."""
    return {
        name: rooms.Server(rooms.desk_serves(program), store, visits, before(name))
        for name, (program, store) in stores.items()
    }


def openings(stores):
    """By desk the median of the clock's times of an opening, and that of the processor's. The desks take turns."""
    took = {name: [] for name in stores}
    for _ in range(OPENINGS):
        for name, (program, store) in stores.items():
            began = time.monotonic()
            with rooms.Server(rooms.desk_serves(program), store, 1) as server:
                took[name].append((time.monotonic() - began, server.spent()))
                server.visit(rooms.question("GET", "/nowhere"))
                server.end()
    return {name: tuple(statistics.median(part) for part in zip(*found)) for name, found in took.items()}


def times(stores, asked, visits):
    """By desk and title the median of the clock's times, and that of the processor's."""
    found = {name: {} for name in stores}
    servers = serve(stores, len(asked) * visits)
    try:
        for question in asked:
            took = {name: [] for name in stores}
            for visit in range(visits):
                for name, server in servers.items():
                    took[name].append(answered(server, question, visit))
            for name in stores:
                found[name][question.title] = tuple(statistics.median(part) for part in zip(*took[name]))
        for server in servers.values():
            server.end()
    finally:
        for server in servers.values():
            server.process.kill()
    return found


def traced(stores, asked, first, folder):
    """By desk and title how many syncs a visit takes, and how many bytes it writes to the store's files."""
    found = {name: {} for name in stores}
    for name, store in stores.items():
        for question in asked:
            path = os.path.join(folder, f"{name}.trace")
            words = ("strace", "-f", "-e", "trace=fsync,fdatasync,pwrite64", "-s", "0", "-o", path)
            # an opening and its end are counted by themselves, and taken off
            empty = counts_of({name: store}, [], 0, words, path)
            filled = counts_of({name: store}, [question], first, words, path)
            found[name][question.title] = tuple((more - less) / TRACED for more, less in zip(filled, empty))
    return found


def counts_of(store, asked, first, words, path):
    """The syncs, and the bytes written, of a server that is asked so often."""
    (server,) = serve(store, TRACED, lambda _: words).values()
    with server:
        for visit in range(TRACED):
            if asked:
                method, target, body = asked[0].ask(first + visit)
                server.visit(rooms.question(method, target, asked[0].key, body))
            else:
                server.visit(rooms.question("GET", "/nowhere"))
        server.end()
    with open(path, "rb") as trace:
        calls = CALL.findall(trace.read())
    written = [int(count) for call, count in calls if call == b"pwrite64"]
    return len(calls) - len(written), sum(written)


def show(title, first, other):
    """A line: a title, and one value divided by another."""
    print(f"{title:34}{other / first if first else float('nan'):8.2f}")


def main():
    parser = argparse.ArgumentParser(usage=__doc__)
    parser.add_argument("programs", nargs="+")
    parser.add_argument("--sums", metavar="NAME", action="append", default=[])
    parser.add_argument("--size", type=int, default=100)
    parser.add_argument("--visits", type=int, default=20)
    words = parser.parse_args()
    rooms.install(["strace"], ["strace"])
    programs, asked = rooms.named_programs(words.programs), questions(words.size)
    with tempfile.TemporaryDirectory() as folder:
        stores = {name: (program, os.path.join(folder, f"{name}.sqlite")) for name, program in programs.items()}
        for name, (program, store) in stores.items():
            rooms.fill(program, store, rooms.Shelf(words.size), ["--sums"] if name in words.sums else [])
        opened = openings(stores)
        timed = times(stores, asked, words.visits)
        counted = traced(stores, asked, words.visits, folder)
    base = next(iter(programs))
    for name in programs:
        print(f"{name}, beside {base}")
        show("opening, by the clock", opened[base][0], opened[name][0])
        show("opening, processor", opened[base][1], opened[name][1])
        for title in (question.title for question in asked):
            show(f"{title}, by the clock", timed[base][title][0], timed[name][title][0])
            show(f"{title}, processor", timed[base][title][1], timed[name][title][1])
            print(f"{title + ', syncs and bytes':34}{counted[name][title][0]:8.1f}{counted[name][title][1]:12,.0f}")


if __name__ == "__main__":
    main()
