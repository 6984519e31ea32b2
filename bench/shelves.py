#!/usr/bin/env python3
"""bench/shelves.py PROGRAM [--sizes 10 100 1000] [--visits N]: how cost grows with the number of accessions.

PROGRAM is a desk. It makes and fills a store for each size, of accessions of 174,848 bytes with eight files each. Then
each request is made of a server that this script started, over loopback, and its processor time is read, of its own and
of the system for it. Of opening the store, the time up to the line `listening` and the most memory up to then are
taken. It prints each as a ratio to that of the smallest store, the median of the visits or of five openings, and the
memory also for each byte of the store's files."""

import argparse
import hashlib
import os
import statistics
import sys
import tempfile
import time

import rooms

OPENINGS = 5
OTHER_KEY = hashlib.sha256(b"another").hexdigest()


class Question:
    """What is asked: by whose key, the status that is due, and its method, path and body at a visit of some number."""

    def __init__(self, title, ask, key=rooms.STAFF, status=200):
        self.title = title
        self.ask = ask
        self.key = key
        self.status = status


def put_disk(acc):
    """The method, path and body that put the disk of an accession."""
    return rooms.put_of_image(acc, rooms.shelf_disk(acc))


def questions(size):
    """What is asked of a store of a size."""
    acc = size // 2
    rule = rooms.rule("public", "deny", slot=3)
    return [
        Question("a denied file", lambda n: ("GET", f"/images/{acc}/files/7", None), rooms.ROOM, 403),
        Question("a file of 2,000 bytes", lambda n: ("GET", f"/images/{acc}/files/0", None)),
        Question("listing of 8 files", lambda n: ("GET", f"/images/{acc}", None)),
        Question("survey", lambda n: ("GET", f"/images/{acc}/survey", None)),
        Question("check", lambda n: ("POST", f"/images/{acc}/check", None)),
        Question("images", lambda n: ("GET", "/images", None)),
        Question("catalogue", lambda n: ("GET", "/catalogue", None)),
        Question("put of a deed", lambda n: ("PUT", "/deeds/8", b'{"donor":"B. Donor","signed":"2020-02-29"}')),
        Question("put of a rule", lambda n: ("PUT", f"/images/{acc}/rules/9", rule)),
        Question("drop of a rule", lambda n: ("DELETE", f"/images/{acc}/rules/9", None)),
        Question("put of a key", lambda n: ("PUT", f"/badges/{OTHER_KEY}", b'{"audience":"room"}')),
        Question("drop of a key", lambda n: ("DELETE", f"/badges/{OTHER_KEY}", None)),
        Question("put of the same image", lambda n: put_disk(acc)),
        Question("put of an image", lambda n: put_disk(size + 1 + n)),
    ]


def time_of(server, question, visits):
    """The processor time of a request, the median of some visits."""
    times = []
    for n in range(visits):
        method, path, body = question.ask(n)
        asked = rooms.question(method, path, question.key, body)
        before = server.spent()
        reply = server.visit(asked)
        times.append(server.spent() - before)
        if not reply.startswith(b"HTTP/1.1 %d " % question.status):
            sys.exit(f"{method} {path}: {reply[:300]!r}")
    return statistics.median(times)


def opening(program, store):
    """The time from the start of a server to its line `listening`, and its most memory then, in bytes."""
    times, memory = [], []
    for _ in range(OPENINGS):
        before = time.monotonic()
        with rooms.Server(rooms.desk_serves(program), store, 1) as server:
            times.append(time.monotonic() - before)
            memory.append(1024 * server.most_memory())
            server.visit(rooms.question("GET", "/nowhere"))
            server.end()
    return statistics.median(times), statistics.median(memory)


def size_of(store):
    return sum(os.path.getsize(path) for path in (store, store + "-wal") if os.path.exists(path))


def measure(program, size, visits, folder):
    """What a store of a size costs, by what it is, and its memory for each byte of its files."""
    store = os.path.join(folder, f"{size}.sqlite")
    rooms.fill(program, store, rooms.Shelf(size))
    seconds, memory = opening(program, store)
    costs = {"opening: time": seconds, "opening: memory": memory}
    for_each_byte = memory / size_of(store)
    asked = questions(size)
    with rooms.Server(rooms.desk_serves(program), store, len(asked) * visits + 1) as server:
        costs |= {question.title: time_of(server, question, visits) for question in asked}
        server.visit(rooms.question("GET", "/nowhere"))
        server.end()
    return costs, for_each_byte


def main():
    parser = argparse.ArgumentParser(usage=__doc__)
    parser.add_argument("program")
    parser.add_argument("--sizes", type=int, nargs="+", default=[10, 100, 1000])
    parser.add_argument("--visits", type=int, default=20)
    words = parser.parse_args()
    with tempfile.TemporaryDirectory() as folder:
        measured = [measure(os.path.abspath(words.program), size, words.visits, folder) for size in words.sizes]
    print(f"{'accessions':24}" + "".join(f"{size:>10,}" for size in words.sizes))
    least = measured[0][0]
    for title in least:
        print(f"{title:24}" + "".join(f"{costs[title] / least[title]:10.2f}" for costs, _ in measured))
    print(f"{'memory for each byte':24}" + "".join(f"{for_each_byte:10.2f}" for _, for_each_byte in measured))


if __name__ == "__main__":
    main()
