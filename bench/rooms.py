"""Stores that a desk fills by its own commands, servers over them, and visitors: what the benches of visits share."""

import ctypes
import hashlib
import json
import os
import shutil
import socket
import sqlite3
import subprocess
import sys
import time

HERE = os.path.dirname(os.path.abspath(__file__))
sys.path.insert(0, os.path.join(HERE, "..", "tests"))
import images
from support import cbm_image

HOST = "127.0.0.1"
STAFF = "open sesame"
ROOM = "room 3"
DEED = 7
LIMIT = 600
C_PACKAGES = ["gcc", "libc6-dev", "libsqlite3-dev"]
C_NEEDED = ["gcc", "/usr/include/stdio.h", "/usr/include/sqlite3.h"]

# The files of the store for the questions about one accession: the accession and the slot of each, and of the crowded
# disk the accession.
LONG, SHORT, DENIED, CROWD = (1, 0), (2, 0), (2, 1), 3
LONG_SIZE, SHORT_SIZE = 168656, 258


def install(needed, packages):
    """Installs Debian's packages where a program or a file of theirs is missing, and says which where it may not."""
    missing = [name for name in needed if not (os.path.exists(name) if os.path.isabs(name) else shutil.which(name))]
    if missing and os.geteuid():
        sys.exit(f"missing: {' '.join(missing)}; run as root: apt-get install {' '.join(packages)}")
    if missing:
        subprocess.run(["apt-get", "install", "-y", "-qq", "--no-install-recommends", *packages], check=True)


# Images


def numbered(count, step=7):
    """Bytes that tell their places apart."""
    return bytes((step * n + n // 256) % 251 for n in range(count))


def disk(files):
    """A 1541 disk of these programs: names and contents."""
    return cbm_image.filled(b"MUSEUM", [(0x82, name, data) for name, data in files])


def marked(image, number):
    """An image that differs from others by a number in a place that no file has."""
    at = cbm_image.place(18, 0) + 200
    return image[:at] + number.to_bytes(4, "big") + image[at + 4 :]


def few_files():
    """The images of the store for the questions about one accession, by accession."""
    short = [(b"HELLO", numbered(SHORT_SIZE)), (b"SECRET PLANS", numbered(1000)), (b"OTHER", numbered(5000))]
    return {1: disk([(b"LONG", numbered(LONG_SIZE))]), 2: disk(short), CROWD: images.crowded_d64()}


# The files of each disk of a shelf: those that the reading room may read, and one that is denied to it.
OPEN_FILES = [(b"FILE %d" % n, numbered(2000 + 500 * n, n + 3)) for n in range(7)]
SHELF_DISK = disk([*OPEN_FILES, (b"SECRET", numbered(900))])


def shelf_disk(acc):
    """The image of an accession of a shelf, a 1541 disk with eight files."""
    return marked(SHELF_DISK, acc)


class Shelf:
    """So many accessions, from 1 on. Their images are made as they are asked for, so that a long shelf takes little
    memory."""

    def __init__(self, count):
        self.count = count

    def __len__(self):
        return self.count

    def items(self):
        """The accessions and their images."""
        return ((acc, shelf_disk(acc)) for acc in range(1, self.count + 1))


# Visits


def question(method, path, key=ROOM, body=None):
    """The bytes of a request."""
    lines = [f"{method} {path} HTTP/1.1", f"Host: {HOST}", f"Desk-Key: {key}"]
    if body is not None:
        lines.append(f"Content-Length: {len(body)}")
    return "\r\n".join(lines).encode() + b"\r\n\r\n" + (body or b"")


def visit(port, asked):
    """The bytes that come back of a visit."""
    with socket.create_connection((HOST, port), timeout=LIMIT) as connection:
        connection.sendall(asked)
        came = []
        while part := connection.recv(262144):
            came.append(part)
    return b"".join(came)


def body_of(reply):
    return reply.partition(b"\r\n\r\n")[2]


def free_port():
    with socket.socket() as probe:
        probe.bind((HOST, 0))
        return probe.getsockname()[1]


class Server:
    """A server that this script started, which serves so many visits and ends. Where it is not yet at its end when the
    block that uses it is, it is killed."""

    def __init__(self, command, store, count, before=()):
        """The command is a function of the store's path, a port and the number of visits; before it come the words of
        a program that runs it."""
        self.port = free_port()
        self.count = count
        words = [*before, *command(store, self.port, count)]
        self.process = subprocess.Popen(words, stdout=subprocess.PIPE, stderr=subprocess.PIPE, stdin=subprocess.DEVNULL)
        try:
            said = self.process.stdout.readline()
        except BaseException:
            self.process.kill()
            raise
        if said != f"listening {HOST}:{self.port}\n".encode():
            self.process.kill()
            sys.exit(f"{words} says {said!r}, {self.process.communicate()[1]!r}")

    def __enter__(self):
        return self

    def __exit__(self, *_):
        self.process.kill()
        self.process.communicate()

    def visit(self, asked):
        return visit(self.port, asked)

    def spent(self):
        """The seconds of processor time that it has taken, of its own and of the system for it."""
        library = ctypes.CDLL(None, use_errno=True)
        clock = ctypes.c_int()
        if library.clock_getcpuclockid(self.process.pid, ctypes.byref(clock)):
            sys.exit("no clock of the server's processor time")
        return time.clock_gettime(clock.value)

    def memory(self, name):
        """The memory that a field of its status shows, in kilobytes: VmRSS what it has now, VmHWM the most that it has
        had."""
        with open(f"/proc/{self.process.pid}/status") as status:
            return next(int(line.split()[1]) for line in status if line.startswith(name))

    def most_memory(self):
        return self.memory("VmHWM")

    def end(self):
        """Waits for its end, after its last visit."""
        told, errors = self.process.communicate(timeout=LIMIT)
        if self.process.returncode or told != f"served {self.count}\n".encode():
            sys.exit(f"the server ends with status {self.process.returncode}: {told!r} {errors[-500:]!r}")


# Programs and stores


def desk_serves(program):
    """The command by which a desk serves a store."""
    return lambda store, port, count: [program, "serve", "--store", store, "--port", str(port), "--count", str(count)]


def compiled_c(folder):
    """The C program, compiled into a folder; the command by which it serves a store."""
    path = os.path.join(folder, "visits")
    source = os.path.join(HERE, "visits.c")
    subprocess.run(["gcc", "-O2", "-g", "-o", path, source, "-lsqlite3"], check=True)
    return lambda store, port, count: [path, store, str(port), str(count)]


def rule(audiences, effect, **select):
    return json.dumps({"audiences": audiences.split(), "effect": effect, "select": select}).encode()


EVERYBODY = "public room staff"
# No disk has a file at this slot, so the takedown hides none; but it is looked at for each file.
TAKEDOWN = rule(EVERYBODY, "deny", slot=150)
# A deed with its rules, and a key.
FIRST_REQUESTS = [
    ("PUT", f"/deeds/{DEED}", b'{"donor":"A. Curator","signed":"2019-05-04"}'),
    ("PUT", f"/deeds/{DEED}/rules/10", rule("public room", "deny", prefix="SECRET")),
    ("PUT", f"/deeds/{DEED}/rules/20", rule("public", "list", type="USR")),
    ("PUT", f"/deeds/{DEED}/rules/30", rule(EVERYBODY, "read", all=True)),
    ("PUT", f"/badges/{hashlib.sha256(ROOM.encode()).hexdigest()}", b'{"audience":"room"}'),
]


def put_of_image(acc, image):
    """The method, path and body that put an image."""
    return "PUT", f"/accessions/{acc}/d64/{DEED}/{hashlib.sha256(image).hexdigest()}", image


def filling(accessions):
    """The requests that fill a store: the first ones, images, and a takedown of each."""
    yield from FIRST_REQUESTS
    for acc, image in accessions.items():
        yield put_of_image(acc, image)
        yield "PUT", f"/images/{acc}/rules/1", TAKEDOWN


def fill(program, store, accessions, words=()):
    """Makes a store, with further words of `init`, and fills it, by the desk's own commands."""
    subprocess.run([program, "init", *words, "--store", store, "--key", STAFF], check=True, stdout=subprocess.DEVNULL)
    with Server(desk_serves(program), store, len(FIRST_REQUESTS) + 2 * len(accessions)) as server:
        for method, path, body in filling(accessions):
            reply = server.visit(question(method, path, STAFF, body))
            if body_of(reply) != b'{"done":true}':
                sys.exit(f"{method} {path}: {reply[:500]!r}")
        server.end()


def copied(store, target):
    """A copy of a store that nobody serves, with all that its log holds in the file; False where it has no index of
    files, or no table for error bytes."""
    for end in ("", "-wal"):
        if os.path.exists(store + end):
            with open(store + end, "rb") as here, open(target + end, "wb") as there:
                there.write(here.read())
    connection = sqlite3.connect(target)
    tables = {name for (name,) in connection.execute("SELECT name FROM sqlite_schema WHERE type = 'table'")}
    connection.execute("PRAGMA wal_checkpoint(TRUNCATE)")
    connection.close()
    return {"found", "marks"} <= tables


def named_programs(words):
    """The programs that a script is called with, as NAME=PROGRAM, by their names."""
    named = [word.partition("=") for word in words]
    programs = {name: os.path.abspath(path) for name, _, path in named}
    for path in programs.values():
        if not os.access(path, os.X_OK):
            sys.exit(f"no program: {path}")
    return programs
