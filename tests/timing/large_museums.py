"""Museums of many disks, desks that serve them as the service does, and how long visits take."""

import contextlib
import json
import re
import sqlite3
import statistics
import subprocess
import time

import pytest
from support import cbm_image
from support.room import asked_at
from support.samples import ALL, DEED, EVERY, ROOM, STAFF, badge, put, put_image, put_rule
from support.server import Serving, bytes_of

LONG = [pytest.mark.long, pytest.mark.timeout(3600)]
SIZES = pytest.mark.parametrize("disks", [300, pytest.param(10_000, marks=LONG)])
# One deed has a tenth of the disks, there are ten disks for each deed, and each tenth disk has a takedown.
LARGE_DEED, TENTH, CHECKS = 7, 10, 30
# The files of each disk: those that the reading room may read, and one that is denied to it.
FILES = [(0x82, b"FILE %d" % n, (bytes(range(250)) * 20)[: 2000 + 500 * n]) for n in range(7)]
DISK = cbm_image.filled(b"MUSEUM", [*FILES, (0x82, b"SECRET", bytes(900))])

def disk_of(acc):
    """The disk of an accession, with its number where no file is."""
    at = cbm_image.place(18, 0) + 200
    return DISK[:at] + acc.to_bytes(4, "big") + DISK[at + 4 :]

def seconds(server, question):
    """How long a visit takes, whose reply is 200 and has the body that is due, by its bytes or by a function."""
    asked, due = question
    begun = time.monotonic()
    status, body = asked_at(server.port, asked)
    taken = time.monotonic() - begun
    assert status == 200 and (due(body) if callable(due) else body == due), (asked[:3], status, body[:300])
    return taken

def has(count, key=None):
    """Whether a body has a list of so many: by a key of an object, or the lines of a table below its columns."""
    return lambda body: (len(json.loads(body)[key]) if key else body.count(b"\n") - 1) == count

def medians(turns, count):
    """How long each of several things takes, done in turn: the medians of so many times."""
    return [statistics.median(times) for times in zip(*[[turn() for turn in turns] for _ in range(count)])]

def megabytes(server, name):
    """The memory of a desk by a field of its status."""
    status = bytes_of(f"/proc/{server.process.pid}/status").decode()
    return int(re.search(rf"^{name}:\s+(\d+) kB$", status, re.M)[1]) * 1024 / 1e6

class Museum:
    """A store of so many disks, which the desk makes; SQLite adds a check of each disk on thirty days."""

    def __init__(self, program, store, disks):
        self.program, self.store, self.disks = program, store, disks
        self.deeds = [LARGE_DEED, *range(1001, 1000 + max(2, disks // TENTH))]
        self.takedowns = range(TENTH, disks + 1, TENTH)
        subprocess.run([program, "init", "--store", store, "--key", STAFF], check=True, capture_output=True)
        with self.serving() as server:
            for asked in self.commands():
                seconds(server, (asked, bool))
        with contextlib.closing(sqlite3.connect(store)) as connection, connection:
            days = [(int(time.time()) // 86400 - day,) for day in range(1, CHECKS + 1)]
            connection.executemany("INSERT INTO checked SELECT acc, ?, 0 FROM image", days)

    def commands(self):
        yield put(badge(ROOM), {"audience": "room"})
        for num in self.deeds:
            yield put(f"/deeds/{num}", DEED)
            yield put_rule(f"/deeds/{num}/rules/10", "deny", {"prefix": "SECRET"}, "public", "room")
            yield put_rule(f"/deeds/{num}/rules/30", "read", EVERY, *ALL)
        for acc in range(1, self.disks + 1):
            deed = 0 if acc <= max(1, self.disks // TENTH) else 1 + acc % (len(self.deeds) - 1)
            yield put_image(acc, "d64", self.deeds[deed], disk_of(acc))
        for acc in self.takedowns:
            yield put_rule(f"/images/{acc}/rules/1", "deny", {"slot": 150}, *ALL)

    @contextlib.contextmanager
    def serving(self):
        """A desk that serves the museum, with the variable of the C library that the service sets."""
        service = bytes_of("operate", "package", "desk.service").decode()
        trim = re.findall(r"^Environment=(MALLOC_TRIM_THRESHOLD_)=(\d+)$", service, re.M)
        assert trim, "desk.service does not say when memory goes back to the system"
        with Serving(self.program, self.store, environment=trim) as server:
            # (a large store takes longer to open than other tests wait; the limit of the test bounds this)
            assert server.process.stdout.readline().decode() == server.wanted_line()
            yield server
