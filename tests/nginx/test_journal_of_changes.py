"""The journal: who may read it, and what was rotated away of it; a disk that is full, and workers that are killed."""

import concurrent.futures
import contextlib
import gzip
import http.client
import json
import os
import pathlib
import random
import signal
import socket
import threading
import time

import pytest
from support.room import give_to_nginx, wait_until
from support.samples import DEED, NOBODY, ROOM, STAFF, badge, bytes_of, check, drop, get, put, put_image

MONTHS = ["/journal", "/journal-2026-11", "/journal-2026-10"]

@pytest.fixture
def kept(room, journal):
    """The journal, and two months that were rotated away, one of them packed: their bytes by their paths."""
    data, months = journal.path.read_bytes(), [room.folder / f"journal-2026-{name}" for name in ("11", "10.gz")]
    months[0].write_bytes(data * 2)
    months[1].write_bytes(gzip.compress(data * 3))
    yield dict(zip(MONTHS, (data, data * 2, data * 3)))
    for month in months:
        month.unlink()

@pytest.mark.parametrize("path", MONTHS)
def test_staff_reads_the_journal(kept, staff, path):
    plain = staff.get(path, key=STAFF)
    said = plain.status, plain.getheader("Content-Type"), plain.getheader("Cache-Control"), plain.body
    assert said == (200, "application/x-ndjson", "no-store", kept[path])
    assert staff.get(path, ("Accept-Encoding", "gzip"), key=STAFF).unpacked() == kept[path]

def test_staff_reads_a_part_of_the_journal(kept, staff):
    length = len(kept["/journal"])
    part = staff.get("/journal", ("Range", "bytes=-50"), key=STAFF)
    place = f"bytes {length - 50}-{length - 1}/{length}"
    assert (part.status, part.body, part.getheader("Content-Range")) == (206, kept["/journal"][-50:], place)
    assert staff.get("/journal", ("Range", f"bytes={length}-"), key=STAFF).is_refusal(416)

@pytest.mark.parametrize("key, status", [(None, 403), (ROOM, 403), (NOBODY, 401)])
def test_nobody_else_reads_it(kept, room, staff, key, status):
    """They get the desk's own refusal."""
    for path in kept:
        reply = staff.get(path, key=key)
        assert (reply.status, reply.body) == room.ask_desk(get("/staff/keys", key)), path
        assert (reply.status, reply.getheader("Cache-Control")) == (status, "no-store")
        assert [staff.ask(method, path, key=key).status for method in ("HEAD", "DELETE")] == [status] * 2

def test_what_is_no_journal_is_refused(room, staff, kept):
    for path in ("/.journal", "/.staff", "/journal-2026", "/journal-2026-11.gz", "/journal/", "/journal-2026-12"):
        assert staff.get(path, key=STAFF).is_refusal(404), path
    for method in ("PUT", "POST", "DELETE", "PATCH"):
        assert staff.ask(method, "/journal", key=STAFF).is_refusal(405), method
    assert (room.folder / "journal").read_bytes() == kept["/journal"]
    assert b"journal-2026-12" not in (room.folder / "error.log").read_bytes()

def test_journal_that_cannot_be_read_is_told(room, staff, journal):
    mode = journal.path.stat().st_mode
    journal.path.chmod(0)
    try:
        closed = staff.get("/journal", key=STAFF)
    finally:
        journal.path.chmod(mode)
    aside = journal.path.rename(room.folder / "aside")
    try:
        missing = staff.get("/journal", key=STAFF)
    finally:
        aside.rename(journal.path)
    assert closed.is_refusal(500) and missing.is_refusal(404), (closed, missing)
    with room.desk_down():
        assert staff.get("/journal", key=STAFF).is_refusal(502)

A_DEED, BAD_KEY = put("/deeds/70", DEED), put("/deeds/70", DEED, NOBODY)
IMAGE = put_image(701, "d64", 9, bytes_of("images", "museum.d64"))
COMMANDS = [A_DEED, drop("/images/15/rules/77"), check(15), put(badge("x"), {"audience": "room"}), IMAGE]

@pytest.mark.parametrize("place", ["JOURNAL", "STORE"])
def test_full_disk_refuses_commands_and_says_why(room, staff, journal, place):
    with room.small_disk(60) as (folder, before), room.asked_for_space(*before, **{place: folder / "file"}):
        for command in COMMANDS:
            reply = staff.send(command)
            said = reply.status, reply.body, reply.getheader("Content-Type"), reply.getheader("Retry-After")
            assert said == (503, b'{"error":"no-space"}', "application/json", "5"), command
        assert [staff.get(path, key=STAFF).status for path in ("/images/15/files/0", "/journal")] == [200, 200]
        assert staff.ask("PUT", "/staff/rehearsals/2030-01-01/deeds/9/rules/1", key=STAFF).status == 400
    assert journal.lines() == []

def test_disk_with_room_takes_commands(room, staff, journal):
    with room.small_disk(70) as (folder, before), room.asked_for_space(*before, JOURNAL=folder / "file"):
        assert [staff.send(command).status for command in (A_DEED, BAD_KEY)] == [200, 401]
    assert [line["status"] for line in journal.lines()] == ["begun", "200"]
    with room.asked_for_space(JOURNAL=room.folder / "none" / "file"):
        assert staff.send(A_DEED).status == 503

@pytest.mark.parametrize("listens", [False, True])
def test_where_nobody_says_whether_there_is_room_commands_go_on(room, staff, listens):
    place = room.folder / "space" / "socket"
    place.parent.mkdir()
    try:
        with socket.socket(socket.AF_UNIX) as silent:
            silent.bind(str(place))
            give_to_nginx(place, 0o660)
            if listens:
                silent.listen()
            assert staff.send(A_DEED).status == 200
    finally:
        place.unlink(missing_ok=True)
        place.parent.rmdir()

def send(room, numbers, done, is_over):
    """Sends commands without a rest, each of a deed of its own, and keeps the paths of those that were told done."""
    for path in (f"/deeds/{number}" for number in numbers):
        if is_over.is_set():
            break
        # a worker that is killed ends its connections
        with contextlib.suppress(OSError, http.client.HTTPException):
            if room.ask_staffs_door(put(path, DEED)) == (200, b'{"done":true}'):
                done.add(path)

@pytest.mark.parametrize("kills", [10, pytest.param(200, marks=pytest.mark.long)])
def test_what_was_told_done_has_begun_in_the_journal(room, seed, kills):
    chance, is_over, done, journal = random.Random(seed), threading.Event(), set(), room.folder / "journal"
    start, pid = journal.stat().st_size, room.nginx[-1].pid
    workers = pathlib.Path(f"/proc/{pid}/task/{pid}/children")
    with concurrent.futures.ThreadPoolExecutor(2) as pool, contextlib.ExitStack() as stack:
        stack.callback(is_over.set)
        streams = [pool.submit(send, room, range(first, 2 * first), done, is_over) for first in (10_000, 500_000)]
        for number in range(kills):
            wait_until(lambda: len(done) > number)
            time.sleep(chance.uniform(0, 0.1))
            # nginx's first process starts others in their place
            for worker in workers.read_text().split():
                with contextlib.suppress(ProcessLookupError):
                    os.kill(int(worker), signal.SIGKILL)
    for stream in streams:
        stream.result()
    lines = [json.loads(line) for line in journal.read_bytes()[start:].splitlines()]
    # what a killed worker has begun never ends, and nobody may wait for it
    os.truncate(journal, start)
    begun, ended = ({line["path"] for line in lines if line["status"] == status} for status in ("begun", "200"))
    assert len(done) >= kills and done | ended <= begun, (done | ended) - begun
