"""Fixtures of a reading room behind the real nginx: the room, its doors, and its journal."""

import contextlib
import gzip
import http.client
import io
import itertools
import json
import socket
import types

import pytest
from support.room import Room, wait_until
from support.samples import FIRST, MORE, STAFF
from support.server import HOST, LIMIT

INPUTS = ("operate", "web", "images", "crates/rd_trials/data")
DRAWS = True
# After how many seconds to try again.
RETRY = {429: "2", 502: "5", 503: "5", 504: "60"}
numbers = itertools.count(1)

class Reply(http.client.HTTPResponse):
    """The reply in the bytes of a connection that has ended, and its body; behind that of HEAD, all that came."""

    def __init__(self, data, is_head=False):
        stream = io.BytesIO(data)
        super().__init__(types.SimpleNamespace(makefile=lambda mode: stream))
        self.begin()
        self.body = stream.read() if is_head else self.read()

    def __repr__(self):
        return f"{self.status} {self.getheaders()} {self.body[:200]!r}"

    def unpacked(self):
        return gzip.decompress(self.body) if self.getheader("Content-Encoding") == "gzip" else self.body

    def is_refusal(self, status):
        """Whether nginx itself has refused the request, in the desk's way."""
        due = status, b'{"error":"server-%d"}' % status, "application/json", RETRY.get(status)
        return due == (self.status, self.body, self.getheader("Content-Type"), self.getheader("Retry-After"))

class Door:
    """A door of a room: "staff"; or "outside" or "http", from an address of its own, since nginx counts by these."""

    def __init__(self, room, name):
        self.room, self.name, number = room, name, next(numbers)
        self.address = HOST if name == "staff" else f"127.1.{number // 250}.{number % 250 + 1}"
        self.port = {"outside": room.https_port, "staff": room.staff_port, "http": room.http_port}[name]

    def connected(self):
        plain = socket.create_connection((HOST, self.port), LIMIT, (self.address, 0))
        return self.room.trusting().wrap_socket(plain, server_hostname=HOST) if self.name == "outside" else plain

    def exchange(self, data):
        """What comes for bytes that end their connection, which nginx may close before it has them all."""
        came = b""
        with self.connected() as connection, contextlib.suppress(ConnectionResetError):
            with contextlib.suppress(BrokenPipeError, ConnectionResetError):
                connection.sendall(data)
            while part := connection.recv(65536):
                came += part
        return came

    def reply_to(self, data, is_head=False):
        return Reply(self.exchange(data), is_head)

    def ask(self, method, path, *fields, body=b"", key=None, host="localhost"):
        """The reply to a request. A body goes with its length, or as some field says."""
        lines = [f"{method} {path} HTTP/1.1", f"Host: {host}", "Connection: close"]
        lines += [] if key is None else [f"Desk-Key: {key}"]
        lines += [f"Content-Length: {len(body)}"] if body and "Transfer-Encoding" not in dict(fields) else []
        lines += [f"{name}: {value}" for name, value in fields]
        return self.reply_to("".join(f"{line}\r\n" for line in [*lines, ""]).encode("latin-1") + body, method == "HEAD")

    def get(self, path, *fields, key=None):
        return self.ask("GET", path, *fields, key=key)

    def send(self, asked):
        """The reply to a request of support.samples."""
        return self.ask(asked.method, asked.path, body=asked.body or b"", key=asked.key)

class Journal:
    """The lines of a room's journal from some point on."""

    def __init__(self, room):
        self.staff, self.path, self.start = Door(room, "staff"), room.folder / "journal", 0
        self.lines()
        self.start = self.path.stat().st_size

    def read(self):
        whole = self.path.read_bytes()[self.start :].rpartition(b"\n")[0]
        return [json.loads(line.decode("utf-8", "surrogateescape")) for line in whole.splitlines()]

    def is_whole(self, path):
        """Whether a command has come, and each that has begun has ended: nginx writes its last line after the reply."""
        lines = self.read()
        ended = {line["id"] for line in lines if line["status"] != "begun"}
        return any(line["path"] == path for line in lines) and {line["id"] for line in lines} == ended

    def lines(self):
        """The lines of all that has come so far, without those of a last command, which changes nothing."""
        path = f"/deeds/7/rules/9999?{next(numbers)}!"
        assert self.staff.ask("DELETE", path, key=STAFF).status == 200
        wait_until(lambda: self.is_whole(path))
        return [line for line in self.read() if line["path"] != path]

@pytest.fixture(scope="module")
def room(program):
    """A filled reading room with its nginx. Tests of a file share it, in any order and in part."""
    with Room(program) as made:
        assert made.run("init", "--store", str(made.store), "--key", STAFF) == (0, "done\n", "")
        made.start_desk()
        for label, asked, _ in (*FIRST, *MORE):
            assert made.ask_desk(asked)[0] == 200, label
        made.start_nginx()
        yield made

@pytest.fixture
def outside(room):
    """The readers' door."""
    return Door(room, "outside")

@pytest.fixture
def redirecting(room):
    """The door of plain HTTP, which sends on to HTTPS."""
    return Door(room, "http")

@pytest.fixture
def staff(room):
    """The staff's door."""
    return Door(room, "staff")

@pytest.fixture(params=["outside", "staff"])
def door(request):
    """Each of both doors."""
    return request.getfixturevalue(request.param)

@pytest.fixture
def journal(room):
    return Journal(room)
