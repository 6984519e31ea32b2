"""Clients of a desk, a desk that serves them with few files open, and the rules of clocks that show a wished hour."""

import contextlib
import datetime
import functools
import socket
import time

from support import server
from support.samples import head, raw
from support.server import alongside, connected, reply_at

# How long a client waits between its parts, and how many files a desk may open that a connection left open stops soon.
PAUSE, OPEN_FILES = 0.3, 32
Serving = functools.partial(server.Serving, few_files=OPEN_FILES)

def curl(port, path, *words):
    """The words of a visit by curl, without the settings of its user."""
    always = "curl -q -sS -i --raw -g --path-as-is --noproxy * --max-time 60".split()
    return [*always, *words, f"http://{server.HOST}:{port}{path}"]

def by_client(place, asked):
    """The bytes of what http.client tells of a reply."""
    reply, body = reply_at(place, asked)
    lines = [f"{name}: {value}" for name, value in reply.getheaders()]
    return head(f"HTTP/{reply.version / 10} {reply.status} {reply.reason}", *lines) + body

def read_all(connection):
    """The bytes that come, and how they end: with an end or a reset."""
    came = b""
    with contextlib.suppress(ConnectionResetError):
        while part := connection.recv(65536):
            came += part
        return came, "an end"
    return came, "a reset"

def by_socket(place, parts, ends=False, pause=PAUSE):
    """The bytes that come, and how they end. A desk that closes early is heard all the same."""
    with connected(place) as connection:
        for number, part in enumerate(parts):
            time.sleep(pause if number else 0)
            with contextlib.suppress(BrokenPipeError, ConnectionResetError):
                connection.sendall(part)
        if ends:
            connection.shutdown(socket.SHUT_WR)
        return read_all(connection)

def ask(place, asked):
    """The bytes of the reply to a request, which have to end with an end."""
    came, ending = by_socket(place, [raw(asked)])
    assert ending == "an end", came[:1000]
    return came

def beside(act, client):
    """Has a client act until the block ends. It is no fault that the desk ends the connection; others are handed on."""

    def run(ended):
        with contextlib.suppress(BrokenPipeError, ConnectionResetError):
            act(client, ended)

    return alongside(run)

def zone_of(seconds):
    """The rule of clocks that are so many seconds ahead of UTC; a rule counts how far they are behind it."""
    return f"<DAY>{'-' if seconds >= 0 else ''}{datetime.timedelta(seconds=abs(seconds))}"

def noon_zone():
    """The rule of a clock that shows about noon of the day that UTC has, so one day for eleven hours and more."""
    return zone_of(43200 - int(time.time()) % 86400)
