"""Where the repository and its program are, free ports, connections to a place, and a desk that serves."""

import contextlib
import http.client
import os
import pathlib
import random
import select
import socket
import subprocess
import sys
import threading
import time
import zlib
from concurrent import futures

ROOT = str(pathlib.Path(__file__).resolve().parents[2])
HOST = "127.0.0.1"
# Ports from this one on are nobody's by custom, and no browser refuses them.
FIRST_PORT = 10240
# After how many seconds a client or the program is given up, and a number of visits that no desk here reaches.
LIMIT, ENDLESS = 60, 1_000_000

def bytes_of(*parts):
    """The bytes of a file of this repository, or of one that is named by its whole path."""
    return pathlib.Path(ROOT, *parts).read_bytes()

def free_ports(count):
    """Ports at which nobody listens now. Linux gives none of them to who connects, before somebody listens there; and
    each worker of a run takes its own 64th of them, for two that look at the same moment would find the same."""
    given = int(pathlib.Path("/proc/sys/net/ipv4/ip_local_port_range").read_text().split()[0])
    worker = int(os.environ.get("PYTEST_XDIST_WORKER", "gw7").removeprefix("gw")) % 8
    run = zlib.crc32(os.environ.get("PYTEST_XDIST_TESTRUNUID", str(os.getpid())).encode()) % 8
    some = range(FIRST_PORT + 8 * worker + run, max(given, 2 * FIRST_PORT), 64)
    ports, found = iter(random.SystemRandom().sample(some, len(some))), []
    with contextlib.ExitStack() as stack:
        while len(found) < count:
            port, probe = next(ports), stack.enter_context(socket.socket())
            with contextlib.suppress(OSError):
                probe.bind((HOST, port))
                found.append(port)
    return found

def free_port():
    return free_ports(1)[0]

def wait_until(holds, seconds=LIMIT):
    """Waits until something holds, and gives it; fails where nothing does in time."""
    end = time.monotonic() + seconds
    while not (found := holds()):
        if time.monotonic() > end:
            raise TimeoutError(f"not within {seconds} s: {holds}")
        time.sleep(0.02)
    return found

def wait_for(port, process, seconds=LIMIT):
    """Waits until a process listens at a port, for so many seconds at most."""

    def listens():
        assert process.poll() is None, f"nobody listens at port {port}"
        with socket.socket() as probe:
            return probe.connect_ex((HOST, port)) == 0

    wait_until(listens, seconds)

def connected(place, room=None):
    """A plain socket to a port or a Unix socket, that sends at once. Its system keeps so much that it has not read."""
    is_port = isinstance(place, int)
    connection = socket.socket(socket.AF_INET if is_port else socket.AF_UNIX)
    connection.settimeout(LIMIT)
    if is_port:
        connection.setsockopt(socket.IPPROTO_TCP, socket.TCP_NODELAY, 1)
    if room:
        connection.setsockopt(socket.SOL_SOCKET, socket.SO_RCVBUF, room)
        # small segments make the desk's system keep little, too: over loopback it takes megabytes of large ones
        if is_port:
            connection.setsockopt(socket.IPPROTO_TCP, socket.TCP_MAXSEG, 536)
    connection.connect((HOST, place) if is_port else str(place))
    return connection

def reply_at(place, asked):
    """What http.client tells of the reply to a request, and its body."""
    client = http.client.HTTPConnection(HOST, place if isinstance(place, int) else None)
    client.connect = lambda: setattr(client, "sock", connected(place))
    with contextlib.closing(client):
        client.request(asked.method, asked.path, asked.body, {} if asked.key is None else {"Desk-Key": asked.key})
        reply = client.getresponse()
        return reply, reply.read()

@contextlib.contextmanager
def alongside(act):
    """While this is entered, something is done, by an event that is set at the end. What breaks it is raised."""
    ended = threading.Event()
    with futures.ThreadPoolExecutor(1) as pool:
        running = pool.submit(act, ended)
        try:
            yield running
        finally:
            ended.set()
        running.result(2 * LIMIT)

class Serving(contextlib.AbstractContextManager):
    """The program while it serves visits of a store, at a place or at a free port. With few_files it may open no more
    than so many files. Words before it, such as those of strace, run it."""

    def __init__(self, program, store, count=ENDLESS, words=(), environment=(), place=None, few_files=0, before=()):
        self.place = free_port() if place is None else place
        self.port = self.place if isinstance(self.place, int) else None
        where = ["--port" if self.port else "--socket", str(self.place), "--store", str(store), "--count", str(count)]
        how = {"bufsize": 0, "stdin": subprocess.DEVNULL, "stdout": subprocess.PIPE, "stderr": subprocess.PIPE}
        before = [*before, *(["prlimit", f"--nofile={few_files}"] if few_files else [])]
        environment = {**os.environ, **dict(environment or ())}
        self.process = subprocess.Popen([*before, program, "serve", *where, *words], env=environment, **how)

    def __exit__(self, *_):
        self.kill()

    def kill(self):
        """Ends it as a loss of power would. Errors that it wrote and that nobody has looked at are shown."""
        self.process.kill()
        if not self.process.stderr.closed:
            print(self.process.communicate()[1].decode(errors="replace"), end="", file=sys.stderr)

    def wanted_line(self):
        return f"listening {f'{HOST}:' if self.port else ''}{self.place}\n"

    def line(self):
        """The first line that it writes. It is killed where it writes none in time."""
        if not select.select([self.process.stdout], [], [], LIMIT)[0]:
            self.process.kill()
        return self.process.stdout.readline().decode()

    def listens(self):
        line = self.line()
        assert line == self.wanted_line(), (line, self.end())

    def end(self):
        """How it ends: its status, what else it wrote, and its errors."""
        try:
            written, errors = self.process.communicate(timeout=LIMIT)
        except subprocess.TimeoutExpired:
            return "it does not end"
        return self.process.returncode, written.decode(), errors.decode()
