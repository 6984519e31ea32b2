"""Runs a command again and again, each time with something refused to it at another call, and says how it may end."""

import collections
import contextlib
import pathlib
import re
import shutil
import signal
import sqlite3
import struct
import subprocess
import tempfile

import pytest
import refused_commands
from support import server
from support.clients import by_socket
from support.samples import DONE, RECORD_DISK, digest

STORE, LIMIT = "museum.sqlite", 600
# Lines by which a command says that its store failed, which cannot tell why, and that it cannot read the last checks.
NO_STORE, NO_CHECKS = b"desk: store", b"desk: clock"
UNAVAILABLE = re.compile(rb'HTTP/1.1 503 .*\r\n\r\n{"error":"unavailable"}', re.S)
LONG = [pytest.mark.long, pytest.mark.timeout(3600)]
# How many calls of a command are refused one by one: some that are drawn, or all.
MOST = pytest.mark.parametrize("most", [pytest.param(10, id="drawn"), pytest.param(None, id="all", marks=LONG)])
# How a run ended, with the reply to a visitor.
Ended = collections.namedtuple("Ended", "status output errors reply")

class Memory:
    """Refuses one growth of memory. A command that says so has not done its work."""

    line, may_be_done, kills = b"desk: no-memory", False, False

    def __init__(self, library, counts):
        self.library, self.counts = library, counts

    def words(self, _, at=0):
        return ["env", f"REFUSE_AT={at}", f"REFUSE_COUNTS={self.counts}", f"LD_PRELOAD={self.library}"]

    def counted(self):
        """How many growths were asked for, how many were refused, and the first that failed a child."""
        return struct.unpack("3l", self.counts.read_bytes())

class Disk:
    """Fails each call on the store's files from one on, or those of its name alone, as a full disk fails writes and no
    syncs. A command that says so may have done its work."""

    line, may_be_done, kills = NO_STORE, True, False
    names = ("pread64", "pwrite64", "ftruncate", "fsync", "fdatasync", "statx")

    def __init__(self, told):
        self.told, self.made = told, []

    def words(self, place, at=0):
        files = [f"-P{place.now}{name}" for name in ("", f"/{STORE}", f"/{STORE}-wal")]
        return ["strace", "-f", "-q", "-o", self.told, f"-etrace={','.join(self.names)}", *files, *self.injected(at)]

    def injected(self, at):
        """strace counts the calls of each name by themselves."""
        before, names = self.made[: at - 1], self.made[at - 1 : at] if at % 2 else self.names
        faults = [f"-einject={name}:error=EIO:when={before.count(name) + 1}+" for name in names if at]
        return ["--seccomp-bpf", *faults]

    def counted(self):
        """How many calls came where nothing was refused, and whether one was refused now."""
        told = self.told.read_text()
        self.made = self.made or re.findall(r"^\d+ +(\w+)\(", told, re.M)
        return len(self.made), re.search(r"\(INJECTED\)|killed by SIGKILL", told)

class Kill(Disk):
    """Kills the program at one call on the store's files."""

    kills, names = True, (*Disk.names, "openat", "unlink")

    def injected(self, at):
        """With --seccomp-bpf strace 6.1 hands on no signal."""
        names = self.made[:at]
        return [f"-einject={name}:signal=SIGKILL:when={names.count(name)}" for name in names[-1:]]

class Place:
    """Where commands run: a folder with what they are given, one with the store that runs now, and a port."""

    def __init__(self, program, folder):
        self.program, self.work, self.now, self.port = program, folder / "given", folder / "now", server.free_port()
        self.names = {"store": self.now / STORE, "folder": self.now, "work": self.work}
        (self.work / "none").mkdir(parents=True)
        refused_commands.fill(self.work)
        # what SQLite says of a store of which the first bytes are torn
        self.known = {"torn": ("file is not a database", [])}

    def run(self, command, before=()):
        """How a command ends, behind some words that have something refused to it."""
        words = [*before, self.program, *command.words.format(port=self.port, **self.names).split()[1:]]
        pipe, begins, reply = subprocess.PIPE, b"", b""
        with subprocess.Popen(words, stdin=pipe, stdout=pipe, stderr=pipe) as process:
            try:
                if command.request:
                    begins = process.stdout.readline()
                    reply = reply_to(command.request, self.port) if begins else b""
                output, errors = process.communicate(RECORD_DISK, timeout=LIMIT)
            finally:
                process.kill()
        return Ended(process.returncode, begins + output, errors, reply)

    def take(self, name):
        """Makes the folder of the store a copy of one that has the store of a name."""
        if not (self.work / name).exists():
            before, text = refused_commands.STORES[name]
            self.take(before)
            if text.startswith("desk "):
                ran = self.run(refused_commands.Command(text))
                assert ran.status == 0, f"store {name}: {ran}"
            elif text:
                subprocess.run(["sqlite3", "-bail", self.now / STORE, text], check=True)
            shutil.copytree(self.now, self.work / name)
        shutil.rmtree(self.now, ignore_errors=True)
        shutil.copytree(self.work / name, self.now)
        self.known[name] = self.held()

    def held(self):
        """The digest of what SQLite dumps of a copy of the store, or its fault, and of what else is in the folder."""
        others = [path for path in sorted(self.now.iterdir()) if not path.name.startswith(STORE)]
        with tempfile.TemporaryDirectory(dir=self.now.parent) as copy:
            shutil.copytree(self.now, copy, dirs_exist_ok=True)
            with contextlib.closing(sqlite3.connect(pathlib.Path(copy, STORE))) as connection:
                try:
                    dump = digest("\n".join(connection.iterdump()).encode())
                except sqlite3.DatabaseError as fault:
                    dump = str(fault)
        return dump, [(path.name, digest(path.read_bytes())) for path in others]

def reply_to(request, place):
    """What comes of a request, as far as it comes: a desk that is killed or fails may end at any byte."""
    with contextlib.suppress(ConnectionError):
        return by_socket(place, [request])[0]
    return b""

class Sweep:
    """A command, what is refused to it, and how it ends where nothing is."""

    def __init__(self, place, command, refusal):
        self.place, self.command, self.refusal = place, command, refusal
        self.has_store, self.has_rows = "{store}" in command.words, command.words.split()[1] in ("import", "files")
        for name in (*command.stores, command.stores[0]):
            place.take(name)
        self.ever = place.run(command)
        assert self.ever.status == command.status and command.part in self.ever.output + self.ever.errors, self.ever
        assert self.holds(command.stores[-1]), "another store, though nothing is refused"
        self.look = refused_commands.Command(refused_commands.EXPORT)
        self.looked = place.run(self.look)
        place.take(command.stores[0])
        place.run(command, refusal.words(place))
        self.count = refusal.counted()[0]
        assert self.count > 0, "there is nothing to refuse"

    def holds(self, *names):
        return self.place.held() in [self.place.known[name] for name in names]

    def refuse(self, chance, most):
        """Has some calls refused, each in turn, the first and the last among them; or all."""
        every = range(1, self.count + 1)
        for at in sorted({1, self.count, *chance.sample(every, min(most, self.count))}) if most else every:
            ran = self.run(at)
            self.judge(ran)
            if not self.is_as_ever(ran):
                self.run_again(at)

    def run(self, at):
        self.place.take(self.command.stores[0])
        self.said, ran = f"call {at} of {self.count}", self.place.run(self.command, self.refusal.words(self.place, at))
        assert self.refusal.counted()[1], f"{self.said} did not come: {ran}"
        return ran

    def judge(self, ran):
        """Fails where a run ended otherwise than it may, or left another store."""
        is_whole = self.is_as_ever(ran)
        assert is_whole or self.is_cut_off(ran), f"{self.said}: neither done nor refused: {ran}"
        stores = self.command.stores[-1:] if is_whole else self.may_hold(ran)
        assert self.holds(*stores), f"{self.said}: another store: {ran}"

    def is_as_ever(self, ran):
        """It ended as where nothing is refused; of an explanation it may leave lines out."""
        (told, *lines), (due, *explained) = (one.errors.split(b"\n") for one in (ran, self.ever))
        return ran._replace(errors=told) == self.ever._replace(errors=due) and {*lines} <= {*explained}

    def is_cut_off(self, ran):
        """It was killed; or it says what was refused, or at a store that this failed, and below it no more than an
        explanation. Before that it wrote the first rows, or that it listens, or nothing. Or it served a visit."""
        serves, (told, *explained) = "serve" in self.command.words, ran.errors.splitlines() or [b""]
        is_front = self.ever.output.startswith(ran.output) and ran.output[-1:] in (b"", b"\n")
        if self.refusal.kills:
            is_front = is_front and self.ever.errors.startswith(ran.errors)
            return ran.status == -signal.SIGKILL and is_front and DONE.startswith(ran.reply)
        named = {self.refusal.line, *[NO_STORE] * self.has_store, *[NO_CHECKS] * serves}
        says_so = ran.status == 3 and told in named and all(line.startswith(b"  ") for line in explained)
        says_so = says_so and is_front and (self.has_rows or ran.output.count(b"\n") <= serves)
        is_served = self.command.request and ran[:3] == self.ever[:3]
        return (says_so or is_served) and (DONE.startswith(ran.reply) or UNAVAILABLE.fullmatch(ran.reply))

    def may_hold(self, ran):
        """The stores that a run may leave that was cut off. What it told as done stands."""
        (before, *_, after), lines, request = self.command.stores, ran.output.count(b"\n"), self.command.request
        if self.has_rows:
            return self.command.stores[lines : lines + 2]
        is_told = ran.reply and DONE.startswith(ran.reply)
        is_written = not request and self.ever.output and ran.output == self.ever.output
        if is_told or is_written:
            return [after]
        may_be_done = self.refusal.may_be_done and (self.refusal.kills or ran.reply or not request)
        found = [before]
        # an export brings a store to version 2 before anything else
        if may_be_done or "export" in self.command.words:
            found.append(after)
        if self.refusal.may_be_done and before == "none":
            found.append("torn")
        return found

    def run_again(self, at):
        """Fails where a second run does not do all over what the first one left, or where desk cannot look at it if all
        is done. Before that, it may be killed once more."""
        if self.refusal.kills and at % 2:
            self.place.run(self.command, self.refusal.words(self.place, at))
        before, *_, after = self.command.stores
        if self.has_store:
            is_done = self.refusal.may_be_done and self.holds(after) and not self.holds(before)
            ran = self.place.run(self.look if is_done else self.command)
            assert ran == (self.looked if is_done else self.ever) and self.holds(after), f"{self.said}: again: {ran}"
