"""What the tools of a museum's machine share: its places, its desk, its folders, its journal, and how they end."""

import argparse
import calendar
import contextlib
import errno
import fcntl
import gzip
import hashlib
import http.client
import json
import os
import pathlib
import pwd
import re
import secrets
import shutil
import socket
import stat
import subprocess
import sys
import threading
import time
import zlib

PLACES = "/etc/desk/places"
HOST = "127.0.0.1"
# The folder of desk-space's socket, where a file of places of an older version does not name it.
SPACE = "/run/desk-space"
# After how many seconds without a byte a connection counts as broken.
LIMIT = 60
UNIT, USER = "desk.service", "desk"
# For how many seconds a desk may open a store.
OPENS = 600
# What the staff may ask, as far as a backup and a restore compare it.
QUESTIONS = ("deeds", "takedowns", "keys", "checks")
# How a file in SQLite's format begins, and how many bytes of each page a store with sums has for them.
FORMAT, SUM_BYTES = b"SQLite format 3\0", 8
PLACE = re.compile(r"([A-Z_]+)=(\S+)")
# How many bytes are copied or compared at a time; and how many the disk is given, or has to free, at once, since the
# desk and its readers wait for that.
BLOCK, AT_ONCE = 1 << 20, 1 << 21
FOLDER = os.O_RDONLY | os.O_DIRECTORY | os.O_NOFOLLOW
# Of a backup: its name, which is the moment in UTC at which it was begun, and the word of --keep behind it; and the file
# that has the journal's last line of that moment, by its SHA-256.
NAME, BACKUP, MARK = "%Y-%m-%dT%H%M%SZ", re.compile(r"(\d{4}-\d\d-\d\dT\d{6}Z)(-.*)?"), "journal-mark"

class Failed(Exception):
    """Why a tool cannot do its work."""

class NoReply(Failed):
    """Why a question has no reply. Nobody knows what became of it."""

class Places(dict):
    """The values in a file of lines NAME=VALUE, by their names. Raises Failed where a line is none, or one is missing."""

    def __init__(self, path):
        super().__init__(SPACE=SPACE)
        for line in pathlib.Path(path).read_text(encoding="utf-8").splitlines():
            place = PLACE.fullmatch(line)
            if not place and line.strip() and not line.startswith("#"):
                raise Failed(f"{path}: not a place: {line}")
            self.update([place.groups()] if place else [])
        global UNIT
        UNIT = self.get("UNIT", UNIT)

    def __missing__(self, name):
        raise Failed(f"no place {name}")

def unit(name):
    """How a unit of the first desk is called for the desk of these places."""
    return re.sub("[.]", f"{UNIT.removeprefix('desk').removesuffix('.service')}.", name)

def key_in(path):
    """The key in a file with one line, `Desk-Key: ` and the key. Raises Failed where there is none."""
    lines = pathlib.Path(path).read_bytes().splitlines()
    name, colon, key = lines[0].partition(b":") if len(lines) == 1 else (b"", b"", b"")
    if not colon or name.lower() != b"desk-key":
        raise Failed(f"{path}: not one line of the form Desk-Key: KEY")
    return key.strip(b" \t")

class SocketConnection(http.client.HTTPConnection):
    """A connection to a Unix socket."""

    def __init__(self, path, timeout):
        super().__init__("desk", timeout=timeout)
        self.path = path

    def connect(self):
        self.sock = socket.socket(socket.AF_UNIX)
        self.sock.settimeout(self.timeout)
        self.sock.connect(self.path)

class Desk:
    """A desk, and the key by which it is asked: at a host and its port, or at the path of its own socket."""

    def __init__(self, place, key, limit=LIMIT):
        self.place, self.key, self.limit = place, key, limit

    def connection(self):
        kind = SocketConnection if self.place.startswith("/") else http.client.HTTPConnection
        return kind(self.place, timeout=self.limit)

    def visit(self, method, path, body=None, fields=()):
        """The status and the body of a reply. Raises NoReply where there is none."""
        try:
            with contextlib.closing(self.connection()) as connection:
                connection.request(method, path, body, {"Desk-Key": self.key, **dict(fields)})
                reply = connection.getresponse()
                return reply.status, reply.read()
        except (OSError, http.client.HTTPException) as fault:
            raise NoReply(f"no reply ({fault or type(fault).__name__})") from fault

    def ask(self, path):
        """The body of a reply with status 200. Raises Failed where there is none."""
        try:
            status, body = self.visit("GET", path)
        except NoReply as fault:
            raise Failed(f"{path}: {fault}") from fault
        if status != 200:
            raise Failed(f"{path}: {status} {refusal_in(body)}")
        return body

    def answers(self):
        """The replies to what a backup and a restore compare, by the words of the questions."""
        return {word: self.ask(f"/staff/{word}") for word in QUESTIONS}

class Served:
    """A desk that serves a store of a folder at a socket in it, as the user of the desk where there is one. nginx does
    not know the socket, and the desk ends with this process. It trusts the clock, since what it is asked depends on no
    day: so a check of a later day stops neither a backup nor a restore. Raises Failed where desk does not open the
    store."""

    def __init__(self, program, folder, name):
        self.socket, self.store = folder.inside("socket"), folder.path / name
        words = ["setpriv", "--pdeathsig", "KILL", program, "serve", "--store", name, "--socket", "socket"]
        streams = {"stdin": subprocess.DEVNULL, "stdout": subprocess.PIPE, "stderr": subprocess.PIPE}
        self.process = subprocess.Popen([*words, "--count", "1000000", "--trust-clock"], **streams, **folder.as_desk())

    def __enter__(self):
        watch = threading.Timer(OPENS, self.process.kill)
        watch.start()
        line = self.process.stdout.readline()
        watch.cancel()
        if not line.startswith(b"listening"):
            raise Failed(": ".join([f"desk does not open {self.store}", *self.end().splitlines()[:1]]))
        return self

    def __exit__(self, *_):
        self.end()

    def end(self):
        """Ends the desk, and gives what it has written to its standard error."""
        self.process.kill()
        return self.process.communicate()[1].decode(errors="replace")

def do(program, folder, *words, given=""):
    """Has a process do something in a folder with what it is given to read, as the user of the desk where there is one.
    Gives what it writes; raises Failed where it refuses."""
    ran = subprocess.run([program, *words], input=given, capture_output=True, text=True, **folder.as_desk())
    if ran.returncode:
        raise Failed(": ".join([f"{pathlib.Path(program).name} {words[0]}", *ran.stderr.splitlines()[-1:]]))
    return ran.stdout

def systemctl(word):
    """Has systemd do something to the desk's unit."""
    ran = subprocess.run(["systemctl", word, UNIT], stdin=subprocess.DEVNULL, capture_output=True, text=True)
    if ran.returncode:
        raise Failed(f"systemctl {word} {UNIT}: {ran.stderr.strip()}")

def is_open():
    """Whether the desk's unit runs."""
    return subprocess.run(["systemctl", "is-active", "--quiet", UNIT], stdin=subprocess.DEVNULL).returncode == 0

class Folder(contextlib.AbstractContextManager):
    """An open folder. What is in it is reached by its descriptor, and no link in it is followed: so whoever may write
    in it, as the desk's user in that of the store, leads nobody elsewhere."""

    def __init__(self, descriptor, path):
        self.descriptor, self.path = descriptor, pathlib.Path(path)

    def __exit__(self, *_):
        os.close(self.descriptor)

    def folder(self, name):
        """A folder in it."""
        return Folder(os.open(name, FOLDER, dir_fd=self.descriptor), self.path / name)

    def made(self, prefix):
        """A new folder in it, for the user of this process."""
        name = f"{prefix}{secrets.token_hex(8)}"
        os.mkdir(name, 0o700, dir_fd=self.descriptor)
        return self.folder(name)

    def names(self, prefix=""):
        return sorted(name for name in os.listdir(self.descriptor) if name.startswith(prefix))

    def about(self, name):
        """What the system says of a name in it; None where there is none."""
        with contextlib.suppress(FileNotFoundError):
            return os.stat(name, dir_fd=self.descriptor, follow_symlinks=False)

    def file(self, name, flags=os.O_RDONLY):
        """An open file in it. Raises Failed where there is none, or what is there is no plain file of the folder's own
        user: a link leads to what others keep, and so may a name that a file of theirs has here."""
        try:
            file = os.open(name, flags | os.O_NOFOLLOW | os.O_NONBLOCK, 0o600, dir_fd=self.descriptor)
        except OSError as fault:
            why = "a link" if fault.errno == errno.ELOOP else fault.strerror
            raise Failed(f"{self.path / name}: {why}") from fault
        about, owner = os.fstat(file), os.fstat(self.descriptor).st_uid
        if stat.S_ISREG(about.st_mode) and about.st_uid == owner:
            return os.fdopen(file, "r+b" if flags & os.O_RDWR else "rb", buffering=0)
        os.close(file)
        raise Failed(f"{self.path / name}: not a file of the folder's owner")

    def copy(self, name, target):
        """Makes the bytes of a file those of the same name in another folder; what is the same is only read."""
        with self.file(name) as old, target.file(name, os.O_RDWR | os.O_CREAT) as new:
            at = unwritten = 0
            while block := read_at(old, at, self.path / name):
                if os.pread(new.fileno(), len(block), at) != block:
                    write_at(new.fileno(), block, at)
                    unwritten += len(block)
                if unwritten >= AT_ONCE:
                    os.fdatasync(new.fileno())
                    unwritten = 0
                at += len(block)
            new.truncate(at)
            os.fsync(new.fileno())

    def write(self, name, data):
        """Makes a file of these bytes in it."""
        with self.file(name, os.O_RDWR | os.O_CREAT | os.O_EXCL) as file:
            write_at(file.fileno(), data, 0)
            os.fsync(file.fileno())

    def move(self, name, target, to=None):
        """Gives a name in it to another folder, as the same name or another one."""
        os.rename(name, to or name, src_dir_fd=self.descriptor, dst_dir_fd=target.descriptor)

    def drop(self, name):
        """Takes away a file, a link or a folder with all in it, of a file a little at a time."""
        about = self.about(name)
        if about and stat.S_ISDIR(about.st_mode):
            with self.folder(name) as inner:
                for one in inner.names():
                    inner.drop(one)
            os.rmdir(name, dir_fd=self.descriptor)
        elif about:
            # a file that has another name too stays under that
            with contextlib.suppress(Failed), self.file(name, os.O_RDWR) as file:
                if about.st_nlink == 1:
                    shorten(file)
            os.unlink(name, dir_fd=self.descriptor)

    def sync(self):
        """Has the names in it written to the disk."""
        os.fsync(self.descriptor)

    def copy_store(self, name, target):
        """Copies a store, the database and its log, as far as they are there."""
        for one in filter(self.about, (name, f"{name}-wal")):
            self.copy(one, target)

    def size(self, name):
        """How many bytes a store has."""
        return sum(about.st_size for about in map(self.about, (name, f"{name}-wal")) if about)

    def need(self, count):
        """Raises Failed where its disk has not so many bytes free."""
        if shutil.disk_usage(self.descriptor).free < count:
            raise Failed(f"{self.path}: it needs {count} bytes, and has not as many free")

    def inside(self, name):
        """A path by which this process reaches a name in it."""
        return f"/proc/self/fd/{self.descriptor}/{name}"

    def as_desk(self):
        """How a process becomes one of the desk's user in this folder, whose the folder and all in it become. It is
        given once: later its user may have put there what is another's."""
        how, is_root = {"cwd": self.inside(".")}, os.geteuid() == 0
        with contextlib.suppress(KeyError):
            owner = pwd.getpwnam(USER)[2:4]
            if is_root and os.fstat(self.descriptor).st_uid == 0:
                for name in self.names():
                    os.chown(name, *owner, dir_fd=self.descriptor, follow_symlinks=False)
                os.fchown(self.descriptor, *owner)
            how |= {"user": owner[0], "group": owner[1], "extra_groups": []} if is_root else {}
        return how

def folder_at(path):
    """The folder at a path, by its parts without links, each opened in the one before."""
    at = Folder(os.open("/", FOLDER), "/")
    for part in pathlib.Path(os.path.realpath(path)).parts[1:]:
        with at:
            at = at.folder(part)
    return at

@contextlib.contextmanager
def locked(path):
    """The folder of the backups, which is made where it is missing. While this is entered, no other backup or restore
    is; nor while a process lives that this one has forked."""
    os.makedirs(path, mode=0o700, exist_ok=True)
    with folder_at(path) as folder:
        try:
            fcntl.flock(folder.descriptor, fcntl.LOCK_EX | fcntl.LOCK_NB)
        except BlockingIOError as fault:
            raise Failed("another backup or restore is at work") from fault
        yield folder

def read_at(file, at, path):
    try:
        return os.pread(file.fileno(), BLOCK, at)
    except OSError as fault:
        raise Failed(f"{path}: {fault.strerror}") from fault

def write_at(file, data, at):
    """Writes all of some bytes at a place of a file."""
    while data:
        count = os.pwrite(file, data, at)
        data, at = data[count:], at + count

def shorten(file):
    """Makes a file empty, a little at a time."""
    size = os.fstat(file.fileno()).st_size
    while size > 0:
        size = max(0, size - AT_ONCE)
        file.truncate(size)
        os.fsync(file.fileno())

def has_sums(folder, name):
    """Whether the pages of a store's file end in sums, by its header, which leaves room for them. Of one that cannot be
    read they are taken for granted, as the package makes them."""
    with contextlib.suppress(Failed, OSError), folder.file(name) as file:
        head = file.read(len(FORMAT) + 5)
        return head.startswith(FORMAT) and head[-1] == SUM_BYTES
    return True

def moment_of(name):
    """The moment of a backup, by its name; None where that is none."""
    with contextlib.suppress(TypeError, ValueError):
        return calendar.timegm(time.strptime(BACKUP.fullmatch(name)[1], NAME))

# The journal

def journal_parts(path):
    """The lines of a journal, and of what was rotated away of it: a list for each file, from the latest on."""
    path = pathlib.Path(path)
    rotated = sorted(path.parent.glob(f"{path.name}-*"), key=lambda one: re.sub(r"\D", "", one.name))
    for file in [*rotated, *([path] if path.exists() else [])][::-1]:
        with gzip.open(file) if file.suffix == ".gz" else open(file, "rb") as opened:
            try:
                lines = opened.readlines()
            except (EOFError, zlib.error, gzip.BadGzipFile) as fault:
                raise Failed(f"{file}: it cannot be unpacked") from fault
        yield lines

def mark_of(line):
    return hashlib.sha256(line).hexdigest()

def last_mark(path):
    """The mark of the last whole line of a journal; None where it has none."""
    whole = ([line for line in lines if line.endswith(b"\n")] for lines in journal_parts(path))
    return next((mark_of(lines[-1]) for lines in whole if lines), None)

def lines_after(path, mark):
    """The lines of a journal after the one of a mark; None where none is that one. Without a mark, all lines are after
    it; but a journal that is not there at all does not follow on anything."""
    found, is_there = [], False
    for lines in journal_parts(path):
        is_there = True
        for at in range(len(lines) - 1, -1, -1):
            if mark_of(lines[at]) == mark:
                return lines[at + 1 :] + found
        found = lines + found
    return found if is_there and mark is None else None

def refusal_in(body):
    """The name of a refusal, or the beginning of what came in its place."""
    with contextlib.suppress(ValueError, TypeError, KeyError):
        return json.loads(body)["error"]
    return repr(body[:60])

def run(text, work, *arguments, has_places=True, failed=1):
    """Does the work of a tool, and ends with its status; or says why it cannot. The tool's text begins with its name and
    words, up to a colon. Each argument is a word and how argparse takes it; the places come last."""
    usage = text.partition(":")[0]
    if sys.argv[1:] in (["-h"], ["--help"]):
        sys.exit(print(text))
    parser = argparse.ArgumentParser(add_help=False, allow_abbrev=False)
    parser.error = lambda _: parser.exit(2, f"usage: {usage}\n")
    for word, how in (*arguments, *([("places", {"nargs": "?", "default": PLACES})] if has_places else [])):
        parser.add_argument(word, **how)
    wishes = parser.parse_args()
    try:
        status = work(wishes, Places(wishes.places)) if has_places else work(wishes)
    except (Failed, OSError, KeyboardInterrupt) as fault:
        print(f"{pathlib.Path(usage.split()[0]).name}: {told(fault)}", file=sys.stderr)
        status = failed
    sys.exit(status)

def told(fault):
    """A fault in words."""
    if isinstance(fault, KeyboardInterrupt):
        return "stopped"
    if not isinstance(fault, OSError):
        return str(fault)
    return f"{fault.filename}: {fault.strerror}" if fault.filename else fault.strerror or str(fault)
