"""A room with the places of a museum's machine, for the tools in operate/ that need systemd: in its place there is a
systemctl that starts, stops, freezes and thaws the desk of the room."""

import contextlib
import itertools
import json
import os
import pathlib
import signal
import subprocess
import time

from support.room import OPERATE, make_script, wait_until
from support.samples import STAFF, bytes_of, get, put, put_image, put_rule
from support.server import ENDLESS, LIMIT, alongside

IMAGE = bytes_of("images", "museum.d64")
OTHER = IMAGE[:100] + b"\7" + IMAGE[101:]
DONE = 200, b'{"done":true}'
READERS = ("public", "room")
SYSTEMCTL = """
cd {room.folder}
pid=$(cat desk.pid)
runs() {{ kill -0 $pid 2>/dev/null && ! grep -q '^State:.[ZX]' /proc/$pid/status; }}
case $1 in
is-active) runs ;;
freeze)
    echo freeze >>calls; kill -STOP $pid
    until ! runs || grep -q '^State:.T' /proc/$pid/status; do sleep 0.01; done ;;
thaw) kill -CONT $pid ;;
stop)
    echo stop >>calls; kill -KILL $pid 2>/dev/null
    while runs; do sleep 0.05; done
    if [ -e after-stop ]; then . ./after-stop; fi ;;
start)
    echo start >>calls; runs && exit; : >serves
    {room.program} serve --store museum.sqlite --socket {room.place} --count 1000000 $(cat words) >serves 2>/dev/null &
    pid=$!; echo $pid >desk.pid
    until grep -q listening serves; do runs || exit 1; sleep 0.05; done ;;
esac
"""

class House:
    """A room with its tools. Its store has sums, as the package makes it, or none, as older ones made it."""

    def __init__(self, room, has_sums=True):
        self.room, self.folder, self.journal = room, room.folder, room.folder / "journal"
        # what systemctl does once it has stopped the desk: lines of the shell, whose parent is the tool
        self.after_stop = self.folder / "after-stop"
        (self.folder / "bin").mkdir()
        (self.folder / "calls").touch()
        self.systemctl = self.script("bin/systemctl", SYSTEMCTL.format(room=room))
        room.run("init", *(["--sums"] if has_sums else []), "--store", str(room.store), "--key", STAFF)
        (self.folder / "staff-key").write_text(f"Desk-Key: {STAFF}\n")
        self.start()
        room.start_nginx()

    def script(self, name, words):
        return make_script(self.folder / name, words)

    def start(self, *words):
        """Starts the desk with these words too, as the room's systemctl does from then on."""
        (self.folder / "words").write_text(" ".join(words))
        self.room.start_desk(ENDLESS, *words)
        (self.folder / "desk.pid").write_text(str(self.room.desk.pid))

    def stop(self):
        """Ends the desk, also one that a tool has started."""
        self.room.stop_desk()
        with contextlib.suppress(ProcessLookupError):
            os.kill(int((self.folder / "desk.pid").read_text()), signal.SIGKILL)

    def calls(self):
        """What a tool had systemctl do to the desk."""
        return (self.folder / "calls").read_text().split()

    def begin(self, tool, *words, under=()):
        """Begins a tool, in a session of its own, under another program where one is named."""
        where = {**os.environ, "PATH": f"{self.folder}/bin:/usr/bin:{os.environ['PATH']}"}
        words = [*under, os.path.join(OPERATE, tool), *map(str, words), str(self.folder / "places")]
        pipes = {"stdin": subprocess.DEVNULL, "stdout": subprocess.PIPE, "stderr": subprocess.PIPE}
        return subprocess.Popen(words, env=where, text=True, start_new_session=True, **pipes)

    def run(self, tool, *words, under=()):
        return self.ended(self.begin(tool, *words, under=under))

    def ended(self, began):
        """How a tool ends: its status, and what it writes."""
        with began:
            try:
                out, errors = began.communicate(timeout=4 * LIMIT)
            except subprocess.TimeoutExpired:
                os.killpg(began.pid, signal.SIGKILL)
                raise
        return began.returncode, out, errors

    def back_up(self, *words):
        return self.run("desk-backup", *words)

    def backed_up(self, *words):
        """The folder of a backup that is made now."""
        status, out, errors = self.back_up(*words)
        assert (status, errors) == (0, ""), errors
        return pathlib.Path(out.split(": ")[0])

    def backups(self):
        return sorted(self.folder.glob("backups/*"))

    def restored(self, backup, *words):
        """What a restore writes that opens the room."""
        status, out, errors = self.run("desk-restore", *words, backup)
        assert (status, errors, self.leftovers()) == (0, "", []), (out, errors)
        return out

    def refused(self, backup, *words):
        """Why a restore is refused."""
        status, out, errors = self.run("desk-restore", *words, backup)
        assert (status, out, self.leftovers()) == (1, "", []), (out, errors)
        return errors

    def leftovers(self):
        """What neither a backup nor a restore may leave behind."""
        return [path.name for word in ("restored-", "ready-", "tested-") for path in self.folder.glob(f"{word}*")]

    def do(self, *asked):
        """Has the staff's door do commands."""
        for one in asked:
            assert (came := self.room.ask_staffs_door(one)) == DONE, (one[:3], came)

    def fill(self, *accessions):
        """A deed by which everybody reads all, and disks of it."""
        rule = put_rule("/deeds/7/rules/20", "read", {"all": True}, *READERS, "staff")
        images = (put_image(accession, "d64", 7, IMAGE) for accession in accessions)
        self.do(put("/deeds/7", {"donor": "A", "signed": "2019-05-04"}), rule, *images)

    def journaled(self, asked, *statuses, key="staff"):
        """Lines of the journal, as nginx writes them of a command with these statuses in turn."""
        line = {"id": str(time.monotonic_ns()), "moment": "2026-01-01T00:00:00+00:00", "at": time.time(), "note": ""}
        line |= {"method": asked.method, "path": asked.path, "staff": "anna", "body": (asked.body or b"").decode()}
        line |= {"key": key} if key else {}
        with open(self.journal, "a", encoding="utf-8") as journal:
            journal.writelines(json.dumps({**line, "status": status}) + "\n" for status in statuses)

    def spoil(self):
        """The store is lost."""
        self.stop()
        self.room.store.write_bytes(bytes(100000))

    def status(self, path, address="127.0.7.1"):
        """The status that a reader gets."""
        with contextlib.closing(self.room.visitor(address)) as reader:
            reader.request("GET", path)
            return reader.getresponse().status

    def see_takedown(self):
        """That readers have the files of disk 13, but for the one that a takedown has closed."""
        came = [self.status(f"/images/13/files/{slot}") for slot in (0, 2)]
        assert came == [200, 403], came

    def listed(self, word, key=STAFF):
        """What the staff is shown, by the desk's own socket."""
        return json.loads(self.room.ask_desk(get(f"/staff/{word}", key))[1])[word]

    @contextlib.contextmanager
    def reader(self, *paths):
        """While this is entered, a reader without a key asks for some files all the time. Gives a function that begins
        a part of that time: it gives the statuses of each file, of which more come until the next part begins."""
        asked, parts = itertools.count(), [{path: [] for path in paths}]
        def ask():
            number, part = next(asked), parts[-1]
            path = paths[number % len(paths)]
            # (no address asks more often than it may)
            part[path].append(self.status(path, f"127.0.6.{1 + number % 200}"))
            time.sleep(0.01)
        def turn():
            parts.append({path: [] for path in paths})
            wait_until(lambda: work.done() or all(parts[-1].values()))
            assert not work.done(), work.result()
            return parts[-1]
        with beside(ask) as work:
            yield turn

def beside(work):
    """While this is entered, work is done again and again. What breaks it is raised."""
    def repeat(ended):
        while not ended.is_set():
            work()
    return alongside(repeat)

def takedown(accession, rank, slot, key=STAFF):
    return put_rule(f"/images/{accession}/rules/{rank}", "deny", {"slot": slot}, *READERS)._replace(key=key)
