"""A stand-in for the desk, for tests of the pages alone. It answers byte for byte as docs/FORMATS.md says, over a
museum that it holds in memory; the model of the desk decides what is due to a request. Beside that it answers the
questions of the staff, and gives the pages, with the fields that operate/nginx/ adds."""

import collections
import contextlib
import datetime
import itertools
import os
import pathlib
import re
import socket
import socketserver
import threading
import time

from support import model, model_requests, model_rules
from support.model import AUDIENCES, Due
from support.model_requests import NUMBER, RANK
from support.samples import reply, table, told
from support.server import HOST, LIMIT, ROOT

DAY = "([0-9]{4}-[0-9]{2}-[0-9]{2})"
STAFF_ROUTES = [(re.compile(f"/staff/{path}"), methods) for path, methods in [
    *((word, {"GET": f"show {word}"}) for word in ("today", "deeds", "takedowns", "keys", "checks")),
    *((path, {"GET": "show verdicts"}) for path in (f"verdicts/{DAY}", f"verdicts/{DAY}/{NUMBER}")),
    (f"rehearsals/{DAY}/(deeds|images)/{NUMBER}/rules/{RANK}", {"PUT": "rehearse", "DELETE": "rehearse"})]]
FILE_COLUMNS = ("slot", "user", "name", "type", "size", "faults")
VERDICT_COLUMNS = ["accession", "deed", "kind", *FILE_COLUMNS]
VERDICT_COLUMNS += [column for word in AUDIENCES for column in (word, f"{word}_rule")]
REHEARSAL_COLUMNS = ["accession", "slot", "name", "audience", "effect", "rule", "then_effect", "then_rule"]

class Museum(model.Desk):
    """A model of the desk that also answers the staff's questions."""

    routes = STAFF_ROUTES + model_requests.ROUTES

    def __init__(self, day=None):
        super().__init__(model.Disks(), day or str(datetime.datetime.now(datetime.timezone.utc).date()))

    def shown_rules(self, label):
        """Rules as the staff is shown them."""
        return [{**rule, "audiences": sorted(rule["audiences"], key=AUDIENCES.index)} for rule in self.by_rank(label)]

    def show_today(self, _):
        return Due(told(day=self.day))

    def show_deeds(self, _):
        under = collections.Counter(image.deed for image in self.images.values())
        lines = [{"deed": num, "donor": donor, "signed": day, "accessions": under[num]}
                 for num, (donor, day) in sorted(self.deeds.items())]
        return Due(told(deeds=[{**line, "rules": self.shown_rules(f"R{line['deed']}")} for line in lines]))

    def show_takedowns(self, _):
        lines = [{"accession": acc, "rules": self.shown_rules(f"T{acc}")} for acc in sorted(self.images)]
        return Due(told(takedowns=[line for line in lines if line["rules"]]))

    def show_keys(self, _):
        return Due(told(keys=[{"audience": word, "digest": key} for key, word in sorted(self.badges.items())]))

    def show_checks(self, _):
        latest = [(acc, *self.latest.get(acc, (None, None))) for acc in sorted(self.images)]
        return Due(told(checks=[{"accession": acc, "day": day, "outcome": outcome} for acc, day, outcome in latest]))

    def show_verdicts(self, _, day, acc=None):
        rows = [VERDICT_COLUMNS]
        for acc, image in [(acc, self.image(acc))] if acc else sorted(self.images.items()):
            bands = self.bands(acc)
            for file in self.files_of(acc):
                verdicts = [model_rules.verdict(bands, word, day, file)[::-1] for word in AUDIENCES]
                row = [acc, image.deed, image.kind, *(file[column] for column in FILE_COLUMNS)]
                rows.append([*row, *sum(verdicts, ())])
        return Due(table(rows))

    def rehearse(self, body, day, scope, num, rank):
        """What turns for whom on a day where a rule of a deed or a takedown of a disk is put, or dropped."""
        effects = ("deny", "list", "read") if scope == "deeds" else ("deny", "list")
        held = {**self.rules_of(scope, num), rank: model_requests.rule_of(body, rank, effects) if body else None}
        then = {f"{'R' if scope == 'deeds' else 'T'}{num}": [held[one] for one in sorted(held) if held[one]]}
        rows = [REHEARSAL_COLUMNS]
        for acc in sorted(self.images):
            both = self.bands(acc), self.bands(acc, **then)
            for file, word in itertools.product(self.files_of(acc), AUDIENCES):
                (rule, effect), (new_rule, new) = (model_rules.verdict(bands, word, day, file) for bands in both)
                if effect != new:
                    rows.append([acc, file["slot"], file["name"], word, effect, rule, new, new_rule])
        return Due(table(rows))

# The door: the pages and the desk at one port

OF_DESK = re.compile(r"/(images|accessions|deeds|badges|catalogue|staff)(/|$)")
JOURNAL = re.compile(r"/journal(-[0-9]{4}-[0-9]{2})?")
KINDS = {".html": "text/html", ".css": "text/css; charset=utf-8", ".js": "text/javascript; charset=utf-8"}
# The folder of the pages: another one in the place of web/ shows that the tests find what is wrong there.
WEB = pathlib.Path(os.environ.get("DESK_WEB") or pathlib.Path(ROOT, "web"))
# How many seconds the door reads on behind its reply, for a client that still sends.
LINGERS = 2

def refused_by_nginx(status, phrase):
    return f"HTTP/1.1 {status} {phrase}\r\nContent-Length: 0\r\nConnection: close\r\n\r\n".encode()

class Door(socketserver.ThreadingTCPServer):
    """The staff's door, or the one outside, at a port of loopback: a file of the pages, or else what is due from the
    museum. `before` may answer in its place, by the method and the path: bytes of a reply, parts of them with pauses
    in seconds between them, or b"" for a lost connection. `folder` may have more files beside the pages. `visits` keeps
    what was asked of the desk and of the journal, of which `journals` has the files by their paths."""

    daemon_threads, request_queue_size = True, 128

    def __init__(self, museum, outside=False, folder=WEB):
        super().__init__((HOST, 0), Visit)
        self.museum, self.outside, self.folders = museum, outside, (WEB, pathlib.Path(folder))
        self.before = lambda method, path: None
        self.visits, self.journals = [], {}
        self.lock, self.address = threading.Lock(), f"http://{HOST}:{self.server_address[1]}/"
        # the fields that nginx adds to each reply
        text = pathlib.Path(ROOT, "operate/nginx/snippets/desk-server.conf").read_text()
        added = re.findall(r'^add_header (\S+) "?(?!\$)(.*?)"? always;$', text, re.M)
        self.added = "".join(f"\r\n{name}: {value}" for name, value in added).encode()

    def __enter__(self):
        threading.Thread(target=self.serve_forever, args=(0.02,), daemon=True).start()
        return self

    def __exit__(self, *_):
        self.shutdown()
        self.server_close()

    def file(self, path):
        """The reply with a file of the pages."""
        name = path.lstrip("/") or ("index.html" if self.outside else "staff.html")
        found = [folder / name for folder in self.folders if (folder / name).is_file()]
        if not found or not re.fullmatch("[a-z.-]+", name) or (self.outside and name.startswith("staff.")):
            return refused_by_nginx(404, "Not Found")
        return reply(200, found[0].read_bytes(), KINDS.get(found[0].suffix, "application/octet-stream"))

    def answer(self, data, parts):
        """The reply to the bytes of a visit, as it leaves the door."""
        path, fields = parts.target.partition("?")[0], dict(parts.fields)
        if not OF_DESK.match(path) and (self.outside or not JOURNAL.fullmatch(path)):
            whole = self.file(path)
        else:
            self.visits.append((parts.method, path, fields))
            instead = self.before(parts.method, path)
            if instead is not None:
                return instead
            is_closed = self.outside and (parts.method != "GET" or path.startswith("/staff/"))
            whole = refused_by_nginx(403, "Forbidden") if is_closed else self.asked(data, path, fields)
        head, _, body = whole.partition(b"\r\n\r\n")
        return head + self.added + b"\r\n\r\n" + body

    def asked(self, data, path, fields):
        """What is due from the museum; or a file of the journal, or a part of it, for whom it knows as staff."""
        is_journal = JOURNAL.fullmatch(path)
        with self.lock:
            due = self.museum.due(re.sub(rb"^GET \S+", b"GET /staff/keys", data) if is_journal else data)
            if due.change:
                due.change()
        if not is_journal or not due.reply.startswith(b"HTTP/1.1 200 "):
            return due.reply
        found, part = self.journals.get(path), fields.get(b"range", b"").decode()
        return refused_by_nginx(404, "Not Found") if found is None else ranged(found, part)

    def effects(self, acc):
        """What the public and the room may do with each file of a disk."""
        files = self.museum.files_of(acc)
        return {word: [self.museum.verdict(acc, word, file)[1] for file in files] for word in ("public", "room")}

    def sent(self):
        """The changes that came since this was asked last: method, path, name and reason."""
        visits, self.visits = self.visits, []
        told = [(method, path, *(fields.get(name, b"").decode() for name in (b"desk-staff", b"desk-note")))
                for method, path, fields in visits]
        return [visit for visit in told if visit[0] != "GET" and not visit[1].startswith("/staff/")]

def ranged(data, words):
    """The reply with some bytes, or with the part of them that a field asks for."""
    kind, size = "application/x-ndjson", len(data)
    found = re.fullmatch(r"bytes=([0-9]*)-([0-9]+)", words)
    if not found or not data:
        return reply(200, data, kind)
    first = int(found[1] or max(0, size - int(found[2])))
    part = data[first : int(found[2]) + 1 if found[1] else size]
    if not part:
        return refused_by_nginx(416, "Requested Range Not Satisfiable")
    whole = reply(200, part, kind, f"Content-Range: bytes {first}-{first + len(part) - 1}/{size}")
    return whole.replace(b"200 OK", b"206 Partial Content", 1)

class Visit(socketserver.BaseRequestHandler):
    """One visit, from its first byte to the end of its reply."""

    def handle(self):
        """Sends a reply, or its parts and pauses. Then it reads on until the client closes, for a close with bytes
        unread would make Linux drop what is not sent yet."""
        self.request.settimeout(LIMIT)
        data, more = b"", b" "
        # a browser that goes while it asks or is answered has no need of the rest
        with contextlib.suppress(OSError):
            while more and model_requests.is_waited_for(data):
                more = self.request.recv(1 << 18)
                data += more
            answer = self.server.answer(data, model_requests.parted(data)) if more else b""
            for part in [answer] if isinstance(answer, bytes) else answer:
                time.sleep(part) if isinstance(part, float) else self.request.sendall(part)
            self.request.shutdown(socket.SHUT_WR)
            self.request.settimeout(LINGERS)
            while answer and self.request.recv(1 << 16):
                pass
