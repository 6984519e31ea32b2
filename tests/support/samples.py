"""Images, requests and the replies that are due to them, and what the filled store of the tests has."""

import collections
import csv
import functools
import hashlib
import http
import io
import json

from support import cbm_image, cpm_image, trials
from support.server import bytes_of

def digest(data):
    return hashlib.sha256(data).hexdigest()

# Images: those that trials have too, the marked one with another checksum for its second block; and one full of a file

PROGRAM_DISK, LOOP_DISK, RECORD_DISK = (trials.image(f"{name}.image") for name in ("program", "loop", "record"))
MARKED_DISK = trials.built(trials.image("marked.image"), "over", f"{cbm_image.mark_place(17, 10)} \\x05")
LONG_FILE = bytes((7 * n + n // 256) % 251 for n in range(128 * 1928))
LONG_DISK = cpm_image.of_entries([(b"LONG       ", LONG_FILE, range(2, 243))])
# The accessions of the filled store: kind, deed and image.
IMAGES = {12: ("d64", 7, PROGRAM_DISK), 13: ("d64", 8, PROGRAM_DISK),
    14: ("d64", 9, LOOP_DISK), 15: ("cpm8", 9, RECORD_DISK), 16: ("d64", 9, bytes_of("images", "museum.d64")),
    17: ("cpm8", 9, bytes_of("images", "damaged.img")), 18: ("cpm8", 9, bytes_of("images", "welcome.img")),
    26: ("d64e", 9, bytes_of("images", "damaged.d64"))}

# Requests: a method and a path, the desk key and the body, or None where there is none

Asked = collections.namedtuple("Asked", "method path key body", defaults=(None, None))
PUBLIC, ROOM, STAFF, NOBODY = None, "hello", "abc", "nobody"
ALL, EVERY = ("public", "room", "staff"), {"all": True}
DEED = {"donor": "D. Donor", "signed": "2021-01-01"}
get = functools.partial(Asked, "GET")

def compact(value):
    """JSON as the desk writes it: without blanks, the keys in order."""
    return json.dumps(value, sort_keys=True, separators=(",", ":"), ensure_ascii=False).encode()

def drop(path, key=STAFF):
    return Asked("DELETE", path, key)

def put(path, body, key=STAFF):
    return Asked("PUT", path, key, compact(body))

def put_rule(path, effect, select, *audiences, **days):
    return put(path, {"audiences": audiences, "effect": effect, "select": select, **days})

def put_image(accession, kind, deed, image, told=None):
    """The SHA-256 that is told for the bytes is the one that they have where no other is given."""
    return Asked("PUT", f"/accessions/{accession}/{kind}/{deed}/{told or digest(image)}", STAFF, image)

def survey(accession, key=STAFF):
    return get(f"/images/{accession}/survey", key)

def check(accession, key=STAFF):
    return Asked("POST", f"/images/{accession}/check", key)

def badge(key):
    return f"/badges/{digest(key.encode())}"

def head(*lines):
    return "".join(f"{line}\r\n" for line in (*lines, "")).encode()

def raw(asked):
    fields = [] if asked.key is None else [f"Desk-Key: {asked.key}"]
    fields += [] if asked.body is None else [f"Content-Length: {len(asked.body)}"]
    return head(f"{asked.method} {asked.path} HTTP/1.1", *fields) + (asked.body or b"")

def with_fields(*fields):
    return head("GET /images/15/files/0 HTTP/1.1", *fields)

FOR_RECORD = get("/images/15/files/0")
QUESTION, LONG_QUESTION = with_fields("Host: desk"), head("GET /images/21/files/0 HTTP/1.1")
TAKEDOWN = put_rule("/images/15/rules/1", "deny", {"slot": 0}, "public", "room")

# Replies

def reply(status, body, kind="application/json", line=None):
    """The bytes of a reply, with a line in its head that not all have."""
    # (the phrase of 422 is that of RFC 9110, which Python has from 3.13 on)
    phrase = http.HTTPStatus(status).phrase.replace("Unprocessable Entity", "Unprocessable Content")
    lines = [f"Content-Type: {kind}", f"Content-Length: {len(body)}", "Connection: close", *([line] if line else [])]
    return head(f"HTTP/1.1 {status} {phrase}", *lines) + body

def told(**keys):
    return reply(200, compact(keys))

content = functools.partial(reply, 200, kind="application/octet-stream")

def table(rows):
    """A table of rows of cells, as Python's csv writes it."""
    text = io.StringIO()
    csv.writer(text, lineterminator="\n").writerows(rows)
    return reply(200, text.getvalue().encode(), "text/csv")

def refused(status, name, line=None, **keys):
    return reply(status, compact({"error": name, **keys}), line=line)

def denied(label):
    return refused(403, "denied", rule=label)

DONE, SOUND = told(done=True), told(outcome="sound")
BAD_HEAD, FRAMING, BAD_BODY = map(refused, [400] * 3, ("bad-head", "framing", "bad-body"))
UNKNOWN_KEY = refused(401, "unknown-key", "WWW-Authenticate: Desk-Key", rule="K0")
STAFF_ONLY = refused(403, "staff-only", rule="S0")
NO_ACCESSION, NO_DEED = refused(404, "no-accession"), refused(404, "no-deed")
HELLO, RECORD = content(b"A" * 254 + b"BCDE"), content(cpm_image.text("HELLO FROM CP/M\n"))

# What the filled store has: deed 7 is closed to the public and the room, 8 has no rule, and 9 is open to all. Each
# request has its label and the reply that is due.
DONOR_OF_9 = 'C. "Sea" Müller \\ Söhne'
FIRST = [(asked.path, asked, DONE) for asked in (
    put(badge(ROOM), {"audience": "room"}), put("/deeds/7", {"donor": "A. Curator", "signed": "2019-05-04"}),
    put("/deeds/8", {"donor": "B. Donor", "signed": "2020-02-29"}),
    put_rule("/deeds/7/rules/10", "deny", EVERY, "public", "room", until="9999-12-31"),
    put_rule("/deeds/7/rules/20", "read", EVERY, *ALL), put_image(12, *IMAGES[12]))]
MORE = [(asked.path, asked, DONE) for asked in (
    put("/deeds/9", {"donor": DONOR_OF_9, "signed": "0001-01-01"}),
    put_rule("/deeds/9/rules/10", "deny", {"slot": 0}, *ALL, until="0001-01-02"),
    put_rule("/deeds/9/rules/11", "list", {"prefix": "H"}, *ALL, **{"from": "9999-12-31"}),
    put_rule("/deeds/9/rules/20", "read", EVERY, *ALL), *(put_image(n, *IMAGES[n]) for n in IMAGES if n > 12),
    put_rule("/images/13/rules/1", "list", {"user": 3}, "staff"))]
LONG = [("a full CP/M disk", put_image(21, "cpm8", 9, LONG_DISK), DONE),
    ("its file", get("/images/21/files/0"), content(LONG_FILE))]
COUNTS = {12: 1, 14: 1, 15: 1, 16: 3, 17: 4, 18: 2, 26: 2}
LINES = [{"accession": n, "deed": IMAGES[n][1], "files": COUNTS[n], "kind": IMAGES[n][0]} for n in COUNTS]
# What changes nothing.
READ_BACK = [("the images to the staff", get("/images", STAFF), told(images=LINES)),
    ("the images to the room", get("/images", ROOM), told(images=LINES[1:])),
    ("a file to the staff", get("/images/12/files/0", STAFF), HELLO),
    ("a file to the room", get("/images/12/files/0", ROOM), denied("R7.10")),
    ("a file that no rule opens", get("/images/13/files/0", STAFF), denied("D0")),
    ("a file to the public", FOR_RECORD, RECORD)]
