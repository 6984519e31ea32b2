"""The journal and the log of visits: which requests have lines, what these have at most, and what no log ever has."""

import contextlib
import json
import re
import socketserver
import threading

import pytest
from support.room import give_to_nginx, wait_until
from support.samples import DONE, NOBODY, ROOM, STAFF, badge, bytes_of, digest, drop

IMAGE = bytes_of("images", "museum.d64")
RULE = b'{"audiences":["public"],"select":{"slot":2},"effect":"deny"}'
DEED = '{"donor":"\u017dofie \\"Sea\\" \\\\","signed":"2020-02-29"}'.encode()
CODED_DEED = json.dumps({"donor": "\u00fc" * 500, "signed": "2020-02-29"}).encode()
KEY_PATH, ROOMS = badge("room 3"), b'{"audience":"room"}'
NUMBER = KEY_PATH.rpartition("/")[2]
NOTE = "objection%20of%203%20May%3A%20%22mine%22"
NAMES = [("Desk-Staff", "anna"), ("Desk-Note", NOTE)]
# Commands: method, path, body, the status, and the body in the journal, where it is not the one that came.
COMMANDS = {"deed": ("PUT", "/deeds/70", DEED, 200, None),
    "takedown": ("PUT", "/images/15/rules/3?x=y", RULE, 200, None),
    "key in capitals dropped": ("DELETE", f"/badges/{NUMBER.upper()}", b"", 200, None),
    "name of the site before the path": ("PUT", f"http://localhost{KEY_PATH}", ROOMS, 200, None),
    "disk": ("PUT", f"/accessions/701/d64/9/{digest(IMAGE)}", IMAGE, 200, ""),
    "check": ("POST", "/images/15/check", b"", 200, ""),
    "donor of 1,000 bytes in codes": ("PUT", "/deeds/71", CODED_DEED, 200, None),
    "bytes that are no UTF-8": ("PUT", "/deeds/72", b'{"donor":"\xff\xfe"}', 400, None),
    "control character": ("PUT", "/deeds/72", b'{"donor":"\x00"}', 400, "")}

@pytest.mark.parametrize("method, path, body, status, written", COMMANDS.values(), ids=COMMANDS)
def test_command_has_both_lines_whole(staff, journal, method, path, body, status, written):
    assert staff.ask(method, path, *NAMES, body=body, key=STAFF).status == status
    (begun, ended), at = journal.lines(), path.removeprefix("http://localhost")
    body = body.decode("utf-8", "surrogateescape") if written is None else written
    kept = {"method": method, "path": at, "staff": "anna", "note": NOTE, "body": body}
    for line, word in ((begun, "begun"), (ended, str(status))):
        assert {name: line[name] for name in (*kept, "status")} == {**kept, "status": word}
    assert begun["id"] == ended["id"] and begun["at"] <= ended["at"]

def test_command_in_chunks_of_a_client_that_leaves_stands_whole(staff, journal):
    head = f"PUT /deeds/73 HTTP/1.1\r\nHost: localhost\r\nDesk-Key: {STAFF}\r\nTransfer-Encoding: chunked\r\n\r\n"
    with staff.connected() as connection:
        connection.sendall(head.encode() + b"%x\r\n%s\r\n0\r\n\r\n" % (len(DEED), DEED))
    wait_until(lambda: len(journal.read()) >= 2)
    found = [(line["status"], line["body"]) for line in journal.lines()]
    assert found == [("begun", DEED.decode()), ("200", DEED.decode())]

NO_CHANGES = [
    ("GET", "/images"), ("HEAD", "/images"), ("GET", "/staff/keys"), ("GET", "/staff.html"), ("GET", "/journal"),
    ("DELETE", "/journal"), ("PUT", "/journal-2026-11?x"), ("PUT", "/staff/rehearsals/2030-01-01/images/15/rules/1")]

def test_what_changes_nothing_has_no_line(staff, outside, journal):
    for method, path in NO_CHANGES:
        staff.ask(method, path, *NAMES, body=RULE if method == "PUT" else b"", key=STAFF)
    for method in ("PUT", "DELETE", "POST"):
        outside.ask(method, "/deeds/7", *NAMES, body=DEED, key=STAFF)
    assert journal.lines() == []

@pytest.mark.parametrize("key, status", [(None, 403), (ROOM, 403), (NOBODY, 401)], ids=["public", "room", "unknown"])
@pytest.mark.parametrize("path", ["/deeds/74", KEY_PATH])
def test_body_without_a_key_of_the_staff_is_in_no_log(room, staff, journal, path, key, status):
    """The desk refuses it, by the words that it has for every such command."""
    reply = staff.ask("PUT", path, *NAMES, body=b'{"donor":"nobody of the staff","signed":"2020-02-29"}', key=key)
    assert journal.lines() == [] and b"nobody of the staff" not in room.logs()
    assert (reply.status, reply.body) == room.ask_desk(drop("/deeds/7/rules/1", key))
    assert (reply.status, reply.getheader("WWW-Authenticate")) == (status, "Desk-Key" if status == 401 else None)

@pytest.mark.parametrize("path", ["/deeds/7", f"/accessions/7/d64/7/{'0' * 64}"])
def test_bodies_without_a_key_write_little(room, staff, journal, path):
    """So a page of another site, which sends them in the browser on the staff's machine, fills no disk."""
    before = len(room.logs())
    for _ in range(50):
        assert staff.ask("POST", path, ("Origin", "https://other.example"), body=bytes(262144)).status >= 400
    assert journal.lines() == [] and len(room.logs()) - before < 50 * 2000

# Names and bodies that a line just holds: JSON writes a line feed as two bytes.
LONG_PATH = "/deeds/75?" + '"' * 290
LONG_NAMES = [("Desk-Staff", "s" * 1000), ("Desk-Note", "n" * 1000)]
LONG_BODY = DEED + b"\n" * (3072 - len(DEED))
# What is longer, and how it is refused.
TOO_LONG = {"path": (414, LONG_PATH + "x", LONG_NAMES, LONG_BODY),
    "note": (400, LONG_PATH, [LONG_NAMES[0], ("Desk-Note", "n" * 1002)], LONG_BODY),
    "quote in a note": (400, LONG_PATH, [("Desk-Note", '"mine"')], LONG_BODY),
    "body": (413, LONG_PATH, LONG_NAMES, LONG_BODY + b"\n"),
    "body in chunks": (413, "/deeds/75", [("Transfer-Encoding", "chunked")], b"2328\r\n%9000d\r\n0\r\n\r\n" % 7)}

def test_longest_command_stands_whole_in_a_short_line(staff, journal):
    assert staff.ask("PUT", LONG_PATH, *LONG_NAMES, body=LONG_BODY, key=STAFF).status == 200
    assert [line["body"] for line in journal.lines()] == [LONG_BODY.decode()] * 2
    assert max(map(len, journal.path.read_bytes().splitlines())) < 9000

@pytest.mark.parametrize("status, path, names, body", TOO_LONG.values(), ids=TOO_LONG)
def test_command_too_long_for_a_line_is_refused_without_one(staff, journal, status, path, names, body):
    reply = staff.ask("PUT", path, *names, body=body, key=STAFF)
    assert journal.lines() == [] and reply.is_refusal(status), reply

@pytest.fixture
def asked(room):
    """What a desk in the room's place is asked that gives no reply to a command, with the journal of that moment."""
    found = []

    def answer(connection, *_):
        came = connection.recv(65536)
        found.append((came, (room.folder / "journal").read_bytes()))
        if came.startswith(b"GET /staff/keys "):
            connection.sendall(DONE)

    with room.desk_down():
        room.place.unlink()
        with socketserver.UnixStreamServer(str(room.place), answer) as fake:
            give_to_nginx(room.place, 0o660)
            threading.Thread(target=fake.serve_forever, args=(0.02,), daemon=True).start()
            yield found
            fake.shutdown()
        room.place.unlink()

def test_command_goes_to_the_desk_without_names_once_it_stands_in_the_journal(journal, asked, staff):
    """And where no reply comes nobody knows the outcome, which both lines say."""
    for path in (f"/deeds/{number}" for number in range(800, 820)):
        assert staff.ask("PUT", path, *NAMES, body=DEED, key=STAFF).is_refusal(502)
        (question, _), (command, written) = asked[-2:]
        assert question.split()[:2] + command.split()[:2] == [b"GET", b"/staff/keys", b"PUT", path.encode()]
        assert f'"{path}"'.encode() in written
        assert f"Desk-Key: {STAFF}\r\n".encode() in command and command.endswith(DEED)
        assert not re.search(b"desk-staff|desk-note|anna", question + command, re.IGNORECASE)
    wait_until(lambda: len(journal.read()) == 40)
    found = [(line["status"], line["body"]) for line in journal.read() if line["path"] == path]
    assert found == [("begun", DEED.decode()), ("502", DEED.decode())]

@pytest.mark.parametrize("key", [None, STAFF])
def test_command_to_a_desk_that_is_down_has_no_line(room, staff, journal, key):
    """It was not done, and nobody knows whose key it is: a restore must not do it."""
    with room.desk_down():
        replies = [staff.ask("PUT", "/deeds/74", body=DEED, key=key), staff.ask("DELETE", badge(STAFF), key=key)]
    assert journal.lines() == [] and all(reply.is_refusal(502) for reply in replies), replies

def test_logs_have_no_key_and_no_bytes_of_a_disk(room, staff, outside, journal):
    key = "a key that no log may have"
    assert outside.get("/images", key=key).status == 401
    for method in ("PUT", "DELETE"):
        assert staff.ask(method, badge(key), *NAMES, body=ROOMS, key=STAFF).status == 200
    assert staff.ask("PUT", f"/accessions/702/d64/9/{digest(IMAGE)}", body=IMAGE, key=STAFF).status == 200
    assert [line["path"] for line in journal.lines()][:2] == [badge(key)] * 2
    wait_until(lambda: b'"GET /images HTTP/1.1" 401' in room.logs())
    assert not re.search(f'GUIDE|Desk-Key|{key}|"{STAFF}"'.encode(), journal.path.read_bytes() + room.logs())
    assert not re.search(f"{badge(key)}|anna|objection".encode(), room.logs())

CODED = "".join(f"%{byte:02x}" for byte in NUMBER.encode())
# Targets that nginx reads as the path of a key, in all its forms: what stands before and behind the number.
BEFORE = """/badges/ http://localhost/badges/ HTTP://LOCALHOST:80/badges/ //badges/ ///badges// /%62adges/ /b%61d%67es/
    /%62%61%64%67%65%73/ /badges%2f /%2fbadges%2F /./badges/ /x/../badges/ /x/%2e%2E/badges/ /images/..%2fbadges/
    /badges/./ /badges/x/../ /badges?""".split()
OF_KEYS = [before + number for before in BEFORE for number in (NUMBER, CODED.upper())]
OF_KEYS += [f"/badges/{NUMBER.upper()}", f"{KEY_PATH}?x", f"{KEY_PATH}#x", f"{KEY_PATH}/"]
# Targets with that number, or with that path, of which nginx makes another path.
BEFORE = """/BADGES/ /%42adges/ /%2562adges/ /badge/ /x/badges/ /images/ /images?key= /x#/badges/ /staff/keys/ badges/
    /%zz/badges/ /../../badges/""".split()
LIKE_KEYS = [before + number for before in BEFORE for number in (NUMBER, CODED, CODED.replace("%", "%2525"))]
# Requests for these, and lines that are no request, or one of a method that nobody has.
LINES = {"of keys": [f"{method} {target} HTTP/1.1" for target in OF_KEYS for method in ("GET", "DELETE")],
    "like keys": [f"GET {target} HTTP/1.1" for target in LIKE_KEYS],
    "no requests": [NUMBER, KEY_PATH, f" {KEY_PATH} HTTP/1.1", f"get {KEY_PATH} HTTP/1.1", f"PUT\t{KEY_PATH} HTTP/1.1",
        f"P-UT {KEY_PATH} HTTP/1.1", f"GET  {KEY_PATH} HTTP/1.1", f"GET {KEY_PATH}", f"GET {KEY_PATH} HTTP/9.9",
        f"GET {KEY_PATH}{'/' * 9000} HTTP/1.1", f"{'A' * 3000} {KEY_PATH} HTTP/1.1", f"\x16\x03 {KEY_PATH}"]}
# Each half of the number, in small and capital letters and in codes.
HALVES = (half.replace("%", "%(25)*") for half in (NUMBER[:32], NUMBER[32:], CODED[:96], CODED[96:]))
FRAGMENTS = re.compile("|".join(HALVES).encode(), re.IGNORECASE)
# A line of the log of visits that is cut short.
CUT = re.compile(r'\S+ \[\S+\] "([A-Za-z_-]+ (/badges/)?)?\.\.\." [0-9]+ [0-9]+ [0-9.]+\n')

def visited(room, door, line):
    """The line of the log of visits of a request that begins with this one; no log has more of a key."""
    logs = [room.folder / name for name in ("desk-visits.log", "error.log")]
    sizes = [log.stat().st_size for log in logs]
    door.exchange(f"{line}\r\nHost: localhost\r\nDesk-Key: {STAFF}\r\nConnection: close\r\n\r\n".encode("latin-1"))
    wait_until(lambda: logs[0].read_bytes()[sizes[0] :].endswith(b"\n"))
    visits, errors = (log.read_bytes()[size:] for log, size in zip(logs, sizes))
    assert not FRAGMENTS.search(visits + errors)
    return visits.decode("latin-1")

@pytest.mark.parametrize("kind, is_down", [*((kind, False) for kind in LINES), ("of keys", True)])
def test_path_of_a_key_is_cut_at_each_door(room, outside, staff, redirecting, kind, is_down):
    with room.desk_down() if is_down else contextlib.nullcontext():
        for line in LINES[kind]:
            for door in (outside, staff, redirecting):
                assert CUT.fullmatch(visited(room, door, line)), (door.name, line)

@pytest.mark.parametrize("line", ["GET /{} HTTP/1.1", "{} / HTTP/1.1", "{}", "GET /images?{} HTTP/1.1"])
def test_long_line_is_cut_at_each_door(room, outside, staff, redirecting, line):
    for door in (outside, staff, redirecting):
        for length in (3000, 8000):
            assert len(visited(room, door, line.format("X" * length))) < 1000, (door.name, length)
