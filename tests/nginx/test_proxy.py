"""What nginx hands on between a visitor and the desk, what it adds, and what it refuses itself, at each door."""

import socket

import pytest
from support.samples import BAD_HEAD, DEED, EVERY, FRAMING, NOBODY, RECORD, RECORD_DISK, ROOM, STAFF, UNKNOWN_KEY
from support.samples import badge, check, drop, get, put, put_image, put_rule
from support.server import HOST, LIMIT

FILE, DENIED = "/images/15/files/0", "/images/13/files/0"
BYTES = RECORD.partition(b"\r\n\r\n")[2]
QUESTIONS = [*(("/images", key) for key in (None, ROOM, STAFF, NOBODY, "")), ("/catalogue", STAFF), (FILE, None),
    (DENIED, STAFF), ("/images/99", None), (f"{FILE}?/files/1", None), ("/deeds/7", None), (badge("x"), None)]

@pytest.mark.parametrize("path, key", QUESTIONS)
def test_reply_of_the_desk_comes_as_it_is(room, door, path, key):
    reply = door.get(path, key=key)
    assert (reply.status, reply.body) == room.ask_desk(get(path, key))
    assert reply.getheader("WWW-Authenticate") == ("Desk-Key" if reply.status == 401 else None)
    assert (reply.getheader("Allow") is None) == (reply.status != 405)

@pytest.mark.parametrize("key", [STAFF, ROOM, None, NOBODY])
def test_questions_of_the_staff_are_answered_at_their_door(room, staff, key):
    for path in ("today", "deeds", "takedowns", "keys", "checks", "verdicts/2030-01-01", "none"):
        reply = staff.get(f"/staff/{path}", key=key)
        assert (reply.status, reply.body) == room.ask_desk(get(f"/staff/{path}", key)), path

COMMANDS = [put("/deeds/77", DEED), put_rule("/deeds/9/rules/1", "deny", EVERY, "public"), drop("/deeds/9/rules/1"),
    put_image(77, "cpm8", 9, RECORD_DISK), put(badge("x"), {"audience": "staff"}), drop(badge("x")), check(15)]

def test_commands_are_done_at_the_staffs_door_alone(room, outside, staff):
    def stored():
        return [file.read_bytes() for file in sorted(room.folder.glob("museum.sqlite*"))]

    before = stored()
    for command in COMMANDS:
        assert outside.send(command).is_refusal(403), command.path
    assert stored() == before
    for command in COMMANDS:
        reply = staff.send(command)
        assert (reply.status, b"done" in reply.body or b"sound" in reply.body) == (200, True), command.path
    assert stored() != before

@pytest.mark.parametrize("path", ["/images", "/catalogue", FILE, DENIED, "/images/99", "/room.js", "/none", "/health"])
def test_head_is_get_without_a_body(door, path):
    replies = door.get(path), door.ask("HEAD", path)
    fields = [set(reply.getheaders()) - {("Date", reply.getheader("Date"))} for reply in replies]
    assert (replies[1].status, replies[1].body, fields[1]) == (replies[0].status, b"", fields[0])

RANGES = {
    (FILE, "bytes=0-4"): (206, BYTES[:5], "bytes 0-4/128"), (FILE, "bytes=-5"): (206, BYTES[-5:], "bytes 123-127/128"),
    (FILE, "bytes=500-"): (416, b'{"error":"server-416"}', "bytes */128")}
NO_RANGES = [(FILE, "bytes=0-4,8-9"), (FILE, "lines=1-2"), (DENIED, "bytes=0-4"), ("/images/15/survey", "bytes=0-4")]

@pytest.mark.parametrize("path, words", [*RANGES, *NO_RANGES])
def test_one_range_of_a_file_and_of_nothing_else_is_given(door, path, words):
    plain, came = door.get(path), door.get(path, ("Range", words))
    wanted = RANGES.get((path, words), (plain.status, plain.body, None))
    assert (came.status, came.body, came.getheader("Content-Range")) == wanted
    assert len(set(came.headers)) == len(came.headers), "a field twice"

# What nginx refuses itself, from outside: method, path, fields, body, and the status.
BAD = {"a target of 9,000 bytes": ("GET", "/" + "x" * 9000, [], b"", 414),
    "a field of 9,000 bytes": ("GET", "/images", [("Desk-Key", "k" * 9000)], b"", 400),
    "fields of 60,000 bytes": ("GET", "/", [(f"F-{n}", "x" * 900) for n in range(60)], b"", 400),
    "a body of 2,000 bytes": ("GET", "/images", [], bytes(2000), 413),
    "a command with 300,000 bytes": ("PUT", "/deeds/7", [], bytes(300000), 403),
    "OPTIONS": ("OPTIONS", "/images", [], b"", 403), "TRACE": ("TRACE", "/", [], b"", 405),
    "a body in another code": ("GET", "/images", [("Transfer-Encoding", "gzip")], b"", 501),
    **{path: ("GET", path, [], b"", 404) for path in ("/none", "/.refused/404", "/.healthy")}}

@pytest.mark.parametrize("method, path, fields, body, status", BAD.values(), ids=BAD)
def test_nginx_refuses_as_the_desk_does(outside, method, path, fields, body, status):
    reply = outside.ask(method, path, *fields, body=body)
    assert reply.is_refusal(status), reply
    assert reply.getheader("Allow") == ("GET, HEAD" if status == 405 else None)

@pytest.mark.parametrize("line, status", [
    ("hello", 400), ("GET / HTTP/3.0\r\nHost: localhost", 505), ("GET / HTTP/1.1\r\nHost: a b", 400)])
def test_bytes_that_are_no_request_are_refused(outside, line, status):
    assert outside.reply_to(f"{line}\r\n\r\n".encode()).is_refusal(status)

def test_plain_http_is_sent_on_to_tls(room, redirecting):
    reply, where = redirecting.get("/images/12?x=y"), f"https://localhost:{room.https_port}/images/12?x=y"
    assert (reply.status, reply.getheader("Location")) == (301, where)
    with socket.create_connection((HOST, room.https_port), LIMIT) as plain:
        plain.sendall(b"GET / HTTP/1.0\r\n\r\n")
        assert plain.recv(65536).startswith(b"HTTP/1.1 400 ")

HEADS = {"key twice": (2 * [("Desk-Key", STAFF)], FRAMING), "key in UTF-8": ([("Desk-Key", "\xc3\xbc")], UNKNOWN_KEY),
    "70 fields": (70 * [("A", "b")], BAD_HEAD),
    **{f"{count} kB": (count * [("A", "b" * 1015)], BAD_HEAD) for count in (12, 20)}}

@pytest.mark.parametrize("fields, due", HEADS.values(), ids=HEADS)
def test_head_reaches_the_desk_or_gets_its_refusal(door, fields, due):
    for _ in range(10):
        reply = door.get(FILE, *fields)
        assert (reply.status, reply.body) == (int(due.split()[1]), due.partition(b"\r\n\r\n")[2])

# Ways to write a path that is at the staff's door alone.
OF_STAFF = """
    /staff/deeds /staff /staff/ /staff/deeds?x //staff/deeds /%73taff/deeds /x/../staff/deeds /images/../staff/deeds
    /images/%2e%2e/staff/deeds /staff/./deeds /images/..%2fstaff/deeds /staff/deeds/../../images /staff/../images
    /staff.html /staff.js //staff.js /%73taff.js /./staff.js /journal /journal-2026-11 /journal?x //journal /%6aournal
    /.journal /.staff /.may /.begun /.read /museum.sqlite /%2e%2e/museum.sqlite /web/room.js
""".split()

@pytest.mark.parametrize("path", OF_STAFF)
def test_what_is_of_the_staff_is_not_outside(outside, path):
    """Whatever the key."""
    statuses = [outside.ask(method, path, key=STAFF).status for method in ("GET", "HEAD", "PUT")]
    assert statuses in ([404, 404, 403], [400, 400, 400]), statuses

# Names by which a browser may call the staff's door, and others.
OWN_NAMES = "127.0.0.1 localhost LOCALHOST 127.0.0.1:9000 localhost:1".split()
OTHER_NAMES = "desk.museum.example 127.0.0.1.example localhost.example:8043 127.0.0.2 2130706433 [::1] x.localhost"

@pytest.mark.parametrize("host", [*OWN_NAMES, *OTHER_NAMES.split()])
def test_staffs_door_has_two_names(staff, host):
    for method, path in (("GET", "/"), ("GET", "/staff.js"), ("GET", "/images"), ("DELETE", "/deeds/9/rules/99")):
        reply = staff.ask(method, path, key=STAFF, host=host)
        assert reply.status == 200 if host in OWN_NAMES else reply.is_refusal(403), path

def test_staffs_door_is_at_one_address(room, staff):
    for address in ("127.0.0.2", "127.1.2.3"):
        with socket.socket() as other:
            assert other.connect_ex((address, room.staff_port)) != 0
    assert staff.reply_to(b"GET / HTTP/1.0\r\n\r\n").is_refusal(403)

@pytest.mark.parametrize("length, status", [(262144, 422), (262145, 413)])
def test_staffs_door_takes_a_body_that_the_desk_takes(staff, length, status):
    assert staff.send(put_image(78, "d64", 9, bytes(length))).status == status

def test_health_tells_whether_the_desk_answers_which_comes_back(room, door):
    for reply in (door.get("/health"), door.ask("GET", "/health?x", ("Range", "bytes=0-1"), body=b"abc", key="no key")):
        assert (reply.status, reply.body, reply.getheader("Cache-Control")) == (200, b'{"done":true}', "no-store")
    assert b'/health HTTP/1.1" 200' not in (room.folder / "desk-visits.log").read_bytes()
    with room.desk_stalled():
        assert door.get("/health").is_refusal(503)
    with room.desk_down():
        assert door.get("/health").is_refusal(503) and door.get("/images", key=NOBODY).is_refusal(502)
        assert door.get("/").status == 200
    assert door.get(FILE).body == BYTES
