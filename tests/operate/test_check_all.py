"""What operate/check-all asks of a desk, what it writes, and how it ends. The desk is a server that replies to each
request as the test says: as docs/FORMATS.md has it, by another server's page, by a part of a reply, or not at all."""

import http.client
import json
import os
import signal
import socketserver
import subprocess
import threading

import pytest
from support.room import OPERATE, wait_until
from support.server import HOST, LIMIT, free_port

CHECK_ALL = os.path.join(OPERATE, "check-all")
KEY = "open sesame ü".encode()
LIST = "the list of accessions"
GONE = "no reply (Remote end closed connection without response)"
HALF = "no reply (IncompleteRead(9 bytes read, 10 more expected))"

def reply(status, text):
    return f"HTTP/1.1 {status} \r\nContent-Length: {len(text)}\r\nConnection: close\r\n\r\n{text}".encode()

# Replies, or parts of them; one that stalls is none.
REPLIES = {"sound": reply(200, '{"outcome":"sound"}'), "changed": reply(200, '{"outcome":"changed"}'),
    "other": reply(200, '{"outcome":"odd"}'), "array": reply(200, "[]"), "done": reply(200, '{"done":true}'),
    "page": reply(502, "<html>Bad Gateway</html>"), "silent": b"", "cut": reply(200, '{"outcome":"sound"}')[:-10],
    "stalls": None, **{name: reply(status, json.dumps({"error": name})) for name, status in {
        "unavailable": 503, "staff-only": 403, "no-accession": 404, "no-route": 404, "unknown-key": 401}.items()}}

class Visit(socketserver.StreamRequestHandler):
    """A visit, which gets a list, or the next reply of its accession; the last one is repeated."""

    def handle(self):
        method, path, _ = self.rfile.readline().decode().split()
        if http.client.parse_headers(self.rfile)["Desk-Key"] != KEY.decode("latin-1"):
            due = REPLIES["unknown-key"]
        elif method == "GET":
            due = self.server.lists.get(path, REPLIES["no-route"])
        else:
            self.server.asked.append(int(path.split("/")[2]))
            names = self.server.replies.get(self.server.asked[-1], ["no-accession"])
            due = REPLIES[names.pop(0) if len(names) > 1 else names[0]]
        self.wfile.write(self.rfile.read() if due is None else due)

@pytest.fixture
def desk_that(request):
    """Begins a desk with replies for each accession, each a text of their names, and with what it replies to GET."""
    def begin(replies, lists=None):
        desk = socketserver.ThreadingTCPServer((HOST, 0), Visit)
        desk.daemon_threads, desk.asked, desk.place = True, [], f"http://{HOST}:{desk.server_address[1]}"
        desk.replies = {number: names.split() for number, names in replies.items()}
        checks = json.dumps({"checks": [{"accession": number} for number in replies]})
        desk.lists = lists or {"/staff/checks": reply(200, checks)}
        threading.Thread(target=desk.serve_forever, args=(0.05,), daemon=True).start()
        request.addfinalizer(desk.server_close)
        request.addfinalizer(desk.shutdown)
        return desk
    return begin

@pytest.fixture
def key(tmp_path):
    path = tmp_path / "staff-key"
    path.write_bytes(b"Desk-Key: " + KEY + b"\n")
    return path

def run(*words):
    """The status, the standard output, and the lines of the standard error without the program's name."""
    ran = subprocess.run([CHECK_ALL, *map(str, words)], stdin=subprocess.DEVNULL, capture_output=True, timeout=LIMIT)
    errors = ran.stderr.decode().splitlines()
    return ran.returncode, ran.stdout.decode(), [line.removeprefix("check-all: ") for line in errors]

def told(count, sound=0, changed=(), left=0):
    """The standard output: the accessions that changed, and the counts."""
    lines = "".join(f"{number} changed\n" for number in changed)
    return f"{lines}{count} accessions: {sound} sound, {len(changed)} changed, {left} not asked\n"

# The replies of each accession, the status, the standard output, the errors, and which accession was asked how often.
CASES = {"all sound": ({12: "sound", 13: "sound"}, 0, told(2, 2), [], [12, 13]), "none": ({}, 0, told(0), [], []),
    "one changed": ({12: "sound", 13: "changed", 999999: "sound"}, 1, told(3, 2, [13]), [], [12, 13, 999999]),
    "a break and a cut": ({12: "silent sound", 13: "cut changed"}, 1, told(2, 1, [13]), [], [12, 12, 13, 13]),
    "breaks that are not in a row": ({12: "silent", 13: "changed", 14: "cut", 15: "sound"}, 2, told(4, 1, [13], 2),
                                     [f"12: {GONE}", f"14: {HALF}"], [12, 12, 13, 14, 14, 15]),
    "a desk that goes down": ({13: "silent", 14: "silent", 15: "sound"}, 2, told(3, left=3),
                              [f"13: {GONE}", f"14: {GONE}"], [13, 13, 14, 14]),
    "replies of no outcome": (
        {12: "unavailable", 13: "page", 14: "other", 15: "changed"}, 2, told(4, 0, [15], 3), ["12: unavailable",
        "13: a reply with status 502 that is none of a desk", "14: a reply that is no outcome of a check"],
        [12, 13, 14, 15]),
    "a key of the reading room": ({12: "staff-only", 13: "staff-only"}, 2, told(2, left=2), ["12: staff-only"], [12]),
    "a key dropped on the way": ({12: "sound", 13: "unknown-key", 14: "sound"}, 2, told(3, 1, left=2),
                                 ["13: unknown-key"], [12, 13])}

@pytest.mark.parametrize("replies, status, output, errors, asked", CASES.values(), ids=CASES)
def test_each_disk_is_asked_and_each_fault_named(desk_that, key, replies, status, output, errors, asked):
    desk = desk_that(replies)
    assert run(key, desk.place) == (status, output, errors)
    assert desk.asked == asked

@pytest.mark.parametrize("kind, words", [
    ("done", "a reply that is no list of accessions"), ("array", "a reply with status 200 that is none of a desk"),
    ("page", "a reply with status 502 that is none of a desk"), ("unavailable", "unavailable")])
def test_without_a_list_nothing_is_asked(desk_that, key, kind, words):
    desk = desk_that({12: "sound"}, {"/staff/checks": REPLIES[kind]})
    assert (run(key, desk.place), desk.asked) == ((2, "", [f"{LIST}: {words}"]), [])

def test_disks_that_an_older_desk_does_not_list_are_named_by_hand(desk_that, key, tmp_path):
    """It does not know GET /staff/checks."""
    images = reply(200, '{"images":[{"accession":13},{"accession":12}]}')
    old = desk_that({7: "changed", 12: "sound", 13: "sound", 14: "sound"}, {"/images": images})
    assert run(key, old.place) == (0, told(2, 2), [])
    (tmp_path / "more").write_text("13\n7\n15\n7\n")
    assert run(key, old.place, tmp_path / "more") == (2, told(4, 2, [7], 1), ["15: no-accession"])
    assert old.asked == [12, 13, 7, 12, 13, 15]

@pytest.mark.parametrize("line, words", [
    (b"Desk-Key: \topen sesame \xc3\xbc \t\r\n", None), (b"desk-key:open sesame \xc3\xbc", None),
    (b"Desk-Key: another\n", f"{LIST}: unknown-key"), (b"Desk-Key:\n", f"{LIST}: unknown-key"),
    *((line, "not one line") for line in (b"", b"open sesame\n", b"Desk-Key: a\nDesk-Key: b\n", b"Cookie: a\n"))])
def test_key_is_one_line_of_a_file(desk_that, key, line, words):
    key.write_bytes(line)
    status, output, errors = run(key, f"{desk_that({12: 'sound'}).place}/")
    assert (status, output) == ((2, "") if words else (0, told(1, 1)))
    assert words in errors[0] if words else errors == []

@pytest.mark.parametrize("text", ["13\nx\n", "0\n", "013\n", "1000000\n", "13,d64\n", "\n"])
def test_accession_that_is_none_is_named_by_its_line(desk_that, key, tmp_path, text):
    (tmp_path / "more").write_text(text)
    why = f"{tmp_path}/more: line {text.count(chr(10))} is no accession"
    assert run(key, desk_that({12: "sound"}).place, tmp_path / "more") == (2, "", [why])

def test_words_that_are_none_are_refused(key, tmp_path):
    for word in ("https://127.0.0.1", "127.0.0.1:8041", "http://127.0.0.1:x", "http://127.0.0.1/images", "http://"):
        assert run(key, word) == (2, "", [f"not the address of a desk: {word}"])
    for words in ((), (key, "http://127.0.0.1", "more", "still more")):
        assert run(*words) == (2, "", ["usage: operate/check-all KEY [DESK [MORE]]"])
    assert run(tmp_path / "none") == (2, "", [f"{tmp_path}/none: No such file or directory"])
    why = f"{LIST}: no reply ([Errno 111] Connection refused)"
    assert run(key, f"http://{HOST}:{free_port()}") == (2, "", [why])

def test_interrupt_ends_it_with_the_counts(desk_that, key):
    desk = desk_that({12: "sound", 13: "changed", 14: "stalls", 15: "sound"})
    # what runs in the background of a shell ignores it, and what it starts does too
    words = ["env", "--default-signal=INT", CHECK_ALL, key, desk.place]
    process = subprocess.Popen(words, stdout=subprocess.PIPE, stderr=subprocess.PIPE, text=True)
    wait_until(lambda: 14 in desk.asked)
    process.send_signal(signal.SIGINT)
    output, errors = process.communicate(timeout=LIMIT)
    assert (process.returncode, output, errors) == (2, told(4, 1, [13], 2), "check-all: stopped\n")
