"""What a client meets over HTTP, byte for byte, that no trial shows: sockets, clients' own ways, clocks."""

import contextlib
import datetime
import select
import socket
import struct
import subprocess
import time

import pytest
from support.clients import OPEN_FILES, PAUSE, ask, by_socket, connected, curl, read_all, zone_of
from support.samples import (
    ALL, BAD_HEAD, DEED, DONE, EVERY, FOR_RECORD, FRAMING, LONG_QUESTION, NO_ACCESSION, NO_DEED, QUESTION, RECORD,
    RECORD_DISK, compact, denied, drop, get, put, put_image, put_rule, raw, with_fields)

DEED_10, DROP_10 = raw(put("/deeds/10", DEED)), drop("/deeds/10/rules/1")
HEAD, BODY = DEED_10[: DEED_10.index(b"{")], compact(DEED)
LONGEST_HEAD = with_fields("A: " + "b" * (8192 - len(with_fields("A: "))))

# The parts that a client sends with a pause between them, whether it then ends its sending, and the reply.
PARTS = {"a head in two parts": ([QUESTION[:30], QUESTION[30:]], False, RECORD),
    "the longest head, its last byte after a pause": ([LONGEST_HEAD[:-1], b"\n"], False, RECORD),
    "the longest body": ([with_fields("Content-Length: 262144") + bytes(262144)], False, RECORD),
    "a deed after a question": ([QUESTION + DEED_10], False, RECORD), "no byte": ([], True, BAD_HEAD),
    "a head and half a body": ([HEAD + BODY[:20]], True, FRAMING),
    "a body in two parts": ([HEAD + BODY[:20], BODY[20:]], False, DONE),
    "a head, then its body, and an end": ([HEAD, BODY], True, DONE)}

@pytest.mark.parametrize("parts, ends, due", PARTS.values(), ids=PARTS)
def test_request_is_read_whole_and_no_further(server, parts, ends, due):
    assert by_socket(server.port, parts, ends) == (due, "an end")
    assert ask(server.port, DROP_10) == (DONE if due == DONE else NO_DEED)

def leave(place, sent, resets):
    with connected(place) as connection:
        connection.sendall(sent)
        if resets:
            connection.setsockopt(socket.SOL_SOCKET, socket.SO_LINGER, struct.pack("ii", 1, 0))

@pytest.mark.parametrize("resets", [False, True], ids=["end", "reset"])
@pytest.mark.parametrize("sent", [b"", QUESTION[:30], HEAD + BODY[:20], QUESTION, LONG_QUESTION],
                         ids=["nothing", "half a head", "half a body", "question", "long question"])
def test_client_that_leaves_ends_its_visit_alone(long_server, sent, resets):
    leave(long_server.port, sent, resets)
    assert ask(long_server.port, DROP_10) == NO_DEED

def test_clients_are_served_one_at_a_time(server):
    """While one has sent half of its question, three others have no answer. Then all four have."""
    with contextlib.ExitStack() as stack:
        first, *others = all_four = [stack.enter_context(connected(server.port)) for _ in range(4)]
        first.sendall(QUESTION[:30])
        for other in others:
            other.sendall(QUESTION)
        assert select.select(all_four, [], [], PAUSE)[0] == []
        first.sendall(QUESTION[30:])
        assert [read_all(client) for client in all_four] == [(RECORD, "an end")] * 4

def test_many_visits_leave_no_file_open(server):
    assert {ask(server.port, FOR_RECORD) for _ in range(4 * OPEN_FILES)} == {RECORD}

def test_desk_listens_at_loopback_alone(server):
    with socket.socket() as client:
        assert client.connect_ex(("127.0.0.2", server.port)) != 0

@pytest.mark.parametrize("body, waits, due, sent", [
    (RECORD_DISK, "1", DONE, len(RECORD_DISK)), (bytes(262145), "60", FRAMING, 0)], ids=["record", "too long"])
def test_upload_by_curl_that_expects_to_go_on(server, tmp_path, body, waits, due, sent):
    asked, file, came = put_image(22, "cpm8", 9, body), tmp_path / "body", tmp_path / "came"
    file.write_bytes(body)
    words = ["-H", "Expect:100-continue", "--expect100-timeout", waits, "-H", f"Desk-Key: {asked.key}", "-T", file]
    words = curl(server.port, asked.path, *words, "-o", came, "-w", "%{size_upload}")
    assert (subprocess.run(words, capture_output=True, check=True).stdout, came.read_bytes()) == (b"%d" % sent, due)
    assert ask(server.port, get("/images/22/files/0")) == (RECORD if due == DONE else NO_ACCESSION)

@pytest.mark.alone
def test_moment_of_a_visit_is_that_of_its_connection(serving, store):
    """The clock of the desk passes midnight while a client that has connected has sent nothing yet."""
    midnight = int(time.time()) + 6
    ahead = -midnight % 86400
    day = datetime.datetime.fromtimestamp(midnight + ahead, datetime.timezone.utc).date().isoformat()
    with serving(store, "--zone", zone_of(ahead)) as served:
        assert ask(served.port, put_rule("/deeds/9/rules/1", "deny", EVERY, *ALL, until=day)) == DONE
        with connected(served.port) as early:
            time.sleep(midnight + PAUSE - time.time())
            early.sendall(QUESTION)
            assert read_all(early) == (denied("R9.1"), "an end")
        assert ask(served.port, FOR_RECORD) == RECORD
