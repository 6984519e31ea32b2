"""A client who sends or takes little holds the desk for its limit and no longer, and the next one is answered then."""

import time

import pytest
from support.clients import beside, by_socket, connected
from support.samples import LONG_FILE, LONG_QUESTION, content, head
from support.server import LIMIT, free_port

# How many bytes the system keeps for a client that has not read them, and how much longer the next one may wait.
LITTLE_ROOM, MORE_TIME = 4096, 2
QUESTION = head("GET /images HTTP/1.1")
pytestmark = pytest.mark.alone

@pytest.fixture(params=["port", "socket"])
def place(request, tmp_path):
    return free_port() if request.param == "port" else tmp_path / "socket"

def sends_nothing(client, ended):
    ended.wait(LIMIT)

def sends_a_byte_a_second(client, ended):
    for byte in QUESTION[:-2] + b"Field: " + b"x" * 10000:
        client.sendall(bytes([byte]))
        if ended.wait(1):
            return

def takes_nothing(client, ended):
    client.sendall(LONG_QUESTION)
    ended.wait(LIMIT)

def takes_a_byte_a_second(client, ended):
    client.sendall(LONG_QUESTION)
    while not ended.wait(1) and client.recv(1):
        pass

# Clients, the options of their desk, and how many seconds they hold it: at the least, and at the most. A reply may have
# several writes, each of which waits for its limit: ten seconds is the usual one.
@pytest.mark.parametrize("visitor, options, least, most", [(sends_nothing, ["--request-timeout", "2"], 1.6, 2),
    (sends_a_byte_a_second, ["--request-timeout", "2"], 1.6, 2), (takes_nothing, ["--write-timeout", "1"], 0.8, 3),
    (takes_a_byte_a_second, ["--reply-timeout", "4", "--write-timeout", "3"], 2.4, 4),
    pytest.param(sends_nothing, [], 8, 10, marks=pytest.mark.long),
    pytest.param(takes_nothing, [], 8, 50, marks=pytest.mark.long)])
def test_slow_client_holds_the_desk_for_its_limit(serving, long_store, place, visitor, options, least, most):
    with serving(long_store, *options, place=place):
        due = by_socket(place, [QUESTION])
        assert due[0].startswith(b"HTTP/1.1 200 ") and due[1] == "an end"
        with connected(place, LITTLE_ROOM) as client, beside(visitor, client):
            begun = time.monotonic()
            came, taken = by_socket(place, [QUESTION]), time.monotonic() - begun
    assert came == due
    assert least < taken < most + MORE_TIME

def test_reply_taken_slowly_but_in_time_is_whole(serving, long_store, place):
    """Each part is taken in time; all of them take longer than a write may."""
    came = b""
    with serving(long_store, "--write-timeout", "1", place=place), connected(place, LITTLE_ROOM) as client:
        client.sendall(LONG_QUESTION)
        while part := client.recv(4096):
            came += part
            time.sleep(len(part) / 80000)
    assert came == content(LONG_FILE)
