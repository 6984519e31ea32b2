"""No reply is lost to a client that sends more than the desk reads, and one that stays holds up the next only briefly.

Linux sends a reset, and drops what it has not sent, where a program closes with bytes unread: so the desk reads on."""

import collections
import contextlib
import select
import statistics
import time

import pytest
from support.clients import beside, by_client, by_socket, connected, read_all
from support.samples import FRAMING, LONG_FILE, LONG_QUESTION, content, head, put_image
from support.server import LIMIT

# The desk reads on for a fifth of a second: how many clients stay, and how long the next ones may take in the median.
STAYS, SOON = 20, 0.4
QUESTION = head("GET /images HTTP/1.1")
pytestmark = pytest.mark.alone

def with_two_bytes_more(port):
    """A long file for a client that sends an empty line after its question, and reads late."""
    with connected(port) as client:
        client.sendall(LONG_QUESTION)
        time.sleep(0.02)
        with contextlib.suppress(BrokenPipeError, ConnectionResetError):
            client.sendall(b"\r\n")
        select.select([client], [], [], LIMIT)
        time.sleep(0.1)
        return read_all(client)[0]

def with_too_long_a_body(port):
    """A refusal for a client that sends all of its body before it reads, and fails where it cannot."""
    return by_client(port, put_image(30, "cpm8", 9, bytes(819200)))

@pytest.mark.parametrize("visits", [30, pytest.param(1000, marks=pytest.mark.long)])
@pytest.mark.parametrize("come", [with_two_bytes_more, with_too_long_a_body])
def test_reply_is_whole_though_more_was_sent(long_server, come, visits):
    due = content(LONG_FILE) if come == with_two_bytes_more else FRAMING
    assert collections.Counter(come(long_server.port) for _ in range(visits)) == {due: visits}

def silent(client, ended):
    ended.wait(LIMIT)

def sending(client, ended):
    """Sends a byte every hundredth of a second."""
    while not ended.wait(0.01):
        client.sendall(b"x")

@pytest.mark.parametrize("stays", [silent, sending])
def test_next_client_waits_briefly_for_one_that_stays(server, stays):
    due, taken = by_socket(server.port, [QUESTION]), []
    assert due[0].startswith(b"HTTP/1.1 200 ") and due[1] == "an end"
    for _ in range(STAYS):
        with connected(server.port) as first:
            first.sendall(QUESTION)
            assert read_all(first) == due
            with beside(stays, first):
                begun = time.monotonic()
                assert by_socket(server.port, [QUESTION]) == due
                taken.append(time.monotonic() - begun)
    assert 0.1 < statistics.median(taken) <= SOON, f"the longest took {max(taken):.2f} s"
