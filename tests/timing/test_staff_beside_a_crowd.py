"""The staff does not wait for readers: for a crowd that asks, nor for those who take all connections of their nginx."""

import contextlib
import resource
import socket
import ssl
import struct
import time

import pytest
from large_museums import disk_of
from support import cbm_image
from support.house import beside
from support.room import Room
from support.samples import DEED, EVERY, STAFF, put, put_image, put_rule
from support.server import HOST, LIMIT

pytestmark = pytest.mark.alone
CATALOGUE = b"HEAD /catalogue HTTP/1.1\r\nHost: localhost\r\n\r\n"

def costly_disk():
    """The one that takes longest to list: its directory has all blocks, each with eight files."""
    image, at = bytearray(cbm_image.SIZE), cbm_image.ALL_BLOCKS.index((18, 1))
    blocks = cbm_image.ALL_BLOCKS[at:] + cbm_image.ALL_BLOCKS[:at]
    rows = [struct.pack("<2xB2s16s11x", 0x82, bytes(blocks[n % 683]), b"%05d" % n) for n in range(8 * 683)]
    cbm_image.put_chain(image, blocks, b"".join(b"".join(rows[n : n + 8])[2:] for n in range(0, len(rows), 8)))
    return bytes(image)

@pytest.fixture(scope="module")
def room(program):
    # nginx takes as many connections as it may; and this process holds as many
    resource.setrlimit(resource.RLIMIT_NOFILE, 2 * resource.getrlimit(resource.RLIMIT_NOFILE)[1:])
    with Room(program) as made:
        made.run("init", "--sums", "--store", str(made.store), "--key", STAFF)
        made.start_desk()
        images = enumerate([*map(disk_of, range(200)), costly_disk()], 1)
        for asked in (put("/deeds/1", DEED), put_rule("/deeds/1/rules/10", "read", EVERY, "public"),
                      *(put_image(number, "d64", 1, image) for number, image in images)):
            assert made.ask_desk(asked)[0] == 200
        made.start_nginx()
        yield made

def crowd(room, stack):
    """Each of a hundred addresses asks for the catalogue, and for it again once there is a reply."""
    people = []
    for number in range(100):
        plain = socket.create_connection((HOST, room.https_port), LIMIT, (f"127.0.7.{number + 1}", 0))
        people.append(stack.enter_context(room.trusting().wrap_socket(plain, server_hostname=HOST)))
        people[-1].sendall(CATALOGUE)
        people[-1].setblocking(False)
    def ask():
        for one in people:
            with contextlib.suppress(ssl.SSLWantReadError):
                if one.recv(65536):
                    one.sendall(CATALOGUE)
        time.sleep(0.1)
    stack.enter_context(beside(ask))

def heads(room, stack):
    """Five thousand connections have sent a part of a request."""
    for port in 2500 * (room.http_port, room.https_port):
        one = stack.enter_context(socket.socket())
        one.setblocking(False)
        one.connect_ex((HOST, port))
        with contextlib.suppress(OSError):
            one.send(b"GET / HTTP/1.1\r\n")

@pytest.mark.parametrize("others", [[crowd], [heads], [crowd, heads]], ids=["crowd", "heads", "both"])
def test_command_of_the_staff_does_not_wait_for_readers(room, others):
    with contextlib.ExitStack() as stack:
        for other in others:
            other(room, stack)
        for number in range(3):
            began, status = time.monotonic(), None
            with contextlib.suppress(OSError):
                status, _ = room.ask_staffs_door(put(f"/deeds/{number + 2}", DEED))
            taken = time.monotonic() - began
            assert status == 200 and taken < 2, f"the staff waits {taken:.2f} s, and gets {status}"
