"""Limits for an address outside: requests in a second and at a time; and visitors who send or take next to nothing."""

import contextlib
import re
import select
import socket
import ssl
import subprocess
import time

import pytest
from support.room import CONFIGURE, OPERATE
from support.samples import LONG
from support.server import HOST, LIMIT

FILE = "/images/15/files/0"
# In what time a visitor is answered beside slow ones, and how much later than it says nginx may end these, in seconds.
SOON, LATE = 8, 8

def visit(door, path, count):
    """The statuses of so many requests that come as fast as nginx takes them, all that came, and the seconds."""
    began, one = time.monotonic(), f"HEAD {path} HTTP/1.1\r\nHost: localhost\r\n"
    came = door.exchange((f"{one}\r\n" * (count - 1) + f"{one}Connection: close\r\n\r\n").encode())
    return [int(status) for status in re.findall(rb"HTTP/1.1 ([0-9]{3}) ", came)], came, time.monotonic() - began

@pytest.mark.parametrize("door, path, rate, burst, status", indirect=["door"], argvalues=[
    ("outside", FILE, 20, 60, 502), ("outside", "/room.css", 50, 200, 200), ("outside", "/catalogue", 1, 20, 502),
    ("redirecting", "/", 20, 60, 301)])
def test_address_that_asks_too_often_is_told_so(room, outside, door, path, rate, burst, status):
    """And it may ask for what is counted by itself; so may another address. A desk that is down makes no reply slow."""
    with room.desk_down():
        statuses, came, seconds = visit(door, path, 8 * burst)
        others = [(type(door)(room, door.name), path, burst), (outside, FILE, 30), (outside, "/room.css", 100)]
        beside = {other: visit(*other)[0] for other in others if other[:2] != (door, path)}
    assert set(statuses) == {status, 429} and burst < statuses.count(status) <= burst + 2 + rate * seconds
    assert came.count(b"Retry-After: 2\r\n") == (statuses.count(429) if door.name == "outside" else 0)
    assert all(len(found) == other[2] and 429 not in found for other, found in beside.items()), beside
    assert b"limiting" not in (room.folder / "error.log").read_bytes()

def test_staffs_door_has_no_limit_of_rate(staff):
    assert set(visit(staff, FILE, 240)[0]) == {200}

# In a network of its own, this machine has each address of a network of IPv6.
ADDRESSES = """ip link set lo up; sysctl -qw net.ipv6.ip_nonlocal_bind=1; ip -6 route add local 2001:db8::/32 dev lo
nginx="nginx -p $1 -c $1/nginx.conf"; $nginx 2>/dev/null; curl -s $2; $nginx -s quit 2>/dev/null"""

@pytest.mark.parametrize("host, found", [("2001:db8::1:2:3:{:x}", {"200", "429"}), ("2001:db8:1:{:x}::1", {"200"})])
def test_network_of_ipv6_is_an_address_and_speaks_http_2(room, tmp_path, host, found):
    places = room.write_places(tmp_path / "places", NGINX_RUN=tmp_path, NGINX_LOG=tmp_path)
    subprocess.run([CONFIGURE, places, tmp_path], check=True)
    visit = f"-k -o /dev/null -w %{{http_version}}:%{{http_code}}\\n https://[2001:db8::1]:{room.https_port}/images"
    visits = " --next ".join(f"{visit} -s --interface {host.format(number)}" for number in range(1, 41))
    words = ["unshare", "--net", "sh", "-c", ADDRESSES, "sh", tmp_path, visits]
    came = subprocess.run(words, capture_output=True, text=True, timeout=LIMIT).stdout.split()
    assert len(came) == 40 and set(came) == {f"2:{status}" for status in found}, "for other addresses, or no HTTP/2"

# A machine with the firewall, and one of visitors, who have each address of some networks: how many of 70 get through.
FIREWALL = """ip link add inside type veth peer name outside; unshare --net sleep 99 & at="nsenter --net --target $!"
until ip link set outside netns $! && ! ip link show outside; do sleep 0.05; done >/dev/null 2>&1
ip address add 192.0.2.1/24 dev inside; ip address add 2001:db8::1/64 dev inside nodad; ip link set inside up
$at ip address add 192.0.2.2/24 dev outside; $at ip address add 2001:db8::2/64 dev outside nodad
$at ip link set outside up; $at ip link set lo up; $at sysctl -qw net.ipv6.ip_nonlocal_bind=1
$at ip -6 route add local 2001:db8:1::/48 dev lo; ip -6 route add 2001:db8:1::/48 via 2001:db8::2; nft -f $1
python3 -c "$2" & until ss -Hltn | grep -q :80; do sleep 0.05; done; $at python3 -c "$3" $4 $5"""
LISTENS = """import socket, time
with socket.create_server(("::", 80), family=socket.AF_INET6, backlog=99, dualstack_ipv6=True): time.sleep(99)"""
VISITS = """import contextlib, socket, sys
kept = []
for number in range(70):
    with contextlib.suppress(ConnectionRefusedError):
        kept.append(socket.create_connection((sys.argv[1], 80), 9, (sys.argv[2].format(number), 0)))
print(len(kept))"""

@pytest.mark.parametrize("words, count", [
    ("192.0.2.1 192.0.2.2", 64), ("2001:db8::1 2001:db8:1::2:3:{:x}", 64), ("2001:db8::1 2001:db8:1:{:x}::1", 70)])
def test_firewall_takes_64_connections_of_an_address_or_of_a_network_of_ipv6(words, count):
    own = "unshare --net --pid --fork --kill-child --mount-proc sh -c".split()
    words = [*own, FIREWALL, "sh", f"{OPERATE}/package/nftables.conf", LISTENS, VISITS, *words.split()]
    assert subprocess.run(words, capture_output=True, text=True, timeout=LIMIT).stdout == f"{count}\n"

@contextlib.contextmanager
def unfinished(door, path, count):
    """While this is entered, an address has so many requests under way, of which the body does not come."""
    with contextlib.ExitStack() as stack:
        for _ in range(count):
            connection = stack.enter_context(door.connected())
            connection.sendall(f"GET {path} HTTP/1.1\r\nHost: localhost\r\nContent-Length: 5\r\n\r\n".encode())
        yield

def comes(door, path, status):
    """Whether a status comes, within so few requests that no limit of rate refuses one."""
    for _ in range(8):
        if door.get(path).status == status:
            return True
        time.sleep(0.2)
    return False

def status_within(connection, seconds):
    """The status that comes within so many seconds; None where none does."""
    connection.settimeout(seconds)
    with contextlib.suppress(TimeoutError):
        return int(connection.recv(65536)[9:12])

@pytest.mark.parametrize("path, of_one, of_all", [("/catalogue", 1, 2), ("/images/15", 2, 3), (FILE, 20, 40)])
def test_desk_has_so_many_visits_at_a_time_and_no_address_takes_them_all(room, outside, path, of_one, of_all):
    asked = f"HEAD {path} HTTP/1.0\r\nHost: localhost\r\n\r\n".encode()
    with contextlib.ExitStack() as stack:
        doors = [type(outside)(room, "outside") for _ in range(of_all // of_one + 1)]
        came = [stack.enter_context(door.connected()) for door in doors for _ in range(of_one)][: of_all + 1]
        with room.desk_stalled():
            for connection in came[:-1]:
                connection.sendall(asked)
            early = [status_within(connection, 1 / of_all) for connection in came[:-1]]
            came[-1].sendall(asked)
            assert (early, status_within(came[-1], 5)) == ([None] * of_all, 429), "under way at the desk"
        assert [status_within(connection, LIMIT) for connection in came[:-1]] == [200] * of_all

@pytest.mark.parametrize("path, most, same, other", [
    (FILE, 20, FILE, None), ("/images", 1, "/catalogue", FILE), ("/images/15", 2, "/images/15", FILE)])
def test_address_has_a_number_of_requests_at_a_time(outside, path, most, same, other):
    with unfinished(outside, path, most - 1):
        assert outside.get(same).status == 200
        with unfinished(outside, path, 1):
            assert comes(outside, same, 429) and (other is None or outside.get(other).status == 200)
    assert comes(outside, same, 200)

# Slow visitors: what they send first, and what each second; and when nginx ends them, in seconds.
SLOW = {"head": (b"GET /images/15/fil", b"G", 15),
    "body": (f"GET {FILE} HTTP/1.1\r\nHost: localhost\r\nContent-Length: 5\r\n\r\n".encode(), b"", 10),
    "reader": (f"GET {LONG[1][1].path} HTTP/1.1\r\nHost: localhost\r\n\r\n".encode(), b"", 30)}

@pytest.mark.alone
def test_slow_visitors_stop_nobody_and_are_ended(room, outside):
    """Ten of each sort; and connections without a request at each port, as a page of another site has in a browser."""
    assert room.ask_desk(LONG[0][1])[0] == 200
    ends, slow, lasted, longest, turn = select.poll(), {}, {name: [] for name in SLOW}, 0, 0
    with contextlib.ExitStack() as stack:
        for port in 12 * (room.staff_port, room.http_port, room.https_port):
            stack.enter_context(socket.create_connection((HOST, port), LIMIT))
        for number, name in enumerate([*SLOW] * 10):
            # little room for what comes: else the system keeps a whole file for who does not take it
            plain = socket.socket()
            plain.settimeout(LIMIT)
            plain.setsockopt(socket.SOL_SOCKET, socket.SO_RCVBUF, 2048)
            plain.setsockopt(socket.IPPROTO_TCP, socket.TCP_MAXSEG, 536)
            plain.bind((f"127.3.0.{1 + number % 3}", 0))
            plain.connect((HOST, room.https_port))
            connection = stack.enter_context(room.trusting().wrap_socket(plain, server_hostname=HOST))
            connection.sendall(SLOW[name][0])
            ends.register(connection, select.POLLRDHUP)
            slow[connection.fileno()] = connection, name, time.monotonic()
        end = time.monotonic() + max(seconds for *_, seconds in SLOW.values()) + LATE
        while time.monotonic() < end:
            began, turn = time.monotonic(), turn + 1
            assert outside.get(FILE).status == 200
            longest = max(longest, time.monotonic() - began)
            for file, _ in ends.poll(100):
                ends.unregister(file)
                _, name, since = slow.pop(file)
                lasted[name].append(time.monotonic() - since)
            if turn % 10 == 0:
                for connection, name, _ in slow.values():
                    with contextlib.suppress(BrokenPipeError, ConnectionResetError, ssl.SSLError):
                        connection.sendall(SLOW[name][1])
    assert longest < SOON
    for name, (*_, seconds) in SLOW.items():
        assert len(lasted[name]) == 10 and seconds - 1 <= min(lasted[name]) <= max(lasted[name]) <= seconds + LATE, name
