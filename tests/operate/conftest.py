"""Fixtures of a museum's machine: a room with its tools, and one that has a backup since which a file was closed."""

import signal
import time

import pytest
from support.house import House, takedown
from support.room import Room, wait_until

INPUTS = ("operate", "web", "images", "docs", "crates.txt", "crates/rd_trials/data")

@pytest.fixture
def house(request, program):
    """A room with its tools; its store has sums, or none where a test says so. Tools end at Ctrl-C, also where this run
    was begun by a shell in the background, for whose programs it is ignored."""
    signal.signal(signal.SIGINT, signal.default_int_handler)
    with Room(program) as room, room.asked_for_space():
        made = House(room, getattr(request, "param", True))
        yield made
        made.stop()

@pytest.fixture
def monday(house):
    """A backup of two disks, since which a takedown has closed a file of one. nginx writes its last line late."""
    house.fill(13, 14)
    backup = house.backed_up()
    # the names of backups have whole seconds, and without a mark the journal is read by them
    time.sleep(1.1)
    house.do(takedown(13, 1, 2))
    wait_until(lambda: house.journal.read_bytes().count(b'"/images/13/rules/1"') == 2)
    return backup
