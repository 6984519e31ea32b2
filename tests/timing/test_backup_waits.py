"""How long a reader waits at most while a backup of a larger store is made, beside one of a smaller store."""

import contextlib
import itertools
import shutil
import time

import pytest
from large_museums import LONG, disk_of
from support.house import House
from support.room import Room
from support.samples import DEED, EVERY, put, put_image, put_rule
from support.server import LIMIT

pytestmark = pytest.mark.alone
SMALL, NUMBERS = 57, itertools.count()

def waits_of_a_backup(house):
    """How long a reader waits for each reply during a backup, with a command of the staff after each."""
    backup, waits = house.begin("desk-backup"), []
    while backup.poll() is None:
        number, begun = next(NUMBERS), time.monotonic()
        with contextlib.closing(house.room.visitor(f"127.0.5.{1 + number % 200}")) as reader:
            reader.request("GET", "/images/1/files/0")
            reply = reader.getresponse()
            assert reply.status == 200 and reply.read()
        waits.append(time.monotonic() - begun)
        assert house.room.ask_staffs_door(put(f"/deeds/{2 + number % 9}", DEED))[0] == 200
    _, errors = backup.communicate(timeout=LIMIT)
    assert (backup.returncode, errors) == (0, "")
    for made in house.backups():
        shutil.rmtree(made)
    return waits

@pytest.mark.parametrize("disks, times", [(2 * SMALL, 2), pytest.param(7 * SMALL, 20, marks=LONG)])
def test_reader_waits_no_longer_for_the_backup_of_a_larger_store(disks, times, program, bounded):
    with contextlib.ExitStack() as stack:
        rooms, waits = [stack.enter_context(Room(program)) for _ in range(2)], [[], []]
        houses = [stack.enter_context(room.asked_for_space()) or House(room) for room in rooms]
        first = [put("/deeds/1", DEED), put_rule("/deeds/1/rules/10", "read", EVERY, "public")]
        for house, count in zip(houses, (disks, SMALL)):
            for asked in (*first, *(put_image(acc, "d64", 1, disk_of(acc)) for acc in range(1, count + 1))):
                assert house.room.ask_desk(asked)[0] == 200
        for _, (house, found) in itertools.product(range(times), zip(houses, waits)):
            found += waits_of_a_backup(house)
        # the more replies there are, the longer is the longest wait for one
        replies = min(map(len, waits))
        large, small = (max(found[:replies]) for found in waits)
        bounded(f"the longest wait for {replies} replies, {disks} disks beside {SMALL}", large / small, 2)
