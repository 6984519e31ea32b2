"""How long the staff's questions take in a museum of many disks beside what all may ask, and how much memory."""

import pytest
from large_museums import FILES, LARGE_DEED, SIZES, TENTH, has, medians, megabytes, seconds
from support.samples import EVERY, STAFF, drop, get, put_rule

pytestmark = pytest.mark.alone
DAY, DENY = "2030-01-01", ("deny", EVERY, "public", "room")
OPEN, OF_A_DISK = len(FILES), len(FILES) + 1

def questions(museum):
    """How often each is asked, what all may ask, and what the staff may ask: how many times as long that may take."""
    disks, acc, large, day = museum.disks, museum.disks // 2, museum.disks // TENTH, f"/staff/rehearsals/{DAY}"
    of_deed, of_disk = f"{day}/deeds/{LARGE_DEED}/rules", f"{day}/images/{acc}/rules"
    lists = {"deeds": len(museum.deeds), "takedowns": len(museum.takedowns), "keys": 2, "checks": disks}
    yield 7, (get("/images", STAFF), has(disks, "images")), [
        ((get(f"/staff/{name}", STAFF), has(count, name)), 2) for name, count in lists.items()]
    yield 7, (get("/catalogue", STAFF), has(disks * OF_A_DISK)), [
        ((get(f"/staff/verdicts/{DAY}", STAFF), has(disks * OF_A_DISK)), 4),
        ((put_rule(f"{of_deed}/20", *DENY), has(2 * OPEN * large)), 0.5),
        ((drop(f"{of_deed}/30"), has((2 * OPEN + OF_A_DISK) * large)), 0.5)]
    yield 40, (get(f"/images/{acc}", STAFF), has(OF_A_DISK, "files")), [
        ((put_rule(f"{of_disk}/2", *DENY), has(2 * OPEN)), 2), ((drop(f"{of_disk}/1"), has(0)), 2)]

@SIZES
def test_questions_of_the_staff_take_little_longer_than_those_of_all(disks, museums, bounded):
    museum = museums(disks)
    with museum.serving() as server:
        for times, question, others in questions(museum):
            for other, most in others:
                for one in (question, other):
                    seconds(server, one)
                before = megabytes(server, "VmRSS")
                unit, came = medians([lambda: seconds(server, question), lambda: seconds(server, other)], times)
                bounded(f"{other[0].method} {other[0].path}, beside {question[0].path}", came / unit, most)
                assert megabytes(server, "VmRSS") <= 1.1 * before
