"""How long visits take in a museum of many disks beside one of few, and how much memory the desk needs."""

import os
import random
import subprocess

import pytest
from large_museums import FILES, LARGE_DEED, SIZES, disk_of, has, medians, megabytes, seconds
from support.samples import ROOM, STAFF, check, get, put_image
from support.server import HOST, ROOT

pytestmark = pytest.mark.alone
CHANCE = random.Random(1)

def question(what, museum):
    """What is asked of a museum, and the body that is due, or whether one is."""
    museum.disks += what == "a new disk"
    new, acc = museum.disks, CHANCE.randint(1, museum.disks)
    slot = acc % len(FILES)
    return {"a file": (get(f"/images/{acc}/files/{slot}", ROOM), FILES[slot][2]),
        "a listing": (get(f"/images/{acc}", ROOM), has(len(FILES), "files")),
        "a check": (check(acc), b'{"outcome":"sound"}'),
        "a new disk": (put_image(new, "d64", LARGE_DEED, disk_of(new)), b'{"done":true}'),
        "the images": (get("/images", ROOM), has(museum.disks, "images")),
        "the catalogue": (get("/catalogue", ROOM), has(museum.disks * len(FILES)))}[what]

@SIZES
@pytest.mark.parametrize("what", ["the images", "the catalogue", "a file", "a listing", "a check", "a new disk"])
def test_visit_takes_longer_for_more_disks_only_if_it_tells_of_all(what, disks, museums, bounded):
    """What tells of all disks is asked beside a tenth of them, and may take ten times as long; all else beside ten."""
    few, more, times = (disks // 10, 10, 5) if what.startswith("the") else (10, 1, 40)
    with museums(disks).serving() as large, museums(few).serving() as small:
        turns = [lambda: seconds(large, question(what, museums(disks)))]
        turns.append(lambda: seconds(small, question(what, museums(few))))
        came, beside = medians(turns, times)
    bounded(f"{what} of {disks:,} disks, beside {few:,}", came / beside / more, 3)

@SIZES
def test_desk_needs_no_more_memory_than_its_store(disks, museums, tmp_path):
    """While it opens the store as many bytes as this has and a tenth more, and little after that."""
    museum, key = museums(disks), tmp_path / "staff-key"
    key.write_text(f"Desk-Key: {STAFF}\n")
    with museum.serving() as server:
        assert megabytes(server, "VmHWM") < 50 + 1.1 * os.path.getsize(museum.store) / 1e6
        for what in ("the images", "the catalogue"):
            seconds(server, question(what, museum))
        words = [os.path.join(ROOT, "operate", "check-all"), key, f"http://{HOST}:{server.port}"]
        ran = subprocess.run(words, stdin=subprocess.DEVNULL, capture_output=True, text=True)
        assert ran.stdout == f"{museum.disks} accessions: {museum.disks} sound, 0 changed, 0 not asked\n", ran
        assert megabytes(server, "VmRSS") < 100
