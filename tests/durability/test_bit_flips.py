"""One bit after the other is flipped in the file of a store with sums: desk refuses the store, or a check says that a
disk has changed, or no reply changes. Of the bits of a log none loses more than the last command."""

import collections
import contextlib
import functools
import pathlib
import sqlite3
import struct
import subprocess
import tempfile

import pytest
from refusals import LONG, reply_to
from support.clients import noon_zone
from support.samples import (
    ALL, DONE, FIRST, MARKED_DISK, PROGRAM_DISK, ROOM, SOUND, STAFF, check, get, put, put_image, put_rule, raw, survey)
from support.server import Serving

FILE, LOG, PAGE, HEADER = "", "-wal", 4096, 100
REFUSALS = [[(3, "", f"desk: {word}\n")] for word in ("store", "inconsistent", "not-a-desk", "version")]
REFUSED, TOLD, SAME, BEFORE, WRONG = "refused", "told by a check", "no reply changed", "the last command lost", "wrong"
PARTS = 16  # in so many all bits are tried, side by side

RULES = [
    put_rule("/deeds/8/rules/1", "list", {"user": 0}, "public", **{"from": "2000-01-01"}),
    put_rule("/deeds/8/rules/2", "read", {"type": "PRG"}, *ALL),
    put_rule("/deeds/8/rules/3", "deny", {"prefix": "GAME"}, *ALL)]
COMMANDS = [*(asked for _, asked, _ in FIRST if len(asked.body) < 1000), *RULES]
TAKEDOWN = put_rule("/images/12/rules/1", "deny", {"slot": 0}, "public")
SMALL = [*COMMANDS, put_image(12, "d64e", 7, MARKED_DISK), TAKEDOWN, check(12)]
CORRECTED = put("/deeds/8", {"donor": "C. Donor", "signed": "2020-02-29"})
MANY = range(12, 62)
FIFTY = [*COMMANDS, *(put_image(acc, "d64", 7, PROGRAM_DISK[:-4] + acc.to_bytes(4, "big")) for acc in MANY)]

def questions(accessions):
    """What the staff can ask, and what each audience sees of some disks; at last a check of each disk."""
    paths = ["/images", "/catalogue", *(f"/images/{acc}{rest}" for acc in accessions for rest in ("", "/files/0"))]
    lists = [f"/staff/{name}" for name in ("deeds", "takedowns", "keys", "checks", "verdicts/2029-12-31")]
    asked = [get(path, key) for path in paths for key in (None, ROOM, STAFF)] + [get(path, STAFF) for path in lists]
    return asked + [survey(acc) for acc in accessions] + [check(acc) for acc in accessions]

class Museum:
    """A store in which commands were done, the bytes of its file and its log, and what desk says of them."""

    def __init__(self, program, folder, commands, accessions=(), words=("--sums",), is_killed=False):
        self.program, self.path = program, str(pathlib.Path(tempfile.mkdtemp(dir=folder), "museum.sqlite"))
        self.place, self.zone = f"{self.path}.socket", ("--zone", noon_zone())
        subprocess.run([program, "init", *words, "--store", self.path, "--key", STAFF], check=True, capture_output=True)
        replies = self.replies(commands, is_killed)
        assert all(reply in (DONE, SOUND) for reply in replies), replies
        self.whole = {suffix: pathlib.Path(f"{self.path}{suffix}").read_bytes() for suffix in (FILE, LOG)}
        self.asked, self.checks = questions(accessions), len(accessions)
        self.usual, self.before = self.replies(self.asked), self.put({**self.whole, LOG: b""}).replies(self.asked)
        assert is_killed or self.before == self.usual

    def replies(self, asked, is_killed=False):
        """The replies of a desk that ends after them, or is killed; or how it ends where it does not listen."""
        with Serving(self.program, self.path, len(asked) + is_killed, self.zone, place=self.place) as desk:
            if desk.line() != desk.wanted_line():
                return [desk.end()]
            came = [reply_to(raw(one), self.place) for one in asked]
            return came if is_killed or desk.end()[0] == 0 else [*came, "it does not end well"]

    def put(self, files):
        """Writes bytes of the file and the log where they do not stand."""
        for path, data in ((pathlib.Path(self.path + suffix), data) for suffix, data in files.items()):
            if not path.exists() or path.read_bytes() != data:
                path.write_bytes(data)
        return self

    def places(self):
        """The bytes of heads, cells and sums: all but those of long values, and of room that is not used."""
        data, found = self.whole[FILE], set()
        self.put(self.whole)
        with contextlib.closing(sqlite3.connect(f"file:{self.path}?immutable=1", uri=True)) as connection:
            pages = connection.execute("SELECT pgoffset FROM dbstat WHERE pagetype != 'overflow'").fetchall()
        for (page,) in pages:
            at = page + (0 if page else HEADER)
            count, content = struct.unpack(">HH", data[at + 3 : at + 7])
            found |= {*range(page, at + 12 + 2 * count), *range(page + content, page + PAGE)}
        return sorted(found)

    def outcome(self):
        seen = self.replies(self.asked)
        if seen in (self.usual, self.before):
            return SAME if seen == self.usual else BEFORE
        first = len(self.usual) - self.checks
        is_told = len(seen) == len(self.usual) and seen[first:] != self.usual[first:]
        return REFUSED if seen in REFUSALS else TOLD if is_told else WRONG

def flipped(museum, suffix, places, chance, count=None, part=None):
    """How often bits of some bytes came to what, and which of them are wrong: some that are drawn, or a part of all."""
    every, counts, wrong = range(8 * len(places)), collections.Counter(), []
    for bit in every[part::PARTS] if count is None else chance.sample(every, min(count, len(every))):
        data = bytearray(museum.whole[suffix])
        data[places[bit // 8]] ^= 1 << bit % 8
        outcome = museum.put({**museum.whole, suffix: data}).outcome()
        counts[outcome] += 1
        wrong += [f"byte {places[bit // 8]} bit {bit % 8}"] if outcome == WRONG else []
    return counts, wrong

def shares(drawn, most=None):
    """So many bits that are drawn; and in the long run more of them, or all in parts."""
    more = [{"count": most}] if most else [{"part": part} for part in range(PARTS)]
    found = [pytest.param({"count": drawn}), *(pytest.param(one, marks=LONG) for one in more)]
    return pytest.mark.parametrize("share", found, ids=lambda share: "-".join(map(str, *share.items())))

@pytest.fixture(scope="module")
def made(program, memory_folder):
    return functools.partial(Museum, program, memory_folder)

@pytest.fixture(scope="module")
def small(made):
    return made(SMALL, (12,))

@pytest.fixture(scope="module", params=[CORRECTED, put_image(13, "d64", 7, PROGRAM_DISK)], ids=["deed", "disk"])
def log(made, request):
    """A museum whose desk was killed after it had put a deed once more, or a disk, which the log alone has."""
    museum = made([*COMMANDS, request.param], is_killed=True)
    assert museum.usual == made([*COMMANDS, request.param]).usual != museum.before == made(COMMANDS).usual
    return museum

@shares(150)
def test_flipped_bit_that_means_something_is_refused_or_told(share, small, chance):
    counts, wrong = flipped(small, FILE, small.places(), chance, **share)
    assert not wrong and counts[REFUSED], counts

@shares(20, 2000)
def test_flipped_bit_of_a_museum_of_fifty_disks_is_refused_or_told(share, made, chance):
    fifty = made(FIFTY, MANY)
    counts, wrong = flipped(fifty, FILE, range(len(fifty.whole[FILE])), chance, **share)
    assert not wrong and counts[REFUSED], counts

def test_flipped_bit_without_sums_changes_a_reply(made, chance):
    """What the tests above look for is there to be seen."""
    museum = made(SMALL, (12,), words=())
    donor = museum.whole[FILE].index(b"A. Curator")
    counts, wrong = flipped(museum, FILE, range(donor, donor + 10), chance, 10)
    assert wrong, counts

@shares(100)
def test_flipped_bit_of_a_log_loses_the_last_command_at_most(share, log, chance):
    counts, wrong = flipped(log, LOG, range(len(log.whole[LOG])), chance, **share)
    assert not wrong and counts[BEFORE], counts

def test_two_lost_commands_are_seen(made, log):
    assert log.put(made(COMMANDS[:2]).whole).outcome() == WRONG
