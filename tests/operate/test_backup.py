"""A backup holds what was done at one moment, and trusts nothing of the desk's user; a failed one leaves nothing."""

import contextlib
import datetime
import json
import os
import pathlib
import re
import shutil
import signal
import sqlite3
import subprocess
import threading

import pytest
from support.house import DONE, IMAGE, beside, takedown
from support.room import OPERATE, wait_until
from support.samples import STAFF, digest, get, put, put_image

DEEDS, FIRST, DISKS = 20, 70, 120
UNIT = pathlib.Path(OPERATE, "package", "desk-backup.service")
FILES = "checks.json deeds.json journal-mark keys.json museum.sqlite museum.sqlite-wal takedowns.json".split()
COMMAND = put("/deeds/1", {"donor": "D", "signed": "2020-01-01"})

def command(number):
    """Which deed or disk a command sets, by its number, to what, and the request. Of the later ones each fifth puts a
    disk, whose accession is no number of a deed."""
    if number <= DEEDS or number % 5:
        deed, donor = 1 + number % DEEDS, f"D{number}"
        return deed, donor, put(f"/deeds/{deed}", {"donor": donor, "signed": "2020-01-01"})
    image = IMAGE[:100] + number.to_bytes(8, "big") + IMAGE[108:]
    return number, digest(image), put_image(number, "d64", 1, image)

class Writer:
    """Commands one after the other: how many were begun, and how many done."""

    def __init__(self, ask):
        self.ask, self.begun, self.done = ask, 0, 0

    def send(self):
        self.begun += 1
        # a desk that was frozen for long ends a connection: then it comes again
        for _ in range(9):
            with contextlib.suppress(ConnectionError):
                came = self.ask(command(self.begun)[2])
                assert came == DONE, (self.begun, came)
                self.done += 1
                return
        raise TimeoutError(self.begun)

def marked(house, backup):
    """How many commands the journal has as done up to the line of a backup's mark."""
    lines = house.journal.read_bytes().splitlines(True)
    mark = json.loads((backup / "journal-mark").read_bytes())["sha256"]
    count = 1 + [*map(digest, lines)].index(mark) if mark else 0
    return sum(b'"status":"200"' in line for line in lines[:count])

def held(folder):
    """What a backup holds, and the number of the last command in it, as sqlite3 reads it."""
    with contextlib.closing(sqlite3.connect(folder / "museum.sqlite")) as store:
        assert store.execute("PRAGMA integrity_check").fetchone() == ("ok",)
        found = dict(store.execute("SELECT num, donor FROM deed UNION ALL SELECT acc, lower(hex(digest)) FROM image"))
    return found, max(int(value[1:]) if value[0] == "D" else number for number, value in found.items())

@pytest.mark.parametrize("is_around", [False, True], ids=["staff's-door", "round-the-door"])
def test_backup_under_commands_holds_what_was_done_at_a_moment(house, is_around, tmp_path):
    """Commands come without a rest, at the staff's door or to the desk's own socket, and a reader asks all the time."""
    writer = Writer(house.room.ask_desk if is_around else house.room.ask_staffs_door)
    for _ in range(FIRST):
        writer.send()
    with house.reader("/health") as turn:
        for number in range(3):
            least = writer.done
            with beside(writer.send):
                part = turn()
                backup = house.backed_up()
            assert sorted(os.listdir(backup)) == FILES
            holds, last = held(shutil.copytree(backup, tmp_path / str(number)))
            assert least <= last <= writer.begun
            assert marked(house, backup) <= last, "a restore would leave out commands that the backup lacks"
            assert holds == dict(command(number)[:2] for number in range(1, last + 1))
            assert set(part["/health"]) == {200}
    assert ("freeze" in house.calls()) == is_around

def take_for_desk(house, words):
    """Has the tools take a program of the shell in place of the desk."""
    house.room.write_places(house.folder / "places", PROGRAM=house.script("script", words))

ADD = '{0} staff-key --store "$last" --key another >/dev/null'
ADDS_A_KEY = f'for last; do case $last in *.sqlite) {ADD} ;; esac; done; exec {{0}} "$@"'

@pytest.mark.parametrize("key, script, words", [("no key", None, "desk-backup: /staff/deeds: 401 unknown-key\n"),
    (None, None, "staff-key: No such file or directory\n"), (STAFF, "exit 1", "museum.sqlite\n"),
    (STAFF, ADDS_A_KEY, "has other keys than the desk\n")], ids=["another-key", "no-key",
    "a-desk-that-does-not-open-the-copy", "a-desk-that-says-something-else"])
def test_backup_that_fails_says_why_and_leaves_nothing(house, key, script, words):
    house.do(COMMAND)
    (house.folder / "staff-key").unlink()
    if key:
        (house.folder / "staff-key").write_text(f"Desk-Key: {key}\n")
    if script:
        take_for_desk(house, script.format(house.room.program))
    status, out, errors = house.back_up()
    assert (status, out) == (1, "") and errors.endswith(words), errors
    assert house.backups() == house.leftovers() == []
    house.do(COMMAND)

def flip(house, at):
    with open(house.room.store, "r+b") as file:
        byte = os.pread(file.fileno(), 1, at)[0]
        os.pwrite(file.fileno(), bytes([byte ^ 1]), at)

def test_bit_that_flips_while_the_desk_serves_is_found_and_takedowns_can_be_read(house):
    """A check of all names the disk, and the desk goes on without it; it does not start again. sqlite3 copies the store
    to one without sums, which has the takedown. The desk does not have all disks in memory."""
    room, key, plain = house.room, ["--key", STAFF], house.folder / "plain.sqlite"
    house.fill(*range(1, DISKS + 1))
    house.do(takedown(13, 1, 2))
    # another command copies into the file what the log has
    room.stop_desk()
    assert room.run("show", "keys", "--store", str(room.store), *key)[0] == 0
    house.start()
    flip(house, room.store.read_bytes().index(b"A GUIDE TO THE ROOM", room.store.stat().st_size // 2))
    words = [os.path.join(OPERATE, "check-all"), house.folder / "staff-key", f"http://127.0.0.1:{room.staff_port}"]
    ran = subprocess.run(words, capture_output=True, text=True, timeout=60)
    assert ran.stdout == f"{DISKS} accessions: {DISKS - 1} sound, 0 changed, 1 not asked\n"
    flipped = re.fullmatch("check-all: ([0-9]+): unavailable\n", ran.stderr)[1]
    refused = [number for number in range(1, DISKS + 1) if room.ask_desk(get(f"/images/{number}/files/0"))[0] == 503]
    assert refused == [int(flipped)]
    status, _, errors = house.back_up()
    assert (status, house.backups()) == (1, []) and errors.endswith("museum.sqlite: desk: store\n")
    house.stop()
    assert room.run("show", "keys", "--store", str(room.store), *key) == (3, "", "desk: store\n")
    dumped = subprocess.run(["sqlite3", room.store, ".dump"], check=True, capture_output=True).stdout
    subprocess.run(["sqlite3", plain], input=dumped, check=True)
    assert '"accession":13' in room.run("show", "takedowns", "--store", str(plain), *key)[1]
    assert room.run("check", "--store", str(plain), *key, "--acc", flipped)[1] == f"{flipped} changed\n"

def test_killed_backup_lets_commands_go_on_and_the_next_one_clears_up(house):
    """It waits for a desk that does not answer; a second one at once is refused."""
    house.do(COMMAND)
    gate, came = ["flock", "-ns", house.folder / "space", "true"], []
    with house.room.desk_stalled():
        tool = house.begin("desk-backup")
        wait_until(lambda: subprocess.run(gate).returncode == 1)
        assert house.back_up() == (1, "", "desk-backup: another backup or restore is at work\n"), "two work at once"
        sender = threading.Thread(target=lambda: came.append(house.room.ask_staffs_door(COMMAND)))
        sender.start()
        os.killpg(tool.pid, signal.SIGKILL)
        assert house.ended(tool)[0] == -signal.SIGKILL
    sender.join(timeout=60)
    assert came == [DONE] and len(house.backups()) == 1
    house.backed_up()
    assert len(house.backups()) == 1
    house.stop()
    assert "the desk was down" in house.back_up()[1]

def test_latest_backups_of_days_weeks_and_months_are_kept_and_all_of_a_day_or_with_a_name(house):
    """There is one of each night of two years, with some nights left out, and two of the last one."""
    house.do(COMMAND)
    nights = (datetime.date(2024, 1, 1) + datetime.timedelta(night) for night in range(731) if night % 11 != 5)
    others = ["2024-01-01T110000Z-before-0.2", "2025-12-31T020000Z", "mine"]
    for name in (*(f"{night}T031000Z" for night in nights), *others):
        (house.folder / "backups" / name).mkdir(parents=True)
    named = house.backed_up("--keep", "before-0.3")
    assert re.fullmatch(r"[0-9TZ-]{18}-before-0.3", named.name)
    made = [house.backed_up().name for _ in range(2)]
    names = [path.name for path in house.backups()]
    assert names[0] == others[0]
    assert sorted(names[-4:]) == sorted([named.name, *made, "mine"]), "a backup of this day, or with a name, is gone"
    # beside this day: the last one of each of 11 months, of four weeks that begin on Mondays, and of six days
    assert [name.removesuffix("T031000Z") for name in names[1:-4]] == ["2025-02-28", "2025-03-31", "2025-04-30",
        "2025-05-31", "2025-06-30", "2025-07-30", "2025-08-31", "2025-09-30", "2025-10-31", "2025-11-30", "2025-12-14",
        "2025-12-20", "2025-12-26", "2025-12-27", "2025-12-28", "2025-12-29", "2025-12-30", "2025-12-31"]
    house.restored(named)
    assert [house.back_up("--keep", name)[0] for name in ("", "a/b", "..", "-x", "a b")] == [2] * 5

def test_link_in_the_store_folder_empties_nothing(house):
    """A link of the name that a test of a backup has, to a backup."""
    house.do(COMMAND)
    first = house.backed_up()
    (house.folder / "tested-x").symlink_to(first)
    house.backed_up()
    assert min(path.stat().st_size for path in first.iterdir()) > 0 and sorted(os.listdir(first)) == FILES
    assert house.leftovers() == []

@pytest.mark.parametrize("name, plant, words", [
    ("museum.sqlite", lambda path, secret: path.symlink_to(secret), "a link"),
    ("museum.sqlite-wal", lambda path, secret: path.symlink_to(secret), "a link"),
    ("museum.sqlite", lambda path, secret: path.hardlink_to(secret), "not a file of the folder's owner"),
    ("museum.sqlite", lambda path, secret: os.mkfifo(path), "not a file of the folder's owner"),
], ids=["the-store-is-a-link", "the-log-is-a-link", "another-users-file", "a-pipe"])
def test_file_that_is_not_the_desks_is_not_copied(house, name, plant, words):
    """Such a copy would be given to the desk's user, for its test."""
    secret, path = house.folder / "secret", house.folder / name
    house.do(COMMAND)
    secret.write_text("the site's key")
    os.chown(secret, 65534, 65534)
    path.rename(house.folder / "own")
    plant(path, secret)
    take_for_desk(house, f'for one; do cp "$one" {house.folder}/leaked; done')
    came = house.run("desk-backup", under=("timeout", "60"))
    assert not (house.folder / "leaked").exists(), "the secret is given to the desk"
    assert came == (1, "", f"desk-backup: {path}: {words}\n")
    assert house.backups() == house.leftovers() == []

@pytest.mark.parametrize("unit", sorted(UNIT.parent.glob("*.service")), ids=lambda unit: unit.stem)
def test_unit_has_few_rights(unit):
    """By what systemd itself says of it, from 0 for none to 10."""
    words = ["systemd-analyze", "security", "--offline=true", "--no-pager", unit]
    said = subprocess.run(words, stdout=subprocess.PIPE, stderr=subprocess.STDOUT, text=True, timeout=60).stdout
    exposure = float(re.search(r"Overall exposure level for \S+: ([0-9.]+)", said)[1])
    assert exposure < (1 if unit.stem == "desk" else 4), said

def test_backup_and_restore_work_with_the_rights_of_the_unit_and_the_desks_own_user(house, tmp_path):
    """The folder of the store belongs to a user desk, as by the package; the unit leaves root few rights."""
    user = 64999
    house.fill(13)
    (house.folder / "backups").mkdir(mode=0o700)
    for path in (house.folder, *house.folder.glob("museum.sqlite*")):
        os.chown(path, user, user)
    users = pathlib.Path("/etc/passwd").read_text() + f"desk:x:{user}:{user}::/:/usr/sbin/nologin\n"
    (tmp_path / "passwd").write_text(users)
    packaged = "unshare", "-m", "sh", "-c", f'mount --bind {tmp_path}/passwd /etc/passwd && exec "$@"', "sh"
    rights = re.search(r"^CapabilityBoundingSet=(.+)", UNIT.read_text(), re.M)[1].lower().replace("cap_", "+").split()
    few = "setpriv", "--no-new-privs", f"--bounding-set={','.join(['-all', *rights])}"
    for _ in range(2):
        status, out, errors = house.run("desk-backup", under=(*packaged, *few))
        assert (status, errors) == (0, "")
        status, _, errors = house.run("desk-restore", out.split(": ")[0], under=packaged)
        assert (status, errors) == (0, "")
        assert (house.room.store.stat().st_uid, house.status("/images/13/files/0")) == (user, 200)
