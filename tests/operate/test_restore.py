"""A restore keeps closed what was closed since the backup, and names what it leaves out."""

import json
import os
import re
import subprocess
import time

import pytest
from support.house import OTHER, READERS, takedown
from support.samples import ROOM, STAFF, badge, check, digest, drop, get, put, put_image, put_rule

FILES = ["/images/13/files/2", "/images/14/files/0", "/images/15/files/0", "/images/13/files/0", "/images/16/files/0"]
CLOSED = FILES[0]
SUMMED = 8
NOT_COMPARED = "the old store is not compared, since it does not open"
NEW_KEY = "tuesday's key"

def left_alone(store):
    """How many bytes of a page of a store are left for a sum."""
    return store.read_bytes()[20]

def monday_of(house):
    """Three disks, of which two have a takedown, and a key of the room."""
    house.fill(13, 14, 15)
    house.do(takedown(14, 1, 0), takedown(15, 1, 0), put(badge(ROOM), {"audience": "room"}))
    house.do(put_rule("/images/13/rules/5", "deny", {"slot": 0}, *READERS, **{"from": "2099-01-01"}))

def tuesday_of(house):
    """Takedowns come and go, keys change, a deed and a disk come; and of three commands nobody knows the outcome."""
    house.do(takedown(13, 1, 2), takedown(13, 2, 0), drop("/images/13/rules/2"), drop("/images/14/rules/1"))
    house.do(drop(badge(ROOM)), put(badge(NEW_KEY), {"audience": "staff"}), drop(badge(STAFF), NEW_KEY),
             put("/deeds/8", {"donor": "\u017dofie", "signed": "2020-02-29"}, NEW_KEY),
             put_image(16, "d64", 7, OTHER)._replace(key=NEW_KEY), takedown(16, 1, 0, NEW_KEY))
    assert house.room.ask_staffs_door(check(13, NEW_KEY))[0] == 200
    assert house.room.ask_staffs_door(put("/images/13/rules/3", {}, NEW_KEY))[0] == 400
    house.journaled(takedown(13, 9, 1), "begun", "502")
    house.journaled(drop("/images/15/rules/1"), "begun")
    house.journaled(drop("/images/13/rules/5"), "begun", "499")

NOTES = [r"commands since 20[0-9TZ-]+ were done again; the old store is in ",
    r"PUT /images/13/rules/9: nobody knows its outcome; done",
    *(rf"DELETE /images/{rule}: nobody knows its outcome; left out" for rule in ("15/rules/1", "13/rules/5")),
    r"checks since the backup are lost, of the disks 13"]

@pytest.mark.parametrize("house", [True, False], indirect=True, ids=["sums", "no-sums"])
def test_week_is_restored_while_readers_ask(house, tmp_path):
    """What Tuesday closed stays closed all the time. With sums, a bit of the old store flips, so that it does not open,
    and the disk of Tuesday is put again; else it is given up."""
    monday_of(house)
    store, sums = house.room.store, left_alone(house.room.store)
    with house.reader(*FILES) as turn:
        turn()
        backup = house.backed_up()
        assert left_alone(backup / "museum.sqlite") == sums
        tuesday_of(house)
        if sums == SUMMED:
            house.room.stop_desk()
            store.write_bytes(store.read_bytes().replace(b"A GUIDE TO THE ROOM", b"A GUIDE TO THE SOOM"))
        without, before = turn(), store.read_bytes()
        assert f"disk 16, SHA-256 {digest(OTHER)}" in house.refused(backup, "--disks", tmp_path)
        assert store.read_bytes() == before
        (tmp_path / "of tuesday.d64").write_bytes(OTHER)
        restoring = turn()
        out = house.restored(backup, *(["--disks", tmp_path] if sums == SUMMED else ["--give-up", 16]))
        wednesday = turn()
    assert not [part for part in (without, restoring, wednesday) if 200 in part[CLOSED]]
    assert len(restoring[CLOSED]) > 2
    last = 403 if sums == SUMMED else 404
    assert [set(wednesday[path]) for path in FILES] == [{403}, {200}, {403}, {200}, {last}]
    assert house.listed("keys", NEW_KEY) == [{"audience": "staff", "digest": digest(NEW_KEY.encode())}]
    assert json.loads(house.room.ask_staffs_door(check(14, NEW_KEY))[1]) == {"outcome": "sound"}
    assert [deed["donor"] for deed in house.listed("deeds", NEW_KEY)] == ["A", "\u017dofie"]
    assert left_alone(store) == sums and len(list(house.folder.glob("set-aside-*/museum.sqlite"))) == 1
    assert [note for note in NOTES if not re.search(note, out)] == [], out
    assert (NOT_COMPARED in out, "disk 16 is given up, with its takedowns" in out) == (sums == SUMMED, sums != SUMMED)
    differing = [f"/accessions/16/d64/7/{digest(OTHER)}", "/images/16/rules/1", "/images/13/rules/9"]
    assert re.findall("^only in the .* store: (\\S+)", out, re.M) == ([] if sums == SUMMED else differing)

@pytest.mark.parametrize("change, words", [(lambda lines: lines[:-1], "nobody knows its outcome; done"),
    (lambda lines: lines[:-2], "and not in the journal; done"),
    (lambda lines: [*lines[:-2], lines[-2][:120]], "a line of the journal cannot be read"),
    ], ids=["its-last-line-is-missing", "both-are-missing", "the-journal-ends-in-it"])
def test_takedown_whose_lines_are_missing_stays(house, monday, change, words):
    """It has the last two lines of the journal."""
    house.journal.write_bytes(b"".join(change(house.journal.read_bytes().splitlines(True))))
    assert words in house.restored(monday)
    house.see_takedown()

def give_sums(house):
    """The store is copied to one with sums."""
    store, summed = str(house.room.store), f"{house.folder}/summed"
    house.room.stop_desk()
    assert house.room.run("copy", "--store", store, "--to", summed, "--sums") == (0, "done\n", "")
    for suffix in ("-wal", ""):
        os.replace(f"{summed}{suffix}", f"{store}{suffix}")
    house.start()

@pytest.mark.parametrize("house", [False], indirect=True, ids=["no-sums"])
def test_disk_of_the_backup_that_is_not_as_it_came_is_named(house, monday):
    """A bit of it has flipped in a store without sums."""
    store = monday / "museum.sqlite"
    store.write_bytes(store.read_bytes().replace(b"A GUIDE TO THE ROOM", b"A GUIDE TO THE SOOM"))
    assert re.search("not as it came: /accessions/13/", house.restored(monday))

def make_unreadable(house):
    house.stop()
    house.room.store.unlink()
    house.room.store.mkdir()

@pytest.mark.parametrize("house", [False], indirect=True, ids=["no-sums"])
@pytest.mark.parametrize("change", [give_sums, make_unreadable])
def test_backup_without_sums_gets_them_where_the_old_store_has_them_or_cannot_be_read(house, monday, change):
    change(house)
    assert (NOT_COMPARED in house.restored(monday)) == (change is make_unreadable)
    assert left_alone(house.room.store) == SUMMED
    assert sorted(path.name for path in house.folder.glob("*.sqlite*")) == ["museum.sqlite", "museum.sqlite-wal"]
    house.see_takedown()

def test_desk_that_does_not_start_leaves_the_restored_store(house, monday):
    words = house.folder / "words"
    words.write_text("--no-such-word")
    status, out, errors = house.run("desk-restore", monday)
    assert status == 1 and "commands since" in out
    assert "the room is shut, and the store is the restored one" in errors
    assert len(list(house.folder.glob("set-aside-*/museum.sqlite"))) == 1
    words.write_text("")
    subprocess.run([house.systemctl, "start", "desk.service"], check=True)
    house.see_takedown()

@pytest.mark.parametrize("name", ["none", "2026-01-01", "2026-13-01T000000Z", "2026-01-01T000000Z"])
def test_name_of_no_backup_stops_nothing(house, name):
    assert "no backup that desk-backup has made" in house.refused(name)
    assert house.run("desk-restore", "--give-up", "x", name)[:2] == (2, "") and house.calls() == []

def test_check_of_a_day_to_come_stops_neither_backup_nor_restore(house):
    """A disk was checked while the clock was ahead by a year; since it is right, the desk is told to trust it."""
    house.fill(13)
    house.room.stop_desk()
    moment = str(int(time.time()) + 365 * 24 * 3600)
    words = "check", "--store", str(house.room.store), "--key", STAFF, "--acc", "13", "--at", moment
    assert house.room.run(*words) == (0, "13 sound\n", "")
    house.start("--trust-clock")
    house.restored(house.backed_up())
    assert house.room.ask_staffs_door(get("/staff/checks", STAFF))[0] == 200
