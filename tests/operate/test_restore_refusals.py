"""A restore refuses what would open what was closed, or do what none of the staff did; the room is open in the end."""

import datetime
import gzip
import re

import pytest
from support.house import DONE, OTHER, takedown
from support.room import wait_until
from support.samples import STAFF, badge, digest, drop, get, put, put_image, put_rule

ANYWAY = "--without-journal"

@pytest.mark.parametrize("change", ids=["empty", "begun-anew", "of-another-store", "rotated-away"], argvalues=[
    lambda line: b"", lambda line: line if b"/13/rules/1" in line else b"",
    lambda line: line.replace(b'"at":1', b'"at":2'), None])
def test_journal_that_does_not_follow_on_the_backup_stops_the_restore(house, monday, change):
    """The old store does not open either, so that nobody would know of the takedown."""
    if change:
        house.journal.write_bytes(b"".join(map(change, house.journal.read_bytes().splitlines(True))))
    else:
        house.journal.rename(house.journal.with_name("journal-2026-10"))
    house.spoil()
    assert ("does not follow on the backup" if change else "there is no journal") in house.refused(monday)
    assert house.calls() == []
    house.restored(monday, ANYWAY)
    assert house.status("/images/13/files/0") == 200

def rotate(house, count):
    """All lines but the last ones are rotated away."""
    lines = house.journal.read_bytes().splitlines(True)
    house.journal.with_name("journal-2026-10").write_bytes(b"".join(lines[:-count]))
    house.journal.write_bytes(b"".join(lines[-count:]))

def test_journal_that_was_lost_before_a_later_backup_stops_the_restore(house, monday):
    """What was rotated away has the mark of the backup, and the journal was begun anew since the later one."""
    later = house.backed_up()
    rotate(house, 2)
    house.journal.write_bytes(b"")
    house.spoil()
    assert f"lacks the line that was its last one at the later backup {later.name}" in house.refused(monday)
    future = later.rename(later.with_name("9999-01-01T000000Z"))
    house.restored(monday)
    assert future.exists()

def test_backup_of_a_journal_without_a_line_does_not_say_what_follows_on_it(house):
    """One that was begun anew looks the same."""
    backup = house.backed_up()
    house.fill(13)
    house.journal.write_bytes(b"")
    assert "the journal had no line when the backup was made" in house.refused(backup)
    house.restored(backup, ANYWAY, "--give-up", 13)

@pytest.mark.parametrize("name, data, words", ids=["no-mark", "a-list", "cut-off"], argvalues=[
    ("backups/{}/journal-mark", b"", "journal-mark: it cannot be read"),
    ("backups/{}/journal-mark", b'{"sha256":[]}', "does not follow on the backup"),
    ("journal-2026-11.gz", gzip.compress(bytes(999))[:-9], "journal-2026-11.gz: it cannot be unpacked")])
def test_mark_or_part_of_the_journal_that_cannot_be_read_stops_the_restore(house, monday, name, data, words):
    rotate(house, 1)
    (house.folder / name.format(monday.name)).write_bytes(data)
    assert words in house.refused(monday)

def test_backup_from_the_future_stops_the_restore(house, monday):
    """Its clock was ahead by a day. With the word, what the journal has after the backup is done all the same."""
    later = datetime.datetime.now(datetime.timezone.utc) + datetime.timedelta(days=1)
    backup = monday.rename(monday.with_name(later.strftime("%Y-%m-%dT%H%M%SZ")))
    house.spoil()
    assert "the backup is from the future" in house.refused(backup)
    house.restored(backup, ANYWAY)
    house.see_takedown()

@pytest.mark.parametrize("is_spoilt", [False, True], ids=["old-store", "no-old-store"])
def test_upgrade_restores_a_backup_of_the_older_version_by_the_moments_of_its_journal(house, monday, is_spoilt):
    """That backup has no mark of the journal, and what the older nginx has written says nothing of keys."""
    (monday / "journal-mark").unlink()
    house.journal.write_bytes(house.journal.read_bytes().replace(b',"key":"staff"}', b"}"))
    house.journaled(takedown(13, 3, 0), "begun", "502", key=None)
    if is_spoilt:
        house.spoil()
    assert "an older version made the backup" in house.refused(monday)
    out = house.restored(monday, ANYWAY)
    house.see_takedown()
    assert "PUT /images/13/rules/3: nobody knows its outcome, nor whether its key was one of the staff; left out" in out

@pytest.mark.parametrize("is_written", [False, True], ids=["staff's-door", "older-line"])
def test_command_without_a_key_is_not_carried_out(house, monday, is_written):
    """They come while the desk is down, so that nobody knows their outcome."""
    house.do(put(badge("second"), {"audience": "staff"}))
    house.room.stop_desk()
    everybody = put_rule("/images/13/rules/7", "deny", {"all": True}, "public", "room", "staff")
    for asked in (everybody._replace(key=None), drop(badge(STAFF), None)):
        if is_written:
            house.journaled(asked, "begun", "502", key=None)
        else:
            assert house.room.ask_staffs_door(asked)[0] == 502
    house.restored(monday)
    house.see_takedown()
    assert house.room.ask_staffs_door(get("/staff/keys", STAFF))[0] == 200, "nobody has dropped a key of the staff"

def test_line_that_others_append_gives_no_key_and_opens_nothing(house, monday):
    """Whoever runs as nginx's user can write a line as nginx does. The old store says what was done."""
    everybody = put_rule("/deeds/7/rules/1", "read", {"all": True}, "public", "room", "staff")
    for asked in (put(badge("mine"), {"audience": "staff"}), drop("/images/13/rules/1"), everybody):
        house.journaled(asked, "begun", "200")
    out = house.restored(monday)
    assert house.room.ask_staffs_door(get("/staff/keys", "mine"))[0] == 401, "whoever appends a line has a key"
    house.see_takedown()
    assert f'{badge("mine")} {{"audience": "staff"}} is in the journal, and not in the old store; left out' in out
    assert [rule["rank"] for rule in house.listed("deeds")[0]["rules"]] == [20]

def remove_store(house):
    house.stop()
    for path in house.folder.glob("museum.sqlite*"):
        path.unlink()

def test_new_store_of_a_new_machine_takes_nothing_back(house, monday):
    """The package has made an empty store there: it does not say what was done since the backup."""
    house.do(put(badge("second"), {"audience": "staff"}))
    remove_store(house)
    assert house.room.run("init", "--sums", "--store", str(house.room.store), "--key", "new")[0] == 0
    house.restored(monday)
    house.see_takedown()
    assert len(house.listed("keys", "second")) == 2

def test_disk_that_only_the_old_store_has_is_named_and_given_up_or_put_again(house, monday, tmp_path):
    """It came to the desk's own socket, as by an import: it is in no journal."""
    asked = put_image(15, "d64", 7, OTHER)
    assert house.room.ask_desk(asked) == DONE
    words = f"(?s).*disk 15, SHA-256 {digest(OTHER)}\n.*\nthe store is as it was, and the room is open\n"
    assert re.fullmatch(words, house.refused(monday))
    house.see_takedown()
    assert f"only in the old store: {asked.path}" in house.restored(monday, "--give-up", 15)
    assert house.room.ask_desk(asked) == DONE
    house.do(takedown(15, 1, 0))
    (tmp_path / "15.d64").write_bytes(OTHER)
    house.restored(monday, "--disks", tmp_path)
    assert [house.status(f"/images/15/files/{slot}") for slot in (0, 2)] == [403, 200]

@pytest.mark.parametrize("name, change, words", [
    ("museum.sqlite", lambda data: data[:5000] + bytes([data[5000] ^ 1]) + data[5001:], "desk: store"),
    ("museum.sqlite", lambda data: b"no store", "desk: "), ("museum.sqlite-wal", lambda data: b"", "has other"),
    ("deeds.json", lambda data: b'{"deeds":[]}', "has other deeds"),
], ids=["a-bit-flipped", "no-store", "without-its-log", "other-deeds"])
def test_damaged_backup_leaves_the_room_open(house, monday, name, change, words):
    (monday / name).write_bytes(change((monday / name).read_bytes()))
    assert words in house.refused(monday)
    assert house.calls() == [], "the room is shut for a backup that does not open"
    house.see_takedown()

def test_backup_or_second_restore_beside_a_restore_is_refused(house, monday):
    house.after_stop.write_text("for _ in $(seq 1200); do [ ! -e go ] || break; sleep 0.05; done")
    first = house.begin("desk-restore", monday)
    wait_until(lambda: house.calls() == ["stop"])
    for tool, *words in (["desk-restore", monday], ["desk-backup"]):
        came = house.run(tool, *words, under=("timeout", "60"))
        assert came == (1, "", f"{tool}: another backup or restore is at work\n"), "two work at once"
    (house.folder / "go").touch()
    assert house.ended(first)[::2] == (0, "")
    house.see_takedown()

def test_disk_that_is_full_once_the_room_is_shut_leaves_the_old_room_open(house, monday):
    """From then on the restore can write no file of more than a few bytes."""
    house.after_stop.write_text("prlimit --pid $PPID --fsize=1000")
    assert house.refused(monday) == "desk-restore: File too large\nthe store is as it was, and the room is open\n"
    assert house.calls() == ["stop", "start"]
    house.see_takedown()

def test_second_interrupt_leaves_the_room_open(house, monday):
    """The first comes while the room is shut, and the second while it is being opened: that start does nothing."""
    house.after_stop.write_text("kill -INT $PPID")
    interrupt = "if mkdir interrupted 2>/dev/null; then kill -INT $PPID; sleep 5; exit 1; fi"
    house.systemctl.write_text(house.systemctl.read_text().replace("\nstart)", f"\nstart)\n{interrupt}", 1))
    assert "stopped" in house.refused(monday)
    house.see_takedown()

def test_room_is_open_before_the_restore_tells_what_it_did(house, monday):
    """Nobody reads it."""
    began = house.begin("desk-restore", monday)
    began.stdout.close()
    with began:
        errors = began.stderr.read()
    assert errors == "desk-restore: Broken pipe\nthe room is open, and the store is the restored one\n"
    assert began.returncode == 1
    house.see_takedown()

def lose_store(house):
    rotate(house, 1)
    house.spoil()

def plant_names(house):
    """A link to nothing, a file and a folder, named as what a restore that was killed leaves behind."""
    (house.folder / "ready-x").symlink_to(house.folder / "none")
    (house.folder / "ready-y").touch()
    (house.folder / "ready-z").mkdir()

@pytest.mark.parametrize("change", [lose_store, plant_names, remove_store])
def test_restore_does_the_takedown_again(house, monday, change):
    """Where most of the journal was rotated away; where the desk's user has put names; where there is no old store."""
    change(house)
    assert ("; there was no old store\n" in house.restored(monday)) == (change is remove_store)
    assert bool(list(house.folder.glob("set-aside-*"))) == (change is not remove_store)
    house.see_takedown()

@pytest.mark.parametrize("number", range(6))
def test_restore_that_is_killed_leaves_the_room_open(house, monday, number):
    """It is killed once it has shut the room, or at one of the calls by which it exchanges the stores."""
    calls = "renameat,renameat2,rename"
    under = "strace", "-o", house.folder / "strace", "-e", f"inject={calls}:signal=KILL:when={number}", "-e", calls
    if number == 0:
        house.after_stop.write_text("kill -KILL $PPID")
    status, _, errors = house.run("desk-restore", monday, under=under if number else ())
    assert status not in (0, 1), errors
    wait_until(lambda: house.status("/images/13/files/0") == 200)
    assert house.calls() == ["stop", "start"]
    house.see_takedown()
    house.after_stop.unlink(missing_ok=True)
    house.restored(monday)
    house.see_takedown()
    assert house.listed("takedowns")[0]["accession"] == 13
