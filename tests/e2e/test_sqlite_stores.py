"""Stores in the hands of the shell sqlite3: the rows that it reads in a store that the desk made, what the desk makes
of a store that it has changed, stores with sums, and locks."""

import contextlib
import sqlite3

import pytest
from support.clients import by_client
from support.samples import FOR_RECORD, PROGRAM_DISK, READ_BACK, RECORD, ROOM, STAFF, digest
from support.sqlite_shell import shell

KEY, DONE = ["--key", STAFF], (0, "done\n", "")
NOT_OPENED, EXISTS = (3, "", "desk: store\n"), (1, "", "desk: exists\n")
# What sqlite3 is asked about disk 12 and its deed, and the rows of each answer.
ROWS = {"SELECT id, version FROM desk": "1|2\n",
    "SELECT num, donor, signed FROM deed WHERE num < 9 ORDER BY num": "7|A. Curator|18020\n8|B. Donor|18321\n",
    "SELECT kind, deed, lower(hex(digest)), lower(hex(bytes)) FROM image WHERE acc = 12":
        f"1|7|{digest(PROGRAM_DISK)}|{PROGRAM_DISK.hex()}\n",
    "SELECT rank, audiences, quote(day_from), quote(day_until), how, number, quote(word), effect FROM rule"
    " WHERE band = 1 AND scope = 7 ORDER BY rank": "10|3|NULL|2932896|0|0|''|0\n20|7|NULL|NULL|0|0|''|2\n",
    "SELECT lower(hex(digest)), audience FROM badge ORDER BY audience":
        f"{digest(ROOM.encode())}|1\n{digest(STAFF.encode())}|2\n",
    "SELECT slot, name, ty, quote(user_no), served, size, faults, hex(units), last_len FROM found WHERE acc = 12":
        "0|HELLO|PRG|NULL|1|258|0|0150015A|4\n",
    "SELECT (SELECT count(*) FROM checked), (SELECT count(*) FROM marks)": "0|1\n", "PRAGMA integrity_check": "ok\n"}

def is_as_filled(serving, store):
    """Looks whether sqlite3 reads the rows of a store, and a desk gives the replies that are due."""
    assert {asked: shell(store, asked) for asked in ROWS} == ROWS
    with serving(store) as served:
        assert [by_client(served.port, asked) for _, asked, _ in READ_BACK] == [due for *_, due in READ_BACK]

def test_vacuum_changes_no_row_and_no_reply(serving, store):
    is_as_filled(serving, store)
    shell(store, "VACUUM")
    is_as_filled(serving, store)

@pytest.mark.parametrize("change, making", [
    ("CREATE TRIGGER noted AFTER UPDATE ON desk BEGIN SELECT 1; END", EXISTS), ("ANALYZE", EXISTS),
    # what sqlite3 lets stand against a foreign key is no database to the desk
    ("UPDATE image SET deed = 99 WHERE acc = 12", NOT_OPENED)])
def test_changed_store_is_refused_and_stays(ends, store, change, making):
    shell(store, change)
    before = shell(store, ".dump")
    assert ends("serve", "--count", "0", "--store", store) == NOT_OPENED
    assert ends("init", *KEY, "--store", store) == making
    assert shell(store, ".dump") == before

def test_sqlite3_reads_a_store_with_sums_and_writes_none(ends, serving, store, tmp_path):
    summed = tmp_path / "summed"
    assert ends("copy", "--store", store, "--to", summed, "--sums") == DONE
    is_as_filled(serving, summed)
    shell(summed, f".backup {tmp_path}/backup")
    shell(summed, f"VACUUM INTO '{tmp_path}/vacuumed'")
    shell(summed, "UPDATE deed SET donor = 'N. Obody'; PRAGMA wal_checkpoint(TRUNCATE)")
    for name in ("summed", "backup", "vacuumed"):
        assert ends("export", "--store", tmp_path / name) == NOT_OPENED, name

def test_store_that_another_process_writes_is_not_opened(ends, store):
    with contextlib.closing(sqlite3.connect(store, isolation_level=None)) as connection:
        connection.execute("BEGIN EXCLUSIVE")
        assert ends("export", "--store", store) == NOT_OPENED
    assert ends("export", "--store", store)[0] == 0

def test_store_of_a_desk_that_serves_is_locked_for_sqlite3(serving, store):
    with serving(store) as served, contextlib.closing(sqlite3.connect(store, timeout=0)) as connection:
        with pytest.raises(sqlite3.OperationalError, match="locked"):
            connection.execute("SELECT * FROM desk")
        assert by_client(served.port, FOR_RECORD) == RECORD
