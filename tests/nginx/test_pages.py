"""Both pages over the built desk behind nginx, in Chromium: the main ways through them, and what nginx adds."""

import io
import json
import types
import zipfile

import pytest
from support import cpm_image
from support.browser import ReadersPage, StaffPage, chromium
from support.room import SITE
from support.samples import EVERY, PUBLIC, STAFF, TAKEDOWN, drop, get, put_rule
from support.server import HOST, bytes_of

pytestmark = pytest.mark.xdist_group("pages behind nginx")
OPEN = {f"Disk {number}" for number in (14, 15, 16, 17, 18, 26)}

@pytest.fixture(scope="module")
def driver(request, tmp_path_factory):
    begun = chromium(tmp_path_factory.mktemp("downloads"), request.config.getoption("--headed"))
    yield begun
    begun.quit()

@pytest.fixture
def reader(driver, room):
    return ReadersPage(driver, types.SimpleNamespace(address=f"https://{SITE}:{room.https_port}/"))

@pytest.fixture
def staffs(driver, room):
    return StaffPage(driver, types.SimpleNamespace(address=f"http://{HOST}:{room.staff_port}/")).begin()

def effects(room, number):
    """What the public may do with each file of a disk that it sees."""
    return [file["effect"] for file in json.loads(room.ask_desk(get(f"/images/{number}"))[1])["files"]]

@pytest.mark.parametrize("key, disks", [(PUBLIC, OPEN), (STAFF, OPEN | {"Disk 12"})])
def test_reader_sees_the_disks_of_their_audience(reader, key, disks):
    assert reader.give(key) and {*reader.go("")["disks"]} - {"Disk 39"} == disks

def test_reader_finds_reads_and_downloads_a_file(reader):
    assert reader.find("hello")["matches"] and reader.go("15/0")["heading"] == "HELLO.TXT"
    assert reader.text("pre").strip() == "HELLO FROM CP/M"
    reader.named("link", "Download").click()
    assert reader.saved("HELLO.TXT") == cpm_image.text("HELLO FROM CP/M\n")

def test_reader_saves_a_zip(reader):
    reader.go("18")
    reader.named("button", "as a zip").click()
    with zipfile.ZipFile(io.BytesIO(reader.saved("disk-18-asked-*.zip"))) as made:
        assert made.testzip() is None and {"SHA256SUMS", "files/WELCOME.TXT", "files/SKEW.TXT"} <= set(made.namelist())

def test_takedown_closes_a_file_and_says_so(room, reader):
    room.ask_desk(TAKEDOWN)
    refusal = reader.go("15/0")["refusal"]
    room.ask_desk(drop("/images/15/rules/1"))
    assert refusal[1].startswith("Closed by takedown 1 of disk 15 (T15.1). ")
    assert reader.go("15/0")["refusal"] == []

def test_desk_that_is_down_is_said(room, reader):
    with room.desk_down():
        assert reader.load()["refusal"] == ["The desk is closed at the moment. Try again later."]
    assert reader.load()["disks"]

def test_staff_puts_a_deed_a_rule_and_a_disk(room, staffs, tmp_path):
    assert staffs.go("deeds") and staffs.fill("deeds", deed="39", donor="K. Keeper", signed="2001-02-03")
    assert staffs.submit("deeds")["result"] == ["Put: deed 39."]
    assert staffs.go("rules/39") and staffs.put_rule("rules", "39", "20", "all", None, "public", effect="read")
    assert staffs.answer(True)["result"] == ["Put: rule 20 of deed 39."]
    (tmp_path / "new.img").write_bytes(bytes_of("images", "damaged.img"))
    staffs.go("disks")
    staffs.one("#disks [type=file]").send_keys(str(tmp_path / "new.img"))
    staffs.read(lambda state: state["list"])
    for label in ("Accession of new.img", "Deed of new.img"):
        staffs.set(f"[aria-label='{label}']", "39")
    assert staffs.submit("disks") and staffs.answer(True) and effects(room, 39) == ["read"] * 4

def test_staff_rehearses_puts_and_ends_a_takedown(room, staffs):
    staffs.go("takedowns")
    assert "GUIDE (disk 16, slot 2)" in staffs.take_down("16", "", "2", "public", "room")["sure"]
    assert staffs.answer(True) and effects(room, 16) == ["read"] * 2
    staffs.of_row("takedown 10 of disk 16", "Drop")
    assert staffs.answer(True)["result"] == ["Done: there is no takedown 10 of disk 16 now."]
    assert effects(room, 16) == ["read"] * 3

def test_journal_shows_who_changed_what_and_why(room, staffs):
    room.ask_desk(put_rule("/images/17/rules/7", "list", EVERY, "public"))
    assert staffs.go("takedowns") and staffs.of_row("takedown 7 of disk 17", "Drop") and staffs.answer(True)
    row = staffs.go("journal")["rows"][0]
    assert row[1:5] == ["Ada Archivist", "Drop takedown 7 of disk 17", "done", "a letter of today"]
