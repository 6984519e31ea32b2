"""Dumps of disks: found, described, compared, put once that is agreed; what is foretold is what the desk then says."""

import itertools
import random
import threading

import pytest
from staff_helpers import lost_at, saved_table
from support import browser, damaged, model_rules, museums, samples
from support.browser import TODAY
from support.model import AUDIENCES
from support.samples import digest

HELLO, RECORD, MARKED = samples.PROGRAM_DISK, samples.RECORD_DISK, samples.MARKED_DISK
WELCOME, MUSEUM = (samples.bytes_of("images", name) for name in ("welcome.img", "museum.d64"))
HEADS, LONG = "accession,kind,deed,sha256,file", "Müller box 1, disk 048.img"
LEFT_OUT = "Left out: {}. The last column of the list says why."
NO_DEED = "There is no such deed. Check its number, or put the deed first. (no-deed)"
CHANGED = "Your browser cannot read the file: it is gone, or has changed since you chose it. Choose it again."
NOT_NAMED, NO_FILE = "The sheet does not name it: left out.", "No file of this name is chosen."
NO_KIND = "The page does not send it: no kind of disk has 100 bytes. CP/M, 8 inches has 256,256 bytes, "
NO_KIND += "Commodore 1541 has 174,848 bytes, Commodore 1541 with error bytes has 175,531 bytes."
# The dumps by their names; the rows of the sheet; and the accession, deed and result of each, before anything is sent.
DUMPS = {LONG: RECORD, "hello.d64": HELLO, "marked.d64": MARKED, "other.d64": samples.LOOP_DISK, "extra.d64": MUSEUM,
    "..%2f..%2fX": WELCOME, "=1+1": RECORD, "short.d64": bytes(100)}
ROWS = [("2001", "cpm8", "9", digest(RECORD), f'"box 1/{LONG}"'),
    ("2002", "d64", "9", digest(HELLO).upper(), "C:\\dumps\\hello.d64"),
    ("2003", "d64", "9", digest(MARKED), "marked.d64"), ("2004", "d64", "9", digest(HELLO), "other.d64"),
    ("2005", "d64", "9", digest(HELLO), "gone.d64"), ("2006", "cpm8", "9", digest(WELCOME), "..%2f..%2fX"),
    ("2007", "cpm8", "99", digest(RECORD), "=1+1"), ("2008", "d64", "9", digest(HELLO), "short.d64")]
FOUND = {LONG: ("2001", "9", ""), "hello.d64": ("2002", "9", ""), "..%2f..%2fX": ("2006", "9", ""),
    "=1+1": ("2007", "99", ""), "extra.d64": ("", "", NOT_NAMED), "gone.d64": ("2005", "9", NO_FILE),
    "short.d64": ("2008", "9", NO_KIND),
    "marked.d64": ("2003", "9", "The sheet says Commodore 1541, and the length is another. The page does not send it."),
    "other.d64": ("2004", "9", "The sheet says another SHA-256. The page does not send it.")}

@pytest.fixture
def choose(staff, tmp_path):
    """Chooses files of these names and bytes in the view of disks."""

    def choose_files(files, page=staff):
        for name, data in files.items():
            (tmp_path / name).write_bytes(data)
        page.go("disks")
        page.one("#disks [name=files]").send_keys("\n".join(str(tmp_path / name) for name in files))
        return page.read()

    return choose_files

results = lambda shown: {row[0].removesuffix(" Map"): (row[4], row[5], row[6]) for row in shown["list"]}

def test_sheet_that_is_wrong_says_where(choose):
    first, row, zeros = f"The first line of the sheet has to be {HEADS}.", "Row 1 of the sheet: ", "0" * 64
    wanted = {
        "accession,kind,deed\n": first, "": first, f"{HEADS}\n1,d64,1,{zeros}\n": f"{row}it has 4 fields, and not 5.",
        f"{HEADS}\n01,d64,1,{zeros},x\n": f"{row}accession has to be a number from 1 to 999999.",
        f"{HEADS}\n1,d71,1,{zeros},x\n": f"{row}kind has to be cpm8, d64 or d64e.",
        f"{HEADS}\n1,d64,1,{zeros[1:]},x\n": f"{row}sha256 has to be 64 hexadecimal digits.",
        f'{HEADS}\n1,d64,1,{zeros},"x\n': "A quote in the sheet does not end."}
    assert {text: choose({"wrong.csv": text.encode()})["result"][0] for text in wanted} == wanted

def test_dumps_of_a_sheet_are_found_compared_and_put(museum, staff, choose):
    shown = choose({**DUMPS, "shelf.CSV": ("\ufeff" + "\r\n".join([HEADS, *map(",".join, ROWS), ""])).encode()})
    words = "8 files chosen. The sheet has 8 rows: 4 ready, 3 with another disk than it says, 1 without a file."
    assert (shown["result"], results(shown)) == ([words], FOUND)
    words = "Nothing is sent: there is no deed 99 (as of accession 2007). Put it first."
    assert staff.push("Put the disks")["result"] == [words], "a disk of an unknown deed goes out"
    museum.deeds[99] = "Late Donor", "2020-01-01"
    museums.put(museum, 2001, "cpm8", 9, RECORD)
    asked = staff.push("Put the disks")["sure"][1:3]
    assert (asked[0][:28], asked[1]) == ("In use already: 1 accession.", LEFT_OUT.format(5))
    del museum.deeds[99]
    staff.door.before = lost_at(3)
    assert staff.answer(True)["result"][0] == "2 disks put, 0 failed, 1 in doubt, 1 not sent yet, 5 left out."
    shown = staff.push("Go on with the rest")
    assert shown["result"][0] == "3 disks put, 1 failed, 5 left out."
    done = {name: (disk, deed, "done") for name, (disk, deed, says) in FOUND.items() if says == ""}
    assert results(shown) == {**FOUND, **done, "=1+1": ("2007", "99", NO_DEED)}
    put = {disk: image.bytes for disk, image in museum.images.items() if disk > 2000}
    assert put == {2001: RECORD, 2002: HELLO, 2006: WELCOME}
    wanted = {disk: says or "done" for disk, _, says in FOUND.values()} | {"2007": NO_DEED}
    others = zip(*(staff.texts(f"#disks .result td:{at}-child") for at in ("first", "last")))
    assert dict(others) == {disk: says for disk, says in wanted.items() if says != "done"}, "what is not done"
    rows = [row[2:] for row in saved_table(staff, "disks-report-of", "Save the report")]
    assert {row[0]: row[5] for row in rows[1:]} == wanted, "a report says nothing of what was left out"
    heads = [*"accession kind deed sha-256 file outcome by reason".split(), "tried at"]
    assert [head.partition(" (")[0] for head in rows[0]] == heads
    assert rows[4][:8] == ["2007", "cpm8", "99", digest(RECORD), "'=1+1", NO_DEED, "Ada Archivist", "a letter of today"]
    assert rows[0][8] == "tried at (by the clock of the computer that sent it)", "by whose clock is not said"
    assert rows[4][8].startswith(f"{TODAY} 12:") and rows[-1][:6] == [*ROWS[4][:4], "gone.d64", NO_FILE]
    assert {one[2:] for one in staff.door.sent()} == {("Ada%20Archivist", "a%20letter%20of%20today")}
    museum.deeds[99] = "Late Donor", "2020-01-01"
    assert staff.push("Go on with the rest")["result"][0] == "4 disks put, 0 failed, 5 left out."
    assert staff.push("Put the disks")["result"] == ["There is no disk to put."]
    choose({"more.d64": MUSEUM, "next.csv": f"{HEADS}\n2009,d64,9,{digest(MUSEUM)},more.d64\n".encode()})
    assert staff.push("Put the disks")["sure"][:2] == ["Put 1 disk?", LEFT_OUT.format(4)], "what is done is left out"
    assert staff.answer(True)["result"][0] == "5 disks put, 0 failed, 4 left out."

def test_dumps_are_described_and_numbered_by_hand(staff, choose):
    shown = choose({"one.d64": HELLO, "two <b>.d64": MARKED, "short.d64": bytes(100)})
    staff.type("Accession of one.d64", "3001")
    staff.type("Deed of one.d64", "9")
    asked = staff.push("Number the others from the first") and staff.push("Put the disks")["sure"]
    assert asked, "a disk goes out without a question"
    assert shown["list"] == [["one.d64 Map", "174,848", "Commodore 1541", digest(HELLO), "", "", ""],
        ["two <b>.d64 Map", "175,531", "Commodore 1541 with error bytes", digest(MARKED), "", "", ""],
        ["short.d64", "100", "", "", "", "", NO_KIND]]
    assert asked == [*("Put 2 disks?", LEFT_OUT.format(1)),
        f"2 disks under deed 9, of “{samples.DONOR_OF_9}”, signed on 0001-01-01",
        "20: all files readable for the public, the reading room and the staff, until further notice",
        f"What they get on {TODAY}, as this page reckons from the dumps, these rules and their takedowns:",
        *(f"Of all 2 files of these disks, the {who}: 1 to read, 1 only in the list, 0 closed."
          for who in ("public", "reading room", "staff"))]
    assert (staff.answer(False)["result"], staff.door.sent()) == (["Nothing is sent."], [])
    staff.door.before = lambda _, path: b"" if path == "/staff/today" else None
    said, rows = "The desk did not tell which day it is there. Try again.", staff.go("disks")["list"]
    assert staff.push("Put the disks")["result"] == [said] and staff.read()["list"] == rows != [], "a guess, or no list"
    staff.door.before = lambda _, path: None
    staff.push("Put the disks")
    staff.door.before = lost_at(1)
    staff.answer(True)
    for deed, words in (("7", "1 disk put, 1 failed, 1 left out."), ("9", "2 disks put, 0 failed, 1 left out.")):
        staff.type("Deed of one.d64", deed)
        assert staff.push("Go on with the rest")["result"][0] == words, "it goes out under a deed that nobody agreed to"
    assert [at[4:] for at in staff.read()["list"]] == [["3001", "9", "done"], ["3002", "9", "done"], ["", "", NO_KIND]]

@pytest.mark.long
@pytest.mark.timeout(1800)
def test_thousand_dumps_are_asked_once_told_exactly_and_resumed_anew(museum, staff, choose, tmp_path, monkeypatch):
    """One has a wrong size, one an unknown deed, one changes once it is chosen; at the 400th the browser is closed."""
    monkeypatch.setattr(browser, "LIMIT", 900)
    dumps = [bytes([at % 256, at // 256]) + HELLO[2:] if at != 7 else bytes(100) for at in range(1000)]
    rows = [f"{2000 + at},d64,{99 if at == 8 else 9},{digest(data)},{at}.d64" for at, data in enumerate(dumps)]
    files = {f"{at}.d64": data for at, data in enumerate(dumps)} | {"all.csv": "\n".join([HEADS, *rows, ""]).encode()}
    first, puts, is_closed = browser.StaffPage(browser.chromium(tmp_path), staff.door).begin(), [], threading.Event()
    is_held = lambda method: method == "PUT" and (puts.append(method) or len(puts) == 400) and is_closed.wait(900)
    staff.door.before = lambda method, path: b"" if is_held(method) else None
    said = "The sheet has 1,000 rows: 999 ready, 1 with another disk than it says, 0 without a file."
    assert choose(files, first)["result"] == [f"1,000 files chosen. {said}"]
    said = "Nothing is sent: there is no deed 99 (as of accession 2008). Put it first."
    assert (first.push("Put the disks")["result"], puts) == ([said], []), "a disk of an unknown deed goes out"
    museum.deeds[99] = "Late Donor", "2020-01-01"
    assert first.push("Put the disks")["sure"][:2] == ["Put 999 disks?", LEFT_OUT.format(1)]
    first.one("#sure [value=go]").click()
    browser.wait_for("the 400th dump", lambda: len(puts) == 400)
    assert first.driver.quit() or is_closed.set() is None and max(museum.images) == 2399
    asked = choose(files) and staff.push("Put the disks")["sure"]
    assert (asked[1][:31], asked[2]) == ("In use already: 399 accessions.", LEFT_OUT.format(1))
    (tmp_path / "950.d64").write_bytes(HELLO)
    assert staff.answer(True)["result"][0] == "998 disks put, 1 failed, 1 left out."
    told = [row[2:8:5] for row in saved_table(staff, "disks-report-of", "Save the report")[1:]]
    wanted = {str(2000 + at): "done" for at in range(1000)} | {"2007": NO_KIND, "2950": CHANGED}
    assert (dict(told), len(told)) == (wanted, 1000), "what became of each dump"
    put = {acc: image.bytes for acc, image in museum.images.items() if acc >= 2000}
    assert put == {2000 + at: data for at, data in enumerate(dumps) if at not in (7, 950)}

def test_map_shows_each_sector_the_chosen_file_and_faults(staff, choose):
    choose({"damaged.d64": samples.bytes_of("images", "damaged.d64"), "plain.img": WELCOME})
    for name, count in (("plain.img", 77 * 26), ("damaged.d64", 683)):
        assert staff.push(f"Map of {name}") and len(staff.texts("#disks .map path")) == count
    assert (staff.text("figcaption"), len(staff.texts(".map .fault"))) == ("2 files, 1 of them damaged.", 2)
    fault = "LOGBOOK: 4 blocks. read-error (the drive could not read a block of it)."
    for button, words, count in (("INDEX SEQ", "INDEX: 1 block. No fault.", 1), ("LOGBOOK SEQ, damaged", fault, 4)):
        assert staff.push(button) and (staff.text("figcaption"), len(staff.texts(".map .chosen"))) == (words, count)

# A script: what the page reads on the dump beside it, and what it foretells of its files.
FORETOLD = """const [kind, rules, day, done] = arguments;
Promise.all([import("/dump.js"), import("/staff.forecast.js"), fetch("/drawn.dump")]).then(async ([dump, all, raw]) => {
  const { files } = dump.readDump(kind, new Uint8Array(await raw.arrayBuffer()));
  const texts = (one) => [one.slot, one.user ?? "", one.name, one.type, one.faults.join(" "), one.isServed].map(String);
  done([files.map(texts), all.forecast(files, rules, day)]);
});"""
READ, DAYS = ("slot", "user", "name", "type", "faults"), [None, TODAY, "2026-06-16"]
SELECTS = [{"all": True}, {"slot": 0}, {"slot": 2}, {"prefix": "W"}, {"prefix": "HE"}, {"user": 0}, {"type": "PRG"}]

@pytest.mark.parametrize("count", [20, pytest.param(500, marks=[pytest.mark.long, pytest.mark.timeout(1800)])])
def test_page_reads_and_foretells_of_a_dump_what_the_desk_says_of_the_disk(museum, staff, tmp_path, count):
    random_ = random.Random(count)
    one, effects = random_.choice, ["deny", "list", "read"]
    for number, kind in itertools.product(range(count), damaged.BASES):
        audiences = [random_.sample(AUDIENCES, one([1, 2, 3])) for _ in range(one(range(6)))]
        rules = [museums.rule(rank, one(effects), some, one(SELECTS), one(DAYS), one(DAYS))
                 for rank, some in enumerate(audiences)]
        museums.put(museum, 5000, kind, 9, damaged.drawn(one, kind))
        (tmp_path / "drawn.dump").write_bytes(museum.images[5000].bytes)
        files, given = museum.files_of(5000), {word: [] for word in AUDIENCES}
        for word, file in itertools.product(AUDIENCES, files):
            _, effect = model_rules.verdict([("R9", rules)], word, TODAY, file)
            given[word].append("list" if effect == "read" and file["size"] == "" else effect)
        due = [[*map(file.get, READ), str(file["size"] != "").lower()] for file in files]
        found = staff.driver.execute_async_script(FORETOLD, kind, rules, TODAY)
        assert found == [due, given], f"what is read and foretold of dump {number} of kind {kind}"
