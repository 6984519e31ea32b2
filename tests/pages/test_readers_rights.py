"""The page for readers: what the public, the room and the staff see, what is refused and why; no key is left there."""

import re
import threading
import time

import pytest
from staff_helpers import LEFT
from support import museums
from support.browser import LIMIT, wait_for
from support.samples import NOBODY, PROGRAM_DISK, PUBLIC, ROOM, STAFF, digest
from support.stand_in import refused_by_nginx

# Its last sign is a blank that is of the key.
UMLAUTS = "Schlüssel für den Raum\u00a0"
AS_PUBLIC, BY_KEY = "I have a key", "You read with a key"
OPEN, ALL = ([f"Disk {number}" for number in range(1001, end)] for end in (1004, 1007))
CLOSED = "This file is closed to %s. You may see %s."
TAKEDOWN = "Closed by takedown 1 of disk %d (T%d.1). A takedown is how the staff closes files. Name it when you ask."
WELCOME = ["WELCOME.TXT", "TXT text", "896"]
UNREAD = "Damaged the drive could not read a block of it"
# A script: what a print says of where it is from.
FROM = "return document.getElementById('asked').dataset.from"
DAMAGED = "read-error (the drive could not read a block of it)"

@pytest.fixture
def museum(museum):
    """Deed 7 is closed to the public and the room; a disk of deed 8, which has no rules, is closed to all, and so is a
    file of disk 1003 by a takedown to all but the staff."""
    museum.badges[digest(UMLAUTS.encode())] = "room"
    museum.rules["T1003"] = {1: museums.rule(1, "deny", ["public", "room"], {"slot": 1})}
    museums.put(museum, 1007, "d64", 8, PROGRAM_DISK)
    return museum

@pytest.mark.parametrize("key, asks, disks", ids=["public", "room", "staff", "umlauts"], argvalues=[
    (PUBLIC, AS_PUBLIC, OPEN), (ROOM, BY_KEY, OPEN), (STAFF, BY_KEY, ALL), (f"  {UMLAUTS} ", BY_KEY, OPEN)])
def test_caller_sees_the_disks_of_their_audience(reader, key, asks, disks):
    is_staff, shown = key == STAFF, reader.give(key)
    assert (shown["caller"], shown["disks"]) == (asks, disks)
    assert f"files that you see: {'10 to read, 4' if is_staff else '4 to read, 2'} only listed." in shown["status"]
    assert reader.go("1004")["rows"][:1] == ([[*WELCOME, "Read it"]] if is_staff else [])
    eyes = "with a key, the reading room's or the staff's, it cannot tell[.]" if key else "as the public[.]"
    asked = f"The page asked the desk on 15 June 2026 at [0-9:]+ .*, {eyes}"
    assert reader.cdp("Page.printToPDF") and reader.script(FROM) == f"The reading room, {reader.door.address}#/1004"
    assert re.fullmatch(asked, reader.text("#asked")), "what stands now has no hour"
    whom, ask = "you" if key else "the public", "rule 10 of deed 7 (R7.10). Turn to the museum's staff about this disk."
    closed = ["There is no file on it that you may see.", f"2 more files are closed to {whom}, name and all: {ask}"]
    due = [] if is_staff else closed
    reader.wait(lambda state: reader.texts(".callout") == due, f"{due} on the disk")
    deed = "Deed 7 is the paper by which the disk came to the museum. Name this rule when you ask."
    rules = {"1004/0": [f"Closed by rule 10 of deed 7 (R7.10). {deed}", "1 other file of this disk"],
             "1003/1": [TAKEDOWN % (1003, 1003)], "1007/0": ["Closed: no rule lets you see it (D0)."]}
    for place, rule in rules.items():
        refusal = [CLOSED % (whom, "nothing of it but its place: its name is closed, too"), *rule]
        reader.go(place)
        reader.read(lambda state: state["refusal"] == ([] if is_staff and place != "1007/0" else refusal))

def test_each_file_leads_to_its_page_and_one_that_is_closed_says_why_there_and_in_lists(museum, reader):
    museum.rules["T1001"] = {1: museums.rule(1, "list", ["public"], {"slot": 0})}
    shown, why = reader.go("1001"), "Listed only takedown 1 of disk 1001 has closed it"
    assert (shown["rows"][0], shown["links"]) == ([*WELCOME, why], [f"#/1001/{slot}" for slot in "0011"])
    alone = [CLOSED % ("the public", "that it is there, not what is in it"), "text, 896 bytes", TAKEDOWN % (1001, 1001)]
    assert reader.go("1001/0")["refusal"] == alone and reader.go("1001")
    rules = "takedown 1 of disk 1001 (T1001.1) on 1 file, rule 20 of deed 9 (R9.20) on 1 file."
    assert f"What decides about the files that you see: {rules}" in reader.text("#view")
    museum.rules["R9"][10] = museums.rule(10, "list", ["public"])
    assert reader.go("1002/0")["refusal"][3:] == [f"2 other files of this disk: {'-' * 16}, GUIDE"]
    why = "Listed only rule 10 of deed 9 lets you see no more"
    assert reader.go("1003")["rows"][0] == ["LOGBOOK", "SEQ text or data", "", why]
    del museum.rules["R9"][10]
    assert reader.go("1003")["rows"][0] == ["LOGBOOK", "SEQ text or data", "", UNREAD]
    why = "Listed only a dividing line of the directory, which has no bytes to read"
    assert reader.go("1002")["rows"][1] == ["-" * 16, "DEL dividing line", "", why]
    found = [reader.load() and reader.find(name)["matches"] + reader.texts(".matches li") for name in ("welc", "logb")]
    assert found == [["WELCOME.TXT", "WELCOME.TXT text Listed only"], ["LOGBOOK", "LOGBOOK text or data Damaged"]]
    closed = ["1 more file is closed to the public, name and all: takedown 1 of disk 1003 (T1003.1)."]
    reader.wait(lambda state: reader.texts(".closed > a[href='#/1003']") == closed, f"{closed} of what was found")
    museum.rules["T1003"] = {2: museums.rule(2, "deny", ["public"], {"slot": 1})}
    is_due, looks = threading.Event(), ["Looking for closed files .."]
    reader.door.before = lambda _, path: is_due.wait(LIMIT) and None if "/files/" in path else None
    assert reader.go("1003") and reader.texts(".callout") == looks, "a print of now has all, as if nothing were closed"
    assert is_due.set() or reader.wait(lambda state: "T1003.2" in str(reader.texts(".callout")), "a new rule")

def test_list_says_when_it_was_asked_and_is_asked_anew_when_it_is_old_or_shows_what_is_closed(museum, reader):
    at, found = lambda: reader.text("#asked"), lambda name: reader.find(name)["matches"]
    assert reader.load() and found("welc") == ["WELCOME.TXT"] and "asked the desk on 15 June" in at()
    hour, museum.rules["T1001"] = at(), {1: museums.rule(1, "deny", ["public"], {"slot": 0})}
    assert (found("welco"), at()) == (["WELCOME.TXT"], hour), "an hour at which nothing was asked"
    assert reader.go("1001/0")["refusal"] and found("welc") == [], "a visit saw that the list is old"
    museums.put_files(museum, 1002, "d64", 9, [("TOUR", "PRG", b"A"), ("-", "DEL", None), ("GUIDE", "SEQ", None)])
    assert reader.go("1002") and found("guid") and reader.texts(".matches .badge") == ["Listed only"], "it has no size"
    del museum.rules["T1001"]
    assert found("welco") == [] and reader.script("const now = Date.now; Date.now = () => now() + 400000") is None
    assert found("welc") == ["WELCOME.TXT"] and at() != hour, "a list of many minutes ago"
    for rank, words in ((1, "logb"), (2, "logbo")):
        museum.rules["T1003"] = {rank: museums.rule(rank, "deny", ["public"], {"slot": 1})}
        reader.script("const now = Date.now; Date.now = () => now() + 200000")
        assert found(words) and reader.wait(lambda _: f"T1003.{rank}" in str(reader.texts(".closed")), "a list's hour")

def test_refusal_says_why_whom_to_ask_and_where_to_go_on_also_of_a_file_opened_in_between(museum, reader):
    others, staff = "The other files of this disk", "Turn to the museum's staff about this "
    wanted = {"1003/0": (["Refusal: faulty", f"Faults: {DAMAGED}"], others), "1001/9": (["Refusal: no-file"], others),
        "1002/1": (["Refusal: listed-only"], others), "99": (["Refusal: no-accession"], "All disks"),
        **dict.fromkeys(["012", "12/0/0", "%3Cb%3E"], (["Refusal: no-route"], "All disks"))}
    for place, (refusal, way) in wanted.items():
        assert reader.go(place)["refusal"][1:] == refusal, place
        assert (staff in reader.text("#view")) == (refusal != ["Refusal: no-route"]), place
        reader.named("link", way).click()
        assert reader.read(lambda state: state["here"] != f"#/{place}")["refusal"] == [], place
    shown = [(at["heading"], at["title"].partition(" – ")[0]) for at in map(reader.go, ("1003/0", "1001/9"))]
    assert shown == [("LOGBOOK", "LOGBOOK, Disk 1003"), ("Disk 1001, slot 9",) * 2]
    museum.rules["T1001"] = {1: museums.rule(1, "deny", ["public"], {"slot": 0})}
    reader.door.before = lambda method, path: museum.rules["T1001"].clear() if "/files/" in path else None
    assert reader.go("1001/0")["refusal"] == ["What you may see has just changed. Try again."]
    assert reader.load()["heading"] == "WELCOME.TXT"

def test_desk_that_has_nothing_or_does_not_answer_is_said(museum, reader):
    wanted = {429: "You ask too often. Wait a little, and try again.", 503: "The desk cannot answer now. Try again.",
              502: "The desk is closed at the moment. Try again later."}
    for status, words in wanted.items():
        reader.door.before = lambda method, path: refused_by_nginx(status, "No")
        shown = reader.load()
        assert (shown["refusal"], shown["heading"]) == ([words], "The list of disks did not come"), status
    reader.door.before = lambda method, path: refused_by_nginx(429, "No") if path.endswith("1004/files/1") else None
    assert reader.push("Try again")["disks"] == OPEN and reader.go("1004")
    untold = "Whether other files are closed the desk did not tell. Turn to the museum's staff about this disk."
    assert reader.wait(lambda state: reader.texts(".callout")[1:] == [untold], untold) and reader.go("1004/0")
    wait_for("the refusal", lambda: [path for _, path, _ in reader.door.visits if path.endswith("1004/files/1")])
    reader.door.before = lambda method, path: None
    assert reader.read()["refusal"][2:] == [] and reader.go("1004") and reader.go("1004/0")
    reader.wait(lambda state: state["refusal"][2:] == ["1 other file of this disk"], "what the desk tells now")
    museum.rules["R7"][9] = museums.rule(9, "deny", ["public"])
    others = lambda state: "R7.9" in state["refusal"][1] and state["refusal"][2:] == ["1 other file of this disk"]
    assert reader.go("1004/0") and reader.wait(others, "what the desk tells now, not minutes ago")
    museum.images.clear()
    assert reader.go("") and reader.load() and reader.text("#view") == "There is no disk of which you may see a file."

def test_key_that_is_forgotten_leaves_nothing_that_was_asked_with_it_in_what_is_said_of_closed_files(reader):
    """The list of the public comes two seconds late: till then the search of the staff could ask of its disks."""
    is_forgotten = threading.Event()
    after = {"/catalogue": lambda: is_forgotten.set() or time.sleep(2), "/images/1001/files/2": is_forgotten.wait}
    assert reader.give(STAFF)["disks"] == ALL
    reader.door.before = lambda method, path: [after.get(path, str)()] and None
    assert reader.find("disk")["disks"] == ALL and reader.click("#caller") and reader.push("Forget it")["disks"] == OPEN
    closed = ["1 more file is closed to the public, name and all: takedown 1 of disk 1003 (T1003.1)."]
    reader.wait(lambda state: reader.texts("p.closed > a") == closed, "what is closed to the public")

def test_key_has_a_list_of_files_of_its_own_and_is_left_nowhere_and_without_an_unknown_one_a_reader_goes_on(reader):
    assert reader.find("welcome")["disks"] == ["Disk 1001"]
    assert reader.give(STAFF)["disks"] == ["Disk 1001", "Disk 1004"] and STAFF not in reader.script(LEFT)
    assert reader.script("return [document.cookie, localStorage.length, sessionStorage.length]") == ["", 0, 0]
    shown = reader.give(NOBODY)
    assert shown["refusal"][1:] == ["Refusal: unknown-key", "Rule: K0, the key is unknown"]
    assert (shown["heading"], shown["caller"]) == ("The desk does not know this key", "This key is unknown")
    assert reader.push("Type it again") and reader.focused() == "Your key, from the museum's staff"
    shown = reader.push("Go on without a key")
    assert (shown["disks"], shown["caller"]) == (["Disk 1001"], AS_PUBLIC)
    assert reader.give(STAFF)["caller"] == BY_KEY and reader.load()["caller"] == AS_PUBLIC
