"""One disk on one page: what it is, who gets what by which rules, who put these; takedowns of ticked files."""

import pytest
from staff_helpers import CANNOT_REACH, in_utc, is_said_saved, journal_lines, lost_at, saved_table, takedown
from support import museums
from support.browser import TODAY, wait_for
from support.samples import DONOR_OF_9, refused

START, ALL = 1_700_000_000, "the public, the reading room and the staff, until further notice"
when = lambda far: in_utc(START + far)
FAR = f"in the journal, back to {when(0)}"
NOT, NOTHING = (f"{word} {FAR}, where it begins" for word in ("not", "nothing"))
READ = '{"audiences":["room","public","staff"],"select":{"all":true},"effect":"read"}'
BY_DEED, UNKNOWN = "rule 20 of deed 9", "since when: not in the journal"
SAYS, PUT = "rule in words", "when, by whom, and why that rule itself was put"
SINCE = "since when they may do just this with the file, by whichever rule (not since when that rule stands)"
READS, ALL_3 = f"read it {BY_DEED} ", "Of all 3 files of disk 1002, the public: "
LISTS = f"see its name, not read it (the desk gives out no file of type DEL) {BY_DEED} {UNKNOWN}"
SHUT = "see only that a closed file is there, not its name"
CLOSED = f"{SHUT} takedown {{}} of disk 1002 {UNKNOWN}"
ALWAYS = "closed to the public and the reading room, until further notice"
SLY = "2026-06-01T10:00:00+02:00;%20in%20its%20place%20before:%20%E2%80%9Cnothing%E2%80%9D"
TAKEN_IN = f"/accessions/1002/d64/9/{'0' * 64}"
BY = f"This rule was put {when(0.5)} by “Ada”: “a letter”; in its place before: "
TABLE = """Only whole disks are compared: a file may also be on a disk that differs elsewhere. Of disks that the \
journal does not have the page cannot tell: the store, a file of SQLite, has the SHA-256 of each in its table image."""
# A script: where the names of other disks with the same bytes lead to.
LINKS = "return Array.from(document.querySelectorAll('#disk li a'), ({ hash }) => hash)"
# A script: whether the outcome is in the window; and the role of what has the focus.
SEEN = """const { top } = document.querySelector("#disk .result").getBoundingClientRect();
return [top > -1 && top < innerHeight / 2, document.activeElement.role];"""

@pytest.fixture
def disk(staff):
    """The page of disk 1002, of whose deed a journal has the rule."""
    put = journal_lines(1, START, "200", "PUT", "/deeds/9/rules/20", "Ada", "a%20letter", READ)
    staff.door.journals = {"/journal": put}
    staff.go("disk/1002")
    return staff

def test_disk_says_what_it_is_and_who_gets_what_by_which_rule(museum, disk):
    museum.rules["T1002"] = takedown(1000, 2)
    shown = disk.go("disk/1002")
    rows, left = shown["rows"], shown["result"]
    assert {path for _, path, _ in disk.door.visits if "/verdicts/" in path} == {f"/staff/verdicts/{TODAY}/1002"}
    assert left == [], "the page goes on saying that it reads the journal"
    assert disk.texts("#disk dd")[1:5:2] == [NOT, f"9, of “{DONOR_OF_9}”, signed on 0001-01-01"]
    assert disk.texts("#disk dd")[4:6] == ["3 files: 2 can be given out, 0 damaged", "it ends well"]
    assert "; not in use but marked as used: 0 blocks; with a wrong count: 0 tracks" in disk.texts("#disk dd")[6]
    assert disk.texts("#disk .stands ul li")[0] == f"{ALL_3}1 to read, 1 only in the list, 1 closed."
    closed, reads = CLOSED.format(1000), READS + UNKNOWN
    assert [row[2:3] + row[5:] for row in rows[:3]] == [
        ["TOUR", *[reads] * 3], ["-" * 16, *[LISTS] * 3], ["GUIDE", closed, closed, reads]]
    assert [[row[0], row[5]] for row in rows[3:5]] == [
        ["takedown 1000 of disk 1002 (T1002.1000)", NOT], [f"{BY_DEED} (R9.20)", BY + NOTHING]]
    assert rows[5][1].startswith("Ada") and rows[5][2].startswith("Of its deed: Put rule 20 of deed 9: all")
    heads, *rows = saved_table(disk, f"disk-1002-{TODAY}-asked", "Save who gets what as CSV")
    kind = "kind (cpm8: CP/M, 8 inches; d64: Commodore 1541; d64e: Commodore 1541 with error bytes)"
    assert {kind, "user (the user of CP/M, 0 to 15, whose file it is)"} < {*heads}, "words that nobody explains"
    keys = "day", "audience", "they may", "rule", SAYS, PUT, SINCE, "name as shown", "size"
    said, file = f"takedown 1000 of disk 1002: the file at slot 2 (GUIDE) {ALWAYS}", [UNKNOWN, "GUIDE", "532"]
    names = [head.partition(" (")[0] if head.startswith(PUT) else head.partition(". ")[0] for head in heads]
    assert [[dict(zip(names, one))[key] for key in keys] for one in rows[6:9:2]] == [
        [TODAY, "the public", SHUT, "T1002.1000", said, NOT, *file],
        [TODAY, "the staff", "read it", "R9.20", f"{BY_DEED}: all files readable for {ALL}", BY + NOTHING, *file]]
    whole, holds = heads[-1], "A rule holds only on its days, if it has any, and never before it was put."
    assert {row[-1] for row in rows} == {""} and max(len(row[1]) for row in rows) < 300, "the same in every row"
    assert "This table has all files of the disk: 3." in rows[0][1], "whether the disk or the table has them"
    assert "A name behind a slot is that of the disk as it was when the desk was asked." in whole
    assert "The page looked for lines of the journal in each month back to 2013-12. " in whole, "how far it looked"
    assert "as the page reckons from the changes that it read and the days" in heads[-3], "as if it had read all"
    assert holds in heads[-2] and holds in disk.text("#disk .stands"), "as if a takedown of a day to come closed now"
    assert whole.startswith(f"Disk 1002, taken in: {NOT}; its SHA-256, as the journal has it: not known. The page")
    far = f"is not known: the journal, back to {when(0)}, does not have the SHA-256. {TABLE}"
    assert f"Which other disks have the bytes of disk 1002 {far}" in whole, "as if there were none"
    assert {row[-2] for row in rows} == {"until further notice"}
    disk.door.journals["/journal"] += journal_lines(2, START - 9, "200", "PUT", TAKEN_IN)
    museum.rules["T1002"] = {5: museums.rule(5, "list", ["staff"], {"slot": 2}, "2026-07-01"),
                             9: museums.rule(9, "deny", ["public", "room"], {"slot": 2}, None, "2027-01-01")}
    assert disk.go("disk/1002") and not is_said_saved(disk), "a file speaks for what is shown since"
    heads, *rows = saved_table(disk, f"disk-1002-{TODAY}-asked", "Save who gets what as CSV")
    ends = [f"until {day}, then they may {may}"
            for day, may in [("2027-01-01", "read it")] * 2 + [("2026-07-01", "see its name, not read it")]]
    assert [row[-2] for row in rows[3:]] == ["until further notice"] * 3 + ends, "a day on which it ends is not said"
    cells = [disk.read()["rows"][row][7] for row in (1, 2)]
    assert [cell.endswith(f"; {ends[2]}") for cell in cells] == [False, True], "not on the page"
    came = f"Disk 1002, taken in: This disk was put {when(-8.5)} by nobody who is named: no reason was given; in"
    assert heads[-1].startswith(came) and f"; its SHA-256, as the journal has it: {'0' * 64}. The page" in heads[-1]
    assert f"under deed 9 of “{DONOR_OF_9}”, signed" in rows[0][1], "a donor's name reads as words of the page"

def test_rule_says_what_was_there_before_it_or_how_far_the_journal_is_read_or_that_it_is_not(disk):
    disk.door.journals["/journal"] += journal_lines(2, START, "200", "PUT", TAKEN_IN)
    assert disk.load() and disk.begin().go("disk/1002")["rows"][3][5] == BY + NOTHING
    disk.door.journals["/journal"] += journal_lines(3, START - 9, "200", "DELETE", "/deeds/9/rules/20", "Bob", SLY)
    bob = "“Bob”: “2026-06-01T10:00:00+02:00; in its place before: “nothing””"
    by = f"{BY}Drop rule 20 of deed 9, {when(-8.5)} by {bob}"
    assert disk.go("disk/1002")["rows"][3][5] == by, "what somebody typed reads as words of the page"
    _, *rows = saved_table(disk, f"disk-1002-{TODAY}-asked", "Save who gets what as CSV")
    assert by in rows[0], "what somebody typed reads otherwise in what is saved"
    for reply in (b"", refused(500, "X")):
        disk.door.before = lambda _, path: reply if path == "/journal" else None
        unread = [row[5] for row in disk.go("disk/1002")["rows"]][:4:3]
        assert unread == [f"{READS}since when: the journal cannot be read", "the journal cannot be read"]
        assert "Not shown: the journal cannot be read." in disk.texts("#disk .stands p"), "as if nothing was changed"

def test_file_says_since_when_the_journal_has_no_change_that_can_concern_it_and_its_readers(museum, disk):
    """Cases: what is done; since when the first and last file are so for the public, and the last for the staff."""
    every = READ.replace(',"staff"', "").replace('"read"', '"deny"')
    one = every.replace('"all":true', '"slot":2')
    by = lambda far, what, who="nobody who is named": f"{when(far + 0.5)} by {who}: {what}"
    ranked = lambda word, rank, far: by(far, f"{word} takedown {rank} of disk 1002")
    at, of_deed, ended = "/images/1002/rules/", "/deeds/9/rules/", "2026-06-01 (takedown 1 of disk 1002 ended)"
    ruled, drop6 = by(0, f"Put {BY_DEED}", "“Ada”"), ranked("Drop", 6, 60)
    five, maybe = by(50, "Put rule 5 of deed 9"), by(90, "Put rule 10 of deed 9 (nobody knows whether the desk did it)")
    seven, again = ranked("Put", 7, 10), f"{ranked('Put', 5, 30)} in the place of another"
    uncertain = f"{ranked('Put', 1, 99)}; what has come since is the same for them", ranked("Put", 1, 99)
    over = READ.replace('"read"', '"deny","until":"2023-01-01"')
    cases = [(-60, "200", TAKEN_IN, "{}", None), (20, "200", f"{at}5", every, None),
             (10, "200", f"{at}7", one, (ranked("Put", 5, 20), seven, ruled)),
             (30, "200", f"{at}5", one, (again, seven, ruled)), (30.2, "502", f"{at}5", "", None),
             (30.3, "200", f"{at}5", "", (again, seven, ruled)),
             (50, "200", f"{of_deed}5", every.replace('"public",', ""), (five, seven, five)),
             (60, "200", f"{at}6", "", None), (70, "200", f"{of_deed}30", "{}", None),
             (80, "404", f"{of_deed}10", "{}", [drop6] * 3), (90, "502", f"{of_deed}10", "{}", (maybe, drop6, maybe)),
             (99, "200", f"{at}1", "{}", (ended, *uncertain)), (110, "200", f"{at}2", over, (ended, *uncertain)),
             (120, "200", f"{of_deed}20", "", None)]
    museum.rules["T1002"] = takedown(7, 2)
    stands = {f"{at}1": museums.rule(1, "deny", ["public"], until=ended[:10]),
              f"{at}2": museums.rule(2, "deny", ["public", "room", "staff"], until="2023-01-01")}
    for number, (far, status, path, body, due) in enumerate(cases, 2):
        museum.rules["T1002"] |= {rule["rank"]: rule for rule in [stands.get(path)] if rule}
        came = status, "PUT" if body else "DELETE", path
        disk.door.journals["/journal"] += journal_lines(number, START + far, *came, body=body)
        rows = disk.go("disk/1002")["rows"] if due else []
        cells = [rows[row][cell].partition("in the journal since ")[2] for row, cell in ((0, 5), (2, 5), (2, 7)) if due]
        assert cells == [*(due or [])], path
    assert disk.go("disk/1002")["rows"][0][5] == READS + UNKNOWN
    museum.rules["R9"], gone = {}, by(120, f"Drop {BY_DEED}")
    assert disk.go("disk/1002")["rows"][0][7].endswith(f" no rule matches in the journal since {gone}")
    said = disk.text("#disk .stands")
    assert all(words in said for words in ("so far back it has nothing", "A day of a rule begins at midnight by"))

def test_time_goes_back_past_what_was_replaced_where_the_journal_says_that_it_was_the_same_for_them(disk):
    """Cases: when the disk came in; what rule 20 said otherwise a month before; is it the same for public, staff."""
    put, month, of_deed, nobody = disk.door.journals["/journal"], -4e6, "/deeds/9/rules/20", "nobody who is named"
    line = lambda far, path, body="": journal_lines(far, START + far, "200", "PUT", path, body=body)
    ruled, taken = f"{when(0.5)} by “Ada”: Put {BY_DEED} in the place of another", f"{when(-8.5)} by {nobody}: taken in"
    back = f"{when(month + 0.5)} by {nobody}: Put {BY_DEED}; what has come since is the same for them"
    some, every = ('"public",', ""), '"all":true'
    cases = [(-9, *some, 0, 1), (-9, every, '"slot":0', 1, 1), (-9, every, '"prefix":"T"', 1, 1),
             (-9, every, '"prefix":"G"', 0, 0), (-9, every, '"type":"SEQ"', 0, 0), (-9, "read", "list", 0, 0),
             (-9, '"read"', '"read","until":"2099-01-01"', 1, 1), (-9, '"read"', '"read","until":"2023-11-14"', 0, 0),
             (-9, '"read"', '"read","from":"2023-11-01"', 1, 1), (month - 9, *some, 0, 1)]
    # (the page asks once for a month without a file, and for what is older than all that it has read)
    disk.door.journals["/journal-2023-09"] = line(month - 99, "/deeds/8")
    assert disk.load() and disk.begin()
    for far, this, other, *is_same in cases:
        came, is_late, old = line(far, TAKEN_IN), far == -9, line(month, of_deed, READ.replace(this, other))
        disk.door.journals = {"/journal": came * is_late + put, "/journal-2023-09": came * (not is_late) + old}
        cells = [disk.go("disk/1002")["rows"][0][cell].partition("in the journal since ")[2] for cell in (5, 7)]
        assert cells == [(ruled, taken if is_late else back)[one] for one in is_same], other
        named = "slot" not in other or ": the file at slot 0 (TOUR) readable for" in disk.read()["rows"][3][5]
        assert named, "a file without its name"
    gone = journal_lines(2, START - 1, "502", "DELETE", of_deed)
    disk.door.journals["/journal"] = line(-5, of_deed, READ) + gone + put
    assert f"{when(0.5)} by “Ada”: Put" in disk.go("disk/1002")["rows"][0][5], "what may have been dropped stood"
    later = line(-20, of_deed, READ) + line(-9, TAKEN_IN) + line(5, "/deeds/9/rules/30", READ.replace("read", "deny"))
    disk.door.journals = {"/journal": later, "/journal-2023-09": line(month, "/deeds/8")}
    assert disk.load() and disk.begin() and disk.door.visits.clear() is None
    assert disk.go("disk/1002")["rows"][0][5].endswith(taken)
    asked = [path for _, path, _ in disk.door.visits if "journal" in path]
    assert asked == ["/journal", "/journal-2023-09"], "another disk with the same bytes may be in older lines"
    songs = line(0, "/deeds/9/rules/15", READ.replace(every, '"prefix":"SONG"').replace("read", "list"))
    came = [line(-11, "/deeds/9"), line(-10, of_deed, READ), line(-9, TAKEN_IN), songs]
    for these, since in ((came, taken), (came[1:], f"{when(0.5)} by {nobody}: Put rule 15 of deed 9")):
        disk.door.journals = {"/journal": b"".join(these)}
        assert since in disk.go("disk/1002")["rows"][0][5], "a new rule of a new deed replaces none"

def test_files_ticked_by_their_shown_names_are_taken_down_and_what_stands_after_a_failure_is_said(museum, disk):
    museums.put_files(museum, 1002, "d64", 9, [("%CCETTER", "SEQ", b"A"), ("-", "DEL", None), ("GUIDE", "SEQ", b"A")])
    assert "Letter" in str(disk.go("disk/1002")["rows"]), "no file can be closed by the name that is shown"
    rules = [("Letter", "10", "0"), ("GUIDE", "20", "2")]
    place = "Rank {0} gives its place in the order: number {1} of 2 takedowns of disk 1002."
    places = place.format(10, 1), place.format(20, 2)
    notes = [f"Takedown {rank}: the file at slot {slot} ({name}) {ALWAYS}. {at}"
             for (name, rank, slot), at in zip(rules, places)]
    for slot in (0, 2):
        disk.set(f"#disk [name=slots][value='{slot}']", True)
    asked = disk.push("Take down what is ticked")["sure"][:3]
    due = "Take down 2 files of disk 1002 for the public{}?"
    assert asked == [due.format(" and the reading room"), *notes], "files are not named as they are shown"
    left, wait = [], lambda: wait_for("a question that is left", lambda: left)
    disk.door.before = lambda _, path: wait() and None if path.endswith("/survey") else None
    disk.push("Save what stands now, first")  # the question is left meanwhile: there is one table below, not two
    left += [disk.answer(False), disk.set("#ticked [value=room]", False)]
    assert disk.push("Take down what is ticked")["sure"][0] == due.format("") and disk.answer(False)
    assert disk.set("#ticked [value=room]", True) or disk.push("Take down what is ticked")
    museum.rules["T1002"] = takedown(7, 2)
    heads, *saved = saved_table(disk, f"disk-1002-before-an-answer-{TODAY}-asked", "Save what stands now, first")
    assert [str(saved).count("'read it'"), heads[-1].count("taken in: ")] == [4, 1], "what stood at the opening"
    assert f"It is what stood before an answer to: “{due.format(' and the reading room')}”" in saved[0][1]
    del museum.rules["T1002"][7]
    disk.door.before = lost_at(2)
    stand = "These stand: Letter (takedown 10). These do not: GUIDE (takedown 20)."
    assert disk.answer(True)["result"][:2] == ["1 takedown put, 0 failed, 1 in doubt.", stand]
    assert disk.script(SEEN) == [True, "status"], "the outcome is out of sight"
    with disk.phone():
        shown = disk.push("Go on with the rest")
        assert (shown["result"][0], *disk.script(SEEN)) == ("2 takedowns put, 0 failed.", True, "status")
    assert [row[5] for row in shown["rows"][:3]] == [CLOSED.format(10), LISTS, CLOSED.format(20)]
    says = f"What the desk's verdicts on {TODAY} say of the files that are meant: 2 files closed to the public"
    asked = f"{says} and closed to the reading room. The desk was asked on {TODAY} at 12:"
    assert [one for one in shown["result"] if one.startswith(asked) and " UTC. " in one], "nobody knows when"
    assert "Save the report" not in str(disk.go("disk/1003")["result"]) and disk.go("keys") and disk.go("disk/1002")
    due = [["1002", slot, name, rank, f"the file at slot {slot} {ALWAYS}", "done"] for name, rank, slot in rules]
    heads, *rows = saved_table(disk, "disk-1002-report-of", "Save the report")
    assert [row[2:8] for row in rows] == due and "stands since. This work was begun" in rows[0][1]
    assert "desk-visits.log on the museum's machine says for 14" in rows[0][1], "who fetched them before is not said"
    clock = f"by the desk's clock, whose zone it does not tell: on {TODAY} at 12:"
    assert f"asking: {clock}" in heads[1] and f" UTC it was {TODAY} there). " in heads[1], "in nobody's zone"
    words = "slot (the file's place on its disk, counted from 0)", "rank (a place in the order of rules, lowest first)"
    assert (heads[3], heads[5]) == words and f"if you need it. {asked}" in rows[0][1]
    assert "(an apostrophe at the beginning of a cell, before =, +, - or @, is not part of its text; mom" in heads[1]

def test_other_disks_with_the_same_bytes_are_named_and_who_may_read_how_much_of_them(museum, disk):
    """By the journal: 1005 has them, 1001 has others since, 1006 was refused, of 1004 nobody knows, 77 is gone."""
    same, other = "A" * 64, "b" * 64
    cases = [("200", 1001, same), ("200", 1001, other), ("409", 1006, same), ("502", 1004, same.lower()),
             ("200", 77, same), ("200", 1005, same), ("200", 1002, same.lower())]
    disk.door.journals["/journal"] = b"".join(
        journal_lines(at, START + at, status, "PUT", f"/accessions/{number}/d64/7/{digest}")
        for at, (status, number, digest) in enumerate(cases))
    may = "nobody may read a file there that they may not read on disk 1002; of {} in all the public may read 0 (from "
    may += "2030-01-01: 2), the reading room 0 (from 2030-01-01: 2) and the staff {}"
    due = ["disk 77: the desk has no file of it", f"disk 1004, nobody knows whether the desk did it: {may}",
           f"disk 1005: {may}".format("3 files", 2)]
    disk.go("disk/1002")
    items = [one for one in disk.texts("#disk li") if one.startswith("disk ")]
    assert [items[0], items[1].partition(" of ")[0], items[2]] == [due[0], due[1].partition(" of ")[0], due[2]]
    ways = [f"#/disk/{number}" for number in (77, 1004, 1002, 1005, 1002)]
    assert disk.script(LINKS) == ways, "no way to the other disks"
    also = f"As the journal, back to {when(0)}, has it, the bytes of disk 1002 are also on 3 other disks. On {TODAY}:"
    [heads, *_] = saved_table(disk, f"disk-1002-{TODAY}-asked", "Save who gets what as CSV")
    assert f"{also} {'; '.join(items)}. The desk was asked on {TODAY} at 12:" in heads[-1]
    assert f"stood when it was asked. A takedown of one disk closes nothing on another. {TABLE}" in heads[-1]
    museum.rules["R7"].pop(10)
    disk.set("#disk [name=slots][value='0']", True)
    before = disk.push("Take down what is ticked")["sure"]
    _, *rows = saved_table(disk, "rehearsal-asked", "Save this rehearsal as CSV")
    assert before[1:] == [row[3] for row in rows], "a saved rehearsal lacks the other disks"
    ticked = disk.answer(True)["result"]
    typed = disk.go("takedowns") and disk.take_down("1002", "", "2", "public") and disk.answer(True)["result"]
    many = disk.take_down("1002, 1003", "", "2", "public") and disk.answer(True)["result"]
    assert due[2] in before and "A takedown of one disk closes nothing on another." in str(before), "not asked with it"
    one = "{} may read {} there, and not on disk 1002; ".format
    both = one("the public and the reading room", "TOUR")
    room = one("the public", "TOUR and GUIDE") + one("the reading room", "TOUR")
    for words, only in ((ticked, both), (typed, room), (many, room)):
        reads = f": {only}of 3 files in all the public may read 2, the reading room 2 and"
        assert "; disk 1005" in str(words) and reads in str(words), "whether what was closed may be read there"
    assert "Which other disks have the bytes of disk 1003 is not known: the journal" in str(many)
    assert "disk 1005, with the bytes of disk 1002: the public may read" in str(many), "as which of them"

def test_coming_back_shows_the_disk_that_was_looked_at_asked_anew(museum, disk):
    museum.rules["T1002"] = takedown(1000, 2)
    assert disk.go("keys") and disk.named("link", "One disk").click() is None
    back = disk.read(lambda state: state["heading"] == "Disk 1002" and len(state["rows"]) > 3)
    assert (back["here"], back["rows"][0][2], back["result"]) == ("#/disk/1002", "TOUR", [])
    assert back["rows"][3][0] == "takedown 1000 of disk 1002 (T1002.1000)", "what stood when somebody left"
    assert disk.one("#disk [name=accession]").get_property("value") == "1002"
    assert disk.go("disk/99")["refusal"] and disk.go("disk/1003")["heading"] == "Disk 1003", "no other disk is shown"

def test_each_number_of_a_disk_leads_to_its_page(museum, disk):
    museum.rules["T1002"] = takedown(1000, 2)
    disk.door.journals = {"/journal": journal_lines(1, START, "200", "PUT", "/images/1002/rules/1000", "Ada")}
    for place, buttons in (("checks", ["Check disk 1002"]), ("takedowns", []), ("eyes", ["Look"]), ("journal", [])):
        assert "#/disk/1002" in [disk.go(place), *map(disk.push, buttons)][-1]["links"], f"{place}: no way to the disk"
