"""The journal on the staff's page: who changed what, when and why, how it ended; one that is long or is not there."""

import threading

from staff_helpers import CANNOT_REACH, in_utc, is_said_saved, journal_lines, moment, saved_table
from support.browser import LIMIT, TODAY
from support.museums import HARMFUL
from support.samples import digest, refused
from support.stand_in import refused_by_nginx

START, PIECE = 1_800_000_000, 4 << 20
KEY, HARM = digest(b"room 3"), HARMFUL[2]
RULE = '{"audiences":["room","public"],"select":{"slot":2},"effect":"deny","until":"2030-01-01"}'
HIDDEN = "the file at slot 2 closed to the public and the reading room, until 2030-01-01, not that day"
ELSEWHERE = HIDDEN.replace(" closed", " (that of disk 99, if there is one) closed")
MAY_REPLACE = "they may say that a change replaced something."
UNKNOWN, NOT_THERE = "nobody knows whether the desk did it", "refused: that cannot be done there"
DEED = "/deeds/7", "Ada%20M%C3%BCller", "a%20letter%20of%203%20May", '{"donor":"A. <b>C</b>","signed":"2019-05-04"}'
CHECKED = "done: what it found is not in the journal; Checks has what the latest check of each disk found"
NO_DISK = "refused: there was no such disk, deed or address"
BAD_BODY = "refused: the desk could not read it, or a value was beyond its limits"
# Changes from the oldest on: the status, what came, and the cells of who, what, outcome and reason.
CHANGES = [("200", ("PUT", *DEED), "Ada Müller|Put deed 7: “A. <b>C</b>”, signed on 2019-05-04|done|a letter of 3 May"),
    ("200", ("PUT", "/deeds/7/rules/20", "", "", RULE), f"|Put rule 20 of deed 7: {HIDDEN}|done|"),
    ("200", ("DELETE", "/deeds/7/rules/20?x=y", "bob"), f"bob|Drop rule 20 of deed 7, which said: {HIDDEN}|done|"),
    ("200", ("PUT", f"/accessions/1002/d64/9/{KEY}", "'=1+1", "100%"),
     f"'=1+1|Put disk 1002, Commodore 1541, under deed 9, SHA-256 {KEY}|done|100%"),
    ("404", ("PUT", "/images/99/rules/9", "bob", "", RULE), f"bob|Put takedown 9 of disk 99: {ELSEWHERE}|{NO_DISK}|"),
    ("200", ("POST", "/images/1002/check"), f"|Check disk 1002|{CHECKED}|"),
    ("502", ("PUT", f"/badges/{KEY}", "bob", "", '{"audience":"room"}'),
     f"bob|Put a key of the reading room, SHA-256 {KEY}|{UNKNOWN} (502)|"),
    (None, ("DELETE", f"/badges/{KEY}", "bob"), f"bob|Drop the key with SHA-256 {KEY}|{UNKNOWN}|"),
    ("400", ("PUT", "/images/1002/rules/1", HARM, "", "7"), f"{HARM}|Put takedown 1 of disk 1002|{BAD_BODY}|"),
    ("405", ("DELETE", f"/deeds/7/{'x' * 400}"), f"|DELETE /deeds/7/{'x' * 291} ..|{NOT_THERE}|"),
    ("408", ("PUT", "/deeds/8", "", "", "{"), f"|Put deed 8|{UNKNOWN} (408)|")]
LINES = [journal_lines(number, START + 60 * number, status, *came) for number, (status, came, _) in enumerate(CHANGES)]
# All changes in a file whose last line was cut off.
JOURNAL = b"".join(LINES) + b'{"id":"torn","moment":"2027-01-15T09:0'

time_of = lambda number: moment(START + 60 * number + (0.5 if CHANGES[number][0] else 0))[:19].replace("T", " ")

def shown_words(which, shown):
    """What the page says of the changes that it shows; at which second it read them is as it says."""
    return f"Shown: {which}, the newest first. The journal was read on {TODAY} at 12:{shown['stands'][1][-10:-5]} UTC."

def rows_of(*numbers):
    """The rows of some changes, from the newest on."""
    return [[f"{time_of(number)} UTC", *CHANGES[number][2].split("|")] for number in sorted(numbers, reverse=True)]

def read(staff, journal, older=None, place="journal"):
    """Opens the journal with these files: what is written now, and what was rotated away."""
    staff.door.journals = {"/journal": journal, **(older or {})}
    staff.door.visits.clear()
    return staff.go(place)

def asked(staff):
    """What was asked of the journal since the last time: each path, and the bytes of it that are wished."""
    came, staff.door.visits = staff.door.visits, []
    return [(path, fields.get(b"range", b"").decode()) for _, path, fields in came]

def test_changes_stand_with_who_what_outcome_and_reason(staff):
    shown = read(staff, JOURNAL)
    summary = f"11 changes read, from {time_of(0)} UTC to {time_of(10)} UTC; older lines, if any, were not read: "
    summary += f"{MAY_REPLACE} Of 3 {UNKNOWN}, or it has not ended yet. 1 line cannot be read."
    assert shown["stands"] == [summary, shown_words("10 changes of these, without checks of disks", shown)]
    assert (shown["result"], shown["rows"]) == (["Read: 11 changes."], rows_of(0, 1, 2, 3, 4, 6, 7, 8, 9, 10))
    assert (staff.harmed(), staff.one("#who").is_displayed()) == ([None, 0], False)
    assert shown["links"].count("#/disk/99") == 2, "no way to the names of its files"
    fields = [(path, [name for name in fields if b"desk" in name]) for _, path, fields in staff.door.visits]
    assert fields == [("/journal", [b"desk-key"])]
    words = "; no month back to 2017-0"
    assert all(words in staff.push(one)["stands"][0] for one in ("Read what is older", "Read it anew"))

def test_what_is_looked_for_is_found_and_saved_without_a_formula(staff):
    read(staff, JOURNAL)
    cases = [
        ({"deed": "9"}, [3]), ({"words": "BOB"}, [2, 4, 6, 7]), ({"words": "müller"}, [0]), ({"words": "3 may"}, [0]),
        ({"day": "2020-02-29"}, []), ({"deed": "7", "words": "bob", "day": moment(START)[:10]}, [2]),
        ({"accession": "99"}, [4]), ({"accession": "1002"}, [3, 8]), ({"accession": "1002", "checks": True}, [3, 5, 8])]
    for typed, found in cases:
        staff.fill("journal", **{"accession": "", "deed": "", "words": "", "day": "", "checks": False, **typed})
        shown = staff.read()
        assert (shown["rows"], int(shown["stands"][1].split()[1])) == (rows_of(*found), len(found)), typed
        assert f"“{typed.get('words', 'x')}”" in shown["stands"][1] or "words" not in typed, "not as it was typed"
    heads, *records = saved_table(staff, f"journal-of-disk-1002-3-of-11-changes-back-to-{moment(START)[:10]}-asked")
    number, others = "number (1 is the oldest of those here)", "name reason of what outcome method path status body"
    assert heads[2:] == [number, "moment", *others.split()] and ", the newest first." in records[0][1]
    assert [row[2] for row in records] == ["3", "2", "1"], "lines of one second lose their order"
    what, path = rows_of(3)[0][2], CHANGES[3][1][1]
    assert (len(records), records[2][4:]) == (3, ["''=1+1", "100%", "disk 1002", what, "done", "PUT", path, "200", ""])
    due = f" UTC: 11 changes read, from {time_of(0)} UTC to {time_of(10)} UTC; older lines, if any"
    assert f"The journal, read at {TODAY} 12:{records[0][1][35:40]}{due}" in records[0][1], "saved without its hour"
    staff.fill("journal", accession="", checks=False).read()
    assert not is_said_saved(staff), "a file speaks for what is shown since"
    _, *records = saved_table(staff, f"journal-10-of-11-changes-back-to-{moment(START)[:10]}-asked")
    assert ELSEWHERE in str(records), "a file that may not be there is told as one that is"

def test_no_change_of_an_earlier_reading_is_shown_while_the_journal_is_read_anew(staff):
    is_seen, _ = threading.Event(), read(staff, JOURNAL)
    staff.door.before = lambda method, path: None if path != "/journal" or is_seen.wait(LIMIT) else b""
    staff.named("button", "Read it anew").click()
    staff.fill("journal", words="bob").wait(lambda state: "".join(state["stands"]).startswith("0 changes read; older"))
    is_seen.set()
    assert staff.read()["rows"] == rows_of(2, 4, 6, 7)

def test_journal_of_a_disk_has_the_changes_of_its_deed_and_the_names_of_files(staff):
    came = [("/deeds/7/rules/20", RULE), ("/deeds/9/rules/20", RULE), ("/images/1002/rules/1", RULE)]
    lines = [journal_lines(at, START + at, "200", "PUT", path, "Ada", "", body) for at, (path, body) in enumerate(came)]
    lines.append(journal_lines(3, START + 3, "200", "DELETE", "/images/1002/rules/1"))
    here = b"".join(lines).replace(b"+00:00", b"+02:00")
    shown, named = read(staff, here, place="journal/1002"), HIDDEN.replace(" closed", " (GUIDE) closed")
    words = [f"Put takedown 1 of disk 1002: {named}", f"Put rule 20 of deed 9: {named}"]
    due = [f"Drop takedown 1 of disk 1002, which said: {named}", words[0], f"Of its deed: {words[1]}"]
    assert [row[2] for row in shown["rows"]] == due, "a deed's rules stand elsewhere"
    _, *rows = saved_table(staff, f"journal-of-disk-1002-3-of-4-changes-back-to-{moment(START)[:10]}-asked")
    assert [row[6:8] for row in rows[1:]] == [["disk 1002", words[0]], ["deed 9, the deed of disk 1002", words[1]]]
    holds = "Here: 3 changes of these, of disk 1002 and of its deed 9, which decides about it too, without checks"
    assert holds in rows[0][1], "a saved journal says not which lines it has"
    names = " of disks, with the names of files as disk 1002 had them when the page asked for it, the newest first."
    assert names in rows[0][1] and names in shown["stands"][1], "a name of today is told as one of that time"
    day, hour = moment(START - 7200)[:19].split("T")
    assert f"{day} {hour}" in rows[0][1] and rows[2][3][:16] == f"{day} {hour[:5]}" and rows[2][3].endswith(" UTC")
    assert "+0" not in f"{rows} {shown['rows']}", "two zones in one file, or one view"
    which = staff.fill("journal", day=moment(START)[:10]).read()["stands"][1]
    assert f"of {moment(START)[:10]} in UTC, without" in which

def many(count, first=0, begun=START):
    """The changes of so many deeds, each with two lines."""
    came = [("PUT", f"/deeds/{1 + number % 900}", "ada", "x" * 500, "{}") for number in range(count)]
    return b"".join(journal_lines(first + number, begun + number, "200", *one) for number, one in enumerate(came))

def test_long_journal_is_read_in_pieces_and_then_month_by_month(staff):
    count, data = 7000, many(7000)
    older = {"/journal-2026-09": many(40, 1e5, START - 9e6), "/journal-2025-12": many(50, 2e5, START - 3e7)}
    read(staff, data, older)
    assert asked(staff) == [("/journal", f"bytes=-{PIECE}")]
    for until in range(len(data) - PIECE, 0, -PIECE):
        shown = staff.push("Read what is older")
        assert asked(staff) == [("/journal", f"bytes={max(0, until - PIECE)}-{until - 1}")]
    back = f"from {time_of(0)} UTC to {in_utc(START + 6999.5)}; "
    back += f"older lines, if any, were not read: {MAY_REPLACE}"
    which = shown_words("7,000 changes of these, without checks of disks", shown)
    assert shown["stands"] == [f"7,000 changes read, {back}", which]
    months = ["/journal-2027-01", *(f"/journal-{2026 - at // 12}-{12 - at % 12:02}" for at in range(120))]
    for begin, end, more in ((0, 5, 40), (5, 14, 50), (14, 120, 0)):
        shown = staff.push("Read what is older")
        count += more
        assert asked(staff) == [(path, "") for path in months[begin:end]]
        assert shown["result"] == [f"Read: {more} older changes."]
        assert shown["stands"][0].startswith(f"{count:,} changes read, ")
    assert shown["stands"][0].endswith("; no month back to 2017-02 has older lines.")
    assert (staff.one("#journal [name=older]").is_enabled(), shown["focus"]) == (False, "result")

def test_journal_that_has_become_shorter_is_another_one(staff):
    data, words = many(5000), "The journal has begun a new file since you opened it. Read it anew."
    for length in (5 << 20, 0):
        read(staff, data)
        staff.door.journals = {"/journal": data[:length], "/journal-2026-06": LINES[0]}
        assert staff.push("Read what is older")["result"] == [words]
    assert staff.push("Read it anew")["stands"][0].startswith("0 changes read; older lines, if any, were not")
    assert staff.push("Read what is older")["stands"][0].startswith("1 change read, ")

def test_journal_that_cannot_be_read_says_why(staff):
    wanted = [(b"", CANNOT_REACH), (refused(403, "staff-only"), "Only the staff may do this. Use a key of the staff."),
        (refused_by_nginx(404, "X"), "There is no journal here: the machine has no file of it. "),
        (refused_by_nginx(500, "X"), "The machine cannot read its journal. Most likely its group may not: ")]
    for reply, words in wanted:
        staff.door.before = lambda method, path: reply if path == "/journal" else None
        shown = read(staff, JOURNAL)
        assert (shown["result"][0][: len(words)], shown["rows"]) == (words, [])
