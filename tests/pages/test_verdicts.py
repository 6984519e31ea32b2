"""A look through others' eyes on a day, and the timeline: what opens and closes by itself on which day."""

import collections
import csv
import datetime

import pytest
from staff_helpers import is_said_saved, journal_lines, saved_table, takedown
from support import museums, stand_in
from support.browser import TODAY
from support.samples import DONOR_OF_9, refused, told

DAYS = ["2026-06-25", "2026-07-05", "2027-06-15", "2027-06-16"]
OF_ALL = "Of all 14 files of the museum's disks, the public: {} to read, {} only in the list, {} closed."
EPOCH = datetime.date(1970, 1, 1)
AUDIENCES = {"public": "the public", "room": "the reading room", "staff": "the staff"}
EFFECTS = {"read": "read it", "list": "see its name, not read it",
           "deny": "see only that a closed file is there, not its name"}
# Why the desk gives out a file of the museum to nobody, by its type.
UNSERVED = {"DEL": "the desk gives out no file of type DEL",
            "SEQ": "damaged: read-error (the drive could not read a block of it)"}
# A script: where the bars of the timeline are, and what drags the day.
ENDS = "return ['.lane', '[type=range]'].map((at) => document.querySelector(`#timeline ${at}`).getBoundingClientRect())"
# A script: what is drawn next comes two seconds later.
LATE = """const later = setTimeout; let far = 0; performance.now = () => (far += 99);
setTimeout = (go) => { setTimeout = later; delete performance.now; later(go, 2000); };"""
UNSAID = "It does not say who has read or copied a file, nor what stands on other days."
STOOD = "by the rules that stood when the desk was asked"
PAST = f"{STOOD}, not by those that stood then"
NO_JOURNAL = "what stood then is not known: there is no journal"
SINCE = "What has changed since then is not known: there is no journal."

def night(museum):
    """Midnight comes at the desk."""
    museum.day = str(datetime.date.fromisoformat(museum.day) + datetime.timedelta(1))
    return museum

def look(staff, day, audience="public", closed=False, words=""):
    assert staff.go("eyes") and staff.fill("eyes", day=day, audience=audience).push("Look")
    return staff.fill("eyes", closed=closed, words=words).read()

@pytest.mark.parametrize("day", ["2026-06-14", "2030-01-01"])
def test_each_audience_sees_and_counts_what_the_desk_gives_out(museum, staff, day):
    museum.rules["R9"][10] = museums.rule(10, "list", ["public"], {"slot": 0})
    table = museum.show_verdicts(None, day).reply.decode().splitlines()[-14:]
    for audience in AUDIENCES:
        rows, counts = [], collections.Counter()
        for line in csv.DictReader(table, stand_in.VERDICT_COLUMNS):
            is_given = line[audience] != "read" or line["size"] != ""
            effect, whys = (line[audience], []) if is_given else ("list", [UNSERVED[line["type"]]])
            why = "; ".join([*whys, *[PAST, NO_JOURNAL] * (day < TODAY)])
            counts[effect] += 1
            may = EFFECTS[effect] + (why and f" ({why})")
            rows.append([line["accession"], line["slot"], may, line[f"{audience}_rule"]])
        shown = look(staff, day, audience, closed=True)
        said, summary = shown["stands"][0], "{read} to read, {list} only in the list, {deny} closed.".format_map(counts)
        assert said.startswith(f"Of all 14 files of the museum's disks, {AUDIENCES[audience]}: "), "of which files"
        assert f" {counts['read']} " in said, "files that the desk gives out to nobody count as readable"
        assert said.endswith(summary)
        assert [[*(row[at] for at in (0, 2, 5)), row[6].split()[0]] for row in shown["rows"]] == rows
        assert len(look(staff, day, audience)["rows"]) == 14 - counts["deny"]

def test_file_is_found_by_name_disk_or_rule_and_saved_without_formula(museum, staff):
    museums.harmful_disk(museum, 1066, 7)
    for words, count in {"Guide": 2, "1002": 3, "r9.20": 7, "=1+1": 1, "no such": 0, "Disk 1066": 5, "1066": 5}.items():
        shown = look(staff, TODAY, "staff", True) and staff.one("#eyes [name=words]").send_keys(words) or staff.read()
        assert (len(shown["rows"]), int(shown["stands"][1].split()[1])) == (count, count), words
        assert f"“{words}”" in shown["stands"][1], "words that nobody typed"
    night(museum)
    _, *rows = saved_table(staff, f"who-sees-what-staff-of-disk-1066-{TODAY}-5-of-19-files-asked")
    only = "only of disk 1066, which has 5; also what is closed to them. The desk was asked on"
    assert f"5 of 19 files, found by “1066”, {only}" in rows[0][1]
    staff.cdp("Emulation.setEmulatedMedia", media="print")
    seen = staff.one("#eyes form").is_displayed(), only in staff.text("#eyes .stands")
    assert seen == (False, True), "in print a box has a label without its state"
    staff.cdp("Emulation.setEmulatedMedia", media="")
    assert [row[16] for row in rows] == [name if name[0] != "=" else f"'{name}" for name in museums.HARMFUL]
    rule = "rule 20 of deed 7: all files readable for the public, the reading room and the staff, until further notice"
    words = ["the staff", "read it", "", "R7.20", rule, "1066", "", "7", "d64", "0", "", "../../X"]
    assert (rows[0][3], rows[0][5:]) == (STOOD, [*words, "../../X", "SEQ", "4", ""]), "saved a day after it was asked"
    staff.fill("eyes", words="guide").wait(lambda state: len(state["rows"]) == 2)
    assert not is_said_saved(staff), "a file speaks for what is shown since"

def test_table_has_the_day_of_its_field_and_is_asked_anew_once_something_was_changed(staff):
    look(staff, DAYS[1], "room", True, "1002")
    path = f"/staff/verdicts/{DAYS[1]}"
    staff.door.before = lambda _, at: b"" if is_lost and at == path else None
    for rank, count, is_lost in ((None, 2, False), ("1", 1, False), ("2", 0, True)):
        staff.fill("eyes", day=TODAY).go("takedowns")
        if rank:
            assert staff.take_down("1002", rank, "2", "room") and staff.answer(True)
        staff.door.visits.clear()
        assert staff.script(LATE * is_lost) is None and staff.fill("eyes", closed=True)
        assert [row[5] for row in staff.go("eyes")["rows"]].count("read it") == count, "it stood before a change"
        assert [at for _, at, _ in staff.door.visits if at == path] == [path] * bool(rank)
        assert staff.one("#eyes [name=day]").get_property("value") == DAYS[1], "a table under the day of another"
        assert staff.one("#eyes .found").is_displayed() != is_lost, "what is not shown can be saved"

def test_day_that_nobody_typed_is_today_also_where_a_page_stays_open_overnight(museum, staff):
    for first, view, button, words in (15, "eyes", "Look", "what everybody gets on "), (17, "timeline", "Look at", ""):
        staff.go(view)
        for day in (first, first + 1):
            assert staff.push(button)["result"] == [f"Read: {words}2026-06-{day}."], "a today that is over"
            night(museum)
    assert staff.go("eyes") and staff.texts("#eyes h2") == ["What the public gets on 2026-06-19"], "what stood days ago"
    assert look(staff, "2026-06-19") and night(museum)
    assert staff.go("eyes") and "on 2026-06-19, by" in staff.push("Look")["result"][0], "not the day that was typed"
    for day, due in (("2030-01-01", f"2030-01-01, {STOOD}, which may"), ("2026-06-21", "2026-06-22")):
        assert look(staff, day) and staff.fill("eyes", day="2026-02-30") and night(museum)
        assert staff.go("eyes") and f"gets on {due}" in staff.text("#eyes h2"), "of an older day, or of none"
    museum.latest |= dict.fromkeys(museum.images, ("2025-06-22", "sound"))
    assert staff.go("checks") and staff.one("[name=before]").get_property("value") == "2025-06-22"
    assert night(museum) and "6 sound" in staff.push("Check all of these")["result"][0]
    assert staff.go("takedowns") and staff.take_down("1002", "", "2", "public")["sure"][3] == "Today, 2026-06-23"
    assert night(museum) and staff.push("Save what stands now, first")
    assert staff.saved("disk-1002-before-an-answer-2026-06-24-asked-*.csv"), "a question that stands open overnight"
    staff.answer(False)

@pytest.mark.parametrize("zone, day", [("Pacific/Kiritimati", TODAY), ("America/New_York", "2026-06-16")])
def test_today_is_the_day_of_the_desk_in_whatever_zone_the_browser_is(museum, staff, zone, day):
    """It is noon of the first of these days in UTC: in the one zone it is the second, and in the other not yet."""
    museum.day, museum.rules["R7"][10] = day, museum.rules["R7"][10] | {"until": "2026-06-16"}
    staff.cdp("Emulation.setTimezoneOverride", timezoneId=zone)
    try:
        is_open = day == "2026-06-16"
        heads, *rows = saved_table([staff, staff.go("disk/1004")][0], f"disk-1004-{day}-asked", "Save who gets what as")
        assert staff.texts("#disk h2")[0] == f"Who gets what on {day}", "the day of the computer"
        assert {row[2] for row in rows} == {day} and (rows[0][6] == "read it") == is_open, "another day in the file"
        assert f" UTC it was {day} there). " in heads[1] and f"it was {day} there. A r" in staff.text("#disk")
        assert f"whose zone it does not tell: on {TODAY} at 12:" in heads[1], "a day that nobody can resolve"
        assert staff.go("eyes") and f"gets on {day}." in staff.push("Look")["result"][0]
        assert staff.go("timeline") and staff.push("Look at")["result"] == [f"Read: {day}."]
        assert staff.go("takedowns") and f"Today, {day}" in staff.take_down("1002", "", "2", "public")["sure"]
        staff.answer(False)
    finally:
        staff.cdp("Emulation.setTimezoneOverride", timezoneId="")

def test_desk_that_does_not_tell_its_day_is_said_and_no_view_guesses_it(staff):
    assert staff.go("disk/1002") and staff.go("timeline")["rows"]
    for reply in (b"", refused(404, "no-route"), told(day=7)):
        staff.door.before = lambda _, path: reply if path == "/staff/today" else None
        for view in ("eyes", "disk/1002", "timeline", "checks"):
            assert staff.go(view)["result"] == ["The desk did not tell which day it is there. Try again."], view
            said = staff.text(f"#{view[:4]}{view[4:].partition('/')[0]} .stands")
            assert TODAY not in said.replace(f"The desk was asked on {TODAY} at 12:", ""), view
        assert staff.go("takedowns")["result"] == [] and staff.take_down("1002", "", "2", "public")["sure"] is None
        assert "The desk did not tell" in staff.text("#takedowns .result"), "a rehearsal of a day that nobody knows"
    staff.door.before = lambda _, path: refused(401, "unknown-key") if path == "/staff/today" else None
    assert staff.go("eyes")["result"] == ["The desk does not know this key. Type it again, or use another.",
                                          "Refusal: unknown-key"]
    staff.door.before = lambda _, path: None
    assert staff.door.sent() == [] and staff.go("eyes")["result"] == []

def test_rules_stand_without_marks_where_the_desk_does_not_tell_its_day(museum, staff):
    days, place = [("2027-01-01", None), (None, "2026-01-01")], "/staff/today"
    deny = lambda *of: {1: museums.rule(1, "deny", ["public"], {"slot": 2}, *of)}
    museum.rules["R8"], museum.rules["T1002"] = (deny(*of) for of in days)
    begins, ends = "from 2027-01-01", "until 2026-01-01, not that day"
    for words, reply in ((f"not begun: {begins}", f"over: {ends}"), None), ((begins, ends), b""):
        staff.door.before = lambda _, path: reply if path == place else None
        for view, due in zip(("rules/8", "takedowns/1002"), words):
            shown = staff.go(view)
            assert (shown["result"], [row[5] for row in shown["rows"]]) == ([], [due]), view
        mind = staff.take_down("1002", "2", "2", "public")["hint"].partition(" Mind: ")[2]
        assert mind.endswith(f", {ends}).") == (reply is not None) == bool(mind), "which takedown may come before it"
        shown = staff.answer(False) and staff.go("deeds") if reply is None else staff.go("deeds")
        due = f"1: the file at slot 2 closed to the public, {words[0]}Rules"
        assert (shown["result"], shown["rows"][1][4]) == ([], due)
    staff.door.before = lambda _, path: None
    assert staff.go("takedowns") and staff.take_down("1002", "2", "2", "public")["sure"]
    staff.door.before = lambda _, path: b"" if path == place else None
    shown = staff.answer(True)
    words = ["Put: takedown 2 of disk 1002.", "The page could not ask the desk what readers get of it now."]
    assert shown["result"][:2] == words and [row[5] for row in shown["rows"]] == [ends, "until further notice"]
    assert [path for _, path, _, _ in staff.door.sent()] == ["/images/1002/rules/2"]

def test_day_that_is_over_is_said_to_be_by_rules_of_today_and_a_saved_table_says_what_it_has(staff, tmp_path):
    (tmp_path / "about.csv").write_text("name,value\nmuseum,Museum of the River\n")
    assert staff.load() and staff.begin() and look(staff, "1999-01-01", closed=True) and staff.push("Save what is")
    texts = staff.text("#eyes .stands"), staff.saved("*1999-01-01*.csv").decode()
    assert [PAST in text for text in texts] == [True, True], "a past day looks known, in the view or in the file"
    for words, count, left in (("1004", 0, 2), ("logbook", 1, 1)):
        shown = look(staff, "1999-01-01", words=words)["stands"][1].removeprefix("Shown: ")
        only = count * ", only of disk 1003, which has 2"
        which = f"{count} of 14 files, found by “{words}”{only}; {left} more, closed to them, left out."
        assert shown[:-10] == f"{which} The desk was asked on {TODAY} at 12:" and shown.endswith(" UTC.")
        heading = f"What the public gets on 1999-01-01, {PAST}"
        assert staff.texts("#eyes .stands h2") == [heading]
        name = f"who-sees-what-public{count * '-of-disk-1003'}-1999-01-01-by-the-rules-of-{TODAY}"
        _, saved = saved_table(staff, f"{name}-{count}-of-14-files-asked")
        about = f"{heading}: {shown} It says nothing of what others than the public get. {SINCE} {UNSAID}"
        assert saved[:2] == ["Museum of the River", about], "a saved table looks as if it had all"
    assert (saved[2:4], saved[4][:14], saved[4][19:]) == (["1999-01-01", PAST], f"{TODAY} 12:", " UTC")
    assert saved[5:8] == ["the public", EFFECTS["list"], f"{UNSERVED['SEQ']}; {PAST}; {NO_JOURNAL}"]
    later = f"{EFFECTS['deny']} ({PAST}; deed 7 was signed later, on 2019-05-04; {NO_JOURNAL})"
    assert look(staff, "1999-01-01", closed=True, words="1004")["rows"][0][5] == later, "a day before the deed"
    assert "desk-visits.log on the museum's machine" in staff.text("#eyes"), "where what readers did get then stands"

def test_day_that_is_over_has_in_each_row_what_the_journal_knows_to_have_come_later(museum, staff):
    museum.rules["T1002"], took = takedown(1, 0), "takedown 1 of disk 1002"
    slot, day = '{"audiences":["room","public"],"select":{"slot":0},"effect":"deny"}', datetime.datetime.fromisoformat
    came = [("2026-04-01", "/deeds/8"), ("2026-05-04", f"/accessions/1002/d64/9/{'0' * 64}"),
            ("2026-05-05", "/images/1002/rules/1", "", "", slot)]
    lines = [journal_lines(at, day(f"{when}T08:00:00+00:00").timestamp(), "200", "PUT", *what)
             for at, (when, *what) in enumerate(came)]
    no = "not before in the journal, back to 2026-04-01 08:00:00 UTC"
    says = "then the journal, back to 2026-05-04 08:00:00 UTC, does not say; put on"
    put, closed = (f"2026-05-0{at} 08:00:00 UTC" for at in (4, 5))
    wanted = [f"not yet here on that day: put only on {put}, {no}; {took} put only on {closed}, {no}",
              f"whether the disk was here {says} {put}; whether {took} stood {says} {closed}"]
    for begin, words in enumerate(wanted):
        staff.door.journals = {"/journal": b"".join(lines[begin:])}
        shown = look(staff, "2026-05-02", closed=True, words="1002")
        assert shown["rows"][0][5] == f"{EFFECTS['deny']} ({PAST}; {words})"
        counts = "as the journal has them: 1 of disks, 1 of takedowns, 0 of rules and"
        assert counts in shown["stands"][2] and "put and then dropped counts twice" in shown["stands"][2]

def test_timeline_has_the_next_change_first_and_says_what_is_other_on_each_day(museum, staff):
    museum.rules["R9"][5] = museums.rule(5, "deny", ["public"], {"slot": 0}, *DAYS[:2])
    museum.rules["T1002"] = {1: museums.rule(1, "list", ["room", "public"], None, *DAYS[2:])}
    rules = [["rule 5 of deed 9", DAYS[0]], ["takedown 1 of disk 1002", DAYS[2]], ["rule 10 of deed 7", "2030-01-01"]]
    assert [[row[0], row[2]] for row in staff.go("timeline")["rows"]] == rules
    heads, *rows = saved_table(staff, f"timeline-3-rules-{TODAY}-asked", "Save these rules as CSV")
    assert [[row[2], row[5], row[9]] for row in rows] == [[TODAY, *rule] for rule in rules]
    assert rows[0][4] == "R9.5" and rows[0][6].startswith("the file at slot 0 closed to the public, not begun: from ")
    assert (rows[0][7:9], rows[2][7:9]) == (DAYS[:2], ["", "2030-01-01"])
    assert f"as they stood on {TODAY}: 3. The desk was asked on" in rows[0][1] and "nor who gets what" in rows[0][1]
    assert heads[8] == "until (that day itself is not in it)" and rows[2][6].endswith(" 2030-01-01, not that day")
    donors = [f"“{DONOR_OF_9}”, signed on 0001-01-01", "", "“A. Curator”, signed on 2019-05-04"]
    assert [row[10] for row in rows] == donors
    # slot 0 of the disks of deed 9: that of the last is damaged, so nobody is given it, and it is closed all the same
    may, see = "The day before they may read them; then they may ", "see their names, not read them"
    nothing = "see only that closed files are there, not their names."
    two, one = "WELCOME.TXT (disk 1001, slot 0)TOUR (disk 1002, slot 0)", "LOGBOOK (disk 1003, slot 0)"
    closes = [f"Closes for the public: 2 files. {may}{nothing}", two,
              f"Closes for the public: 1 file. The day before they may {see}; then they may {nothing}", one]
    before = f"The day before they may {nothing[:-1]}; then they may "
    opens = [f"Opens for the public: 2 files. {before}read them.", two,
             f"Only in the list for the public: 1 file. {before}{see}.", one]
    lists = [f"Only in the list for the public and the reading room: 2 files. {may}{see}.",
             "TOUR (disk 1002, slot 0)GUIDE (disk 1002, slot 2)"]
    back = f"The day before they may {see}; then they may read them."
    reads = [f"Opens for the public and the reading room: 2 files. {back}", lists[1]]
    for day, counts, turns in zip(DAYS, [(3, 1, 10), (5, 2, 7), (3, 4, 7), (5, 2, 7)], [closes, opens, lists, reads]):
        staff.push("Change after")
        heading, public, _, _, asked, *more = staff.texts("#timeline .day > :not(div)")
        words = OF_ALL.format(*counts)
        due = f"Who gets what on {day}, {STOOD}, which may change until then"
        assert (heading, public, asked[:-10]) == (due, words, f"The desk was asked on {TODAY} at 12:")
        before = datetime.date.fromisoformat(day) - datetime.timedelta(1)
        assert more == [f"What is other on {day} than on the day before it, {before}, {STOOD}", *turns]
    name = f"timeline-of-{DAYS[3]}-by-the-rules-of-{TODAY}-asked"
    _, *rows = saved_table(staff, name, "Save this day as CSV")
    said = staff.texts("#timeline .day :is(h2, h3, p, li)")
    assert [row[2:] for row in rows] == [[str(at), words] for at, words in enumerate(said, 1)]
    assert {row[1].partition(" It names ten")[0] for row in rows} == {f"{heading}. {asked}"}, "a line of no day"
    staff.push("Change after")
    last = staff.push("Change after")["result"]
    assert last == ["No rule that stands begins or ends later than 2030-01-01."], "a button that does nothing"
    put = journal_lines(1, 1781078400, "200", "PUT", "/deeds/9/rules/4", "Ada", "a%20letter")
    says = ". Since then it has: Put rule 4 of deed 9, 2026-06-10 08:00:00 UTC by “Ada”: “a letter”"
    for lines, words in [({"/journal": put}, f", the journal says{says}"), ({}, " is not known: there is no journal")]:
        staff.door.journals = lines
        staff.fill("timeline", day="2026-06-09").push("Look at this day")
        none = f"By these rules nothing is other on that day; what stood then{words}."
        assert staff.texts("#timeline .day > p")[-1] == none, "a day is told as one like today"
    museum.rules["R9"][6] = museums.rule(6, "deny", ["public"], {"slot": 1}, None, "2025-07-01")
    staff.set("#timeline [type=range]", int(staff.one("#timeline [type=range]").get_property("min")))
    staff.read(lambda state: state["result"] == ["Read: 2025-06-15."])
    ended = "the file at slot 1 closed to the public, over: until 2025-07-01, not that day"
    assert staff.go("timeline")["rows"][-1][:3] == ["rule 6 of deed 9", ended, "none"]
    days = [staff.one(f"#timeline {at}").get_property("value") for at in ("[name=day]", "[type=range]")]
    assert days == [TODAY, str((datetime.date.fromisoformat(TODAY) - EPOCH).days)], "a day of an earlier look"
    staff.fill("timeline", day="2025-06-15").push("Look at")
    heading, _, _, _, _, since, other, closes, *_ = staff.texts("#timeline .day > :not(ul)")
    assert (heading, since) == (f"Who gets what on 2025-06-15, {PAST}", SINCE)
    assert other == f"What is other on 2025-06-15 than today, {TODAY}, {STOOD}"
    then = f"Now they may read them; on 2025-06-15, {STOOD}, they may {nothing}"
    assert closes == f"More closed for the public: 2 files. {then}", "a past day looks like one that opens or closes"
    for width in (390, 1280):
        with staff.phone(width):
            bar, dragged = staff.script(ENDS)
            ends = [dragged["left"] + 8, dragged["right"] - 8]
            assert bar["width"] > 200 and ends == pytest.approx([bar["left"], bar["right"]], abs=1), f"bars at {width}"
