"""What stands at the desk: deeds, rules, takedowns, keys, checks. Each is put, changed, dropped, and read anew then."""

import threading

from selenium.webdriver.common.action_chains import ActionChains
from staff_helpers import OLDER, in_utc, journal_lines, lost_at, put_deed, saved_table, takedown
from support import museums
from support.browser import LIMIT, TODAY, wait_for
from support.samples import DONOR_OF_9, digest

EVERYBODY = "the public, the reading room and the staff"
RULE_20 = ["20", EVERYBODY, "all files", "read them", "until further notice", "ChangeDrop"]
STAFF, OTHER, RESTORE = digest(b"abc"), digest(b"another"), " Restore a backup of what is changed."
START, NOBODY = 1_800_000_000, "Then nobody can use it any more."
# A script: the index that each row of the list has for a screen reader, and its number.
ROWS = """return Array.from(document.querySelectorAll("#checks tbody tr:not(.space)"),
  (row) => [Number(row.ariaRowIndex), Number(row.cells[0].textContent)]);"""
# A script: the title of a print, and what it says first, once the page has said that.
SAYS = """addEventListener("beforeprint", () => {
  window.said = document.querySelector("main").firstChild.textContent;
  window.heads = document.title;
});"""
SOUND = """“Sound” says: the bytes that the desk had that day have the SHA-256 with which the disk was taken in. It \
says nothing of damaged files: a sound disk may have some."""
GUESSED = "A short or common one can be guessed from its SHA-256."
NOT = f"not in the journal, back to {in_utc(START)}, where it begins"

def test_deed_is_put_with_name_and_reason(staff):
    """They go as percent-encoded UTF-8, which may have 1,000 bytes. Without one of them nothing is sent."""
    for name, reason in (("", "a reason"), ("Ada", " "), ("Ada", "ü" * 167)):
        put_deed(staff.fill("who", name=name, reason=reason))
        assert staff.door.sent() == [], (name, reason)
    shown = put_deed(staff.fill("who", reason="ü" * 166), "31", "E. <b>Müller</b>")
    assert staff.door.sent() == [("PUT", "/deeds/31", "Ada", "%C3%BC" * 166)]
    assert staff.one("#who [name=reason]").get_property("value") == "", "a reason goes along with the next change"
    assert (shown["result"], shown["stands"]) == (["Put: deed 31."], ["4 deeds."])
    rules = "10: all files closed to the public and the reading room, until 2030-01-01, not that day"
    rules += f"20: all files readable for {EVERYBODY}, until further noticeRules"
    assert shown["rows"][0] == ["7", "A. Curator", "2019-05-04", "3", rules, "Change"]
    none = "No rule: nobody may read its files"
    assert shown["rows"][3] == ["31", "E. <b>Müller</b>", "1999-12-31", "0", none, "Change"]
    staff.door.before = lost_at(1)
    put_deed(staff)
    assert staff.one("#who [name=reason]").get_property("value") == "a letter of today"

def test_deed_is_replaced_only_when_that_is_agreed(staff):
    stands, then = "It stands: “B. Donor”, signed on 2020-02-29.", "Then: “E. Müller”, signed on 2020-02-29."
    for is_agreed, said, donor in ((False, "Kept: deed 8.", "B. Donor"), (True, "Replaced: deed 8.", "E. Müller")):
        staff.of_row("deed 8", "Change")
        assert staff.fill("change", donor="E. Müller").push("Put the deed")["sure"] == ["Replace deed 8?", stands, then]
        who = staff.texts("#sure > p:not(.choices)")
        assert who[0].startswith(f"The page asks this on {TODAY} at 12:"), "a question that is printed has no moment"
        assert who[0].endswith(" UTC. By “Ada Archivist”. Reason: “a letter of today”"), "neither who asks nor why"
        shown = staff.answer(is_agreed)
        assert (shown["result"], shown["rows"][1][1], len(staff.door.sent())) == ([said], donor, is_agreed)

def test_rule_is_put_changed_and_dropped(staff):
    staff.go("rules/8")
    staff.put_rule("rules", "8", "20", "all", None, "public", "room", "staff", effect="read")
    shown = staff.answer(True)
    assert (shown["result"], shown["rows"]) == (["Put: rule 20 of deed 8."], [["8", *RULE_20]])
    assert shown["hint"].startswith("In use: rule 20 of deed 8 stands, all files readable for")
    staff.of_row("rule 20 of deed 8", "Change")
    shown = staff.fill("change", effect="list", until="2099-01-01").push("Put it") and staff.answer(True)
    days = "until 2099-01-01, not that day"
    changed = ["8", "20", EVERYBODY, "all files", "see their names, not read them", days, "ChangeDrop"]
    assert (shown["result"], *shown["rows"], shown["focus"]) == (["Replaced: rule 20 of deed 8."], changed, "result")
    shown = staff.of_row("rule 20 of deed 8", "Drop") and staff.answer(True)
    assert shown["result"] == ["Done: there is no rule 20 of deed 8 now."]
    assert (shown["stands"], shown["rows"]) == (["There is no rule of deed 8."], [])

def test_rule_that_is_over_or_has_not_begun_is_marked_where_it_stands(museum, staff):
    days = [(None, TODAY), ("2020-01-01", "2026-06-15"), ("2026-06-16", None), ("2020-01-01", "2026-06-16")]
    over = f"until {TODAY}, not that day"
    due = [f"over: {over}", f"over: from 2020-01-01, {over}", "not begun: from 2026-06-16",
           "from 2020-01-01, until 2026-06-16, not that day"]
    museum.rules["R9"] = {rank: museums.rule(rank, "deny", ["public"], None, *of) for rank, of in enumerate(days, 1)}
    for place, at in (("rules/9", 5), ("disk/1002", 4)):
        assert [row[at] for row in staff.go(place)["rows"] if "deed 9" in row[0] or len(row) > 6][-4:] == due, place
    assert [f"closed to the public, {words}" in staff.go("deeds")["rows"][2][4] for words in due] == [True] * 4

def test_rules_that_are_put_again_stay_as_they_were(museum, staff):
    ways = [({"slot": 0}, "the file at slot 0"), ({"user": 15}, "files of user 15"),
            ({"type": "PRG"}, "files of type \u201cPRG\u201d"), ({"type": ""}, "files without a type"),
            ({"prefix": "%CC"}, "files whose names begin with “%CC” (on the screen “L”)")]
    museum.rules["R9"] = {rank: museums.rule(rank, "list", ["public", "staff"], select, "2030-01-01", "2020-01-01")
                          for rank, (select, _) in enumerate(ways, 1)}
    before, days = museum.shown_rules("R9"), "on no day: from 2030-01-01, but until 2020-01-01"
    rows = [["the public and the staff", words, "see their names, not read them", days] for _, words in ways]
    assert [row[2:6] for row in staff.go("rules/9")["rows"]] == rows
    for rank, (select, _) in enumerate(ways, 1):
        staff.of_row(f"rule {rank} of deed 9", "Change")
        assert [staff.one("#change [name=what]").get_property("value")] == [str(what) for what in select.values()]
        assert staff.push("Put it") and staff.answer(True)
    assert [path for _, path, _, _ in staff.door.sent()] == [f"/deeds/9/rules/{rank}" for rank in range(1, 6)]
    assert museum.shown_rules("R9") == before

def test_long_list_stays_sorted_and_filtered_when_it_is_read_anew(museum, staff):
    museum.latest |= {acc: ("2026-01-02", "sound") for acc in range(1001, 1004)}
    for number in range(1, 31):
        museums.put(museum, number, "cpm8", 9, museum.images[1001].bytes)
    numbers = lambda: [int(row[0]) for row in staff.go("checks")["rows"]]
    assert numbers() == [*range(1, 31), *range(1001, 1007)]
    assert [staff.push("Disk")["heading"] for _ in range(2)] == ["Checks"] * 2
    assert numbers() == [*range(1006, 1000, -1), *range(30, 0, -1)]
    staff.type("Only rows with", "2026-01")
    said = "3 of 36 shown, those with “2026-01”"
    assert (numbers(), staff.text("#checks label ~ [role=status]")) == ([1003, 1002, 1001], said)

def test_long_list_has_its_rows_in_order_keeps_the_focus_and_is_printed_whole(museum, staff):
    for number in range(1, 91):
        museums.put(museum, number, "cpm8", 9, museum.images[1001].bytes)
    due = [*range(1, 91), *range(1001, 1007)]
    assert staff.go("checks") and staff.script(ROWS)[-1][0] < 90, "the test needs a list that is drawn in part"
    staff.script("document.querySelector('[aria-label=\"Check disk 30\"]').focus()")
    for far in (0, 1e6, 900, 0):
        staff.script("scrollTo(0, arguments[0]); window.later = 0; setTimeout(() => (window.later = 1), 300)", far)
        wait_for("what comes with the scrolling", lambda: staff.script("return window.later"))
        drawn = staff.script(ROWS)
        assert drawn == [[due.index(number) + 2, number] for _, number in drawn] == sorted(drawn) and drawn, far
        assert due[-1] in [number for _, number in drawn] or far < 1e6, "the end is not drawn where it is seen"
        assert staff.focused() == "Check disk 30", "a row with the focus is gone"
    staff.script(f"addEventListener('afterprint', () => (window.printed = (() => {{ {ROWS} }})()))")
    assert staff.cdp("Page.printToPDF")["data"]
    assert staff.script("return window.printed") == [[at, number] for at, number in enumerate(due, 2)]
    wait_for("rows that the screen has no need of to go", lambda: len(staff.script(ROWS)) < 96)

def test_press_and_focus_are_not_lost_while_older_months_or_a_change_come(staff):
    staff.door.journals = {"/journal": journal_lines(1, START, "200", "PUT", "/deeds/9")}
    due = {begin: threading.Event() for begin in ("/journal-", "/journal", "/deeds/35")}
    held = lambda path: [event for begin, event in due.items() if path.startswith(begin)]
    staff.door.before = lambda _, path: all(event.wait(LIMIT) for event in held(path)[:1]) and None
    mouse, save = lambda: ActionChains(staff.driver, duration=0), "Save this list as CSV"
    staff.script("location.hash = '#/keys'")
    mouse().click_and_hold(staff.named("button", save)).perform()
    due["/journal"].set()
    staff.wait(lambda _: "Looking for" in staff.text("#keys .result"))
    mouse().release().perform()
    assert staff.saved("keys-2-asked-*.csv"), "the list has moved away from under the press"
    staff.one(f"[aria-label='Drop key {STAFF}']").click()
    due["/journal-"].set()
    assert staff.wait(lambda state: state["sure"], "what was pressed while the page still read")["sure"]
    assert staff.answer(False) and staff.go("deeds")
    staff.fill("deeds", deed="35", donor="F. Founder", signed="1999-12-31")
    staff.script("document.querySelector('#deeds form').requestSubmit()")
    mouse().click_and_hold(staff.named("button", save)).perform()
    due["/deeds/35"].set()
    staff.read(lambda state: state["result"] == ["Put: deed 35."])
    mouse().release().perform()
    assert staff.saved("deeds-4-asked-*.csv"), "the button is another one"
    assert staff.focused() == save, "the focus is gone with the list"

def test_each_list_is_saved_and_printed_with_its_moment_and_who_does_it(museum, staff):
    museum.rules |= {"T1002": takedown(1000, 2), "R8": {}}
    shut, ever = "see only that closed files are there, not their names", "until further notice"
    deny = ["1002", "1000", "the public and the reading room", "the file at slot 2 (GUIDE)", shut, ever]
    wanted = {"deeds": (3, ["9", DONOR_OF_9, "0001-01-01", "3", f"20: all files readable for {EVERYBODY}, {ever}"]),
              "rules": (3, ["9", *RULE_20[:-1], f"“{DONOR_OF_9}”, signed on 0001-01-01"]), "takedowns": (1, deny),
              "keys": (2, [STAFF, "the staff", "there is no journal"]), "checks": (6, ["1006", "never", ""])}
    staff.script(SAYS)
    for view, (count, cells) in wanted.items():
        asked = f"he desk was asked on {TODAY} at 12:"
        words = staff.go(view)["stands"][0]
        heads, *rows = saved_table(staff, f"{view}-{count}-asked", "Save this list as CSV")
        assert [row[2:] for row in rows if row[2] == cells[0]] == [cells] and len(rows) == count
        assert len(heads) == len(cells) + 2 and "; slots count from 0" in heads[1], "a column without a head"
        assert f"when t{asked}" in rows[0][1] and f" UTC: {words} It does not say what else stood before" in rows[0][1]
        assert (SOUND in rows[0][1]) == (view == "checks"), "a word that nobody explains"
        assert ("Takedowns of a disk come before" in rows[0][1]) == (view in ("rules", "takedowns")), "what decides"
        assert asked in staff.text(f"#{view} .stands .choices"), "a print without a moment"
        said = staff.cdp("Page.printToPDF") and staff.script("return window.said")
        assert said.startswith(f"Printed from the staff's page on {TODAY} at 12:"), "a print that nobody can date"
        assert " UTC by “Ada Archivist”, as they typed their name. Moments: in UTC; days of rules, of" in said
        assert "by the desk's clock, whose zone it does not tell: on " in said, "days in nobody's zone"
        any_name = "Whoever has a key of the staff can write any name."
        assert said.endswith(any_name) and heads[1].endswith(any_name), "as if the name of who put it were sure"
        title, at = staff.driver.title, said.partition(" page ")[2].partition(" by ")[0]
        assert staff.script("return window.heads") == f"{title}, {at}", "two prints of a day have one name"
        assert title.endswith(" – the staff's page"), "a title of an earlier print"
    staff.door.before = lambda _, path: b"" if "/verdicts/" in path else None
    _, row = [staff.go("takedowns"), saved_table(staff, "takedowns-1-asked", "Save this list as CSV")][1]
    assert row[5] == "the file at slot 2 (counted from 0; its name is on the page of disk 1002)", "counted from 1"
    assert staff.fill("who", name=" ").cdp("Page.printToPDF")
    assert " UTC by somebody who typed no name. Moments" in staff.script("return window.said")

def test_key_is_put_given_away_and_dropped(museum, staff):
    rows = staff.go("keys")["rows"]
    assert [row[3] for row in rows] == ["Give it to the staffDrop", "Give it to the reading roomDrop"]
    shown = staff.fill("keys", key="another", audience="room").submit("keys")
    done = f"Done: key of the reading room, SHA-256 {OTHER}."
    assert (shown["result"], shown["stands"]) == ([done], [f"3 keys. {GUESSED}"])
    assert staff.of_row(f"key {OTHER}", "Drop")["sure"] == [f"Drop key with SHA-256 {OTHER}?", NOBODY]
    assert staff.answer(True)["rows"] == rows
    museum.badges[OTHER] = "staff"
    shown = staff.fill("keys", digest=STAFF.upper()).push("Drop the key")
    assert shown["sure"] == [f"Drop key with SHA-256 {STAFF}?", NOBODY, "It is the key that you use now."]
    assert staff.answer(False)["result"] == [f"Kept: key with SHA-256 {STAFF}."]
    words = [f"Done: key of the reading room, SHA-256 {STAFF}.", OLDER.format("keys"),
             "Only the staff may do this. Use a key of the staff.", "Refusal: staff-only", "Rule: S0, for the staff"]
    assert staff.of_row(f"key {STAFF}", "Give it to the reading room")["result"] == words

def test_key_says_who_put_it_when_and_why_as_the_journal_has_it(staff):
    key, at = f"/badges/{digest(b'hello')}", in_utc(START + 0.5)
    by = f"This key was put {at} by “Ada”: “a letter”; in its place before: {NOT.replace('not', 'nothing', 1)}"
    again = f"; last put again, unchanged, {in_utc(START + 1.5)} by “Ada”: “a letter”"
    for later, words in [((), by), (("200", "PUT", '{"audience":"staff"}'), NOT), (("200", "DELETE", ""), NOT),
                         (("404", "DELETE", ""), by), (("502", "DELETE", ""), by), (("502", "PUT", "["), by),
                         (("200", "PUT", '{"audience":"room"}'), by.replace("; in", f"{again}; in"))]:
        changes = [("200", "PUT", '{"audience":"room"}'), *([later] if later else [])]
        lines = [journal_lines(at, START + at, status, method, key, "Ada", "a%20letter", body)
                 for at, (status, method, body) in enumerate(changes)]
        staff.door.journals = {"/journal": b"".join(lines)}
        assert [row[2] for row in staff.go("keys")["rows"]] == [words, NOT], ("whose key is it, after", later)

def test_check_says_which_disk_has_changed_in_a_warning_that_stays(museum, staff):
    before, one = staff.go("checks"), staff.of_row("disk 1002", "Check")
    museum.images[1003] = museum.images[1003]._replace(digest="0" * 64)
    museum.latest[1002] = "2020-01-01", "sound"
    staff.door.before = lost_at(5)
    shown, words = staff.push("Check all of these"), "4 disks checked: 3 sound, 1 CHANGED: 1003."
    assert shown["result"][0].startswith(words), "a changed disk is told as one that is checked"
    assert before["stands"] == ["6 disks: 0 sound; 6 never checked."]
    assert one["result"] == ["Disk 1002 is sound: it still has the SHA-256 that came with it."]
    assert [row[1:] for row in one["rows"][:2]] == [["never", "", "Check"], [TODAY, "sound", "Check"]]
    assert shown["result"][0] == f"{words} 0 failed, 1 in doubt, 1 not sent yet.{RESTORE}"
    _, *rows = saved_table(staff, "checks-report-of", "Save the report")
    assert f"This work was begun, or gone on with, on {TODAY} at" in shown["result"][-1], "a report without a day"
    assert rows[0][1].startswith("Checks of disks that were to be made, and what became of each. It does not")
    assert SOUND in rows[0][1] and [row[3] for row in rows].count("sound") == 3, "a word that nobody explains"
    assert staff.push("Go on with the rest")["result"][0] == f"6 disks checked: 5 sound, 1 CHANGED: 1003.{RESTORE}"
    assert staff.push("Check all of these")["result"] == ["There is no disk whose latest check is before 2025-06-15."]
    stays = [f"6 disks: 5 sound, 1 CHANGED: 1003; 0 never checked.{RESTORE}"]
    assert staff.texts("#checks .stands > .refused") == stays, "the warning is gone with the next work"
    assert staff.go("disk/1002") and staff.text("#disk .stands .callout") == f"Latest check: sound on {TODAY}. {SOUND}"
