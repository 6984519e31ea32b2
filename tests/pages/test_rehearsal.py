"""The rehearsal before a rule is put or dropped: what opens and closes, for whom, when; ranks; takedowns of many."""

import threading

import pytest
from selenium.webdriver.common.keys import Keys
from staff_helpers import CANNOT_REACH, OLDER, TAKES, UNSURE, lost_at, saved_table, takedown
from support import museums
from support.browser import LIMIT, TODAY

BOTH = ("public", "room")
HIDDEN = "the file at slot {} closed to the public and the reading room, until further notice."
ASKED = f"The desk was asked on {TODAY} at 12:"
PLACE = "Rank {} gives its place in the order: number {} of disk {}."
NOW, NOTHING = f"Today, {TODAY}", "Nothing opens, and nothing closes."
SHUT = "see only that closed files are there, not their names"
CLOSES = f"Closes for the public and the reading room: 1 file. Now they may read them; then they may {SHUT}."
OPENS = f"Opens for the public and the reading room: 1 file. Now they may {SHUT}; then they may read them."
TURNS = [OPENS, "TOUR (disk 1005, slot 0)", CLOSES, "GUIDE (disk 1005, slot 2)"]

@pytest.fixture
def takedowns(museum, staff):
    """Disk 1005 is open, but for a takedown at rank 1: none is free before it."""
    museum.rules["R7"].pop(10)
    museum.rules["T1005"] = takedown(1, 0)
    staff.go("takedowns")
    return staff

ranks = lambda shown: [row[1] for row in shown["rows"]]

def test_takedowns_are_rehearsed_and_put_each_before_the_others(takedowns):
    for typed in ({"scope": "1002"}, {"how": "slot", "effect": "deny"}, {"what": "2"}):
        assert takedowns.fill("takedowns", **typed).read()["hint"] == "", "a place of a takedown that is for nobody yet"
    guide, rank = "GUIDE (disk 1002, slot 2)", PLACE.format(10, "1 of 1 takedown", 1002)
    words = ["Put takedown 10 of disk 1002?", f"It says: {HIDDEN.format('2 (GUIDE)')}", rank, NOW, CLOSES, guide]
    for is_agreed, said in ((False, "Not put: takedown 10 of disk 1002."), (True, "Put: takedown 10 of disk 1002.")):
        shown = takedowns.take_down("1002", "", "2", *BOTH)
        assert (shown["hint"], shown["sure"]) == (rank, words)
        assert [at for _, at, _ in takedowns.door.visits if "/verdicts/" in at] == [f"/staff/verdicts/{TODAY}/1002"]
        saved = saved_table(takedowns, f"disk-1002-before-an-answer-{TODAY}-asked", "Save what stands now, first")
        assert str(saved).count("'read it'") == 6 and "an answer to: “Put takedown 10 of disk 1002?”" in saved[1][1]
        shown = takedowns.answer(is_agreed)
        assert (shown["result"][0], len(takedowns.door.sent())) == (said, is_agreed)
        assert shown["hint"] == ("" if is_agreed else rank), "a rank that is not that of what was put"
        assert "desk-visits.log" in shown["result"][-1] or not is_agreed, "where it stands who fetched it is not said"
    row = ["1002", "10", "the public and the reading room", "the file at slot 2", SHUT]
    assert [cells[:5] for cells in shown["rows"]] == [row]
    shown = takedowns.take_down("1002", "", "0", "public")
    assert shown["sure"][2] == PLACE.format(20, "2 of 2 takedowns", 1002)
    assert ranks(takedowns.answer(True)) == ["10", "20"]
    assert takedowns.door.effects(1002) == {"public": ["deny", "read", "deny"], "room": ["read", "read", "deny"]}

def test_rank_in_use_is_said_to_be_replaced_and_one_that_may_decide_before_another_is_named(takedowns):
    shown = takedowns.take_down("1005", "1", "2", *BOTH)
    words = f"In use: takedown 1 of disk 1005 stands, {HIDDEN.format(0)} What you put replaces it."
    assert (shown["hint"], shown["sure"][2:]) == (words, [words, NOW, *TURNS])
    assert shown["sure"][0] == "Replace takedown 1 of disk 1005?" and takedowns.answer(False)
    words = PLACE.format(2, "2 of 2 takedowns", 1005)
    words += f" Mind: before it may decide, for the same files and readers, takedown 1 ({HIDDEN.format(0)[:-1]})."
    shown = takedowns.put_rule("takedowns", "1005", "", "all", None, "public")
    assert (shown["hint"], shown["sure"][2]) == (words, words)
    assert ranks(takedowns.answer(True)) == ["1", "2"]

def test_what_is_said_after_a_takedown_is_what_the_desk_says_and_names_what_still_decides_before_it(museum, takedowns):
    museum.rules["T1005"] |= {rank: museums.rule(rank, "list", ["room"], {"slot": 2}, None, until)
                              for rank, until in ((3, TODAY), (5, None))}
    shown = takedowns.take_down("1005", "20", "2", *BOTH)
    mind = "readers, takedown 5 (the file at slot 2 only listed for the reading room, until further notice)."
    assert shown["hint"].endswith(mind), "it does not say which, or names one that is over"
    says = f"What the desk's verdicts on {TODAY} say of the files that are meant: "
    by = "only listed for the reading room (takedown 5 of disk 1005, which comes before it)"
    assert takedowns.answer(True)["result"][1].startswith(f"{says}1 file closed to the public and {by}. {ASKED}")
    assert takedowns.take_down("1005", "21", "2", "room", start="2026-06-16") and takedowns.answer(True)
    assert takedowns.take_down("1005", "30", "1", "public", start="2026-06-16")
    later = f"{says}1 file only listed for the public (rule 20 of deed 7). {ASKED}"
    assert takedowns.answer(True)["result"][1].startswith(later), "as if it held before its first day"
    takedowns.take_down("1005", "40", "0", "room")
    takedowns.door.before = lambda method, path: b"" if "/verdicts/" in path else None
    lost = "The page could not ask the desk what readers get of it now."
    assert takedowns.answer(True)["result"][:2] == ["Put: takedown 40 of disk 1005.", lost]

def test_drop_is_rehearsed_and_done(takedowns):
    shown = takedowns.of_row("takedown 1 of disk 1005", "Drop")
    wanted = ["Drop takedown 1 of disk 1005?", f"It stands: {HIDDEN.format('0 (TOUR)')}", NOW, *TURNS[:2]]
    assert (shown["sure"], takedowns.focused()) == (wanted, "Leave it as it is")
    _, *rows = saved_table(takedowns, "rehearsal-asked", "Save this rehearsal as CSV")
    assert [row[2:] for row in rows] == [[str(at), text] for at, text in enumerate(wanted[1:], 1)]
    asked = f"What the page said before an answer to: “{wanted[0]}” {ASKED}"
    assert all(row[1].startswith(asked) for row in rows), "a file that does not say of what it is"
    by = " UTC. By “Ada Archivist”. Reason: “a letter of today”. It does not say what was answered"
    assert all(by in row[1] for row in rows), "neither who asks nor why"
    takedowns.press(Keys.ESCAPE)
    shown = takedowns.wait(lambda state: not state["busy"] and not state["sure"])
    assert shown["result"] == ["Kept: takedown 1 of disk 1005."]
    takedowns.of_row("takedown 1 of disk 1005", "Drop")
    assert takedowns.answer(True)["result"] == ["Done: there is no takedown 1 of disk 1005 now."]
    assert takedowns.door.effects(1005)["public"] == ["read"] * 3

def test_days_to_come_of_an_embargo(staff):
    turn = "On that day, without this change, they may read them; with it they may see their names, not read them."
    names = "WELCOME.TXT (disk 1001, slot 0)", "SKEW.TXT (disk 1001, slot 1)"
    closes = [f"Only in the list for the public: 2 files. {turn}", *names]
    staff.go("rules/9")
    days = {"effect": "list", "start": "2090-03-01", "until": "2100-03-01"}
    shown = staff.put_rule("rules", "9", "10", "type", "TXT", "public", **days)
    last = "On 2100-02-28, its last day", "The same as on the day above.", "On 2100-03-01, the first day without it"
    assert shown["sure"][2:] == [NOW, NOTHING, "On 2090-03-01, its first day", *closes, *last, NOTHING]
    assert staff.answer(True) and staff.of_row("rule 10 of deed 9", "Change")
    shown = staff.fill("change", until="").push("Put it")
    assert shown["sure"][2].endswith("from 2090-03-01, until 2100-03-01, not that day. What you put replaces it.")
    first = ["On 2090-03-01, its first day", NOTHING, "On 2100-02-28", NOTHING]
    assert shown["sure"][3:] == [NOW, NOTHING, *first, "On 2100-03-01", *closes]

def test_file_that_the_desk_gives_out_to_nobody_is_not_said_to_be_read(takedowns):
    shown = takedowns.take_down("1005", "", "1", *BOTH)
    is_honest = f"Now they may see their names, not read them; then they may {SHUT}." in shown["sure"][-2]
    assert is_honest, "a rehearsal closes a file as readable that nobody is given"
    takedowns.answer(False)
    assert takedowns.take_down("1005", "", "1", *BOTH, effect="list")["sure"][-2:] == [NOW, NOTHING]

def test_files_are_counted_and_the_first_ten_named_as_text(museum, takedowns):
    names = [*museums.HARMFUL, *(f"FILE {number}" for number in range(195))]
    museums.put_files(museum, 1077, "cpm8", 9, [(name, "SEQ", b"A") for name in names])
    shown = takedowns.put_rule("takedowns", "1077", "", "all", None, "public", "staff")
    line = f"Closes for the public and the staff: 200 files. Now they may read them; then they may {SHUT}."
    first = [f"{name} (disk 1077, slot {slot})" for slot, name in enumerate(names[:10])]
    assert shown["sure"][-12:] == [line, *first, "and 190 more files"]
    assert takedowns.harmed() == [None, 0]

def test_rehearsal_that_closes_nothing_or_is_refused_says_so(takedowns):
    for slot, days in (("50", {}), ("0", {"start": "2030-01-02", "until": "2030-01-01"})):
        shown = takedowns.take_down("1001", "", slot, "public", **days)
        assert shown["sure"][3:] == ["Mind: it closes nothing on any of these days.", NOW, NOTHING]
        takedowns.answer(False)
    shown = takedowns.take_down("99", "", "0", "public")
    assert shown["result"] == ["There is no disk with this number. Check the number.", "Refusal: no-accession"]
    takedowns.door.before = lambda method, path: b"" if "/rehearsals/" in path else None
    assert takedowns.take_down("1001", "", "0", "public")["result"] == [CANNOT_REACH]
    assert takedowns.door.sent() == []

@pytest.mark.parametrize("stands, is_lost", [({}, False), (takedown(1000, 0), False), ({}, True)])
def test_lost_reply_says_that_the_desk_may_have_done_it(museum, takedowns, stands, is_lost):
    takedowns.take_down("1001", "", "0", *BOTH)
    museum.rules["T1001"] = stands
    takedowns.door.before = lost_at(1, is_lost)
    shown = takedowns.answer(True)
    assert (shown["result"], ranks(shown)) == ([UNSURE, OLDER.format("takedowns")][: 1 + is_lost], [*map(str, stands)])

def test_stop_hides_no_change_that_was_sent(takedowns):
    is_stopped, lost = threading.Event(), lost_at(1)
    takedowns.take_down("1001", "", "0", "public", until="2090-01-01")
    takedowns.door.before = lambda method, path: lost(method, path) if is_stopped.wait(LIMIT) else None
    takedowns.one("#sure [value='go']").click()
    takedowns.named("button", "Stop").click()
    is_stopped.set()
    assert takedowns.wait(lambda state: not state["busy"])["result"] == [UNSURE]

# The same takedown of many disks, each at a free rank of its own.
DISKS, TYPED = (1001, 1002, 1004, 1005), ("", "all", None, "public", "room")

def test_free_rank_is_before_those_that_may_be_for_the_same_files_and_readers(museum, takedowns):
    """Cases: the slots of takedowns of the public by their ranks, none for all files; that of a new one; its rank."""
    fifty, whole = {10 * slot: slot for slot in range(1, 51)}, dict.fromkeys(range(1, 10000))
    wanted = [({}, 3, 10), ({10: 1}, 3, 20), ({10: 1, 30: 2}, 3, 20), ({990: 1, 1000: 2}, 3, 10), (fifty, 51, 510),
        ({}, None, 100), ({100: None}, 3, 90), ({90: 3, 100: None}, 4, 80), ({90: 3, 100: None}, None, 80),
        ({200: 1}, None, 100), ({10: 3}, 3, 9), ({9: 3, 10: None}, 4, 8), (fifty, None, 9), (fifty, 5, 49),
        ({1: None}, 3, 2), ({1: 2}, None, 2), (whole, 3, None), ({1: 3, 50: None}, None, 2)]
    of = lambda slot: {"audiences": ["public"], "select": {"all": True} if slot is None else {"slot": slot}}
    free = """return import("/staff.ranks.js").then(({ placeOf }) =>
        arguments[0].map(([stand, rule]) => placeOf("takedowns", 7, "", rule, stand).rank));"""
    asked = [([{**of(slot), "rank": rank} for rank, slot in stand.items()], of(slot)) for stand, slot, _ in wanted]
    assert takedowns.script(free, asked) == [rank for _, _, rank in wanted]
    museum.rules["T1006"] = {rank: takedown(rank, 0)[rank] for rank in range(1, 10000)}
    shown, words = takedowns.put_rule("takedowns", "1006", *TYPED), "All ranks of disk 1006 are in use."
    assert (shown["result"], shown["hint"], takedowns.door.sent()) == ([words], words, [])

def test_lists_of_disks_that_the_field_takes(museum, takedowns):
    museum.rules["T1005"] = {}
    right = ["1001", "1001-1011, 1020", "1-1000", "999999", "1001,,1002", " 1001 "]
    wrong = ["1-1001", "5-3", "0", "1001-", "", "x", "1000000"]
    assert takedowns.script(TAKES, takedowns.one("#takedowns [name=scope]"), [*right, *wrong]) == right
    for text in ("1001-1002, 1005 1004 1099", "1001\u20131002,1004;1005,1099"):
        asked = takedowns.put_rule("takedowns", text, *TYPED)["sure"]
        assert (asked[0], asked[2]) == ("Put a takedown of 5 disks?", "There is no disk 1099: left out.")
        assert asked[4].startswith("Closes for the public and the reading room: 8 files. Now they may read them; ")
        takedowns.answer(False)
    assert takedowns.door.sent() == []

def test_takedowns_go_on_where_the_connection_was_lost(museum, takedowns):
    museum.rules |= {"T1001": takedown(1000, 0), "T1005": {}}
    takedowns.put_rule("takedowns", "1001-1002, 1004-1005", *TYPED)
    is_seen, lost = threading.Event(), lost_at(3)
    is_held = lambda path: "/images/1004" in path and not is_seen.wait(LIMIT)
    takedowns.door.before = lambda method, path: None if is_held(path) else lost(method, path)
    takedowns.one("#sure [value='go']").click()
    takedowns.wait(lambda state: state["result"] == ["Sending: 2 of 4.Stop"])
    for place, heading in (("keys", "Keys"), ("takedowns", "Takedowns")):
        takedowns.script("location.hash = arguments[0]", f"#/{place}")
        takedowns.wait(lambda state: state["heading"] == heading)
    is_seen.set()
    said = takedowns.read(lambda state: state["result"])["result"]
    assert said[:1] == ["2 takedowns put, 0 failed, 1 in doubt, 1 not sent yet."], "a report is lost by leaving"
    assert [sorted(museum.rules.get(f"T{disk}", {})) for disk in DISKS] == [[900, 1000], [100], [], []]
    assert takedowns.push("Go on with the rest")["result"][0] == "4 takedowns put, 0 failed."
    assert [sorted(museum.rules.get(f"T{disk}", {})) for disk in DISKS] == [[900, 1000], [100], [100], [100]]
