"""The forms of the staff's page: which keys and texts they take, what is said of a reply; a key is shown nowhere."""

import pytest
from staff_helpers import LEFT, MAY_BE, TAKES, UNSURE, put_deed
from support.browser import STAFF
from support.samples import digest, refused, reply
from support.stand_in import refused_by_nginx

# A script: what the desk says to who asks with the page's own key.
ASK = """return import("/shared.js").then(async (a) => (await fetch("/staff/keys", { headers: a.fields() })).status);"""

def give(staff, key):
    staff.one("#key").send_keys(key)
    return staff.push("Use it")

def test_page_begins_with_a_key_of_the_staff_alone(staff):
    wanted = {"nobody's": "The desk does not know this key. Type it again, or use another.Refusal: unknown-key",
              "hello": "Only the staff may do this. Use a key of the staff.Refusal: staff-only"}
    assert staff.load()["caller"] == "You have given no key."
    for key, words in wanted.items():
        shown = give(staff, key)
        assert (shown["status"][: len(words)], staff.one("#work").is_displayed()) == (words, False)
    shown = give(staff, STAFF)
    assert (shown["status"], shown["caller"]) == ("The desk takes this key.", "You work with a key of the staff.")
    assert staff.one("#work").is_displayed()

@pytest.mark.parametrize("leave", ["Forget it", None])
def test_key_is_left_nowhere_and_is_gone_with_what_was_put(museum, staff, leave):
    key = "the key of quiet staff"
    museum.badges[digest(key.encode())] = "staff"
    give(staff, key)
    assert (staff.script(ASK), key in staff.script(LEFT)) == (200, False)
    put_deed(staff, donor="G. Giver")
    staff.push(leave) if leave else staff.load()
    shown = staff.wait(lambda state: state["caller"] == "You have given no key." and not state["busy"])
    assert (shown["rows"], "Giver" in staff.script(LEFT), staff.script(ASK)) == ([], False, 403)

def test_key_that_is_put_stands_in_no_field_and_no_text(staff):
    assert staff.go("keys") and staff.fill("keys", key=" a secret\t", audience="room", seen=True).submit("keys")
    assert ("a secret" in staff.script(LEFT), staff.one("#keys [name=key]").get_property("type")) == (False, "password")
    assert [path for _, path, _, _ in staff.door.sent()] == [f"/badges/{digest(b'a secret')}"]

def test_fields_take_what_the_desk_takes(staff):
    wanted = [("deeds", "deed", ["1", "999999"], ["0", "012", "1000000", "", "x"]), ("deeds", "donor", ["x"], [""]),
        ("rules", "until", ["", "0001-01-01"], ["0000-01-01", "2030-1-1"]),
        ("deeds", "signed", ["2020-02-29", "9999-12-31"], ["", "2021-02-29", "29/02/2020"]),
        ("rules", "rank", ["1", "9999"], ["0", "10000"]),
        ("keys", "digest", ["", "0" * 64, "A" * 64], ["0" * 63, "g" * 64]),
        ("slot", "what", ["0", "9999"], ["00", "10000", ""]), ("user", "what", ["0", "15"], ["16", ""]),
        ("type", "what", ["", "A" * 16], ["A" * 17]), ("prefix", "what", [" ", "~" * 64], ["", "A" * 65, "\u00e4"])]
    for section, name, right, wrong in wanted:
        staff.go("rules" if name == "what" else section)
        if name == "what":
            staff.fill("rules", how=section)
            section = "rules"
        assert staff.script(TAKES, staff.one(f"#{section} [name={name}]"), [*right, *wrong]) == right, (section, name)
    assert staff.fill("rules", how="all") and not staff.one("#rules .what").is_displayed()
    assert not staff.script("return document.querySelector('#rules [name=audiences]').validity.valid")
    options = "return Array.from(document.querySelectorAll('#takedowns [name=effect] option'), (one) => one.value)"
    assert staff.go("takedowns") and staff.script(options) == ["", "list", "deny"]

def test_reply_to_a_change_is_explained(staff):
    wanted = [(refused(422, "digest-differs"), "The desk received other bytes than you sent. Send them again."),
        (refused_by_nginx(504, "X"), f"The desk took too long. Try again.{MAY_BE}"),
        (refused_by_nginx(413, "X"), "That is longer than the desk takes. It takes at most 262,144 bytes."),
        (refused_by_nginx(429, "X"), "You ask too often. Wait a little, and try again."), (b"", UNSURE),
        *((reply(200, data), "This page cannot read the desk's answer.") for data in (b"<html>", b'{"done":1}'))]
    for instead, words in wanted:
        staff.door.before = lambda method, path: None if method == "GET" else instead
        assert put_deed(staff)["result"][0] == words
    staff.door.before = lambda method, path: None
    assert staff.submit("deeds")["result"] == ["Put: deed 35."]
