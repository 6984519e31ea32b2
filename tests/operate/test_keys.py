"""Keys that operate/desk-key makes. docs/OPERATING.md and docs/BY-HAND.md make some, too."""

import re

import pytest
from support.samples import STAFF, badge, get

@pytest.mark.parametrize("word, status, keys", [("room", 403, 2), ("staff", 200, 2), ("own", 200, 1), ("lost", 200, 2)])
def test_key_holds_and_is_shown_once_or_written(house, word, status, keys):
    """No process has it among its words, nor has the journal. That of the tools is in a file for root alone."""
    told, path = house.folder / "told", house.folder / "staff-key"
    script = house.script("script", f'echo "$*" >>{told}; exec {house.room.program} "$@"')
    house.room.write_places(house.folder / "places", PROGRAM=script)
    told.touch()
    code, out, errors = house.run("desk-key", word)
    shown = re.fullmatch("[0-9a-f]{64}\n", out)
    key = out.strip() if shown else path.read_text().split()[1]
    assert (code, errors, len(key)) == (0, f"its SHA-256 is {badge(key)[8:]}\n" if shown else "", 64), out
    assert key not in told.read_text() + house.journal.read_text(), "a key is among words, or in the journal"
    assert house.room.ask_desk(get("/staff/keys", key))[0] == status
    assert len(house.listed("keys", path.read_text().split()[1])) == keys and (shown or path.stat().st_mode == 0o100600)
    assert house.calls() == (["stop", "start"] if word == "lost" else [])

@pytest.mark.parametrize("word", ["room", "own"])
def test_no_key_is_made_where_the_desk_does_not_take_it(house, word):
    (house.folder / "staff-key").write_text("Desk-Key: another\n")
    refused = 1, "", "desk-key: the staff's door refuses it: 401 unknown-key\n"
    assert house.run("desk-key", word) == refused and len(house.listed("keys", STAFF)) == 1
