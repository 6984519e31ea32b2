"""Each wrong body can be tried: its old texts stand once in src/ of its crate, and a test that refuses it is there. And
each was tried, as far as a record says: a release has to have no crate whose trial is older than its text."""

import re
import runpy
import types
import warnings

import pytest
from static.rattle import ROOT, applied, item_at, lines_of, pairs_of, parts_of, text_of

# The names of the tool, as its functions find them.
TOOL = runpy.run_path(str(ROOT / "tools/wrong-bodies"))["due"].__globals__
EDITS = sorted(str(edit.relative_to(ROOT)) for edit in ROOT.glob("crates/*/*/*.edit"))

def test_old_texts_stand_once():
    for path in EDITS:
        pairs = pairs_of(path)
        assert pairs and applied(pairs), f"{path}: it is no file, old texts that stand there once and new ones"
        changed = [old for file, old, new in pairs if parts_of(file)[1] == "src" and "" != old.strip() != new.strip()]
        assert len(changed) == len(pairs), path

def test_no_two_have_one_name():
    assert EDITS and len({(parts_of(path)[0], parts_of(path)[2]) for path in EDITS}) == len(EDITS)

def test_those_that_a_test_refuses_name_it():
    for path in EDITS:
        named = re.match(r"test: (\w+) (?:([\w-]+\.trial)|(\w+))\n", text_of(path))
        assert bool(named) == (parts_of(path)[1] == "tested-edits"), path
        tests = (ROOT / "crates" / named[1]).glob(f"data/{named[2]}" if named[2] else "src/**/*.rt") if named else ()
        assert not named or any(named[2] or f"fn {named[3]}(" in test.read_text() for test in tests), path

def test_each_crate_was_tried_as_it_is(request):
    due = TOOL["due"]()
    told = f"without a line of their text as it is, or with an edit that is not refused: {' '.join(due)}"
    assert not (due and request.config.getoption("--release")), told
    if due:
        warnings.warn(told, stacklevel=1)

@pytest.mark.parametrize("came, left, line", [
    ({"a": (True, ""), "b": (True, "")}, [], r"rd_cpm \w{16} 2 of 2 refused, 0 left to tests\n"),
    ({"a": (True, ""), "b": (False, "")}, [], r"rd_cpm \w{16} 1 of 2 refused, 0 left to tests\n"),
    ({"a": (True, "")}, ["b"], ""), ({}, [], "")], ids=["refused", "one not", "not all tried", "none"])
def test_line_of_a_crate_is_written_once_all_is_tried(monkeypatch, tmp_path, came, left, line):
    monkeypatch.setitem(TOOL, "TRIED", tmp_path / "tried")
    monkeypatch.setitem(TOOL, "try_crate", lambda *given: (came, left))
    TOOL["TRIED"].write_text("# A note.\nrd_aaa none: why\nrd_zzz none: why\n")
    assert TOOL["try_crates"](None, [types.SimpleNamespace(name="rd_cpm")], 0) == ("1 of 2" in line or bool(left))
    assert re.fullmatch(rf"# A note\.\nrd_aaa none: why\n{line}rd_zzz none: why\n", TOOL["TRIED"].read_text())
    assert ("rd_cpm" in TOOL["due"]()) == ("2 of 2" not in line)

def test_no_check_begins_once_the_time_is_over():
    tried = TOOL["try_crate"](None, types.SimpleNamespace(name="rd_cpm"), 0)
    assert [*map(len, tried)] == [0, len(TOOL["edits_of"]("rd_cpm"))]

def test_digest_is_of_what_a_trial_reads(monkeypatch, tmp_path):
    monkeypatch.setitem(TOOL, "ROOT", tmp_path)
    digests = [TOOL["digest_of"]("rd_cpm")]
    for path in ("rd_cpm/proofs/a.antt", "rd_cpm/more-edits/a.edit", "rd_geometry/specs/A.antt",
                 "rd_cpm/tested-edits/a.edit", "rd_geometry/proofs/a.antt", "rd_volume/specs/A.antt"):
        (tmp_path / "crates" / path).parent.mkdir(parents=True, exist_ok=True)
        (tmp_path / "crates" / path).touch()
        digests.append(TOOL["digest_of"]("rd_cpm"))
    assert len(set(digests[:4])) == 4 and set(digests[3:]) == {digests[3]}

def test_an_attribute_is_of_the_function_below():
    disk = "crates/rd_geometry/src/cbm_disk.rt"
    attributes = [number for number, line in enumerate(lines_of(disk)) if line.startswith("    #[")]
    assert [item_at(disk, number) for number in attributes] == [(True, "index"), (True, "address")]

def test_a_method_is_found_where_its_type_has_it():
    sources = TOOL["Sources"]("rd_store")
    named = {"images": "store::Store::accessions", "register": "register::Register::accessions"}
    assert all(sources.function_of(name.split("::")) == (path, "accessions") for path, name in named.items())
