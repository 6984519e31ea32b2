"""The records of rules and promises name what is there: pages, definitions, functions, proofs, tests and wrong bodies;
and each refusal, each fault and each limit has a rule."""

import collections
import re

import pytest
from static import formats, rattle, records
from static.rattle import ROOT, parts_of, text_of

# What a record has to have: of each item one of the words. A note says why there is none.
DUE = {"rule": ["page", "defined", "coded", "tested", "refused note"], "promise": ["clause note", "tested note"],
    "unproved": ["coded", "tested note"]}
# The crates whose src/ is tests, and nothing else; and what makes a function a test.
TESTS = ("rd_disk_tests", "rd_tests", "rd_stop_runs")
TEST = r"#\[test\](?:\s*(?:#\[.*\]|//.*))*\s*(?:pub(?:\([^)]*\))? )?fn {}\b"

def is_page(_, path, name):
    return re.match(r"docs/|crates/\w+/README\.md$", path) and name in re.findall(r"(?m)^#+ (.*)", text_of(path))

def is_coded(record, path, name):
    """Whether src/ has this function or constant; what is unproved may be a whole file."""
    is_there = name.rpartition("::")[2] in rattle.items(path) if name else record.kind == "unproved"
    return parts_of(path)[1] == "src" and text_of(path) and is_there

def is_tested(record, path, name):
    """Whether a trial has this visit, run or note; a file of runs this run; a test this text or function; or a file for
    pytest this test, or any. What shows a promise, or what no clause says, is itself a test, not what tests call."""
    (crate, folder, inside), word, text = parts_of(path), re.escape(name), text_of(path)
    if re.fullmatch(r"tests/\w+/test_\w+\.py", path):
        return re.search(rf"(?m)^ *def {word}\b" if name else r"(?m)^ *def test_", text)
    is_test = folder == "data" or folder == "src" and (inside.startswith("tests") or crate in TESTS)
    if not (is_test and text and name):
        return is_test and text and record.kind != "rule"
    if folder == "data":
        return re.search(rf"(?m)^(?:visit |run |# ){word}$", text)
    if crate == "rd_stop_runs":
        return f'name: "{name}",' in text
    is_called = f'"{name}"' in text or is_coded(record, path, name)
    return is_called if record.kind == "rule" else re.search(TEST.format(word), text)

# What is behind a word: whether it is there, by the record, the path and the name.
THERE = {"page": is_page, "coded": is_coded, "tested": is_tested,
    "defined": lambda _, path, name: parts_of(path)[1] == "specs" and rattle.has_definition(path, name),
    "refused": lambda _, path, name: path.endswith(".edit") and text_of(path) and not name,
    "file": lambda _, path, name: parts_of(path)[1] == "specs" and path.endswith(".antt") and text_of(path),
    "clause": lambda _, path, name: rattle.clause_text(rattle.Clause(*name.rpartition(": ")[::2], path))}

def test_lines_have_a_word_of_their_record():
    assert not records.read()[1]

@pytest.mark.parametrize("kind, words", [(kind, words) for kind in DUE for words in DUE[kind]])
def test_records_say_what_is_due(kind, words):
    assert not [str(one) for one in records.of_kind(kind) if not any(map(one.texts, words.split()))]

def test_titles_stand_once():
    titles = collections.Counter((record.kind, record.title) for record in records.read()[0])
    assert not [title for title, count in titles.items() if count > 1]

@pytest.mark.parametrize("word", THERE)
def test_names_are_there(word):
    for record in records.read()[0]:
        assert not [pair for pair in record.named(word) if not THERE[word](record, *pair)], record

def test_proofs_that_are_not_automatic_are_named():
    for record in records.of_kind("rule"):
        own = {folder for pair in record.named("coded") for folder in rattle.proof_folders(*pair)}
        assert own == set(record.texts("proved")), record

def test_wrong_bodies_change_what_the_rule_names():
    for record in records.of_kind("rule"):
        for file, old, _ in (pair for path in record.texts("refused") for pair in rattle.pairs_of(path)):
            before, is_found, _ = text_of(file).partition(old)
            coded = {name.rpartition("::")[2] for coded, name in record.named("coded") if coded == file}
            assert not is_found or rattle.item_at(file, before.count("\n"))[1] in coded, f"{record}: {file}"

def test_contracts_cite_what_is_defined():
    for record in records.of_kind("rule"):
        cited = {one for path, name in record.named("coded") for one in rattle.cited(path, name.rpartition("::")[2])}
        told = "".join(note for note in record.texts("note") if note.startswith("Its definition is cited by"))
        places = [(path, name.partition(".")[0]) for path, name in record.named("defined")]
        assert not [place for place in places if place not in cited and f"`{place[1]}`" not in told], str(record)

def test_each_refusal_fault_and_limit_has_a_rule():
    """A rule begins with the name of a refusal or of a fault, or names the constant of a limit."""
    titles = {re.split("[:,]", record.title.lower())[0] for record in records.of_kind("rule")}
    faults = re.findall(r'"([a-z-]+)"', text_of("crates/rd_volume/src/words.rt"))
    assert not {*faults, *(name for found in formats.in_code() for name in found)} - titles
    paths = [str(file.relative_to(ROOT)) for file in rattle.CRATES.glob("*/src/limits.rt")]
    limits = {(path, name) for path in paths for name in re.findall(r"(?m)^pub const (\w+)", text_of(path))}
    assert limits and not limits - {pair for record in records.of_kind("rule") for pair in record.named("coded")}

def test_promises_rest_on_sets_that_are_there_and_each_file_is_in_one():
    files = collections.Counter(path for record in records.of_kind("definitions") for path in record.texts("file"))
    assert max(files.values()) == 1, files.most_common(1)
    rests = {name for record in records.of_kind("promise") for name in record.texts("rests")}
    assert rests == {record.title for record in records.of_kind("definitions")}

def test_clause_on_an_open_connection_or_a_clean_disk_has_the_premise():
    meant = {"IsOpen": {"open", "open before"}, "IsClean": {"clean"}}
    for record in records.of_kind("promise"):
        needs = {text.rpartition(": ")[2] for text in record.texts("needs")}
        said = set(re.findall(r"\b(?:IsOpen|IsClean)\b", "\n".join(map(rattle.clause_text, record.clauses()))))
        assert all(meant[word] & needs for word in said), record
