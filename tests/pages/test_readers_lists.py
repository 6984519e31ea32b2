"""The home of the page for readers over many disks: one search, its facets and counts, pages, and Back to its place."""

import csv
import re
import threading
import urllib.parse

import pytest
from staff_helpers import CANNOT_REACH
from support import museums
from support.browser import LIMIT, TODAY, wait_for
from support.samples import reply

# A script: the link to a disk or a file that is below the head of the window, where there is one.
IN_SIGHT = """return Array.from(document.querySelectorAll(`#view ${arguments[0]}`))
  .find((one) => one.getBoundingClientRect().top > 100) ?? null"""
KINDS = {"d64": "Commodore 1541", "cpm8": "CP/M, 8 inches"}
# A script: whether what shows the list of disks keeps it once and no more of a disk than it needs.
LEAN = """return import("/room.lists.js").then(async ({ allDisks, found, known }) => { const disks = await allDisks();
  return [known(disks) === disks && (await found(disks, null, {})).hits === disks, Object.keys(disks[0])];
});"""

@pytest.fixture(scope="module")
def museum():
    """A thousand disks of twenty files each; the public sees nothing of each hundredth."""
    return museums.many(1000, 20, deeds=100, day=TODAY)

@pytest.fixture(scope="module")
def lines(museum):
    """The lines of the catalogue that the public sees, each with what its file is found by."""
    text = museum.ask_catalogue("public").reply.partition(b"\r\n\r\n")[2].decode()
    rows = list(csv.DictReader(text.splitlines()))
    for row in rows:
        shown = bytes(byte & 127 for byte in urllib.parse.unquote_to_bytes(row["name"])).decode()
        end = "" if row["kind"] == "cpm8" else f".{row['type']}"
        row["text"] = f"{shown}{end}\n{row['name']}".lower()
        row["disk"] = f"disk {row['accession']}\n{KINDS[row['kind']]}".lower()
    return rows

def in_file(line, word):
    return bool(re.search(re.escape(word).replace(r"\*", ".*"), line["text"], re.DOTALL))

def has(line, word):
    """Whether a file or its disk has a word; a number counts only as a whole there."""
    whole = rf"(?<!\d){re.escape(word)}(?!\d)" if word.isdigit() else re.escape(word)
    return in_file(line, word) or re.search(whole, line["disk"])

def said(disks, files):
    named = f" and {files:,} file{'s'[: files != 1]}" if files else ""
    return f"Found: {disks:,} disk{'s'[: disks != 1]}{named}."

def test_home_counts_disks_and_files_and_shows_them_in_pages(reader, lines):
    disks = list(dict.fromkeys(f"Disk {line['accession']}" for line in lines))
    words = f"{len(disks)} disks with {len(lines):,} files that you see."
    assert reader.wait(lambda state: state["status"] == words)["disks"] == disks[:48]
    assert reader.script(LEAN) == [True, ["accession", "kind", "files"]]
    day = reader.script("return Math.floor(Date.now() / 86400000)")
    assert reader.text("figcaption") == f"On the screen today: {disks[day % len(disks)]}"
    reader.named("link", "Next page").click()
    assert reader.read(lambda state: state["here"] == "#/?page=2")["disks"] == disks[48:96]
    assert reader.go("?page=99")["disks"] == disks[48 * (len(disks) // 48) :]
    with reader.phone():
        assert reader.load() and reader.one(".disk-title").location["y"] < 560, "a disk on the first screen"
        assert reader.push("Filter and sort") and reader.named("link", "Most files")

@pytest.mark.parametrize("place, links", [("?page=3", ".disk-title"), ("?q=letter+1", ".matches a")])
def test_back_leads_to_the_same_place(reader, place, links):
    heading = reader.go(place)["heading"]
    reader.script("window.scrollTo(0, 900)")
    link = wait_for("a link in sight", lambda: reader.script(IN_SIGHT, links))
    name, before = link.text, reader.script("return window.scrollY")
    link.click()
    assert reader.read(lambda state: state["heading"] == name) and reader.script("return window.scrollY") == 0
    reader.driver.back()
    reader.read(lambda state: state["heading"] == heading and state["disks"])
    wait_for("the link by which the reader left with the focus", lambda: reader.focused() == name)
    assert abs(reader.script("return window.scrollY") - before) <= 2
    reader.driver.forward()
    assert reader.read(lambda state: state["heading"] == name)

def test_words_find_files_and_disks_in_any_order_in_a_list_that_is_fetched_once(reader, lines):
    reader.door.visits.clear()
    for words in ("LETTER 1", "1 letter", "notes10.txt", "*.SEQ 17", "%CC%C5", "note*.txt", "dia", "997"):
        own = lambda line: sum(in_file(line, word) for word in words.lower().split())
        due = [line for line in lines if all(has(line, word) for word in words.lower().split())]
        most = dict(sorted((line["accession"], own(line)) for line in due))
        due = [line for line in due if own(line) == most[line["accession"]]]
        disks, shown = sorted({int(line["accession"]) for line in due}), reader.find(words)
        assert shown["status"] == said(len(disks), len(due)), words
        assert shown["disks"] == [f"Disk {number}" for number in disks[:48]], words
    assert reader.find("seq*notes")["disks"] == []
    reader.type("not what is in the files", "nowhere")
    wanted = "Nothing was found. Try %s."
    reader.wait(lambda state: (state["here"], state["status"]) == ("#/?q=nowhere", wanted % "another word"))
    assert reader.text("#results").startswith("Turn to the museum's staff about what you look for.")
    none = wanted % "fewer words, or all types of files, or all kinds of disks"
    assert (reader.go("?q=no+where&type=SEQ&kind=d64")["status"], reader.script("return q.value")) == (none, "no where")
    reader.script("location.hash = '#/find/letter+1'")
    reader.wait(lambda state: state["here"] == "#/?q=letter%2B1", "the search of an address of an earlier page")
    assert [path for _, path, _ in reader.door.visits if "/files/" not in path] == ["/catalogue"]

def test_facets_narrow_what_was_found_and_count_it(reader, lines):
    shown, found = reader.find("letter"), [line for line in lines if "letter" in line["text"]]
    assert f"All {len(found):,}" in shown["chips"]
    for kind, words in KINDS.items():
        count = len({line["accession"] for line in found if line["kind"] == kind})
        assert f"{words} {count}" in shown["chips"]
    reader.named("link", f"Texts, data {len(found):,}").click()
    shown = reader.read(lambda state: "type=TXT" in state["here"])
    assert shown["status"] == said(len({line["accession"] for line in found}), len(found))
    assert reader.focused() == f"Texts, data {len(found):,}"
    texts = [line for line in found if line["kind"] == "d64"]
    assert f"Texts, data {len(texts):,}" in reader.go("?q=letter&kind=d64&type=SEQ")["chips"]
    reader.named("link", "Directories").click()
    assert reader.read(lambda state: "as=screens" in state["here"]) and len(reader.texts("#results canvas")) == 48

def test_titles_are_in_order_without_articles_and_accents_and_each_letter_leads_to_its_page(tmp_path, reader, lines):
    titles = {n: f"{'The ' * (n % 2)}{'AÄB'[n % 3]}x {n}" for n in (int(line["accession"]) for line in lines)}
    (tmp_path / "titles.csv").write_text("".join(["accession,title,note\n", *(f"{n},{titles[n]},\n" for n in titles)]))
    due = [titles[disk] for disk in sorted(titles, key=lambda disk: (disk % 3 == 2, disk))]
    assert reader.load()["disks"] == due[:48]
    reader.named("link", "B").click()
    assert next(one for one in due if "B" in one) in reader.read(lambda state: "page=" in state["here"])["disks"]
    assert reader.go("?sort=number")["disks"] == [*titles.values()][:48]

def test_progress_is_said_while_the_list_comes(reader, museum):
    whole, is_said = museum.ask_catalogue("public").reply, threading.Event()
    late = lambda: is_said.wait(LIMIT) and whole[5000:]
    in_parts = (part() if callable(part) else part for part in (whole[:4000], 0.6, whole[4000:5000], late))
    reader.door.before = lambda method, path: in_parts if path == "/catalogue" else None
    reader.script("location.hash = '#/?q=letter'")
    reader.wait(lambda state: state["status"].startswith("Reading the list of all files: "), "the progress")
    is_said.set()
    assert reader.read(lambda state: state["disks"])["status"].startswith("Found: ")

def test_list_that_ends_too_early_and_a_part_of_the_page_that_does_not_come_are_said(reader):
    reader.cdp("Network.enable")
    reader.cdp("Network.setBlockedURLs", urls=["*.js"])
    try:
        assert reader.go("1/1")["refusal"] == [CANNOT_REACH]
    finally:
        reader.cdp("Network.setBlockedURLs", urls=[])
    head = reply(200, bytes(1_000_000), "text/csv").partition(b"\r\n\r\n")[0]
    reader.door.before = lambda method, path: head + b"\r\n\r\naccession,deed" if path == "/catalogue" else None
    assert reader.find("letter")["refusal"] == [CANNOT_REACH]
    reader.door.before = lambda method, path: None
    assert reader.find("letter 1")["refusal"] == []

def test_long_catalogue_is_read(reader):
    line = b'1,1,d64,0,,"a ""b"", c",PRG,258,loop crossed,R1.1,read\n'
    reader.door.before = lambda method, path: reply(200, b"heads\n" + 100_000 * line, "text/csv")
    shown = reader.find('"B", C')
    assert (shown["status"], shown["disks"]) == (said(1, 100_000), ["Disk 1"])
    assert reader.texts(".matches li")[5] == "and 99,995 more files"
