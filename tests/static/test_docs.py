"""The pages say what is there: links, paths, crates, functions and promises; and files are short."""

import functools
import os
import re

import pytest
import unchanged
from static import rattle, records
from static.rattle import ROOT, text_of

LINK = re.compile(r"(?<!!)\[[^\]]*\]\(([^)\s]+)\)")
# A path in a page's text, as far as it is that of a file: no part of it in capitals stands for another word.
PATH = re.compile(r"(?<![\w./-])((?:tests|tools|docs|operate|web|images|bench|crates|records)/[\w.*/-]*\w/?)")
NO_PATH = re.compile(r"/out(/|$)|\*|(^|/)(NAME|CRATE|PROGRAM|PAGE|SUITE)")
COUNTED = re.compile(r"\.(md|py|sh|rt|record|js|css|c)$|^(tools|tests)/[\w-]+$")
# A name in backquotes, with what it belongs to; those that are not in Rattle; and the commands of desk.
CODED = re.compile(r"`([A-Za-z_]\w*(?:(?:::|\.)\w+)*)`")
STEP = r"(?m)^\d+\. .*(?:\n {3,}.*)*"
KIT = ("clap", "csv", "hex", "httparse", "itoa", "jiff", "matchit", "serde", "serde_json", "sha2", "sqlite")
OTHER_NAMES = ("HasCleanDisk", "UTC0", "Wary", "id", "inconsistent", "requires", "sqlite3", "u8")
ASKED = {"cat", "check", "export", "import", "init", "list", "serve", "show"}
ARCHITECTURE, PROMISES = "docs/ARCHITECTURE.md", "docs/PROMISES.md"
GONE = re.compile(r"\b(enum|struct|record|data) (way|fate|beside|sift|noted|told)\b")
FOLDERS = ("README.md", "records/README.md", "docs/*.md", "crates/*/README.md")
PAGES = sorted(str(page.relative_to(ROOT)) for pages in FOLDERS for page in ROOT.glob(pages))
of_each_page = pytest.mark.parametrize("page", PAGES)

@functools.cache
def shown(page):
    """The text of a page; lines of code are empty."""
    return re.sub(r"(?ms)^```.*?^```$", lambda code: "\n" * code[0].count("\n"), text_of(page))

def anchors(page):
    """The names by which links lead to a page's headings."""
    found = re.findall(r"(?m)^#+ (.*)", shown(page))
    return [re.sub(r"[^\w\- ]", "", heading.lower()).replace(" ", "-") for heading in found]

def sections(page):
    """The parts of a page, by the texts of their headings."""
    return {part.partition("\n")[0].replace("`", ""): part for part in re.split(r"(?m)^## ", text_of(page))}

@of_each_page
def test_links_lead_somewhere(page):
    """A link names no line, since each change of a file moves its lines."""
    for link in LINK.findall(shown(page)):
        path, _, part = link.partition("#")
        leads = os.path.normpath(os.path.join(os.path.dirname(page), path)) if path else page
        is_there = (ROOT / leads).exists() and not re.fullmatch(r"L\d+(-L\d+)?", part)
        assert re.match(r"[a-z]+:", link) or is_there and (not part or part in anchors(leads)), link

@of_each_page
def test_paths_are_there(page):
    paths = [path for path in PATH.findall(shown(page)) if not NO_PATH.search(path)]
    assert not [path for path in paths if not (ROOT / path).exists()]

def test_files_are_short():
    """No file has more than 800 lines, and no line of tests and tools more than 120 characters."""
    files = [str(file.relative_to(ROOT)) for top in os.listdir(ROOT) for file in unchanged.files_below(ROOT, top)]
    for path in filter(COUNTED.search, files):
        lines = text_of(path).splitlines()
        wide = [number for number, line in enumerate(lines, 1) if len(line) > 120]
        assert len(lines) <= 800 and not (wide and path.startswith(("tests/", "tools/"))), f"{path}: {wide}"

def test_promises_are_those_of_the_records():
    """Each item of the list names clauses of the records, and the page has their number and their premises."""
    text, promises = text_of(PROMISES), records.of_kind("promise")
    clauses = [clause for record in promises for clause in record.clauses()]
    known = ASKED | {path.split("/")[1] for _, _, path in clauses}
    known |= {word for owner, name, _ in clauses for word in re.split(r"::| for ", f"{owner or name}::{name}")}
    for item in re.findall(STEP, text):
        names = [name for name in CODED.findall(item) if name not in OTHER_NAMES]
        assert not [name for name in names if not set(name.split("::")) <= known], item
        assert names or "the prover checks this" in item, item
    assert f"All {len(promises)} promises are records" in text
    needs = {text.rpartition(": ")[2] for record in promises for text in record.texts("needs")}
    assert needs == set(re.findall(r"(?m)^- \*([^*]+)\*:", text))

def test_crates_are_those_of_the_list():
    named = set(re.findall(r"\brd_\w+", sections(ARCHITECTURE)["The crates"]))
    assert named == set(re.findall(r"(?m)^(\w+):", text_of("crates.txt")))

def test_ways_name_functions():
    ways = "".join(part for name, part in sections(ARCHITECTURE).items() if name.startswith("The way of"))
    named = set(re.findall(r"`(\w+)`", "".join(re.findall(STEP, ways)))) - {*KIT}
    sources = [str(path.relative_to(ROOT)) for path in ROOT.glob("crates/*/src/**/*.rt")]
    assert named and not named - {name for path in sources for name in rattle.items(path)}

def test_words_are_those_of_the_sources():
    """Each term of the table of words is a word of its crates, where no type has a name that says nothing."""
    rows = re.findall(r"(?m)^\| ([^|`]+) \| [^|]+ \| (`rd_[^|]+) \|", sections(ARCHITECTURE)["Words"])
    assert 30 <= len(rows) <= 40
    for terms, crates in rows:
        files = [file for crate in re.findall(r"rd_\w+", crates) for file in (rattle.CRATES / crate).glob("s*/**/*.*t")]
        text = " ".join(file.read_text(encoding="utf-8").lower() for file in files)
        assert all(re.search(rf"\b{term}s?\b", text) for term in terms.split(", ")) and not GONE.search(text), terms
