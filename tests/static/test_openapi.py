"""web/openapi.json has the paths, methods, statuses and limits of docs/FORMATS.md, and the paths of the code."""

import json
import re

import pytest
from static import formats
from static.rattle import text_of

API = json.loads(text_of("web/openapi.json"))
# What every request may be refused for, and what is refused before there is a request at all.
ALWAYS, NOT_HERE = {"bad-head", "framing", "unavailable"}, {"no-route", "method"}
PARTS = {name.upper(): name for name in ("acc", "deed", "rank", "slot", "kind", "digest", "date")}

def in_braces(path):
    """A path of the page as the code writes it."""
    return re.sub(r"\b[A-Z]{3,}\b", lambda part: "{%s}" % PARTS[part[0]], path)

def refusals():
    """The names of the refusals of each method of each path, by the page's list. A row of paths with `..` at their end
    is of rehearsals, which are refused as what they rehearse."""
    found = {}
    for asked, names in formats.rows("### By request"):
        method = None
        for word, path in re.findall(r"\b(GET|PUT|POST|DELETE)\b|`(/[^`]*)`", asked):
            method = word.lower() or method
            found[in_braces(path), method] = {*re.findall(r"`([a-z-]+)`", names)} | ALWAYS
    begins = [path.removesuffix("/..") for path, _ in found if path.endswith("/..")]
    return found | {(begin + path, method): names for begin in begins for (path, method), names in found.items()}

REFUSALS = refusals()
STATUSES = {row[0].strip("`"): row[1].split(",")[0] for row in formats.rows("## Refusals")}
HERE = {path: {key: one for key, one in item.items() if key != "parameters"} for path, item in API["paths"].items()}

def test_paths_and_methods_are_those_of_the_page_and_the_code():
    rows = formats.rows("## A visit over HTTP")
    pairs = [(path, methods) for paths, methods, _ in rows for path in re.findall(r"`([^`]*)`", paths)]
    assert {in_braces(path): set(methods.lower().split(", ")) for path, methods in pairs} == {
        path: set(item) for path, item in HERE.items()}
    assert set(HERE) == set(re.findall(r'\(\s*"(/[^"]*)",', text_of("crates/rd_messages/src/table.rt")))

@pytest.mark.parametrize("path", HERE)
def test_parts_of_a_path_are_declared(path):
    named = [one["$ref"].rpartition("/")[2] for one in API["paths"][path].get("parameters", [])]
    assert named == re.findall(r"\{(\w+)\}", path)

@pytest.mark.parametrize("path, method", [(path, method) for path in HERE for method in HERE[path]])
def test_statuses_are_those_of_the_page(path, method):
    wanted = {"200", *(STATUSES[name] for name in REFUSALS.get((path, method), set()) - NOT_HERE)}
    assert set(HERE[path][method]["responses"]) == wanted

def test_limits_of_numbers_are_those_of_the_page():
    rows = re.findall(r"(?m)^\| ((?:`[A-Z]+`(?:, )?)+) \| a number from ([^|]*) \|$", text_of("docs/FORMATS.md"))
    pairs = [(PARTS[name], words) for names, words in rows for name in re.findall("[A-Z]+", names)]
    page = {name: [int(number) for number in re.findall(r"\d+", words.replace(",", ""))[:2]] for name, words in pairs}
    schemas = {name: part["schema"] for name, part in API["components"]["parameters"].items()}
    numbers = {name: schema for name, schema in schemas.items() if schema["type"] == "integer"}
    found = {name: [schema["minimum"], schema["maximum"]] for name, schema in numbers.items()}
    assert found and found == {name: page.get(name) for name in found}

def test_references_lead_somewhere_and_each_is_used():
    names = [(kind, name) for kind in ("parameters", "schemas") for name in API["components"][kind]]
    used = set(re.findall(r'"\$ref": "([^"]*)"', json.dumps(API)))
    assert used == {f"#/components/{kind}/{name}" for kind, name in names}
