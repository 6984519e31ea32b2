"""The tables of docs/FORMATS.md, and the refusals of the code with their statuses."""

import functools
import re

from static.rattle import text_of

PROGRAM, DESK = "crates/rd_commands/src/refusal.rt", "crates/rd_protocol/src/refusal.rt"
VISIT = "crates/rd_messages/src/fault.rt"
# A reply and a line that stand in the code by themselves.
UNAVAILABLE, BAD_ROW = {"unavailable": "503"}, {"bad-row": "1"}

def rows(heading):
    """The cells of the rows of the first table under a heading of the page."""
    text = text_of("docs/FORMATS.md").partition(f"\n{heading}\n")[2]
    lines = re.search(r"(?m)(?:^\|.*\n)+", text)[0].splitlines()
    return [[cell.strip() for cell in line.strip("|").split(" | ")] for line in lines[2:]]

def arms(code, function):
    """What stands behind each case of a function's match."""
    body = re.search(rf"(?s)fn {function}\(.*?\n    }}\n", code)[0]
    found = re.findall(r"((?:\|?\s*\w+::\w+(?:\([^)]*\))?\s*)+)=> ([^,]+),", body)
    return {case: value for cases, value in found for case in re.findall(r"\w+::(\w+)", cases)}

def by_name(path, function, pattern):
    """The statuses of a source's refusals, by their names. A function gives each name, in a pattern."""
    statuses, named = arms(text_of(path), "status"), arms(text_of(path), function)
    return {re.search(pattern, value)[1]: statuses.get(case) for case, value in named.items()}

@functools.cache
def in_code():
    """All refusals of the code by their names: the statuses over HTTP, and those with which the program ends."""
    replied = by_name(VISIT, "body", r'\\"error\\":\\"([a-z-]+)\\"') | by_name(DESK, "name", r'"([a-z-]+)"')
    ends = by_name(PROGRAM, "name", r'"([a-z-]+)(?: [A-Z]0)?"')
    return replied | UNAVAILABLE, ends | BAD_ROW
