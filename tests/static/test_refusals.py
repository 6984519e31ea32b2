"""The refusals of the code and of nginx are those of docs/FORMATS.md, and those over HTTP have words on the pages."""

import re

import pytest
from static import formats
from static.rattle import text_of

REPLIED, ENDS = formats.in_code()
TABLE = {row[0].strip("`"): row[1:] for row in formats.rows("## Refusals")}
NAMES = [name for name in TABLE if re.fullmatch("[a-z-]+", name)]
# nginx's refusals, such as server-404, of which some share a row; and statuses that have no name.
SERVER = [re.findall(r"server-(\d+)", name) for name in TABLE if "server-" in name]
NUMBERS = {name for name in TABLE if name.isdigit()}

def words_of(table):
    """The keys of a table of words on the pages."""
    block = re.search(rf"(?ms)^const {table} = {{\n(.*?)^}};", text_of("web/shared.js"))[1]
    return set(re.findall(r'(?m)^  "?([a-z0-9-]+)"?:', block))

def test_names_and_their_order_are_those_of_the_code():
    assert set(NAMES) == {*REPLIED, *ENDS}
    assert [name for name in NAMES if name in REPLIED] == list(REPLIED)

@pytest.mark.parametrize("name", NAMES)
def test_status_and_body_are_those_of_the_code(name):
    status, end = REPLIED.get(name), ENDS.get(name)
    assert TABLE[name][0] == ", ".join([status] * bool(status) + [f"exit {end}"] * bool(end))
    line = "row 3 bad-row" if name == "bad-row" else f"desk: {name}"
    assert (f'{{"error":"{name}"' if status else line) in TABLE[name][1]

@pytest.mark.parametrize("request_, names", formats.rows("### By request"))
def test_refusals_of_a_request_are_in_the_order_of_the_code(request_, names):
    names = re.findall(r"`([a-z-]+)`", names)
    assert names == [name for name in REPLIED if name in names]

def test_statuses_of_nginx_are_those_of_its_files():
    server = text_of("operate/nginx/snippets/desk-server.conf")
    refused = re.search(r"(?m)^error_page ([0-9 ]+) /\.refused/\$status;", server)[1].split()
    assert set(refused) == {number for numbers in SERVER for number in numbers}

def test_pages_have_words_for_each_refusal_and_status():
    """nginx's statuses that share a row have no words of their own; 0 is that of a connection that is lost."""
    assert words_of("REFUSALS") == set(REPLIED)
    assert "no reply" in TABLE
    own = {"0", *NUMBERS, *(numbers[0] for numbers in SERVER if len(numbers) == 1)}
    assert own <= {key for key in words_of("STATUSES") if key.isdigit()} <= {*own, REPLIED["unavailable"]}
