"""What the tests of the staff's page share: its words, lost connections, lines of the journal, saved tables."""

import csv
import datetime

from support import museums
from support.browser import TODAY
from support.samples import compact

CANNOT_REACH = "This page cannot reach the desk. Check the connection, and try again."
MAY_BE = " The desk may have done it all the same. You can safely send it again."
UNSURE = f"{CANNOT_REACH}{MAY_BE}"
# What the page says where it cannot read anew what stands, by a word for that.
OLDER = "The {} could not be read anew after that: the list below may be older. Open this view again."
# A script: all places of a page in which something could be left.
LEFT = """return [location.href, document.referrer, document.cookie, JSON.stringify({...localStorage}), document.title,
    JSON.stringify({...sessionStorage}), JSON.stringify(history.state), document.documentElement.outerHTML,
    ...Array.from(document.querySelectorAll("input"), (field) => field.value)].join(" ");"""
# A script: which of some texts a field takes.
TAKES = """const [field, texts] = arguments;
const type = (text) => Object.assign(field, { value: text }).dispatchEvent(new Event("input", { bubbles: true }));
return texts.filter((text) => type(text) && field.checkValidity());"""

def put_deed(staff, deed="35", donor="F. Founder"):
    return staff.fill("deeds", deed=deed, donor=donor, signed="1999-12-31").submit("deeds")

takedown = lambda rank, slot: {rank: museums.rule(rank, "deny", ("public", "room"), {"slot": slot})}

def lost_at(number, stays=False):
    """Has the connection lost by which the change of this number is put; where it stays lost, all from then on."""
    came = []
    take = lambda method, path: came.append(method != "GET" and not path.startswith("/staff/"))
    is_lost = lambda: sum(came) >= number and (stays or came[-1] and sum(came) == number)
    return lambda method, path: take(method, path) or (b"" if is_lost() else None)

def saved_table(page, name, button="Save what is shown as CSV"):
    """The records of a table that a button saves, by its name up to the moment at which the page asked for it."""
    mark, text = page.push(button) and page.saved(f"{name}-{TODAY}T12*Z.csv").decode().partition("museum")[::2]
    assert f"Saved: {name}-{TODAY}T12" in "".join(page.texts("[role=status]")), "nothing says that it is saved"
    records = list(csv.reader(f"museum{text}".splitlines()))
    assert mark == "\ufeff", "a spreadsheet takes it for other than UTF-8"
    assert ", in UTF-8, saved by “Ada Archivist”, as they typed their name (" in records[0][1], name
    return records

def moment(at):
    return datetime.datetime.fromtimestamp(at, datetime.timezone.utc).strftime("%Y-%m-%dT%H:%M:%S+00:00")

in_utc = lambda at: moment(at).replace("T", " ").replace("+00:00", " UTC")

def is_said_saved(page):
    return "Saved: " in "".join(page.texts("[role=status]"))

def journal_lines(number, at, status, method, path, staff="", note="", body=""):
    """The lines of a change in the journal, as nginx writes them: when it came, and, with its status, when it ended."""
    keys = {"id": f"{int(number):032x}", "method": method, "path": path, "staff": staff, "note": note, "body": body}
    ends = [(at, "begun"), *([(at + 0.5, status)] if status else [])]
    return b"".join(compact({**keys, "moment": moment(when), "at": when, "status": end}) + b"\n" for when, end in ends)
