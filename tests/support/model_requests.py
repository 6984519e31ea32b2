"""What the bytes of a visit ask, by plain functions: the head and its framing, the path, and the bodies of commands."""

import collections
import datetime
import json
import re

from support.samples import BAD_BODY, BAD_HEAD, FRAMING, compact, refused

HEAD_LIMIT, BODY_LIMIT = 8192, 262144
TOKEN = rb"[!#$%&'*+.^_`|~0-9A-Za-z-]+"
# A head with the empty lines before it: its method, its target, and its fields.
HEAD = re.compile(
    rb"(?:\r?\n)*(%b) ([!-~\x80-\xff]+) HTTP/1\.[01]\r?\n((?:%b:[\t -~\x80-\xff]*\r?\n){0,64})\r?\n" % (TOKEN, TOKEN))
# The bytes of a visit in their parts, with what follows the head.
Parts = collections.namedtuple("Parts", "method target fields rest")
# What is asked: a word for it, the parts of the path, the key's bytes or None, and the body.
Asked = collections.namedtuple("Asked", "what parts key body")
NUMBER, RANK, SLOT = "([1-9][0-9]{0,5})", "([1-9][0-9]{0,3})", "(0|[1-9][0-9]{0,3})"
KIND, DIGEST = "(cpm8|d64|d64e)", "([0-9A-Fa-f]{64})"
# Each path, and what its methods ask.
ROUTES = [(re.compile(path), methods) for path, methods in [
    ("/images", {"GET": "ask images"}), ("/catalogue", {"GET": "ask catalogue"}),
    (f"/images/{NUMBER}", {"GET": "ask listing"}), (f"/images/{NUMBER}/files/{SLOT}", {"GET": "ask bytes"}),
    (f"/images/{NUMBER}/survey", {"GET": "survey"}), (f"/images/{NUMBER}/check", {"POST": "check"}),
    (f"/accessions/{NUMBER}/{KIND}/{NUMBER}/{DIGEST}", {"PUT": "put image"}),
    (f"/(deeds|images)/{NUMBER}/rules/{RANK}", {"PUT": "put rule", "DELETE": "drop rule"}),
    (f"/deeds/{NUMBER}", {"PUT": "put deed"}),
    (f"/badges/{DIGEST}", {"PUT": "put key", "DELETE": "drop key"})]]

class Refused(Exception):
    """The reply that is due in place of an answer."""

def refuse_if(holds, reply):
    if holds:
        raise Refused(reply)

def parted(data):
    """The parts of the bytes of a visit; None where they begin with no head."""
    found = HEAD.match(data, 0, HEAD_LIMIT)
    try:
        method, target = found[1].decode(), found[2].decode()
    except (TypeError, UnicodeDecodeError):
        return None
    lines = [line.partition(b":") for line in found[3].splitlines()]
    return Parts(method, target, [(name.lower(), value.strip(b" \t")) for name, _, value in lines], data[found.end() :])

def values(parts, name):
    return [value for one, value in parts.fields if one == name]

def length_of(parts):
    """The length of the body that the fields tell, or None where they tell none."""
    found = re.fullmatch(b"0*([0-9]{1,6})", b" ".join(values(parts, b"content-length") or [b"0"]))
    return int(found[1]) if found and int(found[1]) <= BODY_LIMIT and not values(parts, b"transfer-encoding") else None

def is_waited_for(data):
    """Whether a desk that has these bytes waits for more."""
    parts = parted(data)
    if parts is None:
        return len(data) < HEAD_LIMIT and not re.search(rb"\n\r?\n", data.lstrip(b"\r\n"))
    length = length_of(parts)
    return length is not None and length > len(parts.rest)

def asked_by(data, routes):
    """What the bytes of a visit ask of some routes. Raises the reply that is due where they ask nothing."""
    parts = parted(data)
    refuse_if(parts is None, BAD_HEAD)
    length, keys = length_of(parts), values(parts, b"desk-key")
    refuse_if(length is None or len(keys) > 1 or length > len(parts.rest), FRAMING)
    matched = ((pattern.fullmatch(parts.target.split("?")[0]), methods) for pattern, methods in routes)
    found, methods = next((route for route in matched if route[0]), (None, None))
    refuse_if(not found, refused(404, "no-route"))
    refuse_if(parts.method not in methods, refused(405, "method", f"Allow: {', '.join(methods)}"))
    return Asked(methods[parts.method], found.groups(), keys[0] if keys else None, parts.rest[:length])

# Bodies: patterns of their objects, as they are written without blanks and with their keys in order

DAY, AUDIENCE, PRINTED = '"[0-9]{4}-[0-9]{2}-[0-9]{2}"', '"(?:public|room|staff)"', r'(?:[ !#-\[\]-~]|\\["\\])'
SELECT = '"all":true|"slot":[0-9]{1,4}|"user":(?:[0-9]|1[0-5])|"prefix":"%s{0,64}"|"type":"%s{0,16}"'
RULE = r'{"audiences":\[%s(?:,%s)*\],"effect":"(?:deny|list|read)"(?:,"from":(?:%s|null))?,"select":{(?:%s)}'
RULE = RULE % (AUDIENCE, AUDIENCE, DAY, SELECT % (PRINTED, PRINTED)) + '(?:,"until":(?:%s|null))?}' % DAY
DEED, KEY = r'{"donor":"(?:[^"\\]|\\["\\])+","signed":%s}' % DAY, '{"audience":"(?:room|staff)"}'

def number(text):
    """A number; one that is not of digits alone gets a point, which no body may have."""
    if len(text) > 300 or not abs(float(text)) < float("inf"):
        raise ValueError(text)
    return int(text) if text.isdigit() else float(text)

def object_of(body, pattern):
    """The object of a body, which has to be as a pattern says, and its days to be some."""
    reading = dict.fromkeys(("parse_int", "parse_float", "parse_constant"), number)
    # (half of a pair of surrogates is no text)
    reading["object_pairs_hook"] = lambda pairs: compact(pairs) and dict(pairs)
    try:
        value = json.loads(body.decode(), **reading)
        text = compact(value).decode()
        for day in re.findall(r'"(?:from|signed|until)":"([0-9-]{10})"', text):
            datetime.date.fromisoformat(day)
    except (ValueError, RecursionError) as fault:
        raise Refused(BAD_BODY) from fault
    refuse_if(not re.fullmatch(pattern, text), BAD_BODY)
    return value

def rule_of(body, rank, effects):
    """A rule as a table; without its rank it is the body's own keys."""
    value = object_of(body, RULE)
    is_twice = len(set(value["audiences"])) < len(value["audiences"])
    refuse_if(is_twice or value["effect"] not in effects, BAD_BODY)
    return {"rank": rank, "from": None, "until": None, **value}
