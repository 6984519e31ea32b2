"""Visits that Hypothesis makes by mutation of good ones: heads, lengths, paths, JSON, images, keys and cuts."""

import collections
import json
import re

from hypothesis import strategies as st
from support import trials
from support.samples import (
    ALL, DONOR_OF_9, EVERY, IMAGES, LONG_DISK, MARKED_DISK, badge, check, digest, drop, get, put, put_image, put_rule,
    raw, survey)

DISKS = [("d64", trials.image("full.image")), ("cpm8", LONG_DISK), ("d64e", MARKED_DISK)]
DISKS += [(kind, image) for kind, _, image in IMAGES.values()]
DATES = ["2019-05-04", "0001-01-01", "9999-12-31", "2020-02-29"]
AUDIENCES = [ALL, ["public"], ["room"], ["staff"], ["staff", "public"], ["room", "public"]]
SELECTORS = [EVERY, {"slot": 0}, {"slot": 1}, {"user": 0}, {"prefix": "H"}, {"type": "TXT"}]

class Visit(collections.namedtuple("Visit", "data parts", defaults=(1,))):
    """The bytes of a visit, and in how many parts they are sent."""

    def __repr__(self):
        return f"Visit of {len(self.data)} bytes in {self.parts} parts: {self.data[:2000]!r}"

def request(one):
    """A good request, by one that draws of options. Some ask for what is not there, or may not be done."""
    acc, deed = one(*IMAGES, 12, 20, 21, 99), one(7, 8, 9, 9, 10, 11, 99)
    what = one(*["ask"] * 3, "look", "deed", "key", "image", "images", "deeds")
    if what == "ask":
        file, disk = f"/images/{acc}/files/{one(0, 0, 0, 1, 1, 2, 3, 15)}", f"/images/{acc}"
        key = one(None, None, "hello", "reader", "second", "abc", "abc", "nobody")
        return get(one(file, file, disk, disk, "/images", "/catalogue"), key)
    asked = one(survey, check)(acc)
    if what == "deed":
        asked = put(f"/deeds/{deed}", {"donor": one(DONOR_OF_9, "x" * 1000, "|;'"), "signed": one(*DATES)})
    elif what == "key":
        path, audience = badge(one("hello", "reader", "second", "second", "abc")), one("room", "staff", None)
        asked = put(path, {"audience": audience}) if audience else drop(path)
    elif what == "image":
        (kind, image), told = one(*DISKS), one(*[None] * 5, digest(b""))
        asked = put_image(acc, one(*[kind] * 9, "cpm8", "d64", "d64e"), deed, image, told)
    elif what != "look":
        path = f"/{what}/{acc if what == 'images' else deed}/rules/{one(1, 2, 10, 9999)}"
        effect = one("deny", "list", None, *["read"] * (3 if what == "deeds" else 0))
        days = {name: one(*DATES, None) for name in one((), ("from",), ("until",), ("from", "until"))}
        asked = put_rule(path, effect, one(*SELECTORS), *one(*AUDIENCES), **days) if effect else drop(path)
    return asked._replace(key=one(*["abc"] * 12, "second", None, "hello"))

# Mutations. Words of a head or of a body stand in the place of others, or beside them

NUMBERS = "0 00 1 012 15 16 -1 +1 1.0 1e3 9999 10000 999999 1000000 262144 262145 18446744073709551616 \uff11".split()
HEAD_WORDS = """
    images rules check survey d64e d81 .. * / ? ?/files/1 %31 http://desk é : \0 \x7f GET PUT POST DELETE HEAD get
    CONNECT HTTP/1.0 HTTP/1.2 abc hello second ü
""".split()
HEAD_WORDS += [*NUMBERS, "", " ", "\r", "\n", "\n\n", "\t abc \t", "q" * 7000, "0\r\nContent-Length: 0"]
HEAD_WORDS += ["x\r\n" + line for line in ("Desk-Key: abc", "Transfer-Encoding: chunked", "Expect: 100-continue")]
HEAD_WORDS += ["x" + count * "\r\nA: b" for count in (62, 63, 64, 65)]
HEAD_WORDS = [word.encode() for word in HEAD_WORDS] + [b"\xff", b"\xc3"]
VALUES = ["", "A" * 64, "A" * 65, "x" * 1001, "é" * 501, "\x7f", "a\x1fb", "\0", 'quo"te', "2020-01-01T", *DATES]
VALUES += "~ room staff deny list Public from until donor".split()
VALUES += "2021-02-29 0000-01-01 10000-01-01 2020-1-01 2020-13-01".split()
VALUES += [True, False, None, [], {}, ["public", "public"], ["Room"], [["room"]], {"all": False}, {"user": 16}]
VALUES += [{"slot": 9999}, {"slot": 10000}, {"user": 15}, {"prefix": "A" * 65}, {"type": "A" * 17}]
BODY_WORDS = [json.dumps(value, ensure_ascii=False).encode() for value in VALUES] + [word.encode() for word in NUMBERS]
BODY_WORDS += [b'"\\u0061bc"', b'"\\ud800"', b'"\\x61"', b'"\xff"', b"\xef\xbb\xbf", b"NaN", b"1e400", b"\x0b", b"\n\t"]
BODY_WORDS += [b",", b"}", b"[" * 200, b"9" * 301, b'"more":1,', b'"until":null,', b'"donor":"x",', b'"audience":"",']
WORD = re.compile(rb'"(?:[^"\\]|\\.)*"|[\w.+-]+|\r\n|.', re.S)

def reworded(one, text, words):
    """A text of which one word is another, is missing, comes twice or in other letters, or has a word before it."""
    found, word = WORD.findall(text), one(*words)
    at = one(*[at for at, word in enumerate(found) if word[:1].isalnum() or word[:1] == b'"'] * 3, *range(len(found)))
    changed = [[word], [word], [], [found[at]] * 2, [found[at].swapcase()], [found[at] + b"0"], [word, found[at]]]
    return b"".join([*found[:at], *one(*changed), *found[at + 1 :]])

@st.composite
def visits(draw):
    """The visit that a request makes, mutated or not."""

    def one(*options):
        return draw(st.sampled_from(options))

    head, end, body = raw(request(one)).partition(b"\r\n\r\n")
    was = digest(body)
    for what in one("", "", "", "", "head", "head", "body", "body", "body body", "head body", "head head").split():
        if what == "head":
            head = reworded(one, head, HEAD_WORDS)
        elif body[:1] == b"{":
            body = reworded(one, body, BODY_WORDS)
        elif body:
            # some bytes of an image are others, more or less: anywhere, or in a directory
            near = draw(st.integers(0, 700))
            at = one(draw(st.integers(0, len(body))), 6656 + near, 91392 + near)
            size, more = one((1, b"\x01"), (1, b"\xff"), (1, b"\x00"), (1, b""), (100, b""), (0, b"\x00"))
            body = body[:at] + more + body[at + size :]
        head = re.sub(rb"(?<=Content-Length: )\d+", b"%d" % len(body), head) if what == "body" else head
    if one(True, True, False):
        head = head.replace(was.encode(), digest(body).encode())
    room = one(*[None] * 40, 8192, 8193, 9000)
    if room:
        head += b"\r\nA: " + b"b" * max(0, room - len(head + end) - 5)
    data = one(*[b""] * 30, b"\n\r\n", b"\r\n" * 4090) + head + end + body
    if one(*[False] * 30, True):
        data = data.replace(b"\r\n", b"\n")
    data += one(*[b""] * 50, b"\r\n", b"x", b"GET / HTTP/1.1\r\n\r\n", b"\0" * 5000, b"y" * 300000)
    if one(*[False] * 16, True):
        data = data[: draw(st.integers(0, one(len(head), len(data))))]
    return Visit(data, one(1, 1, 1, 1, 2, 5))
