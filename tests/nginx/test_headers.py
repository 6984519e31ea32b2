"""Fields that nginx adds to replies, the files of the pages, and what a browser of another site may do."""

import re
import shutil

import pytest
from support.samples import STAFF, bytes_of

FILE, DENIED, LONG = "/images/15/files/0", "/images/13/files/0", "/images/16/files/0"
# What the pages may do. What may have a page in a frame is said by the field alone, and not by the page itself.
POLICY = (
    "default-src 'none'; script-src 'self'; style-src 'self'; connect-src 'self'; base-uri 'none'; form-action 'none'; "
    "frame-ancestors 'none'; require-trusted-types-for 'script'; trusted-types 'none'")
ADDED = {"Content-Security-Policy": POLICY, "X-Content-Type-Options": "nosniff", "Referrer-Policy": "no-referrer",
    "Cross-Origin-Resource-Policy": "same-origin", "Cross-Origin-Opener-Policy": "same-origin"}
# What comes at each door, and the types.
OF_DESK = {FILE: "application/octet-stream"} | dict.fromkeys([DENIED, "/images", "/none"], "application/json")
OF_PAGE = {"/": "text/html; charset=utf-8", "/room.css": "text/css; charset=utf-8",
    "/room.js": "text/javascript; charset=utf-8", "/robots.txt": "text/plain; charset=utf-8",
    "/favicon.ico": "image/vnd.microsoft.icon", "/openapi.json": "application/json"}

@pytest.mark.parametrize("path", [*OF_DESK, *OF_PAGE])
def test_each_reply_has_the_fields_of_nginx(door, path):
    wanted = ADDED | {"Strict-Transport-Security": "max-age=31536000" if door.name == "outside" else None,
        "Cache-Control": "no-cache" if path in OF_PAGE else "no-store", "Content-Type": (OF_DESK | OF_PAGE)[path],
        "Content-Disposition": 'attachment; filename="15-0.bin"' if path == FILE else None}
    reply = door.get(path)
    assert {name: reply.getheader(name) for name in wanted} == wanted

@pytest.mark.parametrize("door, name", [("outside", "index.html"), ("staff", "staff.html")], indirect=["door"])
def test_each_door_has_its_page_which_tells_the_policy(door, name):
    page = bytes_of("web", name)
    assert door.get("/").body == page
    told = re.search(rb'<meta http-equiv="Content-Security-Policy" content="([^"]*)">', page)[1].decode()
    assert " ".join(told.split()) == POLICY.replace("frame-ancestors 'none'; ", "")

def test_files_of_the_museum_come_first_and_the_staffs_titles_stay_inside(room, outside, staff, request):
    own = room.folder / "own"
    own.mkdir()
    request.addfinalizer(lambda: shutil.rmtree(own, ignore_errors=True))
    for name in ("index.html", "room.css", "imprint.html", "about.csv", "staff.titles.csv"):
        (own / name).write_text(f"own {name}")
    bodies = [outside.get(path).body for path in ("/", "/room.css", "/imprint.html", "/about.csv")]
    statuses = [door.get("/staff.titles.csv").status for door in (outside, staff)]
    shutil.rmtree(own)
    assert statuses == [404, 200]
    assert bodies == [b"own index.html", b"own room.css", b"own imprint.html", b"own about.csv"]
    assert outside.get("/").body == bytes_of("web", "index.html")

@pytest.mark.parametrize("path", ["/room.js", "/shared.css", "/openapi.json", LONG])
def test_text_is_packed_and_the_bytes_of_a_file_are_not(door, path):
    plain, came = door.get(path), door.get(path, ("Accept-Encoding", "gzip"))
    packed = (None, None) if path == LONG else ("gzip", "Accept-Encoding")
    assert (came.getheader("Content-Encoding"), came.getheader("Vary")) == packed
    assert came.unpacked() == plain.body and (len(came.body) < len(plain.body)) == (path != LONG)

@pytest.mark.parametrize("asks, has", [("If-Modified-Since", "Last-Modified"), ("If-None-Match", "ETag")])
def test_file_of_the_page_is_sent_once(outside, asks, has):
    came = outside.get("/room.css", (asks, outside.get("/room.css").getheader(has)))
    assert (came.status, came.body, came.getheader("Cache-Control")) == (304, b"", "no-cache")

# Requests of a page of another site: path, method, more fields, the status, and whether the page may read the reply.
ORIGINS = {"the images": ("/images", "GET", [], 200, "*"), "a file": (FILE, "GET", [], 200, "*"),
    "a denied file": (DENIED, "GET", [], 403, "*"), "the page": ("/", "GET", [], 200, None),
    "a key": ("/images", "GET", [("Desk-Key", STAFF)], 200, None), "a deed": ("/deeds/7", "GET", [], 405, None),
    "an empty key": ("/images", "GET", [("Desk-Key", "")], 401, "*"),
    "a range that is none": (FILE, "GET", [("Range", "bytes=500-")], 416, "*"),
    "before a key": ("/images", "OPTIONS", [("Access-Control-Request-Headers", "desk-key")], 403, "*")}

@pytest.mark.parametrize("path, method, fields, status, allowed", ORIGINS.values(), ids=ORIGINS)
def test_page_of_another_site_reads_what_the_public_reads(outside, staff, path, method, fields, status, allowed):
    origin = "Origin", "https://notebook.example"
    reply = outside.ask(method, path, origin, *fields)
    names = [f"Access-Control-{name}" for name in ("Allow-Origin", "Expose-Headers", "Allow-Headers")]
    exposed = "Content-Disposition, Content-Range, Retry-After" if allowed else None
    assert (reply.status, [reply.getheader(name) for name in names]) == (status, [allowed, exposed, None])
    assert staff.ask(method, path, origin, *fields).getheader(names[0]) is None
