"""Each reply of a run over all operations has a status, a type and a body as web/openapi.json describes it."""

import json
import re

import jsonschema
from support import samples
from support.clients import ask
from support.samples import DEED, EVERY, NOBODY, ROOM, STAFF, badge, check, drop, get, put, put_image, put_rule, survey

DOCUMENT = json.loads(samples.bytes_of("web", "openapi.json"))
OPERATIONS = {f"{method.upper()} " + re.sub(r"\{\w+\}", "[^/]+", path): operation
    for path, methods in DOCUMENT["paths"].items() for method, operation in methods.items() if method != "parameters"}
HOW = {"resolver": jsonschema.RefResolver("", DOCUMENT), "format_checker": jsonschema.FormatChecker()}
DAY = "2001-01-01"
RULE = {"audiences": ["public"], "effect": "list", "select": {"prefix": "H"}, "from": DAY, "until": None}
ANSWERED = ["today", "deeds", "takedowns", "keys", "checks", f"verdicts/{DAY}", f"verdicts/{DAY}/15"]
REHEARSED = [f"/staff/rehearsals/{DAY}/{path}/rules/1" for path in ("deeds/9", "images/15")]
# Requests of each operation that are answered, and by which statuses, and others that are refused by each name.
ASKED = {200: [get("/images"), get("/catalogue"), get("/images/15/files/0"), check(12), *map(survey, samples.IMAGES),
        put("/images/15/rules/1", RULE), put("/deeds/9/rules/1", RULE), put("/deeds/10", DEED),
        put_image(22, "cpm8", 9, samples.RECORD_DISK), put(badge("reader"), {"audience": "room"}),
        *(get(f"/staff/{path}", STAFF) for path in ANSWERED), *(put(path, RULE) for path in REHEARSED),
        *(drop(path) for path in REHEARSED), drop(badge("reader")), drop("/images/15/rules/1"),
        drop("/deeds/9/rules/1"), *(get(f"/images/{acc}", STAFF) for acc in samples.IMAGES)],
    400: [put("/deeds/10", {"donor": "D"})], 401: [get("/images", NOBODY), get("/staff/keys", NOBODY)],
    403: [survey(12, ROOM), get("/images/12/files/0"), put("/deeds/10", DEED, None)],
    404: [get("/images/99"), get("/images/15/files/9"), put_rule("/deeds/99/rules/1", "read", EVERY, "room")],
    409: [drop(badge(STAFF)), put_image(12, "d64", 9, samples.PROGRAM_DISK)],
    422: [get("/images/14/files/0"), get("/images/16/files/1"), put_image(30, "d64", 9, b"")]}

def test_replies_are_as_the_document_describes(server):
    answered = set()
    for status, asked in ((status, asked) for status, requests in ASKED.items() for asked in requests):
        line = f"{asked.method} {asked.path}"
        operation = next(operation for pattern, operation in OPERATIONS.items() if re.fullmatch(pattern, line))
        head, _, body = ask(server.port, asked).partition(b"\r\n\r\n")
        [first, kind, *_] = head.decode().split("\r\n")
        assert first.split(" ")[1] == str(status), (asked, head, body[:1000])
        texts = [(operation["responses"][str(status)], kind.removeprefix("Content-Type: "), body)]
        if status == 200:
            answered.add(operation["operationId"])
            request = operation.get("requestBody", {"content": {}})
            texts += [(request, sort, asked.body) for sort in request["content"]]
        for described, sort, text in texts:
            schema = described["content"][sort]["schema"]
            if sort == "application/json":
                jsonschema.validate(json.loads(text), schema, jsonschema.Draft202012Validator, **HOW)
    assert answered == {operation["operationId"] for operation in OPERATIONS.values()}
