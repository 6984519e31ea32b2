"""A desk by plain functions: what it holds, the reply that is due to the bytes of a visit, and what a command changes.

It shares no code with the program: docs/FORMATS.md alone says what it does."""

import collections
import functools

from support import cbm_image, cpm_image, model_disks, model_rules
from support.model_requests import DEED, KEY, ROUTES, Refused, asked_by, object_of, refuse_if, rule_of
from support.samples import (
    BAD_BODY, DONE, NO_ACCESSION, NO_DEED, STAFF, STAFF_ONLY, UNKNOWN_KEY, content, denied, digest, refused, table,
    told)

SIZES = {"cpm8": cpm_image.SIZE, "d64": cbm_image.SIZE, "d64e": cbm_image.MARKED_SIZE}
AUDIENCES = ("public", "room", "staff")
COLUMNS = ("accession", "deed", "kind", "slot", "user", "name", "type", "size", "faults", "rule", "effect")
# What all may ask.
QUESTIONS = ("ask images", "ask listing", "ask bytes", "ask catalogue")
# An image that stands: its bytes, and the digest that was given for them.
Image = collections.namedtuple("Image", "kind deed digest bytes")
# What is due to a visit: a reply, and what is to be done where it comes, or None.
Due = collections.namedtuple("Due", "reply change", defaults=(None,))

class Disks:
    """Disks by the bytes of their images: those that were made, and those that are read when they are asked for."""

    def __init__(self):
        self.disks = {}

    def disk(self, kind, image):
        if image not in self.disks:
            self.disks[image] = model_disks.read(kind, image)
        return self.disks[image]

class Desk:
    """What a desk holds, and the day that it is there."""

    routes = ROUTES

    def __init__(self, disks, day):
        self.disks, self.day = disks, day
        self.deeds, self.images, self.badges = {}, {}, {digest(STAFF.encode()): "staff"}
        # by "T" and an accession, or "R" and a deed: the rules by their rank; and the latest checks by accessions
        self.rules, self.latest = collections.defaultdict(dict), {}

    def due(self, data):
        """What is due to the bytes of a visit."""
        try:
            return self.answer(asked_by(data, self.routes))
        except Refused as fault:
            return Due(fault.args[0])

    def answer(self, asked):
        audience = "public" if asked.key is None else self.badges.get(digest(asked.key))
        refuse_if(audience is None, UNKNOWN_KEY)
        refuse_if(audience != "staff" and asked.what not in QUESTIONS, STAFF_ONLY)
        numbers = [int(part) if part.isdigit() and len(part) < 7 else part for part in asked.parts]
        answer = getattr(self, asked.what.replace(" ", "_"))
        return answer(audience if asked.what in QUESTIONS else asked.body, *numbers)

    def image(self, acc):
        refuse_if(acc not in self.images, NO_ACCESSION)
        return self.images[acc]

    def disk(self, acc):
        image = self.image(acc)
        return self.disks.disk(image.kind, image.bytes)

    def files_of(self, acc):
        return [file.fields for file in self.disk(acc).files]

    def heading(self, acc):
        return {"accession": acc, "deed": self.images[acc].deed, "kind": self.images[acc].kind}

    def by_rank(self, label):
        return [self.rules[label][rank] for rank in sorted(self.rules[label])]

    def bands(self, acc, **instead):
        """The rules that decide on a disk, by their labels; `instead` has others by a label."""
        return [(label, instead.get(label, self.by_rank(label))) for label in (f"T{acc}", f"R{self.images[acc].deed}")]

    def verdict(self, acc, audience, file):
        return model_rules.verdict(self.bands(acc), audience, self.day, file)

    def lines(self, acc, audience):
        """The files of an accession that are listed to an audience: each with its verdict."""
        files, bands = self.files_of(acc), self.bands(acc)
        lines = ((file, *model_rules.verdict(bands, audience, self.day, file)) for file in files)
        return [line for line in lines if line[2] != "deny"]

    def ask_images(self, audience):
        counts = [(acc, len(self.lines(acc, audience))) for acc in sorted(self.images)]
        return Due(told(images=[{**self.heading(acc), "files": count} for acc, count in counts if count]))

    def ask_listing(self, audience, acc):
        files = [
            {**file, **{name: int(file[name]) if file[name] else None for name in ("slot", "size", "user")},
             "faults": file["faults"].split(), "rule": label, "effect": effect}
            for file, label, effect in self.lines(acc, audience)]
        return Due(told(files=files, **self.heading(acc)))

    def ask_catalogue(self, audience):
        lines = ((acc, line) for acc in sorted(self.images) for line in self.lines(acc, audience))
        rows = ({**file, **self.heading(acc), "rule": label, "effect": effect} for acc, (file, label, effect) in lines)
        return Due(table([COLUMNS, *([row[column] for column in COLUMNS] for row in rows)]))

    def ask_bytes(self, audience, acc, slot):
        file = next((file for file in self.disk(acc).files if file.fields["slot"] == str(slot)), None)
        refuse_if(file is None, refused(404, "no-file"))
        label, effect = self.verdict(acc, audience, file.fields)
        refuse_if(effect != "read", denied(label))
        is_given = self.images[acc].kind == "cpm8" or file.fields["type"] in model_disks.GIVEN
        refuse_if(not is_given, refused(422, "listed-only"))
        refuse_if(file.data is None, refused(422, "faulty", faults=file.fields["faults"].split()))
        return Due(content(file.data))

    def survey(self, _, acc):
        report, (donor, signed) = self.disk(acc).report, self.deeds[self.images[acc].deed]
        return Due(told(donor=donor, signed=signed, **self.heading(acc), **report))

    def check(self, _, acc):
        image = self.image(acc)
        outcome = "sound" if digest(image.bytes) == image.digest else "changed"
        return Due(told(outcome=outcome), functools.partial(self.latest.update, {acc: (self.day, outcome)}))

    def put_deed(self, body, num):
        deed = object_of(body, DEED)
        refuse_if(len(deed["donor"].encode()) > 1000, BAD_BODY)
        return Due(DONE, functools.partial(self.deeds.update, {num: (deed["donor"], deed["signed"])}))

    def rules_of(self, scope, num):
        refuse_if(scope == "deeds" and num not in self.deeds, NO_DEED)
        return self.rules[f"R{num}"] if scope == "deeds" else self.image(num) and self.rules[f"T{num}"]

    def put_rule(self, body, scope, num, rank):
        rule = rule_of(body, rank, ("deny", "list", "read") if scope == "deeds" else ("deny", "list"))
        return Due(DONE, functools.partial(self.rules_of(scope, num).update, {rank: rule}))

    def drop_rule(self, _, scope, num, rank):
        return Due(DONE, functools.partial(self.rules_of(scope, num).pop, rank, None))

    def put_image(self, body, acc, kind, deed, sha256):
        image = Image(kind, deed, sha256.lower(), body)
        refuse_if(deed not in self.deeds, NO_DEED)
        refuse_if(len(body) != SIZES[kind], refused(422, "wrong-size"))
        refuse_if(digest(body) != image.digest, refused(422, "digest-differs"))
        refuse_if(self.images.get(acc, image)[:3] != image[:3], refused(409, "conflict"))
        return Due(DONE, functools.partial(self.images.setdefault, acc, image))

    def put_key(self, body, key):
        return self.with_keys({**self.badges, key.lower(): object_of(body, KEY)["audience"]})

    def drop_key(self, _, key):
        return self.with_keys({one: audience for one, audience in self.badges.items() if one != key.lower()})

    def with_keys(self, badges):
        refuse_if("staff" not in badges.values(), refused(409, "conflict"))
        return Due(DONE, functools.partial(setattr, self, "badges", badges))
