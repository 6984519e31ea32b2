"""Museums of any size, which a stand-in for the desk holds in memory: their disks are made and not read."""

import itertools

from support import cpm_image, model, stand_in
from support.model_disks import disk_of, known
from support.samples import DONOR_OF_9, digest
from support.server import bytes_of

WORDS = ("LETTER", "GAME", "NOTES", "INDEX", "SPRITES", "DIARY", "SONGS", "MAPS", "LOGBOOK", "READ ME")
DONORS = ("A. Curator", "B. Donor", "The Sea Club", "E. Müller", "C. Nowak")
# Names that are paths, devices, markup and formulas.
HARMFUL = ["../../X", "CON", "<img src=x onerror=window.harmed=1>", "=1+1", 'A "quoted", name']

def rule(rank, effect, audiences, select=None, start=None, until=None):
    rule_ = {"rank": rank, "audiences": [*audiences], "effect": effect, "select": select or {"all": True}}
    return {**rule_, "from": start, "until": until}

def put(museum, acc, kind, deed, data):
    museum.images[acc] = model.Image(kind, deed, digest(data), data)

def put_files(museum, acc, kind, deed, files):
    """Puts a disk of files of names, types and bytes, or None in their place where the desk does not give them out."""
    key, user = f"made:{acc}".encode(), "0" if kind == "cpm8" else ""
    made = [known(slot, user, type_, name, data) for slot, (name, type_, data) in enumerate(files)]
    museum.disks.disks[key] = disk_of(made)
    put(museum, acc, kind, deed, key)

def harmful_disk(museum, acc, deed):
    put_files(museum, acc, "d64", deed, [(name, "SEQ", b"TEXT") for name in HARMFUL])

def short_text(kind, number, slot):
    """A short text; the names of every third disk of the 1541 are in the other set of letters."""
    word = WORDS[(number + slot) % len(WORDS)]
    if kind == "cpm8":
        return f"{word.replace(' ', '')[:6]}{slot}.TXT", "TXT", cpm_image.text(f"{word} {slot} OF DISK {number}\n")
    shown = [f"%{ord(sign) + 128:02X}" if sign.isalpha() and number % 3 == 0 else sign for sign in f"{word} {slot}"]
    return "".join(shown), "SEQ", f"{word} {slot} OF DISK {number}\r".encode()

def empty(day=None):
    """A museum with a key of the room, and no disk."""
    museum = stand_in.Museum(day)
    museum.badges[digest(b"hello")] = "room"
    return museum

def many(disks, files, deeds=1000, day=None):
    """Disks of so many files under deeds of three rules; each hundredth has a takedown, and each second a check."""
    museum = empty(day)
    for deed in range(1, deeds + 1):
        museum.deeds[deed] = DONORS[deed % len(DONORS)], f"19{80 + deed % 20}-05-04"
        museum.rules[f"R{deed}"] = {
            10: rule(10, "deny", ["public"], {"slot": 3}, None, f"2030-01-{1 + deed % 28:02}"),
            20: rule(20, "list", ["public"], {"prefix": "GAME"}), 30: rule(30, "read", model.AUDIENCES)}
    for number in range(1, disks + 1):
        kind = ("cpm8", "d64")[number % 2]
        put_files(museum, number, kind, 1 + number % deeds, [short_text(kind, number, slot) for slot in range(files)])
        if number % 2:
            museum.latest[number] = "2026-01-02", "sound"
        if number % 100 == 0:
            museum.rules[f"T{number}"] = {1000: rule(1000, "deny", ["public", "room"])}
    return museum

def small(day=None):
    """A museum of six disks under three deeds, one of them without rules."""
    museum = empty(day)
    museum.deeds = {7: ("A. Curator", "2019-05-04"), 8: ("B. Donor", "2020-02-29"), 9: (DONOR_OF_9, "0001-01-01")}
    museum.rules |= {f"R{deed}": {20: rule(20, "read", model.AUDIENCES)} for deed in (7, 9)}
    museum.rules["R7"][10] = rule(10, "deny", ["public", "room"], until="2030-01-01")
    images = [("welcome.img", "cpm8"), ("museum.d64", "d64"), ("damaged.d64", "d64e")]
    for acc, (deed, (name, kind)) in enumerate(itertools.product((9, 7), images), 1001):
        put(museum, acc, kind, deed, bytes_of("images", name))
    return museum
