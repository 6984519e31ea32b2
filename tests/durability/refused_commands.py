"""Commands to which something is refused, and the stores over which they run. Words in braces are places of the run."""

import collections

from support import cpm_image, server, trials
from support.samples import (
    ALL, EVERY, LOOP_DISK, MARKED_DISK, PROGRAM_DISK, RECORD_DISK, badge, digest, drop, put, put_image, put_rule, raw)

# Words, a part of what they write, the status; the store before and after, or with rows after each line; the request.
Command = collections.namedtuple("Command", "words part status stores request", defaults=(b"", 0, 2 * ("none",), b""))

ZONE = "CET-1CEST,M3.5.0,M10.5.0/3"
WHEN, KEY = f"--at 1893452400 --zone {ZONE}", "--key abc"
# The same key and clocks in files, and the same moment as a date.
FILES = "--key-file {work}/key --zone-file /usr/share/zoneinfo/Europe/Berlin --at 2030-01-01"
INIT, STAFF_KEY = f"desk init --store {{store}} {KEY}", "desk staff-key --store {store} --key def"
IMPORT = f"desk import --store {{store}} {KEY} {WHEN} --sheet {{work}}/"
BY_FILES = f"desk import --store {{store}} {FILES} --sheet {{work}}/record.csv"
EXPORT = f"desk export --store {{store}} {WHEN}"
CHECK = f"desk check --store {{store}} {KEY} --acc 12 {WHEN}"
SHOW = f"desk show {{}} --store {{{{store}}}} {KEY} {WHEN}"
SERVE = f"desk serve --store {{store}} --port {{port}} --zone {ZONE} --count "
TO_FOLDER = "desk files cpm8 {work}/%s.img --to {folder}"

# What all runs are given: images, a key, and sheets.
TEXTS = [(b"A       TXT", cpm_image.text("HELLO\n"), [2]), (b"B       TXT", cpm_image.text("AGAIN\n"), [3])]
GIVEN = {
    "record.img": RECORD_DISK, "program.d64": PROGRAM_DISK, "marked.d64": MARKED_DISK, "loop.d64": LOOP_DISK,
    "mixed.d64": trials.image("mixed.image"), "damaged.img": server.bytes_of("images", "damaged.img"),
    "one.img": cpm_image.of_entries(TEXTS[:1]), "two.img": cpm_image.of_entries(TEXTS), "key": b"abc\n"}
# Of each sheet its rows: the accession, the kind, the file, and another SHA-256 where it is not that of the file.
SHEETS = {
    "record": [(12, "cpm8", "record.img")], "marked": [(13, "d64e", "marked.d64")],
    "program": [(12, "d64", "program.d64")], "second": [(13, "d64", "program.d64")],
    "four": [("", "", "key"), (12, "d64", "program.d64"), (12, "d64", "program.d64", b"x"), (13, "d64", "program.d64")],
    "holed": [(13, "d64", "nothing.d64", b"x"), (12, "d64", "program.d64")]}

def row_of(work, acc, kind, name, other=None):
    return f"{acc},{kind},7,{digest(other or GIVEN[name])},{work / name}"

def fill(work):
    """Makes the files that all runs use."""
    for name, data in GIVEN.items():
        (work / name).write_bytes(data)
    for name, rows in SHEETS.items():
        lines = ["accession,kind,deed,sha256,file", *(row_of(work, *row) for row in rows)]
        (work / f"{name}.csv").write_text("\n".join([*lines, ""]))

# The stores: the name of that from which a command, or some SQL, makes each.
CHANGED = "UPDATE image SET bytes = CAST(substr(bytes, 1, 86018) || 'B' || substr(bytes, 86020) AS BLOB)"
STORES = {
    "none": (None, ""), "made": ("none", INIT), "deeded": ("made", "INSERT INTO deed VALUES (7, 'A. Curator', 18020)"),
    "ruled": ("deeded", "INSERT INTO rule VALUES (1, 7, 20, 7, NULL, NULL, 0, 0, '', 2)"),
    "filled": ("ruled", f"{IMPORT}record.csv"), "marked": ("ruled", f"{IMPORT}marked.csv"),
    "program": ("ruled", f"{IMPORT}program.csv"), "programs": ("program", f"{IMPORT}second.csv"),
    "checked": ("filled", CHECK), "harmed": ("program", f"{CHANGED}; INSERT INTO checked VALUES (12, 21915, 0)"),
    "told": ("harmed", "UPDATE checked SET outcome = 1"),
    "first": ("filled", "DROP TABLE marks; UPDATE desk SET version = 1"), "keyed": ("filled", STAFF_KEY),
    "closed": ("filled", "INSERT INTO rule VALUES (0, 12, 1, 3, NULL, NULL, 0, 0, '', 0)"),
    "one-file": ("none", TO_FOLDER % "one"), "two-files": ("none", TO_FOLDER % "two")}
ROW, FILE_LINE = b"12 done\n", b"12,7,cpm8,0,0,HELLO.TXT,TXT,128,,R7.20,read\n"
TWO_LINES = b"12,7,d64,0,,HELLO,PRG,258,,R7.20,read\n13,7,d64,0,,HELLO,PRG,258,,R7.20,read\n"
FILLED = ("filled", "filled")
SHOWN = {
    "takedowns": b'{"takedowns":[]}\n', "checks": b'"day":null,"outcome":null}]}',
    "keys": b'{"keys":[{"audience":"staff",', "verdicts --on 2030-01-01": b"12,7,cpm8,0,0,HELLO.TXT"}
# Visits that change a store, by the stores before and after them.
VISITS = {
    ("made", "deeded"): put("/deeds/7", {"donor": "A. Curator", "signed": "2019-05-04"}),
    ("deeded", "ruled"): put_rule("/deeds/7/rules/20", "read", EVERY, *ALL),
    ("ruled", "deeded"): drop("/deeds/7/rules/20"), ("ruled", "program"): put_image(12, "d64", 7, PROGRAM_DISK),
    ("filled", "keyed"): put(badge("def"), {"audience": "staff"}), ("keyed", "filled"): drop(badge("def")),
    ("filled", "closed"): put_rule("/images/12/rules/1", "deny", EVERY, "public", "room"),
    ("closed", "filled"): drop("/images/12/rules/1")}
OVER_STORES = {
    "init": Command(INIT, b"done\n", 0, ("none", "made")),
    "init-sums": Command(f"{INIT} --sums", b"done\n", 0, ("none", "made")),
    "staff-key": Command(STAFF_KEY, b"done\n", 0, ("filled", "keyed")),
    "import": Command(f"{IMPORT}record.csv", ROW, 0, ("ruled", "filled")),
    "import-again": Command(f"{IMPORT}record.csv", ROW, 0, FILLED),
    "import-marked": Command(f"{IMPORT}marked.csv", b"13 done\n", 0, ("ruled", "marked")),
    "import-four": Command(
        f"{IMPORT}four.csv", b"row 1 bad-row\n12 done\n12 digest-differs\n13 done\n", 1,
        ("ruled", "ruled", "program", "program", "programs")),
    "import-by-files": Command(BY_FILES, ROW, 0, ("ruled", "filled")),
    "import-dry-run": Command(f"{IMPORT}four.csv --dry-run", b"13 would-be-done\n", 1, 5 * ("ruled",)),
    "import-keep-going": Command(f"{IMPORT}holed.csv --keep-going", ROW, 3, ("ruled", "ruled", "program")),
    "export": Command(EXPORT, TWO_LINES, 0, ("programs", "programs")),
    "export-version-1": Command(EXPORT, FILE_LINE, 0, ("first", "filled")),
    "check": Command(CHECK, b"12 sound\n", 0, ("filled", "checked")),
    "check-changed": Command(CHECK, b"12 changed\n", 1, ("harmed", "told")),
    "serve": Command(f"{SERVE}0", b"served 0\n", 0, FILLED),
    **{f"show-{name.split()[0]}": Command(SHOW.format(name), part, 0, FILLED) for name, part in SHOWN.items()},
    **{"-".join(pair): Command(f"{SERVE}1", b"served 1\n", 0, pair, raw(one)) for pair, one in VISITS.items()}}

# Commands that have no store, of which some fail as ever. Their input is the image of record.img.
WITHOUT_STORE = {
    "cat": Command("desk cat cpm8 - 0", b"HELLO FROM CP/M\r\n"),
    "cat-hole": Command("desk cat cpm8 {work}/damaged.img 2", b"desk: faulty hole\n", 1),
    "cat-listed-only": Command("desk cat d64 {work}/mixed.d64 0", b"desk: listed-only\n", 1),
    "list-faults": Command("desk list cpm8 {work}/damaged.img", b"0\t0\tTXT\t\tcrossed\tLETTER.TXT\n"),
    "list-loop": Command("desk list d64 {work}/loop.d64", b"0\t\tPRG\t\tloop\tLOOP\n"),
    "list-marked": Command("desk list d64e {work}/marked.d64", b"0\t\tPRG\t\tread-error\tHELLO\n"),
    "list-explain": Command("desk list cpm8 {work}/program.d64 --explain", b"desk: wrong-size\n  ", 1),
    "serve-no-zone": Command("desk serve --store f --port 80 --count 1 --zone ABC25", b"error: ", 2),
    "export-no-zone": Command("desk export --store f --zone-file {work}/program.d64 --explain", b"desk: device\n  ", 3),
    "show-long-key": Command("desk show keys --store f --key-file {work}/loop.d64 --explain", b"desk: device\n  ", 3),
    "show-no-store": Command(SHOW.format("keys"), b"desk: not-a-desk\n", 3),
    "files": Command(TO_FOLDER % "two", b"\t128\n", 0, ("none", "one-file", "two-files")),
    "help": Command("desk --help", b"desk cat cpm8 disk.img 0")}
