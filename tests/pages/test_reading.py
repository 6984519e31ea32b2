"""Reading, on the page for readers: texts of CP/M, WordStar and the 1541, listings of BASIC, pictures, screens,
bytes in digits, what is known of a file, the names of downloads, and the zip of a disk."""

import csv
import io
import re
import struct
import threading
import time
import zipfile

import pytest
from staff_helpers import CANNOT_REACH
from support import model_disks, museums, stand_in
from support.browser import LIMIT, STAFF, ReadersPage, wait_for
from support.museums import HARMFUL
from support.samples import digest
from support.server import bytes_of
from support.stand_in import refused_by_nginx

def program(*lines, start=0x0801, rest=b""):
    """A BASIC program as BASIC keeps it: lines of a number and their codes."""
    data, at = struct.pack("<H", start), start
    for number, codes in lines:
        at += 4 + len(codes) + 1
        data += struct.pack("<HH", at, number) + codes + b"\0"
    return data + b"\0\0" + rest

# The words of BASIC V2 in the order of their tokens, from 80 hex on, as the machine's manual lists them.
WORDS = """END FOR NEXT DATA INPUT# INPUT DIM READ LET GOTO RUN IF RESTORE GOSUB RETURN REM STOP ON WAIT LOAD SAVE
VERIFY DEF POKE PRINT# PRINT CONT LIST CLR CMD SYS OPEN CLOSE GET NEW TAB( TO FN SPC( THEN NOT STEP + - * / \u2191 AND
OR > = < SGN INT ABS USR FRE POS SQR RND LOG EXP COS SIN TAN ATN PEEK LEN STR$ VAL ASC CHR$ LEFT$ RIGHT$ MID$
GO""".split()
# By an expression over the functions of the page: bytes, and what they are as text; None where they are none such.
CONVERTED = {"texts.cpmText(data)": {
        b"\tA\x0c\r\nB\rC\nD\x1a": "\tA\x0c\nB\nC\nD", b"A\x1a" + b"\xff" * 127: "A", b"A" + b"\x1a" * 300: "A",
        b"A\x1a" + bytes(300): "A",
        **dict.fromkeys([b"A\x1a" + b"\xff" * 128, b"A\xc1", b"A\x00", b"\x1a" * 128, b""])},
    "texts.wordStarText(data)": {b"\x02Th\xe5\x02\xa0la\xf3t\x8d\n\x1flin\xe5\x1e.\r\n\x1a": "The last line.\n",
        b"in\x1f\x8d\n\xa0side \xa0\xa0of\xa0 \x8d\n\xa0it\r\n": "inside of it\n",
        **dict.fromkeys([b"plain", b"\xe1\x00", b""])}, "texts.cbmText(data)": {
        b"A TEXT.\r\\ ^ _\xa0.": "A TEXT.\n£ ↑ ← .", b"\xc1 TEXT.\x8dB": "A text.\nb",
        **dict.fromkeys([b"A\nB", b"A\x1a", b"\x05A", b""])}, "texts.petsciiText(data, false)": {
        b"\xa6\xb0\xc0\xae\r\xdd\x61\x7e\xff": "▒┌─┐\n│♠ππ", b"AB\x0eAB\xc1\x8eAB": "ABabAAB", b"A\x02": None},
    "texts.petsciiText(data, true)": {b"\xc8ELLO \x93\x05\xba\xde": "Hello ✓π"},
    "basic.basicListing(data, false)?.text ?? null": {
        program((1, bytes(range(0x80, 0xCC))), start=0x0401): f"1 {''.join(WORDS)}\n",
        program((5, b"A\xb2\xff:B\xb2\x5e\x5c"), (10, b"\x99 \xc7(I);"), (63999, b'\x99"\x93\x05\x12\xa6\xd3\x02"')):
            '5 A=π:B=↑£\n10 PRINT CHR$(I);\n63999 PRINT"{clear}{white}{reverse on}▒♥{$02}"\n',
        # no line, no end, a wrong link, numbers that fall, no byte
        **dict.fromkeys([b"\1\x08\0\0", program((10, b"\x80"))[:-2], b"\1\x08\x09\x08\x0a\0\x80\0\0\0",
                         program((20, b"\x80"), (10, b"\x80")), b""])},
    "basic.basicListing(data, true).text": {program((10, b'\x99"\xc8I"\xff')): '10 print"Hi"π\n'},
    "basic.basicListing(data, true).rest": {program((10, b"\x9e2061"), rest=b"\xa9\x00"): 2, program((10, b"\x80")): 0}}
CONVERT = """return Promise.all([import("/basic.js"), import("/texts.js")]).then(([basic, texts]) =>
  arguments[0].map((bytes) => new Uint8Array(bytes)).map((data) => %s));"""
NAMES = {
    "../../X": "____X", "CON": "_CON", "con.txt": "_con.txt", "aux .txt": "_aux .txt", "=1+1": "_1_1", "...": "file",
    "<img src=x onerror=..>": "_img src_x onerror___", "-rf": "_rf", ".profile": "_profile", "A/B\\C:D": "A_B_C_D",
    "": "file", "£": "file", "A (1).TXT": "A (1).TXT", "a. ": "a", "COM0.X": "_COM0.X", "x" * 80: "x" * 60}

def test_bytes_are_converted(reader):
    for call, wanted in CONVERTED.items():
        assert dict(zip(wanted, reader.script(CONVERT % call, [list(data) for data in wanted]))) == wanted, call

def test_names_of_files_harm_no_machine_and_differ(reader):
    made = reader.script("return import('/safe.js').then(({ safeName }) => arguments[0].map(safeName))", list(NAMES))
    assert dict(zip(NAMES, made)) == NAMES
    different = "return import('/safe.js').then(({ different }) => different(arguments[0]))"
    assert reader.script(different, ["A.PRG", "a.prg", "A.PRG", "B"]) == ["A.PRG", "a (2).prg", "A (3).PRG", "B"]

BASIC = program((10, b'\x99 "HELLO"'), (20, b"\x89 10"), rest=b"\xa9\0")
STAR, GRAPHIC = b"Th\xe5 last\x8d\nword\xf3.\r\n\x1a" + bytes(100), b"\x93\xb0\xc0\xae\r\xdd \xdd\r\xc8ELLO"
DATA = bytes(range(256)) * 200
WELCOME = model_disks.read("cpm8", bytes_of("images", "welcome.img")).files[0].data
FILES = [("HELLO", "PRG", BASIC), ("%CC%C5%D4%D4%C5%D2", "SEQ", GRAPHIC), ("TOUR", "REL", None),
         *((name, "USR", b"<IMG SRC=X ONERROR=1>\r") for name in HARMFUL), ("DATA", "PRG", DATA)]
GIVEN = [(name, data) for name, _, data in FILES if data is not None]
SAVED_AS = ["HELLO.prg", "LETTER.seq", "____X.usr", "_CON.usr", "_IMG SRC_X ONERROR_WINDOW.HARMED_1_.usr", "_1_1.usr",
            "a _QUOTED__ NAME.usr", "DATA.prg"]

@pytest.fixture
def museum(museum):
    """Disk 2001 has a program, texts and harmful names, 2002 a text of WordStar."""
    museums.put_files(museum, 2001, "d64", 9, FILES)
    museums.put_files(museum, 2002, "cpm8", 9, [("LETTER.TXT", "TXT", STAR)])
    museum.disks.disks[b"made:2002"].files[0].fields["user"] = "3"
    return museum

def hexed(data, width=16):
    """Bytes as the page shows them."""
    parts = {at: data[at : at + width] for at in range(0, len(data), width)}
    shown = {at: re.sub("[^ -~]", ".", part.decode("latin-1")) for at, part in parts.items()}
    return "\n".join(f"{at:06X}  {part.hex(' ').upper():{3 * width - 1}}  {shown[at]}" for at, part in parts.items())

LISTED = '10 PRINT "HELLO"\n20 GOTO 10\n'
# By a file: its name as it is shown, what is said of it, its text, the name of its download, and its bytes.
SHOWN = {"1001/0": ("WELCOME.TXT", "Shown as text.", WELCOME.partition(b"\x1a")[0].decode().replace("\r\n", "\n"),
               "WELCOME.TXT", WELCOME),
    "2001/0": ("HELLO", "Shown as a listing of BASIC, without the 2 bytes after it.", LISTED, "HELLO.prg", BASIC),
    "2001/1": ("LETTER", "Shown as it came on the screen of a C64.", "", "LETTER.seq", GRAPHIC),
    "2002/0": ("LETTER.TXT", "text of WordStar, without its marks for print.", "The last words.\n", "LETTER.TXT", STAR),
    "2001/3": ("../../X", "Shown as text.", "<IMG SRC=X ONERROR=1>\n", "____X.usr", b"<IMG SRC=X ONERROR=1>\r"),
    "2001/8": ("DATA", "it loads at 256 ($0100), so it is machine code or data.", hexed(DATA), "DATA.prg", DATA)}

@pytest.mark.parametrize("place", SHOWN)
def test_file_comes_in_the_way_that_suits_it_and_is_saved_by_a_safe_name(reader, place):
    heading, says, text, name, data = SHOWN[place]
    assert (reader.go(place)["heading"], reader.text("pre"), reader.harmed()) == (heading, text, [None, 0])
    assert says in " ".join(reader.texts("#view p"))
    reader.named("link", "Download").click()
    assert reader.saved(name) == data

def test_file_can_be_seen_in_the_other_ways(reader):
    reader.go("2001/0")
    for button, text in (("Lower case", LISTED.lower()), ("Bytes", hexed(BASIC)), ("Listing", LISTED.lower())):
        assert reader.push(button) and reader.text("pre") == text
    assert reader.texts("pre .word") == ["print", "goto"]
    reader.go("2001/1")
    for button, text in (("Text", "┌─┐\n│ │\nHello"), ("Lower case", "┌─┐\n│ │\n│ELLO")):
        assert reader.push(button) and reader.text("pre") == text
    assert "Shown as text, without its codes for colours and the cursor." in reader.texts("#view p")
    same = "The same bytes as ../../X (Disk 2001)."
    assert [reader.go(f"2001/{slot}") and same in reader.texts("aside p") for slot in "34"] == [False, True]
    reader.go("2001/8")
    with reader.phone():
        wait_for("lines of eight bytes", lambda: reader.text("pre") == hexed(DATA, 8))
        assert reader.script("const [at] = document.querySelectorAll('pre'); return at.scrollWidth <= at.clientWidth")

def koala(data, x, y, colours=9000, ground=10000):
    """The colour of a dot of a Koala picture, by its bytes behind the load address, as its makers describe them."""
    cell = y // 8 * 40 + x // 8
    bits = data[8 * cell + y % 8] >> 6 - x % 8 // 2 * 2 & 3
    return [data[ground], data[8000 + cell] >> 4, data[8000 + cell], data[colours + cell]][bits] & 15

def art(data, x, y, cells=8000, dots=0):
    """The same of a picture of two colours to a cell."""
    cell = y // 8 * 40 + x // 8
    return (0x10 if cells is None else data[cells + cell]) >> (data[dots + 8 * cell + y % 8] >> 7 - x % 8 & 1) * 4 & 15

def letters(data, x, y):
    """The same of a set of signs: 32 in a row, each white on blue, with four black dots between them."""
    (across, left), (down, top) = divmod(x - 4, 12), divmod(y - 4, 12)
    if not (0 <= left < 8 and 0 <= top < 8 and 0 <= across < 32 and down >= 0):
        return 0
    return 1 if data[8 * (32 * down + across) + top] >> 7 - left & 1 else 6

DRAWN = {"a Koala picture (drawn with KoalaPainter on a C64)": (0x6000, 10001, koala),
         "a plain bitmap": (0x2000, 8000, lambda *at: art(*at, None)), "an Art Studio picture": (0x2000, 9009, art),
         "an Advanced Art Studio picture": (0x2000, 10016, lambda *at: koala(*at, 9016, 9001)),
         "a Doodle picture": (0x5C00, 9216, lambda *at: art(*at, 0, 1024)), "a set of signs": (0x3800, 1024, letters)}
DECODE = """return import("/pictures.js").then(({ pictureIn }) => {
  const { words, make } = pictureIn(Uint8Array.from(arguments[0]));
  const { width, inks } = make();
  return [words, width, Array.from(inks, (ink) => ink.toString(16)).join("")];
});"""
SCREEN = """return import("/screen.js").then(({ textScreen }) =>
  Array.from(textScreen(Uint8Array.from(arguments[0])).inks, (ink) => ink.toString(16)).join(""));"""

@pytest.mark.parametrize("words", DRAWN)
def test_picture_has_the_dots_that_a_second_decoder_finds(reader, words):
    start, size, dot = DRAWN[words]
    data = bytes((n * n // 7 + n // 11) % 256 for n in range(size))
    said, width, inks = reader.script(DECODE, [*struct.pack("<H", start), *data])
    assert said == words and inks == "".join(f"{dot(data, n % width, n // width):x}" for n in range(len(inks)))

def test_screen_has_the_colours_and_places_of_its_text(reader):
    """Two red blocks in the second row of a screen with a border of sixteen dots, and a yellow one below the second."""
    inks = reader.script(SCREEN, list(b"\x93\r\x12\x1c  \x9d\x11\x9e \x92"))
    dots = {(n % 352 - 16, n // 352 - 16): ink for n, ink in enumerate(inks)}
    at = {ink: {place for place, other in dots.items() if other == ink} for ink in "27"}
    assert at["2"] == {(x, y) for x in range(16) for y in range(8, 16)}
    assert at["7"] == {(x, y) for x in range(8, 16) for y in range(16, 24)}
    assert {ink for (x, y), ink in dots.items() if not (0 <= x < 320 and 0 <= y < 200)} == {"e"}

# A script: whether a directory stands on its screen as a text does on that of a C64. Dots of a terminal are two high.
ALIKE = """const [disk, text] = arguments;
const dots = (canvas) => { const [margin, tall] = canvas.width === 352 ? [16, 1] : [12, 2];
  const { data } = canvas.getContext("2d").getImageData(margin, margin, 320, 128 * tall);
  const dots = new Uint32Array(data.buffer).filter((_, at) => Math.floor(at / 320) % tall === 0);
  return dots.map((dot) => dots.indexOf(dot)).join();
};
return import("/screen.js").then(({ canvasOf, directoryScreen, textScreen }) =>
  dots(directoryScreen(disk, false, 1)) === dots(canvasOf(textScreen(Uint8Array.from(text)), 1)));"""
# By a kind of disk: files, and the text that its screen is like: light blue (9A hex), grey (98) where there is no size.
DIRECTORIES = [("d64", [("LOADER", "PRG", 509), ("A%D3B", "SEQ", None), ("X", "USR", None, None, ["not-closed"])],
     b'\x0e\x9a\rLOAD"$",8\r\rSEARCHING FOR $\rLOADING\rREADY.\rLIST\r\r0 \x12"DISK 7          " MU 2A\x92\r'
     b'3    "LOADER"           PRG\r\x98     "A\xd3B"              SEQ\r     "X"               *USR\r'
     b"\x9aREADY.\r\x12 "),
    ("cpm8", [("PIP.COM", "COM", 128, 0), ("NOTES.TXT", "TXT", 128, 3), ("ED.COM", "COM", None, 0)],
     b"\x9aA>DIR\rA: PIP      COM : \x98ED       COM\r\x9aA>USER 3\rA>DIR\rA: NOTES    TXT\rA>\x12 ")]

@pytest.mark.parametrize("kind, files, text", DIRECTORIES, ids=["C64", "CP/M"])
def test_directory_stands_on_the_screen_of_its_machine(reader, kind, files, text):
    files = [dict(zip(("name", "type", "size", "user", "faults"), file), effect="read") for file in files]
    assert reader.script(ALIKE, {"kind": kind, "accession": 7, "files": files}, list(text))

def test_file_says_what_is_known_of_it_and_how_to_cite_it(reader):
    assert reader.go("2001/0") and dict(zip(reader.texts("dt"), reader.texts("dd"))) == {
        "Disk": "Disk 2001", "Place": "file 1 of 9 on its list, at slot 0 of the directory",
        "Type": "PRG, a BASIC program, of Commodore 1541", "Size": f"{len(BASIC)} bytes, 1 block",
        "Load address": "2049 ($0801)", "SHA-256": digest(BASIC), "Open by": "rule 20 of deed 9 (R9.20)"}
    disk = "“Disk 2001”, floppy disk (Commodore 1541), accession number 2001"
    file = f"“HELLO”, PRG file, {len(BASIC)} bytes, slot 0, on {disk}. SHA-256 {digest(BASIC)}"
    cite, link = "%s. {} (accessed 15 June 2026).", ("2001/0", "Copy link", "{}")
    alone = ", an address that works only on the computer where it was copied"
    for at, more in ("localhost", alone), ("desk.localhost", ""):
        reader.driver.get(address := reader.door.address.replace("127.0.0.1", at))
        for place, name, words in (("2001", "Cite", cite % disk), link, ("2001/0", "Cite", cite % file)):
            assert reader.go(place) and reader.push(name)
            text = words.format(f"{address}#/{place}{more}")
            wait_for(text, lambda: reader.text(".copied").partition(": ")[2] == text)
    reader.named("link", "LETTER\u00a0→").click()
    assert reader.read(lambda state: state["heading"] == "LETTER")["here"] == "#/2001/1"
    assert "%CC%C5%D4%D4%C5%D2" in reader.texts("dd"), "its name as it is printed"

def test_disk_with_most_files_and_a_picture_is_found_and_short_on_a_phone_beside_its_figure(museum, reader):
    museums.put_files(museum, 2003, "d64", 9, [(f"FILE {n}", "PRG", bytes(10003 - n)) for n in range(11)])
    museums.put_files(museum, 2004, "cpm8", 9, [("PLAY.BAS", "BAS", b"10 END\r\n"), ("NOTE", "", b"Hi\r\n")])
    reader.load()
    assert reader.go("2002")["rows"] == [["LETTER.TXT", "TXT text", str(len(STAR)), "user 3", "Read it"]]
    assert reader.go("?type=picture")["matches"] == ["FILE 0"] and "All" in reader.text("[aria-label=Files] .chip")
    chips = {"Programs (BASIC, machine code) 14", "Pictures 1", "REL records or compiled code 1"}
    assert {*reader.go("?type=PRG")["chips"]} >= chips and "FILE 0" not in reader.read()["matches"]
    assert reader.find("BASIC")["disks"][0] == "Disk 2004", "what is surely BASIC before what may be"
    assert reader.go("2004/0") and "Shown as a listing of BASIC." in reader.texts("#view p")
    assert {"HELLO", "FILE 0"} & {*reader.find("BASIC programs")["matches"]} == {"HELLO"}
    assert reader.find("<IMG")["matches"] == [HARMFUL[2].upper()] and reader.harmed() == [None, 0]
    assert reader.go("?sort=files")["disks"][:2] == ["Disk 2003", "Disk 2001"]
    assert [row[-1] for row in reader.go("2003")["rows"][:2]] == ["Show it", "Read it"]
    shown = "const at = document.querySelector('figure canvas'); return [at.role, at.ariaDetailsElements[0].tagName]"
    assert reader.script(shown) == ["img", "TABLE"]
    assert reader.texts(".neighbours > *") == ["", "1 of 7 disks", "Disk 2001\u00a0→"]
    for width in (360, 640):
        with reader.phone(width):
            reader.wait(lambda state: reader.script("return window.innerWidth") == width)
            assert reader.script("return document.querySelector('table').offsetHeight") <= 1100
    museum.rules["T2001"] = {1: museums.rule(1, "list", ["public"])}
    assert HARMFUL[2].upper() in reader.go("2001/3")["refusal"][3] and reader.harmed() == [None, 0]

def zip_says(reader, words):
    wait_for(f"{words!r} beside the button of the zip", lambda: words in "".join(reader.texts("[role=status]")))

def zipped(reader):
    """The zip of disk 2001, the rows of its list, and what it says of itself."""
    assert reader.go("2001") and reader.named("button", "as a zip").click() is None
    made = zipfile.ZipFile(io.BytesIO(reader.saved("disk-2001-asked-2026-06-15T12*Z.zip")))
    assert made.testzip() is None
    return made, list(csv.reader(made.read("list.csv").decode().splitlines())), made.read("about.txt").decode()

def test_zip_has_all_files_that_may_be_read_by_harmless_names_and_says_what_it_is(museum, reader):
    museum.rules["T2001"] = {1: museums.rule(1, "deny", ["public"], {"slot": 2})}
    made, rows, about = zipped(reader)
    names = [f"files/{name}" for name in SAVED_AS]
    assert made.namelist() == [*names, "SHA256SUMS", "list.csv", "about.txt"]
    assert {one.date_time[:3] for one in made.infolist()} == {(2026, 6, 15)}, "another day than that of the clock"
    assert [made.read(name) for name in names] == [data for _, data in GIVEN]
    sums = [f"{digest(data)}  {name}" for name, (_, data) in zip(names, GIVEN)]
    assert made.read("SHA256SUMS").decode().splitlines() == sums
    heads = ["name as shown", "type", "bytes", "sha256", "name here", "left out because"]
    assert "counted from 0)" in rows[0][0] and rows[0][3:] == heads
    assert rows[-3][8].startswith("In this table an apostrophe at the beginning of a cell, be"), "a sign too many"
    assert [row[2] for row in rows[1:-3]] == [name if name[0] != "=" else f"'{name}" for name, _ in GIVEN]
    assert all(row[8] and row[8] in about.replace("\n", " ") for row in rows[-2:]), "what it lacks is not in the table"
    zip_says(reader, "Saved: 8 files.")
    for words in (f"number 2001. {reader.door.address}#/2001, an ",
                  "desk on 15 June 2026 at [0-9:]+ .* by the reader's clock, as the public[.] This zip is made "
                  "with the eyes of the public[.]",
                  "had come by 15 June .*[.]\n", "zip: 8 files, .*\nfiles/HELLO.prg: HELLO, slot 0, rule 20 of deed 9 ",
                  "zip: 0 files[.]\n\n1 more file is closed to the public, .*: takedown 1 of disk 2001 .T2001.1.[.]"):
        assert re.search(words, about), (words, about)

def test_zip_asks_in_a_pace_again_after_429_and_leaves_out_what_was_closed_meanwhile(museum, reader):
    tries = []

    def before(method, path):
        if "/files/" in path and not path.endswith("/9"):
            tries.append((int(path.rpartition("/")[2]), time.monotonic()))
            museum.rules["T2001"] = {1: museums.rule(1, "deny", ["public"], {"slot": 3})}
            return refused_by_nginx(429, "Too Many Requests") if len(tries) == 4 else None

    reader.door.before = before
    made, rows, about = zipped(reader)
    assert [slot for slot, _ in tries] == [0, 1, 3, 4, 4, 5, 6, 7, 8]
    gaps = [later - first for (_, first), (_, later) in zip(tries, tries[1:])]
    assert min(gaps) > 0.09 and gaps[3] > 1.5
    words = "You may not read this file. Ask the staff, who know why. Rule: T2001.1, takedown 1 of disk 2001."
    assert rows[4] == ["3", "", HARMFUL[0], HARMFUL[0], "USR", "", "", "", words]
    left = f"TOUR, slot 2: a file of records, which the desk cannot give out\n{HARMFUL[0]}, slot 3: {words}\n"
    end = "This text does not say what was open or closed at any other time.\n"
    assert f"2 files.\n{left}\nThe desk tells of no other file that is closed.\n{end}" in about
    zip_says(reader, "Saved: 7 files. 2 listed files left out: about.txt in the zip says why. The desk tells of no")
    assert made.namelist()[:3] == ["files/HELLO.prg", "files/LETTER.seq", "files/_CON.usr"]

@pytest.mark.parametrize("is_outside, key, eyes", [(False, STAFF, "the staff"), (False, "hello", "the reading room"),
    (True, STAFF, "the reading room or the staff: the desk does not tell at this address of which")])
def test_zip_says_with_whose_eyes_it_was_made(driver, museum, tmp_path, is_outside, key, eyes):
    with stand_in.Door(museum, outside=is_outside, folder=tmp_path) as door:
        door.address += "index.html"
        page = ReadersPage(driver, door)
        assert page.give(key) and f"cannot tell. This zip is made with the eyes of {eyes}. " in zipped(page)[2]

@pytest.mark.parametrize("at, then, words", ids=["lost", "stopped", "another key", "late"], argvalues=[
    (1, 3, CANNOT_REACH), (1, 3, "Stopped."), (1, 3, ""), (2, 9, "Stopped.")])
def test_zip_that_is_stopped_or_lost_or_gets_another_key_is_not_saved(museum, reader, at, then, words):
    museum.rules["T2001"], is_stopped = {1: museums.rule(1, "deny", ["public"], {"slot": 2})}, threading.Event()
    asked = lambda slot: [path for _, path, _ in reader.door.visits if path.endswith(f"/2001/files/{slot}")]
    assert reader.go("2001") and wait_for("what the page asks of closed files", lambda: asked(9))
    lost_or_late = lambda: b"" if words == CANNOT_REACH else is_stopped.wait(LIMIT) and None
    reader.door.before = lambda method, path: lost_or_late() if path.endswith(f"/files/{at}") else None
    reader.door.visits.clear()
    reader.named("button", "as a zip").click()
    wait_for("the file at which it ends", lambda: asked(at))
    if words != CANNOT_REACH:
        reader.named("button", "Stop").click() if words else reader.give("hello")
    is_stopped.set()
    zip_says(reader, words) if words else time.sleep(1)
    assert not list(reader.driver.downloads.iterdir()) and not asked(then)
