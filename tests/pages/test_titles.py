"""The museum's own tables beside the pages: titles and notes of disks on both pages, and whose room it is."""

import pytest
from support import museums
from support.browser import wait_for
from support.museums import HARMFUL

PUBLIC = "\r\n".join(["\ufeffaccession,title,note", f"1002,{HARMFUL[2]},Müllerstraße: a GUIDE", "1004,Not open,hush",
                     '1001,Letters of a Férryman,"Written on the river, 1983 to 1986"', "0,no disk,", ""])
UMLAUTS = "müller", "MU\u0308LLER", "mueller", "muller", "M*ller strasse", "Mü*er straße"
FOR_STAFF = "accession,title,note\n1001,Letters (the ferry company asks for care),see the file\n1005,=1+1,\n"
ABOUT = "\n".join(["name,value", 'museum,"Museum of the River, Lower Valley"', "welcome,Read what is on our disks.",
                   "mail,room@museum.example", "phone,+49 89 555", "imprint,imprint.html",
                   "privacy,javascript:alert(1)", "hours,one,two", "logo,x.png", ""])

@pytest.fixture(autouse=True)
def tables(tmp_path):
    (tmp_path / "titles.csv").write_bytes(PUBLIC.encode())
    (tmp_path / "staff.titles.csv").write_text(FOR_STAFF)

def test_titles_and_notes_for_readers_are_shown_and_found(reader):
    assert reader.read(lambda state: state["disks"])["disks"] == [HARMFUL[2], "Letters of a Férryman", "Disk 1003"]
    assert reader.harmed() == [None, 0]
    shown, ferry = reader.go("1001"), ["Letters of a Férryman"]
    assert (shown["heading"], shown["title"]) == (*ferry, f"{ferry[0]}, disk 1001 – The reading room")
    about = ["Disk 1001 · CP/M, 8 inches · 2 files that you see", "Written on the river, 1983 to 1986"]
    assert reader.texts("#view > p") == about
    wanted = {"FERRY": ferry, "letters river 1984": [], "1986 letters river": ferry, "hush": [], "welcome": ferry,
              "Accession number 1001": ferry, "1001": ferry, "ferryman welcomes": ferry, "damaged": [],
              **dict.fromkeys(UMLAUTS, [HARMFUL[2]])}
    for words, disks in wanted.items():
        assert reader.find(words)["disks"] == disks, words
    assert reader.find("ferry")["matches"] == ["WELCOME.TXT", "SKEW.TXT"], "the files of a disk that was found"
    assert reader.find("guide")["matches"] == ["GUIDE"], "a file that has the word, and not all of the disk"
    found = reader.find("a welcome on the river")["matches"]
    assert (found, reader.texts("mark")) == (["WELCOME.TXT"], ["river", "WELCOME"])
    assert reader.go("1001") and reader.texts(".neighbours") == [], "no way to others where one disk was found"

def test_titles_for_the_staff_go_before_those_for_all(staff):
    mine = "1001Letters (the ferry company asks for care)"
    wanted = [mine, f"1002{HARMFUL[2]}", "1003", "1004Not open", "1005=1+1", "1006"]
    assert [row[0] for row in staff.go("checks")["rows"]] == wanted
    hint = "“Letters (the ferry company asks for care)”."
    assert staff.go("takedowns/1001")["hint"] == hint
    assert staff.go("eyes") and staff.push("Look")
    for words, disks in (("company", [mine] * 2), ("ferryman", [])):
        assert [row[0] for row in staff.fill("eyes", words=words, closed=True).read()["rows"]] == disks

def test_table_that_is_none_gives_no_titles(tmp_path, reader):
    for text in ("number,title\n1001,x\n", 'accession,title,note\n1001,"x\n'):
        (tmp_path / "titles.csv").write_text(text)
        assert reader.load()["disks"] == ["Disk 1001", "Disk 1002", "Disk 1003"]

def test_room_is_the_museums_in_head_foot_title_and_refusals(museum, tmp_path, reader):
    (tmp_path / "about.csv").write_text(ABOUT)
    shown = reader.load()
    assert shown["heading"] == "Read what is on our disks."
    assert shown["title"] == "The reading room – Museum of the River, Lower Valley"
    assert reader.texts(".brand > *") == ["Museum of the River, Lower Valley", "The reading room"]
    links = "return Array.from(document.querySelectorAll(arguments[0]), (one) => decodeURIComponent(one.href))"
    assert reader.script(links, "#foot a") == ["mailto:room@museum.example", f"{reader.door.address}imprint.html"]
    assert reader.texts("#foot p")[0] == "Museum of the River, Lower Valley" and "one" not in reader.text("#foot")
    museum.rules["T1001"] = {1: museums.rule(1, "deny", ["public"], {"slot": 0})}
    of, there = "Letters of a Férryman", "“Letters of a Férryman”: Written on the river, 1983 to 1986"
    subjects = {"1001": f"1001: {of}", "1003/0": "1003, slot 0: LOGBOOK", "1001/0": f"1001, slot 0: {of}",
                "1001/1": f"1001, slot 1: SKEW.TXT on {of}"}
    for place, subject in subjects.items():
        assert (reader.go(place)["refusal"][1:2] == [there]) == (place == "1001/0")
        [mail] = reader.script(links, "#view a[href^=mailto]")
        assert mail.startswith(f"mailto:room@museum.example?subject=Disk {subject}&body=")
        assert mail.endswith(f"#/{place}")
    assert "Write to room@museum.example about this file, or call +49 89 555." in reader.text("#view")
    reader.push("Cite")
    words = f"d: Museum of the River, Lower Valley. “SKEW.TXT”, TXT file, 640 bytes, slot 1, on “{of}”, floppy"
    wait_for("how to cite it", lambda: words in reader.text(".copied"))
