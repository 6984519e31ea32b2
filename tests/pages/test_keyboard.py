"""Both pages by keys alone: readers come to a file and its download, the staff puts a takedown."""

from selenium.webdriver.common.keys import Keys
from support.browser import STAFF

def reach(page, name, *keys):
    """Presses Tab, 120 times at most, until the control with a name has the focus, and then other keys there."""
    for _ in range(120):
        page.press(Keys.TAB)
        if page.focused() == name:
            return page.press(*keys) if keys else None
    raise AssertionError(f"no Tab leads to {name}")

def test_reader_finds_reads_and_downloads_a_file(reader):
    label = "Search titles, notes, names and kinds of files, and numbers (not what is in the files)"
    reach(reader, label, "guide", Keys.ENTER)
    assert reader.read(lambda state: "q=guide" in state["here"] and state["matches"])["disks"] == ["Disk 1002"]
    reach(reader, "GUIDE", Keys.ENTER)
    assert reader.read(lambda state: state["heading"] == "GUIDE") and reader.focused() == "GUIDE"
    reach(reader, "Bytes", Keys.ENTER)
    assert reader.named("region", "What is in the file").text.startswith("000000  ")
    reach(reader, "Download", Keys.ENTER)
    assert reader.saved("GUIDE.seq")

def test_staff_gives_a_key_and_puts_a_takedown(staff):
    staff.load()
    reach(staff, "Key of the staff", STAFF, Keys.ENTER)
    staff.read(lambda state: state["rows"])
    reach(staff, "Takedowns", Keys.ENTER)
    staff.read(lambda state: state["heading"] == "Takedowns")
    for name, *keys in [("Your name", "Ada"), ("Reason", "a letter"), ("Accession, or many", "1002"),
                        ("the public", Keys.SPACE), ("Which files", Keys.DOWN, Keys.DOWN), ("Slot", "0"),
                        ("They may", Keys.DOWN, Keys.DOWN), ("Put it", Keys.ENTER)]:
        reach(staff, name, *keys)
    staff.wait(lambda state: state["sure"], "a question")
    reach(staff, staff.text("#sure [value=go]"), Keys.ENTER)
    shown = staff.wait(lambda state: not state["busy"] and not state["sure"], "the outcome")
    assert shown["result"][0] == "Put: takedown 10 of disk 1002."
    assert staff.door.effects(1002)["public"] == ["deny", "read", "read"]
    reach(staff, "Drop takedown 10 of disk 1002")
