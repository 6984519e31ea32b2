"""Disks that cpmtools and cc1541 fill: the names, types, sizes and bytes that desk finds beside those of cpmls, cpmcp,
cc1541 and cbmconvert. docs/DECISIONS.md explains the differences that are allowed: the byte S1, blocks on track 76, the
short images of mkfs.cpm, and DEL files."""

import random
import re
import subprocess

import pytest
from support import cbm_image, cpm_image

FORMAT = ["-f", "ibm-3740"]
LETTERS = "ABCDEFGHIJKLMNOPQRSTUVWXYZ0123456789$#@!-_"
DISKS = [pytest.param(number, marks=[pytest.mark.long] if number > 3 else []) for number in range(24)]

@pytest.fixture
def run(tmp_path):
    """Runs a command in the test's folder, and gives its output, or None where it fails by these words."""

    def begin(*command, fails=" full"):
        ran = subprocess.run([*map(str, command)], capture_output=True, cwd=tmp_path, timeout=60, errors="replace")
        if ran.returncode and fails in ran.stderr:
            return None
        assert (ran.returncode, ran.stderr) == (0, ""), command
        return ran.stdout

    return begin

def found(desk, kind, path):
    """The files that `list` finds without a fault, each with its user, name, type, and what `cat` gives of it."""
    *lines, end = desk("list", kind, path).stdout.decode().splitlines()
    assert end == f"files\t{len(lines)}\tend"
    for slot, user, type_, size, faults, name in (line.split("\t") for line in lines):
        ran = desk("cat", kind, path, slot)
        given = (0, str(len(ran.stdout)), "") if type_ != "DEL" or kind == "cpm8" else (1, "", "")
        assert (ran.returncode, size, faults) == given, name
        yield user, name, type_, ran.stdout

def fill_cpm(chance, run, folder):
    """Adds files of several users and sizes, deletes some, adds others, and sets attributes. Where the disk is full in
    the middle of a file, what was written of it stays there."""
    path, held = folder / "image", []
    run("mkfs.cpm", *FORMAT, path)
    path.write_bytes(path.read_bytes().ljust(cpm_image.SIZE, b"\xe5"))
    for number in range(chance.choice([3, 12, 40])):
        size = chance.choice([0, 1, 127, 128, 129, 1000, 1024, 5000, 16384, 16385, 40000, 70000])
        (folder / "local").write_bytes(chance.randbytes(size))
        stem, end = ("".join(chance.choices(LETTERS, k=chance.randint(*few))) for few in ((1, 6), (0, 3)))
        name = f"{chance.randint(0, 15)}:{stem}{number:02}{end and '.' + end}"
        if run("cpmcp", *FORMAT, path, "local", name) is not None:
            held.append(name)
        if len(held) > 2 and chance.random() < 0.2:
            run("cpmrm", *FORMAT, path, held.pop(chance.randrange(len(held))))
        if held and chance.random() < 0.2:
            run("cpmchattr", *FORMAT, path, chance.choice("rs"), chance.choice(held))
    return path

@pytest.mark.parametrize("number", DISKS)
def test_cpm_disk_beside_cpmtools(desk, run, seed, tmp_path, number):
    path, unread = fill_cpm(random.Random(f"{seed} cpm8 {number}"), run, tmp_path), []
    files = list(found(desk, "cpm8", path))
    lists = re.findall(r"^(\d+):\n((?:.+\n)*)", run("cpmls", *FORMAT, path), re.M)
    by_cpmls = sorted((user, name.upper()) for user, names in lists for name in names.splitlines())
    assert sorted((user, name) for user, name, *_ in files) == by_cpmls
    image = bytearray(path.read_bytes())
    for place in map(cpm_image.slot_place, range(64)):
        image[place + 13] = 0
    path.write_bytes(image)
    for user, name, _, data in files:
        (tmp_path / "copied").unlink(missing_ok=True)
        if run("cpmcp", *FORMAT, path, f"{user}:{name.lower()}", "copied", fails="can not read") is None:
            unread.append(name)
        else:
            assert (tmp_path / "copied").read_bytes() == data, name
    # there are three blocks with records on track 76
    assert len(unread) <= 3, unread

def fill_cbm(chance, run, folder):
    """Adds files of each type that cc1541 writes, some long, and scratches the first of some."""
    path = folder / "image.d64"
    for number in range(chance.choice([1, 5, 20, 60])):
        kind = chance.choice(["PRG", "SEQ", "USR", "DEL"])
        (folder / "local").write_bytes(chance.randbytes(chance.choice([1, 2, 253, 254, 255, 508, 509, 3000, 20000])))
        words = ["-n", "museum", "-T", kind, "-s", chance.randint(1, 12), "-f", f"file{number}", "-w", "local"]
        if run("cc1541", "-m", "-q", *words, path) is None:
            break
    image = bytearray(path.read_bytes())
    image[cbm_image.place(18, 1) + 2] *= chance.choice([0, 1])
    path.write_bytes(image)
    return path

@pytest.mark.parametrize("number", DISKS)
def test_1541_disk_beside_cc1541_and_cbmconvert(desk, run, seed, tmp_path, number):
    path = fill_cbm(random.Random(f"{seed} d64 {number}"), run, tmp_path)
    run("cbmconvert", "-N", "-d", path)
    files = list(found(desk, "d64", path))
    by_cc1541 = re.findall(r'^ *\d+ *"([^"]*)" *\*?(\w+)', run("cc1541", "-m", path).upper(), re.M)
    assert [(name, type_) for _, name, type_, _ in files] == [(name.strip(), type_) for name, type_ in by_cc1541]
    for _, name, type_, data in files:
        assert type_ == "DEL" or (tmp_path / f"{name}.{type_}".lower()).read_bytes() == data, name
