"""Sheets that Python's csv and the shell sqlite3 write, and exports that both read: of disks that are drawn, with names
that CSV has to quote, an export has exactly the rows that plain functions read on the disks."""

import csv
import json
import random
import shutil

import pytest
from hypothesis import HealthCheck, Phase, given, settings, strategies as st
from support import cbm_image, cpm_image, model_disks
from support.clients import by_client
from support.samples import ALL, DONE, EVERY, STAFF, digest, put, put_rule
from support.sqlite_shell import shell

SHEET = ["accession", "kind", "deed", "sha256", "file"]
HIDDEN, SIGNS = "AB", "AB ,\"'=%\t"

# What is drawn of a disk: its files, the seed of its error bytes, and what the path of its image begins with.
CBM_TYPES, CBM_NAMES = st.sampled_from([0x80, 0x81, 0x82, 0x83, 0x02]), st.text(SIGNS, min_size=1, max_size=16)
CBM_FILES = st.lists(st.tuples(CBM_TYPES, CBM_NAMES, st.binary(min_size=1, max_size=600)), max_size=9)
CPM_FILES = st.lists(st.tuples(st.text("AB,\"'=", min_size=11, max_size=11), st.integers(0, 16)), max_size=9)
DISKS = st.tuples(st.tuples(st.sampled_from(["d64", "d64e"]), CBM_FILES) | st.tuples(st.just("cpm8"), CPM_FILES),
    st.integers(0, 999), st.text("ab ,\"'=", min_size=1, max_size=9))

def image_of(kind, files, seed):
    if kind == "cpm8":
        return cpm_image.filled((name.encode(), bytes(128 * records)) for name, records in files)
    marks = cbm_image.marks_by_chance(random.Random(seed), (40, 100)) if kind == "d64e" else b""
    return cbm_image.filled(b"MUSEUM", [(type_, name.encode(), data) for type_, name, data in files]) + marks

def write_by_python(path, rows):
    with open(path, "w", newline="", encoding="utf-8") as file:
        csv.writer(file).writerows([SHEET, *rows])

def write_by_sqlite3(path, rows):
    texts = [", ".join("'" + str(value).replace("'", "''") + "'" for value in row) for row in rows]
    made = f"CREATE TABLE sheet ({', '.join(SHEET)}); INSERT INTO sheet VALUES ({'), ('.join(texts)});"
    path.write_bytes(shell(":memory:", f"{made} SELECT * FROM sheet", "-csv", "-header").encode())

def read_by_sqlite3(path):
    words = ["-cmd", f".import --csv \"{path}\" t", "-json"]
    return json.loads(shell(":memory:", "SELECT * FROM t ORDER BY rowid", *words) or "[]")

@pytest.fixture(scope="module")
def folder(desk, serving, tmp_path_factory):
    """A folder with a store, which has one deed: the public may not see the names that begin in one way."""
    made = tmp_path_factory.mktemp("interop")
    assert desk("init", "--store", made / "store", "--key", STAFF).stdout == b"done\n"
    asked = [put("/deeds/7", {"donor": 'D. "Donor", esq.', "signed": "2019-05-04"}),
             put_rule("/deeds/7/rules/10", "deny", {"prefix": HIDDEN}, "public"),
             put_rule("/deeds/7/rules/20", "read", EVERY, *ALL)]
    with serving(made / "store") as served:
        assert [by_client(served.port, one) for one in asked] == 3 * [DONE]
    return made

# What fails is not shrunk, which takes longer than a test may.
@settings(max_examples=12, derandomize=True, deadline=None, phases=[Phase.generate],
          suppress_health_check=[HealthCheck.too_slow])
@given(drawn=st.lists(DISKS, min_size=2, max_size=6))
def test_sheets_and_exports_go_to_other_programs_and_come_from_them(desk, folder, drawn):
    for log in ("", "-wal"):
        shutil.copy(folder / f"store{log}", folder / f"copy{log}")
    brought, rows = [], []
    for acc, ((kind, files), seed, name) in enumerate(drawn, 1):
        image, path = image_of(kind, files, seed), folder / f"{name}{acc}"
        path.write_bytes(image)
        brought.append([acc, kind, 7, digest(image), path])
        fixed = {"accession": str(acc), "deed": "7", "kind": kind, "rule": "R7.20", "effect": "read"}
        rows += [{**file.fields, **fixed} for file in model_disks.read(kind, image).files]
    for write, part in ((write_by_python, brought[::2]), (write_by_sqlite3, brought[1::2])):
        write(folder / "sheet", part)
        ran = desk("import", "--store", folder / "copy", "--key", STAFF, "--sheet", folder / "sheet")
        assert (ran.stdout.decode(), ran.stderr) == ("".join(f"{acc} done\n" for acc, *_ in part), b"")
    for key, hides in ([], True), (["--key", STAFF], False):
        (folder / "export").write_bytes(desk("export", "--store", folder / "copy", *key).stdout)
        wanted = [row for row in rows if not (hides and row["name"].startswith(HIDDEN))]
        with open(folder / "export", newline="", encoding="utf-8") as file:
            assert list(csv.DictReader(file)) == read_by_sqlite3(folder / "export") == wanted
