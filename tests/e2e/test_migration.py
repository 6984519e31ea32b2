"""What opens a store of version 1, of first-version.trial, brings it to version 2, and changes nothing else."""

import shutil

import pytest
from support import trials
from support.samples import STAFF
from support.sqlite_shell import shell

TABLE = """accession,deed,kind,slot,user,name,type,size,faults,rule,effect
12,7,d64,0,,HELLO,PRG,258,,R7.20,read
14,7,d64,0,,LOOP,PRG,,loop,R7.20,read
"""
DECLARED = "SELECT name, sql FROM sqlite_master ORDER BY name"

def statements(folder):
    """The statements that make the store, with the file of an image in the place of ?1."""
    lines = trials.lines_of("first-version.trial")
    for (word, text), (after, name) in zip(lines, [*lines[1:], ("", "")]):
        if after == "image":
            (folder / name).write_bytes(trials.image(name))
            text = text.replace("?1", f"readfile('{folder / name}')")
        if word in ("sql", "sql-idle"):
            yield f"{text};"

@pytest.fixture(scope="module")
def first(tmp_path_factory):
    """A store of version 1."""
    folder = tmp_path_factory.mktemp("first")
    shell(folder / "store", "\n".join(statements(folder)))
    assert shell(folder / "store", "SELECT version FROM desk") == "1\n"
    return folder / "store"

@pytest.fixture
def store(first, tmp_path):
    return shutil.copy(first, tmp_path / "store")

def rows(store):
    tables = ("deed", "image", "rule", "badge", "found", "checked")
    return {table: sorted(shell(store, f".dump {table}").splitlines()) for table in tables}

@pytest.mark.parametrize("words, output", [(["export", "--key", STAFF], TABLE), (["copy", "--to", "copy"], "done\n"),
    (["serve", "--count", "0", "--socket", "socket"], "listening socket\nserved 0\n")], ids=["export", "copy", "serve"])
def test_command_migrates_a_store_to_the_tables_of_a_new_desk(ends, store, first, filled, words, output):
    assert ends(*words, "--store", store) == (0, output, "")
    assert shell(store, "SELECT version FROM desk; SELECT count(*) FROM marks; PRAGMA integrity_check") == "2\n0\nok\n"
    assert (shell(store, DECLARED), rows(store)) == (shell(filled, DECLARED), rows(first))
    assert ends("export", "--key", STAFF, "--store", "copy" if words[0] == "copy" else store) == (0, TABLE, "")
    assert rows(store) == rows(first)
