"""What only the real process shows: its status and streams, pipes, paths that are no files, the rights of its files and
sockets, sums, and two programs at one store. What it prints otherwise the trials show."""

import os
import pathlib
import stat
import subprocess

import pytest
from support import cbm_image, model_disks
from support.server import ROOT, connected

WELCOME, MUSEUM = (pathlib.Path(ROOT, "images", name) for name in ("welcome.img", "museum.d64"))
KEY, SERVE, DONE = ["--key", "abc"], ["serve", "--count", "0"], (0, "done\n", "")
EXISTS, USAGE = (1, "", "desk: exists\n"), (2, "", "desk: usage\n")
SAVE = "  Save it as a file, and give its path: then more can be said of it."
LOOK = "First look that no other desk or sqlite3 uses it; else give the file of a store, or bring back a backup of it."
STORE, DEVICE, NO_DESK = ((3, "", f"desk: {name}\n") for name in ("store", "device", "not-a-desk"))

@pytest.fixture
def plain(ends, tmp_path):
    """A new store without sums, beside a second one and all else that a path can lead to."""
    assert ends("init", "--store", "plain", *KEY) == ends("init", "--store", "other", *KEY) == DONE
    (tmp_path / "text").write_text("a text that is no database\n")
    (tmp_path / "empty").touch()
    (tmp_path / "folder").mkdir()
    (tmp_path / "dangling").symlink_to("nowhere")
    (tmp_path / "link").symlink_to("plain")
    return tmp_path / "plain"

def keys(ends, name):
    """What shows that a store opens as the desk that it was."""
    status, told, errors = ends("show", "keys", "--store", name, *KEY)
    assert (status, told.count('"audience"'), errors) == (0, 1, "")
    return told

@pytest.mark.parametrize("words, wanted", ids=["bytes", "text", "refused", "usage", "device"], argvalues=[
    (["cat", "cpm8", WELCOME, 0], (0, model_disks.read("cpm8", WELCOME.read_bytes()).files[0].data.decode(), "")),
    (["-V", "list"], (0, "desk 0.1.0\n", "")), (["cat", "d64", MUSEUM, 1], (1, "", "desk: listed-only\n")),
    (["list", "cpm8", os.fsdecode(b"\xff")], USAGE), (["list", "cpm8", "missing"], DEVICE)])
def test_status_and_streams(ends, words, wanted):
    assert ends(*words) == wanted

@pytest.mark.parametrize("stream, told", [("full", "the disk is full"),
    ("unread", "nobody reads what is written there"), ("closed", "the system failed, and says no more")])
def test_output_that_cannot_be_written(desk, stream, told):
    reading, writing = os.pipe()
    os.close(reading)
    with open("/dev/full", "wb") as full, open(writing, "wb") as unread:
        closes = {"preexec_fn": lambda: os.close(1)}
        how = {"full": {"stdout": full}, "unread": {"stdout": unread}, "closed": closes}[stream]
        ran = desk("list", "cpm8", WELCOME, "--explain", capture_output=False, stderr=subprocess.PIPE, **how)
    assert (ran.returncode, ran.stderr.decode()) == (3, f"desk: device\n  standard output: {told}\n")

def test_store_is_not_taken_for_a_closed_stream(desk, ends, tmp_path):
    how = {"capture_output": False, "stdin": None, "preexec_fn": lambda: os.closerange(0, 3)}
    assert desk("init", "--store", tmp_path / "store", *KEY, **how).returncode == 3
    keys(ends, "store")

@pytest.mark.parametrize("words, paths, wanted", ids=["init", "export", "copy", "copy-over"], argvalues=[
    (["init", *KEY, "--store"], [":memory:", "file:desk", "", "none/new", "folder"], STORE),
    (["export", "--store"], ["", "none/store", "dangling", "text", "folder"], STORE),
    (["copy", "--store", "plain", "--to"], [":memory:", "file:desk", "", "none/new"], STORE),
    (["copy", "--store", "plain", "--to"], ["empty", "folder", "dangling", "link", "plain-wal", "other"], EXISTS)])
def test_store_is_made_in_a_new_file_and_opened_in_a_file_alone(ends, plain, words, paths, wanted):
    def seen():
        found = (path for path in plain.parent.iterdir() if path.name != "plain-wal")
        return {path: path.is_symlink() or path.is_file() and path.read_bytes() for path in found}

    before = seen()
    assert {path: ends(*words, path) for path in paths} == dict.fromkeys(paths, wanted)
    assert seen() == before
    keys(ends, "plain")

@pytest.mark.parametrize("words", [
    ["show", "keys", *KEY], ["export"], ["check", "--acc", "12", *KEY], ["import", "--sheet", "none.csv", *KEY],
    ["staff-key", *KEY], [*SERVE, "--socket", "socket"], ["copy", "--to", "new"]], ids=lambda words: words[0])
def test_no_command_but_init_makes_a_store(ends, tmp_path, words):
    assert ends(*words, "--store", "none") == NO_DESK
    assert list(tmp_path.iterdir()) == []

def test_explanation_has_what_the_system_said_and_what_to_do(ends, serving, plain):
    with serving(plain) as served:
        at_port, in_use = f"port {served.port}: another program uses it", "plain: another program uses it"
        for name, why, advice, *words in [
            ("device", "folder: it is a folder", "Give the path of a file in it.", "list", "cpm8", "folder"),
            ("store", "none/new: the folder for it is not there", "Make the folder first, or give one that is there.",
             "init", "--store", "none/new", *KEY),
            ("device", "text: there is one already", "Give the path of a file that is not there yet.",
             *SERVE, "--store", "other", "--socket", "text"),
            ("device", at_port, "Give another port, or stop what uses this one.",
             *SERVE, "--store", "other", "--port", served.port),
            ("not-a-desk", "none: there is no such file", "For a new desk, make it there with desk init.",
             "export", "--store", "none"),
            ("store", "text: it is no store of a desk",
             "Check which file you name; if it was a store, bring back a backup of it.", "export", "--store", "text"),
            ("store", in_use, LOOK, "copy", "--store", "plain", "--to", "new")]:
            status, output, errors = ends(*words, "--explain")
            lines = [line.strip() for line in errors.splitlines()]
            assert (status, output, lines[:2], lines[-1]) == (3, "", [f"desk: {name}", why], advice)
    assert not plain.with_name("new").exists()

@pytest.mark.parametrize("advice, words", ids=["image", "sheet", "zone", "key"], argvalues=[
    (SAVE, ["list", "cpm8"]), (SAVE, ["import", "--store", "plain", *KEY, "--sheet"]),
    (SAVE, ["show", "keys", "--store", "plain", *KEY, "--zone-file"]),
    ("  Put nothing but the key into a file, and give that.", ["show", "keys", "--store", "plain", "--key-file"])])
def test_explanation_reads_no_pipe_again(ends, plain, advice, words):
    _, output, errors = ends(*words, "/dev/stdin", "--explain", input=b"k" * 5000)
    assert (output, errors.splitlines()[-1]) == ("", advice)

@pytest.mark.parametrize("words, bytes_of_sums", [(["--sums"], 8), ([], 0)], ids=["sums", "no-sums"])
def test_sums_are_where_they_are_asked_for(ends, plain, words, bytes_of_sums):
    """The byte 20 of a store says how many bytes of each page are left to a sum. A copy is for its owner alone."""
    assert ends("init", *words, "--store", "new", *KEY) == ends("init", *words, "--store", "empty", *KEY) == DONE
    assert ends("copy", *words, "--store", "plain", "--to", "copy", umask=0o022) == DONE
    assert ends("copy", "--store", "copy", "--to", "back") == DONE
    sums = {name: plain.with_name(name).read_bytes()[20] for name in ("new", "empty", "copy", "back")}
    assert sums == {"new": bytes_of_sums, "empty": bytes_of_sums, "copy": bytes_of_sums, "back": 0}
    assert {stat.filemode(plain.with_name(name).stat().st_mode) for name in ("copy", "copy-wal")} == {"-rw-------"}
    assert keys(ends, "copy") == keys(ends, "back") == keys(ends, "plain")

def test_no_sums_where_a_database_is_already(ends, plain):
    assert ends("init", "--sums", "--store", "plain", *KEY) == EXISTS
    assert ends("show", "keys", "--store", "empty", *KEY) == NO_DESK
    assert ends("init", "--sums", "--store", "empty", *KEY) == STORE
    assert ends("init", "--store", "empty", *KEY) == DONE

def test_files_of_an_image_are_its_bytes_and_follow_no_link(ends, tmp_path):
    files = [file for file in model_disks.read("d64", MUSEUM.read_bytes()).files if file.data is not None]
    words, link = ["files", "d64", MUSEUM, "--to", tmp_path], tmp_path / "00000-TOUR"
    link.symlink_to("nowhere")
    assert ends(*words) == EXISTS
    link.unlink()
    assert ends(*words)[0] == 0
    wanted = {f"{int(file.fields['slot']):05}-{file.fields['name']}": file.data for file in files}
    assert {path.name: path.read_bytes() for path in tmp_path.iterdir()} == wanted

def test_large_file_of_an_image_is_made(ends, tmp_path):
    (tmp_path / "disk").write_bytes(cbm_image.filled(b"LARGE", [(0x82, b"LONG", bytes(150_000))]))
    assert ends("files", "d64", "disk", "--to", ".") == (0, "0\t00000-LONG\t150000\n", "")
    assert (tmp_path / "00000-LONG").read_bytes() == bytes(150_000)

def test_socket_is_of_one_desk_and_that_of_a_killed_one_gives_way(ends, serving, plain):
    path, words = plain.with_name("socket"), [*SERVE, "--store", "other", "--socket", "socket"]
    with serving(plain, place=path):
        assert stat.filemode(path.stat().st_mode) == "srw-rw----"
        assert ends(*words) == DEVICE
        connected(path).close()
    assert path.is_socket()
    assert ends(*words) == (0, "listening socket\nserved 0\n", "")
    assert not path.exists()
