"""Whether operate/desk-look finds what is not well on a museum's machine, and whether operate/desk-alarm reports it."""

import json
import os
import re
import shutil
import signal
import socket
import subprocess
import time

import pytest
from support.room import OPERATE, Room, make_script, wait_until
from support.samples import STAFF
from support.server import LIMIT

DOWN = 1, "the desk does not answer: nginx says 503\n", ""
# Where no mail program is.
PATH = "/usr/bin:/bin"
UNITS = "nginx.service desk-staff.service desk-space.service desk-backup.timer desk-check.timer desk-look.timer".split()
RUN = "".join(f"{unit} loaded active running\n" for unit in UNITS)

def run(tool, *words, before=(), **settings):
    """How a tool ends: its status, and what it writes."""
    words = [*before, os.path.join(OPERATE, tool), *map(str, words)]
    where = {**os.environ, **{name: str(value) for name, value in settings.items()}}
    ran = subprocess.run(words, capture_output=True, text=True, stdin=subprocess.DEVNULL, timeout=LIMIT, env=where)
    return ran.returncode, ran.stdout, ran.stderr

@pytest.fixture(scope="module")
def room(program):
    """A machine that is just well: with a desk, both doors, desk-space, a certificate of 15 days, a backup of 47 hours
    ago. Beside it lie a certificate of 13 days, other backups, a store of more bytes than any disk has free, and one
    without sums. What systemd says of units and of the clock, and openssl of a certificate, is in files."""
    with Room(program) as made:
        for name, words in {"large": ["--sums"], "plain": [], "museum": ["--sums"]}.items():
            made.run("init", *words, "--store", f"{made.folder}/{name}.sqlite", "--key", STAFF)
        os.truncate(made.folder / "large.sqlite", 1 << 43)
        made.start_desk()
        made.configure()
        for name, days in (("13", 13), ("site", 15)):
            words = f"openssl req -x509 -newkey rsa:2048 -nodes -subj /CN=x -days {days}".split()
            words += ["-keyout", made.folder / f"{name}.key", "-out", made.folder / f"{name}.crt"]
            subprocess.run(words, check=True, capture_output=True)
        made.start_nginx()
        for folder, hours in (("backups", 47), ("old", 49), ("ahead", 47), ("ahead", -24)):
            moment = time.strftime("%Y-%m-%dT%H%M%SZ", time.gmtime(time.time() - 3600 * hours))
            (made.folder / folder / moment).mkdir(parents=True)
        (made.folder / "bin").mkdir()
        for name, words in {"systemctl": "cat units", "timedatectl": "cat clock",
                            "openssl": f'cat dates 2>/dev/null || exec {shutil.which("openssl")} "$@"'}.items():
            make_script(made.folder / "bin" / name, f"cd {made.folder}; {words}")
        (made.folder / "units").write_text(RUN)
        (made.folder / "clock").write_text("yes\n")
        with made.asked_for_space():
            yield made

def look(room, *words, before=(), **values):
    """Looks at the room, by places of which some have other values."""
    places = room.write_places(room.folder / "looked-at", **values)
    return run("desk-look", *words, places, before=before, PATH=f"{room.folder}/bin:{PATH}")

@pytest.mark.parametrize("name, value, words", [
    ("CERTIFICATE", "{}/none", r"the certificate cannot be read: .*/none\n"),
    ("CERTIFICATE_KEY", "{}/13.key", r"the certificate does not fit its key, .*\n"),
    ("CERTIFICATE", "{}/13.crt", r"(the certificate .*\n){2}nginx serves another certificate than .*\n"),
    ("HTTPS_PORT", "1", r"nobody answers readers at the port of HTTPS: .*\n"),
    ("BACKUPS", "{}/none", r"there is no backup in .*/none\n"),
    ("BACKUPS", "{}/old", r"the latest backup is that of [0-9TZ-]+\n"),
    ("BACKUPS", "{}/ahead", r"the clock is behind the backup of [0-9TZ-]+, or was ahead when that was made\n"),
    ("JOURNAL", "{}/none", r"there is no journal: .*/none\n"),
    ("SPACE", "{}/none", r"desk-space gives no reply \(.*\)\n"),
    ("STORE", "{}/large.sqlite", r"(.* has [0-9]+ MiB free; it needs [0-9]+\n){2}"),
    ("STORE", "{}/plain.sqlite", r"the store has no sums, which BY-HAND gives it: .*\n"),
    ("STAFF_PORT", "1", r"nginx gives no reply \(.*Connection refused\)\n"),
    ("ALARM", "anna@museum.example", r"ALARM is an address, and there is no mail program, .*\n"),
    ("ALARM", "{}/none", r"ALARM is no program: .*/none\n"),
    ("PING", "http://127.0.0.1:1/", r"PING gives no reply: .*\n"),
    ("METRICS", "{}/none/metrics", r"METRICS cannot be written: .*\n")])
def test_what_is_missing_old_or_full_is_named(room, name, value, words):
    assert look(room) == (0, "", "")
    status, out, errors = look(room, **{name: value.format(room.folder)})
    assert re.fullmatch(words, out) and (status, errors) == (1, ""), out

FAILED = "desk-check desk-check@b desk-look desk-look@b desk-alarm@x ".replace(" ", ".service loaded failed failed\n")

@pytest.mark.parametrize("name, said, words, places", [
    ("clock", "no\n", "the clock is not set by the network: type timedatectl\n", {}),
    ("dates", "notBefore=Jan  1 00:00:00 2999 GMT\nnotAfter=Feb  1 00:00:00 2999 GMT\n",
     "the clock is behind: the certificate begins on Jan  1 00:00:00 2999 GMT\n", {}),
    *(("units", RUN.replace(f"{unit} loaded active", f"{unit} loaded inactive"),
       f"{unit} does not run: type systemctl status {unit}\n", {}) for unit in UNITS),
    *(("units", re.sub(r"(desk-\w+)", rf"\1{at}", RUN) + FAILED,
       f"desk-check{at}.service has failed: type journalctl -u desk-check{at}.service\n"
       "desk-alarm@x.service has failed: type journalctl -u desk-alarm@x.service\n", {"UNIT": f"desk{at}.service"})
      for at in ("", "@b"))])
def test_what_systemd_says_of_units_or_the_clock_is_named(room, name, said, words, places):
    file = room.folder / name
    before = file.read_text() if file.exists() else ""
    file.write_text(said)
    try:
        assert look(room, **places) == (1, words, "")
        assert name != "clock" or look(room, CLOCK="alone") == (0, "", "")
    finally:
        file.write_text(before) if before else file.unlink()

def test_look_that_finds_nothing_is_told_elsewhere(room):
    """Somebody there notices where none comes. What it found is there for Prometheus, too."""
    metrics, path = room.folder / "desk.prom", "/room.css?all-is-well"
    told = {"PING": f"http://127.0.0.1:{room.staff_port}{path}", "METRICS": metrics}
    another = {**told, "BACKUPS": room.folder / "old", "UNIT": "desk@b.service"}
    for status, places, unit in ((0, told, ""), (1, another, ',unit="desk@b.service"')):
        assert look(room, **places)[0] == status
        assert f'\ndesk_faults{{look="backup"{unit}}} {status}\n' in metrics.read_text()
        subprocess.run(["promtool", "check", "metrics"], input=metrics.read_bytes(), check=True)
    wait_until(lambda: room.logs().count(path.encode()) == 1)

@pytest.mark.parametrize("place", ["JOURNAL", "STORE"])
@pytest.mark.parametrize("megabytes, is_named", [(200, True), (400, False)])
def test_disk_that_will_be_full_is_named_before_commands_are_refused(room, place, megabytes, is_named):
    with room.small_disk(megabytes) as (folder, before):
        touched = [*before, "sh", "-c", f'touch {folder}/journal && "$@"', "sh"]
        named = f"{folder} has {megabytes} MiB free; below 64 the staff's door takes no commands\n"
        wanted = (1, named, "") if is_named else (0, "", "")
        assert look(room, before=touched, **{place: folder / "journal"}) == wanted

def test_fault_is_reported_once_a_day(room):
    path = room.folder / "reported"
    new = "--new", path
    with room.desk_down():
        assert look(room) == DOWN
        assert look(room, *new) == DOWN
        assert look(room, *new) == (0, "", "")
        assert look(room, *new, CERTIFICATE=room.folder / "none")[1].count("\n") == 1
        assert look(room, *new) == (0, "", "")
        path.write_text(json.dumps({name: moment - 24 * 3600 for name, moment in json.loads(path.read_text()).items()}))
        assert look(room, *new) == DOWN

def test_systemd_is_told_that_the_desk_replies_and_not_while_it_stalls(room):
    words, where = [f"{OPERATE}/package/watch", room.place, "0.05"], {"NOTIFY_SOCKET": f"{room.folder}/notify"}
    with socket.socket(socket.AF_UNIX, socket.SOCK_DGRAM) as told:
        told.bind(where["NOTIFY_SOCKET"])
        told.settimeout(5)
        where |= {**os.environ, "MAINPID": str(room.desk.pid)}
        watch = subprocess.Popen(words, env=where, start_new_session=True)
        try:
            assert watch.wait(timeout=LIMIT) == 0 and told.recv(99) == b"WATCHDOG=1"
            with room.desk_stalled(), pytest.raises(TimeoutError, match="timed out"):
                for _ in range(50):
                    told.recv(99)
            assert told.recv(99) == b"WATCHDOG=1"
        finally:
            os.killpg(watch.pid, signal.SIGKILL)
    assert subprocess.run([words[0], "/none", "1"], env=where | {"MAINPID": "4194305"}, timeout=LIMIT).returncode == 1

NOBODY, MAIL = "names nobody to report it to", "anna@museum.example"

@pytest.mark.parametrize("alarm, unit, status, words", [
    ("{}/own", "a.service", 0, ""), ("{}/own", "--test", 0, ""), (MAIL, "a.service", 0, ""), (MAIL, "--test", 0, ""),
    ("{}/bad", "a.service", 1, "/bad has not taken the report"), ("b@x", "a.service", 1, "no mail went to b@x"),
    (None, "a.service", 0, NOBODY), (None, "--test", 1, NOBODY), ("none", "--test", 1, "no mail program for none: ")])
def test_alarm_reports_by_a_command_or_by_mail_or_says_why_it_cannot(room, tmp_path, alarm, unit, status, words):
    takes = f'{{ echo "word $*"; cat; }} >{tmp_path}/report'
    for name, script in {"journalctl": 'echo "the journal of $7"', "hostname": "echo museum", "own": takes,
                         "bad": "exit 3", "sendmail": f"{takes}; ! grep -q b@x {tmp_path}/report"}.items():
        if (alarm, name) != ("none", "sendmail"):
            make_script(tmp_path / name, script)
    places = room.write_places(tmp_path / "places", **({"ALARM": alarm.format(tmp_path)} if alarm else {}))
    came, _, errors = run("desk-alarm", unit, PATH=f"{tmp_path}:{PATH}", DESK_PLACES=places)
    assert came == status and words in errors, errors
    if not words:
        report, due = (tmp_path / "report").read_text(), "the journal of a.service"
        due = "desk: a test on museum" if unit == "--test" else f"desk: {unit} has failed on museum\n\n{due}"
        assert report.startswith(f"word -t\nTo: {alarm}\nSubject: " if alarm == MAIL else f"word {unit}\n")
        assert f"{due}\n" in report
