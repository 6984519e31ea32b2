"""Which places and which rules of clocks operate/configure takes, and its parts beside other sites of an nginx."""

import os
import pathlib
import re
import shutil
import subprocess

import pytest
from support.room import CONFIGURE, NGINX, OPERATE

EXAMPLES = "such as UTC0 or CET-1CEST,M3.5.0,M10.5.0/3"
# What is put in the place of a line of a good file of places, and what is told of it.
BAD_PLACES = {"#": "no place ZONE", "ZONE=UTC0\nA=/a b": "not a place: A=/a b",
    "ZONE=UTC0\nA=/a;": "not a place: A=/a;", "ZONE=UTC0\nA=": "not a place: A=",
    "ZONE=UTC0\nA=/a\nA=/a": "given twice: A", "ZONE=CET": f"not the rule of a clock: CET; ZONE takes one, {EXAMPLES}",
    "OFFSET=E0100": f"OFFSET is now ZONE, which takes the rule of your own clock, {EXAMPLES}"}
# Texts that are the rule of a clock, and texts that are none.
RULES = """
    CET-1CEST,M3.5.0,M10.5.0/3 NST3:30NDT,M3.2.0,M11.1.0 EST+5 <-02>2<-01>,M3.5.0/-1,M10.5.0/0 EST5EDT,0,365 <--->0
    <+1245>-12:45<+1345>,M9.5.0/2:45,M4.1.0/3:45 IST-2IDT,M3.4.4/26,M10.5.0 EST5EDT,J060,J300 EST5EDT4,M3.2.0/2,M11.1.0
    EST5EDT,M03.2.0/167:59:59,M11.1.0/-167:59:59 ABC24:59:59 ABCDEFGHIJKLMNO0 UTC0 <+0530>-5:30 <-2359>23:59
""".split()
NO_RULES = """
    UTC ES5 EST5EDT <+3>-3 <+03-3 ABC25 ABC024 ABC24:60 ABC1:2:3 ABC1:00: EST5EDT,J0,J300 EST5EDT,J366,J1 EST5EDT,366,1
    EST5EDT,M0.1.0,M1.1.0 EST5EDT,M1.6.0,M1.1.0 EST5EDT,M1.1.7,M1.1.0 EST5EDT,M3.2.0/168,M11.1.0 EST5EDT,M3.2.0
    EST5EDT,M3.2.0,M11.1.0, EST5,M3.2.0,M11.1.0 :UTC0 Europe/Prague 25 <ABC_>0 A1C0 UTC0; E0100
""".split()

@pytest.fixture
def configured(room, tmp_path):
    """Writes the configuration for places with a line in the place of that of ZONE: what is told, and the folder."""
    def write(line):
        places, folder = room.write_places(tmp_path / "places"), tmp_path / "to"
        places.write_text(places.read_text().replace("ZONE=UTC0", line))
        folder.mkdir()
        ran = subprocess.run([CONFIGURE, places, folder], capture_output=True, text=True)
        return ran.returncode, ran.stderr, folder

    return write

@pytest.mark.parametrize("line", BAD_PLACES)
def test_bad_places_are_named_and_nothing_is_written(configured, line):
    status, errors, folder = configured(line)
    assert (status, errors, list(folder.iterdir())) == (1, f"configure: {BAD_PLACES[line]}\n", [])

@pytest.mark.parametrize("rule", [*RULES, *NO_RULES, "UTC 0", "UTC0 ", ""])
def test_configure_takes_the_rules_of_clocks_that_the_desk_takes(configured, room, rule):
    is_taken = rule in RULES
    # a folder is no store, which the desk finds only after it has taken the rule
    assert room.run("export", "--store", str(room.folder), f"--zone={rule}")[0] == (3 if is_taken else 2)
    status, errors, folder = configured(f"ZONE={rule}")
    made = ["desk.service", "nginx.conf", "staff-nginx.conf"] if is_taken else []
    assert (status, errors == "", sorted(os.listdir(folder))) == (1 - is_taken, is_taken, made)
    assert not is_taken or f" --zone {rule}\n" in (folder / "desk.service").read_text()

PARTS = ["conf.d/desk.conf", "conf.d/desk-journal.conf", "snippets/desk-server.conf", "sites-available/desk"]

def test_parts_of_two_desks_stand_in_debians_nginx(room, tmp_path):
    """No file of Debian's configuration is changed, and nginx warns of nothing."""
    etc = tmp_path / "etc"
    shutil.copytree("/etc/nginx", etc, ignore=shutil.ignore_patterns("sites-enabled"))
    # where nginx has modules, Debian's configuration names them from nginx's own folder, in whose place is this one
    (tmp_path / "modules").symlink_to("/usr/share/nginx/modules")
    main = (etc / "nginx.conf").read_text().replace("/etc/nginx", str(etc)).replace("/var/log/nginx", str(room.folder))
    (etc / "nginx.conf").write_text(main.replace("/run/nginx.pid", str(tmp_path / "pid")))
    subprocess.run([CONFIGURE, room.folder / "places", tmp_path, *(f"nginx/{part}" for part in PARTS)], check=True)
    shutil.copytree(tmp_path / "nginx", etc, dirs_exist_ok=True)
    (etc / "sites-enabled").mkdir()
    for part in PARTS:
        words = [pathlib.Path(OPERATE, "desk-another"), "--of", "b", etc / part]
        text = subprocess.run(words, capture_output=True, check=True, text=True).stdout.replace(" localhost;", " b;")
        (etc / re.sub("desk(?=[^/]*$)", "desk-b", part)).write_text(text)
    for site in (PARTS[-1], f"{PARTS[-1]}-b"):
        (etc / "sites-enabled" / site.partition("/")[2]).symlink_to(etc / site)
    words = [NGINX, "-t", "-p", tmp_path, "-e", tmp_path / "error.log", "-c", etc / "nginx.conf"]
    tried = subprocess.run(words, capture_output=True, text=True)
    warned = [line for line in re.findall(r"\[(?:warn|emerg)\].*", tried.stderr) if '"user"' not in line]
    assert (tried.returncode, warned) == (0, [])

# What the desk.conf of an older version defines. An upgrade keeps it where the museum has changed it, and takes the new
# site; or it keeps an older site, and takes the new desk.conf.
OLDER_NAMES = """
    desk_upstream desk_requests desk_pages desk_collections desk_at_a_time desk_collections_at_a_time desk_method
    desk_stranger desk_hsts desk_cache desk_disposition desk_origin desk_exposed desk_retry desk_allow desk_visit
    desk_changes desk_asked desk_body desk_begun desk_ended
""".split()

def test_desk_conf_defines_what_that_of_an_older_version_does_and_no_more():
    text = pathlib.Path(OPERATE, "nginx", PARTS[0]).read_text()
    found = re.findall(r"(?m)^(?:upstream |log_format |map .* \$|limit_\w+_zone .* zone=)(desk_\w+)", text)
    assert sorted(set(found)) == sorted(OLDER_NAMES)

def test_places_of_an_older_version_mean_the_packages_folder_of_desk_space():
    """Such a file, which an upgrade keeps, does not name it."""
    meant = re.search('(?m)^SPACE = "(.*)"$', pathlib.Path(OPERATE, "museum.py").read_text())[1]
    assert f"\nSPACE={meant}\n" in pathlib.Path(OPERATE, "package", "places").read_text()
