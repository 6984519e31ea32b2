"""The package that operate/make-deb makes: what it has, of which program, and when none is made."""

import hashlib
import os
import pathlib
import re
import shutil
import subprocess

import pytest
from support.room import make_script
from support.server import ROOT

MAKE = pathlib.Path(ROOT, "operate", "make-deb")
BUILT = "crates/rd_main/out/rd_main"

def made(folder, program, *words):
    """A package of a trial of the program under test."""
    folder.mkdir(exist_ok=True)
    ran = subprocess.run([MAKE, "--unproved", program, *words, folder], capture_output=True, text=True)
    assert ran.returncode == 0, ran.stderr
    return pathlib.Path(ran.stdout.strip())

def proof(package):
    """What a package says first of its proof."""
    words = ["sh", "-c", f"dpkg-deb --fsys-tarfile {package} | tar -xO ./usr/share/doc/desk/proved"]
    return subprocess.run(words, capture_output=True, check=True, text=True).stdout.partition("\n")[0]

def field(package, name):
    return subprocess.run(["dpkg-deb", "-f", package, name], capture_output=True, text=True).stdout.strip()

@pytest.fixture(scope="module")
def package(program, tmp_path_factory):
    return made(tmp_path_factory.mktemp("package"), program)

def test_lintian_finds_nothing(package):
    ran = subprocess.run(["lintian", "--pedantic", "-E", "--allow-root", package], capture_output=True, text=True)
    found = [line for line in ran.stdout.splitlines() if "running with root" not in line]
    assert (ran.returncode, found) == (0, []), ran.stderr

def test_same_sources_give_the_same_bytes(package, program, tmp_path):
    assert made(tmp_path, program).read_bytes() == package.read_bytes()

def test_package_has_each_file_starts_each_timer_and_reports_its_failure(package, tmp_path):
    """Only a machine that boots shows what they do there. The store that it makes has sums."""
    subprocess.run(["dpkg-deb", "-R", package, tmp_path], check=True)
    held = {path.read_bytes() for path in tmp_path.rglob("*") if path.is_file()}
    due = [*MAKE.parent.glob("package/**/*"), *MAKE.parent.glob("desk-*"), *MAKE.parent.glob("../web/*")]
    due += [MAKE.with_name(name) for name in ("check-all", "museum.py")]
    # (make-deb writes these anew)
    assert {one.name for one in due if one.is_file() and one.read_bytes() not in held} == {"control", "desk.service"}
    script = (tmp_path / "DEBIAN" / "postinst").read_text()
    begun, units = re.search('(?m)^units="(.*)"$', script)[1].split(), [*tmp_path.glob("lib/systemd/*/*[!@].timer")]
    assert "desk-key first" in script and len(units) == 3
    for unit in units:
        assert unit.name in begun
        assert "\nOnFailure=desk-alarm@%n.service\n" in unit.with_suffix(".service").read_text(), unit.name

# Commands in a folder of their own, and what they write.
PARTS = {"a line of the journal is on the disk before the command is done, for its folder has the attribute S": (
        "mkdir -p etc run var/lib var/log var/backups; printf '%s:x:%s::/:/bin/sh\n' root 0: www-data 33: desk 990: "
        ">etc/passwd; sed 's/:[^:]*:[^:]*$/:/' etc/passwd >etc/group; systemd-tmpfiles --root=$PWD --create "
        "$package/tmpfiles.conf; lsattr -d var/log/desk | grep -c '^[^ ]*S'", "1\n"),
    "the units of each desk may write where its own places say": (
        "for at in desk desk-b; do mkdir $at; printf 'STORE=/srv/%s/store\nBACKUPS=/mnt/%s\n' $at $at >$at/places; "
        "done; $package/generator .; cat desk.service.d/* desk-backup@b.service.d/*",
        "[Unit]\nConditionPathExists=/srv/desk/store\n[Service]\nReadWritePaths=-/srv/desk\n"
        "[Service]\nReadWritePaths=-/srv/desk-b -/mnt/desk-b\n"),
    "a renewed certificate goes to the desk of its name": (
        "for at in desk desk-b; do mkdir $at; echo \"server_name $at.org;\" >$at/site-name; done; touch fullchain.pem "
        "privkey.pem; systemctl() { echo $*; }; RENEWED_DOMAINS='x desk-b.org' RENEWED_LINEAGE=. . $package/certbot; "
        "stat -c '%n %a' desk*/site.*", "reload nginx\ndesk-b/site.crt 644\ndesk-b/site.key 600\n")}

@pytest.mark.parametrize("words, wanted", PARTS.values(), ids=PARTS)
def test_parts_of_the_package(tmp_path, words, wanted):
    where = {"cwd": tmp_path, "env": {**os.environ, "DESK_ETC": ".", "package": str(MAKE.with_name("package"))}}
    assert subprocess.run(["bash", "-c", words], **where, capture_output=True, text=True).stdout == wanted

def test_trial_says_that_nothing_is_proved(package):
    assert proof(package) == "This is a trial: nothing is proved of this program."
    assert field(package, "Version").endswith("~unproved")

@pytest.fixture
def clone(program, tmp_path):
    """A clone with a program, and in the place of the kit and of its stamp ones that this makes."""
    clone, kit = tmp_path / "clone", tmp_path / "bin" / "rt"
    subprocess.run(["git", "clone", "-q", ROOT, clone], check=True)
    (clone / BUILT).parent.mkdir()
    shutil.copy(program, clone / BUILT)
    digest = hashlib.sha256((clone / BUILT).read_bytes()).hexdigest()
    (clone / f"{BUILT}.stamp").write_text(f"of a program\n{digest}")
    os.utime(clone / BUILT, ((clone / "crates.txt").stat().st_mtime + 60,) * 2)
    kit.parent.mkdir()
    make_script(kit, "echo a kit")
    return clone

def make(clone):
    """What make-deb says or makes."""
    kit = clone.parent / "bin"
    where = {**os.environ, "PATH": f"{kit}:{os.environ['PATH']}"}
    ran = subprocess.run([clone / "operate" / "make-deb", kit], capture_output=True, text=True, env=where)
    return (ran.stderr.removeprefix("make-deb: ") or ran.stdout).strip()

def test_package_names_the_commit_and_the_kit_of_the_proof(clone):
    commit = subprocess.run(["git", "-C", clone, "rev-parse", "HEAD"], capture_output=True, text=True).stdout.strip()
    assert proof(make(clone)) == f"This program is proved: commit {commit}, a kit."

def test_later_commit_of_the_same_minute_has_the_higher_version(clone):
    one, git = make(clone), ["git", "-C", clone, "-c", "user.name=someone", "-c", "user.email=someone@museum.example"]
    moment = subprocess.run([*git, "show", "-s", "--format=%cI"], capture_output=True, text=True).stdout.strip()
    later = {**os.environ, "GIT_COMMITTER_DATE": moment}
    subprocess.run([*git, "commit", "-q", "--allow-empty", "-m", "Later"], env=later, check=True)
    words = ["dpkg", "--compare-versions", field(one, "Version"), "lt", field(make(clone), "Version")]
    assert subprocess.run(words).returncode == 0

@pytest.mark.parametrize("change, words", ids=["no-proof", "another-program", "no-commit", "newer-sources"], argvalues=[
    (lambda clone: (clone / f"{BUILT}.stamp").unlink(), "no proved program: type ./desk --version"),
    (lambda clone: (clone / f"{BUILT}.stamp").write_text("0" * 64), "the program is not the one that was proved"),
    (lambda clone: (clone / "docs" / "OPERATING.md").write_text("More.\n"), "the sources are no commit"),
    (lambda clone: [os.utime(one, (4e9, 4e9)) for one in (clone / "crates.txt", *clone.rglob("*.rt"))],
     "{}/crates.txt is newer than the program: type ./desk --version")])
def test_no_package_but_of_the_program_that_was_proved_of_a_commit(clone, change, words):
    change(clone)
    assert make(clone) == words.format(clone)
