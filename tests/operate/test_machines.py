"""Machines that systemd boots: a museum's machine with the package from its first day to its removal, and one that
upgrades a store without sums. A small Debian is kept; what a machine changes lies in layers over it and goes away with
it. It sees no other process, and of networks its own loopback alone."""

import contextlib
import ctypes
import functools
import json
import os
import pathlib
import re
import shutil
import signal
import socket
import subprocess
import tempfile

import pytest
from operate.test_package import field, made
from support.server import ROOT

pytestmark = [pytest.mark.long, pytest.mark.xdist_group("machine"), pytest.mark.timeout(1800)]

LIMIT = 300
KEPT = pathlib.Path("/var/cache/desk-booted")
# What is fetched for the machine to install without a network.
FETCH = "apt-get update -qq && apt-get install -dyqq --no-install-recommends nginx openssl curl logrotate python3"
CGROUPS = pathlib.Path("/sys/fs/cgroup")
NSPAWN = "systemd-nspawn --quiet --boot --private-network --register=no --keep-unit --notify-ready=yes -D".split()
# Before a signal and a command: it is sent that signal when this process has ended in whatever way.
ENDS_TOO = ["setpriv", "--pdeathsig"]
SETTINGS = ["PATH=/usr/local/sbin:/usr/local/bin:/usr/sbin:/usr/bin:/sbin:/bin", "HOME=/root", "LANG=C"]

def command(*words):
    subprocess.run(words, check=True, stdin=subprocess.DEVNULL, stdout=subprocess.DEVNULL)

def make_debian():
    """Makes the Debian that is kept, where none has what is wanted. It has its name only when it is whole."""
    told = KEPT / "root" / "fetched"
    if told.exists() and told.read_text() == FETCH:
        return
    if KEPT.exists():
        command("rm", "-r", "--one-file-system", KEPT)
    with tempfile.TemporaryDirectory(prefix=f"{KEPT.name}-", dir=KEPT.parent) as folder:
        made = pathlib.Path(folder, "root")
        command("mmdebstrap", "--variant=minbase", "--include=systemd-sysv,dbus,iproute2", "bookworm", made)
        command("chroot", made, "sh", "-c", FETCH)
        (made / "root" / "fetched").write_text(FETCH)
        made.rename(KEPT)

@functools.cache
def own_mounts():
    """Gives this process mounts of its own (CLONE_NEWNS), which all its machines share, and which end with it."""
    if os.geteuid() or ctypes.CDLL(None).unshare(0x20000):
        raise RuntimeError("a machine is booted by root alone")
    command("mount", "--make-rprivate", "/")
    command("mount", "-t", "tmpfs", "tmpfs", "/run")
    command("mount", "-t", "cgroup2", "cgroup2", CGROUPS)

class Machine:
    """Layers over the Debian in a folder, and what was booted from them."""

    def __enter__(self):
        make_debian()
        own_mounts()
        self.folder = pathlib.Path(tempfile.mkdtemp(prefix="booted-"))
        self.root, self.group = self.folder / "root", CGROUPS / self.folder.name
        self.nspawn = self.inside = None
        command("mount", "-t", "tmpfs", "tmpfs", self.folder)
        for path in (self.folder / "upper", self.folder / "work", self.root, self.group):
            path.mkdir()
        layers = f"lowerdir={KEPT},upperdir={self.folder}/upper,workdir={self.folder}/work"
        command("mount", "-t", "overlay", "overlay", "-o", layers, self.root)
        return self

    def __exit__(self, *_):
        self.halt()
        for folder, _, _ in os.walk(self.group, topdown=False):
            os.rmdir(folder)
        command("umount", "--recursive", self.folder)
        self.folder.rmdir()

    def boot(self):
        """Starts the machine, and waits until it says that it has started. Its console is this process's output."""
        own_group = ["sh", "-c", 'echo $$ >"$0/cgroup.procs" && exec "$@"', self.group]
        name, said = self.folder / "told", {}
        name.unlink(missing_ok=True)
        with socket.socket(socket.AF_UNIX, socket.SOCK_DGRAM) as told:
            told.bind(str(name))
            told.settimeout(LIMIT)
            how = {"env": {**os.environ, "NOTIFY_SOCKET": str(name)}, "stdin": subprocess.DEVNULL}
            self.nspawn = subprocess.Popen([*ENDS_TOO, "TERM", *own_group, *NSPAWN, self.root], **how)
            while not {"READY", "X_NSPAWN_LEADER_PID"} <= said.keys():
                said |= dict(line.split("=", 1) for line in told.recv(65536).decode().splitlines())
        enter = ["nsenter", "--target", said["X_NSPAWN_LEADER_PID"], "--all", "env", "-i", *SETTINGS]
        self.inside = [*ENDS_TOO, "KILL", *enter, "bash", "-c"]

    def halt(self):
        """Has the machine end as by its switch; where it does not, all its processes are killed."""
        if self.nspawn:
            self.nspawn.send_signal(signal.SIGTERM)
            with contextlib.suppress(subprocess.TimeoutExpired):
                self.nspawn.wait(timeout=LIMIT)
            self.nspawn.kill()
            self.nspawn.wait()
        self.nspawn = None

    def says(self, words):
        """What lines of the shell write inside."""
        how = {"stdin": subprocess.DEVNULL, "stdout": subprocess.PIPE, "stderr": subprocess.STDOUT, "timeout": LIMIT}
        return subprocess.run([*self.inside, words], **how).stdout.decode(errors="replace").strip()

APT = "DEBIAN_FRONTEND=noninteractive apt-get -y -qq --no-install-recommends"
KEEP = "-o Dpkg::Options::=--force-confdef -o Dpkg::Options::=--force-confold"
SITE, DOOR, DONE = "desk.museum.example", "http://127.0.0.1:8043", '{"done":true}'
STORE, BACKUPS = "/var/lib/desk/museum.sqlite", "/var/backups/desk"
STAFF = "curl -s --max-time 20 -H @/etc/desk/staff-key"
VISIT = f"curl -sk --max-time 10 --resolve {SITE}:443:127.0.0.1 https://{SITE}"
TITLE = "grep -o '<title>.*</title>'"
# How many bytes of each page of a store are left alone: eight for the sum, or none.
SUMS = f"od -An -tu1 -j 20 -N 1 {STORE} | tr -d ' '"
HEALTHY = f"for _ in $(seq 300); do {VISIT}/health -f -o /dev/null && break; sleep 0.1; done; {VISIT}/health"
# What waits until no process of nginx has a journal open that was rotated away.
IS_SHUT = ("for _ in $(seq 300); do find /proc/[0-9]*/fd -lname '/var/log/desk/journal-*' 2>/dev/null | grep -q . || "
           "break; sleep 0.1; done")
NEWEST = f"$(ls -d {BACKUPS}/2* | tail -n 1)"

def put_rule(path, audiences, select, effect, until=None):
    rule = {"audiences": audiences.split(), "until": until, "select": select, "effect": effect}
    return f"{STAFF} -X PUT {DOOR}{path} -d '{json.dumps(rule)}'", DONE

def see(machine, *cases):
    """Types each line, and compares what it writes; all that differ are shown together."""
    came = [(words, wanted, machine.says(words)) for words, wanted in cases]
    assert not [case for case in came if case[1] != case[2]]

def install(machine, package, options=""):
    words = f"{APT} {options} install /root/{package.name} curl 2>&1 | tail -n 20"
    came = machine.says(f"{words}; dpkg -s desk | grep ^Status")
    assert came.splitlines()[-1] == "Status: install ok installed", came
    see(machine, ("dpkg-query -Wf '${Version}' desk", field(package, "Version")), (HEALTHY, DONE))

@pytest.fixture(scope="module")
def packages(program, tmp_path_factory):
    """The package, and the one before: what DESK_BEFORE names, or one of the same program under a lower number."""
    folder = tmp_path_factory.mktemp("packages")
    package = made(folder, program)
    before = os.environ.get("DESK_BEFORE")
    before = before or made(folder, program, "--version", re.split("[+~]", field(package, "Version"))[0])
    return pathlib.Path(before), package

@pytest.fixture
def machine(packages):
    with Machine() as begun:
        for path in (*packages, *pathlib.Path(ROOT, "images").iterdir()):
            shutil.copy(path, begun.root / "root")
        begun.boot()
        yield begun

TAKEDOWN = (f"{VISIT}/images/13/files/2", '{"error":"denied","rule":"T13.1"}')
INSTALLED = [
    ("systemctl is-active desk nginx desk-staff desk-space desk-backup.timer desk-check.timer desk-look.timer; "
     "systemctl is-enabled desk desk-backup.timer", "\n".join(["active"] * 7 + ["enabled"] * 2)),
    ("systemctl show -P WatchdogTimestamp desk | grep -c .", "1"),
    (f"{VISIT}/ | {TITLE}", "<title>The reading room</title>"), (SUMS, "8"),
    (f"curl -s {DOOR}/ | {TITLE}", "<title>The staff's page</title>"),
    ("runuser -u nobody -- curl -s --unix-socket /run/desk/socket http://x/; echo $?", "7"),
    ("runuser -u www-data -- curl -s --unix-socket /run/desk/socket http://x/images", '{"images":[]}'),
    ("systemctl show -P After -P Wants desk | grep -c time-sync.target", "2"),
    ("dpkg --verify nginx-common nginx desk; echo $?", "0"),
    ("systemd-analyze verify --man=no /lib/systemd/system/desk*.service /lib/systemd/system/desk*.timer; echo $?", "0"),
    (f"stat -c '%U:%G %a' /var/lib/desk {BACKUPS} /var/log/desk /etc/desk/site.key /etc/desk/staff-key",
     "desk:desk 700\nroot:root 700\nroot:www-data 750\nroot:root 600\nroot:root 600"),
    # nobody knows whether a network sets the clock of the machine that boots it
    ("echo CLOCK=alone >>/etc/desk/places", "")]
FILLED = [(f"sed -i 's/server_name _;/server_name {SITE};/' /etc/desk/site-name; systemctl reload nginx; {HEALTHY}",
     DONE),
    (f"""{STAFF} -H 'Desk-Staff: anna' -X PUT {DOOR}/deeds/7 -d '{{"donor":"A","signed":"2019-05-04"}}'""", DONE),
    put_rule("/deeds/7/rules/20", "public room staff", {"all": True}, "read"),
    (f"{STAFF} -X PUT --data-binary @/root/museum.d64 "
     f"{DOOR}/accessions/13/d64/7/$(sha256sum </root/museum.d64 | cut -c1-64)", DONE)]
DAY = [*FILLED, (f"{VISIT}/images", '{"images":[{"accession":13,"deed":7,"files":3,"kind":"d64"}]}'),
    put_rule("/images/13/rules/1", "public", {"all": True}, "deny"), TAKEDOWN,
    ("grep -c anna /var/log/desk/journal; systemctl start desk-check; journalctl -u desk-check -o cat | grep access",
     "2\n1 accessions: 1 sound, 0 changed, 0 not asked"),
    (f"systemctl start desk-backup; echo $?; ls {NEWEST} | grep -c museum.sqlite; ls /var/lib/desk; desk-look; echo $?",
     "0\n2\nmuseum.sqlite\nmuseum.sqlite-wal\n0"),
    (f"logrotate -f /etc/logrotate.d/desk; echo $?; {IS_SHUT}; stat -c '%U:%G %a' /var/log/desk/journal",
     "0\nroot:www-data 640"), put_rule("/images/13/rules/2", "room", {"slot": 1}, "deny"),
    ("for _ in $(seq 100); do [ $(wc -l </var/log/desk/journal) -lt 2 ] || break; sleep 0.1; done; "
     "wc -l </var/log/desk/journal", "2"),
    (f"desk-restore {NEWEST} >/root/restored; echo $?; grep -c '^only' /root/restored", "0\n0"), TAKEDOWN,
    (f"stat -c '%U:%G %a' {STORE}; {SUMS}; ls /var/lib/desk | grep -vc '^museum.sqlite\\|^set-aside'",
     "desk:desk 600\n8\n0")]
# A bit of the store flips, and the desk does not start again, until the backup is restored.
FLIPPED = [(f"byte=$(od -An -tu1 -j 22528 -N 1 {STORE}); printf \"\\\\x$(printf %02x $((byte ^ 1)))\" | "
     f"dd of={STORE} bs=1 seek=22528 conv=notrunc status=none; systemctl restart desk 2>/dev/null; echo $?; "
     "systemctl is-active desk", "1\nactivating"),
    (f"desk-restore {NEWEST} >/root/restored; echo $?; {HEALTHY}; {SUMS}", f"0\n{DONE}8"), TAKEDOWN]
OUT = [(f"systemctl stop desk; mkdir /root/out; mv {STORE}* /root/out; sha256sum /etc/desk/staff-key >/root/key; "
     f"dpkg -i $(ls -v /root/desk_*.deb | tail -n 1) 2>&1 | grep -c 'there is no store: put it back'; ls {STORE}* "
     "2>/dev/null; sha256sum -c --quiet /root/key; echo $?", "1\n0"),
    # a store that is large takes a while to open
    ("mv /root/out/* /var/lib/desk; cd /etc/systemd/system; sed "
     "\"s|^ExecStart=|&sh -c 'sleep 3; exec \\\"\\$\\$@\\\"' sh |\" /lib/systemd/system/desk.service >desk.service; "
     "systemctl daemon-reload; systemctl start desk; echo $?; rm desk.service; systemctl daemon-reload", "0"), TAKEDOWN]
# A disk was checked on a later day, so that the clock is behind; after many starts it is right.
BEHIND = [(f"""cd /var/lib/desk; systemctl stop desk; mkdir right; cp -p museum.sqlite* right
     runuser -u desk -- desk check --store {STORE} --acc 13 --at $(date -d '3 days' +%s) --key \\
         $(sed 's/^Desk-Key: //' /etc/desk/staff-key); systemctl start desk 2>/dev/null; echo $?
     for _ in $(seq 180); do [ $(systemctl show -P NRestarts desk) -lt 11 ] || break; sleep 1; done
     until [ $(systemctl show -P SubState desk) != start-post ]; do sleep 0.1; done
     mv right/* .; rmdir right; {HEALTHY}""", f"13 sound\n1\n{DONE}")]
ALARM = [("printf '#!/bin/sh\\n{ echo $*; cat; } >/srv/mail\\n' >/usr/sbin/sendmail; chmod +x /usr/sbin/sendmail; "
     "echo ALARM=anna@museum.example >>/etc/desk/places; systemctl stop desk; systemctl start desk-look 2>/dev/null; "
     "for _ in $(seq 100); do grep -qs 'does not answer' /srv/mail && break; sleep 0.1; done; "
     "sed -n '1,2p; s/.*\\(the desk does not answer\\).*/\\1/p' /srv/mail; desk-alarm --test; echo $?",
     "-t\nTo: anna@museum.example\nthe desk does not answer\n0"),
    ("rm /srv/mail; systemctl start desk-look; echo $?; ls /srv/mail 2>/dev/null; systemctl start desk", "0")]
CHANGED = [
    ("sed -i 's|^ZONE=.*|ZONE=CET-1CEST,M3.5.0,M10.5.0/3|' /etc/desk/places; systemctl restart desk; echo $?", "0"),
    (f"umask 022; echo imprint >/etc/desk/web/imprint.html; {VISIT}/imprint.html", "imprint"),
    (f"umask 022; echo name,value >/etc/desk/web/about.csv; {VISIT}/about.csv", "name,value"),
    ("sed -i 's/rate=20r/rate=25r/' /etc/nginx/conf.d/desk.conf; systemctl reload nginx; echo $?", "0")]
REMOVED = [(f"{APT} remove desk >/dev/null 2>&1; systemctl is-active desk desk-backup.timer", "inactive\ninactive"),
    (f"systemctl is-active nginx; nginx -t 2>&1 | tail -n 1 | grep -c successful; {VISIT}/; echo $?", "active\n1\n7"),
    (f"{APT} purge desk 2>&1 | grep -c 'stay; remove them by hand'", "1"),
    ("ls -d /etc/desk/* /etc/nginx/*/desk* /etc/logrotate.d/desk /usr/bin/desk /usr/libexec/desk "
     "/etc/systemd/system/*/desk* /var/lib/desk* /var/log/desk /var/backups/desk 2>/dev/null",
     "/etc/desk/staff-key\n/etc/desk/web\n/var/backups/desk\n/var/lib/desk\n/var/log/desk")]

def test_life_of_a_museums_machine(machine, packages):
    _, package = packages
    install(machine, package)
    see(machine, *INSTALLED)
    for cases in (DAY, FLIPPED, OUT, BEHIND, ALARM, CHANGED):
        see(machine, *cases)
    machine.halt()
    machine.boot()
    see(machine, (HEALTHY, DONE), *REMOVED)
    install(machine, package)
    see(machine, put_rule("/images/13/rules/3", "public", {"all": True}, "deny"))

BEFORE = [
    # an older version made the store without sums, and so does this one where nobody asks for them
    (f"umask 077; systemctl stop desk; rm {STORE}*; runuser -u desk -- desk init --store {STORE} --key "
     f"$(sed 's/^Desk-Key: //' /etc/desk/staff-key); systemctl start desk; {SUMS}", "done\n0"), *FILLED,
    put_rule("/deeds/7/rules/10", "public", {"prefix": "TOUR"}, "deny", "2099-01-01"),
    ("systemctl start desk-check desk-backup; echo $?", "0"),
    put_rule("/images/13/rules/1", "public", {"slot": 2}, "deny"), *CHANGED]
STANDS = [TAKEDOWN, (f"{VISIT}/images/13/files/0", '{"error":"denied","rule":"R7.10"}'),
    (f"{VISIT}/imprint.html", "imprint"), (f"{VISIT}/about.csv", "name,value"),
    (f"grep -c rate=25r /etc/nginx/conf.d/desk.conf; grep -c {SITE} /etc/desk/site-name", "1\n1")]

def test_upgrade_and_the_way_back_keep_the_store_and_what_is_the_museums_own(machine, packages):
    before, package = packages
    install(machine, before)
    see(machine, *BEFORE, *STANDS)
    install(machine, package, KEEP)
    see(machine, *STANDS, (SUMS, "0"),
        ("cmp /proc/$(systemctl show -p MainPID --value desk)/exe /usr/bin/desk; echo $?", "0"),
        ("nginx -t 2>&1 | tail -n 1 | grep -c successful; systemctl is-active desk-space", "1\nactive"),
        # (a version that kept no mark of the journal in its backups wants this word)
        (f"desk-restore --without-journal {NEWEST} >/root/restored; echo $?; grep -c '^only' /root/restored", "0\n0"),
        *STANDS, ("echo CLOCK=alone >>/etc/desk/places; desk-look; echo $?",
         f"the store has no sums, which BY-HAND gives it: {STORE}\n1"))
    install(machine, before, f"{KEEP} --allow-downgrades")
    back = (f"desk-restore $(grep -om1 -e --without-journal /usr/sbin/desk-restore) $(ls -d {BACKUPS}/2* | head -n 1) "
            ">/dev/null; echo $?; ls -d /var/lib/desk/set-aside-* | wc -l")
    see(machine, (back, "0\n2"), *STANDS, (f"{STAFF} -X DELETE {DOOR}/images/13/rules/1", DONE))
