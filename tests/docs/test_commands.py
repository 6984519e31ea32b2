"""Every command of a page gives what the page shows.

They run in a copy of the repository, with mounts, a network and processes of their own, so that each port is free and
nothing is left. Those of BY-HAND are root's: /etc, /usr, /var, /srv and /run are throw-away layers there, and a shell
script that starts and stops the two programs is in the place of systemd."""

import os
import pathlib
import re
import shlex
import shutil
import subprocess
import tempfile

import pytest
from operate.test_package import made
from support.server import ROOT

# What is not run: what proves, builds or measures for long, and what wants a network.
LEFT_OUT = re.compile(r"bash \.ci/run|python3 bench/|rt |\(cd \S+ && rt |apt-get |ssh ")
# What a shell tells of its jobs, and nginx tells an ordinary user of its line `user`.
NOISE = re.compile(r"^(\S*: line \d+: +\d+ Terminated|.*\[warn\].* the \"user\" directive ).*\n", re.M)
OWN = ["unshare", "--mount", "--net", "--pid", "--fork", "--kill-child", "--mount-proc"]
TMP = "set -e; ip link set lo up; mount -t tmpfs tmpfs /tmp; set +e"
LAYERS = """set -e; ip link set lo up; mkdir layers
for folder in layers /run /srv; do mount -t tmpfs tmpfs $folder; done
for folder in etc usr var; do
    layer=$PWD/layers/$folder; mkdir -p $layer/upper $layer/work
    mount -t overlay overlay -o lowerdir=/$folder,upperdir=$layer/upper,workdir=$layer/work /$folder
done
install -m 755 docs/systemctl /usr/bin/systemctl; set +e"""
SYSTEMCTL = """#!/bin/sh
ends() { [ ! -e $pid ] || { kill $(cat $pid); tail -f --pid=$(cat $pid) /dev/null; rm $pid; }; }
answers() { curl -so /dev/null --unix-socket /run/desk${at:+-$at}/socket http://desk/health; }
begins() {
    set -a; places=/etc/desk${at:+-$at}/places; [ ! -e $places ] || . $places; set +a
    file=$(find /etc/systemd/system /lib/systemd/system -name desk${at:+@}.service | head -n 1)
    words=$(sed -n "s/%i/$at/g; s/^ExecStart=//p" $file)
    (umask 077; eval "exec runuser -u desk -- $words") >/dev/null 2>&1 &
    echo $! >$pid; for _ in $(seq 600); do ! answers || return 0; sleep 0.1; done
}
word=$1
for service in "$@"; do
    service=${service%.service} at=; case $service in *@*) at=${service#*@}; esac; pid=/run/desk$at.pid
    door="nginx -c /etc/desk${at:+-$at}/staff-nginx.conf"
    case $word-$service in
    start-desk | enable-desk@*) begins ;; stop-desk) ends ;; restart-desk) ends; begins ;; status-desk) answers ;;
    start-desk-staff | restart-desk-staff | enable-desk-staff@*) $door ;; stop-desk-staff) $door -s stop 2>/dev/null ;;
    status-desk-staff) ss -ltn | grep -q :8043 ;; show-*) echo LoadState=loaded; echo ActiveState=active ;;
    restart-nginx) nginx ;; reload-nginx) nginx -s reload 2>/dev/null || echo failed ;; status-nginx) nginx -t -q ;;
    esac
done
"""
LEAST = {"README.md": 30, "docs/COMMANDS.md": 50, "docs/OPERATING.md": 45, "docs/BY-HAND.md": 90,
         "docs/DUMPS.md": 15, "docs/MACHINES.md": 15}  # commands of each

# A heading or a block; and in a block a command, whose further lines begin with `> `, and the lines that it gives.
PART = re.compile(r"^#+ (.*)$|^```.*\n((?s:.*?))^```$", re.M)
COMMAND = re.compile(r"^([$#]) (.*(?:\n> .*)*)\n((?:(?![$#] ).*\n)*)", re.M)

def commands(page):
    """The commands of a page in their order: the line of each, its prompt, its words, and what it gives. In a section
    that shows what the package does, "package" stands in the place of the prompt."""
    text, found, heading = pathlib.Path(ROOT, page).read_text(), [], ""
    for part in PART.finditer(text):
        heading = part[1] or heading
        for one in COMMAND.finditer(part[2] or ""):
            number = text.count("\n", 0, part.start(2) + one.start()) + 1
            prompt = "package" if heading.endswith(", by the package") else one[1]
            found.append([number, prompt, one[2].replace("\n> ", "\n"), one[3]])
    return found

@pytest.fixture
def folder(program):
    """A copy of what the commands need, not in /tmp, for they have one of their own. nginx's workers read it."""
    with tempfile.TemporaryDirectory(prefix="docs-", dir="/var/tmp") as name:
        copy = pathlib.Path(name)
        subprocess.run(["cp", "-r", "operate", "web", "images", "docs", "README.md", copy], cwd=ROOT, check=True)
        subprocess.run(["install", "-D", program, copy / "crates/rd_main/out/rd_main"], check=True)
        (copy / "desk").symlink_to("crates/rd_main/out/rd_main")
        (copy / "docs/systemctl").write_text(SYSTEMCTL)
        copy.chmod(0o755)
        yield copy

def typed(folder, prepares, commands):
    """What each of some commands gives that are typed one after the other, in files where no layer lies. Each is shown:
    the last one is that which does not end. One that goes on in the background is given time for what is wanted."""
    shell = [*OWN, *([] if os.geteuid() == 0 else ["--map-root-user"]), "env", "LC_ALL=C", "no_proxy=*", "bash"]
    with tempfile.TemporaryDirectory(prefix="docs-", dir="/dev/shm") as name:
        script, *files = (pathlib.Path(name, str(number)) for number in range(len(commands) + 1))
        steps = [prepares]
        for file, (command, wanted) in zip(files, commands):
            steps.append(f'typed={shlex.quote(command)}; echo "$typed"; eval "$typed" >{file} 2>&1')
            if re.search(r"&( \w+=\$!)?$", command):
                is_less = f"[ $(stat -c %s {file}) -lt {len(wanted.encode())} ]"
                steps.append(f"for _ in {{1..600}}; do {is_less} || break; sleep 0.1; done")
        script.write_text("\n".join([*steps, "exit 0"]))
        subprocess.run([*shell, script], check=True, cwd=folder, stdin=subprocess.DEVNULL, timeout=600)
        return [NOISE.sub("", file.read_text(errors="replace")) for file in files]

@pytest.mark.timeout(900)
@pytest.mark.parametrize("page", LEAST)
def test_commands_give_what_the_page_shows(folder, page):
    prompt, prepares = ("#", LAYERS) if page == "docs/BY-HAND.md" else ("$", TMP)
    assert prompt == "$" or os.geteuid() == 0, "the commands of this page need the rights of root"
    found = [one for one in commands(page) if one[1] == prompt and not LEFT_OUT.match(one[2])]
    wrong = ""
    for (number, _, words, wanted), gives in zip(found, typed(folder, prepares, [one[2:] for one in found])):
        # three dots at the end stand for more
        if not re.fullmatch(re.sub(r"(\\\.){3}\\\n\Z", ".+", re.escape(wanted)), gives, re.S):
            wrong += f"\n{page}, line {number}: {words}\nshows:\n{wanted}gives:\n{gives}"
    assert not wrong and len(found) >= LEAST[page], wrong

# What runs in a container, as the user desk, on a machine where the package has nothing running.
CONTAINER = ("nginx -s stop 2>/dev/null; systemctl stop desk desk-staff; cp -r operate /usr/share/desk; cd /; "
             "runuser -u desk -- /usr/share/desk/operate/container/start >/dev/null 2>&1 & for _ in {1..600}; do "
             "curl -sfko /dev/null https://localhost:8443/health && break; sleep 0.1; done; "
             "curl -s -H @/var/lib/desk/staff-key 127.0.0.1:8043/staff/keys | cut -c 10-29", '{"audience":"staff",\n')

@pytest.mark.long
@pytest.mark.timeout(900)
def test_package_gives_what_the_page_on_machines_shows(folder, program):
    shutil.move(made(folder / "made", program), folder / "desk.deb")
    found = [one[2:] for one in commands("docs/MACHINES.md") if one[1] == "package"]
    found = [one for one in found if not re.search("certbot|apt-get|changed=", one[0])] + [CONTAINER]
    begins = f"{LAYERS}\nexport LC_ALL=C.UTF-8 HOME=/srv; dpkg --no-triggers -i desk.deb >&2; nginx"
    came = typed(folder, f"{begins}; systemctl start desk desk-staff", found)
    wrong = [(one, gives) for one, gives in zip(found, came) if gives != one[1]]
    assert not wrong and len(found) > 8, "\n".join(map(str, wrong))

@pytest.mark.parametrize("page", LEAST)
def test_each_block_of_a_page_begins_with_a_command(page):
    blocks = re.findall(r"^```.*?\n(.*?)^```", pathlib.Path(ROOT, page).read_text(), re.M | re.S)
    others = [block.split()[0] for block in blocks if not block.startswith(("$ ", "# "))]
    assert others == (["readers"] if page == "docs/OPERATING.md" else [])

def test_no_command_has_a_key_among_its_words():
    """Others on a machine can read them."""
    found = [one[2] for page in LEAST for one in commands(page)]
    found += [path.read_text() for path in pathlib.Path(ROOT, "operate").rglob("*") if path.is_file()]
    a_key = re.compile(r"--key[ =]|=['\"]?Desk-Key:|-H ['\"]?Desk-Key:|badges/\$\(")
    assert not [words for words in found if a_key.search(words)], "a key stands on a command line"

def test_tools_and_units_that_commands_of_the_package_name_are_there():
    """These commands are typed on a museum's machine alone."""
    words = "\n".join(one[2] for page in LEAST for one in commands(page) if one[1] == "package")
    named = set(re.findall(r"(?<![\w/])desk-[a-z-]+", words))
    assert named and named <= {path.stem for path in pathlib.Path(ROOT, "operate").rglob("desk-*")}
