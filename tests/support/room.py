"""A reading room as a museum runs it: a store, the desk that serves it, and the real nginx, by operate/configure."""

import contextlib
import getpass
import http.client
import os
import pathlib
import shutil
import signal
import ssl
import subprocess
import tempfile

from support.server import ENDLESS, HOST, LIMIT, ROOT, Serving, free_ports, reply_at, wait_for, wait_until

NGINX = "/usr/sbin/nginx"
# The folder with the configuration under test: another one shows whether a test finds the faults that it had.
OPERATE = os.environ.get("DESK_OPERATE", os.path.join(ROOT, "operate"))
CONFIGURE = os.path.join(OPERATE, "configure")
SITE = "localhost"

def give_to_nginx(path, mode):
    """Makes what is at a path nginx's group's, where this process may, and sets its mode."""
    if os.geteuid() == 0:
        shutil.chown(path, group="www-data")
    path.chmod(mode)

def make_script(path, words):
    """A program of the shell."""
    path.write_text(f"#!/bin/sh\n{words}\n")
    path.chmod(0o755)
    return path

class Room(contextlib.AbstractContextManager):
    """A folder with a store, a certificate, page and places, and what it began; the desk is at a socket."""

    def __init__(self, program):
        self.program, self.desk, self.nginx = program, None, []
        self.folder = pathlib.Path(tempfile.mkdtemp(prefix="reading-room-"))
        # nginx gives up the rights of root, and then still has to read the page
        self.folder.chmod(0o755)
        self.store, self.place = self.folder / "museum.sqlite", self.folder / "desk" / "socket"
        self.https_port, self.http_port, self.staff_port = free_ports(3)
        self.place.parent.mkdir()
        give_to_nginx(self.place.parent, 0o2750)

    def __exit__(self, *_):
        self.stop_desk()
        for process in self.nginx:
            process.terminate()
            process.wait(timeout=LIMIT)
        shutil.rmtree(self.folder, ignore_errors=True)

    def run(self, *words):
        """How the program ends: its status, and what it writes to its standard output and errors."""
        ran = subprocess.run([self.program, *words], capture_output=True, stdin=subprocess.DEVNULL, timeout=LIMIT)
        return ran.returncode, ran.stdout.decode(), ran.stderr.decode()

    def start_desk(self, count=ENDLESS, *words):
        """Starts the desk, and waits until it listens."""
        self.serving = Serving(self.program, self.store, count, words, place=self.place)
        self.desk = self.serving.process
        self.serving.listens()

    def stop_desk(self):
        """Ends the desk as a loss of power would."""
        if self.desk:
            self.serving.kill()
        self.desk = None

    @contextlib.contextmanager
    def desk_down(self):
        """While this is entered, the desk does not run."""
        self.stop_desk()
        try:
            yield
        finally:
            self.start_desk()

    @contextlib.contextmanager
    def desk_stalled(self):
        """While this is entered, the desk takes connections and does not answer."""
        self.desk.send_signal(signal.SIGSTOP)
        try:
            yield
        finally:
            self.desk.send_signal(signal.SIGCONT)

    def ask_desk(self, asked):
        """The status and the body of the desk's own reply, as a program has it on the machine itself."""
        return asked_at(self.place, asked)

    def ask_staffs_door(self, asked):
        """The same of what comes through nginx at the staff's door."""
        return asked_at(self.staff_port, asked)

    def write_places(self, path, **values):
        """Writes a file of the places of operate/places below this folder; some may have other values."""
        folder = self.folder
        places = {
            "SITE": SITE, "HTTPS_PORT": self.https_port, "HTTP_PORT": self.http_port, "STAFF_PORT": self.staff_port,
            "HSTS_AGE": 31536000, "CERTIFICATE": folder / "site.crt", "CERTIFICATE_KEY": folder / "site.key",
            "PROGRAM": self.program, "STORE": self.store, "DESK_SOCKET": self.place, "ZONE": "UTC0",
            "JOURNAL": folder / "journal", "SPACE": folder / "space",
            "BACKUPS": folder / "backups", "STAFF_KEY": folder / "staff-key", "WEB": folder / "web",
            "OWN_WEB": folder / "own", "NGINX_RUN": folder, "NGINX_WORK": folder / "work", "NGINX_LOG": folder,
            "NGINX_USER": "www-data" if os.geteuid() == 0 else getpass.getuser(), **values}
        path.write_text("".join(f"{name}={value}\n" for name, value in places.items()))
        return path

    @contextlib.contextmanager
    def small_disk(self, megabytes):
        """A folder, and words before a command: for that command a disk of so many megabytes is there."""
        folder = self.folder / f"disk-of-{megabytes}"
        folder.mkdir()
        shell = f'mount -t tmpfs -o size={megabytes}m none {folder} && exec "$@"'
        try:
            yield folder, ["unshare", "-m" if os.geteuid() == 0 else "-rm", "sh", "-ec", shell, "sh"]
        finally:
            folder.rmdir()

    @contextlib.contextmanager
    def asked_for_space(self, *before, **places):
        """While this is entered, nginx asks desk-space, which finds places with these values, and runs after words."""
        at = self.folder / "space" / "socket"
        at.parent.mkdir()
        written = self.write_places(self.folder / "space-places", **places)
        words = [*before, os.path.join(OPERATE, "desk-space"), written]
        with contextlib.ExitStack() as stack:
            stack.callback(shutil.rmtree, at.parent)
            stack.callback(stack.enter_context(subprocess.Popen(words)).terminate)
            wait_until(lambda: at.exists() and at.stat().st_mode & 0o777 == 0o660)
            yield

    def configure(self):
        """Makes a certificate, copies the page, and writes the configuration."""
        (self.folder / "work").mkdir()
        shutil.copytree(os.path.join(ROOT, "web"), self.folder / "web")
        words = f"openssl req -x509 -newkey ec -pkeyopt ec_paramgen_curve:P-256 -nodes -days 2 -subj /CN={SITE}".split()
        words += ["-addext", f"subjectAltName=DNS:{SITE},IP:{HOST}", "-keyout", self.folder / "site.key"]
        subprocess.run([*words, "-out", self.folder / "site.crt"], check=True, capture_output=True)
        subprocess.run([CONFIGURE, self.write_places(self.folder / "places"), self.folder], check=True)

    def start_nginx(self):
        """Starts the nginx of readers and that of the staff."""
        if not (self.folder / "nginx.conf").exists():
            self.configure()
        for conf in sorted(self.folder.glob("*nginx.conf")):
            words = [NGINX, "-p", self.folder, "-c", conf, "-g", "daemon off;"]
            # what it cannot do at its start stands among the captured errors
            self.nginx.append(subprocess.Popen(words, stdin=subprocess.DEVNULL))
        for port in (self.http_port, self.https_port, self.staff_port):
            wait_for(port, self.nginx[0 if port != self.staff_port else -1])

    def trusting(self):
        """A context of TLS that trusts the room's certificate and no other."""
        return ssl.create_default_context(cafile=str(self.folder / "site.crt"))

    def visitor(self, address=HOST):
        """A connection to nginx from an address of this machine: each is another visitor to nginx's limits."""
        words = {"timeout": LIMIT, "context": self.trusting(), "source_address": (address, 0)}
        return http.client.HTTPSConnection(HOST, self.https_port, **words)

    def logs(self):
        return b"".join(path.read_bytes() for path in self.folder.glob("*.log"))

def asked_at(place, asked):
    """The status and the body of the reply at a place."""
    reply, body = reply_at(place, asked)
    return reply.status, body
