"""A machine under systemd: the units of deploy/ and those of Debian, over files of their own, in namespaces that go with them.

The first process of the namespaces is systemd itself (tests/deploying/namespace), so a unit runs as its file says, but for what the
machine's own systemd would start. For that root is wanted, systemd, and the bus by which the exporter asks it."""

import contextlib
import os
import re
import shutil
import subprocess
import tempfile
import time
from pathlib import Path

from deploying.proxies import changed, children_of, free_ports, installed
from harness.counting import ROOT, Skipped, Unwell

NAMESPACE = Path(__file__).with_name("namespace")
SYSTEMD, DEBIANS = "/lib/systemd/systemd", "/lib/systemd/system"
FROM_DEBIAN = ("nginx.service", "haproxy.service", "dbus.service", "dbus.socket", "prometheus-node-exporter.service")
WANTED = ("nginx", "haproxy", "dbus-daemon", "prometheus-node-exporter", "rsync", "unshare", "nsenter")
UNITS, WANTS, DROP_INS = "etc/systemd/system", "multi-user.target.wants", ("memory.conf", "restart.conf")
FOLDERS = ["root/.ssh", "usr/local/bin", "usr/local/lib/mds_city", "var/tmp", "var/log/nginx"]
FOLDERS += [f"etc/{name}" for name in ("default", "logrotate.d", "mds_city", "nginx", "haproxy", "prometheus")]
FOLDERS += [f"{UNITS}/{name}" for name in ("nginx.service.d", "haproxy.service.d", WANTS)]
FOLDERS += [f"var/lib/{name}" for name in ("nginx", "haproxy", "mds_city_archive", "mds_city_copies", "mds_city_left_out")]
"""What an operator makes, and Debian's packages."""
KNOWN = ("passwd", "group", "nsswitch.conf", "ld.so.cache", "machine-id", "dbus-1")
"""What of the machine's own /etc is there."""
JOBS = ("archive", "compact", "days", "list", "vehicles.py")
TARGETS = {"sysinit": "", "basic": "", "shutdown": "", "sockets": "", "multi-user": "Requires=basic.target dbus.socket\n"}
"""Targets without what the system's own want."""
ENABLED = {"mds_city@one": "mds_city@", "nginx": "nginx", "haproxy": "haproxy", "prometheus-node-exporter": "prometheus-node-exporter"}
"""The units that are enabled, each by its file: systemd tells of them also where they are stopped."""
EXPORTER, ARGS = "prometheus-node-exporter", re.compile(r'ARGS="([^"]+)"')
NGINX = "pid /run/nginx.pid;\nevents {{}}\nhttp {{ access_log off; server {{ listen 127.0.0.1:{}; return 204; }} }}\n"
"""A file of nginx: of its unit it counts alone whether it runs."""
NO_LOG = "[Service]\nBindReadOnlyPaths=\n"
"""A drop-in of haproxy, which has no log here."""
SECONDS = 120
"""How long systemd, and a command inside, may take."""


class Booted:
    """A folder in place of a machine, with the instance `one`, and systemd over it. As a context it is taken down at its end."""

    def __init__(self, program):
        for name in WANTED:
            installed(name)
        if os.getuid() or not all(map(os.path.exists, (SYSTEMD, *(f"{DEBIANS}/{name}" for name in FROM_DEBIAN)))):
            raise Skipped("systemd is started by root alone, where it is installed with the units of Debian")
        self.holder = tempfile.TemporaryDirectory()
        self.root = Path(self.holder.name)
        self.port, self.metrics, self.exporter, self.front, self.nobody, self.haproxy, *self.queues = free_ports(9)
        self.lay(program)
        words = [installed("unshare"), "--mount", NAMESPACE, self.root]
        with open(self.root / "told", "w") as told:
            self.child = subprocess.Popen(words, stdin=subprocess.PIPE, stdout=told, stderr=told)
        try:
            self.first = self.first_process()
        except BaseException:
            self.__exit__()
            raise

    def __enter__(self):
        return self

    def __exit__(self, *_):
        """Ends systemd, by which all its processes end."""
        self.child.stdin.close()
        self.child.wait(SECONDS)
        self.holder.cleanup()

    def lay(self, program):
        """Puts all files into the folder."""
        for name in FOLDERS:
            self.path(name).mkdir(parents=True)
        subprocess.run(["cp", "-a", *(f"/etc/{name}" for name in KNOWN), self.path("etc")], capture_output=True)
        self.path("var/run").symlink_to("/run")
        shutil.copy(program, self.path("usr/local/bin/mds_city"))
        for name in JOBS:
            shutil.copy(ROOT / "deploy" / name, self.path("usr/local/lib/mds_city"))
        self.lay_units(self.path(UNITS))
        self.settings()

    @staticmethod
    def lay_units(folder):
        """The units, with the drop-ins of the proxies, of which some are enabled."""
        for path in (*(Path(DEBIANS, name) for name in FROM_DEBIAN), *(ROOT / "deploy").glob("mds_city*.*")):
            shutil.copy(path, folder)
        for name, text in TARGETS.items():
            (folder / f"{name}.target").write_text(f"[Unit]\nDefaultDependencies=no\n{text}")
        for name, file in ENABLED.items():
            (folder / WANTS / f"{name}.service").symlink_to(f"../{file}.service")
        for name in DROP_INS:
            shutil.copy(ROOT / "deploy" / name, folder / "nginx.service.d")
            shutil.copy(ROOT / "deploy" / name, folder / "haproxy.service.d")
        (folder / "haproxy.service.d/without-a-log.conf").write_text(NO_LOG)

    def settings(self):
        """The files of /etc that name ports and places."""
        ports = {"PORT=8001": f"PORT={self.port}", "METRICS=8201": f"METRICS={self.metrics}"}
        self.write("/etc/mds_city/one.env", changed("one.env", ports))
        self.write("/etc/nginx/nginx.conf", NGINX.format(self.front))
        ports = {f"127.0.0.1:{8100 + number}": f"127.0.0.1:{port}" for number, port in enumerate((self.haproxy, *self.queues))}
        self.write("/etc/haproxy/haproxy.cfg", changed("haproxy.cfg", ports))
        shutil.copy(ROOT / "deploy/503.http", self.root / "etc/mds_city")
        shutil.copy(ROOT / "deploy/logrotate", self.root / "etc/logrotate.d/nginx")
        self.write("/etc/default/prometheus-alertmanager", "")
        self.ship_to("/var/lib/mds_city_copies")
        self.have_exporter(changed("prometheus.yml", {}))

    def ship_to(self, place):
        self.write("/etc/mds_city/ship.conf", f"TO={place}\n")

    def have_exporter(self, text):
        """The exporter of the machine has the words that a text has as its ARGS. It tells of the clock, and else of what they say."""
        words = f"--web.listen-address=127.0.0.1:{self.exporter} --collector.disable-defaults --collector.timex"
        self.write(f"/etc/default/{EXPORTER}", f'ARGS="{words} {" ".join(ARGS.findall(text))}"\n')

    def path(self, name):
        return self.root / name.lstrip("/")

    def write(self, name, text):
        self.path(name).write_text(text)

    def first_process(self):
        """The number of systemd, once it answers."""
        end = time.monotonic() + SECONDS
        while time.monotonic() < end and self.child.poll() is None:
            with contextlib.suppress(OSError):  # a process that has gone
                for self.first in set().union(*map(children_of, children_of(self.child.pid))):
                    if self.run("systemctl", "is-active", "multi-user.target")[1].strip() == "active":
                        return self.first
            time.sleep(0.05)
        raise Skipped(f"no systemd can be started here: {self.path('told').read_text()[-200:]}")

    def run(self, *words):
        """The status of a command inside, and what it prints."""
        inside = [installed("nsenter"), "-t", self.first, "--mount", "--pid", *words]
        ran = subprocess.run(inside, capture_output=True, text=True, timeout=SECONDS)
        return ran.returncode, ran.stdout

    def systemctl(self, *words):
        status, told = self.run("systemctl", *words)
        if status:
            raise Unwell(f"systemctl {words}: {status} {self.path('told').read_text()[-500:]}")
        return told.strip()
