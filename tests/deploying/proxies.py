"""nginx and haproxy with the files of deploy/, before three servers. Only ports, paths and users are changed in the files, a
provider, so that there is one with letters, how long a client may pause, since a busy machine may make it do so, how long an old
process of nginx goes on, and how many reports a second a token may make, where that isn't what is tried."""

import os
import random
import re
import shutil
import signal
import socket
import ssl
import subprocess
import tempfile
import time
from pathlib import Path

from deploying.browser import Browser
from deploying.described import note
from deploying.journals import server_over
from deploying.vehicles import PROVIDERS
from harness.counting import ROOT, Skipped, Unwell

INSTANCES = ("one", "two", "three")
EACH, WORKERS = 1000000, 4
SECONDS = 300
"""How long a proxy may take to listen, an answer to come, and a proxy to end."""
REPORTS, LONG_REPORTS, FASTER = 10, 1, 1000
"""How many reports a second a token may make, and how many long ones, by nginx.conf; and by what stands there in most cases."""
SHUT = 3
"""How long an old process of nginx goes on behind a reload, in place of 60 seconds."""
STARTS = 3
"""How often the servers and the proxies are started, on other ports each time: somebody else may have taken one meanwhile."""
TOKENS = {number: f"{number:064x}" for number in range(1, len(PROVIDERS) + 1)}
CITY, NOBODY, ANNA = f"{99:064x}", f"{100:064x}", f"{101:064x}"
"""The token of the city, one that nobody has, and that of a person of the city."""
WANTED = ("nginx", "haproxy", "openssl")
SBIN = os.pathsep.join([os.environ.get("PATH", ""), "/usr/sbin", "/sbin"])


def token_of(number):
    """The token of the provider of this number, from 1."""
    return f"{number:064x}"


def installed(name):
    """The path of a program, or the case is skipped."""
    path = shutil.which(name, path=SBIN)
    if not path:
        raise Skipped(f"no `{name}` here")
    return path


def free_ports(count):
    """Ports on which nobody listens, below those that the system gives to outgoing connections."""
    least = int(Path("/proc/sys/net/ipv4/ip_local_port_range").read_text().split()[0])
    below = range(min(10240, least // 2), least)
    tried = random.sample(below, min(len(below), 1000))
    held = []
    try:
        for port in tried:
            listener = socket.socket()
            try:
                listener.bind(("127.0.0.1", port))
            except OSError:
                listener.close()
                continue
            held.append(listener)
            if len(held) == count:
                return [listener.getsockname()[1] for listener in held]
    finally:
        for listener in held:
            listener.close()
    raise Unwell(f"fewer than {count} ports are free")


def changed(name, changes):
    """The text of a file of deploy/ with these changes, each of which has to find its place."""
    text = (ROOT / "deploy" / name).read_text()
    for old, new in changes.items():
        if old not in text:
            raise Unwell(f"deploy/{name} has no {old!r}")
        text = text.replace(old, new)
    return text


class Proxy:
    """A process of a proxy, which is there once it listens at these ports."""

    def __init__(self, words, folder, ports):
        self.faults = open(Path(folder, f"{Path(words[0]).name}.faults"), "w+b")
        self.child = subprocess.Popen(words, stdin=subprocess.DEVNULL, stdout=self.faults, stderr=self.faults)
        end = time.monotonic() + SECONDS
        while not all(map(is_heard, ports)):
            if self.child.poll() is not None or time.monotonic() > end:
                self.stop()
                raise Unwell(f"{words} doesn't listen: {self.told()}")
            time.sleep(0.05)

    def told(self):
        """What it printed."""
        with open(self.faults.name, errors="replace") as file:
            return file.read()

    def stop(self):
        """Ends it, and answers its status."""
        if self.child.poll() is None:
            self.child.terminate()
            try:
                self.child.wait(SECONDS)
            except subprocess.TimeoutExpired:
                self.child.kill()
                self.child.wait()
        self.faults.close()
        return self.child.returncode


def children_of(process):
    """The numbers of the processes that a process has started."""
    return set(Path(f"/proc/{process}/task/{process}/children").read_text().split())


def is_heard(port):
    with socket.socket() as connection:
        return connection.connect_ex(("127.0.0.1", port)) == 0


class City:
    """Three servers, each over a journal of its own, haproxy before them, and nginx before that. As a context they are taken down at
    its end. Another kind of city may have more instances, which its proxies name."""

    names, providers = INSTANCES, PROVIDERS

    def __init__(self, program):
        self.program = program
        self.paths = {name: installed(name) for name in WANTED}
        self.servers, self.proxies, self.browser = [], [], None
        self.faults_made = []
        """What is named by faults that a case makes."""

    def __enter__(self):
        self.holder = tempfile.TemporaryDirectory()
        self.folder = Path(self.holder.name)
        self.folder.chmod(0o755)
        self.lists = self.folder / "lists"
        self.lists.mkdir()
        for left in reversed(range(STARTS)):
            try:
                self.start()
                return self
            except BaseException as fault:
                self.stop()
                if not left or not isinstance(fault, Unwell):
                    self.holder.cleanup()
                    raise

    def __exit__(self, *_):
        if self.browser:
            self.browser.__exit__()
        self.stop()
        self.holder.cleanup()

    def stop(self):
        for proxy in reversed(self.proxies):
            proxy.stop()
        for server in self.servers:
            server.__exit__()
        self.servers, self.proxies = [], []

    def start(self):
        self.port, self.figures, *inner = free_ports(2 + 2 * len(self.names))
        self.queues, self.ports = inner[: len(self.names)], inner[len(self.names) :]
        for number in range(len(self.names)):
            self.servers.append(self.server(number))
        self.certify()
        shutil.copytree(ROOT / "deploy/page", self.folder / "page", dirs_exist_ok=True)
        self.write("503.http", (ROOT / "deploy/503.http").read_bytes().decode())
        lines = [f'"Bearer {token_of(number)}" {provider};' for number, provider in enumerate(self.providers, 1)]
        lines += [f'"Bearer {CITY}" city;', f'"Bearer {ANNA}" "city anna";\n']
        self.write("tokens.map", "\n".join([changed("tokens.map", {}), *lines]))
        self.write("haproxy.cfg", self.haproxy())
        self.write("nginx.conf", self.nginx())
        words = [self.paths["haproxy"], "-db", "-f", str(self.folder / "haproxy.cfg")]
        self.proxies.append(Proxy(words, self.folder, [*self.queues, self.figures]))
        words = [self.paths["nginx"], "-p", str(self.folder), "-c", str(self.folder / "nginx.conf"), "-g", "daemon off;"]
        self.proxies.append(Proxy(words, self.folder, [self.port]))
        self.trust = ssl.create_default_context(cafile=self.folder / "cert.pem")

    def page(self):
        """A browser that has just loaded the page of deploy/page."""
        if self.browser is None:
            self.browser = Browser(installed("chromium")).__enter__()
        self.browser.open(f"https://127.0.0.1:{self.port}/page")
        return self.browser

    def server(self, number):
        """The server of this number, which listens. It goes on from its journal, if there is one."""
        path = self.folder / f"{self.names[number]}.journal"
        return server_over(self.program, path, EACH, WORKERS, self.ports[number]).__enter__()

    def write(self, name, text):
        (self.folder / name).write_bytes(text.encode())

    def certify(self):
        """Makes a key and a certificate that it signs itself."""
        words = ["req", "-x509", "-newkey", "ec", "-pkeyopt", "ec_paramgen_curve:prime256v1", "-nodes", "-days", "2"]
        words += ["-keyout", self.folder / "key.pem", "-out", self.folder / "cert.pem", "-subj", "/CN=localhost"]
        words += ["-addext", "subjectAltName=IP:127.0.0.1,DNS:localhost"]
        subprocess.run([self.paths["openssl"], *words], check=True, capture_output=True, timeout=SECONDS)

    def haproxy(self):
        changes = {"/etc/mds_city": str(self.folder), "    user haproxy\n    group haproxy\n": ""}
        changes["127.0.0.1:8100"] = f"127.0.0.1:{self.figures}"
        for number, queue, port in zip(range(1, len(INSTANCES) + 1), self.queues, self.ports):
            changes |= {f"127.0.0.1:810{number}": f"127.0.0.1:{queue}", f"127.0.0.1:800{number}": f"127.0.0.1:{port}"}
        return changed("haproxy.cfg", changes)

    def nginx(self, is_limited=False, **more):
        """The text of its file, with these further changes; `is_limited`: with its limits of reports a second."""
        kept = ("client_body", "proxy", "fastcgi", "uwsgi", "scgi")
        temporary = "".join(f"    {name}_temp_path {self.folder}/{name};\n" for name in kept)
        changes = {
            "user www-data;": "user root;" if os.getuid() == 0 else "",
            "/run/nginx.pid": f"{self.folder}/nginx.pid",
            "/etc/mds_city": str(self.folder),
            "/var/log/nginx": str(self.folder),
            "/var/lib/mds_city_lists": str(self.lists),
            "client_body_timeout 10s;": f"client_body_timeout {SECONDS}s;",
            "send_timeout 10s;": f"send_timeout {SECONDS}s;",
            "worker_shutdown_timeout 60s;": f"worker_shutdown_timeout {SHUT}s;",
            "00000000-0000-4000-8000-000000000003": PROVIDERS[2],
            "http {\n": f"http {{\n{temporary}",
            "listen 443 ": f"listen 127.0.0.1:{self.port} ",
        }
        for number, queue in zip(range(1, len(INSTANCES) + 1), self.queues):
            changes[f"127.0.0.1:810{number}"] = f"127.0.0.1:{queue}"
        if not is_limited:
            changes |= {f"rate={rate}r/s": f"rate={FASTER}r/s" for rate in (REPORTS, LONG_REPORTS)}
        return changed("nginx.conf", {**changes, **more})

    def connect(self, room=None):
        """A connection to nginx."""
        plain = socket.socket()
        plain.settimeout(SECONDS)
        if room is not None:
            plain.setsockopt(socket.SOL_SOCKET, socket.SO_RCVBUF, room)
        try:
            plain.connect(("127.0.0.1", self.port))
            return self.trust.wrap_socket(plain, server_hostname="localhost")
        except BaseException:
            plain.close()
            raise

    def ask(self, request):
        """The answer to a request that is sent whole: its status, its head and its body. It is noted, to be held against
        openapi.json."""
        with self.connect() as connection:
            connection.sendall(request)
            answered = read_answer(connection)
        note(request, *answered)
        return answered

    def restart(self, number, pause):
        """Ends a server by SIGTERM, and starts it anew some time later. Answers for how many seconds it was gone."""
        start = time.monotonic()
        self.servers[number].child.terminate()
        self.servers[number].child.wait(SECONDS)
        time.sleep(pause)
        self.servers[number].__exit__()
        self.servers[number] = self.server(number)
        return time.monotonic() - start

    def reload(self, text):
        """Has nginx take in another text of its file, and waits until the processes that had the old one are gone."""
        master = self.proxies[-1].child
        old, end = children_of(master.pid), time.monotonic() + SECONDS
        self.write("nginx.conf", text)
        master.send_signal(signal.SIGHUP)
        while old & children_of(master.pid):
            if time.monotonic() > end:
                raise Unwell(f"nginx keeps its old processes: {self.proxies[-1].told()}")
            time.sleep(0.05)

    def end(self):
        """What is wrong with how the proxies end, and with what they printed."""
        for proxy in reversed(self.proxies):
            name = proxy.child.args[0]
            status = proxy.stop()
            if status not in (0, 143, -15):
                yield f"{name} ended with {status}: {proxy.told()}"
            for line in re.findall(r".*\[(?:emerg|alert|crit)\].*", proxy.told()):
                if not any(made in line for made in self.faults_made):
                    yield f"{name}: {line}"


def read_answer(connection):
    """The status, the head and the body of an answer, which ends its connection or has a length."""
    found = b""
    while b"\r\n\r\n" not in found:
        found += some_of(connection)
    head, _, body = found.partition(b"\r\n\r\n")
    length = re.search(rb"(?i)\r\ncontent-length: ([0-9]+)", head)
    if not length:
        raise Unwell(f"no length: {head!r}")
    while len(body) < int(length.group(1)):
        body += some_of(connection)
    return int(head.split()[1]), head.decode(), body.decode()


def some_of(connection):
    """The next bytes of an answer that isn't at its end."""
    piece = connection.recv(1 << 16)
    if not piece:
        raise Unwell("the connection ended inside of an answer")
    return piece
