"""The built server as a process."""

import itertools
import os
import random
import re
import select
import socket
import subprocess
import tempfile
import time
from contextlib import suppress
from pathlib import Path

from harness.case import HOW_FAR
from harness.counting import Unwell
from harness.texts import as_bytes
from model.http import error
from serving.wire import ask, get

LISTENING = re.compile(r"listening 127\.0\.0\.1:([0-9]+)\n")
PORTS = itertools.cycle(random.sample(range(10_000, 32_768), 10_000))
"""Numbers of ports that the system gives to nobody who asks for any."""
MOST_ASIDE = 100
"""Files of what was cut off a journal."""
SECONDS = 120
"""How long a server that has answered all its connections may take to end, and each to print a line."""


def numbered_port():
    """The number of a port that was free a moment ago, and that wasn't given out before."""
    for number in PORTS:
        with socket.socket() as free, suppress(OSError):
            free.setsockopt(socket.SOL_SOCKET, socket.SO_REUSEADDR, 1)
            free.bind(("127.0.0.1", number))
            return number


class NotListening(Unwell):
    """A server that ended, or was ended, in place of listening: its status, and both of its outputs."""

    def __init__(self, ended):
        super().__init__(f"it didn't listen, but {ended}")
        self.ended = ended


class Server:
    """A server on a port that was free, with so many connections for each of so many workers, or without an end where none are
    named. As a context it is taken down where it hasn't ended. Given a port, it listens there. Given a number of open files, or of
    kilobytes of address space, it can have no more of them. Given the path of a journal, it serves over that. Given a port for figures,
    it tells them there. One that is unheard has no standard error."""

    seconds = SECONDS

    def __init__(
        self,
        program,
        each,
        workers=1,
        table=None,
        env=None,
        open_files=None,
        address_space=None,
        port=0,
        journal=None,
        metrics=None,
        unheard=False,
    ):
        self.folder = tempfile.TemporaryDirectory()
        life = ["--until-stopped"] if each is None else ["--each", str(each)]
        words = [program, "serve", "--port", str(port), *life, "--workers", str(workers)]
        for letter, most in (("n", open_files), ("v", address_space)):
            if most is not None:
                words = ["sh", "-c", f'ulimit -{letter} {most} && exec "$0" "$@"', *words]
        if table is not None:
            path = Path(self.folder.name, "table.json")
            path.write_bytes(as_bytes(table))
            words += ["--table", str(path)]
        if journal is not None:
            words += ["--journal", str(journal)]
        if metrics is not None:
            words += ["--metrics", str(metrics)]
        self.aside = next((path for path in asides_of(journal) if not os.path.lexists(path)), None)
        self.faults = open(Path(self.folder.name, "faults"), "w+b")
        self.child = subprocess.Popen(
            words,
            # it stays open, and gives nothing: a server that read it would never serve
            stdin=subprocess.PIPE,
            stdout=subprocess.PIPE,
            stderr=self.faults,
            env=env,
            preexec_fn=close_faults if unheard else None,
        )
        self.left = (each or 0) * workers
        """How many connections it still takes."""
        self.success = 0
        """How many items its answers said to be accepted."""

    def __enter__(self):
        line = self.line()
        found = LISTENING.fullmatch(line)
        if not found:
            status, out, faults = self.ended()
            self.__exit__()
            raise NotListening((status, line + out, faults))
        self.port = int(found.group(1))
        return self

    def line(self):
        """The next line that it prints, or nothing where none comes in time."""
        coming = select.poll()
        coming.register(self.child.stdout, select.POLLIN)
        return self.child.stdout.readline().decode() if coming.poll(1000 * self.seconds) else ""

    def __exit__(self, *_):
        if self.child.poll() is None:
            self.child.kill()
            self.child.wait()
        self.child.stdin.close()
        self.child.stdout.close()
        self.faults.close()
        self.folder.cleanup()

    def count(self, connections=1, success=0):
        """Tells of connections that were made elsewhere, and of what their answers said to be accepted."""
        self.left -= connections
        self.success += success

    def ask(self, request):
        """The answer to a request; what it says to be accepted is counted."""
        answered = ask(self.port, request)
        self.count(1, success_of(answered))
        return answered

    def sockets(self):
        """How many sockets it has open."""
        folder = Path(f"/proc/{self.child.pid}/fd")
        return sum(is_socket(path) for path in folder.iterdir())

    def memory(self):
        """How many bytes the process holds."""
        return self.bytes_of("VmRSS")

    def most_memory(self):
        """How many bytes it held at most, since it began or that was forgotten."""
        return self.bytes_of("VmHWM")

    def forget_most_memory(self):
        """From now on the most memory is that of what comes."""
        Path(f"/proc/{self.child.pid}/clear_refs").write_text("5")

    def processor_seconds(self):
        """How many seconds it had a processor."""
        fields = Path(f"/proc/{self.child.pid}/stat").read_text().rpartition(")")[2].split()
        return sum(map(int, fields[11:13])) / os.sysconf("SC_CLK_TCK")

    def processor_time(self):
        """The same, more closely, by its own clock (clock_getcpuclockid(3)): up to the last tick of the system's clock."""
        return time.clock_gettime(~self.child.pid << 3 | 2)

    def bytes_of(self, name):
        status = Path(f"/proc/{self.child.pid}/status").read_text()
        return int(re.search(rf"{name}:\s*([0-9]+) kB", status).group(1)) * 1024

    def ended(self):
        """The status, and what else came on both outputs, of the server, which ends by itself."""
        try:
            out, _ = self.child.communicate(timeout=self.seconds)
        except subprocess.TimeoutExpired:
            return f"no end after {self.seconds} seconds", "", ""
        self.faults.seek(0)
        return self.child.returncode, out.decode(), self.faults.read().decode()

    def end(self):
        """Makes the connections that are left, and says what is wrong with how the server then ends."""
        for _ in range(self.left):
            try:
                answered = self.ask(get("/"))
            except OSError as fault:
                yield f"a connection at the end, {type(fault).__name__}: {fault}"
                break
            if answered != error(404, "not_found"):
                yield f"a connection at the end, {answered[:200]!r}"
        yield from self.amiss_at_end()

    def amiss_at_end(self):
        """What is wrong with how it ends by itself. Where its start took long it told how far it was."""
        status, out, faults = self.ended()
        ended, wanted = (status, out, re.sub(HOW_FAR, "", faults)), (0, f"accepted {self.success}\n", self.told_of_its_start())
        if ended != wanted:
            yield f"ended with {ended}, in place of {wanted}"

    def told_of_its_start(self):
        """What its start has told on standard error: how many bytes it cut off, where these stand aside since."""
        return told_of_cut(self.aside) if self.aside else ""

    def drain(self):
        """Makes connections until it ends, where it isn't known how many others were taken by a worker, and says what is wrong
        with their answers and with how it then ends."""
        while self.child.poll() is None:
            try:
                answered = self.ask(get("/"))
            except ConnectionError:
                break
            if answered not in (b"", error(404, "not_found")):
                yield f"a connection at the end, {answered[:200]!r}"
        yield from self.amiss_at_end()


def asides_of(journal):
    """Where starts put what they cut off the journal of this path, each into the first of these files that isn't there."""
    return [aside_of(journal), *(Path(f"{journal}.cut.{number}") for number in range(1, MOST_ASIDE))]


def aside_of(journal):
    """The first of these files."""
    return Path(f"{journal}.cut")


def told_of_cut(aside):
    """What a start tells that has put so much aside, if anything is there."""
    return f"mds_city: {os.path.getsize(aside)} bytes cut\n" if os.path.exists(aside) else ""


def close_faults():
    """Closes standard error, in the server's process before it starts."""
    os.close(2)


def is_socket(path):
    """Whether a descriptor of a process, by its path, is a socket; one that is closed meanwhile is none."""
    try:
        return os.readlink(path).startswith("socket:")
    except OSError:
        return False


SUCCESS = re.compile(rb'"success":([0-9]+),"total":[0-9]+\}$')


def success_of(answered):
    """How many items an answer says to be accepted."""
    found = SUCCESS.search(answered)
    return int(found.group(1)) if found else 0
