"""Redis, of Debian's package redis-server, which syncs its own journal before it answers."""

import contextlib
import csv
import shutil
import subprocess
import sys
import time
from pathlib import Path

from serving.server import numbered_port

BYTES = 330
"""How many bytes a SET stores: about as many as a line of a journal has."""
KEYS = 1000000
SECONDS = 10
"""How long Redis may take until it answers."""


def journaled(folder, port):
    """The words of a server that answers once what it took is on the disk."""
    words = ["redis-server", "--port", str(port), "--bind", "127.0.0.1", "--dir", str(folder)]
    return [*words, "--save", "", "--appendonly", "yes", "--appendfsync", "always"]


class Redis:
    """A server with its files in a folder of its own below this one. As a context it is taken down at the end."""

    def __init__(self, folder):
        self.folder = Path(folder, "redis")
        self.port = numbered_port()

    def __enter__(self):
        self.folder.mkdir()
        words = journaled(self.folder, self.port)
        self.child = subprocess.Popen(words, stdin=subprocess.DEVNULL, stdout=subprocess.DEVNULL)
        if not self.answers():
            self.__exit__()
            sys.exit("redis-server doesn't answer")
        return self

    def __exit__(self, *_):
        self.child.kill()
        self.child.wait()

    def answers(self):
        """Whether it is up, which may take a while."""
        late = time.monotonic() + SECONDS
        while self.child.poll() is None and time.monotonic() < late:
            told = subprocess.run(["redis-cli", "-p", str(self.port), "ping"], capture_output=True, text=True)
            if told.stdout.strip() == "PONG":
                return True
            time.sleep(0.05)
        return False

    def rate(self, clients, count, kept):
        """How many SETs of so many clients it answers in a second: over connections that are kept, or over one each."""
        words = ["redis-benchmark", "-h", "127.0.0.1", "-p", str(self.port), "-t", "set", "--csv", "-r", str(KEYS)]
        words += ["-d", str(BYTES), "-c", str(clients), "-n", str(count), "-k", str(int(kept))]
        told = subprocess.run(words, capture_output=True, text=True, check=True).stdout
        return float(next(csv.DictReader(told.splitlines()))["rps"])


def redis_in(folder):
    """A context with a Redis, or with nothing where there is none; then it is said."""
    if all(map(shutil.which, ("redis-server", "redis-cli", "redis-benchmark"))):
        return Redis(folder)
    print("No Redis to compare with: it is in Debian's packages redis-server and redis-tools.\n")
    return contextlib.nullcontext()
