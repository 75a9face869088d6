"""Recordings of a server: the calls on its journal's file and the bytes on its connections, in one order."""

import os
import struct
import tempfile
from collections import namedtuple
from pathlib import Path

from harness.building import built

WRITE, CUT, SYNC, READ, TAKEN, RECEIVED, SENT = 1, 2, 3, 4, 20, 21, 22
ENDED = 10
"""Added to the kind of a call on the file where it is over."""
OPENED, CLOSED, LOCKED, FOUND, ADVISED, SETTLED, WAITED, ASKED, SLEPT, PARKED = range(30, 40)
WOKEN, TRIED, SHUT, STREAMED, MADE, LISTENED, KINDS = range(50, 57)
"""Kinds that are recorded where all calls are: descriptors that were opened, made and closed; the file's lock, what stands at a path,
advice, syncs of another file; waits for what is ready, what is asked about, sleep; waits for a lock, and threads that are told of one;
calls that take a connection, ends of a side, bytes on streams, and calls that wait for bytes."""
BY_FSYNC = 1
"""The place of a sync of another file where it is by fsync(2). That of a folder has to be: fdatasync(2) may leave its new names off the
disk."""
NUMBERS = ("room", "failing", "first", "many", "pause", "how", "piece", "folders")
"""Those that are heeded while the server runs, and behind them one that it counts. Behind these it counts the calls by kind."""
COUNTED = {"writes": WRITE, "cuts": CUT, "syncs": SYNC, "reads": READ}
ALL_NUMBERS = len(NUMBERS) + KINDS
HEAD = struct.Struct("=5q")

Entry = namedtuple("Entry", "kind file at thread data")
"""A record: its kind, a descriptor, a place in the file or an outcome, the thread, and bytes."""


def preloaded():
    return built("record-calls.so", "tests/record-calls.c", "-shared", "-fPIC", "-O1", "-ldl")


class Recording:
    """Calls on the file of this path that are recorded, and may fail. As a context it has the environment of the server."""

    def __init__(self, journal, **numbers):
        self.folder = tempfile.TemporaryDirectory()
        self.path, self.control = (Path(self.folder.name, name) for name in ("record", "control"))
        self.control.write_bytes(struct.pack(f"={ALL_NUMBERS}q", -1, *[0] * (ALL_NUMBERS - 1)))
        self.env = {**os.environ, "LD_PRELOAD": str(preloaded()), "JOURNAL": str(journal)}
        self.env.update({"RECORD": str(self.path), "CONTROL": str(self.control)})
        self.set(**numbers)

    def __enter__(self):
        return self

    def __exit__(self, *_):
        self.folder.cleanup()

    def set(self, **numbers):
        """Sets numbers that the running server heeds."""
        with open(self.control, "r+b", buffering=0) as file:
            for name, number in numbers.items():
                file.seek(8 * NUMBERS.index(name))
                file.write(struct.pack("=q", number))

    def number(self, name):
        return self.count(COUNTED[name]) if name in COUNTED else self.number_at(NUMBERS.index(name))

    def count(self, kind):
        """How many calls of a kind there were."""
        return self.number_at(len(NUMBERS) + kind)

    def number_at(self, place):
        with open(self.control, "rb") as file:
            file.seek(8 * place)
            return struct.unpack("=q", file.read(8))[0]

    def fail(self, kind, after=0, many=1):
        """Has calls of a kind fail, behind so many more that don't."""
        self.set(first=self.count(kind) + after + 1, many=many, failing=kind)

    def entries(self):
        """What was recorded so far."""
        bytes_of, place, found = self.path.read_bytes() if self.path.exists() else b"", 0, []
        while place + HEAD.size <= len(bytes_of):
            *numbers, size = HEAD.unpack_from(bytes_of, place)
            place += HEAD.size
            found.append(Entry(*numbers, bytes_of[place : place + size]))
            place += size
        return found
