"""C files of the repository, each built once; the growths of memory that one of them refuses, and the calls that another
counts."""

import os
import struct
import subprocess
import tempfile
import threading
from collections import namedtuple
from pathlib import Path

from harness.counting import ROOT

OUT = ROOT / "tests/out"
BUILDING = threading.Lock()


def built(name, source, *flags):
    """The file of this name under tests/out. It is built from the source where it isn't there, or is older."""
    target, source = OUT / name, ROOT / source
    with BUILDING:
        if not target.exists() or target.stat().st_mtime < source.stat().st_mtime:
            OUT.mkdir(exist_ok=True)
            fresh = OUT / f"{name}.{os.getpid()}"
            subprocess.run(["cc", "-o", fresh, source, *flags], check=True)
            fresh.replace(target)
    return target


def loading_client():
    """The client of bench/client.c, which sends files of requests."""
    return built("client", "bench/client.c", "-O2", "-pthread")


def no_random_numbers():
    """The environment of a run to which the system gives no random numbers."""
    shim = built("no-random.so", "tests/no-random.c", "-shared", "-fPIC")
    return {**os.environ, "LD_PRELOAD": str(shim)}


class Refusal:
    """Growths of memory that are refused: so many from the one of this number on, counted from 1, or none for 0; of those alone
    that have so many bytes, if that is given; and all between two that have so many bytes. As a context it has the environment of the run that it is for, and says whether the run came to
    them."""

    def __init__(self, number, many=1, between=0, of=0):
        self.growths = {"REFUSE": str(number), "LACK": str(many), "BETWEEN": str(between), "OF": str(of)}
        self.shim = built("refuse-growth.so", "tests/refuse-growth.c", "-shared", "-fPIC", "-O1", "-ldl")

    def __enter__(self):
        self.folder = tempfile.TemporaryDirectory()
        self.mark = Path(self.folder.name, "refused")
        self.env = {**os.environ, **self.growths, "LD_PRELOAD": str(self.shim), "REFUSED": str(self.mark)}
        return self

    def __exit__(self, *_):
        self.folder.cleanup()

    def came(self):
        return self.mark.exists()


class ByThread:
    """Growths of memory that are counted of each thread. As a context it has the environment of the run that it is for."""

    MOST = 256

    def __init__(self):
        self.shim = built("thread-growths.so", "tests/thread-growths.c", "-shared", "-fPIC", "-O1", "-ldl")

    def __enter__(self):
        self.folder = tempfile.TemporaryDirectory()
        self.path = Path(self.folder.name, "growths")
        self.path.write_bytes(bytes(8 * self.MOST))
        self.env = {**os.environ, "LD_PRELOAD": str(self.shim), "GROWTHS": str(self.path)}
        return self

    def __exit__(self, *_):
        self.folder.cleanup()

    def counts(self):
        """How many growths each thread made that made any, in the order of their first ones."""
        return [count for count in struct.unpack(f"={self.MOST}q", self.path.read_bytes()) if count]


Counts = namedtuple("Counts", "reads writes bytes ends threads files behind")
"""Calls of read, calls of write, the bytes that they moved, how often the end was met, the threads that were asked for, the files
that were opened, and the calls behind one that failed but for an interruption."""


BY_BYTES = 75
"""Of so many calls one moves a byte. That leaves the longest page of a command fewer than 5000000 for all of it."""


class Counting:
    """Calls on one descriptor that are counted, the threads that are asked for, and the files that are opened. Of so many calls,
    if a number is given, one moves a byte, and the others are interrupted. Where an error is given, the first call fails with it.
    The call of the number `at` is taken for the first, and those before it are only counted. No call moves more bytes than are
    given, or any number for 0. No more threads can be made than are given, or any number for -1. As a context it has the
    environment of the run that it is for."""

    def __init__(self, on=-1, every=0, threads=-1, error=0, at=1, moves=0):
        how = {"ON": on, "EVERY": every, "MOST": threads, "ERROR": error, "AT": at, "MOVES": moves}
        self.how = {name: str(number) for name, number in how.items()}
        self.shim = built("count-calls.so", "tests/count-calls.c", "-shared", "-fPIC", "-O1", "-ldl")

    def __enter__(self):
        self.folder = tempfile.TemporaryDirectory()
        self.path = Path(self.folder.name, "counts")
        self.path.write_bytes(bytes(8 * len(Counts._fields)))
        self.env = {**os.environ, **self.how, "LD_PRELOAD": str(self.shim), "COUNTS": str(self.path)}
        return self

    def __exit__(self, *_):
        self.folder.cleanup()

    def counts(self):
        return Counts(*struct.unpack(f"={len(Counts._fields)}q", self.path.read_bytes()))
