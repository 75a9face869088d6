"""The record of a server's calls, which comes through a pipe while the server runs."""

import fcntl
import os
from contextlib import contextmanager
from pathlib import Path

from crashing.recording import HEAD, Entry, preloaded

KEPT = 1 << 20
"""How many bytes are recorded of what a connection brings, and of what goes out on it."""
ROOM = 1 << 20
"""Bytes that the pipe takes before they are read."""
SET_ROOM = 1031
"""F_SETPIPE_SZ, which `fcntl` has from Python 3.10 on."""


def entries_of(path):
    """The records that come through a pipe, until the server is gone. One that its end cut off is left out: its call wasn't made."""
    with open(path, "rb", buffering=ROOM) as file:
        while len(head := file.read(HEAD.size)) == HEAD.size:
            *numbers, size = HEAD.unpack(head)
            data = file.read(size)
            if len(data) == size:
                yield Entry(*numbers, data)


class Pipe:
    """A pipe for the record of one server, and the server's environment."""

    def __init__(self, folder, number, journal, control=None):
        self.path = Path(folder, f"record-{number}")
        os.mkfifo(self.path)
        self.env = {**os.environ, "LD_PRELOAD": str(preloaded()), "JOURNAL": str(journal), "RECORD": str(self.path)}
        self.env.update({"ALL": "1", "KEPT": str(KEPT)})
        if control:
            self.env["CONTROL"] = str(control)

    @contextmanager
    def open(self):
        """While a server starts. Who reads the pipe finds no end before the server has opened it, or hasn't started."""
        kept = os.open(self.path, os.O_RDWR)
        try:
            widen(kept)
            yield
        finally:
            os.close(kept)


def widen(pipe):
    """Lets a pipe take more, where the system allows it."""
    try:
        fcntl.fcntl(pipe, SET_ROOM, ROOM)
    except OSError:
        pass
