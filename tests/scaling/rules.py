"""What every call of a server has to keep to: how the journal is opened, which descriptors are used, and what is done under a lock."""

import os
from collections import Counter, defaultdict

from crashing.recording import (
    ADVISED,
    BY_FSYNC,
    CLOSED,
    CUT,
    ENDED,
    FOUND,
    LISTENED,
    LOCKED,
    MADE,
    OPENED,
    PARKED,
    READ,
    RECEIVED,
    SENT,
    SETTLED,
    SLEPT,
    SYNC,
    TAKEN,
    TRIED,
    WAITED,
    WOKEN,
    WRITE,
)

LAST_STREAM = 2
"""The highest descriptor of the standard streams."""
LOCK = 6
"""LOCK_EX | LOCK_NB of flock(2)."""
ON_DESCRIPTORS = {WRITE, CUT, SYNC, READ, LOCKED, ADVISED, RECEIVED, SENT}
"""Calls on the file, and those that move bytes of connections."""
ON_THE_FILE = {WRITE, CUT, SYNC}
WAITING = {WAITED, SLEPT, LISTENED, TRIED}
"""Calls that may wait for a client, or for time."""


class Opening:
    """How a server opens its journal: it has the lock, sees that the file stands at the path, puts it and its folder on the disk, and
    drops the system's copies, before it reads a byte."""

    def __init__(self, path):
        self.path, self.folder = os.fsencode(path), os.fsencode(os.path.dirname(os.path.realpath(path)))
        self.file, self.folder_file, self.steps, self.is_over = None, None, [], False

    def take(self, entry):
        """Goes on by a record, and says what was left out before the first read."""
        if entry.kind == OPENED and entry.data == self.path:
            self.file, self.steps = entry.file, ["opened"]
        elif entry.kind == OPENED and entry.data == self.folder:
            self.folder_file = entry.file
        elif entry.kind == MADE and self.steps == ["opened"]:
            self.file = entry.file
        else:
            self.steps += self.step(entry)
        if entry.kind == READ and not self.is_over:
            self.is_over = True
            return self.missing()
        return None

    def step(self, entry):
        """What a record shows to be done."""
        if entry.kind == LOCKED and (entry.file, entry.at) == (self.file, LOCK):
            yield "locked"
        elif entry.kind == FOUND and "locked" in self.steps:
            yield "seen at its path" if entry.data == self.path else "seen" if entry.file == self.file else "another seen"
        elif entry.kind == SYNC and entry.file == self.file:
            yield "synced"
        elif entry.kind == ADVISED and (entry.file, entry.at) == (self.file, os.POSIX_FADV_DONTNEED):
            yield "dropped"
        elif entry.kind == SETTLED and (entry.file, entry.at) == (self.folder_file, BY_FSYNC):
            yield "folder synced"

    def missing(self):
        """What has to be done before the file is read, and isn't, or not in this order."""
        rest = iter(self.steps)
        for wanted in ("opened", "locked", "seen", "seen at its path", "synced", "dropped", "folder synced"):
            if wanted not in rest:
                return f"the file was read, but not {wanted} before: {self.steps[:20]}"
        return None


class Descriptors:
    """Which descriptors are open."""

    def __init__(self):
        self.open, self.connections = set(), set()

    def take(self, entry):
        if entry.kind in ON_DESCRIPTORS and 0 <= entry.file <= LAST_STREAM:
            return f"a call of kind {entry.kind} was made on descriptor {entry.file}"
        if entry.kind == CLOSED:
            return self.closed(entry.file)
        if entry.kind in (OPENED, MADE, TAKEN) and entry.file >= 0:
            if entry.file in self.open:
                return f"descriptor {entry.file} was given out twice"
            self.open.add(entry.file)
            if entry.kind == TAKEN:
                self.connections.add(entry.file)
        return None

    def closed(self, file):
        self.connections.discard(file)
        if file not in self.open:
            return f"descriptor {file} was closed, which wasn't open"
        self.open.discard(file)
        return None


class Locks:
    """Locks that threads waited for, by the addresses of their futexes. One that waited has the lock until it tells of it that it's
    free. The lock of who writes the file is the one under which calls on the file are made.

    Who tells of a lock had it since another began to wait for it, also without a wait of its own, unless a third one tells of it at that
    moment. Where a wait of its own for another lock ended since then, that was under this one. So it may be under the lock of who
    writes the file alone."""

    MOST_AMID = 4

    def __init__(self):
        self.held, self.behind, self.of_file = defaultdict(dict), set(), None
        self.count, self.since, self.last, self.amid = 0, {}, {}, Counter()

    def note(self, entry):
        """Notes who waits for what, and what was waited for under the lock that is told of."""
        self.count += 1
        if entry.kind == PARKED:
            self.since.setdefault(entry.at, self.count)
        elif entry.kind == PARKED + ENDED:
            self.last[entry.thread] = self.count, entry.at
        elif entry.kind == WOKEN:
            begun = self.since.pop(entry.at, self.count)
            number, other = self.last.get(entry.thread, (0, None))
            self.amid[entry.at] += number > begun and other != entry.at

    def amiss(self):
        """Under which locks others were waited for."""
        for lock, count in self.amid.items():
            if count > self.MOST_AMID and lock != self.of_file:
                yield f"locks: {count} times another lock was waited for under that at {lock:x}, which isn't that of who writes the file"

    def take(self, entry):
        self.note(entry)
        held = self.held[entry.thread]
        if entry.kind == PARKED + ENDED:
            held[entry.at] = []
        elif entry.kind == PARKED:
            held.pop(entry.at, None)
            for calls in held.values():
                calls.append((PARKED, entry.at))
        elif entry.kind == WOKEN and entry.at in held:
            return self.freed(entry.at, held.pop(entry.at))
        elif held and entry.kind in WAITING | ON_THE_FILE:
            for calls in held.values():
                calls.append((entry.kind, entry.at))
        return None

    def freed(self, lock, calls):
        """What is wrong with what a thread did while it had a lock."""
        for kind, at in calls:
            if kind in WAITING:
                return f"a thread made a call of kind {kind}, which may wait, while it had the lock at {lock:x}"
            if kind in ON_THE_FILE and lock != (self.of_file or lock):
                return f"calls on the file were made under the locks at {lock:x} and at {self.of_file:x}"
            if kind in ON_THE_FILE:
                self.of_file = lock
            if kind == PARKED and (at, lock) in self.behind:
                return f"the locks at {lock:x} and at {at:x} were taken in either order"
            if kind == PARKED:
                self.behind.add((lock, at))
        return None


class Looks:
    """Looks and lists of a vehicle that is kept don't wait for the file, however much others report."""

    MOST_SHARE, FEW = 0.5, 20

    def __init__(self, kept, locks):
        self.kept, self.locks, self.asked = kept, locks, {}
        self.count = self.waited = 0

    def take(self, entry):
        if entry.kind == RECEIVED and entry.data.startswith(b"GET /vehicles/"):
            device = entry.data.split(b" ", 2)[1].split(b"/")[3:4]
            self.asked[entry.thread] = [entry.file, device[0], self.kept[device[0]], False] if device else None
        elif entry.kind == SENT and self.asked.get(entry.thread):
            self.answered(entry, *self.asked.pop(entry.thread))
        elif self.asked.get(entry.thread) and (entry.kind == WRITE or entry.kind == PARKED and entry.at == self.locks.of_file):
            self.asked[entry.thread][3] = True

    def answered(self, entry, file, device, kept, has_waited):
        """Counts an answer about a vehicle, all of whose requests were kept before it was asked about."""
        if file == entry.file and kept and kept == self.kept[device]:
            self.count += 1
            self.waited += has_waited

    def amiss(self):
        """Some wait all the same: those that come just behind the sync that had their vehicle kept."""
        if self.waited > max(self.FEW, self.MOST_SHARE * self.count):
            yield f"of {self.count} looks at what is kept {self.waited} waited for the file"
