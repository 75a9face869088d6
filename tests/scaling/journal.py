"""The calls on a journal's file, after docs/disk.md: each group of lines is written behind the closed gate, synced, let count by a
byte, and synced again; room is made only where there is none. What is kept is what such a sync has ended for."""

import re
from collections import Counter

from crashing.recording import CUT, ENDED, READ, SYNC, WRITE

PIECE = 256
"""How many requests of one half a group has at most."""
ROOM = b"\n" * (1 << 20)
"""What is written ahead of the lines."""
OPEN, CLOSED = b" ", b"#"
DEVICE = re.compile(rb'"device_id":"([^"]{36})"')
FORM, TEXT = b'{"form":"mds_city"', b'{"device_id":"'
"""How the lines before the first group begin, behind their gate, and how each other group does."""
GROUP = (WRITE + ENDED, SYNC, SYNC + ENDED, WRITE, WRITE + ENDED, SYNC, SYNC + ENDED)
"""The calls of a group behind that which begins its write."""
STEP_OF_THE_GATE = 3


def is_written(entry):
    """Whether a call of a start writes lines, those before the first group, or of a group that is kept anew, or makes room for these."""
    is_group = entry.data.endswith(b"\n" + CLOSED) and entry.data.startswith((FORM, TEXT))
    return entry.kind == WRITE and (is_group or entry.data == ROOM)


class Journal:
    """A file, from one server to the next. `end` is where the closed gate stands that comes next, and `kept` how many lines of each
    device are on the disk, and count."""

    def __init__(self, path):
        self.path, self.end, self.kept, self.lines = path, 0, Counter(), 0
        self.group = None
        self.begin()

    def begin(self):
        """Another server starts: the group of which the last one had opened the gate counts."""
        if self.group and self.step > STEP_OF_THE_GATE and self.is_open():
            self.take_group()
        self.group, self.step, self.room, self.before, self.writing = None, 0, 0, 0, None
        self.is_serving, self.groups, self.partial, self.syncs = False, 0, 0, 0

    def is_open(self):
        with open(self.path, "rb") as file:
            file.seek(self.end)
            return file.read(1) == OPEN

    def take(self, entry):
        """Goes on by a call on the file, and says what is wrong with it."""
        if entry.kind == READ:
            return f"the file was read at {entry.at} while it was served" if self.is_serving else None
        self.syncs += entry.kind == SYNC
        if entry.kind == WRITE + ENDED and entry.at != self.writing:
            return f"of {self.writing} bytes {entry.at} were written"
        if entry.kind == WRITE:
            self.writing = len(entry.data)
        if self.group is not None:
            return self.go_on(entry)
        return self.begin_group(entry) if self.is_serving or is_written(entry) else self.open_file(entry)

    def open_file(self, entry):
        """A call of a start: what stands behind the lines is cut off, and the gate closed."""
        if entry.kind == CUT and entry.at != self.end:
            return f"a start cut the file to {entry.at}, in place of {self.end}"
        if entry.kind == WRITE and (entry.at, entry.data) != (self.end, CLOSED):
            return f"a start wrote {entry.data[:60]!r} at {entry.at}, in place of a closed gate at {self.end}"
        return None

    def begin_group(self, entry):
        """A call between two groups: it makes room, or writes a group's lines."""
        if entry.kind in (SYNC + ENDED, WRITE + ENDED, CUT + ENDED):
            return None
        if entry.kind != WRITE or entry.at != self.end + 1:
            return f"a call of kind {entry.kind} at {entry.at}, {entry.data[:60]!r}, where a group was to be written at {self.end + 1}"
        if entry.data == ROOM:
            self.before, self.room = self.room, entry.at + len(ROOM)
            return None
        if not entry.data.endswith(b"\n" + CLOSED):
            return f"a group ends with {entry.data[-60:]!r}"
        self.group, self.step, before, self.before = entry.data, 0, self.before, 0
        if self.end + 1 + len(self.group) <= before:
            return f"room was made for a group of {len(self.group)} bytes at {self.end}, where there was some to {before}"
        return None

    def go_on(self, entry):
        """The next call of a group."""
        wanted, step = GROUP[self.step], self.step
        if entry.kind != wanted:
            return f"a call of kind {entry.kind} at {entry.at} in a group, in place of {wanted}"
        if wanted == WRITE and (entry.at, entry.data) != (self.end, OPEN):
            return f"{entry.data[:60]!r} at {entry.at}, where the gate at {self.end} was to be opened"
        if wanted == SYNC + ENDED and entry.at != 0:
            return "a sync failed"
        self.step += 1
        if step == len(GROUP) - 1:
            self.take_group()
        return None

    def take_group(self):
        """The group counts."""
        devices = DEVICE.findall(self.group)
        self.kept.update(devices)
        odd = sum(device[-1] in b"13579bdf" for device in devices)
        self.groups += 1
        self.partial += max(odd, len(devices) - odd) < PIECE
        self.end += len(self.group)
        self.lines += len(devices)
        self.group = None
