"""Recordings that are walked from moment to moment: what a crash may leave at each, held against what had been answered by then and
what had been sent."""

from crashing.files import GROUP_END, Lines, counted, start_over
from crashing.leaving import Disk
from crashing.recording import CUT, ENDED, RECEIVED, SENT, SYNC, TAKEN, WRITE
from crashing.reports import items_in, said
from harness.counting import Unwell

CHANGING = (WRITE, CUT, SYNC, WRITE + ENDED, CUT + ENDED, SYNC + ENDED)


class Talks:
    """What has been sent and answered by a moment: of each device how many events were sent, and how many are told to stand."""

    def __init__(self, told=(), sent=()):
        self.sent, self.needed = dict(sent), dict(told)
        self.requests = {}

    def take(self, entry):
        """Goes on by a record of the bytes on a connection."""
        if entry.kind == TAKEN:
            self.requests[entry.file] = b""
        elif entry.kind == RECEIVED:
            request = self.requests.get(entry.file, b"") + entry.data
            self.requests[entry.file] = request
            if is_whole(request):
                raise_each(self.sent, [(device, number + 1) for device, number in items_in(request)])
        elif entry.kind == SENT and entry.data.startswith(b"HTTP/"):
            # what a second call sends of an answer was in the first one too, which the system took in part
            raise_each(self.needed, said(self.requests[entry.file], entry.data))


def is_whole(request):
    head, found, body = request.partition(b"\r\n\r\n")
    length = head.partition(b"Content-Length: ")[2].partition(b"\r\n")[0]
    return bool(found) and len(body) == int(length or 0)


def raise_each(counts, found):
    for device, count in found:
        counts[device] = max(counts.get(device, -1), count)


class Walk:
    """A recording that is walked, from what was on the disk before it."""

    def __init__(self, content, lines=None):
        self.disk, self.lines = Disk(content), lines or Lines()
        front, start = counted(content), start_over(content, self.lines.fault_in)
        self.talks = Talks(self.lines.told(front), self.lines.told(start.lines))
        self.ends = {len(front), len(start.lines)}
        """Where the lines of a file may end that a crash left: behind no group, or behind a whole one."""

    def take(self, entry):
        """Goes on to the next moment, and says whether what a crash may leave can be otherwise there."""
        if entry.kind not in CHANGING:
            self.talks.take(entry)
            return entry.kind == SENT
        self.disk.take(entry)
        if entry.kind == WRITE and entry.data.endswith(GROUP_END):
            self.ends.add(entry.at + len(entry.data) - 1)
        return True

    def amiss(self, content):
        """What is wrong with a file that a crash may leave at this moment."""
        front = counted(content)
        try:
            told = self.lines.told(front)
        except Unwell as fault:
            yield str(fault)
            return
        if len(front) not in self.ends:
            yield f"it has a part of a group: its lines end at {len(front)}"
        for device, count in self.talks.needed.items():
            if told.get(device, -1) < count:
                yield f"{device} has {told.get(device)} events, and was told to have {count}"
        for device, count in told.items():
            if self.talks.sent.get(device, -1) < count:
                yield f"{device} has {count} events, of which {self.talks.sent.get(device)} were sent"
