"""In which turn clients come who are there side by side: none keeps the others waiting for long. The only worker waits for a slow disk
while they come, and a record of its calls tells whom it answered in which order then."""

import contextlib
import tempfile
import time
from pathlib import Path

from crashing.recording import RECEIVED, SENT, SYNC, Recording
from crashing.reports import device_at, listed, listing, registering, reporting
from harness.counting import Unwell
from harness.texts import differing
from model.http import answer, error
from serving.connections import silent
from serving.http import EMPTY, done
from serving.memory import FRONT, REST, taken_in
from serving.server import Server
from serving.wire import ask, connect, get, read_all

DEVICE, EVENTS = device_at(0), 200
"""A vehicle, and how many events it has before the others are reported one by one."""
OTHER, NOT_FOUND = get("/"), error(404, "not_found")
SLOW = (0.5, 4, 16)
"""How many seconds a sync takes. Where clients are slow to come, as on a busy machine, it is tried again with a slower disk."""
CROWD, MOST_BEFORE = 100, 64
"""New clients, and how many of them are answered at most before one that waits: fewer than all, and more than a few turns of 16."""
PIECE, MOST_PIECES = 256, 64
"""How many bytes a call sends at most, and how many such calls an answer has before another client is answered: all of the list takes
three times as many."""
BY_REPORT, EACH = 2, 2
"""Syncs of a report (docs/disk.md), and reports of a stage, at most."""
SECONDS = 60


class Disk:
    """A server of one worker over a disk that is slow from now on, and what is recorded of it."""

    def __init__(self, server, recording, seconds):
        self.server, self.recording, self.opened = server, recording, contextlib.ExitStack()
        self.begun, self.syncs = len(recording.entries()), recording.count(SYNC)
        recording.set(pause=int(1e6 * seconds))

    def __enter__(self):
        return self

    def __exit__(self, *_):
        self.recording.set(pause=0, piece=0)
        self.opened.close()

    def come(self, request):
        """A client that has sent this."""
        connection = self.opened.enter_context(connect(self.server.port))
        connection.sendall(request)
        return connection

    def report(self, number):
        """A client that reports the event of this number."""
        return self.come(reporting(DEVICE, number, number + 1))

    def synced(self, count):
        """Waits until so many syncs have begun."""
        end = time.monotonic() + SECONDS
        while self.recording.count(SYNC) - self.syncs < count:
            if time.monotonic() > end:
                raise Unwell("a report wasn't synced")
            time.sleep(0.01)

    def entries(self):
        return self.recording.entries()[self.begun :]


@contextlib.contextmanager
def prepared(program):
    """A server of one worker, whose calls are recorded, and the record."""
    with tempfile.TemporaryDirectory() as folder, Recording(Path(folder, "journal")) as recording:
        with Server(program, None, journal=Path(folder, "journal"), env=recording.env) as server:
            for request, count in ((registering(DEVICE), 1), (reporting(DEVICE, 0, EVENTS), EVENTS)):
                if ask(server.port, request) != done(count):
                    raise Unwell(f"{request[:100]!r} wasn't accepted")
            yield server, recording


def in_time(program, stage):
    """What is wrong with what comes of a stage over a slow disk, which tells whether all came while that kept the worker. It takes the
    disk and the number of the next event."""
    with prepared(program) as (server, recording):
        for turn, seconds in enumerate(SLOW):
            with Disk(server, recording, seconds) as disk:
                is_in_time, found = stage(disk, EVENTS + EACH * turn)
            if is_in_time:
                break
        yield from found


def waiting_beside_new_ones(program):
    """A client that waits is answered among new ones, who come on and on, once its request is whole, and not behind all of them."""
    yield from in_time(program, among_new_ones)


def among_new_ones(disk, number):
    """New ones are taken, up to one that keeps the worker. Then others come, and the rest of a request that was begun before them all."""
    waiting = disk.come(FRONT)
    taken_in(disk.server)
    first = disk.report(number)
    disk.synced(1)
    crowd, last = [disk.come(OTHER) for _ in range(CROWD)], disk.report(number + 1)
    read_all(first)
    disk.synced(BY_REPORT + 1)
    waiting.sendall(REST)
    crowd += [disk.come(OTHER) for _ in range(CROWD)]
    is_in_time = silent(last, 0)
    found = [it for client in crowd for it in differing(read_all(client), NOT_FOUND)]
    found += differing(read_all(waiting), EMPTY)
    sent = [entry.data for entry in disk.entries() if entry.kind == SENT]
    before = sent[: sent.index(EMPTY)].count(NOT_FOUND) - CROWD if EMPTY in sent else 0
    if before > MOST_BEFORE:
        found.append(f"{before} of {CROWD} new clients were answered before one whose request was whole before they came")
    return is_in_time, found


def others_beside_a_long_answer(program):
    """A client that takes a long answer as fast as that comes has another one answered amid it."""
    yield from in_time(program, amid_a_long_answer)


def amid_a_long_answer(disk, number):
    """Both come while a report keeps the worker."""
    disk.recording.set(piece=PIECE)
    report = disk.report(number)
    disk.synced(1)
    reader, other = disk.come(listing(DEVICE)), disk.come(OTHER)
    is_in_time = silent(report, 0)
    events = [listed(DEVICE, it) for it in range(number + 1)]
    found = [*differing(read_all(reader), answer(200, {"events": events})), *differing(read_all(other), NOT_FOUND)]
    entries = disk.entries()
    asked = next(at for at, entry in enumerate(entries) if entry.kind == RECEIVED and entry.data == listing(DEVICE))
    sent = [entry for entry in entries[asked:] if entry.kind == SENT]
    told = next(at for at, entry in enumerate(sent) if NOT_FOUND.startswith(entry.data))
    pieces = sum(entry.file == entries[asked].file for entry in sent[:told])
    if pieces > MOST_PIECES:
        found.append(f"{pieces} pieces of an answer went out before another client was answered, which was there")
    return is_in_time, found


TURNS = [waiting_beside_new_ones, others_beside_a_long_answer]
