"""How many calls of the system each kind of request takes, one by one, of a server of one worker."""

import tempfile
from pathlib import Path

from crashing.recording import (
    ADVISED,
    ASKED,
    CUT,
    FOUND,
    LOCKED,
    OPENED,
    READ,
    RECEIVED,
    SENT,
    SETTLED,
    SYNC,
    TAKEN,
    WAITED,
    WRITE,
    Recording,
)
from crashing.reports import device_at, registering, reporting
from scaling.growing import DEVICE, EVENTS, LISTED, LONG, prepared, short_kinds
from scaling.journal import PIECE, ROOM
from serving.server import Server
from serving.wire import ask

TIMES = 50
MOST = {TAKEN: 1.5, RECEIVED: 4, WAITED: 3, ASKED: 3}
"""Calls of a kind for each request, at most: a connection is taken by one, and its request and its end are read by one each; who isn't
granted what he asked is waited for behind the answer, by two of each of the last kinds, and one more read. Some are made in vain."""
OF_A_READ = 16_384
"""So many bytes of a request more may take one more read."""
NONE = (READ, CUT, OPENED, LOCKED, FOUND, ADVISED, SETTLED)
"""Kinds of which a server that listens makes none."""
GROUP = 2
"""Writes, and syncs, of a group (docs/disk.md)."""
ITEMS = 2 * PIECE + 88
"""Of a batch of one half that takes three groups."""


def kinds():
    """Requests by their kinds, and how many groups of the journal each takes."""
    for name, request in short_kinds():
        yield name, TIMES * [request], 0
    yield "reports", [reporting(DEVICE, EVENTS + it, EVENTS + it + 1) for it in range(TIMES)], 1
    yield "registrations", [registering(device_at(1000 + it)) for it in range(TIMES)], 1
    yield "long reports", [reporting(LONG, LISTED + ITEMS * it, LISTED + ITEMS * (it + 1)) for it in range(TIMES)], 3


def amiss(calls, groups, sent, grown):
    """What is wrong with the numbers of calls by kind that so many requests took, of so many groups each, which had so many bytes, and
    made the file longer by so many. Room is made once for each mebibyte."""
    wanted = {SENT: TIMES, SYNC: GROUP * groups * TIMES, **dict.fromkeys(NONE, 0)}
    for kind, count in calls.items():
        more = sent // OF_A_READ if kind == RECEIVED else 0
        if count != wanted.get(kind, count) or count > MOST.get(kind, count) * TIMES + more:
            yield f"{count} calls of kind {kind} for {TIMES} requests"
    if not 0 <= calls[WRITE] - GROUP * groups * TIMES <= -(-grown // len(ROOM)):
        yield f"{calls[WRITE]} writes for {TIMES} requests of {groups} groups, and {grown} bytes"


def calls_of_each_kind(program):
    """A request takes as many calls as the documents say: on the file none where it changes nothing, and else those of its groups."""
    with tempfile.TemporaryDirectory() as folder:
        path = Path(folder, "journal")
        with Recording(path) as recording, Server(program, None, journal=path, env=recording.env) as server:
            yield from prepared(server)
            for name, requests, groups in kinds():
                size = size_of(path)
                calls = calls_of(server, recording, requests)
                sent, grown = sum(map(len, requests)), size_of(path) - size
                yield from (f"{name}: {it}" for it in amiss(calls, groups, sent, grown))


def size_of(path):
    """How many bytes of a journal's file aren't room."""
    return len(path.read_bytes().rstrip(b"\n"))


def calls_of(server, recording, requests):
    """How many calls of each kind these requests take, one behind the other."""
    before = {kind: recording.count(kind) for kind in (WRITE, SYNC, SENT, *MOST, *NONE)}
    for request in requests:
        ask(server.port, request)
    return {kind: recording.count(kind) - count for kind, count in before.items()}
