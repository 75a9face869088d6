"""Servers of which one call of the system fails, does less than it was asked, or is interrupted: of some kind, at its n-th time, which
a seed picks. What is answered, told and kept then is as the documents say."""

import errno
import random
import tempfile
from concurrent.futures import ThreadPoolExecutor
from pathlib import Path

from cases.opened import BY_A_SERVER
from crashing.killed import repeated
from crashing.recording import (
    ADVISED,
    ASKED,
    CUT,
    FOUND,
    LOCKED,
    OPENED,
    READ,
    RECEIVED,
    SENT,
    SETTLED,
    SYNC,
    TAKEN,
    WAITED,
    WRITE,
    Recording,
)
from crashing.reports import NOT_KEPT, device_at, listed, listing, looking, registering, reporting, standing
from harness.case import NO_MEMORY
from harness.counting import Unwell
from model.http import answer
from scaling.journal import PIECE
from serving.http import done
from serving.server import NotListening, Server
from serving.wire import connect

SHORT = -1
"""The call does a half of what it was asked."""
AT_ONCE = 3
WORKERS = 2
NONE = b""
"""No answer came."""
EVENTS = 300
"""More than a group takes of one half."""
DEVICE, OTHER = device_at(2), device_at(3)
WAYS = {
    WRITE: (errno.EIO, errno.ENOSPC, errno.EINTR, SHORT),
    CUT: (errno.EIO, errno.EINTR),
    SYNC: (errno.EIO, errno.EINTR),
    READ: (errno.EIO, errno.EINTR, SHORT),
    TAKEN: (errno.EINTR, errno.ECONNABORTED, errno.EMFILE, errno.ENFILE, errno.ENOMEM, errno.ENOBUFS, errno.EPROTO),
    RECEIVED: (errno.ECONNRESET, errno.EINTR, errno.ENOMEM, SHORT),
    SENT: (errno.ECONNRESET, errno.EPIPE, errno.EINTR, SHORT),
    WAITED: (errno.EINTR,),
    ASKED: (errno.ENOMEM, errno.ENOSPC),
    OPENED: (errno.EACCES, errno.EMFILE, errno.EINTR),
    FOUND: (errno.EACCES, errno.ENOMEM),
    LOCKED: (errno.EWOULDBLOCK, errno.ENOLCK, errno.EINTR),
    ADVISED: (errno.EIO,),
    SETTLED: (errno.EIO, errno.EINTR),
}
"""How calls of each kind fail."""
HARMLESS = (errno.EINTR, SHORT)
"""Nobody sees such a call, since it's made again, or goes on."""
OF_A_CLIENT = (RECEIVED, SENT, ASKED)
"""Whose failures a client may see, who then has no answer."""
OF_A_START = (READ, CUT, OPENED, FOUND, LOCKED, ADVISED, SETTLED, SYNC, WRITE, ASKED)
"""Whose failures end a start, with status 3, or 4 where there is no memory. The first that is asked of the system's queue is the
port itself."""
OF_AN_OPENING = (OPENED, LOCKED, ADVISED, SETTLED)
"""Those of which each that fails ends it: a server doesn't listen then."""
OF_THE_FILE = (WRITE, SYNC)
"""Whose failures may end a server that listens, with status 3."""


def script():
    """Requests, each with the answers that it may have: the first time, and where it had been taken before."""
    registered = [{"error": "already_registered", "index": index} for index in range(2)]
    yield registering(DEVICE, OTHER), (done(2), done(2, registered))
    yield reporting(DEVICE, 0, EVENTS), (done(EVENTS), repeated(EVENTS))
    yield looking(DEVICE), (answer(200, standing(DEVICE, EVENTS)),)
    yield reporting(OTHER, 0, 3), (done(3), repeated(3))
    yield looking(OTHER), (answer(200, standing(OTHER, 3)),)
    yield listing(DEVICE), (answer(200, {"events": [listed(DEVICE, number) for number in range(EVENTS)]}),)
    yield reporting(DEVICE, EVENTS, EVENTS + 1), (done(1), repeated(1))


def answered(port, request):
    """What is answered to a request, or nothing."""
    pieces = []
    try:
        with connect(port) as connection:
            connection.sendall(request)
            while piece := connection.recv(1 << 16):
                pieces.append(piece)
    except ConnectionError:
        pass
    return b"".join(pieces)


class Trial:
    """A server of which a call fails so."""

    def __init__(self, program, folder, kind, number, how):
        self.program, self.kind, self.how = program, kind, how
        self.path, self.number = Path(folder, "journal"), number
        self.lost, self.not_kept, self.has_ended = 0, 0, False

    def run(self):
        """What is wrong with its answers, its end, and with what the next server has."""
        with Recording(self.path, failing=self.kind, first=self.number, many=1, how=self.how) as recording:
            try:
                with Server(self.program, None, WORKERS, journal=self.path, env=recording.env) as server:
                    if self.kind in OF_AN_OPENING and not self.is_harmless():
                        yield "it listens all the same"
                    yield from self.served(server)
            except NotListening as fault:
                yield from self.not_started(fault.ended)
        yield from self.next_server()

    def served(self, server):
        for request, wanted in script():
            yield from self.exchanged(server, request, wanted)
            if self.has_ended:
                return
        if self.lost + self.not_kept > (0 if self.is_harmless() else 1):
            yield f"{self.lost} requests had no answer, and {self.not_kept} were not kept"

    def is_harmless(self):
        is_its_own = self.kind == OPENED and self.number <= BY_A_SERVER
        return is_its_own or self.how in HARMLESS or self.kind in (TAKEN, WAITED)

    def exchanged(self, server, request, wanted):
        """What is wrong with what is answered to a request, which is made again where it had no answer."""
        for _ in range(2):
            found = answered(server.port, request)
            if found in wanted:
                return
            if found == answer(503, NOT_KEPT) and self.kind == WRITE and not self.is_harmless():
                self.not_kept += 1
                return
            if found != NONE or self.is_harmless():
                break
            if self.kind in OF_THE_FILE:
                yield from self.ended_by_itself(server)
                return
            if self.kind not in OF_A_CLIENT:
                break
            self.lost += 1
        yield f"{request[:100]!r} was answered {found[:200]!r}"

    def ended_by_itself(self, server):
        """A server that lost a sync, or the write of a gate, ends."""
        self.has_ended = True
        status, out, faults = server.ended()
        if status != 3 or not faults.startswith("mds_city: "):
            yield f"it ended with {status}, {out[:100]!r} and {faults[:200]!r}"

    def not_started(self, ended):
        status, out, faults = ended
        is_told = status == 3 and faults.startswith("mds_city: ") or self.how == errno.ENOMEM and (status, faults) == (4, NO_MEMORY)
        if self.kind not in OF_A_START or self.is_harmless() or out or not is_told or faults.count("\n") != 1:
            yield f"a start ended with {status}, {out[:100]!r} and {faults[:200]!r}"

    def next_server(self):
        """The next one has what was answered, and takes what is sent again."""
        with Server(self.program, None, WORKERS, journal=self.path) as server:
            for request, wanted in script():
                found = answered(server.port, request)
                if found not in (*wanted, *fuller(request)):
                    yield f"the next server answered {found[:200]!r} to {request[:100]!r}"


def fuller(request):
    """What a look or a list of the first vehicle tells where its last event is there, too; and a report of which a piece is."""
    if request == looking(DEVICE):
        yield answer(200, standing(DEVICE, EVENTS + 1))
    if request == listing(DEVICE):
        yield answer(200, {"events": [listed(DEVICE, number) for number in range(EVENTS + 1)]})
    if request == reporting(DEVICE, 0, EVENTS):
        yield repeated(PIECE, EVENTS)


def counts_of(program):
    """How many calls of each kind there are where none fails."""
    with tempfile.TemporaryDirectory() as folder:
        path = Path(folder, "journal")
        with Recording(path) as recording, Server(program, None, WORKERS, journal=path, env=recording.env) as server:
            for request, wanted in script():
                if answered(server.port, request) != wanted[0]:
                    raise Unwell(f"{request[:100]!r} isn't answered as it has to be")
            return {kind: recording.count(kind) for kind in WAYS}


def trial(program, kind, number, how):
    with tempfile.TemporaryDirectory() as folder:
        return [f"call {number} of kind {kind} that fails by {how}, {it}" for it in Trial(program, folder, kind, number, how).run()]


def picked(counts, cases, seed):
    """The calls that fail: so many by chance of all kinds and ways, or each of them."""
    every = [(kind, number, how) for kind, ways in WAYS.items() for number in range(1, counts[kind] + 1) for how in ways]
    chance = random.Random(seed)
    by_kind = [chance.choice([it for it in every if it[0] == kind]) for kind in WAYS if counts[kind]]
    return every if cases is None else [*by_kind, *chance.sample(every, min(cases, len(every)))]


def calls_that_fail(program, cases, seed):
    """What is wrong with servers of which one call fails."""
    counts = counts_of(program)
    missing = [kind for kind, count in counts.items() if not count]
    if missing:
        yield f"no calls of the kinds {missing}"
    with ThreadPoolExecutor(AT_ONCE) as pool:
        for wrong in pool.map(lambda it: trial(program, *it), picked(counts, cases, seed)):
            yield from wrong
