"""What doesn't grow: each kind of request that changes nothing is made many times, and each kind of its failures; a server then holds
as much memory, as many files, mappings and threads as before."""

import os
import struct
import subprocess
import tempfile
from contextlib import ExitStack, suppress
from dataclasses import dataclass
from pathlib import Path

from cases.batches import FAULTY
from cases.replays import batch, event, history, item
from crashing.clients import side_by_side
from crashing.filling import AS_THE_UNIT
from crashing.reports import device_at, listing, looking, registering, reporting
from harness.building import loading_client
from harness.case import MAX_BYTES, MAX_ITEMS, padded
from scaling.lives import unclosed
from serving.http import done, head
from serving.memory import taken_in
from serving.server import Server
from serving.wire import ask, ask_in_pieces, connect, get, hang_up, post, read_all

TIMES, TIMES_WHOLE = 4000, 20_000
"""How often a kind is made."""
FEW = 20
"""A kind whose requests are long is made so many times less often."""
BEFORE = 4
"""Of so many times one is made before anything is measured."""
CLIENTS, WORKERS = 4, 4
EVENTS, LISTED = 120, 20_000
"""Events of the vehicle that is listed often, and of the one that is listed once."""
MOST_GROWN, MOST_OF_LONG = 64 << 10, 6 << 20
"""Bytes that memory may be more behind a kind, and behind one of long requests, by pages that the C library keeps."""
ROUNDS = 2 * WORKERS
"""How often a kind is made where memory grows. The C library has a heap for each worker, and each of these may grow once."""
MOST_MAPPINGS = 8
"""Mappings that the C library may have made more."""
BODIES, MOST_OF_BODIES = 24, 40 << 20
"""Bodies of the longest that come at once, and the bytes that may be kept behind them."""
LISTS, OF_A_LIST = 400, 30_000
"""Requests that come side by side, and for how many bytes their lists have room: each could be kept for others (mds_socket)."""
MOST_OF_LISTS = 64 * 32_768 + (1 << 20)
"""The bytes that may be kept behind them: 64 of the longest lists that are, and some."""
MOST_OF_LIST = 10
"""How many times the bytes of its text a list may take of address space."""
LINGERING, MOST_OF_LINGERING = 20, 2
"""Clients that stay behind a long list, and how many times its bytes may be held then for all of them."""
MOST_BEHIND = 40 << 20
"""Bytes that a client may send behind its answer, with what the system takes in: the server reads 16 MiB."""
MANY, MOST_SLOWER, SLACK = 6, 4, 0.1
"""The largest batches, each of other vehicles; how many times longer the last ones may take than the first, and seconds more."""
DEVICE, LONG, UNKNOWN = device_at(2), device_at(4), device_at(99)
FACES = ("memory", "files", "mappings", "threads")


@dataclass
class Held:
    """What a server holds."""

    memory: int
    files: int
    mappings: int
    threads: int

    @classmethod
    def by(cls, server):
        at = Path(f"/proc/{server.child.pid}")
        count = lambda name: len(list(Path(at, name).iterdir()))
        return cls(server.bytes_of("RssAnon"), count("fd"), len(Path(at, "maps").read_text().splitlines()), count("task"))

    def more(self, before, grown):
        """What is more than before, in words; memory may have grown by so much."""
        most = {"memory": grown, "files": 0, "mappings": MOST_MAPPINGS, "threads": 0}
        for name in FACES:
            grown = getattr(self, name) - getattr(before, name)
            if grown > most[name]:
                yield f"{name} grew by {grown}, from {getattr(before, name)}"


def short_kinds():
    """Requests by their kinds, none of which changes anything."""
    start = f"POST /events HTTP/1.1"
    last = event(DEVICE, "ffff", "provider_drop_off", "available", 1000 + EVENTS)
    yield "looks", looking(DEVICE)
    yield "looks at none", looking(UNKNOWN)
    yield "the table", get("/table")
    yield "lists", listing(DEVICE)
    yield "there already", reporting(DEVICE, 3, 4)
    yield "many that are there", reporting(DEVICE, 0, EVENTS)
    yield "late", post("/events", event(DEVICE, "fffe", "battery_low", "non_operational", 1))
    yield "no chain", post("/events", last)
    yield "unregistered", post("/events", batch(history(UNKNOWN, 0, 50)))
    yield "registered", registering(DEVICE, LONG)
    yield "faults", post("/events", batch([item(**changed) for changed, _ in FAULTY]))
    yield "no object", post("/vehicles", "[7,null,[],\"\"]")
    yield "no route", get("/nowhere")
    yield "no method", head("DELETE /table HTTP/1.1")
    yield "no head", b"\x01\r\n\r\n"
    yield "no length", head(start)
    yield "bad length", head(start, "Content-Length: x")
    yield "too long", head(start, f"Content-Length: {MAX_BYTES + 1}")
    yield "coded", head(start, "Transfer-Encoding: chunked")
    yield "no JSON", post("/events", "[1,2")
    yield "no list", post("/events", "7")


def long_kinds():
    """The same of requests that are long."""
    yield "long bodies", post("/events", padded("[]", MAX_BYTES // 4))
    yield "deep bodies", post("/events", "[" * 127 + "]" * 127 + " " * 100_000)
    yield "too many", post("/events", batch(["0"] * (MAX_ITEMS + 1)))
    yield "most faults", post("/events", batch(["0"] * MAX_ITEMS))
    yield "most that are there", reporting(LONG, 0, MAX_ITEMS)


def made_by_client(server, request, times):
    """Makes a request many times, and says where it wasn't answered as the first time."""
    wanted = ask(server.port, request)
    each = times // CLIENTS
    with tempfile.NamedTemporaryFile() as file:
        file.write((struct.pack("<I", len(request)) + request) * each)
        file.flush()
        words = [str(loading_client()), str(server.port), *[file.name] * CLIENTS]
        ran = subprocess.run(words, capture_output=True, text=True, timeout=300)
    good = each * CLIENTS if wanted.startswith(b"HTTP/1.1 200 ") else 0
    if ran.stdout.split()[:2] != [str(each * CLIENTS), str(good)]:
        yield f"{ran.stdout!r} of {each * CLIENTS} requests, {ran.stderr[:200]!r}"


def gone(port, times, request, sizes):
    """Clients that go behind so many bytes of a request."""
    for number in range(times):
        hang_up(port, request[: sizes[number % len(sizes)]], number % 2 == 0)


def gone_from_answers(port, times, request):
    """Clients that go in the middle of an answer."""
    for number in range(times):
        with connect(port, 1 << 12) as connection:
            connection.sendall(request)
            connection.recv(100 if number % 2 else 1)


def in_pieces(port, times, request):
    """Requests in two pieces, the second of which comes once the first is waited behind."""
    for _ in range(times):
        ask_in_pieces(port, [request[:5000], request[5000:]], pause=0.001)


def sent_more(port, times, request):
    """Clients that send more than their request, and read until the server has ended."""
    for _ in range(times):
        with connect(port) as connection:
            connection.sendall(request + b"more")
            read_all(connection, gone=True)


def behaviours(times):
    """Clients that behave otherwise, by their kinds: jobs of a port, each of which is done by some at once."""
    some, few = times // CLIENTS, times // CLIENTS // 4
    report = reporting(DEVICE, 0, 50)
    yield "gone in heads and bodies", lambda port: gone(port, some, report, (0, 1, 30, 60, len(report) // 2, len(report) - 1))
    yield "gone behind requests", lambda port: gone(port, some, report, (len(report),))
    yield "gone from answers", lambda port: gone_from_answers(port, few, listing(DEVICE))
    yield "in pieces", lambda port: in_pieces(port, few, reporting(DEVICE, 0, 50))
    yield "more than a request", lambda port: sent_more(port, some, looking(DEVICE))


def jobs_of(times):
    """What is done with a server, by its kind: it says what is wrong."""
    for name, request in short_kinds():
        yield name, lambda server, part, request=request: made_by_client(server, request, times // part)
    for name, request in long_kinds():
        yield name, lambda server, part, request=request: made_by_client(server, request, max(times // FEW // part, CLIENTS))
    names = [name for name, _ in behaviours(times)]
    for at, name in enumerate(names):
        yield name, lambda server, part, at=at: behaved(server, list(behaviours(times // part))[at][1])


def behaved(server, job):
    side_by_side([lambda: job(server.port)] * CLIENTS)
    return []


def bodies_at_once(server):
    """What is kept behind some of the longest bodies that come at once, in pieces."""
    before, request = Held.by(server), post("/events", padded("[]", MAX_BYTES))
    side_by_side([lambda: ask_in_pieces(server.port, [request[:3000], request[3000:]], pause=0.2)] * BODIES)
    kept = Held.by(server).memory - before.memory
    if kept > MOST_OF_BODIES:
        yield f"{kept} bytes are kept behind {BODIES} bodies"


def lists_at_once(program):
    """What is kept for later requests behind many of some kilobytes that come side by side: no more lists than 64. The C library gives
    each of them back by itself."""
    request = post("/events", padded("[]", OF_A_LIST // 2))
    env = {**os.environ, **AS_THE_UNIT, "MALLOC_MMAP_THRESHOLD_": str(OF_A_LIST // 4)}
    with Server(program, None, workers=WORKERS, env=env) as server, ExitStack() as stack:
        wanted, sockets, before = ask(server.port, request), server.sockets(), Held.by(server)
        clients = [stack.enter_context(connect(server.port)) for _ in range(LISTS)]
        for client in clients:
            client.sendall(request[:-1])
        taken_in(server, sockets + LISTS)
        for client in clients:
            client.sendall(request[-1:])
        if any(read_all(client) != wanted for client in clients):
            yield f"some of {LISTS} requests that come side by side were answered otherwise"
        yield from unclosed(server, sockets)
        kept = Held.by(server).memory - before.memory
        if kept > MOST_OF_LISTS:
            yield f"{kept} bytes are kept behind {LISTS} requests"


def lingering(server):
    """What clients hold that stay behind their answers: the server has sent those, and needs them no more."""
    before = Held.by(server)
    with ExitStack() as stack:
        for _ in range(LINGERING):
            connection = stack.enter_context(connect(server.port))
            connection.sendall(listing(LONG) + b"x")
            size = len(read_all(connection))
        held = Held.by(server).memory - before.memory
    if held > MOST_OF_LINGERING * size:
        yield f"{LINGERING} clients that stay behind {size} bytes each hold {held}"


def endless(server):
    """How many bytes a client may send behind its answer."""
    sent = 0
    with connect(server.port) as connection, suppress(ConnectionError):
        connection.sendall(get("/"))
        while sent < 2 * MOST_BEHIND:
            sent += connection.send(bytes(1 << 20))
    if sent > MOST_BEHIND:
        yield f"{sent} bytes were taken behind an answer"


def long_list(server):
    """How much address space a list takes."""
    before = server.bytes_of("VmPeak")
    size = len(ask(server.port, listing(LONG)))
    taken = server.bytes_of("VmPeak") - before
    if taken > MOST_OF_LIST * size:
        yield f"a list of {size} bytes takes {taken} of address space"


def first_events(*devices):
    return post("/events", batch(it for device in devices for it in history(device, 0, 1)))


def many_vehicles(server):
    """How long a server works for batches of one provider's vehicles, and of their events, all of one identifier."""
    for request_for in (registering, first_events):
        took = []
        for front in range(100_000, 100_000 + MANY * MAX_ITEMS, MAX_ITEMS):
            before = server.processor_time()
            if ask(server.port, request_for(*map(device_at, range(front, front + MAX_ITEMS)))) != done(MAX_ITEMS):
                yield f"{request_for.__name__} from {front} on wasn't accepted"
            took.append(server.processor_time() - before)
        if min(took[-2:]) > MOST_SLOWER * min(took[:2]) + SLACK:
            yield f"{request_for.__name__}: {' '.join(f'{it:.2f}' for it in took)} s for {MAX_ITEMS} each"


def nothing_grows(program, times, told=lambda text: None):
    """What a server over a journal holds behind each kind, and one behind many requests that come side by side."""
    yield from lists_at_once(program)
    env = {**os.environ, **AS_THE_UNIT}
    with tempfile.TemporaryDirectory() as folder:
        with Server(program, None, workers=WORKERS, journal=Path(folder, "journal"), env=env) as server:
            sockets = server.sockets()
            yield from prepared(server)
            yield from long_list(server)
            yield from lingering(server)
            yield from bodies_at_once(server)
            yield from endless(server)
            yield from many_vehicles(server)
            jobs = list(jobs_of(times))
            for name, job in jobs:
                yield from (f"{name}, at first: {it}" for it in job(server, BEFORE))
            yield from unclosed(server, sockets)
            long = {name for name, _ in long_kinds()}
            for name, job in jobs:
                most = MOST_OF_LONG if name in long else MOST_GROWN
                yield from (f"{name}: {it}" for it in grown_by(server, job, most, sockets, lambda text: told(f"{name}: {text}")))


def grown_by(server, job, most, sockets, told):
    """What a kind leaves each time it is made. A kind after which nothing is left isn't made again."""
    for _ in range(ROUNDS):
        before = Held.by(server)
        yield from job(server, 1)
        yield from unclosed(server, sockets)
        after = Held.by(server)
        more = list(after.more(before, most))
        told(f"{after}, {after.memory - before.memory} bytes more")
        if not more:
            return
    yield from more


def prepared(server):
    """Registers and reports the vehicles that are asked about."""
    for request, count in (
        (registering(DEVICE, LONG), 2),
        (reporting(DEVICE, 0, EVENTS), EVENTS),
        *[(reporting(LONG, front, front + MAX_ITEMS), MAX_ITEMS) for front in range(0, LISTED, MAX_ITEMS)],
    ):
        if ask(server.port, request) != done(count):
            yield f"{request[:100]!r} wasn't accepted"
