"""Connections that are slow, broken, silent, or sent more than is read."""

import contextlib
import os
import select
import socket
import tempfile
import time
from concurrent.futures import ThreadPoolExecutor
from pathlib import Path

from cases.replays import A, B, P, batch, history, identifier, item
from crashing.recording import ASKED, Recording
from harness.case import MAX_BYTES, MAX_ITEMS
from harness.texts import differing
from model.http import answer, error
from model.tables import Table
from serving.http import BAD_HEADS, EMPTY, HEAD_BYTES, MANY, Exchange, changed, done, head, look, registered, vehicle
from serving.server import Server
from serving.talking import sent, talk_over
from serving.wire import close, connect, get, hang_up, post, read_all

REGISTER = post("/vehicles", [vehicle()])
EVENT = post("/events", batch([item()]))
MOST_WORKERS = 64
MOST_THROWN_AWAY = 16777216 - HEAD_BYTES
"""Bytes behind a request that aren't looked at: as many as the server reads, but for what came with the head."""
SMALL_ROOM = 4096
"""How many bytes of an answer the system takes in for a client that is slow to read it."""
KEPT_SECONDS = 8
"""How long a silent client is kept at least."""
TRIES = 5
"""How often something is tried that a busy machine may be too slow for."""
SILENT = 600
AT_ONCE = 3
"""Within how many seconds a client is answered behind so many silent ones. Each of them would keep a worker for 0.01 seconds."""
MOMENT = 0.5
"""Within how many seconds one is answered behind one of them."""
PAUSE = 0.3
"""For how many seconds a client that read its answer does nothing before each piece that it sends then."""
LET_GO = 10
"""How many seconds a server may take, at most, to close the sockets of clients that went."""
HASTE, FIRST, LOOKS, A_MOMENT = 1024, 128, 100, 0.001
"""Of how many clients behind a silent one the first bytes aren't waited for, before how many of these it is silent, how many come then,
and how late those send: sooner than a worker waits."""
READ_ON = 1.8
"""For how many seconds it is read on at least, in which nothing comes."""
BODY, CHUNKS, TOO_LONG = b"0" * 1000, b"2\r\n[]\r\n0\r\n\r\n", b"0" * (MAX_BYTES + 1)
ANNOUNCED = {"body": "", "missing": len(BODY)}
"""Of a head alone, behind which this body is to come."""


def spelled(request):
    """The request, with the name of its length's field in all small letters, in capitals, and in both by turns."""
    return [request.replace(b"Content-Length", name) for name in (b"content-length", b"CONTENT-LENGTH", b"cONTENT-lENGTH")]


def among_others(request):
    """The request, with other fields before the one of its length, behind it, and on both sides."""
    start, length = request.removesuffix(b"\r\n\r\n").split(b"\r\n")
    others = [b"Host: localhost", b"Accept: */*"]
    for fields in ([*others, length], [length, *others], [others[0], length, others[1]]):
        yield b"\r\n".join([start, *fields, b"", b""])


LOOK_WITH_BODY = changed(method="GET", target="/table", **ANNOUNCED)


# What is answered before a body comes, and the body; and requests that are answered whole, with something behind them.
BEHIND = [
    (changed(version="HTTP/3.0", **ANNOUNCED), error(400, "bad_head"), BODY),
    (changed(coding="chunked", lengths=[], body=""), error(501, "transfer_encoding"), CHUNKS),
    (changed(target="/nowhere", **ANNOUNCED), error(404, "not_found"), BODY),
    (changed(method="PUT", **ANNOUNCED), error(405, "method_not_allowed", "POST"), BODY),
    (changed(target="/table", **ANNOUNCED), error(405, "method_not_allowed", "GET"), BODY),
    (changed(lengths=[], body=""), error(411, "length_required"), BODY),
    (changed(lengths=["1000", "1000"], body=""), error(400, "bad_length"), BODY),
    (changed(lengths=["+1000"], body=""), error(400, "bad_length"), BODY),
    (changed(lengths=[str(len(TOO_LONG))], body=""), error(413, "too_long"), TOO_LONG),
    (changed(method="GET", target=f"/vehicles/{P}/{A}", **ANNOUNCED), error(404, "unregistered"), BODY),
    *[
        (request, answer(200, {"rows": Table().listed()}), BODY)
        for request in (*spelled(LOOK_WITH_BODY), *among_others(LOOK_WITH_BODY))
    ],
    (changed(body="[1,2"), error(400, "not_json"), BODY),
    (changed(body="7"), error(400, "not_list"), BODY),
    (changed(body=MANY), error(400, "too_many"), BODY),
    (changed() + b"x", EMPTY, BODY),
]


def silent(connection, seconds):
    """Whether nothing comes on a connection for so long."""
    poll = select.poll()  # takes a descriptor of any number
    poll.register(connection, select.POLLIN)
    return not poll.poll(1000 * seconds)


def three_connections(program):
    """A registration, an event and a look, each on a connection of its own; then the server ends with two accepted."""
    with Server(program, 3) as server:
        for exchange in (registered(A), Exchange(EVENT, done(1)), look(A, "available", 1, 1000)):
            yield from talk_over(server, exchange)
        yield from server.end()


def in_slow_pieces(program):
    """A request that comes byte by byte, and one in ten pieces with a pause before each."""
    with Server(program, 5) as server:
        size = len(EVENT) // 10 + 1
        slow = [EVENT[at : at + size] for at in range(0, len(EVENT), size)]
        yield from sent(server, [bytes([byte]) for byte in REGISTER], done(1), pause=0.002)
        yield from sent(server, slow, done(1), pause=0.1)
        yield from talk_over(server, look(A, "available", 1, 1000))
        yield from sent(server, [b"\n"] * HEAD_BYTES, error(400, "bad_head"))
        long = head(f"GET /vehicles/{P}/{B} HTTP/1.1", "more: " + "x" * 15000)
        yield from sent(server, [bytes([byte]) for byte in long], error(404, "unregistered"))
        yield from server.end()


def cut_at_each_place(program):
    """A request in two pieces, cut at each of its places."""
    again = done(1, [{"error": "already_registered", "index": 0}])
    with Server(program, len(REGISTER)) as server:
        for at in range(1, len(REGISTER)):
            wanted = done(1) if at == 1 else again
            yield from sent(server, [REGISTER[:at], REGISTER[at:]], wanted, pause=0.001)
        yield from server.end()


def ended_at_each_place(program):
    """A request that its client ends at each of its places: nothing is taken in before all of it is there."""
    start = REGISTER.index(b"\r\n\r\n") + 4
    with Server(program, len(REGISTER) + 1) as server:
        for at in range(len(REGISTER)):
            wanted = error(400, "bad_head" if at < start else "cut_short")
            yield from sent(server, [REGISTER[:at]], wanted, ends=True)
        yield from talk_over(server, registered(A))
        yield from server.end()


def refused_while_sending(program):
    """Bodies that are refused by the head alone, and heads that are too long, from clients that send all before they read: the
    whole answer comes, and no reset."""
    body = "0" * 5000000
    too_long = changed(body=body)
    requests = [
        (too_long, error(413, "too_long")),
        (changed(body=body, target="/nowhere"), error(404, "not_found")),
        (changed(body=body, method="PUT"), error(405, "method_not_allowed", "POST")),
        (changed(body=body, coding="chunked"), error(501, "transfer_encoding")),
        (changed(body=body, lengths=[]), error(411, "length_required")),
        (get("/table")[:-2] + b"more: " + b"x" * 20000 + b"\r\n\r\n", error(400, "bad_head")),
        (b"a" * 20000, error(400, "bad_head")),
        (b"GET /table HTTP/2.0\r\n\r\n" + b"x" * 3000000, error(400, "bad_head")),
        (get(f"/vehicles/{P}/{A}") + b"x" * 3000000, error(404, "unregistered")),
        (changed() + b"x" * 3000000, EMPTY),
    ]
    longest = [
        (changed(body="0" * MOST_THROWN_AWAY), error(413, "too_long")),
        (get("/nowhere") + b"x" * MOST_THROWN_AWAY, error(404, "not_found")),
    ]
    with Server(program, 5 * len(requests) + len(longest) // 2, workers=2) as server:
        for request, wanted in 10 * requests + longest:
            for complaint in sent(server, [request], wanted):
                yield f"{request[:40]!r}, {len(request)} bytes: {complaint}"
        yield from server.end()


def sending_behind_their_answers(program):
    """Clients that read their whole answers, and send then what they announced, or more: none meets a reset. All of it is tried
    again where it took so long that the server may have waited for them no more."""
    for _ in range(TRIES):
        found, seconds = sent_behind(program, BEHIND)
        if not found or seconds < READ_ON:
            break
    yield from found


def sent_behind(program, requests, env=None):
    """What is wrong with clients that send on behind their answers, side by side, and how many seconds they took."""
    with Server(program, len(requests), env=env) as server, contextlib.ExitStack() as kept:
        connections = [kept.enter_context(connect(server.port)) for _ in requests]
        server.count(len(requests))
        found, seconds = went_on_together(connections, requests)
        found += server.end()
        for (request, _, _), connection in zip(requests, connections):
            # the server is gone: a reset has come by now
            if fault := connection.getsockopt(socket.SOL_SOCKET, socket.SO_ERROR):
                found.append(f"{request[:60]!r}: behind its end, {os.strerror(fault)}")
        return found, seconds


def sent_behind_at(port, requests):
    """What is wrong with clients of a server that goes on, which send on behind their answers, side by side. It is tried again, as
    above."""
    for _ in range(TRIES):
        with contextlib.ExitStack() as kept:
            connections = [kept.enter_context(connect(port)) for _ in requests]
            found, seconds = went_on_together(connections, requests)
        if not found or seconds < READ_ON:
            break
    yield from found


def went_on_together(connections, requests):
    """What is wrong with the answers to these clients, side by side, and how many seconds they took."""
    with ThreadPoolExecutor(len(requests)) as pool:
        start = time.monotonic()
        wrong = list(pool.map(went_on, connections, requests))
        seconds = time.monotonic() - start
    labels = [f"{request[:60]!r}: " for request, _, _ in requests]
    return [label + complaint for label, complaints in zip(labels, wrong) for complaint in complaints], seconds


def went_on(connection, exchange):
    """What is wrong with the answer to a client that sends a body in two pieces behind it, and ends, as far as it can."""
    request, wanted, body = exchange
    wrong = []
    try:
        connection.sendall(request)
        wrong += differing(read_all(connection), wanted)
        for piece in (body[: len(body) // 2], body[len(body) // 2 :]):
            time.sleep(PAUSE)
            connection.sendall(piece)
        connection.shutdown(socket.SHUT_WR)
    except OSError as fault:
        wrong.append(f"{type(fault).__name__}: {fault}")
    return wrong


def bad_heads_with_more(program):
    """Heads that are none, with 20 kB behind them."""
    with Server(program, len(BAD_HEADS)) as server:
        for request in BAD_HEADS:
            yield from sent(server, [request, b"x" * 20000], error(400, "bad_head"))
        yield from server.end()


def expecting_interim_answers(program):
    """`Expect: 100-continue`: no 100 comes, a body that comes later is taken, and an error of the head comes at once."""
    with Server(program, 3) as server:
        fields = ["Expect: 100-continue", f"Content-Length: {len(batch([item()]))}"]
        for target, wanted in (("/vehicles", done(1)), ("/events", done(1))):
            server.count(1, 1)
            with connect(server.port) as connection:
                connection.sendall(head(f"POST {target} HTTP/1.1", *fields))
                if not silent(connection, 0.5):
                    yield f"something before the body: {connection.recv(1000)!r}"
                connection.sendall(batch([item()]).encode())
                yield from differing(read_all(connection), wanted)
        long = head("POST /events HTTP/1.1", "Expect: 100-continue", "Content-Length: 4194305")
        yield from sent(server, [long], error(413, "too_long"))
        yield from server.end()


def left_open(server, before):
    """What is wrong where a server has more sockets open than before, for longer than it needs."""
    end = time.monotonic() + LET_GO
    while (sockets := server.sockets()) > before and time.monotonic() < end:
        time.sleep(0.1)
    if sockets > before:
        yield f"{sockets - before} sockets of clients that went are open"


def hanging_up(program):
    """Clients that hang up, with an end and with a reset: in their head, in their body, and before the answer. One worker takes
    them in turn, so that looks behind them show what came of them: nothing of what wasn't sent whole, all of what was sent
    whole and ended, and either of what was reset. No socket of theirs stays open."""
    devices = [identifier(2, number) for number in range(40)]
    requests = [post("/vehicles", [vehicle(device)]) for device in devices]
    with Server(program, 480) as server:
        before = server.sockets()
        for request in requests:
            body = request.index(b"\r\n\r\n") + 4
            for part in (0, 10, body, len(request) - 1):
                for reset in (False, True):
                    hang_up(server.port, request[:part], reset)
        if any(is_registered(server, device) for device in devices):
            yield "a registration that wasn't sent whole was taken in"
        for at, request in enumerate(requests):
            hang_up(server.port, request, reset=at % 2 == 1)
        found = [is_registered(server, device) for device in devices]
        server.count(0, sum(found))
        if not all(found[::2]):
            yield "a registration that was sent whole wasn't taken in"
        yield from left_open(server, before)
        yield from server.drain()


def hanging_up_before_a_long_answer(program):
    """Clients that hang up while a long answer is written to them."""
    many = batch(["0"] * 10000)
    with Server(program, 20, workers=2) as server:
        yield from talk_over(server, registered(A))
        for reset in 5 * (False, True):
            for request in (post("/events", many), get("/table")):
                hang_up(server.port, request, reset)
        yield from talk_over(server, look(A, "removed", 0, None))
        yield from server.drain()


def long_list(server, device):
    """Registers a vehicle, and gives it a list of events whose answer is longer than the system takes in."""
    yield from talk_over(server, registered(device))
    for front in (0, MAX_ITEMS):
        events = batch(history(device, front, front + MAX_ITEMS))
        yield from talk_over(server, Exchange(post("/events", events), done(MAX_ITEMS)))


def hanging_up_amid_its_answer(program):
    """Clients that read the start of an answer that is longer than the system takes in, and hang up then, with an end and with a
    reset: the only worker answers another client beside them."""
    with Server(program, 12) as server:
        yield from long_list(server, A)
        for reset in (False, True, True, False):
            server.count(2)
            reading = connect(server.port, room=SMALL_ROOM)
            reading.sendall(get(f"/vehicles/{P}/{A}/events"))
            if not reading.recv(100).startswith(b"HTTP/1.1 200 OK\r\n"):
                yield "no answer began"
            with connect(server.port) as other:
                other.sendall(get(f"/vehicles/{P}/{B}"))
                yield from differing(read_all(other), error(404, "unregistered"))
            close(reading, reset)
        yield from server.end()


def is_registered(server, device):
    return server.ask(get(f"/vehicles/{P}/{device}")).startswith(b"HTTP/1.1 200 ")


def silent_beside_working(program):
    """As many silent clients as there are workers: others are answered beside them, and silent ones that go on are answered too.
    All of it is tried again where it took so long that silent clients may have been let go meanwhile."""
    for _ in range(TRIES):
        start = time.monotonic()
        try:
            found = list(working_beside_silent(program))
        except OSError as fault:
            found = [f"{type(fault).__name__}: {fault}"]
        if time.monotonic() - start < KEPT_SECONDS:
            break
    yield from found


def working_beside_silent(program):
    """What is wrong with the answers, where all of it takes less time than a silent client is kept."""
    request = get(f"/vehicles/{P}/{A}")
    with Server(program, 7, workers=MOST_WORKERS) as server:
        quiet = [connect(server.port) for _ in range(MOST_WORKERS)]
        server.count(MOST_WORKERS)
        yield from talk_over(server, registered(A))
        for _ in range(4):
            yield from talk_over(server, look(A, "removed", 0, None))
        yield from talk_over(server, Exchange(EVENT, done(1)))
        for connection in quiet[: MOST_WORKERS // 2]:
            connection.sendall(request)
        yield from answers_of(quiet[: MOST_WORKERS // 2])
        for connection in quiet[MOST_WORKERS // 2 :]:
            connection.close()
        yield from talk_over(server, look(A, "available", 1, 1000))
        yield from server.end()


def behind_silent(program):
    """Silent clients that came before another keep the only worker for a moment, and not each for one."""
    with Server(program, 1) as server:
        quiet = [connect(server.port) for _ in range(SILENT)]
        start = time.monotonic()
        yield from talk_over(server, registered(A))
        waited = time.monotonic() - start
        if waited > AT_ONCE:
            yield f"answered {waited:.1f} seconds behind {SILENT} silent clients"
        for connection in quiet:
            connection.close()
        yield from server.end()


def behind_one_silent(program):
    """One silent client keeps the only worker for a moment, too. It is tried again, as a busy machine may be too slow."""
    waited = []
    while min(waited, default=MOMENT) >= MOMENT and len(waited) < TRIES:
        with Server(program, 1) as server, connect(server.port):
            start = time.monotonic()
            yield from talk_over(server, registered(A))
            waited.append(time.monotonic() - start)
            yield from server.end()
    if min(waited) >= MOMENT:
        yield f"answered so many seconds behind a silent client: {waited}"


def waited_for_again(program):
    """Behind a silent client the first bytes of the next clients aren't waited for, and of those behind them they are again, also
    where it sends a byte then: the system is asked to tell of few of these. It is tried again, as on a busy machine one of them may
    be silent for too long."""
    with tempfile.TemporaryDirectory() as folder, Recording(Path(folder, "none")) as recording:
        with Server(program, None, env=recording.env) as server:
            asked = []
            while min(asked, default=LOOKS) > LOOKS // 2 and len(asked) < TRIES:
                asked.append(asked_behind_a_silent_one(server, recording))
    if min(asked) > LOOKS // 2:
        yield f"of {LOOKS} clients the system was asked to tell {asked} times"


def asked_behind_a_silent_one(server, recording):
    """How often the system is asked to tell of clients that come behind those who aren't waited for. Amid these a byte comes from the
    silent one, which then goes."""
    with connect(server.port) as slow:
        time.sleep(PAUSE)
        looked(server, FIRST)
        with contextlib.suppress(ConnectionError):  # it may be let go by then
            slow.sendall(b"G")
        time.sleep(PAUSE)
    looked(server, HASTE - FIRST)
    before = recording.count(ASKED)
    looked(server, LOOKS, A_MOMENT)
    return recording.count(ASKED) - before


def looked(server, count, pause=0):
    """Has so many clients ask for the table, each of which sends so many seconds behind its connection."""
    for _ in range(count):
        with connect(server.port) as connection:
            time.sleep(pause)
            connection.sendall(get("/table"))
            read_all(connection)


def answers_of(connections):
    """What is wrong with the answers to silent clients that went on, and looked."""
    for connection in connections:
        with connection:
            yield from differing(read_all(connection), look(A, "available", 1, 1000).answer)


CONNECTIONS = [
    three_connections,
    in_slow_pieces,
    cut_at_each_place,
    ended_at_each_place,
    refused_while_sending,
    sending_behind_their_answers,
    bad_heads_with_more,
    expecting_interim_answers,
    hanging_up,
    hanging_up_before_a_long_answer,
    hanging_up_amid_its_answer,
    silent_beside_working,
    behind_silent,
    behind_one_silent,
    waited_for_again,
]
