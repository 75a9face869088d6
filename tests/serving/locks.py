"""Vehicles of one half, whose devices' identifiers are even, beside a list that is being made of a vehicle of the other half; and
requests beside the bytes of a long one that are freed."""

import os
import tempfile
import time
from pathlib import Path

from cases.replays import A, B, P, batch, event, history, identifier, turn
from harness.building import built
from harness.case import MAX_BYTES, MAX_ITEMS, padded
from harness.counting import Unwell
from harness.texts import differing
from model.http import answer
from serving.connections import silent
from serving.http import EMPTY, Exchange, done, look, registered
from serving.server import Server
from serving.sizes import listed
from serving.talking import talk_over
from serving.wire import connect, get, post, read_all

EVENTS = 1000
"""Of the vehicles whose lists are made."""
LEAST = 1000 * EVENTS
"""A list of so many events takes more bytes than these, and no other growth of these tests does."""
WORKERS = 4
EACH = 20
"""Connections of a worker: enough that none has had its own while others wait, whoever takes them."""
SECONDS = 10
HALVES = [(A, identifier(2, 1)), (B, identifier(2, 2))]
"""A vehicle of each half, and one of the other half."""
NEIGHBOUR = identifier(2, 2)
"""A vehicle of A's half."""
LONG, LISTS = 50000, 40
"""A long list, and how often it is asked for at most. To copy all of it takes 20 ms."""
LOOKS = 1000000
"""Connections of a worker: more than there are looks while those lists are made."""
FREED = 3 * MAX_BYTES // 2
"""The list of a request with the longest body has more room than these bytes, and nothing else that is freed beside it."""
MOST_SECONDS = 0.005
"""For how long no look is answered meanwhile, in the best case. What passes while other programs have the processors isn't
counted: it is so long by the clock, and by the processor time of the server."""


class Hold:
    """Lists that aren't finished as long as it is on; or, where so many bytes are given, what frees as many. As a context it has the
    environment of their server."""

    def __init__(self, freed=0):
        self.sizes = {"FREED": str(freed)} if freed else {"LEAST": str(LEAST)}

    def __enter__(self):
        self.folder = tempfile.TemporaryDirectory()
        self.file, self.held = (Path(self.folder.name, name) for name in ("hold", "held"))
        shim = built("hold-growth.so", "tests/hold-growth.c", "-shared", "-fPIC", "-O1", "-ldl")
        self.env = {**os.environ, **self.sizes, "LD_PRELOAD": str(shim)}
        self.env.update({"HOLD": str(self.file), "HELD": str(self.held)})
        return self

    def __exit__(self, *_):
        self.folder.cleanup()

    def on(self):
        self.held.unlink(missing_ok=True)
        self.file.touch()

    def off(self):
        self.file.unlink(missing_ok=True)

    def has_begun(self):
        """Waits until one is held."""
        for _ in range(100 * SECONDS):
            if self.held.exists():
                return
            time.sleep(0.01)
        raise Unwell("nothing takes or frees as many bytes as it should")


def list_of(device, events):
    """The exchange that lists these events of a device."""
    return Exchange(get(f"/vehicles/{P}/{device}/events"), answer(200, f'{{"events":[{",".join(events)}]}}'))


def beside(server, hold, device, other):
    """What is wrong with the answers about another vehicle while the list of a device is made: they come, and one about that
    device comes only behind it."""
    state, last = turn(EVENTS - 1)[0], 1000 + EVENTS - 1
    texts = [listed(number, [turn(number)[1]], turn(number)[0], 1000 + number, device) for number in range(EVENTS)]
    whole, same = list_of(device, texts), look(device, state, EVENTS, last)
    server.count(2)
    hold.on()
    with connect(server.port) as listing, connect(server.port) as waiting:
        try:
            listing.sendall(whole.request)
            hold.has_begun()
            waiting.sendall(same.request)
            yield from talk_over(server, look(other, "removed", 0, None))
            reported = event(other, "e1", "provider_drop_off", "available", 1000)
            yield from talk_over(server, Exchange(post("/events", reported), done(1)))
            yield from talk_over(server, look(other, "available", 1, 1000))
            yield from talk_over(server, list_of(other, [listed(0xE1, ["provider_drop_off"], "available", 1000, other)]))
            if not silent(waiting, 0):
                yield f"a look at {device} was answered while its half was locked"
        finally:
            hold.off()
        yield from differing(read_all(listing), whole.answer)
        yield from differing(read_all(waiting), same.answer)


def two_halves(program):
    """While the list of a vehicle is made, vehicles of the other half are looked at, reported and listed, both ways."""
    with Hold() as hold, Server(program, EACH, workers=WORKERS, env=hold.env) as server:
        yield from talk_over(server, registered(*[device for half in HALVES for device in half]))
        for device, _ in HALVES:
            events = batch(history(device, 0, EVENTS))
            yield from talk_over(server, Exchange(post("/events", events), done(EVENTS)))
        for device, other in HALVES:
            yield from beside(server, hold, device, other)
        yield from server.end()


def looks_beside(server, whole, same):
    """For how long no look was answered at the longest, from when a list was asked for until it came, and what is wrong with the
    answers."""
    answers, found = [], []
    with connect(server.port) as listing:
        answers.append((time.monotonic(), server.processor_time()))
        listing.sendall(whole.request)
        while silent(listing, 0):
            found += talk_over(server, same)
            answers.append((time.monotonic(), server.processor_time()))
        answers.append((time.monotonic(), server.processor_time()))
        found += differing(read_all(listing), whole.answer)
    server.count()
    waits = [min(later - sooner for sooner, later in zip(*pair)) for pair in zip(answers, answers[1:])]
    return max(waits), found


def beside_long_list(program):
    """A long list of a vehicle keeps no look at another one of its half waiting for the whole of it."""
    texts = [listed(number, [turn(number)[1]], turn(number)[0], 1000 + number, A) for number in range(LONG)]
    whole, same = list_of(A, texts), look(NEIGHBOUR, "removed", 0, None)
    with Server(program, LOOKS, workers=WORKERS) as server:
        yield from talk_over(server, registered(A, NEIGHBOUR))
        for front in range(0, LONG, MAX_ITEMS):
            events = batch(history(A, front, front + MAX_ITEMS))
            yield from talk_over(server, Exchange(post("/events", events), done(MAX_ITEMS)))
        longest = []
        while len(longest) < LISTS and min(longest, default=MOST_SECONDS) >= MOST_SECONDS:
            seconds, found = looks_beside(server, whole, same)
            yield from found
            longest.append(seconds)
        if min(longest) >= MOST_SECONDS:
            yield f"beside a list of {LONG} events no look was answered for so many seconds: {longest}"


def beside_a_long_body_that_is_freed(program):
    """While a worker frees the bytes of a long body, others take requests and answer them."""
    with Hold(freed=FREED) as hold, Server(program, EACH, workers=WORKERS, env=hold.env) as server:
        yield from talk_over(server, registered(A))
        hold.on()
        try:
            yield from talk_over(server, Exchange(post("/events", padded("[]", MAX_BYTES)), EMPTY))
            hold.has_begun()
            found = [list(answered_in_time(server, look(A, "removed", 0, None))) for _ in range(WORKERS)]
            yield from sum(found, [])[:1]
        finally:
            hold.off()
        yield from server.end()


def answered_in_time(server, exchange):
    """What is wrong with an answer, which comes within some seconds."""
    server.count()
    with connect(server.port) as connection:
        connection.sendall(exchange.request)
        if silent(connection, SECONDS):
            yield f"{exchange.request!r} wasn't answered in {SECONDS} s, while the bytes of a long body were freed"
        else:
            yield from differing(read_all(connection), exchange.answer)


LOCKS = [two_halves, beside_long_list, beside_a_long_body_that_is_freed]
