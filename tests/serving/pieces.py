"""Whole runs of many connections at a time, whose bytes come and go in small pieces, those of one between those of the others.

Each client has vehicles of its own, so that a model knows each answer, whatever comes first. A byte that is lost, comes
twice, or goes to another connection makes another answer, or none."""

import json
import random
import socket

from cases.replays import A, P, history
from harness.case import MAX_ITEMS
from harness.texts import differing
from model.http import answer
from model.items import EVENT
from serving.connections import long_list
from serving.server import Server, success_of
from serving.together import Alone
from serving.wire import connect, get, post

SEEDS = (1, 2)
WORKERS, CLIENTS, ROUNDS = 4, 24, 8
LONG = 300
"""Items of a batch that is longer than the room into which the server takes bytes in."""
MOST_SENT = 100
"""How many bytes a piece of a request has at most, but for some last ones, which have all that is left."""
ALL_AT_ONCE = 0.005
READERS = 3
"""Clients that take an answer, longer than the system takes in, while the others send."""
READ_ROOM = 32768
MOST_READ = 50000


def pieces_of(chance, request):
    """A request in pieces of 1 to 100 bytes. Now and then all that is left is one."""
    at = 0
    while at < len(request):
        behind = len(request) if chance.random() < ALL_AT_ONCE else at + chance.randint(1, MOST_SENT)
        yield request[at:behind]
        at = behind


def talk(chance, port, request, most, room=None):
    """Sends a request in pieces, and takes its answer in pieces of so many bytes at most: the answer so far, behind each step."""
    with connect(port, room) as connection:
        connection.setsockopt(socket.IPPROTO_TCP, socket.TCP_NODELAY, 1)
        for piece in pieces_of(chance, request):
            connection.sendall(piece)
            yield b""
        answered = bytearray()
        while piece := connection.recv(chance.randint(1, most)):
            answered += piece
            yield answered


def in_turns(chance, talks):
    """Goes on with all these talks, each step with one by chance: their answers."""
    answers, running = [b""] * len(talks), list(enumerate(talks))
    while running:
        at = chance.randrange(len(running))
        number, going = running[at]
        answered = next(going, None)
        if answered is None:
            running.pop(at)
        else:
            answers[number] = answered
    return [bytes(answered) for answered in answers]


def long_batch(client):
    """A batch of many events of a client, and its answer."""
    items = [client.some_item() for _ in range(LONG)]
    return post("/events", items), answer(200, client.fleet.take(items, EVENT))


def exchanges_of(chance, clients):
    """A request of each client, and its answer; those of some are long."""
    return [long_batch(client) if chance.random() < 0.1 else client.exchange() for client in clients]


def one_round(chance, server, clients, listed):
    """A request of each client, beside clients that take a long answer: what is wrong with the answers."""
    exchanges = exchanges_of(chance, clients)
    reading = [(get(f"/vehicles/{P}/{A}/events"), listed)] * READERS
    talks = [talk(chance, server.port, request, MOST_SENT) for request, _ in exchanges]
    talks += [talk(chance, server.port, request, MOST_READ, READ_ROOM) for request, _ in reading]
    answers = in_turns(chance, talks)
    for (request, wanted), found in zip(exchanges + reading, answers):
        server.count(1, success_of(found))
        for complaint in differing(found, wanted):
            yield f"{request[:60]!r}, {len(request)} bytes: {complaint}"


def pieces_between_one_another(program):
    """Requests that come in pieces at many connections at a time, and answers that leave so: each is the answer to its request,
    byte for byte."""
    events = [{**json.loads(text), "location_e7": None} for text in history(A, 0, 2 * MAX_ITEMS)]
    listed = answer(200, {"events": events})
    connections = 3 + len(SEEDS) * ROUNDS * (CLIENTS + READERS)
    with Server(program, connections // WORKERS + 1, workers=WORKERS) as server:
        yield from long_list(server, A)
        for seed in SEEDS:
            chance = random.Random(seed)
            clients = [Alone(1000 * seed + number) for number in range(CLIENTS)]
            for _ in range(ROUNDS):
                yield from one_round(chance, server, clients, listed)
        yield from server.drain()


PIECES = [pieces_between_one_another]
