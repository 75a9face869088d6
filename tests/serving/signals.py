"""A server that a signal ends in the middle of its work."""

import random
import signal
import threading
import time

from cases.replays import P, batch, history, identifier
from model.http import error
from serving.connections import long_list
from serving.http import Exchange, done, registered
from serving.server import Server
from serving.talking import talk_over
from serving.wire import connect, get, post

SIGNALS = (signal.SIGTERM, signal.SIGKILL)
ROUNDS = 4
WORKERS, EACH = 8, 1000
WORKING = 4
"""Clients that post one batch after the other."""
EVENTS = 2000
"""Of each of their batches."""
ROOM = 1 << 16
"""How many bytes of a long answer the system takes in for a client."""
HALF = 100000
"""Bytes of a batch's request that were sent, of more."""
MOST_SECONDS = 0.4
"""How long these clients work at most, before the signal comes."""


def received(connection):
    """What came on a connection until its end, or until it was reset."""
    pieces = []
    try:
        while piece := connection.recv(1 << 16):
            pieces.append(piece)
    except ConnectionError:
        pass
    return b"".join(pieces)


def working(port, device, cut):
    """Posts batches of this vehicle until one isn't answered whole; adds what came of it."""
    front, wanted = 0, done(EVENTS)
    while True:
        request = post("/events", batch(history(device, front, front + EVENTS)))
        try:
            with connect(port) as connection:
                connection.sendall(request)
                found = received(connection)
        except ConnectionError:
            found = b""
        if found != wanted:
            cut.append((found, wanted))
            return
        front += EVENTS


def ended_inside(program, number, chance):
    """What is wrong with a server that this signal ends while it reads a batch, writes a long answer, and takes batches of other
    clients; and with one that then starts at its port."""
    devices = [identifier(2, at) for at in range(WORKING + 2)]
    half = post("/events", batch(history(devices[1], 0, EVENTS)))
    with Server(program, EACH, workers=WORKERS) as server:
        yield from long_list(server, devices[0])
        yield from talk_over(server, registered(*devices[1:]))
        cut = []
        threads = [threading.Thread(target=working, args=(server.port, device, cut)) for device in devices[2:]]
        with connect(server.port) as reading, connect(server.port, room=ROOM) as writing:
            reading.sendall(half[:HALF])
            writing.sendall(get(f"/vehicles/{P}/{devices[0]}/events"))
            start = writing.recv(100)
            for thread in threads:
                thread.start()
            time.sleep(chance.uniform(0, MOST_SECONDS))
            server.child.send_signal(number)
            for thread in threads:
                thread.join()
            cut += [(received(reading), b""), (start + received(writing), None)]
        yield from judged(cut)
        found, wanted = server.ended(), (-number, "", "")
        if found != wanted:
            yield f"ended with {found}, in place of {wanted}"
    yield from started_again(program, server.port, devices[1], half)


def judged(cut):
    """What is wrong with what clients received, each of which was cut off: it is a front of the answer, and isn't whole. Of the
    long one only the head is known here."""
    for found, wanted in cut:
        if wanted is None:
            head, _, body = found.partition(b"\r\n\r\n")
            length = int(head.partition(b"content-length: ")[2].split()[0])
            if not head.startswith(b"HTTP/1.1 200 OK\r\n") or not body.startswith(b'{"events":[{') or len(body) >= length:
                yield f"a long answer was {found[:200]!r}, {len(body)} bytes of {length}"
        elif not wanted.startswith(found):
            yield f"{found[:200]!r}, which is no front of {wanted[:200]!r}"


def started_again(program, port, device, request):
    """What is wrong with a server that starts at the port of one that was ended: nothing is left of what that knew."""
    with Server(program, 4, port=port) as server:
        yield from talk_over(server, Exchange(get(f"/vehicles/{P}/{device}"), error(404, "unregistered")))
        yield from talk_over(server, registered(device))
        yield from talk_over(server, Exchange(request, done(EVENTS)))
        yield from server.end()


def ended_in_the_middle(program):
    """SIGTERM and SIGKILL while batches are read, taken and answered: nothing is printed behind the first line, not even a part
    of a line, and the status is the signal. A client has its whole answer, or a front of it that its length tells to be none:
    the connection ends or is reset. The port is free at once, for a server that knows nothing of the first one."""
    chance = random.Random(1)
    for number in SIGNALS * ROUNDS:
        for complaint in ended_inside(program, number, chance):
            yield f"{number.name}: {complaint}"


SIGNALLED = [ended_in_the_middle]
