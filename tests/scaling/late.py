"""A server on a machine that has been up for longer than 2^32 milliseconds, by a clock that is moved on."""

import time

from cases.replays import A, B, P, item
from harness.texts import differing
from serving.connections import long_list
from serving.http import done, registered
from serving.limits import moved_on
from serving.server import Server
from serving.talking import talk_over
from serving.wire import ask_in_pieces, connect, get, post, read_all

UPTIME = 2**32 // 1000 + 86_400
"""Seconds since the machine began."""
BETWEEN = 1.3
"""Seconds between two pieces of a request, and before an answer is read: late connections are looked for each second."""
ROOM = 1 << 16
"""How many bytes of a long answer the system takes in for a client."""


def requests_and_answers_after_fifty_days(program):
    """A request in pieces is answered, and a long answer that isn't read at once comes whole."""
    with Server(program, None, 2, env=moved_on(1, seconds=UPTIME)) as server:
        yield from talk_over(server, registered(A))
        request = post("/events", item())
        found = ask_in_pieces(server.port, [request[:30], request[30:60], request[60:]], pause=BETWEEN)
        yield from differing(found, done(1), "a request in pieces")
        yield from long_list(server, B)
        with connect(server.port, room=ROOM) as connection:
            connection.sendall(get(f"/vehicles/{P}/{B}/events"))
            start = connection.recv(100)
            time.sleep(BETWEEN)
            found = start + read_all(connection)
        length = int(found.partition(b"content-length: ")[2].split()[0])
        if len(found.partition(b"\r\n\r\n")[2]) != length:
            yield f"of {length} bytes of an answer {len(found)} came"
