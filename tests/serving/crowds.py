"""Many clients that are idle or slow, beside clients that work."""

import resource
import socket
import time

from cases.replays import A, B, P, batch, history, item
from harness.case import padded
from harness.counting import Skipped
from harness.stalls import stalled
from serving.connections import SMALL_ROOM, long_list
from serving.http import Exchange, done, look, registered
from serving.limits import HEAD, is_sent
from serving.looking import PAUSE, Looks
from serving.server import Server
from serving.talking import talk_over
from serving.wire import connect, get, post

IDLE = 1000
SLOW = 1000
LONG_ANSWERS = 20
"""Clients that ask for a long answer, and read none of it: each holds some megabytes of the server."""
EVENTS = 600
"""Those of a list of some 150 kB. Where few bytes come at once the system takes in 100 of them at most."""
SEGMENT = 536
"""How many bytes of such a list come at once at most."""
SLOW_HEAD = b"GET / HTTP/1.1\r\nHost: "
SLOW_BODY = post("/events", padded(batch([item()]), 4000))[:-1000]
WORKERS = 4
EACH = 3000
SECONDS = 30
"""How long slow clients go on, and others work beside them."""
MOST_MEMORY = 8 * 2**20
"""How many bytes the server may have grown by, with all idle connections open."""
OPEN_FILES = 8192
"""More than what these tests open at once, and others beside them."""


def many_open_files(count=OPEN_FILES):
    """Lets this process have so many open files, and those that it starts from now on."""
    soft, hard = resource.getrlimit(resource.RLIMIT_NOFILE)
    if hard != resource.RLIM_INFINITY and hard < count:
        raise Skipped(f"{hard} open files at most here, where {count} are wanted")
    if soft != resource.RLIM_INFINITY and soft < count:
        resource.setrlimit(resource.RLIMIT_NOFILE, (count, hard))


def idle_beside_working(program):
    """A thousand idle connections at four workers: a thousand looks are answered beside them, in the time that they always take.
    The idle ones are let go after theirs, without an answer, and no worker counts them."""
    many_open_files()
    asked = look(A, "removed", 0, None)
    with Server(program, IDLE // 2, workers=WORKERS) as server, Looks(server, asked) as looks:
        yield from talk_over(server, registered(A))
        before, start = server.memory(), time.monotonic()
        idle = [connect(server.port) for _ in range(IDLE)]
        whole = time.monotonic()
        try:
            yield from looks.times(10)
            grown = server.memory() - before
            if grown > MOST_MEMORY:
                yield f"{grown} bytes more beside {IDLE} idle connections, in place of {MOST_MEMORY}"
            yield from looks.judged(f"{IDLE} idle connections")
            yield from let_go(idle, start, whole)
        finally:
            for connection in idle:
                connection.close()
        yield from server.end()


def let_go(idle, start, whole):
    """What is wrong with idle connections, of which the first was begun at `start` and the last at `whole`: each is over in time,
    without an answer."""
    for connection in idle:
        connection.settimeout(max(whole + HEAD[1] + stalled(start) - time.monotonic(), 1))
        try:
            found = connection.recv(1000)
        except ConnectionResetError:
            found = b""
        except TimeoutError:
            yield "an idle connection wasn't let go"
            return
        if found:
            yield f"{found!r} to a client that sent nothing"
    if time.monotonic() - start < HEAD[0]:
        yield "the idle connections were let go too soon"


class Slow:
    """Clients that each send the front of a request, and then a byte now and then. One that is let go comes again."""

    AT_ONCE, LEAST = SLOW, SLOW * 9 // 10
    """How many of them come at once, and how many the server has at once at least."""

    def __init__(self, server, front):
        self.server, self.front = server, front
        self.connections = []

    def begun(self):
        connection = connect(self.server.port)
        connection.sendall(self.front)
        return connection

    def come(self):
        """More of them come, until all have."""
        more = min(self.AT_ONCE, SLOW - len(self.connections))
        self.connections += [self.begun() for _ in range(more)]

    def go_on(self):
        for at, connection in enumerate(self.connections):
            if not is_sent(connection, b" "):
                connection.close()
                self.connections[at] = self.begun()

    def close(self):
        for connection in self.connections:
            connection.close()


class Reading(Slow):
    """Clients that each ask for a list, and read a byte of it now and then."""

    AT_ONCE, LEAST = SLOW // 10, SLOW // 4
    """All at once would keep the workers busy for some seconds. Of the bytes of the lists the server holds no more, and lets go of
    the eldest."""

    def begun(self):
        connection = socket.socket()
        connection.setsockopt(socket.SOL_SOCKET, socket.SO_RCVBUF, SMALL_ROOM)
        connection.setsockopt(socket.IPPROTO_TCP, socket.TCP_MAXSEG, SEGMENT)
        connection.connect(("127.0.0.1", self.server.port))
        connection.sendall(self.front)
        return connection

    def go_on(self):
        for connection in self.connections:
            try:
                connection.recv(1, socket.MSG_DONTWAIT)
            except (BlockingIOError, ConnectionError):
                pass


def beside_slow_ones(program, what, kind, front):
    """What is wrong with looks beside a thousand slow clients of this kind, which begin with this front of a request."""
    many_open_files()
    with Server(program, EACH, workers=WORKERS) as server, Looks(server, look(A, "removed", 0, None)) as looks:
        yield from talk_over(server, registered(A, B))
        yield from talk_over(server, Exchange(post("/events", batch(history(B, 0, EVENTS))), done(EVENTS)))
        slow, end, most = kind(server, front), time.monotonic() + SECONDS, 0
        try:
            while time.monotonic() < end or len(slow.connections) < SLOW:
                slow.come()
                yield from looks.once()
                slow.go_on()
                most = max(most, server.sockets())
                time.sleep(PAUSE)
            yield from looks.judged(f"{SLOW} {what}")
        finally:
            slow.close()
        if most < kind.LEAST:
            yield f"the server had {most} connections at once, in place of {kind.LEAST} at least"
        yield from server.drain()


def slow_heads(program):
    """Clients whose heads come slowly, and that come again where they were let go."""
    return beside_slow_ones(program, "slow heads", Slow, SLOW_HEAD)


def slow_bodies(program):
    """Clients whose bodies come slowly."""
    return beside_slow_ones(program, "slow bodies", Slow, SLOW_BODY)


def slow_readers(program):
    """Clients that are slow to read a list."""
    return beside_slow_ones(program, "slow readers", Reading, get(f"/vehicles/{P}/{B}/events"))


def long_answers(program):
    """Clients that ask for a long answer, and read nothing of it once it has begun."""
    with Server(program, EACH, workers=WORKERS) as server, Looks(server, look(A, "removed", 0, None)) as looks:
        yield from talk_over(server, registered(A))
        yield from long_list(server, B)
        reading = []
        try:
            for _ in range(LONG_ANSWERS):
                server.count()
                reading.append(connect(server.port, room=SMALL_ROOM))
                reading[-1].sendall(get(f"/vehicles/{P}/{B}/events"))
                reading[-1].recv(1)
            yield from looks.times(3)
            yield from looks.judged(f"{LONG_ANSWERS} clients that read nothing of a long answer")
        finally:
            for connection in reading:
                connection.close()
        yield from server.drain()


CROWDS = [idle_beside_working, slow_heads, slow_bodies, slow_readers, long_answers]
