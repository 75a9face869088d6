"""How much memory connections take that wait, bodies that never end, and a long list, who is let go where more come than may wait or
memory is wanting for others, and the stack of the first thread."""

import contextlib
import os
import re
import select
import statistics
import time
from pathlib import Path
from socket import MSG_PEEK

from cases.replays import A, batch, history
from harness.building import Refusal
from harness.case import MAX_BYTES, MAX_ITEMS, padded
from harness.counting import ROOT, Unwell
from harness.texts import differing
from model.http import error
from serving.connections import SMALL_ROOM, TRIES
from serving.connections import long_list as vehicle_of_long_list
from serving.crowds import many_open_files
from serving.figures import DROPPED, DROPPED_FOR_ROOM, LEAVING, LIST, WAITING_TO_COME, all_of, figures_at
from serving.figures import differing as figures_amiss
from serving.growths import FIXED
from serving.http import EMPTY, Exchange, done, look, registered
from serving.limits import MOST_GROWTHS, answer_at, growth_of_a_connection
from serving.looking import Looks
from serving.server import Server, numbered_port
from serving.talking import talk_over
from serving.wire import connect, get, post, read_all

WAITING = 4096
REQUEST = post("/events", padded("[]", 4000))
FRONT, REST = REQUEST[:1000], REQUEST[1000:]
"""What each of them sends of its request, and what it lacks."""
LONGER = post("/events", padded("[]", 10000))
"""A request for whose bytes more memory is taken than one had before."""
ROOM_BYTES = 65536
"""How many bytes the room has by way of which a worker reads a request. It is kept for the next one."""
CROWD = 32
"""Silent clients that come at once, each of which keeps a worker and its room for a moment."""
ELDEST = 16
"""How many of them may come first, by the server's clock."""
MOST_BESIDE = 8 * 2**20
"""How many bytes connections that wait may take beside what they sent."""
WORKERS, EACH = 4, 1000
MOST_HELD = 64 * 2**20
"""How many bytes of requests that come the server holds at most, in all."""
MOST_OF_BODIES = 2.5
"""How many times as much memory they may take, with one that each worker looks at: a list of bytes that grows has up to twice
the room, and the C library keeps pages that others had, some more from run to run (1.6 to 2.13 times, of 20 runs)."""
MOST_BY_UNIT = 1.25
"""The same with what the unit tells the C library: it gives pages of long lists back."""
ENDLESS = 64
"""Clients that each send all of the longest body but its last byte: four times as much as the server holds."""
ANNOUNCING, LITTLE = 1000, 1 << 20
"""Heads that each announce the longest body, and a server's kilobytes of address space: a quarter of what they announce."""
EVENTS = 1000
"""How many events a batch has."""
LISTED = 100_000
"""How many events of one vehicle are listed."""
MOST_OF_LIST = 2.2
"""How many times as much memory as its text the list may take, until the last byte of it is sent."""
LEAST_STACK = 2**20
"""How many bytes of stack the first thread has at least once the server listens."""
FEW, ROUNDS, MOST_SLOWER = 100, 20, 1.4
"""Requests that go on side by side, how often each does, and how many times longer that may take behind as many as may wait."""
BUSY = 60
"""How many seconds the server may take to take in what was sent."""
OPEN_FILES = 16384
MOST_OFF = 1 << 20
"""How many bytes a process may have more or less when its figures are told than a moment later."""


def waits_at(port):
    """How many bytes were sent to connections of this port that the server hasn't read, by the system's list."""
    count = 0
    for line in Path("/proc/net/tcp").read_text().splitlines()[1:]:
        fields = line.split()
        if int(fields[1].partition(":")[2], 16) == port:
            count += int(fields[4].partition(":")[2], 16)
    return count


def taken_in(server, sockets=0):
    """Waits until the server has so many sockets at least, and has read all that was sent."""
    end = time.monotonic() + BUSY
    while server.sockets() < sockets or waits_at(server.port):
        if time.monotonic() > end:
            raise Unwell(f"{waits_at(server.port)} bytes weren't read, at {server.sockets()} sockets")
        time.sleep(0.1)


@contextlib.contextmanager
def connections(port, count, front):
    """So many connections, each of which has sent this front of a request."""
    opened = []
    try:
        for _ in range(count):
            opened.append(connect(port))
            with contextlib.suppress(ConnectionError):  # it may be let go at once
                opened[-1].sendall(front)
        yield opened
    finally:
        for connection in opened:
            connection.close()


def closed(opened):
    """How many of these connections the server has closed, which sent nothing on them."""
    poll = select.poll()
    for connection in opened:
        poll.register(connection, select.POLLIN)
    return len(poll.poll(0))


def closed_in_time(opened):
    """How many of them the server has closed, once it has closed any, or had time for it."""
    end = time.monotonic() + BUSY
    while not closed(opened) and time.monotonic() < end:
        time.sleep(0.1)
    return closed(opened)


def one_more(server, opened):
    """What is wrong where one more connection comes than may wait: the eldest is closed, and the newest is answered."""
    with connections(server.port, 1, FRONT) as newest:
        taken_in(server)
        if closed_in_time([*opened, *newest]) != 1 or not closed(opened[:ELDEST]):
            yield f"for one more {closed(opened)} were closed, {closed(opened[:ELDEST])} of the first, {closed(newest)} of the newest"
            return
        newest[0].sendall(REST)
        yield from differing(read_all(newest[0]), EMPTY)


def memory_of_waiting(program):
    """As many connections as may wait, each with some bytes of its request, and one more."""
    many_open_files(OPEN_FILES)
    with Server(program, EACH, workers=WORKERS) as server, Looks(server, look(A, "removed", 0, None)) as looks:
        sockets = server.sockets()
        yield from talk_over(server, registered(A))
        yield from looks.once()
        before = server.memory()
        with connections(server.port, WAITING, FRONT) as opened:
            taken_in(server, sockets + WAITING)
            beside = server.memory() - before - WAITING * len(FRONT)
            print(f"{WAITING} connections that wait: {beside / 2**20:.1f} MiB beside their bytes", flush=True)
            if beside > MOST_BESIDE:
                yield f"{beside} bytes beside those of {WAITING} connections, in place of {MOST_BESIDE}"
            if closed(opened):
                yield f"{closed(opened)} connections that wait were closed"
            yield from one_more(server, opened)
            yield from looks.once()
        yield from looks.judged(f"{WAITING} connections that wait")
        yield from server.drain()


def slower_behind_many(program):
    """A burst of as many connections as may wait makes the server no slower for those who wait behind it, by the median of some servers."""
    many_open_files(OPEN_FILES)
    slower = [times_as_long_behind_many(program) for _ in range(TRIES)]
    if statistics.median(slower) > MOST_SLOWER:
        yield f"behind {WAITING} connections that waited, bytes of requests took {', '.join(f'{it:.2f}' for it in slower)} times as long"


def times_as_long_behind_many(program):
    """How many times as long a server has a processor for bytes of requests behind a burst of connections."""
    with Server(program, None) as server:
        sockets, first = server.sockets(), seconds_of_bytes(server)
        with connections(server.port, WAITING, FRONT):
            taken_in(server, sockets + WAITING)
        gone_from(server, sockets)
        return seconds_of_bytes(server) / first


def seconds_of_bytes(server):
    """How long the server has a processor while some requests go on by a byte each, again and again."""
    with connections(server.port, FEW, FRONT) as opened:
        taken_in(server)
        before = server.processor_time()
        for _ in range(ROUNDS):
            for connection in opened:
                connection.sendall(b" ")
            while waits_at(server.port):
                time.sleep(0.001)
        return server.processor_time() - before


def gone_from(server, sockets):
    """Waits until the server has no more than so many sockets, or had time for it."""
    end = time.monotonic() + BUSY
    while server.sockets() > sockets and time.monotonic() < end:
        time.sleep(0.1)


def read_beside(waiting):
    """What is answered to a client whose request waited for its rest, or nothing where it was let go."""
    with contextlib.suppress(ConnectionError):
        waiting.sendall(REST)
        return read_all(waiting)
    return b""


def one_and_another(server):
    """What is answered to a client that waits for a while, and to one that comes meanwhile."""
    with connect(server.port) as waiting:
        waiting.sendall(FRONT)
        taken_in(server)
        other = answer_at(server, LONGER)
        return read_beside(waiting), other


def waiting_beside_a_refused_growth(program):
    """One connection waits while another comes, and each growth of memory is refused in turn: that is one of theirs, and the client
    of the other one has its answer."""
    for number in range(growth_of_a_connection(program), MOST_GROWTHS):
        with Refusal(number) as refusal, Server(program, 2, env=refusal.env) as server:
            found = one_and_another(server)
            if not refusal.came():
                return
            if EMPTY not in found or not {*found} <= {EMPTY, FIXED, b""}:
                yield f"growth {number}: {found[0]!r} to who waited, and {found[1]!r} to who came"
    yield f"{MOST_GROWTHS} growths, and no end"


def waiting_beside_others_without_room(program):
    """One connection waits while others come for which there is no memory for room: they are closed, and it is answered. It is tried
    again where no two workers took room at once, as on a busy machine."""
    for _ in range(TRIES):
        with Refusal(2, many=MOST_GROWTHS, of=ROOM_BYTES) as refusal:
            found = list(beside_others_without_room(program, refusal.env))
            came = refusal.came()
        if found or came:
            break
    yield from found if found or came else ["no two workers took room at once"]


def beside_others_without_room(program, env):
    """What is wrong with what comes of a connection that waits, in this environment."""
    with Server(program, CROWD // 4, workers=CROWD, env=env) as server, connect(server.port) as waiting:
        waiting.sendall(FRONT)
        taken_in(server)
        sockets = server.sockets()
        with connections(server.port, CROWD, b"") as others:
            closed_in_time(others)
            if closed([waiting]):
                yield "one that waited was closed for want of room for others"
        gone_from(server, sockets)
        yield from differing(read_beside(waiting), EMPTY)
        yield from server.drain()


def let_go_amiss(port, waiting, count):
    """What is wrong with how many clients figures say to be let go for room, several of them, where so many wait, by the figure of this
    name, or were let go."""
    end = time.monotonic() + BUSY
    while True:
        found = figures_at(port)
        told = found[waiting] + all_of(found, DROPPED)
        if told == count or time.monotonic() > end:
            break
        time.sleep(0.1)
    if told != count or found[DROPPED_FOR_ROOM] < 2:
        yield f"of {count} clients {found[waiting]} are told to wait, and {found[DROPPED_FOR_ROOM]} to be let go for room"


def settings_of_unit():
    """What the unit sets for the C library."""
    line = re.search(r"^Environment=(.*)$", (ROOT / "deploy/mds_city@.service").read_text(), re.MULTILINE)
    return dict(word.split("=") for word in line.group(1).split())


def bodies_that_never_end(program):
    """Bodies that lack a byte each, four times as many as the server holds: it lets go of those that came first, and answers
    one that came last once its last byte is there."""
    yield from endless_bodies(program, None, MOST_OF_BODIES)
    yield from endless_bodies(program, {**os.environ, **settings_of_unit()}, MOST_BY_UNIT)


def endless_bodies(program, env, times):
    """The same in this environment, where they may take so many times as much memory as they have bytes."""
    many_open_files(OPEN_FILES)
    body, port = padded("[]", MAX_BYTES), numbered_port()
    allowed = times * (MOST_HELD + WORKERS * MAX_BYTES)
    with (
        Server(program, EACH, workers=WORKERS, env=env, metrics=port) as server,
        Looks(server, look(A, "removed", 0, None)) as looks,
    ):
        yield from talk_over(server, registered(A))
        yield from looks.once()
        before = server.memory()
        with connections(server.port, ENDLESS, post("/events", body)[:-1]) as opened:
            taken_in(server)
            most = server.most_memory() - before
            how = "as the unit has it" if env else "with the C library's own settings"
            print(f"{ENDLESS} bodies that don't end, {how}: {most / 2**20:.1f} MiB at most", flush=True)
            if most > allowed:
                yield f"{most} bytes at most, in place of {allowed:.0f}"
            kept = MOST_HELD // len(body) - 1
            if closed(opened[:-kept]) < ENDLESS - kept - 1 - WORKERS or closed(opened[-kept + WORKERS :]):
                yield f"{closed(opened)} were closed, {closed(opened[-kept:])} of the last {kept}"
            yield from let_go_amiss(port, WAITING_TO_COME, ENDLESS)
            yield from looks.once()
            opened[-1].sendall(b" ")
            yield from differing(read_all(opened[-1]), EMPTY)
        yield from looks.judged(f"{ENDLESS} bodies that don't end")
        yield from server.drain()


def heads_that_announce_much(program):
    """Heads that announce the longest body, of which nothing comes: no memory is kept for that, so that a server in little address
    space has room for all of them, and for others."""
    many_open_files(OPEN_FILES)
    body = padded("[]", MAX_BYTES)
    request = post("/events", body)
    with Server(program, EACH, workers=WORKERS, address_space=LITTLE) as server:
        sockets = server.sockets()
        yield from talk_over(server, registered(A))
        with connections(server.port, ANNOUNCING, request[: -len(body)]) as opened:
            taken_in(server, sockets + ANNOUNCING)
            yield from talk_over(server, look(A, "removed", 0, None))
            if closed(opened):
                yield f"{closed(opened)} of {ANNOUNCING} were closed"
            opened[-1].sendall(request[-len(body) :])
            yield from differing(read_all(opened[-1]), EMPTY)
        yield from server.drain()


def answers_that_nobody_reads(program):
    """Lists, three times as much as the server holds of answers, whose clients read nothing: it lets go of the one that came first,
    and the one that came last has its list whole."""
    port = numbered_port()
    with Server(program, EACH, workers=WORKERS, metrics=port) as server, contextlib.ExitStack() as opened:
        yield from vehicle_of_long_list(server, A)
        whole = server.ask(LIST)
        readers = []
        for _ in range(3 * MOST_HELD // len(whole)):
            readers.append(opened.enter_context(connect(server.port, room=SMALL_ROOM)))
            readers[-1].sendall(LIST)
            readers[-1].recv(1, MSG_PEEK)  # the answers leave in this order
        yield from let_go_amiss(port, LEAVING, len(readers))
        yield from differing(read_all(readers[-1]), whole)
        if read_all(readers[0], gone=True) == whole:
            yield f"the first of {len(readers)} lists of {len(whole)} bytes was held"
        opened.close()
        yield from server.drain()


def long_list(program):
    """All events of one vehicle, for a client that reads nothing before the whole answer is laid out."""
    with Server(program, LISTED // MAX_ITEMS + 4) as server:
        yield from talk_over(server, registered(A))
        for front in range(0, LISTED, MAX_ITEMS):
            events = batch(history(A, front, front + MAX_ITEMS))
            yield from talk_over(server, Exchange(post("/events", events), done(MAX_ITEMS)))
        server.count()
        server.forget_most_memory()
        before = server.memory()
        with connect(server.port, room=SMALL_ROOM) as reading:
            reading.sendall(LIST)
            reading.settimeout(BUSY)
            reading.recv(1, MSG_PEEK)
            length = sum(map(len, iter(lambda: reading.recv(1 << 20), b"")))
        times = (server.most_memory() - before) / length
        print(f"a list of {LISTED} events: {times:.2f} times its {length / 2**20:.1f} MiB", flush=True)
        if times > MOST_OF_LIST or length < 200 * LISTED:
            yield f"a list takes {times:.2f} times its {length} bytes, in place of {MOST_OF_LIST}"
        yield from server.end()


def what_the_process_has_now(program):
    """Figures tell what the process has, and not what it had at most: an alarm would never be over by that."""
    port = numbered_port()
    env = {**os.environ, **settings_of_unit()}
    with Server(program, None, env=env, metrics=port) as server:
        yield from vehicle_of_long_list(server, A)
        server.ask(LIST)
        figures_at(port)  # for which memory is taken, too
        found = figures_at(port)
        for name, now, most in (("resident", "VmRSS", "VmHWM"), ("virtual", "VmSize", "VmPeak")):
            told, has, had = found[f"process_{name}_memory_bytes"], server.bytes_of(now), server.bytes_of(most)
            if had - has < 2 * MOST_OFF:
                yield f"it had {had} {name} bytes at most, and still has {has}"
            if abs(told - has) > MOST_OFF:
                yield f"{told} {name} bytes are told of a process that has {has}, and had {had} at most"
        threads = len(os.listdir(f"/proc/{server.child.pid}/task"))
        yield from figures_amiss(found, {"process_threads": threads}, "of the process")


def stack_of_the_first_thread(program):
    """The first thread, which works too, has a stack that grows, and can't where memory ends: so it has what a worker needs once
    the server listens."""
    with Server(program, 4) as server:
        before = server.bytes_of("VmStk")
        if before < LEAST_STACK:
            yield f"the first thread has {before} bytes of stack, in place of {LEAST_STACK}"
        yield from talk_over(server, registered(A))
        yield from talk_over(server, Exchange(post("/events", batch(history(A, 0, EVENTS))), done(EVENTS)))
        yield from talk_over(server, Exchange(get("/nowhere"), error(404, "not_found")))
        grown = server.bytes_of("VmStk") - before
        if grown:
            yield f"the stack of the first thread grew by {grown} bytes"
        yield from server.end()


MEMORY = [
    memory_of_waiting,
    slower_behind_many,
    waiting_beside_a_refused_growth,
    waiting_beside_others_without_room,
    bodies_that_never_end,
    heads_that_announce_much,
    answers_that_nobody_reads,
    long_list,
    what_the_process_has_now,
    stack_of_the_first_thread,
]
