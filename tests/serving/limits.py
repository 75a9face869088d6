"""How long one client is waited for, and lacks of open files and of memory for a connection.

These tests wait more than they work. So tests/clients runs them beside the others, each in a thread of its own."""

import contextlib
import functools
import os
import signal
import socket
import threading
import time
from pathlib import Path

from cases.replays import A, B, P
from harness.building import Refusal, built
from harness.case import SOCKET
from harness.counting import Unwell
from harness.stalls import stalled
from harness.texts import differing
from model.http import error
from model.json_text import compact
from serving.connections import (
    BODY,
    EVENT,
    MOST_WORKERS,
    REGISTER,
    SMALL_ROOM,
    TRIES,
    left_open,
    long_list,
    sent_behind,
    silent,
)
from serving.growths import FIXED, out_of_memory
from serving.http import Exchange, done, look, registered, vehicle
from serving.server import NotListening, Server, numbered_port, success_of
from serving.talking import talk_over
from serving.wire import ask, connect, get, post, read_all

NOWHERE = get("/")
HEAD = (8, 20)
"""Between how many seconds a client is let go whose head doesn't come: 10."""
CALL = (25, 45)
"""The same for one of whose body nothing more comes, or which reads nothing of a long answer: 30."""
WHOLE = (55, 80)
"""The same for one that goes on sending its request: 60."""
WRITING = (25, 80)
"""The same for one that reads a long answer slowly: 30 in which the system takes nothing of it, and 60 in all."""
LAST_READ = (1, 8)
"""The same for a client that sends nothing behind its answer: 2."""
SEVERAL_SILENT, APART, IN_ALL = 8, 0.25, 1.99
"""Clients that are silent behind their answers, how many seconds each comes behind the one before it, and for how many each is kept at
least, by a clock of milliseconds."""
AT_ITS_END = (-1, 1)
"""The same for one whose request was granted, so that nothing more is expected of it: it isn't waited for."""
LAST_READS = (8, 20)
"""The same for one that goes on sending: 10."""
LONGER = 11
"""How many seconds an answer takes to be taken: more than a client may send behind it."""
SEVERAL, STILL = 4, 7.2
"""Clients that send behind their answers, more than a worker is told of at once; and for how many seconds the process stands still: for
5 more than such a client may be silent, and less than it may send in all."""
FLOODED = (-1, 12)
"""The same for one that sends all that it can: the limit of bytes comes first, or that of time."""
MOST_BESIDE = 5
"""How many seconds another client may wait for its answer meanwhile, on a machine that is busy with other tests."""
IDLE = 33
"""How long no client comes, in seconds."""
MOST_IDLE = 1
"""How many of them the server may have a processor, with its start."""
BETWEEN, LACKING = 4, 16
"""How many seconds lie between the pieces of a head, and for how many its body then lacks a byte: longer than a head may take."""
MOST_AT_REST = 0.1
"""How many seconds a server may have a processor while it has only to wait, for 4 seconds or longer: next to none. One that asks
again and again has twice as many, on the busiest machine that was tried."""
FEW = 100
"""Clients whose heads aren't whole, beside one."""
AMID = 0.5
"""How long a client takes no more of a long answer, in seconds."""
OPEN_FILES = 7
"""Standard input, output and error, the listening socket by two descriptors, what the system is asked by about sockets, and one
connection."""
LACK = 15
"""A lack of open files, in seconds, that passes: longer than two workers take for the 16 waits of a second that they make anyhow."""
WAITS, LONGEST, TOO_LONG = 100_000, 29, 31
"""How many waits of a second come before a client does, more than a day of them, and than 16 bits count; and lacks of the two
kinds, on a clock that is moved on."""
HOUR = 3600
"""By how many seconds the time of day is set on each time that it is asked for: longer than anybody is waited for."""
MOST_GROWTHS = 2000
"""More growths of memory than a server makes before its first connection."""
OTHERS = 3
"""Requests that come where no memory is left."""
AT_ONCE = 1 << 16
A_LITTLE, NOW_AND_THEN = 25_000, 0.5
"""How many bytes of a long answer a client takes at a time, and how many seconds it does nothing then: so the system takes some of
the answer in time, and not all of it until a lack is told."""
UNTIL_TOLD = 50
"""How many seconds a lack may last beside it until it is told: more than the server waits, and less than an answer may take."""
TAKEN = 5
"""How many seconds the server may take to take a connection, on a machine that is busy with other tests."""
SLOW = MOST_WORKERS + 16
"""Clients that send a byte a second: more than there are workers."""


class LetGo(threading.Thread):
    """Waits until the server has no more sockets than before, and keeps after how many seconds that was. Unless the connection
    was taken already, it waits for that first. Where it was, `since` says from when on the server may have waited for its client:
    on a busy machine that is long before this begins."""

    def __init__(self, server, before, most, since=None):
        super().__init__(daemon=True)
        self.server, self.before, self.most, self.seconds = server, before, most, None
        self.is_taken, self.begun = since is not None, time.monotonic()
        self.since = self.begun if since is None else since
        self.start()

    def run(self):
        while not self.is_taken and time.monotonic() - self.begun < TAKEN:
            time.sleep(0.05)
            self.is_taken = self.server.sockets() > self.before
        while (seconds := time.monotonic() - self.begun) < self.most + stalled(self.begun):
            if self.server.sockets() <= self.before:
                self.seconds = seconds
                return
            time.sleep(0.2)

    def within(self, least):
        """What is wrong with when that was: after so many seconds at least, and in time."""
        self.join()
        if self.seconds is None:
            yield f"a late client wasn't let go after {self.most} s"
            return
        waited = self.begun - self.since + self.seconds
        if waited < least:
            yield f"a client was let go after {waited:.1f} s, in place of {least} at least"


def resting(server, seconds, meanwhile):
    """What is wrong with how long a server has a processor in the next seconds, in which it has only to wait."""
    before = server.processor_seconds()
    time.sleep(seconds)
    worked = server.processor_seconds() - before
    if worked > MOST_AT_REST:
        yield f"{worked:.2f} s of a processor while {meanwhile}, in place of {MOST_AT_REST} at most"


def beside(server):
    """What is wrong with another client's answer, which no slow client holds up."""
    start = time.monotonic()
    yield from talk_over(server, Exchange(NOWHERE, error(404, "not_found")))
    seconds = time.monotonic() - start
    if seconds > MOST_BESIDE + stalled(start):
        yield f"another client was answered after {seconds:.1f} s"


def let_go_before_its_answer(program, part, least, most, port=0):
    """A client that keeps the server waiting for the rest of its request is let go, without an answer, and no worker counts it.
    The only worker answers another one beside it."""
    with Server(program, 2, port=port) as server:
        before = server.sockets()
        with connect(server.port) as keeping:
            keeping.sendall(part)
            waiting = LetGo(server, before, most)
            yield from beside(server)
            yield from waiting.within(least)
            if not is_over(keeping):
                yield "something was answered to a request that wasn't whole"
        yield from server.end()


def is_over(connection):
    """Whether nothing more comes on a connection; it is closed."""
    with connection:
        try:
            return read_all(connection) == b""
        except ConnectionResetError:
            return True


def let_go_in_its_head(program):
    """A client that stops in its head."""
    return let_go_before_its_answer(program, EVENT[:20], *HEAD)


def let_go_at_a_port_of_a_number(program):
    """The same at a port that was asked for by its number."""
    return let_go_before_its_answer(program, EVENT[:20], *HEAD, port=numbered_port())


def let_go_in_its_body(program):
    """A client that stops before the last byte of its body."""
    return let_go_before_its_answer(program, EVENT[:-1], *CALL)


def trickle(clients, over):
    """Sends for each client, a connection and a piece, its piece each second, until it is over. One whose connection is closed
    is left out."""
    left = list(clients)
    while left and not over.wait(1):
        left = [(connection, piece) for connection, piece in left if is_sent(connection, piece)]


def is_sent(connection, piece):
    try:
        connection.sendall(piece)
        return True
    except OSError:
        return False


def let_go_though_they_trickle(program, requests, least, most):
    """Clients that each send the front of a request, and then a piece each second, are let go without an answer. The only worker
    answers another one beside them."""
    with Server(program, 2) as server:
        before = server.sockets()
        slow = [(connect(server.port), piece) for _, piece in requests]
        for (connection, _), (front, _) in zip(slow, requests):
            connection.sendall(front)
        over = threading.Event()
        sender = threading.Thread(target=trickle, args=(slow, over))
        waiting = LetGo(server, before, most)
        sender.start()
        try:
            yield from beside(server)
            yield from waiting.within(least)
        finally:
            over.set()
            sender.join()
        if not all([is_over(connection) for connection, _ in slow]):
            yield "something was answered to a request that wasn't whole"
        yield from server.end()


def trickling_in_their_heads(program):
    """Many clients, which each send a little a second: of a method, of empty lines before a request, of fields."""
    line = b"GET / HTTP/1.1\r\n"
    kinds = [(b"", b"x"), (b"", b"\n"), (b"", b"\r\n"), (line, b"x"), (line, b"x:\n"), (line, b"x:\r\n")]
    requests = [kinds[at % len(kinds)] for at in range(SLOW)]
    return let_go_though_they_trickle(program, requests, *HEAD)


def trickling_in_its_body(program):
    """A client whose head came whole, and which sends a byte of its body a second."""
    head = EVENT[: EVENT.index(b"\r\n\r\n") + 4]
    return let_go_though_they_trickle(program, [(head, b" ")], *WHOLE)


def with_a_long_answer(program, reading, least, most):
    """A client that is slow to read an answer longer than the system takes in is let go, and the server does next to nothing
    meanwhile. `reading` reads on its connection until it is over."""
    with Server(program, 5) as server:
        before, over = server.sockets(), threading.Event()
        yield from long_list(server, A)
        yield from left_open(server, before)
        server.count()
        worked = server.processor_seconds()
        with connect(server.port, room=SMALL_ROOM) as keeping:
            reader = threading.Thread(target=reading, args=(keeping, over))
            keeping.sendall(get(f"/vehicles/{P}/{A}/events"))
            reader.start()
            waiting = LetGo(server, before, most)
            try:
                yield from beside(server)
                yield from waiting.within(least)
            finally:
                over.set()
                reader.join()
        seconds = server.processor_seconds() - worked
        if seconds > MOST_IDLE:
            yield f"{seconds} s of a processor while one answer left, in place of {MOST_IDLE} at most"
        yield from server.end()


def let_go_without_reading(program):
    """A client that reads nothing of a long answer."""
    return with_a_long_answer(program, lambda connection, over: None, *CALL)


def let_go_behind_its_end(program):
    """A client that ends its side behind its request, and reads nothing of a long answer. Its end is there to be read all the
    time, and the server waits for room alone."""
    return with_a_long_answer(program, lambda connection, over: connection.shutdown(socket.SHUT_WR), *CALL)


def let_go_though_it_reads(program):
    """A client that takes its answer a byte at a time: so slowly that the system may take none from the server for 30 seconds."""
    return with_a_long_answer(program, byte_by_byte, *WRITING)


def byte_by_byte(connection, over):
    """Reads a byte a hundred times a second, until it is over or there is none."""
    try:
        while not over.wait(0.01) and connection.recv(1):
            pass
    except OSError:
        pass


def answered(server):
    """A connection on which a whole answer was read, and which the client doesn't end."""
    server.count()
    connection = connect(server.port)
    connection.sendall(NOWHERE)
    if read_all(connection) != error(404, "not_found"):
        raise Unwell("the client that goes on had no answer")
    return connection


def going_on(connection, piece, pause, over):
    """Sends the piece again and again, with a pause behind each, until it is over or the server is gone."""
    try:
        while not over.wait(pause):
            connection.sendall(piece)
    except OSError:
        pass


def let_go_behind_its_answer(program, least, most, piece=None, pause=0.0):
    """A client that doesn't end behind its answer, and goes on sending this piece, if one is given, is let go."""
    with Server(program, 2) as server:
        before, over, since = server.sockets(), threading.Event(), time.monotonic()
        with answered(server) as connection:
            sender = threading.Thread(target=going_on, args=(connection, piece, pause, over))
            waiting = LetGo(server, before, most, since)
            if piece:
                sender.start()
            try:
                yield from beside(server)
                yield from waiting.within(least)
            finally:
                over.set()
                connection.close()
                if piece:
                    sender.join()
        yield from server.end()


def let_go_when_silent(server, before, request, reading, least, most):
    """What is wrong with when a client is let go that reads its answer by `reading`, and then neither sends nor ends."""
    server.count()
    since = time.monotonic()
    with connect(server.port, room=SMALL_ROOM) as kept:
        kept.sendall(request)
        yield from reading(kept)
        yield from LetGo(server, before, most, since).within(least)


def silent_behind_its_grant(server, before, request, reading):
    """What is wrong with when clients are let go that are silent behind the answer to a granted request: at its end, and a while
    later one that sent a byte more than its request, as it may send on and would lose its answer by a reset. The first is tried
    again, since a busy machine may be late with it."""
    for _ in range(TRIES):
        found = list(let_go_when_silent(server, before, request, reading, *AT_ITS_END))
        if not found:
            break
    yield from found
    yield from let_go_when_silent(server, before, request + b"x", reading, *LAST_READ)


def silent_behind_a_granted_request(program):
    """A client that is silent behind the answer to a granted request."""
    with Server(program, TRIES + 2) as server:
        before, asked = server.sockets(), look(A, "removed", 0, None)
        yield from talk_over(server, registered(A))

        def whole(connection):
            return differing(read_all(connection), asked.answer)

        yield from silent_behind_its_grant(server, before, asked.request, whole)
        yield from server.end()


def silent_behind_a_long_answer(program):
    """The same where the answer had to wait for its client."""
    with Server(program, TRIES + 4) as server:
        before = server.sockets()
        yield from long_list(server, A)
        yield from silent_behind_its_grant(server, before, get(f"/vehicles/{P}/{A}/events"), late_to_read)
        yield from server.end()


def late_to_read(connection):
    """Reads a long answer, of which it takes no more for a while once it came."""
    connection.recv(1)
    time.sleep(AMID)
    while connection.recv(AT_ONCE):
        pass
    return ()


def sending_behind_a_granted_request(program):
    """A client that sent more behind a granted request has its answer whole, and no reset."""
    with Server(program, 2) as server:
        yield from talk_over(server, registered(A))
        asked = look(A, "removed", 0, None)
        server.count()
        with connect(server.port) as connection:
            connection.sendall(asked.request + b"x" * AT_ONCE)
            yield from differing(read_all(connection), asked.answer)
        yield from server.end()


def idle_for_long(program):
    """A server to which no client comes for a while goes on, and does next to nothing meanwhile."""
    with Server(program, 1) as server:
        time.sleep(IDLE)
        seconds = server.processor_seconds()
        if seconds > MOST_IDLE:
            yield f"{seconds} s of a processor while nobody came, in place of {MOST_IDLE} at most"
        yield from talk_over(server, Exchange(NOWHERE, error(404, "not_found")))
        yield from server.end()


def idle_while_one_is_waited_for(program):
    """A server does next to nothing while a client lacks the end of its head, and then a byte of its body, though its head's time,
    which began to run, is over, and so is that of a client that went behind its answer. Others that send nothing more change
    nothing. The request is answered once it is whole."""
    with Server(program, 3) as server, contextlib.ExitStack() as others:
        yield from talk_over(server, registered(A))
        server.count(success=1)
        yield from talk_over(server, Exchange(NOWHERE, error(404, "not_found")))
        time.sleep(LAST_READ[0] + BETWEEN)
        for _ in range(FEW):
            others.enter_context(connect(server.port)).sendall(EVENT[:20])
        with connect(server.port) as slow:
            slow.sendall(EVENT[:20])
            yield from resting(server, BETWEEN, "a head was waited for")
            slow.sendall(EVENT[20:-1])
            yield from resting(server, LACKING, "a body was waited for")
            slow.sendall(EVENT[-1:])
            yield from differing(read_all(slow), done(1))
        yield from server.end()


def waited_for_though_the_day_goes_on(program):
    """A client is waited for as long as ever where the time of day is set on meanwhile, as by whoever keeps the clock right."""
    with Server(program, 2, env=moved_on(step=HOUR)) as server:
        yield from talk_over(server, registered(A))
        server.count(success=1)
        with connect(server.port) as slow:
            for piece in (EVENT[:20], EVENT[20:-1]):
                slow.sendall(piece)
                if not silent(slow, BETWEEN):
                    yield "something was answered to a request that wasn't whole, or its client was let go"
            slow.sendall(EVENT[-1:])
            yield from differing(read_all(slow), done(1))
        yield from server.end()


def silent_behind_its_answer(program):
    """A client that neither sends nor ends behind its answer."""
    return let_go_behind_its_answer(program, *LAST_READ)


def silent_for_all_their_time(program):
    """Clients that are silent behind their answers are kept for all the time that they have, however often the server looks at its
    clock, since others come: at no time more of them are let go than had it."""
    with Server(program, None) as server, contextlib.ExitStack() as kept:
        before, since = server.sockets(), []
        end = time.monotonic() + SEVERAL_SILENT * APART + LAST_READ[1]
        while (now := time.monotonic()) < end and (len(since) < SEVERAL_SILENT or server.sockets() > before):
            if len(since) < SEVERAL_SILENT and now >= max(since, default=0) + APART:
                since.append(now)
                kept.enter_context(answered(server))
            yield from talk_over(server, Exchange(NOWHERE, error(404, "not_found")))
            left = len(since) + before - server.sockets()
            over = sum(time.monotonic() - begun >= IN_ALL for begun in since)
            if left > over:
                yield f"{left} clients were let go, of which {over} had had {IN_ALL} s"
                return


def trickling_behind_its_answer(program):
    """A client that goes on sending bytes behind its answer, one each time."""
    return let_go_behind_its_answer(program, *LAST_READS, piece=b"x", pause=0.3)


def reset_amiss(connections):
    """What is wrong where clients send two bytes each, with a pause behind either, and meet a reset."""
    for _ in range(2):
        for connection in connections:
            try:
                connection.sendall(b"x")
            except ConnectionError as fault:
                yield f"{type(fault).__name__}: {fault}"
        time.sleep(AMID)
    for connection in connections:
        if fault := connection.getsockopt(socket.SOL_SOCKET, socket.SO_ERROR):
            yield os.strerror(fault)


def sending_behind_an_answer_that_took_long(program):
    """The time behind an answer begins at its end: a client that took it for longer than that, and sends more then, meets no reset. It
    is tried again where it took so long to send that it may be late."""
    with Server(program, None) as server:
        yield from long_list(server, A)
        for _ in range(TRIES):
            found, seconds = took_long(server)
            if not found or seconds < LAST_READ[0] + 2 * AMID:
                break
        yield from found


def took_long(server):
    """What is wrong with a client that takes its answer for long, and sends more then; and for how many seconds it sends."""
    with connect(server.port, room=SMALL_ROOM) as slow:
        slow.sendall(get(f"/vehicles/{P}/{A}/events") + b"x")
        slow.recv(1)
        time.sleep(LONGER)
        while slow.recv(AT_ONCE):
            pass
        ended = time.monotonic()
        return list(reset_amiss([slow])), time.monotonic() - ended


def sending_while_it_stood_still(program):
    """What clients sent behind their answers while the process stood still came in time: they are waited for as others are, and meet
    no reset. It is tried again where all of it took longer than they may send."""
    with Server(program, None) as server:
        for _ in range(TRIES):
            found, seconds = stood_still(server)
            if not found or seconds < LAST_READS[0] + 2 * AMID:
                break
        yield from found


def stood_still(server):
    """What is wrong with clients that send behind their answers while the process stands still, and then; and for how many seconds they
    do."""
    with contextlib.ExitStack() as kept:
        begun = time.monotonic()
        clients = [kept.enter_context(answered(server)) for _ in range(SEVERAL)]
        server.child.send_signal(signal.SIGSTOP)
        for client in clients:
            client.sendall(b"x")
        time.sleep(STILL)
        server.child.send_signal(signal.SIGCONT)
        time.sleep(AMID)
        return list(reset_amiss(clients)), time.monotonic() - begun


def flooding_behind_its_answer(program):
    """A client that sends all that it can behind its answer, without end."""
    return let_go_behind_its_answer(program, *FLOODED, piece=b"x" * AT_ONCE)


def short_of_open_files(program):
    """Where there is no file to open for a connection, the eldest one is let go whose request isn't whole. While none comes,
    nobody is let go, and the server does next to nothing."""
    with Server(program, 2, workers=2, open_files=OPEN_FILES) as server:
        yield from talk_over(server, registered(A))
        with connect(server.port) as held:
            held.sendall(EVENT[:-1])
            yield from resting(server, LACK, "no file could be opened for one more connection")
            if not silent(held, 0):
                yield "a client was let go though no other came"
            yield from talk_over(server, look(A, "removed", 0, None))
            if not is_over(held):
                yield "something was answered to a request that wasn't whole"
        yield from talk_over(server, Exchange(get(f"/vehicles/{P}/{B}"), error(404, "unregistered")))
        yield from server.end()


def short_of_open_files_for_a_while(program):
    """Where none has a request that isn't whole, the next connection waits: for a client, say, that takes its answer."""
    with Server(program, 4, workers=2, open_files=OPEN_FILES) as server:
        yield from long_list(server, A)
        server.count(2)
        with connect(server.port, room=SMALL_ROOM) as held:
            held.sendall(get(f"/vehicles/{P}/{A}/events"))
            held.recv(1)
            with connect(server.port) as waiting:
                waiting.sendall(get(f"/vehicles/{P}/{B}"))
                if not silent(waiting, LACK):
                    yield "an answer where no file could be opened for its connection"
                while held.recv(AT_ONCE):
                    pass
                held.close()
                yield from differing(read_all(waiting), error(404, "unregistered"))
        yield from server.end()


def moved_on(waits=0, lack=0, step=0, seconds=1):
    """The environment of a server for which clients and open files are lacking for so long, on a clock that is moved on, by so many
    seconds a wait; and of which the time of day is set on by so many seconds each time that it is asked for."""
    shim = built("no-client.so", "tests/no-client.c", "-shared", "-fPIC", "-O1", "-ldl")
    how = {"IDLE": str(waits), "WAIT": str(seconds), "LACK": str(lack), "STEP": str(step)}
    return {**os.environ, **how, "LD_PRELOAD": str(shim)}


def idle_for_a_day(program):
    """A server to which no client comes for a day goes on, and has all its time for a lack of open files behind it."""
    with Server(program, 2, env=moved_on(WAITS, LONGEST)) as server:
        yield from talk_over(server, registered(A))
        yield from talk_over(server, look(A, "removed", 0, None))
        yield from server.end()


def lacking_open_files_for_too_long(program):
    """A lack of open files for a client that is a little longer than the server waits ends its only worker, and so the server."""
    with Server(program, 2, env=moved_on(0, TOO_LONG)) as server, contextlib.ExitStack() as client:
        with contextlib.suppress(ConnectionError):  # where it has ended
            client.enter_context(connect(server.port))
        ended, wanted = server.ended(), (3, "", SOCKET)
        if ended != wanted:
            yield f"ended with {ended}, in place of {wanted}"


def lacking_open_files_beside_an_answer(program):
    """Such a lack while a long answer leaves, of which its client goes on taking a little: it goes out whole before the server ends."""
    asked = get(f"/vehicles/{P}/{A}/events")
    with Server(program, 6, open_files=OPEN_FILES) as server:
        yield from long_list(server, A)
        whole = server.ask(asked)
        with connect(server.port, room=SMALL_ROOM) as slow:
            slow.sendall(asked)
            front = slow.recv(1)
            with connect(server.port):
                front += taken_until_told(server, slow)
                yield from differing(front + taken(slow, len(whole)), whole)
                ended, wanted = server.ended(), (3, "", SOCKET)
            if ended != wanted:
                yield f"ended with {ended}, in place of {wanted}"


def taken(connection, most):
    """The next bytes of an answer, so many at most, as far as they come."""
    found = b""
    with contextlib.suppress(ConnectionError):
        while piece := connection.recv(min(most - len(found), AT_ONCE)):
            found += piece
    return found


def taken_until_told(server, slow):
    """What a client takes of an answer, a little now and then, until the server tells a fault, or has had time to."""
    found, end = b"", time.monotonic() + UNTIL_TOLD
    while time.monotonic() < end and not Path(server.folder.name, "faults").read_bytes():
        found += taken(slow, A_LITTLE)
        time.sleep(NOW_AND_THEN)
    return found


@functools.cache
def growth_of_a_connection(program):
    """The number of the growth that a server's first connection makes first: where it is refused, that is closed, and the next one
    is answered."""
    for number in range(1, MOST_GROWTHS):
        with Refusal(number) as refusal:
            try:
                with Server(program, 1, env=refusal.env) as server:
                    if not answer_at(server) and answer_at(server):
                        return number
            except NotListening:
                pass
    raise Unwell("no server closed its first connection and answered the next")


def answer_at(server, request=NOWHERE):
    """What is answered to a client, which may be let go."""
    try:
        return ask(server.port, request)
    except ConnectionError:
        return b""


def growth_of_a_request(program, request, told):
    """The number of a growth that a server makes for its first request, this one: where it is refused this is told."""
    for number in range(growth_of_a_connection(program), MOST_GROWTHS):
        with Refusal(number) as refusal, Server(program, 1, env=refusal.env) as server:
            if answer_at(server, request) == told:
                return number
    raise Unwell(f"no server answered {told!r}")


def without_memory_for_a_connection(program):
    """A connection for which there is no memory is closed. It isn't counted, and the next one is answered."""
    with Refusal(growth_of_a_connection(program)) as refusal:
        with Server(program, 2, env=refusal.env) as server:
            if answer_at(server):
                yield "an answer where there was no memory for the connection"
            yield from talk_over(server, registered(A))
            yield from server.end()


def answered_where_no_memory_is_left(program):
    """From some growth on no memory is left: once a request was answered, others are told so, in the room that it left. None of them
    is closed."""
    wanted = [error(404, "not_found"), *OTHERS * [FIXED]]
    for number in range(growth_of_a_connection(program), MOST_GROWTHS):
        with Refusal(number, many=MOST_GROWTHS) as refusal, Server(program, len(wanted), env=refusal.env) as server:
            found = [answer_at(server) for _ in wanted]
            if found == wanted:
                return
            if not refusal.came():
                break
    yield f"no growth behind which all others are refused, and {OTHERS} requests told so"


def sending_behind_want_of_memory(program):
    """A client that is told that there was no memory for its request, or for an item of it, and sends more behind that, meets no
    reset. It is tried again, since the growth of this number may be another one where the machine is busy."""
    for request, told in ((NOWHERE, FIXED), (REGISTER, out_of_memory(0))):
        with Refusal(growth_of_a_request(program, request, told)) as refusal:
            for _ in range(TRIES):
                found, _ = sent_behind(program, [(request, told, BODY)], refusal.env)
                if not found:
                    break
            yield from found


LIMITS = [
    let_go_in_its_head,
    let_go_at_a_port_of_a_number,
    let_go_in_its_body,
    trickling_in_their_heads,
    trickling_in_its_body,
    let_go_without_reading,
    let_go_behind_its_end,
    let_go_though_it_reads,
    silent_behind_a_granted_request,
    silent_behind_a_long_answer,
    sending_behind_a_granted_request,
    idle_for_long,
    idle_while_one_is_waited_for,
    waited_for_though_the_day_goes_on,
    idle_for_a_day,
    lacking_open_files_for_too_long,
    lacking_open_files_beside_an_answer,
    without_memory_for_a_connection,
    answered_where_no_memory_is_left,
    sending_behind_want_of_memory,
    silent_behind_its_answer,
    silent_for_all_their_time,
    trickling_behind_its_answer,
    sending_behind_an_answer_that_took_long,
    sending_while_it_stood_still,
    flooding_behind_its_answer,
    short_of_open_files,
    short_of_open_files_for_a_while,
]
