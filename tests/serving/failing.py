"""Calls of the system that fail under a server, and a server that is stopped for a while."""

import contextlib
import errno
import signal
import tempfile
import time
from pathlib import Path

from cases.replays import A, B, P
from harness.building import Counting
from harness.case import SOCKET
from model.http import error
from serving.connections import EVENT, SMALL_ROOM, long_list
from serving.http import Exchange, look, registered
from serving.limits import is_over, moved_on, resting
from serving.server import Server
from serving.talking import talk_over
from serving.wire import connect, get, read_all

LOST = [
    errno.ECONNABORTED,
    errno.ECONNRESET,
    errno.EINTR,
    errno.ENONET,
    errno.EPROTO,
    errno.ENOPROTOOPT,
    errno.ETIMEDOUT,
    errno.EHOSTDOWN,
    errno.EHOSTUNREACH,
    errno.ENETDOWN,
    errno.ENETUNREACH,
]
"""What a call that takes a connection says of that one connection (accept(2))."""
HINDERED = [errno.ENOBUFS, errno.ENOMEM, errno.EPERM, errno.EACCES, errno.EOPNOTSUPP]
"""What it says where the system can't give it at this moment."""
FILES = [errno.EMFILE, errno.ENFILE]
"""What it says where open files are lacking, of the process or of the system."""
AT_FAULT = [errno.EBADF, errno.EINVAL, errno.ENOTSOCK, errno.ENOTTY]
"""What it says of a listening socket that is none any more."""
PAUSES, SOME, OFTEN = 400, 200, 100_000
"""More pauses than a lack of open files is waited for, fewer, and more than 16 bits count."""
STOPPED = 1.5
"""For how many seconds a server is stopped: longer than one wait."""
LONGER = 12
"""For how many seconds it stands still: longer than a head may take to come."""
SEVERAL = 3
"""Clients whose requests are whole then: more than the worker that waits is told of at once."""
MOST_BESIDE = 30
"""Within how many seconds the last line comes, while an answer leaves that nobody reads."""
COMING = 0.2
"""How long a server has to take in what came of a request, in seconds."""
LEAVING = 4
"""For how many seconds behind the last line that answer isn't read still."""
MOST_AT_ITS_END = 15
"""Within how many seconds a server ends beside a client whose request isn't whole: it would be waited for 30."""


def failing(errors, times=1):
    """The environment of a server in which the first calls that take a connection fail so, each number so often."""
    return {**moved_on(), "ERRORS": " ".join(map(str, errors)), "TIMES": str(times)}


def answers_two(program, env):
    """What is wrong with a server of one worker that answers two clients."""
    with Server(program, 2, env=env) as server:
        yield from talk_over(server, registered(A))
        yield from talk_over(server, look(A, "removed", 0, None))
        yield from server.end()


def connections_that_are_lost(program):
    """A connection that is lost before it is taken, for any cause, ends no worker."""
    return answers_two(program, failing(LOST, 3))


def connections_that_are_hindered(program):
    """Nor does one that the system can't give at this moment, however often it is tried again."""
    for number in HINDERED:
        yield from answers_two(program, failing([number], OFTEN))


def connections_without_a_file(program):
    """Nor does one for which no file can be opened for a moment."""
    return answers_two(program, failing(FILES, 3))


def short_lacks(program):
    """Lacks of open files don't add up, neither with other hindrances, nor over a client whose request isn't whole."""
    yield from answers_two(program, failing([errno.ENOMEM, errno.EMFILE], SOME))
    lack = [errno.EMFILE] * SOME
    with Server(program, 1, env=failing([*lack, 0, *lack])) as server, connect(server.port) as slow:
        slow.sendall(b"G")
        yield from talk_over(server, registered(A))
        yield from server.end()


def files_that_are_lacking_for_good(program):
    """Where no file can be opened for long, the only worker ends, and so the server."""
    for number in FILES:
        yield from ends_at_once(program, failing([number], PAUSES))


def sockets_at_fault(program):
    """So it does where the listening socket is at fault, and it isn't tried again."""
    for number in AT_FAULT:
        yield from ends_at_once(program, failing([number]))


def ends_at_once(program, env):
    """What is wrong with how a server of one worker ends for which no connection can be taken."""
    with Server(program, 2, env=env) as server, contextlib.ExitStack() as client:
        with contextlib.suppress(ConnectionError):  # where it has ended
            client.enter_context(connect(server.port))
        yield from ends_without_a_socket(server)


def ends_without_a_socket(server):
    """What is wrong with how a server ends of which a worker could take no further connection."""
    ended, wanted = server.ended(), (3, "", SOCKET)
    if ended != wanted:
        yield f"ended with {ended}, in place of {wanted}"


def others_beside_one_at_fault(program):
    """Where one worker can take no further connection, the other one goes on until it is done. Then the server ends."""
    for number in AT_FAULT:
        with Server(program, 2, workers=2, env=failing([number])) as server:
            yield from talk_over(server, registered(A))
            yield from talk_over(server, look(A, "removed", 0, None))
            yield from ends_without_a_socket(server)


def stopped_for_a_while(program):
    """A server that is stopped and goes on, as by a terminal, answers as before."""
    with Server(program, 2, workers=2) as server:
        yield from talk_over(server, registered(A))
        server.child.send_signal(signal.SIGSTOP)
        time.sleep(STOPPED)
        server.child.send_signal(signal.SIGCONT)
        yield from talk_over(server, look(A, "removed", 0, None))
        yield from talk_over(server, Exchange(get(f"/vehicles/{P}/{B}"), error(404, "unregistered")))
        yield from server.end()


def last_line_before_the_last_answer(program):
    """The last line comes while an answer still leaves, with a journal and without one. It is waited for at rest."""
    with tempfile.TemporaryDirectory() as folder:
        for journal in (None, Path(folder, "journal")):
            yield from last_line_amid_an_answer(program, journal)


def last_line_amid_an_answer(program, journal):
    """What is wrong with when the last line comes, where the last client reads nothing of its answer, beside one whose request isn't
    whole, and with what it then reads."""
    with Server(program, 4, journal=journal) as server:
        yield from long_list(server, A)
        server.count(1)
        with connect(server.port) as other, connect(server.port, room=SMALL_ROOM) as slow:
            other.sendall(EVENT[:-1])
            time.sleep(COMING)
            slow.sendall(get(f"/vehicles/{P}/{A}/events"))
            start = time.monotonic()
            line, wanted = server.line(), f"accepted {server.success}\n"
            seconds = time.monotonic() - start
            if line != wanted or seconds > MOST_BESIDE:
                yield f"the last line was {line!r} after {seconds:.1f} s, in place of {wanted!r} at once"
            yield from refused(server.port)
            yield from resting(server, LEAVING, "the last answer left")
            head, _, body = read_all(slow).partition(b"\r\n\r\n")
            if f"content-length: {len(body)}\r\n".encode() not in head + b"\r\n":
                yield f"of the last answer {len(body)} bytes came behind {head!r}"
        status = server.child.wait(timeout=120)
        if status != 0:
            yield f"ended with {status}"


def refused(port):
    """What is wrong with how a client is met of whom nobody takes a request any more."""
    try:
        connect(port).close()
        yield "a client was connected behind the last line"
    except ConnectionRefusedError:
        pass


def come_while_it_stood_still(program):
    """What came while the process stood still for longer than a client may take is looked at before its client is let go: a request
    that was whole then is answered, and one that wasn't isn't."""
    with Server(program, None) as server, contextlib.ExitStack() as kept:
        *wholes, front = [kept.enter_context(connect(server.port)) for _ in range(SEVERAL + 1)]
        request = get("/table")
        for client in (*wholes, front):
            client.sendall(request[:5])
        time.sleep(COMING)
        server.child.send_signal(signal.SIGSTOP)
        for whole in wholes:
            whole.sendall(request[5:])
        front.sendall(request[5:-1])
        time.sleep(LONGER)
        server.child.send_signal(signal.SIGCONT)
        for whole in wholes:
            if not read_all(whole).startswith(b"HTTP/1.1 200 OK\r\n"):
                yield "a request that was whole while it stood still isn't answered"
        if not is_over(front):
            yield "something was answered to a request that wasn't whole"


def end_beside_a_request_that_comes(program):
    """At its end a server waits for no request that comes still, with a journal and without one."""
    with tempfile.TemporaryDirectory() as folder:
        for journal in (None, Path(folder, "journal")):
            yield from end_amid_a_request(program, journal)


def end_amid_a_request(program, journal):
    """What is wrong with when a server ends, where a client lacks a byte of its body, and with what that client reads."""
    with Server(program, 1, journal=journal) as server, connect(server.port) as slow:
        slow.sendall(EVENT[:-1])
        start = time.monotonic()
        yield from server.end()
        seconds = time.monotonic() - start
        if seconds > MOST_AT_ITS_END:
            yield f"ended after {seconds:.1f} s, in place of at once"
        if not is_over(slow):
            yield "something was answered to a request that wasn't whole"


def most_workers_over_a_journal(program):
    """As many workers as there may be over a journal: each answers, and a journal tells what they accepted. Each but one is a thread
    of its own. At the start so are the two who read the one piece of the journal. It is empty, so nobody is needed to ask the
    shards."""
    with tempfile.TemporaryDirectory() as folder, Counting() as counting:
        with Server(program, 1, workers=64, journal=Path(folder, "journal"), env=counting.env) as server:
            yield from talk_over(server, registered(A))
            yield from talk_over(server, look(A, "removed", 0, None))
            yield from server.end()
        if counting.counts().threads != 63 + 2:
            yield f"{counting.counts().threads} threads were asked for, in place of {63 + 2}"


def threads_that_are_wanting(program):
    """Where the system makes no thread, or no more than two, the first one does the work of those that are wanting, one worker
    behind another."""
    for most in (0, 2):
        with Counting(threads=most) as counting, Server(program, 2, workers=4, env=counting.env) as server:
            yield from talk_over(server, registered(A))
            yield from talk_over(server, look(A, "removed", 0, None))
            yield from server.end()
            if counting.counts().threads <= most:
                yield f"{counting.counts().threads} threads were asked for, and more than {most} were to be"


FAILING = [
    connections_that_are_lost,
    connections_that_are_hindered,
    connections_without_a_file,
    short_lacks,
    files_that_are_lacking_for_good,
    sockets_at_fault,
    others_beside_one_at_fault,
    stopped_for_a_while,
    come_while_it_stood_still,
    last_line_before_the_last_answer,
    end_beside_a_request_that_comes,
    most_workers_over_a_journal,
    threads_that_are_wanting,
]
