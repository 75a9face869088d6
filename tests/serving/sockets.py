"""What a server does at its edges: the address at which it listens, the options of its connections, its last line."""

import contextlib
import ctypes
import errno
import os
import select
import signal
import socket
import struct
import tempfile
import time
from pathlib import Path

from cases.replays import A, batch, item
from crashing.recording import ASKED, RECEIVED, SENT, TAKEN, WAITED, Recording
from harness.building import built, no_random_numbers
from harness.case import OUTPUT, RANDOM, SOCKET
from harness.counting import Skipped, Unwell
from harness.texts import differing
from model.http import error
from serving.crowds import many_open_files
from serving.http import Exchange, done, look, registered
from serving.server import NotListening, Server, numbered_port
from serving.talking import sent, talk_over
from serving.wire import Connection, connect, get, post, read_all

LOOPBACK = "0100007F"
"""127.0.0.1, as the system's list of sockets has it."""
LISTENING = "0A"
OTHER_ADDRESS = "127.0.0.2"
PIDFD_GETFD = 438
SECONDS = 10
PAUSE = 0.1
CROWD = 1000
"""Clients that come while a server is stopped. The system may connect fewer that nobody takes."""
MOST_UNTAKEN = Path("/proc/sys/net/core/somaxconn")
CONNECTED = 0.5
"""Within how many seconds they are connected: the system tries again after a second where it couldn't."""
LEAST_AT_ONCE = 5
"""To each of two requests belong a call for the answer and one for what is behind the request, to the one in pieces one for the
second piece."""
LONGEST_WAIT = 1000
"""For how many milliseconds a worker may wait that looks after connections."""
IDLE, MOST_CALLS, AT_REST = 16, 4, 1.5
"""Workers that have nothing to do, how many calls each of them may make in a second, and how many seconds they are left so."""


def addresses_of(port):
    """The addresses at which a socket listens on this port, by the system's lists."""
    for name in ("tcp", "tcp6"):
        path = Path("/proc/net", name)
        for line in path.read_text().splitlines()[1:] if path.exists() else ():
            fields = line.split()
            address, number = fields[1].split(":")
            if fields[3] == LISTENING and int(number, 16) == port:
                yield address


def at_one_address(program):
    """It listens at 127.0.0.1, and at no other address of this machine, at a free port and at one that was asked for by its number."""
    yield from address_at(program, 0)
    yield from address_at(program, numbered_port())


def address_at(program, port):
    """What is wrong with the address of a server at this port, 0 for a free one."""
    with Server(program, 1, port=port) as server:
        addresses = list(addresses_of(server.port))
        if addresses != [LOOPBACK]:
            yield f"it listens at {addresses}, in place of {[LOOPBACK]}"
        try:
            socket.create_connection((OTHER_ADDRESS, server.port), SECONDS).close()
            server.count()
            yield f"{OTHER_ADDRESS} was answered"
        except ConnectionRefusedError:
            pass
        yield from server.end()


def second_at_its_port(program):
    """Where a server listens no other one does."""
    with Server(program, 1) as server:
        yield from differing_end(program, None, server.port, SOCKET, None)
        yield from server.end()


def come_while_it_is_stopped(program):
    """Clients that come while the server takes none are connected at once, and answered when it goes on."""
    many_open_files()
    count = min(CROWD, int(MOST_UNTAKEN.read_text()))
    with Server(program, count) as server, contextlib.ExitStack() as opened:
        server.child.send_signal(signal.SIGSTOP)
        clients = [opened.enter_context(coming(server.port)) for _ in range(count)]
        time.sleep(CONNECTED)
        connected = sum(map(is_connected, clients))
        server.child.send_signal(signal.SIGCONT)
        if connected != count:
            yield f"{connected} of {count} clients were connected"
            return
        server.count(count)
        for client in clients:
            client.settimeout(SECONDS)
            client.sendall(get("/"))
            yield from differing(read_all(client), error(404, "not_found"))
        yield from server.end()


def coming(port):
    """A connection that isn't waited for."""
    connection = Connection(socket.AF_INET, socket.SOCK_STREAM)
    connection.setblocking(False)
    connection.connect_ex(("127.0.0.1", port))
    return connection


def is_connected(connection):
    poll = select.poll()  # takes a descriptor of any number
    poll.register(connection, select.POLLOUT)
    return poll.poll(0) == [(connection.fileno(), select.POLLOUT)]


def taken_by(server, connection):
    """The server's end of a connection, shared with its process."""
    process = os.pidfd_open(server.child.pid)
    try:
        for _ in range(10 * SECONDS):
            for name in os.listdir(f"/proc/{server.child.pid}/fd"):
                number = shared(process, int(name))
                if number is not None and is_end_of(number, connection):
                    return socket.socket(fileno=number)
                if number is not None:
                    os.close(number)
            time.sleep(0.1)
    finally:
        os.close(process)
    raise Unwell("the server didn't take the connection")


def shared(process, number):
    """A file of another process under a number of this one, or None where it was closed meanwhile."""
    found = ctypes.CDLL(None, use_errno=True).syscall(PIDFD_GETFD, process, number, 0)
    fault = ctypes.get_errno()
    if found < 0 and fault != errno.EBADF:
        raise Skipped(f"no file of another process can be had here: {os.strerror(fault)}")
    return None if found < 0 else found


def is_end_of(number, connection):
    """Whether the file of this number is the other end of a connection."""
    if not os.readlink(f"/proc/self/fd/{number}").startswith("socket:"):
        return False
    other = socket.socket(fileno=os.dup(number))
    with other:
        try:
            return other.getpeername() == connection.getsockname()
        except OSError:
            return False


def options_of_a_connection(program):
    """What is written is sent at once."""
    yield from options_at(program, 0)


def options_at_a_port_of_a_number(program):
    """The same at a port that was asked for by its number."""
    yield from options_at(program, numbered_port())


def options_at(program, port):
    """What is wrong with the options of a connection of a server at this port, 0 for a free one."""
    if not hasattr(os, "pidfd_open"):
        raise Skipped("no `pidfd_open` here")
    with Server(program, 1, port=port) as server:
        server.count()
        with connect(server.port) as connection, taken_by(server, connection) as other:
            if not other.getsockopt(socket.IPPROTO_TCP, socket.TCP_NODELAY):
                yield "TCP_NODELAY isn't set"
        yield from server.end()


def calls_at_connections(program):
    """No call at a connection waits but the first one: not for the rest of a request, nor to send its answer, nor behind that. The
    system is asked to wait for a second at most."""
    shim = built("waiting-calls.so", "tests/waiting-calls.c", "-shared", "-fPIC", "-O1", "-ldl")
    with tempfile.TemporaryDirectory() as folder:
        path = Path(folder, "calls")
        path.write_bytes(bytes(24))
        with Server(program, 2, env={**os.environ, "LD_PRELOAD": str(shim), "CALLS": str(path)}) as server:
            yield from talk_over(server, registered(A))
            wanted = look(A, "removed", 0, None)
            yield from sent(server, [wanted.request[:-1], wanted.request[-1:]], wanted.answer, PAUSE)
            yield from server.end()
        at_once, waiting, longest = struct.unpack("=3q", path.read_bytes())
        if at_once < LEAST_AT_ONCE or waiting:
            yield f"{at_once} calls that can't wait, and {waiting} that can"
        if not 0 < longest <= LONGEST_WAIT:
            yield f"a wait of {longest} ms"


def calls_at_rest(program):
    """Workers that have nothing to do make a few calls a second: while nobody is there, while a request isn't whole, and while one is
    kept by a slow disk whose client has sent more, and its end."""
    request = post("/events", batch([item()]))
    with tempfile.TemporaryDirectory() as folder, Recording(Path(folder, "journal")) as recording:
        with Server(program, None, IDLE, env=recording.env, journal=Path(folder, "journal")) as server:
            yield from talk_over(server, registered(A))
            yield from few_calls(recording, "nobody was there", lambda: time.sleep(AT_REST))
            with connect(server.port) as client:
                client.sendall(request[:-1])
                yield from few_calls(recording, "a request wasn't whole", lambda: time.sleep(AT_REST))
                recording.set(pause=int(1e6 * AT_REST))
                client.sendall(request[-1:] + b"x")
                client.shutdown(socket.SHUT_WR)
                yield from few_calls(recording, "a request was kept", lambda: client.recv(1))


def few_calls(recording, meanwhile, wait):
    """What is wrong with how many calls are made for connections while that is waited for."""
    count, begun = calls_for_connections(recording), time.monotonic()
    wait()
    count, seconds = calls_for_connections(recording) - count, time.monotonic() - begun
    if count > MOST_CALLS * (seconds + 1) * IDLE:
        yield f"{count} calls of {IDLE} workers in {seconds:.1f} s while {meanwhile}"


def calls_for_connections(recording):
    """How many calls so far took connections and bytes, sent some, asked the system to tell of a connection, or waited for that."""
    return sum(map(recording.count, (TAKEN, RECEIVED, SENT, ASKED, WAITED)))


def last_line_that_nobody_reads(program):
    """Where nobody reads the last line any more, that is told, as of any other output, with a journal too."""
    with tempfile.TemporaryDirectory() as folder:
        yield from unread_last_line(program)
        yield from unread_last_line(program, Path(folder, "journal"))


def unread_last_line(program, journal=None):
    """What is wrong with the end of a server whose last line nobody reads."""
    with Server(program, 3, journal=journal) as server:
        server.child.stdout.close()
        for exchange in (registered(A), Exchange(post("/events", batch([item()])), done(1))):
            yield from talk_over(server, exchange)
        yield from talk_over(server, Exchange(get("/"), error(404, "not_found")))
        status = server.child.wait(timeout=60)
        server.faults.seek(0)
        found, wanted = (status, server.faults.read().decode()), (3, OUTPUT)
        if found != wanted:
            yield f"ended with {found}, in place of {wanted}"


def without_random_numbers(program):
    """Where the system gives no random numbers it doesn't listen, and tells why: before it asks for its port, which another has,
    and behind a table file that can't be read."""
    env = no_random_numbers()
    with socket.create_server(("127.0.0.1", 0)) as other:
        taken = other.getsockname()[1]
        for table, port, told in ((None, 0, RANDOM), (None, taken, RANDOM), ("[]", taken, "not_rows\n")):
            yield from differing_end(program, table, port, told, env)


def differing_end(program, table, port, told, env):
    """What is wrong with how a server ends that doesn't listen."""
    try:
        with Server(program, 1, table=table, env=env, port=port):
            yield "it listened"
    except NotListening as stopped:
        status, out, faults = stopped.ended
        if (status, out) != (3, "") or not faults.endswith(told):
            yield f"ended with {stopped.ended}, in place of {(3, '', told)}"


SOCKETS = [
    at_one_address,
    second_at_its_port,
    come_while_it_is_stopped,
    options_of_a_connection,
    options_at_a_port_of_a_number,
    calls_at_connections,
    calls_at_rest,
    last_line_that_nobody_reads,
    without_random_numbers,
]
