"""Servers over a journal in little address space, which clients fill until there is no memory, and which SIGKILL then ends: each
starts again in as much address space, and has all that was answered."""

import os
import re
import signal
import tempfile
import threading
from pathlib import Path

from crashing.clients import side_by_side
from crashing.reports import device_at, looking, registering, reporting, standing, status_of
from harness.counting import Unwell
from model.http import answer
from serving.http import done
from serving.server import Server
from serving.wire import ask

CLIENTS, EACH = 4, 100_000
OF_A_CLIENT = 8
"""The vehicles of a client, each of which it reports in turn: those of all clients lie in both halves."""
ITEMS = 1000
"""Of a batch."""
LIMITS = [120_000, 135_000, 150_000, 165_000, 180_000]
"""Kilobytes of address space. What is had of them for events doubles from the first to the last, so each list and each index of the
server is doubled somewhere between."""
FEWER = [(120_000, 1), (135_000, 2), (150_000, 1), (165_000, 2)]
"""Limits with fewer workers than clients. A server of these has fewer threads than its start."""
FEWEST = 50_000
"""Events that a server takes in the least of them."""
AS_THE_UNIT = {"MALLOC_MMAP_THRESHOLD_": "1048576", "MALLOC_TRIM_THRESHOLD_": "8388608", "MALLOC_ARENA_MAX": "1"}
START_THREADS = 3
"""Those that a start has beside the first one."""
HUGE_PAGE = 2048
"""Kilobytes."""
PIECES, STACK = 16, 8
"""Mebibytes of address space that a start takes beside its requests, and that each thread takes."""
PLACEHOLDER = device_at(0)


class Bodies:
    """Requests that report the same events of any device, each made once."""

    def __init__(self):
        self.lock, self.of_front = threading.Lock(), {}

    def reporting(self, device, front):
        with self.lock:
            if front not in self.of_front:
                self.of_front[front] = reporting(PLACEHOLDER, front, front + ITEMS)
        return self.of_front[front].replace(PLACEHOLDER.encode(), device.encode())


def devices_of(client):
    return [device_at(1 + client * OF_A_CLIENT + number) for number in range(OF_A_CLIENT)]


def reports_until_full(port, client, bodies, known, full):
    """Reports events of a client's vehicles until a request isn't answered for want of memory, and notes how many of each were."""
    devices = devices_of(client)
    front = 0
    while True:
        for device in devices:
            if full.is_set():
                return
            try:
                answered = ask(port, bodies.reporting(device, front))
            except ConnectionResetError:
                # without memory for its room a connection is lost
                answered = b""
            if not answered or status_of(answered) == 503:
                full.set()
                return
            if answered != done(ITEMS):
                raise Unwell(f"events from {front} on of {device}: {answered[:300]!r}")
            known[device] = front + ITEMS
        front += ITEMS


def fill(program, path, limit, workers, bodies):
    """How many events of each vehicle a server had answered when there was no memory for more, and it was ended."""
    known, full = {}, threading.Event()
    env = {**os.environ, **AS_THE_UNIT}
    with Server(program, EACH, workers=workers, env=env, address_space=limit, journal=path) as server:
        for client in range(CLIENTS):
            devices = devices_of(client)
            if ask(server.port, registering(*devices)) != done(len(devices)):
                raise Unwell(f"the vehicles of client {client} aren't registered")
            known.update(dict.fromkeys(devices, 0))
        jobs = [
            lambda client=client: reports_until_full(server.port, client, bodies, known, full) for client in range(CLIENTS)
        ]
        side_by_side(jobs)
        os.kill(server.child.pid, signal.SIGKILL)
        server.child.wait()
    return known


def started_amiss(program, path, limit, workers, known):
    """What is wrong with a server that starts over the file in as much address space: each vehicle has all that was answered, and
    at most the one batch behind it that was asked last."""
    env = {**os.environ, **AS_THE_UNIT}
    with Server(program, EACH, workers=workers, env=env, address_space=limit, journal=path) as server:
        for device, count in known.items():
            answered = ask(server.port, looking(device))
            if all(answered != answer(200, standing(device, count + more)) for more in range(ITEMS + 1)):
                yield f"{count} events of {device} were answered, and a look tells {answered[:300]!r}"


def filled_and_started_again(program):
    """Servers in address spaces around a doubling of what events take."""
    bodies = Bodies()
    for limit, workers in [*((limit, CLIENTS) for limit in LIMITS), *FEWER]:
        with tempfile.TemporaryDirectory() as folder:
            path = Path(folder, "journal")
            known = fill(program, path, limit, workers, bodies)
            where = f"in {limit} kB with {workers} workers"
            if sum(known.values()) < FEWEST:
                yield f"{where} it took {sum(known.values())} events"
            yield from (f"{where}: {it}" for it in started_amiss(program, path, limit, workers, known))


def untouched_beside(server):
    """The mebibytes of each large mapping of a server of which no more than a page, which may be a huge one, has memory."""
    text = Path(f"/proc/{server.child.pid}/smaps").read_text()
    sizes = re.findall(r"rw-p .*\nSize: +(\d+) kB\n(?:\w+PageSize: .*\n)*Rss: +(\d+) kB\n", text)
    return [int(size) >> 10 for size, used in sizes if int(size) >> 10 >= PIECES and int(used) <= HUGE_PAGE]


def room_for_the_next_start(program):
    """A server has address space beside that no memory was taken for: what a start takes beside its requests, and a stack for each of
    its threads that the server has no worker for."""
    env = {**os.environ, **AS_THE_UNIT}
    for workers in range(1, START_THREADS + 3):
        with tempfile.TemporaryDirectory() as folder:
            with Server(program, None, workers=workers, journal=Path(folder, "journal"), env=env) as server:
                found, wanted = untouched_beside(server), [PIECES + STACK * max(START_THREADS + 1 - workers, 0)]
            if found != wanted:
                yield f"{workers} workers have {found} MiB beside, in place of {wanted}"


FILLING = [filled_and_started_again, room_for_the_next_start]
