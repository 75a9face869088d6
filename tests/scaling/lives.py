"""Servers over one journal, one after the other, under clients of all kinds: each is killed at some moment but the last, and each of
its calls is looked at (checker.py). The clients know all their answers, from one server to the next."""

import os
import random
import signal
import tempfile
import time
from contextlib import ExitStack, contextmanager, suppress
from dataclasses import dataclass
from pathlib import Path

from crashing.recording import Recording
from crashing.reports import device_at
from harness.stalls import stalled, watch
from scaling.checker import Checker
from scaling.clients import Bodies, Bulk, Life, Small
from scaling.others import Crew, Going, Hostile, Modelled, Together
from scaling.record import Pipe
from serving.server import Server, aside_of
from serving.wire import connect, get, read_all

WORKERS = (4, 16)
"""Those of every other server."""
PAUSES = (0, 1500)
"""Microseconds that a sync takes longer than in memory, of every other server: as many as a disk takes, so that others wait."""
LEAST_HALF, LEAST_BYTES = 1 << 20, 256 << 20
"""Requests of one half, and bytes of the journal, that the run goes past."""
LEAVING = 600
"""Seconds for clients and the checker to end behind a server."""
QUIET = 1.0
"""Seconds in which nobody asks."""
MOST_AT_REST = 0.1
"""Seconds of a processor that an idle server takes then."""
LINGERING = 6
"""Clients that stay behind their answers, and such as send nothing."""
MOST_OPEN = 200
"""Connections that are open when a server is killed, at most: each of some fifteen clients has one at a time."""
CLOSING = 15
"""Seconds until all connections are closed, at most."""

class Long(Server):
    """A server that may take longer to begin, since it reads a long journal, and to end."""

    seconds = 600


@dataclass
class Size:
    """How much a run does: how many vehicles of each half get the largest batches, how many events each, how many servers there
    are, and how many requests at least."""

    vehicles: tuple
    events: int
    lives: int
    requests: int = 0

    def all_events(self):
        return sum(self.vehicles) * self.events

    def goal(self, number, chance):
        """How many events, and requests, there are to be when the server of this number is killed: the first ones have few."""
        share = min(number / self.lives, 1)
        return self.all_events() * share**2 * chance.uniform(0.8, 1), self.requests * share


SHORT = Size((18, 3), 60_000, 20)
WHOLE = Size((30, 10), 60_000, 20, 500_000)


def folder_of(size):
    """A folder for the journal: in memory, where there is room, since a run would wear a disk, and wait for it."""
    shared = Path("/dev/shm")
    wanted = 3 * size.all_events() * 300
    with suppress(OSError):
        found = os.statvfs(shared)
        if os.access(shared, os.W_OK) and found.f_bavail * found.f_frsize > wanted:
            return tempfile.TemporaryDirectory(dir=shared)
    return tempfile.TemporaryDirectory()


def crew_of(size, seed):
    """The clients of a run. Those of the largest batches come first."""
    bodies = Bodies()
    first, second = (list(range(half, 2 * count, 2)) for half, count in enumerate(size.vehicles))
    parts = [first[0::3], first[1::3], first[2::3], second]
    bulk = [Bulk(f"bulk {at}", [device_at(100 + it) for it in part], bodies, size.events) for at, part in enumerate(parts)]
    small = [Small(f"small {seed} {at}", [device_at(1000 + 10 * at + it) for it in range(6)], bodies) for at in range(3)]
    modelled = [Modelled(7000 + at) for at in range(2)]
    return [*bulk, *small, *modelled, Hostile(seed), Going(seed, device_at(100)), Together(seed)]


class City:
    """What a run knows: the file, its checker, and the clients."""

    def __init__(self, program, folder, size, seed):
        self.program, self.folder, self.size = program, folder, size
        self.path, self.chance = Path(folder, "journal"), random.Random(seed)
        self.checker, self.clients = Checker(self.path), crew_of(size, seed)
        self.numbers, self.slow = iter(range(1 << 30)), Recording(self.path)
        self.figures, self.requests, self.starts = {}, 0, []

    def events(self):
        """How many events of the largest batches were answered."""
        return sum(max(count, 0) for client in self.clients if isinstance(client, Bulk) for count in client.counts.values())

    @contextmanager
    def server(self, workers, each=None, **more):
        """A server whose calls are read."""
        number, begun = next(self.numbers), time.monotonic()
        pipe = Pipe(self.folder, number, self.path, self.slow.control)
        self.checker.begin(pipe.path, workers)
        with ExitStack() as stack:
            with pipe.open():
                aside_of(self.path).unlink(missing_ok=True)
                server = Long(self.program, each, workers, env=pipe.env, journal=self.path, **more)
                stack.enter_context(server)
            self.starts.append(time.monotonic() - begun)
            yield server

    def checked(self):
        """What was wrong with the calls of the server that is gone."""
        faults, self.figures = self.checker.ended(LEAVING)
        return faults

    def killed(self, events, requests):
        """What is wrong with a server that is killed at a moment behind so many events and requests."""
        workers = self.chance.choice(WORKERS)
        self.slow.set(pause=self.chance.choice(PAUSES))
        with self.server(workers) as server:
            life = Life(server.port)
            crew = Crew(self.clients, life)
            while self.events() < events or self.requests + life.requests < requests:
                if crew.faults or server.child.poll() is not None:
                    break
                time.sleep(self.chance.uniform(0.001, 0.04))
            time.sleep(self.chance.uniform(0, 0.1))
            stood = list(places_of(server.child.pid)) if crew.faults else []
            life.ended.set()
            server.child.send_signal(signal.SIGKILL)
            yield from crew.leave(LEAVING)
            yield from stood
        self.requests += life.requests
        yield from self.checked()
        if self.figures.get("connections", 0) > MOST_OPEN:
            yield f"{self.figures['connections']} connections were open at its end"

    def at_rest(self):
        """What is wrong with a server without standard error, of which nothing is asked, but that clients stay there."""
        with self.server(WORKERS[1], unheard=True) as server, ExitStack() as stack:
            before = server.sockets()
            for number in range(2 * LINGERING):
                connection = stack.enter_context(connect(server.port))
                if number % 2:
                    connection.sendall(get("/"))
                    read_all(connection)
            used = server.processor_time()
            time.sleep(QUIET)
            used = server.processor_time() - used
            if used > MOST_AT_REST:
                yield f"it took {used:.2f} s of a processor in {QUIET} s at rest"
            stack.close()
            yield from unclosed(server, before)
            server.child.kill()
        yield from self.checked()

    def ended(self):
        """What is wrong with a server that ends by itself."""
        with self.server(WORKERS[0], each=40) as server:
            life = Life(server.port)
            for client in self.clients:
                if isinstance(client, Bulk):
                    client.begin(life)
            server.count(life.requests, self.figures["lines"])
            yield from server.drain()
        yield from self.checked()
        if self.figures.get("connections"):
            yield f"{self.figures['connections']} connections weren't closed at the end"


def unclosed(server, before):
    """How many sockets stay open once all clients have gone."""
    begun = time.monotonic()
    while server.sockets() != before:
        if time.monotonic() - begun - stalled(begun) > CLOSING:
            yield f"{server.sockets()} sockets are open, in place of {before}"
            return
        time.sleep(0.05)


def places_of(process):
    """Where the threads of a process stand."""
    for path in sorted(Path(f"/proc/{process}/task").iterdir()):
        with suppress(OSError):
            state = Path(path, "stat").read_text().rpartition(")")[2].split()
            call = Path(path, "syscall").read_text().split()[:2]
            yield f"thread {path.name}: {state[0]}, {int(state[11]) + int(state[12])} ticks, in call {' '.join(call)}"


def servers_of_a_city(program, size, seed, told=lambda text: None):
    """What is wrong with a run. It stops at the first server with which anything is."""
    watch()
    with folder_of(size) as folder:
        city = City(program, folder, size, seed)
        with city.checker, city.slow:
            yield from lives_of(city, told)


def lives_of(city, told):
    for number in range(1, city.size.lives + 1):
        goal = city.size.goal(number, city.chance) if number < city.size.lives else (city.size.all_events(), city.size.requests)
        wrong = list(city.killed(*goal))
        told(f"server {number}: {city.requests} requests, started in {city.starts[-1]:.1f} s, {city.figures}")
        yield from (f"server {number}, {it}" for it in wrong)
        if wrong:
            return
    yield from (f"at rest, {it}" for it in city.at_rest())
    yield from (f"at the end, {it}" for it in city.ended())
    yield from too_little(city)


def too_little(city):
    """What a run didn't come to."""
    if city.size.vehicles[0] * city.size.events <= LEAST_HALF or city.figures["bytes"] <= LEAST_BYTES:
        yield f"{city.figures} at the end"
