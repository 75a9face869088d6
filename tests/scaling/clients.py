"""Clients of servers over one journal, from one server to the next: each knows what its vehicles have, and so each of its answers.

What was asked when a server was killed may stand or not, item by item. So a client looks at its vehicles first when the next one has
begun."""

import random
import socket
import threading
import time

from crashing.killed import repeated
from crashing.reports import device_at, listed, listing, looking, registering, reporting, standing
from harness.counting import Unwell
from harness.stalls import stalled
from model.http import answer
from model.json_text import compact
from serving.http import done
from serving.wire import connect

BATCH = 10_000
"""The most items of a batch."""
PATIENCE = 120
"""Seconds for which an answer may stay away, beside those for which the machine stood still."""
LOOK = 0.25
"""How often a client sees whether its server still is there, while it waits."""
PAUSE = 0.002
"""Seconds between two pieces of a request."""
PLACEHOLDER = device_at(0)


class Gone(Exception):
    """The server has ended in the middle of an exchange."""


class Hanging(Unwell):
    """No answer came for long."""


class Life:
    """A server as clients see it: its port, until it has ended."""

    def __init__(self, port):
        self.port, self.ended = port, threading.Event()
        self.lock, self.requests, self.success = threading.Lock(), 0, 0

    def ask(self, request, pieces=None):
        """The answer to a request, which is sent whole or in pieces."""
        try:
            with connect(self.port) as connection:
                connection.settimeout(LOOK)
                for at, piece in enumerate(pieces or [request]):
                    time.sleep(PAUSE if at else 0)
                    self.send(connection, piece)
                found = self.received(connection)
        except ConnectionError as fault:
            raise self.gone(f"{type(fault).__name__}, {request[:100]!r}") from None
        with self.lock:
            self.requests += 1
        return found

    def gone(self, what):
        """The server has gone; where nobody has ended it that is told."""
        return Gone() if self.ended.wait(2) else Unwell(f"a connection went away: {what}")

    def send(self, connection, piece):
        begun, rest = time.monotonic(), memoryview(piece)
        while rest:
            try:
                rest = rest[connection.send(rest) :]
            except socket.timeout:
                self.wait_on(begun, "took no more of a request")

    def received(self, connection):
        begun, pieces = time.monotonic(), []
        while True:
            try:
                piece = connection.recv(1 << 20)
            except socket.timeout:
                self.wait_on(begun, "gave no answer")
                continue
            if not piece:
                return self.whole(b"".join(pieces))
            pieces.append(piece)

    def whole(self, found):
        """What came, where it is whole, or the server still there."""
        head, _, body = found.partition(b"\r\n\r\n")
        length = head.rpartition(b"content-length: ")[2].partition(b"\r\n")[0]
        if not length.isdigit() or int(length) != len(body):
            raise self.gone(f"{len(body)} bytes behind {head!r}")
        return found

    def wait_on(self, begun, what):
        if self.ended.is_set():
            raise Gone
        if time.monotonic() - begun - stalled(begun) > PATIENCE:
            raise Hanging(f"the server {what} for {PATIENCE} seconds")


def naming(device, front, behind):
    """A report of events of a device whose target names that, for who has a part of the request alone."""
    return reporting(device, front, behind).replace(b"/events ", b"/events?%s " % device.encode(), 1)


class Bodies:
    """Requests that report many events of any device, and the text of its list: each is made once, of a device that stands for all."""

    def __init__(self):
        self.lock, self.requests, self.events = threading.Lock(), {}, []

    def reporting(self, device, front):
        """The largest batch, of the events of a device from one number on."""
        with self.lock:
            if front not in self.requests:
                self.requests[front] = naming(PLACEHOLDER, front, front + BATCH)
            made = self.requests[front]
        return made.replace(PLACEHOLDER.encode(), device.encode())

    def listed(self, device, count):
        """The answer that lists so many events of a device."""
        with self.lock:
            self.events += [compact(listed(PLACEHOLDER, number)) for number in range(len(self.events), count)]
            events = ",".join(self.events[:count])
        return answer(200, f'{{"events":[{events}]}}'.replace(PLACEHOLDER, device))


def expect(found, wanted, what):
    if found != wanted:
        raise Unwell(f"{what}: {found[:200]!r} .. {found[-200:]!r}, in place of {wanted[:200]!r} .. {wanted[-200:]!r}")


class Regular:
    """A client that reports vehicles of its own, whose event of each number is known."""

    def __init__(self, name, devices, bodies):
        self.name, self.bodies, self.chance = name, bodies, random.Random(name)
        self.counts = dict.fromkeys(devices, -1)
        """How many events each vehicle has; -1 where it isn't registered."""
        self.asked = {}
        """The vehicles that were asked about when the server was killed, and how many events each may have."""

    def begin(self, life):
        """Looks at what the server has of each vehicle."""
        for device, count in self.counts.items():
            self.counts[device] = self.found(life, device, count, self.asked.get(device, count))
        self.asked = {}

    def found(self, life, device, count, most):
        """How many events a vehicle has, between two numbers."""
        answered = life.ask(looking(device))
        for number in range(max(count, 0), most + 1):
            if answered == answer(200, standing(device, number)):
                return number
        if count < 0 and answered == answer(404, {"error": "unregistered"}):
            return -1
        raise Unwell(f"{self.name}: {count} to {most} events of {device} at a start, and {answered[:300]!r}")

    def register(self, life):
        """Registers the vehicles that aren't yet."""
        fresh = [device for device, count in self.counts.items() if count < 0]
        if fresh:
            self.asked = dict.fromkeys(fresh, 0)
            expect(life.ask(registering(*fresh)), done(len(fresh)), f"{self.name} registers")
            self.counts.update(dict.fromkeys(fresh, 0))
            self.asked = {}

    def run(self, life):
        """Works until the server is gone."""
        self.begin(life)
        self.register(life)
        while not life.ended.is_set():
            self.step(life)

    def report(self, life, device, request, size, known=0):
        """Reports so many events of a vehicle, of which the first are there, whole or in pieces."""
        count = self.counts[device]
        self.asked = {device: count - known + size}
        what = f"{self.name} reports {size} events of {device} from {count - known} on"
        expect(life.ask(request, self.cut(request)), repeated(known, size), what)
        self.counts[device], self.asked = count - known + size, {}
        with life.lock:
            life.success += size - known

    def cut(self, request):
        """The pieces in which a request is sent."""
        cuts = sorted(self.chance.randint(0, len(request)) for _ in range(self.chance.choice((0, 0, 0, 1, 3))))
        return [request[front:behind] for front, behind in zip([0, *cuts], [*cuts, len(request)])]

    def look(self, life, device):
        expect(life.ask(looking(device)), answer(200, standing(device, self.counts[device])), f"{self.name} looks at {device}")

    def list(self, life, device):
        expect(life.ask(listing(device)), self.bodies.listed(device, self.counts[device]), f"{self.name} lists {device}")


class Bulk(Regular):
    """The largest batches, until each vehicle has so many events. Then it looks, and lists what is long, now and then."""

    def __init__(self, name, devices, bodies, most):
        super().__init__(name, devices, bodies)
        self.most = most

    def step(self, life):
        device = min(self.counts, key=self.counts.get)
        if self.counts[device] >= self.most:
            self.rest(life, self.chance.choice(list(self.counts)))
            return
        front = self.counts[device] // BATCH * BATCH
        self.report(life, device, self.bodies.reporting(device, front), BATCH, self.counts[device] - front)
        if self.chance.random() < 0.2:
            self.look(life, device)
        if self.chance.random() < 0.03:
            self.list(life, device)

    def rest(self, life, device):
        self.look(life, device)
        if self.chance.random() < 0.02:
            self.list(life, device)
        time.sleep(0.01)


class Small(Regular):
    """Single reports, batches of all sizes, registrations of vehicles that are there, lists, and requests in pieces."""

    MOST_EVENTS = 3000

    def step(self, life):
        chance, device = self.chance, self.chance.choice(list(self.counts))
        kind, count = chance.random(), self.counts[device]
        if kind < 0.5:
            size = chance.choice((1, 1, 1, 2, 8, 64, 255, 256, 257, chance.randint(1, self.MOST_EVENTS)))
            known = min(count, chance.choice((0, 0, 0, 1, 3)))
            size = max(size, known + 1)
            request = naming(device, count - known, count - known + size)
            self.report(life, device, request, size, known)
        elif kind < 0.85:
            self.look(life, device)
        elif kind < 0.95:
            again = done(1, [{"error": "already_registered", "index": 0}])
            expect(life.ask(registering(device)), again, f"{self.name} registers {device} again")
        elif count < self.MOST_EVENTS * 4:
            self.list(life, device)
