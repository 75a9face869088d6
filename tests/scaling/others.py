"""Clients whose vehicles come by chance, of whose answers the model of tests/model/ knows each, clients that share vehicles, and
clients that go in the middle of their requests or answers."""

import contextlib
import random
import threading
import time

from crashing.reports import listing
from fuzzing.chance import Chance
from fuzzing.talks import Talks
from harness.counting import Unwell
from harness.texts import difference
from model.fleet import Vehicle
from model.http import Server as Model
from model.http import answer, error
from scaling.clients import Gone, expect
from serving.together import Alone, Sharing
from serving.wire import close, connect, get, post

ROOM = 1 << 16
"""How many bytes of an answer the system takes in for a client that goes."""


class Copies:
    """What the model had of each vehicle before a request of which no answer came."""

    def __init__(self, fleet):
        self.fleet, self.before = fleet, None

    def begin(self):
        """A request is sent: what was there before it is kept."""
        self.before = {key: len(vehicle.events) for key, vehicle in self.fleet.vehicles.items()}

    def end(self):
        self.before = None

    def settle(self, life):
        """Has the model have what a server has, between what was there before the request and behind it."""
        for key, vehicle in list(self.fleet.vehicles.items()):
            least = -1 if self.before is None or key in self.before else None
            self.settle_vehicle(life, key, vehicle, least)
        self.before = None

    def settle_vehicle(self, life, key, vehicle, least):
        found = life.ask(get(f"/vehicles/{key[0]}/{key[1]}/events"))
        if least is None and found == error(404, "unregistered"):
            del self.fleet.vehicles[key]
            return
        front = len(vehicle.events) if self.before is None else self.before.get(key, 0)
        for count in range(front, len(vehicle.events) + 1):
            if found == answer(200, {"events": vehicle.events[:count]}):
                kept = Vehicle()
                for event in vehicle.events[:count]:
                    kept.accept(event)
                self.fleet.vehicles[key] = kept
                return
        raise Unwell(f"{front} to {len(vehicle.events)} events of {key} at a start, and {found[:300]!r}")


class Modelled(Alone):
    """Reports, looks and lists by chance, with faults and refusals, of vehicles of its own."""

    def __init__(self, number):
        super().__init__(number)
        self.copies = Copies(self.fleet)

    def run(self, life):
        self.copies.settle(life)
        self.keys = list(self.fleet.vehicles)
        while not life.ended.is_set():
            self.leave_behind()
            self.copies.begin()
            request, wanted = self.exchange()
            expect(life.ask(request), wanted, f"{request[:300]!r}")
            self.copies.end()


class Hostile:
    """Requests whose heads, lengths and bodies are good or not, in pieces, and some that don't end. There are no more of them than
    leave the lists of its few vehicles short enough for the model."""

    MOST = 20_000

    def __init__(self, seed):
        self.talks = talks_of_the_profile(seed)
        self.model = Model()
        self.copies, self.made = Copies(self.model.fleet), 0

    def run(self, life):
        self.copies.settle(life)
        while not life.ended.is_set() and self.made < self.MOST:
            pieces, _ = self.talks.sent(self.talks.request(not self.made or self.talks.chance.often(0.12)))
            self.made += 1
            self.copies.begin()
            request = b"".join(pieces)
            wanted = self.model.answered(request)
            differs = difference(self.answered(life, pieces), wanted)
            if differs:
                raise Unwell(f"{request[:300]!r} was answered, {differs}")
            self.copies.end()

    def answered(self, life, pieces):
        """What is answered to pieces behind which the client ends its side. What stands behind a whole request may come when the
        server has answered and gone."""
        found = b""
        try:
            with connect(life.port) as connection:
                with contextlib.suppress(OSError):
                    for piece in pieces:
                        connection.sendall(piece)
                    connection.shutdown(1)
                while piece := connection.recv(1 << 20):
                    found += piece
        except ConnectionError as fault:
            if not found:
                raise life.gone(f"{type(fault).__name__}, {b''.join(pieces)[:100]!r}") from None
        with life.lock:
            life.requests += 1
        return life.whole(found)


def talks_of_the_profile(seed):
    """Requests by chance, of a talk that has the profile's table."""
    for number in range(1000):
        talks = Talks(Chance(f"{seed} {number}"))
        if talks.table is None:
            return talks
    raise Unwell("no talk without a table of its own")


class Going:
    """Clients that go: in a head, in a body, behind it, and in the middle of an answer, with an end or a reset."""

    def __init__(self, seed, device):
        self.chance, self.device = random.Random(seed), device
        unknown = f"00000000-0000-4000-8000-{0xffff:012x}"
        event = {"provider_id": unknown, "device_id": unknown, "event_id": unknown, "vehicle_state": "available",
            "event_types": ["wake"], "timestamp": 1}  # fmt: skip
        self.report = post("/events", [event] * 20)

    def run(self, life):
        while not life.ended.is_set():
            request = listing(self.device) if self.chance.random() < 0.1 else self.report
            most = self.chance.choice((0, 1, 20, len(request) // 2, len(request) - 1, len(request), len(request)))
            try:
                connection = connect(life.port, ROOM)
                connection.sendall(request[:most])
                if most == len(request) and self.chance.random() < 0.5:
                    connection.recv(100)
                close(connection, self.chance.random() < 0.5)
            except ConnectionError as fault:
                raise life.gone(f"{type(fault).__name__} beside clients that go") from None
            with life.lock:
                life.requests += 1
            time.sleep(self.chance.choice((0, 0.001, 0.01)))


class Together:
    """Clients that share vehicles. What an epoch saw of which the server's end came is left out."""

    REQUESTS, CLIENTS = 12, 3

    def __init__(self, group):
        self.sharing = Sharing(group, self.CLIENTS)

    def run(self, life):
        while not life.ended.is_set():
            try:
                result = self.sharing.run(life.port, self.REQUESTS)
            except (OSError, ValueError) as fault:
                raise life.gone(f"{type(fault).__name__}: {fault}") from None
            if result.complaints and not life.ended.wait(1):
                raise Unwell(result.complaints[0])
            with life.lock:
                life.requests += result.connections


class Crew:
    """Clients of one server, each in a thread, until it has ended."""

    def __init__(self, clients, life):
        self.life, self.faults = life, []
        self.threads = [threading.Thread(target=self.run, args=(client,), daemon=True) for client in clients]
        for thread in self.threads:
            thread.start()

    def run(self, client):
        try:
            client.run(self.life)
        except Gone:
            pass
        except Exception as fault:  # it's told in the thread that waits
            self.faults.append(f"{type(client).__name__}: {type(fault).__name__}: {fault}")

    def leave(self, seconds):
        """Waits for all clients, and says what was wrong."""
        begun = time.monotonic()
        for thread in self.threads:
            thread.join(max(seconds - time.monotonic() + begun, 0.01))
        if any(thread.is_alive() for thread in self.threads):
            return [*self.faults, "a client doesn't end"]
        return self.faults
