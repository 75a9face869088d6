"""Many clients at once, each of whose answers a model of the rules allows.

A client with vehicles of its own knows each of its answers. Clients that share vehicles don't: of theirs only what every
order allows is looked at, against the list of accepted events that the server has at the end. That list is lawful; each of
its events was sent, and acknowledged once; and to each answer there is a front of it that gives it, no shorter than what
answers before had shown, to whichever client, and without an event that was sent only later."""

import heapq
import json
import random
import threading
import time
from dataclasses import dataclass, field

from cases.replays import identifier
from cases.tables import PROFILE, STATES
from model.fleet import Fleet, Vehicle, refusal_by
from model.http import answer, error
from model.items import EVENT, VEHICLE, key_of
from model.tables import Table, Tables
from serving.server import Server, success_of
from serving.wire import ask, get, post

TYPES = sorted({kind for kind, _, _ in PROFILE})
MOVES = {state: [] for state in STATES}
for kind, pairs in Table().rows.items():
    for start, end in sorted(pairs):
        MOVES[start].append((kind, end))


def some_event(random, key, identifier, held, time):
    """An event that a vehicle in this state accepts, more often than not."""
    state, types = held, []
    for _ in range(random.choice((1, 1, 1, 2, 3))):
        kind, state = random.choice(MOVES[state])
        types.append(kind)
    if random.random() < 0.15:
        types[random.randrange(len(types))] = random.choice([*TYPES, "never_heard_of"])
    if random.random() < 0.1:
        state = random.choice(STATES)
    where = {"lat": random.randint(-900000000, 900000000), "lng": random.randint(-1800000000, 1800000000)}
    return {
        "provider_id": key[0],
        "device_id": key[1],
        "event_id": identifier,
        "vehicle_state": state,
        "event_types": types,
        "timestamp": time,
        "location_e7": where if random.random() < 0.3 else None,
    }


def spoilt(random, event):
    """The event with a fault in its form."""
    name = random.choice(EVENT[:-1])
    kind = random.randrange(3)
    if kind == 0:
        return {other: value for other, value in event.items() if other != name}
    return {**event, name: {}} if kind == 1 else random.choice([7, None, "text", []])


@dataclass
class Result:
    """What clients did: their connections, what their answers said to be accepted, and what was wrong."""

    connections: int = 0
    success: int = 0
    complaints: list = field(default_factory=list)

    def add(self, other):
        self.connections += other.connections
        self.success += other.success
        self.complaints += other.complaints[:5]


class Alone:
    """A client with vehicles of its own, and a model of them. Vehicles that have many events are left behind."""

    MOST_VEHICLES = 20
    MOST_EVENTS = 30

    def __init__(self, number):
        self.random = random.Random(number)
        self.provider = identifier(0, number)
        self.fleet = Fleet()
        self.numbers = 0
        self.keys = []

    def new_number(self):
        self.numbers += 1
        return self.numbers

    def some_key(self):
        """A vehicle that is registered, or now and then one that isn't."""
        if not self.keys or self.random.random() < 0.05:
            return self.provider, identifier(2, self.new_number())
        return self.random.choice(self.keys)

    def some_item(self):
        """An event of a vehicle, now and then with something wrong."""
        key = self.some_key()
        vehicle = self.fleet.vehicles.get(key, Vehicle())
        number = identifier(3, self.new_number())
        if vehicle.events and self.random.random() < 0.05:
            number = self.random.choice(vehicle.events)["event_id"]
        last = vehicle.events[-1]["timestamp"] if vehicle.events else 1700000000000
        moment = max(last + self.random.choice((0, 1, 1000, 60000, 60000, -1)), 0)
        event = some_event(self.random, key, number, vehicle.held(), moment)
        return spoilt(self.random, event) if self.random.random() < 0.05 else event

    def exchange(self):
        """A request, and the answer that has to come."""
        self.leave_behind()
        chance = self.random.random()
        if len(self.keys) < self.MOST_VEHICLES and chance < 0.3:
            return self.registration()
        if chance < 0.6:
            return self.look()
        count = 1 if chance < 0.85 else self.random.randint(2, 5)
        items = [self.some_item() for _ in range(count)]
        single = count == 1 and isinstance(items[0], dict) and chance < 0.75
        wanted = answer(200, self.fleet.take(items, EVENT))
        return post("/events", items[0] if single else items), wanted

    def registration(self):
        keys = [self.some_key() for _ in range(self.random.randint(1, 3))]
        keys.append((self.provider, identifier(2, self.new_number())))
        items = [{"provider_id": provider, "device_id": device} for provider, device in keys]
        wanted = answer(200, self.fleet.take(items, VEHICLE))
        self.keys = list(self.fleet.vehicles)
        return post("/vehicles", items), wanted

    def look(self):
        key = self.some_key()
        vehicle, target = self.fleet.vehicles.get(key), f"/vehicles/{key[0]}/{key[1]}"
        whole = self.random.random() < 0.1
        request = get(f"{target}/events" if whole else target)
        if vehicle is None:
            return request, error(404, "unregistered")
        return request, answer(200, {"events": vehicle.events} if whole else vehicle.standing(key))

    def leave_behind(self):
        for key in [key for key in self.keys if len(self.fleet.vehicles[key].events) >= self.MOST_EVENTS]:
            del self.fleet.vehicles[key]
            self.keys.remove(key)

    def run(self, port, requests):
        """Makes so many requests."""
        result = Result()
        for _ in range(requests):
            request, wanted = self.exchange()
            found = ask(port, request)
            result.connections += 1
            result.success += success_of(found)
            if found != wanted:
                result.complaints.append(f"{request!r} was answered {found!r}, in place of {wanted!r}")
                break
        return result


@dataclass
class Seen:
    """What one answer said of one vehicle, between two moments."""

    client: int
    start: int
    end: int
    key: tuple
    event: dict = None
    """The event that was reported, or None for a look."""
    said: object = None
    """Its refusal (None: accepted); the standing of a look; the list of a look at events."""


class Sharing:
    """Clients that report the same vehicles."""

    VEHICLES = 3

    def __init__(self, group, clients):
        self.group = group
        self.clients = clients
        self.epochs = 0
        self.random = random.Random(group)

    @classmethod
    def connections(cls, clients, requests):
        """How many connections an epoch of so many requests of each client takes."""
        return clients * requests + 1 + 2 * cls.VEHICLES

    def run(self, port, requests):
        """An epoch: vehicles are registered, each client makes so many requests, and what they saw is looked at."""
        self.epochs += 1
        provider = identifier(1, self.group)
        keys = [(provider, identifier(4, self.epochs * self.VEHICLES + at)) for at in range(self.VEHICLES)]
        items = [{"provider_id": provider, "device_id": device} for _, device in keys]
        registered = ask(port, post("/vehicles", items))
        seen = [[] for _ in range(self.clients)]
        seeds = [self.random.random() for _ in range(self.clients)]
        threads = [
            threading.Thread(target=sharer, args=(port, number, seeds[number], keys, requests, seen[number]))
            for number in range(self.clients)
        ]
        for thread in threads:
            thread.start()
        for thread in threads:
            thread.join()
        everything = [it for of_client in seen for it in of_client if not isinstance(it, str)]
        faults = [it for of_client in seen for it in of_client if isinstance(it, str)]
        success = success_of(registered) + sum(it.event is not None and it.said is None for it in everything)
        for key in keys:
            faults += judged(port, key, [it for it in everything if it.key == key])
        return Result(self.connections(self.clients, requests), success, faults)


def sharer(port, number, seed, keys, requests, seen):
    """A client that shares these vehicles: it makes requests, and adds what it saw to the list, or a text that tells what was
    wrong. The state that it takes a vehicle to hold is the last that it saw."""
    chance = random.Random(seed)
    held = dict.fromkeys(keys, "removed")
    for turn in range(requests):
        try:
            if chance.random() < 0.3:
                looked_at(port, number, chance, keys, held, seen)
            else:
                reported(port, number, chance, keys, held, seen, turn)
        except (OSError, ValueError, KeyError, IndexError) as fault:
            seen.append(f"client {number}: {type(fault).__name__}: {fault}")
            return


def value_of(answered):
    """The value that the body of an answer with status 200 is."""
    head, _, body = answered.partition(b"\r\n\r\n")
    if answered != answer(200, body.decode()):
        raise ValueError(f"{answered[:200]!r}")
    return json.loads(body)


def looked_at(port, number, chance, keys, held, seen):
    key = chance.choice(keys)
    whole = chance.random() < 0.2
    request = get(f"/vehicles/{key[0]}/{key[1]}{'/events' if whole else ''}")
    start = time.monotonic_ns()
    answered = ask(port, request)
    end = time.monotonic_ns()
    said = value_of(answered)
    seen.append(Seen(number, start, end, key, said=said["events"] if whole else said))
    if not whole:
        held[key] = said["vehicle_state"]


def reported(port, number, chance, keys, held, seen, turn):
    """Reports one event or some; now and then under an identifier that others use, too."""
    events = []
    for at in range(chance.choice((1, 1, 1, 3))):
        key = chance.choice(keys)
        own = identifier(5 + number, 10 * turn + at)
        name = identifier(4, chance.randrange(50)) if chance.random() < 0.1 else own
        moment = 1700000000000 + turn + chance.choice((0, 0, 0, -3, 3))
        events.append(some_event(chance, key, name, held[key], moment))
    start = time.monotonic_ns()
    answered = ask(port, post("/events", events))
    end = time.monotonic_ns()
    said = value_of(answered)
    refusals = {it.pop("index"): it for it in said["failures"]}
    if len(refusals) != len(said["failures"]) or len(refusals) + said["success"] != len(events) != said["total"]:
        raise ValueError(f"{answered[:500]!r}")
    for index, event in enumerate(events):
        refusal = refusals.get(index)
        seen.append(Seen(number, start, end, key_of(event), event, refusal))
        if refusal is None:
            held[key_of(event)] = event["vehicle_state"]
        elif "held" in refusal:
            held[key_of(event)] = refusal["held"]


class Fronts:
    """The fronts of a vehicle's list of accepted events, by their lengths."""

    def __init__(self, key, events):
        self.key, self.events, self.tables = key, events, Tables.one()
        self.places = {event["event_id"]: place for place, event in enumerate(events)}

    def front(self, length):
        """The vehicle after so many of its events."""
        events = self.events[:length]
        return Vehicle(events, {event["event_id"] for event in events})

    def unlawful(self):
        """The first event that isn't accepted behind those before it, in words."""
        vehicle = Vehicle()
        for place, event in enumerate(self.events):
            refusal = refusal_by(self.tables, vehicle, event)
            if refusal:
                return f"{self.key}: event {place} of the list, {event}, is {refusal}"
            vehicle.accept(event)
        return None

    def gives(self, length, seen):
        """Whether the front of this length gives the answer."""
        if seen.event is None:
            if isinstance(seen.said, list):
                return seen.said == self.events[:length]
            return seen.said == self.front(length).standing(self.key)
        if seen.said is None:
            return self.places.get(seen.event["event_id"]) == length and self.events[length] == seen.event
        refusal = refusal_by(self.tables, self.front(length), seen.event)
        return refusal == seen.said

    def least(self, seen, least, most):
        """The length of the least front, not shorter and not longer than these, that gives the answer, or None."""
        if seen.event is None:
            length = len(seen.said) if isinstance(seen.said, list) else seen.said["events"]
            candidates = [length] if least <= length <= most else []
        else:
            candidates = range(least, most + 1)
        return next((length for length in candidates if self.gives(length, seen)), None)


def judged(port, key, seen):
    """What is wrong with what was seen of a vehicle, in words."""
    target = f"/vehicles/{key[0]}/{key[1]}"
    try:
        events, standing = value_of(ask(port, get(f"{target}/events")))["events"], value_of(ask(port, get(target)))
    except (OSError, ValueError) as fault:
        return [f"{key}: {type(fault).__name__}: {fault}"]
    fronts = Fronts(key, events)
    unlawful = fronts.unlawful()
    if unlawful:
        return [unlawful]
    if standing != fronts.front(len(events)).standing(key):
        return [f"{key}: {standing} isn't where {len(events)} events leave it"]
    accepted = [it.event["event_id"] for it in seen if it.event is not None and it.said is None]
    if sorted(accepted) != sorted(fronts.places):
        return [f"{key}: {len(accepted)} acknowledged and {len(events)} listed, {len(fronts.places)} of them different"]
    return list(out_of_order(fronts, seen))


def out_of_order(fronts, seen):
    """Answers that no front gives that has all that was seen before, and nothing that was sent later."""
    starts = {it.event["event_id"]: it.start for it in seen if it.event is not None and it.said is None}
    sent = [starts[event["event_id"]] for event in fronts.events]
    shown, ended, of_client = 0, [], {}
    for it in sorted(seen, key=lambda it: it.start):
        while ended and ended[0][0] < it.start:
            shown = max(shown, heapq.heappop(ended)[1])
        least = max(shown, of_client.get(it.client, 0))
        most = next((place for place in range(least, len(sent)) if sent[place] > it.end), len(sent))
        length = fronts.least(it, least, most)
        if length is None:
            yield f"{fronts.key}: no front of {least} to {most} events gives {it}"
            return
        length += it.event is not None and it.said is None
        of_client[it.client] = length
        heapq.heappush(ended, (it.end, length))


def alone_run(port, number, requests, results):
    results.append(Alone(number).run(port, requests))


def each_on_vehicles_of_its_own(program):
    """Eight clients, each of which knows all its answers, over four workers and over one."""
    for workers, requests in ((4, 400), (1, 100)):
        with Server(program, 8 * requests // workers, workers=workers) as server:
            results = []
            threads = [
                threading.Thread(target=alone_run, args=(server.port, number, requests, results)) for number in range(8)
            ]
            for thread in threads:
                thread.start()
            for thread in threads:
                thread.join()
            for result in results:
                server.count(result.connections, result.success)
                yield from result.complaints
            if len(results) < 8:
                yield "a client gave up"
            yield from server.end()


def on_vehicles_that_they_share(program):
    """Eight clients that report the same three vehicles."""
    for workers in (4, 8):
        clients, requests, epochs = 8, 60, 6
        connections = epochs * Sharing.connections(clients, requests)
        with Server(program, connections // workers + 1, workers=workers) as server:
            group = Sharing(1, clients)
            for _ in range(epochs):
                result = group.run(server.port, requests)
                server.count(result.connections, result.success)
                yield from result.complaints
            yield from server.end()


TOGETHER = [each_on_vehicles_of_its_own, on_vehicles_that_they_share]
