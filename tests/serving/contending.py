"""Clients that contend for one vehicle, over few workers and many, in orders that a seed shuffles, and with growths of memory
refused meanwhile.

Each server ends by settling: it says how many requests it accepted, and that what its workers noted fits its histories."""

import os
import random
import threading
import time
from concurrent.futures import ProcessPoolExecutor
from dataclasses import dataclass, field
from itertools import repeat

from cases.replays import identifier
from harness.building import Refusal, built
from harness.case import NO_MEMORY, SOCKET
from model.http import error
from serving.growths import FIXED, out_of_memory
from serving.http import done
from serving.server import NotListening, Server
from serving.together import Fronts, Result, Sharing, some_event, value_of
from serving.wire import ask, get, post

SCHEDULES = [(2, 4, 30), (8, 8, 15), (64, 32, 5)]
"""Workers, clients, and requests of each client: as many vehicles would be no contention."""
SEEDS = 4
AT_ONCE, EPOCH = 4, 100
"""How many schedules of many run side by side, and after how many it is printed what they came to."""
LACKS = 8
"""How many seeds there are for each number of workers where growths are refused."""
MOST_GROWTH, MOST_LACK = 12000, 40
"""The growth that is refused is up to the one, and as many as the other are from there on."""


class OneVehicle(Sharing):
    """Clients that share one vehicle."""

    VEHICLES = 1


def shuffled(seed, env=None):
    """The environment in which threads are delayed by a seed."""
    env = dict(os.environ if env is None else env)
    shim = built("delay-growth.so", "tests/delay-growth.c", "-shared", "-fPIC", "-O1", "-ldl")
    loaded = " ".join([name for name in (env.get("LD_PRELOAD"), str(shim)) if name])
    return {**env, "LD_PRELOAD": loaded, "SEED": str(seed)}


def one_schedule(program, workers, clients, requests, seed):
    """What clients did that share one vehicle, in the order of this seed, and what is wrong with it and with how the server
    settles."""
    each = OneVehicle.connections(clients, requests) // workers + 1
    with Server(program, each, workers=workers, env=shuffled(seed)) as server:
        result = OneVehicle(seed, clients).run(server.port, requests)
        server.count(result.connections, result.success)
        result.complaints += server.end()
    return result


def on_one_vehicle(program):
    """Clients that report one vehicle, over 2, 8 and 64 workers, in the orders of some seeds."""
    for workers, clients, requests in SCHEDULES:
        for seed in range(1, SEEDS + 1):
            for complaint in one_schedule(program, workers, clients, requests, seed).complaints:
                yield f"{workers} workers, seed {seed}: {complaint}"


def scheduled(program, seed):
    """The schedule of a seed, over 2, 8 or 64 workers by turns."""
    return one_schedule(program, *SCHEDULES[seed % len(SCHEDULES)], seed)


def by_many_seeds(program, count):
    """The same by so many seeds, a few of them side by side; prints what they came to."""
    start, whole = time.monotonic(), Result()
    with ProcessPoolExecutor(AT_ONCE) as pool:
        for seed, result in enumerate(pool.map(scheduled, repeat(program), range(1, count + 1)), 1):
            whole.add(result)
            for complaint in result.complaints:
                yield f"seed {seed}: {complaint}"
            if seed % EPOCH == 0 or seed == count:
                seconds, made = time.monotonic() - start, f"{whole.connections} connections, {whole.success} items accepted"
                print(f"{seconds:.0f} s: {seed} schedules, {made}", flush=True)


@dataclass
class Said:
    """What clients that met with refused growths know of their vehicle's events, by their identifiers."""

    sent: dict = field(default_factory=dict)
    accepted: set = field(default_factory=set)
    refused: set = field(default_factory=set)
    """Those that weren't accepted: refused by the rules, or without memory for them."""
    lost: int = 0
    """How many connections had no answer."""
    complaints: list = field(default_factory=list)
    lock: object = field(default_factory=threading.Lock)

    def note(self, event, found):
        """Notes the answer to this event, or that there was none."""
        name = event["event_id"]
        with self.lock:
            self.sent[name] = event
            self.lost += not found
            if found == done(1):
                self.accepted.add(name)
            elif found == out_of_memory(0) or found and is_refusal(found):
                self.refused.add(name)
            elif found not in (b"", FIXED):
                self.complaints.append(f"{event} was answered {found[:300]!r}")


def is_refusal(found):
    """Whether an answer says that its one event was refused."""
    try:
        said = value_of(found)
    except ValueError:
        return False
    return said.get("total") == 1 and said["success"] == 0 and len(said["failures"]) == 1


def asked(port, request):
    """An answer, or no bytes where the connection was lost, as one is for which there is no memory."""
    try:
        return ask(port, request)
    except OSError:
        return b""


def contender(port, number, seed, key, requests, said):
    """A client that reports so many events of the vehicle, each of which could be accepted in some state of it."""
    chance, held = random.Random(seed), "removed"
    for turn in range(requests):
        try:
            event = some_event(chance, key, identifier(5 + number, turn), held, 1700000000000)
        except IndexError:
            said.complaints.append(f"no event leads from {held!r}, which the vehicle was told to hold")
            return
        found = asked(port, post("/events", [event]))
        said.note(event, found)
        if found == done(1):
            held = event["vehicle_state"]
        elif found and is_refusal(found):
            held = value_of(found)["failures"][0].get("held", held)


def until_told(port, request, said):
    """The answer to a request that is made again where there is no memory for it, or None where the server is gone."""
    for _ in range(MOST_LACK + 2):
        found = asked(port, request)
        if found not in (b"", FIXED, out_of_memory(0)):
            return found
        said.lost += not found
    return None


def contended(server, workers, clients, requests, seed):
    """What clients said of a vehicle for which they contend, and its list of events then, or None where no worker is left."""
    said, key = Said(), (identifier(1, seed), identifier(4, 1))
    registration = post("/vehicles", [{"provider_id": key[0], "device_id": key[1]}])
    if until_told(server.port, registration, said) is None:
        return said, None
    threads = [
        threading.Thread(target=contender, args=(server.port, number, seed + number, key, requests, said))
        for number in range(clients)
    ]
    for thread in threads:
        thread.start()
    for thread in threads:
        thread.join()
    found = until_told(server.port, get(f"/vehicles/{key[0]}/{key[1]}/events"), said)
    return said, None if found is None else Fronts(key, value_of(found)["events"])


def judged(said, fronts):
    """What is wrong with a vehicle's list: it is lawful, has each event that was acknowledged and none that was refused, as it
    was sent."""
    yield from said.complaints
    unlawful = fronts.unlawful()
    if unlawful:
        yield unlawful
    listed = set(fronts.places)
    if len(listed) != len(fronts.events):
        yield f"{len(fronts.events)} events listed, {len(listed)} of them different"
    if not said.accepted <= listed:
        yield f"{sorted(said.accepted - listed)} were acknowledged, and aren't listed"
    if said.refused & listed:
        yield f"{sorted(said.refused & listed)} were refused, and are listed"
    for event in fronts.events:
        if said.sent.get(event["event_id"]) != event:
            yield f"{event} is listed, and wasn't sent so"


def drained(server):
    """Makes connections until the server ends, and answers how many had no answer before, or in words what they had."""
    lost = 0
    while server.child.poll() is None:
        try:
            found = ask(server.port, get("/"))
        except ConnectionRefusedError:
            break
        except OSError:
            found = b""
        lost += not found
        if found not in (b"", error(404, "not_found"), FIXED):
            return f"at the end, {found!r}"
    return lost


def settled(server, said, fronts):
    """What is wrong with the end of a server: it tells how many requests it accepted. Where a connection had no answer it may
    end otherwise: its worker was gone, or there was no memory left to settle."""
    lost = drained(server)
    ended = server.ended()
    others = [(4, "", NO_MEMORY)]
    if isinstance(lost, str) or said.lost or lost:
        others.append((3, "", SOCKET))
    counted = fronts and (0, f"accepted {1 + len(fronts.events)}\n", "")
    if isinstance(lost, str) or ended not in [counted, *others]:
        yield f"{lost} without an answer, and ended with {ended}, in place of {counted} or {others}"


def one_lack(program, workers, clients, requests, seed):
    """What is wrong where so many growths are refused while clients contend for a vehicle, by a seed."""
    chance = random.Random(seed)
    number, many = chance.randint(1, MOST_GROWTH), chance.choice((1, 1, MOST_LACK))
    with Refusal(number, many) as refusal:
        try:
            each = (clients * requests + 3 * MOST_LACK) // workers + 1
            with Server(program, each, workers=workers, env=shuffled(seed, refusal.env)) as server:
                said, fronts = contended(server, workers, clients, requests, seed)
                if fronts:
                    yield from judged(said, fronts)
                yield from settled(server, said, fronts)
        except NotListening as fault:
            if fault.ended != (4, "", NO_MEMORY):
                yield str(fault)


def growths_refused_amid_contention(program):
    """The same clients, with growths refused at a place that a seed says: one, or forty after each other."""
    for workers, clients, requests in SCHEDULES:
        for seed in range(1, LACKS + 1):
            for complaint in one_lack(program, workers, clients, requests, seed):
                yield f"{workers} workers, seed {seed}: {complaint}"


CONTENDING = [on_one_vehicle, growths_refused_amid_contention]
