"""Measures the built server: requests a second, how long answers take, what its memory grows by, and how long it settles."""

import struct
import subprocess
import sys
import time
from pathlib import Path

from cases.replays import P, identifier, turn
from harness.building import loading_client
from serving.server import Server, success_of
from serving.settling import settled
from serving.wire import ask, get, post
from timing import in_turns, medians

VEHICLES = 1000
LOOKS = 20000
REPORTS = 20000
BATCHES, EVENTS = 512, 100
WORKERS = (1, 4)
CLIENTS = (1, 16)
KEEPERS, KEPT, LOOKED_AT = 10000, 1000000, 20
"""Vehicles and events of the server whose memory is measured, and at how many sizes it is, one as far from the next."""
KEPT_AT_ONCE = 1000
SEATS = 16
SETTLED = {300000: (2, 9375), 2240000: (14, 10000)}
"""Numbers of accepted requests that are settled, each as turns and the items of each seat in a turn. The second one puts more
than a million into either shard."""
MOST_SETTLING = 10
"""How many seconds the first of them may take; the others as much for each request."""


def vehicle(number):
    return {"provider_id": P, "device_id": identifier(1, number)}


def event(number, at):
    """The event of this turn of a vehicle, which the profile's table accepts."""
    state, kind = turn(at)
    return {
        **vehicle(number),
        "event_id": identifier(2, at),
        "vehicle_state": state,
        "event_types": [kind],
        "timestamp": 1700000000000 + at,
    }


def events_of(client, clients, count):
    """So many events of the vehicles of a client, each of which has as many vehicles as the others."""
    own = range(client, VEHICLES, clients)
    return [event(own[at % len(own)], at // len(own)) for at in range(count)]


def looks(client, clients):
    own = range(client, VEHICLES, clients)
    return [get(f"/vehicles/{P}/{identifier(1, own[at % len(own)])}") for at in range(LOOKS // clients)]


def reports(client, clients):
    return [post("/events", it) for it in events_of(client, clients, REPORTS // clients)]


def batches(client, clients):
    events = events_of(client, clients, BATCHES * EVENTS // clients)
    return [post("/events", events[at : at + EVENTS]) for at in range(0, len(events), EVENTS)]


KINDS = {
    "looks at a vehicle": (looks, 0, 14),
    "reports of one event": (reports, 1, 14),
    f"batches of {EVENTS} events": (batches, EVENTS, 200),
}
"""Of each kind its requests, how many items of each are accepted, and how many microseconds of the server's processor one is
meant to take."""
SIDES = ((1, 1), (1, 4), (4, 4), (4, 16), (4, 64))
"""Numbers of workers and of clients at which two servers are compared."""


def processor_time(child):
    """The seconds of the processors that a process took so far, by the clock that Linux has for it (clock_getcpuclockid(3))."""
    return time.clock_gettime(~child.pid << 3 | 2)


def files_of(folder, requests_of, clients):
    """A file of requests for each client, and how many requests there are."""
    paths, count = [], 0
    for client in range(clients):
        requests = requests_of(client, clients)
        paths.append(Path(folder, f"requests-{client}"))
        paths[-1].write_bytes(b"".join(struct.pack("<I", len(request)) + request for request in requests))
        count += len(requests)
    return paths, count


def register(server, numbers=range(VEHICLES)):
    before = server.success
    answered = server.ask(post("/vehicles", [vehicle(number) for number in numbers]))
    if server.success - before != len(numbers):
        sys.exit(f"registered {answered[:500]!r}")


def ended(server):
    for complaint in server.end():
        sys.exit(complaint)


class ServeBench:
    """Measures a program that takes the words of `serve`, by so many runs each, with files in a folder."""

    def __init__(self, program, runs, folder):
        self.program = program
        self.runs = runs
        self.folder = folder
        self.client = loading_client()

    def once(self, paths, count, success, workers):
        """The requests a second, the two percentiles in microseconds, and the processor time of the server and of the client
        in microseconds a request."""
        with Server(self.program, count // workers + 2, workers=workers) as server:
            register(server)
            before = processor_time(server.child)
            words = [self.client, str(server.port), *paths]
            told = subprocess.run(words, capture_output=True, text=True, check=True).stdout.split()
            used = processor_time(server.child) - before
            if [int(word) for word in told[:3]] != [count, count, count * success]:
                sys.exit(f"{told} of {count} requests")
            server.count(count, count * success)
            ended(server)
        seconds, half, most, own = map(float, told[3:7])
        return count / seconds, half, most, used / count * 1e6, own / count * 1e6

    def measure(self):
        """Prints a table of the kinds of requests, with few and more workers and clients."""
        heads = "requests a second | median, µs | 99th percentile, µs | server's processor, µs | aim, µs | client's, µs"
        print(f"| what is asked | workers | clients | {heads} |")
        print("|---|---:|---:|---:|---:|---:|---:|---:|---:|")
        for name, (requests_of, success, aim) in KINDS.items():
            for clients in CLIENTS:
                paths, count = files_of(self.folder, requests_of, clients)
                for workers in WORKERS:
                    runs = [self.once(paths, count, success, workers) for _ in range(self.runs)]
                    *times, own = medians(runs)
                    cells = " | ".join(f"{number:,.0f}" for number in (*times, aim, own))
                    print(f"| {name} | {workers} | {clients} | {cells} |", flush=True)

    def keep(self, kept=KEPT):
        """Prints what a registration and an accepted event take, at most at each of some sizes, and how long the server settles
        behind the last answer."""
        step = kept // LOOKED_AT
        with Server(self.program, (kept + KEEPERS) // KEPT_AT_ONCE + 3) as server:
            # the room for a batch is had once, and isn't what is kept of it
            server.ask(post("/vehicles", [{"device_id": identifier(1, at)} for at in range(KEPT_AT_ONCE)]))
            server.ask(post("/events", [event(KEEPERS, at) for at in range(KEPT_AT_ONCE)]))
            empty = server.memory()
            for at in range(0, KEEPERS, KEPT_AT_ONCE):
                register(server, range(at, at + KEPT_AT_ONCE))
            before, most = server.memory(), 0
            for at in range(0, kept, KEPT_AT_ONCE):
                events = [event(number % KEEPERS, number // KEEPERS) for number in range(at, at + KEPT_AT_ONCE)]
                server.ask(post("/events", events))
                if (at + KEPT_AT_ONCE) % step == 0:
                    most = max(most, (server.memory() - before) / (at + KEPT_AT_ONCE))
            after, start = server.memory(), time.monotonic()
            ended(server)
            seconds = time.monotonic() - start
        print(f"\n{KEEPERS:,} registrations: {(before - empty) / KEEPERS:,.0f} bytes each.")
        print(f"{kept:,} accepted events: {(after - before) / kept:,.1f} bytes each, and {most:,.1f} at most on the way.")
        print(f"The server then held {after / 1e6:,.0f} MB. Settling, and ending: {seconds:.3f} s.", flush=True)

    def settle(self):
        """Prints how long the server settles what many seats accepted. It ends the benchmark where that takes too long."""
        for count, (turns, items) in SETTLED.items():
            seconds = settled(self.program, SEATS, turns, items)
            print(f"Settling {count:,} accepted requests of {SEATS} seats, and ending: {seconds:.3f} s.", flush=True)
            if seconds > MOST_SETTLING * count / min(SETTLED):
                sys.exit("settling takes too long")


def measure_beside(own, other):
    """Prints a table of the requests a second of two servers, and of what the processor of each takes for a request."""
    heads = "requests a second | of the plain program | ratio | processor, µs | of the plain program, µs | ratio"
    print(f"| what is asked | workers | clients | {heads} |")
    print("|---|---:|---:|---:|---:|---:|---:|---:|---:|")
    for name, (requests_of, success, _) in KINDS.items():
        for workers, clients in SIDES:
            paths, count = files_of(own.folder, requests_of, clients)
            measures = [lambda bench=bench: bench.once(paths, count, success, workers) for bench in (own, other)]
            (rate, _, _, used, _), (plain_rate, _, _, plain_used, _) = in_turns(own.runs, *measures)
            rates = f"{rate:,.0f} | {plain_rate:,.0f} | {rate / plain_rate:.2f}"
            processor = f"{used:,.0f} | {plain_used:,.0f} | {plain_used / used:.2f}"
            print(f"| {name} | {workers} | {clients} | {rates} | {processor} |", flush=True)
