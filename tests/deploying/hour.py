"""Twelve servers behind their proxies, which Prometheus watches, beside clients that report events as a city has them in a day. One
provider is hostile by turns."""

import contextlib
import itertools
import json
import math
import multiprocessing
import os
import statistics
import threading
import time
from collections import Counter, defaultdict

from deploying import flooding
from deploying.alarms import exporter
from deploying.city_of_twelve import NAMES, CityOfTwelve
from deploying.passing import padded, path_of, sent
from deploying.proxies import free_ports, installed, read_answer, token_of
from deploying.vehicles import event, vehicle
from deploying.watching import Watch
from harness.counting import Unwell
from harness.stalls import stalled, watch as watch_stalls
from model.json_text import compact

HOSTILE = len(NAMES)
"""The number of the hostile provider, from 1."""
AN_HOUR, EVENTS = 3600, 400000
"""How many events the others report in how many seconds."""
AT_ONCE, VEHICLES = 2, 200
"""How many events a report has, and how many vehicles a provider."""
PACE = AT_ONCE * (HOSTILE - 1) * AN_HOUR / EVENTS
"""How many seconds lie between two reports of one provider."""
HASTE = 0.6
"""Which part of its pace a provider leaves between two reports where it is late: what happened meanwhile is reported, too."""
LEAST = 0.9
"""Which part of what another provider reports in a second it still reports beside the hostile one."""
SLOW, JUNK = 100, 10000
"""Connections of the hostile one that send a byte now and then, and the items of a long report."""
ENDING = 60
"""How many seconds a process of the hostile one may take to end."""
NICE = 10
"""The hostile one stands for another machine, so it takes no processor from the servers."""
QUIET, BESIDE = "without it", "beside it"


def exchange(connection, request):
    connection.sendall(request)
    return read_answer(connection)


# The others


class Provider(threading.Thread):
    """A provider that reports its vehicles' events at its pace, and notes how long each report took, in which turn."""

    def __init__(self, city, number, reports, turn):
        super().__init__()
        self.city, self.number, self.reports, self.turn = city, number, reports, turn
        self.owners = [vehicle(city.providers[number - 1], at) for at in range(VEHICLES)]
        self.waits, self.success, self.wrong = defaultdict(list), 0, []
        self.over = threading.Event()

    def ask(self, method, target, body=b""):
        with self.city.connect() as connection:
            return exchange(connection, sent(method, target, token_of(self.number), body))

    def register(self):
        status, _, body = self.ask("POST", "/vehicles", compact(self.owners).encode())
        if status != 200 or json.loads(body)["success"] != VEHICLES:
            raise Unwell(f"provider {self.number}: {status} {body[:200]}")

    def batches(self):
        """Events of all vehicles in turn: each is put on the street, and makes trips."""
        for number in itertools.count(0, AT_ONCE):
            turn, front = divmod(number, VEHICLES)
            types, state = (["trip_start"], "on_trip") if turn % 2 else (["trip_end" if turn else "provider_drop_off"], "available")
            owners = self.owners[front : front + AT_ONCE]
            yield [event(owner, number + at, types, state) for at, owner in enumerate(owners)]

    def run(self):
        due = following = time.monotonic() + PACE * self.number / HOSTILE
        for listed in itertools.islice(self.batches(), self.reports):
            if self.over.wait(max(0, following - time.monotonic())) or self.wrong:
                return
            due, following = due + PACE, max(due + PACE, time.monotonic() + HASTE * PACE)
            self.report(listed)

    def report(self, listed):
        turn, begun = self.turn(), time.monotonic()
        try:
            status, _, body = self.ask("POST", "/events", compact(listed).encode())
        except (OSError, Unwell) as fault:
            self.wrong.append(f"provider {self.number}: {type(fault).__name__} {fault}")
            return
        self.waits[turn].append(time.monotonic() - begun - stalled(begun))
        done = json.loads(body)["success"] if status == 200 else 0
        self.success += done
        if done != AT_ONCE:
            self.wrong.append(f"provider {self.number}: {status} {body[:200]}")


# The hostile one


def flood(city, is_on, told):
    """Reports without a pause, on connections that are kept."""
    request = sent("POST", "/events", token_of(HOSTILE), b"[]").replace(b"Connection: close\r\n", b"")
    flooding.flood(city, request, is_on, told)


def fill(city, is_on, told, numbers=itertools.count()):
    """Registers as many vehicles at once as a report takes, again and again."""
    while is_on():
        front = JUNK * next(numbers) + VEHICLES
        body = compact([vehicle(city.providers[HOSTILE - 1], front + at) for at in range(JUNK)]).encode()
        with city.connect() as connection:
            status, _, _ = exchange(connection, sent("POST", "/vehicles", token_of(HOSTILE), body))
        told[status] = told.get(status, 0) + 1


def trickle(city, is_on, told):
    """Reports of which a byte comes now and then."""
    with contextlib.ExitStack() as stack:
        slow = [stack.enter_context(city.connect()) for _ in range(SLOW)]
        head = sent("POST", "/events", token_of(HOSTILE), padded("[7]", 1000).encode())
        for connection in slow:
            connection.sendall(head[:-999])
        while is_on():
            time.sleep(1)
            for connection in slow:
                with contextlib.suppress(OSError):
                    connection.sendall(b" ")


def ask_of_others(city, is_on, told):
    """Asks for what it may not, by new connections."""
    while is_on():
        for target, token in ((path_of(city.providers[0]), token_of(HOSTILE)), ("/table", "0" * 64), ("/table", token_of(HOSTILE))):
            with city.connect() as connection:
                status, _, _ = exchange(connection, sent("GET", target, token))
            told[status] = told.get(status, 0) + 1


def going_on(kind, city, is_on, told):
    """Goes on with a kind, also where a connection breaks off."""
    while is_on():
        with contextlib.suppress(OSError, Unwell):
            kind(city, is_on, told)


def be_hostile(kinds, city, turn_on, over, pipe):
    """A process of the hostile one: it is hostile while that is its turn, and tells at its end how often it had which status."""
    os.nice(NICE)
    told = {}
    while not over.is_set():
        if not turn_on.wait(0.2):
            continue
        threads = [threading.Thread(target=going_on, args=(kind, city, turn_on.is_set, told)) for kind in kinds]
        for thread in threads:
            thread.start()
        for thread in threads:
            thread.join()
    pipe.send(told)


class Hostile:
    """The hostile one, in processes of its own. As a context it is ended."""

    def __init__(self, city):
        of = multiprocessing.get_context("fork")
        self.turn_on, self.over, self.processes, self.statuses = of.Event(), of.Event(), [], Counter()
        for kinds in ([flood], [fill, trickle, ask_of_others]):
            ours, theirs = of.Pipe()
            words = (kinds, city, self.turn_on, self.over, theirs)
            self.processes.append((of.Process(target=be_hostile, args=words), ours))

    def __enter__(self):
        for process, _ in self.processes:
            process.start()
        return self

    def __exit__(self, *_):
        self.turn_on.clear()
        self.over.set()
        for process, told in self.processes:
            if told.poll(ENDING):
                self.statuses.update(told.recv())
            process.join(ENDING)
            process.kill()


# A run


class Hour:
    """A run of so many turns, each of so many seconds without the hostile one and as many beside it."""

    def __init__(self, program, turns, seconds, factor):
        self.program, self.turns, self.seconds, self.factor = program, turns, seconds, factor
        self.turn = QUIET

    def complaints(self, told=lambda text: None):
        """What went wrong; and it is told how it went."""
        for name in ("prometheus", "prometheus-node-exporter"):
            installed(name)
        watch_stalls()
        with contextlib.ExitStack() as stack:
            city = stack.enter_context(CityOfTwelve(self.program))
            (machine,) = free_ports(1)
            stack.callback(exporter(city.folder, machine).stop)
            hostile = Hostile(city)
            reports = math.ceil(2 * self.turns * self.seconds / PACE)
            others = [Provider(city, number, reports, lambda: self.turn) for number in range(1, HOSTILE)]
            watch = stack.enter_context(Watch(dict(zip(NAMES, city.metrics)), city.figures, machine, factor=self.factor))
            for provider in others:
                provider.register()
            begun = time.monotonic()
            with hostile:
                self.run(hostile, others)
            lasted = time.monotonic() - begun
            yield from (it for provider in others for it in provider.wrong)
            yield from slowed(others, told)
            yield from self.hostile_amiss(hostile, told)
            yield from as_prometheus_has_it(watch, others, lasted, told)

    def run(self, hostile, others):
        """Lets the others report, and the hostile one by turns."""
        for provider in others:
            provider.start()
        try:
            for _ in range(self.turns):
                time.sleep(self.seconds)
                self.turn = BESIDE
                hostile.turn_on.set()
                time.sleep(self.seconds)
                hostile.turn_on.clear()
                self.turn = QUIET
            for provider in others:
                provider.join()
        finally:
            for provider in others:
                provider.over.set()

    def hostile_amiss(self, hostile, told):
        told(f"the hostile one had {dict(sorted(hostile.statuses.items()))}")
        if not {200, 401, 403, 429} <= set(hostile.statuses):
            yield f"the hostile one had only {hostile.statuses}"


class Slower(str):
    """That another provider reported less in a second beside the hostile one."""


def slowed(others, told):
    """Which of the others reported less in a second beside the hostile one."""
    for provider in others:
        quiet, beside = (1 / statistics.mean(max(PACE, wait) for wait in provider.waits[turn]) for turn in (QUIET, BESIDE))
        if beside < LEAST * quiet:
            made = f"provider {provider.number} made {beside:.2f} reports a second beside the hostile one"
            yield Slower(f"{made}, and {quiet:.2f} without it")
    for turn in (QUIET, BESIDE):
        waits = sorted(wait for provider in others for wait in provider.waits[turn])
        median, hundredth, longest = (1000 * it for it in (statistics.median(waits), waits[-len(waits) // 100], waits[-1]))
        told(f"{turn}: {len(waits)} reports; waits: median {median:.1f} ms, one in 100 over {hundredth:.0f} ms, longest {longest:.0f} ms")


def as_prometheus_has_it(watch, others, lasted, told):
    """What Prometheus knows that is wrong: a server that wasn't there or was started again, and other numbers of events than were
    answered. Alarms may be of the hostile one alone."""
    since = f"[{int(lasted) + 1}s]"
    largest = lambda text: max(float(value) for _, (_, value) in watch.query(text))
    least = min(float(value) for _, (_, value) in watch.query(f'min_over_time(up{{job="mds_city"}}{since})'))
    restarts = largest(f"changes(process_start_time_seconds{since})")
    if least != 1 or restarts:
        yield f"a server was there in {least} of all moments, and started again {restarts} times"
    memory, scrape = (largest(f"max_over_time({it}{since})") for it in ("process_resident_memory_bytes", "scrape_duration_seconds"))
    told(f"{lasted:.0f} s; a server had {memory / 1e6:.0f} MB at most, a scrape took {1000 * scrape:.0f} ms at most")
    told(f"alarms: {watch.fired()}")
    fired = {it for it in watch.fired() if it != OWN_DISK}
    if {who for _, who in fired} - {NAMES[HOSTILE - 1]}:
        yield f"alarms: {fired}"
    found = lambda: {labels["instance"]: int(value) for labels, (_, value) in watch.query(DONE)}
    wanted = {NAMES[it.number - 1]: it.success for it in others} | {NAMES[HOSTILE - 1]: 0}
    if not watch.wait_for(lambda: found() == wanted, SOON):
        yield f"events {found()}, in place of {wanted}"
    told(f"{sum(wanted.values())} events were accepted")


DONE, SOON = 'mds_city_requests_total{kind="event",outcome="done"}', 60
OWN_DISK = ("MdsCityDisk", "machine")
"""The alarm of the machine's disk, which others fill."""
"""What Prometheus has of accepted events, and in how many seconds it has all of them."""
TURNS, SECONDS, FACTOR = 2, 8, 15
"""How a short run goes: it has a turn so often, of so many seconds, and Prometheus asks each second."""
SHORT_RUNS = 3
"""How many short runs there are at most. Other work of the machine slows the providers of one; a hostile provider slows those of each."""


def a_hostile_provider_beside_eleven(program):
    """Eleven providers report as a city does, and no less beside one that is hostile."""
    for _ in range(SHORT_RUNS):
        amiss = list(Hour(program, TURNS, SECONDS, FACTOR).complaints())
        if not amiss or not all(isinstance(it, Slower) for it in amiss):
            break
    yield from amiss


HOURS = [a_hostile_provider_beside_eleven]
