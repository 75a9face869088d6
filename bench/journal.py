"""Measures a server over a journal: beside the plain program and Redis, beside itself without a journal, and how it starts.

The journals lie in a temporary folder on a disk, below bench/out unless another folder is given. An answer waits until what it
rests on is on the disk, so what is measured depends on how fast the disk syncs: that is printed first."""

import os
import shlex
import statistics
import subprocess
import sys
import tempfile
import time
from itertools import islice
from pathlib import Path

from cases.replays import P, identifier
from cases.vehicles import CHECKED, FORM, group
from harness.counting import ROOT
from model.items import EVENT
from model.json_text import compact
from redis import BYTES, redis_in
from serve import BATCHES, EVENTS, VEHICLES, ServeBench
from serve import batches, ended, event, events_of, files_of, looks, register, vehicle
from serving.server import Server
from serving.wire import get, post
from timing import in_pairs, in_turns, peak_of, timed

FOLDER = ROOT / "bench/out"
SIDES = ((1, 1), (4, 1), (4, 4), (4, 16))
"""Numbers of workers and of clients at which two servers are compared."""
SYNCS = 400
FEWEST, MOST = 600, 4000
"""Reports of a run: as many as the disk syncs in a second, within these bounds."""
RATE_PAIRS, LOOK_PAIRS = 2, 5
"""For each run, how many pairs there are of runs of two programs, and of runs with looks that nobody writes beside: over a journal
and without one a look takes the same calls, and runs of it differ by more than what is looked for."""
LOOKS_BESIDE, REPORTS_BESIDE = 10000, 60000
"""Looks of a run beside reports, and how many reports there are for it, more than are made in that time."""
RECORDED, OF_A_GROUP = 1000000, 100
"""Events of the journal at which a server starts, and how many lines stand in a group of it."""
AIMS = {"reports": 0.7, "batches": 0.7, "looks": 0.95, "looks beside": 0.5}
"""What part of a rate is aimed at: of the plain program's, and of looks, of the own rate without a journal."""
AIM_OF_TIME, AIM_OF_MEMORY = 1.5, 200
"""What a start and a listing may take at most of the plain program's time, and a listing of memory, in MB."""
COSTLESS = ("tmpfs", "ramfs")
OWNERS = ("", " of the plain program")
NONE = "-"


def file_system_of(folder):
    """The file system that a folder is on: its kind, and what it is on itself."""
    place = os.path.realpath(folder)
    mounts = [line.split() for line in Path("/proc/self/mounts").read_text().splitlines()]
    within = [mount for mount in mounts if os.path.commonpath((mount[1], place)) == mount[1]]
    device, _, kind, *_ = max(reversed(within), key=lambda mount: len(mount[1]))
    return kind, device


def syncs_a_second(folder):
    """How many appends of the bytes of a line, each synced, the disk takes in a second, by the median of their times."""
    times = []
    with open(Path(folder, "syncs"), "wb", buffering=0) as file:
        for _ in range(SYNCS):
            start = time.monotonic()
            file.write(bytes(BYTES))
            os.fdatasync(file.fileno())
            times.append(time.monotonic() - start)
    return 1 / statistics.median(times)


def over_journal(program, journal, is_new=True):
    """A program that serves as this one does over a journal, a new one each time or the one that is there."""
    words = f'exec {shlex.quote(str(program))} "$@" --journal {shlex.quote(str(journal))}'
    before = f"rm -f {shlex.quote(str(journal))}\n" if is_new else ""
    path = Path(f"{journal}-{'new' if is_new else 'old'}")
    path.write_text(f"#!/bin/sh\n{before}{words}\n")
    path.chmod(0o700)
    return str(path)


def text_of(number):
    """A number of a second, or a dash where there is none."""
    return NONE if number is None else f"{number:,.0f}"


def quartiles_text(ratios):
    """The median of ratios, and their quartiles, or a dash where there are none."""
    return "{1:.2f} ({0:.2f} to {2:.2f})".format(*ratios) if ratios else NONE


def in_pairs_of(count, measures):
    """What `in_pairs` answers of the measures of two programs, or where there is one its medians alone."""
    if len(measures) == 2:
        return in_pairs(count, *measures)
    return *in_turns(count, *measures), None, None


def reports_of(count):
    """What makes the reports of a client, where there are so many of all clients."""
    return lambda client, clients: [post("/events", it) for it in events_of(client, clients, count // clients)]


def looks_of_half(client, clients):
    """Looks of a client at vehicles of the first half."""
    own = range(client, VEHICLES // 2, clients)
    numbers = [own[at % len(own)] for at in range(LOOKS_BESIDE // clients)]
    return [get(f"/vehicles/{P}/{identifier(1, number)}") for number in numbers]


def reports_of_half(_client, _clients):
    """Reports of the vehicles of the second half, in turn."""
    half = VEHICLES - VEHICLES // 2
    return [post("/events", event(VEHICLES // 2 + at % half, at // half)) for at in range(REPORTS_BESIDE)]


class JournalBench:
    """Measures a program, and a plain one where it is there, by so many runs each, with the files in a folder on a disk."""

    def __init__(self, program, peer, runs, folder, syncs):
        self.runs = runs
        self.folder = folder
        self.programs = [program, peer] if peer else [program]
        self.reports = int(min(max(syncs, FEWEST), MOST))

    def benches(self):
        """Of each program what measures it, over a journal that is new in each run."""
        for number, program in enumerate(self.programs):
            journal = Path(self.folder, f"{number}.journal")
            yield ServeBench(over_journal(program, journal), self.runs, self.folder)

    def rates(self, requests_of, success, workers, clients):
        """The requests a second of the program and of the plain one, and the quartiles of their ratio, where that one is there."""
        paths, count = files_of(self.folder, requests_of, clients)
        measures = [lambda bench=bench: bench.once(paths, count, success, workers)[:1] for bench in self.benches()]
        own, plain, ratios = in_pairs_of(self.runs * RATE_PAIRS, measures)
        return own[0], plain and plain[0], ratios, count

    def redis_rates(self, redis, clients, count):
        """The requests a second of Redis over connections that are new and kept, where it is there."""
        measures = [lambda kept=kept: (redis.rate(clients, count, kept),) for kept in (False, True)]
        return [rate for (rate,) in in_turns(self.runs, *measures)] if redis else [None, None]

    def beside(self):
        """Prints a table of reports and batches, beside the plain program and Redis."""
        kinds = {"reports": (reports_of(self.reports), 1, True), "batches": (batches, EVENTS, False)}
        print(f"Reports: {self.reports:,} in a run. Batches: {BATCHES} of {EVENTS} events. Of Redis: SETs of {BYTES} bytes.\n")
        ratio = "ratio of pairs, its median and quartiles"
        heads = f"requests a second | of the plain program | {ratio} | aim | of Redis, a connection each | connections kept"
        with tempfile.TemporaryDirectory(dir=self.folder) as folder, redis_in(folder) as redis:
            print(f"| what is asked | workers | clients | {heads} |")
            print("|---|---:|---:|---:|---:|---:|---:|---:|---:|")
            for name, (requests_of, success, is_like_set) in kinds.items():
                for workers, clients in SIDES:
                    own, plain, ratios, count = self.rates(requests_of, success, workers, clients)
                    others = self.redis_rates(redis if is_like_set else None, clients, count)
                    rates = f"{text_of(own)} | {text_of(plain)} | {quartiles_text(ratios)} | {AIMS[name]:.2f}"
                    print(f"| {name} | {workers} | {clients} | {rates} | {' | '.join(map(text_of, others))} |", flush=True)

    def sides(self):
        """Of each program whose it is, whether something is aimed at, and what measures it over a journal and without one."""
        for owner, program, bench in zip(OWNERS, self.programs, self.benches()):
            yield owner, not owner, (bench, ServeBench(program, self.runs, self.folder))

    def looks(self):
        """Prints a table of looks that nobody writes beside, over a journal and without one."""
        heads = "looks a second | without a journal | ratio of pairs, its median and quartiles | aim"
        print(f"\n| what is asked | workers | clients | {heads} |")
        print("|---|---:|---:|---:|---:|---:|---:|")
        for owner, is_aimed, benches in self.sides():
            for workers, clients in SIDES:
                paths, count = files_of(self.folder, looks, clients)
                measures = [lambda bench=bench: bench.once(paths, count, 0, workers)[:1] for bench in benches]
                (rate,), (other,), ratios = in_pairs(self.runs * (LOOK_PAIRS if is_aimed else 1), *measures)
                aim = f"{AIMS['looks']:.2f}" if is_aimed else NONE
                cells = f"{rate:,.0f} | {other:,.0f} | {quartiles_text(ratios)} | {aim}"
                print(f"| looks{owner} | {workers} | {clients} | {cells} |", flush=True)

    def looks_beside(self):
        """Prints a table of looks while another client reports of other vehicles, over a journal and without one."""
        heads = "looks a second | without a journal | ratio | aim | reports a second meanwhile | without a journal"
        print(f"\n| what is asked | workers | clients and one that reports | {heads} |")
        print("|---|---:|---:|---:|---:|---:|---:|---:|---:|")
        with tempfile.TemporaryDirectory(dir=self.folder) as folder:
            (reports,), _ = files_of(folder, reports_of_half, 1)
            for owner, is_aimed, benches in self.sides():
                for clients in (1, 4, 16):
                    paths, count = files_of(self.folder, looks_of_half, clients)
                    measures = [lambda bench=bench: once_beside(bench, paths, count, reports) for bench in benches]
                    (rate, meanwhile), (other, without) = in_turns(self.runs, *measures)
                    aim = f"{AIMS['looks beside']:.2f}" if is_aimed else NONE
                    cells = f"{rate:,.0f} | {other:,.0f} | {rate / other:.2f} | {aim} | {meanwhile:,.0f} | {without:,.0f}"
                    print(f"| looks{owner} | 4 | {clients} | {cells} |", flush=True)

    def restart(self):
        """Prints a table of how long a server takes to listen over a journal of many events, and of listing its vehicles. The plain program
        has one of version 1, which it knows alone."""
        journals = [recorded(Path(self.folder, f"{name}.journal"), lines) for name, lines in (("checked", group), ("plain", plain))]
        size = journals[0].stat().st_size / 1e6
        print(f"\nA journal of {VEHICLES:,} registrations and {RECORDED:,} events: {size:,.0f} MB.\n")
        ratio = "ratio of pairs, its median and quartiles"
        heads = f"s | of the plain program | {ratio} | aim at most | most memory, MB | aim at most | of the plain program"
        print(f"| what is run | {heads} |")
        print("|---|---:|---:|---:|---:|---:|---:|---:|")
        for name, measured, most in (("`serve`, until it listens", started, NONE), ("`vehicles`", listed, AIM_OF_MEMORY)):
            measures = [lambda words=words: measured(*words) for words in zip(self.programs, journals)]
            (seconds, memory), other, ratios = in_pairs_of(self.runs, measures)
            plain_seconds, plain_memory = other or (None, None)
            plain = NONE if plain_seconds is None else f"{plain_seconds:.2f}"
            times = f"{seconds:.2f} | {plain} | {quartiles_text(ratios)} | {AIM_OF_TIME:.2f}"
            print(f"| {name} | {times} | {memory:,.0f} | {most} | {text_of(plain_memory)} |", flush=True)


def once_beside(bench, paths, count, reports):
    """The looks a second of a server with four workers, and the reports a second that another client makes meanwhile."""
    with Server(bench.program, count + REPORTS_BESIDE, workers=4) as server:
        register(server)
        words = [bench.client, str(server.port), *paths, "--", reports]
        told = subprocess.run(words, capture_output=True, text=True, check=True).stdout.splitlines()
    asked, beside = (line.split() for line in told)
    made = int(beside[0])
    if [int(word) for word in asked[:3] + beside[1:3]] != [count, count, 0, made, made]:
        sys.exit(f"{told} of {count} looks beside reports")
    if made == REPORTS_BESIDE:
        sys.exit(f"{made} reports are too few to be made beside {count} looks")
    return count / float(asked[3]), made / float(beside[3])


def texts():
    """Those of the lines of many vehicles and of their events in turn."""
    yield from (compact(vehicle(number)) for number in range(VEHICLES))
    for at in range(RECORDED):
        yield compact({**dict.fromkeys(EVENT), **event(at % VEHICLES, at // VEHICLES), "event_id": identifier(2, at)})


def plain(*portion):
    """Lines of version 1 of these texts."""
    return "".join(f" {text}\n" for text in portion)


def recorded(path, lines_of):
    """A journal of this path with these lines, alone or in groups of `OF_A_GROUP`, all of it on the disk."""
    form, more = CHECKED if lines_of is group else FORM, texts()
    with open(path, "w") as file:
        file.write(lines_of(form))
        for portion in iter(lambda: list(islice(more, OF_A_GROUP)), []):
            file.write(lines_of(*portion))
        file.flush()
        os.fsync(file.fileno())
    return path


def started(program, journal):
    """The seconds until a server listens over a journal, and the MB that it held at most. It must hold all that is recorded."""
    words = over_journal(program, journal, is_new=False)
    start = time.monotonic()
    with Server(words, 1) as server:
        seconds, memory = time.monotonic() - start, server.most_memory() / 1e6
        server.count(0, VEHICLES + RECORDED)
        ended(server)
    return seconds, memory


def listed(program, journal):
    """The seconds that it takes to list the vehicles of a journal, and the MB that were held at most."""
    words = ["vehicles", str(journal)]
    seconds, _ = timed(program, words, 0, f"registrations {VEHICLES} events {RECORDED}")
    return seconds, peak_of(program, words) / 1e6


def measure_journal(program, peer, runs, where):
    """Prints what a journal costs, with all files below a folder."""
    where = Path(where or FOLDER)
    where.mkdir(parents=True, exist_ok=True)
    os.sync()  # what other work left to be written isn't written meanwhile
    with tempfile.TemporaryDirectory(dir=where) as folder:
        kind, device = file_system_of(folder)
        syncs = syncs_a_second(folder)
        print(f"Journals on {kind} of {device}, which takes {syncs:,.0f} appends a second of {BYTES} bytes, each synced.")
        if kind in COSTLESS:
            print("There a sync costs nothing. With `--folder` the journals lie on a disk.")
        bench = JournalBench(program, peer, runs, folder, syncs)
        bench.beside()
        bench.looks()
        bench.looks_beside()
        bench.restart()
        print(f"\nBehind the last run the disk takes {syncs_a_second(folder):,.0f} appends a second.")
