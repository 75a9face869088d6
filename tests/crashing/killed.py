"""Servers that SIGKILL ends under clients that report and look, and those that go on from the file."""

import os
import random
import signal
import subprocess
import tempfile
import threading
import time
from pathlib import Path

from crashing.files import Lines, counted, listed_amiss, start_over
from crashing.paths import aside_amiss
from crashing.reports import device_at, items_in, listing, looking, registering, reporting, said, status_of
from harness.counting import Unwell
from serving.http import done
from serving.server import Server, aside_of
from serving.wire import ask, connect

CHAINS, KILLS = 4, 25
"""Files, and how many servers are killed over each."""
WORKERS, EACH = 4, 100_000
REPORTING = 3
"""Clients that report, each two vehicles of different halves; the first of them is helped by one that reports the same."""
MOST_ITEMS, MOST_ANSWERS = 8, 24
"""Of a batch, and before a kill."""
IN_A_START = 5
"""Each so many rounds a server is killed in its start, too."""
MOST_START = 0.05
"""Seconds after which it is killed then, at most."""
UNTIL = 20
"""Seconds to wait for answers."""


class Fleet:
    """What clients know of their vehicles: of each how many events were sent, and how many an answer said to stand."""

    def __init__(self):
        self.lock, self.sent, self.known = threading.Lock(), {}, {}

    def note_sent(self, request):
        self.raise_each(self.sent, [(device, number + 1) for device, number in items_in(request)])

    def note_said(self, found):
        self.raise_each(self.known, found)

    def raise_each(self, counts, found):
        with self.lock:
            for device, count in found:
                counts[device] = max(counts.get(device, -1), count)

    def amiss(self, told, where):
        """What is wrong with counts of events that are told of all vehicles."""
        for device, known in self.known.items():
            if told.get(device, -1) < known:
                yield f"{where}: {device} has {told.get(device)} events, and was told to have {known}"
        for device, count in told.items():
            if count > self.sent.get(device, -1):
                yield f"{where}: {device} has {count} events, of which {self.sent.get(device)} were sent"


def asked(port, request, fleet):
    """Sends a request: what its answer says to stand, or None where none came whole, as the server has ended."""
    fleet.note_sent(request)
    pieces = []
    try:
        with connect(port) as connection:
            connection.sendall(request)
            while piece := connection.recv(1 << 16):
                pieces.append(piece)
    except ConnectionError:
        pass
    answer = b"".join(pieces)
    if not status_of(answer):
        return None
    found = said(request, answer)
    fleet.note_said(found)
    return found


class Crew:
    """Clients of one server, until it has ended."""

    def __init__(self, port, fleet, fronts, seed):
        self.port, self.fleet, self.fronts = port, fleet, fronts
        self.answers, self.faults = threading.Semaphore(0), []
        self.chances = [random.Random(f"{seed} {number}") for number in range(REPORTING + 2)]
        jobs = [*[(self.report, number) for number in range(REPORTING)], (self.report, 0), (self.look, 0)]
        self.threads = [
            threading.Thread(target=self.run, args=(job, number, chance)) for (job, number), chance in zip(jobs, self.chances)
        ]

    def run(self, job, number, chance):
        try:
            job(number, chance)
        except Exception as fault:  # it's told in the thread that waits
            self.faults.append(f"a client: {type(fault).__name__}: {fault}")
            self.answers.release(MOST_ANSWERS)

    def report(self, number, chance):
        """Reports vehicles in turn, each from what the file had at the start on, and after it an event that leaves one out."""
        fronts = {device: self.fronts[device] for device in (device_at(2 * number), device_at(2 * number + 1))}
        while True:
            device = chance.choice(list(fronts))
            behind = fronts[device] + chance.randint(1, MOST_ITEMS)
            if asked(self.port, reporting(device, max(fronts[device] - 1, 0), behind), self.fleet) is None:
                return
            fronts[device] = behind
            self.answers.release()
            if asked(self.port, reporting(device, behind + 1, behind + 2), self.fleet) is None:
                return

    def look(self, _, chance):
        """Looks at vehicles, and lists their events."""
        while True:
            request = chance.choice((looking, looking, listing))(chance.choice(list(self.fronts)))
            if asked(self.port, request, self.fleet) is None:
                return
            self.answers.release()

    def work(self, answers):
        """Works until so many answers came."""
        for thread in self.threads:
            thread.start()
        for _ in range(answers):
            if not self.answers.acquire(timeout=UNTIL):
                raise Unwell(f"not {answers} answers within {UNTIL} seconds")

    def leave(self):
        for thread in self.threads:
            thread.join()
        return self.faults


def begun(port, fleet, devices):
    """What a server that has started tells of the vehicles, and what is wrong with it. Events that it tells are repeated when they
    are sent again."""
    told, complaints = {}, []
    if not fleet.known:
        asked(port, registering(*devices), fleet)
    for device in devices:
        for request in (looking(device), listing(device)):
            ((_, count),) = asked(port, request, fleet)
            if told.setdefault(device, count) != count:
                complaints.append(f"a look told {told[device]} events of {device}, and a list {count}")
    for device in devices[:3]:
        count = told[device]
        front = max(count - 2, 0)
        if count and repeated(count - front) != ask(port, reporting(device, front, count)):
            complaints.append(f"what {device} has wasn't repeated")
    return told, complaints


def repeated(known, size=None):
    """The answer to a report of so many events, or of as many as are there, of which the first are."""
    return done(size or known, [{"error": "repeated", "index": index} for index in range(known)])


def killed_in_its_start(program, path, chance):
    """Kills a server before it has begun to listen, or just behind that."""
    words = [program, "serve", "--port", "0", "--each", "1", "--workers", "1", "--journal", str(path)]
    with subprocess.Popen(words, stdout=subprocess.DEVNULL, stderr=subprocess.DEVNULL) as child:
        time.sleep(chance.uniform(0, MOST_START))
        child.kill()


def one_round(program, path, fleet, devices, seed):
    """What is wrong with a server that goes on from the file, and with what it leaves there when it is killed."""
    chance, lines, aside = random.Random(seed), Lines(), aside_of(path)
    start = start_over(path.read_bytes() if path.exists() else b"", lines.fault_in)
    aside.unlink(missing_ok=True)
    with Server(program, EACH, workers=WORKERS, journal=path) as server:
        yield from aside_amiss(path, start.cut)
        told, complaints = begun(server.port, fleet, devices)
        yield from complaints
        if start.lines and told != lines.told(start.lines):
            yield f"it tells {told}, and its file {lines.told(start.lines)}"
        yield from fleet.amiss(told, "at a start")
        crew = Crew(server.port, fleet, told, seed)
        try:
            crew.work(chance.randint(1, MOST_ANSWERS))
        finally:
            os.kill(server.child.pid, signal.SIGKILL)
            yield from crew.leave()
    yield from fleet.amiss(Lines().told(counted(path.read_bytes())), "in the file")


def chain(program, number):
    """What is wrong with servers that are killed one after the other over one file."""
    fleet, devices = Fleet(), [device_at(at) for at in range(2 * REPORTING)]
    with tempfile.TemporaryDirectory() as folder:
        path = Path(folder, "journal")
        for at in range(KILLS):
            seed = f"{number} {at}"
            if at % IN_A_START == 1:
                aside_of(path).unlink(missing_ok=True)
                killed_in_its_start(program, path, random.Random(seed))
            yield from (f"file {number}, kill {at}, {it}" for it in one_round(program, path, fleet, devices, seed))
        yield from listed_amiss(program, path)


def killed_again_and_again(program):
    """A hundred servers killed under clients: each vehicle has all that was answered or seen, nothing that wasn't sent, and the
    same answers as before."""
    for number in range(CHAINS):
        yield from chain(program, number)


KILLED = [killed_again_and_again]
