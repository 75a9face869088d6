"""Servers that come to an end without violence, looks while a disk is slow, `vehicles` beside a server, and one without a journal."""

import os
import signal
import stat
import subprocess
import tempfile
import threading
import time
from pathlib import Path

from cases.replays import batch, event
from cases.vehicles import ROOM, checked, registered
from crashing.clients import report, side_by_side
from crashing.files import AT_REST, Lines, behind, counted, listed_amiss, listed_by, vehicles_text
from crashing.recording import Recording
from crashing.reports import device_at, listed, listing, looking, registering, reporting, standing
from harness.case import MAX_ITEMS
from harness.counting import Unwell
from harness.texts import differing
from model.http import answer, error
from model.tables import Table
from serving.http import done
from serving.server import Server
from serving.wire import ask, connect, get, post

EACH = 1000
WORKERS = 4
DEVICES = [device_at(number) for number in range(4)]
COUNT = 12
"""Events of each vehicle."""
SIZES = [1, 2, 4, 5]
"""Of the batches in which they are reported."""
READINGS = 6
"""Of `vehicles`, at least, while clients report."""
MANY = 70_000
"""Events that are recorded before."""
SLOW = 1.0
"""How long a sync of a slow disk takes, in seconds. A report waits for two."""
SLOWER = 10.0
"""The same of one that is slower than anything else here."""


def served(server):
    """Has vehicles registered and reported by clients side by side."""
    if ask(server.port, registering(*DEVICES)) != done(len(DEVICES)):
        raise Unwell("vehicles weren't registered")
    side_by_side([lambda device=device: report(server.port, device, SIZES) for device in DEVICES])


def goes_on(program, path):
    """What is wrong with a server that starts over the file behind that, and with the file at its end."""
    if Lines().told(counted(path.read_bytes())) != dict.fromkeys(DEVICES, COUNT):
        yield f"the file tells {Lines().told(counted(path.read_bytes()))}"
    with Server(program, 2 * len(DEVICES) + 1, journal=path) as server:
        server.success = len(DEVICES) * (COUNT + 1)
        for device in DEVICES:
            events = [listed(device, number) for number in range(COUNT)]
            yield from differing(server.ask(looking(device)), answer(200, standing(device, COUNT)), "a look")
            yield from differing(server.ask(listing(device)), answer(200, {"events": events}), "a list")
        yield from differing(server.ask(reporting(DEVICES[0], COUNT, COUNT + 1)), done(1), "one more event")
        yield from server.end()
    content = path.read_bytes()
    if behind(content) != b"#" or not 0 < len(content) - len(counted(content)) - 1 <= len(ROOM):
        yield f"at rest there are {len(content)} bytes, of which {len(counted(content))} count, and then {behind(content)[:50]!r}"
    yield from listed_amiss(program, path)


def ended_by(program, number):
    """What is wrong with a server that a signal ends, and with what stands then."""
    with tempfile.TemporaryDirectory() as folder:
        path = Path(folder, "journal")
        with Server(program, EACH, workers=WORKERS, journal=path) as server:
            served(server)
            server.child.send_signal(number)
            found, wanted = server.ended(), (-number, "", "")
            if found != wanted:
                yield f"it ended with {found}, in place of {wanted}"
        yield from goes_on(program, path)


def ended_by_signals(program):
    """SIGTERM and SIGINT end a server at once, and all that was answered stands."""
    for number in (signal.SIGTERM, signal.SIGINT):
        yield from (f"{number.name}: {complaint}" for complaint in ended_by(program, number))


def ended_by_itself(program):
    """A server that has had its connections tells how many it accepted, and so does the next one, with those from the file."""
    with tempfile.TemporaryDirectory() as folder:
        path = Path(folder, "journal")
        with Server(program, len(DEVICES) * len(SIZES) + 1, journal=path) as server:
            served(server)
            server.count(server.left, len(DEVICES) * (COUNT + 1))
            yield from server.end()
        yield from goes_on(program, path)


def without_any_request(program):
    """A run without any accepted request, and the next two over its file: a look finds no vehicle, and the file stays as it is."""
    with tempfile.TemporaryDirectory() as folder:
        path = Path(folder, "journal")
        for _ in range(3):
            with Server(program, 3, journal=path) as server:
                yield from differing(server.ask(looking(DEVICES[0])), error(404, "unregistered"), "a look")
                yield from differing(server.ask(registering()), done(0), "an empty batch")
                yield from server.end()
            if path.read_bytes() != AT_REST:
                yield f"the file has {path.read_bytes()[:200]!r}"
            if listed_by(program, path) != (0, vehicles_text({}), ""):
                yield f"`vehicles` said {listed_by(program, path)}"


def beside(program, path, ended, told):
    """Reads the file by `vehicles` until clients are done, and once more, and adds what it told each time. Each second time it's seen to
    the gates, too."""
    readings, is_last = 0, False
    while not is_last or readings < READINGS:
        readings, is_last = readings + 1, ended.is_set()
        status, out, faults = listed_by(program, path, *["--check"] * (readings % 2))
        if status or faults or not out.endswith("\n"):
            raise Unwell(f"`vehicles` said {(status, out[-200:], faults)}")
        counts = [line.split(" ") for line in out.splitlines()]
        told.append({words[2]: int(words[4]) for words in counts if words[0] == "vehicle"})


def served_and_read(program, path, told):
    """Has clients report while `vehicles` reads the file, adds what it told each time, and says what is wrong with what it tells
    behind each of some answers."""
    ended = threading.Event()
    with Recording(path, pause=2000) as recording, Server(program, EACH, WORKERS, journal=path, env=recording.env) as server:
        ask(server.port, registering(*DEVICES))
        jobs = [lambda device=device: report(server.port, device, SIZES) for device in DEVICES]
        side_by_side([*jobs, lambda: beside(program, path, ended, told)], ended)
        for front in range(COUNT, COUNT + 3):
            yield from differing(ask(server.port, reporting(DEVICES[0], front, front + 1)), done(1))
            yield from listed_amiss(program, path)


def vehicles_beside_a_server(program):
    """`vehicles` takes no lock, and tells what was answered before it began, while a server works and syncs take long."""
    told = []
    with tempfile.TemporaryDirectory() as folder:
        yield from served_and_read(program, Path(folder, "journal"), told)
    for before, behind in zip(told, told[1:]):
        if sorted(before) != sorted(DEVICES) or any(before[device] > behind[device] for device in DEVICES):
            yield f"`vehicles` told {before}, and then {behind}"
    if told[-1] != dict.fromkeys(DEVICES, COUNT):
        yield f"`vehicles` told {told[-1]} at the end"


class Asked(threading.Thread):
    """A client that asks in a thread of its own; then the answer, and when it came."""

    def __init__(self, port, request):
        super().__init__()
        self.port, self.request, self.answer, self.at = port, request, None, None
        self.start()

    def run(self):
        self.answer = ask(self.port, self.request)
        self.at = time.monotonic()


def begins_to_write(recording, before):
    """Waits until the file was written to once more."""
    end = time.monotonic() + 30
    while recording.number("writes") == before:
        if time.monotonic() > end:
            raise Unwell("nothing was written")
        time.sleep(0.01)


def all_asked(port, requests):
    """Clients that ask side by side, once all have their answers."""
    clients = [Asked(port, request) for request in requests]
    for client in clients:
        client.join()
    return clients


def slow_answers(server, recording, one, other):
    """What is wrong with answers about two vehicles, while an event of the first waits for a slow disk. All workers but one wait
    for that. The last one doesn't, also once it has answered: neither with looks at the other, nor with what rests on none."""
    before, begun = recording.number("writes"), time.monotonic()
    waiting = [Asked(server.port, reporting(one, 0, 1))]
    begins_to_write(recording, before)
    waiting += [Asked(server.port, looking(one)) for _ in range(WORKERS - 2)]
    look_other, list_other = all_asked(server.port, [looking(other), listing(other)])
    resting = [answer(200, standing(other, 0)), answer(200, {"rows": Table().listed()}), error(404, "not_found")]
    more = [ask(server.port, request) for request in 2 * [looking(other), get("/table"), get("/nowhere")]]
    ended = time.monotonic()
    for client in waiting:
        client.join()
    for client, wanted in zip(waiting, [done(1), *[answer(200, standing(one, 1))] * (WORKERS - 2)]):
        yield from differing(client.answer, wanted, "the report, or a look at the vehicle")
    yield from differing(look_other.answer, answer(200, standing(other, 0)), "a look at the other")
    yield from differing(list_other.answer, answer(200, {"events": []}), "a list of the other")
    for text, wanted in zip(more, 2 * resting):
        yield from differing(text, wanted, "what rests on no event of the first")
    soonest = min(client.at for client in waiting)
    if soonest < begun + 2 * SLOW:
        yield f"the first vehicle's event was told after {soonest - begun} s, before it was on the disk"
    if max(look_other.at, list_other.at) > begun + SLOW:
        yield f"answers about the other vehicle took {max(look_other.at, list_other.at) - begun} s"
    if ended > begun + 2 * SLOW:
        yield f"more of them took {ended - begun} s"


def looks_beside(program, one, other, before=0):
    """What is wrong with answers about these two vehicles over a slow disk, behind so many events of another one."""
    with tempfile.TemporaryDirectory() as folder:
        path = Path(folder, "journal")
        with Recording(path) as recording, Server(program, EACH, WORKERS, journal=path, env=recording.env) as server:
            yield from differing(ask(server.port, registering(DEVICES[-1])), done(1), "the first registration")
            for front in range(0, before, MAX_ITEMS):
                yield from differing(ask(server.port, reporting(DEVICES[-1], front, front + MAX_ITEMS)), done(MAX_ITEMS), f"{front}")
            yield from differing(ask(server.port, registering(one, other)), done(2), "the registrations")
            recording.set(pause=int(SLOW * 1000000))
            yield from slow_answers(server, recording, one, other)


def looks_while_others_report(program):
    """A look and a list of a vehicle don't wait for the disk where only others were reported, of its half or of the other one, nor do
    the table and a fault of a request; a look at the reported one does."""
    for *pair, before in ((0, 2, 0), (1, 5, 0), (0, 1, 0), (1, 0, 0), (0, 2, MANY)):
        for wrong in looks_beside(program, *map(device_at, pair), before):
            yield f"vehicles {pair}, behind {before} events: {wrong}"


def asked_of(device):
    """Requests about a vehicle with two events that change nothing, with their answers."""
    earlier = event(device, "fe", "battery_charged", "available", 1000)
    unlike = event(device, "ff", "provider_drop_off", "available", 2000)
    late, stuck = {"error": "late", "index": 0, "last": 1001}, {"at": 0, "error": "no_chain", "held": "non_operational", "index": 0}
    return [
        (reporting(device, 0, 2), done(2, [{"error": "repeated", "index": index} for index in range(2)])),
        (post("/events", batch([earlier])), done(1, [late])),
        (post("/events", batch([unlike])), done(1, [stuck])),
        (registering(device), done(1, [{"error": "already_registered", "index": 0}])),
        (looking(device), answer(200, standing(device, 2))),
        (listing(device), answer(200, {"events": [listed(device, number) for number in range(2)]})),
    ]


def answered_meanwhile(server, recording, one, other):
    """What is wrong with answers that rest on what is on the disk, while an event of another vehicle waits for a slow one."""
    yield from differing(ask(server.port, reporting(other, 0, 2)), done(2), "the events that are on the disk")
    recording.set(pause=int(SLOWER * 1000000))
    before, begun = recording.number("writes"), time.monotonic()
    with connect(server.port) as slow:
        slow.sendall(reporting(one, 0, 1))
        begins_to_write(recording, before)
        requests, answers = zip(*asked_of(other))
        clients = all_asked(server.port, requests)
    for client, wanted in zip(clients, answers):
        yield from differing(client.answer, wanted, f"{client.request[:40]!r}")
        if client.at > begun + 2 * SLOWER:
            yield f"{client.request[:40]!r}: the answer {wanted[-100:]!r} took {client.at - begun:.1f} s"


def answers_that_rest_on_the_disk(program):
    """What is answered by what is on the disk already, also to a report that is repeated, late or refused, doesn't wait for what others
    report of the other half. Each worker has one connection, so that who answers hasn't recorded anything."""
    for one, other in ((device_at(0), device_at(1)), (device_at(1), device_at(0))):
        workers = 2 + len(asked_of(other))
        with tempfile.TemporaryDirectory() as folder:
            path = Path(folder, "journal")
            path.write_text(checked((registered(one), registered(other))))
            with Recording(path) as recording, Server(program, 1, workers, journal=path, env=recording.env) as server:
                yield from answered_meanwhile(server, recording, one, other)


def files_of(server):
    """The paths of the regular files that a server has open, those of its standard streams aside."""
    folder = Path(f"/proc/{server.child.pid}/fd")
    numbers = [entry for entry in folder.iterdir() if int(entry.name) > 2]
    return [os.readlink(entry) for entry in numbers if stat.S_ISREG(entry.stat().st_mode)]


def run_without(program, recording):
    """What is wrong with a server without a journal. Each one registers the same vehicles anew."""
    with Server(program, EACH, workers=WORKERS, env=recording.env) as server:
        served(server)
        if files_of(server) != [str(recording.path)]:
            yield f"it has {files_of(server)} open"


def without_a_journal(program):
    """Without the option a server has no file open, makes none, waits for no disk, and knows nothing at its next start; with it, it
    has that one file."""
    with tempfile.TemporaryDirectory() as folder:
        path = Path(folder, "journal")
        path.write_bytes(AT_REST)
        with Recording(path) as recording:
            for _ in range(2):
                yield from run_without(program, recording)
            counts = {name: recording.number(name) for name in ("writes", "cuts", "syncs")}
        if any(counts.values()) or path.read_bytes() != AT_REST or os.listdir(folder) != ["journal"]:
            yield f"there are {counts}, and {os.listdir(folder)}"
        with Server(program, 1, journal=path) as server:
            if files_of(server) != [str(path)]:
                yield f"with a journal it has {files_of(server)} open"
            yield from server.end()


def only_one_path(program):
    """The option wants a path, and takes one."""
    for words in (["--journal"], ["--journal", "one", "--journal", "two"]):
        ran = subprocess.run([program, "serve", "--port", "0", "--each", "1", *words], capture_output=True)
        if ran.returncode != 2 or ran.stdout or not ran.stderr:
            yield f"{words}: {ran}"


RESTING = [
    ended_by_signals,
    ended_by_itself,
    without_any_request,
    looks_while_others_report,
    answers_that_rest_on_the_disk,
    vehicles_beside_a_server,
    without_a_journal,
    only_one_path,
]
