"""Journals of running servers: `compact` beside one, and `--follow`, whose clients go on over the change of files."""

import fcntl
import json
import os
import random
import re
import signal
import subprocess
import tempfile
import threading
import time
from contextlib import ExitStack, contextmanager
from pathlib import Path

from cases.vehicles import group, journal, not_a_journal
from compacting.running import IN_GROUPS, SECONDS, content_amiss, run, totals
from compacting.worked import journal_of
from crashing.files import counted, texts_in
from crashing.recording import LOCKED, Recording
from crashing.reports import FIRST_TIME, device_at, listed, listing, looking, parts_of, registering, reporting, status_of
from harness.building import built
from harness.counting import Unwell
from model.compaction import Line, staying
from serving.http import done
from serving.server import Server, numbered_port
from serving.wire import ask, connect

CLIENTS, DEVICES = 4, 3
"""Clients, and the vehicles that each of them reports."""
OLD_EVENTS, FIRST = 120, 130
"""Events of a vehicle that are older than TIME, and those that it has before the clients begin."""
BEFORE = FIRST_TIME + OLD_EVENTS
MOST_ITEMS = 5
ANSWERS = 150
"""To reports, before something happens."""
PAUSE = 0.01
"""Seconds until a request is sent again that wasn't answered."""
KILLS, MOST_WAIT = 8, 0.2
"""Followers that are killed, and how many seconds behind their start at most."""
RIDES, SINCE, LATER = "1a 2n 3a 4r", "5n 6r 7n 8a 9r", 99
"""Events of a vehicle that are there at first, of which a loop goes; those that come meanwhile, with loops of their own; and a TIME
behind all of them."""
LOOKS = 0.5
"""Seconds in which a follower looks several times."""


class Client(threading.Thread):
    """A provider that reports its vehicles in turn, from one event to the next. What isn't answered it sends again until it is; then
    what is in is answered so."""

    def __init__(self, port, number, answers, known):
        super().__init__(daemon=True)
        self.port, self.chance, self.answers, self.known = port, random.Random(number), answers, known
        self.fronts = {device_at(number * DEVICES + at): FIRST for at in range(DEVICES)}
        self.over, self.faults, self.unanswered = threading.Event(), [], 0

    def run(self):
        try:
            while not self.over.is_set():
                device = self.chance.choice(list(self.fronts))
                behind = self.fronts[device] + self.chance.randint(1, MOST_ITEMS)
                self.report(device, behind)
                self.fronts[device] = behind
                self.answers.release()
        except Exception as fault:  # it's told in the thread that waits
            self.faults.append(f"a client: {type(fault).__name__}: {fault}")
            self.answers.release(ANSWERS)

    def report(self, device, behind):
        request, may_be_in = reporting(device, self.fronts[device], behind), False
        while not status_of(answer := self.asked(request)):
            if self.over.is_set():
                raise Unwell(f"events up to {behind} of {device} aren't answered")
            self.unanswered += 1
            may_be_in = True
            time.sleep(PAUSE)
        failures = parts_of(answer)[1].get("failures")
        if failures and not (may_be_in and {failure["error"] for failure in failures} <= self.known):
            raise Unwell(f"events up to {behind} of {device}: {answer[:300]!r}")

    def asked(self, request):
        """What came of an answer, where there was a server."""
        pieces = []
        try:
            with connect(self.port) as connection:
                connection.sendall(request)
                while piece := connection.recv(1 << 16):
                    pieces.append(piece)
        except OSError:
            pass
        return b"".join(pieces)


class Crew:
    """Clients of a port. As a context they are over at its end."""

    def __init__(self, port, known=frozenset(["repeated"])):
        self.answers = threading.Semaphore(0)
        self.clients = [Client(port, number, self.answers, known) for number in range(CLIENTS)]

    def __enter__(self):
        for client in self.clients:
            client.start()
        return self

    def __exit__(self, *_):
        for client in self.clients:
            client.over.set()
        for client in self.clients:
            client.join(SECONDS)

    def work(self):
        """Waits until so many further reports were answered."""
        for _ in range(ANSWERS):
            if not self.answers.acquire(timeout=SECONDS):
                raise Unwell(f"not {ANSWERS} answers within {SECONDS} seconds")

    def fronts(self):
        return {device: front for client in self.clients for device, front in client.fronts.items()}

    def faults(self):
        return [fault for client in self.clients for fault in client.faults]


class Following:
    """A compaction that follows a server, or doesn't, in its own process."""

    def __init__(self, program, old, new, before=BEFORE, follows=True, **more):
        words = [program, "compact", old, new, "--before", before, *(["--follow"] if follows else [])]
        pipes = {"stdout": subprocess.PIPE, "stderr": subprocess.PIPE, "text": True}
        self.child = subprocess.Popen([*map(str, words)], env={**os.environ, **more}, **pipes)

    def line(self):
        return self.child.stdout.readline()

    def ended(self):
        out, faults = self.child.communicate(timeout=SECONDS)
        return self.child.returncode, out, faults


def begun(port):
    """Has a server know all vehicles, with their first events."""
    devices = [device_at(number) for number in range(CLIENTS * DEVICES)]
    if ask(port, registering(*devices)) != done(len(devices)):
        raise Unwell("the vehicles aren't registered")
    for device in devices:
        if ask(port, reporting(device, 0, FIRST)) != done(FIRST):
            raise Unwell(f"the first events of {device} aren't accepted")


def lines_in(content):
    """The requests of a journal that a server wrote, and their texts."""
    texts = [text.decode() for text in texts_in(counted(content))]
    values = [json.loads(text) for text in texts]
    return texts, [
        Line(it["device_id"], it.get("timestamp"), it.get("vehicle_state"), it.get("location_e7") is not None) for it in values
    ]


def left_of(content, count=None):
    """A journal of the lines that stay of one, or of the first ones of it, and the last line that is printed of it."""
    texts, lines = lines_in(content)
    lines = lines[:count]
    places = staying(lines, BEFORE)
    return journal(*(texts[place] for place in places)).encode(), totals(lines, places)


def kept_amiss(port, fronts):
    """What is wrong with the events that a server lists: of TIME or later each vehicle has all, one time each and in order."""
    for device, front in fronts.items():
        events = parts_of(ask(port, listing(device)))[1]["events"]
        numbers = [event["timestamp"] - FIRST_TIME for event in events]
        if [number for number in numbers if number >= OLD_EVENTS] != list(range(OLD_EVENTS, front)):
            yield f"{device} has the events {numbers}, of {front}"
        if any(event != listed(device, number) for event, number in zip(events, numbers)):
            yield f"{device} has an event that isn't as it was reported"
        if len(numbers) >= front:
            yield f"{device} has all {front} events still"


def comes_meanwhile(port):
    """Registers a vehicle with one event, while the file is followed."""
    late = device_at(1000)
    if ask(port, registering(late)) != done(1) or ask(port, reporting(late, 0, 1)) != done(1):
        raise Unwell("a vehicle isn't accepted while the file is followed")
    return late


def made_of(following, old, new):
    """What is wrong with what a follower has made of the old file, as it is at last."""
    content, last = left_of(old.read_bytes())
    ended = following.ended()
    if ended != (0, last, ""):
        raise Unwell(f"it ended with {ended}, in place of {last!r}")
    yield from content_amiss(new.read_bytes(), content)


def goes_on(crew, port, late):
    """What is wrong with a server over the new file, to which the clients of the old one come."""
    crew.work()
    crew.__exit__()
    yield from crew.faults()
    yield from kept_amiss(port, crew.fronts())
    if parts_of(ask(port, listing(late)))[1] != {"events": [listed(late, 0)]}:
        yield "a vehicle that came while the file was followed has another event"
    if not any(client.unanswered for client in crew.clients):
        yield "no client met the change"


def changed_over(program, number):
    """What is wrong where a server is ended by a signal, and another goes on over the new file while its clients ask."""
    port = numbered_port()
    with tempfile.TemporaryDirectory() as name, ExitStack() as clients:
        old, new = Path(name, "old"), Path(name, "new")
        with Server(program, None, workers=CLIENTS, journal=old, port=port) as server:
            begun(port)
            crew = clients.enter_context(Crew(port))
            crew.work()
            following = Following(program, old, new)
            if (line := following.line()) != "following\n":
                raise Unwell(f"in place of `following` it printed {line!r}, and {following.ended()}")
            late = comes_meanwhile(port)
            crew.work()
            if new.exists() or following.child.poll() is not None:
                yield "the new file is there while the server runs"
            server.child.send_signal(number)
            server.ended()
        yield from made_of(following, old, new)
        with Server(program, None, workers=CLIENTS, journal=new, port=port):
            yield from goes_on(crew, port, late)


def followed_to_the_end(program):
    """Clients report while a server's journal is followed, while it is stopped, and while another starts over the new file: nothing
    that was answered is lost, and nothing counts twice. The new file has what stays of the old one, as it is at last."""
    for number in (signal.SIGTERM, signal.SIGKILL):
        yield from (f"{number.name}: {it}" for it in changed_over(program, number))


def lines_of(texts, in_groups):
    """Lines of these texts, as a server adds them to a journal of version 1, or to one in groups."""
    return (group(*texts) if in_groups else "".join(f" {text}\n" for text in texts)).encode()


@contextmanager
def growing(making, count, old, in_groups):
    """The first lines of a journal, in a file that is locked as a server locks it, and a function that adds bytes behind them, before
    it opens their gate."""
    front = making.content(range(count), in_groups=in_groups)
    old.write_bytes(front)
    with open(old, "r+b", buffering=0) as file:
        fcntl.flock(file, fcntl.LOCK_EX)

        def add(lines, start=len(front) - 1):
            here = max(start, len(counted(old.read_bytes())))
            os.pwrite(file.fileno(), b"#" + lines[1:], here)
            time.sleep(PAUSE)
            os.pwrite(file.fileno(), lines[:1], here)

        yield add


def lines_that_come(program):
    """Of what was there at first a loop goes. What comes while another process has the file stays as it stands, by and by, and the last
    of it just before the file is left; half a line isn't one."""
    for in_groups in IN_GROUPS:
        yield from (f"groups of {in_groups}: {it}" for it in lines_that_come_in(program, in_groups))


def lines_that_come_in(program, in_groups):
    """What is wrong with them in a journal of version 1, or in groups."""
    making = journal_of(f"{RIDES} {SINCE}")
    count = 1 + len(RIDES.split())
    tail = making.texts[count:]
    with tempfile.TemporaryDirectory() as name:
        old, new = Path(name, "old"), Path(name, "new")
        with growing(making, count, old, in_groups) as add:
            following = Following(program, old, new, LATER)
            if following.line() != "following\n":
                yield f"it ended with {following.ended()}"
            for some in (tail[:2], tail[2:4]):
                add(lines_of(some, in_groups) + b"#")
                time.sleep(LOOKS)
            if new.exists() or following.child.poll() is not None:
                yield "the new file is there while another process has the old one"
            add(lines_of(tail[4:], in_groups) + b' {"half')
        yield from ended_amiss(following, making, [0, 1, count - 1, *range(count, len(making.lines))], new)


REST, BUSY = 1, 0.1
"""For how many seconds nothing comes, and how many of a processor may be taken meanwhile."""
SOON, TRIES = 1, 5
"""Seconds in which a run ends once no server has the old file, of so many runs at least one: the machine may be busy with others."""


def calls_on(recording):
    """How many calls wrote to the new file, and synced it."""
    return {name: recording.number(name) for name in ("writes", "syncs")}


def open_files(child):
    return len(os.listdir(f"/proc/{child.pid}/fd"))


def rests_between_looks(program):
    """While nothing comes the old file is looked at a few times a second alone, and nothing is done to the new one. No look takes a
    descriptor that it doesn't give back: at most one is open for the moment."""
    making = journal_of(RIDES)
    with tempfile.TemporaryDirectory() as name:
        old, new = Path(name, "old"), Path(name, "new")
        with growing(making, len(making.lines), old, 0), Recording(Path(name, "new.part")) as recording:
            following = Following(program, old, new, LATER, **recording.env)
            if following.line() != "following\n":
                yield f"it ended with {following.ended()}"
            clock = ~following.child.pid << 3 | 2
            begun, calls, files = time.clock_gettime(clock), calls_on(recording), open_files(following.child)
            looks = recording.count(LOCKED)
            time.sleep(REST)
            if (more := open_files(following.child) - files) > 1:
                yield f"behind {recording.count(LOCKED) - looks} looks {more} more files are open"
            if (busy := time.clock_gettime(clock) - begun) > BUSY:
                yield f"it took {busy:.2f} s of a processor in {REST} s"
            if calls_on(recording) != calls:
                yield f"the new file had {calls} calls before the rest, and {calls_on(recording)} behind it"
        if following.ended()[0]:
            yield "it didn't end well"


def the_change_is_seen_soon(program):
    """A run that follows ends soon once nobody has the old file: until then no server has the new one, and none answers."""
    making, found = journal_of(RIDES), []
    with tempfile.TemporaryDirectory() as name:
        for number in range(TRIES):
            old, new = Path(name, f"old-{number}"), Path(name, f"new-{number}")
            with growing(making, len(making.lines), old, 0):
                following = Following(program, old, new, LATER)
                if following.line() != "following\n":
                    yield f"it ended with {following.ended()}"
                time.sleep(LOOKS)
            begun = time.monotonic()
            yield from ended_amiss(following, making, staying(making.lines, LATER), new)
            found.append(time.monotonic() - begun)
            if found[-1] < SOON:
                return
    yield f"it ended {', '.join(f'{seconds:.1f}' for seconds in found)} s behind the server"


def beside_another_that_makes_it(program):
    """A run that made the new file, or found what an earlier one left of it, and then finds another one in its place that is made by a
    run which follows, takes that for none of its own: it gives it no name, and the other run makes it whole."""
    for earlier in (None, "what an earlier run left"):
        yield from (f"{earlier}: {it}" for it in made_by_another(program, earlier))


def made_by_another(program, earlier):
    """What is wrong with two runs that make one file, where this was left of it, if anything was."""
    making = journal_of(f"{RIDES} {SINCE}")
    with tempfile.TemporaryDirectory() as name:
        old, new = Path(name, "old"), Path(name, "new")
        if earlier:
            Path(name, "new.part").write_text(earlier)
        hold, held, more = held_at_the_lock(Path(name))
        with growing(making, len(making.lines), old, 0):
            hold.touch()
            late = Following(program, old, new, LATER, follows=False, **more)
            comes(held)
            following = Following(program, old, new, LATER)
            if following.line() != "following\n":
                yield f"it ended with {following.ended()}"
            hold.unlink()
            status, out, faults = late.ended()
            if (status, out) != (3, "") or not faults.startswith("mds_city: ") or new.exists():
                yield f"the late one ended with {status}, {out!r}, {faults!r}, and the new file is there: {new.exists()}"
        yield from (f"the other one: {it}" for it in ended_amiss(following, making, staying(making.lines, LATER), new))


def ended_amiss(following, making, places, new):
    """What is wrong with the end of a run by which these places of a journal stay."""
    if (ended := following.ended()) != (0, totals(making.lines, places), ""):
        yield f"it ended with {ended}"
    else:
        yield from content_amiss(new.read_bytes(), making.content(places))


def held_at_the_lock(folder):
    """What has a follower wait at its next look at the lock, while `hold` is there; `held` is there once it waits."""
    hold, held = folder / "hold", folder / "held"
    shim = built("hold-lock.so", "tests/hold-lock.c", "-shared", "-fPIC", "-O1", "-ldl")
    return hold, held, {"LD_PRELOAD": str(shim), "HOLD": str(hold), "HELD": str(held)}


def comes(path):
    """Waits until a file is there."""
    end = time.monotonic() + SECONDS
    while not path.exists():
        if time.monotonic() > end:
            raise Unwell(f"{path.name} isn't there after {SECONDS} seconds")
        time.sleep(PAUSE)


def the_last_look(program):
    """What comes between a look at the file and the moment at which nobody has it is in the new file too."""
    making = journal_of(f"{RIDES} {SINCE}")
    count = 1 + len(RIDES.split())
    since = lines_of(making.texts[count:], IN_GROUPS[1])
    with tempfile.TemporaryDirectory() as name:
        old, new = Path(name, "old"), Path(name, "new")
        hold, held, more = held_at_the_lock(Path(name))
        with growing(making, count, old, IN_GROUPS[1]) as add:
            following = Following(program, old, new, LATER, **more)
            if following.line() != "following\n":
                yield f"it ended with {following.ended()}"
            hold.touch()
            comes(held)
            add(since + b"#")
        hold.unlink()
        yield from ended_amiss(following, making, [0, 1, count - 1, *range(count, len(making.lines))], new)


def a_fault_that_comes(program):
    """A line that is none ends it, with its number in the whole file, and there is no new file. So does a group whose check doesn't fit,
    or that has none."""
    making = journal_of(f"{RIDES} {SINCE}")
    count = 1 + len(RIDES.split())
    since = making.texts[count:]
    whole = lines_of(since, 1)
    for in_groups, added, fault in (
        (0, lines_of([*since, "7"], 0), f"bad_line {len(making.lines) + 1}"),
        # behind the form's line, its check, and the first group with its own
        (IN_GROUPS[1], lines_of([*since, "7"], 1), f"bad_line {len(making.lines) + 3}"),
        (IN_GROUPS[1], whole.replace(b":9,", b":8,"), f"damaged {count + 3}"),
        (IN_GROUPS[1], whole + lines_of(["{}"], 0), f"damaged {count + 3 + len(since) + 1}"),
    ):
        yield from (f"{fault}: {it}" for it in ended_by(program, making, count, in_groups, added, fault))


def ended_by(program, making, count, in_groups, added, fault):
    """What is wrong where these lines come behind the first ones of a journal, and have this fault."""
    with tempfile.TemporaryDirectory() as name:
        old, new = Path(name, "old"), Path(name, "new")
        with growing(making, count, old, in_groups) as add:
            following = Following(program, old, new, LATER)
            said = following.line()
            add(added + b"#")
            ended = following.ended()
        if (said, *ended) != ("following\n", 3, "", not_a_journal(fault)):
            yield f"it said {said!r}, and ended with {ended}"
        if os.listdir(name) != ["old"]:
            yield f"there are {os.listdir(name)}"


def followed_without_a_server(program):
    """Where no server has the file, what is there is all."""
    with tempfile.TemporaryDirectory() as name:
        old, new = Path(name, "old"), Path(name, "new")
        with Server(program, None, journal=old) as server:
            begun(server.port)
        following = Following(program, old, new)
        content, last = left_of(old.read_bytes())
        if (ended := following.ended()) != (0, f"following\n{last}", ""):
            yield f"it ended with {ended}, in place of {last!r}"
        else:
            yield from content_amiss(new.read_bytes(), content)


def beside_a_server(program):
    """Without the option a front of a running server's journal is made small, as it is at a moment, and the server isn't hindered."""
    with tempfile.TemporaryDirectory() as name:
        old, new = Path(name, "old"), Path(name, "new")
        with Server(program, None, workers=CLIENTS, journal=old) as server:
            begun(server.port)
            with Crew(server.port) as crew:
                for _ in range(3):
                    crew.work()
                    status, out, faults = run(program, "compact", old, new, "--before", BEFORE)
                    found = re.fullmatch(r"registrations (\d+) events \d+ of (\d+)\n", out)
                    if (status, faults) != (0, "") or not found:
                        yield f"{status}, {out!r}, {faults!r}"
                        break
                    content, last = left_of(old.read_bytes(), sum(map(int, found.groups())))
                    if out != last:
                        yield f"{out!r}, in place of {last!r}"
                    yield from content_amiss(new.read_bytes(), content)
                    new.unlink()
            yield from crew.faults()


def killed_while_it_follows(program):
    """A follower that SIGKILL ends leaves no new file, as long as the server runs, and hinders neither that nor the next one."""
    chance = random.Random("kills")
    with tempfile.TemporaryDirectory() as name:
        old, new = Path(name, "old"), Path(name, "new")
        with Server(program, None, workers=CLIENTS, journal=old) as server:
            begun(server.port)
            for _ in range(KILLS):
                following = Following(program, old, new)
                time.sleep(chance.uniform(0, MOST_WAIT))
                following.child.kill()
                status, out, faults = following.ended()
                if (status, faults) != (-signal.SIGKILL, "") or out not in ("", "following\n") or new.exists():
                    yield f"{status}, {out!r}, {faults!r}, and the new file is there: {new.exists()}"
            device = device_at(0)
            if ask(server.port, reporting(device, FIRST, FIRST + 1)) != done(1):
                yield f"the server says {ask(server.port, looking(device))!r}"
            following = Following(program, old, new)
            following.line()
        yield from made_of(following, old, new)


FOLLOWING = [
    followed_to_the_end,
    lines_that_come,
    rests_between_looks,
    the_change_is_seen_soon,
    beside_another_that_makes_it,
    the_last_look,
    a_fault_that_comes,
    followed_without_a_server,
    beside_a_server,
    killed_while_it_follows,
]
