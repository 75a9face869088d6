"""Files as a crash may leave them, made of recordings of servers, and starts over them that are cut off in the middle."""

import random
import tempfile
import threading
from concurrent.futures import ThreadPoolExecutor
from pathlib import Path

from crashing.clients import look_until, report, report_again, side_by_side, unanswered
from crashing.files import Lines, behind, counted, listed_amiss, start_over
from crashing.leaving import Disk
from crashing.paths import aside_amiss
from crashing.recording import SYNC, WRITE, Recording
from crashing.reports import device_at, registering, reporting
from crashing.walking import CHANGING, Walk
from harness.counting import Unwell
from serving.http import done
from serving.server import Server, aside_of
from serving.wire import ask

FILES = 5000
"""How many are made of the recordings of servers that work."""
LISTED = 40
"""How many of them `vehicles` reads too."""
STARTS, STARTED_TWICE = 50, 10
"""Over how many a server starts; and over how many that such a start leaves another one does."""
KEPT = 500
"""Of the files that are made, those that are read by other means."""
MOST = 30
"""Files that are made of one moment, where there can be as many."""
GONE_ON = 3
"""Over how many a server starts that then works."""
EACH = 100_000
PAUSE = 3000
"""Microseconds by which a sync is longer, so that others ask meanwhile."""
READERS = 2


def several_clients(port, chance, _):
    """Clients that report vehicles of both halves, one that reports what another does, and one that looks."""
    devices, ended = [device_at(number) for number in range(4)], threading.Event()
    sizes = [[chance.randint(1, 12) for _ in range(15)] for _ in devices]
    for pair in (devices[:2], devices[2:]):
        if ask(port, registering(*pair)) != done(2):
            raise Unwell("vehicles weren't registered")
    jobs = [lambda at=at: report(port, devices[at], sizes[at]) for at in range(3)]
    jobs += [lambda: report_again(port, devices[3], sizes[3])] * 2
    side_by_side([*jobs, lambda: look_until(port, devices, ended)], ended)


def long_batches(port, chance, _):
    """One client whose groups have many sectors."""
    device = device_at(10)
    ask(port, registering(device, device_at(11)))
    report(port, device, [chance.randint(40, 60) for _ in range(4)])


def one_by_one(port, chance, _):
    """Vehicles that are registered one after the other, with an event each."""
    front = chance.randint(100, 1 << 40)
    for number in range(front, front + 8):
        ask(port, registering(device_at(number)))
        report(port, device_at(number), [1])
        ask(port, registering(device_at(number), device_at(number + 100)))


def over_a_bad_disk(port, chance, recording):
    """Groups of which a half was written, which are held back, and kept with the next one; and at last one of which it isn't known
    whether it is kept, as the second sync fails."""
    device, front = device_at(30), 0
    ask(port, registering(device))
    for _ in range(8):
        behind = front + chance.randint(1, 6)
        recording.fail(WRITE)
        ask(port, reporting(device, front, behind))
        ask(port, reporting(device, front, behind + 2))
        front = behind + 2
    recording.fail(SYNC, after=1)
    unanswered(port, reporting(device, front, front + 4))


PLAYED = [(several_clients, 8), (long_batches, 1), (one_by_one, 1), (over_a_bad_disk, 1)]
"""What clients do, and how many workers the server has."""


def played(program, path, clients, workers, chance):
    """What was recorded while clients were served over the file of this path, up to the server's violent end."""
    with Recording(path, pause=PAUSE) as recording:
        with Server(program, EACH, workers=workers, journal=path, env=recording.env) as server:
            clients(server.port, chance, recording)
        return recording.entries()


def replayed(entries, content):
    """What the recorded calls make of a file."""
    disk = Disk(content)
    for entry in entries:
        if entry.kind in CHANGING:
            disk.take(entry)
    return disk.whole()


class Made:
    """Files that were made: how many, and some of them, each with the same chance."""

    def __init__(self, chance):
        self.chance, self.count, self.kept = chance, 0, []

    def add(self, content):
        self.count += 1
        if len(self.kept) < KEPT:
            self.kept.append(content)
        elif (place := self.chance.randrange(self.count)) < KEPT:
            self.kept[place] = content

    def torn_ends(self):
        """Some, behind whose lines more stands than a closed gate and room."""
        torn = sorted({content for content in self.kept if len(behind(content)) > 1})
        return self.chance.sample(torn, min(STARTS, len(torn)))


def walked(entries, content, made, lines):
    """Says what is wrong with files that a crash may leave at the moments of a recording, and adds them to those that were made."""
    walk = Walk(content, lines)
    for number, entry in enumerate(entries):
        if not walk.take(entry):
            continue
        for left in walk.disk.left(made.chance, MOST):
            made.add(left)
            for complaint in walk.amiss(left):
                yield f"behind record {number}, {shown(left)}: {complaint}"


def listed_alike(program, folder, contents, lines):
    """What is wrong with what `vehicles` says of these files."""

    def amiss(place):
        path = Path(folder, f"listed-{place}")
        path.write_bytes(contents[place])
        return list(listed_amiss(program, path, lines))

    with ThreadPoolExecutor(READERS) as pool:
        for complaints in pool.map(amiss, range(len(contents))):
            yield from complaints


def started(program, path, content, lines):
    """Starts a server over a file with this content, for one connection: what was recorded, and what is wrong with its end."""
    path.write_bytes(content)
    start = start_over(content, lines.fault_in)
    told = lines.told(start.lines)
    with Recording(path) as recording:
        with Server(program, 1, journal=path, env=recording.env) as server:
            server.success = len(told) + sum(told.values())
            complaints = list(server.end())
        entries = recording.entries()
    if path.read_bytes() != replayed(entries, content):
        complaints.append("the recorded calls don't make the file that is there")
    complaints += aside_amiss(path, start.cut)
    return entries, complaints


def starts_cut_off(program, folder, contents, chance, lines):
    """What is wrong with starts over these files, and with what a crash in the middle of them leaves: the lines are the same."""
    made = Made(chance)
    for place, content in enumerate(contents):
        entries, complaints = started(program, Path(folder, f"started-{place}"), content, lines)
        complaints += walked(entries, content, made, lines)
        yield from (f"a start over {shown(content)}: {complaint}" for complaint in complaints)
    for place, content in enumerate(chance.sample(made.kept, min(STARTED_TWICE, len(made.kept)))):
        _, complaints = started(program, Path(folder, f"again-{place}"), content, lines)
        yield from (f"a start behind one that was cut off, over {shown(content)}: {it}" for it in complaints)


def shown(content):
    """A file in words."""
    front = len(counted(content))
    return f"{front} bytes of lines and {len(content) - front} behind them, {content[front : front + 40]!r}"


def recorded(program, folder, clients, workers, content, chance):
    """What was recorded while clients were served over a file that has this content first, and what is wrong with the file then."""
    path = Path(folder, f"{clients.__name__}-{len(content)}")
    path.write_bytes(content)
    aside_of(path).unlink(missing_ok=True)
    entries = played(program, path, clients, workers, chance)
    complaints = []
    if path.read_bytes() != replayed(entries, content):
        complaints.append(f"{clients.__name__}: the recorded calls don't make the file that is there")
    return entries, complaints


def work_cut_off(program, folder, contents, played_by, made, lines):
    """What is wrong with what a crash leaves of the work of clients, over files that have these contents first."""
    for content in contents:
        for clients, workers in played_by:
            entries, complaints = recorded(program, folder, clients, workers, content, made.chance)
            yield from complaints
            yield from (f"{clients.__name__}, {it}" for it in walked(entries, content, made, lines))


def what_a_crash_leaves(program):
    """At each moment of a server's work, a crash leaves a file that tells all that was answered by then, nothing that wasn't sent,
    and whole groups. So does one at each moment of a start over such a file, and of the work behind that."""
    chance, lines = random.Random(7), Lines()
    made = Made(chance)
    with tempfile.TemporaryDirectory() as folder:
        complaints = list(work_cut_off(program, folder, [b""], PLAYED, made, lines))
        if made.count < FILES:
            complaints.append(f"{made.count} files were made, in place of {FILES}")
        yield from complaints
        if complaints:
            # whatever starts over such files would tell of the same fault
            return
        torn = made.torn_ends()
        yield from listed_alike(program, folder, chance.sample(made.kept, LISTED), lines)
        yield from work_cut_off(program, folder, torn[:GONE_ON], [(one_by_one, 1)], made, lines)
        yield from starts_cut_off(program, folder, torn, chance, lines)


TORN = [what_a_crash_leaves]
