"""Disks without room, limits of a file's size, calls on the file and ports that fail, and starts and ends without memory or threads."""

import contextlib
import os
import resource
import signal
import socket
import subprocess
import tempfile
import time
from concurrent.futures import ThreadPoolExecutor
from pathlib import Path

from cases.replays import A
from cases.vehicles import checked, group, journal, registered
from crashing.clients import unanswered
from crashing.files import Lines, counted, is_put_aside, listed_amiss, start_over
from crashing.paths import FAULTS
from crashing.recording import CUT, READ, SYNC, WRITE, Recording
from crashing.reports import NOT_KEPT, device_at, listed, listing, looking, registering, reporting, standing
from crashing.resting import SLOW, begins_to_write
from harness.building import BY_BYTES, Counting, Refusal
from harness.case import SOCKET, cannot_read
from harness.counting import Skipped
from harness.texts import differing
from model.http import answer, error
from model.tables import Table
from serving.connections import BODY, SMALL_ROOM, long_list, sent_behind_at
from serving.http import done
from serving.limits import TOO_LONG, answer_at, moved_on
from serving.server import NotListening, Server, aside_of, told_of_cut
from serving.wire import ask, connect, get, post

EACH = 1000
WORKERS, MANY = 2, 4
ROOM_BYTES = 40_000
"""On the disk, and the most that a file may have: more than the first events take, and less than all."""
FIRST, MORE = 10, 400
"""Events of the vehicle that are kept before the disk is full, and that are reported then."""
AT_ONCE = 8
"""Seconds in which a server ends whose workers wait for connections: they don't wait until one comes, or ten seconds are over."""
TOLD_WITHIN = 5
"""Seconds in which a fault is told, while an answer leaves that nobody reads, which may take ten times as long."""
DEVICE, OTHER = device_at(1), device_at(2)
NEIGHBOUR = device_at(3)
"""A vehicle of the half of the first."""
TOLD_NOT_KEPT = "mds_city: journal not kept\n"
KEPT_AGAIN = "mds_city: journal kept again\n"
LOST = "mds_city: journal\n"
HELD_BACK = answer(503, NOT_KEPT)
NO_MEMORY = "mds_city: out of memory\n"
LACKING_MEMORY = (4, "", NO_MEMORY)
TOGETHER = 32
"""Servers of which each has another growth refused, that are looked at together."""
STANDARD = 3
"""Open files, of the standard streams."""
TORN = '#{"device_id":'
"""What a crash may leave behind the lines."""
SEVERAL_READS = 3000
"""Registrations of a file that a start doesn't read at once."""
FEWEST_GROWTHS = 20
"""Of a start over a journal."""
LITTLE = range(16_000, 64_000, 250)
"""Kilobytes of address space, from too few for a start to more than it takes."""


def answered(server, request, wanted, what):
    """Asks, and says what is wrong with the answer."""
    yield from differing(ask(server.port, request), wanted, what)


def faults_of(server):
    """What the server has told on standard error so far."""
    return Path(server.folder.name, "faults").read_text()


def kept_amiss(path, *wanted):
    """What is wrong with what the file tells, of devices that are to have so many events, or so many."""
    told = Lines().told(counted(path.read_bytes()))
    if told not in wanted:
        yield f"the file tells {told}, in place of {wanted}"


def lost_amiss(path, content):
    """What is wrong with what a start that failed left of a file with this content: what it cut off stands aside."""
    aside, cut = aside_of(path), start_over(content, Lines().fault_in).cut
    found = aside.read_bytes() if aside.exists() else b""
    if (found or not path.read_bytes().startswith(content)) and not is_put_aside(found, cut):
        yield f"of {cut[:200]!r} stands aside {found[:200]!r}"


def filled(server, path):
    """What is wrong with a server whose disk becomes full: what was kept stands, answers that rest on what isn't are held back, and
    the others go out. Who reads that it was held back, and sends more then, meets no reset."""
    yield from answered(server, registering(DEVICE, OTHER, NEIGHBOUR), done(3), "before")
    yield from answered(server, reporting(DEVICE, 0, FIRST), done(FIRST), "before")
    held_back = (reporting(DEVICE, FIRST, FIRST + MORE), registering(DEVICE), looking(DEVICE), listing(DEVICE))
    for request in (*held_back, reporting(DEVICE, 0, FIRST)):
        yield from answered(server, request, HELD_BACK, f"without room, {request[:40]!r}")
    yield from sent_behind_at(server.port, [(request, HELD_BACK, BODY) for request in held_back])
    for device in (OTHER, NEIGHBOUR):
        yield from answered(server, looking(device), answer(200, standing(device, 0)), f"without room, a look at {device}")
        yield from answered(server, listing(device), answer(200, {"events": []}), f"without room, a list of {device}")
    yield from answered(server, get("/table"), answer(200, {"rows": Table().listed()}), "without room, the table")
    yield from answered(server, get("/nowhere"), error(404, "not_found"), "without room, no route")
    yield from answered(server, post("/events", "{"), error(400, "not_json"), "without room, no JSON")
    yield from kept_amiss(path, {DEVICE: FIRST, OTHER: 0, NEIGHBOUR: 0})
    if faults_of(server) != TOLD_NOT_KEPT:
        yield f"without room it told {faults_of(server)!r}"


def filled_no_more(server, path):
    """What is wrong with it once there is room again: all that it took is kept with the next answer."""
    count = FIRST + MORE
    repeated = [{"error": "repeated", "index": index} for index in range(MORE)]
    yield from answered(server, reporting(DEVICE, FIRST, count), done(MORE, repeated), "with room again, a report")
    yield from answered(server, looking(DEVICE), answer(200, standing(DEVICE, count)), "with room again, a look")
    events = [listed(DEVICE, number) for number in range(count)]
    yield from answered(server, listing(DEVICE), answer(200, {"events": events}), "with room again, a list")
    yield from answered(server, reporting(DEVICE, count, count + 1), done(1), "with room again, one more")
    yield from kept_amiss(path, {DEVICE: count + 1, OTHER: 0, NEIGHBOUR: 0})
    if faults_of(server) != TOLD_NOT_KEPT + KEPT_AGAIN:
        yield f"with room again it told {faults_of(server)!r}"


def over_again(program, path):
    """What is wrong with a server that starts over the file then, and ends by itself."""
    wanted = answer(200, standing(DEVICE, FIRST + MORE + 1))
    with Server(program, 1, journal=path) as server:
        server.success = FIRST + MORE + 4
        server.count()
        yield from answered(server, looking(DEVICE), wanted, "started anew, a look")
        yield from server.end()


def room_that_a_call_misses(program):
    """Writes that find no room, and then some."""
    with tempfile.TemporaryDirectory() as folder:
        path = Path(folder, "journal")
        with Recording(path, room=ROOM_BYTES) as recording:
            with Server(program, EACH, workers=WORKERS, journal=path, env=recording.env) as server:
                yield from filled(server, path)
                recording.set(room=-1)
                yield from filled_no_more(server, path)
        yield from over_again(program, path)


def room_is_tried_for_once(program):
    """Where no room ahead can be made, each group goes without: it has two writes, that of its lines and that of its gate, and the
    next try for room is a mebibyte further on."""
    with tempfile.TemporaryDirectory() as folder:
        path = Path(folder, "journal")
        with Recording(path, room=ROOM_BYTES) as recording:
            with Server(program, EACH, workers=WORKERS, journal=path, env=recording.env) as server:
                yield from answered(server, registering(DEVICE), done(1), "before")
                yield from answered(server, reporting(DEVICE, 0, 1), done(1), "the first try")
                before = recording.number("writes")
                for number in range(1, FIRST):
                    yield from answered(server, reporting(DEVICE, number, number + 1), done(1), "without room ahead")
                count = recording.number("writes") - before
        if count != 2 * (FIRST - 1):
            yield f"{count} writes of {FIRST - 1} groups"


class FullDisk:
    """A disk of memory with little room, in a folder of its own. As a context it has the folder; where none can be had, the case is
    skipped."""

    def __enter__(self):
        self.folder = tempfile.TemporaryDirectory()
        words = ["mount", "-t", "tmpfs", "-o", f"size={ROOM_BYTES * 10}", "crash-test", self.folder.name]
        try:
            mounted = subprocess.run(words, capture_output=True).returncode == 0
        except OSError:
            mounted = False
        if not mounted:
            self.folder.cleanup()
            raise Skipped("no disk of memory can be mounted here")
        return Path(self.folder.name)

    def __exit__(self, *_):
        subprocess.run(["umount", "-l", self.folder.name], check=True)
        self.folder.cleanup()


def a_full_disk(program):
    """A disk that another file fills, and that gets room again."""
    with FullDisk() as folder:
        path, filler = folder / "journal", folder / "filler"
        with Server(program, EACH, workers=WORKERS, journal=path) as server:
            filler.write_bytes(bytes(os.statvfs(folder).f_bavail * os.statvfs(folder).f_bsize - ROOM_BYTES))
            yield from filled(server, path)
            filler.unlink()
            yield from filled_no_more(server, path)
        yield from over_again(program, path)


def deaf_start(folder, program):
    """A script that starts the program so that it ignores the signal of a limit of a file's size."""
    script = Path(folder, "deaf-start")
    script.write_text(f'#!/bin/sh\ntrap "" XFSZ\nexec "{program}" "$@"\n')
    script.chmod(0o755)
    return script


def a_limit_of_the_size(program):
    """A limit of how long the process may make a file, whose signal is ignored, and which is raised again."""
    with tempfile.TemporaryDirectory() as folder:
        path = Path(folder, "journal")
        with Server(deaf_start(folder, program), EACH, workers=WORKERS, journal=path) as server:
            resource.prlimit(server.child.pid, resource.RLIMIT_FSIZE, (ROOM_BYTES, resource.RLIM_INFINITY))
            yield from filled(server, path)
            resource.prlimit(server.child.pid, resource.RLIMIT_FSIZE, (resource.RLIM_INFINITY, resource.RLIM_INFINITY))
            yield from filled_no_more(server, path)
        yield from over_again(program, path)


def the_signal_of_a_limit(program):
    """A server that such a limit ends by its signal: what was answered stands."""
    with tempfile.TemporaryDirectory() as folder:
        path = Path(folder, "journal")
        with Server(program, EACH, workers=WORKERS, journal=path) as server:
            yield from answered(server, registering(DEVICE, OTHER), done(2), "before")
            yield from answered(server, reporting(DEVICE, 0, FIRST), done(FIRST), "before")
            resource.prlimit(server.child.pid, resource.RLIMIT_FSIZE, (ROOM_BYTES, resource.RLIM_INFINITY))
            report = reporting(DEVICE, FIRST, FIRST + MORE)
            yield from differing(unanswered(server.port, report), b"", "a report past the limit")
            status = server.ended()[0]
            if status != -signal.SIGXFSZ:
                yield f"it ended with {status}"
        yield from kept_amiss(path, {DEVICE: FIRST, OTHER: 0})


def both(recording, counting):
    """The environment of a server of which calls on a file are recorded, and calls on a descriptor counted."""
    shims = f"{recording.env['LD_PRELOAD']} {counting.env['LD_PRELOAD']}"
    return {**recording.env, **counting.env, "LD_PRELOAD": shims}


def full_at_its_end(program):
    """A server that has had its connections while there is no room: what isn't kept is no end like others. Both lines that tell of
    it go out whole, byte by byte."""
    with tempfile.TemporaryDirectory() as folder, Counting(FAULTS, BY_BYTES) as counting:
        path = Path(folder, "journal")
        with Recording(path) as recording, Server(program, 2, journal=path, env=both(recording, counting)) as server:
            yield from answered(server, registering(DEVICE), done(1), "before")
            recording.fail(WRITE, many=EACH)
            yield from answered(server, reporting(DEVICE, 0, 1), HELD_BACK, "the last")
            found, wanted = server.ended(), (3, "", TOLD_NOT_KEPT + LOST)
            if found != wanted:
                yield f"it ended with {found}, in place of {wanted}"
        yield from kept_amiss(path, {DEVICE: 0})


def lost_by(program, path, kind, after):
    """What is wrong with a server of which a call on the file fails, behind so many of its kind, while an answer waits for it."""
    with Recording(path) as recording, Server(program, EACH, workers=MANY, journal=path, env=recording.env) as server:
        yield from answered(server, registering(DEVICE, OTHER), done(2), "before")
        recording.fail(kind, after)
        start = time.monotonic()
        yield from differing(unanswered(server.port, reporting(DEVICE, 0, 3)), b"", "a report that isn't known to be kept")
        found, wanted = server.ended(), (3, "", LOST)
        if found != wanted:
            yield f"it ended with {found}, in place of {wanted}"
        if time.monotonic() - start > AT_ONCE:
            yield f"it ended {time.monotonic() - start:.1f} seconds behind that"
    yield from kept_amiss(path, {DEVICE: 0, OTHER: 0}, {DEVICE: 3, OTHER: 0})
    lines = Lines()
    told = lines.told(start_over(path.read_bytes(), lines.fault_in).lines)
    with Server(program, 1, journal=path) as server:
        server.success = 2 + told[DEVICE]
        server.count()
        yield from answered(server, looking(DEVICE), answer(200, standing(DEVICE, told[DEVICE])), "started anew, a look")
        yield from server.end()


def calls_that_fail(program):
    """A sync that fails, the first or the second of a group, and a write of the gate: nothing is answered that may not be kept, and
    the server ends, also where its workers wait for connections."""
    for kind, after in ((SYNC, 0), (SYNC, 1), (WRITE, 1)):
        with tempfile.TemporaryDirectory() as folder:
            for complaint in lost_by(program, Path(folder, "journal"), kind, after):
                yield f"call {after + 1} of kind {kind}: {complaint}"


def lost_together(program, path, after):
    """What is wrong with a server of which a sync fails, behind so many, while more requests wait that rest on one record: first a
    report, and while that is being written two others."""
    with Recording(path) as recording, Server(program, EACH, workers=MANY, journal=path, env=recording.env) as server:
        yield from answered(server, registering(DEVICE, OTHER), done(2), "before")
        before = recording.number("writes")
        recording.set(pause=int(SLOW * 1000000))
        recording.fail(SYNC, after)
        with ThreadPoolExecutor(MANY) as pool:
            first = pool.submit(unanswered, server.port, reporting(DEVICE, 0, 1))
            begins_to_write(recording, before)
            others = (reporting(OTHER, 0, 1), reporting(DEVICE, 0, 2))
            behind = [pool.submit(unanswered, server.port, request) for request in others]
            yield from differing(first.result(), done(1) if after else b"", "the first report")
            for client in behind:
                yield from differing(client.result(), b"", "a report that waited")
        found, wanted = server.ended(), (3, "", LOST)
        if found != wanted:
            yield f"it ended with {found}, in place of {wanted}"


def requests_that_wait_together(program):
    """A sync that fails while several reports wait, that of the first report's group, or the first or second of the next group, which
    has the others: none of them is answered, also not that it isn't kept, and the server tells that the journal is lost, and nothing
    else."""
    for after in (0, 2, 3):
        with tempfile.TemporaryDirectory() as folder:
            for complaint in lost_together(program, Path(folder, "journal"), after):
                yield f"sync {after + 1}: {complaint}"


def seconds_until_told(server, text):
    """How long it takes until a server has told just this on standard error; as long as may be, where it hasn't by then."""
    begun = time.monotonic()
    while faults_of(server) != text and time.monotonic() < begun + TOLD_WITHIN:
        time.sleep(0.01)
    return time.monotonic() - begun


def told_beside(server, recording):
    """What is wrong with when a server tells that a sync failed, while a client reads nothing of its answer."""
    with connect(server.port, room=SMALL_ROOM) as slow:
        slow.sendall(listing(A))
        slow.recv(1, socket.MSG_PEEK)
        recording.fail(SYNC)
        yield from differing(unanswered(server.port, registering(DEVICE)), b"", "a registration that isn't known to be kept")
        seconds = seconds_until_told(server, LOST)
        if seconds >= TOLD_WITHIN:
            yield f"{seconds:.1f} seconds behind that it had told {faults_of(server)!r}"
        if server.child.poll() is not None:
            yield "it ended before the answer had left"


def told_beside_an_answer(program):
    """A sync that fails while a long answer leaves that nobody reads: the fault is told at once, and the server ends once its client
    has gone."""
    with tempfile.TemporaryDirectory() as folder:
        path = Path(folder, "journal")
        with Recording(path) as recording, Server(program, EACH, WORKERS, journal=path, env=recording.env) as server:
            yield from long_list(server, A)
            yield from told_beside(server, recording)
            found, wanted = server.ended(), (3, "", LOST)
            if found != wanted:
                yield f"it ended with {found}, in place of {wanted}"


def ended_by_its_port(server):
    """What is wrong with the end of a server that lacks open files for the next client for too long: what was accepted is recorded,
    so that it tells of the port."""
    with contextlib.ExitStack() as client:
        with contextlib.suppress(ConnectionError):  # where it has ended
            client.enter_context(connect(server.port))
        found, wanted = server.ended(), (3, "", SOCKET)
        if found != wanted:
            yield f"it ended with {found}, in place of {wanted}"


def a_port_that_fails(program):
    """A server that lacks open files for too long, before its first client and behind answers: all that was answered stands."""
    with tempfile.TemporaryDirectory() as folder:
        path = Path(folder, "journal")
        with Server(program, EACH, journal=path, env=moved_on(0, TOO_LONG)) as server:
            yield from ended_by_its_port(server)
        yield from kept_amiss(path, {})
        with Server(program, EACH, workers=WORKERS, journal=path, env=moved_on()) as server:
            yield from answered(server, registering(DEVICE, OTHER), done(2), "before")
            yield from answered(server, reporting(DEVICE, 0, FIRST), done(FIRST), "before")
            resource.prlimit(server.child.pid, resource.RLIMIT_NOFILE, (STANDARD, STANDARD))
            yield from ended_by_its_port(server)
        yield from kept_amiss(path, {DEVICE: FIRST, OTHER: 0})
        behind = outcome_of_start(program, path, FIRST + 2)
        if behind is not None:
            yield f"the next start came to {behind}"


def a_write_that_fails_once(program):
    """A group of which a half was written: it isn't kept, and is with the next answer."""
    with tempfile.TemporaryDirectory() as folder:
        path = Path(folder, "journal")
        with Recording(path) as recording, Server(program, 5, journal=path, env=recording.env) as server:
            yield from answered(server, registering(DEVICE, OTHER), done(2), "before")
            recording.fail(WRITE)
            yield from answered(server, reporting(DEVICE, 0, 9), HELD_BACK, "the write fails")
            yield from kept_amiss(path, {DEVICE: 0, OTHER: 0})
            repeated = [{"error": "repeated", "index": index} for index in range(9)]
            yield from answered(server, reporting(DEVICE, 0, 10), done(10, repeated), "behind that")
            yield from kept_amiss(path, {DEVICE: 10, OTHER: 0})
            yield from answered(server, registering(device_at(3)), done(1), "behind that")
            yield from answered(server, looking(device_at(3)), answer(200, standing(device_at(3), 0)), "behind that")
            found, wanted = server.ended(), (0, "accepted 13\n", TOLD_NOT_KEPT + KEPT_AGAIN)
            if found != wanted:
                yield f"it ended with {found}, in place of {wanted}"
        yield from listed_amiss(program, path)


def outcome_of_start(program, path, accepted, env=None):
    """What came of a start over a file: None where the server listened and ended as it has to with so many accepted, else how it
    ended, or what is wrong with its end."""
    try:
        with Server(program, 1, journal=path, env=env) as server:
            server.success = accepted
            return list(server.end()) or None
    except NotListening as fault:
        return fault.ended


def start_that_fails(program, content, kind, number):
    """What is wrong with a start over a file with this content of which a call fails: it is told, the lines are the same, and the
    next start goes on; or None where it makes no such call. The first of the syncs is that of opening the file."""
    told = Lines().told(counted(content))
    accepted = len(told) + sum(told.values())
    with tempfile.TemporaryDirectory() as folder:
        path = Path(folder, "journal")
        path.write_bytes(content)
        with Recording(path, failing=kind, first=number, many=1) as recording:
            found = outcome_of_start(program, path, accepted, recording.env)
            wanted = (3, "", told_of_cut(aside_of(path)) + cannot_read(path))
            has_failed_to_read = kind == READ and recording.number("reads") >= number
        if found is None and not has_failed_to_read:
            return None
        complaints = [] if found == wanted else [f"it ended with {found}, in place of {wanted}"]
        complaints += [*kept_amiss(path, told), *lost_amiss(path, content)]
        behind = outcome_of_start(program, path, accepted)
        return complaints if behind is None else [*complaints, f"the next start came to {behind}"]


def failing_starts(program, content, kind):
    """What is wrong with starts over this content of which one call of a kind fails, each of them in turn."""
    for number in range(1, EACH):
        complaints = start_that_fails(program, content, kind, number)
        if complaints is None:
            break
        yield from (f"over {len(content)} bytes, call {number} of kind {kind}: {it}" for it in complaints)
    if number == 1:
        yield f"over {len(content)} bytes, no call of kind {kind}"


def starts_that_fail(program):
    """Each call of a start that fails, over no file and over one with a torn end; and each read of one that takes several."""
    torn = (journal(registered(DEVICE), end=TORN).encode(), checked((registered(DEVICE),), end=TORN).encode())
    for content in (b"", *torn):
        for kind in (WRITE, CUT, SYNC, READ):
            yield from failing_starts(program, content, kind)
    long = journal(*[registered(device_at(number)) for number in range(SEVERAL_READS)]).encode()
    yield from failing_starts(program, long, READ)


def begun_without(program, path, number):
    """How a start ended over a file, where this growth of memory was refused: None where it listened all the same; and whether it
    came to that growth before."""
    with Refusal(number) as refusal:
        try:
            with Server(program, 1, journal=path, env=refusal.env):
                return None, refusal.came()
        except NotListening as fault:
            return fault.ended, refusal.came()


def starts_over_without(program, content):
    """What is wrong with starts over a file with this content, of which one growth of memory is refused, each of them in turn: it is
    told, and the lines are the same, or also those of a group that is kept."""
    lines = Lines()
    vehicles = [lines.told(front) for front in (counted(content), start_over(content, lines.fault_in).lines)]
    with tempfile.TemporaryDirectory() as folder:
        path = Path(folder, "journal")
        for number in range(1, EACH):
            path.write_bytes(content)
            aside_of(path).unlink(missing_ok=True)
            found, came = begun_without(program, path, number)
            if not came:
                break
            if found not in (None, *((4, "", told + NO_MEMORY) for told in ("", told_of_cut(aside_of(path))))):
                yield f"growth {number} refused: it ended with {found}"
            yield from (f"growth {number} refused: {it}" for it in (*kept_amiss(path, *vehicles), *lost_amiss(path, content)))
    if came or number < FEWEST_GROWTHS:
        yield f"over {len(content)} bytes, a start takes {number} growths"


def starts_without_memory(program):
    """Each growth of memory of a start that is refused, over a file with a torn end, over one at rest, over one with a group that is kept,
    and over those that it makes a journal of."""
    for end in (TORN, "#"):
        yield from starts_over_without(program, journal(registered(DEVICE), registered(OTHER), end=end).encode())
    for end in (TORN, "#" + group(registered(OTHER))[1:] + TORN):
        yield from starts_over_without(program, checked((registered(DEVICE),), end=end).encode())
    for content in (b"", b"#"):
        yield from starts_over_without(program, content)


def end_without(program, number):
    """How a server of one connection over no file ended, where this growth of memory was refused and all behind it: nothing where its
    client was let go, so that it waits for another; what a registration was answered; what the file told; and whether it came to
    that growth."""
    with tempfile.TemporaryDirectory() as folder, Refusal(number, many=EACH) as refusal:
        path = Path(folder, "journal")
        try:
            with Server(program, 1, journal=path, env=refusal.env) as server:
                answered = answer_at(server, registering(DEVICE))
                ended = server.ended() if answered else None
        except NotListening as fault:
            ended, answered = fault.ended, b""
        told = Lines().told(counted(path.read_bytes())) if path.exists() else {}
        return ended, answered, told, refusal.came()


def end_amiss(ended, answered, told, _):
    """What is wrong with an end where memory may be wanting: that is told as such, also where what was accepted can't be recorded for
    it, and what was answered is recorded."""
    if ended not in (None, LACKING_MEMORY, (0, f"accepted {len(told)}\n", "")) or (answered == done(1) and told != {DEVICE: 0}):
        yield f"{answered!r} was answered, it ended with {ended}, and the file tells {told}"


def ends_without_memory(program):
    """Each growth of memory in turn that is refused with all behind it, over a journal: the end tells of that, and not of the journal."""
    found = []
    with ThreadPoolExecutor(os.cpu_count()) as pool:
        while len(found) < EACH and all(came for *_, came in found):
            numbers = range(len(found) + 1, len(found) + 1 + TOGETHER)
            found += pool.map(lambda number: end_without(program, number), numbers)
    for number, end in enumerate(found, 1):
        yield from (f"growth {number} and all behind it refused: {it}" for it in end_amiss(*end))
    if not any(ended == LACKING_MEMORY and answered not in (b"", done(1)) and not told for ended, answered, told, _ in found):
        yield f"of {len(found)} ends none is for want of memory behind a registration that isn't recorded"


def outcome_in(program, limit):
    """How a server ended that starts in so many kilobytes of address space, over no file, and takes one connection; and whether it
    listened before."""
    with tempfile.TemporaryDirectory() as folder:
        try:
            with Server(program, 1, journal=Path(folder, "journal"), address_space=limit) as server:
                with contextlib.suppress(ConnectionResetError):
                    server.ask(registering(DEVICE))
                return server.ended()[0], True
        except NotListening as fault:
            return fault.ended, False


def starts_in_little_space(program):
    """The system ends no server whose stack has no room to grow (setrlimit(2), RLIMIT_AS): it listens, or says that it lacks memory."""
    outcomes = [(limit, *outcome_in(program, limit)) for limit in LITTLE]
    for limit, found, has_listened in outcomes:
        if found not in ((0, 4) if has_listened else [(4, "", NO_MEMORY)]):
            yield f"in {limit} kB it {'listened, and ' if has_listened else ''}ended with {found}"
    listened = sum(has_listened for *_, has_listened in outcomes)
    if listened in (0, len(outcomes)):
        yield f"of {len(outcomes)} starts {listened} listened"


def starts_without_threads(program):
    """Starts over a journal of several pieces where the system makes no thread, or no more than two: the first one does the work of
    those that are wanting."""
    devices = [device_at(number) for number in range(SEVERAL_READS)]
    for most in (0, 2):
        with tempfile.TemporaryDirectory() as folder, Counting(threads=most) as counting:
            path = Path(folder, "journal")
            path.write_text(journal(*map(registered, devices)))
            with Server(program, 2, workers=1, journal=path, env=counting.env) as server:
                for device in (devices[0], devices[-1]):
                    wanted = answer(200, standing(device, 0))
                    yield from answered(server, looking(device), wanted, f"by {most} threads more, a look at {device}")
                server.count(2, SEVERAL_READS)
                yield from server.end()
            if counting.counts().threads <= most:
                yield f"{counting.counts().threads} threads were asked for, and more than {most} were to be"


LACKING = [
    room_that_a_call_misses,
    room_is_tried_for_once,
    a_full_disk,
    a_limit_of_the_size,
    the_signal_of_a_limit,
    full_at_its_end,
    calls_that_fail,
    requests_that_wait_together,
    told_beside_an_answer,
    a_port_that_fails,
    a_write_that_fails_once,
    starts_that_fail,
    starts_without_memory,
    ends_without_memory,
    starts_in_little_space,
    starts_without_threads,
]
