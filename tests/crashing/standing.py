"""Starts over what stands behind the lines that are killed, or of which calls fail, and those that come behind them."""

import tempfile
from pathlib import Path

from cases.vehicles import group, registered
from crashing.aside import COUNT, FRONT, NEXT, OTHER, TORN, unopened
from crashing.damaged import fault_in, told_of
from crashing.files import CLOSED, counted, is_put_aside, listed_amiss, start_over
from crashing.hurting import ROOMS
from crashing.lacking import TOLD_NOT_KEPT
from crashing.paths import aside_amiss, not_started
from crashing.recording import CUT, SYNC, WRITE, Recording
from crashing.reports import device_at, registering
from harness.case import cannot_read
from harness.texts import differing
from serving.http import done
from serving.server import NotListening, Server, asides_of

TEXTS = [registered(OTHER), *NEXT[:2]]
CONTENT = FRONT + unopened(*TEXTS) + CLOSED
"""A file with a group that was written whole, and not opened."""
WITHOUT, WITH_IT = told_of(FRONT), told_of(FRONT + group(*TEXTS).encode())
"""What it tells without the group, and with it."""
KILLS = 3
"""Servers that are killed over one file."""
MOST_CALLS = 20
"""More than a start makes on the file, of any kind."""


def total(told):
    """How many requests a file has that tells of these devices, each with so many events."""
    return len(told) + sum(told.values())


def tells_amiss(path, *wanted):
    """What is wrong with a file that is to tell so many events of each device, or so many."""
    if (found := told_of(counted(path.read_bytes()))) not in wanted:
        yield f"the file tells {found}, in place of {wanted}"


def kept_from_then_on(program):
    """A server that kept a group, and is killed once it listens, leaves it to the next one."""
    with tempfile.TemporaryDirectory() as folder:
        path = Path(folder, "journal")
        path.write_bytes(CONTENT + ROOMS[1])
        for _ in range(KILLS):
            with Server(program, 1, journal=path) as server:
                server.child.kill()
                server.child.wait()
            yield from tells_amiss(path, WITH_IT)
        with Server(program, 2, journal=path) as server:
            server.success = total(WITH_IT)
            yield from differing(server.ask(registering(device_at(3))), done(1))
            yield from server.end()
        yield from tells_amiss(path, {**WITH_IT, device_at(3): 0})
        yield from aside_amiss(path, b"")
        yield from listed_amiss(program, path)


def not_kept(program, kind, number):
    """What is wrong with a start over a whole group of which a call on the file fails, and with the next one, which has what the file
    tells then, and no lines fewer than were recorded; or None where it makes no such call."""
    with tempfile.TemporaryDirectory() as folder:
        path = Path(folder, "journal")
        path.write_bytes(CONTENT)
        with Recording(path, failing=kind, first=number, many=1) as recording:
            try:
                with Server(program, 1, journal=path, env=recording.env):
                    return None
            except NotListening as fault:
                ended = fault.ended
        complaints = []
        if ended not in [(3, "", told + cannot_read(path)) for told in ("", TOLD_NOT_KEPT)]:
            complaints.append(f"it ended with {ended}")
        start = start_over(path.read_bytes(), fault_in)
        complaints += [*tells_amiss(path, WITHOUT, WITH_IT), *aside_amiss(path, b"")]
        with Server(program, 1, journal=path) as server:
            server.success = total(told_of(start.lines))
            complaints += [*tells_amiss(path, told_of(start.lines)), *server.end(), *aside_amiss(path, start.cut)]
        return complaints


def calls_that_fail(program):
    """Each call on the file that fails in a start over a whole group, in turn: no server listens that didn't keep it."""
    for kind in (WRITE, CUT, SYNC):
        for number in range(1, MOST_CALLS):
            complaints = not_kept(program, kind, number)
            if complaints is None:
                break
            yield from (f"call {number} of kind {kind}: {it}" for it in complaints)
        if number in (1, MOST_CALLS - 1):
            yield f"{number} calls of kind {kind}"


def put_aside_again(program):
    """Bytes that stand aside already, of a start that failed to cut them off, don't hold up the next one: it puts aside what still stands
    behind the lines, in a file of its own."""
    for kind in (CUT, WRITE):
        with tempfile.TemporaryDirectory() as folder:
            path, second = Path(folder, "journal"), asides_of(f"{folder}/journal")[1]
            path.write_bytes(FRONT + TORN)
            with Recording(path, failing=kind, first=1, many=1) as recording:
                yield from not_started(program, path, f"mds_city: {len(TORN)} bytes cut\n{cannot_read(path)}", env=recording.env)
            rest = path.read_bytes()[len(FRONT) :]
            with Server(program, 1, journal=path) as server:
                server.success = COUNT
                yield from server.end()
            yield from aside_amiss(path, TORN)
            found = second.read_bytes() if second.exists() else b""
            if not is_put_aside(found, rest):
                yield f"put aside again is {found!r}, of {rest!r}"
            yield from tells_amiss(path, WITHOUT)


STANDING = [kept_from_then_on, calls_that_fail, put_aside_again]
