"""What stands at the path of a journal when a server starts: what is told where it can't be taken, and that it stays as it was."""

import errno
import os
import re
import socket
import stat
import tempfile
import time
from concurrent.futures import ThreadPoolExecutor
from pathlib import Path

from cases.calls import EVERY, MOST_CALLS, MOVED
from cases.opened import BY_A_SERVER
from cases.replays import event
from cases.tables import ONE_ROW
from cases.vehicles import CHECKED, DAMAGED, FORM, GROUP_FAULTS, LONG, checked, journal, not_a_journal, registered
from crashing.files import AT_REST, counted, is_put_aside, listed_by, texts_in, vehicles_text
from crashing.recording import LOCKED, OPENED, Recording
from crashing.reports import device_at, registering
from crashing.resting import SLOW
from harness.building import BY_BYTES, Counting, built, no_random_numbers
from harness.case import HOW_FAR, RANDOM, SOCKET, cannot_read, not_a_table
from harness.counting import Skipped
from harness.texts import differing
from serving.http import done
from serving.server import SECONDS, NotListening, Server, aside_of, numbered_port
from serving.sockets import addresses_of

IN_USE = "mds_city: journal in use\n"
FAULTS = 2
"""The descriptor of standard error."""
DEVICE, OTHER = device_at(1), device_at(2)
MOST_BEHIND = 16 << 20
"""Bytes behind the lines that count: a group has no more."""
LARGE = 2 << 30
MANY = 2500
"""Lines of three pieces, each of which a start reads while it asks the one before it."""
AMID = (100, 900)
"""Places in the first piece, each of which is read by another thread."""
REGISTERED = journal(registered(DEVICE))
DROPPED = event(DEVICE, "0", "provider_drop_off", "available", 1000)
WAKE = event(DEVICE, "0", "wake", "available", 1000)
RESERVED = event(DEVICE, "1", "reservation_start", "reserved", 2000)


def not_started(program, path, faults, **more):
    """What is wrong with a server that isn't to start, but to tell this, and how far it is where it takes long."""
    wanted = (3, "", faults)
    try:
        with Server(program, 1, journal=path, **more):
            yield f"it listened, in place of {wanted}"
    except NotListening as fault:
        status, out, told = fault.ended
        if (status, out, re.sub(HOW_FAR, "", told)) != wanted:
            yield f"it ended with {fault.ended}, in place of {wanted}"


def refused(program, content, faults, **more):
    """The same over a file with this content, which stays."""
    with tempfile.TemporaryDirectory() as folder:
        path = Path(folder, "journal")
        path.write_bytes(content)
        yield from not_started(program, path, faults, **more)
        if path.read_bytes() != content or os.listdir(folder) != ["journal"]:
            yield f"the file has {path.read_bytes()[:200]!r}, in place of {content[:200]!r}, and there are {os.listdir(folder)}"


def begun(program, content, wanted, behind):
    """What is wrong with a server that starts over a file with this content, or over none, and is to hold so many requests of it;
    the file has then these bytes, and what was cut off is put aside."""
    with tempfile.TemporaryDirectory() as folder:
        path = Path(folder, "journal")
        if content is not None:
            path.write_bytes(content)
        with Server(program, 1, journal=path) as server:
            server.success = wanted
            yield from server.end()
        if path.read_bytes() != behind:
            yield f"the file has {path.read_bytes()[:200]!r}, in place of {behind[:200]!r}"
        front = counted(content or b"")
        yield from aside_amiss(path, content[len(front) :] if front else b"")


def aside_amiss(path, cut):
    """What is wrong with what a start over the journal of this path put aside of what it cut off."""
    aside = aside_of(path)
    found = aside.read_bytes() if aside.exists() else b""
    if not is_put_aside(found, cut):
        yield f"put aside is {found[:200]!r}, of {cut[:200]!r}"


def places_that_are_none(program):
    """A folder, a pipe, a device, a link to a folder, none of which is opened, and a file in a folder that isn't there."""
    with tempfile.TemporaryDirectory() as folder:
        places = [Path(folder, name) for name in ("folder", "pipe", "link", "loop", "nowhere/journal")]
        places[0].mkdir()
        os.mkfifo(places[1])
        places[2].symlink_to("folder")
        places[3].symlink_to("loop")
        for place in (*places, Path("/dev/null")):
            with Recording(place) as recording:
                yield from (f"{place.name}: {it}" for it in not_started(program, place, cannot_read(place), env=recording.env))
                if place.exists() and recording.count(OPENED) > BY_A_SERVER:
                    yield f"{place.name} was opened"
        if not stat.S_ISFIFO(places[1].stat().st_mode) or sorted(os.listdir(folder)) != ["folder", "link", "loop", "pipe"]:
            yield f"there are {os.listdir(folder)}"


def a_file_without_leave(program):
    """A file that may not be read, and one that may not be written."""
    if os.geteuid() == 0:
        raise Skipped("root has leave for each file")
    with tempfile.TemporaryDirectory() as folder:
        path = Path(folder, "journal")
        path.write_text(REGISTERED)
        for mode in (0o200, 0o400):
            path.chmod(mode)
            yield from not_started(program, path, cannot_read(path))


def links(program):
    """A link to a file that is there, and one to a file that is made by it: both stay links."""
    with tempfile.TemporaryDirectory() as folder:
        for name, text, count in (("there", REGISTERED, 1), ("made", None, 0)):
            target, link = Path(folder, name), Path(folder, f"link-to-{name}")
            if text is not None:
                target.write_text(text)
            link.symlink_to(name)
            with Server(program, 2, journal=link) as server:
                server.success = count
                yield from differing(server.ask(registering(OTHER)), done(1), f"a link to a file that is {name}")
                yield from server.end()
            if not link.is_symlink() or len(texts_in(counted(target.read_bytes()))) != count + 1:
                yield f"{name}: {target.read_bytes()!r}"


def names_in_folders(program):
    """A file that is made, one that is there, and one behind a link in another folder: its folder is synced, by fsync(2), before the
    server listens, so that no power cut takes the name away."""
    with tempfile.TemporaryDirectory() as folder:
        path, elsewhere = Path(folder, "journal"), Path(folder, "elsewhere")
        elsewhere.mkdir()
        link = Path(elsewhere, "link")
        link.symlink_to(path)
        for place in (path, path, link):
            with Recording(place) as recording, Server(program, 1, journal=place, env=recording.env):
                if recording.number("folders") != 1:
                    yield f"{place.name}: its folder was synced {recording.number('folders')} times by fsync(2)"


def one_server_at_a_time(program):
    """A file that another server has: the second one doesn't start, the first goes on, and once it is gone another starts. What the
    second one tells goes out whole, also byte by byte, and is given up after as many calls as any line."""
    with tempfile.TemporaryDirectory() as folder:
        path = Path(folder, "journal")
        with Server(program, 2, journal=path) as server:
            yield from differing(server.ask(registering(DEVICE)), done(1))
            yield from not_started(program, path, IN_USE)
            link = Path(folder, "link")
            link.symlink_to(path)
            with Counting(FAULTS, BY_BYTES) as counting:
                yield from not_started(program, link, IN_USE, env=counting.env)
            with Counting(FAULTS, EVERY) as counting:
                yield from not_started(program, path, IN_USE[:MOVED], env=counting.env)
                if counting.counts().writes != MOST_CALLS:
                    yield f"{counting.counts()}, in place of {MOST_CALLS} writes"
            yield from server.end()
        with Server(program, 1, journal=path) as server:
            server.success = 1
            yield from server.end()


def locks_that_are_refused(program):
    """A lock that another has is told otherwise than one that the system refuses for a cause of its own (flock(2))."""
    with tempfile.TemporaryDirectory() as folder:
        path = Path(folder, "journal")
        for how, told in ((errno.EWOULDBLOCK, IN_USE), (errno.ENOLCK, cannot_read(path))):
            with Recording(path, failing=LOCKED, first=1, many=1, how=how) as recording:
                yield from (f"{errno.errorcode[how]}: {it}" for it in not_started(program, path, told, env=recording.env))


def another_at_its_path(program):
    """A file that is put away while its server waits for its lock, and another in its place: that isn't locked, so none starts."""
    with tempfile.TemporaryDirectory() as folder:
        path, away, hold, held = (Path(folder, name) for name in ("journal", "away", "hold", "held"))
        shim = built("hold-lock.so", "tests/hold-lock.c", "-shared", "-fPIC", "-O1", "-ldl")
        env = {**os.environ, "LD_PRELOAD": str(shim), "HOLD": str(hold), "HELD": str(held)}
        path.write_text(REGISTERED)
        hold.touch()
        with ThreadPoolExecutor(1) as pool:
            pool.submit(put_away, path, away, hold, held)
            yield from not_started(program, path, cannot_read(path), env=env)
        if (path.read_text(), away.read_text()) != ("", REGISTERED):
            yield f"the files have {path.read_bytes()[:200]!r} and {away.read_bytes()[:200]!r}"


def put_away(path, away, hold, held):
    end = time.monotonic() + SECONDS
    while not held.exists() and time.monotonic() < end:
        time.sleep(0.01)
    path.rename(away)
    path.touch()
    hold.unlink()


def files_that_are_none(program):
    """Files with a line that is none of a journal, or that isn't accepted, also by the table alone; of more such lines the first is
    told."""
    new, other, many = registered(DEVICE), registered(OTHER), [registered(device_at(number)) for number in range(MANY)]
    for text, fault in (
        ("no journal\n", "form"),
        (f" {new}\n#", "form"),
        (f" {FORM}", "form"),
        (f"#{FORM}\n {new}\n#", "form"),
        (f"#{FORM[:-1]}0}}\n#", "form"),
        (f"#{FORM}x", "form"),
        (f"#{CHECKED}\n#", "form"),
        (f" {FORM[:-2]}3}}\n#", "form"),
        ('#{"a":1}', "form"),
        ("# notes\n", "form"),
        ("\0\0\1\0icon", "form"),
        ("\0" + 100 * "x", "form"),
        (journal(new, "{}", DROPPED), "bad_line 2"),
        (journal(new, f"[{DROPPED}]"), "bad_line 2"),
        (journal(DROPPED), "refused 1"),
        (journal(new, DROPPED, DROPPED), "refused 3"),
        (journal(new, DROPPED, other, RESERVED, WAKE), "refused 5"),
        (journal(new, new), "refused 2"),
        (journal(new, other, new, other), "refused 3"),
        (journal(new, other, other, new), "refused 3"),
        (journal(form=LONG), "too_long 0"),
        (journal(new, LONG, RESERVED), "too_long 2"),
        (journal(DROPPED, LONG), "refused 1"),
        (journal(new, end=f" {LONG}"), "too_long 2"),
        (journal(new, RESERVED, "{}", LONG), "refused 2"),
        (journal(new, RESERVED, new), "refused 2"),
        (journal(new, "{}", RESERVED, LONG), "bad_line 2"),
        (journal(new, LONG, "{}"), "too_long 2"),
        (journal(new, new, *many[2:], "{}"), "refused 2"),
        (journal(*many, many[0]), f"refused {MANY + 1}"),
        (journal(*many, "{}"), f"bad_line {MANY + 1}"),
        (journal(*many, LONG), f"too_long {MANY + 1}"),
        *((journal(*many[:at], "{}", *many[at:]), f"bad_line {at + 1}") for at in AMID),
        *((journal(*many[:at], "{}", *many[at:], "{}"), f"bad_line {at + 1}") for at in AMID),
        *((journal(*many[: AMID[0]], many[0], *many[AMID[0] : at], "{}"), f"refused {AMID[0] + 1}") for at in AMID[1:]),
    ):
        yield from refused(program, text.encode(), not_a_journal(fault))
    yield from refused(program, journal(new, DROPPED).encode(), not_a_journal("refused 2"), table=ONE_ROW)
    yield from refused(program, journal(new, WAKE).encode(), not_a_journal("refused 2"))


def groups_that_are_none(program):
    """Files with a group that isn't as it was written, or of whose groups one has a line that is none, or that isn't accepted."""
    for groups, fault in GROUP_FAULTS:
        yield from refused(program, checked(*groups).encode(), not_a_journal(fault))
    for text, line in DAMAGED:
        yield from refused(program, text.encode(), not_a_journal(f"damaged {line}"))


def forms_that_stay(program):
    """A server goes on with a file of either version in its own, and so does the next one."""
    old, new = registered(DEVICE), registered(OTHER)
    for before, behind in ((journal(old), journal(old, new)), (checked((old,)), checked((old,), (new,)))):
        with tempfile.TemporaryDirectory() as folder:
            path = Path(folder, "journal")
            path.write_text(before)
            with Server(program, 1, journal=path) as server:
                server.success = 1
                yield from differing(server.ask(registering(OTHER)), done(1))
                yield from server.end()
            # but for the room behind its lines
            if (found := path.read_text().rstrip("\n")) != behind:
                yield f"the file has {found[:400]!r}, in place of {behind!r}"
            yield from begun(program, behind.encode(), 2, behind.encode())


def before_the_port(program):
    """A file that isn't accepted is told of also where the port is taken: the journal is read first."""
    with socket.create_server(("127.0.0.1", 0)) as taken:
        port = taken.getsockname()[1]
        yield from refused(program, journal(DROPPED).encode(), not_a_journal("refused 1"), port=port)
        yield from refused(program, REGISTERED.encode(), SOCKET, port=port)


def not_before_its_book(program):
    """While a start over a journal waits for the disk, no client can connect, which would wait for its answer so long."""
    with tempfile.TemporaryDirectory() as folder:
        path, port = Path(folder, "journal"), numbered_port()
        path.write_text(f"{REGISTERED[:-1]} {{")
        with Recording(path, pause=int(SLOW * 1000000)) as recording:
            server, begun = Server(program, 1, journal=path, port=port, env=recording.env), time.monotonic()
            while not any(addresses_of(port)) and time.monotonic() < begun + SECONDS:
                time.sleep(0.01)
            begun = time.monotonic()
            with server:
                seconds = time.monotonic() - begun
            if recording.number("syncs") < 2 or seconds > SLOW:
                yield f"it listened {seconds:.1f} s before it said so, of {recording.number('syncs')} syncs"


def behind_the_table(program):
    """A table file that is none is told of before the journal is opened or made: no file is there then, and one that is none isn't
    told of."""
    fault = not_a_table("not_rows")
    yield from refused(program, b"no journal", fault, table="[]")
    with tempfile.TemporaryDirectory() as folder:
        yield from not_started(program, Path(folder, "journal"), fault, table="[]")
        if os.listdir(folder):
            yield f"there are {os.listdir(folder)}"


def without_random_numbers(program):
    """Where the system gives no random numbers that is told, behind the table file, and before the file is opened or made, or the
    port asked for: no file is there then, an empty or a torn one stays as it is, and one that is none, is a folder or that another
    server has isn't told of."""
    lacking = {"env": no_random_numbers()}
    for content in (b"", b"no journal", b"#" + AT_REST[1:], REGISTERED.encode() + b" {"):
        yield from (f"{content[:50]!r}: {it}" for it in refused(program, content, RANDOM, **lacking))
    yield from refused(program, b"", not_a_table("not_rows"), table="[]", **lacking)
    with tempfile.TemporaryDirectory() as folder, socket.create_server(("127.0.0.1", 0)) as taken:
        path = Path(folder, "journal")
        for place in (path, Path(folder), Path(folder, "nowhere/journal")):
            for port in (0, taken.getsockname()[1]):
                yield from (f"{place.name}: {it}" for it in not_started(program, place, RANDOM, port=port, **lacking))
        if os.listdir(folder):
            yield f"there are {os.listdir(folder)}"
        with Server(program, 1, journal=path) as server:
            yield from not_started(program, path, RANDOM, **lacking)
            yield from server.end()


def too_much_behind_the_lines(program):
    """A file behind whose lines more stands than a group, of 2 GB too, is damaged, unless one of the lines has a fault; with as much
    as a group it is cut."""
    lines = counted(REGISTERED.encode())
    yield from begun(program, lines + b"#" + bytes(MOST_BEHIND - 1), 1, lines + b"#")
    yield from refused(program, lines + b"#" + bytes(MOST_BEHIND), not_a_journal("damaged"))
    for text, fault in ((RESERVED, "refused 2"), ("{}", "bad_line 2"), (LONG, "too_long 2")):
        content = journal(registered(OTHER), text).encode() + bytes(MOST_BEHIND)
        yield from refused(program, content, not_a_journal(fault))
    with tempfile.TemporaryDirectory() as folder:
        path = Path(folder, "journal")
        path.write_bytes(lines)
        os.truncate(path, LARGE)
        yield from not_started(program, path, not_a_journal("damaged"))
        with open(path, "rb") as file:
            front = file.read(1 << 16)
        if path.stat().st_size != LARGE or front != lines.ljust(1 << 16, b"\0"):
            yield f"the file has {path.stat().st_size} bytes, {front[:300]!r}"
        found, wanted = listed_by(program, path), (0, vehicles_text({DEVICE: 0}), "")
        if found != wanted:
            yield f"`vehicles` said {found}, in place of {wanted}"


def files_that_are_begun(program):
    """No file, an empty one, and what a crash leaves of the lines before the first group, of either version: a server begins there.
    One at rest stays as it is, and so does one with a line behind it that doesn't count, but for that."""
    old = journal().encode()
    line, lines = b"#" + old[1:], b"#" + AT_REST[1:]
    yield from begun(program, None, 0, AT_REST)
    yield from begun(program, old, 0, old)
    torn = (lines, lines[:-1], lines[:-9], lines[:34], lines[:40] + bytes(9), bytes(len(lines)))
    for content in (b"", b"#", line, line[:-1], line[:9], line[:4] + bytes(20), bytes(len(line)), AT_REST, *torn):
        yield from (f"{content[:50]!r}: {it}" for it in begun(program, content, 0, AT_REST))
    whole = REGISTERED.encode()
    for content in (whole, whole[:-1], whole + DROPPED.encode() + b"\n#", whole + b"\0" * 600, whole[:-1] + b" {"):
        yield from (f"{content[-50:]!r}: {it}" for it in begun(program, content, 1, whole))


def told_anew(program):
    """What was reported over a table of its own is told by a server that starts with the same table."""
    with tempfile.TemporaryDirectory() as folder:
        path = Path(folder, "journal")
        path.write_text(journal(registered(DEVICE), WAKE))
        with Server(program, 1, journal=path, table=ONE_ROW) as server:
            server.success = 2
            yield from server.end()


PATHS = [
    places_that_are_none,
    a_file_without_leave,
    links,
    names_in_folders,
    one_server_at_a_time,
    locks_that_are_refused,
    another_at_its_path,
    files_that_are_none,
    groups_that_are_none,
    forms_that_stay,
    before_the_port,
    not_before_its_book,
    behind_the_table,
    without_random_numbers,
    too_much_behind_the_lines,
    files_that_are_begun,
    told_anew,
]
