"""What stands behind the closed gate when a server starts: a group that is whole is kept; one whose gate was hurt is told, and stays; what
else isn't room is put aside, into a file that wasn't there, told, and cut off, and where it can't be put aside nothing is."""

import os
import tempfile
from itertools import product
from pathlib import Path
from random import Random
from stat import S_ISLNK, S_ISREG

from cases.tables import ONE_ROW
from cases.vehicles import checked, group, journal, not_a_journal, registered
from crashing.damaged import fault_in, started_over, told_of
from crashing.files import CLOSED, OPEN, Start, listed_by, start_over
from crashing.hurting import ROOMS
from crashing.lacking import FullDisk
from crashing.leaving import Disk
from crashing.paths import WAKE, aside_amiss, begun, not_started, refused
from crashing.recording import BY_FSYNC, CUT, OPENED, SETTLED, WRITE, Recording
from crashing.reports import device_at, listed
from crashing.walking import CHANGING
from harness.case import cannot_read
from model.json_text import compact
from serving.server import NotListening, Server, aside_of, asides_of

DEVICE, OTHER = device_at(1), device_at(2)
REGISTERED = registered(DEVICE)
EVENTS = [compact(listed(DEVICE, number)) for number in range(40)]
FIRST = checked(end="").encode()
"""The lines before the first group."""
FRONT = checked((REGISTERED,), EVENTS[:2], end="").encode()
"""The lines that count of a file, with so many requests."""
COUNT, NEXT = 3, EVENTS[2:]
"""How many requests these lines tell, and events that are accepted behind them."""
WHOLE = group(*NEXT[:2]).encode()
TORN = CLOSED + WHOLE[1:-9]
"""What a crash may leave behind them."""
MOST_LEFT = 40
"""Files that a crash may leave at one moment, of which all or so many are looked at."""
LONG_NAME = 252
"""So long is the name of a file that one with `.cut` behind it is too long."""
LINK_TO = "link to "
LEFT = 8192
"""How many bytes are left on a full disk; more stand behind the lines."""
GATES = (CLOSED, b"\0", b"\n", b"x", b"\xff")
"""Bytes that are a closed gate."""
GROUPS_KEPT = (NEXT[:1], NEXT[:2], [registered(OTHER), *NEXT[:1]], NEXT[:30])


def unopened(*texts):
    """A group of these texts that was written, and not opened."""
    return CLOSED + group(*texts).encode()[1:]


def kept_whole(program, texts, gate, end, front=FRONT):
    """What is wrong with a start over a group of these texts that was written and not opened, behind this gate and before this end."""
    content, whole = front + gate + unopened(*texts)[1:] + end, front + group(*texts).encode()
    complaints = started_over(program, content, Start(lines=whole, cut=end))
    yield from (f"{len(texts)} requests, gate {gate}, {end[:50]!r}: {it}" for it in complaints)


def groups_that_are_whole(program):
    """A group of one request or more that was written and not opened is kept, whatever closes its gate, and the one behind it, if there is
    one; also the first of a file, and one that a table of its own accepts."""
    for texts, room in product(GROUPS_KEPT, ROOMS):
        yield from kept_whole(program, texts, CLOSED, CLOSED + room)
    for gate, behind in product(GATES, (*GATES, b"")):
        yield from kept_whole(program, GROUPS_KEPT[0], gate, behind + ROOMS[1] if behind else b"")
    for texts in ([REGISTERED], [registered(OTHER), REGISTERED, *EVENTS]):
        yield from kept_whole(program, texts, CLOSED, CLOSED + ROOMS[1], front=FIRST)
    with tempfile.TemporaryDirectory() as folder:
        path = Path(folder, "journal")
        path.write_bytes(FIRST + unopened(REGISTERED, WAKE) + CLOSED)
        with Server(program, 1, journal=path, table=ONE_ROW) as server:
            server.success = 2
            yield from server.end()
        yield from aside_amiss(path, b"")


def kept_through_a_crash(program):
    """At each moment of a start over a group that was written and not opened, a crash leaves a file over which the next start has it whole,
    or not at all, as it wasn't answered; and all that was recorded before it. Once the server listens it has it."""
    for texts, room in product((NEXT[:2], NEXT[:30]), (b"", ROOMS[1])):
        content = FRONT + unopened(*texts) + CLOSED + room
        with_it = told_of(FRONT + group(*texts).encode())
        entries, ended, _ = recorded_start(program, content)
        where = f"{len(texts)} requests, {len(room)} bytes of room"
        yield from (f"{where}: {it}" for it in crashes_amiss(content, entries, with_it))
        if ended:
            yield f"{where}: it ended with {ended}"


def crashes_amiss(content, entries, with_it):
    """What is wrong with what crashes leave of a recorded start over a file with this content, which tells so much with its group."""
    disk, chance, lefts = Disk(content), Random(71), []
    changes = [(number, entry) for number, entry in enumerate(entries) if entry.kind in CHANGING]
    for number, entry in changes:
        disk.take(entry)
        lefts = [start_over(left, fault_in) for left in disk.left(chance, MOST_LEFT)]
        for start in lefts:
            if start.fault or not start.lines.startswith(FRONT) or told_of(start.lines) not in (told_of(FRONT), with_it):
                yield f"a crash behind record {number}, {entry[:4]}, leaves {start.fault or start.lines[-300:]}"
                return
    if not lefts or any(told_of(start.lines) != with_it for start in lefts):
        yield f"behind {len(changes)} changes a crash leaves a file without the group"


def ends_that_are_torn():
    """What isn't kept behind the lines, or not all of it, and what of it is: parts of a group, and what no server writes."""
    kept = CLOSED + WHOLE[1:]
    yield from ((kept[:size], b"") for size in (2, 100, len(kept) // 2, len(kept) - 2, len(kept) - 1))
    yield kept.replace(b"2", b"3", 1) + CLOSED, b""
    yield kept.replace(b"\n ", b"\n#", 1) + CLOSED, b""
    yield kept.replace(b"crc32", b"crc33") + CLOSED, b""
    yield kept[:-1] + b"\0" + CLOSED, b""
    yield CLOSED + WHOLE[1 : WHOLE.index(b"\n") + 1] + CLOSED + b"\n" * 900, b""
    yield CLOSED + b"\n" * 90 + b"x", b""
    yield CLOSED + bytes(700) + WHOLE[1:], b""
    yield OPEN + bytes(512), b""
    yield bytes(512), b""
    yield b"\n" * 2, b""
    yield b"\n" * (1 << 20), b""
    yield b"x\n", b""
    yield b"x" + b"\n" * 90, b""
    for more in (kept, TORN, b"#x", b"# {", b" {", bytes(600), b"x" + b"\n" * 90 + b"x", b"\n" * 90, unopened(NEXT[2]) + CLOSED):
        yield kept + more, WHOLE


def what_is_cut_off(program):
    """It is put aside whole and told, but for a group that is kept before it. In version 1 no group is kept. Room alone is cut off without a
    word, and so is one byte."""
    for end, kept in ends_that_are_torn():
        start = Start(lines=FRONT + kept, cut=end[len(kept) :])
        yield from (f"{end[:80]!r}: {it}" for it in started_over(program, FRONT + end, start))
    plain = journal(REGISTERED, *EVENTS[:2], end="").encode()
    for end in (TORN, CLOSED + NEXT[0].encode() + b"\n#", CLOSED + WHOLE[1:] + CLOSED, b" {", bytes(600)):
        start = Start(lines=plain, cut=end)
        yield from (f"version 1, {end[:80]!r}: {it}" for it in started_over(program, plain + end, start))
    for lines, end in product((FRONT, plain), (b"", OPEN, *GATES, *(CLOSED + room for room in ROOMS))):
        yield from (f"{end[:1]} and {len(end)} bytes: {it}" for it in begun(program, lines + end, COUNT, lines + CLOSED))


def groups_that_are_refused(program):
    """A group that is whole, of which a request isn't accepted behind those before, or is none, is put aside with all behind it, told and
    cut off, and the server starts without it."""
    refused_texts = ([EVENTS[1]], [NEXT[0], EVENTS[0]], [NEXT[0], "{}"], ["{"], [""], [REGISTERED], [registered(OTHER), WAKE])
    for texts, behind in product(refused_texts, (b"", CLOSED + ROOMS[1], TORN)):
        end = unopened(*texts) + behind
        yield from (f"{texts}, {behind[:9]}: {it}" for it in started_over(program, FRONT + end, Start(lines=FRONT, cut=end)))


def gates_that_were_hurt(program):
    """A gate before a group behind which another line is open was open, too: the group is told by its first line, by a start and by
    `vehicles --check`. The gate of the last group may be a server's that writes."""
    for line in (f" {NEXT[2]}\n", " x\n#", " \n"):
        told = not_a_journal(f"damaged {FRONT.count(10)}")
        yield from (f"{line!r} behind it: {it}" for it in refused(program, FRONT + CLOSED + WHOLE[1:] + line.encode(), told))
    groups = [(REGISTERED,), EVENTS[:1], EVENTS[1:4], EVENTS[4:5], EVENTS[5:9]]
    fronts = [checked(*groups[:count], end="").encode() for count in range(len(groups) + 1)]
    for number, gate in product(range(1, len(groups) - 1), GATES):
        lines, front = fronts[-1], len(fronts[number])
        content = lines[:front] + gate + lines[front + 1 :] + CLOSED + ROOMS[number % len(ROOMS)]
        told = not_a_journal(f"damaged {fronts[number].count(10)}")
        yield from (f"group {number}, gate {gate}: {it}" for it in refused(program, content, told))
        with tempfile.TemporaryDirectory() as folder:
            path = Path(folder, "journal")
            path.write_bytes(content)
            if (found := listed_by(program, path, "--check")) != (3, "", told):
                yield f"group {number}, gate {gate}: `vehicles --check` said {found}, in place of {told}"


def not_put_aside(program, path, content, **more):
    """What is wrong with a start that can't put aside what it would cut off a file with this content: it fails, and the file stays."""
    path.write_bytes(content)
    yield from not_started(program, path, cannot_read(path), **more)
    if path.read_bytes() != content:
        yield f"the file has {path.read_bytes()[-200:]!r}, in place of {content[-200:]!r}"


def lay_at(path, how="empty file"):
    """Lays something at a path: a file, an empty one, a folder, a pipe, or a link to a name beside it."""
    if how == "folder":
        path.mkdir()
    elif how == "pipe":
        os.mkfifo(path)
    elif how.startswith(LINK_TO):
        path.symlink_to(how.removeprefix(LINK_TO))
    else:
        path.write_text("what was cut before" if how == "file" else "")


def standing_at(path):
    """What stands at a path: its kind, and the bytes of a file or the target of a link."""
    mode = os.lstat(path).st_mode
    return mode, path.read_bytes() if S_ISREG(mode) else S_ISLNK(mode) and os.readlink(path)


def started_beside(program, path, end, names):
    """What is wrong with a start over a file with this end, behind which these files stand beside it, and those that were there are as
    they were."""
    before = {it: standing_at(it) for it in path.parent.iterdir() if it != path}
    path.write_bytes(FRONT + end)
    with Server(program, 1, journal=path) as server:
        server.success = COUNT
        yield from server.end()
    if (found := sorted(it.name for it in path.parent.iterdir())) != sorted(("journal", *names)):
        yield f"there are {found}"
    yield from (f"{it.name} isn't as it was" for it, was in before.items() if standing_at(it) != was)


def places_that_are_taken(program):
    """Where something stands already in the place for what is cut off, it stays, and the bytes go into the next file; and a start that
    cuts off but room makes none."""
    for how in ("file", "empty file", "folder", "pipe", f"{LINK_TO}journal", f"{LINK_TO}nowhere"):
        with tempfile.TemporaryDirectory() as folder:
            path, second = Path(folder, "journal"), Path(folder, "journal.cut.1")
            lay_at(aside_of(path), how)
            complaints = [*started_beside(program, path, CLOSED + ROOMS[1], ["journal.cut"])]
            complaints += started_beside(program, path, TORN, ["journal.cut", second.name])
            if not second.exists() or second.read_bytes() != TORN:
                complaints.append(f"{second.name} hasn't what was cut off")
            yield from (f"{how}: {it}" for it in complaints)


def one_crash_behind_another(program):
    """What each of several starts cuts off stands in a file of its own, in their order; one that was taken away is made anew, before those
    behind it."""
    names = ["journal.cut", "journal.cut.1", "journal.cut.2"]
    with tempfile.TemporaryDirectory() as folder:
        path, ends = Path(folder, "journal"), [TORN[:-size] for size in range(1, 5)]
        for count, end in enumerate(ends[:3], 1):
            yield from (f"crash {count}: {it}" for it in started_beside(program, path, end, names[:count]))
        Path(folder, names[1]).unlink()
        yield from started_beside(program, path, ends[3], names)
        found = [Path(folder, name).read_bytes() for name in names if Path(folder, name).exists()]
        if found != [ends[0], ends[3], ends[2]]:
            yield f"in {names} stand {found}"


def places_that_are_all_taken(program):
    """Where each of the hundred files is there, what a start would cut off stays, and it fails; over room it goes on. Once one of them is
    taken away, that is made."""
    with tempfile.TemporaryDirectory() as folder:
        path, places = Path(folder, "journal"), asides_of(f"{folder}/journal")
        names = [place.name for place in places]
        for place in places:
            lay_at(place)
        yield from not_put_aside(program, path, FRONT + TORN)
        yield from started_beside(program, path, CLOSED + ROOMS[1], names)
        for place in (places[-1], places[0], places[50]):
            place.unlink()
            yield from (f"but for {place.name}: {it}" for it in started_beside(program, path, TORN, names))
            if not place.exists() or place.read_bytes() != TORN:
                yield f"{place.name} hasn't what was cut off"


def places_that_cannot_be_had(program):
    """A name that is too long, and a full disk."""
    with tempfile.TemporaryDirectory() as folder:
        yield from not_put_aside(program, Path(folder, "j" * LONG_NAME), FRONT + TORN)
    with FullDisk() as folder:
        room = os.statvfs(folder)
        content = FRONT + TORN + bytes(2 * LEFT) + TORN
        free = room.f_bavail * room.f_bsize - len(content)
        Path(folder, "filler").write_bytes(bytes(max(free - LEFT, 0)))
        yield from (f"a full disk: {it}" for it in not_put_aside(program, Path(folder, "journal"), content))


def where_it_is_written(program):
    """Until it is whole it stands at a name of its own. What an earlier start left there goes. A folder, a pipe or a link that stands there
    is no such file: none is written through, or waited for."""
    for how in ("file", "empty file"):
        with tempfile.TemporaryDirectory() as folder:
            path = Path(folder, "journal")
            lay_at(part := Path(folder, "journal.cut.part"), how)
            path.write_bytes(FRONT + TORN)
            with Server(program, 1, journal=path) as server:
                server.success = COUNT
                yield from (f"{how}: {it}" for it in server.end())
            yield from (f"{how}: {it}" for it in aside_amiss(path, TORN))
            if part.exists():
                yield f"{how}: it is there still"
    for how in ("folder", "pipe", f"{LINK_TO}nowhere", f"{LINK_TO}pipe", f"{LINK_TO}folder"):
        yield from (f"{how}: {it}" for it in written_through(program, how))


def written_through(program, how):
    """What is wrong with a start that has such a thing where what is cut off is written, which stays, and so does all beside it."""
    with tempfile.TemporaryDirectory() as folder:
        for name in ("folder", "pipe"):
            lay_at(Path(folder, name), name)
        lay_at(part := Path(folder, "journal.cut.part"), how)
        was = standing_at(part)
        yield from not_put_aside(program, Path(folder, "journal"), FRONT + TORN)
        if sorted(os.listdir(folder)) != ["folder", "journal", part.name, "pipe"] or standing_at(part) != was:
            yield f"there are {sorted(os.listdir(folder))}, or {part.name} isn't as it was"


def recorded_start(program, content, **numbers):
    """What a start over a file with this content records, of which calls may fail; and how it ended, or None where it listened."""
    with tempfile.TemporaryDirectory() as folder:
        path, ended = Path(folder, "journal"), None
        path.write_bytes(content)
        with Recording(path, **numbers) as recording:
            try:
                with Server(program, 1, journal=path, env={**recording.env, "ALL": "1"}):
                    pass
            except NotListening as fault:
                ended = fault.ended
            return recording.entries(), ended, path.read_bytes()


def on_the_disk_first(program):
    """What is cut off is on the disk, and so is its name, by fsync(2) of the folder, before the journal is cut; where a write of it or a
    sync of either fails nothing is cut."""
    content = FRONT + TORN
    entries, _, _ = recorded_start(program, content)
    at = [place for place, it in enumerate(entries) if it.kind == OPENED and b"journal.cut" in it.data]
    cut = next((place for place, it in enumerate(entries) if it.kind == CUT), len(entries))
    files = {entries[place].file for place in at}
    settled = [it for it in entries[at[0] : cut] if it.kind == SETTLED] if at else []
    if not any(it.file in files for it in settled):
        yield f"before the cut {settled} were synced, of {files} that were opened"
    if not any(it.file not in files and it.at == BY_FSYNC for it in settled):
        yield f"before the cut the folder wasn't synced by fsync(2), but {settled}"
    for number in range(1, sum(it.kind == SETTLED for it in entries[:cut]) + 1):
        _, ended, left = recorded_start(program, content, failing=SETTLED, first=number, many=1)
        if ended is None or left != content:
            yield f"sync {number} of another file failed: it ended with {ended}, and left {left[len(FRONT) :][:100]!r}"
    with tempfile.TemporaryDirectory() as folder:
        path = Path(folder, "journal")
        with Recording(f"{aside_of(path)}.part", failing=WRITE, first=1, many=1) as recording:
            yield from (f"its write failed: {it}" for it in not_put_aside(program, path, content, env=recording.env))
        if aside_of(path).exists():
            yield "its write failed: it is put aside"


ASIDE = [
    groups_that_are_whole,
    kept_through_a_crash,
    what_is_cut_off,
    groups_that_are_refused,
    gates_that_were_hurt,
    places_that_are_taken,
    one_crash_behind_another,
    places_that_are_all_taken,
    places_that_cannot_be_had,
    where_it_is_written,
    on_the_disk_first,
]
