"""Compactions that end in their middle, also those that follow: at each call of the system, by a fault of one, on a full disk. The new
file isn't there then, or is whole."""

import errno
import os
import subprocess
import tempfile
from concurrent.futures import ThreadPoolExecutor
from itertools import product
from pathlib import Path

from compacting.running import cannot_write, content_amiss, left_amiss, run, totals
from compacting.worked import journal_of
from crashing.lacking import FullDisk
from crashing.recording import Recording
from harness.building import built
from harness.case import NO_MEMORY, NO_STREAMS, OUTPUT, RANDOM, Case, cannot_read, padded
from harness.running import outcome
from model.compaction import staying

BEFORE = 9
WAYS = (), ("--follow",)
EVENTS = ("1a 2n 3a 4r", "1a 2np 3a 4n 5a", "")
WRITES, SYNCS, LINKS, REMOVALS = {1, 18, 20, 77, 285, 296}, {74, 75}, {82, 86, 264, 265, 316}, {87, 263}
"""Numbers of calls (syscalls(2)) that write or cut a file, that sync one, that give it a name, and that remove one."""
OF_A_FOLDER = {74}
"""Those that sync a folder's new names: fdatasync(2) may leave them off the disk."""
OF_A_LOCK = {73, 332}
"""Those that lock a file, and look where it stands: until they are made a file may be another's, so it isn't removed."""
OF_FILES = {0, 2, 3, 5, 8, 17, 72, 257, 262} | WRITES | SYNCS | LINKS | REMOVALS | OF_A_LOCK
"""All these, and others that open, read, look at or close one."""
PAGE, PAGES, LONG = 1 << 22, 3, 1 << 16
"""Bytes of a new file that are written at once, how many times as many a journal has, and how long each of its texts is."""
MANY, LEFT = 500, 20_000
"""Events of a journal, and how many bytes a disk has left, which are fewer than a tenth of these take."""
AT_ONCE = 4
LOADER = 127
"""The status of a run that comes to its end before the program begins."""
WITHIN = 20
"""Seconds in which a run ends, whatever fails."""


class Call:
    """A call of the system: its number, and the path of the open file that is its first argument."""

    def __init__(self, line):
        number, first, _, _, self.path = line.split(" ", 4)
        self.number, self.first = int(number), int(first)

    def is_of(self, numbers, folder):
        return self.number in numbers and self.path.startswith(f"{folder}/") and self.path != f"{folder}/old"


class Folder:
    """A folder with a journal that is to be made small, in one of the ways, and what is to come of it."""

    def __init__(self, name, way):
        self.way = way
        self.path, self.making = Path(name), journal_of(*EVENTS)
        self.old, self.new, self.record = self.path / "old", self.path / "new", Path(f"{name}.record")
        self.content = self.making.content()
        self.old.write_bytes(self.content)
        self.places = staying(self.making.lines, BEFORE)
        self.said = "following\n" if way else ""
        self.wanted = (0, self.said + totals(self.making.lines, self.places), "")

    def traced(self, program, at=0, error=0):
        """Runs the program, which is ended at a call, or has that fail: its status and outputs, and the calls."""
        tool = built("trace-calls", "tests/trace-calls.c", "-O2")
        words = [tool, self.record, at, error, program, "compact", self.old, self.new, "--before", BEFORE, *self.way]
        ran = subprocess.run([*map(str, words)], capture_output=True, timeout=WITHIN)
        calls = [Call(line) for line in self.record.read_text().splitlines()]
        self.record.unlink()
        return (ran.returncode, ran.stdout.decode(), ran.stderr.decode()), calls

    def amiss(self, is_there=None):
        """What is wrong with the files: the old one is as it was, and the new one isn't there, or is whole."""
        if self.old.read_bytes() != self.content:
            yield "the old file is another one"
        if self.new.exists():
            yield from content_amiss(self.new.read_bytes(), self.making.content(self.places))
        if is_there not in (None, self.new.exists()):
            yield f"the new file is there: {self.new.exists()}"

    def is_told(self, faults):
        """Whether this is the whole text of a fault that a call which fails may come to."""
        return faults in (cannot_read(self.old), cannot_write(self.new), NO_MEMORY, RANDOM, OUTPUT)

    def beside(self):
        """What stands in the folder beside the two files, and how many bytes each has."""
        return {it.name: it.stat().st_size for it in self.path.iterdir() if it not in (self.old, self.new)}

    def left_by(self, call):
        """What stands there behind a run of which a call failed, and that this doesn't explain."""
        return {} if call.number in REMOVALS else {it: size for it, size in self.beside().items() if size or call.number not in OF_A_LOCK}

    def again(self, program):
        """What is wrong with the next run: it has the new file made, or finds that it is there."""
        was_there = self.new.exists()
        found = run(program, "compact", self.old, self.new, "--before", BEFORE, *self.way)
        wanted = (3, "", f"mds_city: {self.new} is there\n") if was_there else self.wanted
        if found != wanted:
            yield f"the next run: {found}, in place of {wanted}"
        if not was_there and self.beside():
            yield f"the next run left {self.beside()}"
        yield from self.amiss(is_there=True)


def calls_of(program, name, way):
    """The calls of a run that nothing ends, from that one on which comes before the first one on the old file."""
    folder = Folder(name, way)
    found, calls = folder.traced(program)
    if found != folder.wanted:
        raise AssertionError(f"{found}, in place of {folder.wanted}")
    first = next(at for at, call in enumerate(calls) if call.path == str(folder.old))
    return calls, max(first - 1, 0)


def each_call(program, ended, numbers=None):
    """What is wrong with runs, in each way, that each have another call made otherwise, as `ended` says: all, or those of these
    numbers."""
    for way in WAYS:
        yield from (f"{' '.join(way)}: {it}" for it in each_call_by(program, way, ended, numbers))


def each_call_by(program, way, ended, numbers):
    """What is wrong with those in one way, side by side."""
    with tempfile.TemporaryDirectory() as name, ThreadPoolExecutor(AT_ONCE) as pool:
        (whole := Path(name, "whole")).mkdir()
        calls, first = calls_of(program, str(whole), way)

        def one(at):
            (path := Path(name, str(at))).mkdir()
            changed = Call(f"{calls[at].number} {calls[at].first} 0 0 {calls[at].path.replace(str(whole), str(path), 1)}")
            return [f"call {at}, {changed.number} of {changed.path}: {it}" for it in ended(Folder(str(path), way), at + 1, changed)]

        chosen = [at for at in range(first, len(calls)) if numbers is None or calls[at].number in numbers]
        for complaints in pool.map(one, chosen):
            yield from complaints


def killed_at_each_call(program):
    """SIGKILL comes in place of each call."""

    def ended(folder, at, _):
        found, _ = folder.traced(program, at)
        if found[0] != 137 or found[1] not in ("", folder.said, folder.wanted[1]):
            yield f"{found}"
        yield from folder.amiss()
        yield from folder.again(program)

    yield from each_call(program, ended)


def each_call_fails(program):
    """Each call on a file fails with the error of a disk, or for want of room. Where a write or a sync of the new file, or of its folder,
    failed, the status says so. Nothing is left beside the files, but where its removal failed, or an empty file where it wasn't locked."""

    def ended(folder, at, call):
        for number in (errno.EIO, errno.ENOSPC):
            found, _ = folder.traced(program, at, number)
            is_of_new = call.number in SYNCS or call.is_of(WRITES, folder.path)
            if found[0] == 0 and (found != folder.wanted or is_of_new):
                yield f"error {number}: {found}"
            if found[0] and (found[0] not in (3, 4, LOADER) or found[1] not in ("", folder.said) or not found[2]):
                yield f"error {number}: {found}"
            if found[0] in (3, 4) and not folder.is_told(found[2]):
                yield f"error {number}: it told {found[2]!r}"
            if left := folder.left_by(call):
                yield f"error {number}: {found}, and there is {left}"
            yield from folder.amiss(is_there=True if found[0] == 0 else None)
            yield from folder.again(program)
            folder.new.unlink()

    yield from each_call(program, ended, OF_FILES)


def synced_in_order(program):
    """All that is written is synced before it has the new name, and the folder, by fsync(2), before the run tells of it. So a power cut
    leaves no file of that name, or a whole one."""
    for way in WAYS:
        yield from (f"{' '.join(way)}: {it}" for it in order_amiss(program, way))


def order_amiss(program, way):
    """What is wrong with the order of the calls of a run."""
    with tempfile.TemporaryDirectory() as name:
        calls, _ = calls_of(program, name, way)
        folder = os.path.realpath(name)
        wrote = [at for at, call in enumerate(calls) if call.is_of(WRITES, folder)]
        synced = [at for at, call in enumerate(calls) if call.is_of(SYNCS, folder)]
        named = [at for at, call in enumerate(calls) if call.number in LINKS]
        of_folder = [at for at, call in enumerate(calls) if call.number in OF_A_FOLDER and call.path == folder]
        told = [at for at, call in enumerate(calls) if call.number in WRITES and call.first == 1]
        order = [wrote[-1:], synced[-1:], named[:1], of_folder[-1:], told[-1:]]
        if not all(order) or order != sorted(order):
            yield f"the last write, its sync, the name, the sync of the folder and the text stand at {order}"
        if any(calls[at].path == f"{folder}/new" for at in wrote):
            yield "it was written under its own name"


def in_pages(program, folder, way, **numbers):
    """A run over a journal of several pages, all of which stays, where so many calls on the new file fail: its status and outputs, and how
    many writes and syncs that had."""
    making = journal_of(" ".join(f"{time}{'an'[time % 2]}" for time in range(1, PAGES * PAGE // LONG)))
    making.texts = [padded(text, LONG) for text in making.texts]
    (folder / "old").write_bytes(making.content())
    with Recording(folder / "new.part", **numbers) as recording:
        found = run(program, "compact", folder / "old", folder / "new", "--before", 0, *way, env=recording.env)
        return found, recording.number("writes"), recording.number("syncs")


def synced_page_by_page(program):
    """A large file is synced once for each page that is written, beside the syncs at its begin and its end."""
    for way in WAYS:
        with tempfile.TemporaryDirectory() as name:
            found, _, syncs = in_pages(program, Path(name), way)
            if found[0]:
                yield f"{way}: {found}"
                continue
            size = Path(name, "new").stat().st_size
            if not 2 < syncs <= size // PAGE + 2:
                yield f"{way}: a file of {size} bytes had {syncs} syncs, of pages of {PAGE}"


def without_room_behind_a_page(program):
    """There is room for a page of the new file alone. So a run that follows fails before it says that. Nothing is left of the file."""
    for way in WAYS:
        with tempfile.TemporaryDirectory() as name:
            found, writes, _ = in_pages(program, Path(name), way, room=PAGE * 3 // 2)
            if found != (3, "", f"mds_city: cannot write {name}/new\n") or writes < 2:
                yield f"{way}: {found} behind {writes} writes"
            if os.listdir(name) != ["old"]:
                yield f"{way}: there are {os.listdir(name)}"


def on_a_full_disk(program):
    """There is no room for the new file: it isn't there, and takes no room. Once there is some it is made."""
    with FullDisk() as folder:
        making = journal_of(" ".join(f"{time}{'an'[time % 2]}" for time in range(1, MANY)))
        (folder / "old").write_bytes(making.content())
        (folder / "filler").write_bytes(bytes(free_blocks(folder) * os.statvfs(folder).f_bsize - LEFT))
        free = free_blocks(folder)
        for way in WAYS:
            status, out, faults = run(program, "compact", folder / "old", folder / "new", "--before", 0, *way)
            if (status, out) not in ((3, ""), (3, "following\n" if way else "")) or faults != cannot_write(folder / "new"):
                yield f"without room: {status}, {out!r}, {faults!r}"
            if sorted(os.listdir(folder)) != ["filler", "old"] or free_blocks(folder) != free:
                yield f"without room: there are {os.listdir(folder)}, and {free_blocks(folder)} free blocks of {free}"
        (folder / "filler").unlink()
        yield from left_amiss(program, making, range(len(making.lines)), folder, "--before", 0)


def free_blocks(folder):
    return os.statvfs(folder).f_bavail


def output_that_fails(program):
    """Standard output is closed, full, or a pipe that nobody reads: that is told, and what there is of the new file is whole."""
    for stream, way in product(NO_STREAMS, WAYS):
        words = ["compact", "old", "new", "--before", str(BEFORE), *way]
        case = Case(words, files={"old": journal_of(*EVENTS).content()}, stdout=stream)
        status, _, faults = outcome(program, case)
        if str(status) not in ("3", "3 with other files, new") or faults.decode() != OUTPUT:
            yield f"{stream}: {status}, {faults!r}"


ENDING = [
    killed_at_each_call,
    each_call_fails,
    synced_in_order,
    synced_page_by_page,
    without_room_behind_a_page,
    on_a_full_disk,
    output_that_fails,
]
