"""Files that a disk or a copy changed, which no crash explains. Of none are other requests taken than were recorded, without a word: by
`vehicles --check` and by a start.

`vehicles` can't know whether a server that runs is about to open the group behind the closed gate. So where what it lists isn't all that was
recorded, a server is started over the file, too. A file that is byte for byte what it was at an earlier moment is taken as that: a disk that
leaves out all of its last writes isn't found.

What changes is made by hurting.py, and what is to come of it by files.py and the model of tests/model/, never by the program."""

import json
import os
import re
import shutil
import subprocess
import sys
import tempfile
from collections import Counter
from concurrent.futures import ProcessPoolExecutor
from functools import lru_cache, partial
from pathlib import Path
from random import Random

from cases.vehicles import CHECKED, FORM, not_a_journal
from crashing.files import CHECK_BYTES, CHECKED_LINE, CLOSED, counted, fault_of, hurt_gate
from crashing.files import is_room, listed_by, start_over, vehicles_text
from crashing.hurting import ALL_BYTES, ALL_PIECES, journal_by, with_a_byte, with_a_piece
from crashing.paths import aside_amiss
from crashing.reports import listed, listing
from harness.counting import ROOT, Skipped
from harness.texts import differing
from model.fleet import Fleet
from model.http import answer
from model.items import EVENT, VEHICLE
from model.items import fault_of as fault_of_item
from model.json_text import NotJson, value_of
from serving.documents import blocks
from serving.server import NotListening, Server

CHANGES, PIECES = (3000, 20_000), (750, 5000)
"""How many files have one byte changed, and how many a piece: in the gate, and with `--whole`."""
STARTED = 8
"""A server starts over each so many files, and over each of which `vehicles` lists less than was recorded."""
AT_ONCE, PORTION = len(os.sched_getaffinity(0)), 50
"""How many processes try files side by side, and how many files at a time."""
MEMORY = "/dev/shm"
"""Where the files lie, if it's there: on a disk a start takes as long as its syncs."""
MOST_KEPT = 1000
"""How many fronts of files are known."""
DOCUMENT = ROOT / "docs/formats.md"
READ_BY_A_SCRIPT, STEP, FEWEST_READ = 90, 9, 10
"""How many files are changed for the script of the document, by how many seeds apart, and how many have a group that isn't right, and haven't
one, at least."""
BY_OTHER_TOOLS = 20
"""How many files other tools read."""


@lru_cache(MOST_KEPT)
def read(front):
    """The first fault of lines that count, or None, and the vehicles of the requests before it."""
    fault, fleet, lines = fault_of(front), Fleet(), front.split(b"\n")[:-1]
    whole = lines[: int(fault.split()[1])] if fault and fault != "form" else lines
    for number, line in enumerate([] if fault == "form" else whole):
        if number == 0 or len(line) == CHECK_BYTES and lines[0] == CHECKED_LINE:
            continue
        if word := not_taken(fleet, line[1:]):
            return f"{word} {number}", fleet
    return fault, fleet


def not_taken(fleet, text):
    """How it is told that a text isn't taken by the vehicles so far, or None."""
    try:
        value = value_of(text)
    except NotJson:
        return "bad_line"
    members = VEHICLE if set(value) == set(VEHICLE) else EVENT
    if fault_of_item(value, members):
        return "bad_line"
    return "refused" if fleet.take([value], members)["failures"] else None


def fault_in(front):
    return read(front)[0]


def told_of(front):
    """The devices of the vehicles, in the order of registration, each with how many events it has."""
    return {device: len(vehicle.events) for (_, device), vehicle in read(front)[1].vehicles.items()}


def listed_amiss(program, path, content):
    """What is wrong with what `vehicles --check` says of a file with this content."""
    path.write_bytes(content)
    front = counted(content)
    fault = fault_in(front) or hurt_gate(front, content[len(front) :])
    lines = front.split(b"\n")[:-1]
    checks = sum(len(line) == CHECK_BYTES for line in lines) if lines[:1] == [CHECKED_LINE] else len(lines)
    listed_text = f"{vehicles_text(told_of(front))}lines {len(lines)} groups {checks - 1}\n"
    wanted = (3, "", not_a_journal(fault)) if fault else (0, listed_text, "")
    found = listed_by(program, path, "--check")
    if found != wanted:
        yield f"`vehicles --check` said {str(found)[:300]}, in place of {str(wanted)[:300]}"


def begun_amiss(server, path, start):
    """What is wrong with a server that has started, and is to have what this start has: in its file, and in its answers. The file may have
    a group that is kept in other words."""
    fault, fleet = read(counted(path.read_bytes()))
    if fault or start.fault or read(start.lines)[1].vehicles != fleet.vehicles:
        yield f"the file has the fault {fault}, or other requests: {path.read_bytes()[-300:]!r}"
        return
    told = told_of(counted(path.read_bytes()))
    server.success = len(told) + sum(told.values())
    for device in list(told)[:1]:
        events = [listed(device, number) for number in range(told[device])]
        yield from differing(server.ask(listing(device)), answer(200, {"events": events}))
    yield from server.end()
    found = path.read_bytes()
    if not found.startswith(counted(found) + CLOSED) or found.strip(b"\n")[len(counted(found)) + 1 :]:
        yield f"behind the lines stands {found[len(counted(found)) :][:300]!r}"
    yield from aside_amiss(path, start.cut)


def started_over(program, content, start):
    """What is wrong with a server that starts over a file with this content: it has what the lines tell, or tells a fault, and the file
    stays."""
    with tempfile.TemporaryDirectory() as folder:
        path = Path(folder, "journal")
        path.write_bytes(content)
        try:
            with Server(program, 1, journal=path) as server:
                yield from begun_amiss(server, path, start)
            return
        except NotListening as fault:
            ended = fault.ended
        if not start.fault or ended != (3, "", not_a_journal(start.fault)):
            yield f"it ended with {ended}, in place of {start.fault or 'listening'}"
        if path.read_bytes() != content or os.listdir(folder) != ["journal"]:
            yield f"the file has {path.read_bytes()[:200]!r}, in place of {content[:200]!r}, and there are {os.listdir(folder)}"


def unlawful(journal, content, start):
    """What of these rules would have other requests taken than were recorded, without a word."""
    if start.fault or not is_room(start.cut):
        return
    is_whole = start.lines in (journal.lines, journal.whole)
    if not is_whole and content.rstrip(b"\0\n") not in journal.states:
        yield f"{start.lines[-300:]!r} is taken"


def tried(program, change, seeds):
    """What is wrong with files that were changed so, each by its seed, and how many there were of each kind."""
    kinds, complaints = Counter(), []
    with tempfile.TemporaryDirectory(dir=MEMORY if os.path.isdir(MEMORY) else None) as folder:
        tempfile.tempdir, path = folder, Path(folder, "listed")
        for seed in seeds:
            journal, content, kind = change(seed)
            start, wrong = start_over(content, fault_in), list(listed_amiss(program, path, content))
            is_less = not start.fault and counted(content) not in (journal.lines, journal.whole)
            if seed % STARTED == 0 or is_less:
                wrong += started_over(program, content, start)
                kinds["started"] += 1
            wrong += unlawful(journal, content, start)
            kinds[kind] += 1
            kinds[journal.form, (start.fault or "taken").split()[0]] += 1
            kinds["less" if is_less else "all"] += 1
            complaints += (f"{change.__name__} {seed}, {' to '.join(kind)}: {it}" for it in wrong)
        tempfile.tempdir = None
    return complaints, kinds


def changed_so(program, change, wanted, count):
    """Files that were changed so, by so many seeds: what is wrong with them, and which kinds of changes there were none of."""
    kinds, portions = Counter(), [range(front, min(front + PORTION, count)) for front in range(0, count, PORTION)]
    with ProcessPoolExecutor(AT_ONCE) as pool:
        for complaints, found in pool.map(partial(tried, program, change), portions):
            yield from complaints
            kinds += found
    lacking = [kind for kind in wanted if not kinds[kind]]
    if lacking:
        yield f"none was changed by {lacking}"


def bytes_that_are_changed(program, size=0):
    """One byte, at each kind of place to each kind of value: in a gate, a text, a line feed, a check, the form, or the room."""
    wanted = [*ALL_BYTES, *((CHECKED, end) for end in ("damaged", "form", "taken")), *((FORM, end) for end in ("bad_line", "form", "taken"))]
    yield from changed_so(program, with_a_byte, wanted, CHANGES[size])


def pieces_that_are_changed(program, size=0):
    """A sector that is old, zero, room, or another's, or a piece that was moved."""
    wanted = [*(("a piece", kind) for kind in ALL_PIECES), *((CHECKED, end) for end in ("damaged", "form", "taken"))]
    yield from changed_so(program, with_a_piece, wanted, PIECES[size])


def checked_by(words, path):
    """What a script prints that looks at the checks of a file, and its status."""
    ran = subprocess.run([*words, path], capture_output=True, text=True)
    return ran.returncode, ran.stdout + ran.stderr


def script_of_the_document(_):
    """The script of docs/formats.md finds each group that isn't right, in files of version 2 that were changed by a byte."""
    (script,) = ("\n".join(lines) for fence, lines in blocks(DOCUMENT.read_text()) if fence == "python")
    ended = Counter()
    with tempfile.TemporaryDirectory() as folder:
        path = Path(folder, "journal")
        for seed in range(0, READ_BY_A_SCRIPT * STEP, STEP):
            journal, content, _ = with_a_byte(seed)
            fault = fault_of(counted(content))
            if journal.form != CHECKED or fault == "form":
                continue
            path.write_bytes(content)
            wanted = (1, f"{fault}\n") if fault else (0, "")
            if (found := checked_by([sys.executable, "-c", script], path)) != wanted:
                yield f"seed {seed}: the script said {found}, in place of {wanted}"
            ended[bool(fault)] += 1
    if min(ended[True], ended[False]) < FEWEST_READ:
        yield f"of the files {ended} were damaged"


def lines_by_other_tools(_):
    """By the words of docs/formats.md `sed` and `grep` give the lines that count of either version, and of each of these `jq` reads the text."""
    (pipe,) = re.findall(r"`(sed [^`]* FILE \| grep [^`]*)`", DOCUMENT.read_text())
    if not shutil.which("jq"):
        raise Skipped("no `jq` here")
    with tempfile.TemporaryDirectory() as folder:
        path = Path(folder, "journal")
        for journal in map(journal_by, map(Random, range(BY_OTHER_TOOLS))):
            path.write_bytes(journal.content)
            lines = subprocess.run(["sh", "-c", pipe.replace("FILE", str(path))], capture_output=True).stdout
            read = subprocess.run(["jq", "-c", "."], input=lines, capture_output=True).stdout
            if lines != journal.lines:
                yield f"{pipe} gives {lines[-300:]!r}, in place of {journal.lines[-300:]!r}"
            if list(map(json.loads, read.splitlines())) != list(map(json.loads, journal.lines.splitlines())):
                yield f"`jq` reads {read[-300:]!r}"


def of_all(subject):
    """A subject with as many files as are tried before a release."""

    def whole(program):
        return subject(program, 1)

    whole.__name__ = f"{subject.__name__} whole"
    return whole


CHANGED, READ = [bytes_that_are_changed, pieces_that_are_changed], [script_of_the_document, lines_by_other_tools]
DAMAGED, WHOLE = [*CHANGED, *READ], [*map(of_all, CHANGED), *READ]
