"""What is told of how far a file is read, where that takes long: by a clock that goes on at each call."""

import os
import pty
import re
import subprocess
import tempfile
from contextlib import suppress
from pathlib import Path

from cases.replays import identifier
from cases.vehicles import journal, not_a_journal, registered
from harness.building import built

REPLAY, VEHICLES = 16384, 65536
"""How many bytes of a file a replay of lines, and the list of vehicles or a start over a journal, ask for at a time."""
BEGINNING = 64
"""How many bytes a start asks for first, which say whether the file is a journal's."""
COUNT = 7000
JOURNAL = journal(*(registered(identifier(2, number)) for number in range(COUNT)))
BAD_JOURNAL = f"{JOURNAL[:-1]} {{\n#"
# A command, its file, how many bytes it asks for at a time, and how often: the list of vehicles sees the end by a gate.
RUNS = [
    ("replay --lines --unlimited", "7\n" * (6 * REPLAY), REPLAY, 13),
    ("replay --lines", "\n" * (12 * REPLAY), REPLAY, 13),
    ("vehicles", JOURNAL, VEHICLES, -(-len(JOURNAL) // VEHICLES)),
]
START = "serve --port 0 --each 0 --workers 2 --journal"
SERVED = re.compile(rf"listening 127\.0\.0\.1:[0-9]+\naccepted {COUNT}\n")


def clock_of(step):
    """The environment of a run whose clock goes on by so many seconds at each call."""
    shim = built("quick-clock.so", "tests/quick-clock.c", "-shared", "-fPIC", "-O1")
    return {**os.environ, "LD_PRELOAD": str(shim), "STEP": str(step)}


def told_lines(piece, size, reads, every):
    """What is told where it is time at each so many of the reads: what was read then, of all."""
    return [f"mds_city: read {min(number * piece, size)} of {size} bytes" for number in range(every, reads + 1, every)]


def told_of_start(size):
    """What a start over a journal tells where it is time at each read."""
    beginning = f"mds_city: read {BEGINNING} of {size} bytes"
    return [beginning, *told_lines(VEHICLES, size, -(-size // VEHICLES), 1)]


def tells_how_far_it_is(program):
    """By a clock that goes on by a second at each call it is told at each fifth piece; by one that goes on by five at each one; by
    one that stands nothing is told, nor of a pipe, whose size nobody knows. What is printed is the same."""
    with tempfile.TemporaryDirectory() as folder:
        path = Path(folder, "file")
        for words, text, piece, reads in RUNS:
            path.write_text(text)
            plain = subprocess.run([program, *words.split(), path], capture_output=True)
            for step, every in ((0, reads + 1), (1, 5), (5, 1)):
                wanted = "".join(f"{line}\n" for line in told_lines(piece, len(text), reads, every))
                for name in ("a path", "standard input", "a pipe"):
                    ran = run_by(program, words, path, name, clock_of(step))
                    found = (ran.returncode, ran.stdout, ran.stderr.decode())
                    if found != (plain.returncode, plain.stdout, "" if name == "a pipe" else wanted):
                        yield f"{words}, {name}, by steps of {step}: {found[0]}, {len(found[1])} bytes, {found[2]!r}"


def run_by(program, words, path, name, env):
    """A run over the file by its path, as standard input, or through a pipe."""
    if name == "a path":
        return subprocess.run([program, *words.split(), path], env=env, capture_output=True)
    if name == "a pipe":
        return subprocess.run([program, *words.split(), "-"], env=env, input=path.read_bytes(), capture_output=True)
    with open(path) as file:
        return subprocess.run([program, *words.split(), "-"], env=env, stdin=file, capture_output=True)


def tells_how_far_a_start_is(program):
    """A start over a journal tells it by the same clocks, and nothing more once all is read. By the one that goes on by a second it
    is told at each fifth read, of which the first is any: the start asks for the time elsewhere, too."""
    told = told_of_start(len(JOURNAL))
    with tempfile.TemporaryDirectory() as folder:
        path = Path(folder, "journal")
        for step, allowed in ((0, [[]]), (1, [told[first::5] for first in range(5)]), (5, [told])):
            path.write_text(JOURNAL)
            ran = subprocess.run([program, *START.split(), path], env=clock_of(step), capture_output=True, text=True)
            if ran.returncode or not SERVED.fullmatch(ran.stdout) or ran.stderr.splitlines() not in allowed:
                yield f"by steps of {step}: {ran.returncode}, {ran.stdout!r}, {ran.stderr!r}"


def read_all(terminal):
    """All that a terminal shows until its last writer is gone."""
    found = b""
    with suppress(OSError):
        while piece := os.read(terminal, 65536):
            found += piece
    return found


def shown_at_terminal(words, env):
    """What a program shows on a terminal that is its standard error alone."""
    shown, terminal = pty.openpty()
    child = subprocess.Popen(words, env=env, stdout=subprocess.DEVNULL, stderr=terminal)
    os.close(terminal)
    found = read_all(shown).decode()
    os.close(shown)
    child.wait()
    return found


def tells_it_in_place(program):
    """On a terminal each line takes the place of the one before, and the last one is ended, also before a fault is told."""
    blank, replay = "\n" * (12 * REPLAY), "replay --lines --unlimited"
    runs = [
        (replay, blank, 1, told_lines(REPLAY, len(blank), 13, 5), ""),
        (replay, blank[:-1] + "{", 1, told_lines(REPLAY, len(blank), 13, 5), f"mds_city: not a batch: not_json {len(blank) - 1}\n"),
        (START, JOURNAL, 5, told_of_start(len(JOURNAL)), ""),
        (START, BAD_JOURNAL, 5, told_of_start(len(BAD_JOURNAL)), not_a_journal(f"bad_line {COUNT + 1}")),
    ]
    with tempfile.TemporaryDirectory() as folder:
        path = Path(folder, "file")
        for words, text, step, lines, fault in runs:
            path.write_text(text)
            found = shown_at_terminal([program, *words.split(), path], clock_of(step))
            wanted = "".join(f"\r{line}" for line in lines) + f"\n{fault}".replace("\n", "\r\n")
            if found != wanted:
                yield f"{words}: {found!r}, in place of {wanted!r}"
