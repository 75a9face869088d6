"""One run of a program, what it held at most, and the medians of several."""

import fcntl
import os
import statistics
import subprocess
import sys
import tempfile
import time
from pathlib import Path


def run_once(program, words):
    """The time, the processor time, the status and the last line of one run."""
    with tempfile.TemporaryFile() as out:
        start = time.monotonic()
        child = subprocess.Popen(
            [program, *words],
            stdin=subprocess.DEVNULL,
            stdout=out,
            stderr=out,
        )
        _, ended, used = os.wait4(child.pid, 0)
        seconds = time.monotonic() - start
        child.returncode = os.waitstatus_to_exitcode(ended)
        out.seek(0)
        lines = out.read().decode().splitlines()
    return seconds, used.ru_utime + used.ru_stime, child.returncode, lines[-1] if lines else ""


def timed(program, words, status, last):
    """The time and the processor time of one run, which must end with this status and this last line."""
    seconds, of_processor, found, line = run_once(program, words)
    if (found, line) != (status, last):
        sys.exit(f"{program} {' '.join(words)}: status {found} and {line!r}, in place of {status} and {last!r}")
    return seconds, of_processor


def held_by(child):
    """The most bytes that a process held until it waits to print, or 0 where it ended before."""
    while child.poll() is None:
        status = Path(f"/proc/{child.pid}/status").read_text()
        fields = dict(line.split(":", 1) for line in status.splitlines())
        if fields["State"].split()[0] == "S" and "VmHWM" in fields:
            return int(fields["VmHWM"].split()[0]) * 1024
        time.sleep(0.002)
    return 0


def peak_of(program, words):
    """The most bytes that a run held, seen while it waits for room in a short pipe, full at first, to print its lines."""
    set_pipe_size = getattr(fcntl, "F_SETPIPE_SZ", 1031)
    reading, writing = os.pipe()
    fcntl.fcntl(writing, set_pipe_size, 4096)
    os.write(writing, bytes(4096))
    child = subprocess.Popen(
        [program, *words],
        stdin=subprocess.DEVNULL,
        stdout=writing,
        stderr=writing,
    )
    os.close(writing)
    peak = held_by(child)
    while os.read(reading, 4096):
        peak = max(peak, held_by(child))
    os.close(reading)
    child.wait()
    return peak


def medians(rounds):
    """The median of each column of some rows."""
    return [statistics.median(column) for column in zip(*rounds)]


def in_turns(runs, *measures):
    """The medians of what each of these measures answers. They are taken one after the other, so many times."""
    rounds = [[measure() for measure in measures] for _ in range(runs)]
    return [medians(of_measure) for of_measure in zip(*rounds)]


def in_pairs(count, one, other):
    """The medians of what two measures answer, and the quartiles of the ratios of their first values. They are taken in so many pairs,
    one behind the other, and each pair begins with what the one before it ended with: what slows the machine for a while slows both."""
    pairs = [(one(), other()) if at % 2 else (other(), one())[::-1] for at in range(count)]
    ratios = [mine[0] / its[0] for mine, its in pairs]
    return *map(medians, zip(*pairs)), statistics.quantiles(ratios, n=4) if count > 1 else ratios * 3
