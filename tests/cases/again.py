"""Journals that `vehicles --check` reads once more, where a group stands behind their closed gate: a server may have opened that gate
meanwhile."""

import fcntl
import os
import subprocess
import tempfile
import termios
import time
from pathlib import Path

from cases.replays import A, B
from cases.vehicles import NEW, RESERVED, WOKEN, checked, group, listed, not_a_journal, registered
from harness.case import told
from harness.running import differences

SECONDS = 60
"""Within which a run ends."""
WORDS = "vehicles --check journal"
FRONT = checked(NEW, (WOKEN,), end="")
BEHIND = (group(RESERVED), group(registered(B)), group(registered(B).replace("000b", "000c")))
"""Groups that a server writes one after the other, behind those lines."""
FIRST = f"{FRONT}#{BEHIND[0][1:]}{BEHIND[1]}"
"""What is read first: the gate of the first of these groups isn't open, and that of the second one is."""
TAKEN = listed(FIRST, [(A, "available", 1)], words=WORDS, counts="lines 6 groups 2\n")
HURT = told(WORDS, not_a_journal("damaged 6"))
# What is read then, and what comes of both.
READ_AGAIN = [
    (FRONT + "".join(BEHIND[:1]) + "#", TAKEN),
    (FRONT + "".join(BEHIND[:2]), TAKEN),
    (FRONT + "".join(BEHIND) + "#", TAKEN),
    (FIRST, HURT),
    (f"{FRONT}#", HURT),
]


def is_left(pipe):
    """Whether something of what was written to the pipe wasn't read."""
    return any(fcntl.ioctl(pipe, termios.FIONREAD, bytes(4)))


def read_again(program, then):
    """The status and both outputs of a run over a pipe, which gives the first text to who reads first, and then another one."""
    end = time.monotonic() + SECONDS
    with tempfile.TemporaryDirectory() as folder:
        os.mkfifo(Path(folder, "journal"))
        # to be read, too: so it's opened at once
        pipe = os.open(Path(folder, "journal"), os.O_RDWR)
        pipes = {"stdout": subprocess.PIPE, "stderr": subprocess.PIPE}
        with subprocess.Popen([program, *WORDS.split()], cwd=folder, **pipes) as child:
            try:
                for text in (FIRST, then):
                    os.write(pipe, text.encode())
                    while is_left(pipe) and child.poll() is None and time.monotonic() < end:
                        time.sleep(0.001)
            finally:
                os.close(pipe)
            out, faults = child.communicate(timeout=SECONDS)
            return child.returncode, out, faults


def gates_opened_meanwhile(program):
    """A file that has more lines when it's read once more was written by a server meanwhile: what was read first is listed. One that
    doesn't is damaged."""
    for then, case in READ_AGAIN:
        yield from (f"then {then[len(FRONT):][:40]!r}: {it}" for it in differences(case, *read_again(program, then)))
