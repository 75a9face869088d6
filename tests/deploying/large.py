"""The steps of docs/runbook.md over journals of 1,000,000 events: the machines of runbook.py, whose journals have a front.

Each section that wants no second machine is tried, as it stands. What it shows are counts of a few lines, and the front has others, by the
script that makes it (front.py): so they are compared by that difference. `tests/deploy --large` tries all sections, and tells how long each
step takes: some minutes in all. Without it those of `IN_GATE` are tried, by which the gate is less than a minute longer."""

import time

from deploying.front import large_front
from deploying.runbook import CLOSED, SECTIONS, Machine, P, of_section

TITLE = "runbook at 1,000,000 events"
IN_GATE = (CLOSED, "The journal has grown")
"""Of each kind of step one: a journal that is mended, by a line of it, and one that units make small and put away. By both all scripts
run over the whole journal that an operator's steps call, and starts, but for copies between machines."""
SECONDS = 600
"""How long a step may take, on a busy machine."""
TOLD = 1
"""From how many seconds on it is told how long a step takes."""
SHOWN = 100
"""How much of a step is told."""


class Large(Machine):
    """A machine whose journals have the front of its provider."""

    def __init__(self, program):
        self.front = large_front(P)
        super().__init__(program)
        self.shell.seconds = SECONDS


class Timed(Large):
    """One that tells how long its steps take."""

    def run(self, command):
        start = time.monotonic()
        try:
            return super().run(command)
        finally:
            seconds = time.monotonic() - start
            if seconds >= TOLD:
                print(f"    {seconds:.1f} s: {' '.join(command.split())[:SHOWN]}", flush=True)


LARGE = [of_section(name, Large, TITLE) for name in IN_GATE]
"""What the gate tries."""
WHOLE = [of_section(name, Timed, TITLE) for name in SECTIONS]
