"""How long this machine, or this process, stood still: what a test waits for may be late by as much.

A test that says how long a client may wait for its answer blames the server. A machine that stops for some seconds, and a thread
of the tests that keeps the interpreter, are no fault of it."""

import functools
import threading
import time

TICK, LATE = 0.05, 0.2
"""How many seconds the watch sleeps at a time, and from how many more on the machine stood still."""


class Stalls(threading.Thread):
    """Sleeps for a moment again and again, and keeps where that took longer, and by how much."""

    def __init__(self):
        super().__init__(daemon=True)
        self.begun, self.found = time.monotonic(), []
        self.start()

    def run(self):
        while True:
            time.sleep(TICK)
            now = time.monotonic()
            if now - self.begun - TICK > LATE:
                self.found.append((now, now - self.begun - TICK))
            self.begun = now

    def since(self, start):
        """How many seconds it stood still since then, with a stall that isn't over."""
        late = time.monotonic() - self.begun - TICK
        return sum(seconds for end, seconds in list(self.found) if end > start) + (late if late > LATE else 0)


@functools.cache
def watch():
    """The watch of this process, from the first call on."""
    return Stalls()


def stalled(start):
    """How many seconds this machine, or this process, stood still since this time of the monotonic clock."""
    return watch().since(start)
