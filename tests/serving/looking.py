"""Looks at a vehicle beside other clients, and how long they wait for their answers.

The client of bench/client.c makes them, a process of its own, so that what the tests do meanwhile makes no wait longer."""

import struct
import subprocess
import tempfile
import time

from harness.building import loading_client
from harness.stalls import stalled
from serving.talking import talk_over

BURST = 100
PAUSE = 1
"""How many seconds there are between two bursts."""
MOST_SECONDS, LONGEST = 1, 5
"""How many seconds 99 of 100 looks may wait at most, and each one, on a machine that is busy with other tests."""
TOO_LONG = 60
"""The seconds after which a burst isn't waited for any more."""


class Looks:
    """Bursts of the same look, which is asked again as soon as it was answered. As a context it has the requests in a file."""

    def __init__(self, server, exchange, burst=BURST):
        self.server, self.exchange, self.burst = server, exchange, burst
        self.first, self.within, self.longest = [], [], []
        """Of each burst, after how many seconds a look before it was answered, and within how many 99 of its 100, and all: without
        those in which the machine stood still."""

    def __enter__(self):
        request = self.exchange.request
        self.file = tempfile.NamedTemporaryFile()
        self.file.write((struct.pack("<I", len(request)) + request) * self.burst)
        self.file.flush()
        return self

    def __exit__(self, *_):
        self.file.close()

    def once(self):
        """One burst: what is wrong with its answers, and with that to a look before it, which is compared byte for byte."""
        start = time.monotonic()
        yield from talk_over(self.server, self.exchange)
        self.first.append(max(0, time.monotonic() - start - stalled(start)))
        words, start = [loading_client(), str(self.server.port), self.file.name], time.monotonic()
        try:
            ran = subprocess.run(words, capture_output=True, text=True, timeout=TOO_LONG)
        except subprocess.TimeoutExpired:
            yield f"{self.burst} looks weren't answered in {TOO_LONG} seconds"
            return
        self.server.count(self.burst)
        told = ran.stdout.split()
        if ran.returncode or told[:2] != [str(self.burst)] * 2:
            yield f"status {ran.returncode}, {ran.stdout!r} {ran.stderr!r}, in place of {self.burst} answers"
            return
        still = stalled(start)
        self.within.append(max(0, float(told[5]) / 1e6 - still))
        self.longest.append(max(0, float(told[7]) / 1e6 - still))

    def times(self, count):
        """So many bursts."""
        for _ in range(count):
            yield from self.once()

    def until(self, is_over):
        """Bursts, with pauses, until it is over."""
        while not is_over():
            yield from self.once()
            time.sleep(PAUSE)

    def judged(self, beside):
        """Prints how long the looks waited, and says where that was too long."""
        if not self.within:
            yield f"no look was answered beside {beside}"
            return
        most, longest, count = max(self.within), max(self.longest + self.first), (self.burst + 1) * len(self.within)
        figures = f"99 of 100 within {most * 1e3:.1f} ms, the longest {longest * 1e3:.1f} ms"
        print(f"{count} looks beside {beside}: {figures}", flush=True)
        if most > MOST_SECONDS:
            yield f"99 of 100 looks beside {beside} within {most:.1f} s, in place of {MOST_SECONDS}"
        if longest > LONGEST:
            yield f"a look beside {beside} was answered after {longest:.1f} s, in place of {LONGEST}"
