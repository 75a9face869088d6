"""Counting cases, and the program that they are about."""

import faulthandler
import os
import sys
import threading
from pathlib import Path

ROOT = Path(__file__).resolve().parent.parent.parent
PROGRAM = ROOT / "crates/mds_city/out/mds_city"
MOST_LINES, MOST_SHOWN = 10, 1000
"""How many lines are printed of a case that failed, and how many characters of each."""


class Skipped(Exception):
    """A case that isn't run, and why."""


class Unwell(Exception):
    """What the program did that it mustn't, in words."""


def program_at(given=PROGRAM):
    """The whole path of the program. The script ends where there is none."""
    path = Path(given).resolve()
    if not os.access(path, os.X_OK):
        sys.exit(f"no program at {given}: run `rt ci`, or `rt run` in crates/mds_city, first")
    return str(path)


class Count:
    """How many cases passed, failed and were skipped. Threads may add cases side by side. A script that is aborted says where
    each thread stood."""

    def __init__(self):
        faulthandler.enable()
        self.passed = self.failed = self.skipped = 0
        self.lock = threading.Lock()

    def add(self, name, complaints):
        """Runs a case, which says what is wrong, and counts it. A case that failed is printed."""
        try:
            wrong = list(complaints)
        except Skipped as why:
            with self.lock:
                self.skipped += 1
                print(f"skipped {name}: {why}", flush=True)
            return
        except Exception as fault:  # whatever it is, the case didn't pass
            wrong = [f"{type(fault).__name__}: {fault}"]
        with self.lock:
            self.passed, self.failed = self.passed + (not wrong), self.failed + bool(wrong)
            if wrong:
                print(f"FAILED {name}", *[text[:MOST_SHOWN] for text in wrong[:MOST_LINES]], sep="\n    ", flush=True)

    def told(self):
        """Prints the counts, and answers the exit status of the script."""
        if self.skipped:
            print(f"{self.skipped} skipped")
        print(f"{self.passed} passed, {self.failed} failed")
        return 1 if self.failed else 0
