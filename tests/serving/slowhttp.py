"""The clients of `slowhttptest`, a thousand of each of its slow kinds, beside clients that work."""

import re
import subprocess
import time

from cases.replays import A, B, P, batch, history
from serving.crowds import EACH, SECONDS, SLOW, WORKERS, many_open_files
from serving.http import Exchange, done, look, registered
from serving.looking import Looks
from serving.server import Server
from serving.talking import talk_over
from serving.tools import installed
from serving.wire import post

EVENTS = 400
"""Those of a list of some 90 kB, which is laid out at once. The system takes it in; the slow readers of crowds.py the server has."""
LEAST = SLOW // 2
"""How many connections it reports as open at once at least."""
COLOUR = re.compile(r"\x1b\[[0-9;]*[A-Za-z]")
CONNECTED = re.compile(r"^connected: +([0-9]+)$", re.M)
AVAILABLE = re.compile(r"^service available: +(\w+)$", re.M)
WELL = ("Hit test time limit", "No open connections left")
"""How it says at its end that it was no fault of the server's."""
STATUS = re.compile(r"^Exit status: +(.*)$", re.M)


def attack(port, target, words, seconds):
    """`slowhttptest`, which goes on so long, or until the server has let all its connections go."""
    counts = ["-c", str(SLOW), "-r", str(SLOW), "-l", str(seconds)]
    words = ["slowhttptest", *words, *counts, "-u", f"http://127.0.0.1:{port}{target}"]
    return subprocess.Popen(words, stdin=subprocess.DEVNULL, stdout=subprocess.PIPE, stderr=subprocess.STDOUT, text=True)


def wrong_in(told):
    """What is wrong by the reports of `slowhttptest`, one every five seconds: most of its connections were open at once, and those
    that it makes to see whether the server answers were answered."""
    most = max(map(int, CONNECTED.findall(told)), default=0)
    if most < LEAST:
        yield f"{most} connections were open at once, in place of {LEAST} at least"
    found = set(AVAILABLE.findall(told))
    if found != {"YES"}:
        yield f"the server was available: {', '.join(sorted(found))}"
    for status in set(STATUS.findall(told)) - set(WELL):
        yield f"it ended with {status!r}"


def beside_it(program, what, target, words):
    """What is wrong with looks beside `slowhttptest`, which begins anew where the server has let all its connections go."""
    installed("slowhttptest")
    many_open_files()
    with Server(program, EACH, workers=WORKERS) as server, Looks(server, look(A, "removed", 0, None)) as looks:
        yield from talk_over(server, registered(A, B))
        yield from talk_over(server, Exchange(post("/events", batch(history(B, 0, EVENTS))), done(EVENTS)))
        told, end = "", time.monotonic() + SECONDS
        while (left := round(end - time.monotonic())) > 0:
            with attack(server.port, target, words, left) as running:
                yield from looks.until(lambda: running.poll() is not None)
                told += COLOUR.sub("", running.stdout.read())
        yield from looks.judged(f"the {what} of slowhttptest")
        yield from wrong_in(told)
        yield from server.drain()


def slowhttptest_heads(program):
    """Heads that don't end."""
    return beside_it(program, "slow heads", "/nowhere", ["-H", "-i", "2"])


def slowhttptest_bodies(program):
    """Bodies of which a little comes every two seconds."""
    return beside_it(program, "slow bodies", "/events", ["-B", "-i", "2", "-s", "4096", "-f", "application/json"])


def slowhttptest_reading(program):
    """Clients that take eight bytes of a list a second."""
    reading = ["-X", "-w", "256", "-y", "512", "-n", "1", "-z", "8"]
    return beside_it(program, "slow reading", f"/vehicles/{P}/{B}/events", reading)


SLOWHTTPTEST = [slowhttptest_heads, slowhttptest_bodies, slowhttptest_reading]
