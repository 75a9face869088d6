"""The locks of a server whose threads contend: many clients report, look and list side by side, and threads are delayed where memory
grows, also under a lock."""

import os
import struct
import subprocess
from pathlib import Path

from crashing.recording import preloaded
from crashing.reports import device_at, listing, looking, registering, reporting
from harness.building import loading_client
from scaling.lives import Size, folder_of
from scaling.record import entries_of
from scaling.rules import Locks
from serving.contending import shuffled
from serving.http import done
from serving.server import Server
from serving.wire import ask

CLIENTS, TURNS, WORKERS = 16, 30, 16
EVENTS = 3000
"""Those that each vehicle has at first: a list of them goes through its shard in many pieces."""
FEW = Size((CLIENTS,), EVENTS, 1)
DEVICES = [device_at(2 * number) for number in range(CLIENTS)]
"""Vehicles of one half."""


def requests_of(client):
    """What a client asks: it reports its own vehicle, and looks at others and lists them."""
    for turn in range(TURNS):
        others = [DEVICES[(client * step + turn) % CLIENTS] for step in (1, 3, 5)]
        yield reporting(DEVICES[client], EVENTS + turn, EVENTS + turn + 1)
        yield from (looking(others[0]), looking(others[1]), listing(others[2]))


def file_of(folder, client):
    """The path of a file of a client's requests, as bench/client.c has it."""
    path = Path(folder, f"requests-{client}")
    path.write_bytes(b"".join(struct.pack("<I", len(it)) + it for it in requests_of(client)))
    return str(path)


def contended(program, folder, seed):
    """What is wrong with the answers of a server of which all calls are recorded, under these clients."""
    path = Path(folder, "journal")
    recorded = {"LD_PRELOAD": str(preloaded()), "JOURNAL": str(path), "RECORD": str(record_in(folder)), "ALL": "1", "KEPT": "0"}
    with Server(program, None, WORKERS, env=shuffled(seed, {**os.environ, **recorded}), journal=path) as server:
        for request, count in [(registering(*DEVICES), CLIENTS), *((reporting(it, 0, EVENTS), EVENTS) for it in DEVICES)]:
            if ask(server.port, request) != done(count):
                yield f"{request[:100]!r} wasn't accepted"
        words = [loading_client(), str(server.port), *(file_of(folder, client) for client in range(CLIENTS))]
        ran = subprocess.run(words, capture_output=True, text=True, timeout=300)
        wanted = [str(4 * TURNS * CLIENTS)] * 2
        if ran.returncode or ran.stdout.split()[:2] != wanted:
            yield f"status {ran.returncode}, {ran.stdout!r} {ran.stderr!r}, in place of {wanted} answers"


def record_in(folder):
    return Path(folder, "record")


def locks_of_threads_that_contend(program, seed):
    """No call that may wait is made under a lock, and no other lock waited for but under that of who writes the file."""
    with folder_of(FEW) as folder:
        yield from contended(program, folder, seed)
        locks = Locks()
        yield from filter(None, map(locks.take, entries_of(record_in(folder))))
        yield from locks.amiss()
        if not locks.amid[locks.of_file]:
            yield "no thread waited for a lock under that of who writes the file"
