"""A long run of 16 clients against one server."""

import time
from concurrent.futures import ProcessPoolExecutor, ThreadPoolExecutor

from model.http import error
from serving.server import Server
from serving.together import Alone, Result, Sharing
from serving.wire import ask, get

WORKERS = 4
PROCESSES = 4
"""Half of them have four clients with vehicles of their own, the others four clients that share vehicles."""
CLIENTS = 4
EPOCH = 100
QUIET = 20000
"""How many requests that change nothing are made at the end."""
MOST_QUIET = 2**20
"""How many bytes the server may grow by meanwhile."""
MOST_EACH = 16384
"""How many it may grow by for each accepted request."""


def of_their_own(port, process, requests):
    """Clients with vehicles of their own, each of which makes so many requests."""
    result = Result()
    with ThreadPoolExecutor(CLIENTS) as pool:
        numbers = range(CLIENTS * process, CLIENTS * (process + 1))
        for of_client in pool.map(lambda number: Alone(number).run(port, requests), numbers):
            result.add(of_client)
    return result


def that_they_share(port, process, requests):
    """Clients that share vehicles, each of which makes so many requests, in epochs."""
    result, group = Result(), Sharing(process, CLIENTS)
    for _ in range(requests // EPOCH):
        result.add(group.run(port, EPOCH))
        if result.complaints:
            break
    return result


def connections(requests):
    """How many connections so many requests of each client take."""
    alone = PROCESSES // 2 * CLIENTS * requests
    return alone + PROCESSES // 2 * (requests // EPOCH) * Sharing.connections(CLIENTS, EPOCH) + QUIET


def soak(program, count):
    """Makes so many requests in all, and says what was wrong; prints what it took."""
    requests = -(-count // (PROCESSES * CLIENTS * EPOCH)) * EPOCH
    with Server(program, connections(requests) // WORKERS + 1, workers=WORKERS) as server:
        start, before = time.monotonic(), server.memory()
        with ProcessPoolExecutor(PROCESSES) as pool:
            tasks = [
                pool.submit(that_they_share if process % 2 else of_their_own, server.port, process, requests)
                for process in range(PROCESSES)
            ]
            while not all(task.done() for task in tasks):
                time.sleep(10)
                print(f"{time.monotonic() - start:.0f} s: {server.memory() / 2**20:.0f} MiB", flush=True)
            for task in tasks:
                result = task.result()
                server.count(result.connections, result.success)
                yield from result.complaints
        seconds, after = time.monotonic() - start, server.memory()
        yield from grown(server, before, after)
        print(f"{PROCESSES * CLIENTS * requests} requests in {seconds:.0f} s, {server.success} accepted", flush=True)
        yield from server.end()


def grown(server, before, after):
    """Whether the memory grew by more than the histories, and then by requests that change nothing."""
    each = (after - before) / max(server.success, 1)
    print(f"{before / 2**20:.1f} MiB before, {after / 2**20:.1f} behind: {each:.0f} bytes for each accepted", flush=True)
    if each > MOST_EACH:
        yield f"{each:.0f} bytes for each accepted request"
    unknown = get("/vehicles/00000000-0000-4000-8000-0000000000ff/00000000-0000-4000-8000-0000000000ff")
    for _ in range(QUIET):
        found = ask(server.port, unknown)
        server.count()
        if found != error(404, "unregistered"):
            yield f"{unknown!r} was answered {found!r}"
            return
    quiet = server.memory() - after
    print(f"{quiet} bytes more behind {QUIET} requests that change nothing", flush=True)
    if quiet > MOST_QUIET:
        yield f"{quiet} bytes for {QUIET} requests that change nothing"
