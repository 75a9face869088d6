"""Clients of a server over a journal, in threads."""

import threading

from crashing.reports import listing, looking, reporting
from harness.counting import Unwell
from serving.http import done
from serving.wire import ask, connect


def side_by_side(jobs, ended=None):
    """Runs jobs in threads, to their end; `ended` is set once all but the last are over. Raises the first fault of a job."""
    faults = []

    def run(job):
        try:
            job()
        except Exception as fault:  # it's told in the thread that waits
            faults.append(fault)

    threads = [threading.Thread(target=run, args=(job,)) for job in jobs]
    for thread in threads:
        thread.start()
    for thread in threads[:-1] if ended else threads:
        thread.join()
    if ended:
        ended.set()
        threads[-1].join()
    if faults:
        raise faults[0]


def report(port, device, sizes, front=0):
    """Reports batches of these sizes of a device, from the event of this number on, each of which is to be accepted whole."""
    for size in sizes:
        answer = ask(port, reporting(device, front, front + size))
        if answer != done(size):
            raise Unwell(f"events {front} to {front + size} of {device}: {answer[:300]!r}")
        front += size


def report_again(port, device, sizes):
    """Reports what another client reports too, each batch from two events before its own front on, and after it an event that
    leaves one out. Who is first is open, and so whether no rows lead to that."""
    front = 0
    for size in sizes:
        ask(port, reporting(device, max(front - 2, 0), front + size))
        front += size
        ask(port, reporting(device, front + 1, front + 2))


def look_until(port, devices, ended):
    """Looks at devices, and lists their events, until an event is set."""
    while not ended.is_set():
        for device in devices:
            ask(port, looking(device))
            ask(port, listing(device))


def unanswered(port, request):
    """What came first of the answer to a request, on a connection that may be closed or reset."""
    with connect(port) as connection:
        connection.sendall(request)
        try:
            return connection.recv(1 << 16)
        except ConnectionError:
            return b""
