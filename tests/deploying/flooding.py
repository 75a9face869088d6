"""A client that asks again and again, on many connections that are kept, by one loop: it stands for another machine, and its threads
would take this one's processors."""

import contextlib
import re
import selectors
import ssl
import time

from deploying.proxies import some_of
from harness.counting import Unwell

AT_ONCE, PATIENCE, RATE = 160, 1.0, 4000
"""How many connections ask at a time, for how many seconds each waits for an answer before it is made anew, and how many requests are
made in a second at most."""
LENGTH = re.compile(rb"(?i)\r\ncontent-length: ([0-9]+)")


def status_of(found):
    """The status of an answer that is whole."""
    head, ended, body = found.partition(b"\r\n\r\n")
    if not ended:
        return None
    length = LENGTH.search(head)
    if not length:
        raise Unwell(f"no length: {head!r}")
    return int(head.split()[1]) if len(body) >= int(length.group(1)) else None


class Asking:
    """A connection on which a request waits for its answer."""

    def __init__(self, connection, request):
        self.connection, self.request = connection, request
        connection.setblocking(False)
        self.ask()

    def ask(self):
        self.found, self.since = b"", time.monotonic()
        self.connection.sendall(self.request)

    def status(self):
        """The status of its answer, once that is here."""
        with contextlib.suppress(ssl.SSLWantReadError):
            while True:
                self.found += some_of(self.connection)
        return status_of(self.found)


class Flood:
    """Connections that ask the same again and again, and what was answered how often. As a context they are closed at its end."""

    def __init__(self, city, request, told):
        self.city, self.request, self.told = city, request, told
        self.selector, self.begun, self.asked = selectors.DefaultSelector(), time.monotonic(), 0

    def __enter__(self):
        return self

    def __exit__(self, *_):
        for asking in self.all():
            asking.connection.close()
        self.selector.close()

    def all(self):
        return [key.data for key in self.selector.get_map().values()]

    def open(self):
        asking = Asking(self.city.connect(), self.request)
        self.selector.register(asking.connection, selectors.EVENT_READ, asking)

    def close(self, asking):
        self.selector.unregister(asking.connection)
        asking.connection.close()

    def look(self, asking):
        """Counts its answer and asks again, or closes it where it broke off."""
        try:
            status = asking.status()
            if status:
                self.told[status] = self.told.get(status, 0) + 1
                self.asked += 1
                asking.ask()
        except (OSError, Unwell):
            self.close(asking)

    def sweep(self):
        """Closes those that waited for too long, and opens as many as are lacking."""
        now = time.monotonic()
        for asking in self.all():
            if now - asking.since > PATIENCE:
                self.close(asking)
        for _ in range(AT_ONCE - len(self.all())):
            self.open()

    def go_on(self):
        """A tenth of a second of it."""
        self.sweep()
        end = time.monotonic() + 0.1
        while time.monotonic() < end:
            for key, _ in self.selector.select(0.1):
                self.look(key.data)
            time.sleep(max(0, self.begun + self.asked / RATE - time.monotonic()))


def flood(city, request, is_on, told):
    """Asks while it is on, and counts each status in `told`."""
    with Flood(city, request, told) as asked:
        while is_on():
            asked.go_on()
