"""What a journal has before the lines of a case: its first lines alone, or the years of a city, of vehicles of their own."""

import gzip
import re
import shutil
import tempfile
import threading
import time
from dataclasses import dataclass
from functools import cache, cached_property
from pathlib import Path

from cases.replays import identifier
from cases.vehicles import checked, group
from model.compaction import Line, staying

FORM = ' {"form":"mds_city","version":1}\n'
"""The first line of a journal of version 1, as older programs made it (docs/formats.md, `Journal`)."""
VEHICLES, EVENTS = 3000, 1_000_000
GROUP, NAMES = 0xD, 0xE
"""The groups of the identifiers: of devices, and of events."""
FIRST = ("agency_drop_off", "available")
"""The first event of each vehicle. Those of a case begin by another type."""
DAY = ["reservation_start reserved", "trip_start on_trip", "trip_end available", "battery_low non_operational"]
DAY += ["battery_charged available", "trip_start on_trip", "trip_end available"]
"""The events behind it, by turns: each a type and the state behind it."""
EVERY = 2 * 86400
"""How many seconds lie between two events of a vehicle. The last ones are half as old."""
DAYS = 90
"""How many days' events a small journal keeps (deploy/one.env). The half of `EVERY` lies between that and the next event."""
SHOWN = {
    r"(\w+: )?registrations N events N of N": ("vehicles", "kept", "events"),
    r"(\w+: )?registrations N events N": ("vehicles", "events"),
    r"registrations N of N": ("events", "events"),
    r"mds_city: not a journal: \w+ N": ("lines",),
}
ALONE = {"refused": "refused", "damaged": "bad_line"}
"""How a fault of a request is told in version 1, by its fault in version 2."""
"""Lines that the runbook shows, and by which counts of a front their numbers N are greater behind it."""


@dataclass(frozen=True)
class Front:
    """A file with the lines; how many vehicles and events they are, how many of these a small journal keeps, and a pattern of grep that
    finds them."""

    path: Path = None
    vehicles: int = 0
    events: int = 0
    kept: int = 0
    pattern: str = "^$"

    @property
    def lines(self):
        return self.vehicles + self.events

    @property
    def size(self):
        return self.path.stat().st_size if self.path else len(self.content())

    def content(self):
        """The lines before the first group of version 2, in which each request of a case is a group: a server makes them."""
        return checked(end="").encode()

    def group(self, texts):
        """Lines of these texts behind it."""
        return group(*texts).encode()

    @cached_property
    def packed(self):
        return gzip.compress(self.content(), 1)

    def shifted(self, line):
        """A line that the runbook shows, as it is behind this front."""
        for pattern, names in SHOWN.items():
            if re.fullmatch(pattern.replace("N", "[0-9]+"), line):
                more = map(self.__getattribute__, names)
                return re.sub(r"[0-9]+", lambda found: str(int(found[0]) + next(more)), line)
        return line


@dataclass(frozen=True)
class Plain(Front):
    """Lines of a journal of version 1, with which a server goes on, or the first line alone."""

    def content(self):
        return self.path.read_bytes() if self.path else FORM.encode()

    def group(self, texts):
        return "".join(f" {text}\n" for text in texts).encode()

    def lay(self, path):
        """Puts it at a path."""
        if self.path:
            shutil.copy(self.path, path)
        else:
            path.write_bytes(self.content())

    def shifted(self, line):
        """A fault is told by its line, and none is a check."""
        told = lambda found: f": {ALONE[found[1]]} {int(found[2]) // 2}"
        return super().shifted(re.sub(r": (refused|damaged) ([0-9]+)", told, line))


EMPTY, PLAIN_FRONT = Front(), Plain()


def turn(number):
    """The type of a vehicle's event of this number, and the state behind it."""
    return tuple(DAY[(number - 1) % len(DAY)].split()) if number else FIRST


def lines_of(provider, devices, number, seconds):
    """The lines of the events of this number, of each vehicle one, a millisecond after the other. One in three has no position."""
    (kind, state), when = turn(number), 1000 * seconds
    where = f'{{"lat":{number},"lng":-{number}}}' if number % 3 else "null"
    behind = f'"event_types":["{kind}"],"location_e7":{where},"provider_id":"{provider}","timestamp":'
    for at, device in enumerate(devices):
        name = identifier(NAMES, number * VEHICLES + at)
        yield f' {{"device_id":"{device}","event_id":"{name}",{behind}{when + at},"vehicle_state":"{state}"}}\n'


def kept_of(count, times, before):
    """How many of a vehicle's first events, so many, stay in a small journal, by tests/model/compaction.py."""
    lines = [Line("", times[number], turn(number)[1], number % 3 != 0) for number in range(count)]
    return len(staying([Line("", None, None, None), *lines], before))  - 1


def write_front(path, provider):
    """Writes a front of version 1 of a provider's vehicles, of which the last event of some is the newest."""
    devices = [identifier(GROUP, number) for number in range(VEHICLES)]
    rounds, now = -(-EVENTS // VEHICLES), int(time.time())
    times = [now - EVERY * (rounds - number) + EVERY // 2 for number in range(rounds)]
    more = EVENTS - VEHICLES * (rounds - 1)
    with open(path, "w", encoding="ascii") as file:
        file.write(FORM)
        file.writelines(f' {{"device_id":"{device}","provider_id":"{provider}"}}\n' for device in devices)
        for number, seconds in enumerate(times):
            file.writelines(lines_of(provider, devices[: more if number == rounds - 1 else VEHICLES], number, seconds))
    one_more, one_less = (kept_of(count, times, now - DAYS * 86400) for count in (rounds, rounds - 1))
    return Plain(path, VEHICLES, EVENTS, more * one_more + (VEHICLES - more) * one_less, f'"device_id":"{devices[0][:-6]}')


HOLDER, MAKING = [], threading.Lock()
"""The folder of the fronts, which goes with the script; and who makes one."""


@cache
def made(provider):
    folder = tempfile.TemporaryDirectory()
    HOLDER.append(folder)
    return write_front(Path(folder.name, "front"), provider)


def large_front(provider):
    """The front of a provider, which is made one time."""
    with MAKING:
        return made(provider)
