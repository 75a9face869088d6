"""Journals that a seed makes, and what they tell."""

import random
from dataclasses import dataclass, field

from cases.replays import P, identifier
from cases.tables import ALL, PROFILE, STATES, TYPES, table_file
from cases.timed import tables_file
from cases.vehicles import checked, journal
from model.compaction import Line

EVENTS = 200_000
GROUP, NAMES = 9, 10
"""The groups of the identifiers: of devices, and of events."""
EQUAL = 20
"""One event of so many has the time of the one before."""
MOST_STEP = 2000
"""Milliseconds between two events of a vehicle, at most."""
EVENT = (
    '{"device_id":"%s","event_id":"%s","event_types":["%s"],"location_e7":%s,"provider_id":"%s","timestamp":%d,"vehicle_state":"%s"}'
)
LOUD = '{ "provider_id": "%s" , "device_id":"%s","note":"\\u00e9", "vehicle_st\\u0061te":"%s","event_types":[ "%s" ],' + (
    '"location_e7":%s,"timestamp":%d,"event_id":"{%s}"}'
)
"""The same event as another client might send it."""


def device_of(number):
    return identifier(GROUP, number)


def registering(device):
    return f'{{"device_id":"{device}","provider_id":"{P}"}}'


@dataclass
class Vehicle:
    """Where a vehicle stands, and its events so far, as texts."""

    device: str
    held: str = "removed"
    last: int = None
    events: list = field(default_factory=list)


class Rules:
    """Tables with their starts, of each the types that lead from a state, with the states they lead to."""

    def __init__(self, entries, text):
        self.text = text
        self.tables = [(start, leading(rows)) for start, rows in entries]

    def from_state(self, state, time):
        return [rows for start, rows in self.tables if start <= time][-1][state]


def leading(rows):
    found = {state: [] for state in STATES}
    for kind, before, after in rows:
        for start in before.split():
            found[start] += [(kind, end) for end in after.split()]
    return found


def profile():
    return Rules([(0, PROFILE)], None)


def all_nine():
    """One type, which leads from each of the nine states to each."""
    rows = [(TYPES[0], ALL, ALL)]
    return Rules([(0, rows)], table_file(rows))


def changing(chance, starts):
    """Tables with these starts, each of which has some rows from every state, other ones than the table before."""
    entries = []
    for number, start in enumerate(starts):
        kind = TYPES[number]
        entries.append((start, [(kind, state, " ".join(chance.sample(STATES, 3))) for state in STATES]))
    return Rules(entries, tables_file(entries))


class Making:
    """A history that is made event by event."""

    def __init__(self, chance, rules, positions=70):
        self.chance, self.rules, self.positions = chance, rules, positions
        self.count, self.vehicles, self.texts, self.lines = 0, [], [], []

    def register(self, count=1):
        for _ in range(count):
            vehicle = Vehicle(device_of(len(self.vehicles)))
            self.vehicles.append(vehicle)
            self.put(registering(vehicle.device), Line(vehicle.device, None, None, None))

    def put(self, text, line):
        self.texts.append(text)
        self.lines.append(line)

    def event_of(self, vehicle, time):
        """An event that the vehicle accepts at this time: its text, and the state that it reports."""
        kind, state = self.chance.choice(self.rules.from_state(vehicle.held, time))
        self.count += 1
        name, place = identifier(NAMES, self.count), "null"
        if self.chance.randrange(100) < self.positions:
            place = '{"lat":%d,"lng":%d}' % (self.count, -self.count)
        if self.count % 50:
            return EVENT % (vehicle.device, name, kind, place, P, time, state), Line(vehicle.device, time, state, place != "null")
        text = LOUD % (P.upper(), vehicle.device.replace("-", ""), state, kind, place, time, name)
        return text, Line(vehicle.device, time, state, place != "null")

    def next_time(self, vehicle):
        if vehicle.last is None:
            return self.chance.randrange(MOST_STEP)
        return vehicle.last + (self.chance.randint(1, MOST_STEP) if self.chance.randrange(EQUAL) else 0)

    def report(self, vehicle):
        text, line = self.event_of(vehicle, self.next_time(vehicle))
        vehicle.held, vehicle.last = line.state, line.time
        vehicle.events.append(text)
        self.put(text, line)

    def content(self, places=None, end=b"#", in_groups=0):
        """The bytes of the journal, or of the one that has these lines alone: of version 1, or of version 2 in groups of so many."""
        texts = self.texts if places is None else [self.texts[place] for place in places]
        if not in_groups:
            return journal(*texts, end="").encode() + end
        groups = (texts[at : at + in_groups] for at in range(0, len(texts), in_groups))
        return checked(*groups, end="").encode() + end

    def latest(self):
        return max(vehicle.last or 0 for vehicle in self.vehicles)


def made(seed, rules, vehicles, events=EVENTS, positions=70):
    """A journal of so many vehicles, one in a hundred of which reports nothing, and some of which are registered late."""
    making = Making(random.Random(seed), rules, positions)
    making.register(vehicles - vehicles // 10)
    for number in range(events):
        if len(making.vehicles) < vehicles and number % (events // vehicles) == 0:
            making.register()
        place = making.chance.randrange(len(making.vehicles))
        if place % 100 != 7:
            making.report(making.vehicles[place])
    return making
