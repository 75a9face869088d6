"""Journals of 200,000 events, against the model of what stays, and servers over them and over what is left of them."""

import json
import random
import tempfile
from collections import Counter
from contextlib import ExitStack
from pathlib import Path

from cases.replays import P, batch
from compacting.journals import all_nine, changing, device_of, made, profile, registering
from compacting.running import left_amiss, run
from harness.texts import differing
from model.compaction import staying
from serving.http import done
from serving.server import Server
from serving.wire import get, post

EACH = 100_000
LOOKS, REPORTS, REGISTRATIONS = 1_000, 8_000, 1_000
"""What both servers are asked: 10,000 requests."""
AT_ONCE = 100
"""Items of a batch."""
AGAIN = 2_000
"""Events that are sent again as they were, and so many with a new time."""
REFUSALS, FEWEST = ("late", "no_chain", "unregistered"), 50
"""What is answered to some of the events, and to how many at least."""
NEW = 1 << 30
"""The number of the first event that isn't in the journal."""


class Both:
    """A server over a journal, and one over what is left of it."""

    def __init__(self, program, folder, rules, places):
        self.stack, self.places = ExitStack(), places
        self.servers = [
            Server(program, EACH, workers=2, table=rules.text, journal=folder / name) for name in ("old", "new")
        ]

    def __enter__(self):
        for server in self.servers:
            self.stack.enter_context(server)
        return self

    def __exit__(self, *_):
        self.stack.close()

    def ask(self, request):
        return [server.ask(request) for server in self.servers]

    def same(self, request, what):
        """What is wrong where they don't answer the same."""
        old, new = self.ask(request)
        yield from differing(new, old, what)


def body_of(answered):
    return json.loads(answered.partition(b"\r\n\r\n")[2])


def looked_amiss(both, device, stay):
    """What is wrong with looks at a vehicle, of which so many events are there and so many stay: but for their number they are the
    same."""
    old, new = map(body_of, both.ask(get(f"/vehicles/{P}/{device}")))
    if old.get("events") != stay[0] or new != {**old, "events": stay[1]}:
        yield f"a look at {device}: {new}, and before {old}, of {stay} events"


def counts_of(making, places):
    """Of each vehicle how many events it has, and how many stay."""
    counts = {vehicle.device: [len(vehicle.events), 0] for vehicle in making.vehicles}
    for place in places:
        line = making.lines[place]
        counts[line.key][1] += line.time is not None
    return counts


def reported(making, chance):
    """The items of a report: events that may be accepted, of known vehicles and one that isn't, and others that are refused."""
    for _ in range(AT_ONCE):
        vehicle = chance.choice(making.vehicles)
        text, line = making.event_of(vehicle, making.next_time(vehicle))
        kind = chance.randrange(10)
        if kind == 0 and vehicle.last:
            # late, unless it's the time of the last one
            text = text.replace(f'"timestamp":{line.time}', f'"timestamp":{chance.randint(0, vehicle.last)}')
        elif kind == 1:
            text = text.replace('"event_types":["', '"event_types":["x')
        elif kind == 2:
            text = text.replace(vehicle.device, device_of(NEW))
        else:
            vehicle.held, vehicle.last = line.state, line.time
        yield text


def goes_on_alike(both, making, chance):
    """What is wrong where the two servers don't answer 10,000 requests alike: byte for byte, but for the number of events of a
    look."""
    found = Counter()
    for number in range(REPORTS // AT_ONCE):
        old, new = both.ask(post("/events", batch(reported(making, chance))))
        yield from differing(new, old, f"report {number}")
        found.update(failure["error"] for failure in body_of(old)["failures"])
    if min(found[name] for name in REFUSALS) < FEWEST or found.total() > REPORTS // 2:
        yield f"of {REPORTS} events so many were refused: {found}"
    for number in range(REGISTRATIONS // AT_ONCE):
        known = [registering(chance.choice(making.vehicles).device) for _ in range(AT_ONCE // 2)]
        new = [registering(device_of(NEW + number * AT_ONCE + at)) for at in range(AT_ONCE // 2)]
        yield from both.same(post("/vehicles", batch([*known, *new])), f"registration {number}")
    for vehicle in chance.choices(making.vehicles, k=LOOKS):
        old, new = ({**body_of(answered), "events": 0} for answered in both.ask(get(f"/vehicles/{P}/{vehicle.device}")))
        if old != new:
            yield f"a look behind all: {new}, and by the old one {old}"


def sent_again(both, making, places, chance):
    """What is wrong with events that are sent again as they were: to the old server each is repeated. To the new one it is where it
    stayed, and else it is late."""
    last = {vehicle.device: vehicle.last for vehicle in making.vehicles}
    stayed = set(places)
    again = chance.sample([at for at, line in enumerate(making.lines) if line.time is not None], AGAIN)
    items = batch([making.texts[at] for at in again])
    old = [{"error": "repeated", "index": index} for index in range(AGAIN)]
    new = [
        {"error": "repeated", "index": index}
        if at in stayed
        else {"error": "late", "index": index, "last": last[making.lines[at].key]}
        for index, at in enumerate(again)
    ]
    wanted = [done(AGAIN, old), done(AGAIN, new)]
    for name, found, it in zip(("old", "new"), both.ask(post("/events", items)), wanted):
        yield from differing(found, it, f"sent again, {name}")


def with_a_new_time(both, making, places):
    """What is wrong with an event whose identifier was left out, and that comes with a time of today: the old server knows it, and
    the new one takes it, one time."""
    stayed = set(places)
    for at, line in enumerate(making.lines):
        if line.time is None or at in stayed:
            continue
        vehicle = next(it for it in making.vehicles if it.device == line.key)
        name = json.loads(making.texts[at])["event_id"].strip("{}")
        text, _ = making.event_of(vehicle, vehicle.last + 1)
        item = json.dumps({**json.loads(text), "event_id": name})
        repeated = done(1, [{"error": "repeated", "index": 0}])
        for wanted in ([repeated, done(1)], [repeated, repeated]):
            found = both.ask(post("/events", batch([item])))
            if found != wanted:
                yield f"with a new time: {found}, in place of {wanted}"
        return
    yield "nothing was left out"


def vehicles_amiss(program, folder, making, places):
    """What is wrong with what `vehicles` tells of the new file: the same states, and as many events as stay."""
    table = folder / "table.json"
    words = []
    if making.rules.text:
        table.write_text(making.rules.text)
        words = ["--table", table]
    counts = counts_of(making, places)
    lines = [f"vehicle {P} {it.device} {it.held} {counts[it.device][1]}\n" for it in making.vehicles]
    events = sum(kept for _, kept in counts.values())
    wanted = (0, "".join(lines) + f"registrations {len(lines)} events {events}\n", "")
    found = run(program, "vehicles", folder / "new", *words)
    if found != wanted:
        yield f"`vehicles`: {str(found)[:300]}, in place of {str(wanted)[:300]}"


def compared(program, making, before, seed):
    """What is wrong with a compaction of a journal, and with a server over what is left, beside one over all."""
    chance = random.Random(seed)
    with tempfile.TemporaryDirectory() as name:
        folder = Path(name)
        places = staying(making.lines, before)
        complaints = list(left_amiss(program, making, places, folder, "--before", before))
        yield from complaints
        if complaints:
            return
        yield from vehicles_amiss(program, folder, making, places)
        counts = counts_of(making, places)
        with Both(program, folder, making.rules, places) as both:
            for vehicle in chance.sample(making.vehicles, min(100, len(making.vehicles))):
                yield from looked_amiss(both, vehicle.device, counts[vehicle.device])
            yield from sent_again(both, making, places, chance)
            yield from goes_on_alike(both, making, chance)
            yield from with_a_new_time(both, making, places)


def by_the_profile(program):
    """2,000 vehicles by the profile, of which the last tenth of the time stays."""
    making = made("profile", profile(), 2000)
    yield from compared(program, making, making.latest() * 9 // 10, 1)


def few_vehicles(program):
    """20 vehicles of 10,000 events each, all of which are thinned."""
    making = made("few", profile(), 20)
    yield from compared(program, making, making.latest() + 1, 2)


def nine_states(program):
    """A table of all pairs of the nine states, and few positions, so that the last one mostly lies before the last event: of a
    vehicle that has no second event of its last time 18 are left at most, and of some they are."""
    making = made("nine", all_nine(), 500, positions=2)
    before = making.latest() + 1
    counts = [kept for _, kept in counts_of(making, staying(making.lines, before)).values()]
    if max(counts) < 15:
        yield f"of no vehicle as many events stay as may: {max(counts)}"
    yield from compared(program, making, before, 3)


def tables_that_change(program):
    """Four tables, each in force for a quarter of the time: what stays of the first ones is judged by them at a start."""
    rules = changing(random.Random("tables"), [0, 500_000, 1_000_000, 1_500_000])
    making = made("changing", rules, 100)
    yield from compared(program, making, 1_500_000, 4)


LARGE = [by_the_profile, few_vehicles, nine_states, tables_that_change]
