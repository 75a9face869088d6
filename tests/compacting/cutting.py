"""Cuts: journals of which vehicles keep their first events alone, against the model, and servers over them and over what is left."""

import random
import tempfile
from pathlib import Path

from cases.replays import P, batch, identifier
from compacting.journals import GROUP, all_nine, made, profile
from compacting.large import AT_ONCE, Both, body_of, counts_of, goes_on_alike, sent_again
from compacting.running import left_amiss, run, totals
from model.compaction import first_events, staying_of
from serving.http import done
from serving.wire import get, post

NOBODY = identifier(GROUP, 1 << 20)
"""A vehicle that no journal here has."""
SMALL, LARGE = (6, 90), (200, 200_000)
"""How many vehicles and events a journal has."""
NAMED = 20
"""How many vehicles of the large one are cut."""


def words_of(cuts):
    """The words that ask for these cuts, each a vehicle and how many of its events stay."""
    return [word for device, count in cuts for word in ("--cut", P, device, count)]


def told_of(making, cuts):
    """The lines that are printed of them."""
    counts = counts_of(making, [])
    return "".join(f"cut {P} {device} {count} of {counts[device][0]}\n" for device, count in cuts)


def cut_amiss(program, making, cuts, folder, before):
    """What is wrong with a compaction by these cuts, with TIME or without it."""
    folder.mkdir()
    least = {device: min(count for one, count in cuts if one == device) for device, _ in cuts}
    places = list(first_events(making.lines, least))
    words = words_of(cuts)
    if before is not None:
        places = staying_of(making.lines, places, before)
        words += ["--before", before]
    yield from left_amiss(program, making, places, folder, *words, printed=told_of(making, cuts))


def each_number(program):
    """Each vehicle of a journal by each number of its events, and one more, with TIME at three places and without it."""
    making = made("cutting", all_nine(), *SMALL)
    latest = making.latest()
    with tempfile.TemporaryDirectory() as name:
        for vehicle in making.vehicles:
            for count in range(len(vehicle.events) + 2):
                for before in (None, 0, latest // 2, latest + 1):
                    folder = Path(name, f"{vehicle.device}-{count}-{before}")
                    yield from cut_amiss(program, making, [(vehicle.device, count)], folder, before)


def several_cuts(program):
    """Cuts of several vehicles, and of one again and again, of which the least counts; and words in other cases of letters."""
    making = made("several", all_nine(), *SMALL)
    chance = random.Random(5)
    devices = [vehicle.device for vehicle in making.vehicles]
    with tempfile.TemporaryDirectory() as name:
        for number in range(30):
            cuts = [(chance.choice(devices), chance.randrange(12)) for _ in range(chance.randrange(1, 9))]
            before = chance.choice((None, making.latest() // 2, making.latest() + 1))
            yield from cut_amiss(program, making, cuts, Path(name, str(number)), before)
        old, new = Path(name, "old"), Path(name, "new")
        old.write_bytes(making.content())
        found = run(program, "compact", old, new, "--cut", P.upper(), devices[0].replace("-", ""), "0")
        wanted = (0, told_of(making, [(devices[0], 0)]) + totals(making.lines, first_events(making.lines, {devices[0]: 0})), "")
        if found != wanted:
            yield f"other letters: {found}, in place of {wanted}"


def nobody_to_cut(program):
    """A vehicle that isn't registered, alone and beside another one, and words that are no identifiers: why is told, and nothing is
    made. One that is registered and has no event is cut."""
    making = made("nobody", all_nine(), *SMALL)
    making.register()
    there = making.vehicles[0].device
    not_in_file, bad = (1, "", "mds_city: vehicle not in file\n"), (2, "", "mds_city: bad identifier\n")
    cases = [
        ([P, NOBODY, 1], not_in_file),
        ([P, there, 1, "--cut", P, NOBODY, 1], not_in_file),
        ([P, NOBODY, 1, "--before", 9], not_in_file),
        ([there, P, 1], not_in_file),
        ([P, "x", 1], bad),
        (["x", there, 1, "--table", "/nowhere"], bad),
        ([P, there, 1, "--cut", P, "", 1], bad),
    ]
    with tempfile.TemporaryDirectory() as name:
        old, new = Path(name, "old"), Path(name, "new")
        old.write_bytes(making.content())
        for words, wanted in cases:
            found = run(program, "compact", old, new, "--cut", *words)
            if found != wanted or new.exists():
                yield f"{words}: {found}, in place of {wanted}"
        yield from cut_amiss(program, making, [(making.vehicles[-1].device, 0)], Path(name, "unused"), None)


def taken_back(both, making, vehicle, count):
    """What is wrong with a vehicle of which the first events alone stay: it has so many. The others, sent again, are accepted by the
    new server, one after another, and then it stands as by the old one."""
    target = get(f"/vehicles/{P}/{vehicle.device}")
    if (found := body_of(both.servers[1].ask(target))["events"]) != count:
        yield f"{vehicle.device} has {found} events, in place of {count}"
    again = vehicle.events[count:]
    for at in range(0, len(again), AT_ONCE):
        items = again[at : at + AT_ONCE]
        if (found := both.servers[1].ask(post("/events", batch(items)))) != done(len(items)):
            yield f"{vehicle.device} sent again: {found[:300]}"
            return
    old, new = map(body_of, both.ask(target))
    if old != new:
        yield f"{vehicle.device} stands at {new}, and by the old server at {old}"


def servers_over_cuts(program):
    """2,000 vehicles of 200,000 events, some of which are cut: all others answer as before, and of those that are cut what was left
    out can be sent again. Then 10,000 requests are answered alike."""
    making, chance = made("servers", profile(), *LARGE), random.Random(6)
    cuts = [(vehicle.device, chance.randrange(len(vehicle.events) + 1)) for vehicle in chance.sample(making.vehicles, NAMED)]
    with tempfile.TemporaryDirectory() as name:
        folder = Path(name, "cut")
        complaints = list(cut_amiss(program, making, cuts, folder, None))
        yield from complaints
        if complaints:
            return
        named = dict(cuts)
        with Both(program, folder, making.rules, list(first_events(making.lines, named))) as both:
            for vehicle in making.vehicles:
                if vehicle.device in named:
                    yield from taken_back(both, making, vehicle, named[vehicle.device])
                else:
                    yield from both.same(get(f"/vehicles/{P}/{vehicle.device}"), f"a look at {vehicle.device}")
            yield from sent_again(both, making, range(len(making.lines)), chance)
            yield from goes_on_alike(both, making, chance)


CUTTING = [each_number, several_cuts, nobody_to_cut, servers_over_cuts]
