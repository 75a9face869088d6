"""A fleet of vehicles with events, and a server that has it."""

from cases.replays import identifier, turn
from harness.counting import Unwell
from model.json_text import compact
from serving.server import success_of
from serving.wire import post

PROVIDERS = [identifier(0, number) for number in (1, 2, 0xABC)]
LONG = ["battery_low", "battery_charged"] * 8
"""Sixteen types that lead from available to available."""
AT_ONCE = 5000


def vehicle(provider, number):
    return {"provider_id": provider, "device_id": identifier(1, number)}


def event(owner, number, types, state):
    """An event of this number of a vehicle. Some have a position, and two in a row have the same time."""
    where = {"lat": number, "lng": -number}
    return {
        **owner,
        "event_id": identifier(2, number),
        "event_types": types,
        "location_e7": where if number % 5 == 2 else None,
        "timestamp": 1000 + number // 2,
        "vehicle_state": state,
    }


def short_events(owner, count):
    """Events of one type each, by turns."""
    for number in range(count):
        state, kind = turn(number)
        yield event(owner, number, [kind], state)


def long_events(owner, count):
    """Events of 16 types each, behind a first one."""
    for number in range(count):
        yield event(owner, number, LONG if number else ["provider_drop_off"], "available")


def fleet(vehicles, events):
    """So many vehicles of three providers, with their events: of the first half with short ones, of the others with long
    ones, and of each tenth with none."""
    for number in range(vehicles):
        owner = vehicle(PROVIDERS[number % len(PROVIDERS)], number)
        kind = short_events if number < vehicles // 2 else long_events
        yield owner, [] if number % 10 == 9 else list(kind(owner, events))


def parts(items):
    return [items[front : front + AT_ONCE] for front in range(0, len(items), AT_ONCE)]


def fill(server, vehicles):
    """Puts these vehicles into a server by its own requests."""
    events = [event for _, listed in vehicles for event in listed]
    registered = [("/vehicles", part) for part in parts([owner for owner, _ in vehicles])]
    for target, part in [*registered, *(("/events", part) for part in parts(events))]:
        accepted = success_of(server.ask(post(target, compact(part))))
        if accepted != len(part):
            raise Unwell(f"{target}: {accepted} of {len(part)} accepted")
