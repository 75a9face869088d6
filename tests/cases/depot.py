"""Vehicles that are stored in a depot and go out again, and events of as many types as there may be."""

from cases.debugging import debugged
from cases.replays import A, P, batch, event, replayed
from cases.tables import table_file

DEPOT = table_file([("wake", "removed", "available"), ("store", "available", "in_depot"), ("go", "in_depot", "available")])
ROUNDS = 32
"""How often an event of the most types goes out of the depot and in again."""

# Events with their verdicts.
STORED = [
    ((A, "e1", "wake store", "in_depot", 1000), "ok in_depot"),
    ((A, "e2", "go store " * ROUNDS, "in_depot", 1000), "ok in_depot"),
    ((A, "e3", "go go", "available", 1000), "refused no_chain in_depot 1"),
]
# One type more than an event may have is no event at all: it isn't looked at what it would lead to.
TOO_MANY = [
    ((A, "e1", "wake store", "in_depot", 1000), "ok in_depot"),
    ((A, "e2", "go store " * ROUNDS + "go", "available", 1000), "fault bad_param event_types"),
]
# No row of the profile leads into a depot. Its own rows are passed as often as there may be types.
PROFILED = [
    ((A, "e1", "provider_drop_off", "available", 1000), "ok available"),
    ((A, "e2", "battery_low", "in_depot", 1000), "refused no_chain available 1"),
    ((A, "e3", "battery_low battery_charged " * ROUNDS, "available", 1000), "ok available"),
]
# With any opening: what leads into a depot, and what leads out of it.
OPENED = [
    ((A, "e1", "store", "in_depot", 1000), "ok in_depot"),
    ((A, "e2", "go", "available", 1000), "ok available"),
]
# What the debugger says of the accepted events, line by line.
WALK = [
    ("chain", "removed available in_depot"),
    ("step", "0 1 removed possible available"),
    ("step", "0 2 removed possible in_depot"),
    ("step", "1 0 in_depot possible in_depot"),
    ("chain", "in_depot" + " available in_depot" * ROUNDS),
    *(
        ("step", f"1 {passed} in_depot possible {'available' if passed % 2 else 'in_depot'}")
        for passed in range(1, 2 * ROUNDS + 1)
    ),
    ("step", "2 0 in_depot possible in_depot"),
    ("back", f"1 {2 * ROUNDS} in_depot possible in_depot"),
    ("run in_depot", "2 0 in_depot possible in_depot"),
]


def told_of(cases, vehicles, words="replay - --table table.json", **more):
    """A replay of these events, with their verdicts, over the table of the depot."""
    text = batch(event(*of_event) for of_event, _ in cases)
    return replayed(text, [verdict for _, verdict in cases], vehicles, words, files={"table.json": DEPOT}, **more)


def depots():
    """Files, replays and sessions in which vehicles are stored in a depot."""
    yield told_of(STORED, [(A, "in_depot", 2)], name="the depot")
    yield told_of(TOO_MANY, [(A, "in_depot", 1)], name="one type too many")
    yield told_of(PROFILED, [(A, "available", 2)], "replay -", name="nine states")
    yield told_of(OPENED, [(A, "available", 2, "available")], "replay --any - --table table.json", name="a depot, midway")
    script, lines = ("".join(f"{line}\n" for line in column) for column in zip(*WALK))
    texts = batch(event(*of_event) for of_event, _ in STORED)
    words = ["debug", "events.json", P, A, "--table", "table.json"]
    yield debugged(script, lines, texts, (2, 1), words=words, files={"table.json": DEPOT}, name="a session in a depot")
