"""`deploy/mds2profile.jq`: examples after the documents of MDS 2.0, the batches that come out, and replays of these."""

import json
import re
import shutil
import subprocess

from cases.replays import A, B, P
from harness.counting import ROOT, Skipped, Unwell

SECONDS = 300
SCRIPT, PAGE = ROOT / "deploy/mds2profile.jq", ROOT / "docs/mds.md"
BLOCK = re.compile(r"^```json\n(.*?)^```$", re.MULTILINE | re.DOTALL)
SORT, CUT = "sort_by(.timestamp)", "range(0; length; 5000) as $at | .[$at:$at + 5000]"
"""What docs/mds.md has jq do with a batch: sort it by time, and cut it into several."""
ASKED = ["provider_id", "device_id", "event_id", "vehicle_state", "event_types", "timestamp"]
OTHERS = {
    "data_provider_id": "00000000-0000-4000-8000-000000000002",
    "publication_time": 1767225600250,
    "event_geographies": ["00000000-0000-4000-8000-00000000006e", "00000000-0000-4000-8000-00000000006f"],
    "battery_percent": 81,
    "fuel_percent": 40,
    "trip_ids": ["00000000-0000-4000-8000-0000000000f1"],
    "associated_ticket": "ticket 7",
}
"""The members of the standard's events that ours haven't, but for the position."""


def jq(text, *words):
    """What jq prints of a text."""
    if not shutil.which("jq"):
        raise Skipped("no `jq` here")
    ran = subprocess.run(["jq", "-c", *map(str, words)], input=text, capture_output=True, text=True, timeout=SECONDS)
    if ran.returncode:
        raise Unwell(f"jq: status {ran.returncode}: {ran.stderr}")
    return ran.stdout


def batch_of(value, *words):
    """The lines that the script makes of a text in JSON, or of the text of a value."""
    return jq(value if isinstance(value, str) else json.dumps(value), *words, "-f", SCRIPT)


def differs(what, found, wanted):
    if found != wanted:
        yield f"{what}: {found!r}, in place of {wanted!r}"


def gps(lat, lng):
    """A position with all members that the standard's have."""
    rest = {"altitude": 34.5, "heading": 270.0, "speed": 3.25, "horizontal_accuracy": 4.5, "vertical_accuracy": 6.0}
    return {"lat": lat, "lng": lng, **rest, "satellites": 9}


def standard(device, number, types, state, second, **more):
    """An event with all members that the standard's have, some of them otherwise. Those that are None are left out."""
    own = {
        "device_id": device,
        "provider_id": P,
        "event_id": f"00000000-0000-4000-8000-0000000000{number}",
        "vehicle_state": state,
        "event_types": types.split(),
        "timestamp": 1767225600000 + 1000 * second,
        "location": gps(52.52, 13.405),
    }
    return {name: value for name, value in {**OTHERS, **own, **more}.items() if value is not None}


DROPPED_OFF = standard(A, "e1", "provider_drop_off", "available", 1)
EVENTS = [
    DROPPED_OFF,
    standard(B, "e2", "agency_drop_off", "available", 2, location=gps(-33.92000035, -179.99999995)),
    standard(A, "e3", "battery_low comms_lost", "non_contactable", 3, location=None),
]
ITEMS = [
    '{"provider_id":"00000000-0000-4000-8000-000000000001","device_id":"00000000-0000-4000-8000-00000000000a",'
    '"event_id":"00000000-0000-4000-8000-0000000000e1","vehicle_state":"available","event_types":["provider_drop_off"],'
    '"timestamp":1767225601000,"location_e7":{"lat":525200000,"lng":134050000}}',
    '{"provider_id":"00000000-0000-4000-8000-000000000001","device_id":"00000000-0000-4000-8000-00000000000b",'
    '"event_id":"00000000-0000-4000-8000-0000000000e2","vehicle_state":"available","event_types":["agency_drop_off"],'
    '"timestamp":1767225602000,"location_e7":{"lat":-339200004,"lng":-1800000000}}',
    '{"provider_id":"00000000-0000-4000-8000-000000000001","device_id":"00000000-0000-4000-8000-00000000000a",'
    '"event_id":"00000000-0000-4000-8000-0000000000e3","vehicle_state":"non_contactable",'
    '"event_types":["battery_low","comms_lost"],"timestamp":1767225603000}',
]
BATCH = f"[{','.join(ITEMS)}]\n"


def events_of_the_standard(_):
    """Events with all members of the standard: those that the server asks for are taken over, and no other is."""
    yield from differs("the batch", batch_of(EVENTS), BATCH)
    yield from differs("the batch of that batch", batch_of(BATCH), BATCH)


def payloads_of_the_standard(_):
    """Events alone, in a list, in payloads of both forms, and in several of these."""
    answer = {"version": "2.0.0", "data": {"events": EVENTS[:2]}, "links": {"next": None}}
    flat = {"version": "2.0.0", "last_updated": 1767225600000, "ttl": 0, "events": EVENTS[2:]}
    yield from differs("one event", batch_of(DROPPED_OFF), f"[{ITEMS[0]}]\n")
    yield from differs("a payload", batch_of(answer), f"[{ITEMS[0]},{ITEMS[1]}]\n")
    yield from differs("a payload without `data`", batch_of(flat), f"[{ITEMS[2]}]\n")
    yield from differs("two payloads", batch_of(f"{json.dumps(answer)}\n{json.dumps(flat)}", "-s"), BATCH)
    for empty in ([], {"events": []}, {"version": "2.0.0", "data": {"events": []}}):
        yield from differs(json.dumps(empty), batch_of(empty), "[]\n")


ROUNDED = {
    "52.52": "525200000",
    "5.252e1": "525200000",
    "-33.92": "-339200000",
    "13.40500004": "134050000",
    "13.40500006": "134050001",
    "-13.40500004": "-134050000",
    "-13.40500006": "-134050001",
    # halves, whose product with ten millions a double has too small, exactly, or too large
    "52.52000035": "525200004",
    "52.52000005": "525200001",
    "52.52000155": "525200016",
    "-52.52000035": "-525200004",
    "-52.52000155": "-525200016",
    "52.5200003499999": "525200003",
    "52.5200015499999": "525200015",
    "0.00000005": "1",
    "-0.00000005": "-1",
    "5e-8": "1",
    "4e-8": "0",
    "-4e-8": "0",
    "0": "0",
    "-0": "0",
    "-0.0": "0",
    # the poles and the date line, and past them
    "90": "900000000",
    "-90.0": "-900000000",
    "89.99999994": "899999999",
    "89.99999995": "900000000",
    "90.00000004": "900000000",
    "90.00000005": "900000001",
    "-90.00000005": "-900000001",
    "180": "1800000000",
    "-180": "-1800000000",
    "179.99999135": "1799999914",
    "-179.99999995": "-1800000000",
    "180.00000004": "1800000000",
    "180.00000005": "1800000001",
    "-180.00000005": "-1800000001",
    "361": "3610000000",
}
"""Decimals, and the ten-millionths that they come to."""


def rounded_positions(_):
    """Decimals go to the nearest ten-millionth, and halves away from 0."""
    given = [f'{{"location":{{"lat":{text},"lng":{text}}}}}' for text in ROUNDED]
    wanted = [f'{{"location_e7":{{"lat":{text},"lng":{text}}}}}' for text in ROUNDED.values()]
    found = re.findall(r'\{"location_e7":\{.*?\}\}', batch_of(f"[{','.join(given)}]"))
    yield from differs("the number of items", len(found), len(wanted))
    for text, item, right in zip(ROUNDED, found, wanted):
        yield from differs(text, item, right)


POINT = {"type": "Point", "coordinates": [13.405, 52.52, 34.5]}
POSITIONS = [
    ({"lng": 13.405, "lat": 52.52}, {"lat": 525200000, "lng": 134050000}),
    (POINT, {"lat": 525200000, "lng": 134050000}),
    ({"type": "Feature", "geometry": POINT, "properties": {"timestamp": 7}}, {"lat": 525200000, "lng": 134050000}),
    ({"type": "Point", "coordinates": []}, {"lat": None, "lng": None}),
    ({"type": "Feature", "geometry": None}, None),
    ({"lat": "52.52", "lng": 13.405}, {"lat": "52.52", "lng": 134050000}),
    ({"lat": None, "lng": 13.405}, {"lat": None, "lng": 134050000}),
    ({"lat": 52.52}, {"lat": 525200000}),
    ({}, {}),
    ("here", "here"),
    (7, 7),
    ([52.52, 13.405], [52.52, 13.405]),
]
"""Values of `location`, and those of `location_e7` that they come to: for the server to tell, where they haven't the form."""


def forms_of_positions(_):
    """Positions in the forms of the standard and of GeoJSON, in none, and absent."""
    for given, wanted in POSITIONS:
        found = json.loads(batch_of({"location": given}))
        yield from differs(json.dumps(given), found, [{"location_e7": wanted}])
    yield from differs("null", batch_of({"location": None}), "[{}]\n")
    ours = {"lat": 1, "lng": 2}
    for given in ({"location_e7": ours, "location": gps(3.5, 4.5)}, {"location": gps(3.5, 4.5), "location_e7": ours}):
        yield from differs("both positions", json.loads(batch_of(given)), [{"location_e7": ours}])
    both = {"location_e7": None, "location": {"lat": 3.5, "lng": 4.5}}
    yield from differs("one of them null", json.loads(batch_of(both)), [{"location_e7": {"lat": 35000000, "lng": 45000000}}])


def missing_members(_):
    """What an event lacks its item lacks, and nothing else; what is no object, or has no right value, stays what it is."""
    whole = json.loads(ITEMS[0])
    for name in ASKED:
        rest = {other: value for other, value in DROPPED_OFF.items() if other != name}
        wanted = {other: value for other, value in whole.items() if other != name}
        yield from differs(f"without {name}", json.loads(batch_of(rest)), [wanted])
        yield from differs(f"{name} null", json.loads(batch_of({**DROPPED_OFF, name: None})), [{**whole, name: None}])
    yield from differs("others alone", batch_of(OTHERS), "[{}]\n")
    yield from differs("no objects", batch_of('[7,"x",null,true,{}]'), '[7,"x",null,true,{}]\n')


def registrations_of_events(_):
    """The vehicles that events name, each once, in order, whatever the case of its letters is."""
    other = {"provider_id": "00000000-0000-4000-8000-000000000002", "device_id": A}
    events = [EVENTS[1], other, DROPPED_OFF, {**DROPPED_OFF, "device_id": A.upper()}, *EVENTS]
    unnamed = [7, {"provider_id": P}, {"device_id": A}, {"provider_id": P, "device_id": 7}, {}]
    wanted = [{"provider_id": P, "device_id": A}, {"provider_id": P, "device_id": B}, other]
    for given in ([*events, *unnamed], {"version": "2.0.0", "data": {"events": [*unnamed, *events]}}):
        found = batch_of(given, "--arg", "registrations", "1")
        yield from differs("the registrations", json.loads(found), wanted)
    yield from differs("of unnamed ones", batch_of(unnamed, "--arg", "registrations", "1"), "[]\n")


def sorted_and_cut(_):
    """What docs/mds.md has jq do: events of equal times stay in their order, and no batch has too many items."""
    page = PAGE.read_text()
    yield from [f"docs/mds.md hasn't `jq -c '{words}'`" for words in (SORT, CUT) if f"`jq -c '{words}'`" not in page]
    items = [{"timestamp": 1000 - number // 3 % 100, "event_id": str(number)} for number in range(12000)]
    found = json.loads(jq(batch_of(items), SORT))
    if found != sorted(items, key=lambda item: item["timestamp"]):
        yield "the order by time is another"
    parts = [json.loads(line) for line in jq(json.dumps(items), CUT).splitlines()]
    yield from differs("the parts", [len(part) for part in parts], [5000, 5000, 2000])
    if sum(parts, []) != items:
        yield "the parts have other items"


def example_of_the_page(_):
    """The first block of JSON in docs/mds.md becomes the second."""
    payload, batch = BLOCK.findall(PAGE.read_text())
    yield from differs("the batch", batch_of(payload), batch_of(batch))
    yield from differs("the batch", json.loads(batch_of(payload)), json.loads(batch))


LIFE = [
    standard(A, "e1", "provider_drop_off", "available", 1, location=gps(90.00000004, 180.00000004)),
    standard(A, "e2", "trip_start", "on_trip", 2),
    standard(A, "e3", "trip_end battery_low", "non_operational", 3),
    standard(B, "e4", "agency_drop_off", "available", 3, location=None),
    standard(B, "e5", "trip_start", "on_trip", 4, event_id=None),
    standard(B, "e6", "trip_start", "on_trip", 4, location=gps(90.00000005, 13.405)),
    standard(B, "e7", "trip_start", "on_trip", 4, location=gps(52.52, -180.00000005)),
    standard(B, "e8", "trip_end", "available", 5),
    standard(B, "e9", "trip_start", "on_trip", 2),
    standard(A, "e2", "battery_charged", "available", 5),
    standard(A, "ea", "battery_charged charging_start", "available", 6),
    standard(A, "eb", "maintenance_pick_up", "removed", 3, timestamp=None),
    standard(A, "ec", "maintenance_pick_up", "removed", 3, location={"lat": "52.52", "lng": 13.405}),
    7,
    standard(A, "ed", "maintenance_pick_up", "removed", 3, location=POINT),
]
VERDICTS = """\
0 ok available
1 ok on_trip
2 ok non_operational
3 ok available
4 fault missing_param event_id
5 fault bad_param location_e7
6 fault bad_param location_e7
7 refused no_chain available 0
8 refused late 1767225603000
9 refused repeated
10 refused no_chain non_operational 1
11 fault missing_param timestamp
12 fault bad_param location_e7
13 fault not_object
14 ok removed
vehicle 00000000-0000-4000-8000-000000000001 00000000-0000-4000-8000-00000000000a removed 4
vehicle 00000000-0000-4000-8000-000000000001 00000000-0000-4000-8000-00000000000b available 1
accepted 5 refused 10
"""


def replayed_events(program):
    """The program replays what comes out: it accepts what is lawful, and tells each fault at its place."""
    batch = batch_of({"version": "2.0.0", "data": {"events": LIFE}})
    ran = subprocess.run([program, "replay", "-"], input=batch, capture_output=True, text=True, timeout=SECONDS)
    for number, (found, wanted) in enumerate(zip(ran.stdout.splitlines(), VERDICTS.splitlines())):
        yield from differs(f"line {number}", found, wanted)
    yield from differs("the number of lines", ran.stdout.count("\n"), VERDICTS.count("\n"))
    yield from differs("status", (ran.returncode, ran.stderr), (1, ""))


MDS = [
    events_of_the_standard,
    payloads_of_the_standard,
    rounded_positions,
    forms_of_positions,
    missing_members,
    registrations_of_events,
    sorted_and_cut,
    example_of_the_page,
    replayed_events,
]
