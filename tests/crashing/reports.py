"""What clients report of vehicles, and what the answers say to stand. Each vehicle has one history, which is reported in order: the
event of each number is known, and so a vehicle stands where the number of its events says."""

import json

from cases.replays import P, batch, history, identifier, turn
from harness.counting import Unwell
from serving.http import vehicle
from serving.wire import get, post

FIRST_TIME = 1000
"""That of the first event of a vehicle; each other one is a millisecond behind the one before."""
GROUP = 7
"""The group of the identifiers."""
FEWEST = {"removed": 0, "available": 1, "non_operational": 2}
"""How many events a vehicle has at least that stands so."""
NOT_KEPT = {"error": "not_kept"}


def device_at(number):
    """The device of this number. Those of even and odd numbers are of different halves."""
    return identifier(GROUP, number)


def listed(device, number):
    """The event of this number of a device, as a list has it, with all its members."""
    state, kind = turn(number)
    return {
        "device_id": device,
        "event_id": f"00000000-0000-4000-8000-{number:012x}",
        "event_types": [kind],
        "location_e7": None,
        "provider_id": P,
        "timestamp": FIRST_TIME + number,
        "vehicle_state": state,
    }


def standing(device, count):
    """What a look tells of a device with so many events."""
    return {
        **vehicle(device),
        "events": count,
        "last": FIRST_TIME + count - 1 if count else None,
        "location_e7": None,
        "vehicle_state": turn(count - 1)[0] if count else "removed",
    }


def registering(*devices):
    return post("/vehicles", [vehicle(device) for device in devices])


def reporting(device, front, behind):
    """The request that reports the events of a device from one number up to another."""
    return post("/events", batch(history(device, front, behind)))


def looking(device):
    return get(f"/vehicles/{P}/{device}")


def listing(device):
    return get(f"/vehicles/{P}/{device}/events")


def parts_of(message):
    """The head of a request or an answer, and its body as a value of JSON, or None where it has no body."""
    head, _, body = message.partition(b"\r\n\r\n")
    return head.decode(), json.loads(body) if body else None


def items_in(request):
    """The items of a POST: the device of each, and the number of the event, or -1 for a registration."""
    head, body = parts_of(request)
    if not head.startswith("POST"):
        return []
    return [(item["device_id"], item["timestamp"] - FIRST_TIME if "timestamp" in item else -1) for item in body]


def status_of(answer):
    """The status of an answer that came whole, else 0."""
    head, _, body = answer.partition(b"\r\n\r\n")
    length = head.rpartition(b"content-length: ")[2].partition(b"\r\n")[0]
    whole = head.startswith(b"HTTP/1.1 ") and length.isdigit() and int(length) == len(body)
    return int(head.split(b" ")[1]) if whole else 0


def said(request, answer):
    """What a whole answer says to stand: devices, each with how many events it has at least. What it says that can't be is told."""
    status = status_of(answer)
    if status not in (200, 404, 503):
        raise Unwell(f"{answer[:200]!r} was answered to {request[:100]!r}")
    if status != 200:
        return []
    head, body = parts_of(answer)
    if "failures" in body:
        return said_of_items(items_in(request), body)
    if "events" in body:
        return said_of_vehicle(request, body)
    return []


def said_of_items(items, body):
    """The same of the answer to a batch."""
    failures = {failure["index"]: failure for failure in body["failures"]}
    if body["total"] != len(items) or body["success"] != len(items) - len(failures):
        raise Unwell(f"{body} was answered to {len(items)} items")
    found = []
    for index, (device, number) in enumerate(items):
        failure = failures.get(index, {"error": None})
        if failure["error"] in (None, "repeated", "already_registered"):
            found.append((device, number + 1))
        elif failure["error"] == "late":
            found.append((device, failure["last"] - FIRST_TIME + 1))
        elif failure["error"] == "no_chain":
            found.append((device, FEWEST[failure["held"]]))
        else:
            raise Unwell(f"{failure} was answered to event {number} of {device}")
    return found


def said_of_vehicle(request, body):
    """The same of a look, and of a list of events."""
    is_list = isinstance(body["events"], list)
    device = request.split(b" ")[1].decode().split("/")[3]
    count = len(body["events"]) if is_list else body["events"]
    wanted = {"events": [listed(device, number) for number in range(count)]} if is_list else standing(device, count)
    if body != wanted:
        raise Unwell(f"{str(body)[:300]} was told of {device}, in place of {str(wanted)[:300]}")
    return [(device, count)]
