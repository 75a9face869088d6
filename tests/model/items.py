"""Batches and their items, after docs/formats.md: what is read of them, and what is wrong with them."""

import re

from cases.tables import STATES
from harness.case import MAX_BYTES, MAX_ITEMS
from model.json_text import NotJson, value_of

MOST_TIME = 9007199254740991
MOST_LAT, MOST_LNG = 900000000, 1800000000
MOST_TYPES = 64
TYPE_NAME = re.compile(r"[a-z0-9_]{1,32}")
HYPHENS = "[0-9a-f]{8}-[0-9a-f]{4}-[0-9a-f]{4}-[0-9a-f]{4}-[0-9a-f]{12}"
IDENTIFIER = re.compile(f"{HYPHENS}|[0-9a-f]{{32}}|urn:uuid:{HYPHENS}|{{{HYPHENS}}}", re.IGNORECASE | re.ASCII)
VEHICLE = ("provider_id", "device_id")
EVENT = (*VEHICLE, "event_id", "vehicle_state", "event_types", "timestamp", "location_e7")


class BatchFault(Exception):
    """What is wrong with a batch as a whole, in the word that the program has for it."""


def items_of(text):
    """The items of a batch's bytes, as values of JSON, or its fault."""
    if len(text) > MAX_BYTES:
        raise BatchFault("too_long")
    try:
        value = value_of(text)
    except NotJson:
        raise BatchFault("not_json") from None
    items = [value] if isinstance(value, dict) else value
    if not isinstance(items, list):
        raise BatchFault("not_list")
    if len(items) > MAX_ITEMS:
        raise BatchFault("too_many")
    return items


def line_items_of(stream):
    """The items of the lines of these bytes, as values of JSON, or the first fault. Blank lines hold none."""
    items, lines = [], stream[:MAX_BYTES].split(b"\n")
    for number, line in enumerate(lines):
        if len(stream) > MAX_BYTES and number == len(lines) - 1:
            raise BatchFault("too_long")
        if not line.strip(b" \t\r"):
            continue
        try:
            value = value_of(line)
        except NotJson:
            raise BatchFault(f"not_json {number}") from None
        if len(items) == MAX_ITEMS:
            raise BatchFault("too_many")
        items.append(value)
    return items


def identifier_in(text):
    """The identifier that a text is, hyphenated and in lower case, or None."""
    if not isinstance(text, str) or not IDENTIFIER.fullmatch(text):
        return None
    digits = text.lower().removeprefix("urn:uuid:").strip("{}").replace("-", "")
    return "-".join([digits[:8], digits[8:12], digits[12:16], digits[16:20], digits[20:]])


def is_whole(value, least, most):
    return type(value) is int and least <= value <= most


def is_position(value):
    if value is None:
        return True
    if not isinstance(value, dict):
        return False
    return is_whole(value.get("lat"), -MOST_LAT, MOST_LAT) and is_whole(value.get("lng"), -MOST_LNG, MOST_LNG)


def is_list_of_types(value):
    if not isinstance(value, list) or not 1 <= len(value) <= MOST_TYPES:
        return False
    return all(isinstance(name, str) and TYPE_NAME.fullmatch(name) for name in value)


FORMS = {
    "provider_id": identifier_in,
    "device_id": identifier_in,
    "event_id": identifier_in,
    "vehicle_state": lambda value: isinstance(value, str) and value in STATES,
    "event_types": is_list_of_types,
    "timestamp": lambda value: is_whole(value, 0, MOST_TIME),
    "location_e7": is_position,
}


def fault_of(item, members):
    """What is wrong with the form of an item that must have these members, or None."""
    if not isinstance(item, dict):
        return {"error": "not_object"}
    for name in members:
        if name not in item and name != "location_e7":
            return {"error": "missing_param", "param": name}
        if not FORMS[name](item.get(name)):
            return {"error": "bad_param", "param": name}
    return None


def key_of(item):
    return identifier_in(item["provider_id"]), identifier_in(item["device_id"])


def event_of(item):
    """The event of a good item, as the list of a vehicle's events has it."""
    event = {name: item.get(name) for name in EVENT}
    for name in ("provider_id", "device_id", "event_id"):
        event[name] = identifier_in(event[name])
    if event["location_e7"] is not None:
        event["location_e7"] = {name: event["location_e7"][name] for name in ("lat", "lng")}
    return event
