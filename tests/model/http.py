"""Requests and answers over HTTP, after docs/http.md, byte for byte."""

import re

from harness.case import MAX_BYTES
from model.fleet import Fleet
from model.items import EVENT, VEHICLE, BatchFault, identifier_in, items_of
from model.json_text import compact

MOST_HEAD, MOST_FIELDS = 16384, 64
TOKEN = rb"[!#$%&'*+.^_`|~0-9A-Za-z-]+"
HEAD = re.compile(
    rb"(?:\r?\n)*(%s) ([\x21-\x7e\x80-\xff]+) HTTP/1\.[01]\r?\n((?:%s:[\t\x20-\x7e\x80-\xff]*\r?\n)*)\r?\n" % (TOKEN, TOKEN)
)
DIGITS = re.compile(rb"[0-9]+")
PHRASES = {
    200: "OK",
    400: "Bad Request",
    404: "Not Found",
    405: "Method Not Allowed",
    411: "Length Required",
    413: "Payload Too Large",
    501: "Not Implemented",
    503: "Service Unavailable",
}


def answer(status, value, allow=None):
    """The bytes of an answer with this body, a value of JSON."""
    body = value if isinstance(value, str) else compact(value)
    lines = [
        f"HTTP/1.1 {status} {PHRASES[status]}",
        "content-type: application/json",
        f"content-length: {len(body)}",
        "connection: close",
    ]
    if allow:
        lines.append(f"allow: {allow}")
    return "\r\n".join([*lines, "", body]).encode()


def error(status, name, allow=None):
    return answer(status, {"error": name}, allow)


class Refused(Exception):
    """A request that is answered by an error: its status, its name, and the method that is allowed."""


class Head:
    """The head with which bytes begin."""

    def __init__(self, stream):
        found = HEAD.match(stream[:MOST_HEAD])
        lines = [line.partition(b":") for line in found.group(3).splitlines()] if found else []
        if not found or len(lines) > MOST_FIELDS or not is_utf8(found.group(2)):
            raise Refused(400, "bad_head")
        self.method, self.target = found.group(1).decode(), found.group(2).decode()
        self.fields = [(name.lower(), value.strip(b" \t")) for name, _, value in lines]
        self.end = found.end()

    def values(self, name):
        return [value for other, value in self.fields if other == name]

    def length(self):
        """The length that a POST announces."""
        lengths = self.values(b"content-length")
        if not lengths:
            raise Refused(411, "length_required")
        if len(lengths) > 1 or not DIGITS.fullmatch(lengths[0]):
            raise Refused(400, "bad_length")
        digits = lengths[0].lstrip(b"0") or b"0"
        if len(digits) > len(str(MAX_BYTES)) or int(digits) > MAX_BYTES:
            raise Refused(413, "too_long")
        return int(digits)


def is_utf8(text):
    try:
        text.decode()
    except UnicodeDecodeError:
        return False
    return True


def route_of(target):
    """The route of a target, with the vehicle that it names."""
    names = target.partition("?")[0].split("/")
    if names in (["", "vehicles"], ["", "events"], ["", "table"]):
        return names[1], None
    is_of_vehicle = names[:2] == ["", "vehicles"] and (len(names) == 4 or len(names) == 5 and names[4] == "events")
    key = tuple(map(identifier_in, names[2:4])) if is_of_vehicle else (None,)
    if None in key:
        raise Refused(404, "not_found")
    return ("history" if len(names) == 5 else "vehicle"), key


def body_of(head, stream):
    """The items of a POST."""
    length = head.length()
    body = stream[head.end : head.end + length]
    if len(body) < length:
        raise Refused(400, "cut_short")
    try:
        return items_of(body)
    except BatchFault as fault:
        raise Refused(400, str(fault)) from None


class Server:
    """A server: the fleet, and what it answers to the bytes of one connection after the other."""

    def __init__(self, tables=None):
        self.fleet = Fleet(tables)

    def answered(self, stream):
        """The answer to all bytes that a client sent before it ended its side."""
        try:
            return answer(200, self.found(stream))
        except Refused as refused:
            return error(*refused.args)

    def found(self, stream):
        """The body of an answer without an error, as a value of JSON."""
        head = Head(stream)
        if head.values(b"transfer-encoding"):
            raise Refused(501, "transfer_encoding")
        route, key = route_of(head.target)
        allowed = "POST" if route in ("vehicles", "events") else "GET"
        if head.method != allowed:
            raise Refused(405, "method_not_allowed", allowed)
        if allowed == "POST":
            return self.fleet.take(body_of(head, stream), VEHICLE if route == "vehicles" else EVENT)
        if route == "table":
            return self.fleet.tables.listed()
        vehicle = self.fleet.vehicles.get(key)
        if vehicle is None:
            raise Refused(404, "unregistered")
        return {"events": vehicle.events} if route == "history" else vehicle.standing(key)
