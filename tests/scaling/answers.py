"""Answers that go out, and what they rest on: of each vehicle an answer says, or implies, how many lines of the journal it has."""

import json
from bisect import bisect_right
from collections import Counter
from itertools import accumulate

from crashing.recording import RECEIVED, SENT, TAKEN
from crashing.reports import device_at, listed
from model.http import Head, route_of
from model.items import identifier_in
from model.json_text import compact

LIST_BEGIN, LIST_END = b'{"events":[', b"]}"


class Lengths:
    """How long lists of a regular vehicle's events are, by the number of events."""

    def __init__(self):
        self.ends = [len(LIST_BEGIN + LIST_END)]

    def count(self, length):
        """How many events a list of so many bytes has."""
        while self.ends[-1] < length:
            self.grow()
        return bisect_right(self.ends, length) - 1

    def grow(self):
        known, device = len(self.ends) - 1, device_at(0)
        more = [len(compact(listed(device, number))) + (number > 0) for number in range(known, known + 1000)]
        self.ends += list(accumulate(more, initial=self.ends[-1]))[1:]


class Answers:
    """The connections of one server, and how many lines of each vehicle answers said to be accepted, by whichever server."""

    def __init__(self, kept):
        self.kept, self.accepted_of, self.lengths = kept, Counter(), Lengths()
        self.begin()

    def begin(self):
        self.requests, self.count = {}, 0

    def take(self, entry):
        """Goes on by a record of a connection. Says what an answer rests on that isn't kept."""
        if entry.kind == TAKEN:
            self.requests[entry.file] = bytearray()
        elif entry.kind == RECEIVED:
            if self.requests.get(entry.file) is not None:
                self.requests[entry.file] += entry.data
        elif entry.kind == SENT and self.requests.get(entry.file) is not None:
            request, self.requests[entry.file] = bytes(self.requests[entry.file]), None
            self.count += 1
            return self.unkept(request, entry.data)
        return None

    def unkept(self, request, answer):
        """What an answer rests on, and isn't kept."""
        if not answer.startswith(b"HTTP/1.1 200 "):
            return None
        for device, lines in self.rests_on(request, answer):
            if self.kept[device.encode()] < lines:
                return f"{answer[-100:]!r} went out when {self.kept[device.encode()]} of {lines} lines of {device} were kept"
        return None

    def rests_on(self, request, answer):
        """The vehicles of which an answer tells, each with how many lines it has at least."""
        head, told = Head(request), answer.partition(b"\r\n\r\n")
        if head.method == "POST":
            return self.accepted(head, request, json.loads(told[2]))
        _, key = route_of(head.target)
        if key is None:
            return []
        is_list = told[2].startswith(LIST_BEGIN)
        return [(key[1], 1 + (self.events_in(key[1], told) if is_list else json.loads(told[2])["events"]))]

    def events_in(self, device, told):
        """How many events a list has, or at least has: a part may be recorded alone, and of a regular vehicle the length tells how many
        there are."""
        length = int(told[0].rpartition(b"content-length: ")[2].partition(b"\r\n")[0])
        is_regular = told[2].startswith(LIST_BEGIN + compact(listed(device, 0)).encode())
        return self.lengths.count(length) if is_regular and length > len(told[2]) else told[2].count(b'"event_id"')

    def accepted(self, head, request, said):
        """What a batch had accepted. Where it is of one vehicle alone its target names that."""
        if not said["success"]:
            return []
        _, is_named, device = head.target.partition("?")
        if is_named and identifier_in(device):
            return [self.added(device, said["success"])]
        items = json.loads(request[head.end : head.end + head.length()])
        failed = {failure["index"] for failure in said["failures"]}
        items = items if isinstance(items, list) else [items]
        return [self.added(identifier_in(item["device_id"]), 1) for at, item in enumerate(items) if at not in failed]

    def added(self, device, lines):
        self.accepted_of[device] += lines
        return device, self.accepted_of[device]
