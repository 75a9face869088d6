"""The file of a journal, read after docs/formats.md, apart from the program."""

import json
import re
import subprocess
import zlib
from dataclasses import dataclass

from cases.replays import P, turn
from cases.vehicles import CHECKED, FORM, checked, not_a_journal
from crashing.reports import listed
from harness.case import HOW_FAR
from harness.counting import Unwell

OPEN, CLOSED = b" ", b"#"
"""The gates that a server writes; any byte that isn't the first is a closed one."""
LINE_FEED = b"\n"
COUNTED = re.compile(rb"(?: [^\n]*\n)*")
IS_CHECK = re.compile(rb' \{"crc32":"[0-9a-f]{8}"\}')
FORM_LINE, CHECKED_LINE = b" " + FORM.encode(), b" " + CHECKED.encode()
CHECK_BYTES = 21
"""Those of a line that is a check, with its gate."""
GROUP_END = b"\n#"
"""How a group ends that is written, and so a file at rest, but for the room behind it: with its last line, and a closed gate."""
AT_REST = checked().encode()
"""A file at rest without any request."""


def counted(content):
    """The front of a file that counts: the whole lines behind open gates."""
    return COUNTED.match(content).group()


def behind(content):
    """What stands behind the lines that count, but for the room that was made."""
    return content[len(counted(content)) :].rstrip(b"\n")


def fault_of(front):
    """What is wrong with the lines of a file that count, but for what they tell, if anything is: the first fault, as docs/formats.md
    has it."""
    lines = front.split(b"\n")[:-1]
    if not lines or lines[0] not in (FORM_LINE, CHECKED_LINE):
        return "form"
    if lines[0] == FORM_LINE:
        return "damaged 0" if any(map(IS_CHECK.fullmatch, lines)) else None
    first = 0
    while size := checked_lines(lines[first:]):
        first += size
    return None if first == len(lines) else f"damaged {first}"


def texts_in(front):
    """The texts of the lines of a journal that count, of either version: without the line of the form, and without checks."""
    return [line[1:] for line in front.split(b"\n")[1:-1] if len(line) != CHECK_BYTES]


def checked_lines(lines):
    """How many lines the group has that these begin with, its check among them; 0 where that isn't there, or isn't right."""
    state = 0
    for number, line in enumerate(lines, 1):
        if len(line) == CHECK_BYTES:
            return number if line == b' {"crc32":"%08x"}' % state else 0
        state = zlib.crc32(line + b"\n", state)
    return 0


def group_behind(end):
    """The lines of the group that stands behind a closed gate, as they were with that open, where it is whole to its check."""
    lines = counted(OPEN + end[1:]).split(b"\n")
    size = checked_lines(lines[:-1])
    return b"".join(line + b"\n" for line in lines[:size])


def is_room(cut):
    """Whether what a start cuts off is but what a server leaves: its gate and line feeds, or at most one byte, as a start leaves it that is
    ended while it writes that gate."""
    return len(cut) < 2 or cut.startswith(CLOSED) and not cut[1:].strip(LINE_FEED)


def is_put_aside(found, cut):
    """Whether a start puts aside what it should of what it cuts off: nothing of room, else all, but for the line feeds at its end. Those
    behind a gate that no server writes may be put aside, too, and are where there is nothing else."""
    if is_room(cut):
        return not found
    without = cut.rstrip(LINE_FEED)
    return found == without if len(without) > 1 else bool(found) and found in (without, cut)


def hurt_gate(front, end):
    """What is told of lines that count and what stands behind them where the gate between them was hurt: behind a group that is whole a
    line's gate is open, so its own was open, too."""
    group = group_behind(end) if front.startswith(CHECKED_LINE) else b""
    return f"damaged {front.count(LINE_FEED)}" if group and counted(end[len(group) :]) else None


@dataclass(frozen=True)
class Start:
    """What a start makes of a file: a fault, which is told, and the file stays; or the lines that count then, and what is cut off."""

    fault: str = None
    lines: bytes = b""
    cut: bytes = b""


def start_over(content, fault_in):
    """What a start makes of a file; `fault_in` tells the first fault of lines that count. Where none does it begins anew. A group that is
    whole is kept, unless one of its requests isn't accepted."""
    front = counted(content)
    end = content[len(front) :] if front else b""
    if fault := fault_in(front) or hurt_gate(front, end):
        return Start(fault)
    group = group_behind(end) if front.startswith(CHECKED_LINE) else b""
    if not group or fault_in(front + group):
        return Start(lines=front, cut=end)
    return Start(lines=front + group, cut=end[len(group) :])


class Lines:
    """Lines that were read once, by their bytes: many files have the same."""

    def __init__(self):
        self.values, self.fronts = {}, {}

    def value(self, line):
        """The device of a line, and the value of an event, or None for a registration."""
        if line not in self.values:
            value = json.loads(line[1:])
            is_vehicle = set(value) == {"device_id", "provider_id"}
            self.values[line] = value["device_id"], None if is_vehicle else value
        return self.values[line]

    def told(self, front):
        """What lines that count tell: the devices in the order of registration, each with how many events it has. What can't be
        there is told: a line that isn't as it was sent, or not where it fits."""
        if front not in self.fronts:
            self.fronts[front] = self.read(front)
        return self.fronts[front]

    def fault_in(self, front):
        """Why lines that count can't be there, or None."""
        try:
            self.told(front)
        except Unwell as fault:
            return str(fault)
        return None

    def read(self, front):
        if front and (fault := fault_of(front)):
            raise Unwell(f"the lines are no journal: {fault}, {front[:200]!r}")
        vehicles = {}
        for number, line in enumerate(front.split(b"\n")[1:-1], 1):
            if len(line) == CHECK_BYTES:
                continue
            try:
                device, event = self.value(line)
            except (ValueError, KeyError, TypeError) as fault:
                raise Unwell(f"line {number} is {line[:200]!r}: {fault}") from None
            count = vehicles.get(device, -1)
            wanted = listed(device, count) if count >= 0 else None
            if event != wanted:
                raise Unwell(f"line {number} is {line[:300]!r} behind {count} events of its vehicle")
            vehicles[device] = count + 1
        return vehicles


def vehicles_text(told):
    """What `vehicles` prints of these devices."""
    lines = [f"vehicle {P} {device} {turn(count - 1)[0] if count else 'removed'} {count}\n" for device, count in told.items()]
    return "".join(lines) + f"registrations {len(told)} events {sum(told.values())}\n"


def listed_by(program, path, *words):
    """What `vehicles` says of a file: its status, and both its outputs, but for how far it is where it takes long."""
    ran = subprocess.run([program, "vehicles", str(path), *words], capture_output=True, text=True)
    return ran.returncode, ran.stdout, re.sub(HOW_FAR, "", ran.stderr)


def listed_amiss(program, path, lines=None):
    """What is wrong with what `vehicles` says of a file that lies still."""
    front = counted(path.read_bytes())
    wanted = (0, vehicles_text((lines or Lines()).told(front)), "") if front else (3, "", not_a_journal("form"))
    found = listed_by(program, path)
    if found != wanted:
        yield f"`vehicles` said {str(found)[:400]}, in place of {str(wanted)[:400]}"
