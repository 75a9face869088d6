"""Journals that chance makes, by docs/formats.md, and changes of their files: of one byte, or of a piece."""

from dataclasses import dataclass
from functools import cached_property
from itertools import accumulate, product
from random import Random

from cases.vehicles import CHECKED, FORM, group, registered
from crashing.files import CHECK_BYTES, CLOSED, OPEN
from crashing.reports import device_at, listed
from model.json_text import compact

PIECE = 512
"""How many bytes change together where a piece does: those of a sector."""
VEHICLES, GROUPS, FEW, MOST = 5, 9, 3, 30
"""How many vehicles and groups a journal has at most, and how many requests a small group has and a large one."""
ROOMS = (b"", b"\n" * 90, b"\n" * 1500, bytes(1100), b"\n" * 900 + bytes(300))
"""What stands behind the last gate: nothing, as a start leaves it; line feeds, as a server writes ahead; or zeros, where a crash tore it."""
FORMS, WRITTEN = "form's ", "written "
"""How kinds of places begin of the lines before the first group, and of a group that was written and not opened."""
KINDS = ["first gate", "text", "line feed of a text", "gate of a check", "check", "line feed of a check"]
KINDS += [*(FORMS + kind for kind in KINDS), *(WRITTEN + kind for kind in KINDS)]
KINDS += ["gate of a text", WRITTEN + "gate of a text", "last gate", "room"]
"""The kinds of places of a byte."""
VALUES = {
    "another bit": lambda chance, byte: byte ^ 1 << chance.randrange(8),
    "a digit": lambda chance, _: chance.choice(b"0123456789abcdef"),
    "a line feed": lambda *_: ord("\n"),
    "an open gate": lambda *_: ord(OPEN),
    "a closed gate": lambda *_: ord(CLOSED),
    "zero": lambda *_: 0,
    "any": lambda chance, _: chance.randrange(256),
}
"""What a byte becomes, by chance and by what it was."""


def lines_of(form, texts):
    """Open lines of the texts of a group, in a journal of this form."""
    return (group(*texts) if form == CHECKED else "".join(f" {text}\n" for text in texts)).encode()


def unopened(front, whole):
    """Lines that count, and behind them a group that was written and not opened, to the gate behind it."""
    return front + CLOSED + whole[len(front) + 1 :] + CLOSED


@dataclass
class Journal:
    """Groups of texts that count, one more that was written and not opened, if there is one, and what stands behind the last gate."""

    form: str
    groups: list
    waiting: list
    room: bytes

    @cached_property
    def fronts(self):
        """The lines of the first groups, from none to all of those that count."""
        return list(accumulate(lines_of(self.form, texts) for texts in ([self.form], *self.groups)))

    @property
    def lines(self):
        """The lines that count."""
        return self.fronts[-1]

    @cached_property
    def whole(self):
        """The same with the group that waits."""
        return self.lines + (lines_of(self.form, self.waiting) if self.waiting else b"")

    @cached_property
    def states(self):
        """What the file had at each moment, but for the room: lines that count, or also a group behind them that wasn't opened."""
        steps = [*self.fronts, self.whole] if self.waiting else self.fronts
        return [*(front + CLOSED for front in self.fronts), *map(unopened, steps, steps[1:])]

    @cached_property
    def content(self):
        return (unopened(self.lines, self.whole) if self.waiting else self.lines + CLOSED) + self.room

    @cached_property
    def places(self):
        """Of each kind of place in the file the ranges where it is."""
        found, at, begins = {}, 0, True
        for line in self.whole.split(b"\n")[:-1]:
            whose = WRITTEN if at >= len(self.lines) else "" if at >= len(self.fronts[0]) else FORMS
            role = "check" if len(line) == CHECK_BYTES else "text"
            gate = "first gate" if begins else f"gate of a {role}"
            for kind, front, behind in ((gate, 0, 1), (role, 1, len(line)), (f"line feed of a {role}", len(line), len(line) + 1)):
                found.setdefault(whose + kind, []).append(range(at + front, at + behind))
            at, begins = at + len(line) + 1, role == "check" or self.form == FORM
        found["last gate"] = [range(at, at + 1)]
        if self.room:
            found["room"] = [range(at + 1, len(self.content))]
        return found


def requests_of(chance):
    """Texts of requests of some vehicles, as they may come: registrations, and of each vehicle its events in turn."""
    devices = [device_at(number) for number in chance.sample(range(100), chance.randint(1, VEHICLES))]
    counts = {}
    while True:
        if devices and (not counts or chance.random() < 0.1):
            device = devices.pop()
            counts[device] = 0
            yield registered(device)
        else:
            device = chance.choice(list(counts))
            yield compact(listed(device, counts[device]))
            counts[device] += 1


def filled_up(form, size, texts):
    """The same texts, the last of which ends with so many spaces that the next group begins where a sector does."""
    lack = -(size + len(lines_of(form, texts))) % PIECE
    return [*texts[:-1], texts[-1] + " " * lack]


def journal_by(chance):
    """A journal of either form, above all of the second, with groups small and large, one in four with groups that fill sectors up."""
    form = CHECKED if chance.random() < 0.85 else FORM
    requests, fills, groups, size = requests_of(chance), chance.random() < 0.25, [], len(lines_of(form, [form]))
    for _ in range(chance.randint(1, GROUPS)):
        texts = [next(requests) for _ in range(chance.randint(1, MOST if chance.random() < 0.2 else FEW))]
        groups.append(filled_up(form, size, texts) if fills and chance.random() < 0.7 else texts)
        size += len(lines_of(form, groups[-1]))
    waiting = groups.pop() if len(groups) > 1 and chance.random() < 0.3 else []
    return Journal(form, groups, waiting, chance.choice(ROOMS))


def with_a_byte(seed):
    """A journal, and its file with one byte changed: at each kind of place to each kind of value, by the seed's number; in words, what it is.
    In a journal whose groups have no checks no text becomes another, but for a line feed: nothing can tell that."""
    chance = Random(seed)
    kind, value = ALL_BYTES[seed % len(ALL_BYTES)]
    journal = journal_by(chance)
    while kind not in journal.places or journal.form == FORM and kind == "text" and value != "a line feed":
        journal = journal_by(chance)
    content, place = journal.content, chance.choice(chance.choice(journal.places[kind]))
    byte = VALUES[value](chance, content[place])
    if byte == content[place]:
        byte ^= 1 << chance.randrange(8)
    return journal, content[:place] + bytes([byte]) + content[place + 1 :], (kind, value)


def old_piece(chance, journal):
    """What a sector had when the file ended in it, or before it."""
    state = chance.choice(journal.states).ljust(len(journal.content), chance.choice((b"\0", b"\n")))
    front = (len(state.rstrip(b"\0\n")) // PIECE + chance.randrange(2)) * PIECE
    return front, state[front : front + PIECE]


def blank_piece(byte):
    return lambda chance, journal: (chance.randrange(0, len(journal.content), PIECE), PIECE * byte)


def blank_from_a_group_on(chance, journal):
    """What hides where lines end: the first gate of a group and what is behind it, or the last gate."""
    return len(chance.choice(journal.fronts)), PIECE * chance.choice((b"\0", b"\n"))


def moved_piece(step):
    """What stands elsewhere in the file, so many bytes or more of these away."""
    return lambda chance, journal: (
        chance.randrange(0, len(journal.content), step),
        journal.content[(front := chance.randrange(0, len(journal.content), step)) : front + PIECE],
    )


PIECES = {
    "old": old_piece,
    "zero": blank_piece(b"\0"),
    "line feeds": blank_piece(b"\n"),
    "blank from a group on": blank_from_a_group_on,
    "a sector's": moved_piece(PIECE),
    "moved": moved_piece(1),
}
"""What stands in place of a piece, and where."""
SAFE = ("old", "zero", "line feeds", "blank from a group on")
"""Those by which no text becomes another that is a request."""
ALL_BYTES, ALL_PIECES = list(product(KINDS, VALUES)), list(PIECES)


def with_a_piece(seed):
    """The same with a piece changed, of a sector or from any place on."""
    chance = Random(seed)
    kind = ALL_PIECES[seed % len(ALL_PIECES)]
    while True:
        journal = journal_by(chance)
        front, piece = PIECES[kind](chance, journal)
        whole = journal.content
        content = (whole[:front] + piece + whole[front + len(piece) :])[: len(whole)]
        if content != whole and (journal.form == CHECKED or kind in SAFE):
            return journal, content, ("a piece", kind)
