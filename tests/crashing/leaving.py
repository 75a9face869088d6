"""What a crash may leave of a file. What was written or cut before a sync that ended is there. Of the rest each piece of a sector
may be there or not, whatever the order was in which it came."""

import itertools
from dataclasses import dataclass

from crashing.files import counted
from crashing.recording import CUT, ENDED, SYNC, WRITE
from harness.counting import Unwell

SECTOR = 512
THERE, LEFT, GROWN, OPEN, JUNK = range(5)
"""What became of a piece: it is there; what was there before is; that is, but the file has grown, with zeros; it has open gates and
line feeds; it has any bytes. A disk may leave the last two of a sector that was being written when the power went."""
FATES = (THERE, LEFT, GROWN, OPEN, JUNK)
PLAIN = FATES[:3]
"""Those before any line counts: a start takes a file for its own that has bytes of the form or zeros, and refuses any others."""


@dataclass
class Piece:
    """A part of a write, within one sector; or a whole cut, of which the bytes are None."""

    at: int
    data: object


@dataclass
class Change:
    """A write or a cut, in its pieces, and whether the call is over."""

    pieces: list
    is_over: bool = False


def change_of(entry):
    if entry.kind == CUT:
        return Change([Piece(entry.at, None)])
    ends = [*range(entry.at // SECTOR * SECTOR + SECTOR, entry.at + len(entry.data), SECTOR), entry.at + len(entry.data)]
    begins = [entry.at, *ends[:-1]]
    return Change([Piece(at, entry.data[at - entry.at : end - entry.at]) for at, end in zip(begins, ends)])


def put(content, piece, fate, chance):
    """Has a piece come to its fate in a file's content."""
    if piece.data is None:
        if fate != LEFT:
            between = chance.randint(piece.at, max(len(content), piece.at)) if fate == GROWN else piece.at
            del content[between:]
        return
    if fate == LEFT:
        return
    end = piece.at + len(piece.data)
    content.extend(bytes(max(end - len(content), 0)))
    if fate == THERE:
        content[piece.at : end] = piece.data
    elif fate == OPEN:
        content[piece.at : end] = (b" \n" * len(piece.data))[: len(piece.data)]
    elif fate == JUNK:
        content[piece.at : end] = bytes(chance.choices(b' #\n{"\0\xff', k=len(piece.data)))


class Disk:
    """What is on a disk for sure, and the changes of it that no sync has ended for."""

    def __init__(self, content):
        self.synced, self.changes, self.covered = content, [], 0

    def take(self, entry):
        """Goes on by a record of a call on the file."""
        if entry.kind in (WRITE, CUT):
            self.changes.append(change_of(entry))
        elif entry.kind in (WRITE + ENDED, CUT + ENDED):
            self.changes[-1].is_over = True
        elif entry.kind == SYNC:
            self.covered = len(self.changes)
            if not all(change.is_over for change in self.changes):
                raise Unwell("a sync began beside a write")
        elif entry.kind == SYNC + ENDED and entry.at == 0:
            self.synced, self.changes = self.after(self.changes[: self.covered]), self.changes[self.covered :]

    def after(self, changes):
        content = bytearray(self.synced)
        for change in changes:
            for piece in change.pieces:
                put(content, piece, THERE, None)
        return bytes(content)

    def whole(self):
        """What a read returns."""
        return self.after(self.changes)

    def left(self, chance, most):
        """Contents that a crash may leave, at most so many: all, where those are no more."""
        pieces = [piece for change in self.changes for piece in change.pieces]
        if not pieces:
            yield self.synced
            return
        fates_there = FATES if counted(self.synced) else PLAIN
        for fates in fates_of(fates_there, len(pieces), chance, most):
            content = bytearray(self.synced)
            for piece, fate in zip(pieces, fates):
                put(content, piece, fate, chance)
            yield bytes(content)


def fates_of(fates, count, chance, most):
    """Fates of so many pieces: all combinations, where they are few, else those of all, of none, and some at random."""
    if len(fates) ** count <= most:
        yield from itertools.product(fates, repeat=count)
        return
    yield (THERE,) * count
    yield (LEFT,) * count
    for _ in range(most - 2):
        kept = chance.choice((1, 5, 50))
        yield chance.choices(fates, weights=(kept, 3, 2, 1, 1)[: len(fates)], k=count)
