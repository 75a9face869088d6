"""A process that reads the records of servers as they come, and says what is wrong with them."""

import multiprocessing
from collections import Counter

from crashing.recording import ENDED, READ, STREAMED
from scaling.answers import Answers
from scaling.journal import Journal
from scaling.record import entries_of
from scaling.rules import ON_THE_FILE, Descriptors, Locks, Looks, Opening

MOST_OF_A_RULE, ALIKE = 3, 16
"""How many faults of one rule that begin alike, by so many characters, are told of a server."""
OF_THE_FILE = {kind + more for kind in ON_THE_FILE for more in (0, ENDED)} | {READ}
LISTENING = b"listening "


class Life:
    """What is known of one server."""

    def __init__(self, journal, answers, workers):
        self.journal, self.answers, self.workers = journal, answers, workers
        self.opening, self.descriptors, self.locks = Opening(journal.path), Descriptors(), Locks()
        self.looks = Looks(journal.kept, self.locks)
        self.faults, self.kinds = Counter(), Counter()
        journal.begin()
        answers.begin()

    def faults_of(self, entries):
        for entry in entries:
            self.kinds[entry.kind] += 1
            if entry.kind == STREAMED and entry.data.startswith(LISTENING):
                self.journal.is_serving = True
            for rule in self.rules_for(entry):
                fault = fault_of(rule, entry)
                alike = fault and (type(rule), fault[:ALIKE])
                if fault and self.faults[alike] < MOST_OF_A_RULE:
                    self.faults[alike] += 1
                    yield f"{type(rule).__name__.lower()}: {fault}"
        yield from self.small_groups()
        yield from self.looks.amiss()
        yield from self.locks.amiss()

    def rules_for(self, entry):
        """Those that a record concerns."""
        if entry.kind in OF_THE_FILE:
            yield self.journal
        if not self.opening.is_over:
            yield self.opening
        yield self.descriptors
        yield self.locks
        yield self.looks
        yield self.answers

    def small_groups(self):
        """A group is a piece of 256 of either half, but for the last one that an answer waits for."""
        if self.journal.partial > self.answers.count + self.workers:
            groups = f"{self.journal.partial} of {self.journal.groups} groups"
            yield f"journal: {groups} were smaller than what waited, for {self.answers.count} answers"

    def told(self):
        """Figures of this server."""
        return {
            "lines": self.journal.lines,
            "bytes": self.journal.end,
            "groups": self.journal.groups,
            "syncs": self.journal.syncs,
            "answers": self.answers.count,
            "records": sum(self.kinds.values()),
            "connections": len(self.descriptors.connections),
            "looks": (self.looks.count, self.looks.waited),
        }


def fault_of(rule, entry):
    """What a rule says of a record. One that it can't read is told, and the others are read on, since the server waits for that."""
    try:
        return rule.take(entry)
    except Exception as fault:  # whatever it is, it's told
        return f"{type(fault).__name__}, {fault}: {str(entry)[:300]}"


def check(orders, path):
    """Reads one record after the other, each when it is told to, and answers with what was wrong, and with figures."""
    journal = Journal(path)
    answers = Answers(journal.kept)
    while order := orders.recv():
        record, workers = order
        life = Life(journal, answers, workers)
        orders.send((list(life.faults_of(entries_of(record))), life.told()))


class Checker:
    """The process, for the servers over one journal. As a context it ends with it."""

    def __init__(self, path):
        self.orders, theirs = multiprocessing.Pipe()
        self.child = multiprocessing.get_context("fork").Process(target=check, args=(theirs, str(path)), daemon=True)
        self.child.start()
        theirs.close()

    def __enter__(self):
        return self

    def __exit__(self, *_):
        self.child.kill()
        self.child.join()

    def begin(self, record, workers):
        """Has it read the record of a server that is to start."""
        self.orders.send((str(record), workers))

    def ended(self, seconds):
        """What was wrong with a server that is gone, and figures."""
        if not self.orders.poll(seconds):
            return [f"the checker didn't end within {seconds} seconds"], {}
        return self.orders.recv()
