"""Table files: small ones that lead somewhere, large ones at the limits, and faulty ones."""

import json

from cases.tables import PROFILE, STATES
from harness.case import MAX_BYTES, padded
from fuzzing.events import NAMES, NO_STATES, OPENING, WHOLE
from model.items import MOST_TIME
from model.tables import MOST_KINDS, MOST_TABLES

KINDS = ["wake", "rest", "trip_end", "trip_start", "battery_low", "a", "_", "0", "z" * 32, "0_9", "wake_", "wak"]
LARGE = [f"k{number:02}" for number in range(MOST_KINDS + 1)]


class TableFiles:
    """Table files, written in many ways."""

    def __init__(self, chance, writer):
        self.chance, self.writer = chance, writer
        self.faults = chance.choice((0, 0, 0, 0, 0, 0, 0.05, 0.3))
        """The share of entries with a fault."""

    def states(self, most=4):
        """The text of some states: of a list, or of a single one."""
        chance, string = self.chance, self.writer.string
        if chance.often(self.faults / 2):
            odd = [string(chance.choice(NO_STATES)), "[]", "[]", "null", '["removed",7]', '[["removed"]]', "{}"]
            return chance.choice((*odd, self.writer.junk(1)))
        names = [chance.choice(STATES) for _ in range(chance.randint(1, most))]
        if len(names) == 1 and chance.often(0.6):
            return string(names[0])
        return self.writer.list(list(map(string, names)))

    def entry(self):
        """The text of an entry."""
        chance = self.chance
        if chance.often(self.faults / 5):
            return self.writer.junk(1)
        kind = chance.choice(NAMES) if chance.often(self.faults / 4) else chance.choice(KINDS)
        members = [("from", self.states()), ("type", self.writer.string(kind)), ("to", self.states())]
        if chance.often(self.faults / 4):
            members.pop(chance.randrange(3))
        if chance.often(0.3):
            chance.shuffle(members)
        if chance.often(0.05):
            members.insert(0, (chance.choice(("from", "type", "to", "more", "rows")), self.writer.junk(1)))
        return self.writer.object(members)

    def of_profile(self):
        """The text of an entry of the profile."""
        kind, before, after = self.chance.choice(PROFILE)
        members = [("from", json.dumps(before.split())), ("type", json.dumps(kind)), ("to", json.dumps(after.split()))]
        return self.writer.object(members)

    def large(self):
        """Texts of entries at the limits of rows and types."""
        chance, states = self.chance, json.dumps(STATES)
        known = LARGE[: MOST_KINDS + chance.choice((-1, 0, 1, 1))]
        whole = [f'{{"from":{states},"type":"{kind}","to":{states}}}' for kind in known]
        some = [f'{{"from":"removed","type":"{kind}","to":{states}}}' for kind in known]
        eight = json.dumps(STATES[:8])
        most = [f'{{"from":{eight},"type":"{kind}","to":{eight}}}' for kind in LARGE[:MOST_KINDS]]
        texts = chance.choice((whole, some, most))
        more = [self.entry(), '{"from":"removed","type":"k00","to":"removed"}', "7"]
        return texts + chance.few(more, 2) if chance.often(0.7) else texts

    def rows(self):
        """The text of a list `rows`."""
        chance = self.chance
        if chance.often(0.03):
            return "[%s]" % ",".join(self.large())
        if chance.often(self.faults / 5 + 0.02):
            return chance.choice(("[]", "[]", "[]", "7", "{}", "null", '"rows"', self.writer.junk(1)))
        entry = self.of_profile if chance.often(0.4) else self.entry
        return self.writer.list([entry() for _ in range(chance.choice((1, 2, 4, 8, 20)))])

    def top(self, pairs):
        """The text of a file with these members, and maybe more."""
        chance = self.chance
        if chance.often(0.15):
            names = ("more", "Rows", "", "from_time", "rows" if chance.often(0.2) else "version")
            pairs.insert(chance.randint(0, len(pairs)), (chance.choice(names), self.writer.junk()))
        return self.writer.object(pairs)

    def starts(self):
        """The starting times of tables, as texts."""
        chance = self.chance
        count = chance.choice((1, 2, 2, 2, 3, 5))
        if chance.often(0.03):
            count = chance.choice((MOST_TABLES, MOST_TABLES + 1))
        edges = [1, 7, 999, 1000, 2000, 4999, OPENING, OPENING + 1, OPENING + 1000, MOST_TIME]
        times = edges if count > len(edges) else chance.sample(edges, count)
        times = [*times, *range(OPENING + 1001, OPENING + 1001 + count - len(times))]
        starts = ["0", *map(str, sorted(times)[1:])]
        if chance.often(self.faults / 2 + 0.06):
            starts[chance.choice((0, 0, len(starts) - 1))] = chance.choice((chance.choice(WHOLE), *starts[-3:], "5"))
        return starts

    def of_times(self):
        """The text of a list `tables`."""
        chance = self.chance
        if chance.often(self.faults / 5 + 0.02):
            return chance.choice(("[]", "[]", "7", "{}", "null"))
        starts, tables = self.starts(), []
        for start in starts:
            rows = self.rows() if len(starts) < 10 else '[{"from":"removed","type":"wake","to":"available"}]'
            members = [("from_time", start), ("rows", rows)]
            if chance.often(self.faults / 8):
                members.pop(chance.randrange(2))
            if chance.often(0.1):
                members.append(("more", self.writer.junk(1)))
            chance.shuffle(members)
            tables.append(self.writer.object(members) if not chance.often(self.faults / 20) else self.writer.junk(1))
        return self.writer.list(tables)

    def file(self):
        """The bytes of a table file."""
        chance = self.chance
        if chance.often(0.02):
            return self.writer.junk().encode()
        pairs = [("rows", self.rows())]
        if chance.often(0.7):
            pairs = [("tables", self.of_times())] + (pairs if chance.often(0.03) else [])
        elif chance.often(0.02):
            pairs = [("rows", self.rows()), *pairs]
        text = self.writer.spaced(self.top(pairs))
        if chance.often(0.015):
            return padded(text, MAX_BYTES + chance.choice((0, 1))).encode()
        return chance.spoilt(text.encode()) if chance.often(0.08) else text.encode()
