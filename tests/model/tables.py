"""Tables of transitions and the files that hold them, after docs/formats.md."""

from cases.tables import PROFILE, STATES
from harness.case import MAX_BYTES
from model.items import TYPE_NAME, is_whole, MOST_TIME
from model.json_text import NotJson, value_of

MOST_ROWS, MOST_KINDS, MOST_TABLES = 4096, 64, 64


class TableFault(Exception):
    """What is wrong with a table file, in the words that the program has for it."""


class Table:
    """The rows of entries, each a type and the states before and after: of each type the pairs of states."""

    def __init__(self, entries=tuple(PROFILE)):
        self.rows = {}
        for kind, before, after in entries:
            self.add(kind, before.split(), after.split())

    def add(self, kind, before, after):
        """Adds all pairs of a state before and a state after."""
        self.rows.setdefault(kind, set()).update((start, end) for start in before for end in after)

    def in_order(self):
        """The rows by the bytes of the type, then by the codes of the states."""
        rows = [(kind, *pair) for kind, pairs in self.rows.items() for pair in pairs]
        return sorted(rows, key=lambda row: (row[0], STATES.index(row[1]), STATES.index(row[2])))

    def listed(self):
        """The rows as the server lists them."""
        return [{"type": kind, "from": start, "to": end} for kind, start, end in self.in_order()]

    def printed(self):
        """The rows as `table` prints them."""
        rows = self.in_order()
        return "".join(f"{' '.join(row)}\n" for row in rows) + f"rows {len(rows)}\n"


class Tables:
    """Tables with the times from which each is in force, the first from 0. Most often there is one."""

    def __init__(self, entries):
        self.entries = entries

    @classmethod
    def one(cls, table=None):
        return cls([(0, table or Table())])

    def at(self, time):
        """The table in force at this time: the last one that starts no later."""
        return [table for start, table in self.entries if start <= time][-1]

    def listed(self):
        """What the server answers of them, as a value of JSON."""
        if len(self.entries) == 1:
            return {"rows": self.entries[0][1].listed()}
        return {"tables": [{"from_time": start, "rows": table.listed()} for start, table in self.entries]}

    def printed(self):
        """What `table` prints."""
        if len(self.entries) == 1:
            return self.entries[0][1].printed()
        return "".join(f"from {start}\n{table.printed()}" for start, table in self.entries)


def states_in(value):
    """The states that a value of an entry's `from` or `to` names, or None. There has to be one at least."""
    names = value if isinstance(value, list) else [value]
    return names if all(isinstance(name, str) and name in STATES for name in names) else None


def table_of(rows):
    """The table of a list `rows`, or its fault."""
    if not rows:
        raise TableFault("empty")
    table = Table(())
    for at, entry in enumerate(rows):
        members = entry if isinstance(entry, dict) else {}
        before, kind, after = states_in(members.get("from")), members.get("type"), states_in(members.get("to"))
        if not before or not after or not isinstance(kind, str) or not TYPE_NAME.fullmatch(kind):
            raise TableFault(f"bad_row {at}")
        table.add(kind, before, after)
        if sum(map(len, table.rows.values())) > MOST_ROWS:
            raise TableFault("too_many_rows")
        if len(table.rows) > MOST_KINDS:
            raise TableFault("too_many_types")
    return table


def timed_tables_of(values):
    """The tables of a list `tables`, or the fault of the file."""
    if not values:
        raise TableFault("no_tables")
    if len(values) > MOST_TABLES:
        raise TableFault("too_many_tables")
    entries = []
    for place, value in enumerate(values):
        members = value if isinstance(value, dict) else {}
        start, rows = members.get("from_time"), members.get("rows")
        if not is_whole(start, 0, MOST_TIME) or not isinstance(rows, list):
            raise TableFault(f"bad_entry {place}")
        if not entries and start:
            raise TableFault("first_not_zero")
        if entries and start <= entries[-1][0]:
            raise TableFault(f"not_rising {place}")
        try:
            entries.append((start, table_of(rows)))
        except TableFault as fault:
            raise TableFault(f"table {place} {fault}") from None
    return Tables(entries)


def tables_of(text):
    """The tables of a file's bytes, or its fault."""
    if len(text) > MAX_BYTES:
        raise TableFault("too_long")
    try:
        value = value_of(text)
    except NotJson:
        raise TableFault("not_json") from None
    members = value if isinstance(value, dict) else {}
    if "rows" not in members and isinstance(members.get("tables"), list):
        return timed_tables_of(members["tables"])
    if not isinstance(members.get("rows"), list):
        raise TableFault("not_rows")
    return Tables.one(table_of(members["rows"]))
