"""The largest files, events, tables, sessions and scripts that the formats allow. Memory is there for each of them, so none is
told to want it."""

from cases.debugging import MAX_SCRIPT, STEPPED, WORDS, debugged, place
from cases.replays import A, batch, event, history, identifier, replayed, turn
from cases.tables import EIGHT, MOST_ROWS, STATES, TYPES, table_file, table_printed
from cases.timed import MOST_TABLES, tables_file, tables_printed
from harness.case import MAX_BYTES, MAX_ITEMS, Case, not_a_batch, told

LONG_TYPES = [f"{kind:_<32}" for kind in TYPES[:64]]
"""As many types as a table and an event may have, each as long as one may be."""
LONG_TYPED = table_file([(kind, "removed available", "available") for kind in LONG_TYPES])


def long_events():
    """As many events of a vehicle with all these types as a batch has room for, as JSON. That table accepts each of them."""
    types = " ".join(LONG_TYPES)
    count = MAX_BYTES // (len(event(A, "0", types, "available", 1000)) + 2)
    return [event(A, f"{number:x}", types, "available", 1000) for number in range(count)]


def with_most_items():
    """Files of as many items as there may be."""
    events, verdicts = list(history(A, 0, MAX_ITEMS)), [f"ok {turn(number)[0]}" for number in range(MAX_ITEMS)]
    ends = [(A, turn(MAX_ITEMS - 1)[0], MAX_ITEMS)]
    yield replayed(batch(events), verdicts, ends, name="most events of a vehicle")
    lines = "replay --lines -"
    yield replayed("\n".join(events), verdicts, ends, words=lines, name="most lines of a vehicle")
    broken = "\n".join([*events[:-1], "{"])
    yield told(lines, not_a_batch(f"not_json {MAX_ITEMS - 1}"), given=broken, name="a fault in the last of most lines")
    devices = [identifier(1, number) for number in range(MAX_ITEMS)]
    text = "\n".join(event(device, "e1", "provider_drop_off", "available", 1000) for device in devices)
    ends = [(device, "available", 1) for device in devices]
    yield replayed(text, ["ok available"] * MAX_ITEMS, ends, words=lines, name="as many vehicles as lines can be")


def with_long_events():
    """Files of the longest events, as many as there is room for."""
    events = long_events()
    listed, lines = batch(events), "\n".join(events)
    verdicts, ends = ["ok available"] * len(events), [(A, "available", len(events))]
    for words, text in (("replay -", listed), ("replay --lines -", lines), ("replay --workers 64 -", listed)):
        more = {"words": f"{words} --table table.json", "files": {"table.json": LONG_TYPED}}
        yield replayed(text, verdicts, ends, name="the longest events", **more)


def with_most_tables():
    """Files of as many tables, of as many rows each, as there may be; and a table of as many rows, with an entry for each."""
    tables = [(1000 * number, MOST_ROWS) for number in range(MOST_TABLES)]
    files = {"table.json": tables_file(tables)}
    yield Case("table --table table.json", out=tables_printed(tables), files=files, name="most rows of most tables")
    events = batch(event(A, f"{number:x}", TYPES[number], STATES[number % 8], 1000 * number) for number in range(MOST_TABLES))
    verdicts = [f"ok {STATES[number % 8]}" for number in range(MOST_TABLES)]
    ends = [(A, STATES[(MOST_TABLES - 1) % 8], MOST_TABLES)]
    more = {"words": "replay - --table table.json", "files": files, "name": "an event by each of most tables"}
    yield replayed(events, verdicts, ends, **more)
    rows = [(kind, before, after) for kind, _, _ in MOST_ROWS for before in EIGHT.split() for after in EIGHT.split()]
    files = {"table.json": table_file(rows[::-1])}
    yield Case("table --table table.json", out=table_printed(MOST_ROWS), files=files, name="an entry for each of most rows")


def with_long_sessions():
    """Sessions of as many events as there may be, and scripts of as many commands."""
    events = batch(history(A, 0, MAX_ITEMS))
    forth = "".join(place(number) for number in range(1, MAX_ITEMS + 1))
    script = "next\n" * (MAX_ITEMS + 1) + "back\nchain\n"
    last, before = turn(MAX_ITEMS - 1)[0], turn(MAX_ITEMS - 2)[0]
    lines = f"{forth}at end\n{place(MAX_ITEMS - 1, 1)}{before} {last}\n"
    yield debugged(script, lines, events, (MAX_ITEMS, 0), name="a session of most events")
    commands = MAX_SCRIPT // len("chain\n")
    chains = "removed non_contactable\n" * (commands - 1)
    yield debugged("step\n" + "chain\n" * (commands - 1), STEPPED + chains, words=WORDS, name="most commands")


def largest():
    """Each of these."""
    yield from with_most_items()
    yield from with_long_events()
    yield from with_most_tables()
    yield from with_long_sessions()
