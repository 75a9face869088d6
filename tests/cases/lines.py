"""Files with an item on each line, and what `replay --lines` prints of them."""

from cases.replays import ANY_RUNS, RUNS, A, B, batch, event, item, replayed
from cases.tables import ONE_ROW
from harness.case import CLOSED, MAX_BYTES, MAX_ITEMS, Case, cannot_read, lists, not_a_batch, not_a_table, padded, started, told

WORDS = ("replay --lines lines", "replay - --lines")
PIECE = 16384
"""How many bytes of a file the program asks for at a time."""
# What isn't JSON on the line of this number, or is too much.
FAULTS = [
    ("{", "not_json 0"),
    ("7\n{", "not_json 1"),
    ("7\n{\n7\n", "not_json 1"),
    ("\n\r\n{}\n \t\n[1,\n", "not_json 4"),
    ("7\n\n7 7", "not_json 2"),
    ("{}\n{}{}\n{", "not_json 1"),
    ("[\n7\n]\n", "not_json 0"),
    ('"a\nb"', "not_json 0"),
    ("7\r8", "not_json 0"),
    ("7\n\x0b\n", "not_json 1"),
    ("7\n\u00a0\n", "not_json 1"),
    ("\ufeff7\n", "not_json 0"),
    (b'7\n"\xff"\n7', "not_json 1"),
    (b'"\xe2\x82\n\xac"', "not_json 0"),
    (b"7\n\0", "not_json 1"),
    ("7\n1e309\n", "not_json 1"),
    (lists(128), "not_json 0"),
    (f"7\n{item(more=lists(127))}", "not_json 1"),
    ("7\n" * (MAX_ITEMS + 1), "too_many"),
    ("7\n" * MAX_ITEMS + "\n \n7", "too_many"),
    ("7\n" * MAX_ITEMS + "7", "too_many"),
    ("7\n" * MAX_ITEMS + "7\n{\n", "too_many"),
    ("7\n" * MAX_ITEMS + "{", f"not_json {MAX_ITEMS}"),
    ("7\n" * MAX_ITEMS + "{\n7\n", f"not_json {MAX_ITEMS}"),
    ("7\n" * MAX_ITEMS + "\n{", f"not_json {MAX_ITEMS + 1}"),
    (" " * (MAX_BYTES + 1), "too_long"),
    ("\n" * (MAX_BYTES + 1), "too_long"),
    (padded("{", MAX_BYTES) + "\n", "too_long"),
    ("\n" * (MAX_BYTES - 1) + "{", f"not_json {MAX_BYTES - 1}"),
    (padded("7", MAX_BYTES - 1) + "{", "not_json 0"),
    (padded("7", MAX_BYTES + 1), "too_long"),
    (padded("7", MAX_BYTES) + "\n", "too_long"),
    (padded("7", MAX_BYTES) + "{", "too_long"),
    (padded("7\n{", MAX_BYTES + 1), "too_long"),
    ("0" * (3 * MAX_BYTES), "too_long"),
    # a line that ends within the limit comes first
    (padded("{", MAX_BYTES - 1) + "\n7", "not_json 0"),
    ("7\n" * (MAX_BYTES // 2) + "7", "too_many"),
    (padded("7\n{", MAX_BYTES), "not_json 1"),
]
# Lines that are no items, or whose items are faulty.
NO_OBJECTS = [
    ("7", 1),
    ("7\n", 1),
    ("7\r\n[]\r\n", 2),
    ("\n \n7\n\t\r\n\n[{}]", 2),
    (" null \n\r\n\ttrue\r", 2),
    ("7\n" * MAX_ITEMS, MAX_ITEMS),
    ("7\n" * MAX_ITEMS + "\r\n\n ", MAX_ITEMS),
    (lists(127), 1),
    (padded("7", MAX_BYTES), 1),
    (padded("7", MAX_BYTES - 1) + "\n", 1),
]
BLANK = ["", "\n", "\r\n", " ", "\n\n\n", "\t \r\n \n\r", " " * MAX_BYTES, "\n" * MAX_BYTES]


def with_lines(text, verdicts, vehicles, name, options="", **files):
    """The replay of these lines, from a file and as standard input, with these options and files more."""
    for words in WORDS:
        more = {"words": f"{words}{options}", "files": {"lines": text, **files}}
        yield replayed(text, verdicts, vehicles, name=name, **more)


def across_pieces():
    """An item with a character of three bytes on each side of the end of a piece, and at it."""
    front = len(item(more='""')) - 2
    for short in range(5):
        filler = "x" * (PIECE - front - short)
        yield item(more=f'"{filler}\u20ac"')


def runs():
    """Runs of events, a line each; with blank lines, and with other ends of lines."""
    for name, events, vehicles in RUNS:
        lines = [event(*of_event) for of_event, _ in events]
        verdicts = [verdict for _, verdict in events]
        for text in ("\n".join(lines), "".join(f"{line}\r\n" for line in lines), "\n\n".join(["", *lines, " "])):
            yield from with_lines(text, verdicts, vehicles, name=name)
    for name, events, vehicles in ANY_RUNS:
        lines = [event(*of_event) for of_event, _ in events]
        text = "\n".join([*lines[:2], "", *lines[2:]])
        verdicts = [verdict for _, verdict in events]
        yield from with_lines(text, verdicts, vehicles, name=f"{name}, any", options=" --any")


def line_files():
    """Whole files of lines, from a file and as standard input."""
    yield from runs()
    for text, fault in FAULTS:
        for words in WORDS:
            yield told(words, not_a_batch(fault), given=text, files={"lines": text}, name=started(text))
    for text, count in NO_OBJECTS:
        yield from with_lines(text, ["fault not_object"] * count, [], name=started(text))
    for text in BLANK:
        yield from with_lines(text, [], [], name=started(text))
    for text in across_pieces():
        yield from with_lines(f"{text}\n7", ["ok available", "fault not_object"], [(A, "available", 1)], name=started(text))
    faulty = "\n".join([item(), item(device_id=None), "{}", item(device_id=f'"{B}"'), item(timestamp="1000.0")])
    verdicts = ["ok available", "fault missing_param device_id", "fault missing_param provider_id", "ok available"]
    vehicles = [(A, "available", 1), (B, "available", 1)]
    yield from with_lines(faulty, [*verdicts, "fault bad_param timestamp"], vehicles, name="faulty items between others")
    wakes = "\n".join(event(A, number, "wake", "available", 1000) for number in ("e1", "e2"))
    verdicts = ["ok available", "refused no_chain available 0"]
    yield from with_lines(wakes, verdicts, [(A, "available", 1)], name="one row", options=" --table rows", rows=ONE_ROW)
    yield from orders_of_lines()


def orders_of_lines():
    """The table file is looked at first, and a file that can't be read before its lines' faults; a batch is no file of
    lines, and a file of lines no batch."""
    files = {"lines": "{", "bad-table.json": "{", "batch": batch([item(), "7"]), "two": f"{item()}\n7"}
    yield told("replay --lines lines --table bad-table.json", not_a_table("not_json"), files=files)
    yield told("replay --lines lines --table nothing.json", cannot_read("nothing.json"), files=files)
    yield told("replay --lines nothing", cannot_read("nothing"), files=files)
    for stdin in ("/", CLOSED):
        yield told("replay --lines -", cannot_read("-"), stdin=stdin)
    yield replayed("", ["fault not_object"], [], words="replay --lines batch", files=files)
    yield told("replay two", not_a_batch("not_json"), files=files)
    yield Case("replay --lines -- -", out="accepted 0 refused 0\n", given="\n")
    yield replayed(item(), ["ok available"], [(A, "available", 1)], words="replay --lines -", name="one event")
    yield replayed(item(), ["ok available"], [(A, "available", 1)], words="replay -", name="one event")
