"""Files of lines without the limits of a batch, and what `replay --lines --unlimited` prints of them."""

import re

from cases.lines import line_files
from cases.replays import A, event, identifier, item, replayed, turn
from harness.case import CLOSED, MAX_BYTES, MAX_ITEMS, SLOW, Case, cannot_read, not_a_batch, not_a_table, padded, told

WORDS = ("replay --lines --unlimited lines", "replay - --unlimited --lines")
# What comes before the line of this number that is no JSON or too long, and what is printed of that.
FAULTS = [
    ("{", [], "not_json 0"),
    ("7\n{\n7\n", ["fault not_object"], "not_json 1"),
    ("\n\r\n{}\n \t\n[1,\n", ["fault missing_param provider_id"], "not_json 4"),
    (f"{item()}\n7\n{item()}{item()}", ["ok available", "fault not_object"], "not_json 2"),
    ("7\n" * (MAX_ITEMS + 1) + "{", ["fault not_object"] * (MAX_ITEMS + 1), f"not_json {MAX_ITEMS + 1}"),
    ("\n" * (MAX_BYTES + 1) + "{", [], f"not_json {MAX_BYTES + 1}"),
    (f"7\n{padded('7', MAX_BYTES + 1)}", ["fault not_object"], "too_long"),
    (f"7\n{padded('7', MAX_BYTES + 1)}\n7\n", ["fault not_object"], "too_long"),
    (f"7\n{'x' * (3 * MAX_BYTES)}\n", ["fault not_object"], "too_long"),
    # also of spaces alone
    (" " * (MAX_BYTES + 1), [], "too_long"),
    (f"7\n{' ' * (3 * MAX_BYTES)}\n7\n", ["fault not_object"], "too_long"),
]


def within_limits():
    """Files within the limits of a batch: the same is printed as without the flag, but that the lines of the items before a
    fault of a line go out, too."""
    for case in line_files():
        words = case.words if isinstance(case.words, str) else " ".join(case.words)
        if "--lines" not in words.split() or "not a batch" in str(case.faults):
            continue
        yield Case(**{**vars(case), "words": words.replace("--lines", "--lines --unlimited")})


def lines_beyond_limits():
    """More items than a batch has, and more bytes; a line of the most bytes; faults behind items."""
    many = MAX_ITEMS + 3
    runs = [
        ("7\n" * many, ["fault not_object"] * many, []),
        ("\n" * (MAX_BYTES + 3) + item(), ["ok available"], [(A, "available", 1)]),
        (f"{padded(item(), MAX_BYTES)}\n" * 2, ["ok available", "refused repeated"], [(A, "available", 1)]),
        (padded(item(), MAX_BYTES), ["ok available"], [(A, "available", 1)]),
    ]
    for text, verdicts, vehicles in runs:
        for words in WORDS:
            yield replayed(text, verdicts, vehicles, words=words, files={"lines": text}, name="beyond the limits")
    for text, verdicts, fault in FAULTS:
        out = "".join(f"{number} {verdict}\n" for number, verdict in enumerate(verdicts))
        for words in WORDS:
            yield told(words, not_a_batch(fault), out=out, given=text, files={"lines": text}, name=f"behind {len(verdicts)}")


def unlimited_lines():
    """The same verdicts as within the limits; lines beyond them; files that can't be read; a flag alone."""
    yield from within_limits()
    yield from lines_beyond_limits()
    yield from long_file()
    yield from line_without_end()
    files = {"lines": "{", "bad-table.json": "{"}
    yield told(f"{WORDS[0]} --table bad-table.json", not_a_table("not_json"), files=files)
    yield told("replay --lines --unlimited nothing", cannot_read("nothing"), files=files)
    yield told(f"{WORDS[0]} --table nothing.json", cannot_read("nothing.json"), files=files)
    for stdin in ("/", CLOSED):
        yield told("replay --lines --unlimited -", cannot_read("-"), stdin=stdin)
    for words in ("replay --unlimited lines", "replay lines --unlimited --any --workers 2"):
        yield Case(words, status=2, faults=re.compile("error: --unlimited is for --lines alone\n.*", re.S), files=files)


MANY, VEHICLES = 300_000, 1_000
"""Lines of a long file, and of how many vehicles they are."""
MOST_HELD = 60_000_000
"""How many bytes of addresses the program may have over them: less than their text, of some 70 MB."""


def line_without_end():
    """A stream without a line feed, and without an end, is told to be too long, in as little memory."""
    for words in ("replay --lines --unlimited /dev/zero", "replay --lines --unlimited -"):
        yield told(words, not_a_batch("too_long"), stdin="/dev/zero", memory=MOST_HELD)


def long_file():
    """The replay of a long file, in less memory than its text takes: the lines are of one vehicle after the other."""
    turns = [turn(number // VEHICLES) for number in range(MANY)]
    lines = [
        event(identifier(2, number % VEHICLES), f"{number:x}", kind, state, 1000 + number)
        for number, (state, kind) in enumerate(turns)
    ]
    verdicts = [f"ok {state}" for state, _ in turns]
    last, each = turns[-1][0], MANY // VEHICLES
    vehicles = [(identifier(2, number), last, each) for number in range(VEHICLES)]
    text = "\n".join(lines)
    case = replayed("", verdicts, vehicles, words=WORDS[0], files={"lines": text}, memory=MOST_HELD, name="a long file")
    case.faults = SLOW
    yield case
