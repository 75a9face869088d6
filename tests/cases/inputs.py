"""Standard input that isn't read, or not to its end."""

import subprocess
import tempfile

from cases.debugging import BAD, EVENTS, NOBODY
from cases.helps import ALL, SERVE
from cases.replays import A, B, P, identifier
from cases.serve import NO_CONNECTION, SERVED
from cases.tables import ONE_ROW, ONE_ROW_PRINTED, PROFILE, table_printed
from cases.vehicles import LONG, journal, listed, not_a_journal, registered
from harness.building import no_random_numbers
from harness.case import NO_STREAMS, OPEN, OUTPUT, RANDOM, SOME, Case, cannot_read, not_a_batch, not_a_table, told
from harness.running import differences, label, outcome, start
from harness.texts import as_bytes

SECONDS = 60
"""How long a run may take that waits for nothing."""
REPLAYED = f"0 ok non_contactable\n1 ok available\nvehicle {P} {A} available 2\naccepted 2 refused 0\n"
BESIDE_TABLES = [
    "table",
    *[f"replay {opening}{options}-" for opening in ("", "--any ") for options in ("", "--lines ", "--workers 4 ")],
    "vehicles -",
    *[f"debug {name} {P} {A}" for name in ("events.json", "-")],
]
"""Words of commands that look at a table file first."""
FILES = {"events.json": EVENTS, "table.json": ONE_ROW, "bad": "7", "journal": journal(registered(A))}


def unread():
    """Commands that name other files, and those that come to an end before standard input would be read."""
    for words in ("--help", "-h", "help"):
        yield Case(words, out=ALL)
    yield Case("serve --help", out=SERVE)
    for words in ("", "tables", "replay", "replay - more", "vehicles --bogus -"):
        yield Case(words, status=2, faults=SOME)
    yield Case("table", out=table_printed(PROFILE))
    yield Case("table --table table.json", out=ONE_ROW_PRINTED, files=FILES)
    for words in ("replay events.json", "replay --workers 4 events.json"):
        yield Case(words, out=REPLAYED, files=FILES)
    yield Case("replay --lines events.json", status=1, out="0 fault not_object\naccepted 0 refused 1\n", files={"events.json": "7"})
    yield listed(journal(registered(A)), [(A, "removed", 0)])
    yield Case(NO_CONNECTION, out=SERVED)
    for words in BESIDE_TABLES:
        yield told(f"{words} --table bad", not_a_table("not_rows"), files=FILES)
        yield told(f"{words} --table missing", cannot_read("missing"), files=FILES)
    yield told("replay bad", not_a_batch("not_list"), files=FILES)
    yield told("vehicles bad", not_a_journal("form"), files=FILES)
    yield told("vehicles -", RANDOM, env=no_random_numbers())
    for words in ("replay missing", "replay --lines missing", "vehicles missing", f"debug missing {P} {A}"):
        yield told(words, cannot_read("missing"))
    for words in (f"debug events.json {P} x", f"debug - {P} x"):
        yield Case(words, status=2, faults=BAD, files=FILES)
    yield Case(f"debug events.json {P} {B}", status=1, faults=NOBODY, files=FILES)
    for stdout in NO_STREAMS:
        yield told(f"debug events.json {P} {A}", OUTPUT, files=FILES, stdout=stdout)


def input_that_stays_open(program):
    """What doesn't read standard input ends, though no byte of that comes, and no end."""
    for case in unread():
        case.stdin = OPEN
        yield from (f"{label(case)}: {it}" for it in differences(case, *outcome(program, case, SECONDS)))


MANY = [registered(identifier(1, number)) for number in range(2000)]
"""More lines than are read at once."""
# Journals that tell enough before their end: by a first line that isn't the form's, by a later fault, by a gate that isn't open.
# A line is too long as soon as it has a byte too many.
ENOUGH = [
    (" {}\n", (3, b"", not_a_journal("form"))),
    (journal("{}", end=""), (3, b"", not_a_journal("bad_line 1"))),
    (journal(registered(A), registered(A), end=""), (3, b"", not_a_journal("refused 2"))),
    (journal(*MANY, MANY[0], end=""), (3, b"", not_a_journal(f"refused {len(MANY) + 1}"))),
    (journal(*MANY, "{}", end=""), (3, b"", not_a_journal(f"bad_line {len(MANY) + 1}"))),
    (journal(*MANY, end=f" {LONG}"), (3, b"", not_a_journal(f"too_long {len(MANY) + 1}"))),
    (f" {LONG}", (3, b"", not_a_journal("too_long 0"))),
    (journal(registered(A), end=f" {LONG}"), (3, b"", not_a_journal("too_long 2"))),
    (journal(), (0, b"registrations 0 events 0\n", "")),
]


def input_that_tells_enough(program):
    """What a journal tells is told once it came, though standard input stays open behind it."""
    for text, (status, out, faults) in ENOUGH:
        found = outcome_behind(program, text)
        if found != (status, out, faults.encode()):
            yield f"vehicles -, behind {text[-20:]!r}: {found}"


def outcome_behind(program, text):
    """The status and both outputs of `vehicles -` once it has this text, and no end of it."""
    with tempfile.TemporaryDirectory() as folder:
        child = start(program, Case("vehicles -"), folder)
        with child.stdin, child.stdout, child.stderr:
            child.stdin.write(as_bytes(text))
            child.stdin.flush()
            try:
                status = child.wait(SECONDS)
            except subprocess.TimeoutExpired:
                child.kill()
                child.wait()
                status = f"none after {SECONDS} seconds"
            return status, child.stdout.read(), child.stderr.read()
