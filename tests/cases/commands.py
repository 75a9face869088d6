"""The words of the command line, and the files that they name."""

import re

from cases.replays import A, B, P, batch, event, replayed
from cases.tables import ONE_ROW, ONE_ROW_PRINTED
from harness.case import CLOSED, FOLDER, FULL, NO_STREAMS, NOT_TEXT, SOME, Case
from harness.case import cannot_read, not_a_batch, not_a_table, told
from harness.counting import ROOT

EXAMPLES = ROOT / "examples"
EVENTS = batch([event(A, "e1", "wake", "available", 1000)])
"""What the table of one row accepts, and the profile's doesn't."""
NOTHING = "accepted 0 refused 0\n"
MISTAKE = re.compile(r"error: .*\n", re.S)
"""How a mistake in the words is told."""


OPTIONS = {
    "begins-midway": ["--any"],
    "into-a-depot": ["--table", str(EXAMPLES / "depot-table.json")],
    "rules-change": ["--table", str(EXAMPLES / "changing-table.json")],
}
"""What examples are replayed with."""


def examples():
    """The files of examples/ that have beside them what is printed of them, but for those with a debugger's script; those of
    events as standard input, too."""
    for printed in sorted(EXAMPLES.glob("*.out")):
        path, out = printed.with_suffix(".json"), printed.read_text()
        if printed.with_suffix(".script").exists():
            continue
        if path.stem.endswith("-table"):
            yield Case(["table", "--table", str(path)], out=out)
            continue
        status, options = 0 if out.endswith(" refused 0\n") else 1, OPTIONS.get(path.stem, [])
        yield Case(["replay", *options, str(path)], status=status, out=out)
        yield Case(["replay", *options, "-"], status=status, out=out, given=path.read_bytes(), name=path.name)


def commands():
    """Each command with each option, in the ways to write them."""
    files = {"events.json": EVENTS, "table.json": ONE_ROW, "-x": ONE_ROW}
    for words in ("table --table table.json", "table --table=table.json", "table --table=-x"):
        yield Case(words, out=ONE_ROW_PRINTED, files=files)
    for words in ("replay events.json", "replay -- events.json", "replay -", "replay -- -"):
        yield replayed(EVENTS, ["refused no_chain removed 0"], [(A, "removed", 0)], words=words, files=files)
    for words in (
        "replay events.json --table table.json",
        "replay --table table.json events.json",
        "replay --table=table.json -- events.json",
        "replay - --table table.json",
        "replay --table table.json -",
    ):
        yield replayed(EVENTS, ["ok available"], [(A, "available", 1)], words=words, files=files)
    for words in (
        "replay --any events.json --table table.json",
        "replay --any --table table.json -",
        "replay - --table=table.json --any",
    ):
        yield replayed(EVENTS, ["ok available"], [(A, "available", 1, "removed")], words=words, files=files)
    five = (EXAMPLES / "five-events.json").read_text()
    verdicts = ["refused no_chain removed 0"] * 5
    yield replayed(five, verdicts, [(A, "removed", 0), (B, "removed", 0)], words="replay - --table table.json", files=files)


NO_COUNTS = ["0", "65", "-1", "x", "", "1.0", "99999999999999999999"]
"""What is no number of workers."""
WRONG = [
    [],
    [""],
    ["bogus"],
    ["Table"],
    ["tabl"],
    ["-"],
    ["table.json"],
    ["--bogus"],
    ["--bogus", "table"],
    ["--table", "table.json"],
    ["--table", "table.json", "table"],
    ["help", "bogus"],
    ["table", "table.json"],
    ["table", "replay"],
    ["table", "--bogus"],
    ["table", "--tab", "table.json"],
    ["table", "--table", "-x"],
    ["table", "-t", "table.json"],
    ["table", "--table"],
    ["table", "--table", "table.json", "more"],
    ["table", "--table", "table.json", "--table", "table.json"],
    ["vehicles"],
    ["vehicles", "--"],
    ["vehicles", "--check"],
    ["vehicles", "journal", "more"],
    ["vehicles", "journal", "--any"],
    ["vehicles", "journal", "--table"],
    ["vehicles", "--table", "table.json"],
    ["replay"],
    ["replay", "--"],
    ["replay", "events.json", "more"],
    ["replay", "events.json", "--bogus"],
    ["replay", "events.json", "--table"],
    ["replay", "--table", "table.json"],
    ["replay", "-x"],
    # commands and options that aren't there yet
    ["replay", "events.json", "--all"],
    ["replay", "events.json", "--any", "--any"],
    ["replay", "events.json", "--any=yes"],
    ["replay", "events.json", "--lines", "--lines"],
    ["replay", "events.json", "--lines=yes"],
    ["replay", "events.json", "--lines", "1"],
    ["replay", "events.json", "--unlimited"],
    ["replay", "events.json", "--lines", "--unlimited", "--unlimited"],
    ["table", "--unlimited"],
    ["table", "--any"],
    ["table", "--lines"],
    *[["replay", "events.json", "--workers", count] for count in NO_COUNTS],
    ["replay", "events.json", "--workers"],
    ["replay", "--workers", "events.json"],
    ["replay", "--workers=2", "events.json", "--workers", "2"],
    ["replay", "--lines", "events.json", "--workers", "65"],
    ["table", "--workers", "1"],
    ["debug", "--workers", "1", "events.json", P, A],
    ["debug"],
    ["debug", "events.json"],
    ["debug", "events.json", P],
    ["debug", "events.json", P, A, "more"],
    ["debug", "events.json", P, A, "--any"],
    ["debug", "events.json", P, A, "--lines"],
    ["debug", "events.json", P, A, "--table"],
    ["serve", "--port", "0", "--each", "1", "--journal"],
    ["serve", "--port", "0", "--each", "1", "--journal", "a", "--journal", "b"],
    ["vehicles", "a.journal", "--journal", "b"],
]
# Words, and what `clap` says of the mistake in them.
MISTAKES = [
    ("bogus", "unrecognized subcommand 'bogus'"),
    ("--bogus", "unexpected argument '--bogus' found"),
    ("table table.json", "unexpected argument 'table.json' found"),
    ("table --bogus", "unexpected argument '--bogus' found"),
    ("replay", "the following required arguments were not provided:\n  <FILE>"),
    ("serve --each 0", "the following required arguments were not provided:\n  --port <N>"),
    ("serve --port 0", "one of --each <N> and --until-stopped is needed, and not both"),
    ("serve --port 0 --each 1 --until-stopped", "one of --each <N> and --until-stopped is needed, and not both"),
    ("replay events.json --any --any", "the argument '--any' cannot be used multiple times"),
    ("replay events.json --workers", "a value is required for '--workers <N>' but none was supplied"),
    ("replay events.json --workers 65", "invalid value '65' for '--workers <N>'"),
    ("serve --port 65536 --each 1", "invalid value '65536' for '--port <N>'"),
    ("serve --port 0 --each 1000001", "invalid value '1000001' for '--each <N>'"),
    ("serve --port 0 --each 1 --metrics 0", "invalid value '0' for '--metrics <N>'"),
    ("", "'mds_city' requires a subcommand but one was not provided"),
    ("replay events.json --any=yes", "unexpected value 'yes' for '--any' found"),
]
NO_TEXTS = [
    [b"\xff"],
    [b"tabl\xc3"],
    ["table", b"\xff"],
    ["table", "--table", b"table\xff.json"],
    ["table", b"--table=\xc0\x80"],
    ["replay", b"\xed\xa0\x80"],
    ["replay", "events.json", "--table", b"\xf5"],
    ["bogus", b"\xff"],
    ["--help", b"\xff"],
]


def wrong_words():
    """Words that don't parse: nothing is printed, though the files are there."""
    files = {"events.json": "[]", "table.json": ONE_ROW, b"table\xff.json": ONE_ROW}
    for words in WRONG:
        yield Case(words, status=2, faults=SOME, files=files)
    for words in ("replay", "table table.json", "replay events.json --workers 65"):
        yield Case(words, status=2, faults=MISTAKE, files=files)
    for words, text in MISTAKES:
        told_by = rf"error: {re.escape(text)}.*\n\nFor more information, try '--help'\.\n"
        yield Case(words, status=2, faults=re.compile(told_by, re.S), files=files)
    for words in NO_TEXTS:
        yield Case(words, status=2, faults=NOT_TEXT, files=files)
    for stderr in NO_STREAMS:
        for stdout in (None, FULL):
            yield Case("bogus", status=2, stdout=stdout, stderr=stderr)
            yield Case([b"\xff"], status=2, stdout=stdout, stderr=stderr)


UNREADABLE = [
    "missing.json",
    "folder",
    "folder/missing.json",
    "events.json/more",
    "",
    "straße 7\n.json",
    "x" * 5000,
    "x" * 100000,
    "/".join(["y" * 9] * 300),
]


def paths():
    """Files that can't be read, whose paths are told whole, and files named -."""
    here = {"folder": FOLDER, "events.json": "[]", "-": ONE_ROW}
    for path in UNREADABLE:
        for words in (
            ["replay", path],
            ["replay", "--lines", path],
            ["vehicles", path],
            ["debug", path, P, A],
            ["table", "--table", path],
            ["replay", "events.json", "--table", path],
            ["vehicles", "events.json", "--table", path],
            ["debug", "events.json", P, A, "--table", path],
            ["serve", "--port", "0", "--each", "0", "--table", path],
        ):
            yield told(words, cannot_read(path), files=here)
    for stdin in ("/", CLOSED):
        yield told("replay -", cannot_read("-"), stdin=stdin)
        yield told("replay - --table ./-", cannot_read("-"), files=here, stdin=stdin)
    for words in ("table --table -", "table --table=-", "table --table folder/../-"):
        yield Case(words, out=ONE_ROW_PRINTED, files=here, given="{}")
    for words in ("table --table -", "replay - --table -"):
        yield told(words, cannot_read("-"), given=ONE_ROW)
    yield Case("replay -", out=NOTHING, files=here, given="[]")
    yield Case("replay ./-", out=NOTHING, files={"-": "[]"}, given="{")
    yield replayed(EVENTS, ["ok available"], [(A, "available", 1)], words="replay - --table -", files=here)


SPACED = [" {}", "{} ", " {} ", "\t{}", "{}\n", "\u00a0{}"]
"""Ways to put spaces round a name."""


def spaced_paths():
    """Files whose names begin or end with spaces are read as they are named. A file of the trimmed name, with other content,
    isn't."""
    accepted = [["ok available"], [(A, "available", 1)]]
    for form in SPACED:
        events, table, dash = form.format("events.json"), form.format("table.json"), form.format("-")
        files = {events: EVENTS, "events.json": "7", table: ONE_ROW, "table.json": "{", dash: EVENTS, "-": "7"}
        for words in (["table", "--table", table], ["table", f"--table={table}"]):
            yield Case(words, out=ONE_ROW_PRINTED, files=files)
        yield replayed("7", *accepted, words=["replay", events, "--table", table], files=files)
        yield replayed("7", *accepted, words=["replay", "--table", table, "--", dash], files=files)
        debugged = "events 1 refused 0\n0 0 removed possible removed\n"
        yield Case(["debug", events, P, A, "--table", table], out=debugged, files=files)
        trimmed = {"events.json": EVENTS, "table.json": ONE_ROW}
        yield told(["replay", events, "--table", "table.json"], cannot_read(events), files=trimmed)
        yield told(["replay", "events.json", "--table", table], cannot_read(table), files=trimmed)
        yield told(["serve", "--port", "0", "--each", "0", "--table", table], cannot_read(table), files=trimmed)


def orders():
    """The words are looked at first, then the table file, then the file."""
    files = {"table.json": ONE_ROW, "bad-table.json": "{", "bad-events.json": "7", "events.json": "[]"}
    for file in ("missing.json", "bad-events.json", "-"):
        yield Case(f"replay {file} --table nothing.json --bogus", status=2, faults=SOME, files=files)
        yield told(f"replay {file} --table nothing.json", cannot_read("nothing.json"), files=files)
        yield told(f"replay {file} --table bad-table.json", not_a_table("not_json"), files=files)
    yield told("replay missing.json --table table.json", cannot_read("missing.json"), files=files)
    yield told("replay bad-events.json --table table.json", not_a_batch("not_list"), files=files)
