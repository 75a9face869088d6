"""The commands `replay`, `debug` and `table`, after docs/formats.md: status and outputs for words, files and input."""

import re
from dataclasses import dataclass, field

from harness.case import NOT_TEXT, SOME, cannot_read, not_a_batch, not_a_table
from model.items import BatchFault, identifier_in, items_of, line_items_of
from model.replays import Replay, debugged
from model.tables import TableFault, Tables, tables_of

MOST_SCRIPT = 1048576
MOST_WORKERS = 64
OPERANDS = {"replay": 1, "debug": 3, "table": 0}
FLAGS = {"replay": ["--any", "--lines"], "debug": [], "table": []}
MISTAKE = (2, b"", SOME)


class Problem(Exception):
    """Why a command can't be carried out: the status, and the text on standard error."""


@dataclass
class Words:
    """The words of a command line, taken apart."""

    command: str
    operands: list = field(default_factory=list)
    flags: list = field(default_factory=list)
    table: str = None
    workers: str = None


def parsed(words):
    """The words, taken apart, or None where they don't parse."""
    if not words or words[0] not in OPERANDS:
        return None
    found, rest = Words(words[0]), iter(words[1:])
    for word in rest:
        if word == "--table" and found.table is None:
            found.table = next(rest, None)
            if found.table is None or is_option(found.table):
                return None
        elif word == "--workers" and found.command == "replay" and found.workers is None:
            found.workers = next(rest, "")
            if not is_count(found.workers):
                return None
        elif word in FLAGS[found.command] and word not in found.flags:
            found.flags.append(word)
        elif is_option(word):
            return None
        else:
            found.operands.append(word)
    return found if len(found.operands) == OPERANDS[found.command] else None


def is_count(text):
    """Whether a replay may have so many workers, which change nothing of it."""
    return re.fullmatch(r"\+?[0-9]+", text) is not None and 1 <= int(text) <= MOST_WORKERS


def is_option(word):
    return word.startswith("-") and word != "-"


class Run:
    """A run of the program over files, which are bytes by their names; what isn't among them can't be read."""

    def __init__(self, files, given):
        self.files, self.given = files, given

    def read(self, path):
        text = self.files.get(path)
        if not isinstance(text, bytes):
            raise Problem(3, cannot_read(path))
        return text

    def tables(self, words):
        if words.table is None:
            return Tables.one()
        try:
            return tables_of(self.read(words.table))
        except TableFault as fault:
            raise Problem(3, not_a_table(fault)) from None

    def items(self, path, lines=False):
        try:
            return (line_items_of if lines else items_of)(self.read(path))
        except BatchFault as fault:
            raise Problem(3, not_a_batch(fault)) from None

    def table(self, words):
        return 0, self.tables(words).printed()

    def replay(self, words):
        tables, [path] = self.tables(words), words.operands
        if path == "-":
            self.files = {**self.files, "-": self.given}
        replay = Replay(tables, self.items(path, "--lines" in words.flags), "--any" in words.flags)
        return int(replay.accepted() < len(replay.verdicts)), replay.printed()

    def debug(self, words):
        path, *texts = words.operands
        key = tuple(map(identifier_in, texts))
        if None in key:
            raise Problem(2, "mds_city: bad identifier\n")
        tables = self.tables(words)
        replay = Replay(tables, self.items(path))
        if key not in replay.vehicles:
            raise Problem(1, "mds_city: vehicle not in file\n")
        accepted, refused = replay.of(key)
        places = debugged(tables, replay.vehicles[key].events, self.given[:MOST_SCRIPT])
        return int(refused > 0), f"events {accepted} refused {refused}\n{places}"


def outcome_of(words, files, given):
    """The status and both outputs. Words are bytes, and so is standard input; files are bytes by their names."""
    try:
        found = parsed([word.decode() for word in words])
    except UnicodeDecodeError:
        return 2, b"", NOT_TEXT.encode()
    if found is None:
        return MISTAKE
    run = Run(files, given)
    try:
        status, out = {"replay": run.replay, "debug": run.debug, "table": run.table}[found.command](found)
    except Problem as problem:
        status, faults = problem.args
        return status, b"", faults.encode()
    return status, out.encode(), b""
