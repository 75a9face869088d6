"""Runs of the commands `replay`, `debug` and `table`: words, files and standard input."""

from cases.replays import identifier
from cases.tables import STATES
from fuzzing.cases import CommandCase
from fuzzing.events import Events, Guide
from fuzzing.tables import TableFiles
from fuzzing.writing import Writer
from harness.case import FOLDER
from model.commands import MOST_SCRIPT
from model.tables import TableFault, Tables, tables_of

PATHS = [b"events.json", b"events.json", b"events.json", "\u00e9v\u00e9nements".encode(), b"two words", b"-", b"{}", b"a\nb"]
MOVES = [b"step", b"step", b"step", b"back", b"next", b"chain"]
UNKNOWN = [
    b"", b" ", b"step ", b" step", b"STEP", b"steps", b"ste", b"step\r", b"quit ", b"run", b"run ",
    b"run  available", b"\xff",
    b"run flying", b"run Available", b"run available ", b"run\tavailable", b"next\x00", b"st\xc3\xa9p",
    b"chain chain", b"help",
]  # fmt: skip
MISTAKES = [b"--lots", b"-x", b"--any", b"--lines", b"--table", b"extra", b"--port", b"7"]
COUNTS = [b"1", b"2", b"2", b"3", b"4", b"7", b"64", b"+5", b"008", b"0", b"65", b"-1", b"x", b"", b"99999999999999999999"]
"""How many workers share a replay, and what is no such number."""
NO_TEXTS = [b"\xff", b"ev\xe9nements", b"\xed\xa0\x80"]


class Commands:
    """A run of a command by chance."""

    def __init__(self, chance):
        self.chance = chance
        self.writer = Writer(chance, chance.choice((0, 0, 0.02, 0.3)))
        self.files, self.words, self.given = {}, [], b""

    def table_file(self):
        """Maybe a table file, with the words that name it; answers the tables that are then in force."""
        if self.chance.often(0.45):
            return Tables.one()
        text = TableFiles(self.chance, self.writer).file()
        path = self.chance.choice((b"table.json", b"table.json", b"rows", "t\u00e4ble".encode(), b"-"))
        self.files[path] = text
        self.words += [b"--table", path if not self.chance.often(0.02) else b"absent.json"]
        try:
            return tables_of(text)
        except TableFault:
            return Tables.one()

    def batch_file(self, tables, anywhere=False, may_be_input=False, lines=False):
        """A batch, or lines, in a file or, where it may be, as standard input; answers its path and the vehicles in it."""
        events = Events(self.chance, self.writer, Guide(tables), begins_anywhere=anywhere)
        text, path = events.lines() if lines else events.batch(), self.chance.choice(PATHS)
        if may_be_input and (path == b"-" or self.chance.often(0.3)):
            path, self.given = b"-", text
        elif self.chance.often(0.98):
            self.files[path] = text
        elif self.chance.often(0.5):
            self.files[path] = FOLDER
        return path, events

    def table(self):
        self.table_file()
        return self.case(b"table", [])

    def replay(self):
        anywhere, lines = self.chance.often(0.4), self.chance.often(0.3)
        tables = self.table_file()
        for flag in [b"--any"] * anywhere + [b"--lines"] * lines:
            self.words.insert(self.chance.choice((0, len(self.words))), flag)
        if self.chance.often(0.3):
            at = self.chance.choice((0, len(self.words)))
            self.words[at:at] = [b"--workers", self.chance.choice(COUNTS)]
        path, _ = self.batch_file(tables, anywhere, may_be_input=True, lines=lines != self.chance.often(0.05))
        return self.case(b"replay", [path])

    def debug(self):
        tables = self.table_file()
        path, events = self.batch_file(tables)
        key = self.chance.choice(list(events.guide.vehicles) or events.keys)
        texts = [events.identifier(value).encode() for value in key]
        if self.chance.often(0.06):
            other = [identifier(0, 99), "", "x", key[0][:-1], "{%s" % key[0], key[1]]
            texts[self.chance.randrange(2)] = self.chance.choice(other).encode()
        self.given = self.script(events)
        return self.case(b"debug", [path, *texts])

    def script(self, events):
        """The lines of standard input: walks, and lines that are no commands."""
        chance = self.chance
        lines = []
        for _ in range(chance.choice((0, 1, 5, 20, 60))):
            kind = chance.random()
            if kind < 0.75:
                lines.append(chance.choice(MOVES))
            elif kind < 0.9:
                lines.append(b"run " + chance.choice(STATES).encode())
            else:
                lines.append(chance.choice(UNKNOWN) if chance.often(0.95) else b"quit")
        text = b"\n".join(lines) + chance.choice((b"", b"\n"))
        if chance.often(0.02):
            word = chance.choice(MOVES)
            text = b"\n%s\n%s" % (word, text)
            return b"x" * (MOST_SCRIPT - 1 - len(word) + chance.choice((-1, 0, 0, 1))) + text
        return chance.spoilt(text) if chance.often(0.05) else text

    def case(self, command, operands):
        """The case of these words, in one of the orders in which options and operands may stand."""
        words = [*operands, *self.words] if self.chance.often(0.6) else [*self.words, *operands]
        if self.chance.often(0.015):
            words.insert(self.chance.randint(0, len(words)), self.chance.choice(MISTAKES))
        elif self.chance.often(0.01):
            words = words[: self.chance.randint(0, len(words))]
        elif self.chance.often(0.01) and words:
            words[self.chance.randrange(len(words))] = self.chance.choice(NO_TEXTS)
        command = b"replays" if self.chance.often(0.003) else command
        return CommandCase([command, *words], self.files, self.given)
