"""JSON, as docs/formats.md has it: RFC 8259 as the `Value` of `serde_json` reads it.

Python's own reader takes more: lone surrogates, control characters, numbers past the doubles, any depth, `NaN`. A number that
is whole and that 64 bits hold is an `int` here, and any other a `float`; so `-0` is a `float`."""

import json
import math
import re

MOST_DEPTH = 127
TOKEN = re.compile(
    r"""[ \t\n\r]*(?:
        (?P<mark>[][{},:])
        | "(?P<string>[^"\\\x00-\x1f]*(?:\\(?:["\\/bfnrt]|u[0-9a-fA-F]{4})[^"\\\x00-\x1f]*)*)"
        | (?P<double>-0(?![.eE0-9])|-?(?:0|[1-9][0-9]*)(?:\.[0-9]+(?:[eE][+-]?[0-9]+)?|[eE][+-]?[0-9]+))
        | (?P<whole>-?(?:0|[1-9][0-9]*))
        | (?P<word>null|true|false)
        | (?P<end>\Z)
    )""",
    re.VERBOSE,
)
ESCAPE = re.compile(r"\\(?:u(....)|(.))")
ESCAPED = {"b": "\b", "f": "\f", "n": "\n", "r": "\r", "t": "\t"}
WORDS = {"null": None, "true": True, "false": False}
MOST_DIGITS = 20
"""How many characters a whole number of 64 bits has at most."""


class NotJson(Exception):
    """A text that isn't JSON, or is nested too deep."""


def value_of(text):
    """The value that these bytes have as JSON."""
    try:
        reader = Reader(text.decode())
    except UnicodeDecodeError:
        raise NotJson from None
    value = reader.value(0)
    reader.pass_over("end")
    return value


def compact(value):
    """The JSON of a value without spaces, members by the bytes of their names."""
    return json.dumps(value, separators=(",", ":"), sort_keys=True)


def whole_of(text):
    """The whole number that is written so, or the double where 64 bits don't hold it."""
    whole = int(text) if len(text) <= MOST_DIGITS else None
    return whole if whole is not None and -(2**63) <= whole < 2**64 else double_of(text)


def double_of(text):
    """The double that is written so. One past the doubles is no JSON."""
    double = float(text)
    if math.isinf(double):
        raise NotJson
    return double


def string_of(text):
    """The text that is written so between quotes. Surrogates have to come in pairs."""
    if "\\" not in text:
        return text
    units = ESCAPE.sub(lambda it: chr(int(it[1], 16)) if it[1] else ESCAPED.get(it[2], it[2]), text)
    try:
        return units.encode("utf-16-le", "surrogatepass").decode("utf-16-le")
    except UnicodeDecodeError:
        raise NotJson from None


SCALARS = {"string": string_of, "double": double_of, "whole": whole_of, "word": WORDS.get}
BEGINNINGS = {"[", "{", *SCALARS}


class Reader:
    """A text, and the token of it that comes next: its kind, which for a mark is the mark, and what is written."""

    def __init__(self, text):
        self.text, self.at = text, 0
        self.next()

    def next(self):
        """Goes to the next token."""
        found = TOKEN.match(self.text, self.at)
        if not found:
            raise NotJson
        self.at, kind = found.end(), found.lastgroup
        self.written = found.group(kind)
        self.kind = self.written if kind == "mark" else kind

    def takes(self, kind):
        """Whether a token of this kind comes next; it is then passed."""
        if self.kind != kind:
            return False
        self.next()
        return True

    def pass_over(self, kind):
        """Passes a token that has to be of this kind, and answers what is written there."""
        if self.kind != kind:
            raise NotJson
        written = self.written
        if kind != "end":
            self.next()
        return written

    def value(self, depth):
        """The value that comes next, within so many lists and objects."""
        kind, written = self.kind, self.written
        if kind in ("[", "{") and depth == MOST_DEPTH or kind not in BEGINNINGS:
            raise NotJson
        self.next()
        if kind == "[":
            return self.list(depth + 1)
        return self.object(depth + 1) if kind == "{" else SCALARS[kind](written)

    def list(self, depth):
        """The values of a list whose first mark was passed."""
        values = []
        if self.takes("]"):
            return values
        values.append(self.value(depth))
        while self.takes(","):
            values.append(self.value(depth))
        self.pass_over("]")
        return values

    def object(self, depth):
        """The members of an object whose first mark was passed, by their names: of a repeated one the last."""
        members = {}
        if self.takes("}"):
            return members
        self.member(members, depth)
        while self.takes(","):
            self.member(members, depth)
        self.pass_over("}")
        return members

    def member(self, members, depth):
        name = string_of(self.pass_over("string"))
        self.pass_over(":")
        members[name] = self.value(depth)
