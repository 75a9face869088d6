"""Where the sources make a want of memory, and what stands around each such place."""

import re
from dataclasses import dataclass

OPENERS, CLOSERS = "([{", ")]}"
TOKEN = re.compile(r'//[^\n]*|b?"(?:\\.|[^"\\])*"|b?\'(?:\\.[^\']*|[^\'\\])\'', re.S)
"""A comment, a text, or a character."""
GHOST = re.compile(r"^[ \t]*(?:requires|ensures|ghost)\b(?P<use>[ \t]+use\b)?", re.M)
USE = re.compile(r"^[ \t]*(?:pub(?:\(crate\))? )?use [^;]*;", re.M)
"""What names a want without making one: clauses, and what a file uses of others."""
MADE = re.compile(
    r"\b(?:AllocError|AllocFailed|fmt::Error|\w+::(?:Memory|NoMemory|OutOfMemory))\b"
    r"|(?<!fn )\b(?:out_of_memory|memory_bytes)(?=\()"
)
"""A want of memory: the error of a refused growth, a variant that tells of one, or a call that gives or writes one."""
MAKER = re.compile(r"\bfn (?:out_of_memory|memory_bytes)\b")
"""Functions that do nothing else. Their calls are places themselves."""
CONVERTS = re.compile(r"\bFrom<(?:AllocError|AllocFailed<\w+>)> for\b")
"""An `impl` that makes a want of the error of a refused growth."""
NAMED, BEFORE = re.compile(r"\w+\s*>"), re.compile(r"\blet\b[^=;{}]*\Z")
"""A type among parameters of one; and what stands before a pattern of a `let`."""
WANT = r"(?:(?:\w+::)*\w+\()*(?:\w+::)*(?:AllocError|Memory|OutOfMemory)(?: \{[^}]*\})?\)*"
CONVERTED = re.compile(rf"{WANT}(?: \| {WANT})*")
"""The pattern of an arm that takes a want, or an error that holds one, and nothing else."""
BOUND = r"(?:Ok|Some)\((?:\w+|\(\)|\(\w+(?:, \w+)*\))\)"
LET = re.compile(rf"\blet ((?:{BOUND})|\({BOUND}(?:, {BOUND})*\)) = (.*?) else$", re.S)
"""A `let` that goes on with what a call gives, whatever that is."""
REFUSED = re.compile(r"Err\((\w+)\)(?: if (\1\.is_memory\(\)))?")
"""The pattern of an arm that takes each error of a call, or each that its library says is of memory."""


@dataclass(frozen=True)
class Passing:
    """A place that makes a want: its offset in the source, and the call whose refusal it passes on. Where none is at hand, `bare`
    is what stands around it. Both are empty where one want is made of another, or of the error of a growth."""

    place: int
    call: str = ""
    bare: str = ""


NO_VALUE = Passing(-1)
"""Stands for a place that is a pattern or a type, and makes nothing."""


def blank(text, start, end):
    return text[:start] + re.sub(r"[^\n]", " ", text[start:end]) + text[end:]


def closing(text, start):
    """The offset behind the bracket that closes the first one from here on."""
    depth, place = 0, start
    while True:
        letter = text[place]
        depth += (letter in OPENERS) - (letter in CLOSERS)
        place += 1
        if depth == 0 and letter in CLOSERS:
            return place


def plain(text):
    """A source without its comments, the letters of its texts, its clauses, and what it uses, each place where it was."""
    for found in [*TOKEN.finditer(text), *USE.finditer(text)]:
        text = blank(text, *found.span())
    for found in GHOST.finditer(text):
        end = text.index(";", found.end()) if found["use"] else closing(text, text.index("{", found.end()))
        text = blank(text, found.start(), end)
    return text


def around(text, places):
    """The offsets of the brackets that stand open at each of these places, from without to within."""
    found, opened, rest = {}, [], iter(sorted(places))
    place = next(rest, None)
    for at, letter in enumerate(text):
        if at == place:
            found[place], place = tuple(opened), next(rest, None)
        if letter in OPENERS:
            opened.append(at)
        elif letter in CLOSERS:
            opened.pop()
    return found


def head(text, opener):
    """What stands before an opening bracket, from where its statement, its arm or its list begins."""
    depth, at = 0, opener
    while at:
        letter = text[at - 1]
        if letter in CLOSERS[:2]:
            depth += 1
        elif letter in OPENERS[:2] and depth:
            depth -= 1
        elif depth == 0 and (letter in ";{}([" or text[at - 2 : at] == "=>"):
            break
        at -= 1
    return " ".join(text[at:opener].split())


def arm(text, opener, place):
    """The pattern of the arm in which a place of a `match` stands, or None where it stands in a pattern."""
    start, arrow, depth = opener + 1, None, 0
    for at in range(opener + 1, place):
        letter = text[at]
        depth += (letter in OPENERS) - (letter in CLOSERS)
        if depth == 0 and text[at : at + 2] == "=>":
            arrow = at
        elif depth == 0 and arrow and letter in ",}":
            start, arrow = at + 1, None
    return " ".join(text[start:arrow].split()).removeprefix(", ") if arrow else None


def named(expression):
    """The call that an expression is, without what it is given."""
    return call_in(expression).removesuffix("(..)")


def call_in(expression):
    """An expression without what its calls are given."""
    found, at = "", 0
    while at < len(expression):
        if expression[at] == "(" and found and re.search(r"[\w!>]$", found):
            at = closing(expression, at)
            found += "(..)"
        else:
            found += expression[at]
            at += 1
    return re.sub(r"::<[^()]*>", "", found).replace(" .", ".")


def guarded(text, opener, place):
    """What a bracket that stands open at a place says of it: a passing, or None where it says nothing."""
    before = head(text, opener)
    if text[opener] == "(":
        return within_a_list(text, opener, place, before)
    if found := re.search(r"\bfn (\w+)", before):
        return Passing(place, bare=f"fn {found[1]}")
    if before.endswith("else"):
        found = LET.search(before)
        return Passing(place, named(found[2])) if found else Passing(place, bare=before)
    if found := re.search(r"\bmatch (.*)$", before):
        return by_arm(text, opener, place, found[1])
    if found := re.search(r"\bif (.*)$", before):
        call = call_in(found[1])
        is_refusal = call.endswith(".is_err(..)") and not re.search(r"&&|\|\||^!", call)
        return Passing(place, named(call.removesuffix(".is_err(..)"))) if is_refusal else Passing(place, bare=f"if {found[1]}")
    return None


def within_a_list(text, opener, place, before):
    """The same of a list of parameters, or of what a call is given."""
    if before.endswith("matches!"):
        return NO_VALUE
    if before.endswith(".map_err") and re.fullmatch(r"\|_\| ?", text[opener + 1 : place]):
        return Passing(place, named(before.removesuffix(".map_err")))
    is_parameter = re.search(r"[^:]: *$", text[opener:place]) and re.search(r"\bfn \w+\S*$", before)
    return NO_VALUE if is_parameter else None


def by_arm(text, opener, place, scrutinee):
    """The same of the arms of a `match` of this."""
    pattern = arm(text, opener, place)
    if pattern is None:
        return NO_VALUE
    if CONVERTED.fullmatch(pattern):
        return Passing(place)
    found = REFUSED.fullmatch(pattern)
    if not found:
        return Passing(place, bare=f"{pattern} =>")
    return Passing(place, " if ".join(part for part in (named(scrutinee), found[2]) if part))


def passing_at(text, place, opened):
    """The passing of a place of a plain source with these brackets around it."""
    heads = [head(text, opener) for opener in opened]
    if NAMED.match(text, place) or BEFORE.search(text, 0, place) or any(MAKER.search(it) for it in heads):
        return NO_VALUE
    for at, opener in reversed(list(enumerate(opened))):
        found = guarded(text, opener, place)
        if found and found.bare == "fn from" and CONVERTS.search(heads[at - 1]):
            return Passing(place)
        if found:
            return found
    return NO_VALUE


def passings(text, made=MADE):
    """Each place of a plain source that makes a want, or what else is asked for."""
    places = [found.start() for found in made.finditer(text)]
    brackets = around(text, places)
    found = (passing_at(text, place, brackets[place]) for place in places)
    return [it for it in found if it is not NO_VALUE]
