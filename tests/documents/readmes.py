"""The crates' READMEs: each library and the program has one, of 60 lines at most. What it shows of code stands in a source, it names
each law of its crate and each of the kit's crates that it trusts, and its table of calls has clauses that these have. That of a library
shows a proved call of it, a function of mds_uses, whole. README.md names all crates."""

import re

from documents.changing import CRATES, LISTED
from documents.names import CODE, functions_at, in_one_line

LIBRARY = re.compile(r"crates/(mds_\w+)/src/(?:lib|main)\.rt")
CALLERS = "mds_uses"
UNCALLED = {CALLERS, "mds_city"}
"""Of all crates but these CALLERS has a call each: itself, and the program."""
EXAMPLE = "CONTRIBUTING.md"
"""Its code stands in a source, too."""
MOST_LINES = 60
SHOWN = re.compile(r"^```rust\n(.*?)^```", re.M | re.S)
CALLS = re.compile(r"^\| call \| clauses \| .*\n\|---.*\n((?:\|.*\n)+)", re.M)
CALL = re.compile(r"^## A proved call \(\[\w+\.rt\]\(\.\./mds_uses/(src/\w+\.rt)\)\)\n\n```rust\n(.*?)^```", re.M | re.S)
TRUSTS = re.compile(r"The crate trusts the toolchain(?:, and what the kit's (.*?) states?\.| alone\.)")
NO_NAME = re.compile(r"\b(?:its clause|their clauses)\b")
INNER = re.compile(r"(?:src|specs|proofs|must-fail)/[\w./-]+")


def even(text):
    """A text without the spaces at the ends of its lines."""
    return "\n".join(line.strip() for line in text.strip().splitlines())


def sources_in(found):
    return [even(text) for name, text in found.items() if name.endswith(".rt")]


def unshown(text, sources):
    """Which pieces of code a document shows that no source has."""
    for piece in SHOWN.findall(text):
        if not any(even(piece) in source for source in sources):
            yield f"no source has what it shows: {piece.splitlines()[0].strip()} .."


def uncalled(crate, text, found):
    """Whether the README of a library lacks its proved call: a public function of a file of CALLERS that uses the library, from the
    line in front of which a blank one stands to its end."""
    called = CALL.search(text)
    source = found.get(f"crates/{CALLERS}/{called[1]}", "") if called else ""
    if not called or f"\nuse {crate}::" not in source:
        yield f"it shows no proved call of {crate}, under a heading that has a link to its file of {CALLERS}"
    elif "\npub fn " not in f"\n{called[2]}" or f"\n\n{called[2]}" not in source or not called[2].endswith("\n}\n"):
        yield f"crates/{CALLERS}/{called[1]} hasn't the function that it shows, from its first line to its last"


def outside(crate, text, found):
    """Which files of its crate a README names that aren't there."""
    for name in CODE.findall(in_one_line(text)):
        path = f"crates/{crate}/{name}"
        if INNER.fullmatch(name) and not any(it == path or it.startswith(path.rstrip("/") + "/") for it in found):
            yield f"{path} isn't there"


def rows_in(text):
    """The rows of the tables of calls: the calls, of which a row without any has those of the row before, and what is said of their
    clauses."""
    calls = []
    for row in "".join(CALLS.findall(text)).splitlines():
        cells = [cell.strip() for cell in row.strip("|").split("|")]
        calls = CODE.findall(cells[0]) or calls
        yield calls, cells[1]


def unclaused(text, crates):
    """Which clauses of a table no call of their row has."""
    for calls, told in rows_in(text):
        found = [clauses for call in calls for clauses in functions_at(call, crates)]
        wanted = CODE.findall(told) + [""] * bool(NO_NAME.search(told))
        for name in wanted:
            if not any(name in clauses for clauses in found):
                yield f"no call of {', '.join(calls)} has the clause {name or 'without a name'}"


def mistrusted(crate, text, found):
    """Whether a README tells other crates of the kit than those on which the crate stands by its line of crates.txt."""
    names = dict(LISTED.findall(found[CRATES]))[crate].split()
    kit = [name for name in names if not name.startswith("mds_")]
    told = TRUSTS.search(in_one_line(text))
    if not told or CODE.findall(told.group(1) or "") != kit:
        yield f"it doesn't say that the crate trusts {', '.join(kit) or 'the toolchain alone'}"


def unfit(crate, text, crates, found, sources):
    """What is wrong with the README of a crate, in words."""
    lines = text.count("\n")
    if lines > MOST_LINES:
        yield f"it has {lines} lines, and {MOST_LINES} are the most"
    if not SHOWN.search(text):
        yield "it shows no call"
    yield from unshown(text, sources)
    yield from outside(crate, text, found)
    yield from unclaused(text, {crate: crates[crate]})
    yield from mistrusted(crate, text, found)
    if crate not in UNCALLED:
        yield from uncalled(crate, text, found)
    lacking = crates[crate].laws - {*CODE.findall(in_one_line(text))}
    yield from (f"it doesn't name the law {law}" for law in sorted(lacking))


def readmes(found, crates):
    """Each document that shows code, by its path, with what is wrong with it: each README of a crate, and CONTRIBUTING.md."""
    sources = sources_in(found)
    yield EXAMPLE, unshown(found[EXAMPLE], sources)
    for crate in sorted(match.group(1) for match in map(LIBRARY.fullmatch, found) if match):
        path = f"crates/{crate}/README.md"
        text = found.get(path)
        yield path, unfit(crate, text, crates, found, sources) if text else ["it isn't there"]


def unnamed(found):
    """Which crates README.md doesn't name."""
    text = found["README.md"]
    for crate in sorted(match.group(1) for match in map(LIBRARY.fullmatch, found) if match):
        if f"](crates/{crate}/README.md)" not in text:
            yield f"README.md has no link to crates/{crate}/README.md"
