"""docs/changing.md: each file that it names is there, and each file that has a name to follow is in its part, or the type of what
is followed, or a field of that type, or, of tests, the number of the profile's rows."""

import re

CHANGING = "docs/changing.md"
PART = re.compile(r"^## ", re.M)
CODE = re.compile(r"`([^`\n]+)`")
FOLLOW = re.compile(r"^Follow ((?:`[^`\n]+`[, and\n]*)+)\.", re.M)
OF_TYPE = re.compile(r"\bIts type is `(\w+)` of `(\w+)`")
CRATES = "crates.txt"
LISTED = re.compile(r"^(\w+):(.*)$", re.M)
PROFILE = "tests/cases/tables.py"
ROWS = re.compile(r"^PROFILE_ROWS = (\d+)$", re.M)
NEW_TYPE = "A new type of event"
TEST = re.compile(r"crates/test_|tests/cases/")
FILE = re.compile(r"[\w.-]+(?:/[\w.*-]+)*(?:/|\.(?:antt|edit|html|json|md|out|py|rs|rt|script|svg|toml|txt))|[a-z]+/[\w/.-]+")


def has(text, name):
    """Whether a text has a name that isn't a part of a longer one."""
    return name in text and re.search(rf"(?<!\w){re.escape(name)}(?!\w)", text)


def paths_in(text):
    """The files, and the folders with a slash at their end, that a text names."""
    return [name for name in CODE.findall(text) if FILE.fullmatch(name)]


def is_there(path, found):
    return any(name.startswith(path) for name in found) if path.endswith("/") else path in found


def is_in(name, paths):
    """Whether a file is one of these, or stands in one of these folders."""
    return any(name.startswith(path) if path.endswith("/") else name == path for path in paths)


def crates_on(crate, found):
    """A crate, and those that stand on it."""
    below = {name: set(names.split()) for name, names in LISTED.findall(found[CRATES])}
    on, size = {crate}, 0
    while size < len(on):
        size = len(on)
        on |= {name for name, names in below.items() if names & on}
    return on


def sources_of(crates, found):
    """The files of these crates."""
    return {name: text for name, text in found.items() if name.startswith(tuple(f"crates/{it}/" for it in crates))}


def words_of_type(kind, sources):
    """What tells in a source that it is about a type: its name, or a field that has it."""
    fields = re.compile(rf"^ +(?:pub )?(\w+): (?:Option<)?{kind}>?,$", re.M)
    names = {name for path, text in sources.items() if path.endswith(".rt") for name in fields.findall(text)}
    told = [rf"\b{kind}\b", *(rf"(?:\.{name}\b(?! *\()|\b{name} *[:=])" for name in sorted(names))]
    return re.compile("|".join(told))


def untyped(found, part):
    """Which files are about the type of what a part follows, and aren't in it."""
    for kind, crate in OF_TYPE.findall(part):
        sources = sources_of(crates_on(crate, found), found)
        words = words_of_type(kind, sources)
        for name, text in sorted(sources.items()):
            told = words.search(text)
            if told and not is_in(name, paths_in(part)):
                yield f"{name} has {told.group()}, of the type {kind}, and isn't in the part `{part.split(chr(10), 1)[0]}`"


def uncounted(found, part):
    """Which tests have the number of the profile's rows and aren't in this part, or stand there in a line with it and lack it."""
    number = ROWS.search(found[PROFILE]).group(1)
    told = {path for line in part.splitlines() if line.startswith("|") and has(line, number) for path in paths_in(line)}
    if not told:
        yield f"the part `{NEW_TYPE}` has no line with {number}, the number of the profile's rows"
    for name, text in sorted(found.items()):
        if name in told and not has(text, number):
            yield f"{name} hasn't {number}, the number of the profile's rows"
        if TEST.match(name) and has(text, number) and not is_in(name, paths_in(part)):
            yield f"{name} has {number}, the number of the profile's rows, and isn't in the part `{NEW_TYPE}`"


def unlisted(found):
    """What is wrong with the page, in words."""
    whole = found[CHANGING]
    for path in paths_in(whole):
        if not is_there(path, found):
            yield f"{path} isn't there"
    for part in PART.split(whole)[1:]:
        title, paths = part.split("\n", 1)[0], paths_in(part)
        if title.startswith("A ") and not FOLLOW.search(part):
            yield f"the part `{title}` has no line `Follow ..`"
        if title == NEW_TYPE:
            yield from uncounted(found, part)
        yield from untyped(found, part)
        for names in FOLLOW.findall(part):
            for name, text in sorted(found.items()):
                named = [it for it in CODE.findall(names) if has(text, it)]
                if named and name != CHANGING and not is_in(name, paths):
                    yield f"{name} has {named[0]}, and isn't in the part `{title}`"
