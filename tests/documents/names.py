"""What documents name: clauses, laws, files and words of the sources. Each has to be there."""

import posixpath
import re
from collections import Counter

from documents.sources import WORD

FENCED = re.compile(r"^```.*?^```", re.M | re.S)
CODE = re.compile(r"`([^`]+)`")
PATHS = r"`[\w:]+`(?:(?:,| and|, and) `[\w:]+`)*"
NAMES = r"`\w+`(?:(?:,| and|, and) `\w+`)*"
CLAUSES = re.compile(rf"(?:({PATHS}), c|\bC)lauses? ({NAMES})")
ITS_CLAUSE = re.compile(rf"({PATHS}) \((?:its clause|their clauses)\b")
A_CLAUSE = re.compile(r"\bclauses? `")
LAWS = re.compile(rf"\b[Ll]aws? ({PATHS})")
PATH = re.compile(r"[A-Za-z]\w*(?:::[A-Za-z]\w*)+")
NAME = re.compile(r"[A-Z][A-Za-z0-9]*[a-z][A-Za-z0-9]*|[a-z0-9]+(?:_[a-z0-9]+)+")
LINK = re.compile(r"\]\(([^):\s]+)\)")
HEADING = re.compile(r"^#+ (.*)$", re.M)
FILE = re.compile(r"(?:bench|crates|deploy|docs|examples|tests|tools)/[\w./*-]+")
LINKED = re.compile(r"\[(`[^\]]+`)\]\([^)]*\)")
MOST_LINES = {"README.md": 180}
"""How long a document may be."""
TO_READ = re.compile(r"README\.md|docs/[^/]+\.md")
MOST_WORDS = 26000
"""How many words README.md and docs/ may have together: what is read in two hours."""
ROW = re.compile(r"^\|.*$", re.M)
OF_THE_KIT = {"std"}
"""The first names of paths that aren't this repository's."""


def in_one_line(text):
    """A text without its fenced blocks and what links lead to, and with one space in place of each line's end."""
    return " ".join(LINKED.sub(r"\1", FENCED.sub("", text)).split())


def functions_at(path, crates):
    """The clauses of the functions that a path may mean: `crate::module::Type::name`, of which any front may be left out."""
    *fronts, name = path.split("::")
    owner = next((front for front in reversed(fronts) if front[0].isupper()), None)
    for of_crate, crate in crates.items():
        if fronts and fronts[0] in crates and fronts[0] != of_crate:
            continue
        for (has_owner, has_name), clauses in crate.functions.items():
            if has_name == name and owner in (None, has_owner):
                yield clauses


def clauses_amiss(text, crates):
    """Which clauses that a text names aren't there. A clause is named behind its function, as `function`, clause `name`; a
    sentence that begins with `Clause` goes on with the function that was named last. A function with a clause without a
    name stands as `function` (its clause)."""
    paths = []
    for fronts, names in CLAUSES.findall(text):
        paths = CODE.findall(fronts) or paths
        for path in paths:
            found = [*functions_at(path, crates)]
            if not found:
                yield f"there is no function {path}"
            for name in CODE.findall(names):
                if found and not any(name in clauses for clauses in found):
                    yield f"{path} has no clause {name}"
    for fronts in ITS_CLAUSE.findall(text):
        for path in CODE.findall(fronts):
            if not any("" in clauses for clauses in functions_at(path, crates)):
                yield f"{path} has no clause without a name"
    rest = CLAUSES.sub("", text)
    for found in A_CLAUSE.finditer(rest):
        yield f"a clause is named without its function before it: {rest[found.start() : found.start() + 40]}"


def laws_amiss(text, crates):
    """Which laws that a text names aren't there."""
    named = [name for names in LAWS.findall(text) for name in CODE.findall(names)]
    named += [path for path in CODE.findall(text) if PATH.fullmatch(path) and "::laws::" in path]
    for path in dict.fromkeys(named):
        crate, _, name = path.rpartition("::laws::")
        if not any(name in it.laws for of_crate, it in crates.items() if crate in ("", of_crate)):
            yield f"there is no law {path}"


def is_in_a_module(path, crates):
    """Whether a module of a crate has the last two names of a path; of a path of two the first may be a crate's."""
    first, *rest = path.split("::")
    names = {*rest[-2:]} if first in crates else {first, *rest[-2:]}
    searched = [crates[first]] if first in crates else crates.values()
    return any(names <= words for crate in searched for words in crate.words.values())


def words_amiss(text, crates, words):
    """Which names of a text no source has."""
    for name in dict.fromkeys(CODE.findall(text)):
        if PATH.fullmatch(name):
            if name.split("::")[0] not in OF_THE_KIT and not is_in_a_module(name, crates):
                yield f"{name} isn't in the sources"
        elif NAME.fullmatch(name) and name not in words:
            yield f"{name} isn't in the sources"


def files_amiss(text, found):
    """Which files that a text names aren't there. Those that are built are left out."""
    for name in dict.fromkeys(CODE.findall(text)):
        if FILE.fullmatch(name) and "/out/" not in name:
            pattern = re.compile(re.escape(name.rstrip("/")).replace(r"\*", "[^/]*") + "(/|$)")
            if not any(pattern.match(path) for path in found):
                yield f"{name} isn't there"


def anchors_of(text):
    """The names by which links lead to the headings of a document: of equal ones, the later ones have a number."""
    names = Counter()
    for heading in HEADING.findall(FENCED.sub("", text)):
        name = re.sub(r"[^\w -]", "", heading.lower()).strip().replace(" ", "-")
        yield f"{name}-{names[name]}" if names[name] else name
        names[name] += 1


def links_amiss(name, found):
    """Which links of a document to files, and to headings of documents, lead nowhere."""
    for target in LINK.findall(found[name]):
        path, _, anchor = target.partition("#")
        to = posixpath.normpath(posixpath.join(posixpath.dirname(name), path)) if path else name
        if to not in found:
            yield f"a link leads to {target}, which isn't there"
        elif anchor and anchor not in anchors_of(found[to]):
            yield f"a link leads to {target}, and {to} has no such heading"


def cells_in(row):
    """How many cells a row of a table has."""
    return len(CODE.sub("", row).strip().strip("|").split("|"))


def tables_amiss(text):
    """Which rows of tables have more or fewer cells than the row before."""
    lines = FENCED.sub("", text).splitlines()
    for one, other in zip(lines, lines[1:]):
        if ROW.match(one) and ROW.match(other) and cells_in(one) != cells_in(other):
            yield f"a row has {cells_in(other)} cells, and the one before it {cells_in(one)}: {other[:60]}"


def too_many_words(found):
    """Whether the documents that are to be read have too many words, in words: those with a letter or a digit count."""
    count = sum(bool(WORD.search(it)) for name, text in found.items() if TO_READ.fullmatch(name) for it in text.split())
    if count > MOST_WORDS:
        yield f"README.md and docs/ have {count} words, and {MOST_WORDS} are the most"


def words_of(found):
    """The words of all texts that are no documents."""
    return {word for path, text in found.items() if not path.endswith(".md") for word in WORD.findall(text)}


def amiss(name, found, crates, words):
    """What a document names that isn't there, and whether it is too long, in words."""
    text, lines = in_one_line(found[name]), found[name].count("\n")
    if lines > MOST_LINES.get(name, lines):
        yield f"it has {lines} lines, and {MOST_LINES[name]} are the most"
    yield from clauses_amiss(text, crates)
    yield from laws_amiss(text, crates)
    yield from words_amiss(text, crates, words)
    yield from files_amiss(text, found)
    yield from links_amiss(name, found)
    yield from tables_amiss(found[name])
