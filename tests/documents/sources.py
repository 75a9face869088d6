"""What the sources have that documents name: functions with their clauses, laws, definitions, words."""

import re
from collections import defaultdict
from dataclasses import dataclass, field

from editing.bodies import BLOCK, FUNCTION
from harness.counting import ROOT

LEFT_OUT = {".git", "__pycache__", "out", "target"}
"""Folders whose files nobody wrote."""
WORD = re.compile(r"\w+")
PARAMETERS = re.compile(r"<[^<>]*>")
OWNER = re.compile(r"(?:.* for )?\s*&?(?:dyn )?([\w:]+)", re.S)
GHOST = re.compile(r"^ +ghost (\w+)(?: =|:)", re.M)


def owner_in(words):
    """The type, or the trait, in the head of an `impl` or of a trait."""
    while PARAMETERS.search(words):
        words = PARAMETERS.sub("", words)
    found = OWNER.match(" ".join(words.split()))
    return found.group(1).rstrip(":").rpartition(":")[2] if found else ""


def texts():
    """The files of the repository that are texts, by their paths from its top."""
    found = {}
    for path in sorted(ROOT.rglob("*")):
        own = path.relative_to(ROOT)
        if path.is_file() and not LEFT_OUT.intersection(own.parts):
            try:
                found[own.as_posix()] = path.read_text()
            except UnicodeDecodeError:
                continue
    return found


def documents_in(found):
    """The documents among these texts: those at the top, those of docs/, and each crate's README."""
    return [name for name in found if re.fullmatch(r"(?:docs/)?[^/]+\.md|crates/\w+/README\.md", name)]


@dataclass
class Crate:
    """A crate: the clauses of its functions, each by its type, if any, and its name; its laws; the words of its sources."""

    functions: dict = field(default_factory=lambda: defaultdict(set))
    laws: set = field(default_factory=set)
    words: dict = field(default_factory=dict)

    def add_source(self, path, text):
        """Adds the functions of a source with the names of their clauses. The laws are those of laws.rt. The module's own name
        is one of its words."""
        self.words[path] = {*WORD.findall(text), *path.removesuffix(".rt").split("/")[3:]}
        starts = [*FUNCTION.finditer(text)]
        ends = [found.start() for found in starts[1:]] + [len(text)]
        blocks = [(it.start(), it.end(), owner_in(it["words"])) for it in BLOCK.finditer(text)]
        for found, end in zip(starts, ends):
            owner = next((name for start, stop, name in blocks if start < found.start() < stop), "")
            clause = re.compile(rf"^{found['indent']}    ensures (?:(\w+) )?\{{", re.M)
            self.functions[owner, found["name"]].update(clause.findall(text[found.end() : end]))
            if path.endswith("src/laws.rt"):
                self.laws.add(found["name"])
        for start, stop, owner in blocks:
            self.functions[owner, ""].update(GHOST.findall(text[start:stop]))


def crates_in(found):
    """The crates of these texts, by their names."""
    crates = defaultdict(Crate)
    for path, text in found.items():
        parts = path.split("/")
        if parts[0] != "crates" or len(parts) < 4:
            continue
        if parts[2] == "src" and path.endswith(".rt"):
            crates[parts[1]].add_source(path, text)
    return crates
