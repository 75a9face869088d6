"""What the sources of the crates say: which public calls can answer that there was no memory, and which tests there are."""

import re
from dataclasses import dataclass
from pathlib import Path

from harness.counting import ROOT

CALLERS = "mds_uses"
"""The crate of a proved call of each library, which nothing calls."""
WANT = "AllocError"
"""The error of a growth that was refused. A type of which a part is this, or is called `Memory`, can tell of one, too."""
COMMENT = re.compile(r"//[^\n]*")
TYPE = re.compile(r"^(?:pub(?:\(crate\))? )?(?:enum|struct) (\w+)[^;{]*\{(.*?)^\}", re.M | re.S)
BLOCK = re.compile(r"^(pub trait|impl)\b([^{;]*?)\{$(.*?)^\}", re.M | re.S)
FUNCTION = re.compile(r"^(?P<indent> *)(?P<public>pub )?fn (?P<name>\w+)", re.M)
RESULT = re.compile(r"\s*->(.*?)(?=\b(?:requires|ensures|where|decreases)\b|[{;]\s*$)", re.M | re.S)
TEST = re.compile(r"#\[test\]\s*fn (\w+)")
TEST_MODULE = re.compile(r"#\[cfg\(test\)\]\s*(?:pub(?:\(crate\))? )?mod (\w+);")


@dataclass
class Crate:
    """A library of the repository: its name, and the texts of its sources by their paths, without comments."""

    name: str
    texts: dict
    """Those of its library; those of the modules that are built for its tests alone, and of the modules in these, are in
    `tests`."""
    tests: dict


def crate_of(folder):
    source = folder / "src"
    read = {path.relative_to(source): COMMENT.sub("", path.read_text()) for path in sorted(source.rglob("*.rt"))}
    modules = {name for text in read.values() for name in TEST_MODULE.findall(text)}
    texts, tests = {}, {}
    for path, text in read.items():
        whose = tests if modules.intersection(path.with_suffix("").parts) else texts
        whose[str(path)] = text
    return Crate(folder.name, texts, tests)


def crates():
    """The crates of the repository, by their names."""
    return {folder.name: crate_of(folder) for folder in sorted((ROOT / "crates").iterdir()) if (folder / "src").exists()}


def libraries(found):
    """Those of these crates that aren't of tests or of calls alone."""
    return {name: crate for name, crate in found.items() if not name.startswith("test_") and name != CALLERS}


def types_of(crate):
    """The types of a crate, and what each is made of."""
    return {name: body for text in crate.texts.values() for name, body in TYPE.findall(text)}


def has(body, names):
    return any(re.search(rf"\b{name}\b", body) for name in names)


def telling(crate):
    """The names of a crate's own types that can tell of a refused growth, by what they are made of, or by what a call on them
    gives that gives no `Result`."""
    made, known, more = dict(types_of(crate)), {WANT, "Memory"}, True
    for owner, _, result in all_functions(crate):
        if owner in made and not result.startswith("Result"):
            made[owner] += f" {result}"
    while more:
        more = {name for name, body in made.items() if name not in known and has(body, known)}
        known |= more
    return known - {"Memory"}


def exported(crate):
    """The names that a crate's root hands on, and the files of its public modules."""
    root = crate.texts.get("lib.rt", "")
    names = {name for group in re.findall(r"pub use [^;]*;", root) for name in re.findall(r"\w+", group)}
    return names, {f"{name}.rt": name for name in re.findall(r"pub mod (\w+);", root)}


def result_of(text, start):
    """The type that a function gives, whose list of parameters starts behind this place of the text, or no text."""
    place = text.index("(", start)
    depth, end = 1, place + 1
    while depth:
        depth += {"(": 1, ")": -1}.get(text[end], 0)
        end += 1
    found = RESULT.match(text, end)
    return found.group(1).strip() if found else ""


def fault_of(result):
    """The fault in the type of a result, or no text."""
    found = re.fullmatch(r"Result<(.*)>", result, re.S)
    if not found:
        return ""
    depth, given = 0, found.group(1)
    for place, letter in enumerate(given):
        depth += {"<": 1, "(": 1, "[": 1, ">": -1, ")": -1, "]": -1}.get(letter, 0)
        if letter == "," and depth == 0:
            return given[place + 1 :]
    return ""


def owner_of(block):
    """The type or trait of a block; None of an implementation of a trait, whose calls are the trait's."""
    words = block.group(2).strip()
    if block.group(1) == "impl":
        words = re.sub(r"^<[^{]*?>\s(?=\w)", "", words)
        if re.search(r"\bfor\b", words):
            return None
    return re.search(r"\w+", words).group()


def functions_of(text):
    """The public functions of a source: the type or trait to which each belongs, if any, its name, and what it gives."""
    blocks = [(found.start(), found.end(), found.group(1), owner_of(found)) for found in BLOCK.finditer(text)]
    for found in FUNCTION.finditer(text):
        kind, owner = next((it[2:] for it in blocks if it[0] < found.start() < it[1]), ("", ""))
        if owner is not None and (found.group("public") or kind == "pub trait"):
            yield owner, found.group("name"), result_of(text, found.end())


def all_functions(crate):
    return [it for text in crate.texts.values() for it in functions_of(text)]


def named_functions(crate):
    """The public functions of a crate's files: each as `crate::call`, what it gives, and whether callers can name it."""
    names, modules = exported(crate)
    for path, text in crate.texts.items():
        for owner, name, result in functions_of(text):
            whole = [part for part in (crate.name, modules.get(path), owner, name) if part]
            yield "::".join(whole), result, path in modules or (owner or name) in names


def every_call(found):
    """Each call of these crates, those too that only the crate itself can make, as the program's."""
    return [call for crate in found.values() for call, _, _ in named_functions(crate)]


def calls(found):
    """Each public call of these crates whose result can tell of a refused growth, as `crate::call`."""
    own = {name: telling(crate) for name, crate in found.items()}
    handed_on = set().union(*(own[name] & exported(crate)[0] for name, crate in found.items()))
    for crate in found.values():
        for call, result, is_public in named_functions(crate):
            if is_public and has(fault_of(result), own[crate.name] | handed_on):
                yield call


def tests_of(crate, module):
    """The tests of a crate by their names, or those of a module of its root, each with the text of its file and of the modules below it."""
    files = {Path(path).with_suffix(""): text for path, text in crate.tests.items() if not module or Path(path).with_suffix("").parts[0] == module}
    below = {place: "\n".join(text for path, text in files.items() if place in path.parents) for place in files}
    return {name: f"{text}\n{below[place]}" for place, text in files.items() for name in TEST.findall(text)}
