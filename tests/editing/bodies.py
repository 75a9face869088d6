"""The edits, read from their files, and the functions that they turn."""

import re
from dataclasses import dataclass
from functools import cache, lru_cache
from pathlib import Path

from harness.counting import ROOT

HERE = Path(__file__).resolve().parent / "bodies"
ANSWERS = Path(__file__).resolve().parent / "answers"
FUNCTION = re.compile(r"^(?P<indent> *)(?:pub(?:\([^)]*\))? )?(?:const )?fn (?P<name>\w+)", re.M)
OWN_TACTICS = re.compile(r"#\[tactic\([^\n]*\]\n(?: *#\[[^\n]*\]\n)*\Z")
CLOSURE = re.compile(r"(?:[(,=]|\bmove)\s*\|[^|\n]*\|")
SEARCHED = re.compile(r"^# searched$", re.M)
TRAIT = re.compile(r"^(?:pub(?:\([^)]*\))? )?trait\b.*?^\}", re.M | re.S)
LAST_OF_HEAD = re.compile(r"[;{]$", re.M)
CONSTANT = re.compile(r"\b[A-Z][A-Z0-9_]+\b")
BLOCK = re.compile(r"^(?:pub )?(?:impl|trait)\b(?P<words>[^{;]*)\{$(?P<body>.*?)^\}", re.M | re.S)


@dataclass(frozen=True)
class Change:
    """A text of a file, which stands there once, and the text in its place."""

    path: str
    old: str
    new: str


@dataclass(frozen=True)
class Edit:
    """An edit of a crate: its file, what it changes, and the functions of which one has to be refused."""

    crate: str
    file: Path
    changes: tuple
    functions: frozenset
    """Each by the path below the crate by which a check tells of it."""
    names: frozenset
    """The names by which a body may call or read what the edit turns: those of the functions, and of constants. A copy has none."""
    breaks_answer: bool
    """Whether an answer in `proofs/` may tell of it: each function has answers, and no closure, whose goals have no answers, and no line
    `# searched` says that none does. Or it has answers of its own."""
    answers: tuple = ()
    """Those of `answers/`, which stand in place of its function's: each the line of a proof of one goal, as the function stands."""

    @property
    def label(self):
        return f"{self.crate}/{self.file.stem}"


def changes_in(text):
    path = old = ""
    for line in text.splitlines():
        word, _, value = line.partition(": ")
        if word == "file":
            path = value.strip()
        elif word == "old":
            old = value
        elif line.startswith("new:"):
            yield Change(path, old, line[len("new:") :].removeprefix(" "))


def named_in(text):
    """The functions that an edit names by a line `# breaks: module::function`, as an edit of a constant does."""
    return re.findall(r"^# breaks: (\S+)$", text, re.M)


@cache
def with_answers(crate):
    """The functions of a crate of which answers may tell: they have some, and no closure."""
    folder, found = ROOT / "crates" / crate, set()
    for file in folder.glob("src/**/*.rt"):
        text = file.read_text()
        heads = list(FUNCTION.finditer(text))
        for head, end in zip(heads, [*(it.start() for it in heads[1:]), len(text)]):
            function = told_as(crate, file.relative_to(folder), text, head.start())
            has_some = (folder / folder_of(function) / "Answers.antt").exists()
            if has_some and not CLOSURE.search(text, head.start(), end):
                found.add(function)
    return found


@cache
def own_answers(crate):
    """The answers under `answers/` for the edits of a crate, by the edits' names."""
    file, found = ANSWERS / f"{crate}.txt", {}
    for line in file.read_text().splitlines() if file.exists() else ():
        name, _, answer = line.partition(": ")
        found[name] = (*found.get(name, ()), answer)
    return found


def last_word(text):
    return re.findall(r"\w+", text)[-1]


def plain_head(words):
    """The head of an `impl` or a `trait` without its parameters: the trait, if there is one, and the type."""
    words = re.sub(r"<[^<>]*(?:<[^<>]*>[^<>]*)*>", "", words)
    trait, _, kind = words.split(" where ")[0].rpartition(" for ")
    return last_word(trait) if trait else "", last_word(kind)


def arguments_of(words):
    """The names in the arguments of the type that an `impl` is of, where not all are its own parameters."""
    parameters, head = re.match(r"(<[^<>]*(?:<[^<>]*>[^<>]*)*>)?(.*)", " ".join(words.split())).groups()
    given = re.search(r"<(.*)>", head.split(" where ")[0].rpartition(" for ")[2])
    names = re.findall(r"(?<!['\w])\w+", given[1]) if given else []
    return [] if set(names) <= set(re.findall(r"\w+", parameters or "")) else names


@lru_cache(maxsize=64)
def parts_of(text):
    """The heads of the functions of a source, its blocks `impl` and `trait`, and its traits."""
    return tuple(list(it.finditer(text)) for it in (FUNCTION, BLOCK, TRAIT))


def around(text, place):
    """The head of the `impl` or `trait` around a place of a source, or no text, and the name of the function there."""
    heads, blocks, _ = parts_of(text)
    found = [it for it in heads if it.start() <= place]
    if not found:
        return None
    block = next((it for it in blocks if it.start() < found[-1].start() < it.end()), None)
    return block["words"] if block else "", found[-1]["name"]


def is_of_trait(text, place):
    """Whether a place of a source stands in a trait or in its `impl`."""
    block = next((it for it in parts_of(text)[1] if it.start() < place < it.end()), None)
    return block is not None and (re.match(r"(?:pub )?trait\b", block[0]) is not None or bool(plain_head(block["words"])[0]))


def module_of(path):
    return "::".join(part for part in Path(path).with_suffix("").parts[1:] if part not in ("lib", "main"))


def function_at(path, text, place):
    """The function around a place of a source: the path of its module, the type of its `impl` or no text, and its name."""
    found = around(text, place)
    return found and (module_of(path), plain_head(found[0])[1] if found[0] else "", found[1])


def folder_of(function):
    """The folder of a function's proof, by the name by which a check tells of it."""
    return "proofs/" + function.replace("::", "/")


@cache
def home_of(crate, kind, path):
    """The module of a type of a crate, or that of this file where no single one declares it."""
    folder, declared = ROOT / "crates" / crate, re.compile(rf"\b(?:struct|enum|trait) {kind}\b")
    homes = [module_of(it.relative_to(folder)) for it in folder.glob("src/**/*.rt") if declared.search(it.read_text())]
    return homes[0] if len(homes) == 1 else module_of(path)


def told_as(crate, path, text, place):
    """The name by which a check tells of the function around a place of a source. A method stands below its type, in the type's
    module. One of a trait stands in the module of its `impl`, and the type's name goes on with the trait's, without a space. Where
    the type has arguments of its own, their names stand in between. What arguments a trait has isn't said here, so where it has any
    an edit names the function."""
    found = around(text, place)
    if not found:
        return None
    trait, kind = plain_head(found[0]) if found[0] else ("", "")
    module = home_of(crate, kind, path) if kind and not trait else module_of(path)
    names = [kind, *(arguments_of(found[0]) if kind else [])]
    return "::".join(filter(None, (module, ("" if trait else "+").join(names) + trait, found[1])))


def has_no_body(text, place):
    """Whether the function at a place of a source only stands in a trait, without a body: then it has no proof."""
    if not any(it.start() < place < it.end() for it in parts_of(text)[2]):
        return False
    last = LAST_OF_HEAD.search(text, place)
    return last is not None and last[0] == ";"


def functions_in(crate):
    """The functions of a crate's sources that have a body, each as a check tells of it, with the text from there up to the next one."""
    folder = ROOT / "crates" / crate
    for file in sorted(folder.glob("src/**/*.rt")):
        text = file.read_text()
        starts = [found.start() for found in FUNCTION.finditer(text)]
        for start, end in zip(starts, [*starts[1:], len(text)]):
            if not has_no_body(text, start):
                yield told_as(crate, file.relative_to(folder), text, start), text[start:end]


def functions_of(crate, changes):
    for change in changes:
        text = (ROOT / "crates" / crate / change.path).read_text()
        place = text.find(change.old)
        function = told_as(crate, change.path, text, place) if place >= 0 else None
        if function:
            yield function


def edit_of(crate, file):
    text = file.read_text()
    changes = tuple(changes_in(text))
    named = named_in(text)
    functions = frozenset(named) or frozenset(functions_of(crate, changes))
    names = [it.rpartition("::")[2] for it in functions]
    names += [word for it in changes if named for word in CONSTANT.findall(it.old)]
    answers = own_answers(crate).get(file.stem, ())
    breaks_answer = bool(answers) or not SEARCHED.search(text) and functions <= with_answers(crate)
    return Edit(crate, file, changes, functions, frozenset(names), breaks_answer, answers)


def every_edit(crates=()):
    """The edits under must-fail/ of each crate, or of these, and those that stand here, by crates."""
    found = {}
    for folder in sorted(it for it in (ROOT / "crates").iterdir() if not crates or it.name in crates):
        files = [*(folder / "must-fail").glob("*.edit"), *(HERE / folder.name).glob("*.edit")]
        strays = own_answers(folder.name).keys() - {it.stem for it in files}
        if strays:
            raise ValueError(f"{folder.name}: answers of no edit: {', '.join(sorted(strays))}")
        if files:
            found[folder.name] = [edit_of(folder.name, file) for file in sorted(files, key=lambda it: it.stem)]
    return found


def applied(texts, changes, folder):
    """The texts by their paths with these changes made, or None where one can't be made."""
    made = dict(texts)
    for change in changes:
        text = made.get(change.path) or (folder / change.path).read_text()
        if text.count(change.old) != 1:
            return None
        made[change.path] = text.replace(change.old, change.new)
    return made


def without_tactics(crate, texts, functions):
    """The texts by their paths with these functions marked, so that no tactic is tried on their goals: only answers are looked at."""
    made, folder = dict(texts), ROOT / "crates" / crate
    for file in folder.glob("src/**/*.rt") if functions else ():
        path = str(file.relative_to(folder))
        text = made.get(path) or file.read_text()
        places = [it for it in FUNCTION.finditer(text) if told_as(crate, path, text, it.start()) in functions]
        for it in reversed(places):
            own = OWN_TACTICS.search(text, 0, it.start())
            start, rest = (own.start(), own[0].partition("\n")[2]) if own else (it.start(), "")
            mark = "#[tactic(none)]\n" if own else f"{it['indent']}#[tactic(none)]\n"
            text = f"{text[:start]}{mark}{rest}{text[it.start() :]}"
        if places:
            made[path] = text
    return made
