"""Whether each want of memory that the sources make passes on the refusal of a growth."""

import re

from editing.bodies import function_at
from harness.counting import ROOT
from refusing.passed_on import OTHERWISE, PASSED_ON
from refusing.places import passings, plain
from refusing.sources import crates, libraries


def named_at(path, text, place):
    """The function around a place, with the type of its `impl`."""
    _, owner, name = function_at(path, text, place) or ("", "", "no function")
    return f"{owner}::{name}" if owner else name


def wants_in(file, text):
    """Each place of a source that makes a want, with its function."""
    path, source = f"src/{file.partition('/')[2]}", plain(text)
    found = [(named_at(path, source, it.place), it) for it in passings(source)]
    for function, made in OTHERWISE.get(file, {}).items():
        others = [(named_at(path, source, it.place), it) for it in passings(source, re.compile(made))]
        found += [(name, it) for name, it in others if name == function]
    return sorted(found, key=lambda it: it[1].place)


def made_up_in(file, text):
    """What is wrong with the wants of a source, in words."""
    left = {function: list(calls) for function, calls in PASSED_ON.get(file, {}).items()}
    for function, it in wants_in(file, text):
        line = text.count("\n", 0, it.place) + 1
        where, calls = f"{file}, line {line}: {function} makes a want of memory", left.get(function, [])
        if it.bare in calls:
            calls.remove(it.bare)
        elif it.bare:
            yield f"{where} at `{it.bare}`, where no growth's refusal is at hand"
        elif it.call in calls:
            calls.remove(it.call)
        elif it.call:
            yield f"{where} of the refusal of `{it.call}`, which tests/refusing/passed_on.py doesn't name there"
    for function, calls in left.items():
        for call in calls:
            yield f"{file}: {function} passes on no refusal of `{call}`, which tests/refusing/passed_on.py names there"


def source_of(file):
    crate, _, path = file.partition("/")
    return (ROOT / "crates" / crate / "src" / path).read_text()


def made_up():
    """The same of all libraries and the program."""
    found = [f"{crate.name}/{path}" for crate in libraries(crates()).values() for path in crate.texts]
    for file in found:
        yield from made_up_in(file, source_of(file))
    for file in sorted({*PASSED_ON, *OTHERWISE}.difference(found)):
        yield f"tests/refusing/passed_on.py names {file}, and there is no such file"
