"""Copies of functions, by which one check tells of several edits of a function: each turns a copy of its own.

A copy stands behind its function in the same file, under a name of its own, with the same contract and the same answers. Nothing
calls it. So a check tells of it what it would tell of the function with the edit, and takes the proofs of all that stands from
those that are kept.
"""

import re
from dataclasses import replace

from editing.bodies import FUNCTION, applied, folder_of, is_of_trait, told_as
from harness.counting import ROOT

ATTRIBUTES = re.compile(r"(?:^ *#\[[^\n]*\]\n)*\Z", re.M)
OF_FUNCTION = r"(?:Answers|Code|Given|Goals|Invariants|Met|Statement)\b"
PARTS = ("Answers.antt", "Invariants.antt")


def extent(crate, path, text, function):
    """Where a function of a file of a crate begins, with its attributes, and where it ends, if it stands there once and in no trait."""
    heads = [it for it in FUNCTION.finditer(text) if told_as(crate, path, text, it.start()) == function]
    if len(heads) != 1 or is_of_trait(text, heads[0].start()):
        return None
    last = f"\n{heads[0]['indent']}}}\n"
    end = text.find(last, heads[0].start())
    return (ATTRIBUTES.search(text, 0, heads[0].start()).start(), end + len(last)) if end >= 0 else None


def proof_of_copy(crate, function, copy):
    """The texts of the files of a copy's proof: those of the function, which name its own goals alone."""
    own, texts = rf"\bRattle\.{crate}\.proofs\.{re.escape(function.replace('::', '.'))}(?=\.{OF_FUNCTION})", {}
    for part in PARTS:
        file = ROOT / "crates" / crate / folder_of(function) / part
        if file.exists():
            texts[f"{folder_of(copy)}/{part}"] = re.sub(own, f"Rattle.{crate}.proofs.{copy.replace('::', '.')}", file.read_text())
    return texts


def copied(edit, texts, number, changes=None):
    """The edit as one of a copy of its function, and the texts by their paths with this copy, or None where none can be made. Other
    changes may be made in the copy, or none."""
    folder, paths = ROOT / "crates" / edit.crate, {it.path for it in edit.changes}
    if len(edit.functions) != 1 or len(paths) != 1:
        return None
    function, path = next(iter(edit.functions)), next(iter(paths))
    if (folder / folder_of(function) / "Proof.antt").exists():
        return None
    text = (folder / path).read_text()
    now = texts.get(path) or text
    stands, place = extent(edit.crate, path, text, function), extent(edit.crate, path, now, function)
    made = stands and place and applied({path: text[slice(*stands)]}, edit.changes if changes is None else changes, folder)
    if not made:
        return None
    name, copy = function.rpartition("::")[2], f"{function}_{number}"
    body = re.sub(rf"\bfn {name}\b", f"fn {name}_{number}", made[path], count=1)
    with_copy = {path: f"{now[: place[1]]}\n{body}{now[place[1] :]}", **proof_of_copy(edit.crate, function, copy)}
    return replace(edit, functions=frozenset([copy]), names=frozenset()), texts | with_copy
