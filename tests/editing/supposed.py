"""What a check with edits is given, so that it looks at the functions that are edited, once, and at no other.

`rt` proved the crate as it stands, and an edit turns a body and no contract. So a function that isn't edited is judged by its
contract where an edited one calls it. Its proof is taken from what `rt` kept of its checks. It has a hole in place of a proof where
`rt` kept none, and where it may call an edited function itself, since its proof would be checked anew.

Each function that is edited has a definition of a wrong type among its answers: rattle then doesn't go over it a second time, to
offer the answers that it lacks. It isn't proved, edited or not, so what tells of an edit is a goal that is open, or an answer of the
function that is none any more.
"""

import re
from functools import cache

from editing.bodies import CONSTANT, folder_of, functions_in
from harness.counting import ROOT

NO_ANSWER = "no_answer"
"""The name of the definition of a wrong type."""

STRAY = re.compile(r"^\./(proofs/\S+)/(?:Proof|Answers)\.antt: error", re.M)
"""What rattle says, before it begins, of a file that is none of a function."""


CALL = re.compile(r"\w+(?=\(|::<)|(?<=::)\w+")
"""What may be the name of a function that is called, or passed on."""


def names_in(text):
    """The names of functions and constants in the body with which a text of a function begins, or in more."""
    body = re.sub(r"//.*", "", text.partition("{\n")[2])
    return {*CALL.findall(body), *CONSTANT.findall(body)}


@cache
def names_by_function(crate):
    """What each function of a crate may call or read, by its name. Those that a check tells of by one name are one."""
    found = {}
    for function, text in functions_in(crate):
        found.setdefault(function, set()).update(names_in(text))
    return found


def callers(crate, names):
    """The functions of a crate whose body has one of these names, or that of another such function."""
    found, left = set(), set(names)
    while left:
        more = {it for it, own in names_by_function(crate).items() if it not in found and not own.isdisjoint(left)}
        found, left = found | more, {it.rpartition("::")[2] for it in more}
    return found


def hole(crate, function):
    """A whole proof of a function that leaves everything open."""
    home, name = function.replace("::", "."), function.rpartition("::")[2]
    head = f"use Rattle.{crate}.proofs.{home}.Statement.{{statement}}\n\n"
    return f"{head}pub {name}_spec : {{M : Type 1}} → statement M\n{name}_spec = ?\n"


def holes(crate, functions):
    """The texts of the files of `proofs/` of these functions: a hole, and no answers."""
    texts = {}
    for function in functions:
        folder = folder_of(function)
        texts |= {f"{folder}/Proof.antt": hole(crate, function), f"{folder}/Answers.antt": None, f"{folder}/Invariants.antt": None}
    return texts


def answers_file(crate, function, answers):
    """A text of answers for a function: each has a goal's name, its arguments and a term."""
    home = f"Rattle.{crate}.proofs.{function.replace('::', '.')}"
    parts = ["use Rattle.std.proofs.Common.{arith, rules}", "use Rattle.std.proofs.lemmas.Grind.{common_steps}"]
    parts.append(f"use {home}.Goals as goal\n")
    for answer in answers:
        name = answer.split()[0]
        parts.append(f"pub {name} : goal.{name}\n{answer}\n")
    return "\n".join(parts)


def without_proof(crate, names, has_kept):
    """The functions of a crate that get a hole, if they aren't edited. `names` are those by which bodies may call or read what is."""
    return callers(crate, names) if has_kept else names_by_function(crate)


def supposed(crate, turned, others, strays, made, given):
    """The texts of the files of `proofs/` that a check is given, and no text of those that it isn't, by their paths. The functions that
    are `turned` are edited, and `others` get a hole. Some texts were `made` before, as those of copies. Some functions are `given`
    answers in place of their own. A folder is one of the strays where rattle takes no such file, as where the function stands in a
    macro."""
    texts = holes(crate, [it for it in sorted(others) if it not in turned and folder_of(it) not in strays])
    own = {folder_of(function): answers_file(crate, function, answers) for function, answers in given.items()}
    for folder in {folder_of(function) for function in turned}.difference(strays):
        file = ROOT / "crates" / crate / folder / "Answers.antt"
        if not file.with_name("Proof.antt").exists():
            answers = own.get(folder) or made.get(f"{folder}/Answers.antt") or (file.read_text() if file.exists() else "")
            texts[f"{folder}/Answers.antt"] = f"{answers}\n{NO_ANSWER} : Type 0\n{NO_ANSWER} = tt\n"
    return texts
