"""Rounds: edits of a crate that are made together, each of other functions or of copies, and one check of these functions."""

import re
from dataclasses import dataclass, field, replace

from editing.bodies import applied, without_tactics
from editing.copies import copied
from editing.libraries import below
from editing.supposed import NO_ANSWER, STRAY, supposed, without_proof
from harness.counting import ROOT

TOLD = re.compile(r"^fn (\S+): (.*)$")
OPEN = re.compile(r"^note: \S+: (?:it is not proved that|`search` found no proof)")
WRONG_ANSWER = re.compile(r"^\./proofs/(\S+)/\w+\.antt:\S+ error: (.*(?:\n  (?:has no|is not|no constructor) .*)?)$", re.M)
GONE = re.compile(
    r"has no (?:field|constructor|member|`)|is not in scope|no constructor `[^`]*` is in scope|is not a field of|projects from a record"
    rf"|was not admitted|^`{NO_ANSWER}`"
)
"""What is said of an answer that names what an edit took away, or of the one that is no answer: neither says anything of the
contract."""


@dataclass
class Round:
    """Edits of a crate, and the texts of its files with all of them."""

    crate: str
    may_copy: bool = False
    """Whether an edit turns a copy of its function, where one can be made. Then no other proof rests on what is turned."""
    given: list = field(default_factory=list)
    edits: list = field(default_factory=list)
    """Those that were given, each as one of its function or of a copy."""
    texts: dict = field(default_factory=dict)
    standing: dict = field(default_factory=dict)
    """For each edit with answers of its own, by its label, a copy of its function as it stands. It has these answers too, so the check
    sees that they prove its goals there."""

    @property
    def label(self):
        return f"{self.crate}-{len(self.edits)}-{self.edits[0].file.stem}"

    @property
    def seconds(self):
        """About how many processor seconds its check takes: it reads what stands below the crate, and searches where no answer tells."""
        return 10 + 2 * len(below(self.crate)) + sum(4 if it.breaks_answer else 10 for it in self.edits)

    def takes(self, edit, folder):
        """Makes the edit too, unless it turns a function that another one turns and no copy of it, or its text isn't there once."""
        made = self.may_copy and copied(edit, self.texts, len(self.edits))
        if not made:
            is_turned = any(edit.functions & other.functions for other in self.edits)
            texts = None if is_turned else applied(self.texts, edit.changes, folder)
            if not texts:
                return False
            made = edit, texts
        made = self.with_standing(edit, *made) if edit.answers else made
        self.given, self.edits, self.texts = [*self.given, edit], [*self.edits, made[0]], made[1]
        return True

    def with_standing(self, given, edit, texts):
        """The edit, as it was given and as it is made, and the texts by their paths with a copy of its function as it stands. Where none
        can be made its own answers say nothing, and all goals are searched."""
        name = f"{next(iter(given.functions))}_as_it_stands"
        if name not in self.standing.values():
            made = copied(given, texts, "as_it_stands", changes=())
            if not made:
                return replace(edit, answers=(), breaks_answer=False), texts
            texts = made[1]
        self.standing[given.label] = name
        return edit, texts

    def functions(self):
        """The functions that are checked: those that the edits turn, and copies as they stand."""
        return sorted({*self.standing.values()}.union(*(it.functions for it in self.edits)))

    def answers(self):
        """The answers in place of those in `proofs/`, by functions, where edits have their own."""
        found = {}
        for given, edit in zip(self.given, self.edits):
            for function in {*edit.functions, self.standing[given.label]} if edit.answers else ():
                found[function] = [*dict.fromkeys([*found.get(function, ()), *edit.answers])]
        return found

    def texts_for_check(self):
        """The texts, in which no tactic is tried on the goals of a function whose answers may tell of its edit."""
        answered = [it.functions for it in self.edits if it.breaks_answer]
        return without_tactics(self.crate, self.texts, frozenset(self.standing.values()).union(*answered))


def rounds_of(crate, edits, may_copy=False):
    """The edits in as few rounds as they go, the first come first."""
    found, folder = [], ROOT / "crates" / crate
    for edit in edits:
        if not any(it.takes(edit, folder) for it in found):
            found.append(Round(crate, may_copy))
            if not found[-1].takes(edit, folder):
                raise ValueError(f"{edit.label}: its text isn't in its file exactly once")
    return found


def is_own(verdict, is_open):
    """Whether a verdict on a function is one on itself, and not only on what it calls."""
    reasons = re.sub(r"^(?:no proof|not proved)(?:: |; |$)", "", verdict).split("; ")
    said = [it for it in reasons if it and not it.startswith("it ")]
    if verdict.startswith("no proof"):
        return bool(said)
    return verdict.startswith("not proved") and (is_open or reasons == [""])


def wrong_answers(said, named_gone):
    """The functions with an answer in their folder of `proofs/` that is none any more: those where it names what is gone, or the
    others."""
    return {path.replace("/", "::") for path, why in WRONG_ANSWER.findall(said) if bool(GONE.search(why)) == named_gone}


def unproved(said):
    """The functions of a crate that a check tells of as not proved for themselves, and not because they call another one: by their
    goals, or by an answer that is none any more. An answer that only names what is gone tells nothing: a goal has to be open too."""
    found, gone, is_open = wrong_answers(said, False), wrong_answers(said, True), False
    for line in said.splitlines():
        told = TOLD.match(line)
        is_open = is_open or bool(OPEN.match(line))
        if told:
            name, verdict = told.group(1).partition("::")[2], told.group(2)
            if is_own(verdict, is_open) and (is_open or name not in gone):
                found.add(name)
            is_open = False
    return found


def is_function(told, function):
    """Whether a check's name of a function is this one's, or that of a closure in it, which has a part `fn` too."""
    parts, path = [it for it in told.split("::") if it != "fn"], function.split("::")
    return parts[: len(path)] == path


def is_proved_standing(crate, function, said):
    """Whether a check says that each answer of a copy of a function as it stands is a proof."""
    told = re.search(rf"^fn {crate}::{function}: (?!could not tell)", said, re.M)
    wrong = [why for path, why in WRONG_ANSWER.findall(said) if path.replace("/", "::") == function]
    return bool(told) and all(why.startswith(f"`{NO_ANSWER}`") for why in wrong)


def complaints(edit, said, standing=None):
    """What is wrong with an edit, by what a check of its round said: of answers alone, where these may tell of it. `standing` is the copy
    of its function that has to be proved, where the answers are its own."""
    if standing and not is_proved_standing(edit.crate, standing, said):
        yield "its own answers don't prove their goals of the function as it stands"
    own = wrong_answers(said, False) if edit.breaks_answer else unproved(said)
    if not re.search(r"^only=", said, re.M):
        yield f"it wasn't checked: {next((line for line in said.splitlines() if 'error' in line), said[-300:])}"
    elif not any(is_function(it, function) for it in own for function in edit.functions):
        names = ", ".join(sorted(edit.functions))
        yield f"not refused: {names} is proved with it, or not proved only because of what it calls or of names that it took away"


def left_of(it, edits):
    """Rounds of those of a round's edits that weren't refused in it. Where answers alone were looked at, all goals are searched. Where
    copies were turned, the functions themselves are. Else they go on without those that were refused, or one by one."""
    if any(edit.breaks_answer for edit in edits):
        return rounds_of(it.crate, [replace(edit, breaks_answer=False, answers=()) for edit in edits], may_copy=True)
    if any(edit not in it.edits for edit in edits) or len(edits) < len(it.edits):
        return rounds_of(it.crate, edits)
    return [alone for edit in edits for alone in rounds_of(it.crate, [edit])] if len(edits) > 1 else []


def said_of(it, turned, bench):
    """What a check of a round says. It begins again without what rattle doesn't take, where this was said in place of verdicts. Where it
    was said beside them, these hold: that function was proved as ever, and has no hole. Later rounds leave its hole out."""
    strays, only = bench.strays.setdefault(it.crate, set()), [word for name in turned for word in ("--only", name)]
    names = set().union(*(edit.names for edit in it.edits))
    others = without_proof(it.crate, names, bench.has_kept(it.crate))
    while True:
        proofs = supposed(it.crate, turned, others, strays, it.texts, it.answers())
        said = bench.say("check", it.crate, it.texts_for_check() | proofs, "--allow-holes", *only)
        found = STRAY.findall(said)
        if strays.issuperset(found) or re.search(r"^only=", said, re.M):
            strays.update(found)
            return said
        strays.update(found)


def outcomes(it, bench, told=None):
    """The edits of a round that need no more checks, each with what is wrong with it, by a check of the functions that the round turns,
    and of those that they call, and rounds of the others. Goals that wait for a callee's proof aren't looked at where the callee is
    edited too, so these are tried again. What a check says is kept in a folder `told`, if there is one."""
    said = said_of(it, it.functions(), bench)
    if told:
        told.mkdir(parents=True, exist_ok=True)
        (told / f"{it.label}.txt").write_text(said)
    found = [(given, list(complaints(edit, said, it.standing.get(given.label)))) for given, edit in zip(it.given, it.edits)]
    again = left_of(it, [edit for edit, wrong in found if wrong])
    return [(edit, wrong) for edit, wrong in found if not again or not wrong], again
