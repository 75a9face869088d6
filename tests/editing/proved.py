"""Which crates are proved as they stand, by the sums of texts that `rt` writes beside what it makes or keeps beside the kit, whatever
the times of files are."""

import copy
import functools
import importlib.machinery
import importlib.util
import json
import subprocess
from pathlib import Path

from harness.counting import ROOT


@functools.cache
def kit():
    """The folder of `rt` with its prover and its libraries."""
    return Path(subprocess.run(["rt", "doc"], capture_output=True, text=True, check=True).stdout.strip()).parent


def code_of_rt():
    """The code of `rt`, which alone knows what its sums are made of."""
    loader = importlib.machinery.SourceFileLoader("rt", str(kit() / "bin/rt"))
    made = importlib.util.module_from_spec(importlib.util.spec_from_loader("rt", loader))
    loader.exec_module(made)
    return made


def has_stamp(rt, crate):
    """Whether `rt check`, `rt lib` or `rt run` made what stands in out/, of these texts and of those below. `rt check` leaves such a sum
    of each library below the crate that it checks."""
    if not crate.is_program:
        return crate.is_built()
    crate, program = copy.copy(crate), f"{crate.folder}/out/{crate.name}"
    # (there the words that a program is run with count too)
    rt.read_files(crate)
    return rt.rtlib.text_of(f"{program}.stamp") == crate.stamp() + rt.rtlib.sum_of(program)


def is_kept(rt, kept, crate):
    """Whether `rt ci` made what stands in out/, of these texts and over what stands in out/ of those below. It leaves no sum there, and
    keeps what it proved beside the kit, by the sum of all that it read, with sums of the files."""
    kept.is_built(crate)
    try:
        made = json.loads(Path(kept.place(crate, False, kept.key(crate)), "made.json").read_text())["files"]
    except (OSError, ValueError):
        return False
    return all(rt.rtlib.sum_of(f"{crate.folder}/out/{path}") == its for path, its in made)


@functools.cache
def proved():
    """The names of the crates that are proved as they stand, with all below them."""
    rt, found = code_of_rt(), set()
    crates = sorted(rt.rtlib.crates_below(str(ROOT)), key=lambda it: len(it.below()))
    rt.Crate.allowed, rt.rtlib.sum_of = rt.handles_of(str(ROOT)), functools.cache(rt.rtlib.sum_of)
    kept = rt.Kept(crates)
    for crate in crates:
        below = {it.name for it in crate.below()}
        if found.issuperset(below) and (is_kept(rt, kept, crate) or has_stamp(rt, crate)):
            found.add(crate.name)
    return found


def is_proved(crate):
    return crate in proved()
