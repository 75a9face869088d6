"""What the check of a crate stands on: the libraries that `rt` left in the repository, where they are of the texts that stand."""

import functools
import os
import shutil
import subprocess
import tempfile
from collections import Counter
from pathlib import Path
from threading import Lock

from editing.proved import is_proved, kit
from harness.counting import ROOT

SOURCES = ("src", "specs", "proofs")


@functools.cache
def uses_of():
    """What each crate of the repository stands on, by crates.txt."""
    lines = [line.partition(":") for line in (ROOT / "crates.txt").read_text().splitlines() if line[:1] not in ("", "#")]
    return {name.split()[0]: words.split() for name, _, words in lines}


def own_libraries(crate):
    """The crates of the repository that a crate names."""
    return [it for it in uses_of()[crate] if it in uses_of()]


def below(crate):
    """The crates of the repository below a crate."""
    return {it for name in own_libraries(crate) for it in (name, *below(name))}


def is_program(crate):
    return (ROOT / "crates" / crate / "src/main.rt").exists()


def left_by_proof(crate):
    """The file that stands once the crate is proved: a part of its library, or its program."""
    out = ROOT / "crates" / crate / "out"
    return out / crate if is_program(crate) else out / "rlib" / f"{crate}.rlib" / "format"


def kept_of(crate):
    """The folder in which `rt check`, `rt lib` and `rt run` keep what they checked of the crate. `rt ci` leaves none."""
    return ROOT / "crates" / crate / "out/incremental"


def linked(one, other):
    """Gives a file that a check only replaces a second name; others are copied."""
    if str(one).endswith(".oantt"):
        try:
            return os.link(one, other)
        except OSError:
            pass
    return shutil.copy2(one, other)


def place(file, text):
    """Writes a file, or takes it away where there is no text."""
    if text is None:
        file.unlink(missing_ok=True)
    else:
        file.parent.mkdir(parents=True, exist_ok=True)
        file.write_text(text)


class Bench:
    """A room for checks: what they keep of each crate, and the libraries that have to be built there."""

    def __init__(self, room):
        self.room, self.seconds, self.strays = Path(room), Counter(), {}
        self.begun, self.proved, self.lock = set(), set(), Lock()

    def library(self, crate):
        if is_proved(crate):
            return left_by_proof(crate).parent
        return self.room / "rlib" / f"{crate}.rlib"

    def has_kept(self, crate):
        """Whether the proofs of the crate as it stands are kept: by `rt`, or by a proof here."""
        return crate in self.proved or is_proved(crate) and kept_of(crate).exists()

    def kept(self, crate, room):
        """What a check of the crate begins with: the first with what `rt` kept of it, each later one, in a room of its own, with what
        the first one kept, since several may run at once."""
        first, own = self.room / "kept" / crate, Path(room) / "kept"
        found, folder = (first, own) if crate in self.begun else (kept_of(crate), first)
        if found.exists() and not folder.exists():
            shutil.copytree(found, folder, symlinks=True, copy_function=linked)
        folder.mkdir(parents=True, exist_ok=True)
        return folder

    def words(self, crate, room):
        """The words of a check of the crate, by one processor."""
        of_kit = ["std", *(it for it in uses_of()[crate] if it not in uses_of())]
        found = {it: kit() / "rlibs" / f"{it}.rlib" for it in of_kit} | {it: self.library(it) for it in own_libraries(crate)}
        words = ["--crate-name", crate, "src/main.rt" if is_program(crate) else "src/lib.rt"]
        for name, library in found.items():
            words += ["--extern", f"{name}={library}"]
        for folder in {kit() / "rlibs", *(self.library(it).parent for it in below(crate))}:
            words += ["-L", f"dependency={folder}"]
        words += ["--antt-project", kit() / "rattle/logic/antt-project.json", "--logic-built", kit() / "logic_built"]
        return [*words, "--links", f"{crate}=", "--jobs", "1", "--incremental", self.kept(crate, room)]

    def say(self, verb, crate, texts, *more):
        """What a check or a build says of a copy of the crate with these texts. A file without one isn't in the copy."""
        with tempfile.TemporaryDirectory(prefix="edits-") as room:
            for part in SOURCES:
                if (ROOT / "crates" / crate / part).exists():
                    shutil.copytree(ROOT / "crates" / crate / part, Path(room) / part)
            for path, text in texts.items():
                place(Path(room) / path, text)
            said = self.run([kit() / "bin/rattle", verb, *self.words(crate, room), *more], room, crate)
            self.begun.add(crate)
            return said

    def run(self, words, room, crate):
        """What a call says. Its processor time is added to that of its crate."""
        told = {"stdout": subprocess.PIPE, "stderr": subprocess.STDOUT, "text": True, "errors": "replace"}
        with subprocess.Popen(words, cwd=room, stdin=subprocess.DEVNULL, **told) as call:
            said = call.stdout.read()
            _, status, used = os.wait4(call.pid, 0)
            call.returncode = os.waitstatus_to_exitcode(status)
        with self.lock:
            self.seconds[crate] += used.ru_utime + used.ru_stime
        return said

    def prove(self, crate):
        """What a proof of the crate as it stands says, which builds its library too."""
        self.library(crate).parent.mkdir(exist_ok=True)
        words = ("check", crate, {}) if is_program(crate) else ("build", crate, {}, "-o", self.library(crate))
        said = self.say(*words)
        self.proved.add(crate)
        return said
