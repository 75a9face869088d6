"""Files that `compact` doesn't take, and places where it writes nothing: what is told, and that nothing has changed."""

import os
import tempfile
from itertools import product
from pathlib import Path

from cases.replays import A, P
from cases.tables import ONE_ROW, PROFILE, table_file
from cases.vehicles import DAMAGED, FAULTS, GROUP_FAULTS, NEW, NO_FORM, WOKEN, checked, journal, not_a_journal
from compacting.running import cannot_write, content_amiss, run
from crashing.aside import LINK_TO, lay_at, standing_at
from harness.building import no_random_numbers
from harness.case import RANDOM, cannot_read, not_a_table, padded, told
from harness.running import differences, outcome
from harness.texts import as_bytes

BEFORE = ("--before", "9")
WAYS = (BEFORE, (*BEFORE, "--follow"))
"""Without a server the two tell the same."""
PLACES = ("file", "folder", "pipe", *(f"{LINK_TO}{name}" for name in ("file", "folder", "pipe", "old", "nowhere")))
"""What may be laid at a path."""
WITHIN = 20
"""Seconds in which a run ends that does nothing."""


def untouched(program, files, words, wanted):
    """What is wrong with a run in a folder with these files, of which none may change, and that no new one may come to: its status
    and outputs."""
    with tempfile.TemporaryDirectory() as name:
        paths = {Path(name, file): as_bytes(text) for file, text in files.items()}
        for path, content in paths.items():
            path.write_bytes(content)
        words = [word.replace("@", name) for word in words]
        found, wanted = run(program, "compact", *words), tuple(str(part).replace("@", name) for part in wanted)
        if tuple(map(str, found)) != wanted:
            yield f"{words}: {found}, in place of {wanted}"
        if sorted(os.listdir(name)) != sorted(files) or any(path.read_bytes() != content for path, content in paths.items()):
            yield f"{words}: there are {sorted(os.listdir(name))}, or others than before"


def faulty_journals(program):
    """Each fault of a journal is told as `vehicles` does. No line is judged, so none is refused."""
    faulty = [(journal(*texts), fault) for texts, fault in FAULTS] + [(text, "form") for text in NO_FORM]
    faulty += [(checked(*groups), fault) for groups, fault in GROUP_FAULTS]
    faulty += [(text, f"damaged {line}") for text, line in DAMAGED]
    for text, fault in faulty:
        if not fault.startswith("refused"):
            for way in WAYS:
                yield from untouched(program, {"old": text}, ["@/old", "@/new", *way], (3, "", not_a_journal(fault)))


def judged_first(program):
    """With a table file the old journal is judged before all else is looked at, and each fault told as `vehicles` does. Where it's
    accepted the compaction is as without one."""
    for way in WAYS:
        yield from judged_by(program, ["@/old", "@/new", *way, "--table", "@/table"])
    old = journal(*NEW, WOKEN)
    yield from accepted(program, old, BEFORE, "")
    yield from accepted(program, old, [*BEFORE, "--follow"], "following\n")


def judged_by(program, words):
    """What is wrong with compactions by these words, of journals that are judged, and aren't taken."""
    table = {"table": profile()}
    for texts, fault in FAULTS:
        for there in ({}, {"new": ""}):
            files = {"old": journal(*texts), **table, **there}
            yield from untouched(program, files, words, (3, "", not_a_journal(fault)))
    for text in NO_FORM:
        yield from untouched(program, {"old": text, **table}, words, (3, "", not_a_journal("form")))
    yield from untouched(program, table, words, (3, "", cannot_read("@/old")))
    yield from untouched(program, {"old": journal("{")}, words, (3, "", cannot_read("@/table")))
    for old in ("{", WOKEN):
        yield from untouched(program, {"old": journal(old), "table": "{"}, words, (3, "", not_a_table("not_json")))
    old = journal(*NEW, WOKEN)
    yield from untouched(program, {"old": old, "new": "", **table}, words, (3, "", "mds_city: @/new is there\n"))
    # by the one row of this table no vehicle is dropped off
    yield from untouched(program, {"old": old, "table": ONE_ROW}, words, (3, "", not_a_journal("refused 2")))


def accepted(program, old, way, printed):
    """What is wrong with the compaction of a journal of one event that the profile accepts, where it's judged."""
    with tempfile.TemporaryDirectory() as name:
        paths = [Path(name, file) for file in ("old", "new", "table")]
        paths[0].write_text(old)
        paths[2].write_text(profile())
        found = run(program, "compact", *paths[:2], *way, "--table", paths[2])
        if found != (0, f"{printed}registrations 1 events 1 of 1\n", ""):
            yield f"{way}: {found}"
        else:
            yield from content_amiss(paths[1].read_bytes(), old.encode())


def profile():
    return table_file(PROFILE)


def no_old_file(program):
    """A file that isn't there, or is a folder."""
    for way in WAYS:
        yield from untouched(program, {}, ["@/old", "@/new", *way], (3, "", cannot_read("@/old")))
        yield from untouched(program, {}, ["@", "@/new", *way], (3, "", cannot_read("@")))


def a_new_file_that_is_there(program):
    """Nothing is written over a file, the old one, a folder, a pipe or a link, also one that leads nowhere. That is told before anything is
    done, also where the old journal has a fault."""
    there = (3, "", "mds_city: @/new is there\n")
    old = journal(*NEW, WOKEN)
    for way in WAYS:
        for text in ("", "what was there", old):
            yield from untouched(program, {"old": old, "new": text}, ["@/old", "@/new", *way], there)
        yield from untouched(program, {"old": old}, ["@/old", "@/old", *way], (3, "", "mds_city: @/old is there\n"))
    for how, way, text in product(PLACES, WAYS, (old, journal("{"))):
        yield from (f"{how}: {it}" for it in beside_a_place(program, "new", how, way, text, "NEW is there"))


def beside_a_place(program, place, how, way, old, told):
    """What is wrong with a compaction where this is laid at a place beside the old file: this has to be told of NEW, and all stays as it
    was."""
    with tempfile.TemporaryDirectory() as name:
        paths = [Path(name, it) for it in ("file", "folder", "pipe", "old", place)]
        for path in paths[:3]:
            lay_at(path, path.name)
        paths[3].write_text(old)
        lay_at(paths[4], how)
        was = [standing_at(path) for path in paths]
        found = run(program, "compact", f"{name}/old", f"{name}/new", *way, seconds=WITHIN)
        wanted = (3, "", f"mds_city: {told.replace('NEW', f'{name}/new')}\n")
        if found != wanted:
            yield f"{way}: {found}, in place of {wanted}"
        if sorted(os.listdir(name)) != sorted(path.name for path in paths) or [standing_at(path) for path in paths] != was:
            yield f"{way}: there are {sorted(os.listdir(name))}, or others than before"


def where_it_is_written(program):
    """Until it is whole the new file stands at a name of its own. What an earlier run left there goes. A folder, a pipe or a link that
    stands there is no such file: none is written through, or waited for."""
    old = journal(*NEW, WOKEN)
    for how, way in product(("folder", "pipe", *(f"{LINK_TO}{name}" for name in ("folder", "pipe", "nowhere"))), WAYS):
        yield from (f"{how}: {it}" for it in beside_a_place(program, "new.part", how, way, old, "cannot write NEW"))
    for how, way in product(("file", "empty file", f"{LINK_TO}earlier"), WAYS):
        yield from (f"{how}: {it}" for it in over_an_earlier_one(program, how, way, old))


def over_an_earlier_one(program, how, way, old):
    """What is wrong with a compaction that finds what an earlier one left."""
    with tempfile.TemporaryDirectory() as name:
        earlier, new = Path(name, "earlier"), Path(name, "new")
        Path(name, "old").write_text(old)
        earlier.write_text("what stands elsewhere")
        lay_at(Path(name, "new.part"), how)
        found = run(program, "compact", f"{name}/old", new, *way, seconds=WITHIN)
        if found[0] or sorted(os.listdir(name)) != ["earlier", "new", "old"] or new.is_symlink():
            yield f"{way}: {found}, and there are {sorted(os.listdir(name))}"
        else:
            yield from (f"{way}: {it}" for it in content_amiss(new.read_bytes(), old.encode()))
        if earlier.read_text() != "what stands elsewhere":
            yield f"{way}: a file that a link led to has {earlier.read_bytes()[:200]!r}"


def no_place_for_it(program):
    """A folder that isn't there: status 3, and a text that names the new file."""
    with tempfile.TemporaryDirectory() as name:
        path = Path(name, "old")
        path.write_text(journal(*NEW, WOKEN))
        new = Path(name, "nowhere/new")
        found = run(program, "compact", path, new, *BEFORE)
        if found != (3, "", cannot_write(new)) or os.listdir(name) != ["old"]:
            yield f"{found}, and {os.listdir(name)}"


def without_random_numbers(program):
    """Where the system gives no random numbers that is told, before a file that isn't there, or one that is."""
    for way, old, new in product(WAYS, ("old", "nowhere"), ("new", "old")):
        case = told(["compact", old, new, *way], RANDOM, files={"old": journal(*NEW, WOKEN)}, env=no_random_numbers())
        yield from (f"{old} {new} {way}: {it}" for it in differences(case, *outcome(program, case)))


def no_words(program):
    """Words that don't parse."""
    old = journal(*NEW, WOKEN)
    for words in (
        "@/old @/new",
        "@/old --before 9",
        "--before 9",
        "@/old @/new --before",
        "@/old @/new --before x",
        "@/old @/new --before -1",
        "@/old @/new --before 1.5",
        "@/old @/new --before 9 --before 9",
        "@/old @/new @/more --before 9",
        "@/old @/new --before 9 --wait",
        "@/old @/new --before 9 --table",
        "@/old @/new --before 9 --table @/old --table @/old",
        f"@/old --cut {P} {A} 1",
        f"@/old @/new --cut {P} {A}",
        f"@/old @/new --cut {P} {A} x",
        f"@/old @/new --cut {P} {A} -1",
        f"@/old @/new --cut {P} {A} 1000000000001",
        f"@/old @/new --cut {P} {A} 1 --before x",
        f"@/old @/new --before 9 --cut {P} {A} 1 {P}",
        "@/old @/new --before 9 --cut",
        "@/old @/new --follow",
        "@/old @/new --before 9 --follow --follow",
        f"@/old @/new --before 9 --follow --cut {P} {A} 1",
    ):
        with tempfile.TemporaryDirectory() as name:
            Path(name, "old").write_text(old)
            status, out, faults = run(program, "compact", *words.replace("@", name).split())
            if (status, out) != (2, "") or not faults or os.listdir(name) != ["old"]:
                yield f"{words}: {status}, {out!r}, {faults!r}, and {os.listdir(name)}"


TOLD = {
    "@/old @/new --follow": "one of --before <TIME> and --cut <PROVIDER> <DEVICE> <N> is needed",
    f"@/old @/new --before 9 --follow --cut {P} {A} 1": "--follow and --cut don't go together",
    f"@/old @/new --cut {P} {A} x": "the <N> of --cut <PROVIDER> <DEVICE> <N> is a number of events",
}
"""What is told of words that don't go together, or are none."""


def mistakes_by_name(program):
    """What is wrong with the words is told in the first line."""
    for words, text in TOLD.items():
        found = run(program, "compact", *words.split())
        if found[2].partition("\n")[0] != f"error: {text}":
            yield f"{words}: {found}"


def long_lines(program):
    """A line of the greatest length is copied as it stands."""
    text = padded(WOKEN, 4194304)
    old = journal(*NEW, text)
    with tempfile.TemporaryDirectory() as name:
        paths = Path(name, "old"), Path(name, "new")
        paths[0].write_text(old)
        found = run(program, "compact", *paths, *BEFORE)
        if found != (0, "registrations 1 events 1 of 1\n", ""):
            yield f"{found}"
        else:
            yield from content_amiss(paths[1].read_bytes(), old.encode())


FAULTY = [
    faulty_journals,
    judged_first,
    no_old_file,
    a_new_file_that_is_there,
    where_it_is_written,
    no_place_for_it,
    without_random_numbers,
    no_words,
    mistakes_by_name,
    long_lines,
]
