"""Runs of `compact`, and what is wrong with what they leave."""

import re
import subprocess

from crashing.files import CHECKED_LINE, behind, counted, fault_of, texts_in
from harness.case import HOW_FAR
from harness.texts import differing

SECONDS = 120
IN_GROUPS = (0, 7)
"""An old journal is of version 1, or of version 2 in groups of so many lines."""


def run(program, *words, env=None, seconds=SECONDS):
    """The status and both outputs of a run, but for how far it is where it takes long. One that doesn't end is ended."""
    try:
        ran = subprocess.run([program, *map(str, words)], capture_output=True, env=env, timeout=seconds)
    except subprocess.TimeoutExpired:
        return f"none after {seconds} seconds", "", ""
    return ran.returncode, ran.stdout.decode(), re.sub(HOW_FAR, "", ran.stderr.decode())


def cannot_write(path):
    return f"mds_city: cannot write {path}\n"


def totals(lines, places):
    """The last line of a run that leaves these places of the lines."""
    registrations = sum(line.time is None for line in lines)
    events = sum(lines[place].time is not None for place in places)
    return f"registrations {registrations} events {events} of {len(lines) - registrations}\n"


def content_amiss(content, wanted):
    """What is wrong with the bytes of a new file: it's a journal of version 2, whose groups are whole, and has the texts of another
    journal."""
    front = counted(content)
    if not front.startswith(CHECKED_LINE + b"\n"):
        yield f"the first line is {front[:100]!r}"
    elif fault := fault_of(front):
        yield f"its groups: {fault}"
    else:
        yield from differing(b"\n".join(texts_in(front)), b"\n".join(texts_in(counted(wanted))), "the texts")
    if behind(content) not in (b"", b"#"):
        yield f"behind the lines stands {behind(content)[:200]!r}"


def left_amiss(program, making, places, folder, *words, end=b"#", printed=""):
    """What is wrong with a compaction of a journal of either version, which is written to the folder with this end, and with what is
    left: these places of it. So much is printed before the totals."""
    for in_groups in IN_GROUPS:
        content = making.content(end=end, in_groups=in_groups)
        (folder / "new").unlink(missing_ok=True)
        complaints = left_of_content(program, making, content, places, folder, *words, printed=printed)
        yield from (f"groups of {in_groups}: {it}" for it in complaints)


def left_of_content(program, making, content, places, folder, *words, printed=""):
    """What is wrong with a compaction of a journal with these bytes."""
    old, new = folder / "old", folder / "new"
    old.write_bytes(content)
    found = run(program, "compact", old, new, *words)
    wanted = (0, printed + totals(making.lines, places), "")
    if found != wanted:
        yield f"{words}: {found}, in place of {wanted}"
    elif old.read_bytes() != content:
        yield f"{words}: the old file is another one"
    else:
        yield from (f"{words}: {it}" for it in content_amiss(new.read_bytes(), making.content(places)))
