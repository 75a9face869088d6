"""Journals, and what `events` prints of one vehicle's."""

import resource
import subprocess
import tempfile
from pathlib import Path

from cases.debugging import BAD, NOBODY
from cases.replays import A, B, P, event, history, identifier
from cases.vehicles import DAMAGED, FAULTS, FORM, GROUP_FAULTS, LONG, NEW, NO_FORM, RESERVED, ROOM, WOKEN
from cases.vehicles import checked, journal, not_a_journal, registered
from harness.building import no_random_numbers
from harness.case import CLOSED, FOLDER, MAX_BYTES, NO_STREAMS, OUTPUT, Case, cannot_read, padded, told

C = "00000000-0000-4000-8000-00000000000c"
"""A device that no journal has."""
OTHER = identifier(1, 1)
"""Another provider, which has a device A too."""
OF_A = f"events journal {P} {A}"
ELSEWHERE = event(B, "e1", "provider_drop_off", "available", 1500)
THEIRS = WOKEN.replace(P, OTHER)
SPACED = " " + WOKEN.replace('"provider_id": ', '"provider_id" :\t') + "\r"
"""The same request in another text."""
# The lines behind the form's, and those that tell an event of device A.
TAKEN = [
    (NEW, ()),
    ((*NEW, WOKEN), (WOKEN,)),
    ((*NEW, WOKEN, RESERVED), (WOKEN, RESERVED)),
    ((registered(B), *NEW, ELSEWHERE, WOKEN), (WOKEN,)),
    ((*NEW, WOKEN, registered(B), ELSEWHERE, RESERVED), (WOKEN, RESERVED)),
    ((registered(A).replace(P, OTHER), *NEW, THEIRS, WOKEN), (WOKEN,)),
    ((*NEW, SPACED), (SPACED,)),
    # no request is judged
    ((*NEW, RESERVED, WOKEN, WOKEN), (RESERVED, WOKEN, WOKEN)),
    ((WOKEN,), (WOKEN,)),
    ((*NEW, *NEW), ()),
]
# The words for the vehicle's provider and device.
NAMES = [(P.upper(), A), (P, A.replace("-", "")), (f"{{{P}}}", f"urn:uuid:{A}")]
NO_NAMES = [(P, "A"), ("P", A), (P[:-1], A), (P, A + "0"), ("", A), (P, "")]


def printed(text, lines, words=OF_A, **more):
    return Case(words, out="".join(f"{line}\n" for line in lines), files={"journal": text}, **more)


def events_of_a_vehicle():
    """What is printed of journals at rest, torn ones and closed ones."""
    for texts, lines in TAKEN:
        yield printed(journal(*texts), lines)
        yield printed(journal(*texts, end=""), lines)
        yield printed(journal(*texts, end="#" + ROOM), lines)
        yield printed("", lines, words=f"events - {P} {A}", given=journal(*texts))
        for groups in ((texts,), tuple((text,) for text in texts), (texts[:1], (), texts[1:])):
            yield printed(checked(*groups), lines)
            yield printed(checked(*groups, end="#" + ROOM), lines)
            yield printed("", lines, words=f"events - {P} {A}", given=checked(*groups, end=""))
    for end in (f"#{RESERVED}\n {RESERVED}\n", "\n", f" {RESERVED}", f" {RESERVED[:-1]}", f"#{LONG}"):
        yield printed(journal(*NEW, WOKEN, end=end), [WOKEN])
    for provider, device in NAMES:
        yield printed(journal(*NEW, WOKEN), [WOKEN], words=["events", "journal", provider, device])
    long = padded(WOKEN, MAX_BYTES)
    yield printed(journal(*NEW, long, long), [long, long])
    yield printed(journal(*NEW, WOKEN), [WOKEN], env=no_random_numbers(), name="without random numbers")


def no_events_of_it():
    """A vehicle that isn't there, words that name none, and files that are no journal, of which nothing is printed."""
    for texts in ((), (registered(B), ELSEWHERE), (registered(A).replace(P, OTHER), THEIRS)):
        yield Case(OF_A, status=1, faults=NOBODY, files={"journal": journal(*texts)})
        yield Case(OF_A, status=1, faults=NOBODY, files={"journal": checked(texts)})
    yield Case(f"events journal {P} {C}", status=1, faults=NOBODY, files={"journal": journal(*NEW, WOKEN)})
    for provider, device in NO_NAMES:
        for name in ("journal", "nowhere"):
            yield Case(["events", name, provider, device], status=2, faults=BAD, files={"journal": FORM})
    for texts, fault in FAULTS:
        if not fault.startswith("refused"):
            yield told(OF_A, not_a_journal(fault), files={"journal": journal(*texts)})
    for groups, fault in GROUP_FAULTS:
        if not fault.startswith("refused"):
            yield told(OF_A, not_a_journal(fault), files={"journal": checked(*groups)})
    for text, line in DAMAGED:
        yield told(OF_A, not_a_journal(f"damaged {line}"), files={"journal": text})
    yield told(OF_A, not_a_journal("bad_line 3"), files={"journal": journal(*NEW, WOKEN, "{", RESERVED)})
    yield told(OF_A, not_a_journal("bad_line 6"), files={"journal": checked(NEW, (WOKEN,), ("{", RESERVED))})
    yield told(OF_A, not_a_journal("too_long 2"), files={"journal": journal(*NEW, end=f" {LONG}")})
    for text in NO_FORM:
        yield told(OF_A, not_a_journal("form"), files={"journal": text})
        yield told(f"events - {P} {A}", not_a_journal("form"), given=text)
    yield told(f"events nowhere {P} {A}", cannot_read("nowhere"))
    yield told(OF_A, cannot_read("journal"), files={"journal": FOLDER})
    yield told(f"events - {P} {A}", cannot_read("-"), stdin=CLOSED)
    for stdout in NO_STREAMS:
        yield told(OF_A, OUTPUT, files={"journal": journal(*NEW, WOKEN)}, stdout=stdout)
        yield Case(OF_A, files={"journal": journal(*NEW)}, stdout=stdout, name="nothing to print")


MANY = 40_000
"""Events of a vehicle."""
MOST_TIMES, SLACK = 4, 1
"""How many times as long as `vehicles` takes of the processor `events` may, and seconds more."""
MOST_SECONDS = 60
"""Of the processor. The system ends a run behind them."""


def seconds_of(program, words, folder):
    """The status and the output of a run, and for how many seconds it had the processor."""
    limit = lambda: resource.setrlimit(resource.RLIMIT_CPU, (MOST_SECONDS, MOST_SECONDS))
    before = resource.getrusage(resource.RUSAGE_CHILDREN)
    ran = subprocess.run([program, *words.split()], cwd=folder, stdout=subprocess.PIPE, stderr=subprocess.DEVNULL, preexec_fn=limit)
    behind = resource.getrusage(resource.RUSAGE_CHILDREN)
    return ran.returncode, ran.stdout.decode(), behind.ru_utime - before.ru_utime + behind.ru_stime - before.ru_stime


def time_grows_with_the_lines(program):
    """The events of a vehicle that has nearly all lines of a journal take about as long as to judge them, and not for each line more."""
    lines = list(history(A, 0, MANY))
    with tempfile.TemporaryDirectory() as folder:
        Path(folder, "journal").write_text(journal(registered(A), *lines))
        status, _, judged = seconds_of(program, "vehicles journal", folder)
        *found, printed = seconds_of(program, OF_A, folder)
    if status or found != [0, "".join(f"{line}\n" for line in lines)]:
        yield f"`vehicles` ended with {status}, and `events` with {found[0]}, and {len(found[1])} bytes"
    if printed > MOST_TIMES * judged + SLACK:
        yield f"`events` took {printed:.1f} s of the processor for {MANY} lines, and `vehicles` {judged:.1f} s"
