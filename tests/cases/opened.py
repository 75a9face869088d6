"""Files that the program opens: those that are named, each once, and pipes and devices as well; and `/dev/null` by a server, which has
its stack by a read of that."""

from cases.calls import NOTHING, counted
from cases.debugging import EVENTS, SECOND, START
from cases.helps import ALL
from cases.inputs import REPLAYED
from cases.replays import A, P
from cases.serve import NO_CONNECTION, SERVED, SERVED_ONE
from cases.tables import ONE_ROW, ONE_ROW_PRINTED, PROFILE, table_printed
from cases.vehicles import journal, listed, not_a_journal, registered
from harness.case import Case, not_a_batch, not_a_table, told

SECONDS = 60
"""How long a run may take."""
DEBUGGED = f"events 2 refused 0\n{START}{SECOND}"
TAKEN = listed(journal(registered(A)), [(A, "removed", 0)]).out
FILES = {"events.json": EVENTS, "none.json": "[]", "blank": "\n", "table.json": ONE_ROW, "journal": journal(registered(A))}
# The words, standard input, what is printed, and which files are opened.
RUNS = [
    ("--help", "", ALL, []),
    ("table", "", table_printed(PROFILE), []),
    ("replay -", EVENTS, REPLAYED, []),
    ("vehicles -", FILES["journal"], TAKEN, []),
    (NO_CONNECTION, "", SERVED, []),
    ("table --table table.json", "", ONE_ROW_PRINTED, ["table.json"]),
    ("replay events.json", "", REPLAYED, ["events.json"]),
    ("replay --any --workers 4 none.json", "", NOTHING, ["none.json"]),
    ("replay --lines blank", "", NOTHING, ["blank"]),
    ("replay - --table table.json", "[]", NOTHING, ["table.json"]),
    ("replay none.json --table table.json", "", NOTHING, ["table.json", "none.json"]),
    (f"debug events.json {P} {A}", "next\n", DEBUGGED, ["events.json"]),
    ("vehicles journal", "", TAKEN, ["journal"]),
    ("vehicles journal --table table.json", "", TAKEN, ["table.json", "journal"]),
    (f"{NO_CONNECTION} --table table.json", "", SERVED, ["table.json"]),
]
SERVE_BOTH = f"{NO_CONNECTION} --table table.json --journal journal"
BY_A_SERVER = 1
SERVED_BOTH = 3 + BY_A_SERVER
"""A table, a journal, and the folder that this is in, so that its name is on the disk."""


def files_opened(program):
    """Each file that is named is opened once, and no other but a server's. One that is a pipe is read to its end as any file is."""
    for words, given, out, names in RUNS:
        wanted = len(names) + (BY_A_SERVER if words.startswith(NO_CONNECTION) else 0)
        laid = {name: FILES[name] for name in names}
        for where in ("files", "pipes"):
            wrong, counts = counted(program, Case(words, out=out, given=given, **{where: laid}), seconds=SECONDS)
            if counts.files != wanted:
                wrong.append(f"{counts.files} files were opened, in place of {wanted}")
            yield from (f"{words}, over {where}: {complaint}" for complaint in wrong)


def table_beside_a_journal(program):
    """The same of a server with a journal, which is no pipe."""
    table, laid = {"table.json": FILES["table.json"]}, {"journal": FILES["journal"]}
    for case in (Case(SERVE_BOTH, out=SERVED_ONE, files=table | laid), Case(SERVE_BOTH, out=SERVED_ONE, files=laid, pipes=table)):
        wrong, counts = counted(program, case, seconds=SECONDS)
        if counts.files != SERVED_BOTH:
            wrong.append(f"{counts.files} files were opened, in place of {SERVED_BOTH}")
        yield from (f"{SERVE_BOTH}: {complaint}" for complaint in wrong)


def pipes_and_devices():
    """Standard input that is named by its path, which is a pipe, an empty device, and one without an end."""
    yield Case("replay /dev/stdin", out=REPLAYED, given=EVENTS)
    yield Case("replay --lines /dev/stdin", out=NOTHING, given="\n")
    yield Case("table --table /dev/stdin", out=ONE_ROW_PRINTED, given=ONE_ROW)
    yield Case("vehicles /dev/stdin", out=TAKEN, given=FILES["journal"])
    yield Case(f"debug /dev/stdin {P} {A}", out=f"events 2 refused 0\n{START}", given=EVENTS)
    yield Case(f"{NO_CONNECTION} --table /dev/stdin", out=SERVED, given=ONE_ROW)
    yield Case("replay --lines /dev/null", out=NOTHING)
    yield told("replay /dev/zero", not_a_batch("too_long"))
    yield told("replay --lines /dev/zero", not_a_batch("too_long"))
    yield told("replay --workers 4 /dev/zero", not_a_batch("too_long"))
    yield told("table --table /dev/zero", not_a_table("too_long"))
    yield told("vehicles /dev/zero", not_a_journal("form"))
    yield told(f"debug /dev/zero {P} {A}", not_a_batch("too_long"))
