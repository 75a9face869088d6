"""How often the program reads and writes, how far it reads, how many threads it makes, and output that fails in its middle."""

import errno
import os
import resource
import signal
import socket
import subprocess
import tempfile
from concurrent.futures import ThreadPoolExecutor
from itertools import product
from pathlib import Path

from cases.commands import MISTAKE
from cases.debugging import BAD, EVENTS, EVENTS_OF_A, MAX_SCRIPT, NOBODY, SECOND, START, UNKNOWN
from cases.helps import ALL
from cases.inputs import ENOUGH, REPLAYED
from cases.replays import A, B, P, batch, event, history, identifier, item, replayed, turn
from cases.serve import NO_CONNECTION, SERVED, SERVED_ONE
from cases.streams import LONG, LONG_FILES, without_how_far
from cases.tables import HEARD, MOST_ROWS, ONE_ROW, ONE_ROW_PRINTED, PROFILE, table_file, table_printed
from cases.tables import bad as bad_row
from cases.timed import in_table, tables_file, tables_printed
from cases.vehicles import LONG as LONG_LINE
from cases.vehicles import WOKEN, journal, listed, not_a_journal, registered
from harness.building import BY_BYTES, ByThread, Counting
from harness.case import MAX_BYTES, MAX_ITEMS, NO_MEMORY, NOT_TEXT, OUTPUT, SLOW
from harness.case import Case, cannot_read, not_a_batch, not_a_table, padded, told, told_slowly
from harness.running import SECONDS, differences, outcome

MOST_CALLS = 5000000
EVERY = MOST_CALLS // 5
"""Of so many calls one moves a byte, and the others are interrupted."""
IN_A_ROW = 1000
"""Of a journal so many reads are made that are interrupted in a row."""
INPUT, OUT, FAULTS, FILE = range(4)
"""The descriptors of the standard streams, and of the first file that is opened."""
MOVED = MOST_CALLS // EVERY
FILES = {
    "events.json": EVENTS,
    "table.json": ONE_ROW,
    "journal": journal(registered(A)),
    "faulty": "7\n{\n7\n7\n",
    "told-journal": journal(registered(A), WOKEN),
    "events.lines": "\n".join(EVENTS_OF_A),
    # one of each further kind of fault
    "unread-journal": journal("{"),
    "early-journal": journal(WOKEN),
    "wide-journal": journal(LONG_LINE),
    "bad-row.json": bad_row("7")[0],
    "bad-tables.json": in_table([("Wake", "removed", "available")], "bad_row 0")[0],
    "many.json": f"[{','.join(['7'] * (MAX_ITEMS + 1))}]",
    "many": "7\n" * (MAX_ITEMS + 1),
    # of which more is printed than a page
    **{f"long-{name}": text for name, text in LONG_FILES.items()},
}
DEBUG = f"debug events.json {P} {A}"
STARTED = f"events 2 refused 0\n{START}"
NOTHING = "accepted 0 refused 0\n"
MADE = " with other files, new"
"""Behind the status of a run that made this file."""

# On which descriptor calls are interrupted, and what comes of it: the status, the output and the faults.
READS = [
    ("replay -", INPUT, (3, "", cannot_read("-"))),
    ("replay --lines -", INPUT, (3, "", cannot_read("-"))),
    ("replay --any -", INPUT, (3, "", cannot_read("-"))),
    ("replay --any --lines -", INPUT, (3, "", cannot_read("-"))),
    ("replay events.json", FILE, (3, "", cannot_read("events.json"))),
    ("replay --lines events.json", FILE, (3, "", cannot_read("events.json"))),
    ("replay --workers 4 events.json", FILE, (3, "", cannot_read("events.json"))),
    ("table --table table.json", FILE, (3, "", cannot_read("table.json"))),
    (DEBUG, FILE, (3, "", cannot_read("events.json"))),
    # a file has its calls to itself, also beside a table's
    *[
        (f"{words} --table table.json", FILE + 1, (3, "", cannot_read("events.json")))
        for words in ("replay events.json", "replay --lines events.json", "replay --workers 4 events.json", DEBUG)
    ],
    # a fault of the lines before isn't told
    ("replay --lines faulty", FILE, (3, "", cannot_read("faulty"))),
    # a script ends where reading fails: with `next`, which has as many bytes as came
    (DEBUG, INPUT, (0, STARTED + SECOND, "")),
]
LONG_PATH = "x" * 60000
"""Past what the system takes for a path. Byte by byte its line takes nearly as many calls as there may be."""
# The words of commands, and how each of them ends, with the line of its problem.
PROBLEMS = [
    ("replay missing.json", 3, cannot_read("missing.json")),
    (["replay", LONG_PATH], 3, cannot_read(LONG_PATH)),
    (f"debug events.json {P} {B}", 1, NOBODY),
    (f"debug events.json {P} x", 2, BAD),
    (f"events told-journal {P} {B}", 1, NOBODY),
    ("compact told-journal journal --before 9", 3, "mds_city: journal is there\n"),
    ("compact told-journal nowhere/new --before 9", 3, "mds_city: cannot write nowhere/new\n"),
    ("vehicles faulty", 3, not_a_journal("form")),
    ("vehicles unread-journal", 3, not_a_journal("bad_line 1")),
    ("vehicles early-journal", 3, not_a_journal("refused 1")),
    ("vehicles wide-journal", 3, not_a_journal("too_long 1")),
    ("table --table bad-row.json", 3, not_a_table("bad_row 0")),
    ("table --table bad-tables.json", 3, not_a_table("table 0 bad_row 0")),
    ("replay many.json", 3, not_a_batch("too_many")),
    ("replay --lines many", 3, not_a_batch("too_many")),
    ("replay faulty", 3, not_a_batch("not_json")),
    ("replay --lines faulty", 3, not_a_batch("not_json 1")),
    ("table --table faulty", 3, not_a_table("not_json")),
    (f"debug faulty {P} {A}", 3, not_a_batch("not_json")),
    ([b"\xff"], 2, NOT_TEXT),
]
WRITES = [
    ("table", OUT, (3, table_printed(PROFILE)[:MOVED], OUTPUT)),
    ("replay events.json", OUT, (3, "0 ok non_contactable"[:MOVED], OUTPUT)),
    (DEBUG, OUT, (3, STARTED[:MOVED], OUTPUT)),
    ("vehicles journal", OUT, (3, "vehicle"[:MOVED], OUTPUT)),
    (f"events told-journal {P} {A}", OUT, (3, WOKEN[:MOVED], OUTPUT)),
    ("compact told-journal new --before 9", OUT, (f"3{MADE}", "registrations"[:MOVED], OUTPUT)),
    ("table --table long-table.json", OUT, (3, table_printed(MOST_ROWS)[:MOVED], OUTPUT)),
    ("replay long-events.json", OUT, (3, "0 ok available"[:MOVED], OUTPUT)),
    ("replay --lines --unlimited long-events.lines", OUT, (3, "0 ok available"[:MOVED], OUTPUT)),
    ("vehicles long-journal", OUT, (3, "vehicle"[:MOVED], OUTPUT)),
    ("serve --port 0 --each 0", OUT, (3, "listening"[:MOVED], OUTPUT)),
    *[(words, FAULTS, (status, "", text[:MOVED])) for words, status, text in PROBLEMS],
]
# What is read on a descriptor to its end, and what comes of it: as a terminal, it is asked for its end once.
OPEN_JOURNAL = journal(registered(A), end="")
LISTED = f"vehicle {P} {A} removed 0\nregistrations 1 events 0\n"
SHORT = [
    ("replay -", INPUT, "[]", (0, NOTHING, "")),
    ("replay --lines -", INPUT, "[]", (1, "0 fault not_object\naccepted 0 refused 1\n", "")),
    ("replay --any -", INPUT, "[]", (0, NOTHING, "")),
    ("replay --any --lines -", INPUT, "[]", (1, "0 fault not_object\naccepted 0 refused 1\n", "")),
    ("replay --any --workers 4 -", INPUT, "[]", (0, NOTHING, "")),
    # behind a fault of the lines, too
    ("replay --lines short", FILE, "{\n", (3, "", not_a_batch("not_json 0"))),
    ("replay short", FILE, "[]", (0, NOTHING, "")),
    ("replay --workers 4 -", INPUT, "[]", (0, NOTHING, "")),
    ("replay --workers 4 short", FILE, "[]", (0, NOTHING, "")),
    (f"debug short {P} {A}", FILE, "[]", (1, "", NOBODY)),
    (f"debug short {P} {A}", FILE, EVENTS, (0, STARTED + UNKNOWN, "")),
    ("table --table short", FILE, ONE_ROW, (0, ONE_ROW_PRINTED, "")),
    (DEBUG, INPUT, "[]", (0, STARTED + UNKNOWN, "")),
    (DEBUG, INPUT, "quit\nstep\n", (0, STARTED, "")),
    ("vehicles -", INPUT, OPEN_JOURNAL, (0, LISTED, "")),
    ("vehicles short", FILE, OPEN_JOURNAL, (0, LISTED, "")),
    # within a line
    ("vehicles -", INPUT, journal(registered(A), end=" {"), (0, LISTED, "")),
    ("vehicles short", FILE, journal(registered(A), end=" {"), (0, LISTED, "")),
    ("vehicles -", INPUT, " ", (3, "", not_a_journal("form"))),
    # nothing but an end
    ("replay -", INPUT, "", (3, "", not_a_batch("not_json"))),
    ("replay short", FILE, "", (3, "", not_a_batch("not_json"))),
    (f"debug short {P} {A}", FILE, "", (3, "", not_a_batch("not_json"))),
    ("replay --lines -", INPUT, "", (0, NOTHING, "")),
    ("table --table short", FILE, "", (3, "", not_a_table("not_json"))),
    (DEBUG, INPUT, "", (0, STARTED, "")),
    ("vehicles -", INPUT, "", (3, "", not_a_journal("form"))),
    ("vehicles short", FILE, "", (3, "", not_a_journal("form"))),
]


def files_of(words):
    """The files at hand that the words name."""
    return {name: text for name, text in FILES.items() if name in words}


def counted(program, case, on=-1, every=0, threads=-1, error=0, at=1, moves=0, seconds=SECONDS):
    """What is wrong with the end of a run of the case, and its counts."""
    with Counting(on, every, threads, error, at, moves) as counting:
        case.env = counting.env
        wrong = list(differences(case, *outcome(program, case, seconds)))
        return wrong + list(calls_behind(counting.counts())), counting.counts()


def calls_behind(counts):
    if counts.behind:
        yield f"{counts.behind} calls behind one that failed"


def interrupted(program, words, on, end, wanted, at=1):
    """What is wrong with a run where calls on a descriptor are interrupted, from one on, and one in so many isn't."""
    status, out, faults = end
    case = Case(words, status=status, out=out, faults=told_slowly(faults), given="next\n" * MOVED, files=files_of(words))
    wrong, counts = counted(program, case, on, EVERY, at=at)
    most = at - 1 + MOST_CALLS
    wrong += [f"{counts}, in place of {most} {name}" for name in wanted if getattr(counts, name) != most]
    return [f"{words}, descriptor {on} interrupted from call {at} on: {text}" for text in wrong]


def later_writes():
    """Runs whose second page or line isn't taken: that of a debugger's script, and the last line of a server."""
    with socket.create_server(("127.0.0.1", 0)) as free:
        port = free.getsockname()[1]
    yield DEBUG, OUT, (3, STARTED + SECOND[:MOVED], OUTPUT), ["writes"], 2
    served = f"listening 127.0.0.1:{port}\n" + "accepted 0"[:MOVED]
    yield f"serve --port {port} --each 0", OUT, (3, served, OUTPUT), ["writes"], 2


def interrupted_calls(program):
    """A file, a script, a line and a page of lines are given up after 5000000 calls, those among them that went well: no sooner,
    and no later."""
    runs = [(*it, ["reads"]) for it in READS] + [(*it, ["writes"]) for it in WRITES] + [*later_writes()]
    with ThreadPoolExecutor(os.cpu_count()) as pool:
        for wrong in pool.map(lambda it: interrupted(program, *it), runs):
            yield from wrong


def interrupted_in_a_row(program):
    """A journal is given up after 1000 reads in a row that are interrupted, at its start or behind a read that gave its requests.
    Where one of them isn't, all of it is read, also by more than 5000000 calls."""
    closed = journal(padded(registered(A), MOST_CALLS // IN_A_ROW))
    for name, on in (("journal", FILE), ("-", INPUT)):
        for text, at, asked in ((closed, 1, len(closed)), (OPEN_JOURNAL, 2, 1)):
            whole = listed(text, [(A, "removed", 0)], words=f"vehicles {name}", given=text)
            whole.faults = SLOW
            given_up = told(whole.words, cannot_read(name), files=whole.files, given=text)
            for case, every, hindered in ((whole, IN_A_ROW, IN_A_ROW * asked), (given_up, IN_A_ROW + 1, IN_A_ROW)):
                wrong, counts = counted(program, case, on, every, at=at)
                if counts.reads != at - 1 + hindered:
                    wrong.append(f"{counts}, in place of {at - 1 + hindered} reads")
                run = f"{case.words}, one read in {every} from read {at} on isn't interrupted"
                yield from (f"{run}: {complaint}" for complaint in wrong)


ANY = 0
"""A call moves as many bytes as it can."""
ERRORS = [errno.EIO, errno.EAGAIN, errno.EBADF, errno.ENOSPC, errno.EPIPE, errno.ETIMEDOUT, errno.ENOMEM, errno.EINVAL]
OTHERS = sorted({*errno.errorcode} - {*ERRORS, errno.EINTR})
"""All that a call may fail with besides, but for an interruption."""
# Of each command a file, a script, its output and the line of a problem: there each error is tried.
PLAIN = [
    *[(words, INPUT) for words in ("replay -", "replay --lines -", "vehicles -", DEBUG)],
    *[(words, FILE) for words in ("table --table table.json", "vehicles journal", DEBUG)],
    *[(words, OUT) for words in ("table", "replay events.json", "vehicles journal", DEBUG)],
    *[(words, FAULTS) for words in ("replay missing.json", "vehicles faulty")],
]
FAILING_READS = [
    *[(words, on, end) for words, on, end in READS if (words, on) != (DEBUG, INPUT)],
    ("vehicles -", INPUT, (3, "", cannot_read("-"))),
    ("vehicles journal", FILE, (3, "", cannot_read("journal"))),
    ("vehicles journal --table table.json", FILE + 1, (3, "", cannot_read("journal"))),
    *[(f"{words} --table table.json", FILE, (3, "", cannot_read("table.json"))) for words in ("replay -", DEBUG, "vehicles journal")],
    (DEBUG, INPUT, (0, STARTED, "")),
]
# What goes to the descriptor isn't told.
FAILING_WRITES = [(words, on, (status, "", OUTPUT if on == OUT else "")) for words, on, (status, _, _) in WRITES]
# Of these the front of a page, or of a line, goes out before.
BROKEN_WRITES = [(words, on, (status, out[:1], faults[: 1 if on == FAULTS else None])) for words, on, (status, out, faults) in WRITES]


def cut_off(words, on, end):
    """What comes of a file whose bytes were read, but not their end: it can't be read, but a script ends there."""
    return end if words == DEBUG else (3, "", cannot_read("-" if on == INPUT else "short"))


SEVEN = 300
"""Lines, of which three reads have a third each."""


def judged(lines):
    """What comes of lines that are replayed as they are read, where that fails behind so many: their verdicts went out."""
    return 3, "".join(f"{number} fault not_object\n" for number in range(lines)), cannot_read("short")


def failed(program, words, on, text, end, name, at, moves, error):
    """What is wrong with a run where the call of this number on a descriptor fails, and none before it moves more bytes than are
    given: none is to be made behind it."""
    status, out, faults = end
    case = Case(words, status=status, out=out, faults=faults, given=text, files={**files_of(words), "short": text})
    wrong, counts = counted(program, case, on, error=error, at=at, moves=moves)
    if getattr(counts, name) != at:
        wrong.append(f"{counts}, in place of {at} {name}")
    return [f"{words}, {os.strerror(error)} at call {at} on descriptor {on}: {complaint}" for complaint in wrong]


def failed_calls(program):
    """A call that fails is made again for no error but an interruption: the file, the script, the line or the page is given up at
    once, also where calls before gave all of the text, a front of the page or line went out, or the start of a session."""
    runs = [(words, on, "next\n", end, "reads", 1, ANY) for words, on, end in FAILING_READS]
    runs += [(words, on, "next\n", end, "writes", 1, ANY) for words, on, end in FAILING_WRITES]
    runs += [(words, on, "next\n", end, "writes", 2, 1) for words, on, end in BROKEN_WRITES]
    runs += [(words, on, text, cut_off(words, on, end), "reads", 2, ANY) for words, on, text, end in SHORT if text]
    runs.append((DEBUG, OUT, "next\n", (3, STARTED, OUTPUT), "writes", 2, ANY))
    runs += [("replay --lines --unlimited short", FILE, "7\n" * SEVEN, judged(2 * SEVEN // 3), "reads", 3, 2 * SEVEN // 3)]
    plain = [run for run in runs if run[:2] in PLAIN and run[-2:] == (1, ANY)]
    with ThreadPoolExecutor(os.cpu_count()) as pool:
        for wrong in pool.map(lambda it: failed(program, *it[0], it[1]), [*product(runs, ERRORS), *product(plain, OTHERS)]):
            yield from wrong


ITEMS, ENTRIES, VEHICLES, CHAINS = 4000, MOST_ROWS[:48], 850, 3500
"""Of each command as much as is printed on two pages, by more calls than a page may take."""


def on_two_pages():
    """Runs that print more than a page."""
    states = [turn(number)[0] for number in range(ITEMS)]
    events = batch(history(A, 0, ITEMS))
    yield replayed(events, [f"ok {state}" for state in states], [(A, states[-1], ITEMS)])
    lines = "\n".join(history(A, 0, ITEMS))
    ways = [("replay --any -", events, ["removed"]), ("replay --lines -", lines, []), ("replay --workers 4 -", events, [])]
    for words, given, opened in ways:
        yield replayed(given, [f"ok {state}" for state in states], [(A, states[-1], ITEMS, *opened)], words)
    yield Case("table --table long", out=table_printed(ENTRIES), files={"long": table_file(ENTRIES)})
    tables = [(start, ENTRIES) for start in (0, 1)]
    yield Case("table --table two", out=tables_printed(tables), files={"two": tables_file(tables)})
    devices = [identifier(1, number) for number in range(VEHICLES)]
    yield listed(journal(*map(registered, devices)), [(device, "removed", 0) for device in devices])
    first = batch(it for device in devices for it in history(device, 0, 1))
    yield replayed(first, ["ok available"] * VEHICLES, [(device, "available", 1) for device in devices])
    chains = "removed non_contactable\n" * CHAINS
    yield Case(DEBUG, out=STARTED + chains, given="chain\n" * CHAINS, files=files_of(DEBUG))


def by_bytes(program, case):
    """What is wrong with a run whose pages go out byte by byte."""
    wrong, counts = counted(program, case, OUT, BY_BYTES)
    if counts.writes != BY_BYTES * len(case.out) or counts.writes <= MOST_CALLS:
        wrong.append(f"{counts}, in place of {BY_BYTES} writes for each byte, and more than {MOST_CALLS} in all")
    return [f"{case.words}, {complaint}" for complaint in wrong]


def pages_by_bytes(program):
    """Each page has 5000000 calls of its own, and is gone on with behind a byte that went out, and behind an interruption."""
    with ThreadPoolExecutor(os.cpu_count()) as pool:
        for wrong in pool.map(lambda case: by_bytes(program, case), on_two_pages()):
            yield from wrong


def whole_by_bytes(program, case, on):
    """What is wrong with a run where each call of write on a descriptor takes a byte or is interrupted, and nothing is given up."""
    wrong, counts = counted(program, case, on, BY_BYTES)
    if counts.writes != BY_BYTES * counts.bytes:
        wrong.append(f"{counts}, in place of {BY_BYTES} writes for each byte")
    return [f"{case.words}: {complaint}" for complaint in wrong]


OPENED = f"available 2 from {','.join(HEARD.split())}\n"
"""How the line of the vehicle of two events ends where it may have opened in any state from which its first type leads."""
# The words of each command that prints, and what it prints.
PRINTED = [
    ("table", table_printed(PROFILE)),
    ("table --table table.json", ONE_ROW_PRINTED),
    *[(f"replay {options}events.json", REPLAYED) for options in ("", "--workers 4 ")],
    *[(f"replay --lines {options}events.lines", REPLAYED) for options in ("", "--unlimited ")],
    ("replay --any events.json", REPLAYED.replace("available 2\n", OPENED)),
    (DEBUG, STARTED),
    ("vehicles journal", LISTED),
    ("vehicles --check journal", f"{LISTED}lines 2 groups 1\n"),
    (f"events told-journal {P} {A}", f"{WOKEN}\n"),
    ("compact told-journal new --before 9", "registrations 1 events 1 of 1\n"),
]


def outputs_by_bytes(program):
    """What each command prints goes out whole, where each call takes a byte or is interrupted."""
    for words, out in PRINTED:
        status = f"0{MADE}" if words.startswith("compact") else 0
        yield from whole_by_bytes(program, Case(words, status=status, out=out, files=files_of(words)), OUT)


def lines_by_bytes(program):
    """Both lines of a server go out whole, with a journal and without one, where each call takes a byte or is interrupted."""
    for words, out in ((NO_CONNECTION, SERVED), (f"{NO_CONNECTION} --journal journal", SERVED_ONE)):
        yield from whole_by_bytes(program, Case(words, out=out, files=files_of(words)), OUT)


LITTLE = 8 * 2**20
"""How many bytes the program may take: enough for itself, but not also for a text of the most bytes, and as many for reading it."""
LARGEST = {
    "events.json": padded(batch([item()]), MAX_BYTES),
    "table.json": padded(ONE_ROW, MAX_BYTES),
    "journal": journal(padded(registered(A), MAX_BYTES)),
}
LACKING = {
    "replay -": LARGEST["events.json"],
    "replay --lines -": padded(item(), MAX_BYTES),
    "replay events.json": "",
    "table --table table.json": "",
    DEBUG: "",
    "vehicles -": LARGEST["journal"],
    "vehicles journal": "",
    f"{NO_CONNECTION} --table table.json": "",
    f"{NO_CONNECTION} --journal journal": "",
}
"""The words of commands that lack memory then, and their standard input."""


def lack_by_bytes(program):
    """Want of memory is told whole, whichever file it is for, where each call takes a byte or is interrupted."""
    for words, given in LACKING.items():
        files = {name: text for name, text in LARGEST.items() if name in words}
        case = Case(words, memory=LITTLE, status=4, faults=NO_MEMORY, given=given, files=files)
        yield from whole_by_bytes(program, case, FAULTS)


def problems_by_bytes(program):
    """The line of a problem is told whole, where each call takes a byte or is interrupted."""
    for words, status, text in PROBLEMS:
        case = Case(words, status=status, faults=text, files=files_of(words))
        yield from whole_by_bytes(program, case, FAULTS)


SELDOM = 60000
"""Of so many calls one moves a byte of a text of `clap`. The shortest has a hundred bytes, so that more calls are made of each
than of any other line."""


def texts_of_clap(program):
    """Help, and what is told of a mistake, go out however many calls are interrupted."""
    for case, on in ((Case("--help", out=ALL), OUT), (Case("bogus", status=2, faults=MISTAKE), FAULTS)):
        wrong, counts = counted(program, case, on, SELDOM)
        if counts.writes != SELDOM * counts.bytes or counts.writes <= MOST_CALLS:
            wrong.append(f"{counts}, in place of {SELDOM} writes for each byte, and more than {MOST_CALLS} in all")
        yield from (f"{case.words}: {complaint}" for complaint in wrong)


LONGER = 100000
"""By how many bytes a text is longer than what is read of it."""
SPACES, LINES = " " * (MAX_BYTES + LONGER), "\n" * (MAX_BYTES + LONGER)
TOO_LONG = (3, "", not_a_batch("too_long"))
# What is read on a descriptor, how many bytes of it, and what comes of it.
FAR = [
    ("replay -", INPUT, SPACES, MAX_BYTES + 1, TOO_LONG),
    ("replay --lines -", INPUT, LINES, MAX_BYTES + 1, TOO_LONG),
    ("replay --any -", INPUT, SPACES, MAX_BYTES + 1, TOO_LONG),
    ("replay --any --lines -", INPUT, LINES, MAX_BYTES + 1, TOO_LONG),
    ("replay --any --workers 4 -", INPUT, SPACES, MAX_BYTES + 1, TOO_LONG),
    ("replay long", FILE, SPACES, MAX_BYTES + 1, TOO_LONG),
    ("replay --lines long", FILE, LINES, MAX_BYTES + 1, TOO_LONG),
    # behind a fault of the lines, too, since it isn't told where the file can't be read
    ("replay --lines -", INPUT, "7\n" * (MAX_ITEMS + 1) + LINES, MAX_BYTES + 1, (3, "", not_a_batch("too_many"))),
    ("replay --lines long", FILE, "{\n" + LINES, MAX_BYTES + 1, (3, "", not_a_batch("not_json 0"))),
    ("replay --workers 4 -", INPUT, SPACES, MAX_BYTES + 1, TOO_LONG),
    ("replay --workers 4 long", FILE, SPACES, MAX_BYTES + 1, TOO_LONG),
    ("table --table long", FILE, SPACES, MAX_BYTES + 1, (3, "", not_a_table("too_long"))),
    (f"debug long {P} {A}", FILE, SPACES, MAX_BYTES + 1, TOO_LONG),
    (DEBUG, INPUT, "\n" * (MAX_SCRIPT + LONGER), MAX_SCRIPT, (0, STARTED + UNKNOWN * MAX_SCRIPT, "")),
]


# What is read of a journal, and not to its end: up to a fault, or to a gate that isn't open.
MIDWAY = [
    (f"vehicles {name}", on, text, end)
    for name, on in (("-", INPUT), ("short", FILE))
    for text, end in [(journal(registered(A)), (0, LISTED, "")), *ENOUGH]
]


def read_so_far(program):
    """Of a file that is too long one byte more than the limit is read, and of a script as many as it may have. Of others all is
    read, and their end once; but of a journal no end, where what comes before tells enough."""
    runs = [(words, on, text, (wanted, 0), end) for words, on, text, wanted, end in FAR]
    runs += [(words, on, text, (len(text), ends), end) for ends, some in enumerate((MIDWAY, SHORT)) for words, on, text, end in some]
    for words, on, text, wanted, (status, out, faults) in runs:
        files = {**files_of(words), "long": text, "short": text}
        case = Case(words, status=status, out=out, faults=faults, given=text, files=files)
        wrong, counts = counted(program, case, on)
        if (counts.bytes, counts.ends) != wanted:
            wrong.append(f"{counts.bytes} bytes were read, and {counts.ends} ends met, in place of {wanted}")
        yield from (f"{words}: {complaint}" for complaint in wrong)


# What is read byte by byte, and what comes of it.
BY_BYTE = [
    ("replay -", INPUT, "[]", NOTHING),
    ("replay --any -", INPUT, "[]", NOTHING),
    ("replay --lines -", INPUT, "", NOTHING),
    ("replay --any --lines -", INPUT, "", NOTHING),
    ("replay --workers 4 -", INPUT, "[]", NOTHING),
    ("table --table short", FILE, ONE_ROW, ONE_ROW_PRINTED),
    (f"debug short {P} {A}", FILE, EVENTS, STARTED + UNKNOWN),
]


def read_by_bytes(program):
    """A file of the most bytes, of which each call gives one, is read to its end."""
    with ThreadPoolExecutor(os.cpu_count()) as pool:
        for wrong in pool.map(lambda it: come_by_bytes(program, *it), BY_BYTE):
            yield from wrong


def come_by_bytes(program, words, on, text, out):
    """What is wrong with a run that reads the text, and as many spaces behind it as there may be, byte by byte."""
    text = padded(text, MAX_BYTES)
    given = text if on == INPUT else "x"
    wrong, counts = counted(program, Case(words, out=out, faults=SLOW, given=given, files={"short": text}), on, moves=1)
    if counts.reads != MAX_BYTES + 1:
        wrong.append(f"{counts.reads} reads, in place of {MAX_BYTES + 1}")
    return [f"{words}, byte by byte: {complaint}" for complaint in wrong]


def long_line_by_bytes(program):
    """Without a limit of lines, one that comes in thousands of pieces is read whole."""
    case = replayed(padded(item(), 5000) + "\n", ["ok available"], [(A, "available", 1)], words="replay --lines --unlimited -")
    yield from counted(program, case, INPUT, moves=1)[0]


# What comes to an end before the file on a descriptor is looked at: that of a table is opened first.
BEHIND = [
    (f"debug events.json {P} x", FILE, (2, "", BAD)),
    (f"debug events.json {P} x --table table.json", FILE, (2, "", BAD)),
    (f"debug events.json {P} x --table table.json", FILE + 1, (2, "", BAD)),
    (f"debug events.json x {A}", FILE, (2, "", BAD)),
    (f"debug events.json x {A} --table table.json", FILE, (2, "", BAD)),
    (f"debug events.json x {A} --table table.json", FILE + 1, (2, "", BAD)),
    *[
        (f"{words} --table {name}", on, (3, "", told_first))
        for name, on, told_first in (
            ("faulty", FILE + 1, not_a_table("not_json")),
            # it takes no descriptor
            ("missing", FILE, cannot_read("missing")),
        )
        for words in (
            *[f"replay {opening}{options}events.json" for opening in ("", "--any ") for options in ("", "--lines ", "--workers 4 ")],
            f"debug events.json {P} {A}",
            "vehicles journal",
        )
    ],
]


def unread_files(program):
    """Of a file nothing is read behind a problem that is looked for first, though each one that is named was opened, or tried."""
    for words, on, (status, out, faults) in BEHIND:
        wrong, counts = counted(program, Case(words, status=status, out=out, faults=faults, files=files_of(words)), on)
        named = sum(word in (*FILES, "missing") for word in words.split())
        if (counts.reads, counts.files) != (0, named):
            wrong.append(f"{counts}, in place of {named} files, and no read on descriptor {on}")
        yield from (f"{words}: {text}" for text in wrong)


WORKERS = (1, 2, 4, 5, 64)
ENDS = (" ", "\n", "\r\n", "\n\n", "\t \n")
"""What may stand behind a batch: a line feed, as editors write it, and other white space."""
TWO_TABLES = tables_file((start, [("provider_drop_off", "removed", "available")]) for start in (0, 2000))


def replays_by_workers(vehicles):
    """Replays of the first events of so many vehicles: the words, what is printed, what is read, and how many threads are made."""
    events = [event(identifier(2, number), "e1", "provider_drop_off", "available", 1000) for number in range(vehicles)]
    verdicts = "".join(f"{number} ok available\n" for number in range(vehicles))
    for opening, opened in (("", ""), ("--any ", " from removed")):
        ends = "".join(f"vehicle {P} {identifier(2, number)} available 1{opened}\n" for number in range(vehicles))
        out = f"{verdicts}{ends}accepted {vehicles} refused 0\n"
        for count, end in zip(WORKERS, ENDS):
            yield from ((f"replay {opening}--workers {count} -", out, batch(events) + it, 2 * (count - 1)) for it in ("", end))
        yield f"replay {opening}-", out, batch(events), 0
        yield f"replay {opening}--lines --workers 64 -", out, "\n".join(events), 0


def threads_of_workers(program):
    """Each worker of a replay, or of a server, but one is a thread that is made. Those of a replay are made twice: they read, also
    where white space is behind the batch, and then they judge. A replay of lines, and one without the option, makes none. So it is
    over several tables."""
    runs = [(f"{NO_CONNECTION} --workers {count}", SERVED, "", count - 1) for count in WORKERS]
    runs += [*replays_by_workers(67), *replays_by_workers(MAX_ITEMS)]
    runs += [(f"{words} --table tables", *more) for words, *more in runs]
    for words, out, text, wanted in runs:
        wrong, counts = counted(program, Case(words, out=out, given=text, files={"tables": TWO_TABLES}))
        if counts.threads != wanted:
            wrong.append(f"{counts.threads} threads were made, in place of {wanted}")
        yield from (f"{words}: {complaint}" for complaint in wrong)


READERS, MOST_UNLIKE = (4, 8), 1.5
"""Threads that read a batch, and how many times as many growths of memory one of them may make as another."""
LONG_ITEM = '{"a":"%s"}' % ("x" * 380)


def shares_of_threads(program):
    """Each thread that reads a batch for a replay reads as much of it as each other one, and so makes about as many growths of memory."""
    fault = "".join(f"{number} fault missing_param provider_id\n" for number in range(MAX_ITEMS))
    for readers in READERS:
        with ByThread() as growths:
            words, out = f"replay --workers {readers} -", f"{fault}accepted 0 refused {MAX_ITEMS}\n"
            case = Case(words, status=1, out=out, given=batch([LONG_ITEM] * MAX_ITEMS), env=growths.env)
            yield from differences(case, *outcome(program, case))
            made = growths.counts()[1:readers]
        if len(made) < readers - 1 or max(made) > MOST_UNLIKE * min(made):
            yield f"{words}: beside the first thread the others made {made} growths"


def threads_that_are_wanting(program):
    """Where the system makes no thread, or no more than two, the program prints the same: workers work one after another."""
    runs = [("replay --workers 4 -", REPLAYED), (f"{NO_CONNECTION} --workers 4", SERVED)]
    runs.append((f"{NO_CONNECTION} --workers 4 --journal journal", SERVED_ONE))
    for most in (0, 2):
        for words, out in runs:
            case = Case(words, out=out, given=EVENTS, files={"journal": FILES["journal"]})
            wrong, counts = counted(program, case, threads=most)
            if counts.threads <= most:
                wrong.append(f"{counts.threads} threads were asked for, and more than {most} were to be")
            yield from (f"{case.words}, with {most} threads at most: {complaint}" for complaint in wrong)


ROOMS = (0, 1, 199, 201, 5000, 16385, 65537)
"""How many bytes standard output takes until it fails."""


def limit(room):
    """Lets no file grow past so many bytes in the process that is to start."""
    signal.signal(signal.SIGXFSZ, signal.SIG_IGN)
    resource.setrlimit(resource.RLIMIT_FSIZE, (room, room))


def output_that_is_full(program):
    """Standard output takes so many bytes and no more: what it took is a front of the whole, that it failed is told, and no call
    is made behind the one that failed."""
    with tempfile.TemporaryDirectory() as folder:
        for name, text in {**LONG_FILES, "one": batch([item()])}.items():
            Path(folder, name).write_text(text)
        for words, given in {**LONG, "table": "", "replay one": "", "--help": ""}.items():
            whole = subprocess.run([program, *words.split()], cwd=folder, input=given.encode(), stdout=subprocess.PIPE).stdout
            for room in (it for it in ROOMS if it < len(whole)):
                *found, counts = into_a_file(program, words, folder, given, room)
                wrong = list(calls_behind(counts))
                if found != [3, whole[:room], OUTPUT.encode()]:
                    wrong.append(f"{found[0]}, {len(found[1])} bytes, {found[2]!r}")
                yield from (f"{words}, with room for {room} bytes: {complaint}" for complaint in wrong)


def into_a_file(program, words, folder, given, room):
    """The status of a run whose output is a file that takes so many bytes, what the file then has, standard error, and the counts
    of the calls on the output."""
    out = Path(folder, "out")
    with open(out, "wb") as stream, Counting(OUT) as counting:
        ran = subprocess.run(
            [program, *words.split()],
            cwd=folder,
            input=given.encode(),
            stdout=stream,
            stderr=subprocess.PIPE,
            env=counting.env,
            preexec_fn=lambda: limit(room),
        )
        return ran.returncode, out.read_bytes(), without_how_far(ran.stderr), counting.counts()


CALLS = [
    interrupted_calls,
    interrupted_in_a_row,
    failed_calls,
    pages_by_bytes,
    outputs_by_bytes,
    lines_by_bytes,
    lack_by_bytes,
    problems_by_bytes,
    texts_of_clap,
    read_so_far,
    read_by_bytes,
    long_line_by_bytes,
    unread_files,
    threads_of_workers,
    shares_of_threads,
    threads_that_are_wanting,
    output_that_is_full,
]
