"""The debugger: scripts, and what they print of a session."""

import json
import os
import pty
import re
import select
import subprocess
import tempfile
import threading
from contextlib import contextmanager, suppress
from pathlib import Path

from cases.replays import A, ANY_RUNS, B, P, batch, event, history, turn
from cases.tables import ONE_ROW, PROFILE, table_file
from harness.building import Refusal
from harness.case import CLOSED, FOLDER, MAX_BYTES, MAX_ITEMS, NO_MEMORY, NO_STREAMS, OUTPUT, Case
from harness.case import cannot_read, not_a_batch, not_a_table, told
from harness.counting import ROOT
from harness.running import differences, label, words_of

EXAMPLE = ROOT / "examples/lost-and-back"
EVENTS_OF_A = [
    event(A, "e1", "comms_lost", "non_contactable", 1000),
    event(A, "e2", "comms_restored trip_end", "available", 2000),
]
EVENTS = batch(EVENTS_OF_A)
MAX_SCRIPT = 1048576
START = "0 0 removed possible removed\n"
WITHIN = "1 1 non_contactable possible removed,available,non_operational,reserved,on_trip,elsewhere\n"
SECOND = "1 0 non_contactable possible non_contactable\n"
PASSED = "1 2 non_contactable possible available\n"
STEPPED = "0 1 removed possible non_contactable\n"
END = "2 0 available possible available\n"
UNKNOWN = "unknown command\n"
NOBODY = "mds_city: vehicle not in file\n"
BAD = "mds_city: bad identifier\n"
WORDS = ["debug", "events.json", P, A]

# A script, and what it prints of the two events behind the first place.
SCRIPTS = [
    ("", ""),
    ("quit\nstep\n", ""),
    ("quit", ""),
    ("\n", UNKNOWN),
    ("\n\n", UNKNOWN * 2),
    ("step", STEPPED),
    ("step\nback\nback\n", f"{STEPPED}{START}at start\n"),
    ("back\nchain\n", "at start\nremoved non_contactable\n"),
    ("next\nstep\nback\n", f"{SECOND}{WITHIN}{SECOND}"),
    ("next\nstep\nnext\nnext\n", f"{SECOND}{WITHIN}{END}at end\n"),
    ("next\nnext\nchain\nstep\nback\n", f"{SECOND}{END}at end\nat end\n{PASSED}"),
    ("run available\nrun non_contactable\n", f"{END}at end\n"),
    ("step\nrun non_contactable\n", f"{STEPPED}{SECOND}"),
    ("run removed\n", "at end\n"),
    ("run\nrun \nrun flying\nrun  available\nrun Available\nruns\n", UNKNOWN * 6),
    ("step \n step\nSTEP\nstep\tx\nsteps\nste\n", UNKNOWN * 6),
    ("step\r\nquit\r\nchain\r\n", UNKNOWN * 3),
    (b"\xff\nst\xc3ep\nback\x00\nquit", UNKNOWN * 3),
    (f"{'x' * (MAX_SCRIPT - 6)}\nchain", f"{UNKNOWN}removed non_contactable\n"),
    (f"{'x' * (MAX_SCRIPT - 5)}\nchain", UNKNOWN * 2),
    ("x\n" * (MAX_SCRIPT // 2) + "quit\n", UNKNOWN * (MAX_SCRIPT // 2)),
    ("\n" * (MAX_SCRIPT + 1), UNKNOWN * MAX_SCRIPT),
]


def debugged(script, lines, events=EVENTS, counts=(2, 0), **more):
    """The debugger on the first vehicle: how many of its events are accepted and refused, what the script prints."""
    out = "events {} refused {}\n".format(*counts) + START + lines
    files = {"events.json": events, **more.pop("files", {})}
    return Case(more.pop("words", WORDS), status=1 if counts[1] else 0, out=out, given=script, files=files, **more)


def scripts():
    """Each command, and lines that are none."""
    script, out = EXAMPLE.with_suffix(".script").read_text(), EXAMPLE.with_suffix(".out").read_text()
    words = ["debug", str(EXAMPLE.with_suffix(".json")), P, A]
    yield Case(words, out=out, given=script, name="the debugger script")
    for script, lines in SCRIPTS:
        yield debugged(script, lines, name=repr(script[:40]))
    five = batch(event(*of_event) for of_event, _ in ANY_RUNS[0][1])
    yield debugged("run on_trip", "2 0 on_trip possible on_trip\n", five, (2, 2), name="the five-event run")
    others = ["7", event(A, "e1", "comms_lost", "non_contactable", 1000), event(B, "e1", "wake", "available", 1)]
    yield debugged("next", SECOND, batch(others), (1, 0), name="other items")
    refused = batch([event(A, "e1", "wake", "available", 1000)])
    yield debugged("step\nchain\nback", "at end\nat end\nat start\n", refused, (0, 1), name="nothing accepted")
    words = [*WORDS, "--table", "rows"]
    yield debugged("chain", "removed available\n", refused, (1, 0), words=words, files={"rows": ONE_ROW})
    yield debugged("step", STEPPED, words=["debug", "-", P, A], files={"-": EVENTS})
    for provider, device in ((P.upper(), A.replace("-", "")), (f"urn:uuid:{P}", "{%s}" % A)):
        yield debugged("quit", "", words=["debug", "events.json", provider, device])
    yield debugged("", "", stdin=CLOSED)


MANY = 2000


def place(number, passed=0):
    """The line of a place in the history of a vehicle, before the event of this number or behind its one type."""
    held = turn(number - 1)[0] if number else "removed"
    return f"{number} {passed} {held} possible {turn(number)[0] if passed else held}\n"


def long_sessions():
    """A vehicle of 2000 events, walked through from its first place to its end, and back."""
    events = batch(history(A, 0, MANY))
    forth = "".join(place(number) for number in range(1, MANY + 1))
    yield debugged("next\n" * (MANY + 1), f"{forth}at end\n", events, (MANY, 0), name="next")
    steps = [place(number // 2, number % 2) for number in range(2 * MANY + 1)]
    back = "".join(steps[-2::-1])
    script = "step\n" * (2 * MANY + 1) + "back\n" * (2 * MANY + 1)
    yield debugged(script, f"{''.join(steps[1:])}at end\n{back}at start\n", events, (MANY, 0), name="step and back")
    last = [*history(A, 0, MANY - 1), event(A, "ffff", "battery_low comms_lost", "non_contactable", 9000)]
    found = f"{MANY} 0 non_contactable possible non_contactable\n"
    chain = "available non_operational non_contactable\n"
    inside = f"{MANY - 1} 2 available possible non_contactable\n{MANY - 1} 1 available possible non_operational\n"
    script = "run non_contactable\nback\nback\nchain\n"
    yield debugged(script, found + inside + chain, batch(last), (MANY, 0), name="run to the last event")


def start_of(child, length):
    """What a process printed, up to so many bytes, or as long as it prints some within ten seconds."""
    found = b""
    while len(found) < length and select.select([child.stdout], [], [], 10)[0]:
        piece = child.stdout.read(1000)
        if not piece:
            break
        found += piece
    return found


@contextmanager
def begun(program, file, counts, more=()):
    """The debugger on the first vehicle of a file, by some more words, before it reads a script, and what is wrong with its first two
    lines."""
    words = [program, "debug", str(file), P, A, *more]
    child = subprocess.Popen(words, stdin=subprocess.PIPE, stdout=subprocess.PIPE, bufsize=0)
    try:
        wanted = ("events {} refused {}\n".format(*counts) + START).encode()
        found = start_of(child, len(wanted))
        yield child, [] if found == wanted else [f"{found!r}, in place of {wanted!r}, before anything of standard input"]
    finally:
        child.kill()
        child.communicate()


def starts_before_its_script(program):
    """The first two lines come before anything of standard input does, which is read then."""
    with begun(program, EXAMPLE.with_suffix(".json"), (2, 0)) as (child, wrong):
        yield from wrong
        rest, _ = child.communicate(b"step\n", timeout=60)
        if (child.returncode, rest) != (0, STEPPED.encode()):
            yield f"status {child.returncode} and {rest!r} behind `step`"


CHAINS = MAX_SCRIPT // len("chain\n")
"""As many of the command as a script may have: these bytes are more than a pipe holds, and what is printed of them is, too."""
SECONDS, QUIET = 60, 1
"""How long a script may take to be read, and what is printed to come; and how long is listened for what comes too early."""


def write_script(child, script):
    """Writes it whole. The process may end before."""
    with suppress(BrokenPipeError):
        child.stdin.write(script)


def reads_its_script_before_it_prints(program):
    """A client that writes all of a long script before it reads isn't kept waiting, and nothing is printed before the script's
    end: also over a table, and over two."""
    table = json.loads(table_file(PROFILE))
    tables = {"table.json": table, "tables.json": {"tables": [{"from_time": start, **table} for start in (0, 1)]}}
    with tempfile.TemporaryDirectory() as folder:
        yield from read_before_printed(program)
        for name, file in tables.items():
            Path(folder, name).write_text(json.dumps(file))
            for wrong in read_before_printed(program, ["--table", str(Path(folder, name))]):
                yield f"{name}: {wrong}"


def read_before_printed(program, more=()):
    """What is wrong with a run by some more words over such a script."""
    with begun(program, EXAMPLE.with_suffix(".json"), (2, 0), more) as (child, wrong):
        yield from wrong
        writer = threading.Thread(target=write_script, args=(child, b"chain\n" * CHAINS))
        writer.start()
        writer.join(SECONDS)
        if writer.is_alive():
            child.kill()
            writer.join()
            yield f"not all of the script was read within {SECONDS} s, while nobody read what is printed"
            return
        if select.select([child.stdout], [], [], QUIET)[0]:
            yield f"{child.stdout.read(100)!r} before the end of the script"
        rest, _ = child.communicate(timeout=SECONDS)
        wanted = b"removed non_contactable\n" * CHAINS
        if (child.returncode, rest) != (0, wanted):
            yield f"status {child.returncode} and {len(rest)} bytes behind the script, in place of {len(wanted)}"


@contextmanager
def at_a_terminal(program, words, folder):
    """The debugger with a terminal as standard input, and the end at which someone types."""
    typed, terminal = pty.openpty()
    child = subprocess.Popen([program, *words], cwd=folder, stdin=terminal, stdout=subprocess.PIPE, stderr=subprocess.PIPE, bufsize=0)
    os.close(terminal)
    try:
        yield child, typed
    finally:
        os.close(typed)
        child.kill()
        child.communicate()


TYPED = [("step\n", STEPPED), ("back\n", START), ("next\n", SECOND), ("x\n", UNKNOWN), ("chain\n", "non_contactable on_trip available\n")]
"""Lines that someone types, and what each is answered."""


def answers_each_line_at_a_terminal(program):
    """At a terminal each line is answered before the next is typed, and `quit` ends it, though nothing ends the input."""
    with tempfile.TemporaryDirectory() as folder:
        Path(folder, "events.json").write_text(EVENTS)
        with at_a_terminal(program, WORDS, folder) as (child, typed):
            for line, answer in [("", "events 2 refused 0\n" + START), *TYPED]:
                os.write(typed, line.encode())
                found = start_of(child, len(answer))
                if found != answer.encode():
                    yield f"{found!r}, in place of {answer!r}, behind {line!r}"
                    return
            os.write(typed, b"quit\n")
            rest, faults = child.communicate(timeout=SECONDS)
            if (child.returncode, rest, faults) != (0, b"", b""):
                yield f"status {child.returncode}, {rest!r} and {faults!r} behind `quit`"


MOST_TYPED = 1000
"""More than someone types, and fewer bytes than a terminal takes at once."""


def may_be_typed(case):
    """Whether the case has a script, of lines that a terminal hands over as they are."""
    if case.stdin or case.stdout or case.stderr or isinstance(case.given, bytes) or len(case.given) > MOST_TYPED:
        return False
    return case.given.replace("\n", "").replace("\t", "").isprintable() or not case.given


def typed_at_a_terminal(program, case):
    """What is wrong with a run of a case whose script is typed, up to its end."""
    with tempfile.TemporaryDirectory() as folder:
        for name, text in case.files.items():
            if text is FOLDER:
                Path(folder, name).mkdir()
            else:
                Path(folder, name).write_text(text)
        with at_a_terminal(program, words_of(case), folder) as (child, typed):
            # The first of them hands over a line without a line feed, if there is one, and the next one ends the input.
            os.write(typed, case.given.encode() + b"\x04\x04")
            out, faults = child.communicate(timeout=SECONDS)
            yield from differences(case, child.returncode, out, faults)


def prints_the_same_at_a_terminal(program):
    """A script that is typed at a terminal, up to its end, prints what it prints elsewhere, and ends alike: also where events of the
    vehicle are refused, by a table that is named, and where there is a fault."""
    for case in (*scripts(), *faults()):
        if may_be_typed(case):
            yield from (f"{label(case)}, {case.given!r}: {it}" for it in typed_at_a_terminal(program, case))


MANY_MOVES = 300
"""At a terminal there may be more lines than a session has steps."""


def goes_on_at_a_terminal(program):
    """Someone steps forth and back for long."""
    with tempfile.TemporaryDirectory() as folder:
        Path(folder, "events.json").write_text(EVENTS)
        with at_a_terminal(program, WORDS, folder) as (child, typed):
            os.write(typed, b"step\nback\n" * MANY_MOVES + b"\x04")
            out, faults = child.communicate(timeout=SECONDS)
            wanted = "events 2 refused 0\n" + START + (STEPPED + START) * MANY_MOVES
            if (child.returncode, out.decode(), faults) != (0, wanted, b""):
                yield f"status {child.returncode}, {len(out)} bytes and {faults!r}, in place of {len(wanted)}"


MOST_GROWTHS = 1000
"""More growths of memory than the debugger makes over two events."""


def without_memory(program, folder, number):
    """The debugger with the growth of this number refused: whether it came to that, its end, and how many bytes of its script it
    read."""
    with Refusal(number) as refusal, open(Path(folder, "script")) as script:
        ran = subprocess.run([program, *WORDS], cwd=folder, env=refusal.env, stdin=script, capture_output=True, timeout=60)
        read = os.lseek(script.fileno(), 0, os.SEEK_CUR)
        return refusal.came(), (ran.returncode, ran.stdout.decode(), ran.stderr.decode()), read


def reads_no_script_before_its_start(program):
    """Whichever growth is refused: unless the first two lines go out, nothing of the script is read, and nothing printed. Each way
    to end comes by some growth."""
    start, script, found = "events 2 refused 0\n" + START, "next\n", set()
    with tempfile.TemporaryDirectory() as folder:
        Path(folder, "events.json").write_text(EVENTS)
        Path(folder, "script").write_text(script)
        for number in range(1, MOST_GROWTHS):
            came, *end = without_memory(program, folder, number)
            found.add(tuple(end))
            if not came:
                break
    wanted = {((4, "", NO_MEMORY), 0), ((4, start, NO_MEMORY), len(script)), ((0, start + SECOND, ""), len(script))}
    yield from (f"{end}, and {read} bytes of the script read" for end, read in sorted(found - wanted))
    yield from (f"no growth has {end}, and {read} bytes of the script read" for end, read in sorted(wanted - found))


MOST_HELD = 30_000_000
"""How many bytes the debugger holds at most over as many events of a vehicle as there may be."""


def holds_little(program):
    """The debugger holds no more of a file of as many events of a vehicle as there may be."""
    with tempfile.TemporaryDirectory() as folder:
        file = Path(folder) / "events.json"
        file.write_text(batch(history(A, 0, MAX_ITEMS)))
        with begun(program, file, (MAX_ITEMS, 0)) as (child, wrong):
            yield from wrong
            status = Path(f"/proc/{child.pid}/status").read_text()
            held = 1024 * int(re.search(r"^VmHWM:\s*(\d+) kB$", status, re.M)[1])
            if held > MOST_HELD:
                yield f"{held} bytes held, past {MOST_HELD}, over {MAX_ITEMS} events of a vehicle"


def faults():
    """Each fault, in the order in which they are looked for."""
    files = {"events.json": EVENTS, "bad": "{", "rows": ONE_ROW, "folder": FOLDER}
    for provider, device in (("P", A), (P, "a"), ("", ""), (P, A[:-1]), (f" {P}", A)):
        for file, table in (("events.json", "rows"), ("none", "none"), ("bad", "bad")):
            words = ["debug", file, provider, device, "--table", table]
            yield Case(words, status=2, faults=BAD, files=files)
    for file in ("none", "bad", "folder"):
        yield told(["debug", file, P, A, "--table", "none"], cannot_read("none"), files=files)
        yield told(["debug", file, P, B, "--table", "bad"], not_a_table("not_json"), files=files)
    yield told(["debug", "none", P, B], cannot_read("none"), files=files)
    yield told(["debug", "folder", P, B], cannot_read("folder"), files=files)
    yield told(["debug", "bad", P, B], not_a_batch("not_json"), files=files)
    for fault, text in (("not_list", "7"), ("too_many", batch(["0"] * (MAX_ITEMS + 1))), ("too_long", " " * (MAX_BYTES + 1))):
        yield told(["debug", "events.json", P, A], not_a_batch(fault), files={"events.json": text})
    for fault, text in (("not_rows", "[]"), ("empty", '{"rows": []}'), ("bad_row 0", '{"rows": [7]}')):
        yield told([*WORDS, "--table", "rows"], not_a_table(fault), files={**files, "rows": text})
    yield told(["debug", "-", P, A], cannot_read("-"), given=EVENTS, files=files)
    for words in (["debug", "events.json", P, B], ["debug", "events.json", A, A]):
        yield Case(words, status=1, faults=NOBODY, given="step\n", files=files)
    yield Case(["debug", "empty", P, A], status=1, faults=NOBODY, files={"empty": "[7]"})
    for stderr in NO_STREAMS:
        yield Case(["debug", "events.json", P, B], status=1, files=files, stderr=stderr)
        yield Case(["debug", "events.json", "P", B], status=2, files=files, stderr=stderr)
    for stdout in NO_STREAMS:
        yield told(WORDS, OUTPUT, given="step\n", files=files, stdout=stdout)
