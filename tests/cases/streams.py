"""Streams that fail, and memory that is refused."""

import re
import subprocess
import tempfile
from pathlib import Path

from cases.replays import A, P, batch, history, identifier, item, replayed
from cases.tables import MOST_ROWS, ONE_ROW, table_file
from cases.vehicles import journal, registered
from harness.case import FULL, HOW_FAR, NO_MEMORY, NO_STREAMS, OUTPUT
from harness.case import Case, cannot_read, not_a_batch, not_a_table, told, told_slowly

ONE = batch([item()])
EVENTS, VEHICLES = 5000, 2000
"""Of a vehicle, and of a journal: what is printed of each command then, is more than a page, and more than a pipe holds."""
LONG = {
    "replay events.json": "",
    "replay -": batch(history(A, 0, EVENTS)),
    "table --table table.json": "",
    f"debug events.json {P} {A}": "step\nchain\n" * EVENTS,
    "vehicles journal": "",
    f"events journal-of-one {P} {A}": "",
    "replay --lines --unlimited events.lines": "",
}
"""The words of commands, and their standard input."""
LONG_FILES = {
    "events.json": batch(history(A, 0, EVENTS)),
    "table.json": table_file(MOST_ROWS),
    "journal": journal(*[registered(identifier(1, number)) for number in range(VEHICLES)]),
    "journal-of-one": journal(registered(A), *history(A, 0, EVENTS)),
    "events.lines": "\n".join(history(A, 0, EVENTS)),
}
FRONT, MOST_WAITING = 1000, (1 << 16) + 1000
"""Bytes that are read of standard output, and as many as that and a pipe hold."""
SECONDS = 60


def streams():
    """Where standard output fails that is told; where standard error does, the status stays."""
    for stdout in NO_STREAMS:
        for words in ("table", "replay -", "table --table table.json"):
            more = {"given": ONE, "files": {"table.json": ONE_ROW}, "stdout": stdout}
            yield told(words, OUTPUT, **more)
            yield told(words, "", stderr=FULL, **more)
        for words, given in LONG.items():
            yield told(words, told_slowly(OUTPUT), given=given, files=LONG_FILES, stdout=stdout, name="more than a page")
            yield told(words, "", given=given, files=LONG_FILES, stdout=stdout, stderr=FULL, name="more than a page")
    files = {"table.json": "7"}
    for stderr in NO_STREAMS:
        yield replayed(ONE, ["ok available"], [(A, "available", 1)], stderr=stderr)
        yield replayed("[7]", ["fault not_object"], [], stderr=stderr)
        for words in ("replay missing.json", "table --table missing.json", "replay -", "table --table table.json"):
            yield told(words, "", given="7", files=files, stderr=stderr)
    # nothing is printed before a fault of a file, so that a full standard output isn't told of
    yield told("replay missing.json", cannot_read("missing.json"), stdout=FULL)
    yield told("replay -", not_a_batch("not_list"), given="7", stdout=FULL)
    yield told("table --table table.json", not_a_table("not_rows"), files=files, stdout=FULL)


def memory():
    """A batch of 3.6 MB: 8 MiB don't hold the program, the batch's bytes and as many for reading them, but 16 MiB do, whatever
    its values are."""
    many = "[[%s]]" % ", ".join(['{"a":0}'] * 400000)
    given = {"given": many, "files": {"events.json": many}}
    for words in ("replay -", "replay events.json"):
        yield Case(words, memory=8 * 2**20, status=4, faults=NO_MEMORY, **given)
        yield Case(words, memory=8 * 2**20, status=4, stderr=FULL, **given)
    yield replayed(many, ["fault not_object"], [], memory=16 * 2**20, name="where memory is there")


def without_how_far(faults):
    """The bytes of standard error, but for how far a run is that takes long."""
    return re.sub(HOW_FAR.encode(), b"", faults)


def output_that_ends_midway(program):
    """Who reads standard output goes once it has begun, and before it is whole: that is told, as of any output that fails. What
    came until then is a front of the whole."""
    with tempfile.TemporaryDirectory() as folder:
        for name, text in LONG_FILES.items():
            Path(folder, name).write_text(text)
        Path(folder, "input").touch()
        for words, given in LONG.items():
            Path(folder, "input").write_text(given)
            whole, front = (read_from(program, words, folder, most) for most in (-1, FRONT))
            if whole[1:] != (0, b"") or len(whole[0]) < MOST_WAITING:
                yield f"{words}: {len(whole[0])} bytes, and {whole[1:]}"
            if front != (whole[0][:FRONT], 3, OUTPUT.encode()):
                yield f"{words}, of which {FRONT} bytes are read: {front[0][-100:]!r}, and {front[1:]}"


def read_from(program, words, folder, most):
    """The bytes of standard output, all for -1 or so many, behind which it is closed, the status, and standard error."""
    with open(Path(folder, "input")) as given, open(Path(folder, "faults"), "w+b") as faults:
        words = [program, *words.split()]
        child = subprocess.Popen(words, cwd=folder, stdin=given, stdout=subprocess.PIPE, stderr=faults, bufsize=FRONT)
        with child.stdout:
            found = child.stdout.read(most)
        status = child.wait(timeout=SECONDS)
        faults.seek(0)
        return found, status, without_how_far(faults.read())
