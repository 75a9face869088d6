"""What a case holds, what must come of it by the model, what comes of it, and the file that keeps one."""

import json
import os
import shutil
import subprocess
import tempfile
from dataclasses import dataclass
from functools import cached_property
from pathlib import Path

from harness.case import FOLDER, SOME, not_a_table
from harness.running import NAME, mismatch
from harness.texts import difference
from model import commands, http, tables
from serving.server import NotListening, Server, success_of
from serving.wire import ask_in_pieces

SECONDS = 60
"""How long a run of a command may take."""
WAITING = (b'{"error":"bad_head"}', b'{"error":"cut_short"}')
"""Ends of answers that may come only once the client has ended its side."""


@dataclass(frozen=True)
class Model:
    """The modules of a model: the one of tests/model/, or a copy of it."""

    commands: object
    http: object
    tables: object


MODEL = Model(commands, http, tables)


def as_text(value):
    """Bytes, or a folder, as JSON can keep them."""
    return None if value is FOLDER else value.decode("latin-1")


def as_bytes(text):
    return FOLDER if text is None else text.encode("latin-1")


class Folder:
    """A folder in which runs of commands find their files, one run after the other."""

    def __enter__(self):
        self.folder = tempfile.TemporaryDirectory()
        return self

    def __exit__(self, *_):
        self.folder.cleanup()

    def fill(self, files):
        """Puts these files there, and no others."""
        with os.scandir(self.folder.name) as entries:
            for entry in entries:
                shutil.rmtree(entry.path) if entry.is_dir() else os.unlink(entry.path)
        for name, text in files.items():
            path = Path(self.folder.name, os.fsdecode(name))
            path.mkdir() if text is FOLDER else path.write_bytes(text)


@dataclass
class CommandCase:
    """A run of `replay`, `debug` or `table`."""

    words: list
    """The words of the command line, as bytes."""
    files: dict
    """Bytes, or a folder, by the bytes of their names."""
    given: bytes
    """Standard input."""
    """Whether table files may hold tables that change at stated times."""

    def wanted_by(self, model):
        """The status, the output and the faults that a model has."""
        files = {name.decode(): text for name, text in self.files.items()}
        return model.commands.outcome_of(self.words, files, self.given)

    @cached_property
    def wanted(self):
        return self.wanted_by(MODEL)

    def found(self, program, folder):
        """Those that come."""
        folder.fill(self.files)
        words = [NAME, *self.words]
        pipe = subprocess.PIPE
        where = folder.folder.name
        child = subprocess.Popen(words, executable=program, cwd=where, stdin=pipe, stdout=pipe, stderr=pipe)
        try:
            out, faults = child.communicate(self.given, timeout=SECONDS)
        except subprocess.TimeoutExpired:
            child.kill()
            out, faults = child.communicate()
        return child.returncode, out, faults

    def differences(self, program, folder):
        """How what comes isn't what must come, a line each."""
        status, out, faults = self.wanted
        found = self.found(program, folder)
        if found[0] != status:
            yield f"status {found[0]}, in place of {status}; {found[2][:200]!r}"
        for name, text, right in (("output", found[1], out), ("error", found[2], faults)):
            differs = mismatch(text, right)
            if differs:
                yield f"standard {name}, {differs}"

    def label(self):
        return b" ".join(self.words).decode(errors="replace")

    def kept(self):
        """The case as a value of JSON."""
        return {
            "words": list(map(as_text, self.words)),
            "files": {as_text(name): as_text(text) for name, text in self.files.items()},
            "given": as_text(self.given),
        }

    def texts(self):
        """What the case must print, for those who count what was reached."""
        status, out, faults = self.wanted
        start = f"{self.words[0].decode(errors='replace')} status {status}"
        return [start, out.decode(), "" if faults is SOME else faults.decode()]


@dataclass
class TalkCase:
    """Requests to one server, one after the other."""

    table: bytes
    """Its table file, or None."""
    requests: list
    """The pieces in which each request is sent, and whether the client ends its side behind them."""
    workers: int

    def wanted_by(self, model):
        """The answers that a model has, or the fault of the table file."""
        one = model.tables.Tables.one
        try:
            server = model.http.Server(one() if self.table is None else model.tables.tables_of(self.table))
        except model.tables.TableFault as fault:
            return str(fault)
        return [server.answered(b"".join(pieces)) for pieces, _ in self.requests]

    @cached_property
    def wanted(self):
        return self.wanted_by(MODEL)

    def differences(self, program, folder):
        """How what is answered isn't what must be, a line each."""
        each = -(-len(self.requests) // self.workers)
        if isinstance(self.wanted, str):
            yield from self.unlike_fault(program, each)
            return
        with Server(program, each, self.workers, self.table) as server:
            for (pieces, ends), right in zip(self.requests, self.wanted):
                found = answered(server, pieces, ends or right.endswith(WAITING))
                differs = difference(found, right)
                if differs:
                    yield f"{b''.join(pieces)[:300]!r} was answered, {differs}"
            yield from server.end()

    def unlike_fault(self, program, each):
        """How a server with a faulty table file does otherwise than to tell the fault."""
        try:
            with Server(program, each, self.workers, self.table) as server:
                yield f"it listens at {server.port}, in place of {self.wanted}"
        except NotListening as ended:
            right = (3, "", not_a_table(self.wanted))
            if ended.ended != right:
                yield f"it ended with {ended.ended}, in place of {right}"

    def label(self):
        return f"serve, {len(self.requests)} requests to {self.workers} workers"

    def kept(self):
        """The case as a value of JSON."""
        requests = [{"pieces": list(map(as_text, pieces)), "ends": ends} for pieces, ends in self.requests]
        table = None if self.table is None else as_text(self.table)
        return {"table": table, "requests": requests, "workers": self.workers}

    def texts(self):
        """What the case must print and answer, for those who count what was reached."""
        if isinstance(self.wanted, str):
            return ["serve status 3", not_a_table(self.wanted)]
        return ["serve status 0", *[it.decode() for it in self.wanted]]


def answered(server, pieces, ends):
    """What the server answers, or why nothing came."""
    server.count()
    try:
        # what stands behind a whole request may come when the server has answered and gone
        found = ask_in_pieces(server.port, pieces, ends=ends, gone=True)
    except OSError as fault:
        return f"{type(fault).__name__}: {fault}".encode()
    server.count(0, success_of(found))
    return found


def case_of(kept):
    """The case that was kept as this value of JSON."""
    if "words" in kept:
        files = {as_bytes(name): as_bytes(text) for name, text in kept["files"].items()}
        return CommandCase(list(map(as_bytes, kept["words"])), files, as_bytes(kept["given"]))
    table = None if kept["table"] is None else as_bytes(kept["table"])
    requests = [(list(map(as_bytes, it["pieces"])), it["ends"]) for it in kept["requests"]]
    return TalkCase(table, requests, kept["workers"])


def keep(path, case, wrong):
    """Writes the file of a case that went wrong, with what was wrong, so that it can be run again."""
    path.parent.mkdir(exist_ok=True)
    path.write_text(json.dumps({**case.kept(), "wrong": wrong}, indent=1))
