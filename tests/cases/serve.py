"""The words of `serve` on the command line, its texts and statuses: servers that take no connection."""

import re
import socket

from cases.replays import A
from cases.tables import FAULTS, ONE_ROW
from cases.timed import FAULTS as TIMED_FAULTS
from cases.vehicles import journal, registered
from harness.case import NO_STREAMS, OUTPUT, SOCKET, SOME, Case, cannot_read, not_a_table, told

WRONG = [
    "serve",
    "serve --port 0 --each 0 --workers 1 --table table.json --journal journal --bogus",
    "serve --port 0",
    "serve --each 1",
    "serve --until-stopped",
    "serve --port 0 --each 0 --until-stopped",
    "serve --port 0 --until-stopped --until-stopped",
    "serve --port 0 --until-stopped 5",
    "serve --port 0 --until-stopped=yes",
    "replay events.json --until-stopped",
    "serve --port 0 --each 0 --metrics",
    "serve --port 0 --each 0 --metrics 0",
    "serve --port 0 --each 0 --metrics 65536",
    "serve --port 0 --each 0 --metrics x",
    "serve --port 0 --each 0 --metrics 9000 --metrics 9001",
    "serve --metrics 9000 --each 0",
    "vehicles a.journal --metrics 9000",
    "serve --port 0 --each",
    "serve --port --each 1",
    "serve --port x --each 1",
    "serve --port -1 --each 1",
    "serve --port 65536 --each 1",
    "serve --port 0 --each -1",
    "serve --port 0 --each 1000001",
    "serve --port 0 --each 1.5",
    "serve --port 0 --each 99999999999999999999",
    "serve --port 0 --each 0 --workers 0",
    "serve --port 0 --each 0 --workers 65",
    "serve --port 0 --each 0 --workers x",
    "serve --port 0 --each 0 --workers",
    "serve --port 0 --port 0 --each 0",
    "serve --port 0 --each 0 --each 0",
    "serve --port 0 --each 0 --workers 1 --workers 1",
    "serve --port 0 --each 0 --table",
    "serve --port 0 --each 0 more",
    "serve --port 0 --each 0 --any",
    "serve --port 0 --each 0 --bogus",
    "serve --port 0 --each 0 --workers 65 --table nothing.json",
]
RIGHT = [
    "serve --port 0 --each 0",
    "serve --each 0 --port 0",
    "serve --port=0 --each=0 --workers=64",
    "serve --workers 1 --port 0 --each 0",
    "serve --port 0 --each 0 --workers 64",
    "serve --port 0 --each 0 --table table.json",
]
NO_CONNECTION = "serve --port 0 --each 0"
SERVED = re.compile(r"listening 127\.0\.0\.1:[1-9][0-9]{0,4}\naccepted 0\n")
SERVED_ONE = re.compile(r"listening 127\.0\.0\.1:[0-9]+\naccepted 1\n")
JOURNALS = [" journal", "journal ", "\u00a0journal", "straße 7\n.journal", "-"]
ROUNDS = 20


def served_at(port):
    return f"listening 127.0.0.1:{port}\naccepted 0\n"


def words_of_serve():
    """Words that don't parse print nothing on standard output. Others, with no connections, give the two lines."""
    for words in WRONG:
        yield Case(words, status=2, faults=SOME)
    for words in RIGHT:
        yield Case(words, out=SERVED, files={"table.json": ONE_ROW})


def journals_by_name():
    """The journal is the one of this name, letter for letter: spaces round it, other letters than ASCII's, and `-` say nothing else."""
    for name in JOURNALS:
        files = {"journal": "7", name: journal(registered(A))}
        yield Case([*NO_CONNECTION.split(), "--journal", name], out=SERVED_ONE, files=files)


def tables_of_serve():
    """A table file that isn't there, or has a fault, is told before the port is looked at."""
    with socket.create_server(("127.0.0.1", 0)) as taken:
        port = taken.getsockname()[1]
        for name in (0, port):
            yield told(f"serve --port {name} --each 0 --table missing.json", cannot_read("missing.json"))
        for text, fault in (*FAULTS, *TIMED_FAULTS):
            words = f"serve --port {port} --each 0 --table table.json"
            yield told(words, not_a_table(fault), files={"table.json": text})


def ports():
    """A port that is taken, and one that was said: it is free at once for the next server."""
    with socket.create_server(("127.0.0.1", 0)) as taken:
        port = taken.getsockname()[1]
        yield told(f"serve --port {port} --each 0", SOCKET, name="a port that is taken")
    for turn in range(ROUNDS):
        yield Case(f"serve --port {port} --each 0", out=served_at(port), name=f"round {turn}")


def outputs_of_serve():
    """A first line that can't be written."""
    for words in (NO_CONNECTION, f"{NO_CONNECTION} --journal journal"):
        for stdout in NO_STREAMS:
            yield told(words, OUTPUT, files={"journal": journal()}, stdout=stdout)
            yield told(words, "", files={"journal": journal()}, stdout=stdout, stderr="/dev/full")
