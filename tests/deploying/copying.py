"""`deploy/backup` and `deploy/restore`, between servers, with good and with wrong inputs."""

import importlib.machinery
import importlib.util
import json
import os
import socket
import stat
import subprocess
import sys
import tempfile
from pathlib import Path

from deploying.journals import server_over
from deploying.vehicles import PROVIDERS, event, fill, fleet, vehicle
from harness.case import MAX_BYTES, MAX_ITEMS
from harness.counting import ROOT
from model.http import error
from model.json_text import compact
from serving.server import Server
from serving.wire import ask, get, post

SECONDS = 300
VEHICLES, EVENTS = 100, 120
"""Together their events take more than one batch, by their number."""
EACH = 100000
UNKNOWN = vehicle(PROVIDERS[0], 999)
DEEP = "[" * 200000 + "]" * 200000
"""JSON that nests deeper than Python reads it."""
CALLS = """
import os, runpy, sys

def telling(name, call):
    def told(given, *more):
        paths = [os.readlink(f"/proc/self/fd/{it}") if isinstance(it, int) else it for it in (given, *more)]
        print(name, *map(os.path.basename, paths))
        return call(given, *more)
    return told

os.fsync, os.replace = telling("sync", os.fsync), telling("put", os.replace)
sys.argv = sys.argv[1:]
sys.path.insert(0, os.path.dirname(sys.argv[0]))
runpy.run_path(sys.argv[0], run_name="__main__")
"""
"""Runs a program of Python, and prints the names of what it has synced and put in place."""


def tool(name, *words):
    """The words by which a program of deploy/ is run."""
    return [ROOT / "deploy" / name, *map(str, words)]


def run(name, *words, given=""):
    """The status of a run of a program of deploy/, and what it printed on standard error."""
    words = tool(name, *words)
    ran = subprocess.run(words, input=given, capture_output=True, text=True, timeout=SECONDS)
    return ran.returncode, ran.stderr + ran.stdout


def ended(ran, status, *texts):
    """What is wrong with how a run ended: its status, and texts that it has to print."""
    for missing in [text for text in texts if text not in ran[1]]:
        yield f"it printed {ran[1]!r}, without {missing!r}"
    if ran[0] != status:
        yield f"status {ran[0]}, in place of {status}: {ran[1]!r}"


def url(server):
    return f"http://127.0.0.1:{server.port}"


def path_of(owner):
    return f"/vehicles/{owner['provider_id']}/{owner['device_id']}"


class Files:
    """A folder for files, among them the registrations of these vehicles."""

    def __init__(self, vehicles=()):
        self.folder = tempfile.TemporaryDirectory()
        self.vehicles = vehicles

    def __enter__(self):
        self.registrations = self.path("registrations.json", compact([owner for owner, _ in self.vehicles]))
        return self

    def __exit__(self, *_):
        self.folder.cleanup()

    def path(self, name, text=None):
        """The path of a file, which has this text, if one is given."""
        path = Path(self.folder.name, name)
        if text is not None:
            path.write_bytes(text if isinstance(text, bytes) else text.encode())
        return path

    def parts(self):
        """What runs of backup have written beside their files."""
        return sorted(Path(self.folder.name).glob("*.part"))


def a_hundred_vehicles(program):
    """All that one server has goes into another, which then gives the same file; a second time changes nothing."""
    vehicles = list(fleet(VEHICLES, EVENTS))
    events = sum(len(listed) for _, listed in vehicles)
    counts = f"{VEHICLES} vehicles, {events} events"
    with Files(vehicles) as files, Server(program, EACH, 2) as old, Server(program, EACH, 2) as new:
        fill(old, vehicles)
        first, second = files.path("first"), files.path("second")
        yield from ended(run("backup", url(old), first, files.registrations), 0, f"read {counts}; 0 not registered")
        put = run("restore", url(new), first)
        yield from ended(put, 0, f"sent {counts}; 0 there already, 0 refused, 0 stand otherwise")
        yield from ended(run("backup", url(new), second, files.registrations), 0)
        if first.read_bytes() != second.read_bytes():
            yield "the new server gives another file than the old one"
        again = run("restore", url(new), second)
        yield from ended(again, 0, f"{VEHICLES + events} there already, 0 refused, 0 stand otherwise")
        yield from same_answers(old, new, [owner for owner, _ in vehicles[::7]])


def same_answers(old, new, owners):
    """Whether two servers answer the same of these vehicles, byte for byte."""
    for target in [path_of(owner) + end for owner in owners for end in ("", "/events")]:
        if ask(old.port, get(target)) != ask(new.port, get(target)):
            yield f"{target} is answered otherwise"


def module(name):
    """The names of a program of deploy/, which isn't run."""
    path = ROOT / "deploy" / name
    loader = importlib.machinery.SourceFileLoader(name, str(path))
    loaded = importlib.util.module_from_spec(importlib.util.spec_from_loader(name, loader))
    sys.path.insert(0, str(path.parent))
    try:
        loader.exec_module(loaded)
    finally:
        sys.path.remove(str(path.parent))
    return loaded


def batches_within_the_limits(program):
    """Batches have as many items and as many bytes as a server takes, and no more."""
    half = "x" * (MAX_BYTES // 2 - 4)
    cases = [
        ([7] * MAX_ITEMS, [MAX_ITEMS]),
        ([7] * (2 * MAX_ITEMS + 1), [MAX_ITEMS, MAX_ITEMS, 1]),
        ([half, half + "x"], [2]),
        ([half, half + "xx", half], [1, 1, 1]),
        ([], []),
    ]
    for items, wanted in cases:
        found = list(module("restore").batches(iter(items)))
        if [len(batch) for batch, _ in found] != wanted or any(json.loads(body) != batch for batch, body in found):
            yield f"{[len(batch) for batch, _ in found]}, in place of {wanted}"
        if any(len(body) > MAX_BYTES for _, body in found):
            yield f"{[len(body) for _, body in found]} bytes"


def ways_to_name_devices(program):
    """Registrations, one of them alone, lines, standard input, and several files: the same vehicles, each once."""
    vehicles = list(fleet(3, 4))
    owners = [owner for owner, _ in vehicles]
    lines = [f"{owner['provider_id']} {owner['device_id']}\n" for owner in owners]
    with Files(vehicles) as files, Server(program, EACH) as server:
        fill(server, vehicles)
        alone = files.path("alone.json", compact(owners[0]))
        listed = files.path("lines", f"\n{lines[1].upper()}  {lines[2].replace('-', '')}{lines[1]}")
        ways = [([files.registrations], ""), (["-"], "".join(lines)), ([alone, listed, files.registrations], "")]
        found = []
        for number, (words, given) in enumerate(ways):
            path = files.path(f"way-{number}")
            yield from ended(run("backup", url(server), path, *words, given=given), 0, "read 3 vehicles")
            found.append(path.read_bytes())
        if len(set(found)) != 1:
            yield f"the files differ: {found}"


def unknown_devices(program):
    """A device that isn't registered is told, and the file has the others."""
    vehicles = list(fleet(3, 4))
    with Files([*vehicles, (UNKNOWN, [])]) as files, Server(program, EACH) as old, Server(program, EACH) as new:
        fill(old, vehicles)
        told = f"not registered: {UNKNOWN['provider_id']} {UNKNOWN['device_id']}"
        read = run("backup", url(old), files.path("file"), files.registrations)
        yield from ended(read, 1, told, "read 3 vehicles, 12 events; 1 not registered")
        yield from ended(run("restore", url(new), files.path("file")), 0, "sent 3 vehicles, 12 events")
        if ask(new.port, get(path_of(UNKNOWN))) != error(404, "unregistered"):
            yield "the unknown device is registered now"


def wrong_devices(program):
    """Files of devices that can't be read, or haven't their form: no file is written."""
    texts = {"7": "line 1", "[7]": "item 0", '[{"provider_id":1}]': "item 0", "{": "not JSON", b"\xff": "UTF-8"}
    with Files() as files:
        for text, told in texts.items():
            devices = files.path("devices", text)
            yield from ended(run("backup", "http://127.0.0.1:1", files.path("file"), devices), 3, str(devices), told)
        missing = files.path("nothing")
        yield from ended(run("backup", "http://127.0.0.1:1", files.path("file"), missing), 3, "No such file")
        if files.path("file").exists():
            yield "a file was written"


def devices_of_a_journal(program):
    """The devices are those that `mds_city vehicles` tells of the server's journal."""
    vehicles = list(fleet(30, 4))
    with Files(vehicles) as files, server_over(program, files.path("journal"), EACH) as server:
        fill(server, vehicles)
        told = subprocess.run([program, "vehicles", files.path("journal")], capture_output=True, text=True, timeout=SECONDS)
        awk = subprocess.run(["awk", "$1 == \"vehicle\" { print $2, $3 }"], input=told.stdout, capture_output=True, text=True)
        by_name, by_journal = files.path("by name"), files.path("by journal")
        yield from ended(run("backup", url(server), by_journal, "-", given=awk.stdout), 0, "read 30 vehicles", "0 not registered")
        yield from ended(run("backup", url(server), by_name, files.registrations), 0)
        if sorted(by_name.read_text().splitlines()) != sorted(by_journal.read_text().splitlines()):
            yield "the devices of the journal give other vehicles"


def no_server(program):
    """Nobody listens: the file that was there stays, and no other is left."""
    with Files(list(fleet(1, 1))) as files, Server(program, EACH) as server, socket.socket() as unheard:
        unheard.bind(("127.0.0.1", 0))
        where = f"http://127.0.0.1:{unheard.getsockname()[1]}"
        kept = files.path("file", "what was there")
        yield from ended(run("backup", where, kept, files.registrations), 4, where, "Connection refused")
        fill(server, files.vehicles)
        whole = files.path("whole")
        yield from ended(run("backup", url(server), whole, files.registrations), 0)
        yield from ended(run("restore", where, whole), 4, where, "Connection refused")
        left = sorted(path.name for path in Path(files.folder.name).iterdir())
        if left != ["file", "registrations.json", "whole"] or kept.read_text() != "what was there":
            yield f"left behind: {left}"


def server_that_ends(program):
    """A server that ends on the way, since it has answered its connections."""
    vehicles = list(fleet(9, 4))
    with Files(vehicles) as files, Server(program, 6) as server:
        fill(server, vehicles)
        yield from ended(run("backup", url(server), files.path("file"), files.registrations), 4, url(server))
        if files.path("file").exists() or files.parts():
            yield "a part of a file was left"


def cut_files(whole):
    """Files that were cut short, and what is told of them."""
    lines = whole.splitlines(keepends=True)
    yield whole[: len(whole) // 2], "cut short"
    yield whole[: len(whole) - len(lines[-1])], "cut short"
    yield b"", "not a file of vehicles"


def changed_files(whole):
    """Files that are otherwise not as they were written, and what is told of them."""
    lines = whole.splitlines(keepends=True)
    yield whole[:-1], "cut short"
    yield lines[0], "cut short"
    yield b"[]\n", "not a file of vehicles"
    yield lines[1], "not a file of vehicles"
    yield lines[0] + b"\xff\n", "UTF-8"
    yield lines[0] + b"{\n", "not a file of vehicles"
    yield DEEP.encode() + b"\n", "nests too deep"
    yield lines[0] + DEEP.encode() + b"\n", "nests too deep"
    yield b"".join([*lines[:2], *lines[3:]]), "doesn't count"
    yield whole + lines[1], "doesn't count"
    yield b"".join([lines[0], b'{"events":[]}\n', *lines[1:]]), "line 2 isn't a vehicle"
    yield whole.replace(b'"events":[{', b'"events":[7,{', 1), "an event that isn't its vehicle's"


def events_that_lack_a_member(program):
    """Of a file with an event that lacks its time, or its state, nothing is sent: one line tells which."""
    owner, listed = next(fleet(1, 2))
    head, nowhere = compact(module("vehicles.py").HEAD), "http://127.0.0.1:1"
    for lacking in ("timestamp", "vehicle_state"):
        for at in range(len(listed)):
            events = [{name: it[name] for name in it if (number, name) != (at, lacking)} for number, it in enumerate(listed)]
            counts = compact({"vehicles": 1, "events": len(listed)})
            with Files() as files:
                lines = [head, compact({**owner, "events": events}), counts, ""]
                path = files.path("lacking", "\n".join(lines))
                status, told = run("restore", nowhere, path)
                if (status, told) != (3, f"restore: {path}: line 2 has an event without {lacking}\n"):
                    yield f"event {at} without {lacking}: status {status}, {told!r}"


def files_cut_short(program):
    """Of a file that isn't whole nothing is sent."""
    vehicles = list(fleet(4, 3))
    with Files(vehicles) as files, Server(program, EACH) as old, Server(program, EACH) as new:
        fill(old, vehicles)
        yield from ended(run("backup", url(old), files.path("whole"), files.registrations), 0)
        whole = files.path("whole").read_bytes()
        for text, told in cut_files(whole):
            cut = files.path("cut", text)
            yield from ended(run("restore", url(new), cut), 3, str(cut), told)
        yield from ended(run("restore", url(new), files.path("nothing")), 3, "No such file")
        for owner, _ in vehicles:
            if ask(new.port, get(path_of(owner))) != error(404, "unregistered"):
                yield f"something was sent: {owner}"
        yield from read_as(files, whole)


def read_as(files, whole):
    """What is wrong with how files are read: the whole one, and those that were changed."""
    made = module("vehicles.py")
    if [compact(vehicle) for vehicle in made.vehicles_in(files.path("whole"))] != lines_of_vehicles(whole):
        yield "the whole file is read otherwise"
    for text, told in changed_files(whole):
        try:
            found = f"{len(list(made.vehicles_in(files.path('cut', text))))} vehicles"
        except made.Fault as fault:
            found = f"{fault.status} {fault}"
        if not found.startswith("3 ") or told not in found:
            yield f"{text[:80]!r}: {found}, in place of {told!r}"


def lines_of_vehicles(whole):
    return [compact(json.loads(line)) for line in whole.splitlines()[1:-1]]


def another_history(program):
    """A server that knows something else of a vehicle: what it refuses is told, and how the vehicle stands."""
    (owner, listed), other = next(fleet(1, 4)), vehicle(PROVIDERS[0], 500)
    later = {**event(owner, 77, ["provider_drop_off"], "available"), "timestamp": 9000}
    with Files([(owner, listed), (other, [])]) as files, Server(program, EACH) as old, Server(program, EACH) as new:
        fill(old, files.vehicles)
        fill(new, [(owner, [later])])
        yield from ended(run("backup", url(old), files.path("file"), files.registrations), 0)
        put = run("restore", url(new), files.path("file"))
        yield from ended(put, 1, "stands otherwise", "5 there already, 0 refused, 1 stand otherwise")


def into_a_small_journal(program):
    """A server over a journal that was made small takes back what it had: what was left out is late, and counts as there. So does
    what it lacks of a vehicle that stands otherwise, which is told."""
    vehicles = list(fleet(20, 12))
    owner, listed = vehicles[0]
    with Files(vehicles) as files:
        paths = files.path("old journal"), files.path("new journal")
        with server_over(program, paths[0], EACH) as old:
            fill(old, vehicles)
            yield from ended(run("backup", url(old), files.path("file"), files.registrations), 0)
        subprocess.run([program, "compact", *paths, "--before", "9000"], stdout=subprocess.DEVNULL, check=True)
        with server_over(program, paths[1], EACH) as new:
            told = body_in(ask(new.port, get(path_of(owner))))
            if not told["events"] < len(listed):
                yield f"nothing was left out: {told}"
            counts = f"{len(vehicles) + sum(len(listed) for _, listed in vehicles)} there already, 0 refused"
            yield from ended(run("restore", url(new), files.path("file")), 0, f"{counts}, 0 stand otherwise")
            later = {**event(owner, 77, ["decommissioned"], "removed"), "timestamp": 9000}
            if body_in(ask(new.port, post("/events", compact(later))))["success"] != 1:
                yield "a later event isn't accepted"
            yield from ended(run("restore", url(new), files.path("file")), 1, f"{counts}, 1 stand otherwise")


def body_in(answered):
    return json.loads(answered.partition(b"\r\n\r\n")[2])


def words(program):
    """Help, and words that don't parse."""
    for name in ("backup", "restore"):
        yield from ended(run(name, "--help"), 0, "exit statuses:", "usage:")
        yield from ended(run(name), 2, "usage:")
    for where in ("127.0.0.1:8080", "http://", "http://127.0.0.1:8080/vehicles", "http://127.0.0.1:x"):
        yield from ended(run("restore", where, "a"), 2, where)


def answer(text, status="200 OK"):
    """An answer with this body."""
    return f"HTTP/1.1 {status}\r\nContent-Length: {len(text)}\r\n\r\n{text}".encode()


class Asking:
    """A run whose first request has come to a listener, and isn't answered yet."""

    def __init__(self, listener, words, umask):
        self.child = subprocess.Popen(words, stdout=subprocess.PIPE, stderr=subprocess.STDOUT, text=True, umask=umask)
        self.connection, _ = listener.accept()
        self.connection.settimeout(SECONDS)
        self.connection.recv(1 << 16)

    def answered(self, sent):
        """How it ends where these bytes are the answer."""
        self.connection.sendall(sent)
        self.connection.shutdown(socket.SHUT_WR)
        while self.connection.recv(1 << 16):
            pass
        return self.ended()

    def ended(self):
        out, _ = self.child.communicate(timeout=SECONDS)
        self.connection.close()
        return self.child.returncode, out


class Elsewhere:
    """Something that isn't the server, and gets one request of each run of a program of deploy/."""

    def __enter__(self):
        self.listener = socket.create_server(("127.0.0.1", 0))
        self.listener.settimeout(SECONDS)
        self.url = f"http://127.0.0.1:{self.listener.getsockname()[1]}"
        return self

    def __exit__(self, *_):
        self.listener.close()

    def backup(self, files, path, umask=-1):
        """A run of backup that writes the vehicle of these files to a path."""
        return Asking(self.listener, tool("backup", self.url, path, files.registrations), umask)

    def restore(self, path):
        return Asking(self.listener, tool("restore", self.url, path), -1)

    def backup_that_tells(self, files, path):
        """A run of backup that prints its calls."""
        words = [sys.executable, "-c", CALLS, *tool("backup", self.url, path, files.registrations)]
        return Asking(self.listener, words, -1)


def not_this_server(program):
    """Something else answers: with a page, with other JSON, or with nothing."""
    page, other = answer("<html>"), answer("{}")
    vehicles = list(fleet(1, 1))
    with Files(vehicles) as files, Elsewhere() as elsewhere, Server(program, EACH) as server:
        fill(server, vehicles)
        whole, path = files.path("whole"), files.path("file")
        yield from ended(run("backup", url(server), whole, files.registrations), 0)
        for sent in (page, other, b""):
            yield from ended(elsewhere.backup(files, path).answered(sent), 4, elsewhere.url)
        yield from ended(elsewhere.restore(whole).answered(other), 4, elsewhere.url)


def deep_answers(program):
    """An answer that nests too deep is a fault of who gives it, whatever its status is."""
    with Files(list(fleet(1, 0))) as files, Elsewhere() as elsewhere:
        whole, path = files.path("whole"), files.path("file")
        yield from ended(elsewhere.backup(files, whole).answered(answer('{"events":[]}')), 0)
        for sent in (answer(DEEP), answer(f'{{"events":{DEEP}}}'), answer(DEEP, "404 Not Found")):
            yield from ended(elsewhere.backup(files, path).answered(sent), 4, elsewhere.url, "nests too deep")
        yield from ended(elsewhere.restore(whole).answered(answer(DEEP)), 4, elsewhere.url, "nests too deep")
        if path.exists():
            yield "a file was written"


def deep_files(program):
    """A file that nests too deep is at fault itself: one of registrations, and one of vehicles."""
    with Files() as files:
        nowhere, path = "http://127.0.0.1:1", files.path("file")
        for text in (DEEP, f'{{"provider_id":{DEEP}}}'):
            devices = files.path("devices", text)
            yield from ended(run("backup", nowhere, path, devices), 3, str(devices), "nests too deep")
        head = compact(module("vehicles.py").HEAD)
        for text in (f"{DEEP}\n", f'{head}\n{{"events":{DEEP}}}\n'):
            vehicles = files.path("vehicles", text)
            yield from ended(run("restore", nowhere, vehicles), 3, str(vehicles), "nests too deep")


def for_its_owner_alone(program):
    """Nobody else can read the file, nor its part from the start on, whatever the umask is and whatever was there."""
    with Files(list(fleet(1, 0))) as files, Elsewhere() as elsewhere:
        for umask in (0, 0o022, 0o777):
            path = files.path(f"file-{umask:o}", "what was there")
            path.chmod(0o644)
            asking = elsewhere.backup(files, path, umask)
            modes = [stat.S_IMODE(part.stat().st_mode) for part in files.parts()]
            yield from ended(asking.answered(answer('{"events":[]}')), 0)
            modes.append(stat.S_IMODE(path.stat().st_mode))
            if modes != [0o600, 0o600]:
                yield f"umask {umask:o}: the part and the file have the modes {[f'{mode:o}' for mode in modes]}"


def runs_at_once(program):
    """One run within another, into the same file: each puts its own there. Parts that others left stay as they are."""
    with Files(list(fleet(1, 0))) as files, Elsewhere() as elsewhere:
        path = files.path("file")
        left = [files.path(name, "another's") for name in ("file.4rtz_0ab.part", "file.part")]
        outer = elsewhere.backup(files, path)
        inner = elsewhere.backup(files, path)
        if len(files.parts()) != len(left) + 2:
            yield f"the parts of two runs: {files.parts()}"
        for asking, events in ((inner, "[1]"), (outer, "[2,3]")):
            yield from ended(asking.answered(answer(f'{{"events":{events}}}')), 0)
            found = path.read_text().splitlines() if path.exists() else []
            if len(found) != 3 or f'"events":{events}' not in found[1]:
                yield f"the file of the run with {events}: {found}"
        if files.parts() != left or any(part.read_text() != "another's" for part in left):
            yield f"left behind: {files.parts()}"


def runs_that_fail(program):
    """A run that fails, or is ended on the way, leaves the file that was there, and no part."""
    with Files(list(fleet(1, 0))) as files, Elsewhere() as elsewhere:
        path, folder = files.path("file", "what was there"), files.path("folder")
        folder.mkdir()
        for sent in (answer('{"events":7}'), answer(DEEP), answer("", "503 Service Unavailable"), b""):
            yield from ended(elsewhere.backup(files, path).answered(sent), 4, elsewhere.url)
        asking = elsewhere.backup(files, path)
        asking.child.terminate()
        yield from ended(asking.ended(), 143)
        yield from ended(elsewhere.backup(files, folder).answered(answer('{"events":[]}')), 3, "Is a directory")
        missing = files.path("nothing") / "file"
        yield from ended(run("backup", elsewhere.url, missing, files.registrations), 3, str(missing), "No such file")
        if files.parts() or path.read_text() != "what was there":
            yield f"left behind: {files.parts()}, and {path.read_text()!r}"


def synced_in_order(program):
    """What a run has written is synced, then put in place, and then the folder is synced."""
    with Files(list(fleet(1, 0))) as files, Elsewhere() as elsewhere:
        path = files.path("file")
        asking = elsewhere.backup_that_tells(files, path)
        part = files.parts()[0].name
        status, out = asking.answered(answer('{"events":[]}'))
        found = [line for line in out.splitlines() if line.startswith(("sync ", "put "))]
        wanted = [f"sync {part}", f"put {part} file", f"sync {path.parent.name}"]
        if (status, found) != (0, wanted):
            yield f"status {status}, {found}, in place of {wanted}: {out!r}"


COPYING = [
    a_hundred_vehicles,
    batches_within_the_limits,
    ways_to_name_devices,
    unknown_devices,
    wrong_devices,
    devices_of_a_journal,
    no_server,
    server_that_ends,
    files_cut_short,
    events_that_lack_a_member,
    another_history,
    into_a_small_journal,
    words,
    not_this_server,
    deep_answers,
    deep_files,
    for_its_owner_alone,
    runs_at_once,
    runs_that_fail,
    synced_in_order,
]
