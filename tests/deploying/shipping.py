"""The copies of a journal that the unit `mds_city-ship@` makes while a server writes, and the log that logrotate puts away."""

import json
import os
import re
import shlex
import shutil
import subprocess
import tempfile
import threading
from concurrent.futures import ThreadPoolExecutor
from pathlib import Path

from cases.vehicles import checked, not_a_journal
from crashing.files import counted, hurt_gate, listed_by
from deploying.journals import server_over
from deploying.passing import sent
from deploying.proxies import TOKENS, changed, installed
from deploying.units import HOST, INSTANCE, exec_start, exec_starts, setting, variables, words_of
from deploying.vehicles import PROVIDERS, event, vehicle
from harness.counting import ROOT, Unwell
from model.json_text import compact
from serving.server import success_of
from serving.wire import post

UNIT, REST = "mds_city-ship@.service", "mds_city-rest.service"
NEVER_REMOVED = {"/var/lib/mds_city_left_out", "/var/lib/mds_city_archive"}
"""What of the rest stays in the second place."""
EACH, COPIES, SECONDS = 1000000, 8, 300
COPIES_AT = "/var/lib/mds_city_copies"
AT_ONCE, PACE = 25, 0.02
"""How many vehicles a batch registers, and how many seconds lie between two of them."""
MANY = 12
"""How many copies are made at once."""
BACKUP = (ROOT / "docs/operations.md").read_text().partition("**A backup is a copy of the journal**")[2].partition("]")[0]
"""What docs/operations.md says of copies."""
TOOLS = re.compile(r"`([^`]*)`")
"""The tools there: the last one is none for a journal."""
LOOKS = 40
"""How many requests come before the log is put away, and how many behind that."""


def commands_over(journal, place, run, name="one"):
    """The commands of the unit for an instance, over a journal, with a place and a folder in place of /run."""
    link, command = setting("ExecStartPre", UNIT), exec_start(UNIT, dict.fromkeys(variables("ship.conf"), str(place)))
    changes = {words_of()[-1]: str(journal), "/run/": f"{run}/", f"{INSTANCE}.journal": f"{name}.journal"}
    Path(run, setting("RuntimeDirectory", UNIT)).mkdir(exist_ok=True)
    for old, new in changes.items():
        link, command = link.replace(old, new), command.replace(old, new)
    return link, command


def ship(journal, place, **more):
    """Runs the commands of the unit over a journal, with a second place; `more`: changes of the words."""
    with tempfile.TemporaryDirectory() as run:
        for command in commands_over(journal, place, run):
            for old, new in more.items():
                command = command.replace(f"--{old}", new)
            words = shlex.split(command)
            ran = subprocess.run([installed(Path(words[0]).name), *words[1:]], capture_output=True, text=True, timeout=SECONDS)
            if ran.returncode:
                raise Unwell(f"{command}: {ran.returncode} {ran.stderr}")
    return Path(place, "one.journal")


def lines_that_count(path):
    """The lines of a journal whose gates are open, up to the first one whose gate isn't: docs/formats.md, `Journal`."""
    found = []
    for line in path.read_bytes().splitlines(keepends=True):
        if not line.startswith(b" ") or not line.endswith(b"\n"):
            break
        found.append(line)
    return found


def told_of(program, path):
    """How many registrations and events `vehicles` tells of a file."""
    ran = subprocess.run([program, "vehicles", path], capture_output=True, text=True, timeout=SECONDS)
    if ran.returncode:
        raise Unwell(f"vehicles {path.name}: {ran.returncode} {ran.stderr}")
    words = ran.stdout.splitlines()[-1].split()
    return int(words[1]), int(words[3])


class Reporting(threading.Thread):
    """A provider that registers vehicles, each with an event, until it is over. It counts what was answered."""

    def __init__(self, server):
        super().__init__()
        self.server, self.over, self.first, self.answered = server, threading.Event(), threading.Event(), 0

    def run(self):
        try:
            while not self.over.wait(PACE):
                owners = [vehicle(PROVIDERS[0], self.answered + number) for number in range(AT_ONCE)]
                events = [event(owner, 1, ["provider_drop_off"], "available") for owner in owners]
                for target, items in (("/vehicles", owners), ("/events", events)):
                    if success_of(self.server.ask(post(target, compact(items)))) != AT_ONCE:
                        return
                self.answered += AT_ONCE
                self.first.set()
        finally:
            self.first.set()

    def __enter__(self):
        self.start()
        self.first.wait(SECONDS)
        return self

    def __exit__(self, *_):
        self.over.set()
        self.join()


def copies_at_any_moment(program):
    """A copy that is made while the server writes tells, by `vehicles`, all that was answered before, and a front of the journal."""
    installed("rsync")
    with tempfile.TemporaryDirectory() as folder:
        journal, fronts = Path(folder, "journal"), []
        with server_over(program, journal, EACH, 2) as server:
            with Reporting(server) as reporting:
                for _ in range(COPIES):
                    before = reporting.answered
                    copy = ship(journal, folder)
                    registrations, events = told_of(program, copy)
                    fronts.append((before, lines_that_count(copy)))
                    if min(registrations, events) < before:
                        yield f"{before} were answered with an event, the copy tells {registrations} and {events}"
        whole = lines_that_count(journal)
        for before, lines in fronts:
            if lines != whole[: len(lines)] or len(lines) < 1 + 2 * before:
                yield f"a copy of {len(lines)} lines isn't a front of the journal's {len(whole)}, or has fewer than {before}"
        counts = [before for before, _ in fronts]
        if not 0 < counts[0] < counts[-1]:
            yield f"the server didn't go on: {counts}"


def key_of_one_folder(folder):
    """In place of ssh: what the key of docs/operations.md runs at the second machine, with a folder of it."""
    forced = re.search(r'command="([^"]*)",restrict', (ROOT / "docs/operations.md").read_text())[1]
    path = Path(folder, "ssh")
    path.write_text(f'#!/bin/sh\nshift\nSSH_ORIGINAL_COMMAND="$*" exec {forced.replace(COPIES_AT, str(folder))}\n')
    path.chmod(0o755)
    return f"rsync --rsh={path}"


def copies_by_a_key(program):
    """By a key that opens the folder of the copies alone, the unit's words with the place of ship.conf make a copy, which the runbook's
    words get back. Another folder isn't written."""
    for name in ("rsync", "rrsync"):
        installed(name)
    with tempfile.TemporaryDirectory() as folder, tempfile.TemporaryDirectory() as second:
        journal, place = Path(folder, "journal"), variables("ship.conf")["TO"]
        with server_over(program, journal, EACH) as server:
            if success_of(server.ask(post("/vehicles", compact(vehicle(PROVIDERS[0], 1))))) != 1:
                yield "a vehicle isn't accepted"
            by_ssh = {"times": f"times {key_of_one_folder(second).removeprefix('rsync ')}"}
            for number in range(2, 4):
                copy = ship(journal, place, **{name: f"--{words}" for name, words in by_ssh.items()})
                if Path(second, copy.name).read_bytes() != journal.read_bytes():
                    yield "the copy is another"
                if success_of(server.ask(post("/vehicles", compact(vehicle(PROVIDERS[0], number))))) != 1:
                    yield "a further vehicle isn't accepted"
        words = [*key_of_one_folder(second).split(), "--times", "--ignore-times"]
        run = lambda *more: subprocess.run([*words, *more], capture_output=True, timeout=SECONDS).returncode
        if run(f"{place}/{copy.name}", f"{folder}/back") or told_of(program, Path(folder, "back")) != (2, 0):
            yield "the copy isn't got back"
        host = place.partition(":")[0]
        for other in (f"../{Path(folder).name}/out", f"{folder}/out"):
            if not run(journal, f"{host}:{other}") or Path(folder, "out").exists():
                yield f"{other} is written"


def copies_at_once(_):
    """Copies of many instances that begin at one moment, by the same key, are all made."""
    for name in ("rsync", "rrsync"):
        installed(name)
    with tempfile.TemporaryDirectory() as folder, tempfile.TemporaryDirectory() as second:
        journal = Path(folder, "random")
        journal.write_bytes(os.urandom(EACH))
        key, place = key_of_one_folder(second), variables("ship.conf")["TO"]

        def run(number):
            link, command = commands_over(journal, place, folder, number)
            run_well(shlex.split(link))
            words = [*key.split(), *shlex.split(command)[1:]]
            return subprocess.run(words, capture_output=True, text=True, timeout=SECONDS)

        with ThreadPoolExecutor(MANY) as pool:
            ran = list(pool.map(run, range(MANY)))
        for number, it in enumerate(ran):
            copy = Path(second, f"{number}.journal")
            if it.returncode or copy.read_bytes() != journal.read_bytes():
                yield f"copy {number}: {it.returncode} {it.stderr}"


def run_well(words):
    """A command whose status has to be 0."""
    ran = subprocess.run(words, capture_output=True, text=True, timeout=SECONDS)
    if ran.returncode:
        raise Unwell(f"{words}: {ran.returncode} {ran.stderr}")


def copy_rest(rsync, folder):
    """Runs the words of the unit over a folder in place of the root, of which `/./` says how much rsync leaves out of the names."""
    for command in exec_starts(REST, variables("ship.conf")):
        _, *shown, place = command.split()
        run_well([*rsync, *(f"{folder}/.{word}" if word.startswith("/") else word for word in shown), place])


def paths_of_the_rest():
    """Of what the unit makes copies."""
    commands = exec_starts(REST, variables("ship.conf"))
    return [word for command in commands for word in command.split()[1:] if word.startswith("/")]


def having(root, name="file"):
    """The paths of which there is a file of this name."""
    return {path for path in paths_of_the_rest() if Path(f"{root}{path}", name).is_file()}


def with_files(root):
    """Two files at each path."""
    for path in paths_of_the_rest():
        Path(f"{root}{path}").mkdir(parents=True)
        for name in ("file", "removed"):
            Path(f"{root}{path}", name).write_text(path)


def rest_by_the_key(_):
    """By the same key the unit copies all else that a machine has, beside that of others, and the runbook's words bring it back, but for
    the lost key. What the machine removes is removed there, but never what was taken out of journals, or put away."""
    for name in ("rsync", "rrsync"):
        installed(name)
    with tempfile.TemporaryDirectory() as folder, tempfile.TemporaryDirectory() as second, tempfile.TemporaryDirectory() as anew:
        rsync, rest, other = key_of_one_folder(second).split(), f"{second}/rest-{HOST}", f"{second}/rest-other"
        with_files(folder)
        with_files(other)
        copy_rest(rsync, folder)
        for path in having(folder):
            Path(f"{folder}{path}", "removed").unlink()
        copy_rest(rsync, folder)
        back = re.search(r"`rsync (-a [^`]*)`", (ROOT / "docs/runbook.md").read_text())[1]
        *words, place = back.replace("TO", variables("ship.conf")["TO"]).replace("NAME", HOST).split()
        run_well([*rsync, *words, f"{anew}{place}"])
        there, whole = having(rest), set(paths_of_the_rest())
        if there != whole or having(other) & having(other, "removed") != whole or not whole >= NEVER_REMOVED:
            yield f"in the second place are {there}, and of the other machine {having(other)}"
        if having(rest, "removed") != NEVER_REMOVED:
            yield f"what was removed stays in {having(rest, 'removed')}"
        if having(anew) != whole - {"/root/.ssh"}:
            yield f"brought back are {having(anew)}"


def copies_of_one_second(program):
    """What a server wrote in the very second of the last copy, within the length of the file, is in the next one. A copy to which
    only new bytes are added ends where the one before did: of what came behind it tells nothing."""
    installed("rsync")
    with tempfile.TemporaryDirectory() as folder:
        journal, told = Path(folder, "journal"), []
        with server_over(program, journal, EACH) as server:
            for number, changes in enumerate(({}, {"times": "--times --append"}, {})):
                if number < 2 and success_of(server.ask(post("/vehicles", compact(vehicle(PROVIDERS[0], number))))) != 1:
                    yield f"vehicle {number} isn't accepted"
                os.utime(journal, (1000, 1000))
                told.append(told_of(program, ship(journal, folder, **changes)))
    if told != [(1, 0), (1, 0), (2, 0)]:
        yield f"a copy, an appended one, and one more: {told}"


def made_by(tool, journal, copy):
    """Makes a copy of a journal by a tool, whose name may have an option, over the copy that is there."""
    name, *options = tool.split()
    words = {
        "cp": ["cp", journal, copy],
        "rsync": ["rsync", "--times", "--ignore-times", *options, journal, copy],
        "tar": ["sh", "-c", 'tar -C "$0" -cf - "$1" | tar -xOf - > "$2"', journal.parent, journal.name, copy],
    }[name]
    ran = subprocess.run([installed(words[0]), *words[1:]], capture_output=True, text=True, timeout=SECONDS)
    # tar says by a status of its own that the file changed meanwhile
    if ran.returncode and name != "tar":
        raise Unwell(f"{tool}: {ran.returncode} {ran.stderr}")


def copies_by_tools(program):
    """Copies by the tools that docs/operations.md names, made while a server writes a journal of version 2: each tells all that was
    answered before, and no fault. Nor is a fault told of the journal itself, whose gates are opened while it's read."""
    *tools, _ = TOOLS.findall(BACKUP)
    with tempfile.TemporaryDirectory() as folder:
        journal, copy = Path(folder, "journal"), Path(folder, "copy")
        journal.write_text(checked(end=""))
        with server_over(program, journal, EACH, 2) as server, Reporting(server) as reporting:
            for tool in tools * COPIES:
                before = reporting.answered
                made_by(tool, journal, copy)
                status, out, faults = listed_by(program, copy, "--check")
                registrations, events = told_of(program, copy)
                if status or min(registrations, events) < before or f"registrations {registrations} events {events}\nlines" not in out:
                    yield f"{tool}: {before} were answered, and its copy tells {status} {out[-100:]}{faults}"
                if (found := listed_by(program, journal, "--check"))[0]:
                    yield f"of the journal itself {found} was told"
    if tools != ["cp", "tar", "rsync"]:
        yield f"tried are {tools}"


def copy_that_is_appended_to(program):
    """A copy of a journal without room, to which `rsync --append` adds what came since: its last gate stays closed, and a group stands
    behind that one before an open gate."""
    *_, tool = TOOLS.findall(BACKUP)
    with tempfile.TemporaryDirectory() as folder:
        journal, copy, owners = Path(folder, "journal"), Path(folder, "copy"), [vehicle(PROVIDERS[0], number) for number in range(4)]
        journal.write_text(checked(*([compact(owner)] for owner in owners[:2])))
        made_by("cp", journal, copy)
        with server_over(program, journal, EACH) as server:
            for owner in owners[2:]:
                if success_of(server.ask(post("/vehicles", compact(owner)))) != 1:
                    yield f"{owner} isn't accepted"
        made_by(tool, journal, copy)
        content, found = copy.read_bytes(), listed_by(program, copy, "--check")
        fault = hurt_gate(counted(content), content[len(counted(content)) :])
        if fault != "damaged 6" or told_of(program, journal) != (4, 0):
            yield f"the copy has {fault}: {content[-300:]!r}"
        if found != (3, "", not_a_journal(fault)):
            yield f"`vehicles --check` says {found}, in place of {fault}"
        if told_of(program, copy) != (2, 0):
            yield f"the copy tells {told_of(program, copy)}"


def log_put_away(city):
    """logrotate puts nginx's log away, and no line is lost: those of before stand in the old file, those of later in the new one."""
    rotate = installed("logrotate")
    folder = city.folder / "rotated"
    folder.mkdir(mode=0o755)
    owner = "" if os.getuid() else " root root"
    changes = {"/var/log/nginx/*.log": f"{city.folder}/mds_city.log", "/run/nginx.pid": f"{city.folder}/nginx.pid"}
    settings, log = folder / "settings", city.folder / "mds_city.log"
    settings.write_text(changed("logrotate", {**changes, "create 0640 www-data adm": f"create 0640{owner}"}))
    settings.chmod(0o644)
    counts = [log.read_text().count("\n")]
    for more in ([], ["--force"]):
        for _ in range(LOOKS):
            city.ask(sent("GET", "/table", TOKENS[1]))
        words = [rotate, "--state", folder / "state", *more, settings]
        ran = subprocess.run(words, capture_output=True, text=True, timeout=SECONDS)
        if ran.returncode or ran.stderr:
            yield f"logrotate: {ran.returncode} {ran.stderr}"
    for _ in range(LOOKS):
        city.ask(sent("GET", "/table", TOKENS[1]))
    files = [city.folder / "mds_city.log.1", log]
    found = [[json.loads(line) for line in path.read_text().splitlines()] for path in files if path.exists()]
    wanted = [counts[0] + 2 * LOOKS, LOOKS]
    if [len(lines) for lines in found] != wanted:
        yield f"{[len(lines) for lines in found]} lines, in place of {wanted}"
    if shutil.which("stat") and oct(log.stat().st_mode & 0o777) != "0o640":
        yield f"the new log has the mode {oct(log.stat().st_mode)}"


SHIPPING = [copies_at_any_moment, copies_by_a_key, copies_at_once, rest_by_the_key, copies_of_one_second]
SHIPPING += [copies_by_tools, copy_that_is_appended_to]
ROTATING = [log_put_away]
