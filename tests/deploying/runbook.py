"""The steps of docs/runbook.md, each section over a machine that has the trouble of which it tells.

A machine is a folder with the files of deploy/ and with journals. The scripts of `tests/deploying/machine` stand in place of
systemd and of its journal, and start the built program by the unit's words. Paths and ports are those of the folder."""

import gzip
import json
import os
import re
import shutil
import subprocess
import tempfile
import time
from pathlib import Path

from deploying.front import EMPTY, PLAIN_FRONT
from deploying.passing import answered, sent
from deploying.proxies import PROVIDERS, TOKENS, changed, free_ports, installed
from deploying.vehicles import vehicle
from harness.counting import ROOT, Skipped, Unwell
from model.json_text import compact
from serving.documents import Shell, Step, steps_of, unlike
from serving.server import success_of
from serving.wire import ask, post

RUNBOOK = ROOT / "docs/runbook.md"
BAD, CLOSED = "bad_line, or damaged with a number", "damaged, or fewer vehicles than there were"
"""The sections on a byte that is wrong, and on a gate that isn't open."""
HEADING = re.compile(r"^#{2,3} (.*)$", re.MULTILINE)
SECOND = "/second.example/var/lib/mds_city_copies"
"""Where the copies lie: in a folder in place of the second machine (tests/deploying/machine/rsync)."""
P = PROVIDERS[0]
A, B, C, D, E = (f"00000000-0000-4000-8000-00000000000{letter}" for letter in "abcde")
JOBS = ("compact", "archive", "days")
"""What units run that stands in /usr/local/lib/mds_city."""
UNITS = ("mds_city@", "mds_city-compact@", "mds_city-ship@", "mds_city-archive", "mds_city-days")
CURL = 'curl() { command curl -m 60 "$@"; }'
"""The steps say themselves what curl prints of a fault."""
SETTLED = 300
"""How many seconds a server may take until it listens or has ended."""
STATES = ("/run/mds_city-ship", "/var/lib/mds_city", "/var/lib/private", "/var/log/nginx", "/var/tmp")
FOLDERS = ("/etc/mds_city", "/etc/systemd", "/usr/local", *STATES)
"""What stands in the machine's folder in place of the root of a real one."""
MENDED = "/usr/local/lib/mds_city/mended"
"""Where `deploy/mended` of the runbook stands in the machine's folder."""
SMALL_DISK, MOST_KEPT, AT_ONCE = 3 << 20, 50000, 1000
"""How large a disk is that is full soon; more vehicles than it has room for, and how many are registered by one request."""
MANY, LITTLE = 400000, 64
"""How many vehicles take more than so many MiB."""
FAR = re.compile(r"mds_city: read [0-9]+ of [0-9]+ bytes")
"""What a command tells while it goes on for long."""
COPIED = 1746010000
"""When copies were made, in seconds."""
TIME_COPIED = f" {time.strftime('%Y-%m-%d %H:%M:%S', time.localtime(COPIED))}."
"""The same, as `stat` tells it."""
MICROSECONDS = 1796000000000000
"""A time that a client gives in microseconds."""
OWNER = 1
"""Whose the folders of journals are where a disk was lost."""
AUDITED, ONCE = r'''"^ .*\"device_id\":\"$A\",\"event_id\""''', "awk '!seen[$0]++'"
"""Which lines an audit of a vehicle reads, and how it tells each once."""
GREATEST = 9007199254740991
"""The greatest time that an event may have (docs/formats.md, `Members`)."""


def registration(device):
    return {"provider_id": P, "device_id": device}


def event(device, number, types, state, hour):
    """An event at an hour of 30 April 2025, from 8 in the morning on."""
    identifier = f"00000000-0000-4000-8000-{0xE0 + number:012x}"
    when = 1746000000000 + 3600000 * hour
    return {**registration(device), "event_id": identifier, "event_types": types, "timestamp": when, "vehicle_state": state}


REQUESTS = [
    ("/vehicles", registration(A)),
    ("/vehicles", registration(B)),
    ("/events", event(A, 1, ["provider_drop_off"], "available", 0)),
    ("/events", event(A, 2, ["trip_start"], "on_trip", 1)),
    ("/events", event(A, 3, ["trip_end"], "available", 2)),
    ("/events", event(B, 4, ["provider_drop_off"], "available", 3)),
]
"""What the instance `one` has accepted, a group of its journal each, behind the first lines. A copy lacks the last."""

WOKEN = {**REQUESTS[-1][1], "event_types": ["wake"]}
"""The last event by a type of the city's own, of which the profile knows nothing."""
LATER = event(A, 8, ["trip_start"], "on_trip", 4)
"""One more event of the first vehicle."""
ONE_TRIP = [("trip_start", "on_trip"), ("trip_end", "available")]
"""The types of a trip's events, each with the state behind it."""
TORN = b"#{\0\n"
"""What a crash may leave behind the lines that count."""
TRIPS = 10
"""Those of the first vehicle by which its journal has grown."""


def exported(names):
    """The command by which a shell has these names, and finds the scripts that stand in place of others."""
    commands = [f"export {name}={value}" for name, value in names.items()]
    paths = f"{ROOT}/tests/deploying/machine:$PATH:$MACHINE/usr/local/bin"
    return "; ".join([*commands, f"export PATH={paths}", CURL])


class Machine:
    """A folder in place of a machine, with two instances, and a shell on it. Their journals begin with a front. As a context it is taken
    down at its end."""

    front = EMPTY

    def __init__(self, program):
        for name in ("curl", "jq", "numfmt", "rsync"):
            installed(name)
        self.program, self.holder = program, tempfile.TemporaryDirectory()
        self.root = Path(self.holder.name)
        self.ports, self.figures = ({"one": one, "two": two} for one, two in zip(*[iter(free_ports(4))] * 2))
        folders = ("run", "etc/mds_city", "etc/systemd/system", "var/tmp", "usr/local/bin", "usr/local/lib/mds_city")
        for folder in (*folders, "var/lib/mds_city_archive", "var/lib/mds_city_days", SECOND.lstrip("/")):
            (self.root / folder).mkdir(parents=True)
        self.write("/etc/mds_city/ship.conf", changed("ship.conf", {}))
        for name, port in self.ports.items():
            changes = {"PORT=8001": f"PORT={port}", "METRICS=8201": f"METRICS={self.figures[name]}"}
            self.write(f"/etc/mds_city/{name}.env", changed("one.env", changes))
        for unit in UNITS:
            text = self.here(changed(f"{unit}.service", {})).replace("/usr/bin/rsync", str(ROOT / "tests/deploying/machine/rsync"))
            self.write(f"/etc/systemd/system/{unit}.service", text)
        for job in JOBS:
            self.write(f"/usr/local/lib/mds_city/{job}", self.here(changed(job, {})))
            self.path(f"/usr/local/lib/mds_city/{job}").chmod(0o755)
        self.write(MENDED, self.here(changed("mended", {})))
        self.path(MENDED).chmod(0o755)
        shutil.copy(program, self.root / "usr/local/bin/mds_city")
        shutil.copy(program, self.root / "var/tmp/mds_city")
        self.shell = Shell(program)
        self.shell.__enter__().run(exported({"MACHINE": self.root, "P": P, "A": A}))
        self.shell.ports |= {"8001": str(self.ports["one"]), "8201": str(self.figures["one"])}
        for name in self.ports:
            self.lay(name)

    def __enter__(self):
        return self

    def __exit__(self, *_):
        for name in self.ports:
            self.shell.run(f"systemctl stop mds_city@{name}")
        self.shell.run(f"mountpoint -q {self.folder()} && umount -l {self.folder()}")
        self.shell.__exit__()
        self.holder.cleanup()

    def here(self, text):
        """A text with the paths of the folder, which may be named in it."""
        text = text.replace(f"deploy{MENDED[MENDED.rindex('/'):]} ", f"{self.path(MENDED)} ")
        return re.sub(rf"(?<![\w/])({'|'.join(map(re.escape, FOLDERS))})", rf"{self.root}\1", text)

    def path(self, name):
        return self.root / name.lstrip("/")

    def write(self, name, text):
        self.path(name).write_text(text)

    def folder(self, name="one"):
        """The folder of an instance, which is there with its link."""
        folder, link = (self.path(f"/var/lib/{place}mds_city/{name}") for place in ("private/", ""))
        folder.mkdir(parents=True, exist_ok=True)
        link.parent.mkdir(exist_ok=True)
        if not link.is_symlink():
            link.symlink_to(folder)
        return folder

    def journal(self, name="one"):
        return self.path(f"/var/lib/mds_city/{name}/journal")

    def lay(self, name="one"):
        """Puts the front in the place of an instance's journal, where there is one that a server doesn't make."""
        if self.front is not EMPTY:
            self.front.lay(self.folder(name) / "journal")

    def parts(self):
        """What the journal of `one` has before its own lines, and these."""
        content = self.journal().read_bytes()
        return content[: self.front.size], content[self.front.size :].splitlines(keepends=True)

    def run(self, command):
        """What a command prints, with the paths of a real machine, but for how far it is."""
        printed = [line.replace(str(self.root), "").strip() for line in self.shell.run(self.here(command))]
        return [line for line in printed if not FAR.fullmatch(line)]

    def run_steps(self, steps):
        """Runs steps, and says where they don't print what is shown, as it is behind the front."""
        yield from run_steps((Step(it.command, list(map(self.front.shifted, it.wanted))) for it in steps), self.run)

    def settle(self):
        """Waits until each server that was started listens or has ended."""
        end = time.monotonic() + SETTLED
        for pid in self.path("/run").glob("mds_city@*.pid"):
            log, process = pid.with_suffix(".log"), Path("/proc", pid.read_text().strip())
            while "listening" not in log.read_text() and process.exists() and time.monotonic() < end:
                time.sleep(0.02)

    def ask(self, target, value):
        return ask(self.ports["one"], post(target, compact(value)))

    def fill(self, last=REQUESTS[-1][1]):
        """Starts the instance, has it accept all requests, and copies its journal before the last one."""
        self.run("systemctl start mds_city@one")
        for target, value in [*REQUESTS[:-1], ("/events", last)]:
            if value is last:
                self.copy_journal()
            if success_of(self.ask(target, value)) != 1:
                raise Unwell(f"{target} {value} isn't accepted")

    def fill_by_own_table(self):
        """The same, with a table file that has a row of the city's own, by which the last event is accepted."""
        self.have_table([*self.rows(), {"from": "removed", "to": "available", "type": "wake"}])
        self.fill(WOKEN)

    def rows(self):
        """Those of the profile."""
        lines = [line.split() for line in self.run("mds_city table")[:-1]]
        return [{"from": start, "to": end, "type": kind} for kind, start, end in lines]

    def have_table(self, rows):
        """The instance has a table file with these rows from its next start on."""
        self.write("/etc/mds_city/table.json", compact({"rows": rows}))
        self.run("sed -i 's|^OPTIONS=.*|OPTIONS=--table /etc/mds_city/table.json|' /etc/mds_city/one.env")

    def copy_journal(self, name="one"):
        """Copies a journal to the second machine, with its time."""
        copy = self.path(f"{SECOND}/{name}.journal")
        shutil.copy(self.journal(name), copy)
        os.utime(copy, (COPIED, COPIED))

    def change(self, number, old, new):
        """Stops the instance, and changes the line of a request of its journal, counted from 1, the front's left out."""
        self.run("systemctl stop mds_city@one")
        front, lines = self.parts()
        (place, *_) = [at for at, line in enumerate(lines) if b"device_id" in line][number - 1 :]
        lines[place] = lines[place].replace(old, new, 1)
        self.journal().write_bytes(b"".join([front, *lines]))


class Plain(Machine):
    """A machine whose journals are of version 1, with which servers go on."""

    front = PLAIN_FRONT


def device_of(number):
    return vehicle(P, number)["device_id"]


def without_memory(machine):
    """The instance may have less address space than its start wants: by a front, or by vehicles, some 300 bytes each. A program that can't
    run in that at all, as one that checks its memory, isn't tried."""
    if machine.run(f"(ulimit -v {LITTLE * 1024}; mds_city --version > /dev/null 2>&1); echo $?") != ["0"]:
        raise Skipped(f"the program doesn't run in {LITTLE} MiB")
    if not machine.front.path:
        text = compact(registration("%s"))
        texts = [text.replace("%s", device_of(number)) for number in range(MANY)]
        groups = [machine.front.group(texts[at : at + AT_ONCE]) for at in range(0, MANY, AT_ONCE)]
        (machine.folder() / "journal").write_bytes(b"".join([machine.front.content(), *groups]))
    machine.path("/etc/systemd/system/mds_city@one.service.d").mkdir()
    machine.write("/etc/systemd/system/mds_city@one.service.d/override.conf", f"[Service]\nLimitAS={LITTLE}M\n")
    machine.run("systemctl start mds_city@one")


def on_a_full_disk(machine):
    """The instance's folder is a small disk, which a copy of a journal fills, and then the journal all that it took as room."""
    folder, size = machine.folder(), SMALL_DISK + 2 * machine.front.size
    if subprocess.run(["mount", "-t", "tmpfs", "-o", f"size={size}", "none", folder], capture_output=True).returncode:
        raise Skipped("nothing can be mounted here")
    machine.lay()
    machine.run("systemctl start mds_city@one")
    if success_of(machine.ask("/vehicles", registration(A))) != 1:
        raise Unwell("a vehicle isn't accepted")
    machine.run(f"head -c {size} /dev/zero > {folder}/copy-of-last-year")
    for number in range(0, MOST_KEPT, AT_ONCE):
        told = machine.ask("/vehicles", [registration(device_of(number + more)) for more in range(AT_ONCE)])
        if b'{"error":"not_kept"}' in told:
            return
    raise Unwell(f"{MOST_KEPT} vehicles are kept on a full disk")


def refused_by_a_table(machine):
    """Another table is in force for all events, and lacks a row by which they were accepted."""
    machine.fill()
    machine.have_table([row for row in machine.rows() if row["type"] != "provider_drop_off"])
    machine.run("systemctl restart mds_city@one")


def with_a_bad_line(machine):
    """A bit of a line is another one."""
    machine.fill_by_own_table()
    machine.change(4, b'"device_id"', b'"devicf_id"')
    machine.run("systemctl start mds_city@one")


def with_a_closed_gate(machine):
    """A gate within the journal isn't open."""
    machine.fill_by_own_table()
    machine.change(4, b" ", b"#")


def words_of(part):
    """What a part of the document has the reader say first, in its order: of which instances, and which copies are taken."""
    text = HEADING.split(RUNBOOK.read_text().partition(f"# {part}\n")[2])[0]
    return [re.search(rf"`({name}=\S+)`", text)[1] for name in ("LOST", "COPY")]


def without_its_disk(machine):
    """Both instances have copies, and nothing else but an earlier fetched one, of the same length and second. They, and the timers of their
    copies, start with the machine. The shell knows what was lost."""
    for words in words_of("A disk is lost"):
        machine.run(words)
    for name in machine.ports:
        machine.run(f"systemctl enable mds_city@{name} mds_city-ship@{name}.timer")
    machine.run("systemctl start mds_city@two")
    owner = {"provider_id": PROVIDERS[1], "device_id": A}
    if success_of(ask(machine.ports["two"], post("/vehicles", compact(owner)))) != 1:
        raise Unwell("the other instance accepts no vehicle")
    machine.copy_journal("two")
    machine.fill()
    if os.getuid() == 0:
        machine.run(f"export OWNER={OWNER}")
    fetched = machine.path("/var/tmp/one.copy")
    fetched.write_bytes(bytes(machine.path(f"{SECOND}/one.journal").stat().st_size))
    os.utime(fetched, (COPIED, COPIED))
    machine.run("systemctl stop mds_city@one mds_city@two")
    for name in machine.ports:
        shutil.rmtree(machine.folder(name))


def kept_over_a_boot(machine):
    """What is wrong where a boot starts a server, or writes over a copy."""
    copies = lambda: {path.name: path.read_bytes() for path in machine.path(SECOND).iterdir()}
    before = copies()
    machine.run("boot")
    if copies() != before:
        yield "a boot writes over the copies"
    if machine.run("systemctl is-active mds_city@one mds_city@two") != ["inactive", "inactive"]:
        yield "a boot starts a server"


def copied_again(machine):
    """From the next boot on the servers go on, and their copies are made."""
    machine.run("systemctl stop mds_city@one mds_city@two; boot")
    if machine.run("systemctl is-active mds_city@one mds_city@two") != ["active", "active"]:
        yield "a boot starts no server"
    for name in machine.ports:
        copy = machine.path(f"{SECOND}/{name}.journal")
        if copy.read_bytes() != machine.journal(name).read_bytes():
            yield f"the copy of {name} isn't made anew"


def on_another_machine(machine):
    """Nothing starts there by itself. Then what is done behind a lost disk puts all in its place."""
    yield from kept_over_a_boot(machine)
    yield from machine.run_steps(sections()["A disk is lost"][1:])
    machine.settle()
    yield from sent_again_since(machine)


def lost_disk_over_a_boot(program):
    """The machine is started anew, with an empty disk, once the copies were stopped: the last copies stay. Behind the last step they are
    made again."""
    with Machine(program) as machine:
        without_its_disk(machine)
        stops, *others = sections()["A disk is lost"]
        yield from run_steps([*first_steps(), stops], machine.run)
        yield from kept_over_a_boot(machine)
        yield from run_steps(others, machine.run)
        yield from sent_again_since(machine)
        yield from copied_again(machine)


def one_goes_back_a_day(program):
    """One instance goes on from the copy of a day before, with its time. The journal that it had stays as a copy, also where that is done
    twice. The other one, which is sound and has more than its copy, goes on."""
    with Machine(program) as machine:
        without_its_disk(machine)
        machine.fill()
        day, copies = (machine.path(f"/var/lib/mds_city_{name}") for name in ("days", "copies"))
        shutil.copy(machine.path(f"{SECOND}/one.journal"), day / "one.journal.2025-04-23")
        os.utime(day / "one.journal.2025-04-23", (COPIED, COPIED))
        copies.symlink_to(machine.path(SECOND))
        for step in sections()["Copies of each day"][2:]:
            yield from unlike(step, machine.run(step.command))
        machine.run("systemctl start mds_city@two")
        before = {name: machine.journal(name).read_bytes() for name in machine.ports}
        machine.path(f"{SECOND}/one.journal").write_bytes(b"")
        stops, restores, *_ = (step.command for step in sections()["A disk is lost"])
        commands = [*(step.command for step in first_steps()[:4]), *words_of(CLOSED)]
        for command in [*commands, stops, restores, restores]:
            told = machine.run(command)
        times = machine.path("/var/tmp/times").read_text().splitlines()
        if told[:1] != ["registrations 2 events 3"] or len(times) != 2 or not all(TIME_COPIED in line for line in times):
            yield f"{told}, copies of {times}"
        if machine.journal("two").read_bytes() != before["two"] or machine.run("systemctl is-active mds_city@two") != ["active"]:
            yield "the other instance isn't as it was"
        if before["one"] not in [path.read_bytes() for path in machine.path("/var/tmp").glob("one.before*")]:
            yield "the journal that was there is lost"


def with_others_stuck(machine):
    """Both vehicles have an event with a time to come, and the last group of the journal is half written."""
    with_a_time_to_come(machine)
    ahead = {**event(B, 10, ["trip_start"], "on_trip", 4), "timestamp": MICROSECONDS}
    if success_of(machine.ask("/events", ahead)) != 1:
        raise Unwell("an event with a time to come isn't accepted")
    half_written(machine)


def half_written(machine):
    """Stops the instance, and puts two events behind the lines that count. The first one's gate isn't open, and its line is no text."""
    machine.run("systemctl stop mds_city@one")
    front, lines = machine.parts()
    count = next((at for at, line in enumerate(lines) if not line.startswith(b" ")), len(lines))
    texts = [compact(event(A, 12 + number, [kind], state, 5 + number)) for number, (kind, state) in enumerate(ONE_TRIP)]
    group = f"#\0{texts[0]}\n {texts[1]}\n".encode()
    machine.journal().write_bytes(b"".join([front, *lines[:count], group, b"\n" * LITTLE]))


def all_accepted_again(machine):
    """Both vehicles have later events accepted, and the events that were taken out are kept."""
    yield from is_accepted(machine)
    if success_of(machine.ask("/events", event(B, 11, ["trip_start"], "on_trip", 4))) != 1:
        yield "the other vehicle has no event accepted"
    kept = machine.path("/var/lib/mds_city_left_out/one").read_text()
    if [f'"timestamp":{when},' in kept for when in (GREATEST, MICROSECONDS)] != [True, True] or kept.count("\n") != 2:
        yield f"kept is {kept}"


def copied_at_last(machine):
    """The last copy has all that was answered, and no loop over all instances finds the one that has moved."""
    if machine.path(f"{SECOND}/one.journal").read_bytes() != machine.journal().read_bytes():
        yield "the last copy isn't the journal"
    if list(machine.path("/etc/mds_city").glob("one*.env")) or machine.run("boot; systemctl is-active mds_city@one") != ["inactive"]:
        yield "it goes on here"


def with_two_journals(machine):
    """Two instances have journals, and the one that leaves has an old one, too, of this very day."""
    machine.fill()
    (machine.folder("two") / "journal").write_bytes(machine.front.content() + b"the last one")
    (machine.folder("two") / f"journal.{time.strftime('%Y-%m-%d')}").write_bytes(b"an old one")


def put_away_whole(machine):
    """An audit finds all files of the one that left, and its folder is gone. The other one goes on."""
    found = sorted(gzip.open(path).read() for path in machine.path("/var/lib/mds_city_archive").glob("two.journal.*.gz"))
    if found != [machine.front.content() + b"the last one", b"an old one"] or os.path.lexists(machine.path("/var/lib/mds_city/two")):
        yield f"put away is {[it[-100:] for it in found]}"
    yield from all_of_it_there(machine)


def leaves_without_an_archive(program):
    """Where nothing can be put away the journal of one that leaves stays."""
    with Machine(program) as machine:
        with_two_journals(machine)
        machine.path("/var/lib/mds_city_archive").rmdir()
        for step in sections()["A provider leaves"]:
            machine.run(step.command)
        if not machine.journal("two").read_bytes().endswith(b"the last one"):
            yield "the journal is lost"


def with_a_time_to_come(machine):
    """An event of a vehicle has the greatest time that there is, and others of it are late."""
    machine.fill_by_own_table()
    ahead = {**event(A, 9, ["trip_start"], "on_trip", 3), "timestamp": GREATEST}
    if success_of(machine.ask("/events", ahead)) != 1 or b'"late"' not in machine.ask("/events", LATER):
        raise Unwell("the vehicle isn't stuck")


def is_accepted(machine):
    """A later event of the vehicle is accepted."""
    if success_of(machine.ask("/events", LATER)) != 1:
        yield f"a later event: {machine.ask('/events', LATER)}"


def with_many_trips(machine):
    """The first vehicle has made trips since."""
    machine.fill()
    for number, (kind, state) in enumerate(ONE_TRIP * TRIPS):
        if success_of(machine.ask("/events", event(A, 10 + number, [kind], state, 4 + number))) != 1:
            raise Unwell(f"trip {number} isn't accepted")


def with_unused_vehicles(machine):
    """Three vehicles are registered that have no events."""
    machine.fill_by_own_table()
    if success_of(machine.ask("/vehicles", list(map(registration, (C, D, E))))) != 3:
        raise Unwell("more vehicles aren't accepted")
    half_written(machine)


def unused_left_out(machine):
    """What was accepted is there, and the vehicles without events aren't."""
    yield from all_of_it_there(machine)
    if success_of(machine.ask("/vehicles", list(map(registration, (C, D, E))))) != 3:
        yield "vehicles without events are there"


def written_anew(machine):
    """The journal is another file, with all that was accepted, and its owner has it."""
    if machine.journal().samefile(machine.path("/var/tmp/before")) or machine.journal().stat().st_uid != machine.folder().stat().st_uid:
        yield "the journal is the file that it was, or has another owner"
    yield from all_of_it_there(machine)


def with_a_second_name(machine):
    """The journal's file has another name, too, by which it is known later."""
    machine.fill()
    machine.run(f"chown -R {OWNER} {machine.folder()}; ln {machine.journal()} {machine.path('/var/tmp/before')}")


def with_copies(machine):
    """Steps at the machine that has the copies, with one of each of 14 days."""
    machine.fill()
    shutil.copytree(machine.path(SECOND), machine.path("/var/lib/mds_city_copies"))
    for day in range(14):
        os.link(machine.path(f"{SECOND}/one.journal"), machine.path(f"/var/lib/mds_city_days/one.journal.2025-04-{10 + day}"))


def fourteen_days(machine):
    """The copy of the first day has gone, and that of today is there, with its time."""
    first, *others, last, today = sorted(machine.path("/var/lib/mds_city_days").iterdir())
    if len(others) != 11 or first.name != "one.journal.2025-04-11" or today.stat().st_mtime != COPIED:
        yield f"there are {[first, *others, last, today]}"
    chosen = machine.path("/var/lib/mds_city_copies/one.day")
    if chosen.read_bytes() != last.read_bytes() or chosen.stat().st_mtime != COPIED:
        yield f"the copy of a day has the time {chosen.stat().st_mtime}"


def with_archives(machine):
    """Three files were put away: they overlap, the last one lacks the first event, none has that of the last trip's end, and the first one
    has an event that was taken out later. Each has a torn end."""
    machine.fill()
    texts = [line[1:-1].decode() for line in machine.parts()[1] if b"device_id" in line][: len(REQUESTS)]
    number, taken = REQUESTS[3][1]["event_id"], "00000000-0000-4000-8000-0000000000e9"
    out = texts[3].replace(number, taken)
    for day, kept in (("2025-05-01", [*texts[:3], out]), ("2025-06-01", texts[:4]), ("2025-07-01", texts[:2] + texts[3:4])):
        packed = machine.front.packed + gzip.compress(machine.front.group(kept) + TORN)
        machine.path(f"/var/lib/mds_city_archive/one.journal.{day}.gz").write_bytes(packed)
    machine.path("/var/lib/mds_city_left_out").mkdir()
    machine.path("/var/lib/mds_city_left_out/one").write_text(f" {out}\n")


def of_all_vehicles(machine):
    """By the words behind the loop it tells the events of all vehicles, each once, and none that was taken out."""
    (loop,) = (step.command for step in sections()["An audit of last year"] if AUDITED in step.command)
    pattern, once = re.search(r"Of all vehicles have `(.*?)` as the pattern,.*? `(sort .*?)`", RUNBOOK.read_text(), re.DOTALL).groups()
    machine.run(loop.replace(AUDITED, pattern).replace(ONCE, once))
    (count,), wanted = machine.run("wc -l < /var/tmp/lines"), [value["event_id"] for _, value in REQUESTS[2:]]
    told = machine.run(f"grep -v '{machine.front.pattern}' /var/tmp/lines | jq -r .event_id")
    if sorted(told) != wanted or int(count) != len(wanted) + machine.front.events or ONCE not in loop:
        yield f"{count} events, among them {told}"


def old_trips_left_out(machine):
    """Of what was accepted all is known, or late; and the file that was put away has all of it."""
    (archive,) = machine.path("/var/lib/mds_city_archive").glob("one.journal.20*.gz")
    events = gzip.open(archive).read().count(b'\n {"device_id"')
    if events != len(REQUESTS) + 2 * TRIPS + machine.front.lines:
        yield f"{archive.name} has {events} lines"
    for target, value in REQUESTS:
        told = machine.ask(target, value)
        if not re.search(rb"already_registered|repeated|late", told):
            yield f"{value}: {told}"


def all_sent_again(machine):
    """All that was accepted is sent again: what is there counts once, and what the copy lacked is accepted."""
    for target, value in REQUESTS:
        told = machine.ask(target, value)
        name = {"/vehicles": b"already_registered", "/events": b"repeated"}[target]
        if value is REQUESTS[-1][1]:
            name = b'"success":1'
        if name not in told:
            yield f"{value}: {told}, in place of {name}"


def sent_again_since(machine):
    """The time that is kept of each copy is that of the journal that it tells, no copy takes room, each journal is its folder's owner's,
    and all is sent again."""
    times = machine.path("/var/tmp/times").read_text().splitlines()
    if len(times) != len(machine.ports) or not all(TIME_COPIED in line for line in times):
        yield f"the times of the copies are {times}"
    if list(machine.path("/var/tmp").glob("*.copy")):
        yield "copies take room"
    for name in machine.ports:
        if machine.journal(name).stat().st_uid != machine.folder(name).stat().st_uid:
            yield f"the journal of {name} has another owner than its folder"
    yield from all_sent_again(machine)


def for_all_to_read(machine):
    """The table file may be read by everybody, and others by root alone. A table is added to those that are there, too."""
    table = machine.path("/etc/mds_city/table.json")
    if table.stat().st_mode & 0o777 != 0o644 or machine.path("/var/tmp/one.journal").stat().st_mode & 0o077:
        yield f"the table file has the mode {table.stat().st_mode:o}, or the copy of the journal is for everybody"
    for step in sections()["Other rules"][:2]:
        machine.run(step.command)
    told = machine.run("jq -c '[.tables[] | [.from_time, (.rows | length)]]' /var/tmp/table.json")
    before, now, later = json.loads(told[0])
    if [before[0], now, later] != [0, later, later] or before[1] <= now[1]:
        yield f"tables {told}"
    yield from all_of_it_there(machine)


def all_of_it_there(machine):
    """What was accepted is there, to the last event."""
    for target, value in REQUESTS:
        told = machine.ask(target, value)
        if not re.search(rb"already_registered|repeated", told):
            yield f"{value}: {told}"


def with_false_events(machine):
    """An event of others was accepted behind the copy, and the last group is half written. The instance went on from the copy, and its
    provider sent all again, and one more."""
    machine.fill()
    if success_of(machine.ask("/events", LATER)) != 1:
        raise Unwell("the false event isn't accepted")
    half_written(machine)
    shutil.copy(machine.journal(), machine.path("/var/tmp/one.before"))
    shutil.copy(machine.path(f"{SECOND}/one.journal"), machine.journal())
    machine.run("systemctl start mds_city@one")
    for target, value in [*REQUESTS, ("/events", event(B, 11, ["trip_start"], "on_trip", 4))]:
        machine.ask(target, value)


def false_one_kept(machine):
    """An audit leaves the false event out, and no other."""
    kept = machine.path("/var/lib/mds_city_left_out/one").read_text()
    if LATER["event_id"] not in kept or kept.count("\n") != 1:
        yield f"kept is {kept}"
    yield from all_of_it_there(machine)


def nothing_more(_):
    return ()


SECTIONS = {
    "Memory runs out": (without_memory, nothing_more),
    "Vehicles registered by mistake": (with_unused_vehicles, unused_left_out),
    "The disk is full": (on_a_full_disk, nothing_more),
    "refused": (refused_by_a_table, all_of_it_there),
    BAD: (with_a_bad_line, all_of_it_there),
    CLOSED: (with_a_closed_gate, all_of_it_there),
    "Copies of each day": (with_copies, fourteen_days),
    "A disk is lost": (without_its_disk, sent_again_since),
    "A machine is lost": (without_its_disk, on_another_machine),
    "Another version of the program": (Machine.fill_by_own_table, all_of_it_there),
    "Other rules": (Machine.fill, for_all_to_read),
    "A sync failed": (with_a_second_name, written_anew),
    "The journal has grown": (with_many_trips, old_trips_left_out),
    "An instance moves": (Machine.fill, copied_at_last),
    "A provider leaves": (with_two_journals, put_away_whole),
    "A vehicle that is stuck": (with_a_time_to_come, is_accepted),
    "Many vehicles are stuck": (with_others_stuck, all_accepted_again),
    "An audit of last year": (with_archives, of_all_vehicles),
    "Many events are false": (with_false_events, false_one_kept),
}
"""How a machine gets into the trouble of each section, and what holds behind its steps."""


def sections():
    """The steps of each section of the document that has some, by its heading."""
    _, *parts = HEADING.split(RUNBOOK.read_text())
    return {name: steps for name, text in zip(parts[::2], parts[1::2]) if (steps := steps_of(text))}


def first_steps():
    """The steps before all sections."""
    return steps_of(HEADING.split(RUNBOOK.read_text())[0])


def run_steps(steps, run):
    for step in steps:
        yield from unlike(step, run(step.command))


def of_section(name, kind=Machine, title="runbook"):
    """The subject that runs the steps of a section, over a machine of this kind."""

    def section(program):
        prepare, check = SECTIONS[name]
        with kind(program) as machine:
            prepare(machine)
            machine.run("export IS_SLOW=1")
            yield from machine.run_steps([*first_steps(), *sections()[name]])
            machine.run("unset IS_SLOW")
            machine.settle()
            yield from check(machine)

    section.__name__ = f"{title}, {name}"
    return section


def runbook_is_whole(_):
    """Each section of the runbook that has steps is tried."""
    wanted = {*SECTIONS, *(subject.__name__.partition(", ")[2] for subject in OF_PROXIES)}
    if set(sections()) != wanted:
        yield f"sections {sorted(sections())}, and tried are {sorted(wanted)}"


def of_proxies(name, check, *before_it):
    """The subject that runs the steps of a section over nginx, behind those of others, and then checks it. All tokens are put back."""

    def section(city):
        installed("jq")
        before = (city.folder / "tokens.map").read_text()
        here = lambda text: re.sub(r"(?<![\w/])(/etc/mds_city|/var/log/nginx)", str(city.folder), text)
        names = {"MACHINE": city.folder, "PROXY": city.paths["nginx"], "P": P, "OLD": TOKENS[1]}
        try:
            with Shell(city.program) as shell:
                shell.run(exported(names))
                for section_name in (*before_it, name):
                    yield from run_steps(sections()[section_name], lambda command: shell.run(here(command)))
                yield from check(city)
        finally:
            city.write("tokens.map", before)
            (city.folder / f"tokens.{P}").unlink(missing_ok=True)
            city.reload(city.nginx())

    section.__name__ = f"runbook, {name}"
    return section


def shut_out(city):
    """The provider's token is nobody's any more, and the others' are as they were."""
    yield from is_nobodys(city)
    kept, now = ((city.folder / name).read_text().count(TOKENS[1]) for name in (f"tokens.{P}", "tokens.map"))
    if (kept, now) != (1, 0):
        yield f"the token stands {kept} times in the file that is kept, and {now} times in that of now"


def came_back(city):
    """A token that was taken away, twice by mistake, and was then known to others, comes back as another one. Those of others are there."""
    yield from renewed(city)
    if list(city.folder.glob("tokens.*")) != [city.folder / "tokens.map"]:
        yield "the file that was kept is still there"


def renewed(city):
    """The provider has another token, by which it reaches its own vehicles."""
    yield from is_nobodys(city)
    found = re.findall(rf'"Bearer ([0-9a-f]{{64}})" {P};', (city.folder / "tokens.map").read_text())
    if len(found) != 1:
        yield f"the provider has the tokens {found}"
    for token in found:
        yield from answered(city, sent("POST", "/events", token, b"[]"), 200)


def is_nobodys(city):
    """The token that the provider had is nobody's, and another's is as it was."""
    yield from answered(city, sent("GET", "/table", TOKENS[1]), 401)
    yield from answered(city, sent("GET", "/table", TOKENS[2]), 200)


OF_PROXIES = [
    of_proxies("A provider floods", shut_out),
    of_proxies("Its tokens come back", came_back, *["A provider floods"] * 2, "A token is known to others"),
    of_proxies("A token is known to others", renewed),
]
OF_VERSION_1 = [of_section(name, Plain, "runbook of version 1") for name in ("refused", BAD, CLOSED)]
RUNBOOKS = [runbook_is_whole, lost_disk_over_a_boot, one_goes_back_a_day, leaves_without_an_archive, *map(of_section, SECTIONS)]
RUNBOOKS += OF_VERSION_1
