"""A journal that `deploy/compact` makes small, by the words of its unit, while clients go on, and where something fails."""

import os

from compacting.following import Crew, begun, lines_in
from crashing.files import counted
from crashing.reports import FIRST_TIME, listed, listing, looking, parts_of, standing
from deploying.runbook import Machine, registration
from serving.server import success_of
from serving.wire import ask

UNIT = "mds_city-compact@one"
KNOWN = frozenset(["repeated", "late"])
"""What is answered to an event that is in, and is sent again to a server whose journal was made small."""


def small(machine, by=""):
    """The last line of a run of the unit, its status, and the files of the instance then, but for the journal."""
    (status,) = machine.run(f"{by} systemctl start {UNIT} 2> /dev/null; echo $?")
    lines = machine.run(f"journalctl _SYSTEMD_UNIT={UNIT}.service -n 1 -o cat")
    return lines, status, sorted({*os.listdir(machine.journal().parent)} - {"journal"})


def goes_on(machine):
    """What is wrong where the server doesn't take a vehicle more."""
    device = f"00000000-0000-4000-8000-{os.urandom(6).hex()}"
    if success_of(machine.ask("/vehicles", registration(device))) != 1:
        yield "the server doesn't go on"


def stand_amiss(port, fronts):
    """What is wrong with vehicles of which so many events were answered: each stands as its last one says, and each event that is
    left is there one time, in order, as it was reported."""
    for device, front in fronts.items():
        events = parts_of(ask(port, listing(device)))[1]["events"]
        numbers = [event["timestamp"] - FIRST_TIME for event in events]
        if numbers != sorted({*numbers}) or any(event != listed(device, at) for event, at in zip(events, numbers)):
            yield f"{device} has the events {numbers}"
        look = parts_of(ask(port, looking(device)))[1]
        if look != {**standing(device, front), "events": len(events)} or len(events) >= front:
            yield f"{device} stands as {look}, with {len(events)} of {front} events"


def over_the_change(program):
    """Clients report, and send again what isn't answered, while the journal is made small and the server goes over to the new file:
    nothing is lost, and nothing counts twice. The old file has all that was answered before."""
    with Machine(program) as machine:
        machine.run("systemctl start mds_city@one")
        port, folder = machine.ports["one"], machine.journal().parent
        begun(port)
        owner = machine.journal().stat()
        with Crew(port, KNOWN) as crew:
            crew.work()
            before = crew.fronts()
            told, status, others = small(machine)
            if status != "0" or len(others) != 1:
                yield f"status {status}, {told}, and there are {others}"
                return
            crew.work()
        yield from crew.faults()
        yield from stand_amiss(port, crew.fronts())
        _, lines = lines_in((folder / others[0]).read_bytes())
        counts = {device: sum(line.key == device and line.time is not None for line in lines) for device in before}
        if any(counts[device] < count for device, count in before.items()):
            yield f"the old file has {counts} events, and {before} were answered"
        now = machine.journal().stat()
        if (now.st_uid, now.st_gid, now.st_mode) != (owner.st_uid, owner.st_gid, owner.st_mode):
            yield f"the new file has another owner or mode: {now}"


def where_it_fails(program):
    """An old file of this day that is there, a journal with a bad line, and a table that refuses a line: the server goes on over its
    journal, and no file is left. One that an earlier run left is replaced."""
    with Machine(program) as machine:
        machine.fill()
        folder, journal = machine.journal().parent, machine.journal()
        whole = journal.read_bytes()
        machine.write("/etc/mds_city/table.json", '{"rows":[{"from":"removed","type":"wake","to":"available"}]}')
        environment = machine.path("/etc/mds_city/one.env")
        plain = environment.read_text()
        environment.write_text(plain.replace("OPTIONS=", f"OPTIONS=--table {machine.path('/etc/mds_city/table.json')}"))
        told, status, others = small(machine)
        # the stand-in of systemd starts the server by the new options, which no start takes
        if status == "0" or others or journal.read_bytes() != whole:
            yield f"a table that refuses a line: {told}, {status}, {others}"
        environment.write_text(plain)
        machine.run("systemctl start mds_city@one")
        (folder / "journal.new").write_text("of an earlier run")
        told, status, others = small(machine)
        if status != "0" or len(others) != 1 or told != ["registrations 2 events 4 of 4"]:
            yield f"behind an earlier run: {told}, {status}, {others}"
        old = folder / others[0]
        if small(machine)[1:] != ("1", others) or counted(old.read_bytes()) != counted(whole):
            yield f"with an old file of this day: {small(machine)}"
        yield from goes_on(machine)
        old.unlink()
        machine.change(3, b'"device_id"', b'"devicf_id"')
        machine.run("systemctl start mds_city@one")
        if small(machine)[1:] != ("1", []) or machine.run("systemctl is-active mds_city@one") != ["activating"]:
            yield f"a server that can't start: {small(machine)}"


def stopped_by_hand(program):
    """An instance that is stopped stays so, and its journal as it is. Who asks for a small one is told; to the timer it is no fault."""
    with Machine(program) as machine:
        machine.fill()
        machine.run("systemctl stop mds_city@one")
        content = machine.journal().read_bytes()
        for by, status in (("", "1"), (f"TRIGGER_UNIT={UNIT}.timer", "0")):
            found = small(machine, by)
            if found != (["mds_city@one is stopped: its journal stays as it is"], status, []):
                yield f"{by}: {found}"
        if machine.journal().read_bytes() != content or machine.run("systemctl is-active mds_city@one") != ["inactive"]:
            yield "its journal isn't as it was, or it was started"


def tried_again(program):
    """An instance that ended, and is tried again each second, has its journal made small, and is started over that."""
    with Machine(program) as machine:
        machine.fill()
        machine.run("kill -9 $(cat $MACHINE/run/mds_city@one.pid); sleep 0.1")
        told, status, others = small(machine)
        if (told, status, len(others)) != (["registrations 2 events 4 of 4"], "0", 1):
            yield f"{told}, {status}, {others}"
        yield from goes_on(machine)


def days_that_are_none(program):
    """Without a number of days, or with one that isn't, nothing is done: nearly all events would be left out."""
    with Machine(program) as machine:
        machine.fill()
        whole, environment = machine.journal().read_bytes(), machine.path("/etc/mds_city/one.env")
        plain = environment.read_text()
        for line in ("", "DAYS=", "DAYS=0", "DAYS=-90", "DAYS=90d", "DAYS=010", "DAYS=100000", "DAYS=9223372036854775807"):
            environment.write_text(plain.replace("DAYS=90", line))
            told, status, others = small(machine)
            if status != "1" or others or machine.journal().read_bytes() != whole or "is no number of days" not in told[-1]:
                yield f"{line}: {told}, {status}, {others}"
        if machine.run("/usr/local/lib/mds_city/compact one 2> /dev/null; echo $?") != ["2"]:
            yield "without days it does something"
        yield from goes_on(machine)


YEARS = [over_the_change, where_it_fails, stopped_by_hand, tried_again, days_that_are_none]
