"""Journals that the steps of docs/runbook.md mend: what stands in a journal's place where a step fails, and what an audit tells later."""

import gzip
import subprocess

from deploying.runbook import A, BAD, CLOSED, SECTIONS, Machine, event, first_steps, run_steps, sections, with_a_time_to_come
from harness.counting import Skipped, Unwell
from serving.server import success_of

STUCK = "A vehicle that is stuck"
MENDINGS = ("Vehicles registered by mistake", BAD, CLOSED, STUCK, "Many vehicles are stuck")
WHOLE = "registrations 2 events 4"
"""What each mended journal tells."""
TOO_SMALL = 1.5
"""How many journals there is room for where two are wanted."""
COPY, MENDED, LEFT_OUT = "/var/tmp/one.journal", "/var/tmp/mended", "/var/lib/mds_city_left_out/one"
THERE_AND_BACK = (["trip_start", "trip_end"], "available")
"""An event behind which all is as before."""


def put(machine):
    """The status of the script that puts a mended journal in place."""
    return machine.run("deploy/mended one > /dev/null 2>&1; echo $?")


def stays(machine, what, command):
    """What is wrong where a journal isn't left as it is, after a command upon a whole copy and a mended file."""
    machine.run(f"cp {machine.journal()} {COPY}; grep -a '^ ' {COPY} > {MENDED}; {command}")
    before = machine.journal().read_bytes()
    if put(machine) != ["1"] or machine.journal().read_bytes() != before or len(list(machine.folder().iterdir())) != 1:
        yield f"{what}: {list(machine.folder().iterdir())}"


def put_in_place(program):
    """A mended journal is put in place where the instance is stopped, its copy is whole, and the mended one is sound and made behind the
    copy. Else the journal stays."""
    with Machine(program) as machine:
        machine.fill()
        machine.run("systemctl stop mds_city@one")
        yield from stays(machine, "without one", f"rm {MENDED}")
        yield from stays(machine, "one that was left over", f"touch -d yesterday {MENDED}")
        yield from stays(machine, "with a torn copy", f"truncate -s 300 {COPY}; touch {MENDED}")
        yield from stays(machine, "with a line that is wrong", f"sed -i 's/device_id/devicf_id/' {MENDED}")
        yield from stays(machine, "with a server", "systemctl start mds_city@one")
        machine.run(f"systemctl stop mds_city@one; cp {machine.journal()} {COPY}; head -n 4 {COPY} > {MENDED}")
        wanted = machine.path(MENDED).read_bytes()
        if put(machine) != ["0"] or machine.journal().read_bytes() != wanted or machine.path(MENDED).exists():
            yield f"in its place is {machine.journal().read_bytes()}"


def without_room(name):
    """The subject that runs the steps of a mending where `/var/tmp` has too little room: the journal stays, or is the whole mended one."""

    def mending(program):
        with Machine(program) as machine:
            SECTIONS[name][0](machine)
            machine.run("systemctl stop mds_city@one")
            place, before = machine.path("/var/tmp"), machine.journal().read_bytes()
            size = f"size={int(len(before) * TOO_SMALL)}"
            if subprocess.run(["mount", "-t", "tmpfs", "-o", size, "none", place], capture_output=True).returncode:
                raise Skipped("nothing can be mounted here")
            try:
                for step in [*first_steps(), *sections()[name]]:
                    machine.run(step.command)
                machine.run("systemctl stop mds_city@one")
            finally:
                subprocess.run(["umount", "-l", place], check=True)
            told = machine.run(f"mds_city vehicles {machine.journal()} $OPTIONS | tail -n 1")
            if machine.journal().read_bytes() != before and told != [WHOLE]:
                yield f"in its place is one that tells {told}"

    mending.__name__ = f"mending without room, {name}"
    return mending


def with_one_left_over(program):
    """A mended journal of an earlier incident is there, and what was accepted since isn't lost."""
    with Machine(program) as machine:
        with_a_time_to_come(machine)
        machine.path(MENDED).write_bytes(b"\n".join(machine.journal().read_bytes().splitlines()[:4]) + b"\n")
        yield from run_steps([*first_steps(), *sections()[STUCK]], machine.run)
        yield from SECTIONS[STUCK][1](machine)


def audited_later(program):
    """A false event was put away before it was taken out, and what its vehicle reported behind it was sent again: an audit counts that, and
    not the false one."""
    with Machine(program) as machine:
        machine.fill_by_own_table()
        false, follower = event(A, 9, *THERE_AND_BACK, 3), event(A, 10, ["trip_start"], "on_trip", 4)
        for reported in (false, follower):
            if success_of(machine.ask("/events", reported)) != 1:
                raise Unwell(f"{reported} isn't accepted")
        with gzip.open(machine.path("/var/lib/mds_city_archive/one.journal.2025-06-01.gz"), "wb") as file:
            file.write(machine.journal().read_bytes())
        for step in [*first_steps(), *sections()[STUCK]]:
            machine.run(step.command)
        if success_of(machine.ask("/events", follower)) != 1 or false["event_id"] not in machine.path(LEFT_OUT).read_text():
            yield "the event behind the false one isn't accepted again, or the false one isn't kept"
        *steps, look = sections()["An audit of last year"]
        yield from run_steps(steps[2:], machine.run)
        told, wanted = machine.run(look.command), [*look.wanted, f'[{follower["timestamp"]},"on_trip"]']
        if told != wanted:
            yield f"told is {told}, in place of {wanted}"


MENDING = [put_in_place, with_one_left_over, audited_later, *map(without_room, MENDINGS)]
