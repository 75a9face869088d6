"""The copies of each day, and old files that are put away, by the words of their units."""

import gzip

from deploying.runbook import Machine, with_copies

COPIES, DAYS, ARCHIVE = (f"/var/lib/mds_city_{name}" for name in ("copies", "days", "archive"))
OLD = ("one", "two")
"""Instances of which old files are there."""


def names_in(machine, folder):
    return sorted(path.name for path in machine.path(folder).iterdir())


def run_unit(machine, unit):
    """The status of a run of a unit, and all that it printed."""
    (status,) = machine.run(f"systemctl start {unit} 2> /dev/null; echo $?")
    return status, machine.run(f"journalctl _SYSTEMD_UNIT={unit}.service -n 99 -o cat")


def broken_copies(program):
    """A copy that isn't sound, one that the tables of its instance refuse, and one of an instance of which no tables are known: none of
    its sound copies goes, none of today is kept, and the unit has failed. Those of other instances are made."""
    with Machine(program) as machine:
        with_copies(machine)
        before, sound = names_in(machine, DAYS), machine.path(f"{COPIES}/one.journal").read_bytes()
        two, three = (machine.path(f"{COPIES}/{name}.journal") for name in ("two", "three"))
        environment = machine.path("/etc/mds_city/one.env").read_text()
        other = machine.path("/etc/mds_city/other.json")
        other.write_text('{"rows":[{"from":"removed","type":"wake","to":"available"}]}')
        refused = environment.replace("OPTIONS=", f"OPTIONS=--table {other}")
        for content, text in ((sound.replace(b'"device_id"', b'"devicf_id"', 1), environment), (sound, refused)):
            machine.path(f"{COPIES}/one.journal").write_bytes(content)
            machine.write("/etc/mds_city/one.env", text)
            two.write_bytes(sound)
            status, told = run_unit(machine, "mds_city-days")
            if status != "1" or "one: no copy of today" not in told or "two: registrations 2 events 3" not in told:
                yield f"status {status}, {told}"
        three.write_bytes(sound)
        if "three: no copy of today" not in run_unit(machine, "mds_city-days")[1]:
            yield "a copy without known tables is taken"
        kept = [name for name in names_in(machine, DAYS) if not name.startswith("two.journal.")]
        if kept != before:
            yield f"of {before} {kept} are left"


def copies_of_long_ago(program):
    """A copy that wasn't made anew for a day isn't kept as one of today, and no earlier one goes. One whose journal is old, as a silent
    provider leaves it, is kept."""
    with Machine(program) as machine:
        with_copies(machine)
        before = names_in(machine, DAYS)
        machine.run("mkdir /var/tmp/later; export PATH=/var/tmp/later:$PATH")
        for hours, status in (("25", "1"), ("23", "0")):
            machine.write("/var/tmp/later/date", f'#!/bin/sh\nexec /bin/date -d "{hours} hours" "$@"\n')
            machine.path("/var/tmp/later/date").chmod(0o755)
            found, told = run_unit(machine, "mds_city-days")
            if found != status or (names_in(machine, DAYS) == before) != (status == "1"):
                yield f"{hours} hours later: status {found}, {told}, {names_in(machine, DAYS)}"


def old_files_put_away(program):
    """The old files of all instances are put away, packed. A second one of a day doesn't take the place of the first, and what was put
    away already is there once. Where one can't be written it stays, and the unit has failed."""
    with Machine(program) as machine:
        names = [f"{name}.journal.2025-05-01.gz" for name in OLD]
        for name in OLD:
            (machine.folder(name) / "journal").write_bytes(b"the journal")
            (machine.folder(name) / "journal.2025-05-01").write_bytes(name.encode())
        if run_unit(machine, "mds_city-archive") != ("0", []) or names_in(machine, ARCHIVE) != names:
            yield f"there are {names_in(machine, ARCHIVE)}"
        for content, count in ((b"one", 2), (b"a second one", 3)):
            (machine.folder() / "journal.2025-05-01").write_bytes(content)
            status, told = run_unit(machine, "mds_city-archive")
            if status != "0" or len(names_in(machine, ARCHIVE)) != count:
                yield f"{content}: {status}, {told}, {names_in(machine, ARCHIVE)}"
        found = sorted(gzip.open(path).read() for path in machine.path(ARCHIVE).iterdir())
        if found != [b"a second one", b"one", b"two"] or any(names_in(machine, f"/var/lib/mds_city/{name}") != ["journal"] for name in OLD):
            yield f"put away is {found}"
        machine.path(ARCHIVE).rename(machine.path("/var/lib/mds_city_gone"))
        (machine.folder() / "journal.2025-06-01").write_bytes(b"one")
        status, told = run_unit(machine, "mds_city-archive")
        if status != "1" or names_in(machine, "/var/lib/mds_city/one") != ["journal", "journal.2025-06-01"]:
            yield f"without its folder: {status}, {told}"


KEEPING = [broken_copies, copies_of_long_ago, old_files_put_away]
