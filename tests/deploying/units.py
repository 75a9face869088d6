"""The units and the environment file."""

import configparser
import json
import re
import shutil
import subprocess
import tempfile
from pathlib import Path

from deploying.journals import server_over
from deploying.proxies import changed
from deploying.vehicles import event, fill, fleet, vehicle
from harness.counting import ROOT, Skipped
from model.json_text import compact
from serving.server import Server, success_of
from serving.tools import body_of
from serving.wire import ask, get, post

NAME, INSTANCE, HOST = "mds_city@.service", "one", "first"
"""The unit of the servers, an instance, and the machine's name."""
DROP_INS = ("memory.conf", "restart.conf")
"""Those of a proxy."""
STATE = "/var/lib"
"""Where systemd makes the folders of `StateDirectory`."""
EACH, VEHICLES, EVENTS = 1000, 20, 10


def unit_names():
    """The units of deploy/, each by its file."""
    return sorted(path.name for kind in ("service", "timer") for path in (ROOT / "deploy").glob(f"*.{kind}"))


def the_units(program):
    """`systemd-analyze` finds nothing wrong with the units, nor with the drop-ins of a proxy."""
    if not shutil.which("systemd-analyze"):
        raise Skipped("no `systemd-analyze` here")
    with tempfile.TemporaryDirectory() as folder:
        names = [Path(folder, name.replace("@", f"@{INSTANCE}")) for name in unit_names()]
        for name, unit in zip(unit_names(), names):
            text = (ROOT / "deploy" / name).read_text().replace("/usr/local/bin/mds_city", program)
            unit.write_text(text.replace("/usr/local/lib/mds_city", str(ROOT / "deploy")))
        proxy = Path(folder, "proxy.service")
        proxy.write_text("[Service]\nExecStart=/bin/true\n")
        proxy.with_suffix(".service.d").mkdir()
        for name in DROP_INS:
            shutil.copy(ROOT / "deploy" / name, proxy.with_suffix(".service.d"))
        words = ["systemd-analyze", "verify", *names, proxy]
        ran = subprocess.run(words, capture_output=True, text=True, timeout=300)
    if ran.returncode or folder in ran.stderr or "mds_city" in ran.stderr or len(names) < 1:
        yield f"status {ran.returncode}: {ran.stdout}{ran.stderr}"


def proxies_that_end(_):
    """A proxy that ended is started again, by its own unit or by a drop-in, however often that is."""
    found = configparser.ConfigParser(strict=False, interpolation=None)
    found.read(ROOT / "deploy" / name for name in DROP_INS)
    if found["Service"].get("Restart") != "always" or found["Unit"].get("StartLimitIntervalSec") != "0":
        yield f"{dict(found['Service'])}"


def servers_that_end(_):
    """So is a server, behind its last connection too."""
    found = setting("Restart"), setting("StartLimitIntervalSec")
    if found != ("always", "0"):
        yield f"{found}"


def settings(name, unit=NAME):
    """What a unit says of this name, for the instance, line by line."""
    text = changed(unit, {}).replace("\\\n", "").replace("%i", INSTANCE).replace("%H", HOST)
    return re.findall(rf"^{name}=(.*)$", text, re.MULTILINE)


def setting(name, unit=NAME):
    """The only such line."""
    (told,) = settings(name, unit)
    return told


def exec_starts(unit, names):
    """The commands that a unit runs for the instance, with these variables."""
    return [re.sub(r"\$\{?([A-Z]+)\}?", lambda found: names[found.group(1)], it) for it in settings("ExecStart", unit)]


def exec_start(unit, names):
    """The only command that a unit runs."""
    (command,) = exec_starts(unit, names)
    return command


def variables(name="one.env"):
    """What an environment file sets."""
    return dict(re.findall(r"^([A-Z]+)=(.*)$", (ROOT / "deploy" / name).read_text(), re.MULTILINE))


def words_of():
    """The words that the unit runs with the environment file, behind the program."""
    return exec_start(NAME, variables()).split()[1:]


def timers_that_catch_up(_):
    """A timer whose unit runs once a day or less often comes with the next start where the machine was off."""
    for name in unit_names():
        text = changed(name, {})
        if name.endswith(".timer") and "OnCalendar=minutely" not in text and "\nPersistent=true\n" not in text:
            yield f"{name} hasn't Persistent=true"


def words_of_the_unit(program):
    """The words that the unit runs with the environment file are words of the program, and the file sets each name."""
    names, words = variables(), words_of()
    wanted = ["serve", "--port", names["PORT"], "--until-stopped", "--workers", names["WORKERS"], "--metrics", names["METRICS"]]
    if words[:-1] != [*wanted, "--journal"]:
        yield f"{words}, in place of {wanted}, and a journal"
    with Server(program, None, int(names["WORKERS"])):
        pass
    queue = re.search(rf"127\.0\.0\.1:{names['PORT']} maxconn ([0-9]+)", (ROOT / "deploy/haproxy.cfg").read_text())
    if not queue or queue.group(1) != names["WORKERS"]:
        yield "haproxy.cfg has another number of workers"


def folder_of_the_unit(_):
    """The journal stands in a folder of the instance's own, which systemd makes, and in which the unit may write. It may grow."""
    journal, folder = words_of()[-1], setting("StateDirectory")
    if Path(journal).parent != Path(STATE, folder):
        yield f"the journal {journal} isn't in the folder {folder}"
    if INSTANCE not in Path(folder).parts:
        yield f"the folder {folder} is that of other instances, too, whose users are others"
    if re.search("^(LimitFSIZE|ReadOnlyPaths|InaccessiblePaths)=", changed(NAME, {}), re.MULTILINE):
        yield "the unit has a limit of what may be written"


def standing(server, vehicles):
    """What a server answers of these vehicles and of their events."""
    paths = [f"/vehicles/{owner['provider_id']}/{owner['device_id']}" for owner, _ in vehicles]
    return [server.ask(get(target)) for path in paths for target in (path, f"{path}/events")]


def a_restart(program):
    """A server that is killed, and started again over its journal, has all that it answered, and goes on from there. A copy of
    the file that was made while it ran is a journal, too: of it the same is told."""
    vehicles = list(fleet(VEHICLES, EVENTS))
    with tempfile.TemporaryDirectory() as folder:
        path, copy = Path(folder, "journal"), Path(folder, "copy")
        with server_over(program, path, EACH, 2) as server:
            fill(server, vehicles)
            wanted = standing(server, vehicles)
            shutil.copy(path, copy)
        for name in (path, copy):
            with server_over(program, name, EACH, 2) as server:
                if standing(server, vehicles) != wanted:
                    yield f"{name.name}: other answers than before"
                owner, listed = vehicles[0]
                told = json.loads(body_of(server.ask(post("/events", compact(listed)))))
                if [it["error"] for it in told["failures"]] != ["repeated"] * len(listed):
                    yield f"{name.name}: sent again: {told}"
                more = event(owner, EVENTS * 10, ["decommissioned"], "removed")
                if success_of(server.ask(post("/events", compact(more)))) != 1:
                    yield f"{name.name}: nothing more is accepted"
        ran = subprocess.run([program, "vehicles", copy], capture_output=True, text=True, timeout=300)
        events = sum(len(listed) for _, listed in vehicles) + 1
        if ran.returncode or not ran.stdout.endswith(f"\nregistrations {len(vehicles)} events {events}\n"):
            yield f"vehicles: {ran.returncode} {ran.stdout[-200:]!r} {ran.stderr!r}"


UNITS = [the_units, proxies_that_end, servers_that_end, timers_that_catch_up, words_of_the_unit, folder_of_the_unit, a_restart]
