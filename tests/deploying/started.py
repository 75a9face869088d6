"""The units under systemd, and the alarms of units, proxies and the clock, by causes that are made there."""

import contextlib
import threading
import time
from itertools import islice

from deploying.booted import EXPORTER, Booted
from deploying.proxies import PROVIDERS, installed
from deploying.vehicles import short_events, vehicle
from deploying.watching import Watch
from model.json_text import compact
from serving.server import success_of
from serving.wire import ask, post

OWN = vehicle(PROVIDERS[0], 1)
ONE, SHIP, NGINX, HAPROXY = "mds_city@one", "mds_city-ship@one", "nginx", "haproxy"
JOBS = (SHIP, "mds_city-list@one", "mds_city-compact@one", "mds_city-archive", "mds_city-days", "mds_city-rest")
"""Units that do one thing and end, each behind those whose work it takes."""
LEFT = ("copies/one.journal", "lists/one.json", "archive/one.journal.20*.gz", "days/one.journal.20*", "copies/rest-*/etc/mds_city/one.env")
"""What they leave, each a file of a folder `/var/lib/mds_city_..`."""
AT_ONCE, PACE = 5, 0.2
"""How many events the instance is told at a time, and how many seconds lie between."""
SHORTER = 200
"""By how much all times of the alarms are shorter: an hour is 18 seconds."""
USUAL, SOON, TRIES = 6, 60, 3
"""For how many seconds all is well at first, within how many an alarm fires or is over, and how often all is tried."""
TOLD = 'count_over_time(node_systemd_service_restart_total{name=~"mds_city@.*"}[5s]) > 2'
"""Asks Prometheus whether the exporter has told lately that the server didn't end."""
RIGHT, WRONG = "clock@0", "clock@5"
"""The unit by which the exporter is told that the clock is synchronized, and that by which it isn't: what adjtimex(2) answers."""
CLOCK = f"""[Service]
ExecStart=/bin/sh -c 'exec strace -f -q -o /dev/null -e trace=adjtimex -e inject=adjtimex:retval=%i \\
    -p $$(systemctl show -P MainPID {EXPORTER})'
"""
NO_EVENTS = ("MdsCityNoEvents", "all")
CAUSED = [("MdsCityEnded", "machine"), ("MdsCityUnits", "machine"), ("MdsCityClock", "machine"), NO_EVENTS]
CAUSED += [("MdsCityProxies", "machine")] * 2 + [("MdsCityDown", "haproxy")]
"""Which alarms fire, each once, and of both proxies that of theirs."""
LASTING = {("MdsCityEnded", "machine")}
"""That is over after an hour."""
LAST = ("MdsCityNoUnits", "machine")
"""Where it fires no other one of units can."""
MAYBE = {("MdsCityDown", "one"), ("MdsCityDown", "machine"), ("MdsCitySyncs", "one")}
"""A busy machine may take long for a restart, an answer, or a sync."""


def register(machine):
    return success_of(ask(machine.port, post("/vehicles", compact(OWN)))) == 1


def units_by_systemd(program):
    """systemd starts the server by its unit, each unit that does one thing, which leaves what it has to, and each timer. The server is
    started again where it ends by itself, and is there behind all of that, with what it was told."""
    with Booted(program) as machine:
        started(machine, ONE)
        if not register(machine):
            yield "a vehicle isn't accepted"
        machine.run("mount", "--bind", *["/var/lib/mds_city_archive"] * 2)
        for unit in JOBS:
            if machine.run("systemctl", "start", unit)[0]:
                yield f"{unit}: {machine.run('systemctl', 'status', unit)[1]}"
        for name in LEFT:
            if len(list(machine.path("/var/lib").glob(f"mds_city_{name}"))) != 1:
                yield f"there isn't one {name}"
        yield from timers_amiss(machine)
        machine.systemctl("kill", "--signal=KILL", ONE)
        if not Watch.wait_for(lambda: machine.systemctl("show", "-P", "NRestarts", ONE) == "1", SOON):
            yield "it isn't started again"
        started(machine, ONE)
        if b"already_registered" not in ask(machine.port, post("/vehicles", compact(OWN))):
            yield "the vehicle isn't there"


def timers_amiss(machine):
    """Which timers systemd doesn't start, or which then have no next time."""
    for path in sorted(machine.path("/etc/systemd/system").glob("mds_city*.timer")):
        name = path.name.replace("@", "@one")
        if machine.run("systemctl", "start", name)[0] or not machine.systemctl("show", "-P", "NextElapseUSecRealtime", name):
            yield f"{name}: {machine.run('systemctl', 'status', name)[1]}"


def started(machine, unit):
    """Starts the server, and waits until it listens."""
    machine.systemctl("start", unit)
    with contextlib.suppress(OSError):
        Watch.wait_for(lambda: is_there(machine.port), SOON)


def is_there(port):
    try:
        return bool(ask(port, post("/vehicles", "[]")))
    except OSError:
        return False


class Causes:
    """A machine, and a client that tells its server events until it is silent. As a context they are taken down at its end."""

    def __init__(self, program):
        self.machine, self.over, self.silent = Booted(program), threading.Event(), threading.Event()
        self.events, self.thread = short_events(OWN, 1 << 30), threading.Thread(target=self.report)

    def __enter__(self):
        try:
            self.machine.write("/etc/systemd/system/clock@.service", CLOCK)
            self.machine.systemctl("daemon-reload")
            started(self.machine, ONE)
            register(self.machine)
            self.machine.systemctl("start", NGINX, HAPROXY, EXPORTER)
            self.machine.systemctl("start", RIGHT, SHIP)
            self.thread.start()
            return self
        except BaseException:
            self.machine.__exit__()
            raise

    def __exit__(self, *_):
        self.over.set()
        self.thread.join()
        self.machine.__exit__()

    def report(self):
        while not self.over.wait(PACE):
            if not self.silent.is_set():
                with contextlib.suppress(OSError):
                    ask(self.machine.port, post("/events", compact(list(islice(self.events, AT_ONCE)))))

    def make(self):
        """The clock isn't synchronized, the second machine is gone, a line of nginx.conf is wrong, haproxy is stopped, the server is
        killed, and for a while nothing is reported."""
        self.machine.systemctl("stop", RIGHT)
        self.machine.systemctl("start", WRONG)
        self.machine.ship_to(f"rsync://127.0.0.1:{self.machine.nobody}/copies")
        self.machine.run("systemctl", "start", SHIP)
        self.machine.write("/etc/nginx/nginx.conf", "wrong")
        self.machine.run("systemctl", "restart", NGINX)
        self.machine.systemctl("stop", HAPROXY)
        self.machine.systemctl("kill", "--signal=KILL", ONE)
        self.silent.set()

    def end(self):
        """All is as it was."""
        self.machine.settings()
        self.machine.systemctl("stop", WRONG)
        self.machine.systemctl("start", RIGHT, SHIP, HAPROXY, NGINX)

    def forget_words(self):
        """The exporter is started without the words that docs/operations.md has."""
        self.machine.have_exporter("")
        self.machine.systemctl("restart", EXPORTER)


def alarms_of_units(program):
    """The alarms of units, of proxies, of a server that ended and of the clock fire once their causes are made, by the exporter as its own
    unit starts it, and are over once these are; and so does that of no event of all providers. None fires before."""
    for name in ("prometheus", "strace"):
        installed(name)
    for _ in range(TRIES):
        wrong = list(alarms_amiss(program))
        if not wrong:
            break
    yield from wrong


def fired_by(watch):
    """Which alarms fired, but for those of which it depends."""
    return [it for it in watch.fired() if it not in MAYBE]


def alarms_amiss(program):
    """What is wrong with the alarms of one run."""
    with Causes(program) as causes:
        ports = causes.machine
        with Watch({"one": ports.metrics}, ports.haproxy, ports.exporter, factor=SHORTER) as watch:
            time.sleep(USUAL)
            watch.wait_for(lambda: watch.query(TOLD), SOON)
            if fired_by(watch):
                yield f"before anything is wrong: {watch.fired()}"
                return
            causes.make()
            watch.wait_for(lambda: NO_EVENTS in watch.fired(), SOON)
            causes.silent.clear()
            if not watch.wait_for(lambda: fired_by(watch) == sorted(CAUSED), SOON):
                yield f"fired {watch.fired()}, in place of {sorted(CAUSED)}"
            causes.end()
            if not watch.wait_for(lambda: set(watch.firing()) <= LASTING | MAYBE, SOON):
                yield f"not over: {watch.firing()}"
            causes.forget_words()
            if not watch.wait_for(lambda: fired_by(watch) == sorted([*CAUSED, LAST]), SOON):
                yield f"fired in all {watch.fired()}"


STARTED = [units_by_systemd, alarms_of_units]
