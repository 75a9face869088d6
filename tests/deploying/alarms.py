"""The alarms: their rules by promtool, and each by servers in which its cause is made."""

import contextlib
import json
import re
import subprocess
import tempfile
import threading
import time
from itertools import islice
from pathlib import Path

from cases.vehicles import checked
from crashing.files import counted, texts_in
from crashing.recording import WRITE, Recording
from deploying.dashboards import queries_without_answer
from deploying.proxies import INSTANCES, PROVIDERS, Proxy, changed, free_ports, installed
from deploying.units import variables
from deploying.vehicles import short_events, vehicle
from deploying.watching import ALWAYS, OUR_JOBS, Watch, promtool, values_of
from documents.names import anchors_of
from harness.counting import ROOT, Skipped
from model.json_text import compact
from serving.figures import figures_at
from serving.server import Server
from serving.wire import ask, post

RULES = ROOT / "deploy/alarms.yml"
P = PROVIDERS[0]
TROUBLED = ("memory", "notkept", "silent", "refusals", "restarts", "syncs", "fewer", "gone", "ahead")
"""The instances, by what befalls them. One more is well."""
ADDRESSES, NEARLY = 280 << 10, 0.62
"""How many KiB of addresses the first may have, and which part of them it then has."""
AT_ONCE, PACE = 5, 0.2
"""How many events an instance is told at a time, and how many seconds lie between."""
UNUSED = 998
"""The number of a vehicle that each instance has, of which nothing is told."""
SLOW_SYNC = 300000
"""How many microseconds a slow sync takes."""
USUAL = 12
"""For how many seconds all is well at first: longer than that from which on a usual is known."""
SOON, OVER = 100, 60
"""Seconds within which an alarm fires, of which that of silence wants 36, and is over."""
TRIES = 3
"""How often all is tried: on a machine that is too busy alarms of that come between."""
MEMORY = Path("/dev/shm")
"""Where journals lie, so that syncs are slow only where they shall be."""
SMALL_DISK = "1M"
DISKS = '"/|/var(/.*)?"'
"""Where disks are mounted of which the alarm is."""
SEVERITIES = {"page", "ticket", "watch"}
TO_COME = 4000000
"""How many milliseconds ahead of the clock an event is that is told of."""


# By promtool


def series(metric, values, **labels):
    """A series of promtool, with these values each 15 seconds."""
    told = ",".join(f'{key}="{value}"' for key, value in labels.items())
    return {"series": f"{metric}{{{told}}}", "values": values}


def of_server(metric, values, **labels):
    return series(metric, values, job="mds_city", instance="one", **labels)


def events(values, outcome="done"):
    return of_server("mds_city_requests_total", values, kind="event", outcome=outcome)


def other_events(values):
    return series("mds_city_requests_total", values, job="mds_city", instance="two", kind="event", outcome="done")


def syncs(slow):
    """Twenty syncs each 15 seconds, of which so many take from 0.2 to 0.5 seconds."""
    counts = {"0.01": 20 - slow, "0.2": 20 - slow, "0.5": 20, "+Inf": 20}
    return [of_server("mds_city_journal_sync_seconds_bucket", f"0+{count}x100", le=le) for le, count in counts.items()]


def disk(available, place="/var/lib"):
    where = {"job": "machine", "instance": "machine", "mountpoint": place}
    sizes = [series("node_filesystem_avail_bytes", available, **where), series("node_filesystem_size_bytes", "100x100", **where)]
    return sizes + [series("node_filesystem_avail_bytes", "1x100", **{**where, "mountpoint": "/boot"})]


def addresses(values):
    return [of_server("process_virtual_memory_bytes", values), of_server("process_virtual_memory_max_bytes", "1000x100")]


def vehicles(values):
    return of_server("mds_city_held_vehicles", values)


def unit(values, state="failed", name="mds_city-ship@one.service"):
    return series("node_systemd_unit_state", values, job="machine", instance="machine", name=name, state=state)


def restarts(values, name="mds_city@one.service"):
    """How often systemd has started a unit again."""
    return series("node_systemd_service_restart_total", values, job="machine", instance="machine", name=name)


def clock(values):
    """Whether the machine's clock is synchronized."""
    return series("node_timex_sync_status", values, job="machine", instance="machine")


def machine(values):
    """Whether the exporter of the machine answers."""
    return series("up", values, job="machine", instance="machine")


def newest(seconds):
    """The time of the newest event, in seconds of promtool's clock, which begins at 0."""
    return of_server("mds_city_newest_event_timestamp_seconds", f"{seconds}x100")


def refusals(refused):
    """A hundred events each 15 seconds, of which two are refused; from two hours on so many."""
    return [events("0+98x2000"), events(f"0+2x480 960+{refused}x1000", "late"), events("0+50x2000", "not_kept")]


ALL = series("up", "1x9", instance="all")
"""Says first of whom an alarm is that is of no instance."""
CASES = [
    ("MdsCityDown", [series("up", "1x20 0x20", job="haproxy", instance="haproxy")], {"6m": 0, "7m30s": 1}),
    ("MdsCityDown", [of_server("up", "1x20 0x4 1x20")], {"7m30s": 0}),
    ("MdsCityProxies", [unit("1x20 0x360", "active", "nginx.service")], {"6m45s": 0, "7m30s": 1, "1h30m": 1}),
    ("MdsCityProxies", [unit("1x20 0x360", "active", "haproxy.service")], {"7m30s": 1}),
    ("MdsCityProxies", [unit("1x20 0x4 1x20", "active", "nginx.service"), unit("0x50", "active", "cron.service")], {"7m30s": 0}),
    ("MdsCityMemory", addresses("610x30"), {"4m45s": 0, "5m": 1}),
    ("MdsCityMemory", addresses("600x30"), {"7m": 0}),
    ("MdsCityDisk", disk("14x40"), {"4m45s": 0, "5m": 1}),
    ("MdsCityDisk", disk("15x40"), {"8m": 0}),
    ("MdsCityDisk", disk("14x40", "/var/lib/mds_city_archive"), {"5m": 1}),
    ("MdsCityNotKept", [of_server("mds_city_journal_not_kept", "0x10 1 0x60")], {"2m30s": 0, "2m45s": 1, "7m30s": 1, "8m": 0}),
    ("MdsCityNoEvents", [ALL, events("0+1x40 40x400"), other_events("7x440")], {"24m30s": 0, "25m30s": 1, "1h": 1}),
    ("MdsCityNoEvents", [ALL, events("7x440"), other_events("0+1x440")], {"30m": 0}),
    ("MdsCitySilent", [events("0+1x40 40x400")], {"1h9m": 0, "1h11m": 1}),
    ("MdsCitySilent", [events("0+1x40 40x150 0+1x40")], {"1h20m": 0}),
    ("MdsCityRefusals", refusals(20), {"2h5m": 0, "2h25m": 1}),
    ("MdsCityRefusals", refusals(8), {"2h25m": 0}),
    ("MdsCityRestarts", [of_server("process_start_time_seconds", "1x20 2x20 3x400")], {"9m": 0, "10m30s": 1, "1h10m": 0}),
    ("MdsCityRestarts", [of_server("process_start_time_seconds", "1x20 2x20")], {"9m": 0}),
    ("MdsCityEnded", [restarts("0x40 1x400")], {"9m45s": 0, "10m30s": 1, "1h15m": 0}),
    ("MdsCityEnded", [restarts("3x40 0x40"), restarts("0+1x80", "cron.service")], {"15m": 0}),
    ("MdsCitySyncs", syncs(3), {"4m": 0, "6m": 1}),
    ("MdsCitySyncs", syncs(1), {"10m": 0}),
    ("MdsCityFewer", [vehicles("100x40 99x200")], {"14m45s": 0, "15m15s": 1, "50m": 1}),
    ("MdsCityFewer", [vehicles("100x40 0x8 100x40 101x40")], {"13m": 0, "30m": 0}),
    ("MdsCityAhead", [newest(5100)], {"4m45s": 0, "5m15s": 1}),
    ("MdsCityAhead", [newest(3600)], {"15m": 0}),
    ("MdsCityClock", [clock("1x20 0x300")], {"1h4m45s": 0, "1h5m30s": 1}),
    ("MdsCityClock", [clock("1x20 0x200 1x200")], {"1h30m": 0}),
    ("MdsCityWatch", [], {"0s": 1, "20m": 1}),
    # Each minute it fails for 45 seconds, and is tried for 15.
    ("MdsCityUnits", [unit("0x20" + " 1 1 1 0" * 60)], {"14m45s": 0, "15m30s": 1}),
    ("MdsCityUnits", [unit("0x20 1 1 1 0x100")], {"16m": 0, "20m": 0}),
    ("MdsCityUnits", [unit("1x100", name="mds_city-days.service")], {"10m15s": 1}),
    ("MdsCityUnits", [unit("1x100", name="mds_city-archive.service")], {"10m15s": 1}),
    ("MdsCityUnits", [unit("1x100", "active"), unit("1x100", name="cron.service")], {"20m": 0}),
    ("MdsCityNoUnits", [machine("1x60")], {"9m45s": 0, "10m15s": 1}),
    ("MdsCityNoUnits", [machine("1x60"), unit("0x60")], {"10m15s": 1}),
    ("MdsCityNoUnits", [machine("1x60"), restarts("0x60")], {"15m": 0}),
    ("MdsCityNoUnits", [machine("0x60")], {"15m": 0}),
]
"""Series of figures, and when the alarm fires over them, and when it doesn't."""


def rules():
    return values_of(RULES.read_text())[0]["groups"][0]["rules"]


def alerts():
    """The rules that are alarms, by their names."""
    return {rule["alert"]: rule for rule in rules() if "alert" in rule}


def case_of(number, name, inputs, wanted):
    """A case of promtool: at these times so many alarms of this name fire."""
    labels = {"instance": re.search(r'instance="(\w+)"', inputs[0]["series"])[1] if inputs else "prometheus"}
    listed = lambda count: [{"exp_labels": labels}] * count
    tests = [{"eval_time": when, "alertname": name, "exp_alerts": listed(count)} for when, count in wanted.items()]
    return {"name": f"{number} {name}", "interval": "15s", "input_series": inputs, "alert_rule_test": tests}


def plain(rule):
    """A rule whose alarm has the instance as its only label, and no texts."""
    if "alert" not in rule:
        return rule
    kept = {key: it for key, it in rule.items() if key != "annotations"}
    labels = {key: it for key, it in rule["labels"].items() if key != "severity"}
    return {**kept, "expr": f"max by (instance) ({rule['expr']})", "labels": labels}


def rules_by_promtool(_):
    """promtool takes the rules and the configuration, and each alarm fires over made-up figures when it has to, and not before."""
    with tempfile.TemporaryDirectory() as folder:
        copy, tests = Path(folder, "alarms.yml"), Path(folder, "tests.yml")
        copy.write_text(json.dumps({"groups": [{"name": "mds_city", "rules": list(map(plain, rules()))}]}))
        cases = [case_of(number, *it) for number, it in enumerate(CASES)]
        tests.write_text(json.dumps({"rule_files": [str(copy)], "evaluation_interval": "15s", "tests": cases}))
        whole = Path(folder, "prometheus.yml")
        whole.write_text(changed("prometheus.yml", {"/etc/mds_city/alarms.yml": str(RULES)}))
        for words in (("check", "rules", RULES), ("check", "config", whole), ("test", "rules", tests)):
            ran = promtool(*words)
            if ran.returncode or "FAILED" in ran.stdout + ran.stderr:
                yield f"{words[:2]}: {ran.returncode} {ran.stdout}{ran.stderr}"
    both = {(name, fires) for name in alerts() for fires in (0, 1)} - {(ALWAYS, 0)}
    untried = both ^ {(name, it) for name, _, wanted in CASES for it in wanted.values()}
    if untried:
        yield f"alarms that aren't tried, or not both ways: {untried}"


def files_that_fit(_):
    """prometheus.yml asks each instance of haproxy.cfg, of which one.env has the first one's port, and haproxy where it tells figures.
    Each alarm names a part of the runbook that is there, and says whether it is for the night."""
    jobs = {job["job_name"]: job["static_configs"] for job in values_of(changed("prometheus.yml", {}))[0]["scrape_configs"]}
    asked = {it["labels"]["instance"]: it["targets"] for it in jobs["mds_city"]}
    if asked != {name: [f"127.0.0.1:{port}"] for name, port in OUR_JOBS.items()} or tuple(asked) != INSTANCES:
        yield f"asked are {asked}"
    if asked["one"] != [f"127.0.0.1:{variables()['METRICS']}"]:
        yield f"one.env has {variables()['METRICS']}"
    (port,) = re.findall(r"bind 127\.0\.0\.1:([0-9]+)\n    no log", changed("haproxy.cfg", {}))
    if jobs["haproxy"][0]["targets"] != [f"127.0.0.1:{port}"]:
        yield f"haproxy tells figures at {port}"
    for name, rule in alerts().items():
        path, _, anchor = rule["annotations"]["runbook"].partition("#")
        if anchor not in anchors_of((ROOT / path).read_text()):
            yield f"{name}: {path} has no part {anchor}"
        if rule["labels"]["severity"] not in SEVERITIES:
            yield f"{name} is {rule['labels']}"


def who_is_told(_):
    """amtool takes alertmanager.yml, by which each severity goes to a receiver of its own."""
    words = [installed("amtool"), "config", "routes", "test", f"--config.file={ROOT / 'deploy/alertmanager.yml'}"]
    found = {}
    for severity in {rule["labels"]["severity"] for rule in alerts().values()}:
        ran = subprocess.run([*words, f"severity={severity}"], capture_output=True, text=True, timeout=60)
        found[severity] = ran.stdout.strip() or ran.stderr
    if found != {severity: severity for severity in SEVERITIES}:
        yield f"{found}"
    ran = subprocess.run([words[0], "check-config", ROOT / "deploy/alertmanager.yml"], capture_output=True, text=True, timeout=60)
    if ran.returncode or "SUCCESS" not in ran.stdout:
        yield f"{ran.stdout}{ran.stderr}"


# By servers


class Instance:
    """A server over a journal of its own, which is told events until it is silent. Its syncs can be made slow, and its writes fail."""

    def __init__(self, program, name, number, folder):
        self.program, self.name, self.folder = program, name, folder
        self.metrics, self.port = free_ports(2)
        self.events = short_events(vehicle(P, number), 1 << 30)
        self.unknown = list(short_events(vehicle(P, 999), AT_ONCE))
        self.over, self.silent, self.refused = threading.Event(), threading.Event(), threading.Event()
        self.recording = Recording(self.journal()) if name in ("notkept", "syncs") else None
        self.server = None
        self.start()
        ask(self.port, post("/vehicles", compact([vehicle(P, number), vehicle(P, UNUSED)])))
        self.thread = threading.Thread(target=self.report)
        self.thread.start()

    def journal(self):
        return Path(self.folder, f"{self.name}.journal")

    def start(self):
        env = self.recording.env if self.recording else None
        most = ADDRESSES if self.name == "memory" else None
        more = {"journal": self.journal(), "metrics": self.metrics, "port": self.port, "env": env, "address_space": most}
        self.server = Server(self.program, None, 1, **more).__enter__()

    def report(self):
        """Tells it events. Where it isn't there, it is tried again."""
        while not self.over.wait(PACE):
            if self.silent.is_set():
                continue
            listed = list(islice(self.events, AT_ONCE)) + (self.unknown if self.refused.is_set() else [])
            with contextlib.suppress(OSError):
                ask(self.port, post("/events", compact(listed)))

    def restart(self):
        self.server.__exit__()
        self.start()

    def leave_out(self):
        """Goes on over its journal, in which a registration is left out."""
        self.server.__exit__()
        device = vehicle(P, UNUSED)["device_id"].encode()
        texts = [text.decode() for text in texts_in(counted(self.journal().read_bytes())) if device not in text]
        self.journal().write_text(checked(*([text] for text in texts)))
        self.start()

    def look_ahead(self):
        """Is told an event with a time to come, of a vehicle that has none."""
        told = next(short_events(vehicle(P, UNUSED), 1))
        ask(self.port, post("/events", compact({**told, "timestamp": int(time.time() * 1000) + TO_COME})))

    def grow(self):
        """Registers vehicles until it has nearly all addresses."""
        for front in range(10000, 10000000, 10000):
            found = figures_at(self.metrics)
            if found["process_virtual_memory_bytes"] > NEARLY * found["process_virtual_memory_max_bytes"]:
                return
            ask(self.port, post("/vehicles", compact([vehicle(P, number) for number in range(front, front + 10000)])))

    def stop(self):
        self.over.set()
        self.thread.join()
        self.server.__exit__()
        if self.recording:
            self.recording.__exit__()


class Troubles:
    """Instances, one for each trouble and one that is well, haproxy, the exporter of the machine, and Prometheus over all of them."""

    def __init__(self, program):
        self.program, self.stack = program, contextlib.ExitStack()

    def __enter__(self):
        try:
            folder = self.stack.enter_context(tempfile.TemporaryDirectory(dir=MEMORY if MEMORY.is_dir() else None))
            self.instances = {}
            for number, name in enumerate((*TROUBLED, "well")):
                self.instances[name] = Instance(self.program, name, number, folder)
                self.stack.callback(self.instances[name].stop)
            figures, machine, *queues = free_ports(5)
            self.haproxy = haproxy_alone(folder, figures, queues)
            self.stack.callback(self.haproxy.stop)
            self.stack.callback(exporter(folder, machine).stop)
            ports = {name: it.metrics for name, it in self.instances.items()}
            self.watch = self.stack.enter_context(Watch(ports, figures, machine, any_room))
            return self
        except BaseException:
            self.stack.close()
            raise

    def __exit__(self, *_):
        self.stack.close()

    def make(self):
        """Makes each trouble."""
        at = self.instances
        at["silent"].silent.set()
        at["refusals"].refused.set()
        at["notkept"].recording.fail(WRITE, many=1 << 30)
        at["syncs"].recording.set(pause=SLOW_SYNC)
        at["gone"].server.child.kill()
        self.haproxy.stop()
        for _ in range(2):
            at["restarts"].restart()
            time.sleep(2)
        at["fewer"].leave_out()
        at["ahead"].look_ahead()
        at["memory"].grow()

    def keep(self):
        """Has journals be written again. Where nothing is kept for long, no event is accepted."""
        self.instances["notkept"].recording.set(failing=0)

    def end(self):
        """Ends those that end without a restart."""
        self.instances["silent"].silent.clear()
        self.instances["refusals"].refused.clear()
        self.instances["syncs"].recording.set(pause=0)


def any_room(text):
    """The rules, but for that of the disk, which here may be full."""
    return text.replace(DISKS, '"/nowhere"')


def haproxy_alone(folder, figures, queues):
    """haproxy with deploy/haproxy.cfg, whose servers aren't there."""
    changes = {"/etc/mds_city": str(folder), "    user haproxy\n    group haproxy\n": "", "127.0.0.1:8100": f"127.0.0.1:{figures}"}
    changes |= {f"127.0.0.1:810{number}": f"127.0.0.1:{queue}" for number, queue in enumerate(queues, 1)}
    Path(folder, "503.http").write_bytes((ROOT / "deploy/503.http").read_bytes())
    Path(folder, "haproxy.cfg").write_text(changed("haproxy.cfg", changes))
    return Proxy([installed("haproxy"), "-db", "-f", f"{folder}/haproxy.cfg"], folder, [figures])


def exporter(folder, port):
    """The exporter of the machine, of its disks alone, and of a unit in place of systemd."""
    words = [installed("prometheus-node-exporter"), f"--web.listen-address=127.0.0.1:{port}", "--log.level=error"]
    Path(folder, "units.prom").write_text('node_systemd_service_restart_total{name="cron.service"} 0\n')
    words += ["--collector.disable-defaults", "--collector.filesystem", "--collector.textfile", f"--collector.textfile.directory={folder}"]
    return Proxy(words, folder, [port])


NOT_KEPT = ("MdsCityNotKept", "notkept")
PASSING = {NOT_KEPT, ("MdsCitySilent", "silent"), ("MdsCityRefusals", "refusals"), ("MdsCitySyncs", "syncs")}
LASTING = {("MdsCityDown", "gone"), ("MdsCityDown", "haproxy"), ("MdsCityMemory", "memory"), ("MdsCityRestarts", "restarts")}
LASTING |= {("MdsCityFewer", "fewer"), ("MdsCityAhead", "ahead")}
WANTED = PASSING | LASTING
"""Which alarm fires of whom: first those whose cause is ended, then the others. That of restarts is over after an hour, and that of
fewer vehicles after a day."""
MAYBE = {("MdsCityDown", "restarts"), ("MdsCityDown", "fewer")}
"""A busy machine may take long for a restart."""


def each_alarm_fires(program):
    """Each alarm fires once its cause is made, of that instance alone; none fires before, or of an instance that is well. It is over
    once its cause is. Each query of the dashboard is answered meanwhile. Those that want systemd are made in started.py."""
    for _ in range(TRIES):
        wrong = list(alarms_amiss(program))
        if not wrong:
            break
    yield from wrong


def alarms_amiss(program):
    """What is wrong with the alarms of one run."""
    with Troubles(program) as troubles:
        watch = troubles.watch
        time.sleep(USUAL)
        yield from queries_without_answer(watch)
        if watch.fired():
            yield f"before anything is wrong: {watch.fired()}"
            return
        troubles.make()
        watch.wait_for(lambda: NOT_KEPT in watch.fired(), SOON)
        troubles.keep()
        watch.wait_for(lambda: WANTED <= set(watch.fired()), SOON)
        if set(watch.fired()) - MAYBE != WANTED:
            yield f"fired {watch.fired()}, in place of {sorted(WANTED)}"
        troubles.end()
        if not watch.wait_for(lambda: set(watch.firing()) <= LASTING, OVER):
            yield f"not over: {set(watch.firing()) - LASTING}"
        if not set(watch.fired()) <= WANTED | MAYBE or len(watch.fired()) != len(set(watch.fired())):
            yield f"fired in all {watch.fired()}"


def alarm_of_a_full_disk(_):
    """The alarm of the disk fires of a small disk that is filled, and not before."""
    installed("prometheus")
    with tempfile.TemporaryDirectory() as folder, contextlib.ExitStack() as stack:
        place = Path(folder, "disk")
        place.mkdir()
        if subprocess.run(["mount", "-t", "tmpfs", "-o", f"size={SMALL_DISK}", "none", place], capture_output=True).returncode:
            raise Skipped("nothing can be mounted here")
        stack.callback(subprocess.run, ["umount", "-l", place])
        (machine,) = free_ports(1)
        stack.callback(exporter(folder, machine).stop)
        rules_here = lambda text: text.replace(DISKS, f'"{place}"')
        watch = stack.enter_context(Watch({"well": machine}, machine, machine, rules_here))
        watch.wait_for(lambda: watch.query("node_filesystem_size_bytes"), SOON)
        time.sleep(1)
        if watch.firing() or not watch.query(f'ALERTS{{alertname="{ALWAYS}",alertstate="firing"}}'):
            yield f"before the disk is full: {watch.firing()}, or {ALWAYS} doesn't fire"
        (place / "filled").write_bytes(bytes(1000000))
        if not watch.wait_for(lambda: watch.firing() == [("MdsCityDisk", "machine")], SOON):
            yield f"fire: {watch.firing()}"


ALARMS = [rules_by_promtool, who_is_told, files_that_fit, each_alarm_fires, alarm_of_a_full_disk]
