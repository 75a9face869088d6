"""Prometheus with the files of deploy/, over servers of a test. All times in them are shorter by one factor."""

import json
import re
import subprocess
import tempfile
import time
import urllib.error
import urllib.parse
import urllib.request
from pathlib import Path

from deploying.proxies import Proxy, changed, free_ports, installed
from harness.counting import Skipped, Unwell

try:
    import yaml
except ImportError:
    yaml = None

SHORTER = 100
"""By how much: an hour is 36 seconds."""
LEAST = 500
"""How many milliseconds lie at least between two questions for the same figures: a busy machine may take as long for one."""
TIME = re.compile(r"(?<!\w)([0-9]+)([smhd])\b")
MILLISECONDS = {"s": 1000, "m": 60000, "h": 3600000, "d": 86400000}
SECONDS = 60
"""How long Prometheus may take to answer."""
ALWAYS = "MdsCityWatch"
"""The alarm that always fires, and isn't told of here."""
SECOND = '      - {targets: ["second.example:9100"], labels: {instance: second}}\n'
"""The line of prometheus.yml that has the second machine asked, which isn't there."""
OUR_JOBS = {"one": 8201, "two": 8202, "three": 8203}
"""The instances of prometheus.yml, and where it asks them."""


def values_of(text):
    """The values of a text of YAML, or the case is skipped."""
    if yaml is None:
        raise Skipped("no `yaml` of Python here")
    return list(yaml.safe_load_all(text))


def shorter(text, factor, least=1):
    """A text in which each time is shorter by a factor, in milliseconds, of which it has some at least."""
    return TIME.sub(lambda found: f"{max(least, int(found[1]) * MILLISECONDS[found[2]] // factor)}ms", text)


def target(name, port):
    """The line of prometheus.yml that has an instance asked."""
    return f'      - {{targets: ["127.0.0.1:{port}"], labels: {{instance: {name}}}}}\n'


class Watch:
    """Prometheus, which asks these instances, by their names and the ports of their figures, haproxy and the machine. As a context it
    is taken down at its end."""

    def __init__(self, instances, haproxy, machine, rules=lambda text: text, factor=SHORTER):
        words = installed("prometheus")
        self.holder = tempfile.TemporaryDirectory()
        folder = Path(self.holder.name)
        (folder / "alarms.yml").write_text(shorter(rules(changed("alarms.yml", {})), factor))
        (folder / "prometheus.yml").write_text(shorter(self.scraped(folder, instances, haproxy, machine), factor, LEAST))
        (self.port,) = free_ports(1)
        words = [words, f"--config.file={folder}/prometheus.yml", f"--storage.tsdb.path={folder}/data"]
        words += [f"--web.listen-address=127.0.0.1:{self.port}", "--log.level=error"]
        try:
            self.process = Proxy(words, folder, [self.port])
        except BaseException:
            self.holder.cleanup()
            raise
        if not self.wait_for(self.is_ready, SECONDS):
            self.__exit__()
            raise Unwell("Prometheus isn't ready")

    @staticmethod
    def scraped(folder, instances, haproxy, machine):
        """The text of prometheus.yml with these targets. Nobody is told of alarms."""
        one, *others = (target(*it) for it in OUR_JOBS.items())
        changes = {one: "".join(target(*it) for it in instances.items()), **{it: "" for it in others}}
        changes |= {"127.0.0.1:8100": f"127.0.0.1:{haproxy}", "127.0.0.1:9100": f"127.0.0.1:{machine}"}
        changes |= {SECOND: ""}
        changes |= {"/etc/mds_city": str(folder), '["127.0.0.1:9093"]': "[]"}
        return changed("prometheus.yml", changes)

    def __enter__(self):
        return self

    def __exit__(self, *_):
        self.process.stop()
        self.holder.cleanup()

    def is_ready(self):
        try:
            with urllib.request.urlopen(f"http://127.0.0.1:{self.port}/-/ready", timeout=SECONDS):
                return True
        except urllib.error.HTTPError:
            return False

    def api(self, path, **asked):
        """The data of an answer of its HTTP API."""
        url = f"http://127.0.0.1:{self.port}/api/v1/{path}?{urllib.parse.urlencode(asked)}"
        try:
            with urllib.request.urlopen(url, timeout=SECONDS) as answered:
                return json.load(answered)["data"]
        except urllib.error.HTTPError as fault:
            raise Unwell(f"{path} {asked}: {fault.code} {fault.read().decode()[:300]}") from None

    def query(self, text):
        """What a query finds now: the labels and the value of each series."""
        return [(it["metric"], it.get("value")) for it in self.api("query", query=text)["result"]]

    def firing(self):
        """Which alarms fire now, each with who it is about."""
        labels = [it["labels"] for it in self.api("alerts")["alerts"] if it["state"] == "firing"]
        return sorted((it["alertname"], it["instance"]) for it in labels if it["alertname"] != ALWAYS)

    def fired(self):
        """Which alarms fired at any time, each with who it was about."""
        found = self.query(f'count_over_time(ALERTS{{alertname!="{ALWAYS}",alertstate="firing"}}[1h])')
        return sorted((labels["alertname"], labels["instance"]) for labels, _ in found)

    @staticmethod
    def wait_for(is_there, seconds):
        """Waits until this is so, or for so many seconds. Answers whether it was."""
        end = time.monotonic() + seconds
        while not is_there():
            if time.monotonic() > end:
                return False
            time.sleep(0.1)
        return True


def promtool(*words, **more):
    """A run of promtool."""
    return subprocess.run([installed("promtool"), *map(str, words)], capture_output=True, text=True, timeout=300, **more)
