"""`deploy/memory`: the sum of the limits of all units, beside the memory of the machine."""

import os
import re
import shutil
import subprocess
import tempfile
from pathlib import Path

from deploying.proxies import changed
from harness.counting import ROOT

GIB = 1 << 30
SECONDS = 60
TEMPLATE = "mds_city@"


class Units:
    """A folder with the files of deploy/ as they stand on a machine: two instances, and both proxies."""

    def __enter__(self):
        self.holder = tempfile.TemporaryDirectory()
        self.etc, self.units = (Path(self.holder.name, name) for name in ("etc", "units"))
        for name in ("one", "two"):
            self.write(self.etc / f"{name}.env", changed("one.env", {}))
        self.write(self.units / f"{TEMPLATE}.service", changed(f"{TEMPLATE}.service", {"LimitAS=8G": "LimitAS=5G"}))
        for proxy in ("nginx", "haproxy"):
            self.drop_in(proxy, "memory.conf", changed("memory.conf", {"MemoryMax=1G": "MemoryMax=1024M"}))
        return self

    def __exit__(self, *_):
        self.holder.cleanup()

    def write(self, path, text):
        path.parent.mkdir(parents=True, exist_ok=True)
        path.write_text(text)

    def drop_in(self, owner, name, text):
        self.write(self.units / f"{owner}.service.d" / name, text)

    def run(self, *more):
        """The status of a run over these files, and each line that it printed by its first words."""
        words = [ROOT / "deploy/memory", "--etc", self.etc, "--units", self.units, *more]
        ran = subprocess.run(words, capture_output=True, text=True, timeout=SECONDS)
        lines = [line.split() for line in ran.stdout.splitlines()]
        return ran.returncode, {" ".join(line[:-1]): line[-1] for line in lines} or ran.stderr


def told(found, status, **figures):
    """What is wrong with a run: its status, and the last words of its lines, by the last words before them."""
    if found[0] != status:
        yield f"status {found[0]}, in place of {status}: {found[1]}"
    for name, figure in figures.items():
        lines = [value for line, value in found[1].items() if name in line.replace(" ", "_")]
        if lines != [str(figure)]:
            yield f"{name}: {lines}, in place of {figure}: {found[1]}"


def the_sum_of_all_limits(_):
    """All limits are added up, with what is left to the system. As much memory as that is enough, and a byte less isn't."""
    with Units() as units:
        for machine, status in ((14 * GIB, 0), (14 * GIB - 1, 1)):
            found = units.run("--machine", str(machine))
            yield from told(found, status, one=5 * GIB, two=5 * GIB, nginx=GIB, haproxy=GIB, system=2 * GIB, all=14 * GIB)
        yield from told(units.run("--machine", "13G", "--system", "1G"), 0, all=13 * GIB, machine=13 * GIB)


def drop_ins_of_units(_):
    """A drop-in of all instances, and one of an instance: the last by its name, wherever it stands; of one name the instance's."""
    with Units() as units:
        units.drop_in(TEMPLATE, "m.conf", "[Service]\n# LimitAS=9G\nLimitAS = 4G\n")
        yield from told(units.run("--machine", "64G"), 0, one=4 * GIB, two=4 * GIB)
        units.drop_in(f"{TEMPLATE}two", "a.conf", "[Service]\nLimitAS=3G\n")
        yield from told(units.run("--machine", "64G"), 0, one=4 * GIB, two=4 * GIB)
        units.drop_in(f"{TEMPLATE}two", "m.conf", "[Service]\nLimitAS=2G:6G\n")
        yield from told(units.run("--machine", "64G"), 0, one=4 * GIB, two=2 * GIB)
        units.drop_in(f"{TEMPLATE}two", "z.conf", "[Service]\nLimitAS=512M\nLimitAS=1048576K\n")
        yield from told(units.run("--machine", "64G"), 0, one=4 * GIB, two=GIB, all=9 * GIB)


def twelve_on_a_machine(_):
    """Twelve instances fit into the machine of which docs/operations.md says so."""
    text = (ROOT / "docs/operations.md").read_text()
    said = r"Twelve on a\s+machine of ([0-9]+) GiB may have `LimitAS=(\w+)` each beside `--system (\w+)`"
    for machine, limit, system in re.findall(said, text) or [("0", "1G", "0")]:
        with Units() as units:
            for number in range(10):
                units.write(units.etc / f"more{number}.env", changed("one.env", {}))
            units.drop_in(TEMPLATE, "m.conf", f"[Service]\nLimitAS={limit}\n")
            yield from told(units.run("--machine", f"{machine}G", "--system", system), 0)


def without_a_limit(_):
    """What has no limit, or one that isn't a number of bytes, is told, and is never enough."""
    for text in ("LimitAS=infinity\n", "LimitAS=\n", "LimitAS=9g\n"):
        with Units() as units:
            units.drop_in(f"{TEMPLATE}two", "m.conf", f"[Service]\n{text}")
            yield from told(units.run("--machine", "64G"), 1, one=5 * GIB, two_LimitAS_no="limit")
    with Units() as units:
        shutil.rmtree(units.units / "nginx.service.d")
        yield from told(units.run("--machine", "64G"), 1, nginx_MemoryMax_no="limit")
        shutil.rmtree(units.units)
        status, text = units.run("--machine", "64G")
        if status != 3 or "No such file" not in text:
            yield f"without the unit: {status} {text}"


def memory_of_this_machine(_):
    """Unless it is given, the machine's memory is what the system tells of it."""
    with Units() as units:
        _, found = units.run()
        wanted = os.sysconf("SC_PHYS_PAGES") * os.sysconf("SC_PAGE_SIZE")
        if not isinstance(found, dict) or found.get("the machine") != str(wanted):
            yield f"{found}, in place of {wanted}"


MEMORY = [the_sum_of_all_limits, drop_ins_of_units, twelve_on_a_machine, without_a_limit, memory_of_this_machine]
