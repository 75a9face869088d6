"""The manifests for Kubernetes: their fields by kubectl's own types, their ports and names, and a pod's two processes on this machine.
No cluster takes them."""

import json
import re
import subprocess
import tempfile
from pathlib import Path

from deploying.passing import GONE
from deploying.proxies import PROVIDERS, Proxy, changed, free_ports, installed
from deploying.units import INSTANCE, setting, variables
from deploying.vehicles import vehicle
from deploying.watching import values_of
from documents.versions import LIBRARY, OF_THE_PROGRAM
from harness.counting import ROOT
from model.json_text import compact
from serving.figures import READY_ANSWER, told_at
from serving.server import success_of
from serving.tools import body_of
from serving.wire import SECONDS, ask, get, post

BY_KUBECTL = {"StatefulSet": ["image", "server=mds_city:0"], "Service": ["selector", "app=mds-city"]}
"""What kubectl changes, on this machine alone, of a manifest of each kind: it reads that by its own types, and leaves out what these
don't have."""
IN_A_POD = {"one": 8001, "figures of one": 8201, "requests": 8101, "figures": 8200}
"""The ports of a pod."""
UNIT_KIB = {"G": 1 << 20, "M": 1 << 10}


def manifests():
    """The manifests, by their kinds."""
    return {it["kind"]: it for it in values_of(changed("kubernetes.yml", {}))}


def missing(value, kept, path=""):
    """Which members of a value aren't in what was kept of it."""
    if isinstance(value, dict):
        for name, it in value.items():
            if not isinstance(kept, dict) or name not in kept:
                yield f"{path}.{name}"
            else:
                yield from missing(it, kept[name], f"{path}.{name}")
    elif isinstance(value, list):
        for number, it in enumerate(value):
            yield from missing(it, kept[number] if number < len(kept) else None, f"{path}[{number}]")


def fields_by_kubectl(_):
    """kubectl's types have each member of the manifests."""
    for kind, (change, to) in BY_KUBECTL.items():
        words = [installed("kubectl"), "set", change, "--local", "-f", "-", "-o", "json", to]
        ran = subprocess.run(words, input=json.dumps(manifests()[kind]), capture_output=True, text=True, timeout=SECONDS)
        if ran.returncode:
            yield f"{kind}: {ran.returncode} {ran.stderr}"
        else:
            yield from (f"{kind}: no member {it}" for it in missing(manifests()[kind], json.loads(ran.stdout)))
    if set(manifests()["ConfigMap"]) != {"apiVersion", "kind", "metadata", "data"}:
        yield f"ConfigMap: {set(manifests()['ConfigMap'])}"


def containers():
    return {it["name"]: it for it in manifests()["StatefulSet"]["spec"]["template"]["spec"]["containers"]}


def command():
    """The command of the server's container."""
    return " ".join(containers()["server"]["args"][0].split())


def names_that_fit(_):
    """Names lead to what is there: of the Service, of volumes and of ports."""
    kinds, pod = manifests(), manifests()["StatefulSet"]["spec"]["template"]
    wanted, service = kinds["StatefulSet"]["spec"], kinds["Service"]
    labels = [wanted["selector"]["matchLabels"], pod["metadata"]["labels"], service["spec"]["selector"]]
    if any(it != labels[0] for it in labels) or wanted["serviceName"] != service["metadata"]["name"]:
        yield f"{labels}, {wanted['serviceName']}"
    volumes = {it["name"] for it in pod["spec"]["volumes"]} | {it["metadata"]["name"] for it in wanted["volumeClaimTemplates"]}
    mounted = [mount["name"] for it in containers().values() for mount in it["volumeMounts"]]
    if set(mounted) != volumes or pod["spec"]["volumes"][0]["configMap"]["name"] != kinds["ConfigMap"]["metadata"]["name"]:
        yield f"{mounted} are mounted, of {volumes}"
    ports = {it["name"]: it["containerPort"] for it in containers()["haproxy"]["ports"]}
    told = {it["targetPort"]: it["port"] for it in service["spec"]["ports"]}
    probe = containers()["server"]["readinessProbe"]["httpGet"]
    figures = pod["metadata"]["annotations"]
    if ports != told or [probe["port"], int(figures["prometheus.io/port"])] != [ports["figures"]] * 2:
        yield f"ports {ports} and {told}, {probe} and {figures}"
    if (probe["path"], figures["prometheus.io/path"]) != ("/ready", "/metrics"):
        yield f"{probe} and {figures}"
    if {name: ports[name] for name in ports} != {name: IN_A_POD[name] for name in ports}:
        yield f"ports {ports}"


def as_the_unit_has_it(_):
    """A pod's server has the words, the limit and the environment of the unit, and haproxy those of haproxy.cfg."""
    unit = re.sub(r"\$\{?([A-Z]+)\}?", lambda found: variables()[found[1]], setting("ExecStart")).split()
    journal = f"/var/lib/mds_city/{INSTANCE}/journal"
    wanted = " ".join(unit).replace(journal, "/var/lib/mds_city/journal")
    limit = re.fullmatch(r"([0-9]+)([GM])", setting("LimitAS"))
    if command() != f"ulimit -v {int(limit[1]) * UNIT_KIB[limit[2]]} && exec {wanted}":
        yield f"{command()}, in place of {wanted}, with {limit[0]}"
    environment = dict(it.split("=") for it in setting("Environment").split())
    server = containers()["server"]
    if {it["name"]: it["value"] for it in server["env"]} != environment:
        yield f"{server['env']}, in place of {environment}"
    if server["image"] != f"mds_city:{OF_THE_PROGRAM.search((ROOT / LIBRARY).read_text())[1]}":
        yield f"the image {server['image']}"
    entry = json.loads(re.search(r"^ENTRYPOINT (.*)$", changed("Containerfile", {}), re.MULTILINE)[1])
    if server["command"][:2] != entry[:2] or entry[2] not in command():
        yield f"the Containerfile begins with {entry}"
    data, ours = manifests()["ConfigMap"]["data"], changed("haproxy.cfg", {})
    if data["503.http"].encode() != (ROOT / "deploy/503.http").read_bytes():
        yield f"503.http is {data['503.http']!r}"
    lines = {line.strip() for line in ours.splitlines()}
    own = {"listen requests", "bind :8101", "listen figures", "bind :8200", "no log", "server one 127.0.0.1:8201"}
    for line in data["haproxy.cfg"].splitlines():
        if line.strip() not in lines | own and not line.strip().startswith("#"):
            yield f"haproxy.cfg of the pod has {line!r}"


def a_pod(program):
    """A pod's two processes, by the commands of the manifests: haproxy answers 503 before the server is there, and then passes on
    requests, whether it is ready, and figures."""
    installed("haproxy")
    with tempfile.TemporaryDirectory() as folder:
        ports = dict(zip(IN_A_POD.values(), free_ports(len(IN_A_POD))))
        data = manifests()["ConfigMap"]["data"]
        moved = lambda text: re.sub(r"\b8[0-9]{3}\b(?![0-9])", lambda found: str(ports.get(int(found[0]), found[0])), text)
        Path(folder, "503.http").write_bytes(data["503.http"].encode())
        Path(folder, "haproxy.cfg").write_text(moved(data["haproxy.cfg"]).replace("/etc/mds_city", folder))
        haproxy = Proxy([installed("haproxy"), "-db", "-f", f"{folder}/haproxy.cfg"], folder, [ports[8101], ports[8200]])
        words = moved(command()).replace("/usr/local/bin/mds_city", program).replace("/var/lib/mds_city", folder)
        server = None
        try:
            found = told_at(ports[8200], get("/ready"))
            if not found.startswith(b"HTTP/1.1 503 ") or not found.endswith(compact(GONE).encode()):
                yield f"before the server is there: {found!r}"
            server = Proxy(["/bin/sh", "-c", words], folder, [ports[8201], ports[8001]])
            if body_of(told_at(ports[8200], get("/ready"))) != body_of(READY_ANSWER):
                yield f"ready: {told_at(ports[8200], get('/ready'))!r}"
            if success_of(ask(ports[8101], post("/vehicles", compact(vehicle(PROVIDERS[0], 1))))) != 1:
                yield "a registration isn't accepted"
            if b"mds_city_held_vehicles 1\n" not in told_at(ports[8200], get("/metrics")):
                yield "the figures tell no vehicle"
        finally:
            for process in (server, haproxy):
                if process:
                    process.stop()


CLUSTER = [fields_by_kubectl, names_that_fit, as_the_unit_has_it, a_pod]
