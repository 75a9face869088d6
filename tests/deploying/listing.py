"""The list of all vehicles of a provider, as the unit `mds_city-list@` makes it and nginx hands it out."""

import itertools
import json
import shlex
import stat
import subprocess
import time

from deploying.copying import Files, ended, run, url
from deploying.journals import server_over
from deploying.passing import answered, sent
from deploying.proxies import CITY, PROVIDERS, TOKENS
from deploying.units import exec_start, variables, words_of
from deploying.vehicles import fill, fleet, vehicle
from harness.counting import ROOT

UNIT = "mds_city-list@.service"
EACH, SECONDS = 1000, 300
GONE = {"error": "unavailable"}


def look_of(owner, events):
    """What a look at a vehicle with these accepted events answers (docs/http.md, `Looking at a vehicle`)."""
    places = [it["location_e7"] for it in events if it["location_e7"]]
    return {
        **owner,
        "events": len(events),
        "last": events[-1]["timestamp"] if events else None,
        "location_e7": places[-1] if places else None,
        "vehicle_state": events[-1]["vehicle_state"] if events else "removed",
    }


def list_all(city, number):
    """Lists the vehicles of a server by the words of the unit; answers the file."""
    path = city.lists / f"{('one', 'two', 'three')[number]}.json"
    changes = {
        "/usr/local/lib/mds_city": str(ROOT / "deploy"),
        "/usr/local/bin/mds_city": city.program,
        words_of()[-1]: str(city.folder / f"{path.stem}.journal"),
        "/var/lib/mds_city_lists/one.json": str(path),
        f"127.0.0.1:{variables()['PORT']}": f"127.0.0.1:{city.ports[number]}",
    }
    command = exec_start(UNIT, variables())
    for old, new in changes.items():
        assert old in command, f"{command} has no {old}"
        command = command.replace(old, new)
    ran = subprocess.run(shlex.split(command), capture_output=True, text=True, timeout=SECONDS)
    if ran.returncode:
        yield f"{command}: {ran.returncode} {ran.stderr}"


def a_list_by_way_of_nginx(city):
    """A provider has the list of its own vehicles, and the city that of each: what a look at each of them tells. Nobody else has
    it, and there is none before it is made."""
    vehicles = [(vehicle(PROVIDERS[1], 600 + number), events) for number, (_, events) in enumerate(fleet(10, 4))]
    vehicles = [(owner, [{**it, **owner} for it in events]) for owner, events in vehicles]
    fill(city.servers[1], vehicles)
    asked = sent("GET", f"/lists/{PROVIDERS[1]}", TOKENS[2])
    yield from answered(city, asked, 503, GONE, "retry-after: 5")
    begun = time.time() * 1000
    yield from list_all(city, 1)
    listed = json.loads((city.lists / "two.json").read_text())
    found = {it["device_id"]: it for it in listed["vehicles"]}
    for owner, events in vehicles:
        if found.get(owner["device_id"]) != look_of(owner, events):
            yield f"{found.get(owner['device_id'])}, in place of {look_of(owner, events)}"
    if not begun - 1 <= listed["time"] <= time.time() * 1000:
        yield f"begun at {listed['time']}, in place of {begun}"
    for target, token in ((f"/lists/{PROVIDERS[1]}", TOKENS[2]), (f"/lists/{PROVIDERS[1].upper()}", CITY)):
        yield from answered(city, sent("GET", target, token), 200, listed, "cache-control: no-store")
    for target, token, status in (
        (f"/lists/{PROVIDERS[1]}", TOKENS[1], 403),
        (f"/lists/{PROVIDERS[1]}?/lists/{PROVIDERS[0]}", TOKENS[1], 403),
        ("/lists/two.json", TOKENS[1], 403),
        (f"/lists/../lists/{PROVIDERS[1]}", TOKENS[1], 403),
        (f"/x/../lists/{PROVIDERS[1]}", TOKENS[1], 503),
        (f"/lists/{PROVIDERS[0]}", TOKENS[1], 503),
        (f"/lists/{PROVIDERS[1]}", None, 401),
    ):
        yield from answered(city, sent("GET", target, token), status)


def lists_that_fail(program):
    """Where the journal has a fault, not all vehicles are told, or the server is gone, the list that was there stays. A vehicle
    that the server doesn't know is told, and the others are listed."""
    vehicles = list(fleet(5, 3))
    with Files(vehicles) as files, server_over(program, files.path("journal"), EACH) as server:
        fill(server, vehicles)
        kept, more = files.path("list", "what was there"), files.path("more")
        command = [program, "vehicles", files.path("journal")]
        cut = ["printf", "vehicle %s %s removed 0\\nregistrations 2 events 0\\n", *vehicles[0][0].values()]
        for words in ([program, "vehicles", files.path("bad", "7")], cut, ["false"], ["no-such-program"]):
            yield from ended(run("list", url(server), kept, *words), 3, "list: ")
        yield from ended(run("list", url(server), kept), 2, "no command")
        yield from ended(run("list", "http://127.0.0.1:1", kept, *command), 4, "http://127.0.0.1:1")
        if kept.read_text() != "what was there" or files.parts():
            yield f"the list that was there is {kept.read_text()!r}"
        yield from ended(run("list", url(server), kept, *command), 0)
        found = sorted(json.loads(kept.read_text())["vehicles"], key=lambda it: it["device_id"])
        if found != sorted(itertools.starmap(look_of, vehicles), key=lambda it: it["device_id"]):
            yield f"{found}"
        if stat.S_IMODE(kept.stat().st_mode) != 0o640:
            yield f"the mode is {kept.stat().st_mode:o}"
        line = "vehicle {provider_id} {device_id} removed 0\n"
        told = "".join(line.format(**it) for it in (vehicles[0][0], vehicle(PROVIDERS[0], 999))) + "registrations 2 events 0\n"
        yield from ended(run("list", url(server), more, "printf", "%s", told), 1, "not registered: ")
        if json.loads(more.read_text())["vehicles"] != [look_of(*vehicles[0])]:
            yield f"{more.read_text()}"


LISTS = [lists_that_fail]
LISTING = [a_list_by_way_of_nginx]
