"""Requests by way of nginx and haproxy."""

import json
import shutil
import socket
import subprocess
import threading
import time

from cases.replays import batch, history
from deploying.copying import Files, ended, run, url
from deploying.proxies import ANNA, CITY, NOBODY, PROVIDERS, SECONDS, TOKENS, read_answer
from deploying.vehicles import event, fill, fleet, vehicle
from harness.case import MAX_BYTES, MAX_ITEMS, padded
from harness.counting import Skipped
from model.http import answer, error
from model.json_text import compact
from serving.tools import body_of
from serving.wire import ask, connect, get, read_all

SHARED = vehicle(PROVIDERS[0], 700)["device_id"]
"""A device that each provider has."""
UNKNOWN = vehicle(PROVIDERS[0], 701)["device_id"]
"""One that nobody has."""
SLOW, LOOKS, PACE = 200, 100, 1.0
"""Clients that send a byte each so many seconds, and looks beside them."""
READERS, PARTS, LISTED = 8, 3, 10000
"""Clients that don't read, and in how many batches of how many events the vehicle has its answer, of 9 MB. What is shorter
the system could take in between the proxies."""
CLIENTS, PAUSE, BEHIND = 8, 0.5, 20
"""Clients that go on while a server starts anew, how long it is gone, and how many requests each makes behind that."""
RESTARTS, MOST_GONE = 5, 3.0
"""How often a restart is tried, and how long a server may be gone so that no client sees it: haproxy tries for three seconds,
and nginx has it try twice."""
GONE = {"error": "unavailable"}
LONG_ENOUGH = 1 << 20
"""The bytes of a body that nginx doesn't keep in memory."""


def sent(method, target, token, body=b"", fields=()):
    """A request with a token, unless that is None."""
    lines = [f"{method} {target} HTTP/1.1", "Host: localhost", "Connection: close", *fields]
    if token is not None:
        lines.append(f"Authorization: Bearer {token}")
    if body and not any("ransfer" in field for field in fields):
        lines.append(f"Content-Length: {len(body)}")
    return "\r\n".join([*lines, "", ""]).encode() + body


def path_of(provider, device=SHARED):
    return f"/vehicles/{provider}/{device}"


def answered(city, request, status, body=None, field=""):
    """What is wrong with the answer to a request: its status, its body as JSON, a field of its head."""
    found, head, text = city.ask(request)
    if found != status or (body is not None and json.loads(text) != body) or field.lower() not in head.lower():
        yield f"{request[:120]!r}: {found} {head!r} {text[:200]!r}, in place of {status} {body} {field}"


def tokens(city):
    """Without a token, or with one that nobody has: 401, for whatever is asked."""
    for token in (None, NOBODY, "", TOKENS[1][:-1], f"{TOKENS[1]}0", "~.*"):
        for request in (sent("GET", "/table", token), sent("POST", "/vehicles", token, b"[]")):
            yield from answered(city, request, 401, {"error": "unauthorized"}, "www-authenticate: bearer")
    for token in (*TOKENS.values(), CITY):
        yield from answered(city, sent("GET", "/table", token), 200)


def paths_of_others(city):
    """A path of another provider is 403, in whatever form; what names none goes to the provider's own server."""
    own, other = PROVIDERS[:2]
    for target in (path_of(other), path_of(other.upper()), f"{path_of(other)}/events", f"{path_of(other)}?a=/{own}/"):
        yield from answered(city, sent("GET", target, TOKENS[1]), 403, {"error": "forbidden"})
    for form in (f"{{{other}}}", other.replace("-", ""), f"urn:uuid:{other}", f"{other}%20", f"%7b{other}%7d"):
        yield from answered(city, sent("GET", path_of(form), TOKENS[1]), 403, {"error": "forbidden"})
    for target in (f"/{path_of(other)}", f"/x/..{path_of(other)}", path_of(other).replace("/v", "/%76"), "/nowhere"):
        yield from answered(city, sent("GET", target, TOKENS[1]), 404, {"error": "not_found"})
    round_about = f"/vehicles/{own}/../{other}/{SHARED}"
    yield from answered(city, sent("GET", round_about, TOKENS[1]), 404, {"error": "not_found"})


def three_instances(city):
    """Each provider's items go to a server of its own. The city looks at all of them, and reports nothing."""
    for number, provider in enumerate(PROVIDERS, 1):
        owner = {"provider_id": provider, "device_id": SHARED}
        done = {"failures": [], "success": 1, "total": 1}
        yield from answered(city, sent("POST", "/vehicles", TOKENS[number], compact(owner).encode()), 200, done)
        for token in (TOKENS[number], CITY):
            for target in (path_of(provider), path_of(provider.upper(), SHARED.upper())):
                yield from answered(city, sent("GET", target, token), 200)
            yield from answered(city, sent("GET", f"{path_of(provider)}/events", token), 200, {"events": []})
    for at, server in enumerate(city.servers):
        for number, provider in enumerate(PROVIDERS):
            found = ask(server.port, get(path_of(provider)))
            if (found == error(404, "unregistered")) == (number == at):
                yield f"server {at} answers {found!r} of provider {number}"
    yield from answered(city, sent("POST", "/vehicles", CITY, b"[]"), 403, {"error": "forbidden"})
    yield from answered(city, sent("GET", path_of("00000000-0000-4000-8000-0000000000ff"), CITY), 403)


def persons_of_the_city(city):
    """Who has a token of its own as a person of the city may look as the city does, and no more; the log has the name."""
    yield from answered(city, sent("GET", "/table", ANNA), 200)
    yield from answered(city, sent("GET", path_of(PROVIDERS[1], UNKNOWN), ANNA), 404)
    yield from answered(city, sent("POST", "/vehicles", ANNA, b"[]"), 403, {"error": "forbidden"})
    log, wanted, end = city.folder / "mds_city.log", [200, 404, 403], time.monotonic() + SECONDS
    named = lambda: [json.loads(line)["status"] for line in log.read_text().splitlines() if '"who":"city anna"' in line]
    while len(named()) < len(wanted) and time.monotonic() < end:
        time.sleep(0.1)
    if named() != wanted:
        yield f"the log has {named()} of her"


def answers_of_each_kind(city):
    """Each operation is answered 200, and each refusal of a whole request that the server alone makes is its own."""
    owner = {"provider_id": PROVIDERS[1], "device_id": vehicle(PROVIDERS[1], 702)["device_id"]}
    place = path_of(*owner.values())
    events = [event(owner, number, ["provider_drop_off"], "available") for number in (2, 2, 1)]
    for target, items in (("/vehicles", [owner, owner, 7]), ("/events", [*events, {}])):
        yield from answered(city, sent("POST", target, TOKENS[2], compact(items).encode()), 200)
    for target in (place, f"{place}/events", "/table"):
        yield from answered(city, sent("GET", target, TOKENS[2]), 200)
    for body, name in (("[1,", "not_json"), ("7", "not_list"), (compact([7] * (MAX_ITEMS + 1)), "too_many")):
        for target in ("/vehicles", "/events"):
            yield from answered(city, sent("POST", target, TOKENS[2], body.encode()), 400, {"error": name})
    for target, allowed in ((place, "GET"), (f"{place}/events", "GET"), ("/table", "GET"), ("/events", "POST")):
        request = sent("DELETE", target, TOKENS[2])
        yield from answered(city, request, 405, {"error": "method_not_allowed"}, f"allow: {allowed}")
    unknown = path_of(PROVIDERS[1], vehicle(PROVIDERS[1], 703)["device_id"])
    for target, name in ((unknown, "unregistered"), (f"{unknown}/events", "unregistered"), ("/nowhere", "not_found")):
        yield from answered(city, sent("GET", target, TOKENS[2]), 404, {"error": name})


def in_chunks(text):
    """A body in two chunks."""
    half = len(text) // 2
    return b"".join(b"%x\r\n%s\r\n" % (len(part), part) for part in (text[:half], text[half:])) + b"0\r\n\r\n"


def chunked_bodies(city):
    """A body in chunks, which the server alone refuses, gets its length on the way: from nginx, not from haproxy."""
    listed = b" " * 5000 + b"[7]"
    wanted = {"failures": [{"error": "not_object", "index": 0}], "success": 0, "total": 1}
    request = sent("POST", "/events", TOKENS[1], in_chunks(listed), ["Transfer-Encoding: chunked"])
    yield from answered(city, request, 200, wanted)
    too_long = sent("POST", "/events", TOKENS[1], in_chunks(b" " * MAX_BYTES + b"[7]"), ["Transfer-Encoding: chunked"])
    yield from answered(city, too_long, 413, {"error": "too_long"})
    with connect(city.queues[0]) as connection:
        connection.sendall(request)
        if read_answer(connection)[0] != 501:
            yield "haproxy alone doesn't pass chunks on"


def over_http_2(city):
    """The same over HTTP/2, by `curl`."""
    if not shutil.which("curl"):
        raise Skipped("no `curl` here")
    words = ["curl", "-sS", "--http2", "-m", str(SECONDS), "--cacert", city.folder / "cert.pem", "-T", "-", "-X", "POST"]
    words += ["-H", f"Authorization: Bearer {TOKENS[1]}", "-w", " %{http_version} %{http_code}"]
    ran = subprocess.run([*words, f"https://127.0.0.1:{city.port}/events"], input=b" " * 5000 + b"[]", capture_output=True)
    if ran.stdout.decode() != '{"failures":[],"success":0,"total":0} 2 200':
        yield f"{ran.stdout!r} {ran.stderr!r}"


def longest_bodies(city):
    """A body of as many bytes as there may be passes, and one of one more is 413, as is one that only says so."""
    longest, more = (padded("[7]", length).encode() for length in (MAX_BYTES, MAX_BYTES + 1))
    wanted = {"failures": [{"error": "not_object", "index": 0}], "success": 0, "total": 1}
    yield from answered(city, sent("POST", "/events", TOKENS[2], longest), 200, wanted)
    head = sent("POST", "/events", TOKENS[2], more)[: -len(more)]
    yield from answered(city, head, 413, {"error": "too_long"})


def heads_past_the_limits(city):
    """Who refuses a head with too many fields, or of too many bytes, and how."""
    lines = lambda count, length: [f"x-{number}: {'a' * length}" for number in range(count)]
    for target, fields, status, told in (
        ("/table", lines(60, 1), 200, '{"rows":['),
        ("/table", lines(80, 1), 400, '{"error":"bad_head"}'),
        ("/table", lines(120, 1), 400, "<html><body><h1>400 Bad request</h1>"),
        ("/table", lines(2, 7000), 200, '{"rows":['),
        ("/table", lines(3, 7000), 400, "<html><body><h1>400 Bad request</h1>"),
        ("/table", lines(1, 9000), 400, "<center>nginx</center>"),
        (f"/table?{'a' * 9000}", [], 414, "<center>nginx</center>"),
    ):
        with city.connect() as connection:
            connection.sendall(sent("GET", target, TOKENS[1], fields=fields))
            found, _, body = read_answer(connection)
        if found != status or told not in body:
            yield f"{len(target)} and {len(fields)} fields: {found} {body[:200]!r}, in place of {status} {told}"


def expected_continues(city):
    """A client that waits for 100 before it sends its body gets that at once, which the server alone doesn't send."""
    request = sent("POST", "/vehicles", TOKENS[3], b"[]", ["Expect: 100-continue"])
    with city.connect() as connection:
        connection.sendall(request[:-2])
        interim = connection.recv(1 << 10)
        if not interim.startswith(b"HTTP/1.1 100 "):
            yield f"before the body came {interim!r}"
        connection.sendall(request[-2:])
        status, _, body = read_answer(connection)
        if (status, body) != (200, '{"failures":[],"success":0,"total":0}'):
            yield f"{status} {body}"


def trickle(slow, over):
    """Sends the next byte of each slow client's rest, again and again, until it is over. Clients may be added meanwhile;
    those whose connection nginx has closed are passed over."""
    while not over.wait(PACE):
        for client in list(slow):
            connection, rest = client
            client[1] = rest[1:]
            try:
                connection.sendall(rest[:1])
            except OSError:
                pass


def are_open(connections):
    """How many of these connections have neither an answer nor an end."""
    count = 0
    for connection in connections:
        connection.settimeout(0.01)
        try:
            connection.recv(1)
        except socket.timeout:
            count += 1
        except OSError:
            pass
    return count


def look_beside(city, count):
    """What is wrong with looks at a vehicle that are made one after the other. The first that fails is the last."""
    request, waited, end = sent("GET", path_of(PROVIDERS[0]), TOKENS[1]), [], time.monotonic() + SECONDS
    while len(waited) < count:
        start = time.monotonic()
        status, _, body = city.ask(request)
        waited.append(time.monotonic() - start)
        if status != 200 or time.monotonic() > end:
            yield f"{status} {body}; {len(waited)} looks, the longest of {max(waited):.1f} s"
            return
    city.waited = waited


def slow_senders(city):
    """Looks go on beside many more clients than workers, which send a byte now and then: of a head, or of a body. That they
    were open all the while is seen at the end, at the slow bodies: nginx waits for a whole head for 10 seconds only."""
    yield from fill_shared(city)
    head = sent("GET", path_of(PROVIDERS[0]), TOKENS[1])
    long = sent("POST", "/events", TOKENS[1], b" " * 1000)
    parts = [(long[:-1000], long[-1000:]), (head[:40], head[40:-4])]
    slow, over = [], threading.Event()
    sender = threading.Thread(target=trickle, args=(slow, over))
    sender.start()
    try:
        for number in range(SLOW):
            front, rest = parts[number % 2]
            connection = city.connect()
            connection.sendall(front)
            slow.append([connection, rest])
        yield from look_beside(city, LOOKS)
    finally:
        over.set()
        sender.join()
        bodies = [connection for connection, _ in slow[::2]]
        count = are_open(bodies)
        for connection, _ in slow:
            connection.close()
    if count != SLOW // 2:
        yield f"{count} of {SLOW // 2} slow clients were there at the end"


def fill_shared(city):
    """Registers the shared device with the first server, if it isn't there."""
    owner = {"provider_id": PROVIDERS[0], "device_id": SHARED}
    return answered(city, sent("POST", "/vehicles", TOKENS[1], compact(owner).encode()), 200)


def slow_readers(city):
    """Looks go on beside more clients than workers that read nothing of a long answer. One that reads it late has all of
    it."""
    yield from fill_shared(city)
    device = vehicle(PROVIDERS[0], 701)["device_id"]
    owner = {"provider_id": PROVIDERS[0], "device_id": device}
    yield from answered(city, sent("POST", "/vehicles", TOKENS[1], compact(owner).encode()), 200)
    for front in range(0, PARTS * LISTED, LISTED):
        events = batch(history(device, front, front + LISTED)).encode()
        done = {"failures": [], "success": LISTED, "total": LISTED}
        yield from answered(city, sent("POST", "/events", TOKENS[1], events), 200, done)
    connections = []
    try:
        for _ in range(READERS):
            connections.append(city.connect(room=4096))
            connections[-1].sendall(sent("GET", f"{path_of(PROVIDERS[0], device)}/events", TOKENS[1]))
        yield from look_beside(city, LOOKS // 2)
        status, _, body = read_answer(connections[0])
        if status != 200 or len(json.loads(body)["events"]) != PARTS * LISTED:
            yield f"the one that reads late had {status} and {len(body)} bytes"
    finally:
        for connection in connections:
            connection.close()


class Client(threading.Thread):
    """A client that registers and looks at the table by turns, until it made so many requests after a moment."""

    def __init__(self, city, number, again):
        super().__init__()
        self.city, self.again, self.wrong, self.longest = city, again, [], 0.0
        owner = {"provider_id": PROVIDERS[0], "device_id": vehicle(PROVIDERS[0], 800 + number)["device_id"]}
        self.requests = [sent("POST", "/vehicles", TOKENS[1], compact(owner).encode()), sent("GET", "/table", TOKENS[1])]

    def run(self):
        left = BEHIND
        while left and not self.wrong:
            left -= self.again.is_set()
            for request in self.requests:
                self.turn(request)

    def turn(self, request):
        start = time.monotonic()
        try:
            status, head, body = self.city.ask(request)
            if status != 200 or not body.endswith("}"):
                self.wrong.append(f"{status} {head!r} {body[:200]!r}")
        except Exception as fault:  # whatever it is, the client had no answer
            self.wrong.append(f"{type(fault).__name__}: {fault}")
        self.longest = max(self.longest, time.monotonic() - start)


def restart_during_load(city):
    """A server that is ended by SIGTERM and started anew soon, while clients go on: none sees anything but 200. On a machine
    so busy that the server was gone for longer than the proxies wait, it is tried again."""
    for _ in range(RESTARTS):
        gone, wrong = restarted(city)
        if not wrong or gone < MOST_GONE:
            break
    yield from wrong


def restarted(city):
    """How long a server was gone while clients went on, and what they saw that wasn't right."""
    again = threading.Event()
    clients = [Client(city, number, again) for number in range(CLIENTS)]
    for client in clients:
        client.start()
    try:
        time.sleep(PAUSE)
        gone = city.restart(0, PAUSE)
    finally:
        again.set()
        for client in clients:
            client.join()
    city.longest = max(client.longest for client in clients)
    return gone, [text for client in clients for text in client.wrong]


def a_restart_that_loses_nothing(city):
    """What was answered by way of the proxies stays where the server is killed and started anew: reports and registrations that are
    sent again are told to be there, and looks find what they found."""
    owner = {"provider_id": PROVIDERS[0], "device_id": vehicle(PROVIDERS[0], 704)["device_id"]}
    events = [event(owner, number, ["provider_drop_off"], "available") for number in (1,)]
    posts = [("/vehicles", compact(owner), "already_registered"), ("/events", compact(events), "repeated")]
    place = path_of(*owner.values())
    for target, body, _ in posts:
        done = {"failures": [], "success": 1, "total": 1}
        yield from answered(city, sent("POST", target, TOKENS[1], body.encode()), 200, done)
    looks = [sent("GET", target, TOKENS[1]) for target in (place, f"{place}/events")]
    before = [city.ask(look)[2] for look in looks]
    city.servers[0].__exit__()
    city.servers[0] = city.server(0)
    for look, body in zip(looks, before):
        yield from answered(city, look, 200, json.loads(body))
    for target, body, name in posts:
        wanted = {"failures": [{"error": name, "index": 0}], "success": 0, "total": 1}
        yield from answered(city, sent("POST", target, TOKENS[1], body.encode()), 200, wanted)


def a_server_that_is_gone(city):
    """While a server isn't there its provider's requests are 503, with the time after which to try again; the others' go
    on. haproxy's own answer is the same. It tells of each try that failed, and of nothing that went well."""
    server, before = city.servers[2], len(city.proxies[0].told().splitlines())
    server.child.terminate()
    server.child.wait(SECONDS)
    yield from answered(city, sent("GET", "/table", TOKENS[2]), 200)
    yield from answered(city, sent("GET", "/table", TOKENS[3]), 503, GONE, "retry-after: 5")
    with connect(city.queues[2]) as connection:
        connection.sendall(get("/table"))
        found = read_all(connection)
        if not found.startswith(b"HTTP/1.1 503 ") or not found.endswith(compact(GONE).encode()):
            yield f"haproxy answers {found!r}"
    server.__exit__()
    city.servers[2] = city.server(2)
    yield from answered(city, sent("GET", "/table", TOKENS[3]), 200)
    told = lines_behind(city.proxies[0], before, 3)
    if len(told) != 3 or not all(" three/three " in line and " 503 " in line for line in told):
        yield f"haproxy told {told}"


def no_room_for_a_body(city):
    """Where nginx can't put a long body away, as on a full disk, its client is told to come again."""
    place, aside = city.folder / "client_body", city.folder / "aside"
    place.rename(aside)
    city.faults_made.append(str(place))
    try:
        body = padded("[]", LONG_ENOUGH).encode()
        yield from answered(city, sent("POST", "/events", TOKENS[1], body), 503, GONE, "retry-after: 5")
    finally:
        aside.rename(place)


def lines_behind(proxy, before, count):
    """The lines that a proxy told behind so many; there are some more soon, or it is waited for them."""
    end = time.monotonic() + SECONDS
    while len(proxy.told().splitlines()) < before + count and time.monotonic() < end:
        time.sleep(0.05)
    return proxy.told().splitlines()[before:]


def answers_in_turn(listener, answers, asked):
    """Takes a connection for each of these answers, keeps what it asks, and answers that, or nothing."""
    for one in answers:
        connection, _ = listener.accept()
        with connection:
            connection.settimeout(SECONDS)
            head = b""
            while b"\r\n\r\n" not in head:
                head += connection.recv(1 << 16)
            asked.append(head)
            connection.sendall(one)


def an_answer_that_breaks_off(city):
    """A report whose connection to the server ends without an answer is sent a second time, and so is one for which there was
    no memory. Where the second one ends so too, the client is told to try again. In place of a server stands a listener that
    does so. It never sees a token."""
    city.servers[2].__exit__()
    good, none = answer(200, {"failures": [], "success": 0, "total": 0}), b"HTTP/1.1 503 X\r\ncontent-length: 0\r\n\r\n"
    turns = [((b"", good), 200), ((none, good), 200), ((b"", b""), 503), ((none, none), 503)]
    try:
        for answers, status in turns:
            asked = []
            with socket.create_server(("127.0.0.1", city.ports[2])) as listener:
                listener.settimeout(SECONDS)
                server = threading.Thread(target=answers_in_turn, args=(listener, answers, asked))
                server.start()
                found, _, body = city.ask(sent("POST", "/events", TOKENS[3], b"[]"))
                server.join()
            wanted = {good: body_of(good).decode(), none: "", b"": compact(GONE)}[answers[1]]
            if (found, body) != (status, wanted):
                yield f"{answers}: {found} {body!r}, in place of {status} {wanted!r}"
            if len(asked) != 2 or any(TOKENS[3].encode() in head for head in asked):
                yield f"{answers}: the server was asked {asked!r}"
    finally:
        city.servers[2] = city.server(2)


def backup_by_way_of_nginx(city):
    """A provider's vehicles are read by way of TLS with its token, and put into the server itself."""
    vehicles = [(owner, events) for owner, events in fleet(30, 20) if owner["provider_id"] == PROVIDERS[1]]
    with Files(vehicles) as files:
        fill(city.servers[1], vehicles)
        where, path = f"https://127.0.0.1:{city.port}", files.path("file")
        more = ["--ca", city.folder / "cert.pem", "--token-file", files.path("token", f"{TOKENS[2]}\n")]
        yield from ended(run("backup", where, path, files.registrations, *more), 0, f"read {len(vehicles)} vehicles")
        yield from ended(run("backup", where, path, files.registrations), 4, where)
        yield from ended(run("backup", where, path, files.registrations, *more[:2]), 4, "401", "unauthorized")
        yield from ended(run("backup", where, path, files.registrations, "--ca", path), 3, str(path))
        yield from ended(run("restore", url(city.servers[0]), path), 0, "0 refused, 0 stand otherwise")


def closed_to_reports(city):
    """With one line more nginx refuses reports, and looks go on. A client whose body doesn't end is let go by the old process,
    soon: by itself nginx would wait for it as long as for each answer here."""
    with city.connect() as slow:
        slow.sendall(sent("POST", "/vehicles", TOKENS[1], b"[]")[:-1])
        start = time.monotonic()
        city.reload(city.nginx(**{"# POST 1;": "POST 1;"}))
        gone = time.monotonic() - start
        if gone > SECONDS / 3 or are_open([slow]):
            yield f"the old process went on for {gone:.0f} s, and the slow client is there"
    yield from answered(city, sent("POST", "/vehicles", TOKENS[1], b"[]"), 503, GONE, "retry-after: 5")
    yield from answered(city, sent("GET", "/table", TOKENS[1]), 200)


def lines_of_the_log(city):
    """Each line of nginx's log is JSON, that of a client that was let go without an answer, too; and none has a token."""
    text, statuses = (city.folder / "mds_city.log").read_text(), set()
    kept = {"time", "from", "who", "instance", "request", "status", "bytes", "seconds", "tries"}
    for line in text.splitlines():
        told = json.loads(line)
        statuses.add(told["status"])
        if set(told) != kept:
            yield line
    if not {0, 200, 401, 503} <= statuses:
        yield f"the log has only the statuses {sorted(statuses)}"
    for token in (*TOKENS.values(), CITY, NOBODY):
        if token in text:
            yield f"the log has the token {token}"
    if len(text.splitlines()) < LOOKS:
        yield f"the log has {len(text.splitlines())} lines"


PASSING = [
    tokens,
    paths_of_others,
    three_instances,
    persons_of_the_city,
    answers_of_each_kind,
    chunked_bodies,
    over_http_2,
    longest_bodies,
    heads_past_the_limits,
    expected_continues,
    slow_senders,
    slow_readers,
    restart_during_load,
    a_restart_that_loses_nothing,
    a_server_that_is_gone,
    no_room_for_a_body,
    an_answer_that_breaks_off,
    backup_by_way_of_nginx,
    closed_to_reports,
    lines_of_the_log,
]
