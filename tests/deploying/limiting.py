"""What nginx lets each token ask at once and in a second, and what haproxy tells of itself."""

import contextlib
import re
import threading
import time
import urllib.request

from deploying.passing import are_open, fill_shared, path_of, sent
from deploying.proxies import CITY, LONG_REPORTS, PROVIDERS, REPORTS, SECONDS, TOKENS, changed, read_answer
from harness.counting import ROOT, Unwell
from harness.stalls import stalled, watch

REPORTS_BURST, LONG_BURST = 100, 10
"""How many reports, and how many long ones, may wait their turn, by nginx.conf."""
FLOOD, LONG_FLOOD = 200, 24
"""How many of each come at once."""
SHORT, LONG = 99999, 100000
"""The most bytes of a body that isn't long, and the fewest of one that is."""
PACE = 0.15
"""How many seconds lie between the requests of those who don't flood: fewer than ten a second."""
FEW_AT_ONCE = {
    "limit_conn reports_at_once 128;": "limit_conn reports_at_once 4;",
    "limit_conn looks_at_once 128;": "limit_conn looks_at_once 4;",
}
FEW_A_SECOND = {
    "zone=looks:1m rate=1000r/s;": "zone=looks:1m rate=1r/s;",
    "limit_req zone=looks burst=200 delay=100;": "limit_req zone=looks burst=4 delay=4;",
}
"""Limits that a few clients reach."""
LOOKS, LATE = 12, 60
"""How many looks come at once, and for how many seconds an answer of another status is waited for."""
ROWS = {
    "reports": r"\[reports of a token\]\(#what-a-token-may-ask\)",
    "long_reports": "its reports of 100,000 bytes or more, or in chunks",
    "looks": "its looks and lists",
}
ROWS_AT_ONCE = {"reports_at_once": "its reports under way", "looks_at_once": "its looks and lists under way"}
"""The rows of docs/operations.md with the limits of each zone of nginx.conf."""
OF_HAPROXY = {"timeout queue": "waiting for a worker", "timeout server": "an answer of the server"}
PAUSE = "a pause within a body, or of a client that doesn't read"
OF_NGINX = {"client_header_timeout": "a whole head", "client_body_timeout": PAUSE, "send_timeout": PAUSE}
"""Those with seconds that a proxy waits."""
REFUSED = '{"error":"too_many_requests"}'
FIGURE = re.compile(r"haproxy_server_http_responses_total\{(.*)\} ([0-9]+)")


def limits_as_told(_):
    """docs/operations.md has the figures of nginx.conf. The first half of those that wait goes on at once."""
    text, rows = changed("nginx.conf", {}), (ROOT / "docs/operations.md").read_text()
    for zone, row in ROWS.items():
        rate = re.search(rf"zone={zone}:1m rate=([0-9]+)r/s;", text).group(1)
        found = re.findall(rf"limit_req zone={zone} burst=([0-9]+) delay=([0-9]+);", text)
        told = re.findall(rf"^\| {row} \| {rate} a second, ([0-9]+) that wait \|", rows, re.MULTILINE)
        if set(found) != {(burst, str(int(burst) // 2)) for burst in told} or len(told) != 1:
            yield f"{zone}: {rate} a second, {found}, in place of {told}"
    for zone, row in ROWS_AT_ONCE.items():
        found = re.findall(rf"limit_conn {zone} ([0-9]+);", text)
        told = re.findall(rf"^\| {row} \| ([0-9]+) \|", rows, re.MULTILINE)
        if set(found) != set(told) or len(told) != 1:
            yield f"{zone}: {found}, in place of {told}"


def seconds_of(word, name):
    """The seconds that a file of deploy/ has for a word."""
    (found,) = re.findall(rf"^ *{word} ([0-9]+)s;?$", changed(name, {}), re.MULTILINE)
    return int(found)


def seconds_as_told(_):
    """docs/operations.md has the seconds that the proxies wait. nginx waits longer than haproxy does for a worker and for an answer:
    else it would send a request again of which the first still waits."""
    text = (ROOT / "docs/operations.md").read_text()
    for names, rows in ((("haproxy.cfg", "kubernetes.yml"), OF_HAPROXY), (("nginx.conf",), OF_NGINX)):
        for name, word in ((name, word) for name in names for word in rows):
            if f"| {rows[word]} | {seconds_of(word, name)} seconds" not in text:
                yield f"{name}, {word}: {seconds_of(word, name)}"
    if seconds_of("proxy_read_timeout", "nginx.conf") <= sum(seconds_of(word, "haproxy.cfg") for word in OF_HAPROXY):
        yield "nginx asks again before haproxy gives up"


def padded(length):
    """A batch of nothing, of so many bytes."""
    return b"[" + b" " * (length - 2) + b"]"


def ask_at_once(city, requests, told=lambda: None):
    """Sends each of these requests on a connection of its own, all of them at once, and tells that. Answers how each was
    answered: its status, its head, its body; and for how many seconds all were sent, and waited for."""
    with contextlib.ExitStack() as open_ones:
        connections = [open_ones.enter_context(city.connect()) for _ in requests]
        start = time.monotonic()
        for connection, request in zip(connections, requests):
            connection.sendall(request)
        sending = time.monotonic() - start
        told()
        answers = [read_answer(connection) for connection in connections]
        return answers, sending, time.monotonic() - start


def refused(what, answers, least, most):
    """What is wrong with how requests were answered of which from so many to so many had to be refused."""
    told = [(head, body) for status, head, body in answers if status == 429]
    others = {status for status, _, _ in answers} - {200, 429}
    if others or not least <= len(told) <= most:
        yield f"{what}: {len(told)} of {len(answers)} are 429, in place of {least} to {most}; others are {others}"
    for head, body in told:
        if body != REFUSED or "retry-after: 1" not in head.lower():
            yield f"{what}: 429 {head!r} {body!r}"


def flooded(what, rate, burst, answers, sending):
    """What is wrong with how a flood was answered that took some seconds to send. As many pass as the burst has, one more, and
    those that the rate let go on meanwhile; nginx may be a second behind."""
    most = len(answers) - burst - 1
    return refused(what, answers, max(most - int(rate * (sending + 1)) - 1, 1), most)


def lines_of_refused(city):
    """How many lines of the log tell of a request that was refused as one too many."""
    return (city.folder / "mds_city.log").read_text().count('"status":429')


class Beside(threading.Thread):
    """Another provider, and the city, who ask now and then until it is over."""

    def __init__(self, city):
        super().__init__()
        looks = [sent("GET", "/table", CITY), sent("GET", "/table", TOKENS[3])]
        self.city, self.requests = city, [sent("POST", "/events", TOKENS[3], b"[]"), *looks]
        self.over, self.waited, self.wrong = threading.Event(), [], []
        watch()

    def run(self):
        while not self.over.wait(PACE) and not self.wrong:
            for request in self.requests:
                start = time.monotonic()
                status, _, body = self.city.ask(request)
                self.waited.append(time.monotonic() - start - stalled(start))
                if status != 200:
                    self.wrong.append(f"beside a flood, {request[:20]!r}: {status} {body}")

    def __enter__(self):
        self.start()
        return self

    def __exit__(self, *_):
        self.over.set()
        self.join()


class Flood(threading.Thread):
    """Requests that come at once, and how they are answered."""

    def __init__(self, city, requests):
        super().__init__()
        self.city, self.requests, self.sent, self.found = city, requests, threading.Event(), None

    def run(self):
        self.found = ask_at_once(self.city, self.requests, self.sent.set)


def floods_of_reports(city):
    """One token reports more than ten times a second, and another sends longer bodies than one a second. What is too much for
    their bursts is 429, and the others, who ask as often as they may, are answered all the while. They wait for less than half
    as long as those who flood. The log has few lines of what was refused."""
    city.reload(city.nginx(is_limited=True))
    before = lines_of_refused(city)
    in_chunks = sent("POST", "/events", TOKENS[2], b"2\r\n[]\r\n0\r\n\r\n", ["Transfer-Encoding: chunked"])
    longest = [sent("POST", "/events", TOKENS[2], padded(LONG)), in_chunks] * (LONG_FLOOD // 2)
    floods = [Flood(city, [sent("POST", "/events", TOKENS[1], b"[]")] * FLOOD), Flood(city, longest)]
    with Beside(city) as beside:
        for flood in floods:
            flood.start()
        for flood in floods:
            flood.join()
    yield from beside.wrong
    for flood, rate, burst in zip(floods, (REPORTS, LONG_REPORTS), (REPORTS_BURST, LONG_BURST)):
        answers, sending, waited = flood.found
        yield from flooded(f"{rate} a second", rate, burst, answers, sending)
        if not beside.waited or max(beside.waited) > waited / 2:
            yield f"others waited for {beside.waited}, those who flood for {waited}"
    told = sum(status == 429 for flood in floods for status, _, _ in flood.found[0])
    if lines_of_refused(city) - before > told / 4:
        yield f"the log has {lines_of_refused(city) - before} lines of {told} refused"
    short = sent("POST", "/events", TOKENS[2], padded(SHORT))
    yield from refused("bodies that aren't long", ask_at_once(city, [short] * (LONG_BURST + 2))[0], 0, 0)


def few_at_once(city):
    """A token may have only so many reports under way, and only so many looks. Neither takes from the other, nor from another
    token. Where one of them ends there is room for the next."""
    yield from fill_shared(city)
    city.reload(city.nginx(**FEW_AT_ONCE))
    report = lambda token: sent("POST", "/events", TOKENS[token], b"[]")
    look = lambda token: sent("GET", path_of(PROVIDERS[token - 1]), TOKENS[token])
    with contextlib.ExitStack() as open_ones:
        slow = [open_ones.enter_context(city.connect()) for _ in range(4)]
        for connection in slow:
            connection.sendall(report(1)[:-1])
        fourth = wait_for(lambda: city.ask(report(1)), 429)
        yield from refused("a fifth report", [fourth], 1, 1)
        yield from refused("another's report, and a look", [city.ask(report(2)), city.ask(look(1))], 0, 0)
        if are_open(slow) != len(slow):
            yield "a slow client was let go"
    wait_for(lambda: city.ask(report(1)), 200)
    yield from looks_under_way(city)


def looks_under_way(city):
    """Where a provider's server is gone, its looks wait for it: of five at once one is refused, and none of another's."""
    server = city.servers[2]
    server.child.terminate()
    server.child.wait(SECONDS)
    flood = Flood(city, [sent("GET", "/table", TOKENS[3])] * 5)
    flood.start()
    flood.sent.wait(SECONDS)
    yield from refused("the city's look", [city.ask(sent("GET", "/table", CITY))], 0, 0)
    server.__exit__()
    city.servers[2] = city.server(2)
    flood.join()
    yield from refused("five looks", [it for it in flood.found[0] if it[0] != 503], 1, 1)


def a_flood_of_looks(city):
    """A token that looks more often than it may is refused past its burst. It may report meanwhile, and the city may look."""
    city.reload(city.nginx(**FEW_A_SECOND))
    answers, sending, _ = ask_at_once(city, [sent("GET", "/table", TOKENS[2])] * LOOKS)
    yield from flooded("looks", 1, 4, answers, sending)
    beside = [sent("POST", "/events", TOKENS[2], b"[]"), sent("GET", "/table", CITY)]
    yield from refused("beside looks", [city.ask(request) for request in beside], 0, 0)


def wait_for(ask, status):
    """The first answer that has this status; it is there soon."""
    end = time.monotonic() + LATE
    while time.monotonic() < end:
        answered = ask()
        if answered[0] == status:
            return answered
        time.sleep(0.05)
    raise Unwell(f"no answer is {status}, the last is {answered}")


def answered_by(text):
    """How many answers of status 2xx each server gave, by what haproxy tells to Prometheus."""
    for labels, count in FIGURE.findall(text):
        if 'code="2xx"' in labels:
            yield re.search(r'proxy="([a-z]+)"', labels).group(1), int(count)


def figures_of_haproxy(city):
    """haproxy tells of each instance what it was answered, one more of the one that was asked; and has a page of this."""
    city.reload(city.nginx())
    url = f"http://127.0.0.1:{city.figures}/"
    read = lambda path: urllib.request.urlopen(url + path, timeout=SECONDS).read().decode()
    before = dict(answered_by(read("metrics")))
    yield from refused("a look", [city.ask(sent("GET", "/table", TOKENS[2]))], 0, 0)
    after = dict(answered_by(read("metrics")))
    if after != {**before, "two": before.get("two", 0) + 1}:
        yield f"before a look {before}, behind it {after}"
    if "Statistics Report" not in read(""):
        yield "there is no page of figures"


LIMITS = [limits_as_told, seconds_as_told]
LIMITING = [floods_of_reports, few_at_once, a_flood_of_looks, figures_of_haproxy]
