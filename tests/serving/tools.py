"""The clients that others use: `http.client`, `curl` and `ab`."""

import http.client
import json
import re
import shutil
import subprocess
import tempfile
import time

from cases.replays import A, P, batch, item
from harness.case import MAX_BYTES, padded
from harness.counting import Skipped
from harness.texts import differing
from model.http import answer, error
from serving.http import E1, EMPTY, LOOK, done, look, vehicle
from serving.openapi import NOTED
from serving.server import Server, success_of
from serving.talking import talk_over
from serving.wire import get


SECONDS = 300
"""How long `ab` may take, which takes one or two."""


def installed(name):
    if not shutil.which(name):
        raise Skipped(f"no `{name}` here")


def body_of(answered):
    return answered.partition(b"\r\n\r\n")[2]


def noted(method, target, answered):
    """The answer to such a request, which is noted."""
    NOTED.note(f"{method} {target} HTTP/1.1".encode(), answered)
    return answered


def as_it_came(found, body):
    """The bytes of an answer that `http.client` took apart."""
    lines = [f"HTTP/1.1 {found.status} {found.reason}", *(f"{name}: {value}" for name, value in found.getheaders())]
    return "\r\n".join([*lines, "", ""]).encode() + body


def by_http_client(program):
    """Python's `http.client`: each route, and answers to what it isn't allowed to do. It takes the end of the connection, and
    makes a new one for the next request."""
    text = batch([item()])
    turns = [
        ("POST", "/vehicles", json.dumps(vehicle()), done(1)),
        ("POST", "/events", text, done(1)),
        ("GET", f"/vehicles/{P}/{A}", None, answer(200, LOOK)),
        ("GET", f"/vehicles/{P}/{A}/events", None, answer(200, f'{{"events":[{E1}]}}')),
        ("DELETE", "/events", None, error(405, "method_not_allowed")),
        ("PUT", "/nowhere", "{}", error(404, "not_found")),
        ("POST", "/events", iter([text.encode()]), error(501, "transfer_encoding")),
    ]
    with Server(program, len(turns) + 1) as server:
        client = http.client.HTTPConnection("127.0.0.1", server.port, timeout=60)
        for method, target, body, wanted in turns:
            client.request(method, target, body=body)
            found = client.getresponse()
            status, kind, read = found.status, found.getheader("content-type"), found.read()
            server.count(1, success_of(noted(method, target, as_it_came(found, read))))
            if (status, kind) != (int(wanted[9:12]), "application/json") or not found.will_close:
                yield f"{method} {target}: {status} {kind}"
            yield from differing(read, body_of(wanted), f"{method} {target}")
        client.request("HEAD", "/table")
        found = client.getresponse()
        server.count()
        if (found.status, found.read(), found.getheader("allow")) != (405, b"", "GET"):
            yield f"HEAD /table: {found.status}"
        client.close()
        yield from server.end()


def method_of(words):
    """The method that these words have `curl` use."""
    if "-X" in words:
        return words[words.index("-X") + 1]
    return "POST" if {"-d", "--data-binary"} & set(words) else "GET"


def curled(words, given=b""):
    """What `curl` prints."""
    run = subprocess.run(["curl", "-sS", "-m", "60", *words], input=given, capture_output=True)
    return run.stdout if run.returncode == 0 else f"status {run.returncode}: {run.stderr!r}".encode()


def by_curl(program):
    """`curl`: heads and bodies, a body of the most bytes, with and without `Expect`, from a pipe, and in chunks."""
    installed("curl")
    text = batch([item()])
    largest, more = padded(text, MAX_BYTES).encode(), padded(text, MAX_BYTES + 1).encode()
    again = answer(200, '{"failures":[{"error":"repeated","index":0}],"success":0,"total":1}')
    turns = [
        (["-d", json.dumps(vehicle())], "/vehicles", b"", done(1)),
        (["-d", "@-"], "/events", text.encode(), done(1)),
        (["-d", "[]"], "/events", b"", EMPTY),
        (["--data-binary", "@-"], "/events", largest, again),
        (["--data-binary", "@-", "-H", "Expect:"], "/events", largest, again),
        (["--data-binary", "@-"], "/events", more, error(413, "too_long")),
        (["--data-binary", "@-", "-H", "Expect:"], "/events", more, error(413, "too_long")),
        (["-X", "POST", "-T", "-"], "/events", text.encode(), error(501, "transfer_encoding")),
        (["-X", "DELETE"], "/events", b"", error(405, "method_not_allowed", "POST")),
        (["-0"], f"/vehicles/{P}/{A}", b"", answer(200, LOOK)),
        (["--http2"], f"/vehicles/{P}/{A}", b"", answer(200, LOOK)),
        (["--compressed"], "/table?x", b"", None),
    ]
    with Server(program, len(turns) + 2) as server:
        where = f"http://127.0.0.1:{server.port}"
        for words, target, given, wanted in turns:
            found = curled(["-i", *words, f"{where}{target}"], given)
            server.count(1, success_of(noted(method_of(words), target, found)))
            if wanted is not None:
                yield from differing(found, wanted, f"curl {words} {target}")
        start = time.monotonic()
        found = curled(["-H", "Expect: 100-continue", "-d", text, f"{where}/events"])
        server.count()
        yield from differing(found, body_of(again), "with Expect")
        if not 0.8 < time.monotonic() - start < 30:
            yield f"with Expect: {time.monotonic() - start:.1f} s"
        yield from talk_over(server, look(A, "available", 1, 1000))
        yield from server.end()


def by_ab(program):
    """`ab`: looks and events, eight at a time. Where connections take a while to be made, `ab` makes some more than it was told
    to, up to seven, and leaves them."""
    installed("ab")
    with Server(program, 1004, workers=4) as server, tempfile.NamedTemporaryFile() as body:
        body.write(json.dumps(vehicle()).encode())
        body.flush()
        where = f"http://127.0.0.1:{server.port}"
        posted = ["-l", "-T", "application/json", "-p", body.name, f"{where}/vehicles"]
        for words in ([f"{where}/table"], posted):
            words = ["ab", "-q", "-n", "2000", "-c", "8", *words]
            run = subprocess.run(words, capture_output=True, text=True, timeout=SECONDS)
            server.count(2000, 1 if "-p" in words else 0)
            done_by = re.search(r"Complete requests:\s+2000\b", run.stdout)
            failed = re.search(r"Failed requests:\s+0\b", run.stdout)
            if run.returncode or not done_by or not failed or "Non-2xx" in run.stdout:
                yield run.stdout + run.stderr
        yield from asked_to_its_end(server, 2 * 7)


def asked_to_its_end(server, most):
    """Makes the connections that are left, and says what is wrong with how the server then ends. At most so many of them were
    made by others, so that it ends before."""
    try:
        while server.left:
            server.ask(get("/"))
    except OSError:
        if server.left > most:
            yield f"{server.left} connections weren't made"
        server.left = 0
    yield from server.end()


TOOLS = [by_http_client, by_curl, by_ab]
