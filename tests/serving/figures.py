"""The port of figures: what it counts, whether the server is ready, and clients that are slow there."""

import re
import resource
import shutil
import socket
import subprocess
import tempfile
import threading
import time
from pathlib import Path

from cases.replays import A, B, P, batch, event
from cases.vehicles import ROOM, checked, group, journal, registered
from crashing.files import LINE_FEED, counted, listed_by
from crashing.recording import SYNC, WRITE, Recording
from crashing.reports import NOT_KEPT, device_at, listing, looking, registering, reporting
from crashing.resting import begins_to_write
from harness.counting import Skipped
from model.http import answer, error
from serving.connections import SMALL_ROOM, long_list
from serving.http import C, vehicle
from serving.server import NotListening, Server, numbered_port
from serving.wire import SECONDS, ask, close, connect, get, hang_up, post

METRICS, READY = get("/metrics"), get("/ready")
SERIES = re.compile(r"([a-z_]+(?:\{[^}]*\})?) ([0-9]+(?:\.[0-9]{6})?)")
LIST = get(f"/vehicles/{P}/{A}/events")
REQUESTS, ANSWERS, HTTP_FAULTS = "mds_city_requests_total", "mds_city_http_responses_total", "mds_city_http_faults_total"
WAITING_TO_COME, LEAVING, LEAVING_BYTES = "mds_city_waiting_connections", "mds_city_leaving_answers", "mds_city_leaving_answer_bytes"
DROPPED = "mds_city_dropped_connections_total"
DROPPED_FOR_ROOM = f'{DROPPED}{{reason="room"}}'
SYNCS = "mds_city_journal_sync_seconds"
SYNC_BUCKET = re.compile(SYNCS + r'_bucket\{le="([0-9.]+)"\}')
KEPT_AGAIN = "mds_city: journal not kept\nmds_city: journal kept again\n"
SLOW_CLIENTS = 200
SOON = 5
"""Seconds in which an answer comes of a port that no client holds up."""
PAUSE = 2.0
"""Seconds that a sync takes that is slow."""
A_WHILE, GROUPS = 0.03, 5
"""The same of one that takes a while, and of how many groups the syncs do."""
A_LITTLE = 0.001
"""Seconds by which a sum of times may differ."""
PART = 5
"""How many bytes come of a request that isn't whole."""
LATE = 20
"""Seconds in which a client is let go whose head doesn't come, on a machine that is busy with other tests."""
FLEET = [registered(device_at(number)) for number in range(2000)]
"""Registrations that a start reads in several pieces."""
TORN = "#" + "\n {" * 50_000
"""What a crash may leave behind the lines, of several pieces too."""
OF_VERSION_1 = [journal(*FLEET[:count], end=end) for count in (0, 1, 2000) for end in ("", "#", "#" + ROOM, TORN)]
OF_VERSION_2 = [
    checked(*groups, end=end)
    for groups in ((), (FLEET[:2],), (FLEET[:1999], FLEET[1999:]))
    for end in ("", "#", "#" + ROOM, TORN, "#" + group(registered(B))[1:] + TORN)
]
REFUSED = checked(FLEET, end="#" + group(FLEET[0])[1:] + "#")
"""Behind the lines stands a group that isn't accepted. So a start reads the file twice."""
READY_ANSWER = answer(200, {})
NOT_READY = re.compile(rb'HTTP/1\.1 503 Service Unavailable\r\n(?:.*\r\n)*\r\n\{"read":([0-9]+),"of":([0-9]+)\}')
NOT_FOUND = error(404, "not_found")


def told_at(port, request):
    """What is answered at the port of figures, of which openapi.json says nothing."""
    with socket.create_connection(("127.0.0.1", port), timeout=SECONDS) as connection:
        connection.sendall(request)
        pieces = []
        while piece := connection.recv(1 << 16):
            pieces.append(piece)
    return b"".join(pieces)


def figures_at(port):
    """The series that are told, by their names and labels."""
    answered = told_at(port, METRICS).decode()
    head, _, text = answered.partition("\r\n\r\n")
    wanted = f"HTTP/1.1 200 OK\r\ncontent-type: text/plain; version=0.0.4; charset=utf-8\r\ncontent-length: {len(text)}"
    if head != wanted + "\r\nconnection: close":
        raise AssertionError(f"the head {head!r}")
    series = {}
    for line in text.splitlines():
        if not line.startswith("#"):
            name, value = SERIES.fullmatch(line).groups() if SERIES.fullmatch(line) else (line.split(" ")[0], "1")
            series[name] = float(value)
    return series


def awaited(port, wanted, seconds=20):
    """The figures, once all of these are told, or after so many seconds."""
    ends = time.monotonic() + seconds
    while True:
        found = figures_at(port)
        if all(found.get(name) == value for name, value in wanted.items()) or time.monotonic() > ends:
            return found
        time.sleep(0.05)


def differing(found, wanted, what):
    """Which of these figures aren't as wanted."""
    for name, value in wanted.items():
        if found.get(name) != value:
            yield f"{what}: {name} is {found.get(name)}, in place of {value}"


def of_kind(kind, **outcomes):
    return {f'{REQUESTS}{{kind="{kind}",outcome="{outcome}"}}': count for outcome, count in outcomes.items()}


def all_of(found, family):
    return sum(value for name, value in found.items() if name.startswith(family + "{"))


TALK = [
    post("/vehicles", [vehicle(A), vehicle(B), vehicle(A), 7, {"provider_id": P}, {"provider_id": P, "device_id": 1}]),
    post("/events", batch([event(A, 1, "provider_drop_off", "available", 1000)])),
    post("/events", "[" + ",".join(12 * ["7"]) + "]"),
    get(f"/vehicles/{P}/{A}"),
    get(f"/vehicles/{P}/{A}"),
    get(f"/vehicles/{P}/{C}"),
    get(f"/vehicles/{P}/{A}/events"),
    get(f"/vehicles/{P}/{C}/events"),
    get("/table"),
    get("/nowhere"),
    post("/table", "[]"),
    post("/events", "{"),
    post("/events", "7"),
    b"POST /events HTTP/1.1\r\n\r\n",
    b"POST /events HTTP/1.1\r\ncontent-length: x\r\n\r\n",
    b"POST /events HTTP/1.1\r\ncontent-length: 4194305\r\n\r\n",
    b"POST /events HTTP/1.1\r\ntransfer-encoding: chunked\r\n\r\n",
]
WANTED = {
    **of_kind("registration", done=2, already_registered=1, not_object=1, missing_param=1, bad_param=1, not_kept=0),
    **of_kind("event", done=1, not_object=12, repeated=0, late=0, no_chain=0, unregistered=0),
    **of_kind("look", seen=2, unregistered=1),
    **of_kind("list", seen=1, unregistered=1),
    **{f'{ANSWERS}{{status="{status}"}}': count for status, count in
       {200: 7, 404: 3, 405: 1, 400: 3, 411: 1, 413: 1, 501: 1, 503: 0}.items()},
    **{f'{HTTP_FAULTS}{{fault="{fault}"}}': count for fault, count in
       {"not_found": 1, "method_not_allowed": 1, "not_json": 1, "not_list": 1, "length_required": 1, "bad_length": 1,
        "too_long": 1, "transfer_encoding": 1, "bad_head": 0, "cut_short": 0, "too_many": 0}.items()},
    'mds_city_batch_items_bucket{le="1"}': 1,
    'mds_city_batch_items_bucket{le="10"}': 2,
    'mds_city_batch_items_bucket{le="100"}': 3,
    'mds_city_batch_items_bucket{le="+Inf"}': 3,
    "mds_city_batch_items_sum": 19,
    "mds_city_batch_items_count": 3,
    "mds_city_held_vehicles": 2,
    "mds_city_held_requests": 3,
    "mds_city_newest_event_timestamp_seconds": 1,
}


def refused_events():
    """Events of which each is refused by another reason, and the figures of them."""
    events = [
        event(A, 1, "provider_drop_off", "available", 1000),
        event(A, 2, "trip_start", "on_trip", 999),
        event(A, 3, "trip_end", "removed", 2000),
        event(C, 4, "provider_drop_off", "available", 1000),
    ]
    return post("/events", batch(events)), of_kind("event", done=1, repeated=1, late=1, no_chain=1, unregistered=1)


def counts_of_a_known_run(program):
    """What is counted is what the answers say; asking for figures counts nowhere."""
    port = numbered_port()
    with Server(program, None, workers=3, metrics=port) as server:
        begun = figures_at(port)
        if all_of(begun, REQUESTS) or all_of(begun, ANSWERS):
            yield "something is counted before anything is asked"
        for request in TALK:
            ask(server.port, request)
        found = figures_at(port)
        yield from differing(found, WANTED, "after the talk")
        if all_of(found, ANSWERS) != len(TALK):
            yield f"{all_of(found, ANSWERS)} answers in place of {len(TALK)}"
        request, wanted = refused_events()
        ask(server.port, request)
        yield from differing(figures_at(port), wanted, "after refusals")
        if found.get('mds_city_journal_lines') is not None:
            yield "without a journal its lines are told"
        for name in ("process_resident_memory_bytes", "process_virtual_memory_bytes", "process_threads"):
            if not found.get(name):
                yield f"{name} is {found.get(name)}"
        if abs(found["process_start_time_seconds"] - time.time()) > 600:
            yield f"it started at {found['process_start_time_seconds']}"


def counts_where_a_client_goes(program):
    """What was asked counts where its client goes before it read the answer."""
    port, count = numbered_port(), 50
    with Server(program, None, workers=2, metrics=port) as server:
        ask(server.port, registering(*(device_at(number) for number in range(count))))
        for number in range(count):
            hang_up(server.port, reporting(device_at(number), 0, 1), reset=number % 2 == 0)
        wanted = {**of_kind("event", done=count), "mds_city_held_requests": 2 * count}
        yield from differing(awaited(port, wanted), wanted, "after clients went")


def waits(coming, leaving=0, late=0):
    """The figures of so many clients whose requests aren't whole, or whose answers leave, and that were let go since they were late."""
    return {
        WAITING_TO_COME: coming,
        "mds_city_waiting_request_bytes": PART * coming,
        LEAVING: leaving,
        **({} if leaving else {LEAVING_BYTES: 0}),
        f'{DROPPED}{{reason="late"}}': late,
        DROPPED_FOR_ROOM: 0,
    }


def taken_by_the_system(port):
    """How many bytes of answers of this port left the server and aren't read, by the system's list."""
    count = 0
    for line in Path("/proc/net/tcp").read_text().splitlines()[1:]:
        _, here, there, _, queues, *_ = line.split()
        leaves, came = (int(number, 16) for number in queues.split(":"))
        ports = [int(it.partition(":")[2], 16) for it in (here, there)]
        count += (leaves if ports[0] == port else 0) + (came if ports[1] == port else 0)
    return count


def counts_who_waits_and_who_is_let_go(program):
    """A client whose request comes, and one whose answer leaves, count while they do, and so no more once they went; one that is let
    go since it is late counts as that."""
    port = numbered_port()
    with Server(program, None, workers=1, metrics=port) as server:
        yield from long_list(server, A)
        size = len(ask(server.port, LIST))
        silent, going = connect(server.port), connect(server.port)
        taking = connect(server.port, room=SMALL_ROOM)
        for client in (silent, going):
            client.sendall(METRICS[:PART])
        taking.sendall(LIST)
        wanted = waits(coming=2, leaving=1)
        found = awaited(port, wanted)
        yield from differing(found, wanted, "beside three clients")
        least = size - taken_by_the_system(server.port)
        if not 0 < least <= found[LEAVING_BYTES] <= size:
            yield f"of an answer of {size} bytes, {least} of which are to leave, {found[LEAVING_BYTES]} are told"
        for client in (going, taking):
            close(client, reset=True)
        for what, wanted in (("beside one", waits(coming=1)), ("once it is late", waits(coming=0, late=1))):
            yield from differing(awaited(port, wanted, LATE), wanted, what)
        close(silent, reset=False)


def figures_beside_slow_clients(program):
    """Clients that are slow at the port of figures hinder neither those that aren't, nor those of the other port."""
    port = numbered_port()
    with Server(program, None, workers=1, metrics=port) as server:
        slow = [connect(port) for _ in range(SLOW_CLIENTS)]
        for number, client in enumerate(slow):
            client.sendall(METRICS[: number % len(METRICS)])
        for what, where, request in (("figures", port, METRICS), ("readiness", port, READY), ("the table", server.port, get("/table"))):
            begun = time.monotonic()
            if not told_at(where, request).startswith(b"HTTP/1.1 200 OK\r\n"):
                yield f"{what} beside slow clients"
            if time.monotonic() - begun > SOON:
                yield f"{what} beside slow clients took {time.monotonic() - begun} s"
        for client in slow:
            close(client, reset=True)


def figures_while_all_workers_wait(program):
    """Figures are told while each worker waits for the disk: no worker tells them."""
    port = numbered_port()
    with tempfile.TemporaryDirectory() as folder:
        path = Path(folder, "journal")
        with Recording(path) as recording, Server(
            program, None, workers=1, journal=path, env=recording.env, metrics=port
        ) as server:
            recording.set(pause=int(PAUSE * 1000000))
            before = recording.number("writes")
            client = threading.Thread(target=ask, args=(server.port, registering(device_at(1))))
            client.start()
            begins_to_write(recording, before)
            begun = time.monotonic()
            told_at(port, METRICS)
            if time.monotonic() - begun > PAUSE / 2:
                yield f"figures took {time.monotonic() - begun} s beside a worker that waits for the disk"
            client.join()
            recording.set(pause=0)
            wanted = {"mds_city_journal_lines": 4, "mds_city_journal_groups_total": 2}
            found = awaited(port, wanted)
            yield from differing(found, wanted, "with a journal")
            if found["mds_city_journal_bytes"] != len(path.read_bytes().rstrip(b"\n")):
                yield f"the journal has {found['mds_city_journal_bytes']} bytes"
            if found[f'{SYNCS}_bucket{{le="1"}}'] >= found[f"{SYNCS}_count"]:
                yield "a slow sync isn't told"


def counts_each_sync(program):
    """Each sync counts, of a group's lines and of its gate: once, among those that took as long, and with its seconds."""
    port = numbered_port()
    with tempfile.TemporaryDirectory() as folder:
        path = Path(folder, "journal")
        with Recording(path) as recording, Server(
            program, None, workers=1, journal=path, env=recording.env, metrics=port
        ) as server:
            yield from syncs_amiss(server, port, recording)


def syncs_amiss(server, port, recording):
    """What is wrong with what is counted of the syncs of some groups, each of which takes a while."""
    recording.set(pause=int(A_WHILE * 1000000))
    before, synced, begun = figures_at(port), recording.number("syncs"), time.monotonic()
    for number in range(GROUPS):
        ask(server.port, registering(device_at(number)))
    passed, count = time.monotonic() - begun, recording.number("syncs") - synced
    more = {name: value - before[name] for name, value in figures_at(port).items() if name.startswith(SYNCS)}
    yield from differing(more, {f"{SYNCS}_count": count, f'{SYNCS}_bucket{{le="+Inf"}}': count}, "behind slow syncs")
    if count != 2 * GROUPS:
        yield f"{count} syncs of {GROUPS} groups"
    if not count * A_WHILE - A_LITTLE <= more[f"{SYNCS}_sum"] <= passed + A_LITTLE:
        yield f"{count} syncs of {A_WHILE} s took {more[f'{SYNCS}_sum']} s, of {passed} s that passed"
    for most, to_there in [(float(it.group(1)), more[it.group()]) for it in map(SYNC_BUCKET.fullmatch, more) if it]:
        if most < A_WHILE and to_there or (count - to_there) * most > passed:
            yield f"of {count} syncs of {A_WHILE} s, in {passed} s, {to_there} took {most} s at most"


SOFT = 8 << 30
"""Bytes of addresses, by a limit that the process may raise."""


def the_limit_in_force(program):
    """Of the limit of addresses it is told what counts: the soft one (getrlimit(2))."""
    port = numbered_port()
    with Server(program, None, metrics=port) as server:
        _, hard = resource.prlimit(server.child.pid, resource.RLIMIT_AS)
        resource.prlimit(server.child.pid, resource.RLIMIT_AS, (SOFT, hard))
        yield from differing(figures_at(port), {"process_virtual_memory_max_bytes": SOFT}, "under a soft limit")


def ready_once_it_listens(program):
    """While its journal is opened the server isn't ready, and says so; then it is, and tells what it held."""
    port = numbered_port()
    with tempfile.TemporaryDirectory() as folder:
        path = Path(folder, "journal")
        with Server(program, None, workers=2, journal=path) as server:
            ask(server.port, registering(device_at(1), device_at(2)))
            ask(server.port, reporting(device_at(1), 0, 5))
        with Recording(path, pause=int(PAUSE * 1000000)) as recording:
            starting = Server(program, None, workers=2, journal=path, env=recording.env, metrics=port)
            yield from amiss_while_it_reads(port, path.stat().st_size)
            recording.set(pause=0)
            with starting:
                if told_at(port, READY) != READY_ANSWER:
                    yield f"once it listens: {told_at(port, READY)!r}"
                if told_at(port, get("/nowhere")) != NOT_FOUND or told_at(port, post("/metrics", "{}")) != NOT_FOUND:
                    yield "something else isn't refused"
                wanted = {"mds_city_held_vehicles": 2, "mds_city_held_requests": 7, "mds_city_journal_lines": 11,
                          "mds_city_newest_event_timestamp_seconds": 1.004, **of_kind("event", done=0)}
                yield from differing(figures_at(port), wanted, "over a journal")
                ask(starting.port, reporting(device_at(2), 0, 1))
                wanted = {"mds_city_newest_event_timestamp_seconds": 1.004, **of_kind("event", done=1)}
                yield from differing(figures_at(port), wanted, "behind an older event of another vehicle")


def amiss_while_it_reads(port, size):
    """What is wrong with what a server answers that reads a journal of so many bytes, until it has read some of them, and not all: how
    many it read, of how many, which it doesn't know at first."""
    read, of = 0, 0
    while not 0 < read < of:
        early = answer_once_there(port)
        told, before = NOT_READY.fullmatch(early), read
        read, of = map(int, told.groups()) if told else (0, 0)
        if not told or of not in (0, size) or not before <= read <= of:
            yield f"before it listens, of {size} bytes, behind {before}: {early!r}"
            return
        time.sleep(0.02)


def lines_amiss(program, port, path, what):
    """What is wrong with how many lines a server tells that its journal has: those that count, as `vehicles --check` tells, too."""
    count = counted(path.read_bytes()).count(LINE_FEED)
    yield from differing(figures_at(port), {"mds_city_journal_lines": count}, what)
    status, out, faults = listed_by(program, path, "--check")
    if status or faults or f"\nlines {count} groups " not in f"\n{out}":
        yield f"{what}: of {count} lines `vehicles --check` said {(status, out[-100:], faults)}"


def lines_of_the_journal(program):
    """How many lines the journal has is told of a new one and of either version, whatever stands behind the lines at a start, and then
    behind each group."""
    port = numbered_port()
    for content in (None, *OF_VERSION_1, *OF_VERSION_2, REFUSED):
        with tempfile.TemporaryDirectory() as folder:
            path = Path(folder, "journal")
            if content is not None:
                path.write_text(content)
            front = counted((content or "").encode())
            what = f"over {front.count(LINE_FEED)} lines of {front[:34]!r} and {(content or '')[len(front):][:150]!r}"
            with Server(program, None, workers=2, journal=path, metrics=port) as server:
                yield from lines_amiss(program, port, path, f"{what}, at its start")
                for request in (registering(A, C), reporting(A, 0, 5), registering(device_at(9000))):
                    ask(server.port, request)
                    yield from lines_amiss(program, port, path, f"{what}, behind {request[-100:]!r}")


def answer_once_there(port, seconds=20):
    """What is answered to a question whether it is ready, as soon as anything is."""
    ends = time.monotonic() + seconds
    while True:
        try:
            return told_at(port, READY)
        except ConnectionRefusedError:
            if time.monotonic() > ends:
                raise
            time.sleep(0.02)


def not_ready_while_nothing_is_kept(program):
    """While what is asked can't be recorded, the server says so, and on standard error when that begins and ends."""
    port = numbered_port()
    with tempfile.TemporaryDirectory() as folder:
        path = Path(folder, "journal")
        with Recording(path) as recording, Server(
            program, None, workers=2, journal=path, env=recording.env, metrics=port
        ) as server:
            ask(server.port, registering(device_at(1), device_at(2)))
            for turn in range(2):
                recording.fail(WRITE, many=1000)
                for _ in range(3):
                    if ask(server.port, reporting(device_at(1), 5 * turn, 5 * turn + 5)) != answer(503, NOT_KEPT):
                        yield "what can't be written is answered otherwise"
                if told_at(port, READY) != answer(503, NOT_KEPT):
                    yield f"while nothing is kept: {told_at(port, READY)!r}"
                if ask(server.port, registering(device_at(3 + turn))) != answer(503, NOT_KEPT):
                    yield "a registration that can't be written is answered otherwise"
                if ask(server.port, looking(device_at(2)))[:15] != b"HTTP/1.1 200 OK":
                    yield "a look that rests on nothing new isn't answered"
                if told_at(port, READY) != answer(503, NOT_KEPT):
                    yield "after a look that rests on nothing new it is ready"
                recording.set(failing=0)
                ask(server.port, listing(device_at(1)))
                if told_at(port, READY) != READY_ANSWER:
                    yield f"once all is kept: {told_at(port, READY)!r}"
            wanted = {**of_kind("event", not_kept=30, done=0), **of_kind("registration", not_kept=2, done=2),
                      "mds_city_journal_not_kept": 0, "mds_city_held_requests": 14, 'mds_city_http_responses_total{status="503"}': 8}
            yield from differing(figures_at(port), wanted, "once all is kept")
            told = Path(server.folder.name, "faults").read_text()
            if told != 2 * KEPT_AGAIN:
                yield f"it told {told!r}"


def figures_as_promtool_takes_them(program):
    """Prometheus' own check of the text."""
    promtool = shutil.which("promtool")
    if not promtool:
        raise Skipped("promtool isn't installed")
    port = numbered_port()
    with tempfile.TemporaryDirectory() as folder:
        with Server(program, None, journal=Path(folder, "journal"), metrics=port) as server:
            for request in TALK:
                ask(server.port, request)
            text = told_at(port, METRICS).partition(b"\r\n\r\n")[2]
    checked = subprocess.run([promtool, "check", "metrics"], input=text, capture_output=True)
    if checked.returncode or checked.stdout or checked.stderr:
        yield f"promtool: status {checked.returncode}, {checked.stdout.decode()}{checked.stderr.decode()}"


def a_port_that_is_taken(program):
    """A port that another has is told as the other port is."""
    with Server(program, None) as server:
        try:
            with Server(program, None, metrics=server.port):
                yield "it listens for figures at a port that is taken"
        except NotListening as fault:
            if fault.ended != (3, "", "mds_city: socket\n"):
                yield f"ended with {fault.ended}"


FIGURES = [
    counts_of_a_known_run,
    counts_where_a_client_goes,
    figures_beside_slow_clients,
    figures_while_all_workers_wait,
    counts_each_sync,
    the_limit_in_force,
    ready_once_it_listens,
    lines_of_the_journal,
    not_ready_while_nothing_is_kept,
    figures_as_promtool_takes_them,
    a_port_that_is_taken,
]
LATE_FIGURES = [counts_who_waits_and_who_is_let_go]
"""Those that wait more than they work."""
