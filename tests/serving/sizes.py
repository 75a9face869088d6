"""Numbers past those at which something could end: connections of a worker, accepted calls of a seat, bytes of an answer, and
bytes of memory."""

import os
import struct
import subprocess
import tempfile
from concurrent.futures import ThreadPoolExecutor
from itertools import islice, product
from pathlib import Path

from cases.largest import LONG_TYPED, LONG_TYPES, long_events
from cases.replays import A, P, batch, event, identifier, item, turn
from cases.tables import MOST_ROWS, STATES, TYPES, WAKE, table_file
from cases.timed import MOST_TABLES, tables_file
from crashing.filling import AS_THE_UNIT
from harness.building import loading_client
from harness.case import MAX_BYTES, MAX_ITEMS, lists, padded
from harness.texts import differing
from model.http import answer, error
from model.json_text import compact
from serving.http import Exchange, done, look, registered
from serving.server import Server
from serving.settling import settled, taken_at_once
from serving.talking import talk_over
from serving.wire import ask, get, post

CONNECTIONS = 70000
CLIENTS = 4
BATCHES = 14
SEATS, TURNS, ITEMS = 16, 2, 9375
MOST_SETTLING = 10
"""How many seconds a server may take to settle 300000 accepted requests, and to end."""
WORKERS, MOST_GROWN = 4, 100 * 2**20
"""Workers that read large bodies, and how many bytes the server may have grown by behind them."""
MOST_DEEP = 127
"""How deep lists and objects may be."""
TYPED, MORE_LISTS, MOST_ALIKE = 3 * MAX_ITEMS, 200, 1.15
"""Events of one list of types, more lists than are looked through, and how many times as much memory as many events may take."""
OWN_LISTS, MOST_SLOWER, SLACK = MAX_ITEMS, 20, 0.1
"""Events that have a list of types each, how many times longer than with one list they may take, and seconds more."""
DEEP_WORKERS, MOST_OF_DEEP = 16, 4 * MAX_BYTES
"""Workers that read deep bodies, and how many bytes each may take."""


def files_of_looks(folder):
    """A file of requests for each client, which look at a vehicle."""
    request = get(f"/vehicles/{P}/{A}")
    for client in range(CLIENTS):
        path = Path(folder, f"requests-{client}")
        path.write_bytes((struct.pack("<I", len(request)) + request) * (CONNECTIONS // CLIENTS))
        yield str(path)


def many_connections_of_one_worker(program):
    """One worker that has more connections than 16 bits can count answers each of them, and ends then, with a journal too."""
    with tempfile.TemporaryDirectory() as folder:
        yield from many_connections(program, folder)
        yield from many_connections(program, folder, Path(folder, "journal"))


def many_connections(program, folder, journal=None):
    """What is wrong with the answers of one worker, and with its end."""
    with Server(program, CONNECTIONS + 1, journal=journal) as server:
        yield from talk_over(server, registered(A))
        words = [loading_client(), str(server.port), *files_of_looks(folder)]
        ran = subprocess.run(words, capture_output=True, text=True, timeout=300)
        if ran.returncode or ran.stdout.split()[:2] != [str(CONNECTIONS)] * 2:
            yield f"status {ran.returncode}, {ran.stdout!r} {ran.stderr!r}, in place of {CONNECTIONS} answers"
            return
        server.count(CONNECTIONS)
        yield from server.end()


def listed(number, types, state, time, device=A):
    """An event of the vehicle as the server lists it."""
    return (
        f'{{"device_id":"{device}","event_id":"00000000-0000-4000-8000-{number:0>12x}","event_types":{compact(types)},'
        f'"location_e7":null,"provider_id":"{P}","timestamp":{time},"vehicle_state":"{state}"}}'
    )


def list_of(events):
    """The exchange that lists the vehicle's events."""
    return Exchange(get(f"/vehicles/{P}/{A}/events"), answer(200, f'{{"events":[{",".join(events)}]}}'))


def many_calls_of_one_seat(program):
    """One worker accepts more calls than 17 bits can count, counts them in a look, and gives the vehicle's history whole: each
    event as it was reported, in an answer of 36 MB."""
    count = BATCHES * MAX_ITEMS
    events = [listed(number, [turn(number)[1]], turn(number)[0], 1000 + number) for number in range(count)]
    with Server(program, BATCHES + 3) as server:
        yield from talk_over(server, registered(A))
        for front in range(0, count, MAX_ITEMS):
            posted = post("/events", batch(events[front : front + MAX_ITEMS]))
            yield from talk_over(server, Exchange(posted, done(MAX_ITEMS)))
        yield from talk_over(server, look(A, turn(count - 1)[0], count, 1000 + count - 1))
        yield from talk_over(server, list_of(events))
        yield from server.end()


def most_items_of_bodies(program):
    """Bodies of as many registrations, and of as many events, as there may be are accepted whole."""
    devices = [identifier(1, number) for number in range(MAX_ITEMS)]
    events = batch(event(device, "e1", "provider_drop_off", "available", 1000) for device in devices)
    with Server(program, 4) as server:
        yield from talk_over(server, registered(*devices))
        yield from talk_over(server, look(devices[-1], "removed", 0, None))
        yield from talk_over(server, Exchange(post("/events", events), done(MAX_ITEMS)))
        yield from talk_over(server, look(devices[-1], "available", 1, 1000))
        yield from server.end()


def longest_events(program):
    """A body of the longest events, as many as it has room for, is accepted whole, and each of them is listed."""
    events = long_events()
    count = len(events)
    with Server(program, 4, table=LONG_TYPED) as server:
        yield from talk_over(server, registered(A))
        yield from talk_over(server, Exchange(post("/events", batch(events)), done(count)))
        yield from talk_over(server, look(A, "available", count, 1000))
        yield from talk_over(server, list_of(listed(number, LONG_TYPES, "available", 1000) for number in range(count)))
        yield from server.end()


def largest_tables(program):
    """As many tables as there may be, of as many rows each, are given whole."""
    rows = compact(
        [{"from": before, "to": after, "type": kind} for kind in TYPES[:64] for before in STATES[:8] for after in STATES[:8]]
    )
    starts = range(0, 1000 * MOST_TABLES, 1000)
    tables = ",".join(f'{{"from_time":{start},"rows":{rows}}}' for start in starts)
    with Server(program, 1, table=tables_file((start, MOST_ROWS) for start in starts)) as server:
        yield from talk_over(server, Exchange(get("/table"), answer(200, f'{{"tables":[{tables}]}}')))
        yield from server.end()


def memory_behind_a_long_table(program):
    """Behind the reading of a table file that is as long as may be, and has many values that say nothing, a server holds no more memory
    than its file has bytes."""
    short = table_file([WAKE])
    values = ",".join(["0"] * (MAX_BYTES // 2 - len(short)))
    held = []
    for table in (short, f'{{"more":[{values}],{short[1:]}'):
        with Server(program, 1, table=table) as server:
            held.append(server.bytes_of("RssAnon"))
            yield from server.end()
    if held[1] - held[0] > MAX_BYTES:
        yield f"{held[1]} bytes behind {MAX_BYTES} of a table file, and {held[0]} behind {len(short)}"


def told_of(server, device, kinds):
    """Reports events of a device, each of which has one of these lists of types in turn: how many are accepted."""
    before = server.success
    for front in range(0, len(kinds), MAX_ITEMS):
        numbers = range(front, min(front + MAX_ITEMS, len(kinds)))
        server.ask(post("/events", batch(event(device, f"{it:x}", kinds[it], "available", 1000 + it) for it in numbers)))
    return server.success - before


KINDS = [f"{'kind_of_an_event_':.<28}{number}".replace(".", "_") for number in range(10)]
OF_KINDS = [(name, "removed available", "available") for name in KINDS]


def time_of_lists_of_types(program):
    """Events that each have a list of types of their own take little longer than as many with one list: those that came before aren't
    all looked through."""
    lists_of_five, took = [" ".join(five) for five in islice(product(KINDS, repeat=5), OWN_LISTS)], []
    with Server(program, None, table=table_file(OF_KINDS)) as server:
        for number, kinds in enumerate((OWN_LISTS * lists_of_five[:1], lists_of_five)):
            device = identifier(7, 2 * number)
            yield from talk_over(server, registered(device))
            before = server.processor_time()
            if told_of(server, device, kinds) != len(kinds):
                yield f"not all events of {device} were accepted"
            took.append(server.processor_time() - before)
    if took[1] > MOST_SLOWER * took[0] + SLACK:
        yield f"{OWN_LISTS} events took {took[1]:.2f} s with as many lists of types, and {took[0]:.2f} s with one"


def memory_of_lists_of_types(program):
    """A list of types that came before isn't kept again, as long as it's one of the first 128, also behind more lists than that: of so
    many events memory grows by as much as at first."""
    lists_of_three = [" ".join(three) for three in product(KINDS, repeat=3)][:MORE_LISTS]
    table, grown = table_file(OF_KINDS), []
    often = TYPED * lists_of_three[:1]
    with Server(program, None, table=table, env={**os.environ, **AS_THE_UNIT}) as server:
        # of a vehicle that isn't there: so all is there that a batch takes
        told_of(server, A, often)
        for number, kinds in enumerate((often, lists_of_three, often)):
            device = identifier(7, 2 * number)
            yield from talk_over(server, registered(device))
            before = server.bytes_of("RssAnon")
            if told_of(server, device, kinds) != len(kinds):
                yield f"not all events of {device} were accepted"
            grown.append(server.bytes_of("RssAnon") - before)
    if grown[2] > MOST_ALIKE * grown[0]:
        yield f"{TYPED} events of a list took {grown[0]} bytes, and behind {MORE_LISTS} lists {grown[2]}"


def many_requests_of_many_seats(program):
    """A server that accepted 300000 requests, as many in each of 16 seats, settles in seconds."""
    seconds = settled(program, SEATS, TURNS, ITEMS)
    if seconds > MOST_SETTLING:
        yield f"{seconds:.1f} s, in place of {MOST_SETTLING} at most"


def long_items():
    """Batches of one item each that is no object, about as long as a body may be: lists of other values."""
    for value in ["0", '{"":0}', 100 * '{"":' + "0" + 100 * "}"]:
        count = (MAX_BYTES - 4) // (len(value) + 1)
        yield f"[[{','.join([value] * count)}]]"


def memory_behind_long_items(program):
    """Workers that read bodies of 4 MB, of values that nothing is kept of, hold no more memory then."""
    wanted = done(1, [{"error": "not_object", "index": 0}])
    bodies = [post("/events", text) for text in long_items()] * 2
    with Server(program, len(bodies), workers=WORKERS) as server:
        before = server.memory()
        with ThreadPoolExecutor(WORKERS) as pool:
            for found in pool.map(lambda body: ask(server.port, body), bodies):
                server.count()
                yield from differing(found, wanted)
        grown = server.memory() - before
        if grown > MOST_GROWN:
            yield f"{grown} bytes more behind {len(bodies)} bodies, in place of {MOST_GROWN}"
        yield from server.end()


def deep_bodies():
    """Bodies about as long as one may be, whose values are as deep as they may be, or deeper, and their answers: lists in a list,
    objects in one of an event's ignored members, and lists that don't end."""
    count = MAX_BYTES // (2 * MOST_DEEP) - 1
    listed = f"[[{','.join([lists(MOST_DEEP - 2)] * count)}]]"
    yield listed, done(1, [{"error": "not_object", "index": 0}])
    depth = MOST_DEEP - 3
    objects = '{"":' * depth + "0" + "}" * depth
    ignored = ",".join([objects] * (MAX_BYTES // (len(objects) + 1) - 1))
    yield batch([item(ignored=f"[{ignored}]")]), done(1, [{"error": "unregistered", "index": 0}])
    yield padded(f"[[{lists(MOST_DEEP - 1)}]]", MAX_BYTES), error(400, "not_json")
    yield "[" * MAX_BYTES, error(400, "not_json")


def memory_of_deep_values(program):
    """Each of many workers reads a body of 4 MB of deep values at the same time: together they take, at most and for a moment,
    the bytes of the bodies four times."""
    asked = [(post("/events", body), wanted) for body, wanted in deep_bodies()] * (DEEP_WORKERS // 4)
    with Server(program, 2, workers=DEEP_WORKERS) as server:
        before = server.memory()
        found = taken_at_once(server, [request for request, _ in asked])
        for answered, (_, wanted) in zip(found, asked):
            yield from differing(answered, wanted)
        grown = server.most_memory() - before
        if grown > MOST_OF_DEEP * DEEP_WORKERS:
            yield f"{grown} bytes at most for {DEEP_WORKERS} bodies, in place of {MOST_OF_DEEP * DEEP_WORKERS}"
        server.count(DEEP_WORKERS)
        yield from server.end()


SIZES = [
    many_connections_of_one_worker,
    many_calls_of_one_seat,
    most_items_of_bodies,
    longest_events,
    largest_tables,
    memory_behind_a_long_table,
    memory_of_lists_of_types,
    time_of_lists_of_types,
    many_requests_of_many_seats,
    memory_behind_long_items,
    memory_of_deep_values,
]
