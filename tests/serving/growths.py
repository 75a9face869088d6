"""A server of one worker with each growth of memory refused in turn, and one of some workers in little address space."""

import os
import re
import tempfile
import time
import uuid
from collections import Counter
from concurrent.futures import ThreadPoolExecutor
from dataclasses import dataclass
from pathlib import Path

from cases.replays import A, B, P, batch, item
from harness.building import Refusal
from harness.case import NO_MEMORY
from model.http import answer, error
from crashing.reports import parts_of
from model.tables import Table
from serving.figures import ANSWERS, METRICS, READY, REQUESTS, figures_at, told_at
from serving.http import E1, LOOK, Exchange, done, look, registered, vehicle
from serving.server import NotListening, Server, numbered_port
from serving.wire import ask, connect, get, post

AT_ONCE = 32
MOST = 20000
ACCEPTED_LINE = re.compile(r"accepted ([0-9]+)\n")
LITTLE, CROWD = 100000, 8
"""Kilobytes of address space, and so many workers in it."""
EACH = 200
FULL = 5
"""How often in turn a registration is refused for want of memory until there counts as none left."""
SILENT = 20
"""For how many seconds a server without memory may answer none of the looks that come one behind the other."""
MOST_UNANSWERED = 0.25
"""Which share of them may have no answer, in all."""
FIXED = b"HTTP/1.1 503 Service Unavailable\r\ncontent-length: 0\r\nconnection: close\r\n\r\n"


def out_of_memory(index):
    return answer(503, {"error": "out_of_memory", "index": index})


@dataclass
class Turn:
    """An exchange, whose request is made again where it was answered 503."""

    exchange: Exchange
    places: tuple = ()
    """The places of its items that aren't at fault."""
    others: tuple = ()
    """What the same request is answered once the first of these items stands, once two do, and so on."""

    def lacks(self):
        """The answers that tell of want of memory, each with what the same request is answered then. Where an item is told that
        had none, those before it stand, and it and those behind it don't; else none stands, or all do."""
        stood = [self.exchange.answer, *self.others]
        told = {(out_of_memory(place), answered) for place, answered in zip(self.places, stood)}
        return told | {(FIXED, stood[0]), (FIXED, stood[-1])}


def turns():
    """The worked answers: of two registrations, a batch whose second item is at fault, looks, lists and the table."""
    again = [{"error": "already_registered", "index": index} for index in (0, 1)]
    yield Turn(registered(A, B), (0, 1), (done(2, again[:1]), done(2, again)))
    repeated = [{"error": "repeated", "index": index} for index in (0, 2)]
    missing = {"error": "missing_param", "index": 1, "param": "device_id"}
    three = post("/events", batch([item(), item(device_id=None), item(device_id=f'"{B}"')]))
    stood = done(3, [repeated[0], missing]), done(3, [repeated[0], missing, repeated[1]])
    yield Turn(Exchange(three, done(3, [missing])), (0, 2), stood)
    yield Turn(Exchange(get(f"/vehicles/{P}/{A}"), answer(200, LOOK)))
    yield Turn(Exchange(get(f"/vehicles/{P}/{A}/events"), answer(200, f'{{"events":[{E1}]}}')))
    yield Turn(look(B, "available", 1, 1000))
    yield Turn(Exchange(get("/table"), answer(200, {"rows": Table().listed()})))


TURNS = list(turns())
ACCEPTED = 4
BESIDE = [METRICS, READY]
"""What is asked at the port of figures then."""
OK = b"HTTP/1.1 200 OK\r\n"
KINDS = ["registration", "event", "look", "list", "look", None]
"""What each turn asks for, as figures name it."""


def outcomes_of(turn, found, then):
    """What an answer to a turn's request says of each item that was asked for, and how many more there may be that found no memory.
    `then` is what the same request was answered when it was made again. Where there was no memory for a batch's answer, its items
    stand, and none of them has another outcome. Where none of them stands, the batch may not have been read."""
    items = parts_of(turn.exchange.answer)[1]
    if "failures" not in items:
        return ["out_of_memory" if found == FIXED else "seen"], 0
    failures = {it["index"]: it["error"] for it in items["failures"]}
    wanted = [failures.get(index, "done") for index in range(items["total"])]
    if found == FIXED:
        return (len(wanted) * ["out_of_memory"], 0) if then == turn.others[-1] else ([], len(wanted))
    for place in turn.places:
        if found == out_of_memory(place):
            return [*wanted[:place], "out_of_memory"], 0
    failures = {it["index"]: it["error"] for it in parts_of(found)[1]["failures"]}
    return [failures.get(index, "done") for index in range(len(wanted))], 0


def miscounted(answers, figures):
    """What is counted otherwise than these answers to the turns say, each of which counts once by its status, and by what it says of
    what was asked."""
    wanted, more = Counter(), Counter()
    each = [(turn, kind, *pair) for turn, kind, found in zip(TURNS, KINDS, answers) for pair in zip(found, (*found[1:], None))]
    for turn, kind, answered, then in each:
        wanted[f'{ANSWERS}{{status="{answered[9:12].decode()}"}}'] += 1
        outcomes, open_ones = outcomes_of(turn, answered, then) if kind else ([], 0)
        wanted.update(f'{REQUESTS}{{kind="{kind}",outcome="{outcome}"}}' for outcome in outcomes)
        more[f'{REQUESTS}{{kind="{kind}",outcome="out_of_memory"}}'] += open_ones
    for name, value in figures.items():
        if name.startswith((REQUESTS, ANSWERS)) and value - wanted[name] not in (0, more[name]):
            yield f"{name} is {value}, in place of {wanted[name]}"


def one_turn(port, turn):
    """The answer to a request, asked once more where its connection was let go for want of memory; and where that isn't the right
    one what it is answered when it is made again. No answer, and none again, means that the server ended."""
    found = asked(port, turn.exchange.request) or asked(port, turn.exchange.request)
    if not found:
        raise ConnectionAbortedError
    return (found,) if found == turn.exchange.answer else (found, asked(port, turn.exchange.request))


def asked(port, request):
    """What is answered, or nothing where the connection is closed: for want of memory, or since the server ended."""
    try:
        return ask(port, request)
    except ConnectionError:
        return b""


def served(server):
    """The answers of each turn, as far as they came."""
    answers = []
    try:
        for turn in TURNS:
            answers.append(one_turn(server.port, turn))
            server.count(len(answers[-1]))
    except OSError:
        pass
    return answers


def other_answers(answers):
    """What is wrong with answers that aren't the right ones."""
    for turn, found in zip(TURNS, answers):
        if len(found) > 1 and found not in turn.lacks():
            yield f"{turn.exchange.request[:60]!r} was answered {found[0]!r}, and then {found[1]!r}"


def ended_otherwise(server, is_whole, refusal):
    """What is wrong with the end of a server. Each connection is answered, but for one for which there was no memory, behind
    which the next one is; or the server had none for itself, and says so."""
    while is_whole and server.left:
        found = asked(server.port, get("/")) or asked(server.port, get("/"))
        server.count()
        is_whole = found != b""
        if found not in (b"", error(404, "not_found"), FIXED):
            yield f"at the end, {found!r}"
    ended = server.ended()
    allowed = [(0, f"accepted {ACCEPTED}\n", "")] if is_whole else []
    allowed += [(4, "", NO_MEMORY)] if refusal.came() else []
    if ended not in allowed:
        yield f"ended with {ended}, {'all' if is_whole else 'not all'} answered"


def figures_of(port):
    """The figures, which are asked for once more where there was no memory for them."""
    try:
        return figures_at(port)
    except (AssertionError, OSError):
        return figures_at(port)


def beside(port):
    """What is answered at the port of figures, or nothing where the connection is closed for want of memory."""
    for request in BESIDE:
        try:
            yield told_at(port, request)
        except ConnectionError:
            yield b""


def other_answers_beside(answers):
    """What is wrong with answers of the port of figures, of which one may tell that there was no memory."""
    for request, found in zip(BESIDE, answers):
        if not found.startswith(OK) and found not in (b"", FIXED):
            yield f"at the port of figures {request!r} was answered {found!r}"


def refused(program, number, over_journal=False):
    """A run with this growth refused, over a journal that isn't there yet if it has one: what is wrong with it, the answers of each
    turn and beside them, and whether the run came to the growth."""
    answers, told, port = [], [], numbered_port()
    with Refusal(number) as refusal, tempfile.TemporaryDirectory() as folder:
        journal = Path(folder, "journal") if over_journal else None
        try:
            with Server(program, len(TURNS) + 2, env=refusal.env, journal=journal, metrics=port) as server:
                answers = served(server)
                is_whole = len(answers) == len(TURNS)
                told = list(beside(port)) if is_whole else []
                wrong = [*other_answers(answers), *other_answers_beside(told)]
                wrong += miscounted(answers, figures_of(port)) if is_whole else []
                wrong += ended_otherwise(server, is_whole, refusal)
        except NotListening as fault:
            wrong = [] if refusal.came() and fault.ended == (4, "", NO_MEMORY) else [str(fault)]
        if not refusal.came() and max(map(len, answers), default=1) > 1:
            wrong.append("an answer of status 503, where no growth was refused")
        return [f"growth {number}: {text}" for text in wrong], [*answers, *told], refusal.came()


def never_told(came):
    """Which wants of memory no refused growth led to, in words. A call that finds none isn't made again for the same request: so
    each item has a growth by which that is told of it, and each answer one by which its bytes had none."""
    for turn, found in zip(TURNS, came):
        for told, then in sorted(turn.lacks() - found):
            yield f"no growth has {turn.exchange.request[:60]!r} answered {told!r}, and then {then!r}"
    for request, found in zip(BESIDE, came[len(TURNS) :]):
        if FIXED not in found:
            yield f"no growth has {request!r} answered {FIXED!r} at the port of figures"


def each_growth_refused(program, over_journal=False):
    """Each growth in turn, until they run out: each answer is the right one, or one of the two that say that there was no
    memory, after which the same request is answered; what is accepted is counted; and where the server ends for want of
    memory, it says so. None ends it by a connection. Each want that may be told is, at some growth."""
    came = [set() for _ in (*TURNS, *BESIDE)]
    with ThreadPoolExecutor(os.cpu_count()) as pool:
        for start in range(1, MOST, AT_ONCE):
            numbers = range(start, start + AT_ONCE)
            ends = list(pool.map(lambda number: refused(program, number, over_journal), numbers))
            for wrong, answers, _ in ends:
                yield from wrong
                for found, answered in zip(came, answers):
                    found.add(answered)
            if start == 1 and not ends[0][2]:
                yield "the program takes no memory by `malloc`, so that nothing was refused"
                return
            if not all(refusal_came for _, _, refusal_came in ends):
                yield from never_told(came)
                return
        yield f"{MOST} growths, and no end"


def each_growth_refused_over_a_journal(program):
    """The same of a server with a journal: want of memory to record what was accepted is told as such, and ends nothing."""
    yield from each_growth_refused(program, over_journal=True)


def registrations(count, start):
    """A batch of so many vehicles, the first of this number."""
    return post("/vehicles", [vehicle(str(uuid.UUID(int=start + at))) for at in range(count)])


def told(server, request):
    """What is answered, which is counted, or nothing where the connection is closed for want of memory."""
    try:
        return server.ask(request)
    except ConnectionError:
        return b""


def filled(server):
    """Registers vehicles, many at once and then one by one, until there is no memory for one more, or enough were tried: how many."""
    tried = 0
    for count in (2000, 100, 1):
        refused = 0
        for _ in range(EACH):
            found = told(server, registrations(count, tried + 1))
            tried += count
            refused = 0 if found.startswith(b"HTTP/1.1 200") else refused + 1
            if refused == FULL:
                break
    return tried


def crowded(server, start):
    """Has each worker hold a long body that isn't whole, and hangs up."""
    held = [connect(server.port) for _ in range(CROWD)]
    for connection in held:
        connection.sendall(registrations(2000, start)[:-1])
    time.sleep(1)
    for connection in held:
        connection.close()


def in_little_address_space(program):
    """A server under a limit of its address space that is full of vehicles, and which each worker's client then holds with a long
    body, goes on answering looks, as many as its workers are to answer, and ends as usual, or for want of memory to settle."""
    with Server(program, EACH, workers=CROWD, address_space=LITTLE) as server:
        tried = filled(server)
        crowded(server, tried + 1)
        yield from look_until_its_end(server, str(uuid.UUID(int=1)))
        ended = server.ended()
        if ended != (4, "", NO_MEMORY) and not (ended[0] == 0 and server.success <= accepted(ended[1]) <= tried):
            yield f"ended with {ended}, where {server.success} to {tried} were accepted"


def look_until_its_end(server, device):
    """What is wrong with the answers to looks at a vehicle, until the server ends: few have none."""
    last, count, unanswered = time.monotonic(), 0, 0
    request, answers = get(f"/vehicles/{P}/{device}"), (b"", look(device, "removed", 0, None).answer, FIXED)
    while server.child.poll() is None:
        try:
            found = ask(server.port, request)
        except ConnectionRefusedError:  # it listens no longer
            break
        except ConnectionError:
            found = b""
        count, unanswered = count + 1, unanswered + (not found)
        if found:
            last = time.monotonic()
        elif time.monotonic() - last > SILENT:
            yield f"no look was answered for {SILENT} s"
            return
        if found not in answers:
            yield f"a look was answered {found!r}"
    if unanswered > count * MOST_UNANSWERED:
        yield f"{unanswered} of {count} looks had no answer"


def accepted(out):
    """How many items a server says to be accepted, or -1 where it doesn't say so."""
    found = ACCEPTED_LINE.fullmatch(out)
    return int(found.group(1)) if found else -1


GROWTHS = [each_growth_refused, each_growth_refused_over_a_journal, in_little_address_space]
