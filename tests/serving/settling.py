"""Many requests that are accepted, the same number in each seat, and how long the server then settles."""

import os
import time
from concurrent.futures import ThreadPoolExecutor

from cases.replays import P, identifier
from harness.counting import Unwell
from serving.server import Server, success_of
from serving.wire import connect, post, read_all

SECONDS = 60
REGISTRATION = f'{{"provider_id":"{P}","device_id":"%s"}}'
EVENT = (
    f'{{"provider_id":"{P}","device_id":"%s","event_id":"{P}","vehicle_state":"available",'
    '"event_types":["provider_drop_off"],"timestamp":1000}'
)


def requests_of(seats, turn, items):
    """A request for each seat. In even turns vehicles are registered. In odd ones each reports an event, to another seat."""
    target, form = ("/events", EVENT) if turn % 2 else ("/vehicles", REGISTRATION)
    for seat in range(seats):
        group = (seat + turn % 2) % seats
        first = (turn // 2 * seats + group) * items
        devices = (identifier(1, first + number) for number in range(items))
        yield post(target, f"[{','.join(form % device for device in devices)}]")


def sockets_of(server):
    """How many sockets the server's process has open."""
    folder, count = f"/proc/{server.child.pid}/fd", 0
    for name in os.listdir(folder):
        try:
            count += os.readlink(f"{folder}/{name}").startswith("socket:")
        except OSError:
            pass  # it was closed meanwhile
    return count


def taken_at_once(server, requests):
    """Has each worker take one of these requests, of which there are as many, and gives their answers."""
    connections = [connect(server.port) for _ in requests]
    try:
        for _ in range(100 * SECONDS):
            if sockets_of(server) > len(requests):
                break
            time.sleep(0.01)
        else:
            raise Unwell("the workers didn't take a connection each")
        with ThreadPoolExecutor(len(requests)) as pool:
            return list(pool.map(answered, connections, requests))
    finally:
        for connection in connections:
            connection.close()


def answered(connection, request):
    connection.sendall(request)
    return read_all(connection)


def settled(program, seats, turns, items):
    """Has each of so many seats accept so many items in each of so many turns. Answers how many seconds the server then took
    to settle and to end."""
    with Server(program, turns, workers=seats) as server:
        for turn in range(turns):
            requests = list(requests_of(seats, turn, items))
            success = sum(map(success_of, taken_at_once(server, requests)))
            server.count(seats, success)
            if success != seats * items:
                raise Unwell(f"{success} were accepted in turn {turn}, in place of {seats * items}")
        start = time.monotonic()
        for complaint in server.end():
            raise Unwell(complaint)
        return time.monotonic() - start
