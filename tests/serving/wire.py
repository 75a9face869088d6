"""Requests and answers as bytes, and connections on which they go."""

import socket
import struct
import time

from harness.texts import as_bytes
from model.json_text import compact
from serving.openapi import NOTED

SECONDS = 60
"""How long a client waits for bytes before it gives up."""
MOST_KEPT = 32768
"""How many bytes of what was sent a connection keeps: more than a head has."""


def get(target):
    return b"GET %s HTTP/1.1\r\nHost: localhost\r\n\r\n" % as_bytes(target)


def post(target, body):
    """A POST of a text, or of a value of JSON."""
    body = as_bytes(body if isinstance(body, (str, bytes)) else compact(body))
    head = b"POST %s HTTP/1.1\r\nHost: localhost\r\nContent-Length: %d\r\n\r\n"
    return head % (as_bytes(target), len(body)) + body


class Connection(socket.socket):
    """A connection that keeps the start of what is sent on it, so that an answer is noted with its request."""

    sent = b""

    def sendall(self, piece):
        if len(self.sent) < MOST_KEPT:
            self.sent += piece[: MOST_KEPT - len(self.sent)]
        super().sendall(piece)


def connect(port, room=None):
    """A connection; `room`: how many bytes of an answer the system takes in before they are read."""
    connection = Connection(socket.AF_INET, socket.SOCK_STREAM)
    connection.settimeout(SECONDS)
    if room is not None:
        connection.setsockopt(socket.SOL_SOCKET, socket.SO_RCVBUF, room)
    connection.connect(("127.0.0.1", port))
    return connection


def read_all(connection, gone=False):
    """All bytes until the server ends its side. They are noted, to be held against openapi.json. `gone`: the server may have
    closed before all was sent, which resets the connection behind its answer."""
    pieces = []
    try:
        while piece := connection.recv(1 << 16):
            pieces.append(piece)
    except ConnectionError:
        if not gone or not pieces:
            raise
    answered = b"".join(pieces)
    NOTED.note(connection.sent, answered)
    return answered


def ask(port, request):
    """What is answered to a request that is sent whole."""
    with connect(port) as connection:
        connection.sendall(request)
        return read_all(connection)


def ask_in_pieces(port, pieces, pause=0.0, ends=False, gone=False):
    """What is answered to a request that is sent in pieces, with a pause before each but the first; `ends`: after the last
    one the client ends its side; `gone`: the server may have answered and closed before that."""
    with connect(port) as connection:
        connection.setsockopt(socket.IPPROTO_TCP, socket.TCP_NODELAY, 1)
        try:
            send_in_pieces(connection, pieces, pause)
            if ends:
                connection.shutdown(socket.SHUT_WR)
        except OSError:
            if not gone:
                raise
        return read_all(connection, gone)


def send_in_pieces(connection, pieces, pause):
    """Sends the pieces, with a pause before each but the first."""
    for at, piece in enumerate(pieces):
        if at and pause:
            time.sleep(pause)
        connection.sendall(piece)


def hang_up(port, request, reset):
    """Sends some bytes, reads nothing, and closes: with an end, or with a reset."""
    connection = connect(port)
    connection.sendall(request)
    close(connection, reset)


def close(connection, reset):
    """Closes a connection with an end, or with a reset."""
    if reset:
        connection.setsockopt(socket.SOL_SOCKET, socket.SO_LINGER, struct.pack("ii", 1, 0))
    connection.close()
