"""Talks with a server: requests whose heads, lengths and bodies are good or not."""

from fuzzing.cases import TalkCase
from fuzzing.events import Events, Guide
from fuzzing.tables import TableFiles
from fuzzing.writing import Writer
from harness.case import MAX_BYTES
from model.http import MOST_FIELDS, MOST_HEAD
from model.tables import TableFault, Tables, tables_of

METHODS = ["GET", "POST", "PUT", "DELETE", "HEAD", "OPTIONS", "get", "Post", "X!", "!#$%&'*+-.^_`|~", "G(T", "G@T", ""]
VERSIONS = ["HTTP/1.0", "HTTP/1.0", "HTTP/1.2", "HTTP/2.0", "HTTP/1.1 ", "http/1.1", "HTTP/1", "HTTP/01.1",
    "", "HTTP/1.1\x00"]
FIELDS = [
    b"Host: localhost", b"host:", b"Accept:*/*", b"Expect: 100-continue", b"Connection: keep-alive", b"Range: bytes=0-1",
    b"!#$%&'*+-.^_`|~09azAZ: \t value \t", b"more: \xff\xfe", b"Content-Lengths: 7", b"Content_Length: 7", b"x: a\tb",
    b"Transfer-Encodings: chunked", b"X-Content-Length: 7",
]  # fmt: skip
BAD_FIELDS = [
    b"Host : x", b": x", b"Host", b"Ho st: x", b" Host: x", b"\tHost: x", b"H\xc3\xb6st: x", b"a: \x00",
    b"a: \x7f", b"a: b\rc",
    b"a:\x1b", b"a(b): c", b"[a]: b",
]  # fmt: skip
CODINGS = [b"chunked", b"", b"identity", b"gzip, chunked"]
LENGTHS = [b"", b" ", b"12x", b"+2", b"-2", b"0x2", b"2 2", b"2,2", b"2.0", b"\xd9\xa2", b"0", b"00", b"1", b"2", b"9" * 30]
LONG = [str(MAX_BYTES).encode(), str(MAX_BYTES + 1).encode(), b"000%d" % (MAX_BYTES + 1), b"%d" % 2**64, b"%d" % (2**64 + 2)]
TARGETS = [
    "/", "//", "*", "/vehicles/", "/events/", "/table/", "/Vehicles", "/TABLE", "//vehicles", "/event",
    "/events/x", "/tables",
    "/vehicles/{p}", "/vehicles/{p}/", "/vehicles/{p}/x", "/vehicles//{d}", "/vehicles/{p}//events", "/vehicles/{p}/{d}/",
    "/vehicles/{p}/{d}/event", "/vehicles/{p}/{d}/Events", "/vehicles/{p}/{d}/events/", "/vehicles/{p}/{d}/events/0",
    "/vehicles/{p}%2F{d}", "vehicles/{p}/{d}", "/events/{p}/{d}", "http://127.0.0.1/table", "/table#rows", "/%74able",
    "/t\u00e4ble", "/table\u2028", "?/table", "/vehicles/{{provider}}/{{device}}", "/vehicles/{p}/{d}0",
    "/./table", "/table;x",
]  # fmt: skip
QUERIES = ["?", "?x=1", "?x=1&y=%zz", "?a?b/c", "?\u00e4", "?#", "?{}"]


class Talks:
    """A talk by chance."""

    def __init__(self, chance):
        self.chance = chance
        self.writer = Writer(chance, chance.choice((0, 0, 0.02, 0.3)))
        self.table, tables = self.table_file()
        self.events = Events(chance, self.writer, Guide(tables, registers=False))
        self.hostility = chance.choice((0, 0.1, 0.5, 1))
        """The share of requests with something odd in their heads."""

    def table_file(self):
        """Maybe the bytes of a table file, and the tables that are then in force."""
        if self.chance.often(0.6):
            return None, Tables.one()
        text = TableFiles(self.chance, self.writer).file()
        try:
            return text, tables_of(text)
        except TableFault:
            return text, Tables.one()

    def target(self):
        """A target of a vehicle, of the table, or one that is no route."""
        chance, key = self.chance, self.chance.choice(self.events.keys)
        provider, device = map(self.events.identifier, key)
        kind = chance.random()
        if kind < 0.8:
            target = f"/vehicles/{provider}/{device}{chance.choice(('', '/events'))}"
        else:
            target = "/table" if kind < 0.85 else chance.choice(TARGETS).format(p=provider, d=device)
        return target + (chance.choice(QUERIES) if chance.often(0.1) else "")

    def lengths(self, body):
        """The values of the fields that announce a body."""
        chance = self.chance
        if not chance.often(self.hostility * 0.5):
            return [b"%d" % len(body)]
        right = b"%d" % len(body)
        odd = [[], [right, right], [b" \t%s\t" % right], [b"000" + right],
        [b"%d" % (len(body) + chance.choice((-1, 1, 100)))]]
        return chance.choice([*odd, [chance.choice(LENGTHS)], [chance.choice(LONG)], [right, b""]])

    def head(self, method, target, lengths):
        """The bytes of a head, maybe with something odd."""
        chance, version, ends = self.chance, "HTTP/1.1", [b"\r\n"]
        fields = [chance.choice((b"Content-Length: ", b"content-length:",
        b"CONTENT-LENGTH:  ")) + value for value in lengths]
        front = b""
        if chance.often(self.hostility * 0.5):
            method = chance.choice(METHODS) if chance.often(0.15) else method
            version = chance.choice(VERSIONS) if chance.often(0.15) else version
            ends = chance.choice((ends, [b"\n"], [b"\r\n", b"\n"]))
            front = chance.choice((b"", b"", b"\r\n", b"\n\n\r\n", b" ")) if chance.often(0.3) else front
            fields += chance.few(FIELDS, 3)
            fields += [chance.choice(BAD_FIELDS)] if chance.often(0.1) else []
            fields += [b"Transfer-Encoding: " + chance.choice(CODINGS)] if chance.often(0.1) else []
            fields += [b"a: b"] * (MOST_FIELDS - len(fields) + chance.choice((-1, 0, 1))) if chance.often(0.05) else []
            chance.shuffle(fields)
        start = f"{method} {target} {version}".encode()
        lines = [start, *fields, b""]
        text = front + b"".join(line + chance.choice(ends) for line in lines)
        if chance.often(self.hostility * 0.03):
            missing = MOST_HEAD + chance.choice((-1, 0, 1)) - len(text) - len(b"more: \r\n")
            text = front + start + b"\r\nmore: " + b"x" * missing + text[len(front) + len(start) :]
        return chance.spoilt(text) if chance.often(self.hostility * 0.15) else text

    def request(self, registers):
        """The bytes of a request."""
        chance = self.chance
        if not registers and chance.often(0.35):
            text = self.head("GET", self.target(), self.lengths(b"") if chance.often(self.hostility * 0.2) else [])
            return text + (b"[] more" if chance.often(self.hostility * 0.1) else b"")
        route, item, most = ("/vehicles", self.events.vehicle, 6) if registers else ("/events", self.events.item, 15)
        body = self.events.batch(item, most)
        target = route + (chance.choice(QUERIES) if chance.often(0.05) else "")
        return self.head("POST", target, self.lengths(body)) + body

    def sent(self, request):
        """The pieces in which a request is sent, and whether the client then ends its side."""
        cuts = sorted(self.chance.randint(0, len(request)) for _ in range(self.chance.choice((0, 0, 1, 2))))
        pieces = [request[front:behind] for front, behind in zip([0, *cuts], [*cuts, len(request)])]
        return pieces, self.chance.often(0.5)

    def talk(self):
        """A talk that registers first, and then does all kinds of things."""
        count, workers = self.chance.choice((1, 4, 8, 16)), self.chance.choice((1, 1, 2, 4))
        requests = [self.sent(self.request(at == 0 or self.chance.often(0.12))) for at in range(count)]
        return TalkCase(self.table, requests, workers)
