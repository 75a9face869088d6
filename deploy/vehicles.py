"""What `backup`, `restore` and `list` share: a server over HTTP, how a file is put in its place, the file that goes between the
first two, their progress, and their ends.

That file is text, a value of JSON a line. The first line is HEAD. Then each vehicle has a line: its identifiers, and its
accepted events as the server gives them. The last line counts vehicles and events, so a file that was cut short is found."""

import contextlib
import http.client
import json
import os
import ssl
import sys
import tempfile
import time
import urllib.parse
import uuid

UNLIKE, BAD_WORDS, BAD_FILE, BAD_SERVER = 1, 2, 3, 4
"""Exit statuses beside 0, where all is well. STATUSES says what they mean."""
STATUSES = """exit statuses:
  0  all is well
  1  {}
  2  the words of the command line don't parse
  3  a file can't be read or written, or hasn't its form
  4  the server isn't there, or doesn't answer as it should"""
HEAD = {"format": "mds_city vehicles 1"}
MAX_ITEMS, MAX_BYTES = 10000, 4194304
"""The server's limits of a batch."""
WANTED = ("timestamp", "vehicle_state")
"""The members of an event from which follows how its vehicle stands behind it."""
SECONDS = 120
"""How long an answer may be waited for."""
OFTEN, SELDOM = 0.5, 10.0
"""How many seconds lie between two progress lines: on a terminal, where one is written over the other, and elsewhere."""
MOST_TOLD = 10
"""How many lines are printed of things of one kind that are wrong."""


class Fault(Exception):
    """What ends the program: a status, and a text for standard error."""

    def __init__(self, status, text):
        super().__init__(text)
        self.status = status


def ended(main):
    """Runs the program, and answers its status."""
    try:
        return main()
    except Fault as fault:
        print(f"{name()}: {fault}", file=sys.stderr)
        return fault.status
    except KeyboardInterrupt:
        print(f"{name()}: interrupted", file=sys.stderr)
        return 130


def name():
    return os.path.basename(sys.argv[0])


def server_options(parser):
    """The options that tell of a server behind a proxy."""
    parser.add_argument("--token-file", metavar="FILE", help="a file with the token that the proxy asks for")
    parser.add_argument("--ca", metavar="FILE", help="the certificates to trust for https, in place of the system's")


class Server:
    """A server by its URL. Each request is a connection of its own, as the server wants it."""

    def __init__(self, url, token_file=None, ca=None):
        self.url, self.headers = url, {"Content-Type": "application/json"}
        self.parts = parts_of(url)
        if token_file:
            self.headers["Authorization"] = f"Bearer {text_of(token_file).strip()}"
        self.context = context_of(ca) if self.parts.scheme == "https" else None

    def connection(self):
        if self.context:
            return http.client.HTTPSConnection(self.parts.netloc, timeout=SECONDS, context=self.context)
        return http.client.HTTPConnection(self.parts.netloc, timeout=SECONDS)

    def ask(self, method, target, body=None):
        """The status of the answer to a request, and the value in its body."""
        connection = self.connection()
        try:
            connection.request(method, target, body=body, headers=self.headers)
            answer = connection.getresponse()
            return answer.status, value_of(answer.read(), f"{method} {target} at {self.url}")
        except (OSError, http.client.HTTPException, ValueError) as fault:
            raise Fault(BAD_SERVER, f"{method} {target} at {self.url}: {fault or type(fault).__name__}") from None
        finally:
            connection.close()

    def get(self, target):
        """The value at this target; None where the vehicle isn't registered."""
        status, value = self.ask("GET", target)
        if status == 404 and value == {"error": "unregistered"}:
            return None
        return self.granted(status, value, f"GET {target}")

    def post(self, target, body):
        """The answer to a batch."""
        return self.granted(*self.ask("POST", target, body), f"POST {target}")

    def granted(self, status, value, what):
        if status != 200 or not isinstance(value, dict):
            raise Fault(BAD_SERVER, f"{what} at {self.url} was answered {status} {compact(value)[:200]}")
        return value


def parts_of(url):
    """The parts of a server's URL."""
    parts = urllib.parse.urlsplit(url)
    try:
        whole = parts.scheme in ("http", "https") and parts.hostname and parts.port != 0
    except ValueError:
        whole = False
    if not whole or parts.path.strip("/") or parts.query or parts.username:
        raise Fault(BAD_WORDS, f"no URL of a server, such as http://127.0.0.1:8080: {url}")
    return parts


def context_of(ca):
    try:
        return ssl.create_default_context(cafile=ca)
    except OSError as fault:
        raise Fault(BAD_FILE, f"{ca}: {fault.strerror or fault}") from None


def parsed(text, status, where):
    """The value of a text of JSON, as Python's reader takes it. One that nests too deep for that ends the program, with this
    status and where the text is from."""
    try:
        return json.loads(text)
    except RecursionError:
        raise Fault(status, f"{where}: JSON that nests too deep") from None


def value_of(body, where):
    """The value in a body; one that isn't JSON, as a proxy may send, is its own text."""
    try:
        return parsed(body, BAD_SERVER, where)
    except ValueError:
        return body.decode(errors="replace")


def compact(value):
    return json.dumps(value, separators=(",", ":"))


def path_of(vehicle):
    return f"/vehicles/{vehicle['provider_id']}/{vehicle['device_id']}"


def text_of(path):
    """The text of a file; `-` is standard input."""
    try:
        if path == "-":
            return sys.stdin.read()
        with open(path, encoding="utf-8") as file:
            return file.read()
    except OSError as fault:
        raise Fault(BAD_FILE, f"{path}: {fault.strerror}") from None
    except ValueError:
        raise Fault(BAD_FILE, f"{path}: not text in UTF-8") from None


def vehicles_in(path):
    """The vehicles of a file, one after the other. It fails where the file hasn't its form, and at its end where it isn't
    whole."""
    vehicles = events = 0
    try:
        with open(path, encoding="utf-8") as file:
            if next(values_in(path, file), None) != HEAD:
                raise Fault(BAD_FILE, f"{path}: not a file of vehicles from deploy/backup")
            for value in values_in(path, file):
                if "vehicles" in value:
                    if value != {"vehicles": vehicles, "events": events} or file.read(1):
                        raise Fault(BAD_FILE, f"{path}: its last line doesn't count what stands before it")
                    return
                vehicles, events = vehicles + 1, events + len(checked(path, vehicles, value)["events"])
                yield value
    except OSError as fault:
        raise Fault(BAD_FILE, f"{path}: {fault.strerror}") from None
    raise Fault(BAD_FILE, f"{path}: cut short behind {vehicles} vehicles")


def values_in(path, file):
    """The object in each whole line of a file. It ends before a line that is cut short."""
    while (line := line_of(path, file)).endswith("\n"):
        try:
            value = parsed(line, BAD_FILE, path)
        except ValueError:
            value = None
        if not isinstance(value, dict):
            raise Fault(BAD_FILE, f"{path}: not a file of vehicles from deploy/backup")
        yield value


def line_of(path, file):
    try:
        return file.readline()
    except ValueError:
        raise Fault(BAD_FILE, f"{path}: not text in UTF-8") from None


def checked(path, at, value):
    """A vehicle of a file, whose events are its own, and have what tells how it stands."""
    key = [value.get("provider_id"), value.get("device_id")]
    events = value.get("events")
    if not all(isinstance(part, str) for part in key) or not isinstance(events, list):
        raise Fault(BAD_FILE, f"{path}: line {at + 2} isn't a vehicle")
    for event in events:
        if not isinstance(event, dict) or [event.get("provider_id"), event.get("device_id")] != key:
            raise Fault(BAD_FILE, f"{path}: line {at + 2} has an event that isn't its vehicle's")
        lacking = [name for name in WANTED if name not in event]
        if lacking:
            raise Fault(BAD_FILE, f"{path}: line {at + 2} has an event without {lacking[0]}")
    return value


def keys_in(path):
    """The vehicles that a file names, as pairs of identifiers: registrations in the JSON that the server takes, or lines with
    a provider and a device."""
    text = text_of(path)
    if text.lstrip().startswith(("[", "{")):
        return keys_of_registrations(path, text)
    return keys_of_lines(path, text)


def keys_of_registrations(path, text):
    try:
        value = parsed(text, BAD_FILE, path)
    except ValueError as fault:
        raise Fault(BAD_FILE, f"{path}: not JSON: {fault}") from None
    for at, item in enumerate(value if isinstance(value, list) else [value]):
        if not isinstance(item, dict):
            raise Fault(BAD_FILE, f"{path}: item {at} isn't a registration")
        yield key_of(path, f"item {at}", [item.get("provider_id"), item.get("device_id")])


def keys_of_lines(path, text):
    for at, line in enumerate(text.splitlines(), 1):
        if line.strip():
            yield key_of(path, f"line {at}", line.split())


def key_of(path, where, words):
    """Two identifiers, in the form in which the server prints them."""
    try:
        provider, device = (str(uuid.UUID(word)) for word in words)
        return provider, device
    except (ValueError, AttributeError, TypeError):
        raise Fault(BAD_FILE, f"{path}: {where} isn't a provider's and a device's UUID") from None


def put(part, path):
    """Puts a synced part in the place of the file, and has that on the disk."""
    folder = os.open(os.path.dirname(path) or os.curdir, os.O_RDONLY)
    try:
        os.replace(part, path)
        os.fsync(folder)
    finally:
        os.close(folder)


def save(path, write, mode=0o600):
    """Has a file written to a part of this run's own beside it, and puts that in place once it is whole and synced. So a file
    that is there is a whole one. Where the run fails, its part is removed."""
    folder, name = os.path.split(path)
    try:
        number, part = tempfile.mkstemp(suffix=".part", prefix=f"{name}.", dir=folder or os.curdir)
        try:
            with open(number, "w", encoding="utf-8") as file:
                write(file)
                file.flush()
                os.fchmod(file.fileno(), mode)
                os.fsync(file.fileno())
            put(part, path)
        except BaseException:
            with contextlib.suppress(OSError):
                os.remove(part)
            raise
    except OSError as fault:
        raise Fault(BAD_FILE, f"{path}: {fault.strerror}") from None


class Progress:
    """A line on standard error that tells how far the program is. Its last one, from `end`, is always written."""

    def __init__(self):
        self.over = sys.stderr.isatty()
        self.next = time.monotonic() + (OFTEN if self.over else SELDOM)

    def tell(self, text):
        if time.monotonic() >= self.next:
            self.write(text, "" if self.over else "\n")
            self.next = time.monotonic() + (OFTEN if self.over else SELDOM)

    def end(self, text):
        self.write(text, "\n")

    def write(self, text, end):
        print(f"\r{text}\x1b[K" if self.over else text, end=end, file=sys.stderr, flush=True)


class Told:
    """Lines of things of one kind that are wrong: the first few are printed, and all are counted."""

    def __init__(self):
        self.count = 0

    def add(self, text):
        self.count += 1
        if self.count <= MOST_TOLD:
            print(f"{name()}: {text}", file=sys.stderr)
        elif self.count == MOST_TOLD + 1:
            print(f"{name()}: and more of this kind", file=sys.stderr)
