"""What openapi.json describes, and what of an answer isn't as it describes it.

Each answer that a client here receives is noted. At the end each different one is looked at, once, where `jsonschema` is
installed. Of long ones the first of each status of each operation is."""

import json
import re
from functools import lru_cache

from harness.counting import ROOT
from model.json_text import compact

try:
    from jsonschema import Draft202012Validator
except ImportError:
    Draft202012Validator = None

METHODS = ("get", "put", "post", "delete", "options", "head", "patch", "trace")
REQUEST = re.compile(r"(\S+) (\S+) HTTP/1\.[01]\r?")
STATUS_LINE = re.compile(r"HTTP/1\.1 ([0-9]{3}) [A-Z][A-Za-z ]+")
LONG = 1 << 16
"""From how many bytes on an answer is long."""
END = 1000
"""How many items are looked at from either end of a longer list."""
INNER_END = 20
"""The same of a list within a list."""


class Description:
    """A document of OpenAPI."""

    def __init__(self, document):
        self.document = document
        self.validators = {}
        self.routes = [(path, pattern_of(path), item) for path, item in document["paths"].items()]

    def at(self, reference):
        """What a reference of the document stands for."""
        found = self.document
        for name in reference.removeprefix("#/").split("/"):
            found = found[name.replace("~1", "/").replace("~0", "~")]
        return found

    def resolved(self, value):
        """The value, or what it refers to."""
        return self.at(value["$ref"]) if "$ref" in value else value

    def inlined(self, value):
        """A schema with what each of its references stands for in its place."""
        if isinstance(value, list):
            return [self.inlined(it) for it in value]
        if not isinstance(value, dict):
            return value
        while "$ref" in value:
            value = {**self.at(value["$ref"]), **{name: it for name, it in value.items() if name != "$ref"}}
        return {name: self.inlined(it) for name, it in value.items() if name != "discriminator"}

    def validator(self, schema):
        """The validator of a schema that stands in the document. It is made once."""
        if id(schema) not in self.validators:
            self.validators[id(schema)] = Draft202012Validator(self.inlined(schema))
        return self.validators[id(schema)]

    def parameters(self, item):
        """The schemas of a path's parameters, by their names."""
        found = map(self.resolved, item.get("parameters", ()))
        return {parameter["name"]: parameter["schema"] for parameter in found}

    def answers_to(self, line):
        """The name of the operation that a request line asks for, and the responses that may come."""
        found = REQUEST.fullmatch(line)
        method, target = found.groups() if found else ("", "")
        for path, pattern, item in self.routes:
            fields = pattern.fullmatch(target.partition("?")[0])
            if fields is None or not self.fit(self.parameters(item), fields.groupdict()):
                continue
            if method.lower() in METHODS and method.isupper() and method.lower() in item:
                return f"{method} {path}", item[method.lower()]["responses"]
            return f"other methods of {path}", item["x-other-methods"]["responses"]
        return "other targets", self.document["x-other-targets"]["responses"]

    def fit(self, schemas, values):
        return all(self.validator(schemas[name]).is_valid(value) for name, value in values.items())

    def faults(self, line, answered):
        """What of an answer to a request with this line isn't as described, in words."""
        head, _, body = answered.partition(b"\r\n\r\n")
        start, *lines = head.decode("latin-1").split("\r\n")
        fields = dict(line.split(": ", 1) for line in lines)
        status = STATUS_LINE.fullmatch(start)
        responses = self.answers_to(line)[1]
        if status is None or status.group(1) not in responses:
            yield f"the status line {start!r}"
            return
        response = self.resolved(responses[status.group(1)])
        if len(fields) != len(lines):
            yield f"a field twice: {lines}"
        if fields.get("content-length") != str(len(body)):
            yield f"a length of {fields.get('content-length')} for {len(body)} bytes"
        kind = fields.pop("content-type", None)
        yield from self.faults_of_fields(response.get("headers", {}), fields)
        yield from self.faults_of_body(response, kind, body)

    def faults_of_fields(self, headers, fields):
        """What of the fields of a head, without that of its type, isn't as described."""
        headers = {name: self.resolved(header) for name, header in headers.items()}
        for name, value in fields.items():
            if name not in headers:
                yield f"a field {name!r}"
            elif not self.validator(headers[name]["schema"]).is_valid(int(value) if value.isdigit() else value):
                yield f"the field {name!r} with {value!r}"
        for name in headers:
            if headers[name].get("required") and name not in fields:
                yield f"no field {name!r}"

    def faults_of_body(self, response, kind, body):
        """What of a body of this type isn't as described."""
        content = response.get("content")
        if not body and kind is None and (content is None or response.get("x-without-body")):
            return
        if content is None or kind not in content:
            yield f"{len(body)} bytes of {kind}"
            return
        try:
            value = value_of(body)
        except ValueError as fault:
            yield f"{fault}: {body[:200]!r}"
            return
        for error in self.validator(content[kind]["schema"]).iter_errors(shortened(value)):
            yield f"{place_of(error)}: {error.message[:200]}"


def pattern_of(path):
    """The pattern of the targets that a path of the document stands for."""
    return re.compile(re.sub(r"\\\{(\w+)\\\}", r"(?P<\1>[^/]+)", re.escape(path)))


def shortened(value, most=END):
    """A value with both ends of a list that is longer than they are, so many of each; and those of lists within it, which are
    shorter still."""
    if isinstance(value, dict):
        return {name: shortened(it, most) for name, it in value.items()}
    if isinstance(value, list):
        ends = value if len(value) <= 2 * most else value[:most] + value[-most:]
        return [shortened(it, INNER_END) for it in ends]
    return value


def place_of(error):
    """Where in a value something isn't as described."""
    return "/".join(["", *map(str, error.absolute_path)]) or "the value"


def no_number(text):
    raise ValueError(f"a number {text}")


def value_of(body):
    """The value that a body is, which has the form in which all answers come: no spaces, members in the order of their names,
    none of them twice, and whole numbers."""
    text = body.decode()
    value = json.loads(text, parse_float=no_number, parse_constant=no_number)
    if compact(value) != text:
        raise ValueError("JSON of another form")
    return value


@lru_cache(maxsize=None)
def description():
    return Description(json.loads((ROOT / "openapi.json").read_text()))


class Noted:
    """The different answers that came since it was begun, with the request lines that they came to."""

    def __init__(self):
        self.begun = False
        self.short = {}
        self.long = {}

    def begin(self):
        """Begins to note answers, where they can be looked at."""
        self.begun = Draft202012Validator is not None

    def note(self, request, answered):
        """Keeps an answer. Where no byte came there is none."""
        if not self.begun or not answered:
            return
        line = request.lstrip(b"\r\n").partition(b"\n")[0].decode("utf-8", "replace")
        if len(answered) < LONG:
            self.short[line, answered] = None
        else:
            self.long.setdefault((line, answered[:12]), answered)

    def any(self):
        return bool(self.short or self.long)

    def different(self):
        """The answers that aren't alike, each with its operation and with a line to which it came."""
        found = {}
        for line, answered in self.short:
            operation = description().answers_to(line)[0]
            found.setdefault((operation, answered), (operation, line, answered))
        for (line, status), answered in self.long.items():
            operation = description().answers_to(line)[0]
            found.setdefault((operation, status), (operation, line, answered))
        return list(found.values())


NOTED = Noted()
