"""Answers of the server that come by way of the proxies, held against openapi.json."""

import re

from serving.described import answers_that_came, without_jsonschema
from serving.openapi import Draft202012Validator, Noted

PASSED = Noted()
"""The answers that came on connections to nginx."""
STATUSES = (200, 400, 404, 405)
"""The statuses that no proxy gives of its own here, but for the page and the lists, and for heads that are no heads."""
OWN = re.compile(rb"/page$|/lists/")
"""What nginx answers by itself."""
OF_NGINX = ("server", "date")
"""The fields that nginx adds to an answer."""


def note(request, status, head, body):
    """Keeps an answer of one of these statuses, without nginx's own fields. The case of names of fields is nginx's, too."""
    if status not in STATUSES or OWN.match(request.split(b" ", 2)[1]):
        return
    start, *lines = head.split("\r\n")
    fields = [(name.lower(), value) for name, _, value in (line.partition(": ") for line in lines)]
    kept = [f"{name}: {value}" for name, value in fields if name not in OF_NGINX]
    PASSED.note(request, "\r\n".join([start, *kept, "", body]).encode())


def passed_as_described(whole):
    """What of the answers that passed isn't as openapi.json describes it; `whole`: each status must have come, and each
    operation must have been answered 200."""
    if Draft202012Validator is None:
        yield from without_jsonschema(None)
    yield from answers_that_came(PASSED, whole)
    found = {answered[9:12].decode() for _, _, answered in PASSED.different()}
    if whole and found != set(map(str, STATUSES)):
        yield f"only the statuses {sorted(found)} came"
