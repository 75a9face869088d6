"""Whether the table of calls has each call that the sources have, and its tests are there."""

import re

from refusing.sources import calls, crates, every_call, libraries, tests_of
from refusing.table import QUIET, TESTED, WITHIN, WITHOUT

AGAIN = "after_a_refused_growth"
"""Part of the names of tests that pass whichever growth is refused."""
ALWAYS = "with_every_growth_refused"
"""Part of the names of tests that pass where each growth between their two fences is refused."""


def by_call(table):
    """The test of each call of a table, as where it stands and its name."""
    return {f"{crate}::{call}": (place, test) for (crate, place, test), calls in table.items() for call in calls}


def makes(text, call):
    """Whether a text has the call."""
    return re.search(rf"\b{call.rpartition('::')[2]}\s*(?:::<[^(;]*>)?\(", text)


def unlisted():
    """What is wrong with the table, in words."""
    found = crates()
    own = libraries(found)
    there, listed, quiet = set(calls(own)), by_call(TESTED), by_call(QUIET)
    known = {*listed, *WITHOUT, *(call for call, maker in WITHIN.items() if maker in listed)}
    for call in sorted(there - known):
        yield f"{call} can find no memory, and no test in tests/refusing/table.py refuses its growths"
    for call in sorted(known - there):
        yield f"{call} is in tests/refusing/table.py, and no such call can find no memory"
    for call in sorted(quiet.keys() - set(every_call(own))):
        yield f"{call} is in tests/refusing/table.py, and there is no such call"
    yield from unmade(found, listed, AGAIN)
    yield from unmade(found, quiet, ALWAYS)


def unmade(found, listed, part):
    """Which calls have no test in which they are made and whose name has this part, in words."""
    for call, (place, test) in listed.items():
        crate, _, module = place.partition("::")
        text = tests_of(found[crate], module).get(test) if crate in found else None
        if text is None or part not in test:
            yield f"{call} wants a test {test} of {place} whose name has {part}"
        elif not makes(text, call):
            yield f"{call} isn't made where {place} has the test {test}"
