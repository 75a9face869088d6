"""One version: that of the program stands in openapi.json, and is the newest of CHANGELOG.md."""

import json
import re

OF_THE_PROGRAM = re.compile(r'^pub const VERSION: &str = "([^"]+)";$', re.M)
LIBRARY = "crates/mds_args/src/lib.rt"
CHANGES = "CHANGELOG.md"
NEWEST = re.compile(r"^## (.*)$", re.M)
DESCRIPTION = "openapi.json"


def versions_in(found):
    """What tells a version, each with the version that it tells."""
    yield DESCRIPTION, json.loads(found[DESCRIPTION])["info"]["version"]
    yield CHANGES, NEWEST.search(found[CHANGES]).group(1)


def unlike(found):
    """What tells another version than the program's, in words."""
    version = OF_THE_PROGRAM.search(found[LIBRARY]).group(1)
    for name, told in versions_in(found):
        if told != version:
            yield f"{name} tells version {told}, and the program has {version}"
