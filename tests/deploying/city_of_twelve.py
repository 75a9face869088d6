"""Twelve servers, each with its figures, behind haproxy and nginx with the files of deploy/, to which nine more are added as the
files have the third."""

import re

from cases.replays import identifier
from deploying.proxies import INSTANCES, PROVIDERS, WORKERS, City, free_ports
from serving.server import Server

NAMES = (*INSTANCES, "four", "five", "six", "seven", "eight", "nine", "ten", "eleven", "twelve")
ADDRESSES = 1600 << 10
"""How many KiB of addresses each may have: what docs/operations.md says of twelve on a machine of 28 GiB."""


def repeated(text, part, words):
    """A text in which a part stands again behind itself, for each further instance, with these words in place of the third's."""
    found = re.search(part, text, re.MULTILINE)
    copies = [found[0]]
    for new in words:
        copy = found[0]
        for old, word in new:
            copy = re.sub(rf"\b{re.escape(old)}\b", word, copy)
        copies.append(copy)
    return text.replace(found[0], "".join(copies))


class CityOfTwelve(City):
    """As a context it is taken down at its end."""

    names = NAMES
    providers = [*PROVIDERS, *(identifier(0, number) for number in range(4, len(NAMES) + 1))]

    def start(self):
        self.metrics = free_ports(len(NAMES))
        super().start()

    def server(self, number):
        more = {"journal": self.folder / f"{NAMES[number]}.journal", "port": self.ports[number], "metrics": self.metrics[number]}
        return Server(self.program, None, WORKERS, address_space=ADDRESSES, **more).__enter__()

    def further(self, *columns):
        """For each further instance, what stands for what of the third."""
        for at in range(len(INSTANCES), len(NAMES)):
            yield [(str(column[2]), str(column[at])) for column in columns]

    def haproxy(self):
        words = self.further(NAMES, self.queues, self.ports)
        return repeated(super().haproxy(), r"^\nlisten three\n(    .*\n)+", words)

    def nginx(self, is_limited=True, **more):
        text = super().nginx(is_limited, **more)
        text = repeated(text, rf"^ +{PROVIDERS[2]} three;\n", self.further(self.providers, NAMES))
        return repeated(text, r"^    upstream three \{\n(        .*\n)+    \}\n", self.further(NAMES, self.queues))
