"""Servers over a journal, as the unit starts them."""

import os
from pathlib import Path

from serving.server import Server

SCRIPT = Path(__file__).with_name("over-a-journal")


def server_over(program, path, each, workers=1, port=0):
    """A server over the journal of this path."""
    env = {**os.environ, "PROGRAM": str(Path(program).resolve()), "JOURNAL": str(path)}
    return Server(SCRIPT, each, workers, env=env, port=port)
