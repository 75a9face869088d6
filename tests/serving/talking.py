"""One exchange with a server, and what is wrong with it."""

from harness.texts import differing
from serving.server import success_of
from serving.wire import ask_in_pieces


def sent(server, pieces, wanted, pause=0.0, ends=False):
    """Sends a request in pieces, and says what is wrong with its answer."""
    server.count()
    try:
        found = ask_in_pieces(server.port, pieces, pause, ends)
    except OSError as fault:
        yield f"{type(fault).__name__}: {fault}, in place of {wanted[:200]!r}"
        return
    server.count(0, success_of(found))
    yield from differing(found, wanted)


def talk_over(server, exchange):
    """Sends a request whole, and says what is wrong with its answer."""
    return sent(server, [exchange.request], exchange.answer, ends=exchange.ends)
