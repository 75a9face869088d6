"""Chains through the rows of a table, after docs/model.md: what an event's types lead to."""

from functools import lru_cache

from cases.tables import STATES


def in_order(states):
    """These states by their codes."""
    return [state for state in STATES if state in states]


def reached(table, starts, types):
    """The states in which chains from one of these states through the types end."""
    for kind in types:
        starts = {end for start, end in table.rows.get(kind, ()) if start in starts}
    return set(starts)


def stuck_at(table, starts, types, reported):
    """The place of the first type that no chain from one of these states passes, or the number of types where only the
    state reported isn't reached, or None where a chain leads there."""
    for place in range(len(types)):
        if not reached(table, starts, types[: place + 1]):
            return place
    return None if reported in reached(table, starts, types) else len(types)


def openings(table, types, reported):
    """The states from which the types lead to the state reported, by their codes."""
    return [state for state in STATES if reported in reached(table, {state}, types)]


def least_chain(table, held, types, reported):
    """Of all chains from the one state to the other the first by the codes of its states, place by place, or None."""

    @lru_cache(maxsize=None)
    def least(state, place):
        if place == len(types):
            return (state,) if state == reported else None
        for end in STATES:
            rest = least(end, place + 1) if (state, end) in table.rows.get(types[place], ()) else None
            if rest:
                return (state, *rest)
        return None

    return least(held, 0)
