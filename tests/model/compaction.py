"""What a compaction leaves of a journal, after docs/formats.md: of each vehicle the way through its states without loops."""

from collections import Counter, defaultdict, namedtuple

Line = namedtuple("Line", "key time state position")
"""A request of a journal: its vehicle; and of an event the time, the state that it reports, and whether it has a position. Of a
registration these are None."""


def staying(lines, before):
    """The places of the lines that stay, in order: `before` is the time from which on all events do."""
    places = defaultdict(list)
    for place, line in enumerate(lines):
        places[line.key].append(place)
    return sorted(place for own in places.values() for place in of_one_vehicle(lines, own, before))


def staying_of(lines, places, before):
    """Those of these places that stay."""
    return [places[at] for at in staying([lines[place] for place in places], before)]


def first_events(lines, cuts):
    """The places of the lines that cuts leave: of each vehicle that they name its registration and so many of its events, of every
    other all."""
    counts = Counter()
    for place, line in enumerate(lines):
        counts[line.key] += line.time is not None
        if line.time is None or counts[line.key] <= cuts.get(line.key, counts[line.key]):
            yield place


def of_one_vehicle(lines, places, before):
    """Those of one vehicle. What may go lies between two lines that have to stay, or behind the last of them, and is a way from
    state to state, of which loops are left out."""
    events = [place for place in places if lines[place].time is not None]
    seen = next((place for place in reversed(events) if lines[place].position), None)
    before = min(before, lines[events[-1]].time) if events else before
    start, held, way = "removed", "removed", []
    for place in places:
        line = lines[place]
        held = line.state or held
        if line.time is not None and line.time < before and place != seen:
            way.append((place, held))
            continue
        yield from without_loops(start, way)
        yield place
        start, way = held, []
    yield from without_loops(start, way)


def without_loops(start, way):
    """Of a way from a state on, the places that lead on from each state where it is held for the last time."""
    last = {state: at for at, (_, state) in enumerate(way)}
    at = last.get(start, -1) + 1
    while at < len(way):
        place, state = way[at]
        yield place
        at = last[state] + 1
