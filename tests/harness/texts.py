"""Texts as bytes, and where two of them differ."""

BEFORE, BEHIND = 60, 100
"""How many bytes are shown before the place where two texts part, and from there on."""


def as_bytes(text):
    return text.encode() if isinstance(text, str) else text


def difference(found, wanted):
    """Where the bytes that were found first differ from those that are wanted, in words, or None."""
    if found == wanted:
        return None
    least = min(len(found), len(wanted))
    at = next((place for place in range(least) if found[place] != wanted[place]), least)
    front = max(at - BEFORE, 0)
    return f"at byte {at}: {found[front : at + BEHIND]!r}, in place of {wanted[front : at + BEHIND]!r}"


def differing(found, wanted, what="answered"):
    """What was found, in place of what is wanted; nothing where it is that."""
    differs = difference(found, wanted)
    if differs:
        yield f"{what}, {differs}"
