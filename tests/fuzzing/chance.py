"""Chance by a seed, and bytes that are spoilt by it."""

import random

PIECES = [
    b"\xff", b"\xc0\x80", b"\xed\xa0\x80", b"\xf4\x90\x80\x80", b"\xc2\x85", b"\xe2\x80\xa8",
    b"\xef\xbb\xbf", b"\x00", b"\x01",
    b"\x1f", b"\x7f", b"\\ud800", b"\\udc00", b"\\u00", b"\\x", b"\\", b'"', b"'", b",", b":", b"[", b"]", b"{", b"}", b"-",
    b"+", b".", b"0", b"e", b"NaN", b"1e400", b"-1e400", b"1e-400", b"//", b"/**/", b" ", b"\t", b"\r",
    b"\n", b"\r\n", b"\x0b",
    b"\xc2\xa0", b"?", b"#", b"%2D", b"/", b"nul", b"7", b"z", b"Z", b"_",
]  # fmt: skip
"""What is put into bytes: marks of JSON and of HTTP, spaces, controls, and what isn't UTF-8."""


class Chance(random.Random):
    """Chance by a seed, the same on each machine."""

    def often(self, share):
        """True in this share of the calls."""
        return self.random() < share

    def few(self, values, most):
        """One to so many of the values, in any order and each at most once."""
        return self.sample(values, self.randint(1, min(most, len(values))))

    def spoilt(self, text):
        """Bytes with one thing or some changed at places that chance picks."""
        for _ in range(self.choice((1, 1, 1, 2, 4))):
            at = self.randint(0, len(text))
            behind = min(at + self.choice((0, 0, 0, 1, 1, 3, 40)), len(text))
            piece = b"" if self.often(0.25) else self.choice(PIECES)
            text = text[:at] + piece + text[behind:]
        return text[: self.randint(0, len(text))] if self.often(0.1) else text
