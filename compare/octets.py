"""Lists of bytes for the comparison of decoding."""
import itertools

TRAPS = ["ignore", "strict", "replace", "call", "stop"]

# One byte of each kind that the tables of UTF-8 and UTF-16 tell apart, and ends, blanks and letters.
TELLING = [0x00, 0x0A, 0x20, 0x2D, 0x41, 0x61, 0x7F, 0x80, 0x8F, 0x90, 0x9F, 0xA0, 0xBB, 0xBF, 0xC1, 0xC2, 0xC3, 0xD8, 0xDC, 0xDF, 0xE0, 0xE1, 0xED, 0xEF, 0xF0, 0xF1, 0xF4, 0xF5, 0xFE, 0xFF]

MARKS = [b"", b"", b"\xef\xbb\xbf", b"\xff\xfe", b"\xfe\xff", b"\xff\xfe", b"\xfe\xff", b"a", b"\x00a", b"a\x00", b"a: ", b"\xef\xbb", b"\xff", b"\xfe"]

GOOD = ["a", "b: c", "- d", "\n", " ", "\u00e9", "\u20ac", "\U0001f600", "\ufeff", "\u2028", '"', "# e", "[f]", "\ufffd"]


def exhaustive(length):
    for n in range(length + 1):
        for units in itertools.product(TELLING, repeat=n):
            yield bytes(units)


def seeded(r):
    """A mark or none, then whole characters in its encoding, each after some bytes of the alphabet now and then."""
    mark = r.choice(MARKS)
    encoding = {b"\xff\xfe": "utf-16-le", b"\xfe\xff": "utf-16-be", b"\x00a": "utf-16-be", b"a\x00": "utf-16-le"}.get(mark, "utf-8")
    out = [mark]
    for _ in range(r.randint(0, 8)):
        if r.random() < 0.4:
            out.append(bytes(r.choice(TELLING) for _ in range(r.randint(1, 4))))
        else:
            out.append(r.choice(GOOD).encode(encoding))
    return b"".join(out)
