"""Input at the limits of 10, made on the spot: pairs of a name and bytes."""
from inputs import FIGURE_EIGHT, HOLE, SQUARE, joined, outline_lines, outlines, point_line
from text import MOST_BYTES, MOST_LINES

# A hole walked anticlockwise, so that its end turns it.
OPEN_WALK = b"B\tH\nP\t0\t0\nP\t9\t0\nP\t0\t9\n"
ALL_LINES_BUT_ONE = OPEN_WALK + b"\n" * (MOST_LINES - 1 - OPEN_WALK.count(b"\n"))


def filler(rng, size):
    """Long lines of no form, newlines included, of this size in all."""
    parts = []
    while size > 0:
        length = min(size, rng.randint(1, 6_000_000))
        parts.append(bytes([rng.choice(b"xEBA\t\r\x00\xff0")]) * (length - 1) + b"\n")
        size -= length
    return b"".join(parts)


def ending_at(rng, byte, before, after):
    """An open walk, filler, then the given bytes so that the last of `before` is this byte."""
    return OPEN_WALK + filler(rng, byte - len(OPEN_WALK) - len(before)) + before + after


def byte_limit_inputs(rng):
    """Byte 33,000,000 and byte 33,000,001 at every place in a line."""
    for byte in (MOST_BYTES, MOST_BYTES + 1):
        yield f"byte {byte} is the newline of a sound line", ending_at(rng, byte, b"E\n", b"B\nE\n")
        yield f"byte {byte} is inside a sound line", ending_at(rng, byte, b"P\t", b"5\t5\nE\n")
        yield f"byte {byte} is inside a hole's begin", ending_at(rng, byte, b"A\nB\t", b"H\nE\n")
        yield f"byte {byte} ends a hole's begin", ending_at(rng, byte, b"A\nB\tH", b"")
        yield f"byte {byte} is all of a sound line", ending_at(rng, byte, b"E", b"\nE\n")
        yield f"byte {byte} ends the input without a newline", ending_at(rng, byte, b"E", b"")
        yield f"byte {byte} is an empty line", ending_at(rng, byte, b"\n", b"")
        inside = ending_at(rng, byte, b"E\n" + b"x" * 50, b"y" * 100_000)
        yield f"byte {byte} is inside a long line", inside
        yield f"one line of {byte} bytes", b"x" * byte
        yield f"one line of {byte} bytes with its newline", b"x" * (byte - 1) + b"\n"


def line_limit_inputs():
    """Line 1,000,000 and line 1,000,001."""
    yield "1,000,000 lines", ALL_LINES_BUT_ONE + b"E\n"
    yield "1,000,001 lines, the last one byte", ALL_LINES_BUT_ONE + b"\nE"


def endless_inputs():
    """Pieces that come again and again without end."""
    yield "one line", b"x" * 65_000
    yield "lines of points", b"P\t-2000\t2000\n" * 5_000


def long_inputs(rng):
    """Those that cost more: under --long."""
    yield "1,000,000 lines of 33 bytes and a byte", (b"x" * 32 + b"\n") * MOST_LINES + b"\n"
    yield "1,000,000 lines, no last newline", ALL_LINES_BUT_ONE + b"E"
    yield "1,000,001 lines, the last empty", ALL_LINES_BUT_ONE + b"\n\n"
    yield "1,000,001 sound lines and more", b"B\nA\nB\tH\nA\n" * (MOST_LINES // 4) + b"E\nE\nB\n"
    walk = outline_lines([(x, x * 7 % 1999) for x in range(1000)])
    yield "a million points and more", joined(walk) * 1_010
    yield "one walk for a million lines", b"B\n" + joined(map(point_line, [(3, 4), (-5, 6)])) * 500_000
    heavy = joined(outlines(*[SQUARE * 256] * 16))
    yield "one end refused by 26 many times", heavy + b"E\n" * (MOST_LINES - heavy.count(b"\n"))
    no_area = joined(outline_lines(FIGURE_EIGHT, first=HOLE))
    yield "one end refused by 32 many times", no_area + b"E\n" * (MOST_LINES - no_area.count(b"\n"))
    for _ in range(4):
        alphabet = rng.choice([b"BEPAH\t0-19\n\n", b"\n\n\nBEAx", b"PBE\t\x00\r0123456789-\n",
                               b"BH\t\n\nAE", bytes(range(256))])
        data = bytes(rng.choices(alphabet, k=1_000_000)) * 34
        yield f"34,000,000 bytes of {alphabet[:20]!r}", data
    yield "40,000,000 newlines", b"\n" * 40_000_000
    yield "twice the bytes", b"E\n" + b"x" * (2 * MOST_BYTES)
