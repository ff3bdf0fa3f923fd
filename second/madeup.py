"""Input from a seeded generator for the text program: valid, damaged and mixed."""
from inputs import HOLE, ISLAND, LISTING, ODD_LINES, SQUARE, joined, outline_lines, point_line
from moves import Cut, walked_backwards

BYTES_TO_PUT_IN = b"\n\n\n\t\t\r\x00\xff\x80\xb2BEAPHbeph 0123456789-+.:/"


def random_points(rng, reach, least, most):
    """Between the least and the most number of points, each coordinate at most the reach from 0."""
    return [(rng.randint(-reach, reach), rng.randint(-reach, reach))
            for _ in range(rng.randint(least, most))]


def random_cuts(rng, outline):
    """Up to five cuts; some cannot be made."""
    return [Cut(rng.randrange(4), rng.randrange(len(outline) + 1), rng.randrange(len(outline) + 1))
            for _ in range(rng.randrange(6))]


def begin_line(rng):
    """A hole as often as an island."""
    return rng.choice([ISLAND, HOLE])


def either_way(rng, points):
    """The ring as it is or walked backwards."""
    return rng.choice([points, walked_backwards(points)])


def survey(rng):
    """Outlines, some with too few points or no area, and single calls in any order; some outlines come again
    backwards, of either kind."""
    reach = rng.choice([1, 2, 3, 10, 300, 2000, 2003, 9999])
    with_odd_lines = rng.random() < 0.4
    lines = []
    for _ in range(rng.randint(1, 90)):
        chance = rng.random()
        if chance < 0.6:
            points = random_points(rng, reach, 0, 9)
            if rng.random() < 0.1:
                points += walked_backwards(points)    # there and back: no area
            lines += outline_lines(points, rng.choice([b"E"] * 8 + [b"A", b"B", HOLE]), begin_line(rng))
            if rng.random() < 0.2:
                lines += outline_lines(walked_backwards(points), first=begin_line(rng))
        elif chance < 0.9 or not with_odd_lines:
            lines.append(rng.choice([b"B", HOLE, b"E", b"A", point_line((rng.randint(-2, 2), 3))]))
        else:
            lines.append(rng.choice(ODD_LINES))
    return joined(lines)


def damaged(rng):
    """A survey with a few bytes changed, dropped, doubled or put in, or its end cut off."""
    data = bytearray(rng.choice([LISTING, survey(rng), survey(rng)]))
    for _ in range(rng.randint(1, 12)):
        if not data:
            break
        place = rng.randrange(len(data))
        kind = rng.randrange(6)
        if kind == 0:
            data[place] = rng.choice(BYTES_TO_PUT_IN)
        elif kind == 1:
            data[place] ^= 1 << rng.randrange(8)
        elif kind == 2:
            del data[place:place + rng.choice([1, 1, 2, 9])]
        elif kind == 3:
            data[place:place] = data[place:place + rng.choice([1, 1, 2, 9])]
        elif kind == 4:
            data.insert(place, rng.choice(BYTES_TO_PUT_IN))
        elif rng.random() < 0.3:
            del data[place:]
    return bytes(data)


def line_soup(rng):
    """Lines from few bytes, so that many are nearly of a form."""
    def number():
        sign = rng.choice([b"", b"", b"", b"-", b"+", b"0"])
        return sign + bytes(rng.choices(b"012", k=rng.choice([1, 1, 2, 3, 4, 5])))

    def nearly():
        return bytes(rng.choices(b"BEPAH\t01-", k=rng.randint(0, 7)))

    def nearly_begin():
        return b"".join(rng.choices([b"B", b"\t", b"H", b"h", b"I", b" "], k=rng.randint(1, 4)))

    lines = []
    for _ in range(rng.randint(1, 60)):
        point = b"P\t" + number() + b"\t" + number()
        lines.append(rng.choice([b"B", HOLE, b"E", point, point, point, point, nearly(), nearly_begin()]))
    return joined(lines)


def long_walk(rng):
    """About 1,024 points, then points in and out of limits and ends."""
    points = random_points(rng, 2000, 1018, 1028)
    tail = [rng.choice([b"E", b"B", HOLE, b"P\t2001\t0", b"P\t1\t1", b"x", b"A"]) for _ in range(8)]
    return joined(outline_lines(points, first=begin_line(rng)) + tail + outline_lines(points[:5], first=begin_line(rng)))


def full_sheet(rng):
    """About 64 outlines, and some that have no area and are abandoned."""
    lines = []
    for _ in range(rng.randint(62, 72)):
        lines += outline_lines(random_points(rng, 5, 3, 6), first=begin_line(rng))
        if rng.random() < 0.1:
            lines += outline_lines([(1, 2)] * rng.randint(2, 4), first=begin_line(rng)) + [b"A"]
        if rng.random() < 0.1:
            lines.append(rng.choice([b"E", b"A", b"B", HOLE, b"P\t1\t1"]))
    return joined(lines)


def heavy_sheet(rng):
    """Rings of one kind near the bounds until a sheet total would pass 10^18; some of the other kind make room."""
    first, other = rng.choice([(ISLAND, HOLE), (HOLE, ISLAND)])
    lines = []
    for _ in range(rng.randint(15, 18)):
        lines += outline_lines(either_way(rng, SQUARE) * rng.randint(230, 256), first=first)
        if rng.random() < 0.3:
            lines += outline_lines(either_way(rng, SQUARE) * rng.randint(1, 9), first=other)
        lines += rng.choice([[], [b"A"], [b"E"]])
    return joined(lines)


def long_lines(rng):
    """Sound lines between lines of any length up to 140,000 bytes."""
    parts = []
    for _ in range(rng.randint(1, 6)):
        near = rng.choice([32, 1024, 4096, 8192, 32768, 65536, 70000])
        length = max(0, rng.choice([near, near, 2 * near]) - rng.randint(0, 40))
        filling = bytes([rng.choice(b"xE\t0\x00\r")])
        parts.append(filling * length + rng.choice([b"\n", b"\n", b"E\n", b""]))
        parts.append(survey(rng)[:400])
    return b"".join(parts)


def random_input(rng):
    """One made-up input with its name."""
    kinds = ([survey] * 8 + [damaged] * 10 + [line_soup] * 6 + [long_lines] * 3
             + [long_walk, full_sheet] * 2)
    kind = heavy_sheet if rng.random() < 0.02 else rng.choice(kinds)
    data = kind(rng)
    if data and rng.random() < 0.3:
        data = data[:-1]
    return kind.__name__.replace("_", " "), data
