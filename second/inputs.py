"""Made-up input for the text program of documents 01 and 02: pairs of a name and bytes."""
from moves import started_at, walked_backwards

SQUARE = [(2000, -2000), (2000, 2000), (-2000, 2000), (-2000, -2000)]
QUADRANT = [(0, 0), (2000, 0), (2000, 2000), (0, 2000)]
LARGE_TRIANGLE = [(0, 0), (2000, 0), (0, 2000)]
LOW_RECTANGLE = [(-2000, 0), (2000, 0), (2000, 1000), (-2000, 1000)]
UNIT_TRIANGLE = [(0, 0), (1, 0), (0, 1)]
UNIT_SQUARE = [(0, 0), (1, 0), (1, 1), (0, 1)]
SQUARE_WEST = [(-1, 0), (0, 0), (0, 1), (-1, 1)]
RECTANGLE = [(2, 0), (10, 4), (8, 8), (0, 4)]
FIGURE_EIGHT = [(0, 0), (2, 2), (2, 0), (0, 2)]
POND = [(4, 2), (6, 3), (5, 5)]
# From (1, 0) and back: anticlockwise round the peg, then clockwise round a small triangle far from it.  A2 is above 0,
# but XX12, XY24 and YY12 are below.
LESS_MOMENT = [(1, 0), (1, 1), (-1, 1), (-1, -1), (1, -1), (1, 0), (10, 10), (10, 11), (11, 10), (10, 10), (1, 0)]

ISLAND = b"B"
HOLE = b"B\tH"
LISTING = (b"B\nP\t2\t0\nP\t10\t4\nP\t8\t8\nP\t0\t4\nE\n"
           b"B\nP\t0\t0\nP\t2\t2\nP\t2\t0\nP\t0\t2\nE\nP\t1\t1")

# Lines that have none of the forms.
ODD_LINES = [
    b"", b" ", b"\t", b"\r", b"\x00", b"b", b"e", b"a", b"p\t0\t0", b"S", b"O", b"R\t1\t9",
    b"B ", b" B", b"B\t", b"\tB", b"B\r", b"BB", b"BE", b"\x00B", b"B\x00", b"B\x1a", b"\xef\xbb\xbfB",
    b"B\tI", b"B\th", b"BH", b"B\tH\t", b"B\tH\tH", b"B\tHH", b"B\tHI", b"B\t\tH", b"B H", b"B\t H", b"B\tH ",
    b"B\tH\r", b"B\tH\x00", b"\tB\tH", b" B\tH", b"b\tH", b"BB\tH", b"H", b"\tH", b"H\tB", b"B\tB", b"B\tE",
    b"B\t1", b"B\tH\t1", b"B\x0bH", b"B\t\xc8", b"B\t\x48\xcc\x81", b"E\tH", b"A\tH", b"P\tH", b"S\tH",
    b"B\tH" + b" " * 29, b"B\tH" + b" " * 30, b"B\t" + b"H" * 30, b"B\t" + b"H" * 31,
    b"E ", b" E", b"E\t", b"E\r", b"EE", b"E\x00", b"\xc5", b"E\xff", b"A\r", b"A\t", b"AA", b"A\x80",
    b"P", b"P\t", b"P\t\t", b"P\t1", b"P\t1\t", b"P\t\t1", b"\tP\t1\t1", b" P\t1\t1", b"P1\t1", b"P\t11",
    b"P\t1\t1\t", b"P\t1\t1 ", b"P\t1\t1\r", b"P\t1\t1\x00", b"P\t1\t1\t1", b"P\t\t1\t1", b"P\t1\t\t1",
    b"P 1 1", b"P\t1 1", b"P 1\t1", b"P\t 1\t1", b"P\t1\t 1", b"P\t1 \t1", b"P\x0b1\x0b1", b"PP\t1\t1",
    b"P\t+1\t1", b"P\t1\t+1", b"P\t-0\t0", b"P\t0\t-0", b"P\t-00\t0", b"P\t00\t0", b"P\t0\t00",
    b"P\t000\t1", b"P\t0000\t1", b"P\t01\t0", b"P\t0\t01", b"P\t-01\t5", b"P\t5\t-01", b"P\t0001\t0",
    b"P\t--1\t1", b"P\t1\t--1", b"P\t-\t1", b"P\t1\t-", b"P\t1-\t1", b"P\t1-1\t1", b"P\t-+1\t1",
    b"P\t10000\t0", b"P\t0\t10000", b"P\t-10000\t0", b"P\t0\t-12345", b"P\t02000\t0", b"P\t0\t-02000",
    b"P\t65537\t0", b"P\t4294967297\t0", b"P\t18446744073709551617\t0",
    b"P\t1e3\t0", b"P\t1.0\t0", b"P\t0x1\t0", b"P\t1_0\t0",
    b"P\t/\t1", b"P\t:\t1", b"P\t1:\t1", b"P\t1\t1/",
    b"P\t\xb2\t1", b"P\t\xef\xbc\x91\t1", b"P\t\xd9\xa3\t1", b"P\t1\t\xb1", b"P\t\xe2\x88\x921\t1",
    b"x" * 32, b"x" * 33, b"E" * 32, b"E" * 33, b"B" + b" " * 31, b"B" + b" " * 32, b"E" + b"\x00" * 32,
    b"P\t1\t1" + b" " * 26, b"P\t1\t1" + b" " * 27, b"P\t1\t" + b"0" * 28, b"P\t1\t" + b"0" * 29,
    b"0" * 31 + b"E", b"0" * 32 + b"E", b"P\t" + b"0" * 28 + b"\t1", b"P\t" + b"0" * 29 + b"\t1",
]


def with_tabs(shown_lines):
    """Lines shown with spaces, as bytes with tabs and newlines."""
    return "".join(line.replace(" ", "\t") + "\n" for line in shown_lines).encode()


def point_line(place):
    """P, tab, x, tab, y."""
    return b"P\t%d\t%d" % place


def outline_lines(points, last=b"E", first=ISLAND):
    """Begin, the points, and end or what is given for it."""
    return [first, *(point_line(place) for place in points), last]


def joined(lines):
    """Every line with its newline."""
    return b"".join(line + b"\n" for line in lines)


def outlines(*many, first=ISLAND):
    """Several outlines as lines, one after the other."""
    return [line for points in many for line in outline_lines(points, first=first)]


def both_ways(points):
    """The ring from its first point, and walked backwards from its last."""
    return [points, walked_backwards(points)]


def every_way(points):
    """The ring walked both ways, each from every point."""
    return [started_at(way, start) for way in both_ways(points) for start in range(len(points))]


def swapped(points):
    """x and y exchanged, in the direction that keeps the signs."""
    return [(y, x) for x, y in reversed(points)]


def up_to_the_sheet_limit():
    """Lists of outlines that bring XX12, or XY24, of a sheet to 10^18 exactly."""
    xx12 = [SQUARE * 256] * 15 + [SQUARE * 66, LOW_RECTANGLE]
    xy24 = [QUADRANT * 256] * 40 + [QUADRANT * 176, LARGE_TRIANGLE * 4]
    return xx12, xy24


def over_and_back(triangle, first):
    """At a sheet limit.  A figure eight is 32, though its moments would pass the limit one way.  A triangle more is 26;
    one of the other kind makes room for one.  Then it is 26 again, 32 with a point that undoes its area, and accepted
    with points that give it area and smaller moments."""
    one_more = outline_lines(triangle, first=first)
    lines = [line for eight in both_ways(FIGURE_EIGHT) for line in [*outline_lines(eight, first=first), b"A"]]
    lines += [*one_more, b"A", *outline_lines(triangle, first=HOLE if first == ISLAND else ISLAND), *one_more, *one_more]
    lines += [ISLAND, b"E", point_line(triangle[1]), b"E", HOLE, b"E"]
    return [*lines, *map(point_line, LESS_MOMENT), b"E", b"E"]


def sheet_limit_inputs():
    """26 from both sides of the limit, and its place behind 32 and 25."""
    xx12, xy24 = up_to_the_sheet_limit()
    for total, many, first, change in (("XX12", xx12, ISLAND, list), ("XX12", xx12, ISLAND, walked_backwards),
                                       ("XX12", xx12, HOLE, list), ("XX12", xx12, HOLE, walked_backwards),
                                       ("YY12", xx12, ISLAND, swapped), ("XY24", xy24, ISLAND, list),
                                       ("XY24", xy24, HOLE, list)):
        lines = outlines(*map(change, many), first=first) + over_and_back(change(UNIT_TRIANGLE), first)
        yield f"{total} at the sheet limit by {first!r}, {change.__name__}", joined(lines)
    for first in (ISLAND, HOLE):
        for square in both_ways(SQUARE):
            sixteen = outlines(*[square * 256] * 16, first=first)
            yield f"16 outlines of 1,024 points, {first!r}", joined(sixteen + [b"P\t1\t1", b"B", b"E", b"A", b"A"])
    small = outlines(*[UNIT_TRIANGLE] * 49)
    yield "25 before 26, 32 before 25", joined(outlines(*[SQUARE * 256] * 15) + small + outline_lines(SQUARE * 256)
                                               + [b"A"] + outline_lines(FIGURE_EIGHT))


def ring_inputs():
    """32, and islands and holes walked both ways."""
    rings = [ring for points in (POND, RECTANGLE, UNIT_SQUARE) for ring in every_way(points)]
    half = [(i, (i * i) % 2001) for i in range(512)]
    one_point_more = [b"P\t1\t1", b"E"]
    for first in (ISLAND, HOLE):
        yield f"every way, {first!r}", joined(outlines(*rings, first=first))
        for eight in both_ways(FIGURE_EIGHT):
            yield f"figure eight, {first!r}", joined(outline_lines(eight, first=first) + one_point_more + [b"E"])
        yield f"32 leaves the walk open, {first!r}", joined(
            outline_lines([(5, 7)] * 3, first=first)
            + [ISLAND, HOLE, b"E", b"P\t6\t7", b"E", b"P\t2001\t0", b"P\t6\t8", b"E", b"E"])
        yield f"1,024 points there and back, {first!r}", joined(
            outline_lines(half + walked_backwards(half), first=first) + one_point_more + [b"A", b"E"])
        yield f"22 keeps the kind, {first!r}", joined(
            [first, HOLE, b"P\t0\t0", ISLAND, b"P\t4\t0", HOLE, b"P\t0\t4", ISLAND, b"E", b"E"])
        pond = outline_lines(POND, first=first)
        yield f"the kind of the last begin, {first!r}", joined(
            [HOLE, b"A", *pond, ISLAND, b"A", *pond, *outline_lines(POND), *pond])
        yield f"32 on a full sheet, {first!r}", joined(
            outlines(*[UNIT_TRIANGLE] * 63, first=first)
            + (outline_lines(FIGURE_EIGHT, first=first) + one_point_more) * 2)
    for lake in both_ways(RECTANGLE):
        all_of_the_plot = outlines(RECTANGLE) + outlines(lake, first=HOLE)
        yield "all of the plot a lake", joined(all_of_the_plot)
        yield "all of the plot a lake, then an island", joined(all_of_the_plot + outlines(POND))
    mirrored = [(x, -y) for x, y in LARGE_TRIANGLE]
    yield "sheet area zero, moments left", joined(outlines(LARGE_TRIANGLE) + outlines(mirrored, first=HOLE))


def state_inputs():
    """21 to 25 and 27 in their orders, each on a small sheet."""
    yield "no walk open", (b"E\nA\nP\t1\t1\nP\t2001\t0\nP\t-2001\t0\nP\t0\t2001\nP\t0\t-2001\n"
                           b"P\t9999\t-9999\nP\t10000\t0\n"
                           b"B\nA\nE\nA\nP\t0\t0\n")
    yield "22 resets nothing", b"B\nP\t0\t0\nP\t4\t0\nB\nP\t0\t4\nB\nE\nB\nB\nE\n"
    yield "24 leaves the walk open", b"B\nE\nP\t1\t1\nE\nP\t5\t1\nE\nP\t1\t5\nE\nE\n"
    yield "out of limits", b"B\nP\t2000\t0\nP\t2001\t0\nP\t0\t2000\nP\t0\t-2001\nP\t-2000\t-2000\nE\n"
    for points in (1023, 1024, 1025):
        lines = [b"B", *(point_line((i, (i * i) % 2001)) for i in range(points))]
        lines += [b"P\t2001\t0", b"P\t0\t0", b"P\t0\t-2001", b"E", b"E"]
        yield f"walk of {points} points", joined(lines)
    full = outlines(*[[(i, 0), (i + 2, 1), (i, 3)] for i in range(66)])
    yield "66 outlines", joined(full + [b"E", b"P\t1\t1", b"E", b"A", b"B", b"E", b"P\t0\t0", b"E"])
    squares = [[(x, y), (x + 1, y), (x + 1, y + 1), (x, y + 1)]
               for x in range(-3, 3) for y in range(-3, 3)]
    yield "centres at halves", joined(outlines(*squares))
    yield "centres at halves, walked backwards", joined(outlines(*map(walked_backwards, squares)))
    yield "centres at halves, holes", joined(outlines(*squares, first=HOLE))
    yield "walk left open", joined(outline_lines(SQUARE)[:-1])
    yield "first point repeated", joined(outlines(SQUARE + SQUARE[:1], LARGE_TRIANGLE))


def form_inputs():
    """9: lines of no form between lines of a form, so that a line wrongly taken shows."""
    yield "listing", LISTING
    for data in (b"", b"\n", b"B", b"E", b"\n\n", b"\r", b"\x00", b"x", b"P\t1",
                 b"B\nP\t1\t1", b"B\r\nE\r\n", b"B\tH", b"B\tH\n", b"B\t", b"B\tH\nB\tH"):
        yield f"short input {data!r}", data
    between = [b"P\t0\t0", b"P\t7\t1", b"P\t3\t9"]
    yield "odd lines, no walk", joined(ODD_LINES)
    yield "odd lines in walks", joined(
        line for odd in ODD_LINES for line in (b"B", between[0], odd, between[1], odd, between[2], b"E"))
    places = [b"%b", b"%b\t1\t1", b"P%b1\t1", b"P\t%b\t1", b"P\t1%b\t1", b"P\t%b1\t1", b"P\t1%b1",
              b"P\t1\t%b", b"P\t1\t%b1", b"P\t1\t1%b", b"B%b", b"E%b", b"%bA",
              b"P\t1\t-%b", b"P\t1%b2\t3"]
    for place in places:
        lines = [line for value in range(256)
                 for line in (b"B", between[0], place % bytes([value]), between[1], b"E", b"A")]
        yield f"every byte in {place!r}", joined(lines)
    for place in (b"B%b", b"%b\tH", b"B%bH", b"B\t%b", b"B\tH%b", b"B\t%bH"):
        lines = [line for value in range(256) for line in (place % bytes([value]), *between, b"E", b"A")]
        yield f"every byte in {place!r} as begin", joined(lines)
    values = list(range(-2000, 2001))
    yield "every coordinate", joined(outlines(*(
        [(x, -x if x % 3 else x // 2) for x in values[i::4]] for i in range(4))))
    outside = [*range(-10010, -2000), *range(2001, 10010)]
    yield "every coordinate outside", joined(
        [b"B"] + [point_line((x, 0) if x % 2 else (0, x)) for x in outside] + [b"E"])


def border_inputs():
    """Long lines before and across the places where a reader may divide its input."""
    sound = joined(outline_lines(POND, first=HOLE) + outline_lines([(-2000, 1999), (1987, -1765), (1234, 1876)]))
    for border in (32, 64, 1024, 4096, 8192, 16384, 32768, 65536, 131072):
        for length in (border - 20, border - 7, border - 3, border - 2, border - 1, border, border + 1):
            long_line = b"E" * length + b"\n"
            yield f"{length} bytes before sound lines", long_line + sound + long_line + b"E"
    yield "long lines without a newline at the end", sound + b"B\n" * 3 + b"x" * 200_000


def fixed_inputs():
    """Those that come in every run."""
    yield from form_inputs()
    yield from state_inputs()
    yield from ring_inputs()
    yield from sheet_limit_inputs()
    yield from border_inputs()
