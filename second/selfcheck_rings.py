"""Checks of islands and holes, run by selfcheck.py: the figures of CR 3 of document 02, corner
cases of its rules, and made-up rings, each walked both ways from every point.
"""
import text
from checks import check
from figures import CLOSED_WALK, FRESH_HOLE, FRESH_ISLAND, NEW_SHEET, TOTAL_LIMIT, ZERO_TOTALS
from figures import Kind, Sheet, Totals
from figures import abandon, begin, closed_totals, end, list_call, point
from floats import PLUS_ZERO
from inputs import FIGURE_EIGHT, HOLE, ISLAND, LISTING, POND, RECTANGLE, UNIT_SQUARE
from inputs import every_way, joined, outline_lines, with_tabs
from moves import walked_backwards
from worked import numbers_of, walked

RECTANGLE_LINE = "O 1 4 80 1200 960 14720 21120 8960 5 4"
UNIT_TOTALS = (2, 3, 3, 4, 6, 4)
FRESH_WALKS = {Kind.ISLAND: FRESH_ISLAND, Kind.HOLE: FRESH_HOLE}
SIGNS = {Kind.ISLAND: 1, Kind.HOLE: -1}
# Nearly a begin, and of no form.
NO_BEGIN_LINES = (b"B\tI", b"B\th", b"BH", b"B\t", b"B\tH\t", b"B H", b"B\tHH", b"b\tH", b"H", b"B\t\tH", b"B\tH\r")


def times(sign, totals):
    """The six, or the six with the other sign."""
    return tuple(sign * total for total in totals)


def sheet_with(total, value):
    """A sheet of one outline whose totals are all 0 but this one, named by its place."""
    return Sheet(1, Totals(*(value if place == total else 0 for place in range(6))))


def printed(*rings):
    """What the text program prints for rings, each given by its begin line and its points."""
    return text.output(b"".join(joined(outline_lines(points, first=first)) for first, points in rings))


# The text program

def check_worked_rings():
    """CR 3: the listing with one more end; a pond in the rectangle; a rectangle and the same as a hole."""
    check("listing and one more end", text.output(LISTING + b"\nE\n"),
          with_tabs([RECTANGLE_LINE, "R 12 32", "O 2 5 2 10 6 34 40 14 2 1", "S 2 82 1210 966 14754 21160 8974 5 4"]))
    for pond in every_way(POND):
        check("pond", printed((ISLAND, RECTANGLE), (HOLE, pond)),
              with_tabs([RECTANGLE_LINE, "O 2 3 -5 -75 -50 -755 -1005 -345 5 3", "S 2 75 1125 910 13965 20115 8615 5 4"]))
    for lake in every_way(RECTANGLE):
        check("all of the plot a lake", printed((ISLAND, RECTANGLE), (HOLE, lake)),
              with_tabs([RECTANGLE_LINE, "O 2 4 -80 -1200 -960 -14720 -21120 -8960 5 4", "S 2 0 0 0 0 0 0 - -"]))
    for line in NO_BEGIN_LINES:
        check("9", text.output(line), with_tabs(["R 1 9", "S 0 0 0 0 0 0 0 - -"]))
        check("9 leaves a hole open", text.output(joined([HOLE, line, *outline_lines(UNIT_SQUARE)[1:]])),
              with_tabs(["R 2 9", "O 1 4 -2 -3 -3 -4 -6 -4 1 1", "S 1 -2 -3 -3 -4 -6 -4 1 1"]))
    for first, totals in ((ISLAND, "2 3 3 4 6 4"), (HOLE, "-2 -3 -3 -4 -6 -4")):
        for second in (ISLAND, HOLE):
            check("22 keeps the kind", text.output(joined([first, second, *outline_lines(UNIT_SQUARE)[1:]])),
                  with_tabs(["R 2 22", f"O 1 4 {totals} 1 1", f"S 1 {totals} 1 1"]))


# The kind of a walk

def check_kinds():
    """Begin gives the kind, point and refusals keep it, and a closed walk is an island."""
    check("a closed walk's kind", CLOSED_WALK.kind, Kind.ISLAND)
    closed_hole = CLOSED_WALK._replace(kind=Kind.HOLE, count=7)
    check("closed hole, point", point(closed_hole, (1, 1)), (21, closed_hole))
    check("closed hole, end", end(closed_hole, NEW_SHEET), (21, ZERO_TOTALS, PLUS_ZERO, closed_hole, NEW_SHEET))
    check("closed hole, abandon", abandon(closed_hole), (21, closed_hole))
    for kind, fresh in FRESH_WALKS.items():
        check("a fresh walk's kind", fresh.kind, kind)
        for closed in (CLOSED_WALK, closed_hole):
            check("begin", begin(closed, kind), (0, fresh))
        walk = fresh
        for place in UNIT_SQUARE:
            for asked in Kind:
                check("22 keeps the walk", begin(walk, asked), (22, walk))
            check("1 keeps the walk", point(walk, (0, 2001)), (1, walk))
            check("abandoned", abandon(walk), (0, CLOSED_WALK))
            number, walk = point(walk, place)
            check("point keeps the kind", (number, walk.kind), (0, kind))
        check("ended", end(walk, NEW_SHEET)[3], CLOSED_WALK)
        long_walk = walked(UNIT_SQUARE * 256, kind)
        check("23 keeps the walk", point(long_walk, (5, 5)), (23, long_walk))
        impossible = fresh._replace(count=1025)
        for number, *afterwards in (begin(impossible, Kind.ISLAND), point(impossible, (0, 0)), abandon(impossible)):
            check("28 keeps the walk", (number, afterwards), (28, [impossible]))


# End

def check_end_order():
    """Order 28, 21, 24, 32, 25, 26; 32 leaves the walk open, and it takes more points."""
    full, past = Sheet(64, ZERO_TOTALS), Sheet(65, ZERO_TOTALS)
    for kind, sign in SIGNS.items():
        eight = walked(FIGURE_EIGHT, kind)
        two_points = walked(FIGURE_EIGHT[:2], kind)
        check("28 before 32", end(eight, past), (28, ZERO_TOTALS, PLUS_ZERO, eight, past))
        check("24 before 32", end(two_points, full), (24, ZERO_TOTALS, PLUS_ZERO, two_points, full))
        check("32 before 25", end(eight, full), (32, ZERO_TOTALS, PLUS_ZERO, eight, full))
        for x6 in (-TOTAL_LIMIT, TOTAL_LIMIT):
            sheet = sheet_with(1, x6)    # the figure eight's X6 is -8
            check("32 before 26", end(eight, sheet), (32, ZERO_TOTALS, PLUS_ZERO, eight, sheet))
        with_area = walked(UNIT_SQUARE, kind)
        limits = Sheet(64, Totals(*[sign * TOTAL_LIMIT] * 6))
        check("25 before 26", end(with_area, limits), (25, ZERO_TOTALS, PLUS_ZERO, with_area, limits))
        check("32", end(eight, NEW_SHEET), (32, ZERO_TOTALS, PLUS_ZERO, eight, NEW_SHEET))
        number, walk = point(end(eight, NEW_SHEET)[3], (1, 1))
        check("one more point", (number, walk.count, walk.kind), (0, 5, kind))
        wanted = times(sign, (2, 10, 6, 34, 40, 14))
        check("one more end", end(walk, NEW_SHEET), (0, wanted, PLUS_ZERO, CLOSED_WALK, Sheet(1, wanted)))


def check_turns():
    """26 looks at the turned totals; walks handed in are turned by their fields."""
    check("the list call knows no kind", list_call(numbers_of(walked_backwards(UNIT_SQUARE))), (0, times(-1, UNIT_TOTALS)))
    check("the list call accepts a zero area", list_call(numbers_of(FIGURE_EIGHT)), (0, (0, -8, 0, -32, -32, 0)))
    for kind, sign in SIGNS.items():
        totals = times(sign, UNIT_TOTALS)
        near, far = (sheet_with(0, side * sign * (TOTAL_LIMIT - 1)) for side in (1, -1))
        afterwards = Sheet(2, (sign * (3 - TOTAL_LIMIT), *totals[1:]))
        for square in every_way(UNIT_SQUARE):
            walk = walked(square, kind)
            check("26 by the turn", end(walk, near), (26, ZERO_TOTALS, PLUS_ZERO, walk, near))
            check("no 26 by the turn", end(walk, far), (0, totals, PLUS_ZERO, CLOSED_WALK, afterwards))
            for total in range(6):
                most = sign * TOTAL_LIMIT - totals[total]
                check("up to the limit", end(walk, sheet_with(total, most))[:2], (0, totals))
                check("past the limit", end(walk, sheet_with(total, most + sign))[:2], (26, ZERO_TOTALS))
        for a2 in (24_000_000, -24_000_000):
            handed_in = FRESH_WALKS[kind]._replace(count=3, totals=ZERO_TOTALS._replace(a2=a2))
            wanted = ZERO_TOTALS._replace(a2=sign * 24_000_000)
            check("handed in", end(handed_in, NEW_SHEET), (0, wanted, PLUS_ZERO, CLOSED_WALK, Sheet(1, wanted)))
        no_area = FRESH_WALKS[kind]._replace(count=3, totals=ZERO_TOTALS._replace(x6=5))
        check("handed in without area", end(no_area, NEW_SHEET), (32, ZERO_TOTALS, PLUS_ZERO, no_area, NEW_SHEET))
        closing = no_area._replace(first=(0, 1), last=(1, 0))
        check("handed in, area by the closing edge", end(closing, NEW_SHEET)[1], times(sign, (1, 6, 1, 1, 1, 1)))
        undone = closing._replace(totals=ZERO_TOTALS._replace(a2=-1))
        check("handed in, area undone by the closing edge", end(undone, NEW_SHEET)[0], 32)


def check_ring_laws(outline):
    """On a made-up outline: whichever way and from wherever it is walked, the same answer and the same sheet.
    There and back it has no area."""
    _, whole = list_call(numbers_of(outline))
    sheet = Sheet(3, Totals(5, -7, 11, 0, 1, -2))
    for kind, sign in SIGNS.items():
        for ring in every_way(outline):
            walk = walked(ring, kind)
            if whole.a2 == 0:
                check("no area", end(walk, sheet), (32, ZERO_TOTALS, PLUS_ZERO, walk, sheet))
                continue
            wanted = times(sign if whole.a2 > 0 else -sign, whole)
            sums = tuple(map(sum, zip(sheet.totals, wanted)))
            check("every way", end(walk, sheet), (0, wanted, PLUS_ZERO, CLOSED_WALK, Sheet(4, sums)))
        there_and_back = walked(outline + walked_backwards(outline), kind)
        check("there and back", closed_totals(there_and_back), ZERO_TOTALS)
        check("there and back, end", end(there_and_back, sheet), (32, ZERO_TOTALS, PLUS_ZERO, there_and_back, sheet))
