"""Outlines, walks, sheets and centres of document 01, straight from its rules; islands
and holes as CR 3 of document 02 has them, the walk's longest outage as CR 9 has it.

Maps and cuts are in moves.py, cells in cells.py, two walkers in walkers.py, a receiver's
entries in receiver.py, third moments in third_moments.py.  Whole numbers only: an outage
stands by the bits of its float.
Every call answers a refusal number first; 0 means that the call was accepted.  A refused
call answers zeros and changes nothing.
"""
from enum import Enum
from operator import add, gt, neg
from typing import NamedTuple

from floats import PLUS_ZERO, outage_refusal

COORDINATE_LIMIT = 2_000
LEAST_POINTS = 3
MOST_POINTS = 1_024
MOST_OUTLINES = 64
TOTAL_LIMIT = 10 ** 18

ACCEPTED = 0


class Totals(NamedTuple):
    """The six scaled totals, in the order of "The six totals of an outline"."""
    a2: int
    x6: int
    y6: int
    xx12: int
    xy24: int
    yy12: int


class Kind(Enum):
    """CR 3: what the ring of a walk bounds."""
    ISLAND = "island"
    HOLE = "hole"


class Walk(NamedTuple):
    """"Walk and sheet": the walk that the caller holds."""
    is_open: bool
    kind: Kind
    count: int
    first: tuple
    last: tuple
    totals: Totals
    longest_outage: int    # the bits of a float


class Sheet(NamedTuple):
    """"Walk and sheet": outlines accepted so far and the sums of their totals as added."""
    count: int
    totals: Totals


ZERO_TOTALS = Totals(0, 0, 0, 0, 0, 0)
OUTLINE_BOUNDS = Totals(8_192_000_000,
                        32_768_000_000_000, 32_768_000_000_000,
                        98_304_000_000_000_000, 196_608_000_000_000_000,
                        98_304_000_000_000_000)
# 28, by an open walk's count of points; 1/1,024 of each outline bound is a whole number.
WALK_BOUNDS = [Totals(*(count * bound // MOST_POINTS for bound in OUTLINE_BOUNDS))
               for count in range(MOST_POINTS + 1)]
SHEET_BOUNDS = Totals(*[TOTAL_LIMIT] * 6)
CLOSED_WALK = Walk(False, Kind.ISLAND, 0, (0, 0), (0, 0), ZERO_TOTALS, PLUS_ZERO)
FRESH_ISLAND = CLOSED_WALK._replace(is_open=True)
FRESH_HOLE = FRESH_ISLAND._replace(kind=Kind.HOLE)
NEW_SHEET = Sheet(0, ZERO_TOTALS)


# The six totals of an outline

def edge_terms(start, end):
    """The six edge terms of the edge from (x, y) to (p, q)."""
    x, y = start
    p, q = end
    c = x * q - p * y
    return Totals(c,
                  (x + p) * c,
                  (y + q) * c,
                  (x * x + x * p + p * p) * c,
                  (2 * x * y + x * q + p * y + 2 * p * q) * c,
                  (y * y + y * q + q * q) * c)


def added(totals, more):
    """Each of the six added by itself."""
    return Totals(*map(add, totals, more))


def within_bounds(totals, bounds):
    """No total is greater in size than its bound."""
    return not any(map(gt, map(abs, totals), bounds))


def outline_totals(points):
    """The edge terms summed over all edges, the closing edge included."""
    terms = [edge_terms(points[i - 1], points[i]) for i in range(1, len(points))]
    terms.append(edge_terms(points[-1], points[0]))
    return Totals(*(sum(column) for column in zip(*terms)))


def within_limits(place):
    """Not turned back by 1."""
    x, y = place
    return (-COORDINATE_LIMIT <= x <= COORDINATE_LIMIT
            and -COORDINATE_LIMIT <= y <= COORDINATE_LIMIT)


def points_of(numbers):
    """The points of a list of numbers, x and y in turn."""
    return list(zip(numbers[0::2], numbers[1::2]))


def list_call(numbers):
    """A whole outline as one list, x and y in turn: (number, totals).  Order 2, 1."""
    if len(numbers) % 2 != 0 or not LEAST_POINTS <= len(numbers) // 2 <= MOST_POINTS:
        return 2, ZERO_TOTALS
    points = points_of(numbers)
    if not all(within_limits(place) for place in points):
        return 1, ZERO_TOTALS
    return ACCEPTED, outline_totals(points)


# Walk and sheet

def walk_is_turned_back(walk):
    """The walk's half of 28, which looks at an open walk only; since CR 9 also at its longest outage."""
    if not walk.is_open:
        return False
    if walk.count > MOST_POINTS or outage_refusal(walk.longest_outage) != ACCEPTED:
        return True
    if walk.count > 0 and not (within_limits(walk.first) and within_limits(walk.last)):
        return True
    return not within_bounds(walk.totals, WALK_BOUNDS[walk.count])


def sheet_is_turned_back(sheet):
    """The sheet's half of 28."""
    return sheet.count > MOST_OUTLINES or not within_bounds(sheet.totals, SHEET_BOUNDS)


def begin(walk, kind):
    """(number, walk afterwards).  Order 28, 22."""
    if walk_is_turned_back(walk):
        return 28, walk
    if walk.is_open:
        return 22, walk
    return ACCEPTED, FRESH_HOLE if kind is Kind.HOLE else FRESH_ISLAND


def point(walk, place):
    """(number, walk afterwards).  Order 28, 21, 1, 23."""
    if walk_is_turned_back(walk):
        return 28, walk
    if not walk.is_open:
        return 21, walk
    if not within_limits(place):
        return 1, walk
    if walk.count >= MOST_POINTS:
        return 23, walk
    if walk.count == 0:
        return ACCEPTED, walk._replace(count=1, first=place, last=place)
    totals = added(walk.totals, edge_terms(walk.last, place))
    return ACCEPTED, walk._replace(count=walk.count + 1, last=place, totals=totals)


def closed_totals(walk):
    """The walk's totals with the closing edge, in the direction in which it was walked."""
    return added(walk.totals, edge_terms(walk.last, walk.first))


def negated(totals):
    """All six with the other sign."""
    return Totals(*map(neg, totals))


def turned(kind, totals):
    """CR 3: the totals as added.  An island's A2 is above 0, a hole's below; else all six change sign."""
    has_wrong_sign = totals.a2 > 0 if kind is Kind.HOLE else totals.a2 < 0
    return negated(totals) if has_wrong_sign else totals


def add_to_sheet(sheet, totals):
    """An outline's totals put on a sheet: (number, sheet afterwards).  Order 25, 26."""
    if sheet.count >= MOST_OUTLINES:
        return 25, sheet
    sums = added(sheet.totals, totals)
    if not within_bounds(sums, SHEET_BOUNDS):
        return 26, sheet
    return ACCEPTED, sheet._replace(count=sheet.count + 1, totals=sums)


def refused_end(number, walk, sheet):
    """What a refused end answers, with the walk and the sheet as they were."""
    return number, ZERO_TOTALS, PLUS_ZERO, walk, sheet


def end(walk, sheet):
    """(number, totals, longest outage, walk afterwards, sheet afterwards).  Order 28, 21, 24, 32, 25, 26."""
    if walk_is_turned_back(walk) or sheet_is_turned_back(sheet):
        return refused_end(28, walk, sheet)
    if not walk.is_open:
        return refused_end(21, walk, sheet)
    if walk.count < LEAST_POINTS:
        return refused_end(24, walk, sheet)
    totals = closed_totals(walk)
    if totals.a2 == 0:
        return refused_end(32, walk, sheet)
    totals = turned(walk.kind, totals)
    number, sheet_afterwards = add_to_sheet(sheet, totals)
    if number != ACCEPTED:
        return refused_end(number, walk, sheet)
    return ACCEPTED, totals, walk.longest_outage, CLOSED_WALK, sheet_afterwards


def abandon(walk):
    """(number, walk afterwards).  Order 28, 21."""
    if walk_is_turned_back(walk):
        return 28, walk
    if not walk.is_open:
        return 21, walk
    return ACCEPTED, CLOSED_WALK


# Centre

def rounded_half_up(n, d):
    """The whole number nearest to n/d, of two the greater, for d above 0."""
    k = (2 * n + d) // (2 * d)
    assert 2 * k * d - d <= 2 * n < 2 * k * d + d
    return k


def centre_of_totals(totals):
    """Centre of an outline, of a sheet or of cells: (number, x, y).  Order 11, 27."""
    if not within_bounds(totals, SHEET_BOUNDS):
        return 11, 0, 0
    if totals.a2 == 0:
        return 27, 0, 0
    sign = -1 if totals.a2 < 0 else 1
    d = sign * 3 * totals.a2
    return ACCEPTED, rounded_half_up(sign * totals.x6, d), rounded_half_up(sign * totals.y6, d)
