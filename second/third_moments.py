"""Third moments: CR 10 of document 02, and formula 11 of source document 001, straight from their words.

The call answers by the edge terms of document 02.  Formula 11, of which they are multiples,
stands beside them as it is in print: for any powers, in exact fractions.
"""
from fractions import Fraction
from math import comb, factorial
from typing import NamedTuple

from figures import ACCEPTED, list_call, points_of

THIRD_LIMIT = 500


class ThirdTotals(NamedTuple):
    """By falling power of x: 20 × the integral of x³, 60 × that of x²y, 60 × that of xy², 20 × that of y³."""
    xxx20: int
    xxy60: int
    xyy60: int
    yyy20: int


ZERO_THIRD_TOTALS = ThirdTotals(0, 0, 0, 0)


# Formula 11

def formula_11(p, q, start, end):
    """The part of the moment of x^p y^q that belongs to the edge from one point to the next."""
    (x, y), (next_x, next_y) = start, end
    return (next_y * x - y * next_x) * sum(
        Fraction(comb(p, j) * comb(q, k), comb(p + q, j + k)) * Fraction(factorial(p + q), factorial(p + q + 2))
        * x ** j * next_x ** (p - j) * y ** k * next_y ** (q - k)
        for j in range(p + 1) for k in range(q + 1))


# The edge terms of document 02

def cube_bracket(x, p):
    """The bracket for the integral of x³."""
    return x ** 3 + x ** 2 * p + x * p ** 2 + p ** 3


def mixed_bracket(x, y, p, q):
    """The bracket for the integral of x²y."""
    return 3 * x ** 2 * y + 2 * x * p * y + p ** 2 * y + x ** 2 * q + 2 * x * p * q + 3 * p ** 2 * q


def third_edge_terms(start, end):
    """The four edge terms of the edge from (x, y) to (p, q).  In the last two, x and y, p and q change places in the
    bracket; c stays."""
    x, y = start
    p, q = end
    c = x * q - p * y
    return ThirdTotals(c * cube_bracket(x, p),
                       c * mixed_bracket(x, y, p, q),
                       c * mixed_bracket(y, x, q, p),
                       c * cube_bracket(y, q))


def third_totals(points):
    """The edge terms summed over all edges, the closing edge included."""
    terms = [third_edge_terms(points[i - 1], points[i]) for i in range(1, len(points))]
    terms.append(third_edge_terms(points[-1], points[0]))
    return ThirdTotals(*(sum(column) for column in zip(*terms)))


# The call

def within_third_limit(place):
    """Not turned back by 35."""
    return all(-THIRD_LIMIT <= value <= THIRD_LIMIT for value in place)


def third_moments(numbers):
    """A whole outline as one list, x and y in turn: (number, four totals).  Order 2, 1, 35, of which 2 and 1 are those of
    the call for the six totals."""
    number, _ = list_call(numbers)
    if number != ACCEPTED:
        return number, ZERO_THIRD_TOTALS
    points = points_of(numbers)
    if not all(within_third_limit(place) for place in points):
        return 35, ZERO_THIRD_TOTALS
    return ACCEPTED, third_totals(points)
