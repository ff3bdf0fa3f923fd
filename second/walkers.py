"""Two walkers on one plot: CR 5 of document 02, straight from its words.

Two lists of numbers, x and y in turn, are compared: their totals by the call on a whole
list, and how far apart their points are, whatever their order.
"""
from operator import sub
from typing import NamedTuple

from figures import ACCEPTED, ZERO_TOTALS
from figures import Totals, list_call, points_of

FIRST = 0
SECOND = 1


class Part(NamedTuple):
    """The front of one of the two lists: which list, and how many of its numbers."""
    which: int
    length: int


class Comparison(NamedTuple):
    """Refusal number, or 0; totals of the first less those of the second; the distances from the points
    of each to the other, squared; the part handed back."""
    number: int
    differences: Totals
    first_to_second: int
    second_to_first: int
    part: Part

    def fields(self):
        """All of it as eleven numbers, in this order."""
        return [self.number, *self.differences, self.first_to_second, self.second_to_first, *self.part]


EMPTY_START = Part(FIRST, 0)


def squared_distance(place, other):
    """The square of the distance between two points."""
    east, north = place[0] - other[0], place[1] - other[1]
    return east * east + north * north


def to_nearest(place, others):
    """The squared distance from a point to the nearest of the others."""
    return min(squared_distance(place, other) for other in others)


def greatest_to_nearest(points, others):
    """How far from the others the point is that is farthest from its nearest one, squared."""
    return max(to_nearest(place, others) for place in points)


def longer(first, second):
    """The list of more points, whole; the first where both have as many."""
    if len(points_of(second)) > len(points_of(first)):
        return Part(SECOND, len(second))
    return Part(FIRST, len(first))


def compare_walks(first, second):
    """The comparison of two lists.  Order 2, 1 of the first, then 2, 1 of the second."""
    first_number, first_totals = list_call(first)
    second_number, second_totals = list_call(second)
    for number in (first_number, second_number):
        if number != ACCEPTED:
            return Comparison(number, ZERO_TOTALS, 0, 0, EMPTY_START)
    first_points, second_points = points_of(first), points_of(second)
    return Comparison(ACCEPTED, Totals(*map(sub, first_totals, second_totals)),
                      greatest_to_nearest(first_points, second_points),
                      greatest_to_nearest(second_points, first_points),
                      longer(first, second))
