"""Checks of two walkers on one plot, run by selfcheck.py: worked pairs, corner cases of CR 5 of document 02, errors that the
worked pairs show, and laws on made-up pairs.
"""
from fractions import Fraction
from itertools import product
from math import isqrt

from checks import check
from figures import OUTLINE_BOUNDS, SHEET_BOUNDS, ZERO_TOTALS
from figures import Kind, Totals, added, list_call, negated, points_of, turned, within_bounds
from inputs import FIGURE_EIGHT, RECTANGLE, SQUARE
from madeup_walks import GREAT_XY24, accepted_pair, random_pair
from moves import moved, started_at, walked_backwards
from walkers import FIRST, SECOND
from walkers import Comparison, Part, compare_walks, greatest_to_nearest, longer, squared_distance
from worked import OTHER_WALK, QUARTER_TURN, WALKS, numbers_of

LESS = (-5, -90, -85, -1535, -2195, -985)
MORE = (5, 90, 85, 1535, 2195, 985)
TWICE_THE_RECTANGLE = (160, 2400, 1920, 29440, 42240, 17920)
ALONG_A_LINE = [(3, 4), (-6, -8), (9, 12), (6, 8)]
# Accepted pairs: both walks, differences, first to second, second to first, which is handed back.
WORKED_PAIRS = ((RECTANGLE, OTHER_WALK, LESS, 1, 2, SECOND),
                (OTHER_WALK, RECTANGLE, MORE, 2, 1, FIRST),
                (RECTANGLE, RECTANGLE, ZERO_TOTALS, 0, 0, FIRST),
                (RECTANGLE, started_at(RECTANGLE, 1), ZERO_TOTALS, 0, 0, FIRST),
                (RECTANGLE, walked_backwards(RECTANGLE), TWICE_THE_RECTANGLE, 0, 0, FIRST),
                (RECTANGLE, RECTANGLE + RECTANGLE[:1], ZERO_TOTALS, 0, 0, SECOND),
                (FIGURE_EIGHT, [(2, 2)] * 4, (0, -8, 0, -32, -32, 0), 8, 0, FIRST),
                ([(0, 0)] * 3, ALONG_A_LINE, ZERO_TOTALS, 25, 225, SECOND))
# Lists with their number by the list call.
LISTS = ((WALKS["rectangle"], 0), (WALKS["other-walk"], 0), ([2000, -2000] * 3, 0), ([-2000, 2000] * 1024, 0),
         (WALKS["outside"], 1), (WALKS["far"], 1), ([0, 0] * 5 + [0, -2001], 1), ([-2 ** 31] * 6, 1),
         ([2 ** 31 - 1] * 2048, 1), ([], 2), ([0], 2), ([1, 2] * 2, 2), ([1] * 5, 2), (WALKS["odd"], 2), ([1] * 2047, 2),
         ([1] * 2049, 2), ([1] * 2050, 2), ([5000] * 7, 2), ([-2 ** 31] * 2050, 2))
# Of 256 rounds less the same walked backwards: A2 of the square reaches twice its outline bound.  Twice that of XY24,
# 393,216,000,000,000,000, is out of reach: where the bracket of its edge term is greatest, c is 0.
GREAT_DIFFERENCES = ((SQUARE, Totals(16_384_000_000, 0, 0, 131_072_000_000_000_000, 0, 131_072_000_000_000_000)),
                     (GREAT_XY24, Totals(8_192_000_000, 0, 0, 32_768_000_000_000_000, 65_536_000_000_000_000,
                                         65_536_000_000_000_000)))
TWICE_THE_BOUNDS = added(OUTLINE_BOUNDS, OUTLINE_BOUNDS)


def compared(walk, other):
    """The comparison of two walks given by their points."""
    return compare_walks(numbers_of(walk), numbers_of(other))


def refused(number):
    """The comparison where a list is refused."""
    return Comparison(number, ZERO_TOTALS, 0, 0, Part(FIRST, 0))


def worked_comparisons():
    """The worked pairs, and all pairs of the lists of which one is refused: both lists and their comparison."""
    for walk, other, differences, there, back, which in WORKED_PAIRS:
        lists = numbers_of(walk), numbers_of(other)
        yield *lists, Comparison(0, Totals(*differences), there, back, Part(which, len(lists[which])))
    for (first, first_number), (second, second_number) in product(LISTS, repeat=2):
        if first_number != 0 or second_number != 0:
            yield first, second, refused(first_number if first_number != 0 else second_number)


# Errors that the worked pairs show: other distances from points to others

def nearest_by_index(points, others):
    """To the point of the same position, as far as both go."""
    return max(map(squared_distance, points, others))


def least_of_the_farthest(points, others):
    """Greatest and least exchanged."""
    return min(max(squared_distance(place, other) for other in others) for place in points)


def least_of_the_nearest(points, others):
    """Between the two points that are closest."""
    return min(squared_distance(place, other) for place in points for other in others)


def with_its_root(points, others):
    """The distance itself, rounded down."""
    return isqrt(greatest_to_nearest(points, others))


def to_edge(place, start, end):
    """The squared distance from a point to the nearest place of an edge."""
    (x, y), (p, q) = start, end
    length = squared_distance(start, end)
    along = (place[0] - x) * (p - x) + (place[1] - y) * (q - y)
    share = max(0, min(1, Fraction(along, length))) if length != 0 else 0
    return squared_distance(place, (x + share * (p - x), y + share * (q - y)))


def to_nearest_edge(points, others):
    """To the nearest place of the edges, not of the points."""
    edges = list(zip(others, started_at(others, 1)))
    return max(min(to_edge(place, *edge) for edge in edges) for place in points)


WRONG_DISTANCES = (nearest_by_index, least_of_the_farthest, least_of_the_nearest, with_its_root, to_nearest_edge)


# Errors that the worked pairs show: what a wrong program would answer for two lists in place of the right comparison

def one_distance_twice(_, __, right):
    """First to second, both times."""
    return right._replace(second_to_first=right.first_to_second)


def greater_distance_twice(_, __, right):
    """The greater of the two, both times."""
    greater = max(right.first_to_second, right.second_to_first)
    return right._replace(first_to_second=greater, second_to_first=greater)


def second_less_first(_, __, right):
    """Every difference with the other sign."""
    return right._replace(differences=negated(right.differences))


def totals_turned(first, second, right):
    """The differences of the totals as islands have them."""
    one, other = (turned(Kind.ISLAND, list_call(numbers)[1]) for numbers in (first, second))
    return right._replace(differences=added(one, negated(other))) if right.number == 0 else right


def tie_to_the_second(first, second, right):
    """Of two lists of as many points the second."""
    is_tie = right.number == 0 and len(first) == len(second)
    return right._replace(part=Part(SECOND, len(second))) if is_tie else right


def longer_though_refused(first, second, right):
    """The longer list, whether or not one is refused."""
    return right._replace(part=longer(first, second))


def start_of_the_second(_, __, right):
    """With a refusal, the empty start of the second list."""
    return right._replace(part=Part(SECOND, 0)) if right.number != 0 else right


def second_tested_first(first, second, right):
    """The second's refusal before the first's."""
    number = list_call(second)[0]
    return right._replace(number=number) if number != 0 else right


def lengths_tested_first(first, second, right):
    """2 of either list before 1 of either."""
    return right._replace(number=max(list_call(first)[0], list_call(second)[0]))


WRONG_COMPARISONS = (one_distance_twice, greater_distance_twice, second_less_first, totals_turned, tie_to_the_second,
                     longer_though_refused, start_of_the_second, second_tested_first, lengths_tested_first)


def check_worked_walks():
    """The worked pairs and refusals; each error named above changes some of them."""
    for first, second, wanted in worked_comparisons():
        check("two walks", compare_walks(first, second), wanted)
    for wrong in WRONG_DISTANCES:
        check(f"{wrong.__name__} shows", all((wrong(walk, other), wrong(other, walk)) == (there, back)
                                             for walk, other, _, there, back, _ in WORKED_PAIRS), False)
    for wrong in WRONG_COMPARISONS:
        check(f"{wrong.__name__} shows", all(wrong(first, second, right) == right
                                             for first, second, right in worked_comparisons()), False)


# Corner cases

def check_walker_corners():
    """What is handed back for lengths about each other, and the greatest values."""
    check("first and second", (FIRST, SECOND), (0, 1))
    for points, others, which in ((3, 3, FIRST), (3, 4, SECOND), (4, 3, FIRST), (1023, 1024, SECOND), (3, 1024, SECOND),
                                  (1024, 3, FIRST)):
        part = Part(which, 2 * max(points, others))
        check("the longer", compared([(1, 2)] * points, [(1, 2)] * others), Comparison(0, ZERO_TOTALS, 0, 0, part))
    for corner, opposite in zip(SQUARE, started_at(SQUARE, 2)):
        check("greatest distance", compared([corner] * 3, [opposite] * 3)[2:4], (32_000_000, 32_000_000))
        check("one point far away", compared([corner] * 3, [corner] * 3 + [opposite])[2:4], (0, 32_000_000))
    for points, differences in GREAT_DIFFERENCES:
        rounds = points * 256
        wanted = Comparison(0, differences, 0, 0, Part(FIRST, 2048))
        check("256 rounds and back", compared(rounds, walked_backwards(rounds)), wanted)
        check("within twice the outline bounds", within_bounds(differences, TWICE_THE_BOUNDS), True)
    check("twice the outline bounds", within_bounds(TWICE_THE_BOUNDS, SHEET_BOUNDS), True)


# Made-up pairs

def check_refused_pair(rng):
    """On a made-up pair that may be refused: the first list's number decides, then the second's; else it is accepted."""
    _, first, second = random_pair(rng)
    number, other_number = list_call(first)[0], list_call(second)[0]
    if number != 0 or other_number != 0:
        check("refused pair", compare_walks(first, second), refused(number if number != 0 else other_number))
    else:
        check("accepted pair", compare_walks(first, second).number, 0)


def check_distance(label, distance, points, others):
    """Every point has one of the others within the distance; some point has none nearer than it.  It is 0 exactly
    where every point is one of the others."""
    check(label, all(any(squared_distance(place, other) <= distance for other in others) for place in points), True)
    check(label, any(all(squared_distance(place, other) >= distance for other in others) for place in points), True)
    check(f"{label}, zero", distance == 0, set(points) <= set(others))


def check_walker_laws(rng):
    """Laws of a made-up pair that is accepted."""
    _, first, second = accepted_pair(rng)
    walk, other = points_of(first), points_of(second)
    number, differences, there, back, part = compare_walks(first, second)
    check("accepted", number, 0)
    check("first less second", added(differences, list_call(second)[1]), list_call(first)[1])
    check_distance("first to second", there, walk, other)
    check_distance("second to first", back, other, walk)
    lists = first, second
    check("longest", len(lists[part.which]), max(map(len, lists)))
    check("whole", part.length, len(lists[part.which]))
    exchanged = compare_walks(second, first)
    check("exchanged", exchanged[:4], (0, negated(differences), back, there))
    check("exchanged, part", exchanged.part.which, FIRST if len(first) == len(second) else 1 - part.which)
    check("with itself", compare_walks(first, first), (0, ZERO_TOTALS, 0, 0, (FIRST, len(first))))
    started = started_at(other, rng.randrange(len(other)))
    check("another start", compared(walk, started), (0, differences, there, back, part))
    check("walked backwards", compared(walk, walked_backwards(started))[2:], (there, back, part))
    check("quarter turn", compared(moved(QUARTER_TURN, walk), moved(QUARTER_TURN, other))[2:], (there, back, part))
