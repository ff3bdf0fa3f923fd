"""Checks of third moments, run by selfcheck.py: the edge terms of CR 10 of document 02 beside formula 11 of source document
001 and beside integrals taken in other ways; worked plots, refusals and bounds; errors that these show; the cut, start and
reversal laws on made-up outlines.
"""
from collections import Counter
from fractions import Fraction
from itertools import product
from math import comb
from operator import add, neg

from checks import check
from figures import ACCEPTED, COORDINATE_LIMIT, LEAST_POINTS, MOST_POINTS, edge_terms, points_of, within_bounds
from inputs import FIGURE_EIGHT, RECTANGLE, SQUARE_WEST, UNIT_SQUARE
from madeup import random_cuts, random_points
from madeup_third_moments import GREAT_XXX20, GREAT_XXY60, LARGEST_SQUARE, random_list
from moves import after_cuts, started_at, walked_backwards
from third_moments import THIRD_LIMIT, ZERO_THIRD_TOTALS
from third_moments import ThirdTotals, cube_bracket, formula_11, mixed_bracket, third_edge_terms, third_moments, third_totals
from worked import numbers_of

# For each total in its order: the powers of x and y, and the multiple of their integral.
POWERS = ((0, 0, 2), (1, 0, 6), (0, 1, 6), (2, 0, 12), (1, 1, 24), (0, 2, 12))
THIRD_POWERS = ((3, 0, 20), (2, 1, 60), (1, 2, 60), (0, 3, 20))
# Every edge between 25 points about the peg.  Edge terms and formula 11 are polynomials, of degree 4 at most in each of the
# four coordinates: where they agree for five values of each, they agree everywhere.
GRID = list(product(range(-2, 3), repeat=2))
MADE_UP_EDGES = 200
MADE_UP_PLOTS = 200
MADE_UP_LISTS = 500
LEAST_MET = 20

WORKED_PLOTS = ((UNIT_SQUARE, (5, 10, 10, 5)), (RECTANGLE, (168_000, 342_400, 262_400, 76_800)),
                (FIGURE_EIGHT, (-96, -160, -96, 0)), (SQUARE_WEST, (-5, 10, -10, 5)),
                ([(5, 7)] * 3, (0, 0, 0, 0)), ([(500, -500)] * 1024, (0, 0, 0, 0)))
# Refused lists by number.
REFUSED = ((35, [501, 0, 0, 5, 0, 0]), (35, [0, 0, 0, 5, 0, -501]), (35, [2000, -2000] * 3), (35, [600] * 2048),
           (1, [2001, 0, 0, 5, 0, 0]), (1, [600, 0, 0, 5, 0, 2001]), (1, [-2001, 0, 0, 5, 0, 600]), (1, [600] * 2047 + [-2001]),
           (1, [-2 ** 31] * 6), (1, [2 ** 31 - 1] * 6),
           (2, []), (2, [0]), (2, [1] * 4), (2, [1] * 5), (2, [1] * 7), (2, [1] * 2047), (2, [1] * 2049), (2, [1] * 2050),
           (2, [2001] * 7), (2, [2001] * 2050), (2, [600] * 7), (2, [600] * 4), (2, [600] * 2050), (2, [600, 2001] * 2))
THIRD_BOUNDS = ThirdTotals(256 * 10 ** 15, 768 * 10 ** 15, 768 * 10 ** 15, 256 * 10 ** 15)


def worked_answers():
    """The worked plots and the refused lists: numbers of the list, and what the call is to answer."""
    for points, totals in WORKED_PLOTS:
        yield numbers_of(points), (ACCEPTED, ThirdTotals(*totals))
    for number, numbers in REFUSED:
        yield numbers, (number, ZERO_THIRD_TOTALS)


def round_an_outline(terms, points):
    """The terms of each edge, summed with the closing edge."""
    return tuple(map(sum, zip(*map(terms, points, started_at(points, 1)))))


# Edge by edge: the terms and formula 11

def multiples(formula, powers, start, end):
    """The multiples of a formula's parts for one edge."""
    return tuple(multiple * formula(p, q, start, end) for p, q, multiple in powers)


def check_formula_11(rng):
    """Of each edge alone, the four terms, and document 01's six, are multiples of formula 11."""
    made_up = (random_points(rng, THIRD_LIMIT, 2, 2) for _ in range(MADE_UP_EDGES))
    for start, end in (*product(GRID, repeat=2), *made_up):
        check("four terms", third_edge_terms(start, end), multiples(formula_11, THIRD_POWERS, start, end))
        check("six terms", edge_terms(start, end), multiples(formula_11, POWERS, start, end))


# Integrals in other ways

def formula_10(p, q, start, end):
    """Another formula of source document 001: the same sum round a closed outline, by other parts for its edges."""
    (x, y), (next_x, next_y) = start, end
    return Fraction(next_y - y, p + 1) * sum(
        Fraction(comb(p + 1, j) * comb(q, k), k + j + 1)
        * (next_x - x) ** j * x ** (p + 1 - j) * (next_y - y) ** k * y ** (q - k)
        for j in range(p + 2) for k in range(q + 1))


def over_a_box(p, q, corner, opposite):
    """The integral of x^p y^q between two values of x and two of y."""
    (west, south), (east, north) = corner, opposite
    return Fraction((east ** (p + 1) - west ** (p + 1)) * (north ** (q + 1) - south ** (q + 1)), (p + 1) * (q + 1))


def over_a_triangle(p, q, corners):
    """The integral of x^p y^q over a triangle, by the values at its corners, at the middles of its sides and at its centre:
    a rule that is exact up to the third degree."""
    (x, y), (x2, y2), (x3, y3) = corners
    area = Fraction((x2 - x) * (y3 - y) - (x3 - x) * (y2 - y), 2)

    def values(group):
        return sum(Fraction(sum(xs), len(xs)) ** p * Fraction(sum(ys), len(ys)) ** q
                   for xs, ys in (zip(*points) for points in group))

    sides = list(zip(corners, started_at(corners, 1)))
    return area * (Fraction(1, 20) * values([[corner] for corner in corners]) + Fraction(2, 15) * values(sides)
                   + Fraction(9, 20) * values([corners]))


def check_integrals(rng):
    """The totals are the integrals, over triangles and boxes; round any outline formula 10 agrees, but not edge by edge."""
    for _ in range(MADE_UP_PLOTS):
        outline = random_points(rng, rng.choice([3, THIRD_LIMIT]), LEAST_POINTS, 8)
        corners, (low, high) = outline[:3], outline[:2]
        box = [low, (high[0], low[1]), high, (low[0], high[1])]
        check("triangle", third_totals(corners),
              tuple(multiple * over_a_triangle(p, q, corners) for p, q, multiple in THIRD_POWERS))
        check("box", third_totals(box), tuple(multiple * over_a_box(p, q, low, high) for p, q, multiple in THIRD_POWERS))
        check("formula 10", third_totals(outline),
              round_an_outline(lambda *edge: multiples(formula_10, THIRD_POWERS, *edge), outline))
    edge = RECTANGLE[:2]
    check("formula 10 on an edge", third_edge_terms(*edge) == multiples(formula_10, THIRD_POWERS, *edge), False)


# Errors that the worked plots and the refused lists show: other edge terms

def exchanged_in_c_too(start, end):
    """In the last two, x and y, p and q change places in c as well."""
    xxx20, xxy60, xyy60, yyy20 = third_edge_terms(start, end)
    return xxx20, xxy60, -xyy60, -yyy20


def three_and_two_exchanged(start, end):
    """2 and 3 in each other's place in the mixed bracket."""
    def bracket(x, y, p, q):
        return 2 * x * x * y + 3 * x * p * y + p * p * y + x * x * q + 3 * x * p * q + 2 * p * p * q
    (x, y), (p, q) = start, end
    c = x * q - p * y
    return c * cube_bracket(x, p), c * bracket(x, y, p, q), c * bracket(y, x, q, p), c * cube_bracket(y, q)


def size_of_c(start, end):
    """The size of c in place of c."""
    return third_edge_terms(start, end) if start[0] * end[1] >= end[0] * start[1] else third_edge_terms(end, start)


def by_rising_power(start, end):
    """The four in the other order."""
    return third_edge_terms(start, end)[::-1]


def nothing(_, __):
    """Zeros, of which all laws hold."""
    return ZERO_THIRD_TOTALS


# Each with what it gives for the unit square, or for the figure eight where the square does not show it.
WRONG_TERMS = ((exchanged_in_c_too, UNIT_SQUARE, (5, 10, -10, -5)), (three_and_two_exchanged, UNIT_SQUARE, (5, 9, 9, 5)),
               (size_of_c, FIGURE_EIGHT, (160, 224, 160, 64)), (by_rising_power, FIGURE_EIGHT, (0, -96, -160, -96)),
               (nothing, UNIT_SQUARE, (0, 0, 0, 0)))


# Errors that they show: other answers of the call

def closing_edge_left_out(numbers, right):
    """The edges between neighbours in the list alone."""
    points = points_of(numbers)
    return (ACCEPTED, tuple(map(sum, zip(*map(third_edge_terms, points, points[1:]))))) if right[0] == ACCEPTED else right


def early_35(_, right):
    """35 before 1."""
    return (35, right[1]) if right[0] == 1 else right


def first_number_decides(numbers, right):
    """1 or 35 by the first coordinate that one of them meets."""
    met = [abs(number) for number in numbers if abs(number) > THIRD_LIMIT]
    return (35, right[1]) if right[0] == 1 and met[0] <= COORDINATE_LIMIT else right


def earliest_35(numbers, right):
    """35 before 2."""
    return (35, right[1]) if right[0] == 2 and any(abs(number) > THIRD_LIMIT for number in numbers) else right


def limit_refused(numbers, right):
    """500 itself is 35."""
    return (35, ZERO_THIRD_TOTALS) if right[0] == ACCEPTED and max(map(abs, numbers)) == THIRD_LIMIT else right


def totals_though_refused(numbers, right):
    """35 with the totals all the same."""
    return (35, third_totals(points_of(numbers))) if right[0] == 35 else right


WRONG_ANSWERS = (closing_edge_left_out, early_35, first_number_decides, earliest_35, limit_refused, totals_though_refused)


def check_worked_third_moments():
    """The worked plots and the refused lists; each error named above changes some of them."""
    for numbers, answer in worked_answers():
        check("third moments", third_moments(numbers), answer)
    for wrong, points, wrongly in WRONG_TERMS:
        check(f"{wrong.__name__} gives", round_an_outline(wrong, points), wrongly)
        check(f"{wrong.__name__} shows", wrongly == third_totals(points), False)
    for wrong in WRONG_ANSWERS:
        check(f"{wrong.__name__} shows", all(wrong(numbers, right) == right for numbers, right in worked_answers()), False)


# Bounds

def check_third_bounds():
    """How the bounds come about, what comes nearest to them, and that coordinates to 2,000 would pass 64 bits."""
    corners = list(product((-THIRD_LIMIT, THIRD_LIMIT), repeat=4))
    c = max(abs(x * q - p * y) for x, y, p, q in corners)
    cube = max(abs(cube_bracket(x, p)) for x, _, p, _ in corners)
    mixed = max(abs(mixed_bracket(*four)) for four in corners)
    check("greatest c and brackets", (c, cube, mixed), (500_000, 4 * 500 ** 3, 12 * 500 ** 3))
    check("bounds", THIRD_BOUNDS, tuple(MOST_POINTS * c * bracket for bracket in (cube, mixed, mixed, cube)))
    check("an edge at the bound", MOST_POINTS * third_edge_terms((500, -500), (500, 500)).xxx20, THIRD_BOUNDS.xxx20)
    for points, totals in ((LARGEST_SQUARE, (0, 0, 0, 0)), (GREAT_XXX20, (128 * 10 ** 15, 0, 128 * 10 ** 15, 0)),
                           (GREAT_XXY60, (0, 160 * 10 ** 15, 0, 80 * 10 ** 15))):
        check("256 rounds", third_moments(numbers_of(points * 256)), (ACCEPTED, totals))
        check("within the bounds", within_bounds(totals, THIRD_BOUNDS), True)
    four_times_as_far = [(4 * x, 4 * y) for x, y in GREAT_XXX20]
    check("past 64 bits", third_totals(four_times_as_far * 256).xxx20 > 2 ** 63, True)


# Made-up lists

def number_by_sizes(numbers):
    """The number of a list, by its length and the greatest size in it."""
    if len(numbers) not in range(6, 2049, 2):
        return 2
    greatest = max(map(abs, numbers))
    return 1 if greatest > 2000 else 35 if greatest > 500 else ACCEPTED


def check_made_up_lists(rng):
    """The number of each made-up list; zeros where it is refused, else totals within the bounds."""
    met = Counter()
    for _ in range(MADE_UP_LISTS):
        _, numbers = random_list(rng)
        number, totals = third_moments(numbers)
        check("number", number, number_by_sizes(numbers))
        check("zeros or bounds", within_bounds(totals, THIRD_BOUNDS if number == ACCEPTED else ZERO_THIRD_TOTALS), True)
        met[number] += 1
    check("each number met", {number for number, times in met.items() if times >= LEAST_MET}, {ACCEPTED, 1, 2, 35})


def check_third_laws(rng):
    """After a made-up list of cuts no piece is refused, and the pieces add up, from whichever point each starts; walked
    backwards they add up to the same with the other sign."""
    outline = random_points(rng, rng.choice([2, 30, THIRD_LIMIT]), LEAST_POINTS, 12)
    whole = third_totals(outline)
    forward = backward = ZERO_THIRD_TOTALS
    for piece in after_cuts(outline, random_cuts(rng, outline)):
        started = started_at(piece, rng.randrange(len(piece)))
        (number, there), (back_number, back) = (third_moments(numbers_of(way)) for way in (started, walked_backwards(started)))
        check("no piece is refused", (number, back_number), (ACCEPTED, ACCEPTED))
        forward, backward = tuple(map(add, forward, there)), tuple(map(add, backward, back))
    check("cut and started", forward, whole)
    check("backwards", backward, tuple(map(neg, whole)))
