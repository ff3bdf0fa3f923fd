"""Checks of moving twice, run by selfcheck.py: the worked moves and corner cases of CR 7 of document 02, wrong compositions
that the worked moves show, and both of its laws on made-up maps, totals and outlines.
"""
from checks import check
from figures import ACCEPTED, OUTLINE_BOUNDS, SHEET_BOUNDS, TOTAL_LIMIT, ZERO_TOTALS
from figures import Totals, added, centre_of_totals, list_call, negated, outline_totals, within_limits
from inputs import FIGURE_EIGHT, RECTANGLE, SQUARE, UNIT_SQUARE
from moves import AffineMap, composed, map_call, map_is_allowed, mapped_totals, moved, moved_point, shift
from worked import DOUBLING, QUARTER_TURN, SHIFT, numbers_of

IDENTITY = shift(0, 0)
SHIFTED_THEN_TURNED = (80, -480, 1920, 3200, -17280, 33440)
TURNED_THEN_SHIFTED = (80, -240, 720, 1760, -4800, 7040)


def check_worked_moves():
    """A shift and a quarter turn in both orders, and the centres of CR 7."""
    whole = outline_totals(RECTANGLE)
    for first, second, both, totals in ((SHIFT, QUARTER_TURN, (0, -1, 1, 0, 2, 3), SHIFTED_THEN_TURNED),
                                        (QUARTER_TURN, SHIFT, (0, -1, 1, 0, 3, -2), TURNED_THEN_SHIFTED)):
        check("composition", composed(first, second), both)
        check("moved twice", map_call(second, map_call(first, whole)[1]), (0, totals))
        check("moved at once", map_call(composed(first, second), whole), (0, totals))
        check("points moved twice", list_call(numbers_of(moved(second, moved(first, RECTANGLE)))), (0, totals))
    check("rectangle shifted", centre_of_totals(map_call(SHIFT, whole)[1]), (0, 8, 2))
    backwards = negated(outline_totals(UNIT_SQUARE))
    check("square backwards", centre_of_totals(backwards), (0, 1, 1))
    check("and one west", centre_of_totals(map_call(shift(-1, 0), backwards)[1]), (0, 0, 1))


def check_move_corners():
    """Where a call of the three is refused, or a centre is there on one side only."""
    square = outline_totals(UNIT_SQUARE)
    check("doubled twice", map_call(DOUBLING, map_call(DOUBLING, square)[1]), (0, (32, 192, 192, 1024, 1536, 1024)))
    check("times 4", map_call(composed(DOUBLING, DOUBLING), square), (3, ZERO_TOTALS))
    rounds = outline_totals(SQUARE * 244)
    number, doubled = map_call(DOUBLING, rounds)
    check("976 points doubled", number, 0)
    check("and kept", map_call(IDENTITY, doubled), (4, ZERO_TOTALS))
    check("doubled and kept", map_call(composed(DOUBLING, IDENTITY), rounds), (0, doubled))
    whole = outline_totals(RECTANGLE)
    check("too far", map_call(shift(3000, 0), whole), (3, ZERO_TOTALS))
    check("zeros stay zeros", map_call(shift(-1500, 0), ZERO_TOTALS), (0, ZERO_TOTALS))
    check("far and back", map_call(composed(shift(3000, 0), shift(-1500, 0)), whole),
          (0, (80, 361_200, 960, 1_087_214_720, 5_781_120, 8_960)))
    check("no centre to move", centre_of_totals(map_call(SHIFT, outline_totals(FIGURE_EIGHT))[1]), (27, 0, 0))
    at_limit = square._replace(xx12=TOTAL_LIMIT)
    check("centre at the limit", centre_of_totals(at_limit), (0, 1, 1))
    check("and past it", centre_of_totals(mapped_totals(shift(1, 0), at_limit)), (11, 0, 0))


def check_wrong_compositions():
    """The other order, and shifts that are added without being turned, give other totals for the rectangle.  Of two shifts
    the order does not show."""
    whole = outline_totals(RECTANGLE)
    unturned = composed(SHIFT, QUARTER_TURN)._replace(e=SHIFT.e + QUARTER_TURN.e, f=SHIFT.f + QUARTER_TURN.f)
    for wrong in (composed(QUARTER_TURN, SHIFT), unturned):
        check("wrong composition", mapped_totals(wrong, whole) == SHIFTED_THEN_TURNED, False)
    check("two shifts", composed(shift(1, 2), SHIFT), composed(SHIFT, shift(1, 2)))


# The laws

def random_map(rng, coefficient, reach):
    """Coefficients and shifts of at most these sizes; one in ten presses the plane onto a line."""
    a = b = g = h = 0
    while a * h == b * g:
        a, b, g, h = (rng.randint(-coefficient, coefficient) for _ in range(4))
    if rng.random() < 0.1:
        g, h = a, b
    return AffineMap(a, b, g, h, rng.randint(-reach, reach), rng.randint(-reach, reach))


def random_totals(rng, bounds):
    """Six totals within these bounds, small and large ones."""
    share = rng.choice([1, 10 ** 3, 10 ** 6, 10 ** 9])
    return Totals(*(rng.randint(-bound // share, bound // share) for bound in bounds))


def check_formulas(rng):
    """Any two maps and any six whole numbers, within no limits."""
    first, second = (random_map(rng, *rng.choice([(2, 2000), (1, 3), (10 ** 4, 10 ** 9)])) for _ in range(2))
    place = rng.randint(-10 ** 6, 10 ** 6), rng.randint(-10 ** 6, 10 ** 6)
    check("point moved twice", moved_point(composed(first, second), place), moved_point(second, moved_point(first, place)))
    totals = random_totals(rng, added(SHEET_BOUNDS, SHEET_BOUNDS))
    check("formulas twice", mapped_totals(second, mapped_totals(first, totals)),
          mapped_totals(composed(first, second), totals))


def check_three_calls(rng):
    """Two calls that are accepted one after the other: the third is refused with 3, or answers the same."""
    first, second = (random_map(rng, *rng.choice([(2, 2000), (1, 50), (1, 3)])) for _ in range(2))
    totals = random_totals(rng, OUTLINE_BOUNDS)
    number, once = map_call(first, totals)
    if number != ACCEPTED:
        return
    number, twice = map_call(second, once)
    if number != ACCEPTED:
        return
    third = composed(first, second)
    check("third call allowed" if map_is_allowed(third) else "third call not allowed", map_call(third, totals),
          (ACCEPTED, twice) if map_is_allowed(third) else (3, ZERO_TOTALS))


def check_outline_moved_twice(rng, outline):
    """The points moved twice, where they are within the limits then, beside the call with the composition, and beside both
    calls in turn."""
    first, second = (random_map(rng, rng.choice([1, 2]), rng.choice([3, 50, 500])) for _ in range(2))
    ends = moved(second, moved(first, outline))
    third = composed(first, second)
    check("places", moved(third, outline), ends)
    if not all(within_limits(place) for place in ends):
        return
    if map_is_allowed(third):
        check("outline moved twice", list_call(numbers_of(ends)), map_call(third, outline_totals(outline)))
    number, once = map_call(first, outline_totals(outline))
    number, twice = map_call(second, once) if number == ACCEPTED else (number, once)
    if number == ACCEPTED:
        check("outline moved in turn", list_call(numbers_of(ends)), (ACCEPTED, twice))


def check_shifted_centre(rng):
    """A centre before and after a shift of any six totals.  Where the map call takes them, 27 comes on both sides or on
    none."""
    totals = random_totals(rng, rng.choice([OUTLINE_BOUNDS, SHEET_BOUNDS]))
    if rng.random() < 0.1:
        totals = totals._replace(a2=0)
    reach = rng.choice([3, 2000, 10 ** 7])
    east, north = rng.randint(-reach, reach), rng.randint(-reach, reach)
    before, after = centre_of_totals(totals), centre_of_totals(mapped_totals(shift(east, north), totals))
    moved_centre = (ACCEPTED, before[1] + east, before[2] + north)
    if before[0] == ACCEPTED == after[0]:
        check("centre shifted" if totals.a2 > 0 else "centre shifted, A2 below 0", after, moved_centre)
    number, answer = map_call(shift(east, north), totals)
    if number == ACCEPTED:
        check("centre around a map call", centre_of_totals(answer), moved_centre if totals.a2 != 0 else (27, 0, 0))


def check_shifted_outline(rng, outline):
    """An outline and the same shifted, where both are within the limits; one in three is shifted from limit to limit, by
    more than a map may."""
    if rng.random() < 1 / 3:
        outline = [(x % 9 - 2000, y) for x, y in outline]
        east, north = 3992, 0
    else:
        reach = rng.choice([9, 500])
        east, north = rng.randint(-reach, reach), rng.randint(-reach, reach)
    there = moved(shift(east, north), outline)
    if all(within_limits(place) for place in there):
        number, x, y = centre_of_totals(outline_totals(outline))
        check("outline shifted", centre_of_totals(list_call(numbers_of(there))[1]),
              (number, x + east, y + north) if number == ACCEPTED else (number, 0, 0))
