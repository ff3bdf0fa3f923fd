"""Checks of a receiver's entries, run by selfcheck.py: document 02, CR 9.  Floats as points, the order of refusals and the
longest outage; lists of calls are in selfcheck_entries.py.
"""
from collections import Counter
from math import ceil, floor
from struct import pack, unpack

from checks import check
from figures import CLOSED_WALK, FRESH_HOLE, FRESH_ISLAND, NEW_SHEET, TOTAL_LIMIT, ZERO_TOTALS
from figures import Kind, Sheet, Totals, abandon, begin, end, point
from floats import INFINITY, LARGEST, NO_NUMBER, PLUS_ZERO, SIGN, bits_of, value_of
from inputs import FIGURE_EIGHT, RECTANGLE, SQUARE, UNIT_SQUARE
from madeup_receiver import boundaries, random_fix, random_float
from receiver import Fix, Outage, entry, fix_point, rounded
from worked import walked

# Floats, the number of a fix with one such coordinate, and that coordinate of its point.
WORKED_FLOATS = ((0xC4FA1000, 0, -2000), (0xC4FA1001, 1, 0), (0x44FA1000, 1, 0), (0x44FA0FFF, 0, 2000),
                 (0xC4FA0000, 0, -2000), (0x44FA0000, 0, 2000), (0x80000000, 0, 0), (0x00000000, 0, 0),
                 (0x7F7FFFFF, 1, 0), (0xFF7FFFFF, 1, 0), (0x3F000000, 0, 1), (0x3EFFFFFF, 0, 0), (0xBF000000, 0, 0),
                 (0xBF000001, 0, -1), (0xBFC00000, 0, -1), (0x3FC00000, 0, 2), (0x80000001, 0, 0), (0x00000001, 0, 0),
                 (0x7F800000, 33, 0), (0xFF800000, 33, 0), (0x7FC00000, 33, 0), (0xFFC00000, 33, 0),
                 (0x7F800001, 33, 0), (0xFFFFFFFF, 33, 0))
ONE, ZERO, FAR, THREE = bits_of(1.0), bits_of(0.0), bits_of(2000.5), bits_of(3.0)
MINUS_ZERO, SMALLEST = SIGN, 1
NOT_FINITE = (INFINITY, INFINITY + SIGN, NO_NUMBER, NO_NUMBER + SIGN, INFINITY + 1, 2 * SIGN - 1)
BELOW_ZERO = (SIGN + SMALLEST, SIGN + LARGEST, bits_of(-1.0))
NOT_BELOW_ZERO = (ZERO, MINUS_ZERO, SMALLEST, ONE, LARGEST)
SOUND_FIXES = (Fix(ZERO, MINUS_ZERO), Fix(ONE, THREE), Fix(bits_of(-2000.5), bits_of(2000.0)))
FIXES_OUT_OF_LIMITS = (Fix(FAR, ONE), Fix(ONE, FAR), Fix(LARGEST, bits_of(-2001.0)))
# Some have the other coordinate out of limits.
FIXES_NOT_FINITE = [fix for bits in NOT_FINITE for other in (ONE, FAR) for fix in (Fix(bits, other), Fix(other, bits))]
SWEPT = 10_000


# Floats as points

def rounded_by_fields(bits):
    """Another way to round: by the float's sign, exponent and digits as whole numbers.  None where 33 turns it back."""
    exponent, digits = bits >> 23 & 255, bits & 0x7FFFFF
    if exponent == 255:
        return None
    size = digits if exponent == 0 else digits + (1 << 23)
    n, power = -size if bits >= SIGN else size, max(exponent, 1) - 150    # the value is n × 2^power
    return n << power if power >= 0 else (2 * n + (1 << -power)) >> (1 - power)


def point_by_fields(fix):
    """The number and the point of a fix, by that way."""
    place = [rounded_by_fields(bits) for bits in fix]
    if None in place:
        return 33, 0, 0
    return (0, *place) if max(map(abs, place)) <= 2000 else (1, 0, 0)


def half_away_from_zero(bits):
    """A wrong way: halves below zero go down."""
    value = value_of(bits)
    return floor(value + 0.5) if value >= 0 else ceil(value - 0.5)


def half_to_even(bits):
    """A wrong way: halves go to the even neighbour."""
    return round(value_of(bits))


def cut_off(bits):
    """A wrong way: a half more, then without what is behind the point."""
    return int(value_of(bits) + 0.5)


def added_in_floats(bits):
    """A wrong way: the half is added in 32 bits."""
    return floor(unpack("<f", pack("<f", value_of(bits) + 0.5))[0])


# Each with a float where it shows, and what it gives there.
WRONG_ROUNDINGS = ((half_away_from_zero, 0xBF000000, -1), (half_to_even, 0x3F000000, 0), (cut_off, 0xC4FA1001, -2000),
                   (added_in_floats, 0x3EFFFFFF, 1))


def check_worked_fixes():
    """The worked floats as either coordinate; every whole number within the limits; each wrong way gives other points."""
    for bits, number, value in WORKED_FLOATS:
        for other, beside in ((ONE, 1), (bits_of(-2000.5), -2000)):
            beside = beside if number == 0 else 0
            check(f"{bits:08X} as east", fix_point(Fix(bits, other)), (number, value, beside))
            check(f"{bits:08X} as north", fix_point(Fix(other, bits)), (number, beside, value))
    for value in range(-2000, 2001):
        check("a whole number", fix_point(Fix(bits_of(float(value)), bits_of(float(-value)))), (0, value, -value))
    for wrong, bits, wrongly in WRONG_ROUNDINGS:
        check(f"{wrong.__name__} gives", wrong(bits), wrongly)
        check(f"{wrong.__name__} shows", wrong(bits) == rounded(bits), False)


def check_sweep(rng):
    """The two ways to round, and to make a point, agree where answers turn and on made-up floats."""
    for bits in (*boundaries(), *(random_float(rng) for _ in range(SWEPT))):
        wanted = rounded_by_fields(bits)
        if wanted is not None:
            check(f"{bits:08X} rounded", rounded(bits), wanted)
    numbers = Counter()
    for fix in (random_fix(rng) for _ in range(SWEPT)):
        number, *place = fix_point(fix)
        check(f"{fix}", (number, *place), point_by_fields(fix))
        numbers[number] += 1
    check("each number met", {number for number, times in numbers.items() if times >= 100}, {0, 1, 33})


# The order of refusals

def check_orders():
    """Fix: 28, 21, 33, 1, 23.  Outage: 28, 21, 33, 34, and no other: a full walk takes it."""
    fixes = [*SOUND_FIXES, *FIXES_OUT_OF_LIMITS, *FIXES_NOT_FINITE]
    outages = [Outage(bits) for bits in (*NOT_FINITE, *BELOW_ZERO, *NOT_BELOW_ZERO)]
    full = walked(SQUARE * 256, Kind.HOLE)
    impossible = (full._replace(count=1025), full._replace(longest_outage=INFINITY), FRESH_ISLAND._replace(count=9999))
    odd_closed = full._replace(is_open=False, count=1025, longest_outage=NO_NUMBER)
    for given in (*fixes, *outages):
        for walk in impossible:
            check("28 first", entry(walk, given), (28, walk))
        for walk in (CLOSED_WALK, odd_closed, full._replace(is_open=False)):
            check("21 next", entry(walk, given), (21, walk))
    for walk, number in ((full, 23), (walked(RECTANGLE), 0), (FRESH_HOLE, 0)):
        for fix in FIXES_NOT_FINITE:
            check("33 before 1 and 23", entry(walk, fix), (33, walk))
        for fix in FIXES_OUT_OF_LIMITS:
            check("1 before 23", entry(walk, fix), (1, walk))
        for fix in SOUND_FIXES:
            check("fix", entry(walk, fix), point(walk, fix_point(fix)[1:]))
            check("23", entry(walk, fix)[0], number)
        for bits in NOT_FINITE:
            check("33 before 34", entry(walk, Outage(bits)), (33, walk))
        for bits in BELOW_ZERO:
            check("34", entry(walk, Outage(bits)), (34, walk))
        for bits in NOT_BELOW_ZERO:
            longest = bits if bits != MINUS_ZERO else PLUS_ZERO
            check("outage", entry(walk, Outage(bits)), (0, walk._replace(longest_outage=longest)))


# The longest outage

def with_outages(walk, *seconds):
    """The walk after accepted outages of so many seconds."""
    for each in seconds:
        number, walk = entry(walk, Outage(bits_of(each)))
        assert number == 0
    return walk


def check_longest():
    """Replaced only by a greater one; answered by an accepted end; the rectangle with outages between its points."""
    check("plus zero", [walk.longest_outage for walk in (CLOSED_WALK, FRESH_ISLAND, FRESH_HOLE)], [0, 0, 0])
    for given, left in (((-0.0,), 0.0), ((0.0, -0.0), 0.0), ((3.0, 3.0), 3.0), ((3.0, 1.0, 2.5), 3.0), ((1.0, 3.0), 3.0),
                        ((2.0 ** -149,), 2.0 ** -149)):
        check(f"longest of {given}", with_outages(FRESH_HOLE, *given), FRESH_HOLE._replace(longest_outage=bits_of(left)))
    walk = FRESH_HOLE
    for place, seconds in zip(RECTANGLE, (3.0, 1.0, 3.0, 2.5)):
        number, walk = entry(with_outages(walk, seconds), Fix(*(bits_of(float(value)) for value in place)))
        check("a fix keeps the longest", (number, walk.longest_outage), (0, THREE))
    check("the same walk", walk, walked(RECTANGLE, Kind.HOLE)._replace(longest_outage=THREE))
    totals = Totals(-80, -1200, -960, -14720, -21120, -8960)
    for ended in (walk, with_outages(walk, 2.5)):
        check("its end", end(ended, NEW_SHEET), (0, totals, 0x40400000, CLOSED_WALK, Sheet(1, totals)))
    check("an outage last", end(with_outages(walk, 7.5), NEW_SHEET)[2], bits_of(7.5))
    check("abandon", abandon(walk), (0, CLOSED_WALK))
    for kind, fresh in ((Kind.ISLAND, FRESH_ISLAND), (Kind.HOLE, FRESH_HOLE)):
        check("22 keeps the longest", begin(walk, kind), (22, walk))
        check("begin", begin(CLOSED_WALK._replace(longest_outage=THREE), kind), (0, fresh))


def check_refused_ends():
    """Every refused end answers plus zero, and the walk keeps its longest outage."""
    square, full_sheet = with_outages(walked(UNIT_SQUARE), 7.0), Sheet(64, ZERO_TOTALS)
    for number, walk, sheet in ((28, square._replace(count=1025), NEW_SHEET), (28, square, Sheet(65, ZERO_TOTALS)),
                                (21, square._replace(is_open=False), NEW_SHEET), (24, with_outages(FRESH_HOLE, 7.0), NEW_SHEET),
                                (32, with_outages(walked(FIGURE_EIGHT), 7.0), NEW_SHEET), (25, square, full_sheet),
                                (26, square, Sheet(1, ZERO_TOTALS._replace(a2=TOTAL_LIMIT)))):
        check(f"end refused with {number}", end(walk, sheet), (number, (0,) * 6, 0, walk, sheet))
    check("accepted", end(square, NEW_SHEET)[:3], (0, (2, 3, 3, 4, 6, 4), bits_of(7.0)))


def check_handed_in():
    """28 by the longest outage of an open walk, whatever its points; a closed walk is not looked at; minus zero is taken."""
    for walk in (FRESH_ISLAND, FRESH_HOLE, walked(RECTANGLE), walked(SQUARE * 256, Kind.HOLE)):
        for bits in (*NOT_FINITE, *BELOW_ZERO):
            bad = walk._replace(longest_outage=bits)
            calls = begin(bad, Kind.ISLAND), point(bad, (0, 0)), abandon(bad), entry(bad, SOUND_FIXES[0]), entry(bad, Outage(ONE))
            check("28 by the longest outage", calls, ((28, bad),) * 5)
            check("28 by the longest outage, end", end(bad, NEW_SHEET), (28, ZERO_TOTALS, PLUS_ZERO, bad, NEW_SHEET))
            closed = bad._replace(is_open=False)
            check("not looked at", (point(closed, (0, 0)), abandon(closed), end(closed, NEW_SHEET)),
                  ((21, closed), (21, closed), (21, ZERO_TOTALS, PLUS_ZERO, closed, NEW_SHEET)))
            check("begun", begin(closed, Kind.HOLE), (0, FRESH_HOLE))
        for bits in NOT_BELOW_ZERO:
            taken = walk._replace(longest_outage=bits)
            check("taken", (begin(taken, Kind.HOLE), abandon(taken)), ((22, taken), (0, CLOSED_WALK)))
    minus = walked(RECTANGLE)._replace(longest_outage=MINUS_ZERO)
    check("no zero replaces minus zero", with_outages(minus, 0.0, -0.0), minus)
    check("minus zero answered", end(minus, NEW_SHEET)[2], 0x80000000)
    check("minus zero replaced", with_outages(minus, 2.0 ** -149).longest_outage, SMALLEST)
    check("a point keeps it", point(minus, (1, 1))[1].longest_outage, 0x80000000)
