"""A receiver's entries of CR 9 of document 02: fixes and outages, and what they do to a walk.

Floats stand by their bits, see floats.py.  The walk's longest outage, 28 and what an end
answers are in figures.py.
"""
from typing import NamedTuple

from figures import ACCEPTED, point, rounded_half_up, walk_is_turned_back, within_limits
from floats import exact, is_finite, outage_refusal, value_of


class Fix(NamedTuple):
    """Two floats, in decimetres."""
    east: int
    north: int


class Outage(NamedTuple):
    """A float."""
    seconds: int


def rounded(bits):
    """A finite float's exact value to a whole number, halves up: the rule of a centre."""
    value = exact(bits)
    return rounded_half_up(value.numerator, value.denominator)


def fix_point(fix):
    """The point that a fix becomes: (number, x, y).  Order 33, 1."""
    if not (is_finite(fix.east) and is_finite(fix.north)):
        return 33, 0, 0
    place = rounded(fix.east), rounded(fix.north)
    if not within_limits(place):
        return 1, 0, 0
    return ACCEPTED, *place


def give_fix(walk, fix):
    """(number, walk afterwards), for an open walk that 28 takes.  Order 33, 1, 23."""
    number, *place = fix_point(fix)
    if number != ACCEPTED:
        return number, walk
    return point(walk, tuple(place))


def give_outage(walk, outage):
    """(number, walk afterwards), for an open walk that 28 takes.  Order 33, 34."""
    number = outage_refusal(outage.seconds)
    if number != ACCEPTED:
        return number, walk
    if value_of(outage.seconds) > value_of(walk.longest_outage):
        return ACCEPTED, walk._replace(longest_outage=outage.seconds)
    return ACCEPTED, walk


def entry(walk, given):
    """An entry given to a walk: (number, walk afterwards).  Fix: 28, 21, 33, 1, 23.  Outage: 28, 21, 33, 34."""
    if walk_is_turned_back(walk):
        return 28, walk
    if not walk.is_open:
        return 21, walk
    return give_fix(walk, given) if isinstance(given, Fix) else give_outage(walk, given)
