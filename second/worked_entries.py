"""Rows of CR 9 of document 02, one line each: fixes as points, a walk told call by call, and a walk that is full.

Fields are separated by tabs.  A float is told by its bits, as a decimal number; one that is not a number is left out.

Rows `fix`.  Asked: east, north.  Answered: number, x, y.
Rows `fix-nan`: one float is not a number.  Asked: the other, which is north if it is above zero, else east.  Answered: the same.
Rows `call`.  Asked: the step, from 1 on, and the call.  Answered: number, the walk's count and its longest outage
afterwards; with an end, also the six totals and the longest outage that it answers.  `made_up_calls` says which calls.
Rows `full`: the same without the step, for a walk of 1,024 points.
"""
from typing import NamedTuple

from figures import CLOSED_WALK, NEW_SHEET, Kind, begin, end
from floats import INFINITY, NO_NUMBER, SIGN, bits_of
from inputs import SQUARE
from receiver import Fix, Outage, entry, fix_point

NORTH, EAST = bits_of(1.0), bits_of(-1.0)
FAR_NORTH, FAR_EAST = bits_of(2000.5), bits_of(-2001.0)
# Where rounding or a refusal turns, each with its neighbours: the limits, halves, the two zeros, the largest, the infinities.
FLOATS = (0xC4FA0000, 0xC4FA0FFF, 0xC4FA1000, 0xC4FA1001, 0x44FA0000, 0x44FA0FFF, 0x44FA1000, 0x44FA1001,
          0x3EFFFFFF, 0x3F000000, 0x3F000001, 0xBEFFFFFF, 0xBF000000, 0xBF000001,
          0x3FBFFFFF, 0x3FC00000, 0x3FC00001, 0xBFBFFFFF, 0xBFC00000, 0xBFC00001,
          0x00000000, 0x80000000, 0x00000001, 0x80000001, 0x7F7FFFFF, 0xFF7FFFFF, INFINITY, INFINITY + SIGN)

FIRST_STATE = 20261
MULTIPLIER, MODULUS = 48_271, 2_147_483_647
STEPS = 400
MODEST, MODEST_SPAN = bits_of(512.0), 2 ** 24    # from 512 up to, but without, 2,048


# Fixes as points

def fix_row(east, north):
    """A fix of two numbers or infinities."""
    return ["fix", east, north, *fix_point(Fix(east, north))]


def fix_rows():
    """Each float as east and then as north; then an infinity beside a coordinate out of limits, and what is not a number
    beside one within the limits and one outside them."""
    for bits in FLOATS:
        yield fix_row(bits, NORTH)
        yield fix_row(EAST, bits)
    yield fix_row(INFINITY, FAR_NORTH)
    yield fix_row(FAR_EAST, INFINITY)
    for north in (NORTH, FAR_NORTH):
        yield ["fix-nan", north, *fix_point(Fix(NO_NUMBER, north))]
    for east in (EAST, FAR_EAST):
        yield ["fix-nan", east, *fix_point(Fix(east, NO_NUMBER))]


# Calls

class Begin(NamedTuple):
    """A begin of this kind."""
    kind: Kind


class End(NamedTuple):
    """An end."""


WORDS = {Fix: "fix", Outage: "outage", Begin: "begin", End: "end"}


def carried_out(call, walk, sheet):
    """(fields of the row from the call on, walk afterwards, sheet afterwards)."""
    answered = ()
    if isinstance(call, Begin):
        number, walk = begin(walk, call.kind)
    elif isinstance(call, End):
        number, totals, longest, walk, sheet = end(walk, sheet)
        answered = *totals, longest
    else:
        number, walk = entry(walk, call)
    return [WORDS[type(call)], number, walk.count, walk.longest_outage, *answered], walk, sheet


def draws():
    """Each state is the one before times the multiplier, modulo the modulus; the first draw is the state after the first one."""
    state = FIRST_STATE
    while True:
        state = state * MULTIPLIER % MODULUS
        yield state


def drawn_float(drawn):
    """A float of three draws.  The first modulo 8 says which size it has by the second: with 0 infinity; with 1 the draw
    itself as bits, but infinity if they are past infinity's; with 2 zero; else 512 and as many patterns more as the draw
    modulo 2^24.  With an odd third draw it is below zero, or minus zero."""
    kind, draw, sign = next(drawn) % 8, next(drawn), next(drawn) % 2
    if kind == 0:
        size = INFINITY
    elif kind == 1:
        size = min(draw, INFINITY)
    elif kind == 2:
        size = 0
    else:
        size = MODEST + draw % MODEST_SPAN
    return size + sign * SIGN


def drawn_call(drawn):
    """A draw modulo 16: 0 to 8 a fix of two floats, east first; 9 to 13 an outage of one; 14 a begin, of a hole if one draw
    more is odd; 15 an end."""
    choice = next(drawn) % 16
    if choice <= 8:
        return Fix(drawn_float(drawn), drawn_float(drawn))
    if choice <= 13:
        return Outage(drawn_float(drawn))
    if choice == 14:
        return Begin(Kind.HOLE if next(drawn) % 2 == 1 else Kind.ISLAND)
    return End()


def made_up_calls():
    """The calls of all steps."""
    drawn = draws()
    return [drawn_call(drawn) for _ in range(STEPS)]


def call_rows():
    """Each call is given the walk and the sheet that the one before left: first a closed walk and a new sheet."""
    walk, sheet = CLOSED_WALK, NEW_SHEET
    for step, call in enumerate(made_up_calls(), 1):
        fields, walk, sheet = carried_out(call, walk, sheet)
        yield ["call", step, *fields]


# A full walk

def full_walk():
    """An island of 1,024 points: the square of ±2,000 walked 256 times, by fixes."""
    _, walk = begin(CLOSED_WALK, Kind.ISLAND)
    for x, y in SQUARE * 256:
        number, walk = entry(walk, Fix(bits_of(float(x)), bits_of(float(y))))
        assert number == 0
    return walk


def full_rows():
    """A fix at the peg, one past the limits, one at no place; then an outage and the end."""
    walk, sheet = full_walk(), NEW_SHEET
    zero = bits_of(0.0)
    for call in (Fix(zero, zero), Fix(FAR_NORTH, zero), Fix(zero, INFINITY), Outage(bits_of(5.0)), End()):
        fields, walk, sheet = carried_out(call, walk, sheet)
        yield ["full", *fields]


def rows():
    """The fields of every row."""
    yield from fix_rows()
    yield from call_rows()
    yield from full_rows()


if __name__ == "__main__":
    for fields in rows():
        print(*fields, sep="\t")
