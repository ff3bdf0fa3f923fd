"""Maps, cuts, starts and directions of document 01, straight from its rules; moving twice as CR 7 of document 02 has it."""
from typing import NamedTuple

from figures import ACCEPTED, COORDINATE_LIMIT, OUTLINE_BOUNDS, SHEET_BOUNDS, ZERO_TOTALS
from figures import Totals, within_bounds

COEFFICIENT_LIMIT = 2
SHIFT_LIMIT = COORDINATE_LIMIT


class AffineMap(NamedTuple):
    """"Maps": u = a×x + b×y + e, v = g×x + h×y + f."""
    a: int
    b: int
    g: int
    h: int
    e: int
    f: int


class Cut(NamedTuple):
    """"Cuts, starts and moves": where a piece is to be divided: its number and two places in it, from 0."""
    piece: int
    one: int
    other: int


# Maps

def map_is_allowed(affine):
    """Not turned back by 3."""
    coefficients = (affine.a, affine.b, affine.g, affine.h)
    shifts = (affine.e, affine.f)
    return (all(-COEFFICIENT_LIMIT <= value <= COEFFICIENT_LIMIT for value in coefficients)
            and all(-SHIFT_LIMIT <= value <= SHIFT_LIMIT for value in shifts))


def mapped_totals(affine, totals):
    """The six formulas of "Maps"."""
    a, b, g, h, e, f = affine
    a2, x6, y6, xx12, xy24, yy12 = totals
    d = a * h - b * g
    return Totals(
        d * a2,
        d * (a * x6 + b * y6 + 3 * e * a2),
        d * (g * x6 + h * y6 + 3 * f * a2),
        d * (a * a * xx12 + b * b * yy12 + a * b * xy24
             + 4 * a * e * x6 + 4 * b * e * y6 + 6 * e * e * a2),
        d * (2 * a * g * xx12 + 2 * b * h * yy12 + (a * h + b * g) * xy24
             + 4 * (g * e + a * f) * x6 + 4 * (h * e + b * f) * y6 + 12 * e * f * a2),
        d * (g * g * xx12 + h * h * yy12 + g * h * xy24
             + 4 * g * f * x6 + 4 * h * f * y6 + 6 * f * f * a2))


def map_call(affine, totals):
    """The map's answer for six totals: (number, totals).  Order 3, 4, 5."""
    if not map_is_allowed(affine):
        return 3, ZERO_TOTALS
    if not within_bounds(totals, OUTLINE_BOUNDS):
        return 4, ZERO_TOTALS
    answer = mapped_totals(affine, totals)
    if not within_bounds(answer, SHEET_BOUNDS):
        return 5, ZERO_TOTALS
    return ACCEPTED, answer


# Cuts, starts and moves

def cut_can_be_made(pieces, cut):
    """Whether there is such a piece, with both places in it, and points of it between them on either side."""
    if not 0 <= cut.piece < len(pieces):
        return False
    size = len(pieces[cut.piece])
    if not (0 <= cut.one < size and 0 <= cut.other < size):
        return False
    equal = cut.one == cut.other
    neighbours = (cut.one + 1) % size == cut.other or (cut.other + 1) % size == cut.one
    return not equal and not neighbours


def after_cut(pieces, cut):
    """The pieces after one cut, or as they were where it is impossible."""
    if not cut_can_be_made(pieces, cut):
        return pieces
    points = pieces[cut.piece]
    lower, higher = min(cut.one, cut.other), max(cut.one, cut.other)
    kept = points[lower:higher + 1]
    next_piece = points[higher:] + points[:lower + 1]
    return pieces[:cut.piece] + [kept] + pieces[cut.piece + 1:] + [next_piece]


def after_cuts(outline, cuts):
    """The pieces after a whole list of cuts, each given what the last one left."""
    pieces = [outline]
    for cut in cuts:
        pieces = after_cut(pieces, cut)
    return pieces


def started_at(piece, position):
    """The points from the position to the last, then those before it from the first on."""
    return piece[position:] + piece[:position]


def walked_backwards(piece):
    """The points in the opposite order; from another point by started_at."""
    return piece[::-1]


def moved_point(affine, place):
    """(x, y) moved to (u, v)."""
    x, y = place
    return (affine.a * x + affine.b * y + affine.e, affine.g * x + affine.h * y + affine.f)


def moved(affine, piece):
    """Every point of a piece moved."""
    return [moved_point(affine, place) for place in piece]


# Moving twice

def shift(east, north):
    """The map that moves every point by so many decimetres."""
    return AffineMap(a=1, b=0, g=0, h=1, e=east, f=north)


def composed(first, second):
    """CR 7: the map that moves every point as first and then second do.  The images of (0, 0), (1, 0) and (0, 1) tell it."""
    def image(place):
        return moved_point(second, moved_point(first, place))
    e, f = image((0, 0))
    u_of_x, v_of_x = image((1, 0))
    u_of_y, v_of_y = image((0, 1))
    return AffineMap(a=u_of_x - e, b=u_of_y - e, g=v_of_x - f, h=v_of_y - f, e=e, f=f)
