"""The rings of an input: the kind and the points of each, and the direction in which it counts (document 02, CR 3)."""
from typing import NamedTuple

from exact import INTEGRANDS, integral

ZERO_AREA = 32


class Ring(NamedTuple):
    """What a walk has gone round."""
    is_hole: bool
    points: list


def rings_of(given, refusals):
    """By the line of its end, every ring that has come to one, those included whose end 32 refuses; `refusals` has the
    number of every line that is refused."""
    ended, ring = {}, None
    for number, line in enumerate(given.splitlines(), 1):
        letter, *fields = line.split("\t")
        if number in refusals and refusals[number] != ZERO_AREA:
            continue
        if letter == "B":
            ring = Ring(fields == ["H"], [])
        elif letter == "P":
            ring = ring._replace(points=[*ring.points, tuple(map(int, fields))])
        elif letter == "E":
            ended[number] = ring
    return ended


def as_counted(ring):
    """Its points in the direction in which its area is above 0 for an island, below 0 for a hole; as walked if it is 0."""
    area = integral(INTEGRANDS["area"], [ring.points])
    has_wrong_sign = area > 0 if ring.is_hole else area < 0
    return ring.points[::-1] if has_wrong_sign else ring.points
