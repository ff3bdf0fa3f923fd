"""The pairs of walks that a page names in a table `compared`, each made as its name says."""
from pathlib import Path

from figures import COORDINATE_LIMIT
from inputs import FIGURE_EIGHT, RECTANGLE
from rings import rings_of
from worked import OTHER_WALK

TWINS = (Path(__file__).resolve().parent.parent / "examples" / "twins.txt").read_text()
SQUARE = [(0, 0), (4, 0), (4, 4), (0, 4)]
LARGE_SQUARE = [(0, 0), (100, 0), (100, 100), (0, 100)]
TRIANGLE = [(0, 0), (4, 0), (0, 5)]
OUTSIDE = [(0, 0), (COORDINATE_LIMIT + 1, 0), (0, 5)]


def with_middles(points):
    """The points, and the middle of each edge."""
    return [place for (x, y), (p, q) in zip(points, points[1:] + points[:1]) for place in ((x, y), ((x + p) // 2, (y + q) // 2))]


def swapped(points):
    """The second point and the third in each other's place."""
    first, second, third, *rest = points
    return [first, third, second, *rest]


PAIRS = {
    "the second reversed": (RECTANGLE, OTHER_WALK[::-1]),
    "both reversed": (RECTANGLE[::-1], OTHER_WALK[::-1]),
    "the same square elsewhere": (SQUARE, [(x + 30, y) for x, y in SQUARE]),
    "the twins": tuple(ring.points for ring in rings_of(TWINS, {}).values()),
    "a dent": (SQUARE, [*SQUARE[:2], (2, 2), *SQUARE[2:]]),
    "another order": (FIGURE_EIGHT, swapped(FIGURE_EIGHT)),
    "more points on the same edges": (LARGE_SQUARE, with_middles(LARGE_SQUARE)),
    "a point twice in a row": (SQUARE, [*SQUARE[:2], *SQUARE[1:]]),
    "the first outside, the second too short": (OUTSIDE, TRIANGLE[:2]),
    "the first too short, the second outside": (TRIANGLE[:2], OUTSIDE),
    "the first too short and outside": (OUTSIDE[:2], TRIANGLE),
    "the second outside": (TRIANGLE, OUTSIDE),
}
