"""Whether an outline crosses itself, the test that warns of it from the six totals alone, and a trial of that test."""
import itertools
from collections import Counter


def turn(a, b, c):
    """Above 0 where c lies left of the way from a to b, below 0 where right, 0 where on their line."""
    return (b[0] - a[0]) * (c[1] - a[1]) - (c[0] - a[0]) * (b[1] - a[1])


def cross(a, b, c, d):
    """The edges from a to b and from c to d meet inside both, at an angle."""
    return turn(a, b, c) * turn(a, b, d) < 0 and turn(c, d, a) * turn(c, d, b) < 0


def lies_on(c, a, b):
    """The point c lies on the edge from a to b, its ends included."""
    return turn(a, b, c) == 0 and min(a[0], b[0]) <= c[0] <= max(a[0], b[0]) and min(a[1], b[1]) <= c[1] <= max(a[1], b[1])


def lies_inside(place, loop):
    """Whether a line due east from the place meets the loop an odd number of times."""
    edges = zip(loop, loop[1:] + loop[:1])
    return sum((a[1] <= place[1]) != (b[1] <= place[1]) and turn(a, b, place) * (b[1] - a[1]) > 0 for a, b in edges) % 2 == 1


def kind(points):
    """`crosses` if two edges cross; `plain` if none have a point in common but the corner of neighbours; else `touches`."""
    edges = list(zip(points, points[1:] + points[:1]))
    last = len(edges) - 1
    apart = [(*edges[i], *edges[j]) for i in range(last) for j in range(i + 2, last + 1) if (i, j) != (0, last)]
    if any(cross(*pair) for pair in apart):
        return "crosses"
    meet = any(lies_on(a, c, d) or lies_on(b, c, d) or lies_on(c, a, b) or lies_on(d, a, b) for a, b, c, d in apart)
    fold = any(lies_on(a, b, c) or lies_on(c, a, b) for (a, b), (_, c) in zip(edges, edges[1:] + edges[:1]))
    return "touches" if meet or fold else "plain"


def warns(totals):
    """The test of CROSSINGS.md in whole numbers: 72 × A2 × (Mxx, Myy, Mxy) must be as for an outline that is plain."""
    a2, x6, y6, xx12, xy24, yy12 = totals
    mxx, myy, mxy = 6 * a2 * xx12 - 4 * x6 * x6, 6 * a2 * yy12 - 4 * y6 * y6, 3 * a2 * xy24 - 4 * x6 * y6
    plain = a2 != 0 and a2 * xx12 > 0 and a2 * yy12 > 0 and mxx > 0 and myy > 0 and mxy * mxy < mxx * myy
    return not plain


# The trial

def walks_on_grid(count, side):
    """All walks round that many different points of a square grid, in every order, each from its least point."""
    grid = list(itertools.product(range(side), repeat=2))
    for first, *rest in itertools.combinations(grid, count):
        for order in itertools.permutations(rest):
            yield [first, *order]


def walks_with_swap(count):
    """Plots with half of their points along the south, at 0 or 1, and half along the north, at 8 or 9; and each with
    every two neighbouring points swapped."""
    for ys in itertools.product((0, 1), (8, 9), repeat=count // 2):
        south, north = ([(2 * i, y) for i, y in enumerate(side)] for side in (ys[0::2], ys[1::2]))
        points = south + north[::-1]
        yield points
        for i in range(count):
            swapped = list(points)
            swapped[i - 1], swapped[i] = points[i], points[i - 1]
            yield swapped


TRIALS = {"4 points of a 5 by 5 grid": (walks_on_grid, 4, 5), "5 points of a 4 by 4 grid": (walks_on_grid, 5, 4),
          "plots of 8 points, 2 or none swapped": (walks_with_swap, 8), "plots of 10 points, 2 or none swapped": (walks_with_swap, 10)}


def trial(totals_of):
    """For each set of walks: how many cross, how many of these the test warns of, and the same of plain ones."""
    rows = []
    for name, (walks, *sizes) in TRIALS.items():
        seen = Counter((kind(points), warns(totals_of(points))) for points in walks(*sizes))
        rows.append([name, *(f"{number:,}" for of in ("crosses", "plain") for number in (seen[of, False] + seen[of, True], seen[of, True]))])
    return rows
