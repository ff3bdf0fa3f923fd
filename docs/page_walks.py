"""The pairs of walks of a page: the figures of a block `walks`, and the rows of the tables on them. See check.py."""
import re
from itertools import zip_longest

import exact
from differences import expect
from figures import COORDINATE_LIMIT, LEAST_POINTS, MOST_POINTS, Totals, list_call
from walk_pairs import PAIRS
from walkers import Comparison, Part, compare_walks
from worked import numbers_of

POINT = re.compile(r"\((-?\d+), (-?\d+)\)")


def points_in(text):
    return [(int(x), int(y)) for x, y in POINT.findall(text)]


def apart(p, q):
    return (p[0] - q[0]) ** 2 + (p[1] - q[1]) ** 2


def radius(points, others):
    """The least squared radius at which the circles round the others hold all points."""
    return min(d for d in {apart(p, q) for p in points for q in others} if all(any(apart(p, q) <= d for q in others) for p in points))


def pair(first, second):
    """The exact figures of two walks by name: integrals, their differences, and radii. The second program has to answer the same."""
    found = {"walks": (first, second), "first to second": radius(first, second), "second to first": radius(second, first)}
    for which, points in (("first", first), ("second", second)):
        integrals = exact.outline_figures([points])
        found |= {f"{which} {name}": integrals[name] for name in exact.INTEGRANDS}
        found |= {f"{which} {total}": times * integrals[name] for total, times, name in zip(exact.TOTALS, exact.MULTIPLES, exact.INTEGRANDS)}
    found |= {f"difference in {total}": found[f"first {total}"] - found[f"second {total}"] for total in exact.TOTALS}
    part = Part(1, 2 * len(second)) if len(first) < len(second) else Part(0, 2 * len(first))
    by_fractions = Comparison(0, Totals(*(found[f"difference in {total}"] for total in exact.TOTALS)),
                              found["first to second"], found["second to first"], part)
    found["answer"] = compare_walks(numbers_of(first), numbers_of(second))
    expect(found["answer"] == by_fractions, "two walks", f"{first} and {second} have {by_fractions}, not {found['answer']}")
    return found


def made_up_pairs(chance, count):
    """Figures of made-up pairs, with points in common."""
    def walk():
        return [(chance.randint(-9, 9), chance.randint(-9, 9)) for _ in range(chance.randint(3, 7))]
    return [pair(first, first[1:] + walk()) for first in (walk() for _ in range(count))]


# The rows that a table has to have, from those that it has and the pair that the page names

def handed_back(part):
    return f"{('first', 'second')[part.which]}, {part.length} numbers"


def answer_rows(_, now):
    """What the call on a whole list answers for each walk, and the comparison for both orders of the two."""
    columns = [[number, *totals, "—", "—", "—"] for number, totals in (list_call(numbers_of(walk)) for walk in now["walks"])]
    columns += [[each.number, *each.differences, each.first_to_second, each.second_to_first, handed_back(each.part)]
                for each in (now["answer"], pair(*now["walks"][::-1])["answer"])]
    names = ("number", *exact.TOTALS, "first to second", "second to first", "handed back")
    return [[name, *(f"{value:,}" if isinstance(value, int) else value for value in row)] for name, *row in zip(names, *columns)]


def product_rows(_, now):
    """Edge by edge, the cross products of both walks; their sums."""
    columns = [[[f"`{(x, y)} → {(p, q)}`", f"`{x} × {q} − {p} × {y} = {x * q - p * y}`"] for (x, y), (p, q) in zip(walk, walk[1:] + walk[:1])]
               for walk in now["walks"]]
    rows = [[*left, *right] for left, right in zip_longest(*columns, fillvalue=("—", "—"))]
    return [*rows, ["Sum", f"`{now['first A2']}`", "Sum", f"`{now['second A2']}`"]]


def nearest_rows(rows, now):
    """For each point of the walk that the head names, the nearest point of the other and the squared distance; the greatest."""
    walk, other = now["walks"] if "first" in rows[0][0] else now["walks"][::-1]
    near = [(p, min(other, key=lambda q, p=p: apart(p, q))) for p in walk]
    found = [[f"`{p}`", f"`{q}`", f"`{abs(p[0] - q[0])}² + {abs(p[1] - q[1])}² = {apart(p, q)}`"] for p, q in near]
    return [*found, ["Greatest", "—", f"`{radius(walk, other)}`"]]


def compared_row(label):
    """The row of a named pair: both lists, the number, the differences, both distances and the part."""
    walks = PAIRS[label]
    found = compare_walks(*map(numbers_of, walks))
    expect(found.number or found == pair(*walks)["answer"], "two walks", f"{walks} have other figures")
    written = ["`" + " ".join(map(str, points)) + "`" for points in walks]
    distances = (f"{each:,}" for each in (found.first_to_second, found.second_to_first))
    return [label, *written, str(found.number), " ".join(map(str, found.differences)), *distances, handed_back(found.part)]


ROWS = {"answer": answer_rows, "products": product_rows, "nearest": nearest_rows,
        "compared": lambda rows, _: [compared_row(row[0]) for row in rows[2:]],
        "sizes": lambda *_: [["points of each walk", f"{LEAST_POINTS} to {MOST_POINTS:,}"],
                             ["a coordinate", f"-{COORDINATE_LIMIT:,} to {COORDINATE_LIMIT:,} dm"],
                             ["a squared distance", f"0 to {2 * (2 * COORDINATE_LIMIT) ** 2:,} dm²"]]}
