"""Third moments on a page: the figures of a block `points`, the rows of the tables on them, and what code prints. See check.py."""
import re
from fractions import Fraction
from itertools import product
from pathlib import Path

import exact
from differences import expect
from figures import COORDINATE_LIMIT, LEAST_POINTS, MOST_POINTS
from inputs import FIGURE_EIGHT, RECTANGLE, SQUARE_WEST, UNIT_SQUARE
from page_rings import list_figures
from page_walks import points_in
from third_moments import THIRD_LIMIT, cube_bracket, mixed_bracket, third_moments
from worked import numbers_of

ROOT = Path(__file__).resolve().parent.parent
MULTIPLES = (20, 60, 60, 20)
TRIANGLE = [(0, 1), (6, 1), (6, 4)]
TWO_LOOPS = [(0, 0), (3, 3), (3, -1), (0, 2)]
FAR = [(600, 0), (1400, 0), (1400, 300)]


def shifted(points, east, north):
    return [(x + east, y + north) for x, y in points]


# The plots that a table names, each made as its name says; the lists that each refusal shows.
PLOTS = {"the unit square": UNIT_SQUARE, "the unit square, one decimetre further west": SQUARE_WEST, "the rectangle": RECTANGLE,
         "the rectangle, begun at its third corner": RECTANGLE[2:] + RECTANGLE[:2], "the rectangle, walked backwards": RECTANGLE[::-1],
         "the figure eight": FIGURE_EIGHT, "one point, three times": [(5, 7)] * 3,
         "a plot far from the peg": FAR, "the same plot, from a peg a hundred metres further east": shifted(FAR, -1000, 0)}
SEEN = {"as it stands above": TRIANGLE, "from a peg at its centre": shifted(TRIANGLE, -4, -2),
        "from a peg a metre further west": shifted(TRIANGLE, 10, 0), "walked backwards": TRIANGLE[::-1],
        "mirrored from east to west": [(-x, y) for x, y in TRIANGLE], "twice as long and as wide": [(2 * x, 2 * y) for x, y in TRIANGLE]}
SPREAD = {"the triangle": TRIANGLE, "the rectangle": RECTANGLE, "two loops of different size": TWO_LOOPS, "the figure eight": FIGURE_EIGHT}
REFUSED = {2: [(600, 0), (2001, 0)], 1: [(600, 0), (0, 3), (0, 2001)], 35: [(501, 0), (0, 3), (0, 0)]}


# Blocks and code

def block_figures(where, body):
    """The figures of the lists of a block, a line each, taken together: the totals are the second program's, added up."""
    outlines = [points_in(line) for line in body.splitlines()]
    written = "".join(" ".join(map(str, points)) + "\n" for points in outlines)
    expect(body == written, where, f"the points are\n{written}")
    each = [list_figures(points) for points in outlines]
    totals = {name: sum(found[name] for found in each) for name in (*exact.TOTALS, *exact.THIRD_TOTALS)}
    return exact.outline_figures(outlines) | exact.third_figures(outlines) | totals | {"of": outlines}


def printed(kind, found):
    """What code prints for the one list of a block: the number and the four totals; the struct of callers/rust; or, in Python, mean
    square, mean cube and skewness in x."""
    number, totals = third_moments(numbers_of(found["of"][0]))
    if kind == "rust":
        return f"ThirdTotals {{ {', '.join(f'{name}: {value}' for name, value in totals._asdict().items())} }}\n"
    if kind == "python":
        return f"{found['Mxx'] / found['area']} {found['Mxxx'] / found['area']} {float(found['skewness in x']):.3f}\n"
    return " ".join(map(str, (number, *totals))) + "\n"


# The rows that a table has to have, from those that it has

def listed(points):
    return "`" + " ".join(map(str, points)) + "`"


def decimals(number):
    """A figure to three places, after ≈ if it is rounded; a dash where there is none."""
    if number is None:
        return "—"
    rounded = Fraction(round(number * 1000), 1000)
    text = f"{float(rounded):,.3f}".rstrip("0").rstrip(".")
    return text if rounded == number else f"≈ {text}"


def plot_row(label):
    """The number and the four totals of a named plot; its integrals, where it is accepted, are the fractions of them."""
    number, totals = third_moments(numbers_of(PLOTS[label]))
    integrals = exact.third_figures([PLOTS[label]])
    right = [multiple * integrals[name] for multiple, name in zip(MULTIPLES, exact.CUBES)]
    expect(number or right == list(totals), "third moments", f"{label} has {right}")
    return [label, listed(PLOTS[label]), str(number), *(f"{total:,}" for total in totals)]


def seen_row(label):
    """The totals of the triangle so seen, its moments about the centre, and its skewness."""
    found = list_figures(SEEN[label])
    return [label, listed(SEEN[label]), *(f"{found[name]:,}" for name in exact.THIRD_TOTALS),
            *(decimals(found[name]) for name in (*exact.CENTRAL_CUBES, *exact.SKEWNESS))]


def spread_row(label):
    """A2 of a named outline, its mean squares about the centre and its skewness, each where there is one."""
    found = list_figures(SPREAD[label])
    means = [found[name] / found["area"] if name in found else None for name in ("Mxx", "Myy")]
    return [label, listed(SPREAD[label]), f"{found['A2']:,}", *map(decimals, means), *(decimals(found.get(name)) for name in exact.SKEWNESS)]


def ring_rows(rows, now):
    """The ten totals of each list of the block, and their sums; the labels are the page's own."""
    names = (*exact.TOTALS, *exact.THIRD_TOTALS)
    columns = [list_figures(points) for points in now["of"]] + [now]
    labels = [row[0] for row in rows[2:]]
    expect(not any(re.search(r"\d", label) for label in labels), "the table rings", "a digit in a label")
    return [[label, *(f"{int(found[name]):,}" for name in names)] for label, found in zip(labels, columns, strict=True)]


def met_by(points):
    """The refusals that a list would meet if no other came first: 35 by a coordinate that 1 lets through."""
    sizes = [abs(each) for each in numbers_of(points)]
    tests = {2: len(points) < LEAST_POINTS, 1: max(sizes) > COORDINATE_LIMIT, 35: any(THIRD_LIMIT < size <= COORDINATE_LIMIT for size in sizes)}
    return [number for number, is_met in tests.items() if is_met]


def refusal_rows(*_):
    """The refusals in their order, each with its meaning on the page of refusals and a list that it meets; those below it would, too."""
    meanings = dict(re.findall(r"(?m)^\| (\d+) \| (.*?) \|", (ROOT / "docs" / "REFUSALS.md").read_text()))
    for place, (number, points) in enumerate(REFUSED.items()):
        right = met_by(points) == [*REFUSED][place:] and third_moments(numbers_of(points))[0] == number
        expect(right, "third moments", f"{points} meet {met_by(points)}")
    return [[str(number), meanings.get(str(number)), listed(points)] for number, points in REFUSED.items()]


def bound_rows(*_):
    """The limits of the call, and the greatest sizes of its totals: all points at the corners of the limits."""
    corners = list(product((-THIRD_LIMIT, THIRD_LIMIT), repeat=4))
    c = max(abs(x * q - p * y) for x, y, p, q in corners)
    cube, mixed = (MOST_POINTS * c * max(abs(bracket(*each)) for each in corners)
                   for bracket in (lambda x, _, p, __: cube_bracket(x, p), mixed_bracket))
    return [["points of the list", f"{LEAST_POINTS} to {MOST_POINTS:,}"], ["a coordinate", f"-{THIRD_LIMIT:,} to {THIRD_LIMIT:,} dm"],
            ["XXX20 and YYY20, in size", f"at most {cube:,}"], ["XXY60 and XYY60, in size", f"at most {mixed:,}"]]


HEADS = {"thirds": ["Plot", "Points", "Number", *exact.THIRD_TOTALS],
         "seen": ["The triangle", "Points", *exact.THIRD_TOTALS, *exact.CENTRAL_CUBES, *exact.SKEWNESS],
         "spread": ["Outline", "Points", "A2", "Mean square in x", "Mean square in y", *exact.SKEWNESS],
         "rings": ["Ring", *exact.TOTALS, *exact.THIRD_TOTALS],
         "order": ["No.", "Meaning", "A list that is refused so"],
         "bounds": ["What", "Limit"]}


def rows_of(name, found):
    """The rows by their own check, under their heads."""
    def checked(rows, now):
        expect(rows[0] == HEADS[name], f"the table {name}", f"the heads are {HEADS[name]}")
        return found(rows, now)
    return checked


FOUND = {"thirds": lambda rows, _: [plot_row(row[0]) for row in rows[2:]], "seen": lambda *_: [seen_row(label) for label in SEEN],
         "spread": lambda *_: [spread_row(label) for label in SPREAD], "rings": ring_rows, "order": refusal_rows, "bounds": bound_rows}
ROWS = {name: rows_of(name, found) for name, found in FOUND.items()}
