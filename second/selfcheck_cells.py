"""Checks of cells, regions and masks, run by selfcheck.py: the figures of document 02, corner
cases of its rules, and made-up masks.

The totals stand beside two other ways to them: each cell's own square as an outline, and the
request's formulas over the sums of 1, x, y, x², xy and y² of the cells.
"""
from typing import NamedTuple

from cells import Run, corners, region_totals
from checks import check
from figures import OUTLINE_BOUNDS, ZERO_TOTALS
from figures import Totals, added, centre_of_totals, list_call, outline_totals, rounded_half_up, within_bounds
from madeup_masks import checkerboard, full, list_length, random_mask
from masks import is_marked, longest_runs, mask_runs, mask_totals, rows_of
from worked import FOUR_RUNS, MOST_MASK_RUNS, ONE_RUN_MORE, RECORD_BEFORE, numbers_of

ONE_RUN = [Run(3, 2, 3)]
L_SHAPE = [Run(0, 0, 3), Run(1, 0, 1)]
RUNS_OF_MASK = [Run(0, 0, 1), Run(0, 63, 3), Run(0, 1023, 1), Run(1, 0, 1)]
# Regions with their totals and centre.
WORKED_REGIONS = ((ONE_RUN, (6, 63, 63, 468, 882, 444), (4, 4)),
                  (L_SHAPE, (8, 30, 18, 112, 72, 40), (1, 1)),
                  (RUNS_OF_MASK, (12, 7308, 24, 12720432, 14628, 48), (203, 1)))
GRID = [(0, 0), (1024, 0), (1024, 1024), (0, 1024)]


# Other ways to the totals of cells, each cell as its column and row

class Sums(NamedTuple):
    """The sums over cells as points: of 1, x, y, x², xy, y²."""
    a: int
    x: int
    y: int
    xx: int
    xy: int
    yy: int


def sums_over(cells):
    """The six sums, cell by cell."""
    return Sums(*map(sum, zip(Sums(0, 0, 0, 0, 0, 0), *((1, x, y, x * x, x * y, y * y) for x, y in cells))))


def by_formulas(cells):
    """The request's formulas over the sums."""
    a, x, y, xx, xy, yy = sums_over(cells)
    return Totals(2 * a, 6 * x + 3 * a, 6 * y + 3 * a, 12 * xx + 12 * x + 4 * a,
                  24 * xy + 12 * x + 12 * y + 6 * a, 12 * yy + 12 * y + 4 * a)


def by_squares(cells):
    """The outline of each cell's own square, and the totals of all of them added."""
    totals = ZERO_TOTALS
    for x, y in cells:
        totals = added(totals, outline_totals(corners(x, y)))
    return totals


def cells_of(runs):
    """The cells of runs, in order."""
    return [(x, run.row) for run in runs for x in range(run.first, run.first + run.length)]


# Errors that the worked regions show: what a wrong program would answer for cells

def with_3_added_once(cells):
    """The 3 of X6 and Y6 once for the region, and not for each cell."""
    sums = sums_over(cells)
    return by_formulas(cells)._replace(x6=6 * sums.x + 3, y6=6 * sums.y + 3)


def with_4_added_once(cells):
    """The 4 of XX12 and YY12 once for the region, and not for each cell."""
    sums = sums_over(cells)
    return by_formulas(cells)._replace(xx12=12 * (sums.xx + sums.x) + 4, yy12=12 * (sums.yy + sums.y) + 4)


def with_6_for_12(cells):
    """XY24 with 6×Sx + 6×Sy."""
    sums = sums_over(cells)
    return by_formulas(cells)._replace(xy24=24 * sums.xy + 6 * (sums.x + sums.y + sums.a))


def of_the_bounding_box(cells):
    """The outline of the least rectangle round all cells."""
    xs, ys = zip(*cells)
    west, east, south, north = min(xs), max(xs) + 1, min(ys), max(ys) + 1
    return outline_totals([(west, south), (east, south), (east, north), (west, north)])


WRONG_TOTALS = (sums_over, with_3_added_once, with_4_added_once, with_6_for_12, of_the_bounding_box)


def centre_as_points(cells):
    """Sx / A and Sy / A."""
    sums = sums_over(cells)
    return rounded_half_up(sums.x, sums.a), rounded_half_up(sums.y, sums.a)


def check_worked_regions():
    """The figures of the worked regions, by all ways; each error named above changes some of them."""
    for runs, totals, centre in WORKED_REGIONS:
        check("region", region_totals(runs), (0, 0, totals))
        check("region by squares", by_squares(cells_of(runs)), totals)
        check("region by formulas", by_formulas(cells_of(runs)), totals)
        check("region centre", centre_of_totals(Totals(*totals)), (0, *centre))
    for wrong in WRONG_TOTALS:
        check(f"{wrong.__name__} shows", all(wrong(cells_of(runs)) == totals for runs, totals, _ in WORKED_REGIONS), False)
    check("centre_as_points shows", centre_as_points(cells_of(ONE_RUN)) == (4, 4), False)


# Corner cases

def check_region_corners():
    """Runs and regions: corner cases."""
    check("no runs", region_totals([]), (0, 0, ZERO_TOTALS))
    check("centre of no runs", centre_of_totals(region_totals([])[2]), (27, 0, 0))
    for x, y in ((0, 0), (1, 0), (0, 1), (7, 5), (1023, 0), (0, 1023), (1023, 1023)):
        listed = list_call(numbers_of([(x, y), (x + 1, y), (x + 1, y + 1), (x, y + 1)]))
        check("one cell", region_totals([Run(y, x, 1)])[2], listed[1])
    check("8", region_totals([Run(0, 0, 0)] * 4097), (8, 0, ZERO_TOTALS))
    check("6 before 7", region_totals([Run(5, 0, 1), Run(4, 0, 1), Run(9, 1024, 1)]), (6, 2, ZERO_TOTALS))
    check("7", region_totals([Run(5, 0, 3), Run(5, 2, 1), Run(5, 3, 1)]), (7, 1, ZERO_TOTALS))
    check("touching", region_totals([Run(0, 0, 2), Run(0, 2, 1)]), region_totals([Run(0, 0, 3)]))
    check("diagonal", region_totals([Run(z, z, 1) for z in range(1024)])[2], by_squares([(z, z) for z in range(1024)]))
    whole_grid = region_totals([Run(y, 0, 1024) for y in range(1024)])
    check("full grid", whole_grid, (0, 0, outline_totals(GRID)))
    check("full grid within the outline bounds", within_bounds(whole_grid[2], OUTLINE_BOUNDS), True)
    check("centre of the full grid", centre_of_totals(whole_grid[2]), (0, 512, 512))
    check("a centre of more cells than the grid has", centre_of_totals(added(whole_grid[2], whole_grid[2])), (0, 512, 512))


def check_mask_corners():
    """Document 02's masks: corner cases."""
    before = [RECORD_BEFORE] * 5_000
    check("mask totals", mask_totals(FOUR_RUNS), (0, (12, 7308, 24, 12720432, 14628, 48)))
    for held in (4, 5, 5_000):
        check("mask runs", mask_runs(FOUR_RUNS, before[:held]), (0, 4, RUNS_OF_MASK + before[4:held]))
    for held in (0, 3):
        check("a list that is too short", mask_runs(FOUR_RUNS, before[:held]), (8, 0, before[:held]))
    number, count, afterwards = mask_runs(MOST_MASK_RUNS, before)
    check("4,096 runs", (number, count, afterwards[4095:4097]), (0, 4096, [Run(7, 1022, 1), RECORD_BEFORE]))
    check("4,097 runs", mask_runs(ONE_RUN_MORE, before), (8, 0, before))
    number, totals = mask_totals(ONE_RUN_MORE)
    check("4,097 runs have totals", [number, totals.a2], [0, 2 * 4097])
    check("no words", [mask_totals([]), mask_runs([], [])], [(0, ZERO_TOTALS), (0, 0, [])])
    for length in (1, 8, 15, 17, 24, 16_383, 16_385, 16_400):
        check("31", [mask_totals([1] * length), mask_runs([1] * length, before)], [(31, ZERO_TOTALS), (31, 0, before)])
    check("31 before 8", mask_runs([1] * 17, [])[0], 31)
    check("full grid", mask_totals(full(1024)), (0, outline_totals(GRID)))
    check("full grid, runs", longest_runs(full(1024)), [Run(y, 0, 1024) for y in range(1024)])
    check("checkerboard", [mask_totals(checkerboard(1024))[1].a2, mask_runs(checkerboard(1024), before)[0]], [2 * 524288, 8])


# Made-up masks

def cut_somewhere(rng, run):
    """A run in two that touch, if it has cells for two."""
    if run.length < 2:
        return [run]
    length = rng.randint(1, run.length - 1)
    return [run._replace(length=length), run._replace(first=run.first + length, length=run.length - length)]


def check_mask_laws(rng):
    """Laws of a made-up mask and its longest runs."""
    _, words = random_mask(rng)
    before = [RECORD_BEFORE] * list_length(rng, words)
    number, count, afterwards = mask_runs(words, before)
    totals_number, totals = mask_totals(words)
    check("records that stay", afterwards[count:], before[count:])
    check("both calls refuse with 31", totals_number == 31, number == 31)
    if number == 31:
        return
    runs = longest_runs(words)
    cells = cells_of(runs)
    check("the runs' cells", cells, [(x, y) for y in rows_of(words) for x in range(1024) if is_marked(words, x, y)])
    check("no two runs touch", [run for run, later in zip(runs, runs[1:])
                                if run.row == later.row and run.first + run.length >= later.first], [])
    check("A2 is twice the count of ones", totals.a2, 2 * sum(bin(word).count("1") for word in words))
    check("totals by squares", by_squares(cells), totals)
    check("totals by formulas", by_formulas(cells), totals)
    check("written", [number, count], [0, len(runs)] if len(runs) <= min(4096, len(before)) else [8, 0])
    if number == 0:
        check("the written runs", afterwards[:count], runs)
        check("their totals", region_totals(afterwards[:count]), (0, 0, totals))
    few = [part for run in rng.sample(runs, min(len(runs), 40)) for part in cut_somewhere(rng, run)]
    check("cut runs", region_totals(sorted(few)), (0, 0, by_squares(cells_of(few))))
