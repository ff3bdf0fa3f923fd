"""Cells, runs and regions: document 01's rules; document 02's CR 2 for what they answer, and CR 8 for the run that
a refusal names.

A cell is its ground: cell (x, y) is the square from (x, y) to (x+1, y+1).  Cells answer
the outline's six totals of the ground under them, so here each cell is an outline of four
points, and the totals of these outlines are added.
"""
from typing import NamedTuple

from figures import ACCEPTED, ZERO_TOTALS
from figures import Totals, added, outline_totals
from moves import AffineMap, mapped_totals

MOST_RUNS = 4_096
GRID_SIDE = 1_024


class Run(NamedTuple):
    """"Cells": cells of one row, from the first column on."""
    row: int
    first: int
    length: int


# The ground under cells

def corners(x, y):
    """The corners of a cell's square, anticlockwise."""
    return [(x, y), (x + 1, y), (x + 1, y + 1), (x, y + 1)]


# The outline's totals of each cell of row 0.
ROW_0 = [outline_totals(corners(x, 0)) for x in range(GRID_SIDE)]


def row_totals(columns, y):
    """Totals of the cells of row y in these columns: those of the cells of row 0 there,
    added, then moved north by y as "Maps" has it.  A grid has a million cells, and an
    outline for each takes too long; selfcheck_cells.py does so for smaller regions."""
    six = zip(ZERO_TOTALS, *(ROW_0[x] for x in columns))
    return mapped_totals(AffineMap(a=1, b=0, g=0, h=1, e=0, f=y), Totals(*map(sum, six)))


def ground_totals(rows):
    """Totals of cells given by rows: pairs of the columns and the row that they are in."""
    totals = ZERO_TOTALS
    for columns, y in rows:
        totals = added(totals, row_totals(columns, y))
    return totals


# Regions

def lies_after(run, earlier):
    """Further up, or in the same row from where the earlier run has ended on."""
    return run.row > earlier.row or (
        run.row == earlier.row and run.first >= earlier.first + earlier.length)


def breaking_6(runs):
    """The indices of the runs that break 6, in order: those without cells, and those with cells outside the grid."""
    return [index for index, run in enumerate(runs)
            if run.row > GRID_SIDE - 1 or run.length == 0 or run.first + run.length > GRID_SIDE]


def breaking_7(runs):
    """The indices of the runs that break 7, in order: each that does not lie after the run before it, so never the first."""
    return [index for index in range(1, len(runs)) if not lies_after(runs[index], runs[index - 1])]


def region_totals(runs):
    """Totals of a cell region: (number, index, totals).  Order 8, 6, 7.

    With 6 and 7 the index is that of the first run in the list that breaks that rule (document 02,
    CR 8); of a pair the later run breaks 7.  Otherwise the index is 0.
    """
    if len(runs) > MOST_RUNS:
        return 8, 0, ZERO_TOTALS
    outside, out_of_order = breaking_6(runs), breaking_7(runs)
    if outside:
        return 6, min(outside), ZERO_TOTALS
    if out_of_order:
        return 7, min(out_of_order), ZERO_TOTALS
    return ACCEPTED, 0, ground_totals((range(run.first, run.first + run.length), run.row) for run in runs)
