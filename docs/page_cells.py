"""The cells of a page: the figures of a region, and the rows of the tables `ground`, `cells`, `regions` and `mended`. See check.py."""
import re

import cells
import exact
import figures
import worked
from differences import expect

RUN = re.compile(r"\((\d+), (\d+), (\d+)\)")
SQUARE = re.compile(r"One cell, from `\(x, y\)` to `\((.*), (.*)\)`")


def region(runs):
    """The exact figures of a region that is accepted; its totals and centre are the second program's."""
    found = exact.region_figures(runs)
    number, _, totals = cells.region_totals([cells.Run(*run) for run in runs])
    expect(number == 0 and list(totals) == [found[name] for name in exact.TOTALS], "a region", f"{runs} has other totals")
    centre = (0, found["centre x"], found["centre y"]) if runs else (27, 0, 0)
    expect(figures.centre_of_totals(totals) == centre, "a region", f"{runs} has another centre")
    return found


def is_square(head, found):
    """Whether the head of the column for one cell names the two ends of each cell's square."""
    end = SQUARE.fullmatch(head).groups()
    return all(tuple(exact.value(each, {"x": x, "y": y}) for each in end) == north_east for (x, y), _, north_east, _ in found["of"])


def gives_ground(name, term, formula, found):
    """Whether a region's total is the term of one cell, summed over its cells, and the formula over the sums of all of them."""
    by_cell = sum(exact.value(term, {"x": x, "y": y}) for (x, y), *_ in found["of"])
    return by_cell == exact.value(formula, found) == found[name]


def cell_rows(names, found):
    """For each cell, row by row, its corners and what the call on a whole list answers for them; then the region's totals."""
    rows = []
    for corners in sorted(found["of"], key=lambda square: square[0][::-1]):
        number, totals = figures.list_call([each for point in corners for each in point])
        expect(number == 0, "a cell", f"{corners} are refused")
        answered = dict(zip(exact.TOTALS, totals))
        rows.append(["`" + " ".join(map(str, corners)) + "`", *(f"`{answered[name]:,}`" for name in names)])
    return [*rows, ["Sum", *(f"`{int(found[name]):,}`" for name in names)]]


def written(runs):
    """Runs as a cell of a table lists them."""
    return "`" + " ".join(str(tuple(run)) for run in runs) + "`"


def region_row(label, listed):
    """A row of the table, for the runs that its second cell lists: the number, the totals and, if there is one, the centre."""
    runs = [cells.Run(*map(int, run)) for run in RUN.findall(listed)]
    number, _, totals = cells.region_totals(runs)
    refusal, *centre = figures.centre_of_totals(totals)
    at = "—" if number else f"refusal {refusal}" if refusal else str(tuple(centre))
    return [label, written(runs) if runs else "none", str(number), *(f"{total:,}" for total in totals), at]


def fault(number, run, before):
    """What is wrong with a run that breaks 6, or 7 behind the run before it, in the words of the table `mended`."""
    if number == 6:
        return "it has no cell" if run.length == 0 else "its row is past the last" if run.row >= cells.GRID_SIDE else "it goes past the last column"
    return "its row is lower than that of the run listed before it" if run.row < before.row else "it begins before the run listed before it ends"


def mended_rows(rows, _):
    """The rows of `mended`: the second program's five runs as they are, then with one more of them mended each time."""
    heads = ["Runs: row, first column, length", "Number", "Index", "What is wrong with the run at the index"]
    expect(rows[0] == heads, "the table mended", f"the heads are {heads}")
    for runs in worked.mended_lists():
        number, index, _ = cells.region_totals(runs)
        wrong = fault(number, runs[index], runs[index - 1]) if number else "nothing: the list is accepted"
        yield [written(runs), str(number), str(index), wrong]


ROWS = {"cells": lambda rows, now: cell_rows([cell.strip("`") for cell in rows[0][1:]], now),
        "mended": lambda rows, now: list(mended_rows(rows, now))}
