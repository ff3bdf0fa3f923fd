"""Sets a program that calls for the totals of runs beside cells.py, on worked and on made-up lists.

python3 second/compare_runs.py PROGRAM [--seed N] [--cases N] [--long]

PROGRAM is callers/c/runs.c, built with the library: that file says what it reads
and prints.  The index is compared too.  Exits 1 with the first difference, and 1 if
some number was not seen, or no list of some kind in which a wrong index would show.
"""
import random
import sys
from array import array
from collections import Counter
from itertools import permutations, product
from typing import NamedTuple

from beside import chosen_options, differs, exit_status, line, shortened
from cells import GRID_SIDE, MOST_RUNS, Run, breaking_6, breaking_7, region_totals
from madeup_runs import EDGE_NUMBERS, MOST_NUMBER, large_lists, random_list
from worked import FIVE_RUNS, mended_lists, numbers_of

NUMBERS = {0, 6, 7, 8}
# Read as one run more, the first would add a cell, the second would break 7 behind any run, the others 6.
BEHIND = (Run(1023, 1023, 1), Run(0, 0, 1), Run(1024, 0, 1), Run(MOST_NUMBER, MOST_NUMBER, MOST_NUMBER))
SMALL_RUNS = [Run(*numbers) for numbers in product((0, 1), (0, 1, 2), (1, 2))]


class Case(NamedTuple):
    """A list of runs, and the record behind its end, where the call may not read."""
    name: str
    runs: list
    behind: Run


# Cases

def fixed_lists():
    """The worked lists, their fronts, and their runs in every order; one run with each number at its limits or past them;
    every two runs of a small grid."""
    for length in range(len(FIVE_RUNS)):
        yield f"the first {length} of five runs", FIVE_RUNS[:length]
    for place, runs in enumerate(mended_lists()):
        for order in permutations(runs):
            yield f"five runs, {place} of them mended, in some order", list(order)
    for run in product(EDGE_NUMBERS, (*EDGE_NUMBERS, 1), (*EDGE_NUMBERS, 1)):
        yield "one run", [Run(*run)]
    for pair in product(SMALL_RUNS, repeat=2):
        yield "two runs", list(pair)


def last_of_the_most():
    """As many runs as are allowed, of which the last alone breaks 6, or 7: the greatest index of each."""
    sound = [Run(k // 4, k % 4, 1) for k in range(MOST_RUNS - 1)]
    for number, last in ((6, Run(1_023, 3, 0)), (7, Run(1_023, 0, 1))):
        yield f"{MOST_RUNS} runs, the last breaks {number}", [*sound, last]


def whole_grid():
    """The whole grid in rows and in quarters of rows."""
    yield "whole grid", [Run(row, 0, GRID_SIDE) for row in range(GRID_SIDE)]
    yield "whole grid in quarters", [Run(k // 4, k % 4 * 256, 256) for k in range(MOST_RUNS)]


def all_lists(rng, cases, with_long):
    """Every list of a run."""
    yield from fixed_lists()
    yield from last_of_the_most()
    yield from whole_grid() if with_long else ()
    for _ in range(11 if with_long else 1):
        yield from large_lists(rng)
    for number in range(cases):
        name, runs = random_list(rng)
        yield f"{name}, case {number}", runs


# What the program reads and prints

def as_bytes(case):
    """The case as the program reads it."""
    return array("Q", [len(case.runs)]).tobytes() + array("I", numbers_of([*case.runs, case.behind])).tobytes()


# Reporting

def told(case):
    """The list in words."""
    return f"{case.name}: {len(case.runs)} runs\n    {shortened(' '.join(str(tuple(run)) for run in case.runs))}"


def kinds(runs, number, index):
    """The kinds of lists in which a wrong index would show, and whether this list is of each."""
    six, seven, last = breaking_6(runs), breaking_7(runs), len(runs) - 1
    return {"6 behind a run that breaks 7": number == 6 and min(seven, default=index) < index,
            "6 before a run that breaks 6": number == 6 and max(six) > index,
            "7 before a run that breaks 7": number == 7 and max(seven) > index,
            "6 at index 0": (number, index) == (6, 0),
            "6 at the last run": (number, index) == (6, last),
            "7 at the last run": (number, index) == (7, last),
            "6 at the greatest index": (number, index) == (6, MOST_RUNS - 1),
            "7 at the greatest index": (number, index) == (7, MOST_RUNS - 1)}


def main():
    """Run every case; answer the exit status."""
    chosen = chosen_options("Set the totals of runs beside the second program.")
    rng = random.Random(chosen.seed)
    cases = [Case(name, runs, rng.choice(BEHIND)) for name, runs in all_lists(rng, chosen.cases, chosen.long)]
    answers = [region_totals(case.runs) for case in cases]
    wanted = [line(number, *totals, index) for number, index, totals in answers]
    if differs(chosen.program, b"".join(map(as_bytes, cases)), wanted, lambda place: told(cases[place])):
        return 1
    numbers, seen = Counter(), Counter()
    for case, (number, index, _) in zip(cases, answers):
        numbers[number] += 1
        seen.update(kinds(case.runs, number, index))
    missing = (NUMBERS - set(numbers), {kind for kind, times in seen.items() if times == 0})
    of_each_kind = ", ".join(f"{kind}: {times}" for kind, times in seen.items())
    return exit_status(f"{len(cases)} lists of runs, no difference; {numbers[0]} accepted, {numbers[6]} refused with 6, "
                       f"{numbers[7]} with 7, {numbers[8]} with 8; {of_each_kind}", missing)


if __name__ == "__main__":
    sys.exit(main())
