"""Checks of the index that is given with 6 and 7, run by selfcheck.py: document 02, CR 8, on worked and on made-up
lists of runs.
"""
from collections import Counter

from cells import MOST_RUNS, Run, breaking_6, breaking_7, region_totals
from checks import check
from figures import ACCEPTED, ZERO_TOTALS
from madeup_runs import random_list
from worked import FIVE_RUNS, MENDED_RUNS, mended_lists

BREAKING = {6: breaking_6, 7: breaking_7}
MADE_UP_LISTS = 1_000
LEAST_MET = 100
SHORT_LIST = 12
TOO_MANY = (FIVE_RUNS * MOST_RUNS)[:MOST_RUNS + 1]
# Lists with the number and the index.  Of the five runs, the one named each time is the next to be mended.
WORKED_LISTS = (*zip(mended_lists(), ((6, 3), (6, 4), (7, 1), (7, 2), (0, 0))),
                (FIVE_RUNS[:3], (7, 1)), (FIVE_RUNS[:1], (0, 0)), ([], (0, 0)),
                (FIVE_RUNS[3:], (6, 0)), (FIVE_RUNS[::-1], (6, 0)), (TOO_MANY, (8, 0)),
                ([Run(0, 0, 2), Run(0, 2, 1), Run(0, 2, 1)], (7, 2)))


def told(runs):
    """The number and the index."""
    return region_totals(runs)[:2]


# Errors that the worked lists show: what a wrong program would tell of runs

def last_that_breaks(runs):
    """The last run that breaks the rule."""
    number, index = told(runs)
    return number, max(BREAKING[number](runs)) if number in BREAKING else index


def lowest_of_either_rule(runs):
    """The lowest run that breaks 6 or 7, whichever of the two is the number."""
    number, index = told(runs)
    return number, min(breaking_6(runs) + breaking_7(runs)) if number in BREAKING else index


def earlier_of_the_pair(runs):
    """With 7 the run before."""
    number, index = told(runs)
    return number, index - 1 if number == 7 else index


# Each with a list where it shows, and what it tells of that list.
WRONG_INDICES = ((last_that_breaks, FIVE_RUNS, (6, 4)), (last_that_breaks, FIVE_RUNS[:3], (7, 2)),
                 (lowest_of_either_rule, FIVE_RUNS, (6, 1)), (earlier_of_the_pair, FIVE_RUNS[:3], (7, 0)))


def check_worked_lists():
    """The number and the index of the worked lists; each error named above changes some of them."""
    for runs, wanted in WORKED_LISTS:
        check("number and index", told(runs), wanted)
        if wanted != (ACCEPTED, 0):
            check("zeros", region_totals(runs)[2], ZERO_TOTALS)
    check("mended in the order named", [told(runs)[1] for runs in mended_lists()][:-1], [index for index, _ in MENDED_RUNS])
    for wrong, runs, wrongly in WRONG_INDICES:
        check(f"{wrong.__name__} tells", wrong(runs), wrongly)
        check(f"{wrong.__name__} shows", wrong(runs) == told(runs), False)


# Made-up lists

def check_front(runs, number, index):
    """What the runs before the named one give, and what they give with it.  Of an accepted list, what every front gives."""
    if number == 6:
        check("before a 6", told(runs[:index])[0] in (ACCEPTED, 7), True)
        check("up to a 6", told(runs[:index + 1]), (6, index))
    elif number == 7:
        check("before a 7", told(runs[:index]), (ACCEPTED, 0))
        check("up to a 7", told(runs[:index + 1]), (7, index))
    else:
        check("every front", {told(runs[:length]) for length in range(len(runs) + 1)}, {(ACCEPTED, 0)})


def check_fronts(rng):
    """Made-up lists: the run named is the first with which the list is refused with that number.  Long lists that are
    accepted are left out."""
    met = Counter()
    for _ in range(MADE_UP_LISTS):
        _, runs = random_list(rng)
        number, index = told(runs)
        if number != ACCEPTED or len(runs) <= SHORT_LIST:
            check_front(runs, number, index)
            met[number] += 1
    check("each number met", {number for number, times in met.items() if times >= LEAST_MET}, {ACCEPTED, 6, 7})
