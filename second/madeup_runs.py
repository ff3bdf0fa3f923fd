"""Lists of runs from a seeded generator: regions, and lists in which several runs break 6, 7 or both."""
from collections import Counter

from cells import GRID_SIDE, MOST_RUNS, Run
from madeup_walks import named

MOST_NUMBER = 2 ** 32 - 1
EDGE_NUMBERS = (0, 1_023, 1_024, 1_025, MOST_NUMBER)
LARGE_COUNTS = (MOST_RUNS - 1, MOST_RUNS, MOST_RUNS + 1)
# How many places of a list are put out of order, and how many runs are then given other numbers.
DAMAGES = ((1, 0), (2, 0), (3, 0), (6, 0), (0, 1), (0, 2), (0, 3), (2, 1), (2, 2), (3, 1), (3, 3))


# Regions: the row of each run, then the runs

def rows_at_random(rng, count):
    """Any rows; several runs may be in one."""
    return [rng.randrange(GRID_SIDE) for _ in range(count)]


def one_row(rng, count):
    """All in one row."""
    return [rng.randrange(GRID_SIDE)] * count


def every_row_in_turn(_, count):
    """From row 0 on, and again from row 0 on if there are more runs than rows."""
    return [index % GRID_SIDE for index in range(count)]


def runs_of_row(rng, row, count, longest):
    """So many runs of a row, in order, some of which touch."""
    runs, free = [], 0
    for to_come in reversed(range(count)):
        end = GRID_SIDE - to_come    # each run to come has a cell at least
        first = rng.randint(free, min(free + longest, end - 1))
        runs.append(Run(row, first, rng.randint(1, min(longest, end - first))))
        free = first + runs[-1].length
    return runs


def region(rng, rows, longest):
    """A run for each of these rows, none over the longest, each after the one before."""
    return [run for row, count in sorted(Counter(rows).items()) for run in runs_of_row(rng, row, count, longest)]


# Two neighbours out of order

def swapped(_, earlier, later):
    """In the other order."""
    return later, earlier


def equal(_, earlier, _later):
    """The earlier run twice."""
    return earlier, earlier


def overlapping(_, earlier, _later):
    """The last cell of the earlier run once more."""
    return earlier, Run(earlier.row, earlier.first + earlier.length - 1, 1)


def lower(rng, earlier, later):
    """A lower row, if there is one."""
    return earlier, later._replace(row=rng.randrange(earlier.row) if earlier.row > 0 else 0)


OUT_OF_ORDER = (swapped, equal, overlapping, lower)


# A run with numbers at the limits or past them

def other_row(rng, run):
    """A row at its limit or past it."""
    return run._replace(row=rng.choice(EDGE_NUMBERS))


def other_first(rng, run):
    """A first column at its limit or past it."""
    return run._replace(first=rng.choice(EDGE_NUMBERS))


def other_length(rng, run):
    """No length, or one at its limit or past it."""
    return run._replace(length=rng.choice(EDGE_NUMBERS))


def to_the_end(rng, run):
    """Up to the last column, or one cell further."""
    return run._replace(length=max(0, GRID_SIDE - run.first) + rng.choice([0, 1]))


def past_32_bits(rng, run):
    """First column plus length is 2^32 or little more, so that its lowest 32 bits are a small number."""
    columns_left, excess = rng.choice([1, 2, GRID_SIDE, 2 ** 31]), rng.choice([0, 1, 5, GRID_SIDE])
    return run._replace(first=MOST_NUMBER + 1 - columns_left, length=columns_left + excess)


def any_numbers(rng, _):
    """Three numbers of 32 bits."""
    return Run(*(rng.getrandbits(32) for _ in range(3)))


OTHER_NUMBERS = (other_row, other_first, other_length, to_the_end, past_32_bits, any_numbers)


# Lists

def place_in(rng, count):
    """An index below the count, often the first or the last."""
    return rng.choice([0, count - 1, *(rng.randrange(count) for _ in range(4))])


def damaged(rng, runs):
    """A region with some places damaged; a list of one run has no order, and one of none stays as it is."""
    runs = list(runs)
    disorders, changes = rng.choice(DAMAGES)
    for _ in range(disorders if len(runs) > 1 else 0):
        place = place_in(rng, len(runs) - 1)
        runs[place:place + 2] = rng.choice(OUT_OF_ORDER)(rng, *runs[place:place + 2])
    for _ in range(changes if runs else 0):
        place = place_in(rng, len(runs))
        runs[place] = rng.choice(OTHER_NUMBERS)(rng, runs[place])
    return runs


def random_list(rng):
    """One made-up list, not long, with its name."""
    rows = rng.choice([rows_at_random, one_row, every_row_in_turn])
    count = rng.randint(0, rng.choice([3, 12, 12, 60]))
    runs = region(rng, rows(rng, count), rng.choice([1, 3, 40, GRID_SIDE]))
    if rng.random() < 0.25:
        return named(rows), runs
    return f"{named(rows)}, damaged", damaged(rng, runs)


def large_lists(rng):
    """About as many runs as are allowed, in order and damaged, each list with its name."""
    for count in LARGE_COUNTS:
        for rows in (rows_at_random, every_row_in_turn):
            runs = region(rng, rows(rng, count), longest=3)
            yield f"{count} runs, {named(rows)}", runs
            for _ in range(4):
                yield f"{count} runs, {named(rows)}, damaged", damaged(rng, runs)
