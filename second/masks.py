"""Cell masks, document 02's first request, straight from its words and cell by cell.
The marked cells answer totals, as its second request has it.

A mask is a list of words of 64 bits, 16 to a row, rows 0 upwards; bit i of word w
of a row, from the lowest, is column 64×w + i.  Both calls answer a refusal number
first; 0 means that the call was accepted.
"""
from cells import GRID_SIDE, MOST_RUNS
from cells import Run, ground_totals
from figures import ACCEPTED, ZERO_TOTALS

WORD_BITS = 64
WORDS_IN_A_ROW = GRID_SIDE // WORD_BITS
MOST_WORDS = GRID_SIDE * WORDS_IN_A_ROW


def has_wrong_length(words):
    """31: no multiple of 16, or over 1,024 rows."""
    return len(words) % WORDS_IN_A_ROW != 0 or len(words) > MOST_WORDS


def is_marked(words, x, y):
    """The bit of the cell in column x of row y is a one."""
    word = words[WORDS_IN_A_ROW * y + x // WORD_BITS]
    return word >> x % WORD_BITS & 1 == 1


def marked_columns(words, y):
    """The columns of a row's marked cells, in order."""
    return [x for x in range(GRID_SIDE) if is_marked(words, x, y)]


def rows_of(words):
    """The rows that the words hold."""
    return range(len(words) // WORDS_IN_A_ROW)


def mask_totals(words):
    """Totals of the ground under the marked cells: (number, totals)."""
    if has_wrong_length(words):
        return 31, ZERO_TOTALS
    return ACCEPTED, ground_totals((marked_columns(words, y), y) for y in rows_of(words))


def row_runs(words, y):
    """The longest possible runs of a row: a marked cell beside the one before it is of the same run."""
    spans = []
    for x in marked_columns(words, y):
        if spans and spans[-1][1] == x:
            spans[-1][1] = x + 1
        else:
            spans.append([x, x + 1])
    return [Run(y, first, end - first) for first, end in spans]


def longest_runs(words):
    """The longest possible runs of all rows, in order."""
    return [run for y in rows_of(words) for run in row_runs(words, y)]


def mask_runs(words, before):
    """The writer: (number, how many were written, the caller's list afterwards).  Order 31, 8.

    The list is filled from its start; a record after those written is as it was before,
    and so is every one with a refusal.
    """
    if has_wrong_length(words):
        return 31, 0, before
    runs = longest_runs(words)
    if len(runs) > MOST_RUNS or len(runs) > len(before):
        return 8, 0, before
    return ACCEPTED, len(runs), runs + before[len(runs):]
