"""The rows of "Plots worked by hand" in document 01 that carry no ✱, then rings, masks, pairs of walks, square sums,
moves, runs and third moments of document 02, one line each.

Fields are separated by tabs: label, what was asked, refusal number (0 if accepted), values.
Reading a square sum refuses nothing, so its row has no refusal number.
"""
from annex import annex
from cells import MOST_RUNS, Run, region_totals
from figures import CLOSED_WALK, FRESH_ISLAND, NEW_SHEET, TOTAL_LIMIT, ZERO_TOTALS
from figures import Kind, Sheet, begin, centre_of_totals, end, list_call, outline_totals, point
from inputs import FIGURE_EIGHT, RECTANGLE, SQUARE, SQUARE_WEST, UNIT_SQUARE
from masks import MOST_WORDS, WORDS_IN_A_ROW, mask_runs, mask_totals
from moves import AffineMap, composed, map_call, shift
from third_moments import third_moments
from walkers import compare_walks

DOUBLING = AffineMap(a=2, b=0, g=0, h=2, e=0, f=0)
SHIFT = shift(3, -2)
QUARTER_TURN = AffineMap(a=0, b=-1, g=1, h=0, e=0, f=0)

# Row 0: bits 0 and 63 of word 0, bits 0 and 1 of word 1, bit 63 of word 15.  Row 1: bit 0 of word 0.
FOUR_RUNS = [1 << 63 | 1, 3, *[0] * 13, 1 << 63, 1, *[0] * 15]
# Every other cell of eight rows: 4,096 runs; then one marked cell more, in row 8.
MOST_MASK_RUNS = [0x5555555555555555] * (8 * WORDS_IN_A_ROW)
ONE_RUN_MORE = MOST_MASK_RUNS + [1, *[0] * 15]
# What every record of a caller's list is before the writer is called.
RECORD_BEFORE = Run(row=7, first=8, length=9)

# Another walk of the rectangle, with one point more.
OTHER_WALK = [(2, 0), (10, 4), (9, 8), (1, 5), (0, 4)]

# The first run is sound, the next two break 7, the last two break 6, and the last one breaks 7 too.
FIVE_RUNS = [Run(5, 0, 3), Run(5, 2, 1), Run(4, 0, 1), Run(1024, 0, 1), Run(6, 0, 0)]
# The order in which they are mended: the index of a run, and the run that takes its place.
MENDED_RUNS = ((3, Run(7, 4, 1)), (4, Run(8, 0, 2)), (1, Run(5, 3, 1)), (2, Run(6, 0, 1)))


def numbers_of(points):
    """The numbers of each in turn: x and y of points; row, first column and length of runs."""
    return [number for place in points for number in place]


def walked(points, kind=Kind.ISLAND, walk=CLOSED_WALK):
    """An open walk that has accepted these points, begun on a closed one."""
    number, walk = begin(walk, kind)
    assert number == 0
    for place in points:
        number, walk = point(walk, place)
        assert number == 0
    return walk


def limit_row(x):
    """A triangle with a corner at the limit or past it.  Asked: its x.  Answered: number, six totals."""
    number, totals = list_call([x, 0, 0, 2000, -2000, 0])
    return ["limit", x, number, *totals]


def point_row(place):
    """A point for a walk that has 1,024, within the limits or outside them.
    Asked: its coordinates.  Answered: number, count and six totals of the walk."""
    number, walk = point(walked(SQUARE * 256), place)
    return ["point-1025", *place, number, walk.count, *walk.totals]


def double_row(rounds):
    """The square doubled by a map.  Asked: rounds.  Answered: number, six totals."""
    number, totals = list_call(numbers_of(SQUARE * rounds))
    assert number == 0
    number, doubled = map_call(DOUBLING, totals)
    return ["double", rounds, number, *doubled]


def sheet_row(earlier):
    """An outline of 256 rounds on a sheet.  Asked: how many such came earlier.
    Answered: number and totals of its end, then the sheet."""
    walk, sheet = CLOSED_WALK, NEW_SHEET
    for _ in range(earlier + 1):
        number, totals, _, walk, sheet = end(walked(SQUARE * 256, walk=walk), sheet)
    return ["sheet", earlier, number, *totals, sheet.count, *sheet.totals]


def run_row(first, length):
    """One run, of row 0.  Asked: first column, length.  Answered: number, index, six totals."""
    number, index, totals = region_totals([Run(row=0, first=first, length=length)])
    return ["run", first, length, number, index, *totals]


def walk_row(count, a2):
    """An open walk handed in.  Asked: points, A2.
    Answered: number, six totals of its end, the sheet's count."""
    walk = FRESH_ISLAND._replace(count=count, totals=ZERO_TOTALS._replace(a2=a2))
    number, totals, _, _, sheet = end(walk, NEW_SHEET)
    return ["walk", count, a2, number, *totals, sheet.count]


def ring_row(kind, points, a2):
    """A triangle walked as a ring, on a sheet of one outline.  Asked: kind, three points, the sheet's A2.
    Answered: number and totals of its end, how many points the walk then has, the sheet."""
    sheet = Sheet(count=1, totals=ZERO_TOTALS._replace(a2=a2))
    number, totals, _, walk, sheet = end(walked(points, kind), sheet)
    return ["ring", kind.value, *numbers_of(points), a2, number, *totals, walk.count, sheet.count, *sheet.totals]


def ring_rows():
    """The fields of the rings' rows: the pond; three points on a line; a triangle whose A2 is 2, on sheets with
    room for 1 more and for 1 less.  Each as it is listed and walked the other way, as an island and as a hole."""
    corner = [(0, 0), (1, 0), (0, 2)]
    for points, a2 in (([(4, 2), (6, 3), (5, 5)], 80), ([(0, 0), (6, 3), (2, 1)], 80),
                       (corner, TOTAL_LIMIT - 1), (corner, 1 - TOTAL_LIMIT)):
        for kind in Kind:
            yield ring_row(kind, points, a2)
            yield ring_row(kind, points[::-1], a2)


def all_ones(words):
    """A mask of so many words, in which every bit is a one."""
    return [2 ** 64 - 1] * words


def mask_totals_row(words):
    """A mask.  Asked: its number of words.  Answered: number, six totals."""
    number, totals = mask_totals(words)
    return ["mask-totals", len(words), number, *totals]


def mask_runs_row(words, records):
    """The writer and a short list.  Asked: words, records of the list.
    Answered: number, how many were written, every record of the list afterwards."""
    number, count, afterwards = mask_runs(words, [RECORD_BEFORE] * records)
    return ["mask-runs", len(words), records, number, count, *numbers_of(afterwards)]


def mask_last_row(words, records):
    """The writer and a long list.  Asked: words, records of the list.
    Answered: number, how many were written, the last two records of the list afterwards."""
    number, count, afterwards = mask_runs(words, [RECORD_BEFORE] * records)
    return ["mask-last", len(words), records, number, count, *numbers_of(afterwards[-2:])]


def mask_rows():
    """The fields of the masks' rows.  No two masks have the same number of words."""
    for words in (FOUR_RUNS, MOST_MASK_RUNS, ONE_RUN_MORE, [], all_ones(MOST_WORDS),
                  all_ones(15), all_ones(17), all_ones(MOST_WORDS + 16)):
        yield mask_totals_row(words)
    for records in (3, 4, 5):
        yield mask_runs_row(FOUR_RUNS, records)
    yield mask_runs_row([], 0)
    yield mask_runs_row(all_ones(15), 1)
    yield mask_runs_row(all_ones(17), 0)
    yield mask_last_row(MOST_MASK_RUNS, 4097)
    yield mask_last_row(ONE_RUN_MORE, 4097)
    yield mask_last_row(all_ones(MOST_WORDS), 1025)
    yield mask_last_row(all_ones(MOST_WORDS + 16), 1025)


# Two walkers' lists by name.  The last three are refused: with 1, with 2, with 1.
WALKS = {"rectangle": numbers_of(RECTANGLE),
         "other-walk": numbers_of(OTHER_WALK),
         "outside": numbers_of([(0, 0), (2001, 0), (0, 5)]),
         "odd": [0, 0, 1, 0, 1, 1, 0],
         "far": numbers_of([(0, 0), (5000, 0), (0, 5)])}


def compare_row(first, second):
    """Two lists compared.  Asked: their names.  Answered: number, six differences, the distance from the first's points
    to the second's and the one from the second's to the first's, which list is handed back, how many numbers of it."""
    return ["compare", first, second, *compare_walks(WALKS[first], WALKS[second]).fields()]


def compare_rows():
    """The fields of the rows of two walks: both orders, one list twice, and what is refused first."""
    yield compare_row("rectangle", "other-walk")
    yield compare_row("other-walk", "rectangle")
    yield compare_row("rectangle", "rectangle")
    yield compare_row("outside", "odd")
    yield compare_row("odd", "far")
    yield compare_row("rectangle", "outside")
    yield compare_row("other-walk", "odd")


ANNEX = annex()


def square_sum_row(k):
    """An entry of the annex, 0 past its end.  Asked: its index.  Answered: the entry."""
    return ["square-sum", k, ANNEX[k] if k < len(ANNEX) else 0]


def annex_rows():
    """The fields of the annex's rows: entries at both its ends, and past them; then the cell in column 0 and a whole row,
    whose sums of x² are taken from these entries."""
    for k in (0, 1, 2, 3, 4, 5, 1_023, 1_024, 1_025):
        yield square_sum_row(k)
    yield run_row(0, 1)
    yield run_row(0, 1_024)


def move_twice_row(first, second):
    """The rectangle moved by one map and then by another.  Asked: both maps.
    Answered: number and six totals of the second call, which is given what the first answers."""
    _, once = map_call(first, outline_totals(RECTANGLE))
    number, twice = map_call(second, once)
    return ["move-twice", *first, *second, number, *twice]


def move_once_row(affine):
    """The rectangle moved once.  Asked: the map.  Answered: number, six totals; number, x and y of their centre.
    The zeros of a refusal have none: 27."""
    number, totals = map_call(affine, outline_totals(RECTANGLE))
    return ["move-once", *affine, number, *totals, *centre_of_totals(totals)]


def move_rows():
    """The fields of the moves' rows: a shift alone; then a shift and a quarter turn in both orders, and doubling twice, each
    in two calls and at once by the composition."""
    yield move_once_row(SHIFT)
    for first, second in ((SHIFT, QUARTER_TURN), (QUARTER_TURN, SHIFT), (DOUBLING, DOUBLING)):
        yield move_twice_row(first, second)
        yield move_once_row(composed(first, second))


def mended_lists():
    """The five runs as they are, then with one more of them mended each time."""
    runs = FIVE_RUNS
    yield runs
    for index, mended in MENDED_RUNS:
        runs = [*runs[:index], mended, *runs[index + 1:]]
        yield runs


def runs_row(runs):
    """A list of runs.  Asked: row, first column and length of each.  Answered: number, index, six totals."""
    number, index, totals = region_totals(runs)
    return ["runs", *numbers_of(runs), number, index, *totals]


def array_row(run):
    """One run, listed 4,097 times.  Asked: the run.  Answered: number, index, six totals."""
    number, index, totals = region_totals([run] * (MOST_RUNS + 1))
    return ["runs-4097", *run, number, index, *totals]


# Lists by name.  The last three are refused: with 35, with 1, with 2.
THIRDS = {"unit-square": numbers_of(UNIT_SQUARE),
          "rectangle": numbers_of(RECTANGLE),
          "figure-eight": numbers_of(FIGURE_EIGHT),
          "square-west": numbers_of(SQUARE_WEST),
          "at-the-limit": numbers_of([(500, -500), (0, 500), (-500, 0)]),
          "past-the-limit": numbers_of([(500, -500), (0, 501), (-500, 0)]),
          "outside": numbers_of([(600, 0), (0, 0), (0, 2001)]),
          "odd": [600, 0, 0, 0, 0, 5, 0]}


def third_row(name):
    """Third moments.  Asked: the list's name.  Answered: number, four totals by falling power of x."""
    number, totals = third_moments(THIRDS[name])
    return ["third", name, number, *totals]


def rows():
    """The fields of every row."""
    yield limit_row(2000)
    yield limit_row(2001)
    yield point_row((0, 0))
    yield point_row((2001, 0))
    yield double_row(244)
    yield double_row(245)
    yield sheet_row(14)
    yield sheet_row(15)
    yield run_row(1023, 1)
    yield run_row(1023, 2)
    yield walk_row(3, 24_000_000)
    yield walk_row(3, 24_000_001)
    yield from ring_rows()
    yield from mask_rows()
    yield from compare_rows()
    yield from annex_rows()
    yield from move_rows()
    yield from map(runs_row, mended_lists())
    yield array_row(FIVE_RUNS[-1])
    yield from map(third_row, THIRDS)


if __name__ == "__main__":
    for fields in rows():
        print(*fields, sep="\t")
