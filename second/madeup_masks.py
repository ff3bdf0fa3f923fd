"""Masks from a seeded generator: sparse, dense, random, in runs, at the edges of words and near 4,096 runs."""
from cells import GRID_SIDE, MOST_RUNS
from masks import MOST_WORDS, WORD_BITS, WORDS_IN_A_ROW, has_wrong_length, longest_runs

ALL_ONES = 2 ** WORD_BITS - 1
EDGE_WORDS = (0, ALL_ONES, 1, 1 << 63, 1 << 63 | 1, ALL_ONES - 1, ALL_ONES >> 1, (ALL_ONES >> 1) - 1)
LONGEST_LIST = 5_000
RUN_ROOM = 4    # a run of a mask with a given number of them has three cells at most, and the fourth is free


def empty(rows):
    """No marked cell."""
    return [0] * (rows * WORDS_IN_A_ROW)


def full(rows):
    """Every cell marked."""
    return [ALL_ONES] * (rows * WORDS_IN_A_ROW)


def checkerboard(rows):
    """No two cells beside or above each other marked; the first cell is."""
    return [(0x5555555555555555, 0xAAAAAAAAAAAAAAAA)[k // WORDS_IN_A_ROW % 2]
            for k in range(rows * WORDS_IN_A_ROW)]


def mark(words, row, first, length):
    """Mark cells of a row, from the first column on."""
    for x in range(first, first + length):
        words[WORDS_IN_A_ROW * row + x // WORD_BITS] |= 1 << x % WORD_BITS


def sparse(rng, rows):
    """About one marked cell a row."""
    words = empty(rows)
    for _ in range(rows and rng.randint(1, 2 * rows)):
        mark(words, rng.randrange(rows), rng.randrange(GRID_SIDE), 1)
    return words


def dense(rng, rows):
    """About one cell a row not marked."""
    return [word ^ ALL_ONES for word in sparse(rng, rows)]


def random_words(rng, rows):
    """Each cell marked or not, one as likely as the other."""
    return [rng.getrandbits(WORD_BITS) for _ in range(rows * WORDS_IN_A_ROW)]


def in_runs(rng, rows):
    """Stretches of any length from any column on, in some of the rows; they may overlap and touch."""
    words = empty(rows)
    for _ in range(rows and rng.randint(1, 3 * rows)):
        first = rng.choice([0, 63, 64, 1023, rng.randrange(GRID_SIDE)])
        longest = GRID_SIDE - first
        mark(words, rng.randrange(rows), first, min(longest, rng.choice([1, 2, 64, 65, rng.randint(1, longest)])))
    return words


def at_word_edges(rng, rows):
    """Words whose runs begin or end where words do."""
    return [rng.choice(EDGE_WORDS) for _ in range(rows * WORDS_IN_A_ROW)]


def of_so_many_runs(rng, rows, count):
    """Just so many runs of one to three cells, none touching another."""
    words = empty(rows)
    for place in rng.sample(range(rows * GRID_SIDE // RUN_ROOM), count):
        row, room = divmod(place, GRID_SIDE // RUN_ROOM)
        mark(words, row, RUN_ROOM * room, rng.randint(1, RUN_ROOM - 1))
    return words


def near_most_runs(rng):
    """As many runs as are allowed, one fewer, or one or two more."""
    return of_so_many_runs(rng, rng.choice([17, 40]), MOST_RUNS + rng.randint(-1, 2))


def of_wrong_length(rng):
    """Words whose number is no multiple of 16, or over 1,024 rows."""
    length = rng.choice([rng.randint(1, 15), 15, 17, 16 * rng.randint(1, 9) + rng.randint(1, 15), MOST_WORDS - 1,
                         MOST_WORDS + 1, MOST_WORDS + 16, 2 * MOST_WORDS])
    return [rng.getrandbits(WORD_BITS)] * length


def random_mask(rng):
    """One made-up mask with its name."""
    kind = rng.choice([sparse, dense, random_words, in_runs, in_runs, at_word_edges, of_wrong_length])
    if rng.random() < 0.04:
        kind = near_most_runs
    if kind in (near_most_runs, of_wrong_length):
        words = kind(rng)
    else:
        words = kind(rng, rng.choice([0, 1, 1, 2, 3, rng.randint(1, 12)]))
    return kind.__name__.replace("_", " "), words


def large_masks(rng):
    """The whole grid with every kind of filling, each with its name."""
    rows = GRID_SIDE
    yield "full grid", full(rows)
    yield "empty grid", empty(rows)
    yield "checkerboard grid", checkerboard(rows)
    for kind in (sparse, dense, random_words, in_runs):
        yield f"grid, {kind.__name__.replace('_', ' ')}", kind(rng, rows)
    for count in (MOST_RUNS, MOST_RUNS + 1):
        yield f"grid of {count} runs", of_so_many_runs(rng, rows, count)


def list_length(rng, words):
    """Of a caller's list: about as many records as the mask has runs, or about as many as are allowed."""
    if has_wrong_length(words):
        return rng.randint(0, 20)
    runs = min(len(longest_runs(words)), LONGEST_LIST)
    near = rng.choice([runs, runs, runs, MOST_RUNS, LONGEST_LIST]) if rng.random() < 0.9 else rng.randint(0, runs)
    return max(0, near + rng.choice([-1, 0, 0, 1, 3]))
