"""The masks of a page: the lines of a block `mask`, the rows of a table `answers`, and made-up bits. See check.py."""
import masks
from cells import Run
from masks import MOST_WORDS, WORD_BITS, WORDS_IN_A_ROW
from worked import MOST_MASK_RUNS, ONE_RUN_MORE

MOST_ROWS_MADE_UP = 3


def words_of(block):
    """The words that a block lists by row, word of that row and value, in rows 0 up to its last; all others are 0."""
    fields = [line.split("\t") for line in block.splitlines()]
    words = [0] * (WORDS_IN_A_ROW * (1 + max(int(row) for row, *_ in fields)))
    for row, word, value, _ in fields:
        words[WORDS_IN_A_ROW * int(row) + int(word)] = int(value, 16)
    return words


def cells_of_word(words, k):
    """The cells, each as row and column, that word k of the list marks: those of a mask that has no other word."""
    alone = [word if place == k else 0 for place, word in enumerate(words)]
    return [(y, x) for y in masks.rows_of(alone) for x in masks.marked_columns(alone, y)]


def block_of(words):
    """The block that lists a mask: row, word of that row, value and columns of each word that is not 0."""
    lines = []
    for k, value in enumerate(words):
        if value != 0:
            cells = cells_of_word(words, k)
            columns = " ".join(str(x) for _, x in cells)
            lines.append(f"{cells[0][0]}\t{k % WORDS_IN_A_ROW}\t0x{value:016x}\t{columns}\n")
    return "".join(lines)


def runs_and_totals(words):
    """The runs that are written for a mask, and its totals."""
    return masks.longest_runs(words), masks.mask_totals(words)[1]


def answers_row(above, label, room):
    """A row of the table, for the mask with this label: what both calls answer with a list that holds so many runs."""
    words = {
        "the mask above": above,
        "every second cell of eight rows": MOST_MASK_RUNS,
        "these, and a cell of a ninth row": ONE_RUN_MORE,
        "no words": [],
        "a word too few for a row": [0] * (WORDS_IN_A_ROW - 1),
        "a row more than the grid has": [0] * (MOST_WORDS + WORDS_IN_A_ROW),
    }[label]
    runs = "—" if masks.has_wrong_length(words) else f"{len(masks.longest_runs(words)):,}"
    totals_number, totals = masks.mask_totals(words)
    number, written, _ = masks.mask_runs(words, [Run(0, 0, 0)] * int(room.replace(",", "")))
    return [label, f"{len(words):,}", runs, room, str(totals_number), f"{totals.a2:,}", str(number), f"{written:,}"]


def made_up_bits(chance, count):
    """By name, bits of made-up masks: bit i of word w of row y, which is entry k of the list, marks column x."""
    bits = []
    for _ in range(count):
        words = [0] * (WORDS_IN_A_ROW * chance.randint(1, MOST_ROWS_MADE_UP))
        k, i = chance.randrange(len(words)), chance.randrange(WORD_BITS)
        words[k] = 1 << i
        (y, x), = cells_of_word(words, k)
        bits.append({"k": k, "w": k % WORDS_IN_A_ROW, "i": i, "x": x, "y": y})
    return bits
