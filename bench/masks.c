/*
 * How long the library's calls on masks take beside the same work in C, as ratios taken in one process: the library's time over that of the same steps (words skipped, ones counted, ends of runs
 * found by trailing zeros), and over that of a loop that looks at every cell by itself. For the totals, the same steps take the sums of a row and make totals of them, row by row; the loop over cells adds
 * up the sums of 1, x, y, x², xy and y², and makes totals of them once, at the end. All test the lengths and refuse as the library does. Each time is the least of ROUNDS, in which the calls take turns on
 * the same mask. Ends with 1 if two of them answer differently. bench/run.py builds it with the library.
 */
#include "../callers/c/mavrihkel.h"
#include "cells.h"
#include "timing.h"

enum { WORDS_IN_A_ROW = 16, WORDS = ROWS * WORDS_IN_A_ROW, TIMES = 5 };

typedef uint32_t totals_call(const uint64_t *words, size_t words_length, int64_t *out, size_t out_length);
typedef uint32_t runs_call(const uint64_t *words, size_t words_length, struct mavrihkel_run *runs, size_t runs_length, int64_t *out, size_t out_length);

static int wrong_length(size_t length) { return length % WORDS_IN_A_ROW != 0 || length > WORDS; }

/* ---- by trailing zeros */

/* The first place from `from` on, below 64, at which the word has a one; 64 if there is none. */
static uint32_t first_set(uint64_t word, uint32_t from)
{
    uint64_t rest = from < 64 ? word >> from : 0;
    return rest == 0 ? 64 : from + (uint32_t)__builtin_ctzll(rest);
}

/* The same of a zero. */
static uint32_t first_clear(uint64_t word, uint32_t from) { return first_set(~word, from); }

/* Adds the totals of the ground under cells of row y: how many there are, and the sums of their x and x². */
static void add_row(int64_t *totals, int64_t y, int64_t count, int64_t x, int64_t xx)
{
    int64_t h = 2 * y + 1;
    int64_t x6 = 6 * x + 3 * count;
    int64_t y6 = 3 * count * h;
    totals[0] += 2 * count;
    totals[1] += x6;
    totals[2] += y6;
    totals[3] += 12 * (xx + x) + 4 * count;
    totals[4] += 2 * x6 * h;
    totals[5] += y6 * h + count;
}

__attribute__((noinline)) static uint32_t row_totals(const uint64_t *words, size_t words_length, int64_t *out, size_t out_length)
{
    if (out_length < MAVRIHKEL_TOTALS) return MAVRIHKEL_SHORT_BUFFER;
    int64_t totals[MAVRIHKEL_TOTALS] = {0};
    uint32_t number = wrong_length(words_length) ? 31 : 0;
    for (size_t row = 0; number == 0 && row < words_length / WORDS_IN_A_ROW; row++) {
        int64_t count = 0, x = 0, xx = 0;
        for (size_t w = 0; w < WORDS_IN_A_ROW; w++) {
            uint64_t word = words[row * WORDS_IN_A_ROW + w];
            uint64_t column = 64 * w;
            if (word == 0) continue;
            count += __builtin_popcountll(word);
            for (uint32_t start = first_set(word, 0), end; start < 64; start = first_set(word, end)) {
                end = first_clear(word, start);
                x += index_sum(column + end) - index_sum(column + start);
                xx += entry_at(column + end) - entry_at(column + start);
            }
        }
        add_row(totals, row, count, x, xx);
    }
    memcpy(out, totals, sizeof totals);
    return number;
}

/* The first cell from `at` on, below `end`, whose bit is a one after each word is changed by `change`; `end` if there is none. */
static size_t first_cell(const uint64_t *words, size_t at, size_t end, uint64_t change)
{
    while (at < end) {
        uint64_t rest = (words[at / 64] ^ change) >> (at % 64);
        if (rest != 0) return at + (size_t)__builtin_ctzll(rest);
        at = (at / 64 + 1) * 64;
    }
    return end;
}

/* The next run from the cell `at` on; the cell behind it, or `end` with a run of no length if there is none. */
static size_t next_run(const uint64_t *words, size_t at, size_t end, struct mavrihkel_run *run)
{
    size_t first = first_cell(words, at, end, 0), row = first / COLUMNS;
    size_t behind = first < end ? first_cell(words, first, (row + 1) * COLUMNS, UINT64_MAX) : end;
    *run = (struct mavrihkel_run){(uint32_t)row, (uint32_t)(first % COLUMNS), (uint32_t)(behind - first)};
    return behind;
}

__attribute__((noinline)) static uint32_t word_runs(const uint64_t *words, size_t words_length, struct mavrihkel_run *runs, size_t runs_length, int64_t *out, size_t out_length)
{
    if (out_length < MAVRIHKEL_WRITTEN) return MAVRIHKEL_SHORT_BUFFER;
    size_t most = runs_length < MOST_RUNS ? runs_length : MOST_RUNS, cells = 64 * words_length, count = 0, at = 0;
    struct mavrihkel_run run;
    out[0] = 0;
    if (wrong_length(words_length)) return 31;
    while (at < cells && count <= most) {
        at = next_run(words, at, cells, &run);
        count += run.length != 0;
    }
    if (count > most) return 8;
    at = 0;
    for (size_t i = 0; i < count; i++) at = next_run(words, at, cells, &runs[i]);
    out[0] = (int64_t)count;
    return 0;
}

/* ---- cell by cell */

static int is_marked(const uint64_t *words, size_t cell) { return words[cell / 64] >> (cell % 64) & 1; }

/* One cell. */
static void add_cell(int64_t *sums, int64_t x, int64_t y)
{
    sums[0] += 1;
    sums[1] += x;
    sums[2] += y;
    sums[3] += x * x;
    sums[4] += x * y;
    sums[5] += y * y;
}

__attribute__((noinline)) static uint32_t bit_totals(const uint64_t *words, size_t words_length, int64_t *out, size_t out_length)
{
    if (out_length < MAVRIHKEL_TOTALS) return MAVRIHKEL_SHORT_BUFFER;
    int64_t sums[SUMS] = {0};
    uint32_t number = wrong_length(words_length) ? 31 : 0;
    for (size_t cell = 0; number == 0 && cell < 64 * words_length; cell++) {
        if (is_marked(words, cell)) add_cell(sums, cell % COLUMNS, cell / COLUMNS);
    }
    put_totals(out, sums);
    return number;
}

__attribute__((noinline)) static uint32_t bit_runs(const uint64_t *words, size_t words_length, struct mavrihkel_run *runs, size_t runs_length, int64_t *out, size_t out_length)
{
    if (out_length < MAVRIHKEL_WRITTEN) return MAVRIHKEL_SHORT_BUFFER;
    size_t most = runs_length < MOST_RUNS ? runs_length : MOST_RUNS, count = 0;
    out[0] = 0;
    if (wrong_length(words_length)) return 31;
    for (size_t cell = 0; cell < 64 * words_length && count <= most; cell++)
        count += is_marked(words, cell) && (cell % COLUMNS == 0 || !is_marked(words, cell - 1));
    if (count > most) return 8;
    size_t written = 0;
    for (size_t cell = 0; cell < 64 * words_length; cell++) {
        if (!is_marked(words, cell)) continue;
        if (cell % COLUMNS != 0 && is_marked(words, cell - 1)) runs[written - 1].length++;
        else runs[written++] = (struct mavrihkel_run){(uint32_t)(cell / COLUMNS), (uint32_t)(cell % COLUMNS), 1};
    }
    out[0] = (int64_t)count;
    return 0;
}

/* ---- masks of 1,024 rows */

static uint64_t mask[WORDS];

/* Every word of the first rows at random, every other one empty. */
static void random_rows(size_t rows)
{
    for (size_t k = 0; k < WORDS; k++) mask[k] = k < rows * WORDS_IN_A_ROW ? random_word() : 0;
}

/* So many cells of each row or fewer, in columns at random, have another bit than all others. */
static void some_cells(uint64_t others, int cells)
{
    for (size_t k = 0; k < WORDS; k++) mask[k] = others;
    for (size_t row = 0; row < ROWS; row++)
        for (int n = 0; n < cells; n++) {
            size_t column = random_word() % COLUMNS;
            uint64_t *word = &mask[row * WORDS_IN_A_ROW + column / 64], bit = UINT64_C(1) << (column % 64);
            *word = (*word | bit) ^ (others & bit);
        }
}

static void sparse(void) { some_cells(0, 4); }
static void dense(void) { some_cells(UINT64_MAX, 3); }
static void full(void) { some_cells(UINT64_MAX, 0); }
static void random_in_some(void) { random_rows(15); }
static void random_in_all(void) { random_rows(ROWS); }

static const struct { const char *name; void (*make)(void); uint32_t runs_number; } masks[] = {
    {"sparse: four cells of each row marked", sparse, 0},
    {"dense: all but three cells of each row marked", dense, 0},
    {"full: every cell marked", full, 0},
    {"random in 15 rows: each cell marked or not; the others empty", random_in_some, 0},
    {"random in every row: its runs are refused with 8", random_in_all, 8},
};

/* ---- measuring */

static struct {
    struct mavrihkel_run list[MOST_RUNS];
    int64_t out[MAVRIHKEL_TOTALS];
} written;
static totals_call *const totals_calls[CALLS] = {mavrihkel_mask_totals, row_totals, bit_totals};
static runs_call *const runs_calls[CALLS] = {mavrihkel_mask_runs, word_runs, bit_runs};

static uint32_t call_totals(int k) { return totals_calls[k](mask, WORDS, written.out, MAVRIHKEL_TOTALS); }
static uint32_t call_runs(int k) { return runs_calls[k](mask, WORDS, written.list, MOST_RUNS, written.out, MAVRIHKEL_WRITTEN); }

/* Columns are parted by two spaces or more. */
static void table(const char *what, numbered_call *call, int refuses)
{
    printf("%s  library/the same steps in C  library/cell by cell in C\n", what);
    for (size_t m = 0; m < sizeof masks / sizeof masks[0]; m++) {
        double least[CALLS];
        masks[m].make();
        agree(call, refuses ? masks[m].runs_number : 0, &written, sizeof written);
        least_times(call, TIMES, least);
        printf("%s  %.2f  %.3f\n", masks[m].name, least[0] / least[1], least[0] / least[2]);
    }
}

int main(void)
{
    fill_table();
    table("totals of a mask of 1,024 rows", call_totals, 0);
    putchar('\n');
    table("runs of a mask of 1,024 rows", call_runs, 1);
    return 0;
}
