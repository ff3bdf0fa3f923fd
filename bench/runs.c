/*
 * How long the library's call on runs takes beside the same work in C, as ratios taken in one process: the library's time over that of the same steps with the sums of squares by the closed formula, and with
 * those sums read from a table that is filled once, before anything is timed. Both go over the runs once, test each and its order, add up its sums, and make totals of them at the end; they refuse as the
 * library does. Each time is the least of ROUNDS, in which the calls take turns on the same runs. Ends with 1 if two of them answer differently, also on refused runs. bench/run.py builds it with the
 * library.
 */
#include "../callers/c/mavrihkel.h"
#include "cells.h"
#include "timing.h"

enum { TRIED_RUNS = 64, RUNS_A_ROUND = 200000 };

typedef uint32_t region_call(const struct mavrihkel_run *runs, size_t runs_length, int64_t *out, size_t out_length);
typedef int64_t sum_below(uint64_t n);

/* ---- sums of squares by the closed formula: 0² + 1² + .. + (n - 1)² */

static int64_t square_sum(uint64_t n)
{
    uint64_t product = n * n - n;
    return (int64_t)((2 * n * product - product) / 6);
}

/* ---- run by run */

/* The cells of row y from column `first` on, below `end`. */
static inline void add_run(int64_t *sums, int64_t y, uint64_t first, uint64_t end, sum_below *squares)
{
    int64_t count = (int64_t)(end - first), x = index_sum(end) - index_sum(first);
    sums[0] += count;
    sums[1] += x;
    sums[2] += count * y;
    sums[3] += squares(end) - squares(first);
    sums[4] += x * y;
    sums[5] += count * y * y;
}

/* Inlined, so that the compiler knows `squares`. */
__attribute__((always_inline)) static inline uint32_t run_totals(const struct mavrihkel_run *runs, size_t runs_length, int64_t *out, size_t out_length, sum_below *squares)
{
    if (out_length < MAVRIHKEL_REGION) return MAVRIHKEL_SHORT_BUFFER;
    int64_t sums[SUMS] = {0};
    uint32_t number = 0;
    uint64_t row_before = 0, end_before = 0;
    memset(out, 0, MAVRIHKEL_REGION * sizeof *out);
    if (runs_length > MOST_RUNS) return 8;
    for (size_t i = 0; i < runs_length; i++) {
        uint64_t row = runs[i].row, first = runs[i].first, length = runs[i].length, end = first + length;
        if (row >= ROWS || length == 0 || end > COLUMNS) {
            out[MAVRIHKEL_TOTALS] = (int64_t)i;
            return 6;
        }
        if (row < row_before || (row == row_before && first < end_before)) {
            if (number == 0) out[MAVRIHKEL_TOTALS] = (int64_t)i;
            number = 7;
        }
        add_run(sums, (int64_t)row, first, end, squares);
        row_before = row;
        end_before = end;
    }
    if (number == 0) put_totals(out, sums);
    return number;
}

__attribute__((noinline)) static uint32_t by_formula(const struct mavrihkel_run *runs, size_t runs_length, int64_t *out, size_t out_length)
{
    return run_totals(runs, runs_length, out, out_length, square_sum);
}

__attribute__((noinline)) static uint32_t by_table(const struct mavrihkel_run *runs, size_t runs_length, int64_t *out, size_t out_length)
{
    return run_totals(runs, runs_length, out, out_length, entry_at);
}

/* ---- runs, with room for one too many */

static struct {
    struct mavrihkel_run list[MOST_RUNS + 1];
    size_t length;
} runs;

/* Four runs to a row, one in each quarter of it. */
static void make_runs(size_t count)
{
    enum { QUARTER = COLUMNS / 4 };
    runs.length = count;
    for (uint32_t i = 0; i < count; i++) {
        uint32_t skipped = random_word() % QUARTER, length = 1 + random_word() % (QUARTER - skipped);
        runs.list[i] = (struct mavrihkel_run){i / 4, i % 4 * QUARTER + skipped, length};
    }
}

/* ---- measuring */

static int64_t out[MAVRIHKEL_REGION];
static region_call *const calls[CALLS] = {mavrihkel_region_totals, by_formula, by_table};

static uint32_t call_totals(int k) { return calls[k](runs.list, runs.length, out, MAVRIHKEL_REGION); }

static void agree_on(uint32_t number) { agree(call_totals, number, out, sizeof out); }

/* Every part of a row, as a run of its own. */
static void agree_on_columns(void)
{
    runs.length = 1;
    for (uint32_t first = 0; first < COLUMNS; first++)
        for (uint32_t end = first + 1; end <= COLUMNS; end++) {
            runs.list[0] = (struct mavrihkel_run){end % ROWS, first, end - first};
            agree_on(0);
        }
}

/* The last run on too low a row; also a run given twice, at each place; also a run outside the grid or without cells, before or behind it; then a run too many. */
static void agree_on_refusals(void)
{
    static const struct mavrihkel_run bad[] = {{ROWS, 0, 1}, {0, 0, 0}, {0, COLUMNS, 1}, {0, 1, COLUMNS}, {0, UINT32_MAX, 2}};
    for (size_t i = 1; i <= TRIED_RUNS; i++) {
        make_runs(TRIED_RUNS);
        runs.list[TRIED_RUNS - 1].row = 0;
        agree_on(7);
        runs.list[i] = runs.list[i - 1];
        agree_on(7);
        for (size_t k = 0; k < sizeof bad / sizeof bad[0]; k++) {
            runs.list[TRIED_RUNS - i] = bad[k];
            agree_on(6);
        }
    }
    make_runs(MOST_RUNS);
    runs.list[runs.length++] = runs.list[0];
    agree_on(8);
}

/* Columns are parted by two spaces or more. */
int main(void)
{
    static const size_t counts[] = {1, 16, MOST_RUNS};
    fill_table();
    agree_on_columns();
    agree_on_refusals();
    puts("runs  library/closed formula in C  library/table in C");
    for (size_t k = 0; k < sizeof counts / sizeof counts[0]; k++) {
        double least[CALLS];
        make_runs(counts[k]);
        agree_on(0);
        least_times(call_totals, (int)(RUNS_A_ROUND / counts[k]), least);
        printf("%zu  %.2f  %.2f\n", counts[k], least[0] / least[1], least[0] / least[2]);
    }
    return 0;
}
