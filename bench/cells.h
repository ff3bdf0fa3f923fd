/*
 * Shared by masks.c and runs.c: the grid of cells, the sums below a column, and the totals of the ground by the sums over cells.
 */
#include <stdint.h>

enum { ROWS = 1024, COLUMNS = 1024, MOST_RUNS = 4096, SUMS = 6 };

/* 0 + 1 + .. + (n - 1). */
static int64_t index_sum(uint64_t n) { return (int64_t)((n * n - n) / 2); }

/* Entry n is 0² + 1² + .. + (n - 1)², once the table is filled. */
static uint32_t square_sums[COLUMNS + 1];

static void fill_table(void)
{
    for (uint32_t j = 0; j < COLUMNS; j++) square_sums[j + 1] = square_sums[j] + j * j;
}

static int64_t entry_at(uint64_t n) { return square_sums[n]; }

/* The totals of the ground under cells, by their sums. */
static void put_totals(int64_t *out, const int64_t *sums)
{
    int64_t count = sums[0], x = sums[1], y = sums[2];
    out[0] = 2 * count;
    out[1] = 6 * x + 3 * count;
    out[2] = 6 * y + 3 * count;
    out[3] = 12 * (sums[3] + x) + 4 * count;
    out[4] = 24 * sums[4] + 12 * (x + y) + 6 * count;
    out[5] = 12 * (sums[5] + y) + 4 * count;
}
