/* The ground under cells, each by the edges of its square, for check.c. */
#ifndef GROUND_H
#define GROUND_H

#include <stdint.h>
#include <string.h>

#include "mavrihkel.h"

static void add_edge(int64_t *totals, int64_t x, int64_t y, int64_t p, int64_t q)
{
    int64_t c = x * q - p * y;
    totals[0] += c;
    totals[1] += (x + p) * c;
    totals[2] += (y + q) * c;
    totals[3] += (x * x + x * p + p * p) * c;
    totals[4] += (2 * x * y + x * q + p * y + 2 * p * q) * c;
    totals[5] += (y * y + y * q + q * q) * c;
}

static void add_cell(int64_t *totals, int64_t x, int64_t y)
{
    add_edge(totals, x, y, x + 1, y);
    add_edge(totals, x + 1, y, x + 1, y + 1);
    add_edge(totals, x + 1, y + 1, x, y + 1);
    add_edge(totals, x, y + 1, x, y);
}

/* Whether these are the totals of the ground under the cells of runs. */
static int are_totals_of(const int64_t *totals, const struct mavrihkel_run *runs, size_t count)
{
    int64_t wanted[MAVRIHKEL_TOTALS] = {0};
    for (size_t k = 0; k < count; k++)
        for (uint32_t n = 0; n < runs[k].length; n++) add_cell(wanted, (int64_t)runs[k].first + n, runs[k].row);
    return memcmp(totals, wanted, sizeof wanted) == 0;
}

#endif
