/* The buffer that check.c lends to the calls, and what it counts as right. */
#ifndef EXPECT_H
#define EXPECT_H

#include <inttypes.h>
#include <stdio.h>

#include "mavrihkel.h"

/* One entry more than any call writes, which it must leave alone. */
#define ROOM (MAVRIHKEL_COMPARISON + 1)
#define UNTOUCHED INT64_MIN
#define LENGTH(list) (sizeof(list) / sizeof((list)[0]))

static int wrong = 0;
static int64_t out[ROOM];

/* Clears the buffer before a call. */
static int64_t *fresh(void)
{
    for (size_t k = 0; k < ROOM; k++) out[k] = UNTOUCHED;
    return out;
}

/* The number and the values at the front; all behind them is untouched. */
static void expect(const char *what, uint32_t number, uint32_t wanted, const int64_t *values, size_t count)
{
    int right = number == wanted;
    printf("%s: %" PRIu32, what, number);
    for (size_t k = 0; k < ROOM; k++) {
        right = right && out[k] == (k < count ? values[k] : UNTOUCHED);
        if (k < count) printf(" %" PRId64, out[k]);
    }
    puts(right ? "" : "  WRONG");
    wrong = wrong || !right;
}

#endif
