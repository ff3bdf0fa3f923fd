/*
 * The comparison of two walks as a loop within a loop, under the name LOOP: bench/run.py builds it twice for walks.c, with vector code and without. Both lists are tested, their edges summed; then each
 * point of one is compared with every point of the other, one way and the other, in 32 bits. Refuses as the library does.
 */
#include "../callers/c/mavrihkel.h"

static void add_edge(int64_t *totals, int64_t x, int64_t y, int64_t p, int64_t q)
{
    int64_t c = x * q - p * y;
    totals[0] += c;
    totals[1] += (x + p) * c;
    totals[2] += (y + q) * c;
    totals[3] += (x * x + x * p + p * p) * c;
    totals[4] += (2 * x * y + x * q + p * y + 2 * p * q) * c;
    totals[5] += (y * y + y * q + q * q) * c;
}

/* The number of the refusal; if it is 0, the six totals are added. */
static uint32_t add_totals(int64_t *totals, const int32_t *points, size_t length)
{
    int outside = 0;
    if (length % 2 != 0 || length < 2 * 3 || length > 2 * 1024) return 2;
    for (size_t k = 0; k < length; k++) outside |= points[k] < -2000 || points[k] > 2000;
    if (outside) return 1;
    add_edge(totals, points[length - 2], points[length - 1], points[0], points[1]);
    for (size_t k = 2; k < length; k += 2) add_edge(totals, points[k - 2], points[k - 1], points[k], points[k + 1]);
    return 0;
}

/* The greatest squared distance from a point of one walk to the nearest of the other. */
static int32_t distance(const int32_t *from, size_t from_length, const int32_t *to, size_t to_length)
{
    int32_t greatest = 0;
    for (size_t i = 0; i < from_length; i += 2) {
        int32_t least = INT32_MAX;
        for (size_t k = 0; k < to_length; k += 2) {
            int32_t x = from[i] - to[k], y = from[i + 1] - to[k + 1], squared = x * x + y * y;
            if (squared < least) least = squared;
        }
        if (least > greatest) greatest = least;
    }
    return greatest;
}

uint32_t LOOP(const int32_t *first, size_t first_length, const int32_t *second, size_t second_length, int64_t *out, size_t out_length)
{
    if (out_length < MAVRIHKEL_COMPARISON) return MAVRIHKEL_SHORT_BUFFER;
    int64_t of_first[MAVRIHKEL_TOTALS] = {0}, of_second[MAVRIHKEL_TOTALS] = {0};
    for (size_t k = 0; k < MAVRIHKEL_COMPARISON; k++) out[k] = 0;
    uint32_t number = add_totals(of_first, first, first_length);
    if (number == 0) number = add_totals(of_second, second, second_length);
    if (number != 0) return number;
    for (size_t k = 0; k < MAVRIHKEL_TOTALS; k++) out[k] = of_first[k] - of_second[k];
    out[6] = distance(first, first_length, second, second_length);
    out[7] = distance(second, second_length, first, first_length);
    out[8] = second_length > first_length;
    out[9] = (int64_t)(second_length > first_length ? second_length : first_length);
    return 0;
}
