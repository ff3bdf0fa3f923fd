/*
 * How long the library's call on two walks takes beside the same work in C, as ratios taken in one process: the library's time over that of double_loop.c, built with vector code and without it. Each
 * time is the least of ROUNDS, in which the calls take turns on the same two walks of as many points each. Ends with 1 if two of them answer differently, also on walks of other lengths and on refused
 * ones. bench/run.py builds it with the library.
 */
#include "../callers/c/mavrihkel.h"
#include "timing.h"

enum { MOST_POINTS = 1024, TRIED_POINTS = 64, PAIRS_A_ROUND = 4000000 };

typedef uint32_t walks_call(const int32_t *first, size_t first_length, const int32_t *second, size_t second_length, int64_t *out, size_t out_length);
walks_call with_vectors, without_vectors;

/* ---- two walks, with room for one point too many */

static struct {
    int32_t points[2 * (MOST_POINTS + 1)];
    size_t length;
} first, second;

/* A number at random, from -size to size. */
static int32_t at_most(int32_t size) { return (int32_t)(random_word() % (2 * (uint64_t)size + 1)) - size; }

static int32_t within_limits(int32_t z) { return z < -2000 ? -2000 : z > 2000 ? 2000 : z; }

/* Points in no particular order; and the same recorded by another: begun at the middle, each number off by 3 at most. */
static void make_walks(size_t points)
{
    first.length = second.length = 2 * points;
    for (size_t k = 0; k < first.length; k++) first.points[k] = at_most(2000);
    for (size_t k = 0; k < first.length; k++) second.points[k] = within_limits(first.points[(k + points / 2 * 2) % first.length] + at_most(3));
}

/* ---- measuring */

static int64_t out[MAVRIHKEL_COMPARISON];
static walks_call *const calls[CALLS] = {mavrihkel_compare_walks, with_vectors, without_vectors};

static uint32_t compare(int k) { return calls[k](first.points, first.length, second.points, second.length, out, MAVRIHKEL_COMPARISON); }

static void agree_on(uint32_t number) { agree(compare, number, out, sizeof out); }

/* Walks of different lengths, either of them the longer. */
static void agree_on_lengths(void)
{
    make_walks(TRIED_POINTS);
    for (size_t length = 2 * 3; length < 2 * TRIED_POINTS; length += 2) {
        first.length = length;
        agree_on(0);
        first.length = 2 * TRIED_POINTS;
        second.length = length;
        agree_on(0);
        second.length = 2 * TRIED_POINTS;
    }
}

/* A number outside at each place of either walk, the other one being accepted or of odd length; then lengths that are refused. */
static void agree_on_refusals(void)
{
    static const size_t wrong_lengths[] = {0, 4, 2 * TRIED_POINTS - 1, 2 * (MOST_POINTS + 1)};
    make_walks(TRIED_POINTS);
    for (size_t k = 0; k < 2 * TRIED_POINTS; k++) {
        int32_t outside = k % 2 == 0 ? 2001 : -2001, of_first = first.points[k], of_second = second.points[k];
        first.points[k] = outside;
        agree_on(1);
        second.length--;
        agree_on(1);
        second.length++;
        first.points[k] = of_first;
        second.points[k] = outside;
        agree_on(1);
        first.length--;
        agree_on(2);
        first.length++;
        second.points[k] = of_second;
    }
    for (size_t k = 0; k < sizeof wrong_lengths / sizeof wrong_lengths[0]; k++) {
        first.length = wrong_lengths[k];
        agree_on(2);
        first.length = 2 * TRIED_POINTS;
        second.length = wrong_lengths[k];
        agree_on(2);
        second.length = 2 * TRIED_POINTS;
    }
}

/* Columns are parted by two spaces or more. */
int main(void)
{
    static const size_t counts[] = {64, MOST_POINTS};
    agree_on_lengths();
    agree_on_refusals();
    puts("points of each walk  library/double loop in C  library/the same without vector code");
    for (size_t k = 0; k < sizeof counts / sizeof counts[0]; k++) {
        double least[CALLS];
        make_walks(counts[k]);
        agree_on(0);
        least_times(compare, (int)(PAIRS_A_ROUND / (counts[k] * counts[k])), least);
        printf("%zu  %.2f  %.2f\n", counts[k], least[0] / least[1], least[0] / least[2]);
    }
    return 0;
}
