/*
 * The proved calls on outlines, on their third moments, on two walks of one plot, on a receiver's fixes, on regions and on masks, for C and C++ on x86-64 Linux. Link crates/exports/out/libexports.a,
 * which `rt lib`, run in crates/exports, writes.
 *
 * Each call answers a number: 0 where it is accepted, else that of document 01's or 02's refusal, named at each call, the first that applies in the order given. It writes its values to the
 * front of `out`, zeros with every refusal but for the index of a run, and nothing behind them. Where `out_length` is less than the number of its values, it writes nothing, to no list either, and
 * answers MAVRIHKEL_SHORT_BUFFER. That much is proved of the library, for every list, number and buffer; that these declarations fit it is tested (check.c, fixes.c, masks.c, runs.c,
 * third_moments.c, walks.c).
 *
 * What a caller owes: a pointer is aligned and is not NULL, also where the length is 0, and that many entries lie there; the entries of `out`, and those of the list that mavrihkel_mask_runs
 * fills, may be written and overlap no other list. A call keeps no pointer, and no state between calls, so threads may call at once.
 *
 * Lengths are in decimetres, x east and y north. The six totals, in this order: A2 (2 x area), X6 and Y6 (6 x the integral of x and of y), XX12 (12 x that of x squared), XY24 (24 x that of x y),
 * YY12 (12 x that of y squared); positive where the outline is walked anticlockwise.
 *
 * A cell is its ground: the cell in column x of row y is the square from (x, y) to (x + 1, y + 1). Cells answer the six totals of the ground under them: each cell counts as an outline round its
 * square, walked anticlockwise. mavrihkel_map_totals and mavrihkel_outline_centroid take these totals as they take an outline's; none is too large for them.
 *
 * What changed with document 02, CR 2: mavrihkel_region_totals and mavrihkel_mask_totals answer these totals. The calls of before, mavrihkel_region_sums and mavrihkel_mask_sums, answered sums over
 * cells as points: their number, and the sums of x, y, x squared, x y and y squared. They are gone, and MAVRIHKEL_SUMS with them, so that an old program fails to build or to link instead of
 * reading other figures. From the old sums A, Sx, Sy, Sxx, Sxy, Syy the totals are 2 A, 6 Sx + 3 A, 6 Sy + 3 A, 12 Sxx + 12 Sx + 4 A, 24 Sxy + 12 Sx + 12 Sy + 6 A, 12 Syy + 12 Sy + 4 A.
 */
#ifndef MAVRIHKEL_H
#define MAVRIHKEL_H

#include <stddef.h>
#include <stdint.h>

#ifdef __cplusplus
extern "C" {
#endif

#define MAVRIHKEL_TOTALS 6
#define MAVRIHKEL_THIRD_TOTALS 4
#define MAVRIHKEL_CENTRE 2
#define MAVRIHKEL_COMPARISON 10
#define MAVRIHKEL_POINT 2
#define MAVRIHKEL_REGION 7
#define MAVRIHKEL_WRITTEN 1
#define MAVRIHKEL_SHORT_BUFFER 100

/*
 * The six totals of an outline: `points` has x and y in turn, `points_length` counts numbers, two to a point. The last point is joined to the first.
 *   2  the length is odd, or there are fewer than 3 points, or over 1,024
 *   1  a coordinate is below -2,000 or above 2,000
 */
uint32_t mavrihkel_outline_totals(const int32_t *points, size_t points_length, int64_t *out, size_t out_length);

/*
 * The third moments of an outline (document 02, CR 10), a list as above. Four values, by falling power of x: XXX20 (20 x the integral of x cubed), XXY60 (60 x that of x squared y), XYY60 (60 x that of
 * x y squared), YYY20 (20 x that of y cubed). They are taken about the peg, not about the centre. The sign is kept: walked backwards, an outline has all four with the other sign. The limit is 500
 * because with coordinates to 2,000 the sums would not fit 64 bits; within 500 every total is below 10^18 in size.
 *   2   the length is odd, or there are fewer than 3 points, or over 1,024
 *   1   a coordinate is below -2,000 or above 2,000
 *   35  a coordinate is below -500 or above 500
 */
uint32_t mavrihkel_third_moments(const int32_t *points, size_t points_length, int64_t *out, size_t out_length);

/*
 * Two walks of one plot, each a list as above; they may overlap, or be one and the same. Ten values. Six differences: the totals of the first less those of the second. Two squared distances, in square
 * decimetres: the greatest from a point of the first to the nearest point of the second, and the greatest from a point of the second to the nearest of the first (their roots are the directed Hausdorff
 * distances); edges do not count for them. Then the list handed back, 0 for the first or 1 for the second, and how many of its numbers: the list of more points, all of it, the first where both have as
 * many; with a refusal, none of the first. The first list is tested before the second, each for:
 *   2  the length is odd, or there are fewer than 3 points, or over 1,024
 *   1  a coordinate is below -2,000 or above 2,000
 */
uint32_t mavrihkel_compare_walks(const int32_t *first, size_t first_length, const int32_t *second, size_t second_length,
                                 int64_t *out, size_t out_length);

/*
 * The point that a fix of a receiver becomes (document 02, CR 9): two values, x and y, each the exact value of the float, `east` or `north`, in decimetres, rounded to a whole number, halves up (towards
 * east and north). So -2,000.5 becomes -2,000, 0.5 becomes 1, and -0.5 and minus zero become 0. The calls above take such points.
 *   33  `east` or `north` is infinite or not a number
 *   1   x or y is below -2,000 or above 2,000; 2,000.5 becomes 2,001, which is
 */
uint32_t mavrihkel_fix_point(float east, float north, int64_t *out, size_t out_length);

/*
 * The six totals of the outline moved by u = a x + b y + e, v = g x + h y + f, from its six totals.
 *   3  a, b, g or h is greater than 2 in size, or e or f than 2,000
 *   4  a total is greater in size than an outline of 1,024 points can have: A2 8,192,000,000; X6, Y6 32,768,000,000,000; XX12, YY12 98,304,000,000,000,000; XY24 196,608,000,000,000,000
 *   5  a mapped total is greater than 10^18 in size
 */
uint32_t mavrihkel_map_totals(int32_t a, int32_t b, int32_t g, int32_t h, int32_t e, int32_t f,
                              int64_t a2, int64_t x6, int64_t y6, int64_t xx12, int64_t xy24, int64_t yy12,
                              int64_t *out, size_t out_length);

/*
 * The centre of an outline, of a sheet or of cells by its six totals: two values, x and y, each the exact quotient in decimetres rounded to a whole number, halves up (towards east and north).
 *   11  a total is greater than 10^18 in size
 *   27  A2 is 0
 */
uint32_t mavrihkel_outline_centroid(int64_t a2, int64_t x6, int64_t y6, int64_t xx12, int64_t xy24, int64_t yy12,
                                    int64_t *out, size_t out_length);

/* As many cells of a row as `length`, from the column `first` on. Rows and columns are 0 to 1,023. */
struct mavrihkel_run {
    uint32_t row;
    uint32_t first;
    uint32_t length;
};

/*
 * The six totals of the ground under the cells of runs; `runs_length` counts runs, and none is legal: six zeros. Each run lies after the one before: on a higher row, or on the same row with its
 * first column not below the earlier first column plus length. Seven values: the totals, and behind them an index: with 6 and 7 that of the first run that breaks that rule, counted from 0 (document
 * 02, CR 8); else 0. With 7 it is that of the later run of two, so never 0.
 *   8  there are more than 4,096 runs
 *   6  a run has a row over 1,023, has no cell, or goes past column 1,023
 *   7  a run has a lower row than the run before it, or has the same row and begins before that run ends
 */
uint32_t mavrihkel_region_totals(const struct mavrihkel_run *runs, size_t runs_length, int64_t *out, size_t out_length);

/*
 * The six totals of the ground under the marked cells of a mask: `words` has 16 words for each row, rows 0 upwards; bit i of a row's word w, from the lowest, is column 64 w + i, and a one marks the
 * cell. `words_length` counts words, and none is legal: six zeros. However many runs the cells make up, they have totals.
 *   31  the length is no multiple of 16, or is over 16,384 (1,024 rows)
 */
uint32_t mavrihkel_mask_totals(const uint64_t *words, size_t words_length, int64_t *out, size_t out_length);

/*
 * Writes the longest possible runs of a mask's marked cells, in order, to the front of `runs`; a run may go on from word to word, but not from row to row. One value: how many were written.
 * The records behind them stay as they were. With a refusal none is written, and the value is 0. Where it is accepted, mavrihkel_region_totals of the written runs are the mask's totals.
 *   31  the length is no multiple of 16, or is over 16,384 (1,024 rows)
 *   8   there would be more than 4,096 runs, or more than `runs_length`; a list of 4,096 never is too short
 */
uint32_t mavrihkel_mask_runs(const uint64_t *words, size_t words_length, struct mavrihkel_run *runs, size_t runs_length,
                             int64_t *out, size_t out_length);

#ifdef __cplusplus
}
#endif

#endif
