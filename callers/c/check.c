/*
 * Document 01's rectangle and unit square, and two walks, fixes, runs, masks and third moments as document 02 has them, through mavrihkel.h; each refusal once, of two walks and of third moments in
 * every order, and of runs where several are wrong; a buffer that is too short. Totals of cells are also compared with those that an independent loop takes cell by cell. Ends with 1 if an answer is
 * wrong.
 */
#include <inttypes.h>
#include <stdio.h>
#include <string.h>

#include "expect.h"
#include "ground.h"
#include "mavrihkel.h"
#include "third_rows.h"

#define TOTALS(t) (t)[0], (t)[1], (t)[2], (t)[3], (t)[4], (t)[5]

static const int32_t rectangle[] = {2, 0, 10, 4, 8, 8, 0, 4};
static const int64_t rectangle_totals[] = {80, 1200, 960, 14720, 21120, 8960};
static const int32_t square[] = {0, 0, 1, 0, 1, 1, 0, 1};
static const int32_t far_off[] = {0, 0, 2001, 0, 0, 1};

/* ---- two walks of one plot */

/* A list of numbers, two to a point, and the number of its refusal, 0 if it is accepted. */
struct walk {
    const char *name;
    const int32_t *points;
    size_t length;
    uint32_t number;
};

/* Two walks: the ten values, with the first number that is not 0. */
static void expect_comparison(struct walk first, struct walk second, const int64_t *values)
{
    printf("%s, and ", first.name);
    expect(second.name, mavrihkel_compare_walks(first.points, first.length, second.points, second.length, fresh(), ROOM),
           first.number != 0 ? first.number : second.number, values, MAVRIHKEL_COMPARISON);
}

static void check_walks(void)
{
    static const int32_t five_points[] = {2, 0, 10, 4, 9, 8, 1, 5, 0, 4};
    static const int32_t south_west[] = {-2000, -2000, -2000, -2000, -2000, -2000}, north_east[] = {2000, 2000, 2000, 2000, 2000, 2000};
    static const int32_t many[2 * 1025];
    const struct walk longer = {"five points", five_points, LENGTH(five_points), 0}, as_long = {"unit square", square, LENGTH(square), 0};
    const struct walk corner = {"a corner", south_west, LENGTH(south_west), 0}, opposite = {"the opposite one", north_east, LENGTH(north_east), 0};
    const struct walk walks[] = {
        {"rectangle", rectangle, LENGTH(rectangle), 0},
        {"coordinate 2,001", far_off, LENGTH(far_off), 1},
        {"odd length", rectangle, LENGTH(rectangle) - 1, 2},
        {"odd length with 2,001", far_off, LENGTH(far_off) - 1, 2},
        {"two points", rectangle, 4, 2},
        {"1,025 points", many, LENGTH(many), 2},
    };
    const int64_t of_longer[] = {-5, -90, -85, -1535, -2195, -985, 1, 2, 1, 10}, of_longer_first[] = {5, 90, 85, 1535, 2195, 985, 2, 1, 0, 10};
    const int64_t of_as_long[] = {78, 1197, 957, 14716, 21114, 8956, 98, 5, 0, 8}, of_as_long_first[] = {-78, -1197, -957, -14716, -21114, -8956, 5, 98, 0, 8};
    const int64_t of_itself[] = {0, 0, 0, 0, 0, 0, 0, 0, 0, 8}, of_corners[] = {0, 0, 0, 0, 0, 0, 32000000, 32000000, 0, 6};
    const int64_t zeros[MAVRIHKEL_COMPARISON] = {0};

    expect_comparison(walks[0], longer, of_longer);
    expect_comparison(longer, walks[0], of_longer_first);
    expect_comparison(walks[0], as_long, of_as_long);
    expect_comparison(as_long, walks[0], of_as_long_first);
    expect_comparison(corner, opposite, of_corners);
    for (size_t i = 0; i < LENGTH(walks); i++)
        for (size_t k = 0; k < LENGTH(walks); k++) expect_comparison(walks[i], walks[k], i == 0 && k == 0 ? of_itself : zeros);
    expect("room for nine", mavrihkel_compare_walks(rectangle, LENGTH(rectangle), square, LENGTH(square), fresh(), MAVRIHKEL_COMPARISON - 1), MAVRIHKEL_SHORT_BUFFER, NULL, 0);
    expect("room for none", mavrihkel_compare_walks(many, LENGTH(many), far_off, LENGTH(far_off), fresh(), 0), MAVRIHKEL_SHORT_BUFFER, NULL, 0);
}

/* ---- fixes of a receiver */

/* A float by its bits, the number of a fix that has it, and the coordinate that it becomes. */
static const struct {
    uint32_t bits;
    uint32_t number;
    int64_t rounded;
} floats[] = {
    {0xC4FA1000, 0, -2000}, {0xC4FA1001, 1, 0}, {0x44FA0FFF, 0, 2000}, {0x44FA1000, 1, 0}, {0x3EFFFFFF, 0, 0}, {0x3F000000, 0, 1}, {0xBF000000, 0, 0}, {0xBF000001, 0, -1},
    {0x3FC00000, 0, 2}, {0xBFC00000, 0, -1}, {0x00000000, 0, 0}, {0x80000000, 0, 0}, {0x00000001, 0, 0}, {0x80000001, 0, 0}, {0x7F7FFFFF, 1, 0}, {0xFF7FFFFF, 1, 0},
    {0x7F800000, 33, 0}, {0xFF800000, 33, 0}, {0x7FC00000, 33, 0}, {0xFFC00000, 33, 0}, {0x7F800001, 33, 0}, {0xFFFFFFFF, 33, 0},
};

static float float_of(uint32_t bits)
{
    float value;
    memcpy(&value, &bits, sizeof value);
    return value;
}

static void check_fixes(void)
{
    const float infinite = float_of(0x7F800000), no_number = float_of(0x7FC00000);
    const int64_t zeros[MAVRIHKEL_POINT] = {0};
    int32_t points[LENGTH(rectangle)];
    for (size_t k = 0; k < LENGTH(floats); k++) {
        const float value = float_of(floats[k].bits);
        const int accepted = floats[k].number == 0;
        const int64_t as_east[] = {floats[k].rounded, accepted ? 7 : 0}, as_north[] = {accepted ? -7 : 0, floats[k].rounded};
        printf("%08" PRIX32 " ", floats[k].bits);
        expect("as east", mavrihkel_fix_point(value, 7, fresh(), ROOM), floats[k].number, as_east, MAVRIHKEL_POINT);
        expect("as north", mavrihkel_fix_point(-7, value, fresh(), ROOM), floats[k].number, as_north, MAVRIHKEL_POINT);
        expect("room for one", mavrihkel_fix_point(value, value, fresh(), MAVRIHKEL_POINT - 1), MAVRIHKEL_SHORT_BUFFER, NULL, 0);
        expect("room for none", mavrihkel_fix_point(-7, value, fresh(), 0), MAVRIHKEL_SHORT_BUFFER, NULL, 0);
    }
    expect("infinite, and 2,000.5", mavrihkel_fix_point(infinite, 2000.5f, fresh(), MAVRIHKEL_POINT), 33, zeros, MAVRIHKEL_POINT);
    expect("2,000.5, and no number", mavrihkel_fix_point(2000.5f, no_number, fresh(), MAVRIHKEL_POINT), 33, zeros, MAVRIHKEL_POINT);
    for (size_t k = 0; k < LENGTH(points); k += 2) {
        mavrihkel_fix_point(rectangle[k] - 0.5f, rectangle[k + 1] + 0.25f, fresh(), ROOM);
        for (size_t i = 0; i < 2; i++) points[k + i] = out[i];
    }
    expect("rectangle by fixes", mavrihkel_outline_totals(points, LENGTH(points), fresh(), ROOM), 0, rectangle_totals, MAVRIHKEL_TOTALS);
}

/* ---- cells */

/* An accepted region: its totals, index 0, and the same totals cell by cell; its centre, or 27 with zeros where it has no cell. */
static void expect_region(const char *what, const struct mavrihkel_run *runs, size_t count, const int64_t *values, const int64_t *centre)
{
    expect(what, mavrihkel_region_totals(runs, count, fresh(), ROOM), 0, values, MAVRIHKEL_REGION);
    int right = are_totals_of(out, runs, count);
    if (!right) puts("not the totals of its cells: WRONG");
    wrong = wrong || !right;
    expect("its centre", mavrihkel_outline_centroid(TOTALS(values), fresh(), ROOM), count == 0 ? 27 : 0, centre, MAVRIHKEL_CENTRE);
}

/* ---- masks */

#define MOST_RUNS 4096
#define MOST_WORDS 16384

static const struct mavrihkel_run before = {7, 8, 9};
static struct mavrihkel_run list[MOST_RUNS + 1];

/* Clears the list before a call. */
static struct mavrihkel_run *fresh_list(void)
{
    for (size_t k = 0; k < LENGTH(list); k++) list[k] = before;
    return list;
}

static int same_run(struct mavrihkel_run run, struct mavrihkel_run wanted)
{
    return run.row == wanted.row && run.first == wanted.first && run.length == wanted.length;
}

/* After a call, the record before this index is the wanted one, and every record from it on is as it was. */
static int list_is(size_t count, struct mavrihkel_run last)
{
    int right = count == 0 || same_run(list[count - 1], last);
    for (size_t k = count; k < LENGTH(list); k++) right = right && same_run(list[k], before);
    return right;
}

static void expect_list(int right)
{
    if (!right) puts("the list is WRONG");
    wrong = wrong || !right;
}

/* The totals of a mask. */
static void expect_totals(const char *what, const uint64_t *words, size_t length, uint32_t wanted, const int64_t *totals)
{
    expect(what, mavrihkel_mask_totals(words, length, fresh(), ROOM), wanted, totals, MAVRIHKEL_TOTALS);
}

/* The writer with a list of so many records: the number, how many it wrote, the last of them; all behind them is as it was. The region that they make up has the mask's totals, which are those of its
 * cells. */
static void expect_runs(const char *what, const uint64_t *words, size_t length, size_t held, uint32_t wanted, int64_t count, struct mavrihkel_run last)
{
    int64_t totals[MAVRIHKEL_REGION] = {0}, marked[MAVRIHKEL_TOTALS];
    expect(what, mavrihkel_mask_runs(words, length, fresh_list(), held, fresh(), ROOM), wanted, &count, MAVRIHKEL_WRITTEN);
    expect_list(list_is(count, last));
    if (wanted == 0) {
        mavrihkel_mask_totals(words, length, marked, MAVRIHKEL_TOTALS);
        expect_list(mavrihkel_region_totals(list, count, totals, MAVRIHKEL_REGION) == 0 && memcmp(totals, marked, sizeof marked) == 0 && are_totals_of(marked, list, count));
    }
}

static void check_masks(void)
{
    /* Row 0: bits 0 and 63 of word 0, bits 0 and 1 of word 1, bit 63 of word 15. Row 1: bit 0 of word 0. */
    static const uint64_t four_runs[32] = {[0] = UINT64_C(1) << 63 | 1, [1] = 3, [15] = UINT64_C(1) << 63, [16] = 1};
    /* Every other cell of eight rows, 4,096 runs; with the ninth row one more. */
    static uint64_t alternating[9 * 16], all_ones[MOST_WORDS + 16];
    const int64_t four_runs_totals[] = {12, 7308, 24, 12720432, 14628, 48};
    const int64_t alternating_totals[] = {8194, 12570627, 98355, INT64_C(17154703364), 201130086, 1049444};
    const int64_t grid_totals[] = {2097152, INT64_C(3221225472), INT64_C(3221225472), INT64_C(4398046511104), INT64_C(6597069766656), INT64_C(4398046511104)};
    const int32_t grid[] = {0, 0, 1024, 0, 1024, 1024, 0, 1024};
    const int64_t zeros[MAVRIHKEL_TOTALS] = {0};
    const struct mavrihkel_run last_of_four = {1, 0, 1}, last_of_most = {7, 1022, 1}, last_of_grid = {1023, 0, 1024};
    for (size_t k = 0; k < 8 * 16; k++) alternating[k] = UINT64_C(0x5555555555555555);
    alternating[8 * 16] = 1;
    memset(all_ones, 255, sizeof all_ones);

    expect_totals("mask", four_runs, LENGTH(four_runs), 0, four_runs_totals);
    expect_runs("its runs, room for five", four_runs, LENGTH(four_runs), 5, 0, 4, last_of_four);
    expect_runs("room for four", four_runs, LENGTH(four_runs), 4, 0, 4, last_of_four);
    expect_runs("room for three", four_runs, LENGTH(four_runs), 3, 8, 0, before);
    expect_runs("4,096 runs of a mask", alternating, 8 * 16, LENGTH(list), 0, MOST_RUNS, last_of_most);
    expect_runs("4,097 runs of a mask", alternating, LENGTH(alternating), LENGTH(list), 8, 0, before);
    expect_totals("their totals", alternating, LENGTH(alternating), 0, alternating_totals);
    expect_totals("no words", all_ones, 0, 0, zeros);
    expect_runs("no words", all_ones, 0, 0, 0, 0, before);
    expect_totals("full grid", all_ones, MOST_WORDS, 0, grid_totals);
    expect("outline round the grid", mavrihkel_outline_totals(grid, LENGTH(grid), fresh(), ROOM), 0, grid_totals, MAVRIHKEL_TOTALS);
    expect_runs("full grid", all_ones, MOST_WORDS, LENGTH(list), 0, 1024, last_of_grid);
    for (size_t k = 0; k < 4; k++) {
        const size_t wrong_lengths[] = {15, 17, 24, MOST_WORDS + 16};
        expect_totals("mask of wrong length", all_ones, wrong_lengths[k], 31, zeros);
        expect_runs("mask of wrong length", all_ones, wrong_lengths[k], k, 31, 0, before);
    }
    expect("room for five", mavrihkel_mask_totals(four_runs, LENGTH(four_runs), fresh(), MAVRIHKEL_TOTALS - 1), MAVRIHKEL_SHORT_BUFFER, NULL, 0);
    expect("room for none", mavrihkel_mask_runs(four_runs, LENGTH(four_runs), fresh_list(), LENGTH(list), fresh(), 0), MAVRIHKEL_SHORT_BUFFER, NULL, 0);
    expect_list(list_is(0, before));
}

/* ---- all calls */

int main(void)
{
    const int64_t square_totals[] = {2, 3, 3, 4, 6, 4};
    const int64_t square_mapped[] = {2, 12, 3, 50, 26, 4};
    const int64_t large[] = {0, 0, 0, INT64_C(98304000000000000), 0, INT64_C(98304000000000000)};
    const int64_t rectangle_centre[] = {5, 4};
    const int64_t square_centre[] = {1, 1};
    const struct mavrihkel_run sound[] = {{3, 2, 3}, {3, 5, 1}, {4, 0, 2}};
    const struct mavrihkel_run l_shape[] = {{0, 0, 3}, {1, 0, 1}};
    const struct mavrihkel_run outer_columns[] = {{0, 0, 1}, {0, 1023, 1}, {1, 512, 512}, {1023, 0, 1024}};
    const struct mavrihkel_run overlapping[] = {{3, 2, 3}, {3, 4, 1}};
    const struct mavrihkel_run without_cells[] = {{3, 2, 3}, {3, 4, 1}, {5, 0, 0}};
    /* The first run is sound, the next two break 7, the last two break 6. */
    const struct mavrihkel_run five_runs[] = {{5, 0, 3}, {5, 2, 1}, {4, 0, 1}, {1024, 0, 1}, {6, 0, 0}};
    static struct mavrihkel_run many[4097];
    const int64_t one_run_totals[] = {6, 63, 63, 468, 882, 444, 0}, one_run_centre[] = {4, 4};
    const int64_t sound_totals[] = {12, 108, 138, 864, 1560, 1080, 0}, sound_centre[] = {3, 4};
    const int64_t l_shape_totals[] = {8, 30, 18, 112, 72, 40, 0}, l_shape_centre[] = {1, 1};
    const int64_t outer_totals[] = {3076, 5511168, 6292998, INT64_C(8065634312), INT64_C(12892778496), INT64_C(12872337416), 0}, outer_centre[] = {597, 682};
    const int64_t index_1[] = {0, 0, 0, 0, 0, 0, 1};
    const int64_t index_2[] = {0, 0, 0, 0, 0, 0, 2};
    const int64_t index_3[] = {0, 0, 0, 0, 0, 0, 3};
    const int64_t zeros[MAVRIHKEL_REGION] = {0};

    expect("rectangle", mavrihkel_outline_totals(rectangle, LENGTH(rectangle), fresh(), ROOM), 0, rectangle_totals, MAVRIHKEL_TOTALS);
    expect("its centre", mavrihkel_outline_centroid(TOTALS(rectangle_totals), fresh(), ROOM), 0, rectangle_centre, MAVRIHKEL_CENTRE);
    expect("unit square", mavrihkel_outline_totals(square, LENGTH(square), fresh(), ROOM), 0, square_totals, MAVRIHKEL_TOTALS);
    expect("its centre", mavrihkel_outline_centroid(TOTALS(square_totals), fresh(), ROOM), 0, square_centre, MAVRIHKEL_CENTRE);
    expect("u = x + y + 1, v = y", mavrihkel_map_totals(1, 1, 0, 1, 1, 0, TOTALS(square_totals), fresh(), ROOM), 0, square_mapped, MAVRIHKEL_TOTALS);

    expect("coordinate 2,001", mavrihkel_outline_totals(far_off, LENGTH(far_off), fresh(), ROOM), 1, zeros, MAVRIHKEL_TOTALS);
    expect("odd length", mavrihkel_outline_totals(square, LENGTH(square) - 1, fresh(), ROOM), 2, zeros, MAVRIHKEL_TOTALS);
    expect("coefficient 3", mavrihkel_map_totals(1, 1, 0, 3, 1, 0, TOTALS(square_totals), fresh(), ROOM), 3, zeros, MAVRIHKEL_TOTALS);
    expect("totals out of bounds", mavrihkel_map_totals(1, 1, 0, 1, 1, 0, 2, 3, 3, 4, 6, INT64_MIN, fresh(), ROOM), 4, zeros, MAVRIHKEL_TOTALS);
    expect("mapped total too large", mavrihkel_map_totals(2, 2, -2, 2, 0, 0, TOTALS(large), fresh(), ROOM), 5, zeros, MAVRIHKEL_TOTALS);
    expect("centre of too much", mavrihkel_outline_centroid(2, 3, 3, 4, 6, INT64_MAX, fresh(), ROOM), 11, zeros, MAVRIHKEL_CENTRE);
    expect("no area", mavrihkel_outline_centroid(TOTALS(large), fresh(), ROOM), 27, zeros, MAVRIHKEL_CENTRE);

    expect_region("run", sound, 1, one_run_totals, one_run_centre);
    expect_region("three runs", sound, LENGTH(sound), sound_totals, sound_centre);
    expect_region("L", l_shape, LENGTH(l_shape), l_shape_totals, l_shape_centre);
    expect_region("outer columns", outer_columns, LENGTH(outer_columns), outer_totals, outer_centre);
    expect_region("no runs", sound, 0, zeros, zeros);
    expect("run without cells", mavrihkel_region_totals(without_cells, LENGTH(without_cells), fresh(), ROOM), 6, index_2, MAVRIHKEL_REGION);
    expect("overlapping runs", mavrihkel_region_totals(overlapping, LENGTH(overlapping), fresh(), ROOM), 7, index_1, MAVRIHKEL_REGION);
    expect("four of five runs wrong", mavrihkel_region_totals(five_runs, LENGTH(five_runs), fresh(), ROOM), 6, index_3, MAVRIHKEL_REGION);
    expect("without the last two", mavrihkel_region_totals(five_runs, LENGTH(five_runs) - 2, fresh(), ROOM), 7, index_1, MAVRIHKEL_REGION);
    expect("4,097 runs", mavrihkel_region_totals(many, LENGTH(many), fresh(), ROOM), 8, zeros, MAVRIHKEL_REGION);

    expect("room for five", mavrihkel_outline_totals(square, LENGTH(square), fresh(), MAVRIHKEL_TOTALS - 1), MAVRIHKEL_SHORT_BUFFER, NULL, 0);
    expect("room for five", mavrihkel_map_totals(1, 1, 0, 1, 1, 0, TOTALS(square_totals), fresh(), MAVRIHKEL_TOTALS - 1), MAVRIHKEL_SHORT_BUFFER, NULL, 0);
    expect("room for one", mavrihkel_outline_centroid(TOTALS(square_totals), fresh(), MAVRIHKEL_CENTRE - 1), MAVRIHKEL_SHORT_BUFFER, NULL, 0);
    expect("room for six", mavrihkel_region_totals(sound, 1, fresh(), MAVRIHKEL_REGION - 1), MAVRIHKEL_SHORT_BUFFER, NULL, 0);
    check_walks();
    check_fixes();
    check_masks();
    check_third_moments();
    return wrong;
}
