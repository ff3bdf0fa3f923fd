/*
 * The calls on masks, for second/compare_masks.py: reads cases from standard input to its end and prints two lines for each.
 *
 * A case is, without anything between them: two 64-bit numbers, the lengths of the words and of the list; the words and one word more; the records of the list and one record more. Neither of
 * these two is the calls' to read or to write. The lines are the number and the six totals; the number, how many runs were written, and every record afterwards, that behind the list's end too.
 * Ends with 1 if the input ends before the lists of a case do.
 */
#include <inttypes.h>
#include <stdio.h>
#include <stdlib.h>

#include "cases.h"
#include "mavrihkel.h"

/* The totals of a mask as a line. */
static void print_totals(const uint64_t *words, size_t length)
{
    int64_t out[MAVRIHKEL_TOTALS] = {0};
    print_answer(mavrihkel_mask_totals(words, length, out, MAVRIHKEL_TOTALS), out, MAVRIHKEL_TOTALS);
}

/* The runs of a mask and the list afterwards as a line. */
static void print_runs(const uint64_t *words, size_t length, struct mavrihkel_run *runs, size_t runs_length)
{
    int64_t count = 0;
    uint32_t number = mavrihkel_mask_runs(words, length, runs, runs_length, &count, MAVRIHKEL_WRITTEN);
    printf("%" PRIu32 " %" PRId64, number, count);
    for (size_t k = 0; k <= runs_length; k++) printf(" %" PRIu32 " %" PRIu32 " %" PRIu32, runs[k].row, runs[k].first, runs[k].length);
    putchar('\n');
}

int main(void)
{
    uint64_t lengths[2];
    while (fread(lengths, sizeof lengths[0], 2, stdin) == 2) {
        uint64_t *words = read_entries(sizeof *words, lengths[0]);
        struct mavrihkel_run *runs = read_entries(sizeof *runs, lengths[1]);
        print_totals(words, lengths[0]);
        print_runs(words, lengths[0], runs, lengths[1]);
        free(words);
        free(runs);
    }
    return 0;
}
