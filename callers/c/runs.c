/*
 * The call on runs, for second/compare_runs.py: reads cases from standard input to its end and prints a line for each.
 *
 * A case is, without anything between them: a 64-bit number, the length of the list; its records and one record more, which is not the call's to read. The line is the number and the seven values,
 * each of which is -1 before the call.
 * Ends with 1 if the input ends before the list of a case does.
 */
#include <stdint.h>
#include <stdio.h>
#include <stdlib.h>

#include "cases.h"
#include "mavrihkel.h"

/* The totals of a list of runs, and the index, as a line. */
static void print_region(const struct mavrihkel_run *runs, size_t length)
{
    int64_t out[MAVRIHKEL_REGION];
    for (size_t k = 0; k < MAVRIHKEL_REGION; k++) out[k] = -1;
    print_answer(mavrihkel_region_totals(runs, length, out, MAVRIHKEL_REGION), out, MAVRIHKEL_REGION);
}

int main(void)
{
    uint64_t length;
    while (fread(&length, sizeof length, 1, stdin) == 1) {
        struct mavrihkel_run *runs = read_entries(sizeof *runs, length);
        print_region(runs, length);
        free(runs);
    }
    return 0;
}
