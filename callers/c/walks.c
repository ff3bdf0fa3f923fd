/*
 * The call on two walks, for second/compare_walks.py: reads cases from standard input to its end and prints a line for each.
 *
 * A case is, without anything between them: two 64-bit numbers, the lengths of the two lists; the numbers of the first list and one number more; those of the second and one number more. Neither
 * of these two is the call's to read. The line is the number and the ten values, each of which is -1 before the call.
 * Ends with 1 if the input ends before the lists of a case do.
 */
#include <stdint.h>
#include <stdio.h>
#include <stdlib.h>

#include "cases.h"
#include "mavrihkel.h"

/* The comparison of two lists as a line. */
static void print_comparison(const int32_t *first, size_t first_length, const int32_t *second, size_t second_length)
{
    int64_t out[MAVRIHKEL_COMPARISON];
    for (size_t k = 0; k < MAVRIHKEL_COMPARISON; k++) out[k] = -1;
    print_answer(mavrihkel_compare_walks(first, first_length, second, second_length, out, MAVRIHKEL_COMPARISON), out, MAVRIHKEL_COMPARISON);
}

int main(void)
{
    uint64_t lengths[2];
    while (fread(lengths, sizeof lengths[0], 2, stdin) == 2) {
        int32_t *first = read_entries(sizeof *first, lengths[0]);
        int32_t *second = read_entries(sizeof *second, lengths[1]);
        print_comparison(first, lengths[0], second, lengths[1]);
        free(first);
        free(second);
    }
    return 0;
}
