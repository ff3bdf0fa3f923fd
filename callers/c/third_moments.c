/*
 * The call for third moments, for second/compare_third_moments.py: reads cases from standard input to its end and prints a line for each.
 *
 * A case is, without anything between them: two 64-bit numbers, the lengths of the list and of the buffer; the numbers of the list and one number more, which is not the call's to read; the values of
 * the buffer and one value more, which is not the call's to write. The line is the number and every value afterwards, that behind the buffer's end too.
 * Ends with 1 if the input ends before the list or the buffer of a case does.
 */
#include <stdint.h>
#include <stdio.h>
#include <stdlib.h>

#include "cases.h"
#include "mavrihkel.h"

int main(void)
{
    uint64_t lengths[2];
    while (fread(lengths, sizeof lengths[0], 2, stdin) == 2) {
        int32_t *points = read_entries(sizeof *points, lengths[0]);
        int64_t *out = read_entries(sizeof *out, lengths[1]);
        uint32_t number = mavrihkel_third_moments(points, lengths[0], out, lengths[1]);
        print_answer(number, out, lengths[1] + 1);
        free(points);
        free(out);
    }
    return 0;
}
