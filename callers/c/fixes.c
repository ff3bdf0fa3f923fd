/*
 * The call on a fix, for second/compare_receiver.py: reads cases from standard input to its end and prints a line for each.
 *
 * A case is, without anything between them: a 64-bit number, the length of the buffer; two floats, east and north; the values of the buffer and one value more, which is not the call's to write. The
 * line is the number and every value afterwards, that behind the buffer's end too.
 * Ends with 1 if the input ends before the floats or the buffer of a case do.
 */
#include <stdint.h>
#include <stdio.h>
#include <stdlib.h>

#include "cases.h"
#include "mavrihkel.h"

int main(void)
{
    uint64_t length;
    while (fread(&length, sizeof length, 1, stdin) == 1) {
        float fix[2];
        if (fread(fix, sizeof fix[0], 2, stdin) != 2) return 1;
        int64_t *out = read_entries(sizeof *out, length);
        uint32_t number = mavrihkel_fix_point(fix[0], fix[1], out, length);
        print_answer(number, out, length + 1);
        free(out);
    }
    return 0;
}
