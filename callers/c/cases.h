/* Cases from standard input, and answers as lines, for masks.c, runs.c, walks.c, fixes.c and third_moments.c. */
#ifndef CASES_H
#define CASES_H

#include <inttypes.h>
#include <stdint.h>
#include <stdio.h>
#include <stdlib.h>

/* As many entries as are wanted, and one more. */
static void *read_entries(size_t size, uint64_t count)
{
    void *entries = malloc((count + 1) * size);
    if (entries == NULL || fread(entries, size, count + 1, stdin) != count + 1) exit(1);
    return entries;
}

/* The number of an answer and its values as a line. */
static void print_answer(uint32_t number, const int64_t *values, size_t count)
{
    printf("%" PRIu32, number);
    for (size_t k = 0; k < count; k++) printf(" %" PRId64, values[k]);
    putchar('\n');
}

#endif
