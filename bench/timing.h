/*
 * Shared by masks.c, runs.c and walks.c: calls that do the same work on the same input, known by their numbers, the library's being 0. Their answers are compared, and each is timed.
 */
#include <stdint.h>
#include <stdio.h>
#include <stdlib.h>
#include <string.h>
#include <time.h>

enum { CALLS = 3, ROUNDS = 40 };

/* Makes the call with this number, and gives what it answers. */
typedef uint32_t numbered_call(int k);

static uint64_t random_word(void)
{
    static uint64_t state = 14;
    uint64_t z = state += UINT64_C(0x9e3779b97f4a7c15);
    z = (z ^ (z >> 30)) * UINT64_C(0xbf58476d1ce4e5b9);
    z = (z ^ (z >> 27)) * UINT64_C(0x94d049bb133111eb);
    return z ^ (z >> 31);
}

/* Ends the run if a call does not answer as the library does, with this number. What the calls write lies at `written`. */
static void agree(numbered_call *call, uint32_t number, void *written, size_t size)
{
    void *wanted = malloc(size);
    for (int k = 0; k < CALLS; k++) {
        memset(written, 255, size);
        int right = call(k) == number;
        if (k == 0) memcpy(wanted, written, size);
        if (!right || memcmp(wanted, written, size) != 0) {
            fprintf(stderr, "call %d answers otherwise than the library, or not with %u\n", k, number);
            exit(1);
        }
    }
    free(wanted);
}

static double seconds_of(numbered_call *call, int k, int times)
{
    struct timespec start, end;
    clock_gettime(CLOCK_MONOTONIC, &start);
    for (int n = 0; n < times; n++) {
        call(k);
        __asm__ volatile("" ::: "memory");
    }
    clock_gettime(CLOCK_MONOTONIC, &end);
    return (double)(end.tv_sec - start.tv_sec) + 1e-9 * (double)(end.tv_nsec - start.tv_nsec);
}

/* The least time of each call, made so many times, over the rounds in which they take turns. */
static void least_times(numbered_call *call, int times, double *least)
{
    for (int k = 0; k < CALLS; k++) least[k] = 1e9;
    for (int round = 0; round < ROUNDS; round++)
        for (int k = 0; k < CALLS; k++) {
            double seconds = seconds_of(call, k, times);
            if (seconds < least[k]) least[k] = seconds;
        }
}
