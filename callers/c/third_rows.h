/* Third moments for check.c: worked plots both ways round and the largest totals; each limit in each place, every length at its limits, and refusals in every order; what each leaves of the buffer. */
#ifndef THIRD_ROWS_H
#define THIRD_ROWS_H

#include <inttypes.h>
#include <stdio.h>

#include "expect.h"
#include "mavrihkel.h"

#define MOST_NUMBERS 2048

/* Four points, how often they are walked round, and the four totals. */
static const struct {
    const char *name;
    size_t rounds;
    int32_t points[8];
    int64_t totals[MAVRIHKEL_THIRD_TOTALS];
} third_rows[] = {
    {"unit square", 1, {0, 0, 1, 0, 1, 1, 0, 1}, {5, 10, 10, 5}},
    {"rectangle", 1, {2, 0, 10, 4, 8, 8, 0, 4}, {168000, 342400, 262400, 76800}},
    {"figure eight", 1, {0, 0, 2, 2, 2, 0, 0, 2}, {-96, -160, -96, 0}},
    {"square west of the peg", 1, {-1, 0, 0, 0, 0, 1, -1, 1}, {-5, 10, -10, 5}},
    {"north-east of the peg", 256, {0, 0, 500, 0, 500, 500, 0, 500}, {INT64_C(40000000000000000), INT64_C(80000000000000000), INT64_C(80000000000000000), INT64_C(40000000000000000)}},
    {"large XXX20", 256, {500, 500, -500, -500, -500, 500, 500, -500}, {INT64_C(128000000000000000), 0, INT64_C(128000000000000000), 0}},
    {"large XXY60", 256, {500, 500, -500, 500, -500, 0, 500, 0}, {0, INT64_C(160000000000000000), 0, INT64_C(80000000000000000)}},
};

/* A list with a buffer that has room for more than the four. */
static void expect_third(const char *what, const int32_t *points, size_t length, uint32_t number, const int64_t *totals)
{
    expect(what, mavrihkel_third_moments(points, length, fresh(), ROOM), number, totals, MAVRIHKEL_THIRD_TOTALS);
}

/* The rows, and the same walked backwards: all four with the other sign. */
static void check_third_rows(void)
{
    static int32_t there[MOST_NUMBERS], back[MOST_NUMBERS];
    for (size_t row = 0; row < LENGTH(third_rows); row++) {
        const size_t length = third_rows[row].rounds * LENGTH(third_rows[row].points);
        int64_t turned[MAVRIHKEL_THIRD_TOTALS];
        for (size_t k = 0; k < length; k++) {
            there[k] = third_rows[row].points[k % LENGTH(third_rows[row].points)];
            back[length - 2 - k / 2 * 2 + k % 2] = there[k];
        }
        for (size_t k = 0; k < MAVRIHKEL_THIRD_TOTALS; k++) turned[k] = -third_rows[row].totals[k];
        expect_third(third_rows[row].name, there, length, 0, third_rows[row].totals);
        expect_third("backwards", back, length, 0, turned);
    }
}

/* The number of a list of sound length, by the value that is farthest out. */
static uint32_t number_of(int32_t value)
{
    if (value < -2000 || value > 2000) return 1;
    return value < -500 || value > 500 ? 35 : 0;
}

/* Triangles with one coordinate or two that are not 0, such that no edge counts: all totals are 0. Whichever comes first, 1 is answered before 35. */
static void check_third_limits(void)
{
    const int32_t values[] = {-500, 500, -501, 501, -2000, 2000, -2001, 2001, INT32_MIN, INT32_MAX};
    const int64_t zeros[MAVRIHKEL_THIRD_TOTALS] = {0};
    for (size_t place = 0; place < 6; place++)
        for (size_t k = 0; k < LENGTH(values); k++) {
            int32_t points[6] = {0};
            points[place] = values[k];
            printf("%" PRId32 " ", values[k]);
            expect_third("alone", points, LENGTH(points), number_of(values[k]), zeros);
        }
    for (size_t place = 0; place < 6; place++)
        for (size_t other = 0; other < 6; other++) {
            int32_t points[6] = {0};
            points[place] = 2001;
            if (other != place) points[other] = -600;
            expect_third("2,001 and -600", points, LENGTH(points), 1, zeros);
        }
}

/* One value throughout, so that all totals are 0: 2 by the length comes before 1 and 35. */
static void check_third_lengths(void)
{
    static int32_t points[MOST_NUMBERS + 2];
    const int32_t values[] = {500, 600, 2001};
    const size_t wrong_lengths[] = {0, 1, 2, 4, 5, 7, MOST_NUMBERS - 1, MOST_NUMBERS + 1, MOST_NUMBERS + 2}, sound_lengths[] = {6, 8, MOST_NUMBERS - 2, MOST_NUMBERS};
    const int64_t zeros[MAVRIHKEL_THIRD_TOTALS] = {0};
    for (size_t k = 0; k < LENGTH(values); k++) {
        for (size_t i = 0; i < LENGTH(points); i++) points[i] = values[k];
        for (size_t i = 0; i < LENGTH(wrong_lengths); i++) expect_third("wrong length", points, wrong_lengths[i], 2, zeros);
        for (size_t i = 0; i < LENGTH(sound_lengths); i++) expect_third("sound length", points, sound_lengths[i], number_of(values[k]), zeros);
    }
}

/* Buffers that are too short, just long enough and longer, for a list that is accepted and for one of each refusal. */
static void check_third_buffers(void)
{
    const struct {
        uint32_t number;
        size_t length;
        int32_t points[6];
        int64_t totals[MAVRIHKEL_THIRD_TOTALS];
    } lists[] = {
        {0, 6, {0, 0, 1, 0, 1, 1}, {4, 6, 4, 1}},
        {35, 6, {0, 0, 600, 0, 0, 1}, {0}},
        {1, 6, {600, 0, 2001, 0, 0, 1}, {0}},
        {2, 5, {600, 0, 2001, 0, 0}, {0}},
    };
    for (size_t k = 0; k < LENGTH(lists); k++)
        for (size_t room = 0; room <= MAVRIHKEL_THIRD_TOTALS + 1; room++) {
            const int has_room = room >= MAVRIHKEL_THIRD_TOTALS;
            printf("room for %zu, ", room);
            expect("third moments", mavrihkel_third_moments(lists[k].points, lists[k].length, fresh(), room), has_room ? lists[k].number : MAVRIHKEL_SHORT_BUFFER,
                   lists[k].totals, has_room ? MAVRIHKEL_THIRD_TOTALS : 0);
        }
}

static void check_third_moments(void)
{
    check_third_rows();
    check_third_limits();
    check_third_lengths();
    check_third_buffers();
}

#endif
