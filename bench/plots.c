/* The text program of documents 01 and 02 in C: the same input, output and limits, with no proof. A read or a write that fails ends it without an S line. */
#include <stdint.h>
#include <string.h>
#include <unistd.h>

/* PAD newlines stand behind the bytes that were read: no form is longer, so each can be read without a test for their end at every byte. */
enum { CHUNK = 65536, PAD = 16, LINE_ROOM = 192, FORM_SIZE = 32 };
enum { MOST_LINES = 1000000, MOST_BYTES = 33000000, MOST_POINTS = 1024, MOST_OUTLINES = 64, COORDINATE_LIMIT = 2000 };
static const int64_t SHEET_LIMIT = 1000000000000000000;

/* Each call tests 28 first, as document 01 has it. No walk of this program can meet it: -DTEST_28=0 leaves the test out. */
#ifndef TEST_28
#define TEST_28 1
#endif

struct totals { int64_t a2, x6, y6, xx12, xy24, yy12; };
enum kind { ISLAND, HOLE };
struct walk { int is_open; enum kind kind; uint32_t count; int32_t first_x, first_y, last_x, last_y; struct totals totals; };
struct sheet { uint32_t count; struct totals totals; };

static char in[CHUNK + PAD], out[CHUNK];

#include "output.h"

/* ---- walk and sheet: each gives 0 or the number of the refusal */

static inline void add_edge(struct totals *t, int64_t x, int64_t y, int64_t p, int64_t q) {
    int64_t c = x * q - p * y;
    t->a2 += c;
    t->x6 += (x + p) * c;
    t->y6 += (y + q) * c;
    t->xx12 += (x * x + x * p + p * p) * c;
    t->xy24 += (2 * x * y + x * q + p * y + 2 * p * q) * c;
    t->yy12 += (y * y + y * q + q * q) * c;
}

static int outside(int32_t v) { return v < -COORDINATE_LIMIT || v > COORDINATE_LIMIT; }

static int exceeds(int64_t v, int64_t bound) { return v < -bound || v > bound; }

static int impossible_walk(const struct walk *w) {
    if (!TEST_28 || !w->is_open) return 0;
    if (w->count > MOST_POINTS) return 1;
    if (w->count > 0 && (outside(w->first_x) || outside(w->first_y) || outside(w->last_x) || outside(w->last_y))) return 1;
    const struct totals *t = &w->totals;
    int64_t n = w->count;
    return exceeds(t->a2, n * 8000000) || exceeds(t->x6, n * 32000000000) || exceeds(t->y6, n * 32000000000) || exceeds(t->xx12, n * 96000000000000) ||
           exceeds(t->xy24, n * 192000000000000) || exceeds(t->yy12, n * 96000000000000);
}

static int beyond_sheet(const struct totals *t) {
    return exceeds(t->a2, SHEET_LIMIT) || exceeds(t->x6, SHEET_LIMIT) || exceeds(t->y6, SHEET_LIMIT) || exceeds(t->xx12, SHEET_LIMIT) ||
           exceeds(t->xy24, SHEET_LIMIT) || exceeds(t->yy12, SHEET_LIMIT);
}

static int impossible_sheet(const struct sheet *s) { return TEST_28 && (s->count > MOST_OUTLINES || beyond_sheet(&s->totals)); }

static uint32_t begin(struct walk *w, enum kind kind) {
    if (impossible_walk(w)) return 28;
    if (w->is_open) return 22;
    *w = (struct walk){.is_open = 1, .kind = kind};
    return 0;
}

static uint32_t point(struct walk *w, int32_t x, int32_t y) {
    if (impossible_walk(w)) return 28;
    if (!w->is_open) return 21;
    if (outside(x) || outside(y)) return 1;
    if (w->count >= MOST_POINTS) return 23;
    if (w->count == 0) {
        w->first_x = x;
        w->first_y = y;
    } else {
        add_edge(&w->totals, w->last_x, w->last_y, x, y);
    }
    w->last_x = x;
    w->last_y = y;
    w->count++;
    return 0;
}

static uint32_t abandon(struct walk *w) {
    if (impossible_walk(w)) return 28;
    if (!w->is_open) return 21;
    *w = (struct walk){0};
    return 0;
}

/* So that A2 is above 0 for an island and below 0 for a hole. */
static void turn(struct totals *t, enum kind kind) {
    if ((t->a2 < 0) == (kind == HOLE)) return;
    *t = (struct totals){-t->a2, -t->x6, -t->y6, -t->xx12, -t->xy24, -t->yy12};
}

static uint32_t end(struct walk *w, struct sheet *s, struct totals *t) {
    if (impossible_walk(w) || impossible_sheet(s)) return 28;
    if (!w->is_open) return 21;
    if (w->count < 3) return 24;
    *t = w->totals;
    add_edge(t, w->last_x, w->last_y, w->first_x, w->first_y);
    if (t->a2 == 0) return 32;
    if (s->count >= MOST_OUTLINES) return 25;
    turn(t, w->kind);
    struct totals sum = s->totals;
    sum.a2 += t->a2;
    sum.x6 += t->x6;
    sum.y6 += t->y6;
    sum.xx12 += t->xx12;
    sum.xy24 += t->xy24;
    sum.yy12 += t->yy12;
    if (beyond_sheet(&sum)) return 26;
    s->totals = sum;
    s->count++;
    *w = (struct walk){0};
    return 0;
}

/* ---- the forms of a line */

enum form { OTHER, BEGIN, BEGIN_HOLE, END, ABANDON, POINT };

/* The place past a number, or NULL. Signs and sizes of numbers cannot be foreseen, so what depends on them is reckoned without branches. */
static inline const char *read_number(const char *p, int32_t *v) {
    int minus = *p == '-';
    p += minus;
    uint32_t a = (uint32_t)p[0] - '0', b = (uint32_t)p[1] - '0', c = (uint32_t)p[2] - '0', d = (uint32_t)p[3] - '0';
    if (a > 9) return NULL;
    if (b > 9) {
        if (a == 0 && minus) return NULL;
        *v = minus ? -(int32_t)a : (int32_t)a;
        return p + 1;
    }
    if (a == 0) return NULL;
    uint32_t third = c <= 9, fourth = third & (d <= 9);
    uint32_t n = 10 * a + b;
    n += third * (9 * n + c);
    n += fourth * (9 * n + d);
    *v = ((int32_t)n ^ -minus) + minus;
    return p + 2 + third + fourth;
}

/* The form of the line at p and, unless it is OTHER, the place of its newline. */
static inline enum form read_form(const char *p, int32_t *x, int32_t *y, const char **newline) {
    enum form f;
    switch (*p++) {
    case 'P':
        if (*p != '\t' || !(p = read_number(p + 1, x))) return OTHER;
        if (*p != '\t' || !(p = read_number(p + 1, y))) return OTHER;
        f = POINT;
        break;
    case 'B':
        f = BEGIN;
        if (p[0] == '\t' && p[1] == 'H') {
            f = BEGIN_HOLE;
            p += 2;
        }
        break;
    case 'E': f = END; break;
    case 'A': f = ABANDON; break;
    default: return OTHER;
    }
    *newline = p;
    return *p == '\n' ? f : OTHER;
}

/* ---- the program */

static int write_all(const char *p, const char *stop) {
    while (p < stop) {
        ssize_t n = write(1, p, stop - p);
        if (n < 0) return 0;
        p += n;
    }
    return 1;
}

/* Behind the n bytes that were left from the last chunk; how many there are now, or -1. */
static ssize_t read_more(size_t n) {
    ssize_t got = read(0, in + n, CHUNK - n);
    if (got < 0) return -1;
    memset(in + n + got, '\n', PAD);
    return n + got;
}

int main(void) {
    struct walk w = {0};
    struct sheet s = {0};
    uint32_t lines = 0;
    uint64_t bytes = 0; /* of whole lines */
    uint64_t held = 0;  /* of a line that is too long for any form, and gone */
    const char *p = in, *stop = in;
    char *put = out;
    int last = 0, over = 0;
    while (!over) {
        size_t left = stop - p;
        memmove(in, p, left);
        ssize_t have = read_more(left);
        if (have < 0) return 1;
        last = (size_t)have == left;
        p = in;
        stop = in + have;
        over = last;
        while (p < stop || (last && held > 0)) {
            if (put > out + CHUNK - LINE_ROOM) {
                if (!write_all(out, put)) return 1;
                put = out;
            }
            int32_t x = 0, y = 0;
            const char *newline;
            enum form f = held > 0 ? OTHER : read_form(p, &x, &y, &newline);
            if (f == OTHER) {
                newline = memchr(p, '\n', stop - p);
                if (!newline) newline = stop;
            }
            size_t size = newline - p + (newline < stop);
            if (lines >= MOST_LINES || bytes + held + size > MOST_BYTES) {
                put = put_refusal(put, lines + 1, 10);
                over = 1;
                break;
            }
            if (newline == stop && !last) {
                if (held + size > FORM_SIZE) {
                    held += size;
                    p = stop;
                }
                break;
            }
            lines++;
            bytes += held + size;
            held = 0;
            p += size;
            uint32_t number = 9;
            struct totals t;
            switch (f) {
            case POINT: number = point(&w, x, y); break;
            case BEGIN:
            case BEGIN_HOLE: number = begin(&w, f == BEGIN_HOLE ? HOLE : ISLAND); break;
            case ABANDON: number = abandon(&w); break;
            case END: {
                uint32_t count = w.count;
                number = end(&w, &s, &t);
                if (number == 0) put = put_outline(put, s.count, count, &t);
                break;
            }
            case OTHER: break;
            }
            if (number != 0) put = put_refusal(put, lines, number);
        }
    }
    if (put > out + CHUNK - LINE_ROOM) {
        if (!write_all(out, put)) return 1;
        put = out;
    }
    put = put_sheet(put, &s);
    return !write_all(out, put);
}
