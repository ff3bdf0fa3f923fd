/* The lines of the output: each function writes at p and gives the place past what it wrote. Included by plots.c, after its types. */

/* A digit for each division, the plain way. Where most lines are refused, two digits for each took 0.89 to 0.95 of the time, a table of pairs 0.84 to 0.90. */
static char *put_decimal(char *p, uint64_t n) {
    char digits[20];
    int k = 0;
    do {
        digits[k++] = '0' + n % 10;
        n /= 10;
    } while (n != 0);
    while (k > 0) *p++ = digits[--k];
    return p;
}

static char *put_natural(char *p, uint64_t n) {
    *p++ = '\t';
    return put_decimal(p, n);
}

static char *put_field(char *p, int64_t n) {
    *p++ = '\t';
    if (n < 0) {
        *p++ = '-';
        return put_decimal(p, 0 - (uint64_t)n);
    }
    return put_decimal(p, n);
}

static char *put_refusal(char *p, uint32_t line, uint32_t number) {
    *p++ = 'R';
    p = put_natural(p, line);
    p = put_natural(p, number);
    *p++ = '\n';
    return p;
}

/* n / d for d above 0, rounded half up. */
static int64_t nearest(int64_t n, int64_t d) {
    int64_t a = 2 * n + d, b = 2 * d, q = a / b;
    return a % b < 0 ? q - 1 : q;
}

static char *put_totals(char *p, const struct totals *t) {
    p = put_field(p, t->a2);
    p = put_field(p, t->x6);
    p = put_field(p, t->y6);
    p = put_field(p, t->xx12);
    p = put_field(p, t->xy24);
    p = put_field(p, t->yy12);
    if (t->a2 == 0) {
        memcpy(p, "\t-\t-", 4);
        p += 4;
    } else {
        int64_t sign = t->a2 < 0 ? -1 : 1, d = 3 * sign * t->a2;
        p = put_field(p, nearest(sign * t->x6, d));
        p = put_field(p, nearest(sign * t->y6, d));
    }
    *p++ = '\n';
    return p;
}

static char *put_outline(char *p, uint32_t outlines, uint32_t points, const struct totals *t) {
    *p++ = 'O';
    p = put_natural(p, outlines);
    p = put_natural(p, points);
    return put_totals(p, t);
}

static char *put_sheet(char *p, const struct sheet *s) {
    *p++ = 'S';
    p = put_natural(p, s->count);
    return put_totals(p, &s->totals);
}
