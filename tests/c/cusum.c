/* The CUSUM chart: its records with their sides, its signal points and run length, and their refusals in order. */
#include "checks.h"

#include <math.h>

struct chart {
    double target, sigma, k, h;
};

/* Target 0 and sigma 1, with the usual k and h. */
static const struct chart usual = {0, 1, 0.5, 5};

/* Settings of which some are out of range, and the refusal of the first of these. */
static const struct {
    struct chart settings;
    uint32_t number;
} wrong[] = {
    {{NAN, 1, 0.5, 5}, 15}, {{INFINITY, 1, 0.5, 5}, 15}, {{NAN, NAN, NAN, NAN}, 15}, {{-INFINITY, 0, 0.5, 5}, 15},
    {{NAN, 1, -1, 5}, 15}, {{NAN, 1, 0.5, 0}, 15},
    {{0, 0, 0.5, 5}, 16}, {{0, -0.0, 0.5, 5}, 16}, {{0, INFINITY, 0.5, 5}, 16}, {{0, -1, -1, -1}, 16},
    {{0, NAN, 0.5, 0}, 16},
    {{0, 1, -0.5, 5}, 17}, {{0, 1, NAN, 5}, 17}, {{0, 1, INFINITY, 0}, 17},
    {{0, 1, 0.5, 0}, 18}, {{0, 1, 0.5, -0.0}, 18}, {{0, 1, 0.5, INFINITY}, 18}, {{0, 1, -0.0, 0}, 18},
};
enum { WRONG = sizeof wrong / sizeof *wrong };

static const double many[TOO_MANY] = {0};
enum { ARRAYS = 4, ENOUGH = TOO_MANY };

/* What a call is lent, and what it says. */
static double upper[ENOUGH], lower[ENOUGH];
static uint8_t sides[ENOUGH];
static size_t indices[ENOUGH], count;

/* Asks for records in arrays of `room` elements, of which the one with the number `short_one` has one less. */
static uint32_t ask(struct chart c, const double *data, size_t n, size_t room, int short_one) {
    lend_floats(upper, ENOUGH);
    lend_floats(lower, ENOUGH);
    lend_bytes(sides, ENOUGH);
    lend_wholes(indices, ENOUGH);
    count = LENT;
    return overbrindle_cusum_analyze(c.target, c.sigma, c.k, c.h, data, n, upper, room - (short_one == 0),
        lower, room - (short_one == 1), sides, room - (short_one == 2), indices, room - (short_one == 3), &count);
}

/* That the arrays are as they were from the index `from` on. */
static void left(const char *file, int line, size_t from) {
    floats_are(file, line, upper, from, ENOUGH, LENT);
    floats_are(file, line, lower, from, ENOUGH, LENT);
    bytes_are(file, line, sides, from, ENOUGH, LENT);
    wholes_are(file, line, indices, from, ENOUGH, LENT);
}

static void records(const char *file, int line, const double *data, size_t n, const double *uppers,
                    const double *lowers, const uint8_t *sided) {
    whole(file, line, ask(usual, data, n, n + 2, ARRAYS), 0);
    whole(file, line, count, n);
    for (size_t i = 0; i < n; i++) {
        same(file, line, upper[i], uppers[i]);
        same(file, line, lower[i], lowers[i]);
        whole(file, line, sides[i], sided[i]);
        whole(file, line, indices[i], i);
    }
    left(file, line, n);
}

static void refused(const char *file, int line, struct chart c, size_t n, size_t room, int short_one, uint32_t number) {
    whole(file, line, ask(c, many, n, room, short_one), number);
    whole(file, line, count, 0);
    left(file, line, 0);
}

/* The sides by shorter names. */
enum { NONE = OVERBRINDLE_NONE, ABOVE = OVERBRINDLE_ABOVE, BELOW = OVERBRINDLE_BELOW, BOTH = OVERBRINDLE_BOTH };

static void test_records(void) {
    const double threes[] = {3, 3, 3}, gap[] = {8, NAN}, turned[] = {-8, 8}, zeros[] = {0, 0, 0};
    const double rising[] = {2.5, 5, 7.5}, held[] = {7.5, 7.5}, first[] = {7.5, 0}, second[] = {0, 7.5};
    const uint8_t last[] = {NONE, NONE, ABOVE}, front[] = {ABOVE, NONE}, below_above[] = {BELOW, ABOVE};
    records(HERE, threes, 3, rising, zeros, last);
    records(HERE, gap, 2, held, zeros, front);
    records(HERE, turned, 2, second, first, below_above);
    records(HERE, threes, 0, zeros, zeros, last);
}

/* Both sums above h, and a gap behind them; and a sum that is h itself while the other one is above it. */
static void test_sides(void) {
    const double both[] = {20, -10, NAN, -10}, uppers[] = {19.5, 9, 9, 0}, lowers[] = {0, 9.5, 9.5, 19};
    const double down[] = {16, -10}, up[] = {-16, 10}, falling[] = {15.5, 5}, rising[] = {0, 9.5};
    const uint8_t all[] = {ABOVE, BOTH, NONE, BELOW}, above_below[] = {ABOVE, BELOW}, below_above[] = {BELOW, ABOVE};
    records(HERE, both, 4, uppers, lowers, all);
    records(HERE, down, 2, falling, rising, above_below);
    records(HERE, up, 2, rising, falling, below_above);

    /* A level of 3 is heard at its third reading, above or both, however large the lower sum is. */
    const double shift[] = {-100, 3, 3, 3}, risen[] = {0, 2.5, 5, 7.5}, sinking[] = {99.5, 96, 92.5, 89};
    const uint8_t heard[] = {BELOW, BELOW, BELOW, BOTH};
    records(HERE, shift, 4, risen, sinking, heard);

    /* The numbers by which other languages know the sides. */
    whole(HERE, NONE, 0);
    whole(HERE, ABOVE, 1);
    whole(HERE, BELOW, 2);
    whole(HERE, BOTH, 3);
}

static void test_refused_records(void) {
    for (size_t i = 0; i < WRONG; i++) {
        refused(HERE, wrong[i].settings, 0, 0, ARRAYS, wrong[i].number);
        refused(HERE, wrong[i].settings, 4, 4, ARRAYS, wrong[i].number);
        refused(HERE, wrong[i].settings, TOO_MANY, 0, ARRAYS, wrong[i].number);
    }
    refused(HERE, usual, TOO_MANY, 0, ARRAYS, 6);
    refused(HERE, usual, TOO_MANY, TOO_MANY, ARRAYS, 6);
    for (int array = 0; array < ARRAYS; array++) refused(HERE, usual, 4, 4, array, 7);
    /* The most that is taken, which is told apart from too much by the room that it asks. */
    refused(HERE, usual, TOO_MANY - 1, TOO_MANY - 2, ARRAYS, 7);
}

/* The call for signal points, in `room` elements of `indices`. */
static uint32_t ask_points(struct chart c, const double *data, size_t n, size_t room) {
    lend_wholes(indices, ENOUGH);
    count = LENT;
    return overbrindle_cusum_signal_points(c.target, c.sigma, c.k, c.h, data, n, indices, room, &count);
}

static void no_points(const char *file, int line, struct chart c, size_t n, size_t room, uint32_t number) {
    whole(file, line, ask_points(c, many, n, room), number);
    whole(file, line, count, 0);
    wholes_are(file, line, indices, 0, ENOUGH, LENT);
}

static void test_points(void) {
    const double gap[] = {8, NAN, 8};
    whole(HERE, ask_points(usual, gap, 3, 4), 0);
    whole(HERE, count, 2);
    whole(HERE, indices[0], 0);
    whole(HERE, indices[1], 2);
    wholes_are(HERE, indices, 2, ENOUGH, LENT);
    no_points(HERE, usual, TOO_MANY - 1, TOO_MANY - 1, 0);

    for (size_t i = 0; i < WRONG; i++) {
        no_points(HERE, wrong[i].settings, 0, 0, wrong[i].number);
        no_points(HERE, wrong[i].settings, 4, 4, wrong[i].number);
        no_points(HERE, wrong[i].settings, TOO_MANY, 0, wrong[i].number);
    }
    no_points(HERE, usual, TOO_MANY, 0, 6);
    no_points(HERE, usual, 4, 3, 7);
}

/* That `level` by `sum` is answered with `number`, and first heard at `heard`. */
static void hears(const char *file, int line, struct chart c, double level, uint32_t sum, uint32_t number,
                  size_t heard) {
    size_t reading = LENT;
    whole(file, line, overbrindle_cusum_run_length(c.target, c.sigma, c.k, c.h, level, sum, &reading), number);
    whole(file, line, reading, heard);
}

static void test_run_lengths(void) {
    hears(HERE, usual, 3, OVERBRINDLE_UPPER, 0, 3);
    hears(HERE, usual, -3, OVERBRINDLE_LOWER, 0, 3);
    hears(HERE, usual, 3, OVERBRINDLE_LOWER, 0, 0);
    hears(HERE, usual, 0, OVERBRINDLE_UPPER, 0, 0);

    hears(HERE, usual, 3, 2, 10, 0);
    for (size_t i = 0; i < WRONG; i++) {
        hears(HERE, wrong[i].settings, NAN, UINT32_MAX, 10, 0);
        hears(HERE, wrong[i].settings, 3, OVERBRINDLE_UPPER, wrong[i].number, 0);
        hears(HERE, wrong[i].settings, NAN, OVERBRINDLE_LOWER, wrong[i].number, 0);
    }
    hears(HERE, usual, NAN, OVERBRINDLE_UPPER, 8, 0);
    hears(HERE, usual, -INFINITY, OVERBRINDLE_LOWER, 8, 0);
}

void test_cusum(void) {
    test_records();
    test_sides();
    test_refused_records();
    test_points();
    test_run_lengths();
}
