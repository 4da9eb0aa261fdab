/* The EWMA chart in both editions: its records with their limits and sides, its signal points, and their refusals
 * in order. */
#include "checks.h"

#include <math.h>

struct chart {
    double target, sigma, lambda, l_factor;
};

/* Target 0: one whose statistic is the reading, one that halves, one whose limits are NaN, and one whose limits are
 * infinite from place 1 on. */
static const struct chart last_alone = {0, 1, 1, 3}, halving = {0, 1, 0.5, 4}, no_limits = {0, 1e200, 1e-300, 1e200},
    endless = {0, 1e200, 0.5, 1e200};

/* The editions, and numbers that name none. */
enum { FIRST = OVERBRINDLE_EDITION_1, SECOND = OVERBRINDLE_EDITION_2 };
enum { EDITIONS = 2, NO_EDITIONS = 9 };
static const uint32_t editions[EDITIONS] = {FIRST, SECOND};
static const uint32_t no_editions[NO_EDITIONS] = {0, 3, 4, 255, 256, 257, 258, 0x80000000u, UINT32_MAX};

/* Settings of which some are out of range, and the refusal of the first of these. */
static const struct {
    struct chart settings;
    uint32_t number;
} wrong[] = {
    {{NAN, 1, 1, 3}, 15}, {{INFINITY, 1, 1, 3}, 15}, {{NAN, NAN, NAN, NAN}, 15}, {{-INFINITY, 0, 1, 3}, 15},
    {{NAN, 1, 0, 3}, 15}, {{NAN, 1, 1, 0}, 15},
    {{0, 0, 1, 3}, 16}, {{0, -0.0, 1, 3}, 16}, {{0, INFINITY, 1, 3}, 16}, {{0, -1, 0, 0}, 16}, {{0, NAN, 1, 0}, 16},
    {{0, 1, 0, 3}, 17}, {{0, 1, -0.0, 3}, 17}, {{0, 1, 1.5, 3}, 17}, {{0, 1, NAN, 3}, 17}, {{0, 1, 0, 0}, 17},
    {{0, 1, 1, 0}, 18}, {{0, 1, 1, -0.0}, 18}, {{0, 1, 1, INFINITY}, 18},
};
enum { WRONG = sizeof wrong / sizeof *wrong };

static const double many[TOO_MANY] = {0};
enum { ARRAYS = 5, ENOUGH = TOO_MANY };

/* What a call is lent, and what it says. */
static double statistic[ENOUGH], upper[ENOUGH], lower[ENOUGH];
static uint8_t sides[ENOUGH];
static size_t indices[ENOUGH], count;

/* Asks for records in arrays of `room` elements, of which the one with the number `short_one` has one less. */
static uint32_t ask(struct chart c, uint32_t edition, const double *data, size_t n, size_t room, int short_one) {
    lend_floats(statistic, ENOUGH);
    lend_floats(upper, ENOUGH);
    lend_floats(lower, ENOUGH);
    lend_bytes(sides, ENOUGH);
    lend_wholes(indices, ENOUGH);
    count = LENT;
    return overbrindle_ewma_analyze(c.target, c.sigma, c.lambda, c.l_factor, edition, data, n,
        statistic, room - (short_one == 0), upper, room - (short_one == 1), lower, room - (short_one == 2),
        sides, room - (short_one == 3), indices, room - (short_one == 4), &count);
}

/* That the arrays are as they were from the index `from` on. */
static void left(const char *file, int line, size_t from) {
    floats_are(file, line, statistic, from, ENOUGH, LENT);
    floats_are(file, line, upper, from, ENOUGH, LENT);
    floats_are(file, line, lower, from, ENOUGH, LENT);
    bytes_are(file, line, sides, from, ENOUGH, LENT);
    wholes_are(file, line, indices, from, ENOUGH, LENT);
}

/* Records whose limits are the target and so far above and below it as `widths` says of each. */
static void records(const char *file, int line, struct chart c, uint32_t edition, const double *data, size_t n,
                    const double *statistics, const double *widths, const uint8_t *sided) {
    whole(file, line, ask(c, edition, data, n, n + 2, ARRAYS), 0);
    whole(file, line, count, n);
    for (size_t i = 0; i < n; i++) {
        same(file, line, statistic[i], statistics[i]);
        same(file, line, upper[i], c.target + widths[i]);
        same(file, line, lower[i], c.target - widths[i]);
        whole(file, line, sides[i], sided[i]);
        whole(file, line, indices[i], i);
    }
    left(file, line, n);
}

/* The same by both editions. */
static void records_of_both(const char *file, int line, struct chart c, const double *data, size_t n,
                            const double *statistics, const double *widths, const uint8_t *sided) {
    for (int i = 0; i < EDITIONS; i++) records(file, line, c, editions[i], data, n, statistics, widths, sided);
}

static void refused(const char *file, int line, struct chart c, uint32_t edition, size_t n, size_t room, int short_one,
                    uint32_t number) {
    whole(file, line, ask(c, edition, many, n, room, short_one), number);
    whole(file, line, count, 0);
    left(file, line, 0);
}

/* The sides by shorter names. */
enum { NONE = OVERBRINDLE_NONE, ABOVE = OVERBRINDLE_ABOVE, BELOW = OVERBRINDLE_BELOW };

static void test_records(void) {
    const double at_the_limits[] = {3, -3}, outside[] = {3.5, -3.5}, one[] = {1}, half[] = {0.5}, tiny[] = {1e-300};
    const double high[] = {4, NAN}, low[] = {-4, INFINITY}, held_high[] = {4, 4}, held_low[] = {-4, -4};
    const double threes[] = {3, 3}, nans[] = {NAN}, two[] = {2};
    const uint8_t none[] = {NONE, NONE}, each[] = {ABOVE, BELOW}, above[] = {ABOVE, NONE}, below[] = {BELOW, NONE};
    records_of_both(HERE, last_alone, at_the_limits, 2, at_the_limits, threes, none);
    records_of_both(HERE, last_alone, outside, 2, outside, threes, each);
    records_of_both(HERE, last_alone, high, 2, held_high, threes, above);
    records_of_both(HERE, last_alone, low, 2, held_low, threes, below);
    records_of_both(HERE, no_limits, one, 1, tiny, nans, none);
    records_of_both(HERE, halving, one, 1, half, two, none);
    records_of_both(HERE, halving, one, 0, half, two, none);
}

/* The widths of a chart that halves, by the place, from 0. */
static const double width[] = {0, 2, 2.23606797749979, 2.29128784747792, 2.3048861143232218, 2.3082731640774234,
    2.309119150238896};

/* Gaps first, in the middle, several in a row and last. The fifth reading signals in edition 2 alone. */
static void test_gaps(void) {
    const double gaps[] = {NAN, 0, INFINITY, -INFINITY, 4.5, NAN}, statistics[] = {0, 0, 0, 0, 2.25, 2.25};
    const double widened[] = {width[1], width[2], width[3], width[4], width[5], width[6]};
    const double counted[] = {width[0], width[1], width[1], width[1], width[2], width[2]};
    const uint8_t none[] = {NONE, NONE, NONE, NONE, NONE, NONE}, last[] = {NONE, NONE, NONE, NONE, ABOVE, NONE};
    records(HERE, halving, FIRST, gaps, 6, statistics, widened, none);
    records(HERE, halving, SECOND, gaps, 6, statistics, counted, last);

    /* Without a gap both editions give the same. */
    const double readings[] = {0, 0, 0, -5}, sinking[] = {0, 0, 0, -2.5};
    const double all[] = {width[1], width[2], width[3], width[4]};
    const uint8_t below[] = {NONE, NONE, NONE, BELOW};
    records_of_both(HERE, halving, readings, 4, sinking, all, below);
}

/* Before the first finite reading the limits are the target plus and minus 0, or NaN where L times sigma is
 * infinite. */
static void test_gaps_alone(void) {
    const double gaps[] = {NAN, INFINITY, -INFINITY}, at_target[] = {0, 0, 0}, mixed[] = {NAN, 1}, half[] = {0, 0.5};
    const double no_width[] = {0, 0, 0}, from_1[] = {width[1], width[2], width[3]}, infinite[] = {NAN, INFINITY};
    const uint8_t none[] = {NONE, NONE, NONE};
    records(HERE, halving, FIRST, gaps, 3, at_target, from_1, none);
    records(HERE, halving, SECOND, gaps, 3, at_target, no_width, none);
    records(HERE, endless, SECOND, mixed, 2, half, infinite, none);

    const struct chart minus_0 = {-0.0, 1, 0.5, 4};
    whole(HERE, ask(minus_0, SECOND, gaps, 1, 1, ARRAYS), 0);
    same(HERE, statistic[0], -0.0);
    same(HERE, upper[0], 0.0);
    same(HERE, lower[0], -0.0);
    whole(HERE, ask(minus_0, FIRST, gaps, 1, 1, ARRAYS), 0);
    same(HERE, upper[0], 2);
    same(HERE, lower[0], -2);
}

/* Refusals of a chart with this edition, after that of the edition. */
static void test_refused_by(uint32_t edition) {
    for (size_t i = 0; i < WRONG; i++) {
        refused(HERE, wrong[i].settings, edition, 0, 0, ARRAYS, wrong[i].number);
        refused(HERE, wrong[i].settings, edition, 4, 4, ARRAYS, wrong[i].number);
        refused(HERE, wrong[i].settings, edition, TOO_MANY, 0, ARRAYS, wrong[i].number);
    }
    refused(HERE, last_alone, edition, TOO_MANY, 0, ARRAYS, 6);
    refused(HERE, last_alone, edition, TOO_MANY, TOO_MANY, ARRAYS, 6);
    for (int array = 0; array < ARRAYS; array++) refused(HERE, last_alone, edition, 4, 4, array, 7);
    refused(HERE, last_alone, edition, TOO_MANY - 1, TOO_MANY - 2, ARRAYS, 7);
}

static void test_refused_records(void) {
    for (int i = 0; i < EDITIONS; i++) test_refused_by(editions[i]);
    for (int i = 0; i < NO_EDITIONS; i++) {
        uint32_t edition = no_editions[i];
        refused(HERE, halving, edition, 0, 0, ARRAYS, 10);
        refused(HERE, halving, edition, 4, 4, ARRAYS, 10);
        refused(HERE, halving, edition, TOO_MANY, TOO_MANY, ARRAYS, 10);
        for (int array = 0; array < ARRAYS; array++) refused(HERE, halving, edition, 4, 4, array, 10);
        for (size_t j = 0; j < WRONG; j++) {
            refused(HERE, wrong[j].settings, edition, 4, 4, ARRAYS, 10);
            refused(HERE, wrong[j].settings, edition, TOO_MANY, 0, ARRAYS, 10);
        }
    }
}

/* The call for signal points, in `room` elements of `indices`. */
static uint32_t ask_points(struct chart c, uint32_t edition, const double *data, size_t n, size_t room) {
    lend_wholes(indices, ENOUGH);
    count = LENT;
    return overbrindle_ewma_signal_points(c.target, c.sigma, c.lambda, c.l_factor, edition, data, n, indices, room,
        &count);
}

static void no_points(const char *file, int line, struct chart c, uint32_t edition, const double *data, size_t n,
                      size_t room, uint32_t number) {
    whole(file, line, ask_points(c, edition, data, n, room), number);
    whole(file, line, count, 0);
    wholes_are(file, line, indices, 0, ENOUGH, LENT);
}

/* That the reading of this index alone signals. */
static void one_point(const char *file, int line, struct chart c, uint32_t edition, const double *data, size_t n,
                      size_t index) {
    whole(file, line, ask_points(c, edition, data, n, n + 1), 0);
    whole(file, line, count, 1);
    whole(file, line, indices[0], index);
    wholes_are(file, line, indices, 1, ENOUGH, LENT);
}

/* Signal points of a chart with this edition, and their refusals after that of the edition. */
static void test_points_by(uint32_t edition) {
    /* The second limits lie between 2.125 and 2.25. */
    const double within[] = {0, 4.25}, outside[] = {0, 4.5};
    one_point(HERE, halving, edition, outside, 2, 1);
    no_points(HERE, halving, edition, within, 2, 2, 0);
    no_points(HERE, halving, edition, many, TOO_MANY - 1, TOO_MANY - 1, 0);

    for (size_t i = 0; i < WRONG; i++) {
        no_points(HERE, wrong[i].settings, edition, many, 0, 0, wrong[i].number);
        no_points(HERE, wrong[i].settings, edition, many, 4, 4, wrong[i].number);
        no_points(HERE, wrong[i].settings, edition, many, TOO_MANY, 0, wrong[i].number);
    }
    no_points(HERE, halving, edition, many, TOO_MANY, 0, 6);
    no_points(HERE, halving, edition, many, 4, 3, 7);
}

static void test_points(void) {
    /* The statistic is 2.27 at last: between the second limits and the third. */
    const double gap[] = {0, NAN, 4.54};
    no_points(HERE, halving, FIRST, gap, 3, 3, 0);
    one_point(HERE, halving, SECOND, gap, 3, 2);
    for (int i = 0; i < EDITIONS; i++) test_points_by(editions[i]);
    for (int i = 0; i < NO_EDITIONS; i++) {
        uint32_t edition = no_editions[i];
        no_points(HERE, halving, edition, gap, 3, 3, 10);
        no_points(HERE, halving, edition, many, 0, 0, 10);
        no_points(HERE, halving, edition, many, TOO_MANY, 0, 10);
        no_points(HERE, halving, edition, many, 4, 3, 10);
        for (size_t j = 0; j < WRONG; j++) no_points(HERE, wrong[j].settings, edition, many, 4, 4, 10);
    }
}

/* The numbers by which other languages know the editions. */
static void test_editions(void) {
    whole(HERE, OVERBRINDLE_EDITION_1, 1);
    whole(HERE, OVERBRINDLE_EDITION_2, 2);
}

void test_ewma(void) {
    test_editions();
    test_records();
    test_gaps();
    test_gaps_alone();
    test_refused_records();
    test_points();
}
