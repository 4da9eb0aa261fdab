/* The summary of a piece, whether it has a spread, and its refusals: 6, then 12. */
#include "checks.h"

#include <math.h>

struct summary {
    size_t length;
    double mean, spread;
    uint32_t has_spread;
};

/* The call, with results that hold something else before it. */
static uint32_t ask(const double *channel, size_t count, size_t start, size_t end, struct summary *to) {
    to->length = LENT;
    to->mean = to->spread = LENT;
    to->has_spread = LENT;
    return overbrindle_piece_summary(channel, count, start, end, &to->length, &to->mean, &to->has_spread, &to->spread);
}

static void told(const char *file, int line, const double *channel, size_t count, size_t start, size_t end,
                 double mean, uint32_t has_spread, double spread) {
    struct summary got;
    whole(file, line, ask(channel, count, start, end, &got), 0);
    whole(file, line, got.length, end - start);
    same(file, line, got.mean, mean);
    whole(file, line, got.has_spread, has_spread);
    same(file, line, got.spread, spread);
}

static void summary(const char *file, int line, const double *channel, size_t count, size_t start, size_t end,
                    double mean, double spread) {
    told(file, line, channel, count, start, end, mean, 1, spread);
}

/* A piece of one reading. */
static void single(const char *file, int line, const double *channel, size_t count, size_t start, double mean) {
    told(file, line, channel, count, start, start + 1, mean, 0, 0.0);
}

static void refused(const char *file, int line, const double *channel, size_t count, size_t start, size_t end,
                    uint32_t number) {
    struct summary got;
    whole(file, line, ask(channel, count, start, end, &got), number);
    whole(file, line, got.length, 0);
    same(file, line, got.mean, 0.0);
    whole(file, line, got.has_spread, 0);
    same(file, line, got.spread, 0.0);
}

void test_pieces(void) {
    static const double many[TOO_MANY] = {0};
    const double step[] = {0, 0, 4, 4}, three[] = {1, 2, 6}, gap[] = {0, NAN, 4, 4}, infinite[] = {0, 4, 4, INFINITY};
    const double rounded[] = {1, 2, 2}, tenths[] = {0.1, 0.1, 0.1, 1}, large[] = {1e200, -1e200};
    summary(HERE, step, 4, 2, 4, 4.0, 0.0);
    summary(HERE, step, 4, 0, 4, 2.0, 5.333333333333333);
    summary(HERE, three, 3, 0, 2, 1.5, 0.5);
    summary(HERE, many, TOO_MANY - 1, 0, TOO_MANY - 1, 0.0, 0.0);
    /* Rounding brings the cost of two equal readings below 0: the spread is +0. */
    summary(HERE, rounded, 3, 1, 3, 2.0, 0.0);
    summary(HERE, tenths, 4, 1, 3, 0.09999999999999998, 0.0);
    /* A gap elsewhere in the channel shows. */
    summary(HERE, gap, 4, 2, 4, NAN, NAN);
    summary(HERE, infinite, 4, 0, 3, NAN, NAN);
    /* A cost that is infinite stays. */
    summary(HERE, large, 2, 0, 2, 0.0, INFINITY);
    /* One reading has no spread, whatever its cost. */
    single(HERE, step, 4, 3, 4.0);
    single(HERE, gap, 4, 0, NAN);
    single(HERE, gap, 4, 1, NAN);
    single(HERE, large, 2, 0, 1e200);
    single(HERE, many, TOO_MANY - 1, TOO_MANY - 2, 0.0);

    refused(HERE, step, 4, 2, 2, 12);
    refused(HERE, step, 4, 3, 2, 12);
    refused(HERE, step, 4, 2, 5, 12);
    refused(HERE, step, 0, 0, 0, 12);
    refused(HERE, step, 4, 2, SIZE_MAX, 12);
    refused(HERE, many, TOO_MANY, 0, 1, 6);
    refused(HERE, many, TOO_MANY, 1, 1, 6);
}
