/* Searches that answer: where the cuts are, and what is left of every lent area. */
#include "searches.h"

#include <math.h>

enum { CUTS = 60, FLOATS = 500, INDICES = 400, POOL = 20000 };

/* What a search is lent, and what it says. */
static size_t cuts[CUTS], indices[INDICES], count, channel, place;
static double floats[FLOATS], pool[POOL];

struct search search_over(const double *readings, size_t n, size_t k, size_t slots) {
    struct search s;
    s.cost = OVERBRINDLE_L2;
    s.kind = OVERBRINDLE_CUSTOM;
    s.penalty = 1;
    s.least = 2;
    s.readings = readings;
    s.readings_len = k * n;
    s.lengths_len = k;
    for (size_t i = 0; i < LENGTHS; i++) s.lengths[i] = n;
    s.cuts = n / 2;
    s.floats = (2 * k + 2) * (n + 1);
    s.indices = 3 * (n + 1);
    s.pool = slots * OVERBRINDLE_SLOT;
    return s;
}

static void lend(void) {
    lend_wholes(cuts, CUTS);
    lend_floats(floats, FLOATS);
    lend_wholes(indices, INDICES);
    lend_floats(pool, POOL);
}

static uint32_t ask(int who, struct search s) {
    count = channel = place = LENT;
    return (who == STRICT ? overbrindle_detect_multi_strict : overbrindle_detect_multi)(
        s.cost, s.kind, s.penalty, s.least, s.readings, s.readings_len, s.lengths, s.lengths_len, cuts, s.cuts,
        floats, s.floats, indices, s.indices, pool, s.pool, &count, &channel, &place);
}

static void said(const char *file, int line, size_t wanted_count, size_t wanted_channel, size_t wanted_index) {
    whole(file, line, count, wanted_count);
    whole(file, line, channel, wanted_channel);
    whole(file, line, place, wanted_index);
}

/* That the work areas hold `value`, and what was not lent of them is as it was. */
static void worked(const char *file, int line, struct search s, size_t value) {
    floats_are(file, line, floats, 0, s.floats, (double)value);
    floats_are(file, line, floats, s.floats, FLOATS, LENT);
    wholes_are(file, line, indices, 0, s.indices, value);
    wholes_are(file, line, indices, s.indices, INDICES, LENT);
    floats_are(file, line, pool, 0, s.pool, (double)value);
    floats_are(file, line, pool, s.pool, POOL, LENT);
}

/* That it answers in the areas as they are. */
static void answers(const char *file, int line, int who, struct search s, size_t number, const size_t *wanted) {
    whole(file, line, ask(who, s), 0);
    said(file, line, number, 0, 0);
    for (size_t i = 0; i < number; i++) whole(file, line, cuts[i], wanted[i]);
    wholes_are(file, line, cuts, number, CUTS, LENT);
    worked(file, line, s, 0);
}

static void found(const char *file, int line, int who, struct search s, size_t number, const size_t *wanted) {
    lend();
    answers(file, line, who, s, number, wanted);
}

void finds(const char *file, int line, int who, struct search s, size_t number, const size_t *wanted) {
    if (who & PLAIN) found(file, line, PLAIN, s, number, wanted);
    if (who & STRICT) found(file, line, STRICT, s, number, wanted);
}

static void refused(const char *file, int line, int who, struct search s, uint32_t number, size_t in, size_t at) {
    lend();
    whole(file, line, ask(who, s), number);
    said(file, line, 0, in, at);
    wholes_are(file, line, cuts, 0, CUTS, LENT);
    worked(file, line, s, LENT);
}

void refuses(const char *file, int line, int who, struct search s, uint32_t number, size_t in, size_t at) {
    if (who & PLAIN) refused(file, line, PLAIN, s, number, in, at);
    if (who & STRICT) refused(file, line, STRICT, s, number, in, at);
}

static void ran_out(const char *file, int line, int who, struct search s, size_t slots, size_t number,
                    const size_t *wanted) {
    lend();
    whole(file, line, ask(who, s), 9);
    said(file, line, 0, 0, 0);
    wholes_are(file, line, cuts, 0, CUTS, LENT);
    worked(file, line, s, 0);
    s.pool = slots * OVERBRINDLE_SLOT;
    answers(file, line, who, s, number, wanted);
}

void runs_out(const char *file, int line, int who, struct search s, size_t slots, size_t number,
              const size_t *wanted) {
    if (who & PLAIN) ran_out(file, line, PLAIN, s, slots, number, wanted);
    if (who & STRICT) ran_out(file, line, STRICT, s, slots, number, wanted);
}

static const size_t at_2[] = {2}, at_2_and_4[] = {2, 4}, nowhere[] = {LENT};

/* One channel of 0 0 4 4. */
static void test_step(void) {
    const double step[] = {0, 0, 4, 4};
    struct search s = search_over(step, 4, 1, 2);
    finds(HERE, BOTH, s, 1, at_2);
    s.penalty = 15.5;
    finds(HERE, BOTH, s, 1, at_2);
    s.penalty = 16;
    finds(HERE, BOTH, s, 0, nowhere);

    s = search_over(step, 4, 1, 2);
    s.least = 3;
    finds(HERE, BOTH, s, 0, nowhere);
    s.least = SIZE_MAX;
    finds(HERE, BOTH, s, 0, nowhere);

    /* More room than is asked: the rest of the cuts is as it was, and the work areas are zero to their ends. */
    s = search_over(step, 4, 1, 2);
    s.cuts += 2;
    s.floats += 1;
    s.indices += 1;
    s.pool += 1;
    finds(HERE, BOTH, s, 1, at_2);

    s = search_over(step, 4, 1, 0);
    s.cost = OVERBRINDLE_NORMAL;
    finds(HERE, BOTH, s, 1, at_2);
}

static void test_penalties(void) {
    const double level[] = {5, 5, 5, 5}, falling[] = {5, 3, 2, 0, 0}, rising[] = {2, 3, 4, 5, 6, 7, 8};
    struct search s = search_over(level, 4, 1, 2);
    s.kind = OVERBRINDLE_BIC;
    finds(HERE, BOTH, s, 0, nowhere);
    /* BIC does not look at the custom value. */
    s = search_over(falling, 5, 1, 3);
    s.kind = OVERBRINDLE_BIC;
    s.penalty = NAN;
    finds(HERE, BOTH, s, 1, at_2);
    /* Cuts that turn on the last step of the logarithm. */
    s = search_over(rising, 7, 1, 0);
    s.cost = OVERBRINDLE_NORMAL;
    s.kind = OVERBRINDLE_BIC;
    finds(HERE, BOTH, s, 2, at_2_and_4);
}

static void test_channels(void) {
    const double two[] = {1, 1, 1, 1, 0, 0, 4, 4};
    const double three[] = {0, 0, 0, 0, 0, 0, 0, 0, 0, 0, 0, 0, 0, 0, 6, 6, 0, 0};
    finds(HERE, BOTH, search_over(two, 4, 2, 3), 1, at_2);
    finds(HERE, BOTH, search_over(three, 6, 3, 0), 2, at_2_and_4);
    /* No channels, and eight without readings. */
    finds(HERE, BOTH, search_over(two, 0, 0, 0), 0, nowhere);
    finds(HERE, BOTH, search_over(two, 0, 8, 0), 0, nowhere);
}

/* Readings that are all gaps keep every candidate alive, which is as many as there can be: n + 3 less twice
 * the minimum length, and so fewer than n. */
static void test_gaps(void) {
    enum { N = 100 };
    const double gap[] = {0, NAN, 4, 4};
    double gaps[N];
    for (size_t i = 0; i < N; i++) gaps[i] = NAN;
    finds(HERE, PLAIN, search_over(gap, 4, 1, 3), 0, nowhere);
    runs_out(HERE, PLAIN, search_over(gaps, N, 1, N - 2), N - 1, 0, nowhere);
}

void test_searches(void) {
    test_step();
    test_penalties();
    test_channels();
    test_gaps();
}
