/* The refusals of both searches, each with a fault that is tried later beside it: 10, then 1 to 9. */
#include "searches.h"

#include <math.h>

static const double step[] = {0, 0, 4, 4}, gap[] = {0, NAN, 4, 4};
static const double many[TOO_MANY] = {0};

/* 10, and 1 and 2. */
static void test_settings(void) {
    const double bad[] = {0, -1, NAN, INFINITY};
    struct search s = search_over(step, 4, 1, 2);
    s.penalty = 0;
    s.cost = 2;
    refuses(HERE, BOTH, s, 10, 0, 0);
    s.cost = OVERBRINDLE_L2;
    s.kind = 2;
    refuses(HERE, BOTH, s, 10, 0, 0);

    s.kind = OVERBRINDLE_CUSTOM;
    s.least = 1;
    for (size_t i = 0; i < sizeof bad / sizeof *bad; i++) {
        s.penalty = bad[i];
        refuses(HERE, BOTH, s, 1, 0, 0);
    }

    s.penalty = 1;
    refuses(HERE, BOTH, s, 2, 0, 0);
    s.least = 0;
    s.lengths_len = 9;
    refuses(HERE, BOTH, s, 2, 0, 0);
}

/* 3 to 6. */
static void test_shapes(void) {
    struct search s = search_over(step, 4, 1, 2);
    s.lengths_len = 9;
    refuses(HERE, BOTH, s, 3, 0, 0);

    s.lengths_len = 2;
    s.lengths[0] = 1;
    s.lengths[1] = 2;
    refuses(HERE, BOTH, s, 4, 0, 0);
    s.lengths_len = 0;
    refuses(HERE, BOTH, s, 4, 0, 0);
    /* Lengths that add up only where their sum wraps. */
    s.lengths_len = 3;
    s.lengths[0] = s.lengths[2] = 4;
    s.lengths[1] = SIZE_MAX - 3;
    refuses(HERE, BOTH, s, 4, 0, 0);

    s.lengths_len = 2;
    s.lengths[0] = 3;
    s.lengths[1] = 1;
    refuses(HERE, BOTH, s, 5, 0, 0);
    s.readings = many;
    s.readings_len = s.lengths[0] = TOO_MANY;
    s.lengths[1] = 0;
    refuses(HERE, BOTH, s, 5, 0, 0);

    s.lengths_len = 1;
    refuses(HERE, BOTH, s, 6, 0, 0);
    /* The most that is taken, which then asks for room. */
    s.readings_len = s.lengths[0] = TOO_MANY - 1;
    refuses(HERE, BOTH, s, 7, 0, 0);
}

/* 7: an element short in each area, beside a gap and a pool without slots. */
static void test_room(void) {
    struct search s = search_over(gap, 4, 1, 0);
    s.cuts--;
    refuses(HERE, BOTH, s, 7, 0, 0);
    s.cuts++;
    s.floats--;
    refuses(HERE, BOTH, s, 7, 0, 0);
    s.floats++;
    s.indices--;
    refuses(HERE, BOTH, s, 7, 0, 0);
}

/* 8: the lowest channel first, then the lowest index; before 9, and also where no search is run. */
static void test_gaps(void) {
    const double second[] = {1, 1, 1, 1, 0, NAN, 4, 4}, both[] = {0, 0, 4, NAN, NAN, 0, 4, 4};
    const double infinite[] = {0, 0, 4, -INFINITY};
    struct search s = search_over(gap, 4, 1, 0);
    refuses(HERE, STRICT, s, 8, 0, 1);
    s.least = 3;
    refuses(HERE, STRICT, s, 8, 0, 1);
    refuses(HERE, STRICT, search_over(infinite, 4, 1, 2), 8, 0, 3);
    refuses(HERE, STRICT, search_over(second, 4, 2, 3), 8, 1, 1);
    refuses(HERE, STRICT, search_over(both, 4, 2, 3), 8, 0, 3);
}

/* 9: no slot, one where two are needed, and a float short of two; with more the call answers. */
static void test_slots(void) {
    const size_t at_2[] = {2};
    struct search s = search_over(step, 4, 1, 1);
    runs_out(HERE, BOTH, s, 2, 1, at_2);
    s.pool = 0;
    runs_out(HERE, BOTH, s, 4, 1, at_2);
    s.pool = 2 * OVERBRINDLE_SLOT - 1;
    runs_out(HERE, BOTH, s, 2, 1, at_2);
}

void test_search_refusals(void) {
    test_settings();
    test_shapes();
    test_room();
    test_gaps();
    test_slots();
}
