/* The noise variance, and what is left of the area that it is worked out in. */
#include "checks.h"

#include <math.h>

enum { MOST = 8 };

/* The variance of `count` readings in an area of `room` elements, from `place` on: those up to `end` are
 * zero afterwards, and the others are as they were. */
static void variance(const char *file, int line, const double *channel, size_t count, size_t room, size_t place,
                     double wanted, size_t end) {
    double area[MOST];
    lend_floats(area, MOST);
    same(file, line, overbrindle_noise_variance(channel, count, area, room, place), wanted);
    floats_are(file, line, area, 0, place, LENT);
    floats_are(file, line, area, place, end, 0.0);
    floats_are(file, line, area, end, MOST, LENT);
}

/* Without room the answer is NaN, and the area is as it was. */
static void no_room(const char *file, int line, const double *channel, size_t count, size_t room, size_t place) {
    double area[MOST];
    lend_floats(area, MOST);
    same(file, line, overbrindle_noise_variance(channel, count, area, room, place), NAN);
    floats_are(file, line, area, 0, MOST, LENT);
}

void test_noise(void) {
    const double odd[] = {0, 3, 4, 6}, even[] = {0, 2, 3}, level[] = {5, 5, 5, 5}, floor[] = {0, 0, 0, 0, 8};
    const double gap[] = {0, NAN, 4, 5, 3, 1};
    variance(HERE, odd, 4, 3, 0, by_bits(0x4011959752db3ec6), 3);
    variance(HERE, odd, 4, 8, 2, by_bits(0x4011959752db3ec6), 5);
    variance(HERE, even, 3, 3, 1, by_bits(0x4003c84a3d36a69f), 3);
    variance(HERE, gap, 6, 5, 0, by_bits(0x4011959752db3ec6), 5);
    variance(HERE, floor, 5, 4, 0, by_bits(0x3dd19799812dea11), 4);
    variance(HERE, level, 4, 3, 0, 0.0, 3);
    /* Fewer than two readings have no differences, and no noise. */
    variance(HERE, odd, 1, 0, 0, 0.0, 0);
    variance(HERE, odd, 0, 0, 0, 0.0, 0);

    no_room(HERE, odd, 4, 2, 0);
    no_room(HERE, even, 3, 2, 1);
    no_room(HERE, even, 3, 8, 7);
    /* A place past the area, also where the end of the part would wrap. */
    no_room(HERE, odd, 1, 0, 1);
    no_room(HERE, even, 3, 8, SIZE_MAX);
}
