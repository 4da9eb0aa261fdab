/* How the tests ask for a search, and see what it says and leaves in every lent area. */
#ifndef SEARCHES_H
#define SEARCHES_H

#include "checks.h"

enum { LENGTHS = 9 };

/* What a search is given, and how many elements of each area it is lent. */
struct search {
    uint32_t cost, kind;
    double penalty;
    size_t least;
    const double *readings;
    size_t readings_len, lengths[LENGTHS], lengths_len;
    size_t cuts, floats, indices, pool;
};

/* `k` channels of `n` readings: L2, a custom penalty of 1, pieces of at least 2 readings, `slots` slots and
 * exactly the room that this asks. */
struct search search_over(const double *readings, size_t n, size_t k, size_t slots);

/* Which of the two searches is asked; where readings are finite, they answer alike. */
enum { PLAIN = 1, STRICT = 2, BOTH = 3 };

/* That it answers with `count` cuts, which are those of `wanted`. */
void finds(const char *file, int line, int who, struct search s, size_t count, const size_t *wanted);

/* That it refuses with `number`, one of 1 to 8 or 10, and changes nothing; 8 names a channel and an index. */
void refuses(const char *file, int line, int who, struct search s, uint32_t number, size_t channel, size_t index);

/* That it refuses with 9, and that the same call with `slots` slots, in the areas as 9 left them, answers with
 * `count` cuts, which are those of `wanted`. */
void runs_out(const char *file, int line, int who, struct search s, size_t slots, size_t count, const size_t *wanted);

#endif
