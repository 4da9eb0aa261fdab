/* What the tests of this folder share: checks that are counted, and lent areas that show what was written.
 * A check that fails says so with its place, and the others go on. The files are C99 and C++11. */
#ifndef CHECKS_H
#define CHECKS_H

#include "overbrindle.h"

/* The place of a check, as the first two arguments of every function that makes one. */
#define HERE __FILE__, __LINE__

/* More readings than any call takes. */
enum { TOO_MANY = 4097 };

void whole(const char *file, int line, uint64_t seen, uint64_t wanted);

/* Two floats are the same where all their bits are, or both are NaN. */
void same(const char *file, int line, double seen, double wanted);

/* The float with these bits. */
double by_bits(uint64_t pattern);

/* Every lent element holds LENT before a call, so that one that was written shows. */
enum { LENT = 7 };
void lend_floats(double *area, size_t count);
void lend_wholes(size_t *area, size_t count);
void lend_bytes(uint8_t *area, size_t count);

/* That the elements from `from` up to `to` are all `wanted`; one check. */
void floats_are(const char *file, int line, const double *area, size_t from, size_t to, double wanted);
void wholes_are(const char *file, int line, const size_t *area, size_t from, size_t to, size_t wanted);
void bytes_are(const char *file, int line, const uint8_t *area, size_t from, size_t to, uint8_t wanted);

/* The tests, a file each. */
void test_searches(void);
void test_search_refusals(void);
void test_cusum(void);
void test_ewma(void);
void test_pieces(void);
void test_noise(void);
void test_elementary(void);

#endif
