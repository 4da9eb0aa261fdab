/* Runs every test, and ends with a line of counts; the status is 1 where a check failed. */
#include "checks.h"

#include <inttypes.h>
#include <stdio.h>
#include <string.h>

static unsigned checks, failed;

static uint64_t bits_of(double x) {
    uint64_t pattern;
    memcpy(&pattern, &x, sizeof pattern);
    return pattern;
}

static int alike(double a, double b) { return bits_of(a) == bits_of(b) || (a != a && b != b); }

/* Counts a check; true where it failed, and then its place is on the line that it has to end. */
static int wrong(const char *file, int line, int right) {
    checks++;
    if (right) return 0;
    failed++;
    printf("%s:%d: ", file, line);
    return 1;
}

void whole(const char *file, int line, uint64_t seen, uint64_t wanted) {
    if (wrong(file, line, seen == wanted)) printf("%" PRIu64 " where %" PRIu64 " is right\n", seen, wanted);
}

void same(const char *file, int line, double seen, double wanted) {
    if (wrong(file, line, alike(seen, wanted))) printf("%.17g where %.17g is right\n", seen, wanted);
}

double by_bits(uint64_t pattern) {
    double x;
    memcpy(&x, &pattern, sizeof x);
    return x;
}

void lend_floats(double *area, size_t count) {
    for (size_t i = 0; i < count; i++) area[i] = LENT;
}

void lend_wholes(size_t *area, size_t count) {
    for (size_t i = 0; i < count; i++) area[i] = LENT;
}

void lend_bytes(uint8_t *area, size_t count) {
    for (size_t i = 0; i < count; i++) area[i] = LENT;
}

void floats_are(const char *file, int line, const double *area, size_t from, size_t to, double wanted) {
    while (from < to && alike(area[from], wanted)) from++;
    if (wrong(file, line, from >= to)) printf("element %zu is %.17g and not %.17g\n", from, area[from], wanted);
}

void wholes_are(const char *file, int line, const size_t *area, size_t from, size_t to, size_t wanted) {
    while (from < to && area[from] == wanted) from++;
    if (wrong(file, line, from >= to)) printf("element %zu is %zu and not %zu\n", from, area[from], wanted);
}

void bytes_are(const char *file, int line, const uint8_t *area, size_t from, size_t to, uint8_t wanted) {
    while (from < to && area[from] == wanted) from++;
    if (wrong(file, line, from >= to)) printf("element %zu is %d and not %d\n", from, area[from], wanted);
}

int main(void) {
    test_searches();
    test_search_refusals();
    test_cusum();
    test_ewma();
    test_pieces();
    test_noise();
    test_elementary();
    printf("%u checks, %u failed\n", checks, failed);
    return failed > 0;
}
