/* Roots, logarithms and powers, to the bit. */
#include "checks.h"

/* The bits of a value, and those of what the function answers. */
struct row {
    uint64_t given, answer;
};

static void root(const char *file, int line, struct row row) {
    same(file, line, overbrindle_sqrt(by_bits(row.given)), by_bits(row.answer));
}

static void logarithm(const char *file, int line, struct row row) {
    same(file, line, overbrindle_ln(by_bits(row.given)), by_bits(row.answer));
}

static void test_roots(void) {
    /* 2, 3, 4, 0.25, the largest, the smallest, infinity, the zeros; minus infinity, -1 and NaN */
    static const struct row rows[] = {
        {0x4000000000000000, 0x3ff6a09e667f3bcd}, {0x4008000000000000, 0x3ffbb67ae8584caa},
        {0x4010000000000000, 0x4000000000000000}, {0x3fd0000000000000, 0x3fe0000000000000},
        {0x7fefffffffffffff, 0x5fefffffffffffff}, {0x0000000000000001, 0x1e60000000000000},
        {0x7ff0000000000000, 0x7ff0000000000000}, {0x8000000000000000, 0x8000000000000000},
        {0x0000000000000000, 0x0000000000000000}, {0xfff0000000000000, 0x7ff8000000000000},
        {0xbff0000000000000, 0x7ff8000000000000}, {0x7ff8000000000000, 0x7ff8000000000000},
    };
    for (size_t i = 0; i < sizeof rows / sizeof *rows; i++) root(HERE, rows[i]);
    same(HERE, overbrindle_sqrt(2.0), 1.4142135623730951);
}

static void test_logarithms(void) {
    /* 1, 2, the number nearest to e, the smallest and the largest; 3, 2^-1000, 2^33, 10 and four numbers next
     * to ties or to powers of two, on which the last step turns; the zeros, infinity, -1 and NaN */
    static const struct row rows[] = {
        {0x3ff0000000000000, 0x0000000000000000}, {0x4000000000000000, 0x3fe62e42fefa39ef},
        {0x4005bf0a8b145769, 0x3ff0000000000000}, {0x0000000000000001, 0xc0874385446d71c3},
        {0x7fefffffffffffff, 0x40862e42fefa39ef}, {0x4008000000000000, 0x3ff193ea7aad030b},
        {0x0170000000000000, 0xc085a92d6d005c94}, {0x4200000000000000, 0x4036dfb516f20bbf},
        {0x4024000000000000, 0x40026bb1bbb55516}, {0x405000000736f9be, 0x4010a2b2410969e2},
        {0x41a000000a4e9f3e, 0x4032b70887c80ad6}, {0x40048b5e3c2dab12, 0x3fee2e42fedffff7},
        {0x40048b5e3c37f0c1, 0x3fee2e42feeffff6}, {0x0000000000000000, 0xfff0000000000000},
        {0x8000000000000000, 0xfff0000000000000}, {0x7ff0000000000000, 0x7ff0000000000000},
        {0xbff0000000000000, 0x7ff8000000000000}, {0xfff8000000000000, 0x7ff8000000000000},
    };
    for (size_t i = 0; i < sizeof rows / sizeof *rows; i++) logarithm(HERE, rows[i]);
}

static void test_powers(void) {
    same(HERE, overbrindle_powi(0.8, 2), by_bits(0x3fe47ae147ae147c));
    same(HERE, overbrindle_powi(0.8, 8192), 0.0);
    same(HERE, overbrindle_powi(0.9999, 8191), by_bits(0x3fdc363bd82ed618));
    same(HERE, overbrindle_powi(-3.0, 3), -27.0);
    same(HERE, overbrindle_powi(by_bits(0x7ff0000000000000), 0), 1.0);
    same(HERE, overbrindle_powi(0.1, 5), by_bits(0x3ee4f8b588e368f4));
    /* An exponent of more than 32 bits is taken whole. */
    same(HERE, overbrindle_powi(-1.0, ((uint64_t)1 << 32) + 1), -1.0);
    same(HERE, overbrindle_powi(2.0, (uint64_t)1 << 32), by_bits(0x7ff0000000000000));
}

void test_elementary(void) {
    test_roots();
    test_logarithms();
    test_powers();
}
