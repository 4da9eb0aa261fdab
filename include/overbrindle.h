/* Overbrindle for C and for every language that calls C: change detection and control charts whose
 * every answer is proved.
 *
 * How to build
 *
 * tools/library writes target/library/liboverbrindle.a for x86-64 Linux, the archive of `rt lib` in
 * crates/desk. It needs memcpy and memset of the C library and nothing else:
 *
 *     cc -Iinclude program.c target/library/liboverbrindle.a -o program
 *
 * This header is C99 and C++11, for machines whose size_t has 64 bits.
 *
 * How to call
 *
 * - A slice is a pointer and the number of its elements. The pointer is never null and is aligned,
 *   also where there are no elements; the elements are initialised. A pointer to a single result
 *   (count, channel, index, reading, length, mean, has_spread, spread) is never null, is aligned and
 *   points to one object of its type; what that held before is not read. Slices and single results that
 *   a call writes to overlap nothing else that it is given.
 * - The floating-point environment is the one that C starts a program with: rounding to nearest, no
 *   flush-to-zero, no denormals-are-zero. Another gives other answers: with flush-to-zero
 *   overbrindle_sqrt(5e-324) is 5e-324 and overbrindle_ln(5e-324) is minus infinity.
 * - This is all that a caller has to see to: sizes, settings and readings are checked, and nothing is
 *   allocated or kept. Any number of threads may call at once, on areas of their own. A call needs
 *   less than 4,096 bytes of stack.
 *
 * What comes back
 *
 * - A call returns 0 with an answer, and otherwise the number of the refusal:
 *
 *      1 Penalty    a custom penalty is not finite or not above 0
 *      2 MinLen     a minimum length below 2
 *      3 Channels   more than 8 lengths
 *      4 Shape      the lengths don't add up to the number of readings
 *      5 Unequal    two lengths differ
 *      6 TooLong    more than 4,096 readings a channel
 *      7 Room       a slice is shorter than said below
 *      8 NonFinite  a reading or level is NaN or infinite (strict search and run length only)
 *      9 Pool       L2 on one or two channels needs more slots than the pool has
 *     10 Form       a number that stands for no cost, penalty, sum or edition
 *     12 Piece      a piece whose start is not below its end, or whose end is past the channel
 *     15 Target     a chart's target is not finite
 *     16 Sigma      a chart's sigma is not finite or not above 0
 *     17 Weight     a chart's k is not finite or below 0, or its lambda is not above 0 and at most 1
 *     18 Bound      a chart's h or l_factor is not finite or not above 0
 *
 *   11 is not given any more: it stood for 15 to 18. 13 and 14 are not in use.
 *
 * - Refusals are tried in a fixed order, and the first that holds is given:
 *
 *     both searches                        10, then 1 to 9
 *     records and signal points of CUSUM   15 to 18, then 6, 7
 *     records and signal points of EWMA    10, then 15 to 18, then 6, 7
 *     run length                           10, then 15 to 18, then 8
 *     piece summary                        6, 12
 *
 * - Single results are written on every call. On a refusal they are 0, but for the channel and the
 *   index of a search's 8, both counted from 0: the lowest channel with such a reading, and there the
 *   lowest index.
 * - A refusal changes no slice, but for 9, which leaves work areas zero, as an answer does.
 * - What each call answers and leaves is proved to equal definitions; docs/PROMISES.md names them.
 *
 * An example: two channels of four readings, of which the first changes half way
 *
 *     #include <stdio.h>
 *     #include "overbrindle.h"
 *
 *     int main(void) {
 *         double readings[] = {0, 0, 4, 4,  1, 1, 1, 1};
 *         size_t lengths[] = {4, 4}, cuts[2] = {0}, indices[15] = {0}, count, channel, index, i;
 *         double floats[30] = {0}, pool[4 * OVERBRINDLE_SLOT] = {0};
 *         uint32_t refusal = overbrindle_detect_multi_strict(OVERBRINDLE_L2, OVERBRINDLE_CUSTOM, 1.0, 2,
 *             readings, 8, lengths, 2, cuts, 2, floats, 30, indices, 15,
 *             pool, 4 * OVERBRINDLE_SLOT, &count, &channel, &index);
 *         if (refusal != 0) {
 *             printf("refused %u, channel %zu, index %zu\n", (unsigned)refusal, channel, index);
 *             return 1;
 *         }
 *         for (i = 0; i < count; i++) printf("a new piece begins at %zu\n", cuts[i]);
 *         return 0;
 *     }
 *
 * prints
 *
 *     a new piece begins at 2
 */
#ifndef OVERBRINDLE_H
#define OVERBRINDLE_H

#include <stddef.h>
#include <stdint.h>

#ifdef __cplusplus
extern "C" {
#endif

/* The library counts in 64 bits; a size_t of another width is an error here that names this type. */
typedef char overbrindle_needs_a_size_t_of_64_bits[sizeof(size_t) == 8 ? 1 : -1];

enum { OVERBRINDLE_L2 = 0, OVERBRINDLE_NORMAL = 1 };     /* cost */
enum { OVERBRINDLE_BIC = 0, OVERBRINDLE_CUSTOM = 1 };    /* penalty_kind; BIC does not look at penalty */
enum { OVERBRINDLE_UPPER = 0, OVERBRINDLE_LOWER = 1 };   /* sum */
enum { OVERBRINDLE_NONE = 0, OVERBRINDLE_ABOVE = 1,      /* side of a record */
       OVERBRINDLE_BELOW = 2, OVERBRINDLE_BOTH = 3 };
enum { OVERBRINDLE_EDITION_1 = 1, OVERBRINDLE_EDITION_2 = 2 };   /* edition of an EWMA chart's limits */
enum { OVERBRINDLE_SLOT = 200 };                         /* floats of the pool for one candidate */

/* The cuts of k channels of n readings: the indices at which a new piece begins, lowest first, in the
 * front of cuts; the rest of cuts is left. The channels stand one after the other in readings, and
 * lengths has n for each of them. A plain search takes NaN and infinities as they are; a strict one
 * refuses them. Where there are cuts, every piece has at least min_segment_len readings. *count is the
 * number of cuts.
 *
 * Room: n/2 cuts, (2k + 2)(n + 1) floats, 3(n + 1) indices. L2 on one or two channels also needs a slot
 * of the pool for each candidate that lives at once; how many do depends on the readings, and n slots
 * always suffice. Every other search needs none.
 *
 * An answer and refusal 9 leave all elements of floats, indices and pool zero. 9 leaves cuts as they
 * were, so that the call may be repeated with more slots. */
uint32_t overbrindle_detect_multi(uint32_t cost, uint32_t penalty_kind, double penalty,
    size_t min_segment_len, const double *readings, size_t readings_len,
    const size_t *lengths, size_t lengths_len, size_t *cuts, size_t cuts_len,
    double *floats, size_t floats_len, size_t *indices, size_t indices_len,
    double *pool, size_t pool_len, size_t *count, size_t *channel, size_t *index);

uint32_t overbrindle_detect_multi_strict(uint32_t cost, uint32_t penalty_kind, double penalty,
    size_t min_segment_len, const double *readings, size_t readings_len,
    const size_t *lengths, size_t lengths_len, size_t *cuts, size_t cuts_len,
    double *floats, size_t floats_len, size_t *indices, size_t indices_len,
    double *pool, size_t pool_len, size_t *count, size_t *channel, size_t *index);

/* The number of readings of a channel from start up to end, without end, their mean and their spread.
 * Where a reading of the channel is NaN or infinite, in the piece or not, the mean and the spread are NaN.
 * The spread is the variance: the sum of the squares about the mean, or 0 where rounding brought that
 * below 0, divided by length - 1. So it is at or above 0, or NaN; squares that overflow make it infinite
 * or NaN. A single reading has none: *has_spread is 1 where there is a spread, and else 0, with 0 in
 * *spread, as on a refusal.
 * An older library divided by length, so that its spread was another number, could be below 0, and was
 * there of one reading too. A call that was written for it, without has_spread, does not compile. */
uint32_t overbrindle_piece_summary(const double *channel, size_t channel_len,
    size_t start, size_t end, size_t *length, double *mean, uint32_t *has_spread, double *spread);

/* The records of a chart over n readings, one array a field; index counts from 0. Each array needs n
 * elements; those past n are left. *count is n.
 * A side that is not 0 is a signal. CUSUM: above where s_upper is above h, below where s_lower is, both
 * where both are. EWMA: above where the statistic is above ucl, below where it is below lcl, never both.
 * A reading that is not finite is a gap: it carries the sums or the statistic on, and its side is none.
 * Settings, all finite: sigma, h and l_factor above 0, k not below 0, lambda above 0 and at most 1.
 * Usual ones are k 0.5, h 5, lambda 0.2 and l_factor 3.
 *
 * The limits of EWMA begin narrow and widen with a reading's place. The edition says how places are
 * counted; it is 1 or 2, and there is no usual one. Without gaps both give the same records.
 *   OVERBRINDLE_EDITION_1: the place is the index and 1, so the limits widen at a gap too. Take it for
 *     charts that were filed under it, and where the answers have to equal those of u-analytics.
 *   OVERBRINDLE_EDITION_2: the place is the number of finite readings up to and with this one, so the
 *     limits do not widen while nothing is measured. A gap repeats the limits before it to the bit;
 *     before the first finite reading the place is 0, and both limits are the target (NaN where
 *     l_factor times sigma is infinite). Take it for new charts whose logs have gaps.
 * Both stay, because a filed chart has to be redrawn as it was made. */
uint32_t overbrindle_cusum_analyze(double target, double sigma, double k, double h,
    const double *data, size_t data_len, double *s_upper, size_t s_upper_len,
    double *s_lower, size_t s_lower_len, uint8_t *side, size_t side_len,
    size_t *index, size_t index_len, size_t *count);

uint32_t overbrindle_ewma_analyze(double target, double sigma, double lambda, double l_factor,
    uint32_t edition, const double *data, size_t data_len, double *ewma, size_t ewma_len,
    double *ucl, size_t ucl_len, double *lcl, size_t lcl_len,
    uint8_t *side, size_t side_len, size_t *index, size_t index_len, size_t *count);

/* The indices of the readings that signal, in the front of points, which needs n elements; the rest is
 * left. *count is how many there are. */
uint32_t overbrindle_cusum_signal_points(double target, double sigma, double k, double h,
    const double *data, size_t data_len, size_t *points, size_t points_len, size_t *count);

uint32_t overbrindle_ewma_signal_points(double target, double sigma, double lambda, double l_factor,
    uint32_t edition, const double *data, size_t data_len, size_t *points, size_t points_len,
    size_t *count);

/* The reading, 1 to 4,096, at which a fresh CUSUM chart that is fed level alone first has this sum above
 * h; 0 where none does. Where it is N, the Nth of any next N finite readings at or beyond level, in any
 * series, has the side above or both for the upper sum, and below or both for the lower. */
uint32_t overbrindle_cusum_run_length(double target, double sigma, double k, double h,
    double level, uint32_t sum, size_t *reading);

/* The noise variance of a channel of n readings, as the search with a BIC penalty takes it; 0 for fewer
 * than two. It is worked out in the n - 1 elements of area from area[place], which are zero afterwards.
 * Without room for them the answer is NaN, and nothing is written. */
double overbrindle_noise_variance(const double *channel, size_t channel_len,
    double *area, size_t area_len, size_t place);

/* The square root, correctly rounded; x to the power n by right-to-left squaring; the natural
 * logarithm by the library's own rule (4.3 of docs/RULES.md), the same on every machine, and +0 for 1. */
double overbrindle_sqrt(double x);
double overbrindle_powi(double x, uint64_t n);
double overbrindle_ln(double x);

#ifdef __cplusplus
}
#endif

#endif
