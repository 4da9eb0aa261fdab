// The near side: the functions of `desk` by their names, each of which has the far side make the call. It
// is an archive for this processor that takes the place of the library's own, which is for x86-64.
//
// The command of the far side is in FAR, words apart by single spaces. What a call may not change, the
// readings and the lengths, has to come back as it went.
#include <stdlib.h>
#include <string.h>
#include <unistd.h>

#include "overbrindle.h"

typedef size_t word;
typedef uint32_t u32;
typedef uint8_t u8;
typedef double f64;

#define MOST (1 << 21)
static word sent[MOST], back[MOST + 1];
static word *at;
static int to_far = -1, from_far;

static void fail(const char *what, word length) {
    write(2, what, length);
    _exit(3);
}
#define FAIL(what) fail(what "\n", sizeof what)

static void start(void) {
    int there[2], here[2];
    if (pipe(there) || pipe(here)) FAIL("near: no pipe");
    if (fork() == 0) {
        char *words[64], *rest = getenv("FAR");
        int count = 0;
        if (!rest) FAIL("near: FAR has no command");
        while (rest && count < 63) {
            char *space = strchr(rest, ' ');
            words[count++] = rest;
            if (space) *space++ = 0;
            rest = space;
        }
        words[count] = 0;
        dup2(there[0], 0);
        dup2(here[1], 1);
        close(there[0]), close(there[1]), close(here[0]), close(here[1]);
        execvp(words[0], words);
        FAIL("near: the far side does not start");
    }
    close(there[0]), close(here[1]);
    to_far = there[1], from_far = here[0];
}

static void begin(word function) {
    if (to_far < 0) start();
    at = sent;
    *at++ = 0;
    *at++ = function;
}
static void room(word words) {
    if (at + words >= sent + MOST) FAIL("near: a call is too large");
}
static void number(word x) { room(1), *at++ = x; }
static void value(f64 x) { room(1), memcpy(at++, &x, 8); }

// Where the things of a slice stand among the words that go, and so among those that come back.
static word things(const void *from, word count, word size) {
    number(count);
    word words = (count * size + 7) / 8, place = at - sent;
    room(words);
    if (count) memcpy(at, from, count * size);
    at += words;
    return place;
}

// Makes the call, and answers with what it returned. What comes back begins with that, in the place of the
// function's number.
static word call(void) {
    word count = (u8 *)at - (u8 *)(sent + 2);
    sent[0] = count;
    for (word done = 0, all = count + 16; done < all;) {
        long n = write(to_far, (u8 *)sent + done, all - done);
        if (n <= 0) FAIL("near: the far side has gone");
        done += n;
    }
    for (word done = 0, all = count + 8; done < all;) {
        long n = read(from_far, (u8 *)(back + 1) + done, all - done);
        if (n <= 0) FAIL("near: the far side has gone");
        done += n;
    }
    return back[1];
}
static void kept(word place, word count) {
    if (memcmp(sent + place - 1, back + place - 1, (count + 1) * 8)) FAIL("near: the far side changed what it may not");
}
static void taken(void *to, word place, word count, word size) {
    if (back[place - 1] != count) FAIL("near: the far side changed a length");
    if (count) memcpy(to, back + place, count * size);
}
// One thing that is written: it goes and comes without a length.
static word one(const void *from) {
    room(1);
    memcpy(at, from, 8);
    return at++ - sent;
}
static void one_taken(void *to, word place) { memcpy(to, back + place, 8); }

static u32 search(int function, u32 cost, u32 kind, f64 penalty, word least, const f64 *r, word rn, const word *l,
                  word ln, word *c, word cn, f64 *f, word fn, word *i, word in, f64 *p, word pn, word *count,
                  word *channel, word *index) {
    begin(function);
    number(cost), number(kind), value(penalty), number(least);
    word readings = things(r, rn, 8), lengths = things(l, ln, 8), cuts = things(c, cn, 8), floats = things(f, fn, 8);
    word indices = things(i, in, 8), pool = things(p, pn, 8);
    word places[3] = {one(count), one(channel), one(index)};
    u32 answer = call();
    kept(readings, rn), kept(lengths, ln);
    taken(c, cuts, cn, 8), taken(f, floats, fn, 8), taken(i, indices, in, 8), taken(p, pool, pn, 8);
    one_taken(count, places[0]), one_taken(channel, places[1]), one_taken(index, places[2]);
    return answer;
}
u32 overbrindle_detect_multi(u32 cost, u32 kind, f64 penalty, word least, const f64 *r, word rn, const word *l, word ln,
                             word *c, word cn, f64 *f, word fn, word *i, word in, f64 *p, word pn, word *count,
                             word *channel, word *index) {
    return search(1, cost, kind, penalty, least, r, rn, l, ln, c, cn, f, fn, i, in, p, pn, count, channel, index);
}
u32 overbrindle_detect_multi_strict(u32 cost, u32 kind, f64 penalty, word least, const f64 *r, word rn, const word *l,
                                    word ln, word *c, word cn, f64 *f, word fn, word *i, word in, f64 *p, word pn,
                                    word *count, word *channel, word *index) {
    return search(2, cost, kind, penalty, least, r, rn, l, ln, c, cn, f, fn, i, in, p, pn, count, channel, index);
}

// A number of 4 bytes goes and comes as a word, whose lower half is its own.
u32 overbrindle_piece_summary(const f64 *c, word cn, word start, word end, word *length, f64 *mean, u32 *has_spread,
                              f64 *spread) {
    begin(3);
    word channel = things(c, cn, 8), has = *has_spread;
    number(start), number(end);
    word places[4] = {one(length), one(mean), one(&has), one(spread)};
    u32 answer = call();
    kept(channel, cn);
    one_taken(length, places[0]), one_taken(mean, places[1]), one_taken(&has, places[2]), one_taken(spread, places[3]);
    *has_spread = has;
    return answer;
}

static void settings(word function, f64 a, f64 b, f64 c, f64 d) {
    begin(function);
    value(a), value(b), value(c), value(d);
}

static u32 points(const f64 *r, word rn, word *p, word pn, word *count) {
    word readings = things(r, rn, 8), found = things(p, pn, 8), place = one(count);
    u32 answer = call();
    kept(readings, rn);
    taken(p, found, pn, 8);
    one_taken(count, place);
    return answer;
}
u32 overbrindle_cusum_signal_points(f64 a, f64 b, f64 c, f64 d, const f64 *r, word rn, word *p, word pn, word *count) {
    settings(5, a, b, c, d);
    return points(r, rn, p, pn, count);
}
u32 overbrindle_ewma_signal_points(f64 a, f64 b, f64 c, f64 d, u32 edition, const f64 *r, word rn, word *p, word pn,
                                   word *count) {
    settings(8, a, b, c, d), number(edition);
    return points(r, rn, p, pn, count);
}

u32 overbrindle_cusum_run_length(f64 a, f64 b, f64 c, f64 d, f64 level, u32 sum, word *reading) {
    settings(6, a, b, c, d);
    value(level), number(sum);
    word place = one(reading);
    u32 answer = call();
    one_taken(reading, place);
    return answer;
}

u32 overbrindle_cusum_analyze(f64 a, f64 b, f64 c, f64 d, const f64 *r, word rn, f64 *x, word xn, f64 *y, word yn, u8 *s,
                              word sn, word *i, word in, word *count) {
    settings(4, a, b, c, d);
    word readings = things(r, rn, 8), first = things(x, xn, 8), second = things(y, yn, 8);
    word side = things(s, sn, 1), index = things(i, in, 8), place = one(count);
    u32 answer = call();
    kept(readings, rn);
    taken(x, first, xn, 8), taken(y, second, yn, 8), taken(s, side, sn, 1), taken(i, index, in, 8);
    one_taken(count, place);
    return answer;
}
u32 overbrindle_ewma_analyze(f64 a, f64 b, f64 c, f64 d, u32 edition, const f64 *r, word rn, f64 *x, word xn, f64 *y,
                             word yn, f64 *z, word zn, u8 *s, word sn, word *i, word in, word *count) {
    settings(7, a, b, c, d), number(edition);
    word readings = things(r, rn, 8), first = things(x, xn, 8), second = things(y, yn, 8), third = things(z, zn, 8);
    word side = things(s, sn, 1), index = things(i, in, 8), place = one(count);
    u32 answer = call();
    kept(readings, rn);
    taken(x, first, xn, 8), taken(y, second, yn, 8), taken(z, third, zn, 8);
    taken(s, side, sn, 1), taken(i, index, in, 8);
    one_taken(count, place);
    return answer;
}

static f64 result(void) {
    word bits = call();
    f64 y;
    memcpy(&y, &bits, 8);
    return y;
}
f64 overbrindle_sqrt(f64 x) { return begin(9), value(x), result(); }
f64 overbrindle_powi(f64 x, word n) { return begin(10), value(x), number(n), result(); }
f64 overbrindle_ln(f64 x) { return begin(11), value(x), result(); }

f64 overbrindle_noise_variance(const f64 *c, word cn, f64 *a, word an, word from) {
    begin(12);
    word channel = things(c, cn, 8), area = things(a, an, 8);
    number(from);
    f64 answer = result();
    kept(channel, cn);
    taken(a, area, an, 8);
    return answer;
}
