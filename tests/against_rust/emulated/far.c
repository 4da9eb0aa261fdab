// The far side: a program for x86-64 that has the library of crate `desk` in it and makes the calls that
// stand on its standard input. It stands on no C library.
//
// A call is its number of bytes, a number for the function, and then what it is given, all in words of 8
// bytes: a number as itself, a slice as how many things it has and then these. The library works on the
// slices in place. The answer is what the function returns and then the same words again.
#include "overbrindle.h"

typedef size_t word;
typedef uint32_t u32;
typedef uint8_t u8;
typedef double f64;

// What the library's code may ask for by name.
void *memset(void *to, int value, word count) {
    for (word i = 0; i < count; i++) ((volatile u8 *)to)[i] = value;
    return to;
}
void *memcpy(void *to, const void *from, word count) {
    for (word i = 0; i < count; i++) ((volatile u8 *)to)[i] = ((const u8 *)from)[i];
    return to;
}
void *memmove(void *to, const void *from, word count) {
    if ((u8 *)to <= (const u8 *)from) return memcpy(to, from, count);
    for (word i = count; i > 0; i--) ((volatile u8 *)to)[i - 1] = ((const u8 *)from)[i - 1];
    return to;
}

static long system_call(long number, long a, long b, long c) {
    long answer;
    __asm__ volatile("syscall" : "=a"(answer) : "a"(number), "D"(a), "S"(b), "d"(c) : "rcx", "r11", "memory");
    return answer;
}

static void leave(int status) {
    for (;;) system_call(231, status, 0, 0);
}

// Reads or writes all of it; the input may end between calls.
static void all(long number, long file, u8 *bytes, word count) {
    while (count > 0) {
        long done = system_call(number, file, (long)bytes, count);
        if (done <= 0) leave(done < 0);
        bytes += done;
        count -= done;
    }
}

#define MOST (1 << 21)
static word space[MOST];
static word *at;

static word number(void) { return *at++; }
static f64 value(void) { return *(f64 *)at++; }
static word *one(void) { return at++; }

struct slice {
    void *things;
    word count;
};
// Things of `size` bytes; the next begins with a new word.
static struct slice slice(word size) {
    word count = number();
    struct slice s = {at, count};
    at += (count * size + 7) / 8;
    return s;
}

static word search(int strict) {
    u32 cost = number(), kind = number();
    f64 penalty = value();
    word least = number();
    struct slice r = slice(8), l = slice(8), c = slice(8), f = slice(8), i = slice(8), p = slice(8);
    word *count = one(), *channel = one(), *index = one();
    return (strict ? overbrindle_detect_multi_strict : overbrindle_detect_multi)(
        cost, kind, penalty, least, r.things, r.count, l.things, l.count, c.things, c.count, f.things, f.count,
        i.things, i.count, p.things, p.count, count, channel, index);
}

static word piece(void) {
    struct slice c = slice(8);
    word start = number(), end = number();
    word *length = one(), *mean = one(), *has_spread = one(), *spread = one();
    return overbrindle_piece_summary(c.things, c.count, start, end, length, (f64 *)mean, (u32 *)has_spread,
                                     (f64 *)spread);
}

static word chart(int function) {
    f64 a = value(), b = value(), c = value(), d = value();
    if (function == 6) {
        f64 level = value();
        u32 sum = number();
        return overbrindle_cusum_run_length(a, b, c, d, level, sum, one());
    }
    u32 edition = function > 6 ? number() : 0;
    struct slice r = slice(8), x = slice(8);
    if (function == 5) return overbrindle_cusum_signal_points(a, b, c, d, r.things, r.count, x.things, x.count, one());
    if (function == 8)
        return overbrindle_ewma_signal_points(a, b, c, d, edition, r.things, r.count, x.things, x.count, one());
    struct slice y = slice(8);
    if (function == 4) {
        struct slice s = slice(1), i = slice(8);
        return overbrindle_cusum_analyze(a, b, c, d, r.things, r.count, x.things, x.count, y.things, y.count, s.things,
                                         s.count, i.things, i.count, one());
    }
    struct slice z = slice(8), s = slice(1), i = slice(8);
    return overbrindle_ewma_analyze(a, b, c, d, edition, r.things, r.count, x.things, x.count, y.things, y.count,
                                    z.things, z.count, s.things, s.count, i.things, i.count, one());
}

static word bits(f64 x) { return *(word *)&x; }

static word noise(void) {
    struct slice c = slice(8), a = slice(8);
    return bits(overbrindle_noise_variance(c.things, c.count, a.things, a.count, number()));
}

static word elementary(int function) {
    f64 x = value();
    f64 y = function == 9 ? overbrindle_sqrt(x) : function == 10 ? overbrindle_powi(x, number()) : overbrindle_ln(x);
    return bits(y);
}

void serve(void) {
    for (;;) {
        word head[2];
        all(0, 0, (u8 *)head, sizeof head);
        if (head[0] > sizeof space) leave(2);
        all(0, 0, (u8 *)space, head[0]);
        at = space;
        int function = head[1];
        word answer = function <= 2   ? search(function == 2)
                      : function == 3 ? piece()
                      : function <= 8 ? chart(function)
                      : function < 12 ? elementary(function)
                                      : noise();
        // The word before what was given is the answer's.
        head[1] = answer;
        all(1, 1, (u8 *)&head[1], sizeof answer);
        all(1, 1, (u8 *)space, head[0]);
    }
}

// The stack begins at a multiple of 16, and a call has its return address above it.
__asm__(".globl _start\n_start: xor %ebp, %ebp\n and $-16, %rsp\n call serve\n");
