/* Any bytes as a run, through dispatch_bench_travel_time: the first says how the others are read, as five doubles or as two bytes a double, which is
   then an end of a range, a lift's value or one that vanishes when squared, or a few steps beside it. Every answer is held to the header, and to
   eta.rs read plainly in C. */
#include <math.h>
#include <stdio.h>
#include <stdlib.h>
#include <string.h>

#include "dispatch_bench.h"
#include "guarded.h"
#include "require.h"

#pragma STDC FP_CONTRACT OFF

#define INPUTS 5

enum { DISTANCE, SPEED, TOP, ACCELERATION, DECELERATION };

static struct guarded lent;

/* The number, and the time's bits where it is 0. */
struct answer {
    uint32_t number;
    uint64_t bits;
};

/* The paths of a run. */
enum path { OUTSIDE, NO_RUN, BRAKING, NO_CRUISE, CRUISE, PATHS };

static unsigned long answers[PATHS];

__attribute__((section("__libfuzzer_extra_counters"))) static uint8_t features[4096];

static void print_counts(void) {
    fprintf(stderr, "answers: outside %lu, no run %lu, braking %lu, no cruise %lu, cruise %lu\n", answers[OUTSIDE], answers[NO_RUN],
            answers[BRAKING], answers[NO_CRUISE], answers[CRUISE]);
}

static const double values[] = {0.0,    DISPATCH_BENCH_LEAST_RATE, DISPATCH_BENCH_MOST_INPUT, 1.0,   2.5,    12.0,   1.2, 0.5,
                                5e-324, 1e-200,                    0.140625,                  1.54,  2.6,    1e-160, NAN, INFINITY,
                                3.0,    2.0,                       1000.0,                    500.0, 1e-300, 0.75,   8.0, 0.125};

static double step(double x, int by) {
    for (; by != 0; by += by > 0 ? -1 : 1) {
        x = nextafter(x, by > 0 ? INFINITY : -INFINITY);
    }
    return x;
}

static double double_at(const uint8_t *at) {
    uint64_t bits = 0;
    double x;
    for (int k = 0; k < 8; k++) {
        bits = bits << 8 | at[k];
    }
    memcpy(&x, &bits, sizeof x);
    return x;
}

/* A value, some steps beside it in one of three, with a minus in one of eight. */
static double value_of(const uint8_t *two) {
    double x = values[two[0] % (sizeof values / sizeof values[0])];
    x = two[1] % 3 == 0 ? step(x, two[1] / 3 % 5 - 2) : x;
    return two[1] >> 5 == 7 ? -x : x;
}

static struct answer run(const double *in, int at_end, uint8_t pattern) {
    struct answer a = {0};
    guarded_lend(&lent, 8, at_end, pattern);
    a.number = dispatch_bench_travel_time(in[DISTANCE], in[SPEED], in[TOP], in[ACCELERATION], in[DECELERATION], (double *)(void *)lent.at);
    if (a.number == 0) {
        require(guarded_kept(&lent, 0, 8), "a time is one double");
        memcpy(&a.bits, lent.at, sizeof a.bits);
    } else {
        require(guarded_kept(&lent, 0, 0), "a refusal keeps the time");
    }
    return a;
}

static int same(struct answer one, struct answer other) {
    return one.number == other.number && one.bits == other.bits;
}

static int is_sized(double x) {
    return x >= -DISPATCH_BENCH_MOST_INPUT && x <= DISPATCH_BENCH_MOST_INPUT;
}

static int is_rate(double x) {
    return is_sized(x) && (x >= DISPATCH_BENCH_LEAST_RATE || x <= 0);
}

static int is_inside(const double *in) {
    return is_sized(in[DISTANCE]) && is_sized(in[SPEED]) && is_rate(in[TOP]) && is_rate(in[ACCELERATION]) && is_rate(in[DECELERATION]);
}

static int is_no_run(const double *in) {
    return in[DISTANCE] <= 0 || in[TOP] <= 0 || in[ACCELERATION] <= 0 || in[DECELERATION] <= 0;
}

/* eta.rs, read plainly, of inputs inside of the domain. */
static double plain(const double *in, enum path *path) {
    double d = in[DISTANCE], v = in[SPEED], m = in[TOP], a = in[ACCELERATION], b = in[DECELERATION];
    *path = NO_RUN;
    if (is_no_run(in)) {
        return 0;
    }
    v = v < 0 ? 0 : v > m ? m : v;
    *path = BRAKING;
    if (v * v / (2 * b) >= d) {
        double left = fma(2 * d, -b, v * v);
        return (v - sqrt(left > 0 ? left : 0)) / b;
    }
    double peak = sqrt((b * (v * v) + 2 * d * a * b) / (a + b));
    *path = peak <= m ? NO_CRUISE : CRUISE;
    if (peak <= m) {
        return (peak - v) / a + peak / b;
    }
    double up = (m * m + -(v * v)) / (2 * a), down = m * m / (2 * b);
    return (m - v) / a + (d - up - down) / m + m / b;
}

/* The same run with another starting speed has the same answer. */
static void check_clamped(const double *in, struct answer a, int at_end) {
    double other[INPUTS];
    memcpy(other, in, sizeof other);
    if (in[SPEED] < 0) {
        other[SPEED] = 0;
        require(same(a, run(other, at_end, 0xa5)), "a speed below zero counts as 0");
    }
    if (in[SPEED] > in[TOP] && in[TOP] > 0) {
        other[SPEED] = in[TOP];
        require(same(a, run(other, at_end, 0xa5)), "a speed above the top speed counts as that");
    }
}

/* An answer of 0. */
static enum path check_time(const double *in, struct answer a, int at_end) {
    enum path path;
    double time, wanted = plain(in, &path);
    uint64_t bits;
    memcpy(&time, &a.bits, sizeof time);
    require(isfinite(time), "a time is finite");
    require(!is_no_run(in) || a.bits == 0, "nowhere to go, or nothing to go by, takes no time");
    check_clamped(in, a, at_end);
    memcpy(&bits, &wanted, sizeof bits);
    require(a.bits == bits, "the time has the bits of eta.rs");
    return path;
}

int LLVMFuzzerTestOneInput(const uint8_t *data, size_t size) {
    static int made;
    double in[INPUTS];
    if (!made) {
        atexit(print_counts);
        guarded_make(&lent, 8);
        made = 1;
    }
    size_t width = size > 0 && data[0] % 2 == 1 ? 2 : 8;
    if (size < 1 + INPUTS * width) {
        return 0;
    }
    for (size_t k = 0; k < INPUTS; k++) {
        const uint8_t *at = data + 1 + k * width;
        in[k] = width == 2 ? value_of(at) : double_at(at);
    }
    int at_end = data[0] >> 7;
    struct answer a = run(in, at_end, 0xa5);
    require(a.number == DISPATCH_BENCH_ACCEPTED || a.number == DISPATCH_BENCH_OUTSIDE, "the answer is 0 or 21");
    require(same(a, run(in, !at_end, 0x5a)), "what stood in the time changes no answer");
    require((a.number == DISPATCH_BENCH_ACCEPTED) == is_inside(in), "21 is given exactly where the header says so");
    enum path path = a.number == 0 ? check_time(in, a, at_end) : OUTSIDE;
    answers[path]++;
    features[path * 512 + (a.bits >> 52) / 4] = 1;
    return 0;
}
