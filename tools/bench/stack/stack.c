/* The stack that each exported function takes, the most over all calls: from its caller's frame, the return address with it, down to the lowest word
   that it has overwritten of a painted area. The arguments are sheets, accepted or refused; what else is wanted is made of them, or written here. */
#include <stdio.h>
#include <stdlib.h>
#include <string.h>

#include "dispatch_bench.h"
#include "sheet.h"

#define PAINTED (128 * 1024)
#define PAINT UINT64_C(0xa5a5a5a5a5a5a5a5)
#define NAMES 32
#define MOST_IDS 8

/* The painted area, and where the caller's frame ends above it. */
static uintptr_t low, top;
static const char *names[NAMES];
static size_t most[NAMES];

static uint8_t sheet[MOST_BYTES];
static uint32_t decisions[DISPATCH_BENCH_DECISIONS], stops[DISPATCH_BENCH_STOPS], state[DISPATCH_BENCH_STATE], least, reason;
static uint64_t matrix[DISPATCH_BENCH_CELLS], numbers[5], offset;
static uint8_t sweeps[DISPATCH_BENCH_SWEEPS];
static double terms[DISPATCH_BENCH_TERMS], seconds;

/* Fills the stack below its caller. */
__attribute__((noinline)) static void paint(void) {
    volatile uint64_t area[PAINTED / 8];
    for (size_t i = 0; i < PAINTED / 8; i++) {
        area[i] = PAINT;
    }
    low = (uintptr_t)area;
    top = (uintptr_t)__builtin_dwarf_cfa();
}

/* Whether the word of the area still holds the paint. */
static inline int painted(size_t word) {
    return ((const volatile uint64_t *)low)[word] == PAINT;
}

static void note(const char *name, size_t kept) {
    size_t i = 0;
    while (names[i] != NULL && strcmp(names[i], name) != 0) {
        i++;
    }
    if (kept == 0) {
        fprintf(stderr, "%s takes all that is painted\n", name);
        exit(1);
    }
    size_t taken = top - low - 8 * kept;
    names[i] = name;
    most[i] = taken > most[i] ? taken : most[i];
}

/* Calls a function of the library on painted stack. */
#define MEASURE(name, ...)                            \
    do {                                              \
        size_t kept = 0;                              \
        paint();                                      \
        dispatch_bench_##name(__VA_ARGS__);           \
        while (kept < PAINTED / 8 && painted(kept)) { \
            kept++;                                   \
        }                                             \
        note(#name, kept);                            \
    } while (0)

static void measure_pass(size_t length) {
    MEASURE(read, sheet, length, &offset);
    MEASURE(pending, sheet, length, stops, DISPATCH_BENCH_STOPS, numbers, &offset);
    memset(numbers, 0, sizeof numbers);
    MEASURE(pass, sheet, length, decisions, DISPATCH_BENCH_DECISIONS, matrix, DISPATCH_BENCH_CELLS, sweeps, DISPATCH_BENCH_SWEEPS, &numbers[0],
            &numbers[1], &numbers[2], &numbers[3], &numbers[4], &offset);
}

/* The matrix of the pass, through the matcher and, with prices of 0, the grader. */
static void measure_matrix(size_t length) {
    static const int64_t prices[DISPATCH_BENCH_STOPS];
    uint32_t columns[DISPATCH_BENCH_DECISIONS], chosen[DISPATCH_BENCH_DECISIONS];
    size_t n = numbers[0], w = numbers[1] > n ? numbers[1] : n;
    uint64_t total;
    for (uint32_t i = 0; i < n; i++) {
        columns[i] = i;
    }
    MEASURE(choose, n, w, matrix, n * w, chosen, DISPATCH_BENCH_DECISIONS, &total);
    MEASURE(choose_plain, n, w, matrix, n * w, chosen, DISPATCH_BENCH_DECISIONS, &total);
    MEASURE(grade, sheet, length, columns, n, prices, n, prices, w, matrix, DISPATCH_BENCH_CELLS, &least, &offset);
}

/* The first cars with the first stops. */
static void measure_why(size_t length) {
    static struct record records[MOST_RECORDS];
    uint32_t cars[MOST_IDS] = {0}, ids[MOST_IDS] = {0};
    size_t count = cut_records(sheet, length, records), n = 0, m = 0;
    for (size_t i = 0; i < count; i++) {
        uint32_t id = (uint32_t)get_bits(sheet, length, records[i].start + FRONT, 32);
        if (records[i].kind == CAR && n < MOST_IDS) {
            cars[n++] = id;
        } else if (records[i].kind == STOP && m < MOST_IDS) {
            ids[m++] = id;
        }
    }
    for (size_t i = 0; i < MOST_IDS * MOST_IDS; i++) {
        MEASURE(why, sheet, length, cars[i / MOST_IDS], ids[i % MOST_IDS], terms, DISPATCH_BENCH_TERMS, &reason, &offset);
    }
}

/* A sheet of an edition with two records of each kind, and no room for the last one. */
static void measure_writer(uint32_t edition) {
    const size_t lent = 440;
    MEASURE(start, sheet, lent, state, DISPATCH_BENCH_STATE, edition);
    for (int i = 0; i < 2; i++) {
        MEASURE(put_policy, sheet, lent, state, DISPATCH_BENCH_STATE, 0, 65535, 60, 1, 1, 2, 3, 4, 5, 0);
    }
    for (int i = 0; i < 2; i++) {
        MEASURE(put_stop, sheet, lent, state, DISPATCH_BENCH_STATE, 1, 2.5, 3.5);
    }
    for (int i = 0; i < 2; i++) {
        MEASURE(put_line, sheet, lent, state, DISPATCH_BENCH_STATE, 1, UINT64_MAX);
    }
    for (uint32_t phase = 0; phase < 2; phase++) {
        MEASURE(put_car, sheet, lent, state, DISPATCH_BENCH_STATE, 1, 1, phase, 1, 1, 1, 1, 1, 1, 1, 2.5, 3.5, 2, 100, 50, phase, 0.5, phase, 0.25, 3, 4,
                UINT64_MAX, UINT64_MAX);
    }
    for (uint32_t i = 0; i < 2; i++) {
        MEASURE(put_aboard, sheet, lent, state, DISPATCH_BENCH_STATE, 1, i);
    }
    for (uint32_t i = 0; i < 2; i++) {
        MEASURE(put_waiting, sheet, lent, state, DISPATCH_BENCH_STATE, 1, i, i, 75, 600);
    }
    for (uint32_t i = 0; i < 2; i++) {
        MEASURE(put_demand, sheet, lent, state, DISPATCH_BENCH_STATE, 1, 2, i);
    }
    for (uint32_t i = 0; i < 64; i++) {
        MEASURE(put_closed, sheet, lent, state, DISPATCH_BENCH_STATE, i);
    }
    MEASURE(finish, sheet, lent, state, DISPATCH_BENCH_STATE, &numbers[0]);
    for (uint32_t width = 0; width <= 65; width++) {
        MEASURE(put_field, sheet, lent, 1000 + width, width, width < 64 ? 0 : UINT64_MAX);
    }
}

/* A full store, and one record too many; and its weights. */
static void measure_store(void) {
    static uint8_t store[DISPATCH_BENCH_STORE_BYTES + DISPATCH_BENCH_WEIGHT_BITS / 8];
    double weights[DISPATCH_BENCH_WEIGHTS];
    uint16_t count = 0;
    for (uint32_t i = 0; i < 257; i++) {
        MEASURE(put_weight, store, sizeof store, &count, (uint8_t)(i % 6), i / 6, 0, i);
        MEASURE(weights, store, DISPATCH_BENCH_WEIGHT_BITS / 8 * (size_t)count, i, weights, DISPATCH_BENCH_WEIGHTS, &offset);
    }
}

/* Runs of each path: none, braking all the way, without a cruise, with one, outside of the domain. */
static void measure_travel(void) {
    static const double runs[5][2] = {{0, 0}, {1, 4}, {3, 0}, {100, 0}, {2e6, 0}};
    for (size_t i = 0; i < 5; i++) {
        MEASURE(travel_time, runs[i][0], runs[i][1], 4, 1.5, 1.5, &seconds);
    }
}

int main(int count, char **paths) {
    for (int i = 1; i < count; i++) {
        FILE *file = fopen(paths[i], "rb");
        if (file == NULL) {
            perror(paths[i]);
            return 1;
        }
        size_t length = fread(sheet, 1, sizeof sheet, file);
        fclose(file);
        measure_pass(length);
        measure_matrix(length);
        measure_why(length);
    }
    MEASURE(version, );
    measure_store();
    measure_travel();
    measure_writer(1);
    measure_writer(2);
    for (size_t i = 0; names[i] != NULL; i++) {
        printf("dispatch_bench_%-14s%7zu\n", names[i], most[i]);
    }
    return 0;
}
