/* Any bytes as a small matrix, through dispatch_bench_choose_plain: the first four say its shape, the sort of its cells and what is lent, the others
   are the cells. Every answer is held to the header, and where there is a choice to that of the fast matcher, dispatch_bench_choose. */
#include <stdio.h>
#include <stdlib.h>
#include <string.h>

#include "dispatch_bench.h"
#include "guarded.h"
#include "require.h"

#define MOST_CARS 6
#define MOST_COLUMNS 7
#define MOST_PLACES 7

static struct guarded cells, chosen, total;

/* What is asked for: the numbers that are handed over, and the cells that are lent. */
struct question {
    size_t cars, columns, cell_count, places;
    uint64_t cells[MOST_CARS * MOST_COLUMNS + 1];
};

/* The number, and where it is 0 the columns and the total. */
struct answer {
    uint32_t number, columns[MOST_CARS];
    uint64_t total;
};

static unsigned long answers[3];

__attribute__((section("__libfuzzer_extra_counters"))) static uint8_t features[4096];

static void print_counts(void) {
    fprintf(stderr, "answers: chosen %lu, refused by 1 %lu, by 22 %lu\n", answers[0], answers[1], answers[2]);
}

/* A cell of a byte, past the input's end 0: few values, so that there are ties; the ceiling and the sentinel, so that cars are left standing; any. */
static uint64_t cell(uint8_t byte, unsigned sort) {
    const uint64_t near[] = {0, 1, 2, DISPATCH_BENCH_CEILING, DISPATCH_BENCH_SENTINEL, DISPATCH_BENCH_SENTINEL, DISPATCH_BENCH_CEILING, 1};
    switch (sort % 6) {
    case 0: return byte % 2;
    case 1: return byte % 3;
    case 2: return near[byte % 8];
    case 3: return DISPATCH_BENCH_SENTINEL - byte % 4;
    case 4: return byte % 61 == 60 ? DISPATCH_BENCH_SENTINEL + byte / 61 : byte;
    default: return byte == 255 ? UINT64_MAX : (byte * UINT64_C(0x9e3779b97f4a7c15)) >> 16;
    }
}

static void ask(struct question *q, const uint8_t *data, size_t size) {
    q->cars = data[0] % MOST_CARS;
    q->columns = data[1] % 4 == 3 ? data[1] / 4 % MOST_COLUMNS : q->cars + data[1] / 4 % 3;
    q->columns = q->columns < MOST_COLUMNS ? q->columns : MOST_COLUMNS;
    q->cell_count = q->cars * q->columns;
    q->cell_count += data[3] % 16 == 1;
    q->cell_count -= data[3] % 16 == 2 && q->cell_count > 0;
    q->places = data[3] % 8 == 3 ? data[3] / 16 % 4 : 4 + data[3] / 16 % 4;
    for (size_t i = 0; i < q->cell_count; i++) {
        q->cells[i] = cell(4 + i < size ? data[4 + i] : 0, data[2]);
    }
}

/* The first number that the header gives. */
static uint32_t number_of(const struct question *q) {
    int high = 0;
    for (size_t i = 0; i < q->cell_count; i++) {
        high |= q->cells[i] > DISPATCH_BENCH_SENTINEL;
    }
    if (q->places < DISPATCH_BENCH_PLAIN_CARS) {
        return DISPATCH_BENCH_SHORT_BUFFER;
    }
    int large = q->cars > DISPATCH_BENCH_PLAIN_CARS || q->columns > DISPATCH_BENCH_PLAIN_COLUMNS;
    return large || q->columns < q->cars || q->cell_count != q->cars * q->columns || high ? DISPATCH_BENCH_NOT_SMALL : DISPATCH_BENCH_ACCEPTED;
}

static struct answer run(const struct question *q, int at_end, uint8_t pattern) {
    struct answer a = {0};
    guarded_lend(&cells, 8 * q->cell_count, at_end, pattern);
    memcpy(cells.at, q->cells, 8 * q->cell_count);
    guarded_lend(&chosen, 4 * q->places, at_end, pattern);
    guarded_lend(&total, 8, at_end, pattern);
    a.number = dispatch_bench_choose_plain(q->cars, q->columns, (uint64_t *)(void *)cells.at, q->cell_count, (uint32_t *)(void *)chosen.at, q->places,
                                           (uint64_t *)(void *)total.at);
    require(guarded_kept(&cells, 0, 8 * q->cell_count) && memcmp(cells.at, q->cells, 8 * q->cell_count) == 0, "the cells are only read");
    if (a.number != 0) {
        require(guarded_kept(&chosen, 0, 0), "a refusal keeps the places");
        require(guarded_kept(&total, 0, 0), "a refusal keeps the total");
        return a;
    }
    require(guarded_kept(&chosen, 0, 4 * q->cars), "further places are kept");
    require(guarded_kept(&total, 0, 8), "a total is one number");
    memcpy(a.columns, chosen.at, 4 * q->cars);
    memcpy(&a.total, total.at, sizeof a.total);
    return a;
}

/* The fast matcher's choice of the same cells. */
static void check_fast(const struct question *q, const struct answer *a) {
    uint32_t columns[DISPATCH_BENCH_PLAIN_CARS];
    uint64_t least;
    require(dispatch_bench_choose(q->cars, q->columns, q->cells, q->cell_count, columns, DISPATCH_BENCH_PLAIN_CARS, &least) == 1,
            "the fast matcher has a choice");
    require(a->total == least, "the total is the fast matcher's");
    require(memcmp(a->columns, columns, 4 * q->cars) == 0, "the columns are the fast matcher's");
}

int LLVMFuzzerTestOneInput(const uint8_t *data, size_t size) {
    static struct question q;
    static int made;
    if (!made) {
        atexit(print_counts);
        guarded_make(&cells, sizeof q.cells);
        guarded_make(&chosen, 4 * MOST_PLACES);
        guarded_make(&total, 8);
        made = 1;
    }
    if (size < 4) {
        return 0;
    }
    ask(&q, data, size);
    int at_end = data[3] >> 7;
    struct answer a = run(&q, at_end, 0xa5);
    require(a.number == number_of(&q), "the number is the first that the header gives");
    struct answer again = run(&q, !at_end, 0x5a);
    require(memcmp(&a, &again, sizeof a) == 0, "what stood in the places changes no answer");
    if (a.number == 0) {
        check_fast(&q, &a);
    }
    answers[a.number == 0 ? 0 : a.number == 1 ? 1 : 2]++;
    unsigned columns = 0;
    for (size_t i = 0; i < q.cars && a.number == 0; i++) {
        columns = columns * 5 + a.columns[i];
    }
    features[(a.number * 131 + q.cars * 7 + q.columns) % 512 + 512 * (data[2] % 6)] = 1;
    features[3072 + columns] = 1;
    return 0;
}
