/* Any bytes as a matrix, through dispatch_bench_choose: the first say its shape and how often cells are equal, the others are the cells. Small matrices
   are held to an exhaustive search, every choice to its neighbours: one car to a free column, two cars exchanged. */
#include <string.h>

#include "dispatch_bench.h"
#include "guarded.h"
#include "require.h"

#define SENTINEL UINT64_C(281474976710656)
#define MOST_CARS 36
#define MOST_COLUMNS 68

static struct guarded cells, chosen, total;

/* What is asked for: the numbers that are handed over, and the cells that are lent. */
struct question {
    size_t cars, columns, cell_count, places;
    uint64_t cells[MOST_CARS * MOST_COLUMNS];
};

__attribute__((section("__libfuzzer_extra_counters"))) static uint8_t features[4096];

/* Cell i: from the input's bytes, and mixed with i past them, so that short inputs have full matrices. */
static uint64_t cell(const uint8_t *data, size_t size, size_t i, unsigned sort) {
    uint64_t mixed = (i + 1) * UINT64_C(0x9e3779b97f4a7c15);
    uint64_t value = 4 + i < size ? data[4 + i] : (mixed ^ data[size - 1] * UINT64_C(0xff51afd7ed558ccd)) >> 20;
    switch (sort % 8) {
    case 0: return value % 2;
    case 1: return value % 3;
    case 2: return value % 17;
    case 3: return value % 5 == 0 ? value % 7 : SENTINEL;
    case 4: return SENTINEL - value % 4;
    case 5: return value << 20 & (SENTINEL - 1);
    case 6: return value % 251 == 250 ? SENTINEL + 1 : value;
    default: return (mixed >> 17 ^ value << 40) % (SENTINEL + 1);
    }
}

static void ask(struct question *q, const uint8_t *data, size_t size) {
    q->cars = data[0] % MOST_CARS;
    q->columns = data[1] % 4 == 0 ? data[1] % MOST_COLUMNS : q->cars + data[1] % (MOST_COLUMNS - q->cars);
    if (data[3] % 4 == 1) {
        q->cars %= 5;
        q->columns = q->cars + data[1] % 3;
    }
    q->cell_count = q->cars * q->columns;
    q->places = q->cars + data[3] / 4 % 3;
    q->places -= data[3] / 16 % 8 == 1 && q->places > 0;
    q->cell_count -= data[3] / 16 % 8 == 2 && q->cell_count > 0;
    for (size_t i = 0; i < q->cell_count; i++) {
        q->cells[i] = cell(data, size, i, data[2]);
    }
}

/* The header's words for "no choice". */
static int refused(const struct question *q) {
    int high = 0;
    for (size_t i = 0; i < q->cell_count; i++) {
        high |= q->cells[i] > SENTINEL;
    }
    return q->cars > 32 || q->columns > 64 || q->columns < q->cars || q->cell_count != q->cars * q->columns || high || q->places < q->cars;
}

static int run(const struct question *q, int at_end, uint8_t pattern) {
    guarded_lend(&cells, 8 * q->cell_count, at_end, pattern);
    memcpy(cells.at, q->cells, 8 * q->cell_count);
    guarded_lend(&chosen, 4 * q->places, at_end, pattern);
    guarded_lend(&total, 8, at_end, pattern);
    uint32_t answer = dispatch_bench_choose(q->cars, q->columns, (uint64_t *)(void *)cells.at, q->cell_count, (uint32_t *)(void *)chosen.at, q->places,
                                            (uint64_t *)(void *)total.at);
    require(answer <= 1, "the answer is 0 or 1");
    require(guarded_kept(&cells, 0, 8 * q->cell_count) && memcmp(cells.at, q->cells, 8 * q->cell_count) == 0, "the cells are only read");
    require(guarded_kept(&chosen, 0, answer ? 4 * q->cars : 0), "further places are kept");
    require(guarded_kept(&total, 0, answer ? 8 : 0), "the total is written with a choice alone");
    return (int)answer;
}

static uint64_t at(const struct question *q, size_t car, size_t column) {
    return q->cells[car * q->columns + column];
}

/* Distinct columns whose cells make the total. */
static uint64_t check_total(const struct question *q, const uint32_t *picked) {
    uint64_t sum = 0, taken = 0, answered;
    for (size_t i = 0; i < q->cars; i++) {
        require(picked[i] < q->columns, "a chosen column is one of the matrix");
        require((taken >> picked[i] & 1) == 0, "the chosen columns are distinct");
        taken |= UINT64_C(1) << picked[i];
        sum += at(q, i, picked[i]);
    }
    memcpy(&answered, total.at, sizeof answered);
    require(answered == sum, "the total is the sum of the chosen cells");
    return taken;
}

/* A total and how many of its cells are the sentinel, by which cars are left standing. */
struct cost {
    uint64_t sum, standing;
};

static struct cost plus(struct cost a, uint64_t cell_value) {
    struct cost b = {a.sum + cell_value, a.standing + (cell_value == SENTINEL)};
    return b;
}

/* Below 0 where a comes before b, 0 where they are equal: by the total, then by the cars left standing. */
static int compare(struct cost a, struct cost b) {
    if (a.sum != b.sum) {
        return a.sum < b.sum ? -1 : 1;
    }
    return a.standing < b.standing ? -1 : a.standing > b.standing;
}

static const struct cost nothing;

/* No free column is better for one car, nor an exchange for two: by their sum, then by who is left standing, then by the first one's column. */
static void check_neighbours(const struct question *q, const uint32_t *picked, uint64_t taken) {
    for (size_t i = 0; i < q->cars; i++) {
        struct cost own = plus(nothing, at(q, i, picked[i]));
        for (size_t c = 0; c < q->columns; c++) {
            int is_free = (taken >> c & 1) == 0, order = compare(plus(nothing, at(q, i, c)), own);
            require(!is_free || order > 0 || (order == 0 && c > picked[i]), "no free column is better for a car");
        }
        for (size_t k = i + 1; k < q->cars; k++) {
            int order = compare(plus(plus(nothing, at(q, i, picked[k])), at(q, k, picked[i])), plus(own, at(q, k, picked[k])));
            require(order > 0 || (order == 0 && picked[i] < picked[k]), "no exchange of two cars is better");
        }
    }
}

/* The first choice with the least total and, with it, the fewest cars left standing, by trying all of them in order, from car `car` on. */
static void search(const struct question *q, size_t car, uint64_t taken, struct cost so_far, uint32_t *tried, struct cost *least, uint32_t *best) {
    if (car == q->cars) {
        if (compare(so_far, *least) < 0) {
            *least = so_far;
            memcpy(best, tried, 4 * q->cars);
        }
        return;
    }
    for (uint32_t c = 0; c < q->columns; c++) {
        if ((taken >> c & 1) == 0) {
            tried[car] = c;
            search(q, car + 1, taken | UINT64_C(1) << c, plus(so_far, at(q, car, c)), tried, least, best);
        }
    }
}

static void check_exhaustively(const struct question *q, const uint32_t *picked) {
    uint32_t tried[MOST_CARS], best[MOST_CARS];
    struct cost least = {UINT64_MAX, 0};
    search(q, 0, 0, nothing, tried, &least, best);
    require(memcmp(best, picked, 4 * q->cars) == 0, "the choice is the first of those with the least total and most cars sent");
}

int LLVMFuzzerTestOneInput(const uint8_t *data, size_t size) {
    static struct question q;
    static int made;
    if (!made) {
        guarded_make(&cells, sizeof q.cells);
        guarded_make(&chosen, 4 * (MOST_CARS + 2));
        guarded_make(&total, 8);
        made = 1;
    }
    if (size < 4) {
        return 0;
    }
    ask(&q, data, size);
    int answer = run(&q, data[3] >> 7, 0xa5);
    require(answer == !refused(&q), "there is a choice where the header says so");
    features[answer * 2048 + data[2] % 8 * 128 + q.cars] = 1;
    features[answer * 2048 + data[2] % 8 * 128 + 48 + q.columns] = 1;
    if (answer) {
        uint32_t picked[MOST_CARS];
        memcpy(picked, chosen.at, 4 * q.cars);
        check_neighbours(&q, picked, check_total(&q, picked));
        if (q.cars <= 4 && q.columns <= 6) {
            check_exhaustively(&q, picked);
        }
    }
    return 0;
}
