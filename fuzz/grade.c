/* Any bytes as a sheet with what a site sent of it, through dispatch_bench_grade: the first bytes say the matrix that is lent and up to three
   changes of a least choice and its prices, the others are the sheet. Every answer is held to a plain reading of the header, and the matrix to that
   of a pass; what is called least has the total of dispatch_bench_choose. */
#include <stdio.h>
#include <stdlib.h>
#include <string.h>

#include "dispatch_bench.h"
#include "guarded.h"
#include "require.h"

#define CHANGES 3
#define FRONT (1 + 3 * CHANGES)
#define MOST_BYTES 65536
#define MOST_SENT 128
#define MORE 8
#define MOST DISPATCH_BENCH_MOST_PRICE

static struct guarded sheet, columns, car_prices, column_prices, matrix, least, offset;

/* What is asked: a sheet, what was sent, and how many cells are lent. */
struct question {
    const uint8_t *bytes;
    size_t length, column_count, car_price_count, column_price_count, lent;
    uint32_t columns[MOST_SENT];
    int64_t car_prices[MOST_SENT], column_prices[MOST_SENT];
};

/* The cells of the sheet by a pass, their least total, or the refusal. */
struct cells {
    uint32_t number;
    uint64_t cars, width, total, offset, cell[DISPATCH_BENCH_CELLS];
};

/* What is answered: the grade where the number is 0. */
struct answer {
    uint32_t number, least;
    uint64_t offset;
};

__attribute__((section("__libfuzzer_extra_counters"))) static uint8_t features[4096];

/* How often each was answered; those graded least stand at 0, those not shown at 15, which is no refusal's any more. */
static unsigned long answers[21];
#define NOT_SHOWN 15

static void print_counts(void) {
    fprintf(stderr, "answers: least %lu, not shown %lu; refusals", answers[0], answers[NOT_SHOWN]);
    for (int number = 1; number <= 20; number++) {
        if (number != NOT_SHOWN && answers[number] > 0) {
            fprintf(stderr, " %d: %lu", number, answers[number]);
        }
    }
    fprintf(stderr, "\n");
}

static void pass(struct cells *c, const uint8_t *bytes, size_t length) {
    uint32_t decisions[DISPATCH_BENCH_DECISIONS];
    uint8_t sweeps[DISPATCH_BENCH_SWEEPS];
    uint64_t stops = 0, ranked, held;
    memset(c, 0, sizeof *c);
    c->number = dispatch_bench_pass(bytes, length, decisions, DISPATCH_BENCH_DECISIONS, c->cell, DISPATCH_BENCH_CELLS, sweeps, DISPATCH_BENCH_SWEEPS,
                                    &c->cars, &stops, &c->total, &ranked, &held, &c->offset);
    c->width = c->cars < stops ? stops : c->cars;
}

static int64_t cell(const struct cells *c, size_t car, size_t column) {
    return (int64_t)c->cell[car * c->width + column];
}

/* A least choice. A column's price is the least of 0 and, for each car that might take it instead of its own, that column's price and what the car
   would cost more there; a car's is what is left of its cell. */
static void solve(struct question *q, const struct cells *c) {
    uint64_t total;
    q->column_count = q->car_price_count = c->cars;
    q->column_price_count = c->width;
    uint32_t found = dispatch_bench_choose(c->cars, c->width, c->cell, c->cars * c->width, q->columns, MOST_SENT, &total);
    require(found == 1 && total == c->total, "the matrix has a choice of the pass's total");
    memset(q->column_prices, 0, sizeof q->column_prices);
    for (size_t round = 0; round <= c->width; round++) {
        for (size_t i = 0; i < c->cars; i++) {
            size_t own = q->columns[i];
            for (size_t j = 0; j < c->width; j++) {
                int64_t most = q->column_prices[own] + cell(c, i, j) - cell(c, i, own);
                q->column_prices[j] = q->column_prices[j] < most ? q->column_prices[j] : most;
            }
        }
    }
    for (size_t i = 0; i < c->cars; i++) {
        q->car_prices[i] = cell(c, i, q->columns[i]) - q->column_prices[q->columns[i]];
    }
}

static const int64_t prices[] = {0, 1, -1, MOST, -MOST, MOST + 1, -MOST - 1, INT64_MAX, INT64_MIN, MOST - 1, 1 - MOST, 1000000};

/* A price with so much more; past the ends of the numbers it comes in at the other end. */
static int64_t more(int64_t price, int64_t by) {
    return (int64_t)((uint64_t)price + (uint64_t)by);
}

/* A price a little higher or lower, or one of those above. */
static int64_t changed(int64_t price, uint8_t by) {
    return by < 64 ? more(price, by - 32) : by < 128 ? more(price, (by - 96) * INT64_C(1000000)) : prices[by % (sizeof prices / sizeof prices[0])];
}

static void recount(size_t *count, uint8_t to) {
    *count = to < 16 ? (*count + to) % MOST_SENT : to < 32 && *count >= to % 16u ? *count - to % 16 : to % MOST_SENT;
}

/* A change of what is sent: of what, where, and by how much. */
static void change(struct question *q, const struct cells *c, const uint8_t *three) {
    size_t at = three[1] % MOST_SENT, cars = c->cars, width = c->width;
    switch (three[0] % 10) {
    case 1:
        if (cars > 1) {
            size_t one = at % cars, other = three[2] % cars;
            uint32_t column = q->columns[one];
            q->columns[one] = q->columns[other];
            q->columns[other] = column;
        }
        break;
    case 2: q->columns[cars > 0 ? at % cars : 0] = three[2] < 192 ? three[2] % 70 : UINT32_MAX - (255 - three[2]); break;
    case 3: q->car_prices[cars > 0 ? at % cars : 0] = changed(q->car_prices[cars > 0 ? at % cars : 0], three[2]); break;
    case 4: q->column_prices[width > 0 ? at % width : 0] = changed(q->column_prices[width > 0 ? at % width : 0], three[2]); break;
    case 5: recount(&q->column_count, three[2]); break;
    case 6: recount(&q->car_price_count, three[2]); break;
    case 7: recount(&q->column_price_count, three[2]); break;
    case 8:
        for (size_t k = 0; k < MOST_SENT; k++) {
            q->car_prices[k] = more(q->car_prices[k], k < cars ? three[2] : 0);
            q->column_prices[k] = more(q->column_prices[k], k < width ? -(int64_t)three[2] : 0);
        }
        break;
    case 9: q->columns[cars > 0 ? at % cars : 0] = (uint32_t)(width > 0 ? three[2] % width : 0); break;
    default: break;
    }
}

static void ask(struct question *q, const struct cells *c, const uint8_t *data, size_t size) {
    memset(q, 0, sizeof *q);
    q->bytes = data + FRONT;
    q->length = size - FRONT;
    q->lent = data[0] % 16 == 15 ? DISPATCH_BENCH_CELLS - 1 - data[0] / 16 : DISPATCH_BENCH_CELLS + data[0] / 2 % MORE;
    solve(q, c);
    for (size_t k = 0; k < CHANGES; k++) {
        change(q, c, data + 1 + 3 * k);
    }
}

/* Lends a list against guarded pages. */
static void lend(struct guarded *g, const void *list, size_t bytes, int at_end, uint8_t pattern) {
    guarded_lend(g, bytes, at_end, pattern);
    memcpy(g->at, list, bytes);
}

static int only_read(const struct guarded *g, const void *list, size_t bytes) {
    return guarded_kept(g, 0, bytes) && memcmp(g->at, list, bytes) == 0;
}

static struct answer run(const struct question *q, const struct cells *c, int at_end, uint8_t pattern) {
    struct answer a = {0, 0, 0};
    size_t cells = 8 * c->cars * c->width;
    lend(&sheet, q->bytes, q->length, at_end, pattern);
    lend(&columns, q->columns, 4 * q->column_count, at_end, pattern);
    lend(&car_prices, q->car_prices, 8 * q->car_price_count, at_end, pattern);
    lend(&column_prices, q->column_prices, 8 * q->column_price_count, at_end, pattern);
    guarded_lend(&matrix, 8 * q->lent, at_end, pattern);
    guarded_lend(&least, 4, at_end, pattern);
    guarded_lend(&offset, 8, at_end, pattern);
    a.number = dispatch_bench_grade(sheet.at, q->length, (const uint32_t *)(const void *)columns.at, q->column_count,
                                    (const int64_t *)(const void *)car_prices.at, q->car_price_count, (const int64_t *)(const void *)column_prices.at,
                                    q->column_price_count, (uint64_t *)(void *)matrix.at, q->lent, (uint32_t *)(void *)least.at,
                                    (uint64_t *)(void *)offset.at);
    require(only_read(&sheet, q->bytes, q->length), "the sheet is only read");
    require(only_read(&columns, q->columns, 4 * q->column_count), "the columns are only read");
    require(only_read(&car_prices, q->car_prices, 8 * q->car_price_count), "the prices of cars are only read");
    require(only_read(&column_prices, q->column_prices, 8 * q->column_price_count), "the prices of columns are only read");
    if (a.number == 0) {
        require(guarded_kept(&offset, 0, 0), "a grade keeps the offset");
        require(guarded_kept(&matrix, 0, cells), "further cells are kept");
        require(memcmp(matrix.at, c->cell, cells) == 0, "the matrix is that of the pass");
        require(guarded_kept(&least, 0, 4), "least is one number");
        memcpy(&a.least, least.at, sizeof a.least);
        require(a.least <= 1, "least is 1 or 0");
    } else {
        require(guarded_kept(&matrix, 0, 0), "a refusal keeps the matrix");
        require(guarded_kept(&least, 0, 0), "a refusal keeps least");
        require(guarded_kept(&offset, 0, 8), "the offset is one number");
        memcpy(&a.offset, offset.at, sizeof a.offset);
    }
    return a;
}

static int same(const struct answer *one, const struct answer *other) {
    return one->number == other->number && one->least == other->least && one->offset == other->offset;
}

/* A column that a car before has, or that there is none of. */
static int wrong_column(const struct question *q, const struct cells *c, size_t i) {
    for (size_t k = 0; k < i; k++) {
        if (q->columns[k] == q->columns[i]) {
            return 1;
        }
    }
    return q->columns[i] >= c->width;
}

static int beyond(const int64_t *list, size_t count) {
    for (size_t k = 0; k < count; k++) {
        if (list[k] > MOST || list[k] < -MOST) {
            return 1;
        }
    }
    return 0;
}

/* The header's three rules. */
static uint32_t shown(const struct question *q, const struct cells *c) {
    uint8_t taken[DISPATCH_BENCH_CELLS] = {0};
    for (size_t i = 0; i < c->cars; i++) {
        taken[q->columns[i]] = 1;
        for (size_t j = 0; j < c->width; j++) {
            int64_t sum = q->car_prices[i] + q->column_prices[j];
            if (sum > cell(c, i, j) || (q->columns[i] == j && sum != cell(c, i, j))) {
                return 0;
            }
        }
    }
    for (size_t j = 0; j < c->width; j++) {
        if (q->column_prices[j] > 0 || (!taken[j] && q->column_prices[j] != 0)) {
            return 0;
        }
    }
    return 1;
}

/* The header, read plainly. */
static struct answer expected(const struct question *q, const struct cells *c) {
    struct answer a = {0, 0, 0};
    if (q->lent < DISPATCH_BENCH_CELLS) {
        a.number = DISPATCH_BENCH_SHORT_BUFFER;
        return a;
    }
    if (c->number != 0) {
        a.number = c->number;
        a.offset = c->offset;
        return a;
    }
    int wrong = q->column_count != c->cars;
    for (size_t i = 0; !wrong && i < c->cars; i++) {
        wrong = wrong_column(q, c, i);
    }
    if (wrong) {
        a.number = DISPATCH_BENCH_COLUMNS;
    } else if (q->car_price_count != c->cars || q->column_price_count != c->width || beyond(q->car_prices, q->car_price_count) ||
               beyond(q->column_prices, q->column_price_count)) {
        a.number = DISPATCH_BENCH_PRICES;
    } else {
        a.least = shown(q, c);
    }
    return a;
}

/* What is called least has the least total. */
static void check_least(const struct question *q, const struct cells *c) {
    uint64_t total = 0;
    for (size_t i = 0; i < c->cars; i++) {
        total += c->cell[i * c->width + q->columns[i]];
    }
    require(total == c->total, "what is called least has the least total");
}

int LLVMFuzzerTestOneInput(const uint8_t *data, size_t size) {
    static struct question q;
    static struct cells c;
    static int made;
    if (!made) {
        atexit(print_counts);
        guarded_make(&sheet, MOST_BYTES);
        guarded_make(&columns, 4 * MOST_SENT);
        guarded_make(&car_prices, 8 * MOST_SENT);
        guarded_make(&column_prices, 8 * MOST_SENT);
        guarded_make(&matrix, 8 * (DISPATCH_BENCH_CELLS + MORE));
        guarded_make(&least, 4);
        guarded_make(&offset, 8);
        made = 1;
    }
    if (size < FRONT || size > FRONT + MOST_BYTES) {
        return 0;
    }
    pass(&c, data + FRONT, size - FRONT);
    ask(&q, &c, data, size);
    int at_end = data[0] & 1;
    struct answer a = run(&q, &c, at_end, 0xa5);
    struct answer again = run(&q, &c, !at_end, 0x5a);
    require(same(&a, &again), "what stood in the buffers changes no answer");
    if (a.number == 0 && a.least == 1) {
        check_least(&q, &c);
    }
    struct answer plain = expected(&q, &c);
    require(a.number == plain.number, "the number is the first that the header gives");
    require(a.offset == plain.offset, "the offset is the sheet's, or 0");
    require(a.least == plain.least, "the grade is that of the header's rules");
    unsigned kind = a.number == 0 && a.least == 0 ? NOT_SHOWN : a.number;
    answers[kind]++;
    features[kind * 128 + (c.cars < 8 ? c.cars : 8) * 9 + (c.width < 8 ? c.width : 8)] = 1;
    return 0;
}
