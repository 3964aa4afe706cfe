/* dispatch_bench_why on the sheets of the target pass: each question is asked twice, with other contents, lengths and places of the terms, and once
   with too few places. The reasons that the records tell are told by them; a rank stands where the cell of the pass is below the sentinel, and its
   last term is that cell. */
#include "why.h"

#include <math.h>
#include <string.h>

#include "dispatch_bench.h"
#include "guarded.h"
#include "require.h"
#include "sheet.h"

#define MORE 16
#define PAIRS 16

/* The numbers that are answered stand between words of the pattern. */
enum { REASON = 1, OFFSET = 3, NUMBERS = 5 };

unsigned long reasons[13];

static struct guarded sheet, terms, numbers;

struct answer {
    uint32_t number, reason;
    uint64_t offset, terms[DISPATCH_BENCH_TERMS];
};

static void begin(void) {
    static int made;
    if (!made) {
        guarded_make(&sheet, MOST_BYTES + 4096);
        guarded_make(&terms, 8 * (DISPATCH_BENCH_TERMS + MORE));
        guarded_make(&numbers, 8 * NUMBERS);
        made = 1;
    }
}

/* What was answered, and that nothing else was written. */
static void ask(struct answer *a, const struct passed *p, uint32_t car, uint32_t stop, size_t places, int at_end, uint8_t pattern) {
    memset(a, 0, sizeof *a);
    guarded_lend(&sheet, p->size, at_end, pattern);
    if (p->size > 0) {
        memcpy(sheet.at, p->data, p->size);
    }
    guarded_lend(&terms, 8 * places, at_end, pattern);
    guarded_lend(&numbers, 8 * NUMBERS, at_end, pattern);
    uint64_t *w = (uint64_t *)(void *)numbers.at;
    uint32_t *reason = (uint32_t *)(void *)&w[REASON];
    a->number = dispatch_bench_why(sheet.at, sheet.length, car, stop, (double *)(void *)terms.at, places, reason, &w[OFFSET]);
    require(p->size == 0 || memcmp(sheet.at, p->data, p->size) == 0, "why only reads the sheet");
    require(guarded_kept(&sheet, 0, p->size), "nothing is written around the sheet of why");
    if (a->number != 0) {
        a->offset = w[OFFSET];
        require(guarded_kept(&terms, 0, 0), "a refusal keeps the terms");
        require(guarded_kept(&numbers, 8 * OFFSET, 8 * OFFSET + 8), "a refusal keeps the reason");
        return;
    }
    a->reason = *reason;
    require(guarded_kept(&numbers, 8 * REASON, 8 * REASON + 4), "a reason keeps the offset");
    if (a->reason == DISPATCH_BENCH_RANKED) {
        require(guarded_kept(&terms, 0, 8 * DISPATCH_BENCH_TERMS), "further terms are kept");
        memcpy(a->terms, terms.at, sizeof a->terms);
    } else {
        require(guarded_kept(&terms, 0, 0), "a pair without a rank keeps the terms");
    }
}

/* The answer, whatever stood in the places, and that too few of them are refused. */
static void ask_all(struct answer *a, const struct passed *p, uint32_t car, uint32_t stop, unsigned by) {
    static struct answer again;
    ask(a, p, car, stop, DISPATCH_BENCH_TERMS, 1, 0x96);
    ask(&again, p, car, stop, DISPATCH_BENCH_TERMS + by % MORE, 0, 0x3c);
    require(memcmp(a, &again, sizeof again) == 0, "what stood in the terms changes no answer");
    require(a->number == p->number, "why and the reader answer the same number");
    require(a->number == 0 || a->offset == p->offset, "why and the reader give the same offset");
    ask(&again, p, car, stop, DISPATCH_BENCH_TERMS - 1, 1, 0x96);
    require(again.number == 1 && again.offset == 0, "7 terms are refusal 1 at 0");
    ask(&again, p, car, stop, by % DISPATCH_BENCH_TERMS, 1, 0x96);
    require(again.number == 1 && again.offset == 0, "too few terms are refusal 1 at 0");
}

/* The place of a car's id among the car records, or their number. */
static size_t car_place(const struct facts *f, uint32_t id) {
    size_t place = 0;
    while (place < f->cars && f->car_id[place] != id) {
        place++;
    }
    return place;
}

/* The place of a number in a list, or its length. */
static size_t place_in(const uint32_t *list, size_t count, uint32_t number) {
    size_t place = 0;
    while (place < count && list[place] != number) {
        place++;
    }
    return place;
}

/* The row of a car record among the idle-listed ones, or their number. */
static size_t row_of(const struct facts *f, size_t car) {
    size_t row = 0;
    while (row < f->idle && f->idle_car[row] != car) {
        row++;
    }
    return row;
}

/* Whether the car's line serves a stop. */
static int serves(const struct facts *f, size_t car, size_t stop) {
    for (size_t i = 0; i < f->lines; i++) {
        if (f->line_id[i] == f->car_line[car]) {
            return f->line_serves[i] >> (63 - stop) & 1;
        }
    }
    return 0;
}

/* The reason that the records and the pending stops tell, 1 to 6, or 0 where they tell none. */
static uint32_t told(const struct passed *p, uint32_t car, uint32_t stop) {
    const struct facts *f = p->facts;
    size_t c = car_place(f, car), s = stop_place(f, stop);
    if (c == f->cars || s == f->stops) {
        return c == f->cars ? DISPATCH_BENCH_NO_CAR : DISPATCH_BENCH_NO_STOP;
    }
    if (row_of(f, c) == f->idle) {
        return DISPATCH_BENCH_NOT_LISTED;
    }
    if (place_in(p->stops, p->stop_count, stop) == p->stop_count) {
        return DISPATCH_BENCH_NOT_PENDING;
    }
    if (!serves(f, c, s)) {
        return DISPATCH_BENCH_OFF_LINE;
    }
    return f->car_restricted[c] >> (63 - s) & 1 ? DISPATCH_BENCH_BARRED : DISPATCH_BENCH_RANKED;
}

/* A cut needs more viable stops than the limit. */
static int can_cut(const struct passed *p, size_t car) {
    uint64_t viable = 0;
    for (size_t k = 0; k < p->stop_count; k++) {
        viable += may_go(p->facts, car, stop_place(p->facts, p->stops[k])) != 0;
    }
    return viable > p->facts->limit;
}

/* A cost as a cell. */
static uint64_t cell_of(double cost) {
    double cell = round(cost * 1000000);
    return cell < (double)DISPATCH_BENCH_CEILING ? (uint64_t)cell : DISPATCH_BENCH_CEILING;
}

/* The terms are finite, the last is the cell, and under SCAN they are the distance and zeros. */
static void check_terms(const struct passed *p, const struct answer *a, uint32_t car, uint32_t stop, uint64_t cell) {
    double t[DISPATCH_BENCH_TERMS];
    memcpy(t, a->terms, sizeof t);
    for (size_t k = 0; k < DISPATCH_BENCH_TERMS; k++) {
        require(isfinite(t[k]), "a term is finite");
    }
    require(t[7] >= 0 && cell_of(t[7]) == cell, "the last term is the cell");
    if (p->facts->strategy == 2) {
        const double *at = p->facts->car_at[car_place(p->facts, car)], *to = p->facts->stop_at[stop_place(p->facts, stop)];
        double along = fabs(at[0] - to[0]), aside = fabs(at[1] - to[1]);
        require(t[0] == along + aside && t[7] == t[0], "SCAN's cost is the distance");
        for (size_t k = 1; k < 7; k++) {
            require(a->terms[k] == 0, "SCAN's other terms are zeros");
        }
    } else {
        require(t[0] >= 0, "no travel is below zero");
    }
}

static void check_pair(const struct passed *p, uint32_t car, uint32_t stop, unsigned by) {
    struct answer a;
    const struct facts *f = p->facts;
    ask_all(&a, p, car, stop, by);
    require(a.reason <= DISPATCH_BENCH_NO_RANK, "a reason is 0 to 12");
    reasons[a.reason]++;
    uint32_t wanted = told(p, car, stop);
    require(wanted == 0 ? a.reason == 0 || a.reason >= DISPATCH_BENCH_CUT : a.reason == wanted, "the reason is the first that the records tell");
    if (wanted != 0 && wanted < DISPATCH_BENCH_OFF_LINE) {
        return;
    }
    size_t place = car_place(f, car), column = place_in(p->stops, p->stop_count, stop);
    uint64_t cell = p->matrix[row_of(f, place) * p->columns + column];
    require((a.reason == 0) == (cell < DISPATCH_BENCH_SENTINEL), "a pair has a rank where its cell is below the sentinel");
    require(a.reason != DISPATCH_BENCH_CUT || can_cut(p, place), "a cut needs more viable stops than the limit");
    require(a.reason != DISPATCH_BENCH_OFF_PATH || f->strategy == 1, "the path is asked under RSR alone");
    if (a.reason == 0) {
        check_terms(p, &a, car, stop, cell);
    }
}

void check_why(const struct passed *p, unsigned by) {
    begin();
    if (p->number != 0) {
        struct answer a;
        ask_all(&a, p, by, by >> 7, by);
        return;
    }
    const struct facts *f = p->facts;
    check_pair(p, by, f->stops > 0 ? f->stop_id[0] : by, by);
    for (unsigned k = 0; f->cars > 0 && k < PAIRS; k++) {
        by = by * 1664525u + 1013904223u;
        /* Mostly a pair that has a cell. */
        uint32_t car = f->car_id[k < PAIRS - 2 && f->idle > 0 ? f->idle_car[(by >> 8) % f->idle] : (by >> 8) % f->cars];
        uint32_t other = k == PAIRS - 1 || f->stops == 0 ? by : f->stop_id[(by >> 16) % f->stops];
        uint32_t stop = k < PAIRS - 2 && p->stop_count > 0 ? p->stops[(by >> 16) % p->stop_count] : other;
        check_pair(p, car, stop, by);
    }
}
