/* Any bytes as a sheet, through the C interface: dispatch_bench_read, dispatch_bench_pass, dispatch_bench_pending, dispatch_bench_why (why.c) and, on
   what the pass leaves, dispatch_bench_choose. Every pointer leads to guarded pages. The pass is run twice, with other contents, lengths and places of the buffers; and once
   with each buffer too short. So are the pending stops asked for. An accepted sheet is passed in its other edition too where all its second
   coordinates are zero, or else mirrored in them. */
#include <math.h>
#include <stdio.h>
#include <stdlib.h>
#include <string.h>

#include "dispatch_bench.h"
#include "facts.h"
#include "guarded.h"
#include "require.h"
#include "sheet.h"
#include "why.h"

#define SENTINEL UINT64_C(281474976710656)
#define CEILING (SENTINEL - 1)
#define MORE 16

/* The numbers that a pass answers stand between words of the pattern. */
enum { CARS = 1, STOPS = 3, TOTAL = 5, RANKED = 7, HELD = 9, OFFSET = 11, NUMBERS = 13 };

static struct guarded sheet, decisions, matrix, sweeps, numbers, chosen, places;

/* How long the buffers are, in entries. */
struct lengths {
    size_t decisions, cells, sweeps;
};

/* What a pass answered and left, apart from the buffers. */
struct answer {
    uint32_t number;
    uint64_t value[NUMBERS];
    uint32_t decisions[DISPATCH_BENCH_DECISIONS];
    uint64_t matrix[DISPATCH_BENCH_CELLS];
    uint8_t sweeps[DISPATCH_BENCH_SWEEPS];
};

static uint64_t *words(void) {
    return (uint64_t *)(void *)numbers.at;
}

static uint64_t unwritten(uint8_t pattern) {
    return pattern * UINT64_C(0x0101010101010101);
}

/* How many inputs had which answer: passes by strategy, those with closed landings, with a rider of an idle-listed car bound for one, with load
   weights, with held cells, of edition 2 and with second coordinates among them, refusals by number. */
static unsigned long passes[3], closed_passes, bound_passes, load_passes, held_passes, second_passes, sideways_passes, refusals[17];

static void print_counts(void) {
    fprintf(stderr, "answers: passes %lu ETD, %lu RSR, %lu SCAN, %lu with closed landings, %lu with riders bound for them, ", passes[0], passes[1],
            passes[2], closed_passes, bound_passes);
    fprintf(stderr, "%lu with a load weight, %lu with held cells, %lu of edition 2, %lu with second coordinates; refusals", load_passes, held_passes,
            second_passes, sideways_passes);
    for (int number = 2; number <= 16; number++) {
        if (number != DISPATCH_BENCH_LOAD_WEIGHT) {
            fprintf(stderr, " %d: %lu", number, refusals[number]);
        }
    }
    fprintf(stderr, "; pairs with a rank %lu, reasons", reasons[0]);
    for (int reason = 1; reason <= 12; reason++) {
        fprintf(stderr, " %d: %lu", reason, reasons[reason]);
    }
    fprintf(stderr, "\n");
}

static void begin(void) {
    static int made;
    if (!made) {
        atexit(print_counts);
        guarded_make(&sheet, MOST_BYTES + 4096);
        guarded_make(&decisions, 4 * (DISPATCH_BENCH_DECISIONS + MORE));
        guarded_make(&matrix, 8 * (DISPATCH_BENCH_CELLS + MORE));
        guarded_make(&sweeps, DISPATCH_BENCH_SWEEPS + MORE);
        guarded_make(&numbers, 8 * NUMBERS);
        guarded_make(&chosen, 4 * DISPATCH_BENCH_DECISIONS);
        guarded_make(&places, 4 * (DISPATCH_BENCH_STOPS + MORE));
        made = 1;
    }
}

static void lend(const uint8_t *data, size_t size, struct lengths n, int at_end, uint8_t pattern) {
    guarded_lend(&sheet, size, at_end, pattern);
    if (size > 0) {
        memcpy(sheet.at, data, size);
    }
    guarded_lend(&decisions, 4 * n.decisions, at_end, pattern);
    guarded_lend(&matrix, 8 * n.cells, at_end, pattern);
    guarded_lend(&sweeps, n.sweeps, at_end, pattern);
    guarded_lend(&numbers, 8 * NUMBERS, at_end, pattern);
}

static uint32_t call_pass(struct lengths n) {
    uint64_t *w = words();
    return dispatch_bench_pass(sheet.at, sheet.length, (uint32_t *)(void *)decisions.at, n.decisions, (uint64_t *)(void *)matrix.at, n.cells, sweeps.at,
                               n.sweeps, &w[CARS], &w[STOPS], &w[TOTAL], &w[RANKED], &w[HELD], &w[OFFSET]);
}

static void check_sheet(const uint8_t *data, size_t size) {
    require(size == 0 || memcmp(sheet.at, data, size) == 0, "the sheet is only read");
    require(guarded_kept(&sheet, 0, size), "nothing is written around the sheet");
}

/* A refusal wrote its offset and nothing else. */
static void check_refused(const uint8_t *data, size_t size) {
    check_sheet(data, size);
    require(guarded_kept(&decisions, 0, 0), "a refusal keeps the decisions");
    require(guarded_kept(&matrix, 0, 0), "a refusal keeps the matrix");
    require(guarded_kept(&sweeps, 0, 0), "a refusal keeps the sweeps");
    require(guarded_kept(&numbers, 8 * OFFSET, 8 * OFFSET + 8), "a refusal writes no number but its offset");
}

/* The reader's answer, in number and value[OFFSET]. */
static void run_read(struct answer *a, const uint8_t *data, size_t size, int at_end, uint8_t pattern) {
    struct lengths none = {0, 0, 0};
    lend(data, size, none, at_end, pattern);
    a->number = dispatch_bench_read(sheet.at, sheet.length, &words()[OFFSET]);
    a->value[OFFSET] = words()[OFFSET];
    check_refused(data, size);
    require(a->number == 0 || (2 <= a->number && a->number <= 16), "the reader answers 0 or 2 to 16");
    require(a->number != DISPATCH_BENCH_LOAD_WEIGHT, "no sheet is refused by 15");
    if (a->number == 0) {
        require(a->value[OFFSET] == unwritten(pattern), "an accepted sheet keeps the offset");
    } else {
        require(a->value[OFFSET] <= 8 * (uint64_t)size, "the offset is inside of the sheet");
    }
}

/* The numbers of a pass are in their bounds; what it does not write is kept. */
static void check_bounds(const struct facts *f, const uint8_t *data, size_t size) {
    uint64_t *w = words(), n = w[CARS], m = w[STOPS];
    require(n == f->idle, "the cars are the idle-listed ones");
    require(m <= f->stops, "the pending stops are stops");
    require(w[TOTAL] <= n * SENTINEL, "the total is at most the sentinels'");
    require(w[OFFSET] == unwritten(numbers.pattern), "a pass keeps the offset");
    for (size_t i = 0; i < NUMBERS; i += 2) {
        require(w[i] == unwritten(numbers.pattern), "nothing is written between the numbers");
    }
    size_t columns = n < m ? m : n;
    check_sheet(data, size);
    require(guarded_kept(&numbers, 0, 8 * NUMBERS), "nothing is written around the numbers");
    require(guarded_kept(&decisions, 0, 4 * n), "further decisions are kept");
    require(guarded_kept(&matrix, 0, 8 * n * columns), "further cells are kept");
    require(guarded_kept(&sweeps, 0, f->cars), "further sweeps are kept");
}

/* A pass into buffers of those lengths. */
static void run_pass(struct answer *a, const struct facts *f, const uint8_t *data, size_t size, struct lengths n, int at_end, uint8_t pattern) {
    memset(a, 0, sizeof *a);
    lend(data, size, n, at_end, pattern);
    a->number = call_pass(n);
    if (a->number != 0) {
        check_refused(data, size);
        a->value[OFFSET] = words()[OFFSET];
        return;
    }
    check_bounds(f, data, size);
    for (size_t i = CARS; i <= HELD; i += 2) {
        a->value[i] = words()[i];
    }
    size_t cars = a->value[CARS], columns = cars < a->value[STOPS] ? a->value[STOPS] : cars;
    memcpy(a->decisions, decisions.at, 4 * cars);
    memcpy(a->matrix, matrix.at, 8 * cars * columns);
    memcpy(a->sweeps, sweeps.at, f->cars);
}

/* The pending stops that were answered: the count stands where a pass has its stops. */
struct pending {
    uint32_t number;
    uint64_t count, offset;
    uint32_t stops[DISPATCH_BENCH_STOPS];
};

static void ask_pending(struct pending *p, const uint8_t *data, size_t size, size_t length, int at_end, uint8_t pattern) {
    struct lengths none = {0, 0, 0};
    memset(p, 0, sizeof *p);
    lend(data, size, none, at_end, pattern);
    guarded_lend(&places, 4 * length, at_end, pattern);
    uint64_t *w = words();
    p->number = dispatch_bench_pending(sheet.at, sheet.length, (uint32_t *)(void *)places.at, length, &w[STOPS], &w[OFFSET]);
    check_sheet(data, size);
    if (p->number != 0) {
        require(guarded_kept(&places, 0, 0), "a refusal keeps the places");
        require(guarded_kept(&numbers, 8 * OFFSET, 8 * OFFSET + 8), "a refusal writes no count");
        p->offset = w[OFFSET];
        return;
    }
    require(guarded_kept(&numbers, 8 * STOPS, 8 * STOPS + 8), "the pending stops keep the offset");
    p->count = w[STOPS];
    require(p->count <= DISPATCH_BENCH_STOPS, "there are at most 64 pending stops");
    require(guarded_kept(&places, 0, 4 * p->count), "further places are kept");
    memcpy(p->stops, places.at, 4 * p->count);
}

/* The pending stops of a sheet with that answer of the reader: asked twice, with other contents, lengths and places; and with too few places. */
static void run_pending(struct pending *p, const struct answer *read, const uint8_t *data, size_t size, unsigned by) {
    static struct pending again;
    ask_pending(p, data, size, DISPATCH_BENCH_STOPS, 1, 0x96);
    ask_pending(&again, data, size, DISPATCH_BENCH_STOPS + by % MORE, 0, 0x3c);
    require(memcmp(p, &again, sizeof again) == 0, "what the places hold and where they are changes no pending stop");
    require(p->number == read->number, "the pending stops and the reader answer the same number");
    require(p->number == 0 || p->offset == read->value[OFFSET], "the pending stops and the reader give the same offset");
    ask_pending(&again, data, size, DISPATCH_BENCH_STOPS - 1, 1, 0x96);
    require(again.number == 1 && again.offset == 0, "63 places are refusal 1 at 0");
    ask_pending(&again, data, size, by % DISPATCH_BENCH_STOPS, 1, 0x96);
    require(again.number == 1 && again.offset == 0, "too few places are refusal 1 at 0");
}

/* They are as many as the pass has, stops of the sheet, and rise; no closed one is there, whoever is bound for it. */
static void check_pending(const struct pending *p, const struct answer *a, const struct facts *f) {
    require(p->count == a->value[STOPS], "the pending stops are as many as the pass has");
    for (size_t k = 0; k < p->count; k++) {
        require(stop_place(f, p->stops[k]) < f->stops, "a pending stop is one of the sheet");
        require(k == 0 || p->stops[k - 1] < p->stops[k], "the pending stops rise");
        uint64_t stop = UINT64_C(1) << (63 - stop_place(f, p->stops[k]));
        require((f->closed & stop) == 0, "no closed stop is pending");
    }
}

/* The columns of the matrix that a pass left, and that their cells are its total. */
static void run_choose(const struct answer *a, size_t columns, uint32_t *picked) {
    size_t cars = a->value[CARS];
    uint64_t total = 0;
    guarded_lend(&matrix, 8 * cars * columns, 1, 0x33);
    memcpy(matrix.at, a->matrix, 8 * cars * columns);
    guarded_lend(&chosen, 4 * cars, 1, 0x33);
    uint32_t answer = dispatch_bench_choose(cars, columns, (uint64_t *)(void *)matrix.at, cars * columns, (uint32_t *)(void *)chosen.at, cars, &total);
    require(answer == 1, "the matrix has a choice");
    require(total == a->value[TOTAL], "the total is that of the choice");
    require(guarded_kept(&chosen, 0, 4 * cars), "nothing is written around the columns");
    require(memcmp(matrix.at, a->matrix, 8 * cars * columns) == 0, "the cells are only read");
    memcpy(picked, chosen.at, 4 * cars);
    uint64_t sum = 0, taken = 0;
    for (size_t i = 0; i < cars; i++) {
        require(picked[i] < columns, "a chosen column is one of the matrix");
        require((taken >> picked[i] & 1) == 0, "the chosen columns are distinct");
        taken |= UINT64_C(1) << picked[i];
        sum += a->matrix[i * columns + picked[i]];
    }
    require(sum == total, "the total is the sum of the chosen cells");
}

/* Each decision is what the chosen column says, the pending stop of that column, open, and a stop that the car may go to; no two are the same. */
static void check_decisions(const struct answer *a, const struct pending *p, const struct facts *f) {
    size_t cars = a->value[CARS], stops = a->value[STOPS], columns = cars < stops ? stops : cars;
    uint32_t picked[DISPATCH_BENCH_DECISIONS];
    run_choose(a, columns, picked);
    uint64_t sent = 0;
    for (size_t i = 0; i < cars; i++) {
        int goes = picked[i] < stops && a->matrix[i * columns + picked[i]] < SENTINEL;
        require(goes == (a->decisions[i] != 0), "a car is sent where its chosen cell is a stop's and has a rank");
        if (goes) {
            size_t stop = stop_place(f, a->decisions[i]);
            require(stop < f->stops, "a decision is the id of a stop record");
            require((f->closed >> (63 - stop) & 1) == 0, "no car is sent to a closed stop");
            require((sent >> stop & 1) == 0, "no two cars are sent to one stop");
            require(p->stops[picked[i]] == a->decisions[i], "a sent car's stop is the pending stop of its column");
            require(may_go(f, f->idle_car[i], stop), "a sent car's line serves the stop, which is not barred to it");
            sent |= UINT64_C(1) << stop;
        }
    }
}

/* Cells and sweeps are in their ranges; under ETD and RSR, and with no pending stop, sweeps are the sheet's. */
static void check_lists(const struct answer *a, const struct facts *f) {
    size_t cars = a->value[CARS], stops = a->value[STOPS], columns = cars < stops ? stops : cars;
    for (size_t i = 0; i < cars * columns; i++) {
        require(a->matrix[i] <= SENTINEL, "a cell is at most the sentinel");
        require(i % columns < stops || a->matrix[i] == SENTINEL, "a spare cell is the sentinel");
    }
    uint32_t idle = 0;
    for (size_t i = 0; i < f->idle; i++) {
        idle |= UINT32_C(1) << f->idle_car[i];
    }
    for (size_t i = 0; i < f->cars; i++) {
        require(a->sweeps[i] < 4, "a sweep is 0 to 3");
        int prepared = f->strategy == 2 && stops > 0 && (idle >> i & 1);
        require(prepared || a->sweeps[i] == f->car_sweep[i], "only SCAN's idle cars change their sweep");
    }
}

/* The pairs that the limit keeps: of each idle car's stops, those that are pending and where it may go. */
static uint64_t kept_pairs(const struct pending *p, const struct facts *f) {
    uint64_t kept = 0;
    for (size_t i = 0; i < f->idle; i++) {
        uint64_t viable = 0;
        for (size_t k = 0; k < p->count; k++) {
            viable += may_go(f, f->idle_car[i], stop_place(f, p->stops[k])) != 0;
        }
        kept += viable < f->limit ? viable : f->limit;
    }
    return kept;
}

/* The ranked pairs are the kept ones; the held cells are some of those at the ceiling, and cells of kept pairs. */
static void check_counts(const struct answer *a, const struct pending *p, const struct facts *f) {
    size_t cars = a->value[CARS], stops = a->value[STOPS], columns = cars < stops ? stops : cars;
    uint64_t at_ceiling = 0;
    for (size_t i = 0; i < cars * columns; i++) {
        at_ceiling += a->matrix[i] == CEILING;
    }
    require(a->value[RANKED] == kept_pairs(p, f), "the ranked pairs are the kept ones");
    require(a->value[HELD] <= kept_pairs(p, f), "the held cells are at most the kept pairs");
    require(at_ceiling > 0 || a->value[HELD] == 0, "no cell is held where none is at the ceiling");
    require(a->value[HELD] <= at_ceiling, "the held cells are at most those at the ceiling");
}

/* RSR's load term, beside the same sheet without its load weight: the same pairs have a rank, none costs less with the weight, a car for which no
   load counts costs the same, and what is held without the weight is held with it. */
static void check_loads(const struct answer *a, const struct facts *f, const uint8_t *data, size_t size) {
    static uint8_t weightless[MOST_BYTES + 4096];
    static struct answer without;
    struct lengths least = {DISPATCH_BENCH_DECISIONS, DISPATCH_BENCH_CELLS, DISPATCH_BENCH_SWEEPS};
    if (!f->weighs_loads) {
        return;
    }
    memcpy(weightless, data, size);
    put_bits(weightless, LOAD_WEIGHT, 64, 0);
    run_pass(&without, f, weightless, size, least, 1, 0xa5);
    require(without.number == 0 && without.value[CARS] == a->value[CARS] && without.value[STOPS] == a->value[STOPS],
            "the load weight changes neither cars nor stops");
    require(without.value[HELD] <= a->value[HELD], "the load weight frees no held cell");
    size_t cars = a->value[CARS], stops = a->value[STOPS], columns = cars < stops ? stops : cars;
    for (size_t i = 0; i < cars * columns; i++) {
        uint64_t cell = a->matrix[i], other = without.matrix[i];
        require((cell == SENTINEL) == (other == SENTINEL), "the load weight gives and takes no rank");
        require(cell >= other, "no pair costs less for the load weight");
        require(cell == other || f->car_laden[f->idle_car[i / columns]], "only the load of a car that is not in phase idle counts");
    }
}

/* The edition and the coordinates of an accepted sheet are what the header says. */
static void check_coordinates(const struct facts *f) {
    require(f->edition == 1 || f->edition == 2, "an accepted sheet is of edition 1 or 2");
    for (size_t i = 0; i < f->stops + f->cars; i++) {
        const double *at = i < f->stops ? f->stop_at[i] : f->car_at[i - f->stops];
        require(fabs(at[0]) <= 1e6 && fabs(at[1]) <= 1e6, "coordinates are inside of their range");
    }
}

/* SCAN's cell is the distance, the sum of the two absolute differences, where there is a rank. */
static void check_scan(const struct answer *a, const struct pending *p, const struct facts *f) {
    size_t cars = a->value[CARS], stops = a->value[STOPS], columns = cars < stops ? stops : cars;
    for (size_t i = 0; f->strategy == 2 && i < cars; i++) {
        for (size_t k = 0; k < stops; k++) {
            const double *car = f->car_at[f->idle_car[i]], *stop = f->stop_at[stop_place(f, p->stops[k])];
            double along = fabs(car[0] - stop[0]), aside = fabs(car[1] - stop[1]), distance = along + aside;
            uint64_t cell = a->matrix[i * columns + k];
            require(cell == SENTINEL || cell == (uint64_t)round(distance * 1000000), "SCAN's cell is the distance");
        }
    }
}

/* The sheet with every second coordinate on the other side of 0. */
static void mirror(uint8_t *bytes, size_t size) {
    static struct record records[MOST_RECORDS];
    size_t count = cut_records(bytes, size, records);
    for (size_t i = 0; i < count; i++) {
        unsigned kind = records[i].kind;
        size_t sign = records[i].start + (kind == STOP ? STOP_ACROSS : CAR_ACROSS);
        if (kind == STOP || kind == CAR) {
            put_bits(bytes, sign, 1, 1 ^ get_bits(bytes, size, sign, 1));
        }
    }
}

/* An accepted sheet whose second coordinates are all zero, or that has none, is answered as in the other edition; another one as its mirrored sheet. */
static void check_editions(const struct answer *a, const struct pending *p, const struct facts *f, const uint8_t *data, size_t size) {
    static uint8_t other[MOST_BYTES];
    static struct answer answer;
    static struct pending pending;
    struct lengths least = {DISPATCH_BENCH_DECISIONS, DISPATCH_BENCH_CELLS, DISPATCH_BENCH_SWEEPS};
    size_t length = size;
    if (f->sideways) {
        memcpy(other, data, size);
        mirror(other, size);
    } else {
        length = other_edition(data, size, other, sizeof other);
        require(length > 0, "an accepted sheet has a twin");
    }
    run_pass(&answer, f, other, length, least, 1, 0xa5);
    ask_pending(&pending, other, length, DISPATCH_BENCH_STOPS, 1, 0x96);
    int same = memcmp(a, &answer, sizeof answer) == 0 && memcmp(p, &pending, sizeof pending) == 0;
    require(same || f->sideways, "a sheet without second coordinates but zeros is answered as its twin");
    require(same, "a mirrored sheet is answered alike");
}

/* Each buffer too short by itself: refusal 1 at 0, whatever the sheet, and nothing else written. */
static void check_short(const uint8_t *data, size_t size, unsigned by) {
    struct lengths full = {DISPATCH_BENCH_DECISIONS, DISPATCH_BENCH_CELLS, DISPATCH_BENCH_SWEEPS};
    for (int which = 0; which < 3; which++) {
        struct lengths n = full;
        n.decisions -= which == 0 ? 1 + by % DISPATCH_BENCH_DECISIONS : 0;
        n.cells -= which == 1 ? 1 + by % DISPATCH_BENCH_CELLS : 0;
        n.sweeps -= which == 2 ? 1 + by % DISPATCH_BENCH_SWEEPS : 0;
        lend(data, size, n, 1, 0xc3);
        require(call_pass(n) == 1, "a short buffer is refusal 1");
        require(words()[OFFSET] == 0, "refusal 1 is at 0");
        check_refused(data, size);
    }
}

/* Bytes past the first 65,536 change no answer. */
static void check_long(const uint8_t *data, size_t size, unsigned more) {
    static uint8_t longer[MOST_BYTES + 4096];
    static struct answer whole, cut;
    size_t taken = size < MOST_BYTES ? size : MOST_BYTES;
    memset(longer, 0, MOST_BYTES);
    memset(longer + MOST_BYTES, 0xff, 4096);
    if (taken > 0) {
        memcpy(longer, data, taken);
    }
    run_read(&cut, longer, MOST_BYTES, 1, 0x69);
    run_read(&whole, longer, MOST_BYTES + 1 + more % 4096, 1, 0x69);
    require(cut.number == whole.number && cut.value[OFFSET] == whole.value[OFFSET], "bytes past the first 65,536 change no answer");
}

/* Features of the answers, in place of the coverage that the library is not built for. */
__attribute__((section("__libfuzzer_extra_counters"))) static uint8_t features[4096];

static unsigned bits_of(uint64_t value) {
    unsigned bits = 0;
    while (value >> bits > 1) {
        bits++;
    }
    return value == 0 ? 0 : bits + 1;
}

static void tell_refusal(const struct answer *a, const uint8_t *data, size_t size) {
    unsigned kind = (unsigned)get_bits(data, size, a->value[OFFSET], 6);
    kind = kind <= CLOSED ? kind : 0;
    features[a->number * 9 + kind] = 1;
    features[3584 + is_sideways(data, size) * 256 + a->number * 9 + kind] = 1;
    features[256 + kind * 16 + bits_of(a->value[OFFSET]) % 16] = 1;
}

static void tell_pass(const struct answer *a, const struct pending *p, const struct facts *f) {
    uint8_t *of = features + 512 + f->strategy * 1024;
    size_t cars = a->value[CARS], stops = a->value[STOPS], columns = cars < stops ? stops : cars, sent = 0;
    for (size_t i = 0; i < cars; i++) {
        sent += a->decisions[i] != 0;
        of[256 + f->car_sweep[f->idle_car[i]] * 4 + a->sweeps[f->idle_car[i]]] = 1;
    }
    for (size_t i = 0; i < cars * columns; i++) {
        of[320 + bits_of(a->matrix[i])] = 1;
    }
    of[cars] = 1;
    of[64 + stops] = 1;
    of[160 + sent] = 1;
    of[400 + (cars - sent) * 8 + bits_of(stops)] = 1;
    of[720 + bits_of(a->value[TOTAL])] = 1;
    of[800 + bits_of(a->value[RANKED])] = 1;
    of[840 + bits_of(f->cars - cars) * 8 + bits_of(f->stops - stops)] = 1;
    uint64_t pending_closed = 0;
    for (size_t k = 0; k < p->count; k++) {
        pending_closed += f->closed >> (63 - stop_place(f, p->stops[k])) & 1;
    }
    of[920 + bits_of((uint64_t)__builtin_popcountll(f->closed)) * 8 + bits_of(pending_closed)] = 1;
    of[990 + bits_of(a->value[HELD])] = 1;
    of[1016 + f->edition + (unsigned)f->sideways] = 1;
}

/* FNV-1a: lengths that vary with the input, and are the same each time it is run. */
static unsigned hash(const uint8_t *data, size_t size) {
    unsigned h = 2166136261u;
    for (size_t i = 0; i < size; i++) {
        h = (h ^ data[i]) * 16777619u;
    }
    return h ^ h >> 15;
}

int LLVMFuzzerTestOneInput(const uint8_t *data, size_t size) {
    static struct answer read, first, second;
    static struct pending pending;
    static struct facts facts;
    if (size > MOST_BYTES + 4096) {
        return 0;
    }
    begin();
    unsigned h = hash(data, size);
    struct lengths least = {DISPATCH_BENCH_DECISIONS, DISPATCH_BENCH_CELLS, DISPATCH_BENCH_SWEEPS};
    struct lengths more = {least.decisions + h % MORE, least.cells + h / 16 % MORE, least.sweeps + h / 256 % MORE};
    run_read(&read, data, size, h & 1, 0x69);
    read_facts(&facts, data, size);
    run_pass(&first, &facts, data, size, least, 1, 0xa5);
    run_pass(&second, &facts, data, size, more, 0, 0x5a);
    require(memcmp(&first, &second, sizeof first) == 0, "what the buffers hold and where they are changes no answer");
    require(first.number == read.number, "the pass and the reader answer the same number");
    require(first.number == 0 || first.value[OFFSET] == read.value[OFFSET], "the pass and the reader give the same offset");
    check_short(data, size, h);
    run_pending(&pending, &read, data, size, h);
    if (h % 8 == 0) {
        check_long(data, size, h / 8);
    }
    size_t cars = first.value[CARS], stops = first.value[STOPS], columns = cars < stops ? stops : cars;
    struct passed passed = {data, size, read.number, read.value[OFFSET], &facts, pending.stops, stops, first.matrix, columns};
    if (first.number != 0) {
        check_why(&passed, h);
        refusals[first.number]++;
        tell_refusal(&first, data, size);
        return 0;
    }
    check_coordinates(&facts);
    check_lists(&first, &facts);
    check_loads(&first, &facts, data, size);
    check_pending(&pending, &first, &facts);
    check_counts(&first, &pending, &facts);
    check_decisions(&first, &pending, &facts);
    check_scan(&first, &pending, &facts);
    check_editions(&first, &pending, &facts, data, size);
    check_why(&passed, h);
    passes[facts.strategy]++;
    tell_pass(&first, &pending, &facts);
    closed_passes += facts.closed != 0;
    bound_passes += (facts.closed & facts.wanted) != 0;
    load_passes += facts.weighs_loads;
    held_passes += first.value[HELD] > 0;
    second_passes += facts.edition == 2;
    sideways_passes += facts.sideways;
    return 0;
}
