/* Any bytes as a store of weights, through dispatch_bench_weights: the first say the places, the day and how the others are read, as the store itself
   or four bytes a record, so that settings, days, issues and values often agree. Every answer is held to a plain reading of the header; the same
   store again, with a record repeated, and with its records in another order, has the answer that it had. */
#include <stdio.h>
#include <stdlib.h>
#include <string.h>

#include "dispatch_bench.h"
#include "guarded.h"
#include "require.h"

#define RECORD (DISPATCH_BENCH_WEIGHT_BITS / 8)
#define MOST_RECORDS 256
#define MOST_BYTES (300 * RECORD)
#define MOST_PLACES 9
#define FRONT 5
#define MOST 1e9

static struct guarded store, weights, offset;

/* What is asked for. */
struct question {
    size_t length, places;
    uint32_t day;
    uint8_t bytes[MOST_BYTES];
};

/* What is answered; the weights where the number is 0, as bits. */
struct answer {
    uint32_t number;
    uint64_t offset, weights[DISPATCH_BENCH_WEIGHTS];
};

struct record {
    unsigned setting, issue;
    uint32_t start;
    uint64_t bits;
    double value;
};

__attribute__((section("__libfuzzer_extra_counters"))) static uint8_t features[4096];

/* How often each number was answered. */
static unsigned long answers[19];

static void print_counts(void) {
    fprintf(stderr, "answers: weights %lu; refusals", answers[0]);
    for (int number = 1; number <= 18; number++) {
        if (answers[number] > 0) {
            fprintf(stderr, " %d: %lu", number, answers[number]);
        }
    }
    fprintf(stderr, "\n");
}

static const double values[] = {0.0, -0.0, 1.0, 0.5, 1e9, 1000000000.0000001, 2.5, 5e-324, -5e-324, 3.5, 1e-300, 7.0, -1.0, 1e300, 4.5, 5.5};

static void put(uint8_t *at, uint64_t value, unsigned bytes) {
    for (unsigned k = 0; k < bytes; k++) {
        at[k] = (uint8_t)(value >> 8 * (bytes - 1 - k));
    }
}

static uint64_t get(const uint8_t *at, unsigned bytes) {
    uint64_t value = 0;
    for (unsigned k = 0; k < bytes; k++) {
        value = value << 8 | at[k];
    }
    return value;
}

static struct record record_at(const uint8_t *at) {
    struct record r = {.setting = at[0], .issue = (unsigned)get(at + 5, 2), .start = (uint32_t)get(at + 1, 4), .bits = get(at + 7, 8)};
    memcpy(&r.value, &r.bits, sizeof r.value);
    return r;
}

/* A record from four bytes: most settings are slots, days and issues are few, values are those above. */
static void put_record(uint8_t *at, const uint8_t *four) {
    uint64_t bits;
    at[0] = four[0] < 252 ? four[0] % 6 : four[0];
    put(at + 1, four[1] < 250 ? four[1] % 5 : UINT32_MAX - four[1] % 3, 4);
    put(at + 5, four[2] < 250 ? four[2] % 3 : 65535, 2);
    memcpy(&bits, &values[four[3] % 16], sizeof bits);
    put(at + 7, four[3] < 240 && four[3] % 16 > 11 ? 0 : bits, 8);
}

static void ask(struct question *q, const uint8_t *data, size_t size) {
    const uint8_t *rest = data + FRONT;
    size_t left = size - FRONT;
    q->places = data[0] / 2 % 8 == 7 ? data[0] / 16 % 6 : DISPATCH_BENCH_WEIGHTS + data[0] / 16 % 4;
    q->day = (uint32_t)get(data + 1, 4);
    q->length = left < MOST_BYTES ? left : MOST_BYTES;
    memcpy(q->bytes, rest, q->length);
    if (data[0] % 2 == 1) {
        size_t records = left / 4 < MOST_BYTES / RECORD ? left / 4 : MOST_BYTES / RECORD;
        for (size_t i = 0; i < records; i++) {
            put_record(q->bytes + RECORD * i, rest + 4 * i);
        }
        q->length = RECORD * records;
        q->length -= q->length > left % 4 ? left % 4 : 0;
        q->day = q->day % 8 == 7 ? UINT32_MAX : q->day % 8;
    }
}

static struct answer run(const struct question *q, int at_end, uint8_t pattern) {
    struct answer a = {0};
    guarded_lend(&store, q->length, at_end, pattern);
    memcpy(store.at, q->bytes, q->length);
    guarded_lend(&weights, 8 * q->places, at_end, pattern);
    guarded_lend(&offset, 8, at_end, pattern);
    a.number = dispatch_bench_weights(store.at, q->length, q->day, (double *)(void *)weights.at, q->places, (uint64_t *)(void *)offset.at);
    require(guarded_kept(&store, 0, q->length) && memcmp(store.at, q->bytes, q->length) == 0, "the store is only read");
    if (a.number == 0) {
        require(q->places >= DISPATCH_BENCH_WEIGHTS, "six weights need six places");
        require(guarded_kept(&weights, 0, sizeof a.weights), "further places are kept");
        require(guarded_kept(&offset, 0, 0), "an answer of weights keeps the offset");
        memcpy(a.weights, weights.at, sizeof a.weights);
    } else {
        require(guarded_kept(&weights, 0, 0), "a refusal keeps the places");
        require(guarded_kept(&offset, 0, 8), "the offset is one number");
        memcpy(&a.offset, offset.at, sizeof a.offset);
    }
    return a;
}

static int same(const struct answer *one, const struct answer *other) {
    return memcmp(one, other, sizeof *one) == 0;
}

/* The numbers there are, and where they are given. */
static void check_number(const struct question *q, const struct answer *a) {
    uint64_t record = a->offset / DISPATCH_BENCH_WEIGHT_BITS;
    switch (a->number) {
    case DISPATCH_BENCH_ACCEPTED: return;
    case DISPATCH_BENCH_SHORT_BUFFER:
        require(q->places < DISPATCH_BENCH_WEIGHTS && a->offset == 0, "refusal 1 is of fewer than six places, at 0");
        return;
    case DISPATCH_BENCH_NO_WEIGHT: require(a->offset < DISPATCH_BENCH_WEIGHTS, "refusal 18 names a slot"); return;
    case DISPATCH_BENCH_PAST_END:
    case DISPATCH_BENCH_TABLE_FULL:
    case DISPATCH_BENCH_UNUSED_BITS:
    case DISPATCH_BENCH_DOUBLE:
    case DISPATCH_BENCH_TWO_VALUES:
        require(a->offset % DISPATCH_BENCH_WEIGHT_BITS == 0 && RECORD * record < q->length, "a refusal is where a record starts");
        return;
    default: require(0, "the answer is one of the numbers of a store");
    }
}

/* A weight is in range, and has the bits of a record of its slot that has started. */
static void check_weights(const struct question *q, const struct answer *a) {
    for (unsigned slot = 0; slot < DISPATCH_BENCH_WEIGHTS; slot++) {
        double weight;
        int found = 0;
        memcpy(&weight, &a->weights[slot], sizeof weight);
        require(weight >= 0 && weight <= MOST, "a weight is within 0 and 1,000,000,000");
        for (size_t at = 0; at < q->length; at += RECORD) {
            struct record r = record_at(q->bytes + at);
            found |= r.setting == slot && r.start <= q->day && r.bits == a->weights[slot];
        }
        require(found, "a weight has the bits of a record of its slot that has started");
    }
}

/* The first number of record i, or 0. */
static uint32_t refused(const struct question *q, size_t i) {
    if (q->length - RECORD * i < RECORD) {
        return DISPATCH_BENCH_PAST_END;
    }
    struct record r = record_at(q->bytes + RECORD * i);
    if (i >= MOST_RECORDS) {
        return DISPATCH_BENCH_TABLE_FULL;
    }
    return r.setting > 5 ? DISPATCH_BENCH_UNUSED_BITS : r.value >= 0 && r.value <= MOST ? 0 : DISPATCH_BENCH_DOUBLE;
}

/* Record i has an earlier one that agrees in all but the value. */
static int disagrees(const struct question *q, size_t i) {
    struct record r = record_at(q->bytes + RECORD * i);
    for (size_t k = 0; k < i; k++) {
        struct record e = record_at(q->bytes + RECORD * k);
        if (e.setting == r.setting && e.start == r.start && e.issue == r.issue && e.bits != r.bits) {
            return 1;
        }
    }
    return 0;
}

/* The bits of a slot's weight. 0: it has none. */
static int look_up(const struct question *q, unsigned slot, uint64_t *bits) {
    uint64_t best = 0;
    int found = 0;
    for (size_t at = 0; at < q->length; at += RECORD) {
        struct record r = record_at(q->bytes + at);
        uint64_t key = (uint64_t)r.start << 16 | r.issue;
        if (r.setting == slot && r.start <= q->day && (!found || key > best)) {
            *bits = r.bits;
            best = key;
            found = 1;
        }
    }
    return found;
}

/* The header, read plainly. */
static struct answer expected(const struct question *q) {
    struct answer a = {0};
    size_t count = (q->length + RECORD - 1) / RECORD;
    if (q->places < DISPATCH_BENCH_WEIGHTS) {
        a.number = DISPATCH_BENCH_SHORT_BUFFER;
        return a;
    }
    for (size_t i = 0; i < count && a.number == 0; i++) {
        a.number = refused(q, i);
        a.offset = a.number ? DISPATCH_BENCH_WEIGHT_BITS * i : 0;
    }
    for (size_t i = 0; i < count && a.number == 0; i++) {
        a.number = disagrees(q, i) ? DISPATCH_BENCH_TWO_VALUES : 0;
        a.offset = a.number ? DISPATCH_BENCH_WEIGHT_BITS * i : 0;
    }
    for (unsigned slot = 0; slot < DISPATCH_BENCH_WEIGHTS && a.number == 0; slot++) {
        a.number = look_up(q, slot, &a.weights[slot]) ? 0 : DISPATCH_BENCH_NO_WEIGHT;
        a.offset = a.number ? slot : 0;
    }
    if (a.number != 0) {
        memset(a.weights, 0, sizeof a.weights);
    }
    return a;
}

/* Record k once more at the end, where whole records leave room for it. */
static void check_repeated(const struct question *q, const struct answer *a, size_t k, int at_end) {
    static struct question longer;
    size_t count = q->length / RECORD;
    if (count == 0 || count >= MOST_RECORDS || q->length % RECORD != 0) {
        return;
    }
    longer = *q;
    memcpy(longer.bytes + q->length, q->bytes + RECORD * (k % count), RECORD);
    longer.length += RECORD;
    struct answer b = run(&longer, at_end, 0xa5);
    require(same(a, &b), "a repeated record changes nothing");
}

/* The records of a store that gives weights, the last one first. */
static void check_reversed(const struct question *q, const struct answer *a, int at_end) {
    static struct question turned;
    if (a->number != 0) {
        return;
    }
    turned = *q;
    for (size_t at = 0; at < q->length; at += RECORD) {
        memcpy(turned.bytes + q->length - RECORD - at, q->bytes + at, RECORD);
    }
    struct answer b = run(&turned, at_end, 0xa5);
    require(same(a, &b), "the order of the records changes no weight");
}

int LLVMFuzzerTestOneInput(const uint8_t *data, size_t size) {
    static struct question q;
    static int made;
    if (!made) {
        atexit(print_counts);
        guarded_make(&store, MOST_BYTES + RECORD);
        guarded_make(&weights, 8 * MOST_PLACES);
        guarded_make(&offset, 8);
        made = 1;
    }
    if (size < FRONT) {
        return 0;
    }
    ask(&q, data, size);
    int at_end = data[0] >> 7;
    struct answer a = run(&q, at_end, 0xa5);
    check_number(&q, &a);
    if (a.number == 0) {
        check_weights(&q, &a);
    }
    struct answer again = run(&q, !at_end, 0x5a);
    require(same(&a, &again), "what stood in the places changes no answer");
    check_repeated(&q, &a, size, at_end);
    check_reversed(&q, &a, at_end);
    struct answer plain = expected(&q);
    require(a.number == plain.number, "the number is the first that the header gives");
    require(a.offset == plain.offset, "the offset is that of the first record, or slot, at fault");
    require(same(&a, &plain), "the weights are those of the latest starts and highest issues");
    answers[a.number]++;
    features[a.number * 128 + data[0] % 2 * 64 + q.length / RECORD / 5] = 1;
    return 0;
}
