#include "stored.h"

#include <stdio.h>
#include <string.h>

#include "dispatch_bench.h"
#include "guarded.h"
#include "require.h"
#include "sheet.h"

#define RECORD (DISPATCH_BENCH_WEIGHT_BITS / 8)
#define MOST_PUTS 256
#define ROOM (DISPATCH_BENCH_STORE_BYTES + 2 * RECORD)

struct weight {
    uint8_t setting;
    uint32_t start;
    uint16_t issue;
    double value;
};

static struct guarded store, count;
static uint8_t store_before[ROOM];
static struct weight records[MOST_PUTS];
static unsigned long written, without_room, without_place, answers[19];

void make_stored(void) {
    guarded_make(&store, ROOM);
    guarded_make(&count, 2);
}

void print_stored(void) {
    fprintf(stderr, "; weights put %lu, refused by 2 %lu, by 7 %lu, stores read %lu", written, without_room, without_place, answers[0]);
    for (int number = 1; number <= 18; number++) {
        if (answers[number] > 0) {
            fprintf(stderr, ", refused by %d %lu", number, answers[number]);
        }
    }
    fprintf(stderr, "\n");
}

static uint16_t *counted(void) {
    return (uint16_t *)(void *)count.at;
}

/* The four fields of the record behind n others, and all else from before. */
static void check_written(const struct weight *w, uint16_t n) {
    const struct field fields[4] = {{8, w->setting}, {32, w->start}, {16, w->issue}, {64, written_bits(w->value)}};
    size_t at = (size_t)n * DISPATCH_BENCH_WEIGHT_BITS;
    for (size_t i = 0; i < 4; i++) {
        require(get_bits(store.at, store.length, at, fields[i].width) == fields[i].value, "the fields of a weight are those that were put");
        put_bits(store_before, at, fields[i].width, fields[i].value);
        at += fields[i].width;
    }
    require(memcmp(store.at, store_before, store.length) == 0, "a weight keeps every other bit of the store");
    require(*counted() == n + 1, "a weight is counted");
}

static uint32_t run_weight(const struct weight *w) {
    uint16_t n = *counted();
    uint32_t wanted = store.length < RECORD * ((size_t)n + 1) ? DISPATCH_BENCH_PAST_END : n >= MOST_PUTS ? DISPATCH_BENCH_TABLE_FULL : 0;
    memcpy(store_before, store.at, store.length);
    uint32_t number = dispatch_bench_put_weight(store.at, store.length, counted(), w->setting, w->start, w->issue, w->value);
    require(number == wanted, "the number of a weight is the first that the header gives");
    require(guarded_kept(&store, 0, store.length) && guarded_kept(&count, 0, 2), "nothing is written around the store");
    if (number == 0) {
        check_written(w, n);
    } else {
        require(memcmp(store.at, store_before, store.length) == 0 && *counted() == n, "a refusal keeps the store and its count");
    }
    written += number == 0;
    without_room += number == DISPATCH_BENCH_PAST_END;
    without_place += number == DISPATCH_BENCH_TABLE_FULL;
    return number;
}

/* The bits of a slot's weight for a day among the puts. 0: it has none. */
static int look_up(unsigned slot, uint32_t day, uint64_t *bits) {
    const struct weight *best = NULL;
    for (size_t i = 0; i < *counted(); i++) {
        const struct weight *w = &records[i];
        int later = best == NULL || w->start > best->start || (w->start == best->start && w->issue > best->issue);
        best = w->setting == slot && w->start <= day && later ? w : best;
    }
    *bits = best == NULL ? 0 : written_bits(best->value);
    return best != NULL;
}

/* Record i has an earlier one that agrees in all but the value. */
static int disagrees(size_t i) {
    const struct weight *w = &records[i];
    for (const struct weight *e = records; e < w; e++) {
        if (e->setting == w->setting && e->start == w->start && e->issue == w->issue && written_bits(e->value) != written_bits(w->value)) {
            return 1;
        }
    }
    return 0;
}

/* Whether a refusal of the reader names a record, or a slot, of which it holds. */
static int is_refused(uint32_t number, uint64_t offset, uint32_t day) {
    uint64_t bits, i = offset / DISPATCH_BENCH_WEIGHT_BITS;
    if (number == DISPATCH_BENCH_NO_WEIGHT) {
        return offset < DISPATCH_BENCH_WEIGHTS && !look_up((unsigned)offset, day, &bits);
    }
    if (i >= *counted() || offset % DISPATCH_BENCH_WEIGHT_BITS != 0) {
        return 0;
    }
    switch (number) {
    case DISPATCH_BENCH_UNUSED_BITS: return records[i].setting > 5;
    case DISPATCH_BENCH_DOUBLE: return !(records[i].value >= 0 && records[i].value <= 1e9);
    case DISPATCH_BENCH_TWO_VALUES: return disagrees(i);
    default: return 0;
    }
}

static uint32_t check_weights(uint32_t day) {
    uint64_t offset = 0, bits, found;
    double weights[DISPATCH_BENCH_WEIGHTS];
    uint32_t number = dispatch_bench_weights(store.at, RECORD * (size_t)*counted(), day, weights, DISPATCH_BENCH_WEIGHTS, &offset);
    if (number != 0) {
        require(is_refused(number, offset, day), "a written store is refused for what was put");
    }
    for (unsigned slot = 0; number == 0 && slot < DISPATCH_BENCH_WEIGHTS; slot++) {
        memcpy(&bits, &weights[slot], sizeof bits);
        require(look_up(slot, day, &found) && bits == found, "a written store is read as the weights that were put");
    }
    answers[number]++;
    return number;
}

/* A put with another count; then store and count are again those from before. */
static void run_foreign(const struct weight *w, uint16_t n) {
    static uint8_t kept[ROOM];
    uint16_t before = *counted();
    memcpy(kept, store.at, store.length);
    *counted() = n;
    run_weight(w);
    memcpy(store.at, kept, store.length);
    *counted() = before;
}

uint32_t run_store(struct input *in, int at_end, uint8_t pattern) {
    unsigned first = (unsigned)take(in, 1), slot = 0;
    uint32_t day = (uint32_t)take(in, 1);
    size_t length = take(in, 2);
    guarded_lend(&store, first % 2 == 0 ? ROOM : length % (ROOM + 1), at_end, pattern);
    guarded_lend(&count, 2, at_end, pattern);
    *counted() = 0;
    while (in->left > 0) {
        uint8_t op = (uint8_t)take(in, 1);
        int any = op % 16 == 15;
        struct weight w = {(uint8_t)(op % 16 < 6 ? op % 16 : slot++ % 6), (uint32_t)take(in, any ? 4 : 1), (uint16_t)take(in, any ? 2 : 1), 0};
        w.setting = any ? (uint8_t)take(in, 1) % 8 : w.setting;
        w.value = take_double(in, any);
        if (op % 16 == 14) {
            run_foreign(&w, (uint16_t)take(in, 2));
        }
        for (unsigned left = op >> 4 == 15 ? 100 : 1 + (op >> 4) / 8; left > 0; left--) {
            uint16_t n = *counted();
            if (run_weight(&w) == 0) {
                records[n] = w;
            }
        }
    }
    return check_weights(day);
}
