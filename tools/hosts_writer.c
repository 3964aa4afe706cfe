/* The writer as a host in C calls it: document 01's example record by record, in both editions, a car with every field, each number, and what is left
   in the sheet and in the state; a store of weights; a field of every width at every bit; and every function with null for what has length 0. The
   arguments are document 01's example and its twin in edition 2. Ends with 0 where all is as the header says; what is not is said on standard
   error. */
#include <math.h>
#include <stdio.h>
#include <string.h>

#include "dispatch_bench.h"

#define ROOM DISPATCH_BENCH_SHEET_BYTES
#define KEPT 0xa5

static uint8_t sheet[ROOM];
static uint32_t state[DISPATCH_BENCH_STATE + 1];
static size_t lent = ROOM, places = DISPATCH_BENCH_STATE;
static int wrong;

static void say(const char *name, const char *what) {
    fprintf(stderr, "%s: %s\n", name, what);
    wrong++;
}

static void is(const char *name, uint64_t found, uint64_t wanted) {
    if (found != wanted) {
        fprintf(stderr, "%s: %llu, and not %llu\n", name, (unsigned long long)found, (unsigned long long)wanted);
        wrong++;
    }
}

/* Ones in every bit that no call has written. */
static uint32_t start(uint32_t edition) {
    memset(sheet, 0xff, sizeof sheet);
    memset(state, KEPT, sizeof state);
    return dispatch_bench_start(sheet, lent, state, places, edition);
}

static uint32_t policy(void) {
    return dispatch_bench_put_policy(sheet, lent, state, places, 2, 65535, 60, 0, 0, 0, 0, 0, 0, 0);
}

static uint32_t stop(uint32_t id, double position, double across) {
    return dispatch_bench_put_stop(sheet, lent, state, places, id, position, across);
}

static uint32_t line(uint32_t id, uint64_t serves) {
    return dispatch_bench_put_line(sheet, lent, state, places, id, serves);
}

/* An idle car of phase 0, or one of another phase, as those of document 01's example. */
static uint32_t car(uint32_t id, uint32_t phase, double position, double across) {
    return dispatch_bench_put_car(sheet, lent, state, places, id, 1, phase, 0, 0, 1, 1, 1, 0, 0, position, across, 2, 100, 0, 0, 0, 0, 0, 0, 0, 0, 0);
}

static uint32_t demand(uint32_t id) {
    return dispatch_bench_put_demand(sheet, lent, state, places, id, 0, 1);
}

static uint32_t finish(uint64_t *bytes) {
    return dispatch_bench_finish(sheet, lent, state, places, bytes);
}

/* Document 01's example, in edition 2 with the zeros of both signs that its stored twin has. */
static void example(const char *path, uint32_t edition) {
    uint8_t stored[1024];
    uint64_t bytes = 0;
    FILE *file = fopen(path, "rb");
    size_t length = file == NULL ? 0 : fread(stored, 1, sizeof stored, file);
    uint32_t numbers = start(edition) | policy() | stop(1, 0, 0) | stop(2, 10, 0) | stop(3, 20, -0.0);
    numbers |= line(1, UINT64_C(7) << 61) | car(7, 0, 0, 0) | car(8, 0, 20, -0.0) | demand(2) | demand(3) | finish(&bytes);
    if (file != NULL) {
        fclose(file);
    }
    is(path, numbers, 0);
    is(path, bytes, length);
    if (length == 0 || memcmp(sheet, stored, length) != 0) {
        say(path, "other bytes than the stored ones");
    }
    for (size_t i = length; i < ROOM; i++) {
        if (sheet[i] != 0xff) {
            say(path, "a byte is written behind the sheet");
            return;
        }
    }
}

/* Up to 64 bits at a bit of the sheet. */
static uint64_t field(size_t at, unsigned width) {
    uint64_t value = 0;
    for (size_t bit = at; bit < at + width; bit++) {
        value = value << 1 | (sheet[bit / 8] >> (7 - bit % 8) & 1);
    }
    return value;
}

static void is_double(const char *name, size_t at, double wanted) {
    uint64_t bits;
    memcpy(&bits, &wanted, sizeof bits);
    is(name, field(at, 64), bits);
}

/* A car with every field, behind a policy, in edition 2, by the table of docs/manual/format.md. */
static void every_field(void) {
    const size_t at = 514;
    start(2);
    policy();
    is("a car with every field",
       dispatch_bench_put_car(sheet, lent, state, places, 7, 9, 1, 4, 5, 0, 1, 0, 1, 3, 1.5, 2.5, 3.5, 4.5, 5.5, 1, 0.5, 2, 0.25, 11, 12,
                              UINT64_C(1) << 63, 3),
       0);
    is("kind", field(at, 6), 4);
    is("length", field(at + 6, 16), 779);
    is("id", field(at + 22, 32), 7);
    is("line", field(at + 54, 32), 9);
    is("phase", field(at + 86, 3), 1);
    is("stop", field(at + 89, 32), 4);
    is("target", field(at + 121, 33), UINT64_C(1) << 32 | 5);
    is("listed, up, down, sweep, mode", field(at + 154, 5), 11);
    is_double("position", at + 159, 1.5);
    is_double("across", at + 223, 2.5);
    is_double("speed", at + 287, 3.5);
    is_double("capacity", at + 351, 4.5);
    is_double("load", at + 415, 5.5);
    is("up threshold is there", field(at + 479, 1), 1);
    is_double("up threshold", at + 480, 0.5);
    is("down threshold is there", field(at + 544, 1), 1);
    is_double("down threshold", at + 545, 0.25);
    is("ticks", field(at + 609, 64), UINT64_C(11) << 32 | 12);
    is("restricted", field(at + 673, 64), UINT64_C(1) << 63);
    is("calls", field(at + 737, 64), 3);
}

/* What a car leaves out: the stop of phase 0 and thresholds without their flag; and a NaN is the quiet one. */
static void left_out(void) {
    const size_t at = 514;
    start(2);
    policy();
    dispatch_bench_put_car(sheet, lent, state, places, 7, 9, 0, 4, 0, 0, 0, 0, 0, 0, -NAN, 0, 2, 100, 0, 0, 0.5, 0, 0.25, 0, 0, 0, 0);
    is("phase and stop", field(at + 86, 35), 0);
    is("target is absent", field(at + 121, 33), 0);
    is("a NaN", field(at + 159, 64), UINT64_C(0x7ff8000000000000));
    is("up threshold is absent", field(at + 479, 1) | field(at + 480, 64), 0);
    is("down threshold is absent", field(at + 544, 1) | field(at + 545, 64), 0);
}

/* Riders, a demand and a closed landing, in edition 1. */
static void riders(void) {
    size_t at = 514;
    uint64_t bytes = 0;
    start(1);
    policy();
    is("aboard", dispatch_bench_put_aboard(sheet, lent, state, places, 7, 3), 0);
    is("aboard, bound for nowhere", dispatch_bench_put_aboard(sheet, lent, state, places, 8, 0), 0);
    is("waiting", dispatch_bench_put_waiting(sheet, lent, state, places, 2, 0, 3, 75, 600), 0);
    is("demand", dispatch_bench_put_demand(sheet, lent, state, places, 3, 4, 0), 0);
    is("closed", dispatch_bench_put_closed(sheet, lent, state, places, 1), 0);
    is("finish", finish(&bytes), 0);
    is("aboard's record", field(at, 22), 5 << 16 | 65);
    is("aboard's fields", field(at + 22, 32) << 33 | field(at + 54, 33), UINT64_C(7) << 33 | UINT64_C(1) << 32 | 3);
    at += 87;
    is("no destination", field(at + 54, 33), 0);
    at += 87;
    is("waiting's record", field(at, 22), 6 << 16 | 226);
    is("waiting's stop and no line", field(at + 22, 32) << 1 | field(at + 54, 1), 4);
    is("waiting's destination", field(at + 87, 33), UINT64_C(1) << 32 | 3);
    is_double("weight", at + 120, 75);
    is("wait", field(at + 184, 64), 600);
    at += 248;
    is("demand's record", field(at, 22), 7 << 16 | 49);
    is("demand's fields", field(at + 22, 49), UINT64_C(3) << 17 | 4 << 1);
    at += 71;
    is("closed's record", field(at, 54), (uint64_t)(8 << 16 | 32) << 32 | 1);
    is("the tail", field(at + 54, 8 * bytes - at - 54), 0);
    is("the count", field(8, 16), 6);
}

static uint8_t sheet_before[ROOM];
static uint32_t state_before[DISPATCH_BENCH_STATE + 1];

static void keep(void) {
    memcpy(sheet_before, sheet, sizeof sheet);
    memcpy(state_before, state, sizeof state);
}

/* The number, and that neither the sheet nor the state was written since keep. */
static void refused(const char *name, uint32_t number, uint32_t wanted) {
    is(name, number, wanted);
    if (memcmp(sheet, sheet_before, sizeof sheet) != 0) {
        say(name, "the sheet is written");
    }
    if (memcmp(state, state_before, sizeof state) != 0) {
        say(name, "the state is written");
    }
}

/* Each put with what the host lent just now, which is the same number for all. */
static void all_refused(const char *name, uint32_t wanted) {
    keep();
    refused(name, policy(), wanted);
    refused(name, stop(1, 0, 0), wanted);
    refused(name, line(1, 0), wanted);
    refused(name, car(1, 0, 0, 0), wanted);
    refused(name, dispatch_bench_put_aboard(sheet, lent, state, places, 1, 0), wanted);
    refused(name, dispatch_bench_put_waiting(sheet, lent, state, places, 1, 0, 0, 1, 1), wanted);
    refused(name, demand(1), wanted);
    refused(name, dispatch_bench_put_closed(sheet, lent, state, places, 1), wanted);
}

static void bad_starts(void) {
    memset(state, KEPT, sizeof state);
    memset(sheet, KEPT, sizeof sheet);
    keep();
    refused("edition 0", dispatch_bench_start(sheet, lent, state, places, 0), DISPATCH_BENCH_EDITION);
    refused("edition 3", dispatch_bench_start(sheet, lent, state, places, 3), DISPATCH_BENCH_EDITION);
    refused("a state of 8", dispatch_bench_start(sheet, lent, state, 8, 3), DISPATCH_BENCH_SHORT_BUFFER);
    refused("two bytes", dispatch_bench_start(sheet, 2, state, places, 1), DISPATCH_BENCH_PAST_END);
    is("three bytes", dispatch_bench_start(sheet, 3, state, places, 1), 0);
    is("what stands past the state", state[DISPATCH_BENCH_STATE], 0xa5a5a5a5);
}

static void no_state(void) {
    static const uint32_t most[DISPATCH_BENCH_STATE] = {64, 1, 64, 8, 32, 512, 512, 65535, 65535};
    uint64_t bytes = KEPT;
    for (size_t i = 0; i < DISPATCH_BENCH_STATE; i++) {
        start(1);
        state[i] = most[i] + 1;
        all_refused("a number that is too large", DISPATCH_BENCH_SHORT_BUFFER);
        refused("a number that is too large", finish(&bytes), DISPATCH_BENCH_SHORT_BUFFER);
    }
    start(1);
    state[0] = 63;
    all_refused("a second coordinate of 63 bits", DISPATCH_BENCH_SHORT_BUFFER);
    start(1);
    places = 8;
    all_refused("a state of 8", DISPATCH_BENCH_SHORT_BUFFER);
    refused("a state of 8", finish(&bytes), DISPATCH_BENCH_SHORT_BUFFER);
    places = DISPATCH_BENCH_STATE;
    is("bytes", bytes, KEPT);
}

static void unknown_codes(void) {
    start(1);
    keep();
    refused("strategy 3", dispatch_bench_put_policy(sheet, lent, state, places, 3, 1, 60, 0, 0, 0, 0, 0, 0, 0), DISPATCH_BENCH_UNUSED_BITS);
    refused("traffic 4", dispatch_bench_put_policy(sheet, lent, state, places, 0, 1, 60, 4, 0, 0, 0, 0, 0, 0), DISPATCH_BENCH_UNUSED_BITS);
    refused("phase 7, and no room", dispatch_bench_put_car(sheet, 3, state, places, 7, 9, 7, 4, 0, 0, 0, 0, 0, 0, 0, 0, 2, 100, 0, 0, 0, 0, 0, 0, 0,
                                                           0, 0),
            DISPATCH_BENCH_UNUSED_BITS);
}

/* A byte too few for each record, and for what was written. */
static void no_room(void) {
    uint64_t bytes = KEPT;
    start(1);
    lent = 6;
    all_refused("six bytes", DISPATCH_BENCH_PAST_END);
    lent = 64;
    keep();
    refused("a byte too few for the policy", policy(), DISPATCH_BENCH_PAST_END);
    lent = 65;
    is("bytes for the policy", policy(), 0);
    lent = 64;
    keep();
    refused("a byte too few at the end", finish(&bytes), DISPATCH_BENCH_PAST_END);
    is("bytes", bytes, KEPT);
    lent = 78;
    keep();
    refused("a byte too few for a stop", stop(1, 0, 0), DISPATCH_BENCH_PAST_END);
    lent = 79;
    is("bytes for a stop", stop(1, 0, 0), 0);
    is("the end", finish(&bytes), 0);
    is("the sheet's bytes", bytes, 79);
    lent = ROOM;
}

static void out_of_order(void) {
    start(1);
    keep();
    refused("a stop first", stop(1, 0, 0), DISPATCH_BENCH_OUT_OF_ORDER);
    refused("a closed landing first", dispatch_bench_put_closed(sheet, lent, state, places, 1), DISPATCH_BENCH_OUT_OF_ORDER);
    policy();
    line(1, 0);
    keep();
    refused("a stop behind a line", stop(1, 0, 0), DISPATCH_BENCH_OUT_OF_ORDER);
    refused("a policy behind a line", policy(), DISPATCH_BENCH_OUT_OF_ORDER);
}

/* As many records as there may be: the longest sheet that is accepted fills all that is lent. Then one more of each kind that has a table. */
static void full(void) {
    uint64_t bytes = 0, offset = 0;
    uint32_t numbers = start(2) | policy();
    keep();
    refused("a second policy", policy(), DISPATCH_BENCH_TABLE_FULL);
    for (uint32_t id = 1; id <= 64; id++) {
        numbers |= stop(id, id, 0);
    }
    keep();
    refused("the 65th stop", stop(65, 65, 0), DISPATCH_BENCH_TABLE_FULL);
    for (uint32_t id = 1; id <= 8; id++) {
        numbers |= line(id, UINT64_MAX);
    }
    keep();
    refused("the ninth line", line(9, 0), DISPATCH_BENCH_TABLE_FULL);
    for (uint32_t id = 1; id <= 32; id++) {
        numbers |= car(id, 0, id, 0);
    }
    keep();
    refused("the 33rd car", car(33, 0, 0, 0), DISPATCH_BENCH_TABLE_FULL);
    for (int i = 0; i < 512; i++) {
        numbers |= dispatch_bench_put_aboard(sheet, lent, state, places, 1, 2);
    }
    keep();
    refused("the 513th rider aboard", dispatch_bench_put_aboard(sheet, lent, state, places, 1, 2), DISPATCH_BENCH_TABLE_FULL);
    for (int i = 0; i < 512; i++) {
        numbers |= dispatch_bench_put_waiting(sheet, lent, state, places, 1, 0, 2, 75, 1);
    }
    keep();
    refused("the 513th rider who waits", dispatch_bench_put_waiting(sheet, lent, state, places, 1, 0, 2, 75, 1), DISPATCH_BENCH_TABLE_FULL);
    for (uint32_t id = 1; id <= 64; id++) {
        numbers |= demand(id);
    }
    for (uint32_t id = 1; id <= 64; id++) {
        numbers |= dispatch_bench_put_closed(sheet, lent, state, places, id);
    }
    keep();
    refused("a closure more than there is room for", dispatch_bench_put_closed(sheet, lent, state, places, 1), DISPATCH_BENCH_PAST_END);
    is("the longest sheet", numbers | finish(&bytes), 0);
    is("its bytes", bytes, DISPATCH_BENCH_SHEET_BYTES);
    is("it is accepted", dispatch_bench_read(sheet, bytes, &offset), DISPATCH_BENCH_ACCEPTED);
}

/* A copy of the state leads back: another record stands in the place of the last. */
static void back(void) {
    uint64_t bytes = 0;
    start(1);
    policy();
    keep();
    stop(1, 5, 0);
    finish(&bytes);
    memcpy(state, state_before, sizeof state);
    is("another stop", stop(2, 6, 0) | finish(&bytes), 0);
    is("bytes", bytes, 79);
    is("the count", field(8, 16), 2);
    is("the other stop's id", field(536, 32), 2);
}

static void a_store(void) {
    static uint8_t store[DISPATCH_BENCH_STORE_BYTES + 15], before[sizeof store];
    static const uint8_t first[] = {5, 0, 0, 0x50, 0x14, 0, 3, 0x3f, 0xf8, 0, 0, 0, 0, 0, 0};
    uint16_t count = 0;
    double weights[DISPATCH_BENCH_WEIGHTS];
    uint64_t offset = 0;
    memset(store, KEPT, sizeof store);
    is("no room for a weight", dispatch_bench_put_weight(store, 14, &count, 5, 20500, 3, 1.5), DISPATCH_BENCH_PAST_END);
    is("no weight is written", store[0] == KEPT && store[13] == KEPT && count == 0, 1);
    is("a weight", dispatch_bench_put_weight(store, 15, &count, 5, 20500, 3, 1.5), 0);
    is("its bytes", (uint64_t)memcmp(store, first, sizeof first), 0);
    is("what stands behind it", store[15], KEPT);
    for (unsigned i = 1; i < 256; i++) {
        is("a further weight", dispatch_bench_put_weight(store, sizeof store, &count, (uint8_t)(i % 6), i, 0, i), 0);
    }
    is("the count", count, 256);
    is("the weights", dispatch_bench_weights(store, 15 * count, 20500, weights, DISPATCH_BENCH_WEIGHTS, &offset), 0);
    is("of slot 0 and 5", weights[0] == 252 && weights[5] == 1.5, 1);
    memcpy(before, store, sizeof store);
    is("the 257th weight", dispatch_bench_put_weight(store, sizeof store, &count, 0, 0, 0, 1), DISPATCH_BENCH_TABLE_FULL);
    is("no room, and one too many", dispatch_bench_put_weight(store, sizeof store - 15, &count, 0, 0, 0, 1), DISPATCH_BENCH_PAST_END);
    is("the count and the store are as before", count == 256 && memcmp(store, before, sizeof store) == 0, 1);
}

/* A field that is to be put into bytes that hold KEPT; where it is refused nothing is written, else every other bit is kept. */
static void put_field(const char *name, size_t length, uint32_t at, uint32_t width, uint64_t value, uint32_t wanted) {
    memset(sheet, KEPT, sizeof sheet);
    is(name, dispatch_bench_put_field(sheet, length, at, width, value), wanted);
    if (wanted == 0 && width > 0) {
        is(name, field(at, width), value);
    }
    for (size_t bit = 0; bit < 8 * length + 64; bit++) {
        int inside = wanted == 0 && bit >= at && bit < at + width;
        if (!inside && (sheet[bit / 8] >> (7 - bit % 8) & 1) != (KEPT >> (7 - bit % 8) & 1)) {
            say(name, "another bit is written");
            return;
        }
    }
}

static void fields(void) {
    for (uint32_t width = 0; width <= 64; width++) {
        uint64_t ones = width == 0 ? 0 : UINT64_MAX >> (64 - width);
        for (uint32_t at = 0; at + width <= 80; at++) {
            put_field("a field of ones", 10, at, width, ones, 0);
            put_field("a field", 10, at, width, ones & UINT64_C(0x123456789abcdef1), 0);
        }
        put_field("a field that ends a bit later", 10, 81 - width, width, 0, DISPATCH_BENCH_PAST_END);
        if (width < 64) {
            put_field("a number of a bit more", 10, 0, width, ones + 1, DISPATCH_BENCH_UNUSED_BITS);
            put_field("a number of a bit more, and no room", 10, 80, width, ones + 1, DISPATCH_BENCH_UNUSED_BITS);
        }
    }
    put_field("65 bits", 10, 0, 65, 0, DISPATCH_BENCH_UNUSED_BITS);
    put_field("the most bits", 10, 0, UINT32_MAX, 0, DISPATCH_BENCH_UNUSED_BITS);
    put_field("the last bit of all", 10, UINT32_MAX, 1, 1, DISPATCH_BENCH_PAST_END);
    put_field("far past the end", 10, UINT32_MAX, 64, 1, DISPATCH_BENCH_PAST_END);
    put_field("no bytes", 0, 0, 1, 0, DISPATCH_BENCH_PAST_END);
    put_field("no bits of no bytes", 0, 0, 0, 0, 0);
}

/* The limit of a finished sheet is put in place. */
static void a_limit(void) {
    uint64_t bytes = 0, offset = 0;
    is("a sheet", start(1) | policy() | finish(&bytes), 0);
    is("its limit", field(48, 16), 65535);
    is("limit 0", dispatch_bench_put_field(sheet, bytes, 48, 16, 0), 0);
    is("it is refused", dispatch_bench_read(sheet, bytes, &offset), DISPATCH_BENCH_LIMIT);
    is("limit 1", dispatch_bench_put_field(sheet, bytes, 48, 16, 1), 0);
    is("it is accepted", dispatch_bench_read(sheet, bytes, &offset), 0);
}

/* Null may be lent for what has length 0: every function answers as of any other address. */
static void null_of_length_0(void) {
    static uint64_t matrix[DISPATCH_BENCH_CELLS];
    uint32_t decisions[DISPATCH_BENCH_DECISIONS], stops[DISPATCH_BENCH_STOPS], one = 0;
    uint8_t sweeps[DISPATCH_BENCH_SWEEPS];
    uint64_t cars, count, total, ranked, held, offset;
    double terms[DISPATCH_BENCH_TERMS];
    uint16_t records = 0;
    is("read", dispatch_bench_read(NULL, 0, &offset), DISPATCH_BENCH_PAST_END);
    is("pass, no sheet", dispatch_bench_pass(NULL, 0, decisions, DISPATCH_BENCH_DECISIONS, matrix, DISPATCH_BENCH_CELLS, sweeps,
                                             DISPATCH_BENCH_SWEEPS, &cars, &count, &total, &ranked, &held, &offset), DISPATCH_BENCH_PAST_END);
    is("pass, no buffers", dispatch_bench_pass(NULL, 0, NULL, 0, NULL, 0, NULL, 0, &cars, &count, &total, &ranked, &held, &offset),
       DISPATCH_BENCH_SHORT_BUFFER);
    is("pending, no sheet", dispatch_bench_pending(NULL, 0, stops, DISPATCH_BENCH_STOPS, &count, &offset), DISPATCH_BENCH_PAST_END);
    is("pending, no places", dispatch_bench_pending(NULL, 0, NULL, 0, &count, &offset), DISPATCH_BENCH_SHORT_BUFFER);
    is("why, no sheet", dispatch_bench_why(NULL, 0, 1, 1, terms, DISPATCH_BENCH_TERMS, &one, &offset), DISPATCH_BENCH_PAST_END);
    is("why, no places", dispatch_bench_why(NULL, 0, 1, 1, NULL, 0, &one, &offset), DISPATCH_BENCH_SHORT_BUFFER);
    is("weights, no store", dispatch_bench_weights(NULL, 0, 1, terms, DISPATCH_BENCH_TERMS, &offset), DISPATCH_BENCH_NO_WEIGHT);
    is("weights, no places", dispatch_bench_weights(NULL, 0, 1, NULL, 0, &offset), DISPATCH_BENCH_SHORT_BUFFER);
    is("grade, no sheet", dispatch_bench_grade(NULL, 0, NULL, 0, NULL, 0, NULL, 0, matrix, DISPATCH_BENCH_CELLS, &one, &offset),
       DISPATCH_BENCH_PAST_END);
    is("grade, no matrix", dispatch_bench_grade(NULL, 0, NULL, 0, NULL, 0, NULL, 0, NULL, 0, &one, &offset), DISPATCH_BENCH_SHORT_BUFFER);
    is("choose, no car", dispatch_bench_choose(0, 0, NULL, 0, NULL, 0, &total), 1);
    is("choose, a car and no cell", dispatch_bench_choose(1, 1, NULL, 0, NULL, 0, &total), 0);
    is("choose plainly, no car", dispatch_bench_choose_plain(0, 0, NULL, 0, stops, DISPATCH_BENCH_PLAIN_CARS, &total), DISPATCH_BENCH_ACCEPTED);
    is("choose plainly, no places", dispatch_bench_choose_plain(0, 0, NULL, 0, NULL, 0, &total), DISPATCH_BENCH_SHORT_BUFFER);
    is("start, no bytes", dispatch_bench_start(NULL, 0, state, places, 1), DISPATCH_BENCH_PAST_END);
    is("start, no state", dispatch_bench_start(NULL, 0, NULL, 0, 1), DISPATCH_BENCH_SHORT_BUFFER);
    start(1);
    is("finish, no bytes", dispatch_bench_finish(NULL, 0, state, places, &count), DISPATCH_BENCH_PAST_END);
    is("finish, no state", dispatch_bench_finish(NULL, 0, NULL, 0, &count), DISPATCH_BENCH_SHORT_BUFFER);
    is("a field, no bytes", dispatch_bench_put_field(NULL, 0, 0, 1, 0), DISPATCH_BENCH_PAST_END);
    is("a field of no bits, no bytes", dispatch_bench_put_field(NULL, 0, 0, 0, 0), 0);
    is("a weight, no bytes", dispatch_bench_put_weight(NULL, 0, &records, 0, 0, 0, 1), DISPATCH_BENCH_PAST_END);
}

/* Each put with so many bytes and places at null or at an address. */
static void null_puts(uint8_t *at, size_t bytes, uint32_t *kept, size_t numbers, uint32_t wanted) {
    is("a policy", dispatch_bench_put_policy(at, bytes, kept, numbers, 2, 1, 60, 0, 0, 0, 0, 0, 0, 0), wanted);
    is("a stop", dispatch_bench_put_stop(at, bytes, kept, numbers, 1, 0, 0), wanted);
    is("a line", dispatch_bench_put_line(at, bytes, kept, numbers, 1, 0), wanted);
    is("a car", dispatch_bench_put_car(at, bytes, kept, numbers, 1, 1, 0, 0, 0, 0, 0, 0, 0, 0, 0, 0, 0, 0, 0, 0, 0, 0, 0, 0, 0, 0, 0), wanted);
    is("aboard", dispatch_bench_put_aboard(at, bytes, kept, numbers, 1, 0), wanted);
    is("waiting", dispatch_bench_put_waiting(at, bytes, kept, numbers, 1, 0, 0, 0, 0), wanted);
    is("a demand", dispatch_bench_put_demand(at, bytes, kept, numbers, 1, 0, 0), wanted);
    is("a closure", dispatch_bench_put_closed(at, bytes, kept, numbers, 1), wanted);
}

/* A grade of a sheet without idle cars and stops: accepted with null for the three lists. */
static void grade_of_nothing(void) {
    static uint64_t matrix[DISPATCH_BENCH_CELLS];
    uint64_t bytes = 0, offset = 0;
    uint32_t least = 7;
    is("a sheet of a policy alone", start(1) | policy() | finish(&bytes), 0);
    is("its grade", dispatch_bench_grade(sheet, bytes, NULL, 0, NULL, 0, NULL, 0, matrix, DISPATCH_BENCH_CELLS, &least, &offset), 0);
    is("least", least, 1);
}

int main(int count, char **words) {
    if (count != 3) {
        fprintf(stderr, "usage: hosts_writer SHEET SHEET, document 01's example in editions 1 and 2\n");
        return 2;
    }
    example(words[1], 1);
    example(words[2], 2);
    every_field();
    left_out();
    riders();
    bad_starts();
    no_state();
    unknown_codes();
    no_room();
    out_of_order();
    full();
    back();
    a_store();
    fields();
    a_limit();
    null_of_length_0();
    start(1);
    null_puts(NULL, 0, state, places, DISPATCH_BENCH_PAST_END);
    null_puts(sheet, lent, NULL, 0, DISPATCH_BENCH_SHORT_BUFFER);
    grade_of_nothing();
    return wrong != 0;
}
