/* Any bytes as calls of the writer: dispatch_bench_start, puts of any kinds with any fields, dispatch_bench_finish, and a put or a finish with a state
   that is not this sheet's, and puts of single fields; or as puts of a store of weights (stored.c). Numbers are held to the header, fields are read
   back bit by bit, and what is finished goes to dispatch_bench_read. Every pointer leads to guarded pages. Each input is run twice, with other
   contents and places of the buffers. */
#include <stdio.h>
#include <stdlib.h>
#include <string.h>

#include "dispatch_bench.h"
#include "guarded.h"
#include "puts.h"
#include "require.h"
#include "sheet.h"
#include "stored.h"

#define ROOM (DISPATCH_BENCH_SHEET_BYTES + 64)
#define MOST_PLACES (DISPATCH_BENCH_STATE + 2)
#define MOST_CALLS 3000
#define FRONT_BYTES 4

static struct guarded sheet, state, bytes;
static uint8_t sheet_before[ROOM];
static uint32_t state_before[MOST_PLACES], edition;

static unsigned long puts_by_number[9], fields_by_number[9], finished, reads[17];

__attribute__((section("__libfuzzer_extra_counters"))) static uint8_t features[4096];

static void print_counts(void) {
    fprintf(stderr, "answers: puts %lu", puts_by_number[0]);
    for (int number = 1; number <= 8; number++) {
        if (puts_by_number[number] > 0) {
            fprintf(stderr, ", refused by %d %lu", number, puts_by_number[number]);
        }
    }
    fprintf(stderr, "; fields %lu, refused by 2 %lu, by 8 %lu", fields_by_number[0], fields_by_number[2], fields_by_number[8]);
    fprintf(stderr, "; finished %lu, accepted %lu", finished, reads[0]);
    for (int number = 1; number <= 16; number++) {
        if (reads[number] > 0) {
            fprintf(stderr, ", refused by %d %lu", number, reads[number]);
        }
    }
    print_stored();
}

static uint32_t *numbers(void) {
    return (uint32_t *)(void *)state.at;
}

static void keep(void) {
    memcpy(sheet_before, sheet.at, sheet.length);
    memcpy(state_before, state.at, state.length);
}

static void check_kept(void) {
    require(memcmp(sheet.at, sheet_before, sheet.length) == 0, "a refusal keeps the sheet");
    require(memcmp(state.at, state_before, state.length) == 0, "a refusal keeps the state");
}

static void check_around(void) {
    require(guarded_kept(&sheet, 0, sheet.length), "nothing is written around the sheet");
    require(guarded_kept(&state, 0, state.length), "nothing is written around the state");
}

/* Whether the numbers before the call are a state. */
static int is_state(void) {
    static const uint32_t most[DISPATCH_BENCH_STATE] = {64, 1, 64, 8, 32, 512, 512, 65535, 65535};
    int within = state.length >= 4 * DISPATCH_BENCH_STATE && (state_before[0] == 0 || state_before[0] == ACROSS);
    for (size_t i = 0; within && i < DISPATCH_BENCH_STATE; i++) {
        within = state_before[i] <= most[i];
    }
    return within;
}

/* Where the records of the state before the call end. */
static size_t end_of(void) {
    size_t end = FIRST_RECORD;
    for (unsigned kind = POLICY; kind <= CLOSED; kind++) {
        end += (size_t)state_before[kind] * (FRONT + body_length(state_before[0] == ACROSS, kind));
    }
    return end;
}

static size_t count_of(void) {
    size_t count = 0;
    for (unsigned kind = POLICY; kind <= CLOSED; kind++) {
        count += state_before[kind];
    }
    return count;
}

/* The first number that the header gives. */
static uint32_t number_of(const struct put *p) {
    static const uint32_t most[9] = {0, 1, 64, 8, 32, 512, 512, UINT32_MAX, UINT32_MAX};
    unsigned last = 0;
    if (!is_state()) {
        return DISPATCH_BENCH_SHORT_BUFFER;
    }
    if (!is_known(p)) {
        return DISPATCH_BENCH_UNUSED_BITS;
    }
    for (unsigned kind = POLICY; kind <= CLOSED; kind++) {
        last = state_before[kind] > 0 ? kind : last;
    }
    if (8 * sheet.length < end_of() + FRONT + body_length(state_before[0] == ACROSS, p->kind)) {
        return DISPATCH_BENCH_PAST_END;
    }
    if (p->kind < last || (state_before[POLICY] == 0 && p->kind != POLICY)) {
        return DISPATCH_BENCH_OUT_OF_ORDER;
    }
    return state_before[p->kind] >= most[p->kind] || count_of() >= 65535 ? DISPATCH_BENCH_TABLE_FULL : DISPATCH_BENCH_ACCEPTED;
}

/* The record's bits are the fields that were put, and the others those from before. */
static void check_record(const struct put *p) {
    struct field fields[MOST_FIELDS];
    size_t count = fields_of_put(p, state_before[0] == ACROSS, fields), at = end_of();
    for (size_t i = 0; i < count; i++) {
        require(get_bits(sheet.at, sheet.length, at, fields[i].width) == fields[i].value, "the fields of a record are those that were put");
        put_bits(sheet_before, at, fields[i].width, fields[i].value);
        at += fields[i].width;
    }
    require(memcmp(sheet.at, sheet_before, sheet.length) == 0, "a put keeps every other bit of the sheet");
    state_before[p->kind]++;
    require(memcmp(state.at, state_before, state.length) == 0, "a put counts its record, and no other");
}

static uint32_t run_put(const struct put *p) {
    keep();
    uint32_t wanted = number_of(p);
    uint32_t number = call_put(p, sheet.at, sheet.length, numbers(), state.length / 4);
    require(number == wanted, "the number of a put is the first that the header gives");
    check_around();
    if (number == 0) {
        check_record(p);
    } else {
        check_kept();
    }
    puts_by_number[number]++;
    features[number * 16 + p->kind] = 1;
    return number;
}

/* What the reader says of a finished sheet. */
static void check_read(size_t length) {
    uint64_t offset = 0;
    uint32_t number = dispatch_bench_read(sheet.at, length, &offset);
    if (count_of() == 0) {
        require(number == DISPATCH_BENCH_OUT_OF_ORDER && offset == FIRST_RECORD, "a sheet without a record is refused by 6, at 24");
    } else {
        require(number == 0 || (8 <= number && number <= 14), "a finished sheet is accepted, or refused by 8 to 14");
    }
    reads[number]++;
    for (unsigned kind = POLICY; kind <= CLOSED; kind++) {
        unsigned size = state_before[kind] > 60 ? 3 : state_before[kind] > 1 ? 2 : state_before[kind];
        features[512 + (number * 9 + kind) * 4 + size] = 1;
    }
}

/* The head counts, zero bits fill the last byte, and all else is as before. */
static void check_finished(size_t end, uint64_t length) {
    require(length == (end + 7) / 8, "a sheet ends with the byte of its last record");
    require(get_bits(sheet.at, sheet.length, 0, 8) == edition, "the head has the edition");
    require(get_bits(sheet.at, sheet.length, 8, 16) == count_of(), "the head counts the records");
    require(get_bits(sheet.at, sheet.length, end, (unsigned)(8 * length - end)) == 0, "zero bits fill the last byte");
    put_bits(sheet_before, 8, 16, count_of());
    put_bits(sheet_before, end, (unsigned)(8 * length - end), 0);
    require(memcmp(sheet.at, sheet_before, sheet.length) == 0, "finish keeps every record, and what stands past the sheet");
}

/* The bytes of the finished sheet, or 0 where it is refused; it goes to the reader where the state is its own. */
static size_t run_finish(int own) {
    uint64_t length = 0;
    keep();
    guarded_lend(&bytes, 8, sheet.at != sheet.pages, sheet.pattern);
    uint32_t wanted = !is_state() ? 1 : 8 * sheet.length < end_of() ? 2 : 0;
    uint32_t number = dispatch_bench_finish(sheet.at, sheet.length, numbers(), state.length / 4, (uint64_t *)(void *)bytes.at);
    require(number == wanted, "the number of finish is the first that the header gives");
    require(memcmp(state.at, state_before, state.length) == 0, "finish keeps the state");
    check_around();
    require(guarded_kept(&bytes, 0, number == 0 ? 8 : 0), "a refusal of finish keeps the bytes");
    if (number != 0) {
        check_kept();
        return 0;
    }
    memcpy(&length, bytes.at, sizeof length);
    check_finished(end_of(), length);
    if (own) {
        check_read(length);
        finished++;
    }
    return length;
}

/* A put or a finish with another number in the state; then sheet and state are again those from before. */
static void run_foreign(const struct put *p, struct input *in) {
    static uint8_t sheet_kept[ROOM];
    uint32_t state_kept[MOST_PLACES], value = (uint32_t)take(in, 1);
    const uint32_t values[] = {0, 1, 8, 9, 32, 33, 64, 65, 512, 513, 65535, 65536, UINT32_MAX, value, 63, 7};
    memcpy(sheet_kept, sheet.at, sheet.length);
    memcpy(state_kept, state.at, state.length);
    numbers()[take(in, 1) % DISPATCH_BENCH_STATE] = values[value % 16];
    if (value / 16 % 2 == 0) {
        run_put(p);
    } else {
        run_finish(0);
    }
    memcpy(sheet.at, sheet_kept, sheet.length);
    memcpy(state.at, state_kept, state.length);
}

/* The first number that the header gives of a field. */
static uint32_t number_of_field(uint32_t at, uint32_t width, uint64_t value) {
    if (width > 64 || (width < 64 && value >> width != 0)) {
        return DISPATCH_BENCH_UNUSED_BITS;
    }
    return (uint64_t)at + width > 8 * (uint64_t)sheet.length ? DISPATCH_BENCH_PAST_END : DISPATCH_BENCH_ACCEPTED;
}

/* A field of up to 69 bits or of any width, at a bit of the first 8 KB, near the end or anywhere, of a number that mostly fits. */
static void run_field(struct input *in) {
    static uint8_t sheet_kept[ROOM];
    uint8_t how = (uint8_t)take(in, 1);
    uint32_t width = how % 8 == 7 ? (uint32_t)take(in, 4) : (uint32_t)take(in, 1) % 70, near = (uint32_t)take(in, 2);
    uint32_t at = how / 8 % 4 == 3 ? (uint32_t)take(in, 4) : how / 8 % 4 == 2 ? (uint32_t)(8 * sheet.length) - near % 128 : near;
    uint64_t value = take(in, 8);
    value = how / 32 == 7 || width >= 64 ? value : width == 0 ? 0 : value >> (64 - width);
    memcpy(sheet_kept, sheet.at, sheet.length);
    keep();
    uint32_t number = dispatch_bench_put_field(sheet.at, sheet.length, at, width, value);
    require(number == number_of_field(at, width, value), "the number of a field is the first that the header gives");
    check_around();
    if (number == 0) {
        require(get_bits(sheet.at, sheet.length, at, width) == value, "a field holds the number that was put");
        put_bits(sheet_before, at, width, value);
        require(memcmp(sheet.at, sheet_before, sheet.length) == 0, "a field keeps every other bit");
    } else {
        check_kept();
    }
    fields_by_number[number]++;
    features[3200 + number * 72 + (width > 70 ? 71 : width)] = 1;
    memcpy(sheet.at, sheet_kept, sheet.length);
}

/* The kind of a call: one of the eight, or by the last one's. */
static unsigned kind_of(unsigned op, unsigned last) {
    unsigned kind = op <= CLOSED ? op : op == 11 ? last + 1 : last;
    return kind < POLICY ? POLICY : kind > CLOSED ? CLOSED : kind;
}

/* The calls after a start, and a last finish; gives the bytes of the sheet. */
static size_t run_calls(struct input *in) {
    static const unsigned repeats[16] = {1, 1, 1, 1, 1, 1, 1, 1, 1, 2, 3, 7, 31, 63, 511, 1};
    size_t calls = 0;
    struct put p = {0};
    while (in->left > 0 && calls < MOST_CALLS) {
        uint8_t op = (uint8_t)take(in, 1);
        if (op % 16 == 0 || op % 16 == 10) {
            run_finish(1);
            calls++;
            continue;
        }
        if (op % 16 == 13) {
            run_field(in);
            calls++;
            continue;
        }
        take_put(&p, kind_of(op % 16, p.kind), op >> 4 == 15, numbers(), in);
        if (op % 16 == 9) {
            run_foreign(&p, in);
        }
        for (unsigned left = repeats[op >> 4]; left > 0 && calls < MOST_CALLS; left--) {
            calls++;
            run_put(&p);
            p.n[0] += is_own(p.kind);
        }
    }
    return run_finish(1);
}

/* Lends what the first bytes say, and starts a sheet. 1: it is started. */
static int run_start(struct input *in, int at_end, uint8_t pattern) {
    static const uint32_t others[4] = {0, 3, 258, UINT32_MAX};
    uint8_t first = (uint8_t)take(in, 1), places = (uint8_t)take(in, 1);
    size_t length = take(in, 2);
    edition = first % 8 < 6 ? 1 + first % 2 : others[first / 8 % 4];
    guarded_lend(&sheet, length % 4 != 0 ? DISPATCH_BENCH_SHEET_BYTES : length / 4 % ROOM, at_end, pattern);
    guarded_lend(&state, 4 * (size_t)(places % 8 == 7 ? places / 8 % 9 : DISPATCH_BENCH_STATE + places % 3), at_end, pattern);
    keep();
    uint32_t wanted = state.length < 4 * DISPATCH_BENCH_STATE ? 1 : edition != 1 && edition != 2 ? 3 : sheet.length < 3 ? 2 : 0;
    uint32_t number = dispatch_bench_start(sheet.at, sheet.length, numbers(), state.length / 4, edition);
    require(number == wanted, "the number of start is the first that the header gives");
    check_around();
    features[256 + number] = 1;
    if (number != 0) {
        check_kept();
        return 0;
    }
    memset(state_before, 0, 4 * DISPATCH_BENCH_STATE);
    state_before[0] = edition == 2 ? ACROSS : 0;
    put_bits(sheet_before, 0, 24, (uint64_t)edition << 16);
    require(memcmp(sheet.at, sheet_before, sheet.length) == 0, "start writes the head, and nothing else of the sheet");
    require(memcmp(state.at, state_before, state.length) == 0, "start fills the state, and nothing past it");
    return 1;
}

int LLVMFuzzerTestOneInput(const uint8_t *data, size_t size) {
    static uint8_t first[ROOM];
    static int made;
    if (!made) {
        atexit(print_counts);
        guarded_make(&sheet, ROOM);
        guarded_make(&state, 4 * MOST_PLACES);
        guarded_make(&bytes, 8);
        make_stored();
        made = 1;
    }
    if (size < FRONT_BYTES) {
        return 0;
    }
    struct input in = {data, size}, again = in;
    int at_end = data[0] >> 7;
    if (data[0] / 32 % 4 == 3) {
        features[3072 + run_store(&in, at_end, 0xa5)] = 1;
        run_store(&again, !at_end, 0x5a);
        return 0;
    }
    size_t length = run_start(&in, at_end, 0xa5) ? run_calls(&in) : 0;
    memcpy(first, sheet.at, length);
    size_t other = run_start(&again, !at_end, 0x5a) ? run_calls(&again) : 0;
    require(length == other && memcmp(first, sheet.at, length) == 0, "what stood in the bytes changes no sheet");
    return 0;
}
