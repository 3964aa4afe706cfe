/* The reader of the first release on sheets of today: "A bench of the first release refuses such a sheet, by 4 where nothing earlier is wrong", of
   closed landings; by 15, at the policy, where RSR has a load weight above 0; and by 3, at 0, of edition 2. libdispatch_bench.a is that release's
   library.

       main LIST SHEET ..

   LIST is crates/replay_refusals/stdin: each case is a sheet's length in 16 bits, its bytes, the number of its refusal today in 8 bits and the offset
   in 32, both 0 where it is accepted. Of the sheets named after it only those of edition 2 and those with a closed landing or a load weight are
   looked at, and the latter are accepted today or refused at a closed landing. */
#include <stdint.h>
#include <stdio.h>
#include <stdlib.h>
#include <string.h>

#include "dispatch_bench.h"

#define MOST (1 << 20)
#define FIRST_RECORD 24
#define CLOSED 8
#define RSR 1

static uint8_t bytes[MOST];

static uint64_t field(const uint8_t *sheet, size_t length, size_t at, size_t width) {
    uint64_t value = 0;
    for (size_t bit = at; bit < at + width; bit++) {
        value = value << 1 | (bit / 8 < length ? sheet[bit / 8] >> (7 - bit % 8) & 1 : 0);
    }
    return value;
}

/* Where the first record of kind 8 starts whose stated body is there; 0 where there is none. */
static size_t first_closed(const uint8_t *sheet, size_t length) {
    size_t at = FIRST_RECORD;
    for (uint64_t left = field(sheet, length, 8, 16); left > 0; left--) {
        size_t end = at + 22 + field(sheet, length, at + 6, 16);
        if (end > 8 * length) {
            return 0;
        }
        if (field(sheet, length, at, 6) == CLOSED) {
            return at;
        }
        at = end;
    }
    return 0;
}

/* The head is there and states edition 2. */
static int is_second(const uint8_t *sheet, size_t length) {
    return length >= 3 && sheet[0] == 2;
}

/* The policy, which must be whole, is RSR's and has a load weight above 0. */
static int weighs_loads(const uint8_t *sheet, size_t length) {
    const size_t body = FIRST_RECORD + 22;
    uint64_t bits = field(sheet, length, body + 84 + 3 * 64, 64);
    double load;
    memcpy(&load, &bits, sizeof load);
    return field(sheet, length, body, 2) == RSR && load > 0;
}

static size_t file(const char *name) {
    FILE *in = fopen(name, "rb");
    size_t length = in != NULL ? fread(bytes, 1, MOST, in) : 0;
    if (length == 0 || length == MOST) {
        fprintf(stderr, "%s: cannot be read, is empty or too long\n", name);
        exit(2);
    }
    fclose(in);
    return length;
}

/* Ends where the first release answers otherwise than with this number and offset. */
static void answers(const char *name, unsigned nth, const uint8_t *sheet, size_t length, uint32_t number, uint64_t offset) {
    uint64_t at = 0;
    uint32_t found = dispatch_bench_read(sheet, length, &at);
    if (found != number || at != offset) {
        fprintf(stderr, "%s %u: %u at %llu, not %u at %llu\n", name, nth, found, (unsigned long long)at, number, (unsigned long long)offset);
        exit(1);
    }
}

int main(int count, char **names) {
    unsigned cases = 0, closed = 0, loads = 0, seconds = 0, closed_sheets = 0, load_sheets = 0, second_sheets = 0;
    if (count < 3) {
        fprintf(stderr, "usage: main LIST SHEET ..\n");
        return 2;
    }
    size_t length = file(names[1]);
    for (size_t at = 0; at < length; cases++) {
        size_t size = (size_t)bytes[at] << 8 | bytes[at + 1];
        const uint8_t *sheet = bytes + at + 2;
        uint64_t number = sheet[size], offset = field(sheet + size + 1, 4, 0, 32), first = first_closed(sheet, size);
        if (is_second(sheet, size)) {
            answers(names[1], cases, sheet, size, DISPATCH_BENCH_EDITION, 0);
            seconds++;
        } else if ((number == 0 || offset > FIRST_RECORD) && weighs_loads(sheet, size)) {
            answers(names[1], cases, sheet, size, DISPATCH_BENCH_LOAD_WEIGHT, FIRST_RECORD);
            loads++;
        } else {
            int is_first = first > 0 && (number == 0 || first <= offset);
            answers(names[1], cases, sheet, size, is_first ? 4 : (uint32_t)number, is_first ? first : offset);
            closed += is_first && number != 4;
        }
        at += 2 + size + 5;
    }
    for (int k = 2; k < count; k++) {
        length = file(names[k]);
        size_t first = first_closed(bytes, length);
        if (is_second(bytes, length)) {
            answers(names[k], 0, bytes, length, DISPATCH_BENCH_EDITION, 0);
            second_sheets++;
        } else if (weighs_loads(bytes, length)) {
            answers(names[k], 0, bytes, length, DISPATCH_BENCH_LOAD_WEIGHT, FIRST_RECORD);
            load_sheets++;
        } else if (first > 0) {
            answers(names[k], 0, bytes, length, 4, first);
            closed_sheets++;
        }
    }
    if (closed_sheets == 0 || load_sheets == 0 || second_sheets == 0) {
        fprintf(stderr, "no sheet has a closed landing, none a load weight, or none is of edition 2\n");
        return 1;
    }
    printf("the first release refuses %u sheets and %u of %u stored cases by 4 at their first closed landing, %u sheets and %u cases by 15 for their "
           "load weight, %u sheets and %u cases of edition 2 by 3, and answers the others as today\n",
           closed_sheets, closed, cases, load_sheets, loads, second_sheets, seconds);
    return 0;
}
