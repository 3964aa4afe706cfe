/* Prints the pass over one sheet as the program passprint does: pass SHEET.
   Exit 0: a pass or a refusal was printed. 1: the sheet cannot be read, or the lines cannot be written, or the library is not of this header's
   interface. 2: no sheet was named. */
#include <inttypes.h>
#include <stdio.h>

#include "dispatch_bench.h"

/* Bytes past these change no answer (docs/manual/planners.md, Limits). */
#define MOST_BYTES 65536

/* The format of a sheet (docs/manual/format.md). */
#define FIRST_RECORD 24
#define FRONT 22
#define CAR 4
#define IDLE_LISTED 154

/* What a pass writes to; needs no clearing between passes. */
struct buffers {
    uint32_t decisions[DISPATCH_BENCH_DECISIONS];
    uint64_t matrix[DISPATCH_BENCH_CELLS];
    uint8_t sweeps[DISPATCH_BENCH_SWEEPS];
};

static uint8_t sheet[MOST_BYTES];
static struct buffers lent;

/* Up to 64 bits at a bit of the sheet, most significant first. */
static uint64_t field(size_t at, unsigned width) {
    uint64_t value = 0;
    for (size_t bit = at; bit < at + width; bit++) {
        value = value << 1 | (sheet[bit / 8] >> (7 - bit % 8) & 1);
    }
    return value;
}

/* Where the next idle-listed car record of an accepted sheet starts, from *at on. *place is its place among the car records, and *at
   the start of the record after it. 0: there are no more. */
static size_t next_idle(size_t *at, size_t end, size_t *place) {
    while (*at + FRONT <= end) {
        size_t start = *at;
        uint64_t kind = field(start, 6);
        *at += FRONT + field(start + 6, 16);
        *place += kind == CAR;
        if (kind == CAR && field(start + IDLE_LISTED, 1)) {
            return start;
        }
    }
    return 0;
}

static void print_decisions(size_t end, uint64_t cars) {
    size_t at = FIRST_RECORD, place = 0;
    for (uint64_t i = 0; i < cars; i++) {
        size_t car = next_idle(&at, end, &place);
        printf("car %" PRIu64, field(car + FRONT, 32));
        if (lent.decisions[i] == 0) {
            printf(" idle\n");
        } else {
            printf(" stop %" PRIu32 "\n", lent.decisions[i]);
        }
    }
}

static void print_sweeps(size_t end, uint64_t cars) {
    size_t at = FIRST_RECORD, place = 0;
    for (uint64_t i = 0; i < cars; i++) {
        size_t car = next_idle(&at, end, &place);
        uint8_t code = lent.sweeps[place - 1];
        printf("sweep %" PRIu64 " %s %s\n", field(car + FRONT, 32), code & 2 ? "down" : "up", code & 1 ? "lenient" : "strict");
    }
}

static void print_pass(size_t length) {
    uint64_t cars, stops, total, ranked, held, offset;
    uint32_t number = dispatch_bench_pass(sheet, length, lent.decisions, DISPATCH_BENCH_DECISIONS, lent.matrix, DISPATCH_BENCH_CELLS, lent.sweeps,
                                          DISPATCH_BENCH_SWEEPS, &cars, &stops, &total, &ranked, &held, &offset);
    if (number != DISPATCH_BENCH_ACCEPTED) {
        printf("refused %" PRIu32 " at %" PRIu64 "\n", number, offset);
        return;
    }
    printf("cars %" PRIu64 " stops %" PRIu64 " total %" PRIu64 " held %" PRIu64 "\n", cars, stops, total, held);
    print_decisions(8 * length, cars);
    print_sweeps(8 * length, cars);
}

int main(int argc, char **argv) {
    if (argc != 2) {
        fprintf(stderr, "usage: pass SHEET\n");
        return 2;
    }
    if (dispatch_bench_version() != DISPATCH_BENCH_VERSION) {
        fprintf(stderr, "the library's interface is %" PRIu32 ", the header's %d\n", dispatch_bench_version(), DISPATCH_BENCH_VERSION);
        return 1;
    }
    FILE *file = fopen(argv[1], "rb");
    if (file == NULL) {
        perror(argv[1]);
        return 1;
    }
    size_t length = fread(sheet, 1, sizeof sheet, file);
    int failed = ferror(file);
    fclose(file);
    if (failed) {
        fprintf(stderr, "%s: cannot be read\n", argv[1]);
        return 1;
    }
    print_pass(length);
    if (fflush(stdout) != 0) {
        perror("standard output");
        return 1;
    }
    return 0;
}
