/* Writes a sheet record by record, document 01's example, and asks whether it is accepted: write SHEET.
   Exit 0: the sheet is written. 1: it cannot be, or a record is not taken, or the sheet is refused, or the library is not of this header's interface.
   2: no sheet was named. */
#include <inttypes.h>
#include <stdio.h>

#define DISPATCH_BENCH_WANTED 2
#include "dispatch_bench.h"
#include "dispatch_bench_sentences.h"

#define SCAN 2
#define NO_LIMIT 65535
#define FIRST_STOP (UINT64_C(1) << 63)

/* What is lent to the writer, and the number of the first record that was not taken, 0 for none. */
struct writer {
    uint8_t sheet[DISPATCH_BENCH_SHEET_BYTES];
    uint32_t state[DISPATCH_BENCH_STATE];
    uint32_t number;
};

/* A call of the writer, unless an earlier one was not taken. */
#define CALL(w, name, ...)                                                                                                         \
    do {                                                                                                                           \
        if ((w)->number == 0)                                                                                                      \
            (w)->number = dispatch_bench_##name((w)->sheet, sizeof(w)->sheet, (w)->state, DISPATCH_BENCH_STATE, __VA_ARGS__);       \
    } while (0)

/* The fields of a car by name; those that are not given are 0. */
struct car {
    uint32_t id, line, phase, stop, target, listed, up, down, sweep, mode;
    double position, across, speed, capacity, load;
    uint32_t has_bypass_up, has_bypass_down;
    double bypass_up, bypass_down;
    uint32_t transition, dwell;
    uint64_t restricted, calls;
};

static void put_car(struct writer *w, struct car c) {
    CALL(w, put_car, c.id, c.line, c.phase, c.stop, c.target, c.listed, c.up, c.down, c.sweep, c.mode, c.position, c.across, c.speed, c.capacity,
         c.load, c.has_bypass_up, c.bypass_up, c.has_bypass_down, c.bypass_down, c.transition, c.dwell, c.restricted, c.calls);
}

static void put_records(struct writer *w) {
    CALL(w, start, 1);
    CALL(w, put_policy, SCAN, NO_LIMIT, 60, 0, 0, 0, 0, 0, 0, 0);
    for (uint32_t id = 1; id <= 3; id++) {
        CALL(w, put_stop, id, 10.0 * (id - 1), 0);
    }
    CALL(w, put_line, 1, FIRST_STOP | FIRST_STOP >> 1 | FIRST_STOP >> 2);
    put_car(w, (struct car){.id = 7, .line = 1, .listed = 1, .up = 1, .down = 1, .position = 0, .speed = 2, .capacity = 100});
    put_car(w, (struct car){.id = 8, .line = 1, .listed = 1, .up = 1, .down = 1, .position = 20, .speed = 2, .capacity = 100});
    CALL(w, put_demand, 2, 0, 1);
    CALL(w, put_demand, 3, 0, 1);
}

/* 0: the bytes stand in the file. */
static int save(const char *path, const uint8_t *bytes, size_t length) {
    FILE *file = fopen(path, "wb");
    if (file == NULL) {
        perror(path);
        return 1;
    }
    int failed = fwrite(bytes, 1, length, file) != length;
    failed |= fclose(file) != 0;
    if (failed) {
        perror(path);
    }
    return failed;
}

int main(int count, char **words) {
    static struct writer w;
    uint64_t length = 0, offset = 0;
    if (count != 2) {
        fprintf(stderr, "usage: write SHEET\n");
        return 2;
    }
    if (dispatch_bench_version() != DISPATCH_BENCH_VERSION) {
        fprintf(stderr, "the library's interface is %" PRIu32 ", the header's %d\n", dispatch_bench_version(), DISPATCH_BENCH_VERSION);
        return 1;
    }
    put_records(&w);
    CALL(&w, finish, &length);
    if (w.number != 0) {
        fprintf(stderr, "a record is not taken, by %" PRIu32 "\n", w.number);
        return 1;
    }
    uint32_t refused = dispatch_bench_read(w.sheet, length, &offset);
    if (refused != 0) {
        fprintf(stderr, "refused %" PRIu32 " at %" PRIu64 ": %s\n", refused, offset, dispatch_bench_sentence(refused));
        return 1;
    }
    return save(words[1], w.sheet, length);
}
