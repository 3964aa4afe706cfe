/* Prints the six weights of a store for a day, a slot a line: weights STORE DAY.
   Exit 0: weights or a refusal were printed. 1: the store cannot be read, or the lines cannot be written, or the library is not of this header's
   interface. 2: no store, or no day, was named. */
#include <errno.h>
#include <inttypes.h>
#include <stdio.h>
#include <stdlib.h>

#include "dispatch_bench.h"

static uint8_t store[DISPATCH_BENCH_MOST_STORE_BYTES];

/* A day from its digits. 0: the word is none. */
static int read_day(const char *word, uint32_t *day) {
    char *end;
    errno = 0;
    unsigned long long number = strtoull(word, &end, 10);
    *day = (uint32_t)number;
    return word[0] >= '0' && word[0] <= '9' && *end == '\0' && errno == 0 && number <= UINT32_MAX;
}

static void print_weights(size_t length, uint32_t day) {
    double weights[DISPATCH_BENCH_WEIGHTS];
    uint64_t offset;
    uint32_t number = dispatch_bench_weights(store, length, day, weights, DISPATCH_BENCH_WEIGHTS, &offset);
    if (number == DISPATCH_BENCH_NO_WEIGHT) {
        printf("refused %" PRIu32 " at slot %" PRIu64 "\n", number, offset);
        return;
    }
    if (number != DISPATCH_BENCH_ACCEPTED) {
        printf("refused %" PRIu32 " at %" PRIu64 "\n", number, offset);
        return;
    }
    for (int slot = 0; slot < DISPATCH_BENCH_WEIGHTS; slot++) {
        printf("slot %d weight %.17g\n", slot, weights[slot]);
    }
}

int main(int argc, char **argv) {
    uint32_t day;
    if (argc != 3 || !read_day(argv[2], &day)) {
        fprintf(stderr, "usage: weights STORE DAY\n");
        return 2;
    }
    if (dispatch_bench_version() != DISPATCH_BENCH_VERSION) {
        fprintf(stderr, "the library's interface is %" PRIu32 ", the header's %d\n", dispatch_bench_version(), DISPATCH_BENCH_VERSION);
        return 1;
    }
    FILE *file = fopen(argv[1], "rb");
    if (file == NULL) {
        perror(argv[1]);
        return 1;
    }
    size_t length = fread(store, 1, sizeof store, file);
    int failed = ferror(file);
    fclose(file);
    if (failed) {
        fprintf(stderr, "%s: cannot be read\n", argv[1]);
        return 1;
    }
    print_weights(length, day);
    if (fflush(stdout) != 0) {
        perror("standard output");
        return 1;
    }
    return 0;
}
