/* Passes each sheet of a folder many times into the same buffers, and prints the size, the host and microseconds a pass: pass FOLDER. */
#define _POSIX_C_SOURCE 200809L
#include <stdio.h>
#include <stdlib.h>
#include <time.h>

#include "dispatch_bench.h"

static uint8_t sheet[DISPATCH_BENCH_SHEET_BYTES];
static uint32_t decisions[DISPATCH_BENCH_DECISIONS];
static uint64_t matrix[DISPATCH_BENCH_CELLS];
static uint8_t sweeps[DISPATCH_BENCH_SWEEPS];

static double now(void) {
    struct timespec t;
    clock_gettime(CLOCK_MONOTONIC, &t);
    return (double)t.tv_sec * 1e6 + (double)t.tv_nsec / 1e3;
}

static size_t fetch(const char *folder, const char *size) {
    char path[4096];
    snprintf(path, sizeof path, "%s/%s", folder, size);
    FILE *file = fopen(path, "rb");
    if (file == NULL) {
        perror(path);
        exit(1);
    }
    size_t length = fread(sheet, 1, sizeof sheet, file);
    fclose(file);
    return length;
}

static void time_size(const char *folder, const char *size, int passes) {
    uint64_t cars, stops, total, ranked, held, offset;
    size_t length = fetch(folder, size);
    double began = now();
    for (int i = 0; i < passes; i++) {
        if (dispatch_bench_pass(sheet, length, decisions, DISPATCH_BENCH_DECISIONS, matrix, DISPATCH_BENCH_CELLS, sweeps, DISPATCH_BENCH_SWEEPS, &cars,
                                &stops, &total, &ranked, &held, &offset) != 0) {
            fprintf(stderr, "%s is refused\n", size);
            exit(1);
        }
    }
    printf("%s C %.2f\n", size, (now() - began) / passes);
}

int main(int count, char **words) {
    if (count != 2) {
        fprintf(stderr, "usage: pass FOLDER\n");
        return 2;
    }
    time_size(words[1], "small", 4000);
    time_size(words[1], "typical", 1000);
    time_size(words[1], "full", 40);
    return 0;
}
