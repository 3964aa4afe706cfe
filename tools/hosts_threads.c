/* Eight threads pass over the sheets that are named, each with buffers of its own, and write document 01's example, all at once: every answer is that
   of one thread alone. To be built with -fsanitize=thread. Ends with 0 where all are; what is not is said on standard error. */
#include <pthread.h>
#include <stdio.h>
#include <stdlib.h>
#include <string.h>

#include "dispatch_bench.h"

#define THREADS 8
#define ROUNDS 200
#define MOST_SHEETS 128

struct sheet {
    uint8_t bytes[DISPATCH_BENCH_SHEET_BYTES];
    size_t length;
};

/* All that a pass and the pending stops answer and leave. */
struct answer {
    uint64_t matrix[DISPATCH_BENCH_CELLS], cars, stops, total, ranked, held, offset, count;
    uint32_t decisions[DISPATCH_BENCH_DECISIONS], pending[DISPATCH_BENCH_STOPS], number, second;
    uint8_t sweeps[DISPATCH_BENCH_SWEEPS];
};

struct turn {
    pthread_t thread;
    struct answer found;
    uint8_t written[1024];
    size_t first;
    int wrong;
};

static struct sheet sheets[MOST_SHEETS];
static struct answer wanted[MOST_SHEETS];
static size_t count;

static void ask(const struct sheet *sheet, struct answer *answer) {
    memset(answer, 0, sizeof *answer);
    answer->number = dispatch_bench_pass(sheet->bytes, sheet->length, answer->decisions, DISPATCH_BENCH_DECISIONS, answer->matrix,
                                         DISPATCH_BENCH_CELLS, answer->sweeps, DISPATCH_BENCH_SWEEPS, &answer->cars, &answer->stops,
                                         &answer->total, &answer->ranked, &answer->held, &answer->offset);
    answer->second = dispatch_bench_pending(sheet->bytes, sheet->length, answer->pending, DISPATCH_BENCH_STOPS, &answer->count, &answer->offset);
}

/* A policy and a stop: 79 bytes. */
static int writes(uint8_t *bytes, size_t lent) {
    uint32_t state[DISPATCH_BENCH_STATE];
    uint64_t length = 0;
    uint32_t numbers = dispatch_bench_start(bytes, lent, state, DISPATCH_BENCH_STATE, 1);
    numbers |= dispatch_bench_put_policy(bytes, lent, state, DISPATCH_BENCH_STATE, 2, 65535, 60, 0, 0, 0, 0, 0, 0, 0);
    numbers |= dispatch_bench_put_stop(bytes, lent, state, DISPATCH_BENCH_STATE, 1, 0, 0);
    numbers |= dispatch_bench_finish(bytes, lent, state, DISPATCH_BENCH_STATE, &length);
    return numbers == 0 && length == 79 && dispatch_bench_read(bytes, length, &length) == 0;
}

static void *run(void *given) {
    struct turn *turn = given;
    for (size_t k = turn->first; k < turn->first + ROUNDS; k++) {
        ask(&sheets[k % count], &turn->found);
        turn->wrong += memcmp(&turn->found, &wanted[k % count], sizeof turn->found) != 0;
        turn->wrong += !writes(turn->written, sizeof turn->written);
    }
    return NULL;
}

static void read_sheets(int words, char **names) {
    for (int i = 1; i < words && count < MOST_SHEETS; i++) {
        FILE *file = fopen(names[i], "rb");
        if (file == NULL) {
            fprintf(stderr, "%s cannot be read\n", names[i]);
            exit(2);
        }
        sheets[count].length = fread(sheets[count].bytes, 1, sizeof sheets[count].bytes, file);
        fclose(file);
        ask(&sheets[count], &wanted[count]);
        count++;
    }
}

int main(int words, char **names) {
    static struct turn turns[THREADS];
    int wrong = 0;
    read_sheets(words, names);
    if (count == 0) {
        fprintf(stderr, "usage: hosts_threads SHEET ..\n");
        return 2;
    }
    for (size_t i = 0; i < THREADS; i++) {
        turns[i].first = i;
        wrong += pthread_create(&turns[i].thread, NULL, run, &turns[i]) != 0;
    }
    for (size_t i = 0; i < THREADS; i++) {
        wrong += pthread_join(turns[i].thread, NULL) != 0;
        wrong += turns[i].wrong;
    }
    if (wrong != 0) {
        fprintf(stderr, "%d answers of eight threads are not those of one\n", wrong);
    }
    return wrong != 0;
}
