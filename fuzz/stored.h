/* A store of weights, written by dispatch_bench_put_weight and read by dispatch_bench_weights. */
#ifndef STORED_H
#define STORED_H

#include <stdint.h>

#include "puts.h"

void make_stored(void);

/* Writes a store as an input says, holds each put to the header, and the weights for a day to the records that were put. Gives the reader's number. */
uint32_t run_store(struct input *in, int at_end, uint8_t pattern);

/* What was answered so far. */
void print_stored(void);

#endif
