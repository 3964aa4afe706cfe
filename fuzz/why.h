/* Why pairs cost what they do or have no rank, beside the sheet and what its pass answered. */
#ifndef WHY_H
#define WHY_H

#include <stddef.h>
#include <stdint.h>

#include "facts.h"

/* A sheet, the reader's answer, and of an accepted one its facts, pending stops and matrix. */
struct passed {
    const uint8_t *data;
    size_t size;
    uint32_t number;
    uint64_t offset;
    const struct facts *facts;
    const uint32_t *stops;
    size_t stop_count;
    const uint64_t *matrix;
    size_t columns;
};

/* Asks about some pairs, which vary with `by`; of a refused sheet about one. */
void check_why(const struct passed *p, unsigned by);

/* How often each reason was answered. */
extern unsigned long reasons[13];

#endif
