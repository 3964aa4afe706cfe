/* A put of the writer: its arguments, taken from an input's bytes, and the fields that its record has (docs/manual/format.md). */
#ifndef PUTS_H
#define PUTS_H

#include <stddef.h>
#include <stdint.h>

#define MOST_FIELDS 32

/* The bytes of an input that are not taken yet. */
struct input {
    const uint8_t *at;
    size_t left;
};

/* The whole numbers and the doubles of a put, in the order of its parameters. */
struct put {
    unsigned kind;
    uint64_t n[16];
    double d[7];
};

struct field {
    unsigned width;
    uint64_t value;
};

/* So many bytes as a number, the first the highest; past the end they are zero. */
uint64_t take(struct input *in, unsigned bytes);

/* The bits with which a double is written. */
uint64_t written_bits(double value);

/* A double of any bits, or of a few values. */
double take_double(struct input *in, int any);

/* Fills a put of a kind: with any bits, or with values that a reader mostly accepts behind the records of a state. */
void take_put(struct put *p, unsigned kind, int any, const uint32_t *state, struct input *in);

/* Whether its codes stand for something. */
int is_known(const struct put *p);

/* Whether the first number of a kind is the record's own id. */
int is_own(unsigned kind);

uint32_t call_put(const struct put *p, uint8_t *sheet, size_t length, uint32_t *state, size_t count);

/* The record's fields, with its kind and length in front, and how many there are. */
size_t fields_of_put(const struct put *p, int sideways, struct field *fields);

#endif
