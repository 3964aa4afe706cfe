/* The bits and records of a sheet (docs/manual/format.md). */
#ifndef SHEET_H
#define SHEET_H

#include <stddef.h>
#include <stdint.h>

enum { POLICY = 1, STOP, LINE, CAR, ABOARD, WAITING, DEMAND, CLOSED };

#define FIRST_RECORD 24
#define FRONT 22
/* Where the fourth weight stands, RSR's of the load. */
#define LOAD_WEIGHT (FIRST_RECORD + FRONT + 84 + 3 * 64)
/* The bits of a second coordinate, and where it stands in its record, the 22 bits in front counted: right after the position. */
#define ACROSS 64
#define STOP_ACROSS (FRONT + 96)
#define CAR_ACROSS (FRONT + 201)
#define MOST_RECORDS 1257
#define MOST_BYTES 65536

struct record {
    size_t start;
    unsigned kind;
    unsigned length;
};

/* Up to 64 bits, most significant first; past the end they are zero. */
uint64_t get_bits(const uint8_t *bytes, size_t size, size_t at, unsigned width);

void put_bits(uint8_t *bytes, size_t at, unsigned width, uint64_t value);

/* Whether the sheet states edition 2, in which stops and cars have a second coordinate. */
int is_sideways(const uint8_t *bytes, size_t size);

/* The length of a kind's body in the edition of a sheet; 0 for another kind. */
unsigned body_length(int sideways, unsigned kind);

/* The sheet in the other of editions 1 and 2, in `out`, and its length: without its second coordinates, or with zeros of both signs. 0 where a record
   has not its kind's length, not all records are there, or there is no room. */
size_t other_edition(const uint8_t *bytes, size_t size, uint8_t *out, size_t most);

/* The records that the head counts, while their stated bodies are there. */
size_t cut_records(const uint8_t *bytes, size_t size, struct record *records);

#endif
