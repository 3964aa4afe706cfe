#include "sheet.h"

#include <string.h>

uint64_t get_bits(const uint8_t *bytes, size_t size, size_t at, unsigned width) {
    uint64_t value = 0;
    for (size_t bit = at; bit < at + width; bit++) {
        unsigned byte = bit / 8 < size ? bytes[bit / 8] : 0;
        value = value << 1 | (byte >> (7 - bit % 8) & 1);
    }
    return value;
}

void put_bits(uint8_t *bytes, size_t at, unsigned width, uint64_t value) {
    for (unsigned i = 0; i < width; i++) {
        size_t bit = at + width - 1 - i;
        uint8_t one = (uint8_t)(1u << (7 - bit % 8));
        if (value >> i & 1) {
            bytes[bit / 8] |= one;
        } else {
            bytes[bit / 8] &= (uint8_t)~one;
        }
    }
}

size_t cut_records(const uint8_t *bytes, size_t size, struct record *records) {
    size_t stated = get_bits(bytes, size, 8, 16), count = 0, at = FIRST_RECORD;
    while (count < stated && count < MOST_RECORDS) {
        struct record *r = &records[count];
        r->start = at;
        r->kind = (unsigned)get_bits(bytes, size, at, 6);
        r->length = (unsigned)get_bits(bytes, size, at + 6, 16);
        at += FRONT + r->length;
        if (at > 8 * size) {
            break;
        }
        count++;
    }
    return count;
}

int is_sideways(const uint8_t *bytes, size_t size) {
    return get_bits(bytes, size, 0, 8) == 2;
}

unsigned body_length(int sideways, unsigned kind) {
    static const unsigned lengths[9] = {0, 468, 96, 96, 715, 65, 226, 49, 32};
    if (kind > CLOSED) {
        return 0;
    }
    return lengths[kind] + (sideways && (kind == STOP || kind == CAR) ? ACROSS : 0);
}

/* Copies bits to where the other sheet ends so far. */
static void append(uint8_t *out, size_t *end, const uint8_t *bytes, size_t size, size_t from, size_t to) {
    for (; from < to; from++) {
        put_bits(out, (*end)++, 1, get_bits(bytes, size, from, 1));
    }
}

size_t other_edition(const uint8_t *bytes, size_t size, uint8_t *out, size_t most) {
    static struct record records[MOST_RECORDS];
    int sideways = is_sideways(bytes, size);
    size_t count = cut_records(bytes, size, records), end = FIRST_RECORD;
    if (size + 8 * count > most || count != get_bits(bytes, size, 8, 16)) {
        return 0;
    }
    memset(out, 0, most);
    put_bits(out, 0, 8, sideways ? 1 : 2);
    put_bits(out, 8, 16, count);
    for (size_t i = 0; i < count; i++) {
        const struct record *r = &records[i];
        size_t body = r->start + FRONT, last = body + r->length;
        size_t at = r->kind == STOP ? r->start + STOP_ACROSS : r->kind == CAR ? r->start + CAR_ACROSS : last;
        if (r->kind == 0 || r->length != body_length(sideways, r->kind)) {
            return 0;
        }
        put_bits(out, end, 6, r->kind);
        put_bits(out, end + 6, 16, body_length(!sideways, r->kind));
        end += FRONT;
        append(out, &end, bytes, size, body, at);
        if (sideways && at < last) {
            at += ACROSS;
        } else if (!sideways && (r->kind == STOP || r->kind == CAR)) {
            put_bits(out, end, 1, i % 2);
            end += ACROSS;
        }
        append(out, &end, bytes, size, at, last);
    }
    return (end + 7) / 8;
}
