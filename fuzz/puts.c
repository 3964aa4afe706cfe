#include "puts.h"

#include <string.h>

#include "dispatch_bench.h"
#include "sheet.h"

/* The numbers of a put for a car. */
enum { ID, ON_LINE, PHASE, AT_STOP, TARGET, LISTED, UP, DOWN, SWEEP, MODE, HAS_UP, HAS_DOWN, TRANSITION, DWELL, RESTRICTED, CALLS };

/* What a number is: how many bits its parameter has, and what a reader takes. */
enum sort { END, OWN, OF_STOP, OF_LINE, OF_CAR, NO_STOP, NO_LINE, STRATEGY, TRAFFIC, PHASES, LIMIT, FLAG, COUNT, TICKS, WAIT, MASK };

static const enum sort sorts[9][17] = {
    {END},
    {STRATEGY, LIMIT, TRAFFIC, END},
    {OWN, END},
    {OWN, MASK, END},
    {OWN, OF_LINE, PHASES, OF_STOP, NO_STOP, FLAG, FLAG, FLAG, FLAG, FLAG, FLAG, FLAG, TICKS, TICKS, MASK, MASK, END},
    {OF_CAR, NO_STOP, END},
    {OF_STOP, NO_LINE, NO_STOP, WAIT, END},
    {OF_STOP, COUNT, FLAG, END},
    {OF_STOP, END},
};

static const unsigned doubles[9] = {0, 7, 2, 0, 7, 0, 1, 0, 0};

uint64_t take(struct input *in, unsigned bytes) {
    uint64_t value = 0;
    for (; bytes > 0; bytes--) {
        value = value << 8 | (in->left > 0 ? *in->at : 0);
        in->at += in->left > 0;
        in->left -= in->left > 0;
    }
    return value;
}

uint64_t written_bits(double value) {
    uint64_t bits;
    memcpy(&bits, &value, sizeof bits);
    return value != value ? UINT64_C(0x7ff8000000000000) : bits;
}

double take_double(struct input *in, int any) {
    static const double values[16] = {1, 2, 0.5, 10, 20, 60, 100, 0.25, 3, 4, 75, 0.75, 5, 0, -0.0, 1e6};
    uint64_t bits = take(in, any ? 8 : 1);
    double value = values[bits % 16];
    if (any) {
        memcpy(&value, &bits, sizeof value);
    }
    return value;
}

/* The id of one of the first `count` records, now and then none of them. */
static uint64_t id_among(uint8_t byte, uint32_t count) {
    return byte >= 250 ? byte - 250u : 1 + byte % (count == 0 ? 1 : count);
}

/* A mask of the first `stops` records. */
static uint64_t mask_of(uint8_t byte, uint32_t stops) {
    uint64_t all = stops == 0 ? 0 : ~UINT64_C(0) << (stops >= 64 ? 0 : 64 - stops);
    return byte == 255 ? UINT64_MAX : byte < 128 ? all : all & byte * UINT64_C(0x0101010101010101);
}

/* A number of a sort that a reader mostly accepts, by a byte. */
static uint64_t likely(enum sort sort, uint8_t byte, unsigned kind, const uint32_t *state) {
    switch (sort) {
    case OWN: return byte >= 250 ? byte - 250u : state[kind] + 1;
    case OF_STOP: return id_among(byte, state[STOP]);
    case OF_LINE: return id_among(byte, state[LINE]);
    case OF_CAR: return id_among(byte, state[CAR]);
    case NO_STOP: return byte % 2 == 0 ? 0 : id_among(byte / 2, state[STOP]);
    case NO_LINE: return byte % 2 == 0 ? 0 : id_among(byte / 2, state[LINE]);
    case STRATEGY: return byte >= 250 ? 3 + (byte - 250u) * 1000 : byte % 3;
    case TRAFFIC: return byte >= 250 ? 4 + (byte - 250u) * 1000 : byte % 4;
    case PHASES: return byte >= 250 ? 7 + (byte - 250u) * 1000 : byte % 7;
    case LIMIT: return byte < 128 ? 65535 : byte - 128u;
    case MASK: return mask_of(byte, state[STOP]);
    default: return byte;
    }
}

/* Any bits of a sort's parameter. */
static uint64_t any_bits(enum sort sort, struct input *in) {
    int code = sort == STRATEGY || sort == TRAFFIC || sort == PHASES;
    return code ? take(in, 1) % 8 : take(in, sort == MASK || sort == WAIT ? 8 : sort == LIMIT || sort == COUNT ? 2 : 4);
}

void take_put(struct put *p, unsigned kind, int any, const uint32_t *state, struct input *in) {
    memset(p, 0, sizeof *p);
    p->kind = kind;
    for (size_t i = 0; sorts[kind][i] != END; i++) {
        p->n[i] = any ? any_bits(sorts[kind][i], in) : likely(sorts[kind][i], (uint8_t)take(in, 1), kind, state);
    }
    for (size_t i = 0; i < doubles[kind]; i++) {
        int unused = !any && kind == POLICY && ((p->n[0] == 2 && i > 0) || (p->n[0] == 0 && i == 6));
        p->d[i] = unused ? 0 : take_double(in, any);
    }
}

int is_known(const struct put *p) {
    return p->kind == POLICY ? p->n[0] <= 2 && p->n[2] <= 3 : p->kind != CAR || p->n[PHASE] <= 6;
}

int is_own(unsigned kind) {
    return sorts[kind][0] == OWN;
}

static uint32_t call_car(const struct put *p, uint8_t *sheet, size_t length, uint32_t *state, size_t count) {
    uint32_t n[RESTRICTED];
    const double *d = p->d;
    for (size_t i = 0; i < RESTRICTED; i++) {
        n[i] = (uint32_t)p->n[i];
    }
    return dispatch_bench_put_car(sheet, length, state, count, n[ID], n[ON_LINE], n[PHASE], n[AT_STOP], n[TARGET], n[LISTED], n[UP], n[DOWN], n[SWEEP],
                                  n[MODE], d[0], d[1], d[2], d[3], d[4], n[HAS_UP], d[5], n[HAS_DOWN], d[6], n[TRANSITION], n[DWELL],
                                  p->n[RESTRICTED], p->n[CALLS]);
}

uint32_t call_put(const struct put *p, uint8_t *sheet, size_t length, uint32_t *state, size_t count) {
    uint32_t first = (uint32_t)p->n[0], second = (uint32_t)p->n[1], third = (uint32_t)p->n[2];
    const double *d = p->d;
    switch (p->kind) {
    case POLICY:
        return dispatch_bench_put_policy(sheet, length, state, count, first, (uint16_t)second, d[0], third, d[1], d[2], d[3], d[4], d[5], d[6]);
    case STOP: return dispatch_bench_put_stop(sheet, length, state, count, first, d[0], d[1]);
    case LINE: return dispatch_bench_put_line(sheet, length, state, count, first, p->n[1]);
    case CAR: return call_car(p, sheet, length, state, count);
    case ABOARD: return dispatch_bench_put_aboard(sheet, length, state, count, first, second);
    case WAITING: return dispatch_bench_put_waiting(sheet, length, state, count, first, second, third, d[0], p->n[3]);
    case DEMAND: return dispatch_bench_put_demand(sheet, length, state, count, first, (uint16_t)second, third);
    default: return dispatch_bench_put_closed(sheet, length, state, count, first);
    }
}

static struct field *add(struct field *f, unsigned width, uint64_t value) {
    f->width = width;
    f->value = value;
    return f + 1;
}

static struct field *add_double(struct field *f, double value) {
    return add(f, 64, written_bits(value));
}

/* An optional id, absent where it is 0. */
static struct field *add_optional(struct field *f, uint64_t id) {
    return add(add(f, 1, id != 0), 32, id);
}

static struct field *add_threshold(struct field *f, uint64_t has, double value) {
    return add(add(f, 1, has != 0), 64, has != 0 ? written_bits(value) : 0);
}

static struct field *add_car(struct field *f, const struct put *p, int sideways) {
    const uint64_t *n = p->n;
    f = add(add(add(f, 32, n[ID]), 32, n[ON_LINE]), 3, n[PHASE]);
    f = add_optional(add(f, 32, n[PHASE] == 1 || n[PHASE] == 2 ? n[AT_STOP] : 0), n[TARGET]);
    for (size_t i = LISTED; i <= MODE; i++) {
        f = add(f, 1, n[i] != 0);
    }
    f = add_double(f, p->d[0]);
    f = sideways ? add_double(f, p->d[1]) : f;
    f = add_double(add_double(add_double(f, p->d[2]), p->d[3]), p->d[4]);
    f = add_threshold(add_threshold(f, n[HAS_UP], p->d[5]), n[HAS_DOWN], p->d[6]);
    return add(add(add(add(f, 32, n[TRANSITION]), 32, n[DWELL]), 64, n[RESTRICTED]), 64, n[CALLS]);
}

static struct field *add_policy(struct field *f, const struct put *p) {
    f = add(add_double(add(add(f, 2, p->n[0]), 16, p->n[1]), p->d[0]), 2, p->n[2]);
    for (size_t i = 1; i < doubles[POLICY]; i++) {
        f = add_double(f, p->d[i]);
    }
    return f;
}

size_t fields_of_put(const struct put *p, int sideways, struct field *fields) {
    const uint64_t *n = p->n;
    struct field *f = add(add(fields, 6, p->kind), 16, body_length(sideways, p->kind));
    switch (p->kind) {
    case POLICY: f = add_policy(f, p); break;
    case STOP:
        f = add_double(add(f, 32, n[0]), p->d[0]);
        f = sideways ? add_double(f, p->d[1]) : f;
        break;
    case LINE: f = add(add(f, 32, n[0]), 64, n[1]); break;
    case CAR: f = add_car(f, p, sideways); break;
    case ABOARD: f = add_optional(add(f, 32, n[0]), n[1]); break;
    case WAITING: f = add(add_double(add_optional(add_optional(add(f, 32, n[0]), n[1]), n[2]), p->d[0]), 64, n[3]); break;
    case DEMAND: f = add(add(add(f, 32, n[0]), 16, n[1]), 1, n[2] != 0); break;
    default: f = add(f, 32, n[0]); break;
    }
    return (size_t)(f - fields);
}
