#include "facts.h"

#include <string.h>

#include "sheet.h"

/* Where a field stands in its record, the 22 bits in front counted. */
enum { ID = 22, SECOND = 54, LIMIT = 24, DESTINATION = 55 };
enum { CAR_PHASE = 86, CAR_IDLE = 154, CAR_SWEEP = 157, CAR_POSITION = 159 };
/* In edition 2 these stand behind the second coordinate. */
enum { CAR_CAPACITY = 287, CAR_LOAD = 351, CAR_RESTRICTED = 609 };

static double get_double(const uint8_t *bytes, size_t size, size_t at) {
    uint64_t bits = get_bits(bytes, size, at, 64);
    double value;
    memcpy(&value, &bits, sizeof value);
    return value;
}

/* A position and, in edition 2, the second coordinate behind it. */
static void read_point(struct facts *f, double *point, const uint8_t *bytes, size_t size, size_t at) {
    point[0] = get_double(bytes, size, at);
    point[1] = f->edition == 2 ? get_double(bytes, size, at + 64) : 0;
    f->sideways |= point[1] != 0;
}

static void read_car(struct facts *f, const uint8_t *bytes, size_t size, size_t at) {
    size_t i = f->cars++, behind = at + (f->edition == 2 ? ACROSS : 0);
    read_point(f, f->car_at[i], bytes, size, at + CAR_POSITION);
    f->car_id[i] = (uint32_t)get_bits(bytes, size, at + ID, 32);
    f->car_line[i] = (uint32_t)get_bits(bytes, size, at + SECOND, 32);
    f->car_restricted[i] = get_bits(bytes, size, behind + CAR_RESTRICTED, 64);
    f->car_sweep[i] = (uint8_t)get_bits(bytes, size, at + CAR_SWEEP, 2);
    f->car_laden[i] = get_bits(bytes, size, at + CAR_PHASE, 3) != 0 && get_double(bytes, size, behind + CAR_CAPACITY) > 0 &&
                      get_double(bytes, size, behind + CAR_LOAD) > 0;
    if (get_bits(bytes, size, at + CAR_IDLE, 1)) {
        f->idle_car[f->idle++] = i;
    }
}

/* The mask of the stop with an id, 0 where it has no record. */
static uint64_t stop_bit(const struct facts *f, uint32_t id) {
    size_t place = stop_place(f, id);
    return place < f->stops ? UINT64_C(1) << (63 - place) : 0;
}

/* A destination that is absent is 0, and no stop's. */
static void read_aboard(struct facts *f, const uint8_t *bytes, size_t size, size_t at) {
    uint32_t car = (uint32_t)get_bits(bytes, size, at + ID, 32);
    for (size_t i = 0; i < f->idle; i++) {
        if (f->car_id[f->idle_car[i]] == car) {
            f->wanted |= stop_bit(f, (uint32_t)get_bits(bytes, size, at + DESTINATION, 32));
        }
    }
}

void read_facts(struct facts *f, const uint8_t *bytes, size_t size) {
    static struct record records[MOST_RECORDS];
    memset(f, 0, sizeof *f);
    f->edition = (unsigned)get_bits(bytes, size, 0, 8);
    size_t count = cut_records(bytes, size, records);
    for (size_t i = 0; i < count; i++) {
        size_t at = records[i].start;
        if (records[i].kind == POLICY) {
            f->strategy = (unsigned)get_bits(bytes, size, at + ID, 2);
            f->weighs_loads = f->strategy == 1 && get_double(bytes, size, LOAD_WEIGHT) > 0;
            f->limit = get_bits(bytes, size, at + LIMIT, 16);
        } else if (records[i].kind == STOP && f->stops < 64) {
            read_point(f, f->stop_at[f->stops], bytes, size, at + SECOND);
            f->stop_id[f->stops++] = (uint32_t)get_bits(bytes, size, at + ID, 32);
        } else if (records[i].kind == LINE && f->lines < 8) {
            f->line_serves[f->lines] = get_bits(bytes, size, at + SECOND, 64);
            f->line_id[f->lines++] = (uint32_t)get_bits(bytes, size, at + ID, 32);
        } else if (records[i].kind == CAR && f->cars < 32) {
            read_car(f, bytes, size, at);
        } else if (records[i].kind == ABOARD) {
            read_aboard(f, bytes, size, at);
        } else if (records[i].kind == CLOSED) {
            f->closed |= stop_bit(f, (uint32_t)get_bits(bytes, size, at + ID, 32));
        }
    }
}

size_t stop_place(const struct facts *f, uint32_t id) {
    size_t place = 0;
    while (place < f->stops && f->stop_id[place] != id) {
        place++;
    }
    return place;
}

int may_go(const struct facts *f, size_t car, size_t stop) {
    uint64_t bit = UINT64_C(1) << (63 - stop);
    for (size_t i = 0; i < f->lines; i++) {
        if (f->line_id[i] == f->car_line[car]) {
            return (f->line_serves[i] & bit) != 0 && (f->car_restricted[car] & bit) == 0;
        }
    }
    return 0;
}
