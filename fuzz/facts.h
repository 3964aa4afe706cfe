/* What the checks need to know of an accepted sheet, read apart from the library. */
#ifndef FACTS_H
#define FACTS_H

#include <stddef.h>
#include <stdint.h>

struct facts {
    /* 1 or 2. */
    unsigned edition;
    unsigned strategy;
    /* RSR with a load weight above 0. */
    int weighs_loads;
    uint64_t limit;
    size_t stops, lines, cars, idle;
    uint32_t stop_id[64];
    /* Both coordinates; the second is 0 in edition 1. */
    double stop_at[64][2], car_at[32][2];
    /* Some second coordinate is no zero. */
    int sideways;
    uint32_t line_id[8];
    uint64_t line_serves[8];
    uint32_t car_id[32];
    uint32_t car_line[32];
    uint64_t car_restricted[32];
    /* RSR's load term counts for the car, should there be a weight: it is not in phase idle, and has a capacity and a load. */
    uint8_t car_laden[32];
    /* 2 * sweep + mode before the pass. */
    uint8_t car_sweep[32];
    /* The car records that are idle-listed, in record order. */
    size_t idle_car[32];
    /* Stops, the first one the highest bit: those with a closed landing, and those that a rider of an idle-listed car is bound for. */
    uint64_t closed, wanted;
};

void read_facts(struct facts *f, const uint8_t *bytes, size_t size);

/* The place of a stop id among the stop records, or their number. */
size_t stop_place(const struct facts *f, uint32_t id);

/* Whether a car's line serves a stop that is not barred to the car. */
int may_go(const struct facts *f, size_t car, size_t stop);

#endif
