/* Wrong answers of the writer in front of the library, as those of faults.c. */
#include <math.h>
#include <string.h>

#include "dispatch_bench.h"
#include "faults.h"
#include "sheet.h"

#define RECORD (DISPATCH_BENCH_WEIGHT_BITS / 8)
#define LENT uint8_t *sheet, size_t length, uint32_t *state, size_t count

uint32_t __real_dispatch_bench_start(LENT, uint32_t);
uint32_t __wrap_dispatch_bench_start(LENT, uint32_t);
uint32_t __real_dispatch_bench_put_policy(LENT, uint32_t, uint16_t, double, uint32_t, double, double, double, double, double, double);
uint32_t __wrap_dispatch_bench_put_policy(LENT, uint32_t, uint16_t, double, uint32_t, double, double, double, double, double, double);
uint32_t __real_dispatch_bench_put_stop(LENT, uint32_t, double, double);
uint32_t __wrap_dispatch_bench_put_stop(LENT, uint32_t, double, double);
uint32_t __real_dispatch_bench_put_line(LENT, uint32_t, uint64_t);
uint32_t __wrap_dispatch_bench_put_line(LENT, uint32_t, uint64_t);
uint32_t __real_dispatch_bench_put_aboard(LENT, uint32_t, uint32_t);
uint32_t __wrap_dispatch_bench_put_aboard(LENT, uint32_t, uint32_t);
uint32_t __real_dispatch_bench_put_waiting(LENT, uint32_t, uint32_t, uint32_t, double, uint64_t);
uint32_t __wrap_dispatch_bench_put_waiting(LENT, uint32_t, uint32_t, uint32_t, double, uint64_t);
uint32_t __real_dispatch_bench_put_demand(LENT, uint32_t, uint16_t, uint32_t);
uint32_t __wrap_dispatch_bench_put_demand(LENT, uint32_t, uint16_t, uint32_t);
uint32_t __real_dispatch_bench_put_closed(LENT, uint32_t);
uint32_t __wrap_dispatch_bench_put_closed(LENT, uint32_t);
uint32_t __real_dispatch_bench_put_car(LENT, uint32_t, uint32_t, uint32_t, uint32_t, uint32_t, uint32_t, uint32_t, uint32_t, uint32_t, uint32_t, double,
                                       double, double, double, double, uint32_t, double, uint32_t, double, uint32_t, uint32_t, uint64_t, uint64_t);
uint32_t __wrap_dispatch_bench_put_car(LENT, uint32_t, uint32_t, uint32_t, uint32_t, uint32_t, uint32_t, uint32_t, uint32_t, uint32_t, uint32_t, double,
                                       double, double, double, double, uint32_t, double, uint32_t, double, uint32_t, uint32_t, uint64_t, uint64_t);
uint32_t __real_dispatch_bench_finish(uint8_t *, size_t, const uint32_t *, size_t, uint64_t *);
uint32_t __wrap_dispatch_bench_finish(uint8_t *, size_t, const uint32_t *, size_t, uint64_t *);
uint32_t __real_dispatch_bench_put_weight(uint8_t *, size_t, uint16_t *, uint8_t, uint32_t, uint16_t, double);
uint32_t __wrap_dispatch_bench_put_weight(uint8_t *, size_t, uint16_t *, uint8_t, uint32_t, uint16_t, double);
uint32_t __real_dispatch_bench_put_field(uint8_t *, size_t, uint32_t, uint32_t, uint64_t);
uint32_t __wrap_dispatch_bench_put_field(uint8_t *, size_t, uint32_t, uint32_t, uint64_t);

/* A fault of the byte at a place that is lent. */
static void flip(uint8_t *bytes, size_t length, size_t at, const char *fault) {
    if (at < length && is(fault)) {
        bytes[at] ^= 1;
    }
}

uint32_t __wrap_dispatch_bench_start(LENT, uint32_t edition) {
    uint32_t given = is("start_edition_3") && edition == 3 ? 2 : is("start_edition_byte") ? edition & 255 : edition;
    uint32_t number = __real_dispatch_bench_start(sheet, length, state, count, given);
    if (number == 0) {
        flip(sheet, length, 2, "start_counts_one");
        state[0] ^= is("start_across") && edition == 1 ? 64 : 0;
        if (is("start_state_past") && count > DISPATCH_BENCH_STATE) {
            state[DISPATCH_BENCH_STATE] ^= 1;
        }
        flip(sheet, length, 3, "start_writes_past");
    } else {
        flip(sheet, length, 0, "start_refusal_writes");
    }
    return is("start_short_is_1") && number == 2 ? 1 : number;
}

/* Where the records of a state end. */
static size_t end_of(const uint32_t *state) {
    size_t end = FIRST_RECORD;
    for (unsigned kind = POLICY; kind <= CLOSED; kind++) {
        end += (size_t)state[kind] * (FRONT + body_length(state[0] == ACROSS, kind));
    }
    return end;
}

/* The faults that every put may have. */
static uint32_t spoil(LENT, unsigned kind, uint32_t number) {
    if (number == 0) {
        size_t end = end_of(state), start = end - FRONT - body_length(state[0] == ACROSS, kind);
        flip(sheet, length, start / 8 - 1, "put_writes_before");
        flip(sheet, length, (end + 7) / 8, "put_writes_past");
        put_bits(sheet, start, 1, is("put_kind") ? 1 : get_bits(sheet, length, start, 1));
        state[kind] += is("put_counts_two");
        state[CLOSED] += is("put_counts_another") && kind == STOP;
    } else {
        flip(sheet, length, 0, "put_refusal_writes");
        state[1] ^= is("put_refusal_writes_state");
    }
    if (is("put_writes_around")) {
        *(volatile uint32_t *)(state + count) ^= 1;
    }
    number = is("put_full_is_6") && number == 7 ? 6 : is("put_order_is_7") && number == 6 ? 7 : number;
    return is("put_room_is_1") && number == 2 ? 1 : is("put_code_is_1") && number == 8 ? 1 : number;
}

uint32_t __wrap_dispatch_bench_put_policy(LENT, uint32_t strategy, uint16_t limit, double rate, uint32_t traffic, double w0, double w1, double w2,
                                          double w3, double w4, double w5) {
    uint16_t given = is("policy_limit") && limit != 65535 ? limit + 1 : limit;
    uint32_t known = is("policy_any_traffic") ? traffic % 4 : traffic;
    double last = is("policy_weights") ? w4 : w5;
    return spoil(sheet, length, state, count, POLICY,
                 __real_dispatch_bench_put_policy(sheet, length, state, count, strategy, given, rate, known, w0, w1, w2, w3, w4, last));
}

uint32_t __wrap_dispatch_bench_put_stop(LENT, uint32_t id, double position, double across) {
    double given = is("stop_minus_zero") && across == 0 ? 0 : is("stop_across") ? position : across;
    return spoil(sheet, length, state, count, STOP, __real_dispatch_bench_put_stop(sheet, length, state, count, id, position, given));
}

uint32_t __wrap_dispatch_bench_put_line(LENT, uint32_t id, uint64_t serves) {
    return spoil(sheet, length, state, count, LINE,
                 __real_dispatch_bench_put_line(sheet, length, state, count, id, is("line_serves") ? serves >> 1 : serves));
}

uint32_t __wrap_dispatch_bench_put_car(LENT, uint32_t id, uint32_t line, uint32_t phase, uint32_t stop, uint32_t target, uint32_t listed, uint32_t up,
                                       uint32_t down, uint32_t sweep, uint32_t mode, double position, double across, double speed, double capacity,
                                       double load, uint32_t has_up, double bypass_up, uint32_t has_down, double bypass_down, uint32_t transition,
                                       uint32_t dwell, uint64_t restricted, uint64_t calls) {
    size_t end = count >= DISPATCH_BENCH_STATE ? end_of(state) : 0;
    int exchanged = is("car_lamps_exchanged");
    uint32_t flag = is("car_flag_of_lowest_bit") ? sweep & 1 : sweep, has = is("car_threshold_always") ? 1 : has_up;
    uint32_t number = __real_dispatch_bench_put_car(sheet, length, state, count, id, line, phase, stop, target, listed, exchanged ? down : up,
                                                    exchanged ? up : down, flag, mode, position, across, speed, capacity, load, has, bypass_up,
                                                    has_down, bypass_down, transition, dwell, restricted, calls);
    if (number == 0 && is("car_own_nan") && isnan(position)) {
        put_bits(sheet, end + FRONT + 137, 64, UINT64_C(0xfff0000000000001));
    }
    if (number == 0 && is("car_stop_of_all_phases")) {
        put_bits(sheet, end + FRONT + 67, 32, stop);
    }
    return spoil(sheet, length, state, count, CAR, number);
}

uint32_t __wrap_dispatch_bench_put_aboard(LENT, uint32_t car, uint32_t destination) {
    size_t end = count >= DISPATCH_BENCH_STATE ? end_of(state) : 0;
    uint32_t number = __real_dispatch_bench_put_aboard(sheet, length, state, count, car, destination);
    if (number == 0 && is("aboard_present")) {
        put_bits(sheet, end + FRONT + 32, 1, 1);
    }
    return spoil(sheet, length, state, count, ABOARD, number);
}

uint32_t __wrap_dispatch_bench_put_waiting(LENT, uint32_t stop, uint32_t line, uint32_t destination, double weight, uint64_t wait) {
    uint64_t given = is("waiting_32_bits") ? (uint32_t)wait : wait;
    return spoil(sheet, length, state, count, WAITING,
                 __real_dispatch_bench_put_waiting(sheet, length, state, count, stop, line, destination, weight, given));
}

uint32_t __wrap_dispatch_bench_put_demand(LENT, uint32_t stop, uint16_t riding, uint32_t call) {
    return spoil(sheet, length, state, count, DEMAND,
                 __real_dispatch_bench_put_demand(sheet, length, state, count, stop, riding, is("demand_no_call") ? 0 : call));
}

uint32_t __wrap_dispatch_bench_put_closed(LENT, uint32_t stop) {
    uint32_t given = is("closed_next") ? stop + 1 : stop;
    return spoil(sheet, length, state, count, CLOSED, __real_dispatch_bench_put_closed(sheet, length, state, count, given));
}

uint32_t __wrap_dispatch_bench_finish(uint8_t *sheet, size_t length, const uint32_t *state, size_t count, uint64_t *bytes) {
    size_t end = count >= DISPATCH_BENCH_STATE ? end_of(state) : 0;
    uint8_t last = end / 8 < length ? sheet[end / 8] : 0;
    uint32_t number = __real_dispatch_bench_finish(sheet, length, state, count, bytes);
    if (number == 0) {
        flip(sheet, length, 2, "finish_count");
        if (is("finish_tail") && end % 8 != 0) {
            sheet[end / 8] = last;
        }
        flip(sheet, length, 0, "finish_edition");
        *bytes += is("finish_bytes");
        flip(sheet, length, (end + 7) / 8, "finish_past");
        ((uint32_t *)(uintptr_t)state)[1] ^= is("finish_state");
    } else {
        *bytes ^= is("finish_refusal_writes_bytes");
        flip(sheet, length, 0, "finish_refusal_writes");
    }
    return is("finish_number") && number == 2 ? 1 : number;
}

uint32_t __wrap_dispatch_bench_put_weight(uint8_t *store, size_t length, uint16_t *count, uint8_t setting, uint32_t start, uint16_t issue,
                                          double weight) {
    uint16_t before = *count, given = is("weight_issue_of_8_bits") ? issue & 255 : issue;
    uint8_t slot = is("weight_setting") && setting > 5 ? 5 : setting;
    uint32_t number = __real_dispatch_bench_put_weight(store, length, count, slot, start, given, weight);
    if (number == 0) {
        *count = is("weight_not_counted") ? before : *count;
        flip(store, RECORD * (size_t)before, 0, "weight_writes_before");
    } else {
        *count += is("weight_refusal_counts");
        flip(store, length, 0, "weight_refusal_writes");
    }
    return is("weight_full_is_2") && number == 7 ? 2 : is("weight_room_is_7") && number == 2 ? 7 : number;
}

uint32_t __wrap_dispatch_bench_put_field(uint8_t *sheet, size_t length, uint32_t at, uint32_t width, uint64_t value) {
    uint64_t given = is("field_cut_off") && width < 64 ? value & ((UINT64_C(1) << width) - 1) : is("field_of_zeros") ? 0 : value;
    uint32_t bits = is("field_of_65_bits") && width == 65 ? 64 : width, place = is("field_on_the_next_bit") && at % 64 != 63 ? at + 1 : at;
    uint32_t number = __real_dispatch_bench_put_field(sheet, length, place, bits, given);
    if (number == 0) {
        flip(sheet, length, ((size_t)at + width + 7) / 8, "field_writes_past");
        flip(sheet, length, at / 8 - 1, "field_writes_before");
    } else {
        flip(sheet, length, 0, "field_refusal_writes");
    }
    if (is("field_writes_around")) {
        *(volatile uint8_t *)(sheet + length) ^= 1;
    }
    return is("field_room_is_8") && number == 2 ? 8 : is("field_code_is_2") && number == 8 ? 2 : number;
}
