/* Wrong answers in front of the library, to see that the checks notice them: the environment variable FAULT names one. fuzz/check runs each. */
#include <math.h>
#include <stdlib.h>
#include <string.h>

#include "dispatch_bench.h"
#include "faults.h"

uint32_t __real_dispatch_bench_read(const uint8_t *, size_t, uint64_t *);
uint32_t __wrap_dispatch_bench_read(const uint8_t *, size_t, uint64_t *);
uint32_t __real_dispatch_bench_choose(size_t, size_t, const uint64_t *, size_t, uint32_t *, size_t, uint64_t *);
uint32_t __wrap_dispatch_bench_choose(size_t, size_t, const uint64_t *, size_t, uint32_t *, size_t, uint64_t *);
uint32_t __real_dispatch_bench_choose_plain(size_t, size_t, const uint64_t *, size_t, uint32_t *, size_t, uint64_t *);
uint32_t __wrap_dispatch_bench_choose_plain(size_t, size_t, const uint64_t *, size_t, uint32_t *, size_t, uint64_t *);
uint32_t __real_dispatch_bench_pass(const uint8_t *, size_t, uint32_t *, size_t, uint64_t *, size_t, uint8_t *, size_t, uint64_t *, uint64_t *, uint64_t *,
                                    uint64_t *, uint64_t *, uint64_t *);
uint32_t __wrap_dispatch_bench_pass(const uint8_t *, size_t, uint32_t *, size_t, uint64_t *, size_t, uint8_t *, size_t, uint64_t *, uint64_t *, uint64_t *,
                                    uint64_t *, uint64_t *, uint64_t *);
uint32_t __real_dispatch_bench_pending(const uint8_t *, size_t, uint32_t *, size_t, uint64_t *, uint64_t *);
uint32_t __wrap_dispatch_bench_pending(const uint8_t *, size_t, uint32_t *, size_t, uint64_t *, uint64_t *);
uint32_t __real_dispatch_bench_why(const uint8_t *, size_t, uint32_t, uint32_t, double *, size_t, uint32_t *, uint64_t *);
uint32_t __wrap_dispatch_bench_why(const uint8_t *, size_t, uint32_t, uint32_t, double *, size_t, uint32_t *, uint64_t *);
uint32_t __real_dispatch_bench_weights(const uint8_t *, size_t, uint32_t, double *, size_t, uint64_t *);
uint32_t __wrap_dispatch_bench_weights(const uint8_t *, size_t, uint32_t, double *, size_t, uint64_t *);

uint32_t __real_dispatch_bench_grade(const uint8_t *, size_t, const uint32_t *, size_t, const int64_t *, size_t, const int64_t *, size_t, uint64_t *,
                                     size_t, uint32_t *, uint64_t *);
uint32_t __wrap_dispatch_bench_grade(const uint8_t *, size_t, const uint32_t *, size_t, const int64_t *, size_t, const int64_t *, size_t, uint64_t *,
                                     size_t, uint32_t *, uint64_t *);

uint32_t __real_dispatch_bench_travel_time(double, double, double, double, double, double *);
uint32_t __wrap_dispatch_bench_travel_time(double, double, double, double, double, double *);

int is(const char *fault) {
    const char *named = getenv("FAULT");
    return named != NULL && strcmp(named, fault) == 0;
}

/* Up to 64 bits of a sheet. */
static uint64_t bits_at(const uint8_t *sheet, size_t length, size_t at, size_t width) {
    uint64_t value = 0;
    for (size_t bit = at; bit < at + width; bit++) {
        value = value << 1 | (bit / 8 < length ? sheet[bit / 8] >> (7 - bit % 8) & 1 : 0);
    }
    return value;
}

/* RSR with a load weight above 0: a double's bits rise with it, and minus zero is no weight. */
static int weighs_loads(const uint8_t *sheet, size_t length) {
    uint64_t load = bits_at(sheet, length, 24 + 22 + 84 + 3 * 64, 64);
    return bits_at(sheet, length, 24 + 22, 2) == 1 && load > 0 && load >> 63 == 0;
}

#define MOST_LENGTH (1 << 17)

/* The faults of edition 2, in which the library is given another sheet: edition 3 as the second, and second coordinates as 0 where they are outside of
   their range, below zero, or inside of it. */
static const uint8_t *read_otherwise(const uint8_t *sheet, size_t length) {
    static uint8_t copy[MOST_LENGTH];
    if (length < 4 || length > MOST_LENGTH || !(is("edition_3") || is("across_any") || is("across_below") || is("across_ignored"))) {
        return sheet;
    }
    memcpy(copy, sheet, length);
    copy[0] = is("edition_3") && copy[0] == 3 ? 2 : copy[0];
    size_t at = 24;
    for (uint64_t left = bits_at(copy, length, 8, 16); copy[0] == 2 && left > 0 && at < 8 * length; left--) {
        uint64_t kind = bits_at(copy, length, at, 6);
        size_t second = at + (kind == 2 ? 118 : 223);
        uint64_t across = bits_at(copy, length, second, 64);
        int outside = across << 1 > UINT64_C(0x412e848000000000) << 1;
        int changed = (is("across_ignored") && !outside) || (is("across_any") && outside) || (is("across_below") && across >> 63);
        for (size_t bit = second; (kind == 2 || kind == 4) && changed && !is("edition_3") && bit < second + 64 && bit < 8 * length; bit++) {
            copy[bit / 8] &= (uint8_t)~(0x80 >> bit % 8);
        }
        at += 22 + bits_at(copy, length, at + 6, 16);
    }
    return copy;
}

/* Edition 2 is not known, as before it was there. */
static int is_unknown(const uint8_t *sheet, size_t length) {
    return is("edition_2_refused") && length >= 3 && sheet[0] == 2;
}

uint32_t __wrap_dispatch_bench_read(const uint8_t *sheet, size_t length, uint64_t *offset) {
    if (is_unknown(sheet, length)) {
        *offset = 0;
        return DISPATCH_BENCH_EDITION;
    }
    uint32_t number = __real_dispatch_bench_read(read_otherwise(sheet, length), length, offset);
    if (is("read_load_weight") && number == 0 && weighs_loads(sheet, length)) {
        *offset = 24;
        return DISPATCH_BENCH_LOAD_WEIGHT;
    }
    *offset += is("read_offset") && number == 11;
    *offset += is("read_writes_offset") && number == 0;
    *offset += is("read_long") && length > 65536;
    *offset -= is("read_empty") && number == 6 ? 24 : 0;
    return is("read_number") && number == 9 ? 10 : number;
}

/* Two cars exchange their columns where the total stays and more of them are left standing. */
static void leave_standing(size_t cars, size_t columns, const uint64_t *cells, uint32_t *chosen) {
    for (size_t i = 0; i < cars; i++) {
        for (size_t k = i + 1; k < cars; k++) {
            uint64_t a = cells[i * columns + chosen[i]], b = cells[k * columns + chosen[k]];
            uint64_t c = cells[i * columns + chosen[k]], d = cells[k * columns + chosen[i]];
            int now = (a == DISPATCH_BENCH_SENTINEL) + (b == DISPATCH_BENCH_SENTINEL);
            int then = (c == DISPATCH_BENCH_SENTINEL) + (d == DISPATCH_BENCH_SENTINEL);
            if (a + b == c + d && then > now && chosen[k] < chosen[i]) {
                uint32_t held = chosen[i];
                chosen[i] = chosen[k];
                chosen[k] = held;
                return;
            }
        }
    }
}

uint32_t __wrap_dispatch_bench_choose(size_t cars, size_t columns, const uint64_t *cells, size_t cell_count, uint32_t *chosen, size_t places,
                                      uint64_t *total) {
    if (is("choose_none")) {
        return 0;
    }
    uint32_t answer = __real_dispatch_bench_choose(cars, columns, cells, cell_count, chosen, places, total);
    if (is("choose_writes_refused") && answer == 0 && places > 0) {
        chosen[0] = 0;
    }
    if (is("choose_exchanged") && answer == 1 && cars > 1) {
        uint32_t first = chosen[0];
        *total += cells[chosen[1]] + cells[columns + first] - cells[first] - cells[columns + chosen[1]];
        chosen[0] = chosen[1];
        chosen[1] = first;
    }
    if (is("choose_diagonal") && answer == 1 && cars == 3 && columns == 3) {
        *total = cells[0] + cells[4] + cells[8];
        chosen[0] = 0;
        chosen[1] = 1;
        chosen[2] = 2;
    }
    if (is("choose_standing") && answer == 1) {
        leave_standing(cars, columns, cells, chosen);
    }
    *total += is("choose_total") && answer == 1;
    return answer;
}

/* Two cars exchange their columns where both ways cost the same: the last of equals. */
static void last_of_equals(size_t columns, const uint64_t *cells, uint32_t *chosen) {
    uint32_t first = chosen[0], second = chosen[1];
    if (cells[first] + cells[columns + second] == cells[second] + cells[columns + first]) {
        chosen[0] = second;
        chosen[1] = first;
    }
}

/* The faults of a choice of a small matrix; held is what stood in its first place. */
static void spoil_plain(size_t cars, size_t columns, const uint64_t *cells, uint32_t *chosen, size_t places, uint64_t *total, uint8_t held) {
    if (is("plain_last") && cars > 1) {
        last_of_equals(columns, cells, chosen);
    }
    if (is("plain_taken") && cars > 1) {
        chosen[1] = chosen[0];
    }
    if (is("plain_standing")) {
        leave_standing(cars, columns, cells, chosen);
    }
    if (is("plain_past") && cars < places) {
        chosen[cars] = 0;
    }
    *total = is("plain_first_total") && cars > 0 ? cells[chosen[0]] : *total;
    *total += is("plain_held") && held == 0xa5;
}

uint32_t __wrap_dispatch_bench_choose_plain(size_t cars, size_t columns, const uint64_t *cells, size_t cell_count, uint32_t *chosen, size_t places,
                                            uint64_t *total) {
    uint8_t held = *(const uint8_t *)total;
    if (is("plain_four_refused") && cars == 4 && columns == 5) {
        return DISPATCH_BENCH_NOT_SMALL;
    }
    if (is("plain_few") && places == 3) {
        return DISPATCH_BENCH_NOT_SMALL;
    }
    size_t given = is("plain_any_count") ? cars * columns : cell_count;
    uint32_t number = __real_dispatch_bench_choose_plain(cars, columns, cells, given < cell_count ? given : cell_count, chosen, places, total);
    if (number == 0) {
        spoil_plain(cars, columns, cells, chosen, places, total, held);
    } else {
        if (is("plain_refusal_writes") && places > 0) {
            chosen[0] = 0;
        }
        *total ^= is("plain_refusal_writes_total");
    }
    if (is("plain_reads_past")) {
        *(volatile uint64_t *)total += ((const volatile uint64_t *)cells)[cell_count] & 0;
    }
    if (is("plain_writes_before")) {
        total[-1] ^= 1;
    }
    if (is("plain_writes_cells") && cell_count > 0) {
        ((uint64_t *)(uintptr_t)cells)[0] ^= 1;
    }
    return is("plain_number") && number == DISPATCH_BENCH_NOT_SMALL ? 21 : number;
}

/* The faults of RSR's load term: each cell with a rank is another. */
static void spoil_loads(uint64_t *matrix, uint64_t n, uint64_t columns) {
    for (uint64_t i = 0; i < n * columns; i++) {
        int ranked = 0 < matrix[i] && matrix[i] < DISPATCH_BENCH_SENTINEL;
        matrix[i] += is("load_of_all") && ranked;
        matrix[i] -= is("load_less") && ranked;
        matrix[i] = is("load_no_rank") && ranked ? DISPATCH_BENCH_SENTINEL : matrix[i];
    }
}

/* The faults of a pass that was made. */
static void spoil_pass(uint32_t *decisions, size_t decision_count, uint64_t *matrix, uint8_t *sweeps, size_t sweep_count, uint64_t n, uint64_t m,
                       uint64_t *total, uint64_t *ranked, uint64_t *offset) {
    uint64_t columns = n < m ? m : n;
    decisions[n < decision_count ? n : 0] += is("decision_past");
    matrix[n * columns] += is("cell_past") && n * columns < DISPATCH_BENCH_CELLS;
    sweeps[sweep_count - 1] ^= is("sweep_past");
    *total += is("total");
    *ranked += is("ranked");
    *ranked -= is("ranked_few") && *ranked > 0;
    *offset ^= is("offset_written");
    if (n > 0) {
        decisions[0] = is("sent_nowhere") && decisions[0] != 0 ? UINT32_MAX : decisions[0];
        decisions[0] = is("idle") ? 0 : decisions[0];
        decisions[n - 1] = is("two_to_one_stop") && decisions[n - 1] != 0 && decisions[0] != 0 ? decisions[0] : decisions[n - 1];
        matrix[0] += is("cell_too_large") ? UINT64_C(281474976710657) : 0;
        sweeps[0] ^= is("sweep") ? 3 : 0;
    }
}

/* The faults of the number of held cells; before is what stood there. */
static void spoil_held(const uint64_t *matrix, uint64_t n, uint64_t m, uint64_t *held, uint64_t before) {
    uint64_t columns = n < m ? m : n, below = 0, at = 0, unranked = 0;
    for (uint64_t i = 0; i < n * columns; i++) {
        below += matrix[i] < DISPATCH_BENCH_CEILING;
        at += matrix[i] == DISPATCH_BENCH_CEILING;
        unranked += matrix[i] == DISPATCH_BENCH_SENTINEL;
    }
    *held += is("held_most") ? 1 + n * m : 0;
    *held += is("held_no_rank") ? unranked : 0;
    *held += is("held_of_none") && at == 0 && below > 0;
    *held = is("held_one_more") && at > 0 && below > 0 ? at + 1 : *held;
    *held = is("held_unwritten") && *held == 0 ? before : *held;
}

/* The highest stop with a closed landing takes the place of a stop, where it is above that. */
static void name_closed(const uint8_t *sheet, size_t length, uint32_t *last) {
    size_t at = 24;
    for (uint64_t left = bits_at(sheet, length, 8, 16); left > 0; left--) {
        uint32_t stop = (uint32_t)bits_at(sheet, length, at + 22, 32);
        *last = bits_at(sheet, length, at, 6) == 8 && stop > *last ? stop : *last;
        at += 22 + bits_at(sheet, length, at + 6, 16);
    }
}

uint32_t __wrap_dispatch_bench_pass(const uint8_t *sheet, size_t length, uint32_t *decisions, size_t decision_count, uint64_t *matrix, size_t cell_count,
                                    uint8_t *sweeps, size_t sweep_count, uint64_t *cars, uint64_t *stops, uint64_t *total, uint64_t *ranked,
                                    uint64_t *held, uint64_t *offset) {
    uint32_t stood = decision_count > 31 ? decisions[31] : 0;
    uint64_t before = *held;
    if (is_unknown(sheet, length) && decision_count > 31 && cell_count > 2047 && sweep_count > 31) {
        *offset = 0;
        return DISPATCH_BENCH_EDITION;
    }
    uint32_t number = __real_dispatch_bench_pass(read_otherwise(sheet, length), length, decisions, decision_count, matrix, cell_count, sweeps, sweep_count, cars, stops, total,
                                                 ranked, held, offset);
    if (number == 0) {
        spoil_held(matrix, *cars, *stops, held, before);
        *held = is("held_of_loads") && weighs_loads(sheet, length) ? 0 : *held;
        spoil_pass(decisions, decision_count, matrix, sweeps, sweep_count, *cars, *stops, total, ranked, offset);
        if (*cars > 0 && decisions[0] != 0 && is("sent_closed")) {
            name_closed(sheet, length, &decisions[0]);
        }
        if (weighs_loads(sheet, length)) {
            spoil_loads(matrix, *cars, *cars < *stops ? *stops : *cars);
        }
        *ranked -= is("held_before") && *ranked > 0 ? stood & 1 : 0;
    } else if (decision_count > 0 && sweep_count > 0 && cell_count > 0) {
        decisions[0] ^= is("refusal_writes_decision");
        matrix[cell_count - 1] ^= is("refusal_writes_cell");
        sweeps[0] ^= is("refusal_writes_sweep");
        *cars ^= is("refusal_writes_cars");
        *held ^= is("refusal_writes_held");
        *offset += is("refusal_offset") && number == 11;
    }
    if (is("reads_past_sheet") && length > 0) {
        *(volatile uint64_t *)total += ((const volatile uint8_t *)sheet)[length] & 0;
    }
    if (is("writes_before_decisions")) {
        decisions[-1] ^= 1;
    }
    if (is("writes_sheet") && length > 0) {
        ((uint8_t *)(uintptr_t)sheet)[0] ^= 1;
    }
    return is("short_is_2") && number == 1 ? 2 : is("number") && number == 2 ? 3 : number;
}

#define MOST_PLACES 128

/* The id of a stop record, 0 where there is none. Stop records follow the policy's. */
static uint32_t stop_at(const uint8_t *sheet, size_t length, size_t place) {
    uint64_t record = bits_at(sheet, length, 24 + 22 + 468 + place * (22 + (sheet[0] == 2 ? 160 : 96)), 54);
    return record >> 48 == 2 ? (uint32_t)record : 0;
}

/* The last of the pending stops is named as the stop record after it, where neither that nor a higher one is closed. */
static void name_next(const uint8_t *sheet, size_t length, uint32_t *last) {
    size_t place = 0;
    while (stop_at(sheet, length, place) != *last) {
        place++;
    }
    uint32_t next = stop_at(sheet, length, place + 1);
    uint32_t below = next - 1;
    name_closed(sheet, length, &below);
    *last = next != 0 && below == next - 1 ? next : *last;
}

/* The faults of pending stops that were found; held is what stood in the places. */
static void spoil_pending(const uint8_t *sheet, size_t length, uint32_t *stops, size_t places, const uint32_t *held, uint64_t *count,
                          uint64_t *offset) {
    *offset ^= is("pending_writes_offset");
    stops[places - 1] ^= is("pending_past") && *count < places;
    if (*count > 0 && is("pending_other")) {
        name_next(sheet, length, &stops[*count - 1]);
    }
    if (*count > 0 && is("pending_closed")) {
        name_closed(sheet, length, &stops[*count - 1]);
    }
    if (*count > 0 && is("pending_unknown")) {
        stops[0] = 0;
    }
    if (*count > 1 && is("pending_falls")) {
        uint32_t first = stops[0];
        stops[0] = stops[1];
        stops[1] = first;
    }
    if (*count > 0 && (is("pending_one_less") || (is("pending_held") && (held[places - 1] & 2) != 0))) {
        --*count;
        stops[*count] = held[*count];
    }
}

uint32_t __wrap_dispatch_bench_pending(const uint8_t *sheet, size_t length, uint32_t *stops, size_t places, uint64_t *count, uint64_t *offset) {
    uint32_t held[MOST_PLACES];
    memcpy(held, stops, sizeof *held * (places < MOST_PLACES ? places : MOST_PLACES));
    if (is_unknown(sheet, length) && places > 63) {
        *offset = 0;
        return DISPATCH_BENCH_EDITION;
    }
    uint32_t number = __real_dispatch_bench_pending(read_otherwise(sheet, length), length, stops, places, count, offset);
    if (number == 0) {
        spoil_pending(sheet, length, stops, places, held, count, offset);
    } else {
        if (places > 0) {
            stops[0] ^= is("refusal_writes_place");
        }
        *count ^= is("refusal_writes_count");
        *offset += is("pending_offset") && number == 11;
    }
    return is("pending_few") && number == 1 && places == 63 ? 2 : is("pending_number") && number == 9 ? 10 : number;
}

/* One reason in the place of another. */
static void exchange_reason(const char *fault, uint32_t *reason, uint32_t from, uint32_t to) {
    *reason = is(fault) && *reason == from ? to : *reason;
}

/* The faults of a reason that was found; held is what stood in the first place. */
static void spoil_why(double *terms, size_t places, uint8_t held, uint32_t *reason, uint64_t *offset) {
    int ranked = *reason == DISPATCH_BENCH_RANKED;
    *offset ^= is("why_writes_offset");
    exchange_reason("why_no_stop_first", reason, 1, 2);
    exchange_reason("why_listed", reason, 3, 4);
    exchange_reason("why_pending", reason, 4, 0);
    exchange_reason("why_line_as_bar", reason, 5, 6);
    exchange_reason("why_barred", reason, 6, 9);
    exchange_reason("why_cut_all", reason, 10, 7);
    exchange_reason("why_off_path", reason, 12, 11);
    exchange_reason("why_never", reason, 0, 12);
    exchange_reason("why_ranked", reason, 9, 0);
    exchange_reason("why_thirteen", reason, 12, 13);
    if (ranked && *reason == DISPATCH_BENCH_RANKED) {
        terms[7] += is("why_cost") ? 1 : 0;
        terms[1] = is("why_infinite") ? INFINITY : terms[1];
        terms[6] += is("why_zeros") ? 1 : 0;
        terms[7] += is("why_held") && (held & 2) != 0 ? 0.25 : 0;
        if (is("why_past") && places > DISPATCH_BENCH_TERMS) {
            terms[DISPATCH_BENCH_TERMS] = 0;
        }
    } else if (is("why_unranked_writes")) {
        terms[0] = 0;
    }
}

uint32_t __wrap_dispatch_bench_why(const uint8_t *sheet, size_t length, uint32_t car, uint32_t stop, double *terms, size_t places, uint32_t *reason,
                                   uint64_t *offset) {
    uint8_t held = places > 0 ? *(const uint8_t *)terms : 0;
    if (is_unknown(sheet, length) && places >= DISPATCH_BENCH_TERMS) {
        *offset = 0;
        return DISPATCH_BENCH_EDITION;
    }
    uint32_t number = __real_dispatch_bench_why(read_otherwise(sheet, length), length, car, stop, terms, places, reason, offset);
    if (number == 0) {
        spoil_why(terms, places, held, reason, offset);
    } else {
        if (places > 0 && is("why_refusal_writes")) {
            terms[0] = 0;
        }
        *reason ^= is("why_refusal_writes_reason");
        *offset += is("why_offset") && number == 11;
    }
    if (is("why_reads_past") && length > 0) {
        *(volatile uint32_t *)reason += ((const volatile uint8_t *)sheet)[length] & 0;
    }
    if (is("why_writes_before")) {
        ((uint64_t *)(void *)terms)[-1] ^= 1;
    }
    if (is("why_writes_sheet") && length > 0) {
        ((uint8_t *)(uintptr_t)sheet)[0] ^= 1;
    }
    return is("why_few") && number == 1 && places == 7 ? 2 : is("why_number") && number == 9 ? 10 : number;
}

#define RECORD (DISPATCH_BENCH_WEIGHT_BITS / 8)

/* The value of a record. */
static double value_at(const uint8_t *record) {
    uint64_t bits = 0;
    double value;
    for (int k = 7; k < RECORD; k++) {
        bits = bits << 8 | record[k];
    }
    memcpy(&value, &bits, sizeof value);
    return value;
}

/* The first slot gets another value of its own that has started, the least above zero, where there is one. */
static void take_another(const uint8_t *store, size_t length, uint32_t day, double *weights) {
    double least = 0;
    for (size_t at = 0; at + RECORD <= length; at += RECORD) {
        const uint8_t *record = store + at;
        uint32_t start = (uint32_t)record[1] << 24 | (uint32_t)record[2] << 16 | (uint32_t)record[3] << 8 | record[4];
        double value = value_at(record);
        if (record[0] == 0 && start <= day && value > 0 && value != weights[0] && (least == 0 || value < least)) {
            least = value;
        }
    }
    weights[0] = least > 0 ? least : weights[0];
}

/* The last record is one that stands there twice. */
static int ends_repeated(const uint8_t *store, size_t length) {
    for (size_t at = 0; at + 2 * RECORD <= length; at += RECORD) {
        if (memcmp(store + at, store + length - RECORD, RECORD) == 0) {
            return 1;
        }
    }
    return 0;
}

/* The store with every minus zero among its values as zero. */
static const uint8_t *zeros_as_one(const uint8_t *store, size_t length) {
    static uint8_t copy[1 << 16];
    size_t most = length < sizeof copy ? length : sizeof copy;
    memcpy(copy, store, most);
    for (size_t at = 0; at + RECORD <= most; at += RECORD) {
        copy[at + 7] = value_at(copy + at) == 0 ? 0 : copy[at + 7];
    }
    return copy;
}

/* The faults of weights that were found; held is what stood in the first place. */
static void spoil_weights(const uint8_t *store, size_t length, uint32_t day, double *weights, size_t places, uint8_t held, uint64_t *offset) {
    *offset ^= is("weights_writes_offset");
    if (places > DISPATCH_BENCH_WEIGHTS && is("weights_past")) {
        weights[DISPATCH_BENCH_WEIGHTS] = 0;
    }
    for (int slot = 0; slot < DISPATCH_BENCH_WEIGHTS; slot++) {
        weights[slot] = is("weights_minus_zero") && weights[slot] == 0 ? -0.0 : weights[slot];
        weights[slot] = is("weights_zero") && weights[slot] == 0 ? 0.0 : weights[slot];
    }
    weights[0] = is("weights_above") ? weights[0] + 2e9 : weights[0];
    weights[0] = is("weights_unknown") ? 0.123 : weights[0];
    if (is("weights_another") || (is("weights_held") && held == 0xa5)) {
        take_another(store, length, day, weights);
    }
    if (is("weights_first_record") && store[0] == 0 && value_at(store) != 0) {
        weights[0] = value_at(store);
    }
}

uint32_t __wrap_dispatch_bench_weights(const uint8_t *store, size_t length, uint32_t day, double *weights, size_t places, uint64_t *offset) {
    uint8_t held = places > 0 ? *(const uint8_t *)weights : 0;
    if (is("weights_repeated") && places >= DISPATCH_BENCH_WEIGHTS && ends_repeated(store, length)) {
        *offset = 0;
        return DISPATCH_BENCH_TWO_VALUES;
    }
    uint64_t kept = *offset;
    uint32_t number = __real_dispatch_bench_weights(store, length, day, weights, places, offset);
    if (is("weights_zeros_as_one") && number == DISPATCH_BENCH_TWO_VALUES) {
        *offset = kept;
        number = __real_dispatch_bench_weights(zeros_as_one(store, length), length, day, weights, places, offset);
    }
    if (number == 0) {
        spoil_weights(store, length, day, weights, places, held, offset);
    } else {
        if (is("weights_refusal_writes") && places > 0) {
            weights[0] = 1.0;
        }
        *offset -= is("weights_offset") && number == 11 ? DISPATCH_BENCH_WEIGHT_BITS : 0;
        *offset += is("weights_byte") && number == 2;
        *offset += is("weights_slot") && number == 18 ? 6 : 0;
        *offset = is("weights_next_slot") && number == 18 && *offset < 5 ? *offset + 1 : *offset;
    }
    if (is("weights_reads_past") && length > 0) {
        *(volatile uint64_t *)offset += ((const volatile uint8_t *)store)[length] & 0;
    }
    if (is("weights_writes_before")) {
        offset[-1] ^= 1;
    }
    if (is("weights_writes_store") && length > 0) {
        ((uint8_t *)(uintptr_t)store)[0] ^= 1;
    }
    number = is("weights_few") && number == 1 && places == 5 ? 2 : number;
    number = is("weights_none") && number == 18 ? 19 : number;
    return is("weights_number") && number == 8 ? 11 : number;
}

#define MOST_SENT 128

/* Prices within their range. */
static void clamp(const int64_t *from, int64_t *to, size_t count) {
    for (size_t k = 0; k < count && k < MOST_SENT; k++) {
        int64_t least = from[k] < DISPATCH_BENCH_MOST_PRICE ? from[k] : DISPATCH_BENCH_MOST_PRICE;
        to[k] = least > -DISPATCH_BENCH_MOST_PRICE ? least : -DISPATCH_BENCH_MOST_PRICE;
    }
}

/* A choice has a larger total than the least. */
static int larger(const uint32_t *columns, size_t n, size_t w, const uint64_t *matrix) {
    uint32_t chosen[MOST_SENT];
    uint64_t total = 0, best = 0;
    for (size_t i = 0; i < n; i++) {
        total += matrix[i * w + columns[i]];
    }
    return __real_dispatch_bench_choose(n, w, matrix, n * w, chosen, MOST_SENT, &best) == 1 && total > best;
}

/* The faults of a grade of n cars and w columns. */
static void spoil_grade(const uint32_t *columns, size_t n, const int64_t *u, const int64_t *v, size_t w, uint64_t *matrix, size_t cells,
                        uint32_t *least, uint64_t *offset) {
    uint8_t taken[MOST_SENT] = {0};
    int free_priced = 0, above = 0, equal_first = n > 0, never_above = 1;
    for (size_t i = 0; i < n; i++) {
        taken[columns[i]] = 1;
        for (size_t j = 0; j < w; j++) {
            never_above &= u[i] + v[j] <= (int64_t)matrix[i * w + j];
        }
    }
    for (size_t j = 0; j < w; j++) {
        free_priced |= !taken[j] && v[j] < 0;
        above |= v[j] > 0;
    }
    equal_first = equal_first && u[0] + v[columns[0]] == (int64_t)matrix[columns[0]];
    *offset ^= is("grade_writes_offset");
    matrix[n * w] ^= is("grade_past") && n * w < cells;
    matrix[0] ^= is("grade_cell") && n > 0;
    *least = is("grade_two") && *least == 1 ? 2 : *least;
    *least = is("grade_never") ? 0 : *least;
    *least = is("grade_larger") && larger(columns, n, w, matrix) ? 1 : *least;
    *least = is("grade_free_priced") && free_priced && never_above && equal_first && !above ? 1 : *least;
    *least = is("grade_equal_first") && never_above && equal_first && !above && !free_priced ? 1 : *least;
}

uint32_t __wrap_dispatch_bench_grade(const uint8_t *sheet, size_t length, const uint32_t *columns, size_t column_count, const int64_t *car_prices,
                                     size_t car_price_count, const int64_t *column_prices, size_t column_price_count, uint64_t *matrix,
                                     size_t cell_count, uint32_t *least, uint64_t *offset) {
    int64_t u[MOST_SENT], v[MOST_SENT];
    uint8_t held = *(const uint8_t *)least;
    const int64_t *of_cars = car_prices, *of_columns = column_prices;
    if (is("grade_any_price")) {
        clamp(car_prices, u, car_price_count);
        clamp(column_prices, v, column_price_count);
        of_cars = u;
        of_columns = v;
    }
    uint32_t number = __real_dispatch_bench_grade(sheet, length, columns, column_count, of_cars, car_price_count, of_columns, column_price_count,
                                                  matrix, cell_count, least, offset);
    if (number == 0) {
        spoil_grade(columns, column_count, of_cars, of_columns, column_price_count, matrix, cell_count, least, offset);
        *least = is("grade_held") && held == 0xa5 ? 0 : *least;
    } else {
        matrix[0] ^= is("grade_refusal_writes_cell") && cell_count > 0;
        *least ^= is("grade_refusal_writes_least");
        *offset += is("grade_offset") && number == 11;
        *offset += is("grade_own_offset") && number >= 19 ? 24 : 0;
    }
    if (is("grade_reads_past") && column_price_count > 0) {
        *(volatile uint64_t *)offset += (uint64_t)((const volatile int64_t *)column_prices)[column_price_count] & 0;
    }
    if (is("grade_writes_before")) {
        offset[-1] ^= 1;
    }
    if (is("grade_writes_columns") && column_count > 0) {
        ((uint32_t *)(uintptr_t)columns)[0] ^= 1;
    }
    if (is("grade_writes_price") && car_price_count > 0) {
        ((int64_t *)(uintptr_t)car_prices)[0] ^= 1;
    }
    if (is("grade_twenty_first") && number == 19 && column_price_count != car_price_count && car_price_count > column_count) {
        number = 20;
    }
    return is("grade_short_is_2") && number == 1 ? 2 : is("grade_number") && number == 19 ? 20 : number;
}

/* The faults of the domain, where a run inside of it is refused. */
static int refuses(double distance, double top, double up, double down) {
    return (is("travel_least_outside") && (top == DISPATCH_BENCH_LEAST_RATE || up == DISPATCH_BENCH_LEAST_RATE)) ||
           (is("travel_most_outside") && distance == DISPATCH_BENCH_MOST_INPUT) || (is("travel_zero_outside") && (top == 0 || down == 0));
}

/* The faults of a run outside of it that is given another run's time: a rate that is too small, too long a distance, a speed that is no number. */
static void admit(double *distance, double *speed, double *up) {
    *up = is("travel_small_inside") && *up > 0 && *up < DISPATCH_BENCH_LEAST_RATE ? DISPATCH_BENCH_LEAST_RATE : *up;
    *distance = is("travel_far_inside") && *distance > DISPATCH_BENCH_MOST_INPUT ? DISPATCH_BENCH_MOST_INPUT : *distance;
    *speed = is("travel_nan_inside") && isnan(*speed) ? 0 : *speed;
}

/* The faults of a time; held is what stood there. */
static void spoil_time(double distance, double speed, double top, double up, double down, uint8_t held, double *time) {
    int no_run = distance <= 0 || top <= 0 || up <= 0 || down <= 0;
    speed = speed < top ? speed : top;
    int brakes = !no_run && speed >= 0 && speed * speed / (2 * down) >= distance;
    *time = is("travel_takes_time") && no_run ? 1 : *time;
    *time = is("travel_minus_zero") && no_run ? -0.0 : *time;
    *time = is("travel_infinite") && *time > 1000 ? INFINITY : *time;
    *time = is("travel_held") && held == 0xa5 ? *time + 1 : *time;
    *time = is("travel_next") && *time > 0 ? nextafter(*time, INFINITY) : *time;
    *time = is("travel_not_below_zero") && *time < 0 ? 0 : *time;
    if (is("travel_rounds_twice") && brakes) {
        volatile double product = 2 * distance * -down, sum = product + speed * speed;
        *time = (speed - sqrt(sum > 0 ? sum : 0)) / down;
    }
}

uint32_t __wrap_dispatch_bench_travel_time(double distance, double speed, double top, double up, double down, double *time) {
    uint8_t held = *(const uint8_t *)time;
    if (refuses(distance, top, up, down)) {
        return DISPATCH_BENCH_OUTSIDE;
    }
    admit(&distance, &speed, &up);
    double given = is("travel_backwards") && speed < 0 ? -speed : speed;
    given = is("travel_slower") && speed > top && top > 0 && speed <= DISPATCH_BENCH_MOST_INPUT ? top / 2 : given;
    int exchanged = is("travel_rates_exchanged");
    uint32_t number = __real_dispatch_bench_travel_time(distance, given, top, exchanged ? down : up, exchanged ? up : down, time);
    if (number == 0) {
        spoil_time(distance, speed, top, up, down, held, time);
    } else if (is("travel_refusal_writes")) {
        *time = 0;
    }
    if (is("travel_past") && number == 0) {
        time[1] = 0;
    }
    if (is("travel_writes_before") && number == 0) {
        time[-1] = 0;
    }
    return is("travel_number") && number == DISPATCH_BENCH_OUTSIDE ? 20 : number;
}
