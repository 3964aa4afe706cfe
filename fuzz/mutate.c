/* Sheets changed by their records: a field gets another value of its sort, a record is repeated, left out, or taken from another sheet, a landing is
   closed, the edition is the other one. One change in eight is libFuzzer's own, of plain bytes. */
#include <string.h>

#include "sheet.h"

size_t LLVMFuzzerMutate(uint8_t *data, size_t size, size_t most);
size_t LLVMFuzzerCustomMutator(uint8_t *data, size_t size, size_t most, unsigned seed);
size_t LLVMFuzzerCustomCrossOver(const uint8_t *one, size_t one_size, const uint8_t *other, size_t other_size, uint8_t *out, size_t most, unsigned seed);

/* The sorts of fields. */
enum sort { END, STRATEGY, LIMIT, TRAFFIC, PHASE, PHASE_STOP, FLAG, PRESENT, ID, STOP_ID, LINE_ID, CAR_ID, DOUBLE, MASK, TICKS, WAIT, COUNT };

struct field {
    enum sort sort;
    unsigned width;
};

/* The fields of each kind, in order; those of edition 2's stops and cars follow. */
#define SECOND_STOP 9
#define SECOND_CAR 10
static const struct field fields[11][25] = {
    [POLICY] = {{STRATEGY, 2}, {LIMIT, 16}, {DOUBLE, 64}, {TRAFFIC, 2}, {DOUBLE, 64}, {DOUBLE, 64}, {DOUBLE, 64}, {DOUBLE, 64}, {DOUBLE, 64}, {DOUBLE, 64}},
    [STOP] = {{ID, 32}, {DOUBLE, 64}},
    [LINE] = {{ID, 32}, {MASK, 64}},
    [CAR] = {{ID, 32},    {LINE_ID, 32}, {PHASE, 3},    {PHASE_STOP, 32}, {PRESENT, 1}, {STOP_ID, 32}, {FLAG, 1},    {FLAG, 1},
             {FLAG, 1},   {FLAG, 1},     {FLAG, 1},     {DOUBLE, 64},     {DOUBLE, 64}, {DOUBLE, 64},  {DOUBLE, 64}, {PRESENT, 1},
             {DOUBLE, 64}, {PRESENT, 1},  {DOUBLE, 64},  {TICKS, 32},      {TICKS, 32},  {MASK, 64},    {MASK, 64}},
    [ABOARD] = {{CAR_ID, 32}, {PRESENT, 1}, {STOP_ID, 32}},
    [WAITING] = {{STOP_ID, 32}, {PRESENT, 1}, {LINE_ID, 32}, {PRESENT, 1}, {STOP_ID, 32}, {DOUBLE, 64}, {WAIT, 64}},
    [DEMAND] = {{STOP_ID, 32}, {COUNT, 16}, {FLAG, 1}},
    [CLOSED] = {{STOP_ID, 32}},
    [SECOND_STOP] = {{ID, 32}, {DOUBLE, 64}, {DOUBLE, 64}},
    [SECOND_CAR] = {{ID, 32},    {LINE_ID, 32}, {PHASE, 3},    {PHASE_STOP, 32}, {PRESENT, 1}, {STOP_ID, 32}, {FLAG, 1},    {FLAG, 1},
                    {FLAG, 1},   {FLAG, 1},     {FLAG, 1},     {DOUBLE, 64},     {DOUBLE, 64}, {DOUBLE, 64},  {DOUBLE, 64}, {DOUBLE, 64},
                    {PRESENT, 1}, {DOUBLE, 64},  {PRESENT, 1},  {DOUBLE, 64},     {TICKS, 32},  {TICKS, 32},   {MASK, 64},   {MASK, 64}},
};

static const struct field *fields_of(unsigned kind, int sideways) {
    return fields[sideways && kind == STOP ? SECOND_STOP : sideways && kind == CAR ? SECOND_CAR : kind];
}

static const double doubles[] = {0.0, -0.0, 1.0, 2.0, 10.0, 60.0, 0.5, 1.0 / 1024, 1000.0, 1e6, -1e6, 1e9, 281474976.710655, 1e-9, 3.5, 100.0,
                                 1e-300};

static const uint64_t ticks[] = {0, 1, 30, 1000, 2147483647, 2147483648, 4294967295, 9007199254740992, 9007199254740993};

/* Where a change works: a sheet of so many bytes, cut into records. */
static uint8_t bytes[MOST_BYTES + 8];
static size_t size;
static struct record records[MOST_RECORDS];
static size_t count;
static uint64_t state;

/* xorshift; below n. */
static uint64_t any(uint64_t n) {
    state ^= state << 13;
    state ^= state >> 7;
    state ^= state << 17;
    return state % n;
}

static size_t count_kind(unsigned kind) {
    size_t found = 0;
    for (size_t i = 0; i < count; i++) {
        found += records[i].kind == kind;
    }
    return found;
}

/* The id of any record of a kind; now and then one that may have no record. */
static uint64_t any_id(unsigned kind) {
    size_t n = count_kind(kind);
    if (n == 0 || any(16) == 0) {
        return any(80);
    }
    size_t i = 0;
    for (size_t left = any(n) + 1; left > 0; i++) {
        left -= records[i].kind == kind;
    }
    return get_bits(bytes, size, records[i - 1].start + FRONT, 32);
}

static uint64_t any_double(uint64_t now) {
    double value = doubles[any(sizeof doubles / sizeof doubles[0])];
    if (any(4) == 0) {
        value = (double)any(64) * 0.5;
    }
    uint64_t bits;
    memcpy(&bits, &value, sizeof bits);
    switch (any(8)) {
    case 0: return now + 1;
    case 1: return now - 1;
    case 2: return now ^ UINT64_C(1) << any(64);
    default: return bits;
    }
}

/* The mask of all stop records. */
static uint64_t all_stops(void) {
    size_t stops = count_kind(STOP);
    return stops == 0 ? 0 : ~UINT64_C(0) << (stops >= 64 ? 0 : 64 - stops);
}

static uint64_t any_mask(uint64_t now) {
    size_t stops = count_kind(STOP);
    switch (any(8)) {
    case 0: return 0;
    case 1: return all_stops();
    case 2: return now ^ UINT64_C(1) << any(64);
    case 3: return any(UINT64_MAX) & all_stops();
    default: return stops == 0 ? now : now ^ UINT64_C(1) << (63 - any(stops < 64 ? stops : 64));
    }
}

/* Another value of a sort. */
static uint64_t any_value(enum sort sort, uint64_t now) {
    switch (sort) {
    case LIMIT: return any(4) == 0 ? 65535 : any(9);
    case PHASE: return any(any(16) == 0 ? 8 : 7);
    case ID: return any(4) == 0 ? now + any(3) : 1 + any(80);
    case STOP_ID: return any_id(STOP);
    case LINE_ID: return any_id(LINE);
    case CAR_ID: return any_id(CAR);
    case DOUBLE: return any_double(now);
    case MASK: return any_mask(now);
    case TICKS: return ticks[any(7)];
    case WAIT: return ticks[any(9)];
    case COUNT: return any(3);
    default: return now ^ 1;
    }
}

/* The weights that a strategy leaves unused are set to 0. */
static void set_strategy(size_t at) {
    uint64_t strategy = any(any(32) == 0 ? 4 : 3);
    size_t weights = at + FRONT + 84;
    put_bits(bytes, at + FRONT, 2, strategy);
    if (strategy == 0) {
        put_bits(bytes, weights + 5 * 64, 64, 0);
    }
    for (size_t i = 0; strategy == 2 && i < 6; i++) {
        put_bits(bytes, weights + i * 64, 64, 0);
    }
}

/* A field of a record gets another value. A present bit brings its field along, as a phase does its stop. */
static void change_field(const struct record *r) {
    const struct field *f = fields_of(r->kind, is_sideways(bytes, size));
    size_t n = 0, at = r->start + FRONT;
    while (f[n].sort != END) {
        n++;
    }
    size_t k = any(n);
    for (size_t i = 0; i < k; i++) {
        at += f[i].width;
    }
    if (f[k].sort == STRATEGY) {
        set_strategy(r->start);
        return;
    }
    uint64_t value = any_value(f[k].sort, get_bits(bytes, size, at, f[k].width));
    put_bits(bytes, at, f[k].width, value);
    if (f[k].sort == PRESENT || f[k].sort == PHASE) {
        int used = f[k].sort == PRESENT ? value & 1 : value == 1 || value == 2;
        enum sort of = f[k].sort == PHASE ? STOP_ID : f[k + 1].sort;
        put_bits(bytes, at + f[k].width, f[k + 1].width, used ? any_value(of, 0) : 0);
    } else if (k > 0 && f[k - 1].sort == PRESENT) {
        put_bits(bytes, at - 1, 1, 1);
    }
}

static void copy_bits(uint8_t *to, size_t to_at, const uint8_t *from, size_t from_size, size_t from_at, size_t width) {
    for (size_t done = 0; done < width; done += 64) {
        unsigned step = width - done < 64 ? (unsigned)(width - done) : 64;
        put_bits(to, to_at + done, step, get_bits(from, from_size, from_at + done, step));
    }
}

/* Puts `with_bits` of a record in the place of the sheet's bits from `from` to `to`, and counts the records anew. 0: it would be too long. */
static int splice(size_t from, size_t to, const uint8_t *with, size_t with_size, size_t with_at, size_t with_bits, size_t most) {
    static uint8_t out[sizeof bytes];
    size_t end = count == 0 ? FIRST_RECORD : records[count - 1].start + FRONT + records[count - 1].length;
    size_t total = end - (to - from) + with_bits;
    if ((total + 7) / 8 > most) {
        return 0;
    }
    memset(out, 0, sizeof out);
    copy_bits(out, 0, bytes, size, 0, from);
    copy_bits(out, from, with, with_size, with_at, with_bits);
    copy_bits(out, from + with_bits, bytes, size, to, end - to);
    put_bits(out, 8, 16, count + (with_bits > 0) - (to > from));
    memcpy(bytes, out, sizeof bytes);
    size = (total + 7) / 8;
    return 1;
}

/* A record that was inserted gets an id of its own, or names records of this sheet. */
static void settle(size_t at, unsigned kind, uint64_t last) {
    size_t body = at + FRONT, restricted = body + 587 + (is_sideways(bytes, size) ? ACROSS : 0);
    if (kind == STOP || kind == LINE || kind == CAR) {
        put_bits(bytes, body, 32, last + 1 + any(3));
    } else {
        put_bits(bytes, body, 32, any_id(kind == ABOARD ? CAR : STOP));
    }
    if (kind == CAR) {
        put_bits(bytes, body + 32, 32, any_id(LINE));
    }
    if (kind == LINE || kind == CAR) {
        size_t mask = kind == LINE ? body + 32 : restricted;
        put_bits(bytes, mask, 64, get_bits(bytes, size, mask, 64) & all_stops());
    }
    if (kind == CAR) {
        put_bits(bytes, restricted + 64, 64, get_bits(bytes, size, restricted + 64, 64) & all_stops());
    }
}

/* Inserts a record behind the last one that is not of a higher kind. */
static void insert(const uint8_t *from, size_t from_size, const struct record *r, size_t most) {
    size_t i = count;
    while (i > 0 && records[i - 1].kind > r->kind) {
        i--;
    }
    size_t at = i == 0 ? FIRST_RECORD : records[i - 1].start + FRONT + records[i - 1].length;
    uint64_t last = i == 0 || records[i - 1].kind != r->kind ? any(64) : get_bits(bytes, size, records[i - 1].start + FRONT, 32);
    struct record inserted = *r;
    if (splice(at, at, from, from_size, r->start, FRONT + r->length, most)) {
        count = cut_records(bytes, size, records);
        settle(at, inserted.kind, last);
    }
}

/* Closes the landing of any stop. */
static void close_landing(size_t most) {
    uint8_t closure[8] = {0};
    struct record r = {0, CLOSED, 32};
    put_bits(closure, 0, 6, r.kind);
    put_bits(closure, 6, 16, r.length);
    insert(closure, sizeof closure, &r, most);
}

static int take(const uint8_t *data, size_t data_size, unsigned seed) {
    state = seed * UINT64_C(0x9e3779b97f4a7c15) + 1;
    if (data_size < 4 || data_size > MOST_BYTES) {
        return 0;
    }
    memset(bytes, 0, sizeof bytes);
    memcpy(bytes, data, data_size);
    size = data_size;
    count = cut_records(bytes, size, records);
    return count > 0;
}

/* The kind is known, and the length is the kind's in this sheet's edition. */
static int known(const struct record *r) {
    return r->kind >= POLICY && r->kind <= CLOSED && r->length == body_length(is_sideways(bytes, size), r->kind);
}

/* The sheet becomes one of the other edition. */
static void change_edition(size_t most) {
    static uint8_t out[sizeof bytes];
    size_t length = other_edition(bytes, size, out, sizeof out);
    if (length > 0 && length <= most) {
        memcpy(bytes, out, sizeof bytes);
        size = length;
    }
}

size_t LLVMFuzzerCustomMutator(uint8_t *data, size_t data_size, size_t most, unsigned seed) {
    if (!take(data, data_size, seed) || any(8) == 0) {
        return LLVMFuzzerMutate(data, data_size, most);
    }
    for (uint64_t left = 1 + any(4); left > 0; left--) {
        struct record *r = &records[any(count)];
        uint64_t change = any(16);
        if (change == 0 && r->kind != POLICY) {
            splice(r->start, r->start + FRONT + r->length, bytes, size, 0, 0, most);
        } else if (change <= 2 && r->kind != POLICY && known(r)) {
            insert(bytes, size, r, most);
        } else if (change == 3 && any(2) == 0) {
            close_landing(most);
        } else if (change == 4 && any(4) == 0) {
            change_edition(most);
        } else if (known(r)) {
            change_field(r);
        }
        count = cut_records(bytes, size, records);
        if (count == 0) {
            break;
        }
    }
    if (size > most) {
        return LLVMFuzzerMutate(data, data_size, most);
    }
    memcpy(data, bytes, size);
    return size;
}

/* The one sheet, with some records of the other. */
size_t LLVMFuzzerCustomCrossOver(const uint8_t *one, size_t one_size, const uint8_t *other, size_t other_size, uint8_t *out, size_t most, unsigned seed) {
    static struct record theirs[MOST_RECORDS];
    size_t found = cut_records(other, other_size, theirs);
    if (!take(one, one_size, seed) || found == 0) {
        return 0;
    }
    for (uint64_t left = 1 + any(6); left > 0 && count < MOST_RECORDS; left--) {
        struct record *r = &theirs[any(found)];
        if (r->kind != POLICY && known(r)) {
            insert(other, other_size, r, most);
        }
    }
    if (size > most) {
        return 0;
    }
    memcpy(out, bytes, size);
    return size;
}
