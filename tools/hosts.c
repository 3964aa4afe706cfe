/* dispatch_bench_why, dispatch_bench_weights, dispatch_bench_grade, dispatch_bench_travel_time and dispatch_bench_choose_plain as a host in C calls
   them: each number with its offset, and what is left in every place. The argument is document 01's example, which is graded and asked about. Ends
   with 0 where all is as the header says; what is not is said on standard error. */
#include <inttypes.h>
#include <math.h>
#include <stdio.h>
#include <string.h>

#include "dispatch_bench.h"

#define PLACES 9
#define KEPT_OFFSET UINT64_C(0xa5a5a5a5a5a5)
#define BYTES (DISPATCH_BENCH_WEIGHT_BITS / 8)

/* What stands in a place before it is lent: a NaN that no answer is. */
#define KEPT_PLACE UINT64_C(0x7ff4deadbeefdead)

static uint8_t store[300 * BYTES];
static size_t length;
static int wrong;

static void add(unsigned setting, uint32_t start, unsigned issue, double value) {
    uint64_t bits;
    memcpy(&bits, &value, sizeof bits);
    uint8_t *at = store + length;
    at[0] = (uint8_t)setting;
    for (int k = 0; k < 4; k++) {
        at[1 + k] = (uint8_t)(start >> (24 - 8 * k));
    }
    at[5] = (uint8_t)(issue >> 8);
    at[6] = (uint8_t)issue;
    for (int k = 0; k < 8; k++) {
        at[7 + k] = (uint8_t)(bits >> (56 - 8 * k));
    }
    length += BYTES;
}

/* A record for each slot, from day 100 on: 0.5, 1.5, on to 5.5. */
static void begin(void) {
    length = 0;
    for (unsigned slot = 0; slot < 6; slot++) {
        add(slot, 100, 0, slot + 0.5);
    }
}

static void say(const char *name, const char *what) {
    fprintf(stderr, "%s: %s\n", name, what);
    wrong++;
}

/* So many bits at the front are the wanted ones, every further place and the store are as before. */
static void left(const char *name, const uint64_t *places, const uint64_t *wanted, size_t written, const uint8_t *before) {
    for (size_t i = 0; i < PLACES; i++) {
        if (places[i] != (i < written ? wanted[i] : KEPT_PLACE)) {
            say(name, i < written ? "another weight" : "a place is written that is not the answer's");
        }
    }
    if (memcmp(store, before, sizeof store) != 0) {
        say(name, "the store is written");
    }
}

/* The call with so many places, of which PLACES stand there: the number, the offset, and the six weights where it is 0. */
static void ask(const char *name, uint32_t day, size_t lent, uint32_t number, uint64_t offset, const double *weights) {
    static uint8_t before[sizeof store];
    double places[PLACES];
    uint64_t bits[PLACES], wanted[6] = {0}, found = KEPT_OFFSET;
    for (size_t i = 0; i < PLACES; i++) {
        bits[i] = KEPT_PLACE;
    }
    memcpy(places, bits, sizeof places);
    memcpy(before, store, sizeof store);
    uint32_t answer = dispatch_bench_weights(store, length, day, places, lent, &found);
    memcpy(bits, places, sizeof bits);
    if (weights != NULL) {
        memcpy(wanted, weights, sizeof wanted);
    }
    if (answer != number || found != offset) {
        fprintf(stderr, "%s: answers %" PRIu32 " at %" PRIu64 ", and not %" PRIu32 " at %" PRIu64 "\n", name, answer, found, number, offset);
        wrong++;
    }
    left(name, bits, wanted, number == 0 ? 6 : 0, before);
}

static void weights_are_given(void) {
    const double six[] = {0.5, 1.5, 2.5, 3.5, 4.5, 5.5}, corrected[] = {0.5, 1.5, 7, 3.5, 4.5, 5.5}, later[] = {0.5, 1.5, 8, 3.5, 4.5, -0.0};
    begin();
    ask("six", 100, 6, DISPATCH_BENCH_ACCEPTED, KEPT_OFFSET, six);
    ask("more places", 100, PLACES, DISPATCH_BENCH_ACCEPTED, KEPT_OFFSET, six);
    ask("the last day", UINT32_MAX, 6, DISPATCH_BENCH_ACCEPTED, KEPT_OFFSET, six);
    add(2, 100, 1, 7);
    add(2, 101, 0, 8);
    add(5, 101, 0, -0.0);
    ask("corrected", 100, 6, DISPATCH_BENCH_ACCEPTED, KEPT_OFFSET, corrected);
    ask("a later start, minus zero", 101, 6, DISPATCH_BENCH_ACCEPTED, KEPT_OFFSET, later);
    add(2, 101, 0, 8);
    add(5, 101, 0, -0.0);
    ask("repeated", 101, 6, DISPATCH_BENCH_ACCEPTED, KEPT_OFFSET, later);
}

static void refusals_write_nothing(void) {
    begin();
    ask("no place", 100, 0, DISPATCH_BENCH_SHORT_BUFFER, 0, NULL);
    ask("five places", 100, 5, DISPATCH_BENCH_SHORT_BUFFER, 0, NULL);
    ask("too early", 99, 6, DISPATCH_BENCH_NO_WEIGHT, 0, NULL);
    length -= 1;
    ask("cut short", 100, 6, DISPATCH_BENCH_PAST_END, 5 * DISPATCH_BENCH_WEIGHT_BITS, NULL);
    ask("five places for a store cut short", 100, 5, DISPATCH_BENCH_SHORT_BUFFER, 0, NULL);
    length -= BYTES - 1;
    ask("no record for slot 5", 100, 6, DISPATCH_BENCH_NO_WEIGHT, 5, NULL);
    length = 0;
    ask("empty", 100, 6, DISPATCH_BENCH_NO_WEIGHT, 0, NULL);
    begin();
    add(6, 100, 0, 1);
    ask("setting 6", 100, 6, DISPATCH_BENCH_UNUSED_BITS, 6 * DISPATCH_BENCH_WEIGHT_BITS, NULL);
    const double outside[] = {-1, NAN, INFINITY, nextafter(1e9, 2e9), -nextafter(0, 1)};
    for (size_t i = 0; i < sizeof outside / sizeof outside[0]; i++) {
        begin();
        add(0, 200, 0, outside[i]);
        ask("a value outside", 100, 6, DISPATCH_BENCH_DOUBLE, 6 * DISPATCH_BENCH_WEIGHT_BITS, NULL);
    }
    begin();
    add(3, 100, 0, 4.5);
    ask("two values", 100, 6, DISPATCH_BENCH_TWO_VALUES, 6 * DISPATCH_BENCH_WEIGHT_BITS, NULL);
    ask("two values, too early", 99, 6, DISPATCH_BENCH_TWO_VALUES, 6 * DISPATCH_BENCH_WEIGHT_BITS, NULL);
    begin();
    add(3, 101, 0, 0);
    add(3, 101, 0, -0.0);
    ask("zero and minus zero", 100, 6, DISPATCH_BENCH_TWO_VALUES, 7 * DISPATCH_BENCH_WEIGHT_BITS, NULL);
}

static void a_full_store(void) {
    const double six[] = {250, 1.5, 2.5, 3.5, 4.5, 5.5};
    begin();
    for (unsigned i = 1; i <= 250; i++) {
        add(0, 100, i, i);
    }
    ask("256 records", 100, 6, DISPATCH_BENCH_ACCEPTED, KEPT_OFFSET, six);
    add(0, 100, 251, 1);
    ask("257 records", 100, 6, DISPATCH_BENCH_TABLE_FULL, 256 * DISPATCH_BENCH_WEIGHT_BITS, NULL);
    if (length != DISPATCH_BENCH_MOST_STORE_BYTES) {
        say("257 records", "not DISPATCH_BENCH_MOST_STORE_BYTES");
    }
    length -= 14;
    ask("the 257th cut short", 100, 6, DISPATCH_BENCH_PAST_END, 256 * DISPATCH_BENCH_WEIGHT_BITS, NULL);
}

#define KEPT_CELL UINT64_C(0xdeadbeefdeadbeef)
#define KEPT_LEAST 7u
#define LENT (DISPATCH_BENCH_CELLS + 2)

static uint8_t sheet[1024];
static size_t sheet_length;

/* What a site sends; two of each are as many as the example has cars and columns. */
struct sent {
    size_t columns, car_prices, column_prices;
    uint32_t column[3];
    int64_t car_price[3], column_price[3];
};

static const struct sent shown = {2, 2, 2, {0, 1, 0}, {10000000, 5000000, 0}, {0, -5000000, 0}};

/* The call with so many bytes of the sheet and so many cells: the number, the offset, and the grade where it is 0. */
static void grade(const char *name, const struct sent *s, size_t bytes, size_t lent, uint32_t number, uint64_t wanted, uint32_t grade) {
    static const uint64_t cells[] = {10000000, 20000000, 10000000, 0};
    uint64_t matrix[LENT], found = KEPT_OFFSET;
    uint32_t least = KEPT_LEAST;
    size_t written = number == 0 ? sizeof cells / sizeof cells[0] : 0;
    for (size_t i = 0; i < LENT; i++) {
        matrix[i] = KEPT_CELL;
    }
    uint32_t answer = dispatch_bench_grade(sheet, bytes, s->column, s->columns, s->car_price, s->car_prices, s->column_price, s->column_prices,
                                           matrix, lent, &least, &found);
    if (answer != number || found != wanted || least != (number == 0 ? grade : KEPT_LEAST)) {
        fprintf(stderr, "%s: answers %" PRIu32 " at %" PRIu64 ", least %" PRIu32 "\n", name, answer, found, least);
        wrong++;
    }
    for (size_t i = 0; i < LENT; i++) {
        if (matrix[i] != (i < written ? cells[i] : KEPT_CELL)) {
            say(name, i < written ? "another cell" : "a cell is written that is not the answer's");
        }
    }
}

static void grades_are_given(void) {
    struct sent s = shown;
    grade("shown", &s, sheet_length, LENT, DISPATCH_BENCH_ACCEPTED, KEPT_OFFSET, 1);
    grade("the least matrix", &s, sheet_length, DISPATCH_BENCH_CELLS, DISPATCH_BENCH_ACCEPTED, KEPT_OFFSET, 1);
    s.car_price[1]--;
    grade("a price too low", &s, sheet_length, LENT, DISPATCH_BENCH_ACCEPTED, KEPT_OFFSET, 0);
    s = shown;
    s.column[0] = 1;
    s.column[1] = 0;
    grade("exchanged", &s, sheet_length, LENT, DISPATCH_BENCH_ACCEPTED, KEPT_OFFSET, 0);
    s = shown;
    s.car_price[0] = DISPATCH_BENCH_MOST_PRICE;
    s.column_price[0] = -DISPATCH_BENCH_MOST_PRICE;
    grade("the ends of the range", &s, sheet_length, LENT, DISPATCH_BENCH_ACCEPTED, KEPT_OFFSET, 0);
}

static void grades_are_refused(void) {
    struct sent s = shown;
    grade("a short matrix", &s, sheet_length, DISPATCH_BENCH_CELLS - 1, DISPATCH_BENCH_SHORT_BUFFER, 0, 0);
    grade("a short matrix for no sheet", &s, 0, 0, DISPATCH_BENCH_SHORT_BUFFER, 0, 0);
    grade("no sheet", &s, 0, LENT, DISPATCH_BENCH_PAST_END, 0, 0);
    s.columns = 1;
    s.column_prices = 3;
    grade("no sheet, few columns, many prices", &s, 0, LENT, DISPATCH_BENCH_PAST_END, 0, 0);
    grade("few columns, many prices", &s, sheet_length, LENT, DISPATCH_BENCH_COLUMNS, 0, 0);
    s.columns = 3;
    grade("many columns", &s, sheet_length, LENT, DISPATCH_BENCH_COLUMNS, 0, 0);
    s.columns = 2;
    grade("many prices", &s, sheet_length, LENT, DISPATCH_BENCH_PRICES, 0, 0);
    s = shown;
    s.column[0] = 2;
    grade("a column outside", &s, sheet_length, LENT, DISPATCH_BENCH_COLUMNS, 0, 0);
    s.column[0] = 1;
    grade("a column twice", &s, sheet_length, LENT, DISPATCH_BENCH_COLUMNS, 0, 0);
    s = shown;
    s.car_prices = 1;
    grade("few prices of cars", &s, sheet_length, LENT, DISPATCH_BENCH_PRICES, 0, 0);
    s = shown;
    s.column_price[1] = -DISPATCH_BENCH_MOST_PRICE - 1;
    grade("a price beyond", &s, sheet_length, LENT, DISPATCH_BENCH_PRICES, 0, 0);
    s = shown;
    s.car_price[0] = INT64_MAX;
    grade("the largest number", &s, sheet_length, LENT, DISPATCH_BENCH_PRICES, 0, 0);
    s.car_price[0] = INT64_MIN;
    grade("the least number", &s, sheet_length, LENT, DISPATCH_BENCH_PRICES, 0, 0);
}

#define KEPT_REASON UINT32_C(0xdeadbeef)

/* The call with so many places, of which PLACES stand there: the number and its offset, or the reason, and the eight terms where it is 0. */
static void why(const char *name, size_t bytes, uint32_t car, uint32_t stop, size_t lent, uint32_t number, uint64_t offset, uint32_t reason,
                const double *terms) {
    static uint8_t before[sizeof sheet];
    double places[PLACES];
    uint64_t bits[PLACES], wanted[PLACES], found = KEPT_OFFSET;
    uint32_t told = KEPT_REASON;
    for (size_t i = 0; i < PLACES; i++) {
        bits[i] = KEPT_PLACE;
    }
    memcpy(places, bits, sizeof places);
    memcpy(wanted, bits, sizeof wanted);
    memcpy(before, sheet, sizeof sheet);
    uint32_t answer = dispatch_bench_why(sheet, bytes, car, stop, places, lent, &told, &found);
    memcpy(bits, places, sizeof bits);
    if (terms != NULL) {
        memcpy(wanted, terms, DISPATCH_BENCH_TERMS * sizeof *terms);
    }
    if (answer != number || found != offset || told != reason) {
        fprintf(stderr, "%s: answers %" PRIu32 " at %" PRIu64 ", reason %" PRIu32 "\n", name, answer, found, told);
        wrong++;
    }
    if (memcmp(bits, wanted, sizeof bits) != 0) {
        say(name, "another term, or a place is written that is not the answer's");
    }
    if (memcmp(sheet, before, sizeof sheet) != 0) {
        say(name, "the sheet is written");
    }
}

static void pairs_are_explained(void) {
    const double distance[DISPATCH_BENCH_TERMS] = {10, 0, 0, 0, 0, 0, 0, 10};
    const size_t all = sheet_length;
    why("a rank", all, 7, 2, 8, DISPATCH_BENCH_ACCEPTED, KEPT_OFFSET, DISPATCH_BENCH_RANKED, distance);
    why("a rank, more places", all, 7, 2, PLACES, DISPATCH_BENCH_ACCEPTED, KEPT_OFFSET, DISPATCH_BENCH_RANKED, distance);
    why("no such car", all, 9, 2, 8, DISPATCH_BENCH_ACCEPTED, KEPT_OFFSET, DISPATCH_BENCH_NO_CAR, NULL);
    why("no such car and stop", all, 0, 0, 8, DISPATCH_BENCH_ACCEPTED, KEPT_OFFSET, DISPATCH_BENCH_NO_CAR, NULL);
    why("no such stop", all, 7, UINT32_MAX, 8, DISPATCH_BENCH_ACCEPTED, KEPT_OFFSET, DISPATCH_BENCH_NO_STOP, NULL);
    why("not pending", all, 7, 1, 8, DISPATCH_BENCH_ACCEPTED, KEPT_OFFSET, DISPATCH_BENCH_NOT_PENDING, NULL);
    why("no place for terms", all, 7, 2, 0, DISPATCH_BENCH_SHORT_BUFFER, 0, KEPT_REASON, NULL);
    why("seven places", all, 7, 2, 7, DISPATCH_BENCH_SHORT_BUFFER, 0, KEPT_REASON, NULL);
    why("seven places for no sheet", 0, 7, 2, 7, DISPATCH_BENCH_SHORT_BUFFER, 0, KEPT_REASON, NULL);
    why("no sheet", 0, 7, 2, 8, DISPATCH_BENCH_PAST_END, 0, KEPT_REASON, NULL);
    why("a policy cut short", 40, 7, 2, 8, DISPATCH_BENCH_PAST_END, 24, KEPT_REASON, NULL);
}

/* The call: the number, and the time's bits where it is 0. */
static void run(const char *name, const double *in, uint32_t number, uint64_t wanted) {
    double time;
    uint64_t bits = KEPT_PLACE;
    memcpy(&time, &bits, sizeof time);
    uint32_t answer = dispatch_bench_travel_time(in[0], in[1], in[2], in[3], in[4], &time);
    memcpy(&bits, &time, sizeof bits);
    if (answer != number || bits != (number == 0 ? wanted : KEPT_PLACE)) {
        fprintf(stderr, "%s: answers %" PRIu32 ", time 0x%016" PRIx64 "\n", name, answer, bits);
        wrong++;
    }
}

static void times_are_given(void) {
    run("a cruise", (double[]){12, 0, 2.5, 1, 1.2}, DISPATCH_BENCH_ACCEPTED, UINT64_C(0x401c5dddddddddde));
    run("no cruise", (double[]){3, 0, 2.5, 1, 1.2}, DISPATCH_BENCH_ACCEPTED, UINT64_C(0x400a887293fd6f34));
    run("braking", (double[]){0.140625, 1.54, 2.5, 1, 2.6}, DISPATCH_BENCH_ACCEPTED, UINT64_C(0x3fb98667dc93ce0c));
    run("nowhere", (double[]){-0.0, 1, 2.5, 1, 1.2}, DISPATCH_BENCH_ACCEPTED, 0);
    run("below zero", (double[]){5e-324, 1e-200, 1, DISPATCH_BENCH_LEAST_RATE, 1}, DISPATCH_BENCH_ACCEPTED, UINT64_C(0x97087e92154ef7ac));
}

static void times_are_refused(void) {
    for (int place = 0; place < 5; place++) {
        double in[] = {12, 0, 2.5, 1, 1.2};
        in[place] = nextafter(DISPATCH_BENCH_MOST_INPUT, INFINITY);
        run("one step too large", in, DISPATCH_BENCH_OUTSIDE, 0);
        in[place] = -in[place];
        run("one step too far below zero", in, DISPATCH_BENCH_OUTSIDE, 0);
        in[place] = NAN;
        run("no number", in, DISPATCH_BENCH_OUTSIDE, 0);
        in[place] = nextafter(DISPATCH_BENCH_LEAST_RATE, 0);
        if (place >= 2) {
            run("one step below the least rate", in, DISPATCH_BENCH_OUTSIDE, 0);
        }
    }
}

#define KEPT_COLUMN UINT32_C(0xdeadbeef)
#define KEPT_TOTAL UINT64_C(0xa5a5a5a5a5a5a5)

/* The call with so many places, of which 6 stand there: the number, the columns and the total where it is 0, and what else stands there. */
static void choose_plain(const char *name, const size_t *shape, const uint64_t *cells, size_t places, uint32_t number, const uint32_t *columns,
                         uint64_t total) {
    uint32_t chosen[6];
    uint64_t found = KEPT_TOTAL;
    for (size_t i = 0; i < 6; i++) {
        chosen[i] = KEPT_COLUMN;
    }
    uint32_t answer = dispatch_bench_choose_plain(shape[0], shape[1], cells, shape[2], chosen, places, &found);
    if (answer != number || found != (number == 0 ? total : KEPT_TOTAL)) {
        fprintf(stderr, "%s: answers %" PRIu32 ", total %" PRIu64 "\n", name, answer, found);
        wrong++;
    }
    for (size_t i = 0; i < 6; i++) {
        if (chosen[i] != (number == 0 && i < shape[0] ? columns[i] : KEPT_COLUMN)) {
            say(name, "another column, or a place is written that is not the answer's");
        }
    }
}

static void small_matrices(void) {
    const uint64_t top = DISPATCH_BENCH_CEILING, none = DISPATCH_BENCH_SENTINEL;
    const uint64_t worked[] = {4, 1, 3, 2, 0, 5, 3, 2, 2}, equal[] = {1, top, 2, none}, above[] = {0, none + 1}, zeros[30] = {0};
    choose_plain("worked", (size_t[]){3, 3, 9}, worked, 4, DISPATCH_BENCH_ACCEPTED, (uint32_t[]){1, 0, 2}, 5);
    choose_plain("more places", (size_t[]){3, 3, 9}, worked, 6, DISPATCH_BENCH_ACCEPTED, (uint32_t[]){1, 0, 2}, 5);
    choose_plain("both are sent", (size_t[]){2, 2, 4}, equal, 4, DISPATCH_BENCH_ACCEPTED, (uint32_t[]){1, 0}, top + 2);
    choose_plain("the largest", (size_t[]){4, 5, 20}, zeros, 4, DISPATCH_BENCH_ACCEPTED, (uint32_t[]){0, 1, 2, 3}, 0);
    choose_plain("no car", (size_t[]){0, 5, 0}, zeros, 4, DISPATCH_BENCH_ACCEPTED, NULL, 0);
    choose_plain("three places for one car", (size_t[]){1, 1, 1}, zeros, 3, DISPATCH_BENCH_SHORT_BUFFER, NULL, 0);
    choose_plain("three places for too many", (size_t[]){5, 5, 25}, zeros, 3, DISPATCH_BENCH_SHORT_BUFFER, NULL, 0);
    choose_plain("five cars", (size_t[]){5, 5, 25}, zeros, 5, DISPATCH_BENCH_NOT_SMALL, NULL, 0);
    choose_plain("six columns", (size_t[]){4, 6, 24}, zeros, 4, DISPATCH_BENCH_NOT_SMALL, NULL, 0);
    choose_plain("fewer columns than cars", (size_t[]){3, 2, 6}, zeros, 4, DISPATCH_BENCH_NOT_SMALL, NULL, 0);
    choose_plain("a cell too few", (size_t[]){3, 3, 8}, worked, 4, DISPATCH_BENCH_NOT_SMALL, NULL, 0);
    choose_plain("a cell too many", (size_t[]){2, 4, 9}, worked, 4, DISPATCH_BENCH_NOT_SMALL, NULL, 0);
    choose_plain("a cell above", (size_t[]){1, 2, 2}, above, 4, DISPATCH_BENCH_NOT_SMALL, NULL, 0);
}

int main(int count, char **words) {
    FILE *file = count == 2 ? fopen(words[1], "rb") : NULL;
    if (file == NULL) {
        fprintf(stderr, "usage: hosts SHEET, document 01's example\n");
        return 2;
    }
    sheet_length = fread(sheet, 1, sizeof sheet, file);
    fclose(file);
    weights_are_given();
    refusals_write_nothing();
    a_full_store();
    grades_are_given();
    grades_are_refused();
    pairs_are_explained();
    times_are_given();
    times_are_refused();
    small_matrices();
    return wrong != 0;
}
