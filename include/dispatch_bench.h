/* The dispatch bench, for hosts in C. `tools/library` puts the library into target/staticlib, `make install` installs it. What the numbers stand for
   in sentences is in dispatch_bench_sentences.h.

   There is no state but what a host lends, nothing is allocated, and any number of threads may call at once. Every pointer must be valid for its
   length. One with length 0 may be null, and no other: null with a length above 0, or null for a number that is answered, is read or written as any
   address is, and nothing tests it. No two of one call may overlap. */
#ifndef DISPATCH_BENCH_H
#define DISPATCH_BENCH_H

#include <stddef.h>
#include <stdint.h>

#ifdef __cplusplus
extern "C" {
#endif

/* The number of this interface. It rises where a call or a number of this header changes its meaning.
     2   dispatch_bench_pass has the parameter held, between ranked and offset (document 02, F-5)
     1   the first release, and later ones whose dispatch_bench_pass has no held */
#define DISPATCH_BENCH_VERSION 2

/* A host that was written for one number says so before it includes this header, and is not compiled with another: #define DISPATCH_BENCH_WANTED 2 */
#if defined(DISPATCH_BENCH_WANTED) && DISPATCH_BENCH_WANTED != DISPATCH_BENCH_VERSION
#error "dispatch_bench.h has another interface than DISPATCH_BENCH_WANTED"
#endif

/* The number of the library's interface: DISPATCH_BENCH_VERSION of the header that it was built with. Every library has this function, the first
   release's too. Ask before the first pass: a library of interface 1 takes held for its offset, so a refusal's offset stands in *held, *offset keeps
   its contents, and no pass writes *held. */
uint32_t dispatch_bench_version(void);

/* Reads a sheet. 0: accepted, and *offset keeps its contents. Otherwise the refusal's number, 2 to 14 or 16, and in *offset the bit offset where the
   refused record starts (docs/manual/desk.md). Every byte string has an answer; bytes past the first 65,536 change none. */
uint32_t dispatch_bench_read(const uint8_t *sheet, size_t length, uint64_t *offset);

/* The choice of one column a car with the least total; among these most cars sent, each to a column whose cell is below DISPATCH_BENCH_SENTINEL;
   among these the lowest column for the first car, then the second, on. Cells stand row by row. 1: the columns stand first in chosen, and *total is
   their total. 0, and nothing is written: more than 32 cars or 64 columns, fewer columns than cars, cell_count not cars * columns, a cell above
   DISPATCH_BENCH_SENTINEL, or fewer places than cars. */
uint32_t dispatch_bench_choose(size_t cars, size_t columns, const uint64_t *cells, size_t cell_count, uint32_t *chosen, size_t places,
                               uint64_t *total);

/* The same choice of a small matrix, of at most DISPATCH_BENCH_PLAIN_CARS cars and DISPATCH_BENCH_PLAIN_COLUMNS columns, by the plain matcher, which
   gives the first car each free column and passes the remaining cars to itself. 0: the columns stand first in chosen, what stands past them is left,
   and *total is their total; dispatch_bench_choose answers the same. Otherwise, and nothing is written:
     1         fewer than DISPATCH_BENCH_PLAIN_CARS places are lent, however many cars there are
     22        more cars or columns, fewer columns than cars, cell_count not cars * columns, or a cell above DISPATCH_BENCH_SENTINEL
   They are tested in this order. */
uint32_t dispatch_bench_choose_plain(size_t cars, size_t columns, const uint64_t *cells, size_t cell_count, uint32_t *chosen, size_t places,
                                     uint64_t *total);

/* The refusals, by the numbers of documents 01 and 02. Those of a store of weights are 1, 2, 7, 8, 11, 17 and 18; 19 and 20 are given by
   dispatch_bench_grade alone, 21 by dispatch_bench_travel_time alone, 22 by dispatch_bench_choose_plain alone. The writer answers 1, 2, 3, 6, 7 and
   8, of what it was asked to write. */
enum dispatch_bench_refusal {
    DISPATCH_BENCH_ACCEPTED = 0,
    DISPATCH_BENCH_SHORT_BUFFER = 1,    /* a lent buffer is too short (dispatch_bench_pass, _pending, _why, _weights, _grade, _choose_plain) */
    DISPATCH_BENCH_PAST_END = 2,        /* what is stated passes the last byte */
    DISPATCH_BENCH_EDITION = 3,         /* an edition that is not 1 or 2 */
    DISPATCH_BENCH_UNKNOWN_KIND = 4,    /* a kind that is not 1 to 8 */
    DISPATCH_BENCH_BODY_LENGTH = 5,     /* a body of another length than its kind's in this edition */
    DISPATCH_BENCH_OUT_OF_ORDER = 6,    /* kinds that fall, or a first record that is no policy */
    DISPATCH_BENCH_TABLE_FULL = 7,      /* more records of a kind than there may be */
    DISPATCH_BENCH_UNUSED_BITS = 8,     /* bits where there must be none, or an unknown code */
    DISPATCH_BENCH_ID = 9,              /* an id that is 0, repeated or out of order */
    DISPATCH_BENCH_UNKNOWN_ID = 10,     /* an id or a mask bit without a record */
    DISPATCH_BENCH_DOUBLE = 11,         /* a double outside its range */
    DISPATCH_BENCH_LIMIT = 12,          /* a candidate limit of 0 */
    DISPATCH_BENCH_TICKS = 13,          /* door ticks that pass 32 bits */
    DISPATCH_BENCH_WAIT = 14,           /* wait ticks above 2^53 */
    DISPATCH_BENCH_LOAD_WEIGHT = 15,    /* not given any more: RSR with a load weight above 0, which the first release refused */
    DISPATCH_BENCH_TAIL = 16,           /* what follows the last record */
    DISPATCH_BENCH_TWO_VALUES = 17,     /* records of a store that agree in setting, start day and issue, but not in value */
    DISPATCH_BENCH_NO_WEIGHT = 18,      /* a slot without a record for the day */
    DISPATCH_BENCH_COLUMNS = 19,        /* not one column for each idle car, or one that repeats or lies outside the matrix */
    DISPATCH_BENCH_PRICES = 20,         /* not one price for each car and column, or one beyond DISPATCH_BENCH_MOST_PRICE either way */
    DISPATCH_BENCH_OUTSIDE = 21,        /* an input of a travel time outside of its domain */
    DISPATCH_BENCH_NOT_SMALL = 22       /* a matrix that the plain matcher does not take */
};

/* The least lengths of the buffers that a pass is lent; a grader is lent a matrix alone. */
#define DISPATCH_BENCH_DECISIONS 32
#define DISPATCH_BENCH_CELLS 2048
#define DISPATCH_BENCH_SWEEPS 32

/* The least places for the pending stops. */
#define DISPATCH_BENCH_STOPS 64

/* The terms of a pair's cost, and so the least places for them. */
#define DISPATCH_BENCH_TERMS 8

/* The weights of a policy, and so the least places for them. */
#define DISPATCH_BENCH_WEIGHTS 6

/* The bits of a record of a store of weights: an offset divided by them is the record's number, from 0. */
#define DISPATCH_BENCH_WEIGHT_BITS 120

/* The most cars of a matrix for the plain matcher, and so the least places for its columns; and the most columns. */
#define DISPATCH_BENCH_PLAIN_CARS 4
#define DISPATCH_BENCH_PLAIN_COLUMNS 5

/* The cell of a pair without a rank, and the largest cell. */
#define DISPATCH_BENCH_SENTINEL UINT64_C(281474976710656)

/* The ceiling, the largest cell of a pair with a rank: a cost that rounds to more is held down to it. */
#define DISPATCH_BENCH_CEILING UINT64_C(281474976710655)

/* The largest price of a car or a column that a grader takes, and as far below zero the least: no sum of two prices wraps. */
#define DISPATCH_BENCH_MOST_PRICE INT64_C(18014398509481984)

/* The largest size of an input of a travel time, and the least top speed and rate that is above zero. */
#define DISPATCH_BENCH_MOST_INPUT 1000000.0
#define DISPATCH_BENCH_LEAST_RATE 0.0009765625

/* Bytes of a sheet past these change no answer; an accepted one has at most 26,515, of edition 2 at most 27,283. */
#define DISPATCH_BENCH_MOST_BYTES 65536

/* Bytes of a store of weights past these change no answer: 257 records. */
#define DISPATCH_BENCH_MOST_STORE_BYTES 3855

/* The numbers of a writer's state. */
#define DISPATCH_BENCH_STATE 9

/* The bytes of the longest sheet that is accepted, and of the longest store: a writer that is lent as many never lacks room for one of them. */
#define DISPATCH_BENCH_SHEET_BYTES 27283
#define DISPATCH_BENCH_STORE_BYTES 3840

/* A pass over a sheet. 0: *cars idle cars, *stops pending stops, *total the least total; in decisions the stop id of each idle car in record order (0
   for idle), in matrix the cells row by row, a row of max(*cars, *stops) columns for each idle car, in sweeps 2 * sweep + mode of each car record;
   what stands past these is left, and so is *offset. *ranked is the number of pairs ranked: for each idle car the smaller of the sheet's limit and
   its viable stops, summed. *held is the number of cells that were held down to DISPATCH_BENCH_CEILING. Otherwise the refusal's number, 1 to 14 or
   16, with the bit offset where the refused record starts in *offset (0 for 1); nothing else is written.

   A cell is the cost times 1,000,000, rounded, or DISPATCH_BENCH_SENTINEL where there is no rank, and in spare columns. Where it rounds to more than
   the ceiling, the cell is the ceiling, and counts in *held; one that rounds to the ceiling itself does not. Two cells at the ceiling look alike, but
   where *held is above 0 nothing says that their costs are equal. The first *stops columns are the pending stops by rising id, which
   dispatch_bench_pending gives. *total is the sum of a cell for each idle car: that of the stop where it is sent, or the sentinel where it stays
   idle. Which car a decision is for is read off the sheet: decision k is that of the k-th car record whose bit 154, counted from 0 where the record
   starts, is set (idle-listed); its id is the 32 bits from bit 22 on, in both editions (docs/manual/format.md; examples/c/pass.c does it). */
uint32_t dispatch_bench_pass(const uint8_t *sheet, size_t length, uint32_t *decisions, size_t decision_count, uint64_t *matrix, size_t cell_count,
                             uint8_t *sweeps, size_t sweep_count, uint64_t *cars, uint64_t *stops, uint64_t *total, uint64_t *ranked, uint64_t *held,
                             uint64_t *offset);

/* The pending stops of a sheet. 0: *count of them, as many as *stops of a pass, and their ids in column order, which rise, first in stops; what
   stands past these is left, and so is *offset. A stop whose landing is closed (kind 8) is never among them, and no pass sends a car there. Otherwise
   the refusal's number with the bit offset where the refused record starts in *offset, and nothing else is written: 1 at 0 where fewer than
   DISPATCH_BENCH_STOPS places are lent, else what dispatch_bench_read answers. */
uint32_t dispatch_bench_pending(const uint8_t *sheet, size_t length, uint32_t *stops, size_t places, uint64_t *count, uint64_t *offset);

/* Why a pair of a car and a stop has no rank, the first that holds in the order in which a pass asks. */
enum dispatch_bench_reason {
    DISPATCH_BENCH_RANKED = 0,          /* it has one */
    DISPATCH_BENCH_NO_CAR = 1,          /* the sheet has no car with this id */
    DISPATCH_BENCH_NO_STOP = 2,         /* the sheet has no stop with this id */
    DISPATCH_BENCH_NOT_LISTED = 3,      /* the car is not idle-listed */
    DISPATCH_BENCH_NOT_PENDING = 4,     /* the stop is not pending */
    DISPATCH_BENCH_OFF_LINE = 5,        /* the car's line does not serve the stop */
    DISPATCH_BENCH_BARRED = 6,          /* the stop is barred to the car */
    DISPATCH_BENCH_CUT = 7,             /* the candidate limit cuts it */
    DISPATCH_BENCH_PASSED_BY = 8,       /* the car moves, is loaded to the threshold of its direction, and the stop lies ahead */
    DISPATCH_BENCH_FULL = 9,            /* the car is full */
    DISPATCH_BENCH_NOBODY = 10,         /* nobody who waits can board (weight, dark lamp), or nobody waits and no hall call is without a rider */
    DISPATCH_BENCH_OFF_PATH = 11,       /* the stop is off the path of the riders aboard (RSR alone) */
    DISPATCH_BENCH_NO_RANK = 12         /* no rank all the same: the car's speed is 0 (ETD, RSR), or the stop is behind the sweep (SCAN) */
};

/* Why the car with one id costs what it does for the stop with another, or has no rank. 0: *reason is the reason; where it is DISPATCH_BENCH_RANKED
   the eight terms stand first in terms, what stands past them is left, and with any other reason all of terms is; *offset keeps its contents.
   Otherwise the refusal's number with the bit offset where the refused record starts in *offset, and nothing else is written: 1 at 0 where fewer than
   DISPATCH_BENCH_TERMS places are lent, else what dispatch_bench_read answers.

   The last term is the cost; times 1,000,000, rounded and held to the ceiling it is the cell that dispatch_bench_pass leaves. The terms by strategy:
     ETD   seconds of travel; seconds that riders aboard lose, summed; seconds of halts at demand stops on the way; the bonus for direction, 0 or
           below; their sum by the weights, at least 0; the squares of the ticks waited at the stop, summed; the ticks waited there, summed; the cost
     RSR   seconds of travel; the cost of these; after the wrong direction; after the car call; after the load; the ticks waited at the stop, summed;
           the cost after these; the cost, at least 0
     SCAN  the distance; six zeros; the cost, which is the distance */
uint32_t dispatch_bench_why(const uint8_t *sheet, size_t length, uint32_t car, uint32_t stop, double *terms, size_t places, uint32_t *reason,
                            uint64_t *offset);

/* The weights of a store for a day. A store is up to 256 records of 15 bytes, most significant bit first: setting 8 bits (0 to 5, the weight slots),
   start day 32, issue 16, value 64 (an IEEE double). Each slot takes the record with the latest start not after the day, and of these the highest
   issue. 0: the six values in slot order stand first in weights, with the bits that the store has; what stands past these is left, and so is *offset.
   Otherwise the refusal's number, and nothing else is written but *offset:
     1         0: fewer than DISPATCH_BENCH_WEIGHTS places are lent
     2         the bit offset of the record that is cut short
     7         that of the 257th record
     8         that of a record whose setting is above 5
     11        that of a record whose value is outside of 0 to 1,000,000,000, or a NaN
     17        that of the first record that agrees with an earlier one in setting, start day and issue, but not in all 64 bits of the value
     18        not an offset, but the lowest slot that has no record for the day
   Records are tested in their order, and each by rising number up to 11; then 17 over the whole store, then 18. A policy record takes the six; those
   that its strategy leaves unused stay zero there. */
uint32_t dispatch_bench_weights(const uint8_t *store, size_t length, uint32_t day, double *weights, size_t places, uint64_t *offset);

/* Grades a site's choice by the site's own prices. Of a sheet with n idle cars and m pending stops the matrix has w = max(n, m) columns. Sent are the
   column of each idle car in record order, from 0, a price for each of these cars, and a price for each of the w columns. 0: the matrix is filled as
   dispatch_bench_pass fills it, what stands past n * w cells is left, and so is *offset; *least is 1, "least", where
     - the price of a car plus the price of a column never exceeds their cell,
     - and equals it where that column was chosen for that car;
     - column prices are zero or less, and zero on columns nobody took;
   and 0, "not shown", otherwise. A choice that is called least has the least total, whoever supplied the prices; where several have it, it need not
   be that of dispatch_bench_pass. One that is not shown may be least all the same: for each least choice there are prices that show it. Otherwise the
   refusal's number, and nothing else is written but *offset:
     1         0: cell_count is below DISPATCH_BENCH_CELLS
     2 to 16   what dispatch_bench_read answers
     19        0: column_count is not n, or a column is w or more, or repeats
     20        0: car_price_count is not n, column_price_count is not w, or a price is beyond DISPATCH_BENCH_MOST_PRICE either way
   They are tested in this order. With no idle car no column is wanted, no car price, and m column prices. */
uint32_t dispatch_bench_grade(const uint8_t *sheet, size_t length, const uint32_t *columns, size_t column_count, const int64_t *car_prices,
                              size_t car_price_count, const int64_t *column_prices, size_t column_price_count, uint64_t *matrix, size_t cell_count,
                              uint32_t *least, uint64_t *offset);

/* The seconds of a run with ramps that ends at rest: over a distance, from a starting speed, by a top speed and the rates of acceleration and
   deceleration, in units of length, of these a second, and of these a second each second; travel_time of the published eta.rs, bit for bit. 0: *time
   is the seconds, a finite double. It is 0 where the distance, the top speed or a rate is not above zero; a starting speed below zero counts as 0,
   one above the top speed as that. For a distance and a speed that are nearly zero it can come out below zero (docs/DIFFERENCES.md). 21, and nothing
   is written: an input is a NaN or beyond DISPATCH_BENCH_MOST_INPUT either way, or the top speed or a rate lies above 0 and below
   DISPATCH_BENCH_LEAST_RATE. A sheet holds no rates, so the caller supplies all five. */
uint32_t dispatch_bench_travel_time(double distance, double speed, double top, double acceleration, double deceleration, double *time);

/* The writer of sheets: dispatch_bench_start, then a put for each record, the policy first and kinds that never fall, then dispatch_bench_finish. The
   host lends the same bytes and the same state to every call of one sheet, and changes neither in between. The state is DISPATCH_BENCH_STATE numbers,
   which start fills: how long a second coordinate is, and how many records of each kind there are. So a host that keeps a copy of the state may go
   back to it, and put another record in the place of those that followed.

   A put answers 0, and the record is written behind the last one, and counted in the state; every other bit of the sheet is kept. Otherwise the
   first of these that holds, and neither the sheet nor the state is written:
     1         state_count is below DISPATCH_BENCH_STATE, or the state is none: a number of it is beyond its table
     8         a code that stands for nothing: a strategy above 2, traffic above 3, a phase above 6
     2         the bytes that are lent end before the record does
     6         the first record is no policy, or the kind is below the last one's
     7         the table of this kind is full (1 policy, 64 stops, 8 lines, 32 cars, 512 riders aboard, 512 waiting), or there are 65,535 records

   What is finished is read as exactly the records that were put. Of the refusals only 8 to 14 are left, those of a record's values, and the sheet is
   accepted exactly where none of them holds: ask dispatch_bench_read. An id of 0 stands for an optional field that is absent. A flag is set by any
   number but 0. A NaN is written with the bits of the quiet one, every other double with its own. The highest bit of a mask is the first stop. */

/* Starts a sheet of an edition, 1 or 2. 0: the head is written, and the state; what stands in the state past its numbers is left. Otherwise, and
   nothing is written: 1 where state_count is below DISPATCH_BENCH_STATE, 3 for any other edition, 2 where fewer than 3 bytes are lent, tested in this
   order. The state may hold anything before. */
uint32_t dispatch_bench_start(uint8_t *sheet, size_t length, uint32_t *state, size_t state_count, uint32_t edition);

/* The policy: strategy 0 ETD, 1 RSR, 2 SCAN; limit 65,535 for none; rate in ticks a second; traffic 0 idle, 1 up peak, 2 inter-floor, 3 down peak;
   the six weights by slot, those that the strategy leaves unused 0. */
uint32_t dispatch_bench_put_policy(uint8_t *sheet, size_t length, uint32_t *state, size_t state_count, uint32_t strategy, uint16_t limit, double rate,
                                   uint32_t traffic, double w0, double w1, double w2, double w3, double w4, double w5);

/* A stop. across is its second coordinate, which edition 1 does not hold: there it is not written. */
uint32_t dispatch_bench_put_stop(uint8_t *sheet, size_t length, uint32_t *state, size_t state_count, uint32_t id, double position, double across);

/* A line, with the mask of the stops that it serves. */
uint32_t dispatch_bench_put_line(uint8_t *sheet, size_t length, uint32_t *state, size_t state_count, uint32_t id, uint64_t serves);

/* A car: phase 0 idle, 1 moving, 2 repositioning, 3 door opening, 4 loading, 5 door closing, 6 stopped; the stop is that of phases 1 and 2, and not
   written with any other; a target of 0 is none; listed as idle; going up and going down, the lamps; sweep 0 up, 1 down; mode 0 strict, 1 lenient;
   across as of a stop; bypass_up and bypass_down, the thresholds, are written where the flag before them is set; transition and dwell in ticks, the
   doors' and those for which they stay open; the masks of the stops that are barred to the car and of its car calls. */
uint32_t dispatch_bench_put_car(uint8_t *sheet, size_t length, uint32_t *state, size_t state_count, uint32_t id, uint32_t line, uint32_t phase,
                                uint32_t stop, uint32_t target, uint32_t listed, uint32_t up, uint32_t down, uint32_t sweep, uint32_t mode,
                                double position, double across, double speed, double capacity, double load, uint32_t has_bypass_up, double bypass_up,
                                uint32_t has_bypass_down, double bypass_down, uint32_t transition, uint32_t dwell, uint64_t restricted,
                                uint64_t calls);

/* A rider in a car; a destination of 0 is none. */
uint32_t dispatch_bench_put_aboard(uint8_t *sheet, size_t length, uint32_t *state, size_t state_count, uint32_t car, uint32_t destination);

/* A rider at a stop, with the ticks waited; a line or a destination of 0 is none. */
uint32_t dispatch_bench_put_waiting(uint8_t *sheet, size_t length, uint32_t *state, size_t state_count, uint32_t stop, uint32_t line,
                                    uint32_t destination, double weight, uint64_t wait);

/* A stop's demand: its riding count, and whether a hall call there has no pending rider. */
uint32_t dispatch_bench_put_demand(uint8_t *sheet, size_t length, uint32_t *state, size_t state_count, uint32_t stop, uint16_t riding, uint32_t call);

/* A closed landing. */
uint32_t dispatch_bench_put_closed(uint8_t *sheet, size_t length, uint32_t *state, size_t state_count, uint32_t stop);

/* Finishes a sheet. 0: the head counts the records, the last byte is filled with zero bits, and the first *bytes bytes are the sheet. The state is
   not written, so more records may be put, and the sheet finished again. Otherwise, and nothing is written: 1 where the state is none, 2 where the
   bytes that are lent end before the last record. A sheet without a policy is finished too; a reader refuses it by 6. */
uint32_t dispatch_bench_finish(uint8_t *sheet, size_t length, const uint32_t *state, size_t state_count, uint64_t *bytes);

/* Writes a record of a store of weights behind *count others, which are records of 15 bytes from the store's start: a weight slot, the day from which
   it holds, the issue and the weight, a NaN with the bits of the quiet one. 0, and *count is one more; the store is its first 15 * *count bytes.
   Otherwise, and nothing is written: 2 where it has no room, 7 where there are 256, tested in this order. What a reader refuses by 8, 11, 17 or 18 is
   written: ask dispatch_bench_weights. */
uint32_t dispatch_bench_put_weight(uint8_t *store, size_t length, uint16_t *count, uint8_t setting, uint32_t start, uint16_t issue, double weight);

/* Puts one field of a sheet or of a store, whatever it is to hold: for what no put of a record writes, a single field changed in place or a code that
   stands for nothing. There is no state. 0: the width bits from bit at, the highest bit of the first byte being bit 0, are those of value, most
   significant first, and every other bit is kept; a width of 0 puts nothing. Otherwise, and nothing is written: 8 where the width is above 64 or
   value needs more bits, being 2^width or more, 2 where at + width is above 8 * length, tested in this order. */
uint32_t dispatch_bench_put_field(uint8_t *sheet, size_t length, uint32_t at, uint32_t width, uint64_t value);

#ifdef __cplusplus
}
#endif

#endif
