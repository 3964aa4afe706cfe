/* What the numbers of dispatch_bench.h stand for, in sentences (UTF-8): the table of the Rust crate, printed by its example sentences. */
#ifndef DISPATCH_BENCH_SENTENCES_H
#define DISPATCH_BENCH_SENTENCES_H

#include <stdint.h>

/* The rule of a refusal of a sheet, of what is sent with it, of a run or of a small matrix; 17 and 18 are a store's. Empty for any other number. */
static inline const char *dispatch_bench_sentence(uint32_t number) {
    switch (number) {
    case 1:
        return "A buffer that the host lent is too short: decisions need 32 entries, the matrix 2,048, the sweeps 32, the pending stops 64, the terms 8.";
    case 2:
        return "The head, a record's 22 bits of kind and length, or its stated body passes the end of the sheet.";
    case 3:
        return "The edition in the first 8 bits is not 1 or 2.";
    case 4:
        return "A record's kind is not 1 to 8.";
    case 5:
        return "A record's stated body length is not its kind's: 468, 96, 96, 715, 65, 226, 49, 32 bits for kinds 1 to 8; in edition 2 a stop has 160 and a car 779.";
    case 6:
        return "The head counts no record, the first one is not the policy, or a record's kind is below the kind before it.";
    case 7:
        return "There are more records of a kind than 1 policy, 64 stops, 8 lines, 32 cars, 512 aboard, 512 waiting.";
    case 8:
        return "The strategy is 3, the phase is 7, or a field that is absent or unused has a one bit.";
    case 9:
        return "An id is 0, a stop's id is not above the one before, a line or car has an earlier one's id, or a stop has a second demand or closure.";
    case 10:
        return "A car's line, an aboard rider's car, or a waiting rider's, demand's or closure's stop has no record, or a mask has a bit past the stops.";
    case 11:
        return "A double is outside of its range, or not a number.";
    case 12:
        return "The candidate limit is 0.";
    case 13:
        return "Twice a car's transition ticks plus its open ticks is above 4,294,967,295.";
    case 14:
        return "A waiting rider's wait ticks are above 9,007,199,254,740,992.";
    case 15:
        return "The strategy is RSR and its load weight is above 0: the first release gave this number, and it is not given any more.";
    case 16:
        return "What follows the last record is not 0 to 7 zero bits up to the byte's end.";
    case 17:
        return "Two records agree in setting, start day and issue, but not in value.";
    case 18:
        return "A slot has no record that starts on the day or before it.";
    case 19:
        return "What a site sent has not one column for each idle car, or a column repeats or lies outside of the matrix.";
    case 20:
        return "What a site sent has not one price for each idle car and one for each column, or a price is beyond 18,014,398,509,481,984 either way.";
    case 21:
        return "An input of a travel time is not a number or beyond 1,000,000 either way, or its top speed or a rate is above 0 and below 1/1,024.";
    case 22:
        return "A matrix for the plain matcher has more than 4 cars or 5 columns, fewer columns than cars, not cars × columns cells, or a cell above 281,474,976,710,656.";
    default:
        return "";
    }
}

/* What puts an end to it. Empty for any other number. */
static inline const char *dispatch_bench_remedy(uint32_t number) {
    switch (number) {
    case 1:
        return "Lend longer buffers; the sheet is not at fault.";
    case 2:
        return "Fetch the whole file again, in binary; if it is whole, it may be no sheet, or its writer stated a wrong record count or body length.";
    case 3:
        return "Have the sheet written as edition 1 or 2, or take a bench that reads its edition. The file may also be no sheet at all, or not the right one. If the writer is not at fault, the file may have been changed on its way: fetch it again, in binary.";
    case 4:
        return "Leave the record out; a newer writer, or a body of the wrong length before it, can cause this. If the writer is not at fault, the file may have been changed on its way: fetch it again, in binary.";
    case 5:
        return "Write the record with its kind's fields and length; a newer writer can cause this. If the writer is not at fault, the file may have been changed on its way: fetch it again, in binary.";
    case 6:
        return "Put the records in the order policy, stop, line, car, aboard, waiting, demand, closed. If the writer is not at fault, the file may have been changed on its way: fetch it again, in binary.";
    case 7:
        return "Leave records out, or split the group over several sheets.";
    case 8:
        return "Give the field a code of edition 1, or zeros where it is absent or unused. If the writer is not at fault, the file may have been changed on its way: fetch it again, in binary.";
    case 9:
        return "Give every record an id of its own, 1 or more, rising for stops, and at most one demand and one closure a stop.";
    case 10:
        return "Add the record that is named, or name one that is there.";
    case 11:
        return "Give the field a value inside of its range. If the writer is not at fault, the file may have been changed on its way: fetch it again, in binary.";
    case 12:
        return "Give a limit of 1 or more, or none (65,535).";
    case 13:
        return "Give the car shorter door times.";
    case 14:
        return "Give the ticks since the rider came to the stop; so many suggest a negative number.";
    case 15:
        return "Renew the bench that gave it, which then carries RSR's load term; until then set load to 0.";
    case 16:
        return "Cut off what follows the last record; if there are records in it, the head counts too few.";
    case 17:
        return "Give the record that corrects the other a higher issue, or leave out the one that is wrong.";
    case 18:
        return "Add a record for the slot that starts on the day or before it, or ask for a later day.";
    case 19:
        return "Have the site send a column of its own for each idle car, in record order; columns count from 0, the pending stops first.";
    case 20:
        return "Have the site send a whole price inside of the range for each idle car, in record order, and for each column of the matrix.";
    case 21:
        return "Give a distance, a speed and rates inside of the domain; a top speed or rate of 0 stands for a car that does not run, in no time.";
    case 22:
        return "Give a small matrix with its cells row by row and at least one column a car; the fast matcher takes up to 32 cars and 64 columns.";
    default:
        return "";
    }
}

/* The rule of a refusal of a store of weights. Empty for any other number. */
static inline const char *dispatch_bench_store_sentence(uint32_t number) {
    switch (number) {
    case 1:
        return "Fewer than 6 places were lent for the weights.";
    case 2:
        return "The last record is cut short: a record has 15 bytes.";
    case 7:
        return "There are more than 256 records.";
    case 8:
        return "A record's setting is above 5.";
    case 11:
        return "A record's value is outside of 0 to 1,000,000,000, or not a number.";
    case 17:
        return "Two records agree in setting, start day and issue, but not in value.";
    case 18:
        return "A slot has no record that starts on the day or before it.";
    default:
        return "";
    }
}

/* What puts an end to it. Empty for any other number. */
static inline const char *dispatch_bench_store_remedy(uint32_t number) {
    switch (number) {
    case 1:
        return "Lend 6 places or more; the store is not at fault.";
    case 2:
        return "Fetch the whole file again, in binary; if it is whole, it may be no store of weights.";
    case 7:
        return "Leave out records that a later start or a higher issue has replaced for every day that is still asked for.";
    case 8:
        return "Give the record a setting of 0 to 5, the slot of its weight. If the writer is not at fault, the file may have been changed on its way: fetch it again, in binary.";
    case 11:
        return "Give the record a value inside of the weights' range. If the writer is not at fault, the file may have been changed on its way: fetch it again, in binary.";
    case 17:
        return "Give the record that corrects the other a higher issue, or leave out the one that is wrong.";
    case 18:
        return "Add a record for the slot that starts on the day or before it, or ask for a later day.";
    default:
        return "";
    }
}

/* Why a pair has no rank (dispatch_bench_why). Empty for any other number. */
static inline const char *dispatch_bench_reason_sentence(uint32_t number) {
    switch (number) {
    case 1:
        return "The sheet has no car with this id.";
    case 2:
        return "The sheet has no stop with this id.";
    case 3:
        return "The car is not idle-listed.";
    case 4:
        return "The stop is not pending.";
    case 5:
        return "The car's line does not serve the stop.";
    case 6:
        return "The stop is barred to the car.";
    case 7:
        return "The candidate limit cuts the stop.";
    case 8:
        return "The car passes the stop by: it moves, is loaded to the threshold of its direction, and the stop lies ahead.";
    case 9:
        return "The car is full.";
    case 10:
        return "Nobody who waits there can board the car, or nobody waits and no hall call is without a rider.";
    case 11:
        return "The stop is off the path of the riders aboard.";
    case 12:
        return "The stop has no rank all the same: the car's speed is 0, or under SCAN the stop is behind the sweep.";
    default:
        return "";
    }
}

#endif
