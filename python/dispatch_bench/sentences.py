"""What the library's numbers stand for: the table of the Rust crate, printed by its example sentences."""

# The rule of a refusal of a sheet, of what is sent with it, of a run or of a small matrix; 17 and 18 are a store's.
RULES = {
    1: "A buffer that the host lent is too short: decisions need 32 entries, the matrix 2,048, the sweeps 32, the pending stops 64, the terms 8.",
    2: "The head, a record's 22 bits of kind and length, or its stated body passes the end of the sheet.",
    3: "The edition in the first 8 bits is not 1 or 2.",
    4: "A record's kind is not 1 to 8.",
    5: "A record's stated body length is not its kind's: 468, 96, 96, 715, 65, 226, 49, 32 bits for kinds 1 to 8; in edition 2 a stop has 160 and a car 779.",
    6: "The head counts no record, the first one is not the policy, or a record's kind is below the kind before it.",
    7: "There are more records of a kind than 1 policy, 64 stops, 8 lines, 32 cars, 512 aboard, 512 waiting.",
    8: "The strategy is 3, the phase is 7, or a field that is absent or unused has a one bit.",
    9: "An id is 0, a stop's id is not above the one before, a line or car has an earlier one's id, or a stop has a second demand or closure.",
    10: "A car's line, an aboard rider's car, or a waiting rider's, demand's or closure's stop has no record, or a mask has a bit past the stops.",
    11: "A double is outside of its range, or not a number.",
    12: "The candidate limit is 0.",
    13: "Twice a car's transition ticks plus its open ticks is above 4,294,967,295.",
    14: "A waiting rider's wait ticks are above 9,007,199,254,740,992.",
    15: "The strategy is RSR and its load weight is above 0: the first release gave this number, and it is not given any more.",
    16: "What follows the last record is not 0 to 7 zero bits up to the byte's end.",
    17: "Two records agree in setting, start day and issue, but not in value.",
    18: "A slot has no record that starts on the day or before it.",
    19: "What a site sent has not one column for each idle car, or a column repeats or lies outside of the matrix.",
    20: "What a site sent has not one price for each idle car and one for each column, or a price is beyond 18,014,398,509,481,984 either way.",
    21: "An input of a travel time is not a number or beyond 1,000,000 either way, or its top speed or a rate is above 0 and below 1/1,024.",
    22: "A matrix for the plain matcher has more than 4 cars or 5 columns, fewer columns than cars, not cars × columns cells, or a cell above 281,474,976,710,656.",
}

# What puts an end to it.
REMEDIES = {
    1: "Lend longer buffers; the sheet is not at fault.",
    2: "Fetch the whole file again, in binary; if it is whole, it may be no sheet, or its writer stated a wrong record count or body length.",
    3: "Have the sheet written as edition 1 or 2, or take a bench that reads its edition. The file may also be no sheet at all, or not the right one. If the writer is not at fault, the file may have been changed on its way: fetch it again, in binary.",
    4: "Leave the record out; a newer writer, or a body of the wrong length before it, can cause this. If the writer is not at fault, the file may have been changed on its way: fetch it again, in binary.",
    5: "Write the record with its kind's fields and length; a newer writer can cause this. If the writer is not at fault, the file may have been changed on its way: fetch it again, in binary.",
    6: "Put the records in the order policy, stop, line, car, aboard, waiting, demand, closed. If the writer is not at fault, the file may have been changed on its way: fetch it again, in binary.",
    7: "Leave records out, or split the group over several sheets.",
    8: "Give the field a code of edition 1, or zeros where it is absent or unused. If the writer is not at fault, the file may have been changed on its way: fetch it again, in binary.",
    9: "Give every record an id of its own, 1 or more, rising for stops, and at most one demand and one closure a stop.",
    10: "Add the record that is named, or name one that is there.",
    11: "Give the field a value inside of its range. If the writer is not at fault, the file may have been changed on its way: fetch it again, in binary.",
    12: "Give a limit of 1 or more, or none (65,535).",
    13: "Give the car shorter door times.",
    14: "Give the ticks since the rider came to the stop; so many suggest a negative number.",
    15: "Renew the bench that gave it, which then carries RSR's load term; until then set load to 0.",
    16: "Cut off what follows the last record; if there are records in it, the head counts too few.",
    17: "Give the record that corrects the other a higher issue, or leave out the one that is wrong.",
    18: "Add a record for the slot that starts on the day or before it, or ask for a later day.",
    19: "Have the site send a column of its own for each idle car, in record order; columns count from 0, the pending stops first.",
    20: "Have the site send a whole price inside of the range for each idle car, in record order, and for each column of the matrix.",
    21: "Give a distance, a speed and rates inside of the domain; a top speed or rate of 0 stands for a car that does not run, in no time.",
    22: "Give a small matrix with its cells row by row and at least one column a car; the fast matcher takes up to 32 cars and 64 columns.",
}

# The rule of a refusal of a store of weights.
STORE_RULES = {
    1: "Fewer than 6 places were lent for the weights.",
    2: "The last record is cut short: a record has 15 bytes.",
    7: "There are more than 256 records.",
    8: "A record's setting is above 5.",
    11: "A record's value is outside of 0 to 1,000,000,000, or not a number.",
    17: "Two records agree in setting, start day and issue, but not in value.",
    18: "A slot has no record that starts on the day or before it.",
}

# What puts an end to it.
STORE_REMEDIES = {
    1: "Lend 6 places or more; the store is not at fault.",
    2: "Fetch the whole file again, in binary; if it is whole, it may be no store of weights.",
    7: "Leave out records that a later start or a higher issue has replaced for every day that is still asked for.",
    8: "Give the record a setting of 0 to 5, the slot of its weight. If the writer is not at fault, the file may have been changed on its way: fetch it again, in binary.",
    11: "Give the record a value inside of the weights' range. If the writer is not at fault, the file may have been changed on its way: fetch it again, in binary.",
    17: "Give the record that corrects the other a higher issue, or leave out the one that is wrong.",
    18: "Add a record for the slot that starts on the day or before it, or ask for a later day.",
}

# Why a pair has no rank (dispatch_bench_why).
REASONS = {
    1: "The sheet has no car with this id.",
    2: "The sheet has no stop with this id.",
    3: "The car is not idle-listed.",
    4: "The stop is not pending.",
    5: "The car's line does not serve the stop.",
    6: "The stop is barred to the car.",
    7: "The candidate limit cuts the stop.",
    8: "The car passes the stop by: it moves, is loaded to the threshold of its direction, and the stop lies ahead.",
    9: "The car is full.",
    10: "Nobody who waits there can board the car, or nobody waits and no hall call is without a rider.",
    11: "The stop is off the path of the riders aboard.",
    12: "The stop has no rank all the same: the car's speed is 0, or under SCAN the stop is behind the sweep.",
}
