//! The refusals of documents 01 and 02, a sentence each, and what to do about them.

pub struct Rule {
    /// When the number is given.
    pub says: &'static str,
    /// What puts an end to it.
    pub remedy: &'static str,
}

/// How the remedies of what damage can cause end.
macro_rules! changed {
    () => {
        "If the writer is not at fault, the file may have been changed on its way: fetch it again, in binary."
    };
}

/// That sentence, for tools/sheet, which has remedies of its own beside the rules'.
#[allow(dead_code)]
pub const CHANGED: &str = changed!();

/// The refusals of a sheet: rule `number` is entry `number` - 1.
pub const RULES: [Rule; 16] = [
    Rule {
        says: "A buffer that the host lent is too short: decisions need 32 entries, the matrix 2,048, the sweeps 32, the pending stops 64, the terms 8.",
        remedy: "Lend longer buffers; the sheet is not at fault.",
    },
    Rule {
        says: "The head, a record's 22 bits of kind and length, or its stated body passes the end of the sheet.",
        remedy: "Fetch the whole file again, in binary; if it is whole, it may be no sheet, or its writer stated a wrong record count or body length.",
    },
    Rule {
        says: "The edition in the first 8 bits is not 1 or 2.",
        remedy: concat!(
            "Have the sheet written as edition 1 or 2, or take a bench that reads its edition. The file may also be no sheet at all, or not the right one. ",
            changed!()
        ),
    },
    Rule {
        says: "A record's kind is not 1 to 8.",
        remedy: concat!(
            "Leave the record out; a newer writer, or a body of the wrong length before it, can cause this. ",
            changed!()
        ),
    },
    Rule {
        says: "A record's stated body length is not its kind's: 468, 96, 96, 715, 65, 226, 49, 32 bits for kinds 1 to 8; in edition 2 a stop has 160 and a car 779.",
        remedy: concat!(
            "Write the record with its kind's fields and length; a newer writer can cause this. ",
            changed!()
        ),
    },
    Rule {
        says: "The head counts no record, the first one is not the policy, or a record's kind is below the kind before it.",
        remedy: concat!(
            "Put the records in the order policy, stop, line, car, aboard, waiting, demand, closed. ",
            changed!()
        ),
    },
    Rule {
        says: "There are more records of a kind than 1 policy, 64 stops, 8 lines, 32 cars, 512 aboard, 512 waiting.",
        remedy: "Leave records out, or split the group over several sheets.",
    },
    Rule {
        says: "The strategy is 3, the phase is 7, or a field that is absent or unused has a one bit.",
        remedy: concat!(
            "Give the field a code of edition 1, or zeros where it is absent or unused. ",
            changed!()
        ),
    },
    Rule {
        says: "An id is 0, a stop's id is not above the one before, a line or car has an earlier one's id, or a stop has a second demand or closure.",
        remedy: "Give every record an id of its own, 1 or more, rising for stops, and at most one demand and one closure a stop.",
    },
    Rule {
        says: "A car's line, an aboard rider's car, or a waiting rider's, demand's or closure's stop has no record, or a mask has a bit past the stops.",
        remedy: "Add the record that is named, or name one that is there.",
    },
    Rule {
        says: "A double is outside of its range, or not a number.",
        remedy: concat!("Give the field a value inside of its range. ", changed!()),
    },
    Rule {
        says: "The candidate limit is 0.",
        remedy: "Give a limit of 1 or more, or none (65,535).",
    },
    Rule {
        says: "Twice a car's transition ticks plus its open ticks is above 4,294,967,295.",
        remedy: "Give the car shorter door times.",
    },
    Rule {
        says: "A waiting rider's wait ticks are above 9,007,199,254,740,992.",
        remedy: "Give the ticks since the rider came to the stop; so many suggest a negative number.",
    },
    // Hosts hold on to the number, which is given to no other fault.
    Rule {
        says: "The strategy is RSR and its load weight is above 0: the first release gave this number, and it is not given any more.",
        remedy: "Renew the bench that gave it, which then carries RSR's load term; until then set load to 0.",
    },
    Rule {
        says: "What follows the last record is not 0 to 7 zero bits up to the byte's end.",
        remedy: "Cut off what follows the last record; if there are records in it, the head counts too few.",
    },
];

/// The number of the first of them.
const FIRST_OF_CALLS: u32 = 19;

/// The refusals of what is handed over beside a sheet, or without one: 19 and 20 of what a site sent to be graded, 21 of a run's inputs, 22 of a
/// matrix for the plain matcher.
const CALL_RULES: [Rule; 4] = [
    Rule {
        says: "What a site sent has not one column for each idle car, or a column repeats or lies outside of the matrix.",
        remedy: "Have the site send a column of its own for each idle car, in record order; columns count from 0, the pending stops first.",
    },
    Rule {
        says: "What a site sent has not one price for each idle car and one for each column, or a price is beyond 18,014,398,509,481,984 either way.",
        remedy: "Have the site send a whole price inside of the range for each idle car, in record order, and for each column of the matrix.",
    },
    Rule {
        says: "An input of a travel time is not a number or beyond 1,000,000 either way, or its top speed or a rate is above 0 and below 1/1,024.",
        remedy: "Give a distance, a speed and rates inside of the domain; a top speed or rate of 0 stands for a car that does not run, in no time.",
    },
    Rule {
        says: "A matrix for the plain matcher has more than 4 cars or 5 columns, fewer columns than cars, not cars × columns cells, or a cell above 281,474,976,710,656.",
        remedy: "Give a small matrix with its cells row by row and at least one column a car; the fast matcher takes up to 32 cars and 64 columns.",
    },
];

/// The refusals of a store of weights, by number.
pub const STORE_RULES: [(u32, Rule); 7] = [
    (
        1,
        Rule {
            says: "Fewer than 6 places were lent for the weights.",
            remedy: "Lend 6 places or more; the store is not at fault.",
        },
    ),
    (
        2,
        Rule {
            says: "The last record is cut short: a record has 15 bytes.",
            remedy: "Fetch the whole file again, in binary; if it is whole, it may be no store of weights.",
        },
    ),
    (
        7,
        Rule {
            says: "There are more than 256 records.",
            remedy: "Leave out records that a later start or a higher issue has replaced for every day that is still asked for.",
        },
    ),
    (
        8,
        Rule {
            says: "A record's setting is above 5.",
            remedy: concat!(
                "Give the record a setting of 0 to 5, the slot of its weight. ",
                changed!()
            ),
        },
    ),
    (
        11,
        Rule {
            says: "A record's value is outside of 0 to 1,000,000,000, or not a number.",
            remedy: concat!(
                "Give the record a value inside of the weights' range. ",
                changed!()
            ),
        },
    ),
    (
        17,
        Rule {
            says: "Two records agree in setting, start day and issue, but not in value.",
            remedy: "Give the record that corrects the other a higher issue, or leave out the one that is wrong.",
        },
    ),
    (
        18,
        Rule {
            says: "A slot has no record that starts on the day or before it.",
            remedy: "Add a record for the slot that starts on the day or before it, or ask for a later day.",
        },
    ),
];

/// The rule of a refusal of a sheet, of what is sent with it to be graded, of a run's inputs, or of a small matrix.
pub fn rule(number: u32) -> Option<&'static Rule> {
    let place = |first: u32| number.checked_sub(first).map(|place| place as usize);
    let of_call = place(FIRST_OF_CALLS).and_then(|place| CALL_RULES.get(place));
    of_call.or_else(|| RULES.get(place(1)?))
}

/// The rule of a store's refusal.
pub fn store_rule(number: u32) -> Option<&'static Rule> {
    let found = STORE_RULES.iter().find(|entry| entry.0 == number);
    found.map(|entry| &entry.1)
}
