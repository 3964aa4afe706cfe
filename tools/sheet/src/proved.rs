//! What is proved of two passes together: demand 3, of sheets that agree but in the limit, and request F-14, of sheets that agree but in bars. It is
//! said where the sheets are such a pair, by their bits; elsewhere the part that fails is named.

use sheetgen::bits;
use sheetgen::sheet::NO_LIMIT;

use crate::bits::set;
use crate::cut::Cut;
use crate::numbers::grouped;
use crate::show::number_of;

/// What the proofs say of two sheets.
#[derive(Clone, Debug, PartialEq, Eq)]
pub struct Proved {
    /// The claim that is about such a pair: `demand 3` or `F-14`.
    pub claim: Option<&'static str>,
    /// All that it asks of the two holds.
    pub holds: bool,
    pub sentence: String,
}

const DEMAND_3: &str = "in each pass the sent cars have distinct pending stops that their lines serve and that aren't barred to them; the total answered is that of the decisions written, and every other choice of distinct columns, one for each idle car, has at least as large a total over the matrix of demand 2";
const F_14: &str =
    "with no candidate limit, one more bit in one car's restricted mask never lowers the total";

/// Where the policy's limit stands in a sheet, and its bits.
const LIMIT: (usize, usize) = (48, 16);

/// The limit of an accepted sheet.
pub fn limit(bytes: &[u8]) -> u16 {
    bits::get(bytes, LIMIT.0, LIMIT.1) as u16
}

/// The same accepted sheet under another limit.
pub fn with_limit(bytes: &[u8], limit: u16) -> Vec<u8> {
    let mut other = bytes.to_vec();
    set(&mut other, LIMIT.0, LIMIT.1, limit.into());
    other
}

/// A limit as a text has it.
pub fn limit_word(limit: u16) -> String {
    match limit {
        NO_LIMIT => "none".into(),
        limit => limit.to_string(),
    }
}

/// How two byte strings of accepted sheets differ.
#[derive(Clone, Copy, Debug, PartialEq, Eq)]
struct Apart {
    limits: (u16, u16),
    /// The bars that the second has more, and those that it has less.
    bars: (u32, u32),
    /// Nothing else differs.
    alone: bool,
}

fn apart(first: &[u8], second: &[u8]) -> Apart {
    let (mut one, mut other) = (first.to_vec(), with_limit(second, limit(first)));
    let mut bars = (0, 0);
    if one.len() == other.len() {
        let cut = Cut::new(first);
        for car in cut.of_kind(4) {
            let masks = cut.fields(car).iter().filter(|f| f.name == "restricted");
            for at in masks.map(|field| car.body() + field.at) {
                let (a, b) = (bits::get(first, at, 64), bits::get(second, at, 64));
                bars.0 += (b & !a).count_ones();
                bars.1 += (a & !b).count_ones();
                set(&mut one, at, 64, 0);
                set(&mut other, at, 64, 0);
            }
        }
    }
    Apart {
        limits: (limit(first), limit(second)),
        bars,
        alone: one == other,
    }
}

/// What is proved of two sheets, whose totals are these where they are accepted.
pub fn of(first: &[u8], second: &[u8], totals: [Option<u64>; 2]) -> Proved {
    let [Some(one), Some(two)] = totals else {
        let which = match totals {
            [None, None] => "both sheets are refused",
            [None, _] => "the first sheet is refused",
            _ => "the second sheet is refused",
        };
        return fails(
            None,
            format!(
                "Nothing is proved of the two totals together: {which}, and the proofs are of two accepted sheets."
            ),
        );
    };
    let totals = format!("{}, then {}", grouped(one), grouped(two));
    let apart = apart(first, second);
    let (limits, bars) = (apart.limits, apart.bars);
    match (limits.0 == limits.1, bars) {
        _ if !apart.alone => fails(
            None,
            format!(
                "Nothing is proved of the two totals together: the sheets differ in more than the limit alone (demand 3), and in more than bars alone (F-14). The totals are {totals}."
            ),
        ),
        (true, (0, 0)) => fails(
            None,
            format!(
                "The sheets are the same in every bit, so their passes are too: the totals are {totals}."
            ),
        ),
        (false, (0, 0)) => demand_3(limits, &totals),
        (false, _) => fails(
            None,
            format!(
                "Nothing is proved of the two totals together: both the limit and bars differ, and demand 3 is of the limit alone, F-14 of bars alone. The totals are {totals}."
            ),
        ),
        (true, bars) => f_14(limits.0, bars, &totals),
    }
}

fn fails(claim: Option<&'static str>, sentence: String) -> Proved {
    Proved {
        claim,
        holds: false,
        sentence,
    }
}

/// The limit alone differs: it is raised, or the sheets stand the other way round.
fn demand_3((one, two): (u16, u16), totals: &str) -> Proved {
    let (first, second) = (limit_word(one), limit_word(two));
    let agree = format!(
        "The sheets agree in every bit but the limit, {first} in the first and {second} in the second"
    );
    let sentence = match one < two {
        true => format!(
            "{agree}. Demand 3, proved: \"{DEMAND_3}; and the second pass's total is no larger than the first's\": {totals}."
        ),
        false => format!(
            "{agree}, which is lower. Demand 3 is of a limit that is raised, so it holds with the two in the other order. Proved: \"{DEMAND_3}\"; and the total under the higher limit, the first, is no larger than the other: {totals}."
        ),
    };
    Proved {
        claim: Some("demand 3"),
        holds: true,
        sentence,
    }
}

/// Bars alone differ.
fn f_14(limit: u16, (more, less): (u32, u32), totals: &str) -> Proved {
    let claim = Some("F-14");
    let bars = |count: u32| number_of(count as usize, "bar");
    if more > 0 && less > 0 {
        let (more, less) = (bars(more), bars(less));
        return fails(
            claim,
            format!(
                "The sheets agree in every bit but bars: the second has {more} that the first lacks, and lacks {less} that the first has. F-14 is of bars that are added alone, so nothing is proved of the two totals together: {totals}."
            ),
        );
    }
    let (which, other, count) = match more {
        0 => ("first", "second", less),
        _ => ("second", "first", more),
    };
    let agree = format!(
        "The sheets agree in every bit but {}, more in the {which}",
        bars(count)
    );
    if limit != NO_LIMIT {
        return fails(
            claim,
            format!(
                "{agree}, but they have a limit, {limit}, and F-14 is of sheets without one: under a limit the total may fall, since a bar may let a farther stop into the row. The totals are {totals}."
            ),
        );
    }
    Proved {
        claim,
        holds: true,
        sentence: format!(
            "{agree}, and have no limit. F-14, proved for any number of bars: \"{F_14}\". The total of the {which} is no lower than that of the {other}: {totals}."
        ),
    }
}
