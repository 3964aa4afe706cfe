//! The lines of `sheet rule`: the rule of a refusal, what to do about it, and an example.

use crate::fields;
use crate::rules::{self, Rule};

/// The last number of a refusal.
pub const LAST: u32 = 22;

/// An example's number, name and explanation.
macro_rules! example {
    ($number:literal, $name:literal) => {
        (
            $number,
            $name,
            include_str!(concat!("../examples/", $name, ".explain")),
        )
    };
}
/// What `explain` says of an example of each refusal of a sheet; the first has the host's buffers alone, and 15 is given no more.
const EXPLAINED: [(u32, &str, &str); 14] = [
    example!(2, "refusal_02_cut_body"),
    example!(3, "refusal_03_edition"),
    example!(4, "refusal_04_kind"),
    example!(5, "refusal_05_length"),
    example!(6, "refusal_06_order"),
    example!(7, "refusal_07_lines"),
    example!(8, "refusal_08_phase_stop"),
    example!(9, "refusal_09_demand_twice"),
    example!(10, "refusal_10_stop"),
    example!(11, "refusal_11_tick_rate"),
    example!(12, "refusal_12_limit"),
    example!(13, "refusal_13_ticks"),
    example!(14, "refusal_14_wait"),
    example!(16, "refusal_16_bytes"),
];

/// A number's rules, those of sheets and of calls first; `None` for a number that is none.
pub fn one(number: u32) -> Option<String> {
    let lines = of_sheets(number) + &of_stores(number);
    (!lines.is_empty()).then_some(lines)
}

/// The rules of sheets, of what is graded with them, of a run's inputs and of a small matrix, then those of stores.
pub fn all() -> String {
    let sheets = (1..=LAST).map(of_sheets);
    sheets.chain((1..=LAST).map(of_stores)).collect()
}

fn of_sheets(number: u32) -> String {
    let Some(Rule { says, remedy }) = rules::rule(number) else {
        return String::new();
    };
    let mut lines = format!("rule {number}: {says}\nto do: {remedy}\n");
    if number == 11 {
        lines += &ranges();
    }
    if let Some((_, name, said)) = EXPLAINED.iter().find(|example| example.0 == number) {
        let sentence = said.lines().nth(1).unwrap_or("");
        lines += &format!("example: {name}: {sentence}\n");
    }
    lines
}

fn of_stores(number: u32) -> String {
    let Some(Rule { says, remedy }) = rules::store_rule(number) else {
        return String::new();
    };
    format!("rule {number} of a store: {says}\nto do: {remedy}\n")
}

/// The range of every double, a line each.
fn ranges() -> String {
    let line = |(range, names): &(fields::Range, Vec<&str>)| {
        format!("range: {}: {}\n", names.join(", "), range.words())
    };
    fields::doubles().iter().map(line).collect()
}
