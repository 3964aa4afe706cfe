//! The facts as lines, and in short for a cell of a drawing.

use dispatch_bench::{Reason, Terms};
use sheetgen::sheet::SCAN;

use super::{Amount, Effect, Facts, Part, Rank, Ranked, Unranked};
use crate::fields::STRATEGIES;
use crate::numbers::grouped_text;
use crate::value::show_double;

/// What `sheet why` prints of an accepted sheet.
pub fn lines(facts: &Facts) -> String {
    let name = |name: &Option<String>| name.as_ref().map_or(String::new(), |n| format!(" \"{n}\""));
    let (car, stop) = (name(&facts.car_name), name(&facts.stop_name));
    let strategy = STRATEGIES.get(usize::from(facts.strategy)).unwrap_or(&"");
    let mut lines = format!(
        "car {}{car}, stop {}{stop}: {strategy}\n",
        facts.car, facts.stop
    );
    for (question, answer) in [
        ("viable", facts.viable),
        ("kept", facts.kept),
        ("useful", facts.useful),
    ] {
        let answer = match answer {
            None => "not asked",
            Some(true) => "yes",
            Some(false) => "no",
        };
        lines += &format!("{question}: {answer}\n");
    }
    lines
        + &match &facts.rank {
            Rank::Ranked(ranked) => with_rank(ranked),
            Rank::Unranked(unranked) => without(unranked),
        }
}

fn with_rank(ranked: &Ranked) -> String {
    let head = ["term", "amount", "weight", "part", "cost so far"].map(String::from);
    let rows: Vec<[String; 5]> = [head]
        .into_iter()
        .chain(ranked.parts.iter().map(row))
        .collect();
    let Ranked {
        cell, row, column, ..
    } = ranked;
    let cost = number(ranked.cost);
    let held = match *cell {
        dispatch_bench::CEILING => ", the ceiling",
        _ => "",
    };
    format!(
        "{}cost {cost}, cell {cell}{held} (row {row}, column {column} of the matrix)\n",
        table(&rows)
    )
}

/// Columns side by side; one that holds nothing but its name is left out.
fn table(rows: &[[String; 5]]) -> String {
    let is_used = |k: &usize| rows[1..].iter().any(|row| !row[*k].is_empty());
    let used: Vec<usize> = (0..5).filter(is_used).collect();
    let width = |k: usize| rows.iter().map(|row| row[k].chars().count()).max();
    let mut table = String::new();
    for row in rows {
        let cells = used
            .iter()
            .map(|k| format!("{:<1$}", row[*k], width(*k).unwrap_or(0)));
        let line = cells.collect::<Vec<_>>().join("  ");
        table += &format!("{}\n", line.trim_end());
    }
    table
}

fn row(part: &Part) -> [String; 5] {
    let weights = part.weights.iter();
    let weights: Vec<String> = weights
        .map(|(name, w)| format!("{name} {}", number(*w)))
        .collect();
    [
        said(part.term),
        amount(part.amount),
        weights.join(", "),
        effect(part),
        part.so_far.map_or(String::new(), number),
    ]
}

/// A term's name, and what it is of.
fn said(term: &str) -> String {
    let of = match term {
        "travel" => " to the stop",
        "delay" => " of riders aboard",
        "doors" => " on the way",
        "bonus" => " for direction",
        "squares" => " of the waits there",
        "waited" => " there, summed",
        "car call" => " for the stop",
        "load" => " aboard",
        _ => "",
    };
    format!("{term}{of}")
}

fn amount(amount: Amount) -> String {
    match amount {
        Amount::Seconds(value) => format!("{} s", number(value)),
        Amount::Ticks(value) => format!("{} ticks", number(value)),
        Amount::Squares(value) => format!("{} ticks²", number(value)),
        Amount::Plain(value) => number(value),
        Amount::Share(load, capacity) => format!("{} of {}", number(load), number(capacity)),
        Amount::One => String::new(),
    }
}

/// The part as it is written down, not worked out: `+ 1 x 2`.
fn effect(part: &Part) -> String {
    let sign = match part.effect {
        Effect::Added => "+",
        Effect::Taken => "-",
        Effect::LeftOut => return "left out".into(),
        Effect::Nothing => return "nothing".into(),
    };
    let weights = part.weights.iter().map(|(_, weight)| number(*weight));
    let amount = match part.amount {
        Amount::Seconds(value)
        | Amount::Ticks(value)
        | Amount::Squares(value)
        | Amount::Plain(value) => Some(number(value)),
        Amount::Share(load, capacity) => Some(format!("{} / {}", number(load), number(capacity))),
        Amount::One => None,
    };
    let product = weights.chain(amount).collect::<Vec<_>>().join(" x ");
    match product.strip_prefix('-') {
        Some(size) => format!("- {size}"),
        None => format!("{sign} {product}"),
    }
}

fn number(value: f64) -> String {
    grouped_text(&show_double(value.to_bits()))
}

fn without(unranked: &Unranked) -> String {
    let Unranked {
        reason,
        more,
        looks,
        to_do,
    } = unranked;
    let mut lines = format!("no rank, reason {}: {}\n", reason.number(), reason.says());
    if !more.is_empty() {
        lines += &format!("{more}\n");
    }
    for look in looks {
        lines += &format!("look at: {}{}\n", look.before, look.says);
    }
    lines + &format!("to do: {to_do}\n")
}

/// The terms of a rank in two lines for a cell, each made short; under SCAN the cost says it all.
pub fn brief(terms: &Terms, short: fn(f64) -> String) -> Option<[String; 2]> {
    match *terms {
        Terms::Etd {
            travel,
            delay,
            doors,
            bonus,
            sum,
            squares,
            waited,
            ..
        } => {
            let [travel, delay, doors, bonus] = [travel, delay, doors, bonus].map(short);
            let [sum, squares, waited] = [sum, squares, waited].map(short);
            Some([
                format!("travel {travel}, delay {delay}, doors {doors}, bonus {bonus}: {sum}"),
                format!("squares {squares}, waited {waited}"),
            ])
        }
        Terms::Rsr {
            travel,
            eta,
            direction,
            car_call,
            load,
            waited,
            age,
            ..
        } => {
            let [travel, eta, direction, call] = [travel, eta, direction, car_call].map(short);
            let [load, waited, age] = [load, waited, age].map(short);
            Some([
                format!(
                    "travel {travel}: {eta}, direction {direction}, car call {call}, load {load}"
                ),
                format!("waited {waited}: {age}"),
            ])
        }
        Terms::Scan { .. } => None,
    }
}

/// A reason in some words for a cell.
pub fn in_short(reason: Reason, strategy: u8) -> &'static str {
    match reason {
        Reason::NoCar => "there is no such car",
        Reason::NoStop => "there is no such stop",
        Reason::NotListed => "the car is not idle-listed",
        Reason::NotPending => "the stop is not pending",
        Reason::OffLine => "the car's line does not serve the stop",
        Reason::Barred => "the stop is barred to the car",
        Reason::Cut => "cut by the candidate limit, none without it either",
        Reason::PassedBy => "the loaded car passes the stop by",
        Reason::Full => "the car is full",
        Reason::Nobody => "nobody there can board the car",
        Reason::OffPath => "off the path of the riders aboard",
        Reason::NoRank if strategy == SCAN => "behind the sweep",
        Reason::NoRank => "the car's speed is 0",
    }
}
