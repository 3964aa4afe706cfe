//! Why a car costs what it does for a stop, for programs.

use dispatch_bench::{Reason, Refusal};

use super::{Amount, Effect, Facts, Part, Rank};
use crate::csv;
use crate::fields::STRATEGIES;
use crate::json::{Json, big};

/// The columns of the rows.
const COLUMNS: [&str; 11] = [
    "car", "stop", "reason", "sentence", "term", "amount", "unit", "weights", "effect", "so_far",
    "cell",
];

impl Facts {
    /// The reason, where the pair has no rank.
    fn reason(&self) -> Option<Reason> {
        match &self.rank {
            Rank::Ranked(_) => None,
            Rank::Unranked(unranked) => Some(unranked.reason),
        }
    }

    fn number(&self) -> u32 {
        self.reason().map_or(0, Reason::number)
    }
}

impl Amount {
    /// The number, of a load its share's two; and what it counts.
    fn told(self) -> (Option<f64>, Option<f64>, &'static str) {
        match self {
            Amount::Seconds(x) => (Some(x), None, "seconds"),
            Amount::Ticks(x) => (Some(x), None, "ticks"),
            Amount::Squares(x) => (Some(x), None, "ticks squared"),
            Amount::Plain(x) => (Some(x), None, ""),
            Amount::Share(load, capacity) => (Some(load), Some(capacity), "of the capacity"),
            Amount::One => (None, None, ""),
        }
    }
}

fn effect(effect: Effect) -> &'static str {
    match effect {
        Effect::Added => "added",
        Effect::Taken => "taken",
        Effect::LeftOut => "left out",
        Effect::Nothing => "nothing",
    }
}

fn part(part: &Part) -> Json {
    let (amount, capacity, unit) = part.amount.told();
    let weights = part.weights.iter().map(|(name, weight)| {
        Json::object([("name", (*name).into()), ("weight", (*weight).into())])
    });
    Json::object([
        ("term", part.term.into()),
        ("amount", amount.into()),
        ("capacity", capacity.into()),
        ("unit", unit.into()),
        ("weights", Json::array(weights)),
        ("effect", effect(part.effect).into()),
        ("so_far", part.so_far.into()),
    ])
}

/// One object, of a refused sheet too.
pub fn json(file: &str, facts: &Result<Facts, Refusal>) -> Json {
    let refusal = facts.as_ref().err();
    let status = if refusal.is_some() {
        "refused"
    } else {
        "accepted"
    };
    let facts = facts.as_ref().ok();
    let (ranked, unranked) = match facts.map(|facts| &facts.rank) {
        Some(Rank::Ranked(ranked)) => (Some(ranked), None),
        Some(Rank::Unranked(unranked)) => (None, Some(unranked)),
        None => (None, None),
    };
    let strategy = facts.and_then(|facts| STRATEGIES.get(usize::from(facts.strategy)));
    Json::object([
        ("file", file.into()),
        ("status", status.into()),
        ("refusal", refusal.map(|r| r.number).into()),
        ("offset", refusal.map(|r| r.offset as usize).into()),
        ("car", facts.map(|f| f.car).into()),
        ("stop", facts.map(|f| f.stop).into()),
        ("car_name", facts.and_then(|f| f.car_name.clone()).into()),
        ("stop_name", facts.and_then(|f| f.stop_name.clone()).into()),
        ("strategy", strategy.copied().into()),
        ("viable", facts.and_then(|f| f.viable).into()),
        ("kept", facts.and_then(|f| f.kept).into()),
        ("useful", facts.and_then(|f| f.useful).into()),
        ("reason", facts.map(Facts::number).into()),
        ("sentence", unranked.map(|u| u.reason.says()).into()),
        ("to_do", unranked.map(|u| u.to_do.clone()).into()),
        (
            "parts",
            ranked.map(|r| Json::array(r.parts.iter().map(part))).into(),
        ),
        ("cost", ranked.map(|r| r.cost).into()),
        ("cell", ranked.map(|r| big(r.cell)).into()),
        ("row", ranked.map(|r| r.row).into()),
        ("column", ranked.map(|r| r.column).into()),
    ])
}

/// A row for each part, and one for the cost; or one for the reason.
pub fn rows(facts: &Facts) -> String {
    let pair = [
        facts.car.to_string(),
        facts.stop.to_string(),
        facts.number().to_string(),
    ];
    let row = |sentence: &str, more: [String; 7]| {
        let fields = pair.iter().cloned().chain([sentence.to_string()]);
        csv::row(&fields.chain(more).collect::<Vec<_>>())
    };
    let none = || [(); 7].map(|()| String::new());
    let mut rows = csv::row(&COLUMNS);
    match &facts.rank {
        Rank::Unranked(unranked) => rows += &row(unranked.reason.says(), none()),
        Rank::Ranked(ranked) => {
            for part in &ranked.parts {
                rows += &row("", fields(part));
            }
            let mut cost = none();
            cost[0] = "cost".into();
            cost[5] = ranked.cost.to_string();
            cost[6] = ranked.cell.to_string();
            rows += &row("", cost);
        }
    }
    rows
}

/// Those of a part, from the term on.
fn fields(part: &Part) -> [String; 7] {
    let (amount, capacity, unit) = part.amount.told();
    let number = |x: Option<f64>| x.map_or(String::new(), |x| x.to_string());
    let amount = match capacity {
        Some(capacity) => format!("{}/{capacity}", number(amount)),
        None => number(amount),
    };
    let weights = part.weights.iter();
    let weights: Vec<String> = weights
        .map(|(name, weight)| format!("{name}={weight}"))
        .collect();
    [
        part.term.into(),
        amount,
        unit.into(),
        weights.join(" "),
        effect(part.effect).into(),
        number(part.so_far),
        String::new(),
    ]
}
