//! Why a car costs what it does for a stop, or has no rank. Reasons, terms, running costs and cells are the proved library's: what stands here puts
//! the policy's weights beside them, and names the records that a reason is about.

mod forms;
mod lines;
mod parts;
mod unranked;
mod words;

use dispatch_bench::{Reason, Refusal, Why};
use sheetgen::Sheet;

use crate::explain;
use crate::report::Form;
use crate::source::Source;
pub use lines::{brief, in_short, lines};
pub use parts::{Amount, Effect, Part};
pub use unranked::{Look, Unranked};
pub use words::ids;

/// What is said of a car and a stop.
pub struct Facts {
    pub car: u32,
    pub stop: u32,
    /// The names that a text gives them.
    pub car_name: Option<String>,
    pub stop_name: Option<String>,
    /// The code of the sheet's strategy.
    pub strategy: u8,
    /// What a pass asks of the pair, one after the other; `None` where it was not asked any more.
    pub viable: Option<bool>,
    pub kept: Option<bool>,
    pub useful: Option<bool>,
    pub rank: Rank,
}

pub enum Rank {
    Ranked(Ranked),
    Unranked(Unranked),
}

/// A cost with what it is made of, and its cell in the matrix of the pass.
pub struct Ranked {
    pub parts: Vec<Part>,
    pub cost: f64,
    pub cell: u64,
    /// Counted from 1.
    pub row: usize,
    pub column: usize,
}

impl Facts {
    pub fn of(source: &Source, car: u32, stop: u32) -> Result<Self, Refusal> {
        let why = dispatch_bench::why(&source.bytes, car, stop)?;
        let sheet = Sheet::of_accepted(&source.bytes);
        let (rank, reason) = match why {
            Why::Ranked(terms) => {
                let (row, column, cell) = place(&source.bytes, car, stop)?;
                let ranked = Ranked {
                    parts: parts::of(&terms, &sheet, car),
                    cost: terms.cost(),
                    cell,
                    row,
                    column,
                };
                (Rank::Ranked(ranked), None)
            }
            Why::Unranked(reason) => {
                let unranked = unranked::of(source, &sheet, (car, stop), reason);
                (Rank::Unranked(unranked), Some(reason))
            }
        };
        Ok(Self {
            car,
            stop,
            car_name: source.names.cars.get(&car).cloned(),
            stop_name: source.names.stops.get(&stop).cloned(),
            strategy: sheet.policy.strategy,
            viable: asked(reason, Reason::OffLine, Reason::Cut),
            kept: asked(reason, Reason::Cut, Reason::PassedBy),
            useful: asked(reason, Reason::PassedBy, Reason::NoRank),
            rank,
        })
    }
}

/// What a question was answered whose reasons are those from the first on, before the next.
fn asked(reason: Option<Reason>, first: Reason, next: Reason) -> Option<bool> {
    match reason {
        Some(reason) if reason < first => None,
        Some(reason) if reason < next => Some(false),
        _ => Some(true),
    }
}

/// The row and the column of a ranked pair, counted from 1, and its cell.
fn place(bytes: &[u8], car: u32, stop: u32) -> Result<(usize, usize, u64), Refusal> {
    let (pass, stops) = (
        dispatch_bench::pass(bytes)?,
        dispatch_bench::pending(bytes)?,
    );
    let mut idle = dispatch_bench::cars(bytes).filter(|car| car.idle_listed);
    let row = idle.position(|record| record.id == car).unwrap_or_default();
    let column = stops.iter().position(|id| *id == stop).unwrap_or_default();
    let cell = pass.matrix.get(row * pass.columns() + column);
    let cell = cell.copied().unwrap_or(dispatch_bench::SENTINEL);
    Ok((row + 1, column + 1, cell))
}

/// What `sheet why` prints: the facts, or the refusal, in words explained.
pub fn of(source: &Source, car: u32, stop: u32, form: Form) -> String {
    match (form, Facts::of(source, car, stop)) {
        (Form::Json, facts) => format!("{}\n", forms::json(&source.file, &facts)),
        (Form::Words, Ok(facts)) => lines(&facts),
        (Form::Words, Err(_)) => explain::of(source),
        (Form::Csv, Ok(facts)) => forms::rows(&facts),
        (Form::Csv, Err(Refusal { number, offset })) => {
            format!("refused {number} at {offset}\n")
        }
    }
}
