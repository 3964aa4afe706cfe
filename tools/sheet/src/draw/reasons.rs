//! Why a cell has no rank: the library's reason. The rank of a cell that the limit cut is the library's answer to the same sheet without its limit.

use dispatch_bench::{Pass, Reason, SENTINEL, Why};
use sheetgen::Sheet;
use sheetgen::sheet::NO_LIMIT;

use super::{Chosen, cell};

#[derive(Clone, Copy, Debug, PartialEq, Eq)]
pub enum NoRank {
    /// The column stands for no stop.
    Spare,
    /// The car's line does not serve the stop.
    Line,
    /// The line serves the stop, but it is barred to the car.
    Barred,
    /// Without the limit the cell has this rank.
    Cut(u64),
    /// The cell has no rank without the limit either.
    Other(Reason),
}

impl NoRank {
    pub fn word(self) -> &'static str {
        match self {
            NoRank::Spare => "spare",
            NoRank::Line => "off the line",
            NoRank::Barred => "barred",
            NoRank::Cut(_) => "cut",
            NoRank::Other(_) => "no rank",
        }
    }

    /// What the legend says of its mark.
    pub fn words(self) -> &'static str {
        match self {
            NoRank::Spare => "a spare column, no stop",
            NoRank::Line => "the car's line does not serve the stop",
            NoRank::Barred => "the stop is barred to the car",
            NoRank::Cut(_) => "cut by the candidate limit, a rank without it",
            NoRank::Other(_) => "no rank",
        }
    }
}

pub struct Reasons<'a> {
    chosen: &'a Chosen,
    /// The pass without the limit, where there is one.
    lifted: Option<Pass>,
}

impl<'a> Reasons<'a> {
    pub fn new(sheet: &Sheet, chosen: &'a Chosen) -> Self {
        Self {
            chosen,
            lifted: lifted(sheet, &chosen.pass),
        }
    }

    /// `None` where the cell has a rank.
    pub fn of(&self, row: usize, column: usize) -> Option<NoRank> {
        let reason = match self.chosen.why(row, column) {
            None => return Some(NoRank::Spare),
            Some(Why::Ranked(_)) => return None,
            Some(Why::Unranked(reason)) => reason,
        };
        let lifted = self.lifted.as_ref();
        let rank = || cell(lifted?, row, column).filter(|cell| *cell < SENTINEL);
        Some(match reason {
            Reason::OffLine => NoRank::Line,
            Reason::Barred => NoRank::Barred,
            Reason::Cut => rank().map_or(NoRank::Other(reason), NoRank::Cut),
            _ => NoRank::Other(reason),
        })
    }
}

/// The pass of the same sheet without its limit, whose rows and columns are the same.
fn lifted(sheet: &Sheet, pass: &Pass) -> Option<Pass> {
    if sheet.policy.limit == NO_LIMIT {
        return None;
    }
    let mut without = sheet.clone();
    without.policy.limit = NO_LIMIT;
    let other = dispatch_bench::pass(&without.write()).ok()?;
    ((other.cars, other.stops) == (pass.cars, pass.stops)).then_some(other)
}
