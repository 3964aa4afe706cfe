use std::fmt;

use crate::{Refusal, library, records};

/// The terms of a pair's cost: so many places are lent.
pub const TERMS: usize = 8;

/// Why a pair of a car and a stop costs what it does, or has no rank.
#[derive(Clone, Copy, Debug, PartialEq)]
pub enum Why {
    /// It has a rank, of these terms.
    Ranked(Terms),
    /// It has none, and its cell is [`SENTINEL`](crate::SENTINEL), where it has a cell.
    Unranked(Reason),
}

/// The terms of a cost, by the strategy of the sheet. Waits are in ticks, the other times in seconds.
#[derive(Clone, Copy, Debug, PartialEq)]
pub enum Terms {
    Etd {
        /// From the car to the stop.
        travel: f64,
        /// What the riders aboard lose by the stop, summed.
        delay: f64,
        /// Halts at stops with demand on the way.
        doors: f64,
        /// For direction: 0 or below.
        bonus: f64,
        /// wait × travel + delay × delay + door × doors + bonus by the policy's weights, at least 0.
        sum: f64,
        /// The squares of the waits at the stop, summed.
        squares: f64,
        /// The waits at the stop, summed.
        waited: f64,
        /// The sum less wait_squared × squares, then less age × waited, each at least 0; a weight of 0 takes its part out.
        cost: f64,
    },
    Rsr {
        /// From the car to the stop.
        travel: f64,
        /// The running cost: the weight eta × travel.
        eta: f64,
        /// The running cost with the penalty for the wrong direction.
        direction: f64,
        /// The running cost less the bonus for a car call.
        car_call: f64,
        /// The running cost with the load.
        load: f64,
        /// The waits at the stop, summed.
        waited: f64,
        /// The running cost less age × waited.
        age: f64,
        /// At least 0.
        cost: f64,
    },
    Scan {
        /// From the car to the stop; the cost is the same.
        distance: f64,
        cost: f64,
    },
}

impl Terms {
    fn of(strategy: u64, slots: [f64; TERMS]) -> Self {
        let [a, b, c, d, e, f, g, cost] = slots;
        match strategy {
            0 => Self::Etd {
                travel: a,
                delay: b,
                doors: c,
                bonus: d,
                sum: e,
                squares: f,
                waited: g,
                cost,
            },
            1 => Self::Rsr {
                travel: a,
                eta: b,
                direction: c,
                car_call: d,
                load: e,
                waited: f,
                age: g,
                cost,
            },
            _ => Self::Scan { distance: a, cost },
        }
    }

    /// The cost: times 1,000,000, rounded and held to [`CEILING`](crate::CEILING), it is the pair's cell.
    pub fn cost(&self) -> f64 {
        match self {
            Self::Etd { cost, .. } | Self::Rsr { cost, .. } | Self::Scan { cost, .. } => *cost,
        }
    }
}

/// Why a pair has no rank, the first that holds in the order in which a pass asks. It is displayed as a sentence.
#[derive(Clone, Copy, Debug, PartialEq, Eq, Hash, PartialOrd, Ord)]
pub enum Reason {
    NoCar = 1,
    NoStop = 2,
    NotListed = 3,
    NotPending = 4,
    OffLine = 5,
    Barred = 6,
    Cut = 7,
    PassedBy = 8,
    Full = 9,
    Nobody = 10,
    OffPath = 11,
    NoRank = 12,
}

impl Reason {
    /// All of them, by rising number.
    pub const ALL: [Self; 12] = [
        Self::NoCar,
        Self::NoStop,
        Self::NotListed,
        Self::NotPending,
        Self::OffLine,
        Self::Barred,
        Self::Cut,
        Self::PassedBy,
        Self::Full,
        Self::Nobody,
        Self::OffPath,
        Self::NoRank,
    ];

    /// The number of include/dispatch_bench.h, 1 to 12.
    pub fn number(self) -> u32 {
        self as u32
    }

    /// What holds, in a sentence.
    pub fn says(self) -> &'static str {
        match self {
            Self::NoCar => "The sheet has no car with this id.",
            Self::NoStop => "The sheet has no stop with this id.",
            Self::NotListed => "The car is not idle-listed.",
            Self::NotPending => "The stop is not pending.",
            Self::OffLine => "The car's line does not serve the stop.",
            Self::Barred => "The stop is barred to the car.",
            Self::Cut => "The candidate limit cuts the stop.",
            Self::PassedBy => {
                "The car passes the stop by: it moves, is loaded to the threshold of its direction, and the stop lies ahead."
            }
            Self::Full => "The car is full.",
            Self::Nobody => {
                "Nobody who waits there can board the car, or nobody waits and no hall call is without a rider."
            }
            Self::OffPath => "The stop is off the path of the riders aboard.",
            Self::NoRank => {
                "The stop has no rank all the same: the car's speed is 0, or under SCAN the stop is behind the sweep."
            }
        }
    }

    fn of(number: u32) -> Self {
        let found = Self::ALL.into_iter().find(|r| r.number() == number);
        found.unwrap_or(Self::NoRank)
    }
}

impl fmt::Display for Reason {
    fn fmt(&self, f: &mut fmt::Formatter<'_>) -> fmt::Result {
        f.write_str(self.says())
    }
}

/// Why the car with one id costs what it does for the stop with another, or has no rank: the answer for every pair of ids, or the refusal of the
/// sheet. The terms are the library's, bit for bit those that the cell of a pass is made of.
///
/// ```
/// # let sheet = include_bytes!(concat!(env!("CARGO_MANIFEST_DIR"), "/../crates/passprint/stdin"));
/// use dispatch_bench::{Reason, Terms, Why, why};
///
/// let Why::Ranked(terms) = why(sheet, 7, 2)? else { panic!("no rank") };
/// assert_eq!(terms, Terms::Scan { distance: 10.0, cost: 10.0 });
/// assert_eq!(why(sheet, 9, 2)?, Why::Unranked(Reason::NoCar));
/// # Ok::<(), dispatch_bench::Refusal>(())
/// ```
pub fn why(sheet: &[u8], car: u32, stop: u32) -> Result<Why, Refusal> {
    let (mut slots, mut reason, mut offset) = ([0.0; TERMS], 0, 0);
    match library::why(sheet, (car, stop), &mut slots, &mut reason, &mut offset) {
        0 => Ok(match reason {
            0 => Why::Ranked(Terms::of(records::strategy(sheet), slots)),
            number => Why::Unranked(Reason::of(number)),
        }),
        number => Err(Refusal { number, offset }),
    }
}
