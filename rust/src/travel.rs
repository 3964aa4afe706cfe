use std::fmt;

use crate::{library, rules};

/// The largest size of an input of a travel time.
pub const MOST_INPUT: f64 = 1_000_000.0;

/// The least top speed and the least rate that is above zero.
pub const LEAST_RATE: f64 = 0.0009765625;

/// A run that ends at rest, in units of length and seconds. A sheet holds no rates: the caller supplies them.
#[derive(Clone, Copy, Debug, PartialEq)]
pub struct Run {
    pub distance: f64,
    /// At the start: below zero it counts as 0, above the top speed as that.
    pub speed: f64,
    pub top_speed: f64,
    pub acceleration: f64,
    pub deceleration: f64,
}

/// Why there is no travel time: an input is a NaN or beyond [`MOST_INPUT`] either way, or the top speed or a rate lies above 0 and below
/// [`LEAST_RATE`]. It is displayed with its number and the rule; [`remedy`](OutsideDomain::remedy) says what to do.
#[derive(Clone, Copy, Debug, PartialEq, Eq, Hash)]
pub struct OutsideDomain;

impl OutsideDomain {
    /// The refusal's number.
    pub const NUMBER: u32 = 21;

    /// The rule that the number stands for.
    pub fn rule(&self) -> &'static str {
        rules::rule(Self::NUMBER).map_or("", |rule| rule.says)
    }

    /// What puts an end to the refusal.
    pub fn remedy(&self) -> &'static str {
        rules::rule(Self::NUMBER).map_or("", |rule| rule.remedy)
    }
}

impl fmt::Display for OutsideDomain {
    fn fmt(&self, f: &mut fmt::Formatter<'_>) -> fmt::Result {
        write!(f, "refused {}: {}", Self::NUMBER, self.rule())
    }
}

impl std::error::Error for OutsideDomain {}

/// The seconds of a run with ramps, as elevator-core's `travel_time` (eta.rs) gives them, bit for bit. A finite number; 0 where the distance, the
/// top speed or a rate is not above zero. For a distance and a speed that are nearly zero it can come out below zero (docs/DIFFERENCES.md).
///
/// ```
/// use dispatch_bench::{OutsideDomain, Run, travel_time};
///
/// let run = Run { distance: 12.0, speed: 0.0, top_speed: 2.0, acceleration: 1.0, deceleration: 1.0 };
/// assert_eq!(travel_time(&run), Ok(8.0));
/// let crawl = Run { acceleration: 0.0001, ..run };
/// assert_eq!(travel_time(&crawl), Err(OutsideDomain));
/// ```
pub fn travel_time(run: &Run) -> Result<f64, OutsideDomain> {
    let mut time = 0.0;
    match library::travel_time(run, &mut time) {
        0 => Ok(time),
        _ => Err(OutsideDomain),
    }
}
