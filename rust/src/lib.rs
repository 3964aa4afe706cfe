//! The dispatch bench for Rust hosts: one group pass of lift dispatch over a binary sheet, why a pair costs what it does, the weights of
//! a policy from a store, the grade of a choice that a site made, the seconds of a run with ramps, the choice of a matrix of cells, and a writer of
//! sheets.
//!
//! Every function of the linked library is proved to meet its contract; this crate is what a Rust host needs around it and is not proved. Each
//! function ends on every input, with an answer or a refusal, and none panics. There is no state, so any number of threads may call at once;
//! a call takes less than 64 KiB of stack. docs/manual has the format of a sheet, the rules of the refusals, and what is proved.
//!
//! ```
//! # let sheet = include_bytes!(concat!(env!("CARGO_MANIFEST_DIR"), "/../crates/passprint/stdin"));
//! let pass = dispatch_bench::pass(sheet)?;
//! let idle = dispatch_bench::cars(sheet).filter(|car| car.idle_listed);
//! for (car, decision) in idle.zip(&pass.decisions) {
//!     match decision {
//!         Some(stop) => println!("car {} goes to stop {stop}", car.id),
//!         None => println!("car {} stays idle", car.id),
//!     }
//! }
//! # Ok::<(), dispatch_bench::Refusal>(())
//! ```

#![deny(unsafe_code)]

mod by_id;
mod grade;
#[allow(unsafe_code)]
mod library;
mod lines;
mod pass;
mod pending;
mod plain;
pub mod record;
mod records;
mod refusal;
mod rules;
mod travel;
mod weights;
mod why;
mod writer;

pub use by_id::{PassById, pass_by_id};
pub use grade::{Grade, Graded, MOST_PRICE, Sent, grade, grade_into};
pub use lines::lines;
pub use pass::{
    Buffers, Decision, Pass, Summary, Sweep, SweepDirection, SweepMode, pass, pass_into,
};
pub use pending::{STOPS, pending, pending_into};
pub use plain::{NotSmall, PLAIN_CARS, PLAIN_COLUMNS, choose_plain};
pub use records::{Car, cars};
pub use refusal::Refusal;
pub use travel::{LEAST_RATE, MOST_INPUT, OutsideDomain, Run, travel_time};
pub use weights::{SLOTS, StoreEntry, StoreRefusal, weights, write_store};
pub use why::{Reason, TERMS, Terms, Why, why};
pub use writer::{NotWritten, SHEET_BYTES, SheetWriter, put_field};

/// The cell of a pair that has no rank and of a spare column, what a car that stays idle counts in the total, and the largest cell that
/// [`choose`] takes. A cost of 1 is a cell of 1,000,000.
pub const SENTINEL: u64 = 281_474_976_710_656;

/// The largest cell of a pair that has a rank: a cost that rounds to more is held down to it, and counts in `held` of a pass.
pub const CEILING: u64 = SENTINEL - 1;

/// The number of the interface that this crate is written for: DISPATCH_BENCH_VERSION of include/dispatch_bench.h. 2 since a pass answers `held`.
pub const VERSION: u32 = 2;

/// The SHA-256 of the archive that was linked, libdispatch_bench.a, in hexadecimal digits: the line `library` of the built-from beside it.
pub const LIBRARY_SHA256: &str = env!("LIBRARY_SHA256");

/// The most cars of a matrix.
const MOST_CARS: usize = 32;

/// A column for each car, with the least total.
#[derive(Clone, Debug, PartialEq, Eq)]
pub struct Choice {
    /// Distinct columns, one for each car.
    pub columns: Vec<u32>,
    /// The sum of their cells.
    pub total: u64,
}

/// The number of the linked library's interface: [`VERSION`], where the library belongs to this crate. A host that names a library of its own
/// (DISPATCH_BENCH_LIB) asks before its first pass: with one of interface 1 `held` is always 0, and a refusal's offset too.
pub fn version() -> u32 {
    library::version()
}

/// Whether a sheet is accepted.
pub fn read(sheet: &[u8]) -> Result<(), Refusal> {
    match library::read(sheet) {
        (0, _) => Ok(()),
        (number, offset) => Err(Refusal { number, offset }),
    }
}

/// The choice of one column a car with the least total; among these most cars sent, each to a column whose cell is below [`SENTINEL`]; among
/// these the lowest column for the first car, then for the second, on. The cells stand row by row.
///
/// `None`: more than 32 cars or 64 columns, fewer columns than cars, not cars × columns cells, or a cell above [`SENTINEL`].
///
/// ```
/// let choice = dispatch_bench::choose(2, 2, &[1, 2, 1, 9]).unwrap();
/// assert_eq!((choice.columns, choice.total), (vec![1, 0], 3));
/// assert_eq!(dispatch_bench::choose(2, 1, &[1, 2]), None);
/// // columns 0 and 1 have the same total and send one car
/// let cells = [1, dispatch_bench::CEILING, 2, dispatch_bench::SENTINEL];
/// let choice = dispatch_bench::choose(2, 2, &cells).unwrap();
/// assert_eq!((choice.columns, choice.total), (vec![1, 0], dispatch_bench::CEILING + 2));
/// ```
pub fn choose(cars: usize, columns: usize, cells: &[u64]) -> Option<Choice> {
    let mut chosen = [0; MOST_CARS];
    let mut total = 0;
    if !library::choose(cars, columns, cells, &mut chosen, &mut total) {
        return None;
    }
    let columns = chosen.get(..cars)?.to_vec();
    Some(Choice { columns, total })
}
