//! Sheets of the dispatch bench as text: `text` writes them, `show` shows them, `explain` says why the
//! proved library refuses one, `draw` draws a sheet and its pass. `fields` is the one table of the
//! format that they read. `store` writes and shows stores of weights, `weights` looks a day's weights up.
//! `grades` reads what a site sent to be graded, `grade` says what came of it. `ramps` reads the rates of a run
//! from a command line, `travel` has the seconds that it takes. `compare` says what differs in two sheets and their passes,
//! `proved` what is proved of these together, `raise` passes a sheet under every limit, `matrix` prints its cells. `many` works
//! on many files, `report` says of each what a line, an object of JSON (`json`) or a row (`csv`) has. `why` says why a car costs
//! what it does for a stop.
//! Verdicts, passes, costs, weights, grades and seconds come from the crate dispatch-bench; every field of a sheet or a
//! store is written by it (`bits`).

pub mod args;
mod bits;
pub mod compare;
pub mod completions;
pub mod csv;
pub mod cut;
pub mod draw;
pub mod explain;
mod faults;
pub mod fields;
pub mod files;
pub mod foreign;
pub mod grade;
pub mod grades;
pub mod json;
pub mod line;
pub mod man;
pub mod many;
pub mod matrix;
mod mend;
pub mod names;
pub mod near;
mod numbers;
pub mod proved;
pub mod raise;
pub mod ramps;
mod remedies;
mod repair;
pub mod report;
pub mod rule;
// The table of refusals is that of the crate dispatch-bench.
#[path = "../../../rust/src/rules.rs"]
pub mod rules;
pub mod show;
pub mod source;
pub mod store;
pub mod text;
pub mod travel;
pub mod usage;
pub mod value;
mod warnings;
pub mod weights;
pub mod why;
