//! The sheet of the dispatch bench, written from documents 01 and 02 alone: its records and their bits, a reader
//! that gives each byte string its refusal, generators of sheets from a seed, and a shrinker. The store of
//! weights, written from document 02 alone: the same of it, and the look-up for a day. What the grader answers to a
//! site's choice, with choices and prices from a seed.

pub mod bits;
pub mod describe;
pub mod generate;
pub mod grade;
pub mod grades;
pub mod provoke;
pub mod reader;
pub mod rng;
pub mod sheet;
pub mod shrink;
pub mod store;
pub mod stores;
pub mod twin;

pub use reader::{Refusal, read};
pub use sheet::{Aboard, Car, Demand, Line, Policy, Sheet, Stop, Waiting};
