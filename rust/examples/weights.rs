//! Prints the six weights of a store for a day, a slot a line: `cargo run --example weights STORE DAY`. The rule of a refusal goes to standard error.
//!
//! Exit 0: weights or a refusal were printed. 1: the store cannot be read, or the lines cannot be written. 2: no store, or no day, was named.

mod files;

use std::fmt::Write as _;
use std::path::Path;
use std::process::ExitCode;

/// The lines of the weights, or of the refusal.
fn lines(store: &[u8], day: u32) -> String {
    let weights = match dispatch_bench::weights(store, day) {
        Ok(weights) => weights,
        Err(refusal) => {
            eprintln!("{refusal}\n{}", refusal.remedy());
            let place = match refusal.slot() {
                Some(slot) => format!("slot {slot}"),
                None => refusal.offset.to_string(),
            };
            return format!("refused {} at {place}\n", refusal.number);
        }
    };
    let mut lines = String::new();
    for (slot, weight) in weights.iter().enumerate() {
        let _ = writeln!(lines, "slot {slot} weight {weight}");
    }
    lines
}

fn main() -> ExitCode {
    let words: Vec<_> = std::env::args_os().skip(1).collect();
    let day = words.get(1).and_then(|word| word.to_str()?.parse().ok());
    let ([path, _], Some(day)) = (&words[..], day) else {
        eprintln!("usage: weights STORE DAY");
        return ExitCode::from(2);
    };
    let Some(store) = files::read(Path::new(path)) else {
        return ExitCode::FAILURE;
    };
    files::print(&lines(&store, day))
}
