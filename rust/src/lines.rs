use std::fmt::Write as _;

use crate::{Car, Pass, Refusal, SweepDirection, SweepMode, cars, pass};

/// The lines that the proved program passprint prints of a sheet: of its pass, or of its refusal.
///
/// ```
/// # let sheet = include_bytes!(concat!(env!("CARGO_MANIFEST_DIR"), "/../crates/passprint/stdin"));
/// let lines = dispatch_bench::lines(sheet);
/// assert!(lines.starts_with("cars 2 stops 2 total 10000000 held 0\ncar 7 stop 2\n"));
/// assert_eq!(dispatch_bench::lines(b""), "refused 2 at 0\n");
/// ```
pub fn lines(sheet: &[u8]) -> String {
    match pass(sheet) {
        Ok(pass) => pass_lines(&cars(sheet).collect::<Vec<_>>(), &pass),
        Err(Refusal { number, offset }) => format!("refused {number} at {offset}\n"),
    }
}

fn pass_lines(cars: &[Car], pass: &Pass) -> String {
    let mut lines = format!(
        "cars {} stops {} total {} held {}\n",
        pass.cars, pass.stops, pass.total, pass.held
    );
    let idle = cars.iter().filter(|car| car.idle_listed);
    for (car, decision) in idle.zip(&pass.decisions) {
        let _ = match decision {
            Some(stop) => writeln!(lines, "car {} stop {stop}", car.id),
            None => writeln!(lines, "car {} idle", car.id),
        };
    }
    let swept = cars.iter().zip(&pass.sweeps);
    for (car, sweep) in swept.filter(|(car, _)| car.idle_listed) {
        let direction = match sweep.direction() {
            SweepDirection::Up => "up",
            SweepDirection::Down => "down",
        };
        let mode = match sweep.mode() {
            SweepMode::Strict => "strict",
            SweepMode::Lenient => "lenient",
        };
        let _ = writeln!(lines, "sweep {} {direction} {mode}", car.id);
    }
    lines
}
