//! Writes a sheet record by record, document 01's example, and asks whether it is accepted: `cargo run --example write SHEET`.
//!
//! Exit 0: the sheet is written. 1: it cannot be, or a record is not taken, or the sheet is refused. 2: no sheet was named.

use std::error::Error;
use std::path::Path;
use std::process::ExitCode;

use dispatch_bench::record::{Car, Demand, Edition, Line, Policy, Stop, Strategy, Traffic, mask};
use dispatch_bench::{NotWritten, SheetWriter, read};

fn sheet() -> Result<Vec<u8>, NotWritten> {
    let mut writer = SheetWriter::new(Edition::First);
    writer.put(Policy {
        strategy: Strategy::Scan,
        limit: None,
        tick_rate: 60.0,
        traffic: Traffic::Idle,
    })?;
    for (id, position) in [(1, 0.0), (2, 10.0), (3, 20.0)] {
        writer.put(Stop {
            id,
            position,
            ..Stop::default()
        })?;
    }
    let serves = mask(0..3).unwrap_or(0);
    writer.put(Line { id: 1, serves })?;
    for (id, position) in [(7, 0.0), (8, 20.0)] {
        writer.put(Car {
            id,
            line: 1,
            idle_listed: true,
            going_up: true,
            going_down: true,
            position,
            max_speed: 2.0,
            capacity: 100.0,
            ..Car::default()
        })?;
    }
    for stop in [2, 3] {
        writer.put(Demand {
            stop,
            riding_count: 0,
            riderless_call: true,
        })?;
    }
    Ok(writer.finish())
}

fn write(path: &Path) -> Result<(), Box<dyn Error>> {
    let sheet = sheet()?;
    read(&sheet)?;
    let written = std::fs::write(path, sheet);
    written.map_err(|error| format!("it cannot be written: {}", error.kind()).into())
}

fn main() -> ExitCode {
    let Some(path) = std::env::args_os().nth(1) else {
        eprintln!("usage: write SHEET");
        return ExitCode::from(2);
    };
    match write(Path::new(&path)) {
        Ok(()) => ExitCode::SUCCESS,
        Err(error) => {
            eprintln!("{}: {error}", path.display());
            ExitCode::FAILURE
        }
    }
}
