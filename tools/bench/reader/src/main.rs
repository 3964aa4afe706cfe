//! `tools/library`, then `cargo run --release` here. Both readers read the same full sheet (every table full, each id looked up),
//! in turns, once in each edition; the median of each side's times and their ratio are printed.

use sheetgen::{Aboard, Car, Demand, Line, Sheet, Stop, Waiting};
use std::hint::black_box;
use std::time::Instant;

/// 64 stops, 8 lines, 32 cars, 512 aboard, 512 waiting, 64 demands, 64 closed landings: 26,515 bytes, in edition 2 27,283.
fn full(edition: u8) -> Vec<u8> {
    let mut s = Sheet::new(sheetgen::sheet::SCAN);
    s.edition = edition;
    s.stops = (0..64)
        .map(|k| Stop {
            id: 7 * k + 5,
            position: f64::from(k),
            across: f64::from(k % 5),
        })
        .collect();
    s.lines = (0..8)
        .map(|k| Line {
            id: 3 * k + 1,
            mask: u64::MAX,
        })
        .collect();
    s.cars = (0..32)
        .map(|k| Car {
            id: 11 * k + 2,
            position: f64::from(k),
            across: f64::from(k % 3),
            ..Car::parked(3 * (k % 8) + 1)
        })
        .collect();
    s.aboard = (0..512)
        .map(|k| Aboard {
            car: 11 * (k % 32) + 2,
            destination: Some(7 * (k % 64) + 5),
        })
        .collect();
    s.waiting = (0..512)
        .map(|k| Waiting {
            stop: 7 * (k * 37 % 64) + 5,
            line: Some(1),
            destination: Some(5),
            weight: 70.0,
            wait: u64::from(k),
        })
        .collect();
    s.demands = (0..64)
        .map(|k| Demand {
            stop: 7 * k + 5,
            riding: 1,
            call: false,
        })
        .collect();
    s.closed = (0..64).map(|k| 7 * (k * 37 % 64) + 5).collect();
    s.write()
}

fn micros(rounds: u32, mut one: impl FnMut()) -> f64 {
    let start = Instant::now();
    for _ in 0..rounds {
        one();
    }
    start.elapsed().as_secs_f64() * 1e6 / f64::from(rounds)
}

fn median(mut times: Vec<f64>) -> f64 {
    times.sort_by(f64::total_cmp);
    times[times.len() / 2]
}

fn main() {
    for edition in [1, 2] {
        time(edition);
    }
}

fn time(edition: u8) {
    let sheet = full(edition);
    assert_eq!(
        (dispatch_bench::read(&sheet), sheetgen::read(&sheet)),
        (Ok(()), None),
        "both readers accept the sheet"
    );
    let (mut proved, mut plain) = (Vec::new(), Vec::new());
    for _ in 0..31 {
        proved.push(micros(20, || {
            let _ = black_box(dispatch_bench::read(black_box(&sheet)));
        }));
        plain.push(micros(20, || {
            black_box(sheetgen::read(black_box(&sheet)));
        }));
    }
    let (proved, plain) = (median(proved), median(plain));
    println!(
        "edition {edition}, {} bytes: proved {proved:.1} us, plain Rust {plain:.1} us, ratio {:.2}",
        sheet.len(),
        proved / plain
    );
}
