//! The grader beside the pass, on the same sheets in turns, in one run: `cargo run --release [ROUNDS]`. The grader is sent a least choice with the
//! prices that show it, so that it looks at every pair. Medians, microseconds a sheet.

use std::time::Instant;

use dispatch_bench::{Buffers, Grade, Sent, grade_into, pass_into};
use sheetgen::generate::sized;
use sheetgen::grade::{Matrix, Solved, solve};

/// Name, stops, cars, riders, and how many sheets.
const SIZES: [(&str, usize, usize, usize, u64); 3] = [
    ("small", 4, 2, 6, 400),
    ("typical", 12, 4, 40, 400),
    ("full", 64, 32, 1_024, 40),
];

const STRATEGIES: [(&str, u8); 3] = [("ETD", 0), ("RSR", 1), ("SCAN", 2)];

/// A sheet, and a least choice of it with prices.
struct Case {
    sheet: Vec<u8>,
    solved: Solved,
}

fn case(strategy: u8, stops: usize, cars: usize, riders: usize, index: u64) -> Case {
    let sheet = sized(strategy, stops, cars, riders, 7, index).write();
    let pass = dispatch_bench::pass(&sheet).expect("an accepted sheet");
    let solved = solve(&Matrix {
        cars: pass.cars,
        stops: pass.stops,
        cells: pass.matrix,
    });
    Case { sheet, solved }
}

fn pass(cases: &[Case], buffers: &mut Buffers) -> f64 {
    let began = Instant::now();
    for case in cases {
        assert!(pass_into(&case.sheet, buffers).is_ok());
    }
    began.elapsed().as_secs_f64() * 1e6 / cases.len() as f64
}

fn grade(cases: &[Case], matrix: &mut [u64]) -> f64 {
    let began = Instant::now();
    for case in cases {
        let sent = Sent {
            columns: &case.solved.columns,
            car_prices: &case.solved.car_prices,
            column_prices: &case.solved.column_prices,
        };
        let graded = grade_into(&case.sheet, &sent, matrix).expect("an accepted sheet");
        assert_eq!(graded.grade, Grade::Least);
    }
    began.elapsed().as_secs_f64() * 1e6 / cases.len() as f64
}

fn median(mut times: Vec<f64>) -> f64 {
    times.sort_by(f64::total_cmp);
    times[times.len() / 2]
}

fn main() {
    let rounds = std::env::args().nth(1).and_then(|word| word.parse().ok());
    let rounds: usize = rounds.unwrap_or(31);
    let (mut buffers, mut matrix) = (Buffers::new(), vec![0; 2_048]);
    println!("sheets        pass us   grade us   grade / pass");
    for (size, stops, cars, riders, count) in SIZES {
        for (name, strategy) in STRATEGIES {
            let cases: Vec<Case> = (0..count)
                .map(|index| case(strategy, stops, cars, riders, index))
                .collect();
            let (mut passes, mut grades) = (Vec::new(), Vec::new());
            for _ in 0..rounds.max(1) {
                passes.push(pass(&cases, &mut buffers));
                grades.push(grade(&cases, &mut matrix));
            }
            let (pass, grade) = (median(passes), median(grades));
            println!(
                "{size:<8}{name:<5}{pass:8.2}{grade:11.2}{:15.2}",
                grade / pass
            );
        }
    }
}
