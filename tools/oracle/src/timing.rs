//! From bytes to decisions: the bench beside the Rust, on the same sheets in one process.

use crate::bench::{Bench, Lent};
use crate::rust_pass::Rust;
use sheetgen::rng::Rng;
use sheetgen::twin::twin;
use std::time::{Duration, Instant};

/// Name, stops, cars and riders.
const SIZES: [(&str, usize, usize, usize); 3] = [
    ("small", 4, 2, 6),
    ("typical", 12, 4, 40),
    ("full", 64, 32, 1024),
];

const STRATEGIES: [(&str, u8); 3] = [("ETD", 0), ("RSR", 1), ("SCAN", 2)];

/// The least time of a few rounds over the same sheets: what other programs take of the machine only adds.
fn least(rounds: usize, mut round: impl FnMut() -> Duration) -> Duration {
    (0..rounds).map(|_| round()).min().unwrap()
}

fn micros(time: Duration, sheets: usize) -> f64 {
    time.as_secs_f64() * 1e6 / sheets as f64
}

const PAINTED: usize = 512 * 1024;

/// Fills the stack below its caller, and says where.
#[inline(never)]
fn paint() -> usize {
    let mut area = [0xa5u8; PAINTED];
    std::hint::black_box(&mut area).as_ptr() as usize
}

/// How much of the painted stack a call has overwritten.
fn stack_of(mut call: impl FnMut()) -> usize {
    let low = paint();
    call();
    let kept = (low..low + PAINTED)
        .take_while(|&at| unsafe { std::ptr::read_volatile(at as *const u8) } == 0xa5)
        .count();
    PAINTED - kept
}

/// The sheets of RSR, whose idle-listed cars are half full and stopped, under this load weight.
fn loaded(size: (&str, usize, usize, usize), count: u64, weight: f64) -> Vec<Vec<u8>> {
    let (_, stops, cars, riders) = size;
    let sheet = |i| {
        let mut sheet = sheetgen::generate::sized(1, stops, cars, riders, 7, i);
        sheet.policy.weights[3] = weight;
        for car in sheet.cars.iter_mut().filter(|c| c.idle) {
            (car.phase, car.stop, car.target) = (6, 0, None);
            car.load = car.capacity / 2.0;
        }
        sheet.write()
    };
    (0..count).map(sheet).collect()
}

/// The least time of each list of sheets, passed in turns.
fn in_turns(
    bench: &mut dyn Bench,
    lent: &mut Lent,
    lists: [&[Vec<u8>]; 2],
    rounds: usize,
) -> [Duration; 2] {
    let mut least = [Duration::MAX; 2];
    for _ in 0..rounds {
        for (least, sheets) in least.iter_mut().zip(lists) {
            let began = Instant::now();
            for sheet in sheets {
                assert_eq!(bench.pass(sheet, lent), 0);
            }
            *least = (*least).min(began.elapsed());
        }
    }
    least
}

/// A line for each size: RSR with the load's part beside the same sheets with a load weight of 0, the rounds in turn.
fn load_table(bench: &mut dyn Bench, rounds: usize) {
    let mut lent = Lent::new(32, 2048, 32);
    println!("RSR          load weight 3 us   load weight 0 us   ratio");
    for size in SIZES {
        let count = if size.0 == "full" { 40 } else { 400 };
        let (with, without) = (loaded(size, count, 3.0), loaded(size, count, 0.0));
        let [ours, plain] = in_turns(bench, &mut lent, [&with, &without], rounds);
        println!(
            "{:<13}{:16.2}{:19.2}{:8.2}",
            size.0,
            micros(ours, with.len()),
            micros(plain, with.len()),
            ours.as_secs_f64() / plain.as_secs_f64()
        );
    }
}

/// A line for each size: sheets of edition 2 beside their twins of edition 1, all strategies, the rounds in turn.
fn edition_table(bench: &mut dyn Bench, rounds: usize) {
    let mut lent = Lent::new(32, 2048, 32);
    println!("edition      edition 2 us   edition 1 twin us   ratio");
    for (size, stops, cars, riders) in SIZES {
        let count: u64 = if size == "full" { 40 } else { 400 };
        let second = |i: u64| {
            let strategy = (i % 3) as u8;
            let mut sheet = sheetgen::generate::sized(strategy, stops, cars, riders, 7, i);
            sheetgen::generate::sideways(&mut Rng::new(7, 3000, i), &mut sheet);
            sheet.write()
        };
        let seconds: Vec<Vec<u8>> = (0..3 * count).map(second).collect();
        let firsts: Vec<Vec<u8>> = seconds.iter().map(|bytes| twin(bytes)).collect();
        if bench.read(&seconds[0]).0 == 3 {
            println!("{size:<13}not timed: the library does not know edition 2");
            continue;
        }
        let [ours, plain] = in_turns(bench, &mut lent, [&seconds, &firsts], rounds);
        println!(
            "{size:<13}{:12.2}{:20.2}{:8.2}",
            micros(ours, seconds.len()),
            micros(plain, seconds.len()),
            ours.as_secs_f64() / plain.as_secs_f64()
        );
    }
}

/// Calls for two seconds, untimed: a machine that was idle is slower for a while, and the first line would show it.
fn warm_up(mut call: impl FnMut()) {
    let start = Instant::now();
    while start.elapsed() < Duration::from_secs(2) {
        call();
    }
}

/// A line for each size and strategy, then what the load's part takes, then what edition 2 does.
pub fn table(bench: &mut dyn Bench, rounds: usize) {
    let mut rust = Rust::new();
    let mut lent = Lent::new(32, 2048, 32);
    let full = sheetgen::generate::sized(0, 64, 32, 1024, 7, 0).write();
    let stack = stack_of(|| assert_eq!(bench.pass(&full, &mut lent), 0));
    println!("stack of a pass over a full sheet: {stack} bytes");
    warm_up(|| assert_eq!(bench.pass(&full, &mut lent), 0));
    println!("sheets       bench us   Rust pass us   Rust all us   bench / pass   bench / all");
    for (size, stops, cars, riders) in SIZES {
        for (name, strategy) in STRATEGIES {
            let count = if size == "full" { 40 } else { 400 };
            let sheets: Vec<Vec<u8>> = (0..count)
                .map(|i| sheetgen::generate::sized(strategy, stops, cars, riders, 7, i).write())
                .collect();
            let ours = least(rounds, || {
                let began = Instant::now();
                for sheet in &sheets {
                    assert_eq!(bench.pass(sheet, &mut lent), 0);
                }
                began.elapsed()
            });
            let (mut pass, mut all) = (Duration::MAX, Duration::MAX);
            for _ in 0..rounds {
                let (mut built, mut passed) = (Duration::ZERO, Duration::ZERO);
                for sheet in &sheets {
                    let (b, p) = rust.timed(sheet);
                    built += b;
                    passed += p;
                }
                pass = pass.min(passed);
                all = all.min(built + passed);
            }
            let n = sheets.len();
            println!(
                "{size:<8}{name:<5}{:8.2}{:15.2}{:14.2}{:15.2}{:14.2}",
                micros(ours, n),
                micros(pass, n),
                micros(all, n),
                ours.as_secs_f64() / pass.as_secs_f64(),
                ours.as_secs_f64() / all.as_secs_f64()
            );
        }
    }
    load_table(bench, rounds);
    edition_table(bench, rounds);
}

/// A line for each size: reading a sheet and passing it, by two libraries in turns, and the newer one's part of the older one's time.
pub fn beside(mut benches: [Box<dyn Bench>; 2], rounds: usize) {
    let mut lent = Lent::new(32, 2048, 32);
    println!(
        "sheets       older read us   newer read us   ratio   older pass us   newer pass us   ratio"
    );
    for (size, stops, cars, riders) in SIZES {
        let count: u64 = if size == "full" { 40 } else { 400 };
        let sheets: Vec<Vec<u8>> = (0..3 * count)
            .map(|i| sheetgen::generate::sized((i % 3) as u8, stops, cars, riders, 7, i).write())
            .collect();
        let mut least = [Duration::MAX; 4];
        for _ in 0..rounds {
            for (side, bench) in benches.iter_mut().enumerate() {
                let began = Instant::now();
                for sheet in &sheets {
                    assert_eq!(bench.read(sheet).0, 0);
                }
                let read = began.elapsed();
                for sheet in &sheets {
                    assert_eq!(bench.pass(sheet, &mut lent), 0);
                }
                least[side] = least[side].min(read);
                least[2 + side] = least[2 + side].min(began.elapsed() - read);
            }
        }
        let us = least.map(|time| micros(time, sheets.len()));
        println!(
            "{size:<13}{:13.2}{:16.2}{:8.2}{:16.2}{:16.2}{:8.2}",
            us[0],
            us[1],
            us[1] / us[0],
            us[2],
            us[3],
            us[3] / us[2]
        );
    }
}
