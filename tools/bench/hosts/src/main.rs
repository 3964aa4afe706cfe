//! `hosts make FOLDER` writes a sheet of each size. `hosts time FOLDER` passes each of them many times, into the same buffers and into its own, and
//! prints lines of the size, the host and microseconds a pass.

use std::hint::black_box;
use std::path::Path;
use std::time::Instant;

use dispatch_bench::{Buffers, pass, pass_into};

/// Name, stops, cars, riders, and how many passes are timed.
const SIZES: [(&str, usize, usize, usize, u32); 3] = [
    ("small", 4, 2, 6, 4_000),
    ("typical", 12, 4, 40, 1_000),
    ("full", 64, 32, 1_024, 40),
];

fn time(passes: u32, mut call: impl FnMut()) -> f64 {
    let began = Instant::now();
    for _ in 0..passes {
        call();
    }
    began.elapsed().as_secs_f64() * 1e6 / f64::from(passes)
}

fn make(folder: &Path) {
    for (size, stops, cars, riders, _) in SIZES {
        let sheet = sheetgen::generate::sized(0, stops, cars, riders, 7, 0).write();
        std::fs::write(folder.join(size), sheet).expect("the sheet is written");
    }
}

fn time_all(folder: &Path) {
    let mut buffers = Buffers::new();
    for (size, _, _, _, passes) in SIZES {
        let sheet = std::fs::read(folder.join(size)).expect("the sheet is there");
        let lent = time(passes, || {
            assert!(pass_into(black_box(&sheet), &mut buffers).is_ok());
        });
        let own = time(passes, || assert!(pass(black_box(&sheet)).is_ok()));
        println!("{size} pass_into {lent:.2}\n{size} pass {own:.2}");
    }
}

fn main() {
    let words: Vec<String> = std::env::args().skip(1).collect();
    match words.iter().map(String::as_str).collect::<Vec<_>>()[..] {
        ["make", folder] => make(Path::new(folder)),
        ["time", folder] => time_all(Path::new(folder)),
        _ => panic!("usage: hosts make FOLDER, or hosts time FOLDER"),
    }
}
