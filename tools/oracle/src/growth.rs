//! How the time of a pass grows with riders, cars and stops, the bench beside the Rust: a table, and a picture of it.

use crate::bench::{Bench, Lent};
use crate::rust_pass::Rust;
use std::fmt::Write;
use std::time::{Duration, Instant};

/// What grows, and its values; the two that stand still are the full sheet's, but for the riders, which are half as many.
const SERIES: [(&str, &[usize]); 3] = [
    ("riders", &[0, 64, 128, 256, 384, 512, 768, 1024]),
    ("cars", &[1, 2, 4, 8, 16, 24, 32]),
    ("stops", &[2, 4, 8, 16, 32, 48, 64]),
];

const STRATEGIES: u64 = 3;
const SHEETS: u64 = 4 * STRATEGIES;

/// Microseconds a sheet: the bench from bytes to decisions, the Rust likewise, and its group pass alone.
struct Point {
    size: usize,
    times: [f64; 3],
}

const NAMES: [&str; 3] = ["bench", "Rust, bytes to decisions", "Rust pass alone"];
const COLOURS: [&str; 3] = ["#0b6e4f", "#b3541e", "#5b5f97"];

fn sheets(grows: &str, size: usize) -> Vec<Vec<u8>> {
    let (stops, cars, riders) = match grows {
        "riders" => (64, 32, size),
        "cars" => (64, size, 512),
        _ => (size, 32, 512),
    };
    let sheet =
        |i| sheetgen::generate::sized((i % STRATEGIES) as u8, stops, cars, riders, 7, i).write();
    (0..SHEETS).map(sheet).collect()
}

/// The least of so many rounds, the two sides in turns.
fn time(
    bench: &mut dyn Bench,
    rust: &mut Rust,
    lent: &mut Lent,
    sheets: &[Vec<u8>],
    rounds: usize,
) -> [f64; 3] {
    let mut least = [Duration::MAX; 3];
    for _ in 0..rounds {
        let began = Instant::now();
        for sheet in sheets {
            assert_eq!(bench.pass(sheet, lent), 0);
        }
        least[0] = least[0].min(began.elapsed());
        let (mut built, mut passed) = (Duration::ZERO, Duration::ZERO);
        for sheet in sheets {
            let (b, p) = rust.timed(sheet);
            built += b;
            passed += p;
        }
        least[1] = least[1].min(built + passed);
        least[2] = least[2].min(passed);
    }
    least.map(|time| time.as_secs_f64() * 1e6 / sheets.len() as f64)
}

/// A step for an axis of about four marks: 1, 2 or 5 times a power of ten.
fn step(most: f64) -> f64 {
    let power = 10f64.powf((most / 4.0).log10().floor());
    [1.0, 2.0, 5.0, 10.0]
        .map(|m| m * power)
        .into_iter()
        .find(|s| most / s <= 5.0)
        .unwrap_or(10.0 * power)
}

/// One panel, with its left lower corner at (left, 250), 230 wide and 200 high.
fn panel(svg: &mut String, left: f64, grows: &str, points: &[Point]) {
    let most_x = points.iter().map(|p| p.size).max().unwrap_or(1) as f64;
    let most_y = points.iter().flat_map(|p| p.times).fold(0.0, f64::max);
    let x = |size: usize| left + 230.0 * size as f64 / most_x;
    let y = |time: f64| 250.0 - 200.0 * time / most_y;
    let up = step(most_y);
    let mut mark = 0.0;
    while mark <= most_y {
        let at = y(mark);
        writeln!(
            svg,
            "<line x1=\"{left:.1}\" y1=\"{at:.1}\" x2=\"{:.1}\" y2=\"{at:.1}\" stroke=\"#ddd\"/><text x=\"{:.1}\" y=\"{:.1}\" \
             text-anchor=\"end\">{mark:.0}</text>",
            left + 230.0,
            left - 6.0,
            at + 4.0
        )
        .unwrap();
        mark += up;
    }
    for part in 0..=4 {
        let size = most_x as usize * part / 4;
        writeln!(
            svg,
            "<line x1=\"{0:.1}\" y1=\"250\" x2=\"{0:.1}\" y2=\"254\" stroke=\"#555\"/><text x=\"{0:.1}\" y=\"268\" \
             text-anchor=\"middle\">{size}</text>",
            x(size)
        )
        .unwrap();
    }
    for (side, colour) in COLOURS.iter().enumerate() {
        let line: Vec<String> = points
            .iter()
            .map(|p| format!("{:.1},{:.1}", x(p.size), y(p.times[side])))
            .collect();
        writeln!(
            svg,
            "<polyline points=\"{}\" fill=\"none\" stroke=\"{colour}\" stroke-width=\"2\"/>",
            line.join(" ")
        )
        .unwrap();
        for p in points {
            writeln!(
                svg,
                "<circle cx=\"{:.1}\" cy=\"{:.1}\" r=\"2.5\" fill=\"{colour}\"/>",
                x(p.size),
                y(p.times[side])
            )
            .unwrap();
        }
    }
    let middle = left + 115.0;
    writeln!(
        svg,
        "<text x=\"{middle:.1}\" y=\"288\" text-anchor=\"middle\">{grows}</text>"
    )
    .unwrap();
}

fn picture(series: &[(&str, Vec<Point>)]) -> String {
    let mut svg = String::from(
        "<svg xmlns=\"http://www.w3.org/2000/svg\" viewBox=\"0 0 960 300\" font-family=\"sans-serif\" font-size=\"12\" fill=\"#222\">\n\
         <title>Microseconds a sheet as riders, cars and stops grow</title>\n\
         <rect width=\"960\" height=\"300\" fill=\"#fff\"/>\n\
         <text x=\"20\" y=\"20\">microseconds a sheet</text>\n",
    );
    for (side, (name, colour)) in NAMES.iter().zip(COLOURS).enumerate() {
        let left = 200 + 210 * side;
        writeln!(
            svg,
            "<line x1=\"{left}\" y1=\"16\" x2=\"{}\" y2=\"16\" stroke=\"{colour}\" stroke-width=\"2\"/><text x=\"{}\" y=\"20\">{name}</text>",
            left + 24,
            left + 30
        )
        .unwrap();
    }
    for (at, (grows, points)) in series.iter().enumerate() {
        panel(&mut svg, 60.0 + 310.0 * at as f64, grows, points);
    }
    svg.push_str("</svg>\n");
    svg
}

/// A line for each size, and the picture.
pub fn growth(bench: &mut dyn Bench, rounds: usize) -> String {
    let mut rust = Rust::new();
    let mut lent = Lent::new(32, 2048, 32);
    println!(
        "| grows | size | bench | Rust pass | Rust, bytes to decisions | bench / Rust pass | bench / Rust, bytes to decisions |"
    );
    println!("|---|---|---|---|---|---|---|");
    let mut series = Vec::new();
    for (grows, sizes) in SERIES {
        let mut points = Vec::new();
        for &size in sizes {
            let sheets = sheets(grows, size);
            let times = time(bench, &mut rust, &mut lent, &sheets, rounds);
            let [ours, all, pass] = times;
            println!(
                "| {grows} | {size} | {ours:.1} | {pass:.1} | {all:.1} | {:.2} | {:.2} |",
                ours / pass,
                ours / all
            );
            points.push(Point { size, times });
        }
        series.push((grows, points));
    }
    picture(&series)
}
