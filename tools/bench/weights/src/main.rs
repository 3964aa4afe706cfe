//! `tools/library`, then `cargo run --release` here. The proved look-up of weights beside three plain ones in Rust, which do the same work: every record
//! tested, disagreeing ones found, six slots looked up. One finds them pair by pair, as the proved one does, one by a sort, one by a table. All four
//! are asked of the same stores in turns; the median of each one's times is printed, and the ratios of the proved one's to that by pairs and to the
//! fastest of the three.

mod plain;

use std::hint::black_box;
use std::time::Instant;

use plain::Refused;
use sheetgen::rng::Rng;
use sheetgen::store::{Record, write};
use sheetgen::stores::{PROFILES, generate};

const ROUNDS: usize = 201;
const DAY: u32 = 20_500;

fn proved(store: &[u8], day: u32) -> Result<[f64; 6], Refused> {
    dispatch_bench::weights(store, day).map_err(|refusal| (refusal.number, refusal.offset))
}

/// So many records, all different in setting, start and issue: each slot from one day on, then corrections and later starts, in no order.
fn corrected(count: usize) -> Vec<u8> {
    let mut rng = Rng::new(1, 0, count as u64);
    let mut records: Vec<Record> = (0..count)
        .map(|i| {
            let (slot, turn) = (i % 6, i / 6);
            let start = 20_000 + 40 * (turn / 3) as u32;
            Record::new(
                slot as u8,
                start,
                (turn % 3) as u16,
                rng.between(0.0, 100.0),
            )
        })
        .collect();
    for i in (1..count).rev() {
        records.swap(i, rng.below(i + 1));
    }
    write(&records)
}

/// The six slots, repeated up to so many records.
fn repeated(count: usize) -> Vec<u8> {
    let record = |i: usize| Record::new((i % 6) as u8, 20_000, 0, (i % 6) as f64);
    write(&(0..count).map(record).collect::<Vec<_>>())
}

/// The last of so many records disagrees with the first.
fn two_values(count: usize) -> Vec<u8> {
    let mut bytes = corrected(count - 1);
    let mut first: Vec<u8> = bytes[..15].to_vec();
    first[14] ^= 1;
    bytes.extend(first);
    bytes
}

fn micros(calls: u32, mut one: impl FnMut()) -> f64 {
    let start = Instant::now();
    for _ in 0..calls {
        one();
    }
    start.elapsed().as_secs_f64() * 1e6 / f64::from(calls)
}

fn median(mut times: Vec<f64>) -> f64 {
    times.sort_by(f64::total_cmp);
    times[times.len() / 2]
}

type LookUp = fn(&[u8], u32) -> Result<[f64; 6], Refused>;

/// The medians of the four, which take turns.
fn times(store: &[u8]) -> [f64; 4] {
    let look_ups: [LookUp; 4] = [proved, plain::by_pairs, plain::by_sort, plain::by_table];
    let mut times = [const { Vec::new() }; 4];
    for _ in 0..ROUNDS {
        for (look_up, times) in look_ups.iter().zip(&mut times) {
            times.push(micros(20, || {
                let _ = black_box(look_up(black_box(store), black_box(DAY)));
            }));
        }
    }
    times.map(median)
}

/// The plain ones answer as the proved one does, on stores of every sort.
fn agree() {
    let is_same = |store: &[u8], day: u32| {
        let bits = |answer: Result<[f64; 6], Refused>| answer.map(|six| six.map(f64::to_bits));
        let wanted = bits(proved(store, day));
        assert_eq!(bits(plain::by_pairs(store, day)), wanted);
        assert_eq!(bits(plain::by_sort(store, day)), wanted);
        assert_eq!(bits(plain::by_table(store, day)), wanted);
    };
    for (_, profile) in PROFILES {
        for index in 0..2_000 {
            let case = generate(profile, 5, index);
            is_same(&case.bytes, case.day);
        }
    }
}

fn main() {
    agree();
    println!(
        "{:30}{:>11}{:>11}{:>11}{:>12}{:>10}{:>12}",
        "store", "pairs, us", "sort, us", "table, us", "proved, us", "to pairs", "to fastest"
    );
    for (name, store) in [
        ("6 records", corrected(6)),
        ("60 records", corrected(60)),
        ("256 records", corrected(256)),
        ("256 records, 6 repeated", repeated(256)),
        ("256 records, the last is 17", two_values(256)),
    ] {
        let [proved, pairs, sort, table] = times(&store);
        let (to_pairs, to_fastest) = (proved / pairs, proved / pairs.min(sort).min(table));
        println!(
            "{name:30}{pairs:11.2}{sort:11.2}{table:11.2}{proved:12.2}{to_pairs:10.2}{to_fastest:12.2}"
        );
    }
}
