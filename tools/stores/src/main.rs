//! The proved look-up of weights and the second one on the same stores: numbers, offsets, the bits of the answers, and what is left in every lent
//! place (`tools/compare --stores`).

mod lent;

use std::process::ExitCode;

use lent::{Left, library, second};
use sheetgen::store::{FAULTS, Fault, RECORD_BYTES, Reading, records};
use sheetgen::stores::{Case, PROFILES, generate};

const USAGE: &str = "\
stores compare SEED COUNT [PROFILE]   COUNT stores of each profile
stores selftest [COUNT]               second look-ups that are wrong on purpose must be found out, in COUNT stores a profile";

/// The numbers that a call answers.
const NUMBERS: [u32; 8] = [0, 1, 2, 7, 8, 11, 17, 18];

fn differ(case: &Case, reading: &Reading) -> Option<(Left, Left)> {
    let (found, wanted) = (library(case), second(case, reading));
    (found != wanted).then_some((found, wanted))
}

/// The case with as few records, and with as few bytes, as still differ.
fn shrunk(mut case: Case, reading: &Reading) -> Case {
    let mut length = RECORD_BYTES;
    while length > 0 {
        let mut at = 0;
        while at + length <= case.bytes.len() {
            let mut less = case.clone();
            less.bytes.drain(at..at + length);
            if differ(&less, reading).is_some() {
                case = less;
            } else {
                at += length;
            }
        }
        length /= RECORD_BYTES;
    }
    case
}

/// A case in words.
fn describe(case: &Case, found: &Left, wanted: &Left) -> String {
    let mut lines = format!(
        "  day {}, {} places, {} bytes\n",
        case.day,
        case.places,
        case.bytes.len()
    );
    for (i, r) in records(&case.bytes).iter().enumerate().take(20) {
        lines += &format!(
            "  record {}: setting {} start {} issue {} value {:?} ({:016x})\n",
            i + 1,
            r.setting,
            r.start,
            r.issue,
            r.double(),
            r.value
        );
    }
    for (name, left) in [("library", found), ("second", wanted)] {
        lines += &format!("  {name}: {} at {}, places", left.number, left.offset);
        for place in left.places {
            lines += &format!(" {place:016x}");
        }
        lines += "\n";
    }
    lines
}

/// The first case of any profile that differs, shrunk, in words.
fn first_difference(reading: &Reading, seed: u64, count: u64) -> Option<String> {
    let places = PROFILES
        .iter()
        .flat_map(|p| (0..count).map(move |k| (p, k)));
    for ((name, profile), index) in places {
        let case = generate(*profile, seed, index);
        if differ(&case, reading).is_some() {
            let case = shrunk(case, reading);
            let (found, wanted) = differ(&case, reading)?;
            let words = describe(&case, &found, &wanted);
            return Some(format!("{name} {seed} {index}\n{words}"));
        }
    }
    None
}

/// A line of the table.
fn row(name: &str, counts: &[u64]) {
    let counts: String = counts.iter().map(|count| format!("{count:>9}")).collect();
    println!("{name:12}{counts}");
}

/// The answers of each profile by number; whether all were the same.
fn compare(seed: u64, count: u64, only: Option<&str>) -> Result<bool, String> {
    let reading = Reading { fault: None };
    let mut all = [0; NUMBERS.len()];
    println!("seed {seed}, {count} stores a profile; how many are answered by each number");
    row("profile", &NUMBERS.map(u64::from));
    for (name, profile) in PROFILES {
        if only.is_some_and(|only| only != name) {
            continue;
        }
        let mut counts = [0; NUMBERS.len()];
        for index in 0..count {
            let case = generate(profile, seed, index);
            if differ(&case, &reading).is_some() {
                let case = shrunk(case, &reading);
                if let Some((found, wanted)) = differ(&case, &reading) {
                    print!(
                        "DIFFERENCE: {name} {seed} {index}\n{}",
                        describe(&case, &found, &wanted)
                    );
                }
                return Ok(false);
            }
            let number = second(&case, &reading).number;
            let place = NUMBERS.iter().position(|n| *n == number);
            counts[place.ok_or(format!("{number} is no number of a store"))?] += 1;
        }
        row(name, &counts);
        for (sum, counted) in all.iter_mut().zip(counts) {
            *sum += counted;
        }
    }
    row("all", &all);
    println!("{} stores, no difference", all.iter().sum::<u64>());
    let unseen: Vec<u32> = (0..8)
        .filter(|k| all[*k] == 0)
        .map(|k| NUMBERS[k])
        .collect();
    if only.is_none() && !unseen.is_empty() {
        println!("NOT SEEN: {unseen:?}");
        return Ok(false);
    }
    Ok(true)
}

/// Each fault of the second look-up shows in some store, and without one there is no difference.
fn selftest(count: u64) -> bool {
    let mut good = true;
    for (name, fault) in FAULTS {
        let reading = Reading { fault: Some(fault) };
        match first_difference(&reading, 1, count) {
            None => {
                println!("{name}: NOT FOUND");
                good = false;
            }
            Some(words) if fault == Fault::LowestIssue => print!("{name}: found in {words}"),
            Some(words) => println!("{name}: found in {}", words.lines().next().unwrap_or("")),
        }
    }
    match first_difference(&Reading { fault: None }, 1, count) {
        None => println!("without a fault: no difference"),
        Some(words) => {
            print!("WITHOUT A FAULT: {words}");
            good = false;
        }
    }
    good
}

fn number(word: &str) -> Result<u64, String> {
    word.parse().map_err(|error| format!("{word}: {error}"))
}

fn run(words: &[&str]) -> Result<bool, String> {
    match words {
        ["compare", _, _, name] if PROFILES.iter().all(|p| p.0 != *name) => {
            let names: Vec<&str> = PROFILES.iter().map(|p| p.0).collect();
            Err(format!("profiles of stores: {}", names.join(" ")))
        }
        ["compare", seed, count, rest @ ..] if rest.len() < 2 => {
            compare(number(seed)?, number(count)?, rest.first().copied())
        }
        ["selftest"] => Ok(selftest(2_000)),
        ["selftest", count] => Ok(selftest(number(count)?)),
        _ => Err(USAGE.into()),
    }
}

fn main() -> ExitCode {
    let args: Vec<String> = std::env::args().skip(1).collect();
    let words: Vec<&str> = args.iter().map(String::as_str).collect();
    match run(&words) {
        Ok(true) => ExitCode::SUCCESS,
        Ok(false) => ExitCode::FAILURE,
        Err(message) => {
            eprintln!("{message}");
            ExitCode::from(2)
        }
    }
}
