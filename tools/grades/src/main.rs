//! The proved grader and the second one on the same sheets and choices: numbers, offsets, grades, and what is left in every lent place
//! (`tools/compare --grades`). The cells of a sheet are those of the library's pass, which tools/oracle holds to the published Rust.

mod lent;

use std::process::ExitCode;

use lent::{Call, Left, Second, WRITINGS, library};
use sheetgen::grade::{FAULTS, Grader, Matrix, solve};
use sheetgen::grades::{WAYS, Way, sent};
use sheetgen::rng::Rng;
use sheetgen::shrink::shrink;
use sheetgen::{Refusal, generate};

const USAGE: &str = "\
grades compare SEED COUNT [PROFILE]   COUNT sheets of each profile, each with choices and prices of four ways
grades selftest [COUNT]               second graders that are wrong on purpose must be found out, in COUNT sheets a profile";

/// How many ways each sheet is tried.
const TRIES: u64 = 4;

/// A profile's sheets and their source.
struct Place {
    profile: generate::Profile,
    seed: u64,
    index: u64,
    way: Way,
    number: u64,
}

impl Place {
    /// The first way is that of a least choice with the prices that show it; the others are in turn.
    fn new(profile: generate::Profile, seed: u64, index: u64, number: u64) -> Self {
        let turn = index * (TRIES - 1) + number;
        let way = match number {
            0 => Way::Shown,
            _ => WAYS[(turn % WAYS.len() as u64) as usize].1,
        };
        Self {
            profile,
            seed,
            index,
            way,
            number,
        }
    }

    fn sheet(&self) -> Vec<u8> {
        generate::generate(self.profile, self.seed, self.index)
    }

    /// What is sent with a sheet of these cells; the same numbers for one that was shrunk.
    fn call(&self, sheet: &[u8], cells: Result<&Matrix, Refusal>) -> Call {
        let none = Matrix::default();
        let source = 3_000 + 100 * self.number + self.way as u64;
        let mut rng = Rng::new(self.seed ^ self.profile as u64, source, self.index);
        let sent = sent(&mut rng, self.way, cells.unwrap_or(&none));
        Call {
            sheet: sheet.to_vec(),
            sent,
        }
    }
}

/// The cells of a sheet, or its refusal by the reader of sheetgen.
fn cells(sheet: &[u8]) -> Result<Matrix, Refusal> {
    let refusal = sheetgen::read(sheet);
    let pass = dispatch_bench::pass(sheet);
    assert_eq!(
        refusal.is_some(),
        pass.is_err(),
        "the library and the reader of sheetgen differ"
    );
    match (refusal, pass) {
        (None, Ok(pass)) => Ok(Matrix {
            cars: pass.cars,
            stops: pass.stops,
            cells: pass.matrix,
        }),
        (Some(refusal), _) => Err(refusal),
        (None, Err(_)) => unreachable!(),
    }
}

/// What is wrong with the library's answer, by document 02's sentences on it alone.
fn broken(
    call: &Call,
    cells: Result<&Matrix, Refusal>,
    way: Way,
    found: &Left,
) -> Option<&'static str> {
    let Ok(matrix) = cells else { return None };
    if found.number != 0 {
        return None;
    }
    let is_least = matrix.total(&call.sent.columns) == solve(matrix).total;
    match (found.least, is_least) {
        (1, false) => Some("what it calls least is not least"),
        (0, true) if way == Way::Shown || way == Way::AnotherLeast => {
            Some("a least choice with a solver's prices is not shown")
        }
        _ => None,
    }
}

/// What differs at a place, of its sheet or of one that was shrunk from it, in words.
fn difference(place: &Place, sheet: &[u8], second: &Second) -> (Left, Option<String>) {
    let cells = cells(sheet);
    let cells = cells.as_ref().map_err(|refusal| *refusal);
    let call = place.call(sheet, cells);
    let (found, wanted) = (library(&call), second.left(&call, cells));
    let law = broken(&call, cells, place.way, &found);
    let words = match (law, found == wanted) {
        (None, true) => None,
        (law, _) => Some(describe(
            &call,
            cells,
            &found,
            &wanted,
            law.unwrap_or("they differ"),
        )),
    };
    (found, words)
}

fn describe(
    call: &Call,
    cells: Result<&Matrix, Refusal>,
    found: &Left,
    wanted: &Left,
    what: &str,
) -> String {
    let mut lines = format!(
        "  {what}\n  sheet: {}\n",
        sheetgen::describe::hex(&call.sheet)
    );
    match cells {
        Err(refusal) => lines += &format!("  refused {} at {}\n", refusal.number, refusal.offset),
        Ok(matrix) => {
            lines += &format!(
                "  {} cars, {} stops, cells {:?}\n",
                matrix.cars, matrix.stops, matrix.cells
            );
        }
    }
    lines += &format!("  {:?}\n", call.sent);
    for (name, left) in [("library", found), ("second", wanted)] {
        let first = found
            .matrix
            .iter()
            .zip(&wanted.matrix)
            .position(|(a, b)| a != b);
        let cell = first.map_or(String::new(), |k| {
            format!(", cell {k} is {}", left.matrix[k])
        });
        lines += &format!(
            "  {name}: {} at {}, least {}{cell}\n",
            left.number, left.offset, left.least
        );
    }
    lines
}

/// The difference at a place with as small a sheet as still shows one.
fn shrunk(place: &Place, second: &Second) -> String {
    let least = shrink(&place.sheet(), &mut |sheet| {
        difference(place, sheet, second).1.is_some()
    });
    difference(place, &least, second).1.unwrap_or_default()
}

/// The profiles; of full sheets there are fewer.
fn counts(count: u64) -> Vec<(&'static str, generate::Profile, u64)> {
    let of = |(name, profile): &(&'static str, generate::Profile)| match profile {
        generate::Profile::Full => (*name, *profile, count.div_ceil(20)),
        _ => (*name, *profile, count),
    };
    generate::PROFILES.iter().map(of).collect()
}

/// The first difference of any profile, in words.
fn first_difference(second: &Second, seed: u64, count: u64) -> Option<String> {
    for (name, profile, count) in counts(count) {
        for (index, number) in (0..count).flat_map(|i| (0..TRIES).map(move |t| (i, t))) {
            let place = Place::new(profile, seed, index, number);
            if difference(&place, &place.sheet(), second).1.is_some() {
                let words = shrunk(&place, second);
                return Some(format!("{name} {seed} {index}, {:?}\n{words}", place.way));
            }
        }
    }
    None
}

/// The kinds of answers, in the table's order.
const ANSWERS: [&str; 6] = ["least", "not shown", "1", "2 to 16", "19", "20"];

fn kind(left: &Left) -> Result<usize, String> {
    match (left.number, left.least) {
        (0, 1) => Ok(0),
        (0, 0) => Ok(1),
        (1, _) => Ok(2),
        (2..=16, _) => Ok(3),
        (19, _) => Ok(4),
        (20, _) => Ok(5),
        (number, _) => Err(format!("{number} is no answer of a grader")),
    }
}

fn row(name: &str, counts: &[u64]) {
    let counts: String = counts.iter().map(|count| format!("{count:>11}")).collect();
    println!("{name:20}{counts}");
}

fn head(name: &str) {
    let names: String = ANSWERS.iter().map(|name| format!("{name:>11}")).collect();
    println!("{name:20}{names}");
}

/// The answers of each profile, and of each way, by kind; whether all were the same.
fn compare(seed: u64, count: u64, only: Option<&str>) -> Result<bool, String> {
    let second = Second {
        grader: Grader { fault: None },
        writing: None,
    };
    let mut all = [0; ANSWERS.len()];
    let mut of_ways = vec![[0; ANSWERS.len()]; WAYS.len()];
    println!(
        "seed {seed}, {count} sheets a profile, each with {TRIES} choices; how many are answered by each"
    );
    head("profile");
    for (name, profile, count) in counts(count) {
        if only.is_some_and(|only| only != name) {
            continue;
        }
        let mut seen = [0; ANSWERS.len()];
        for index in 0..count {
            let sheet = Place::new(profile, seed, index, 0).sheet();
            for number in 0..TRIES {
                let place = Place::new(profile, seed, index, number);
                let (found, words) = difference(&place, &sheet, &second);
                if words.is_some() {
                    print!(
                        "DIFFERENCE: {name} {seed} {index}, {:?}\n{}",
                        place.way,
                        shrunk(&place, &second)
                    );
                    return Ok(false);
                }
                let kind = kind(&found)?;
                seen[kind] += 1;
                of_ways[place.way as usize][kind] += 1;
            }
        }
        row(name, &seen);
        all.iter_mut()
            .zip(seen)
            .for_each(|(sum, counted)| *sum += counted);
    }
    row("all", &all);
    head("way");
    for ((name, _), seen) in WAYS.iter().zip(&of_ways) {
        row(name, seen);
    }
    println!("{} choices, no difference", all.iter().sum::<u64>());
    let unseen: Vec<&str> = (0..ANSWERS.len())
        .filter(|k| all[*k] == 0)
        .map(|k| ANSWERS[k])
        .collect();
    if only.is_none() && !unseen.is_empty() {
        println!("NOT SEEN: {unseen:?}");
        return Ok(false);
    }
    Ok(true)
}

/// Each fault of the second grader shows in some call, and without one there is no difference.
fn selftest(count: u64) -> bool {
    let plain = FAULTS.iter().map(|(name, fault)| {
        let grader = Grader {
            fault: Some(*fault),
        };
        (
            *name,
            Second {
                grader,
                writing: None,
            },
        )
    });
    let written = WRITINGS.iter().map(|(name, writing)| {
        let grader = Grader { fault: None };
        (
            *name,
            Second {
                grader,
                writing: Some(*writing),
            },
        )
    });
    let mut good = true;
    for (k, (name, second)) in plain.chain(written).enumerate() {
        match first_difference(&second, 1, count) {
            None => {
                println!("{name}: NOT FOUND");
                good = false;
            }
            Some(words) if k == 0 => print!("{name}: found in {words}"),
            Some(words) => println!("{name}: found in {}", words.lines().next().unwrap_or("")),
        }
    }
    let second = Second {
        grader: Grader { fault: None },
        writing: None,
    };
    match first_difference(&second, 1, count) {
        None => println!("without a fault: no difference"),
        Some(words) => {
            print!("WITHOUT A FAULT: {words}");
            good = false;
        }
    }
    good
}

fn number(word: &str) -> Result<u64, String> {
    word.parse().map_err(|error| format!("{word}: {error}"))
}

fn run(words: &[&str]) -> Result<bool, String> {
    match words {
        ["compare", _, _, name] if generate::profile(name).is_none() => {
            let names: Vec<&str> = generate::PROFILES.iter().map(|p| p.0).collect();
            Err(format!("profiles: {}", names.join(" ")))
        }
        ["compare", seed, count, rest @ ..] if rest.len() < 2 => {
            compare(number(seed)?, number(count)?, rest.first().copied())
        }
        ["selftest"] => Ok(selftest(400)),
        ["selftest", count] => Ok(selftest(number(count)?)),
        _ => Err(USAGE.into()),
    }
}

fn main() -> ExitCode {
    let args: Vec<String> = std::env::args().skip(1).collect();
    let words: Vec<&str> = args.iter().map(String::as_str).collect();
    match run(&words) {
        Ok(true) => ExitCode::SUCCESS,
        Ok(false) => ExitCode::FAILURE,
        Err(message) => {
            eprintln!("{message}");
            ExitCode::from(2)
        }
    }
}
